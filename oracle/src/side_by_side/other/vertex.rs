//! What differs at one vertex.

use super::super::{FIELDS, Laid};
use super::{Other, Wrong};

const NAN_QUIET: u64 = 1 << 51;

impl Other {
    pub(super) fn fields(self, outputs: [Laid; 2], i: usize) -> u8 {
        let [first, second] = outputs.map(|laid| &laid.numbers[3 * i..3 * i + 3]);
        let mut differs = [0, 1, 2].map(|slot| self.differ(first[slot], second[slot]));
        let last = |laid: &Laid| !laid.closed && i + 1 == laid.vertices();
        match self.0 {
            Wrong::XUntested => differs[0] = false,
            Wrong::YUntested => differs[1] = false,
            Wrong::BulgeUntested => differs[2] = false,
            Wrong::LastBulgeBoth => differs[2] &= !outputs.iter().all(last),
            Wrong::LastBulgeEither => differs[2] &= !outputs.iter().any(last),
            _ => {}
        }
        let [x, y, bulge] = differs;
        let fields = [x, y, bulge, self.flags_differ(outputs, i)];
        let set = FIELDS.iter().zip(fields);
        set.map(|(field, differs)| if differs { *field } else { 0 })
            .sum()
    }

    /// How fields are told in the list.
    pub(super) fn told(self, fields: u8) -> u8 {
        match self.0 {
            Wrong::FieldsSwapped => fields & 12 | (fields & 1) << 1 | (fields & 2) >> 1,
            Wrong::FieldsFlagFirst => (fields & 7) << 1 | fields >> 3,
            Wrong::FieldsReversed => fields.reverse_bits() >> 4,
            Wrong::FieldsShifted => fields << 1,
            Wrong::FieldsCount => fields.count_ones() as u8,
            Wrong::FieldsFirst => fields & fields.wrapping_neg(),
            Wrong::FieldsLast => 1 << fields.ilog2(),
            Wrong::FieldsAll => 15,
            _ => fields,
        }
    }

    fn differ(self, first: f64, second: f64) -> bool {
        let [a, b] = [first, second].map(f64::to_bits);
        let nans = [first, second].map(f64::is_nan);
        let alike = self.alike(first, second);
        match self.0 {
            Wrong::NanDiffers => nans == [true; 2] || a != b,
            Wrong::NanByBits => a != b,
            Wrong::NanBySign if nans == [true; 2] => (a ^ b) >> 63 != 0,
            Wrong::NanByQuiet if nans == [true; 2] => (a ^ b) & NAN_QUIET != 0,
            Wrong::NanAny => nans == [false; 2] && a != b,
            Wrong::NanMadeOne => {
                let one = |number: f64| if number.is_nan() { f64::NAN } else { number };
                one(first).to_bits() != one(second).to_bits()
            }
            _ => a != b && nans != [true; 2] && !alike,
        }
    }

    /// Numbers of unlike bits that a wrong reading takes for equal.
    fn alike(self, first: f64, second: f64) -> bool {
        let [a, b] = [first, second].map(f64::to_bits);
        let zero = |number: f64| {
            let small = number.is_subnormal();
            if small {
                0.0_f64.copysign(number)
            } else {
                number
            }
            .to_bits()
        };
        let one_nan = first.is_nan() != second.is_nan();
        match self.0 {
            Wrong::ZerosEqual => first == second,
            Wrong::SignsEqual => first.abs().to_bits() == second.abs().to_bits(),
            Wrong::NanInfinity => one_nan && (first.is_infinite() || second.is_infinite()),
            Wrong::InfinitiesEqual => first.is_infinite() && second.is_infinite(),
            Wrong::SubnormalsZero => zero(first) == zero(second),
            Wrong::Single => !one_nan && (first as f32).to_bits() == (second as f32).to_bits(),
            Wrong::Near => (first - second).abs() <= 1e-9 && first != second,
            Wrong::HighWord => a >> 32 == b >> 32,
            Wrong::LowWord => a as u32 == b as u32,
            _ => false,
        }
    }

    fn flags_differ(self, outputs: [Laid; 2], i: usize) -> bool {
        let [a, b] = outputs.map(|laid| self.flag(laid, i));
        let [has, other] = outputs.map(|laid| laid.flags.get(i).is_some());
        let last = outputs.iter().any(|laid| i + 1 == laid.vertices());
        match self.0 {
            Wrong::FlagsNone => false,
            Wrong::FlagsAsMarks => (a != 0) != (b != 0),
            Wrong::FlagsLowBit => (a ^ b) & 1 != 0,
            Wrong::FlagsOfBoth => has && other && a != b,
            Wrong::FlagMissing => has != other || a != b,
            Wrong::FlagLastUntested => !last && a != b,
            Wrong::FlagsOfMarks => outputs[0].closed == outputs[1].closed && a != b,
            _ => a != b,
        }
    }

    fn flag(self, laid: Laid, i: usize) -> u8 {
        let flag = |i: usize| laid.flags.get(i).copied();
        let last = i + 1 == laid.vertices();
        match self.0 {
            Wrong::FlagMissingOne => flag(i).unwrap_or(1),
            Wrong::FlagEntering if i == 0 && laid.closed => laid.flags.last().copied().unwrap_or(0),
            Wrong::FlagEntering => i.checked_sub(1).and_then(flag).unwrap_or(0),
            Wrong::FlagWraps if last => flag(i).or(flag(0)).unwrap_or(0),
            Wrong::FlagsClosed if last && !laid.closed => 0,
            _ => flag(i).unwrap_or(0),
        }
    }
}
