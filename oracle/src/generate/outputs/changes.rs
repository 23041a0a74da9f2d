//! Changes of an output, small ones first of all.

use super::{PLAIN, Random, WILD, flag, number};
use crate::side_by_side::Output;

/// What is changed.
#[derive(Copy, Clone)]
pub enum Change {
    Bit,
    Sign,
    Number,
    FlagBit,
    Flag,
    Mark,
    MoreAtEnd,
    LessAtEnd,
    More,
    Less,
    Fields,
    Exchange,
    From,
}

const CHANGES: [Change; 17] = [
    Change::Bit,
    Change::Bit,
    Change::Sign,
    Change::Number,
    Change::FlagBit,
    Change::Flag,
    Change::Mark,
    Change::Mark,
    Change::MoreAtEnd,
    Change::LessAtEnd,
    Change::More,
    Change::Less,
    Change::Fields,
    Change::Fields,
    Change::Fields,
    Change::Exchange,
    Change::From,
];

/// The same output with a few changes, or none.
pub fn changed(random: &mut Random, first: &Output) -> Output {
    let mut output = first.clone();
    for _ in 0..random.pick(&[0, 1, 1, 1, 2, 3, 6]) {
        Change::any(random).make(random, &mut output);
    }
    output
}

impl Change {
    pub fn any(random: &mut Random) -> Self {
        random.pick(&CHANGES)
    }

    /// Makes the change, if there is anything to change.
    pub fn make(self, random: &mut Random, output: &mut Output) {
        let v = output.vertices();
        let i = random.below(v.max(1));
        let slot = 3 * i + random.below(3);
        match self {
            Self::Mark => {
                *output = output.with_other_mark();
                if let Some(last) = output.flags.last_mut() {
                    *last = flag(random);
                }
            }
            Self::MoreAtEnd => more(random, output, v),
            Self::More => more(random, output, i),
            _ if v == 0 => {}
            Self::Bit => turned(random, &mut output.numbers[slot]),
            Self::Sign => output.numbers[slot] = -output.numbers[slot],
            Self::Number => output.numbers[slot] = number(random, true),
            Self::FlagBit | Self::Flag => self.flag(random, output),
            Self::LessAtEnd => less(output, v - 1),
            Self::Less => less(output, i),
            Self::Fields => fields(random, output, i),
            Self::Exchange => output.numbers.swap(slot, 3 * i + random.below(3)),
            Self::From => {
                let to = v.min(i + 1 + random.below(8));
                (i..to).for_each(|i| fields(random, output, i));
            }
        }
    }

    fn flag(self, random: &mut Random, output: &mut Output) {
        if output.flags.is_empty() {
            return;
        }
        // the last one is that of the closing segment, if there is one
        let last = output.flags.len() - 1;
        let i = if random.one_in(3) {
            last
        } else {
            random.below(last + 1)
        };
        match self {
            Self::Flag => output.flags[i] = flag(random),
            _ => output.flags[i] ^= 1 << random.below(8),
        }
    }
}

/// Turns one bit, the lowest, the sign, or any.
pub fn turned(random: &mut Random, number: &mut f64) {
    let any = random.below(64);
    let bit = random.pick(&[0, 0, 31, 32, 63, any, any, any]);
    *number = f64::from_bits(number.to_bits() ^ 1 << bit);
}

/// Any of the four fields of a vertex, one at least.
fn fields(random: &mut Random, output: &mut Output, i: usize) {
    let which = 1 + random.below(15);
    for slot in (0..3).filter(|slot| which >> slot & 1 != 0) {
        match random.below(3) {
            0 => output.numbers[3 * i + slot] = number(random, true),
            _ => turned(random, &mut output.numbers[3 * i + slot]),
        }
    }
    if let Some(flag) = output.flags.get_mut(i).filter(|_| which & 8 != 0) {
        *flag ^= random.pick(&[1, 1, 2, 128, 255]);
    }
}

fn more(random: &mut Random, output: &mut Output, i: usize) {
    let vertex = [0; 3].map(|_| number(random, true));
    let at = i.min(output.flags.len());
    output.numbers.splice(3 * i..3 * i, vertex);
    output.flags.insert(at, flag(random));
    output.fit_flags();
}

fn less(output: &mut Output, i: usize) {
    output.numbers.drain(3 * i..3 * i + 3);
    if i < output.flags.len() {
        output.flags.remove(i);
    }
    output.fit_flags();
}

/// Numbers of unlike bits that may be taken for equal, or the other way round, at the same place of both.
pub fn differ_at(random: &mut Random, first: &mut Output, second: &mut Output) {
    let both = first.numbers.len().min(second.numbers.len());
    if both == 0 {
        return;
    }
    let slot = if random.one_in(4) {
        both - 1 - random.below(3)
    } else {
        random.below(both)
    };
    let plain = f64::from_bits(random.pick(&PLAIN));
    let [one, other] = [0; 2].map(|_| f64::from_bits(random.pick(&WILD)));
    let [these, those] = match random.below(6) {
        0 => [0.0, -0.0],
        1 => [one, other],
        2 => [one, plain],
        3 => [one, one],
        4 => [plain, f64::from_bits(plain.to_bits() ^ 1)],
        _ => {
            let nan = |random: &mut Random| {
                let payload = random.bits() & 0x800f_ffff_ffff_ffff;
                f64::from_bits(0x7ff0_0000_0000_0000 | payload | 1)
            };
            [nan(random), nan(random)]
        }
    };
    let turn = random.one_in(2);
    first.numbers[slot] = if turn { those } else { these };
    second.numbers[slot] = if turn { these } else { those };
}
