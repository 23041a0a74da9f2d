//! What is told of two outputs in another shape: nothing is kept of the list, which is gone through once to
//! count and once to write. And wrong readings of the request, each that shape with one thing changed.

mod refusals;
mod vertex;
mod wrong;

use super::{Laid, ListLent, PairAnswer};
pub use wrong::{SAME, WRONG, Wrong};

/// That shape, with one thing wrong or nothing.
#[derive(Debug, Copy, Clone)]
pub struct Other(Wrong);

impl Other {
    pub fn right() -> Self {
        Self(Wrong::Nothing)
    }

    pub fn by(wrong: Wrong) -> Self {
        Self(wrong)
    }

    pub fn answer(self, outputs: [Laid; 2], mut lent: ListLent) -> PairAnswer {
        let shared = is_shared(outputs);
        if shared && self.0 == Wrong::SharedEqual {
            return [0; 5];
        }
        if let Some(answer) = self.refusal(outputs, &mut lent) {
            return answer;
        }
        if shared && self.0 == Wrong::SharedEqualLater {
            return [0; 5];
        }
        self.write(outputs, &mut lent);
        self.write_past(self.entries(outputs), &mut lent);
        self.counts(outputs)
    }

    /// How many entries there are.
    fn entries(self, outputs: [Laid; 2]) -> usize {
        self.list(outputs).count()
    }

    /// The entries in turn.
    fn list(self, outputs: [Laid; 2]) -> impl Iterator<Item = (u32, u8)> {
        let [first, second] = outputs.map(|laid| laid.vertices());
        let both = first.min(second);
        let range = match self.0 {
            Wrong::FirstOut => 1.min(both)..both,
            Wrong::LastOut => 0..both.saturating_sub(1),
            Wrong::RestListed => 0..first.max(second),
            _ => 0..both,
        };
        let most = if self.0 == Wrong::FirstAlone {
            1
        } else {
            usize::MAX
        };
        let fields = move |i: usize| {
            if i < both {
                self.fields(outputs, i)
            } else {
                15
            }
        };
        let listed = move |(_, fields): &(usize, u8)| match self.0 {
            Wrong::AllListed => true,
            Wrong::FlagAloneOut => *fields & 7 != 0,
            _ => *fields != 0,
        };
        let found = range.map(move |i| (i, fields(i))).filter(listed);
        found
            .take(most)
            .map(move |(i, fields)| (self.number(i), self.told(fields)))
    }

    fn number(self, i: usize) -> u32 {
        match self.0 {
            Wrong::FromOne => i as u32 + 1,
            Wrong::NumberOfNumbers => 3 * i as u32,
            Wrong::NumberByte => u32::from(i as u8),
            _ => i as u32,
        }
    }

    /// What fits, which is all unless room was not asked for.
    fn write(self, outputs: [Laid; 2], lent: &mut ListLent) {
        let all = self.entries(outputs);
        for (place, (number, fields)) in self.list(outputs).enumerate() {
            let at = match self.0 {
                Wrong::Falling => all - 1 - place,
                _ => place,
            };
            let fields_at = match self.0 {
                Wrong::FieldsAtVertex => number as usize,
                _ => at,
            };
            if let Some(to) = lent.numbers.get_mut(at) {
                *to = number;
            }
            if let Some(to) = lent.fields.get_mut(fields_at) {
                *to = fields;
            }
        }
    }

    fn write_past(self, list: usize, lent: &mut ListLent) {
        let numbers = lent.numbers.iter_mut().skip(list);
        let fields = lent.fields.iter_mut().skip(list);
        let [more_numbers, more_fields] = match self.0 {
            Wrong::RestZeros => [usize::MAX; 2],
            Wrong::RestZeroNumbers => [usize::MAX, 0],
            Wrong::RestZeroFields => [0, usize::MAX],
            Wrong::Ended => [1; 2],
            _ => [0; 2],
        };
        numbers.take(more_numbers).for_each(|to| *to = 0);
        fields.take(more_fields).for_each(|to| *to = 0);
    }

    fn counts(self, outputs: [Laid; 2]) -> PairAnswer {
        let [first, second] = outputs.map(|laid| laid.vertices() as u32);
        let list = self.entries(outputs) as u32;
        let only_one = self.only_one(outputs);
        let count = match self.0 {
            Wrong::CountFields => self.list(outputs).map(|entry| entry.1.count_ones()).sum(),
            Wrong::CountBoth => first.min(second),
            Wrong::OnlyInCount => list + first.abs_diff(second),
            _ => list,
        };
        let marks = u32::from(self.marks(outputs));
        match self.0 {
            Wrong::MarksLast => [0, 0, count, marks, only_one],
            _ => [0, 0, count, only_one, marks],
        }
    }

    fn only_one(self, outputs: [Laid; 2]) -> u32 {
        let [first, second] = outputs.map(|laid| laid.vertices() as u32);
        let segments = outputs.map(|laid| laid.segments() as u32);
        let between = first.abs_diff(second);
        match self.0 {
            Wrong::OnlyFirst => first.saturating_sub(second),
            Wrong::OnlySecond => second.saturating_sub(first),
            Wrong::OnlySegments => segments[0].abs_diff(segments[1]),
            Wrong::OnlyNumbers => 3 * between,
            Wrong::OnlyWhether => between.min(1),
            Wrong::OnlyNone => 0,
            _ => between,
        }
    }

    fn marks(self, outputs: [Laid; 2]) -> bool {
        let [first, second] = outputs.map(|laid| laid.closed);
        match self.0 {
            Wrong::MarksEqual => first == second,
            Wrong::MarksFirst => first,
            Wrong::MarksSecond => second,
            Wrong::MarksBoth => first || second,
            Wrong::MarksNone => false,
            Wrong::MarksOfFew => first != second && outputs.iter().any(|laid| laid.vertices() > 1),
            _ => first != second,
        }
    }
}

/// Whether both are lent in the same places.
fn is_shared([first, second]: [Laid; 2]) -> bool {
    let same = first.numbers.as_ptr() == second.numbers.as_ptr();
    same && first.numbers.len() == second.numbers.len() && !first.numbers.is_empty()
}
