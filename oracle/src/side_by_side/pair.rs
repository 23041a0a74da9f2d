//! Two outputs as one value, and what is told of them with every place of the list's room as another.

use super::{Laid, ListLent, PairAnswer, bits, segments};
use crate::stage::{BEYOND, Before};
use std::ops::Range;

/// An output with lists of its own.
#[derive(Debug, Clone)]
pub struct Output {
    pub numbers: Vec<f64>,
    pub closed: bool,
    pub flags: Vec<u8>,
}

impl Output {
    pub fn laid(&self) -> Laid<'_> {
        Laid {
            numbers: &self.numbers,
            closed: self.closed,
            flags: &self.flags,
        }
    }

    pub fn vertices(&self) -> usize {
        self.laid().vertices()
    }

    /// As many flags as there are segments: some left out, or zeros after them.
    pub fn fit_flags(&mut self) {
        self.flags.resize(self.laid().segments(), 0);
    }

    /// The same with the other mark, and the last segment's flag left out or 0.
    pub fn with_other_mark(&self) -> Self {
        let mut output = self.clone();
        output.closed = !self.closed;
        output.fit_flags();
        output
    }
}

/// Where an output stands in the lists of a pair.
#[derive(Debug, Clone, PartialEq, Eq)]
pub struct At {
    pub closed: bool,
    pub numbers: Range<usize>,
    pub flags: Range<usize>,
}

/// Two outputs, in lists of which they may share places.
#[derive(Debug, Clone)]
pub struct Pair {
    pub numbers: Vec<f64>,
    pub flags: Vec<u8>,
    pub at: [At; 2],
    /// How many places are lent for vertex numbers and for fields.
    pub room: [usize; 2],
}

/// So many numbers, the first ones, have a part in which pattern is lent.
const LOOKED_AT: usize = 300;

/// What stands after the outputs' lists, and is none of theirs.
const AFTER_NUMBERS: f64 = 7.5;
const AFTER_FLAGS: u8 = 77;

/// An answer that no pair has.
const TORN: PairAnswer = [u32::MAX; 5];

/// The answer and every place after a call, those past what was lent too.
#[derive(Debug, Clone, PartialEq, Eq)]
pub struct Listed {
    pub answer: PairAnswer,
    pub numbers: Vec<u32>,
    pub fields: Vec<u8>,
}

impl Listed {
    /// An answer that leaves so many places, and those past them, as they were.
    pub fn untouched(answer: PairAnswer, before: Before, room: [usize; 2]) -> Self {
        let [numbers, fields] = room.map(|lent| lent + BEYOND);
        Self {
            answer,
            numbers: (0..numbers).map(|place| before.index(place)).collect(),
            fields: (0..fields).map(|place| before.flag(place)).collect(),
        }
    }
}

impl Pair {
    /// Two outputs with lists of their own, the second's right after the first's.
    pub fn apart(first: &Output, second: &Output, room: [usize; 2]) -> Self {
        let [numbers, flags] = [first.numbers.len(), first.flags.len()];
        let [all_numbers, all_flags] = [numbers + second.numbers.len(), flags + second.flags.len()];
        Self {
            numbers: [&*first.numbers, &second.numbers].concat(),
            flags: [&*first.flags, &second.flags].concat(),
            at: [
                At {
                    closed: first.closed,
                    numbers: 0..numbers,
                    flags: 0..flags,
                },
                At {
                    closed: second.closed,
                    numbers: numbers..all_numbers,
                    flags: flags..all_flags,
                },
            ],
            room,
        }
    }

    /// An output and itself, in the same places; or, with the other mark, as many flags of the same list
    /// as it has segments then.
    pub fn shared(output: &Output, other_mark: bool, room: [usize; 2]) -> Self {
        let mut flags = output.flags.clone();
        let first = At {
            closed: output.closed,
            numbers: 0..output.numbers.len(),
            flags: 0..flags.len(),
        };
        let mut second = first.clone();
        if other_mark {
            second.closed = !output.closed;
            second.flags.end = segments(output.vertices(), second.closed);
            flags.resize(flags.len().max(second.flags.end), 1);
        }
        Self {
            numbers: output.numbers.clone(),
            flags,
            at: [first, second],
            room,
        }
    }

    /// An output, and another that starts so many numbers and flags later in the same lists, as long as they go.
    pub fn overlapping(output: &Output, later: [usize; 2], closed: bool, room: [usize; 2]) -> Self {
        let mut pair = Self::shared(output, false, room);
        let second = &mut pair.at[1];
        second.closed = closed;
        second.numbers.start = later[0].min(second.numbers.end);
        second.numbers.end -= second.numbers.len() % 3;
        second.flags.start = later[1].min(second.flags.end);
        let flags = segments(second.numbers.len() / 3, closed);
        second.flags.end = second.flags.start + flags;
        let end = second.flags.end;
        pair.flags.resize(end.max(pair.flags.len()), 1);
        pair
    }

    pub fn outputs(&self) -> [Laid<'_>; 2] {
        self.at.each_ref().map(|at| Laid {
            numbers: &self.numbers[at.numbers.clone()],
            closed: at.closed,
            flags: &self.flags[at.flags.clone()],
        })
    }

    /// Both, with lists of their own.
    pub fn owned(&self) -> [Output; 2] {
        self.outputs().map(|laid| Output {
            numbers: laid.numbers.to_vec(),
            closed: laid.closed,
            flags: laid.flags.to_vec(),
        })
    }

    /// Whether both stand in the same places.
    pub fn is_shared(&self) -> bool {
        self.at[0].numbers == self.at[1].numbers && self.at[0].flags.start == self.at[1].flags.start
    }

    /// Whether both are the same output, looked at as a whole.
    pub fn is_equal(&self) -> bool {
        let [first, second] = self.outputs();
        let numbers = |laid: Laid| laid.numbers.iter().map(|number| bits(*number)).collect();
        let [these, those]: [Vec<u64>; 2] = [numbers(first), numbers(second)];
        these == those && first.flags == second.flags && first.closed == second.closed
    }

    /// The pattern that the comparison lends, by the bits of the pair, of a long one by some of them.
    pub fn before(&self) -> Before {
        let [first, second] = &self.at;
        let flags: usize = self.flags.iter().map(|flag| usize::from(*flag)).sum();
        let some = self.numbers.iter().take(LOOKED_AT);
        let by_numbers = Before::by(first.closed != second.closed, some);
        by_numbers.after(flags + self.room[0] + self.room[1])
    }

    /// Runs over a pattern, with places past what is lent. The outputs may not be written to: where they
    /// are, the answer is `TORN`.
    pub fn run(&self, side: impl Fn([Laid; 2], ListLent) -> PairAnswer) -> Listed {
        let given = Self {
            numbers: guarded(&self.numbers, AFTER_NUMBERS),
            flags: guarded(&self.flags, AFTER_FLAGS),
            at: self.at.clone(),
            room: self.room,
        };
        let mut listed = Listed::untouched(TORN, self.before(), self.room);
        let lent = ListLent {
            numbers: &mut listed.numbers[..self.room[0]],
            fields: &mut listed.fields[..self.room[1]],
        };
        let answer = side(given.outputs(), lent);
        let (numbers, after) = given.numbers.split_at(self.numbers.len());
        let (flags, after_flags) = given.flags.split_at(self.flags.len());
        let guards = after.iter().all(|number| *number == AFTER_NUMBERS)
            && after_flags.iter().all(|flag| *flag == AFTER_FLAGS);
        if guards && crate::columns::same(numbers, &self.numbers) && flags == self.flags {
            listed.answer = answer;
        }
        listed
    }
}

/// A list with places after it, unless it is empty.
fn guarded<T: Copy>(list: &[T], after: T) -> Vec<T> {
    match list {
        [] => Vec::new(),
        _ => [list, &[after; BEYOND]].concat(),
    }
}
