//! Two outputs with flags, laid side by side, and what is told of them: 02's 2026-03.

mod held;
mod other;
mod pair;
mod shorten;
mod tally;

pub use held::{Told, hold, hold_to};
pub use other::{Other, SAME, WRONG, Wrong};
pub use pair::{At, Listed, Output, Pair};
pub use shorten::shortened;
pub use tally::{Met, Tally};

/// Number, place, count of the list, vertices that only one has, and 1 where the closed marks differ.
pub type PairAnswer = [u32; 5];

/// An output as it is lent.
#[derive(Debug, Copy, Clone)]
pub struct Laid<'a> {
    /// Three a vertex.
    pub numbers: &'a [f64],
    pub closed: bool,
    /// One a segment.
    pub flags: &'a [u8],
}

/// Where the list goes: the number of a vertex, and in what it differs.
pub struct ListLent<'a> {
    pub numbers: &'a mut [u32],
    pub fields: &'a mut [u8],
}

/// What differs at a vertex: x, y, bulge, and the flag of the segment leaving it.
pub const FIELDS: [u8; 4] = [1, 2, 4, 8];

pub const MOST_VERTICES: usize = 12_288;

/// What the request asks for: whatever differs, or the first refusal.
pub fn side_by_side([first, second]: [Laid; 2], lent: ListLent) -> PairAnswer {
    for output in [first, second] {
        if output.is_ragged() {
            return refused(1);
        }
        if output.vertices() > MOST_VERTICES {
            return refused(2);
        }
    }
    let list = differing([first, second]);
    if lent.numbers.len() < list.len() || lent.fields.len() < list.len() {
        return refused(4);
    }
    for (place, (number, fields)) in list.iter().enumerate() {
        lent.numbers[place] = *number;
        lent.fields[place] = *fields;
    }
    let only_one = first.vertices().abs_diff(second.vertices());
    let marks = first.closed != second.closed;
    [0, 0, list.len() as u32, only_one as u32, marks.into()]
}

/// Among the vertices that both have, each that differs, and in what.
pub fn differing([first, second]: [Laid; 2]) -> Vec<(u32, u8)> {
    let both = first.vertices().min(second.vertices());
    let fields = |i| (i as u32, fields([first, second], i));
    (0..both).map(fields).filter(|entry| entry.1 != 0).collect()
}

/// What differs at a vertex that both have.
pub fn fields([first, second]: [Laid; 2], i: usize) -> u8 {
    let mut fields = 0;
    for (slot, field) in FIELDS[..3].iter().enumerate() {
        if bits(first.numbers[3 * i + slot]) != bits(second.numbers[3 * i + slot]) {
            fields |= field;
        }
    }
    if first.leaving(i) != second.leaving(i) {
        fields |= FIELDS[3];
    }
    fields
}

/// A number's bits. All NaNs are one: the language of the proved code has no other.
pub fn bits(number: f64) -> u64 {
    if number.is_nan() { f64::NAN } else { number }.to_bits()
}

fn refused(number: u32) -> PairAnswer {
    [number, 0, 0, 0, 0]
}

impl Laid<'_> {
    /// What is over of a ragged list is no vertex.
    pub fn vertices(&self) -> usize {
        self.numbers.len() / 3
    }

    pub fn segments(&self) -> usize {
        segments(self.vertices(), self.closed)
    }

    pub fn is_ragged(&self) -> bool {
        !self.numbers.len().is_multiple_of(3) || self.flags.len() != self.segments()
    }

    /// The flag of the segment leaving a vertex, 0 where none does.
    pub fn leaving(&self, i: usize) -> u8 {
        self.flags.get(i).copied().unwrap_or(0)
    }
}

/// How many segments so many vertices have.
pub fn segments(vertices: usize, closed: bool) -> usize {
    match vertices {
        0 | 1 => 0,
        v if closed => v,
        v => v - 1,
    }
}
