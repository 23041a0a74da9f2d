//! Jobs in columns, 02's 2026-08: x, y and bulges each in a list of its own, in the source and in what is
//! lent.

#[cfg(with_000)]
mod reference;

use crate::stage::{Answer, Before, Buffers, Job};
use crate::text::exact;
#[cfg(with_000)]
pub use reference::{Verdict, job};
use std::array;
use std::ops::Range;

/// How many places there are for x, y, bulges, flags, indexes and origins.
pub type ColumnPlaces = [usize; 6];

/// Whatever works a job in columns into the buffers that it is lent.
pub type ColumnStage = fn(&Columns, ColumnLent) -> Answer;

/// A job, without what it is lent.
#[derive(Debug, Clone, PartialEq)]
pub struct Columns {
    /// What the columns lie in. They may share places.
    pub numbers: Vec<f64>,
    /// Where x, y and bulges lie in it.
    pub at: [Range<usize>; 3],
    pub closed: bool,
    pub offset: f64,
    pub eps: f64,
    /// In the pointed mode, how far off a point may lie; none in the round mode.
    pub ratio: Option<f64>,
}

impl Columns {
    /// The columns of a list of rows: of a ragged one they are unequal.
    pub fn of(job: &Job) -> Self {
        let column = |k| job.source.iter().skip(k).step_by(3).copied();
        let lists = [0, 1, 2].map(|k| column(k).collect());
        let job = Self {
            numbers: Vec::new(),
            at: [0..0, 0..0, 0..0],
            closed: job.closed,
            offset: job.offset,
            eps: job.eps,
            ratio: job.ratio,
        };
        job.with_columns(&lists)
    }

    /// The same job with other columns, which share no place.
    pub fn with_columns(&self, lists: &[Vec<f64>; 3]) -> Self {
        let mut start = 0;
        let at = lists.each_ref().map(|list| {
            let from = start;
            start += list.len();
            from..start
        });
        Self {
            numbers: lists.concat(),
            at,
            ..*self
        }
    }

    /// x, y and bulges.
    pub fn source(&self) -> [&[f64]; 3] {
        self.at.each_ref().map(|at| &self.numbers[at.clone()])
    }

    /// The same as lists of their own.
    pub fn lists(&self) -> [Vec<f64>; 3] {
        self.source().map(<[f64]>::to_vec)
    }

    /// The list of rows that stands for it, lent nothing: of unequal columns one with a number over.
    pub fn rows(&self) -> Job {
        let [xs, ys, bulges] = self.source();
        let vertices = xs.iter().zip(ys).zip(bulges);
        let vertices = vertices.flat_map(|((x, y), bulge)| [*x, *y, *bulge]);
        let is_ragged = ys.len() != xs.len() || bulges.len() != xs.len();
        Job {
            source: vertices.chain(is_ragged.then_some(0.0)).collect(),
            closed: self.closed,
            offset: self.offset,
            eps: self.eps,
            ratio: self.ratio,
            room: [0; 4],
        }
    }

    /// The patterns that the comparison lends x, y and bulges, by all bits of the job. Flags, indexes and
    /// origins have the first.
    pub fn before(&self) -> [Before; 3] {
        let numbers = [self.offset, self.eps];
        let numbers = numbers.iter().chain(&self.numbers).chain(&self.ratio);
        let first = Before::by(self.closed, numbers);
        [0, 11, 22].map(|count| first.after(count))
    }
}

/// What a job may write to.
pub struct ColumnLent<'a> {
    pub xs: &'a mut [f64],
    pub ys: &'a mut [f64],
    pub bulges: &'a mut [f64],
    pub flags: &'a mut [u8],
    pub indexes: &'a mut [u32],
    pub origins: &'a mut [u32],
}

impl ColumnLent<'_> {
    /// The same places, lent on.
    pub fn on(&mut self) -> ColumnLent<'_> {
        ColumnLent {
            xs: self.xs,
            ys: self.ys,
            bulges: self.bulges,
            flags: self.flags,
            indexes: self.indexes,
            origins: self.origins,
        }
    }
}

/// Places to lend.
#[derive(Debug, Clone)]
pub struct ColumnBuffers {
    /// x, y and bulges.
    pub numbers: [Vec<f64>; 3],
    pub flags: Vec<u8>,
    pub indexes: Vec<u32>,
    pub origins: Vec<u32>,
}

/// Bit for bit: a NaN is itself alone.
pub fn same(a: &[f64], b: &[f64]) -> bool {
    let bits = |number: &f64| number.to_bits();
    a.len() == b.len() && a.iter().map(bits).eq(b.iter().map(bits))
}

impl PartialEq for ColumnBuffers {
    fn eq(&self, other: &Self) -> bool {
        let mut numbers = self.numbers.iter().zip(&other.numbers);
        numbers.all(|(a, b)| same(a, b))
            && self.flags == other.flags
            && self.indexes == other.indexes
            && self.origins == other.origins
    }
}

impl ColumnBuffers {
    pub fn over(before: [Before; 3], places: ColumnPlaces) -> Self {
        let [.., flags, indexes, origins] = places;
        let column = |k: usize| {
            let bits = (0..places[k]).map(|place| before[k].number(place));
            bits.map(f64::from_bits).collect()
        };
        Self {
            numbers: array::from_fn(column),
            flags: (0..flags).map(|place| before[0].flag(place)).collect(),
            indexes: (0..indexes).map(|place| before[0].index(place)).collect(),
            origins: (0..origins).map(|place| before[0].origin(place)).collect(),
        }
    }

    /// The first places of each kind.
    pub fn lend(&mut self, room: ColumnPlaces) -> ColumnLent<'_> {
        let [xs, ys, bulges] = &mut self.numbers;
        ColumnLent {
            xs: &mut xs[..room[0]],
            ys: &mut ys[..room[1]],
            bulges: &mut bulges[..room[2]],
            flags: &mut self.flags[..room[3]],
            indexes: &mut self.indexes[..room[4]],
            origins: &mut self.origins[..room[5]],
        }
    }

    /// Where another's places differ first, in words.
    pub fn first_difference(&self, other: &Self) -> String {
        let words = |buffers: &Self| {
            let numbers = buffers.numbers.each_ref();
            let [xs, ys, bulges] = numbers.map(|list| list.iter().map(|x| exact(*x)).collect());
            let flags: Vec<String> = buffers.flags.iter().map(u8::to_string).collect();
            let [indexes, origins] = [&buffers.indexes, &buffers.origins]
                .map(|list| list.iter().map(u32::to_string).collect());
            [xs, ys, bulges, flags, indexes, origins]
        };
        let kinds = ["x", "y", "bulge", "flag", "index", "origin"];
        for ((kind, mine), others) in kinds.iter().zip(words(self)).zip(words(other)) {
            let mut pairs = mine.iter().zip(&others).enumerate();
            if let Some((place, (a, b))) = pairs.find(|(_, (a, b))| a != b) {
                return format!("{kind} {place} is {b} for {a}");
            }
        }
        "no place differs".to_owned()
    }

    /// The same as rows, of as many vertices as each column has a place for.
    pub fn rows(&self) -> Buffers {
        let [xs, ys, bulges] = &self.numbers;
        let vertices = xs.iter().zip(ys).zip(bulges);
        Buffers {
            vertices: vertices
                .flat_map(|((x, y), bulge)| [*x, *y, *bulge])
                .collect(),
            flags: self.flags.clone(),
            indexes: self.indexes.clone(),
            origins: self.origins.clone(),
        }
    }
}
