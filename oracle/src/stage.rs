//! A job as one value, its whole outcome as another, and what can work the one into the other.

mod before;

use crate::polyline::{PlineVertex, Polyline};
pub use before::Before;

/// Number, place, vertices, indexes, closed mark.
pub type Answer = [u32; 5];

/// How many places there are for numbers, flags, indexes and origins.
pub type Places = [usize; 4];

/// What is drawn once nothing refuses a job, before it goes into buffers of any layout. It may hold a
/// number that is not finite.
#[derive(Debug, Clone)]
pub struct Built {
    pub vertices: Vec<PlineVertex>,
    /// One for each segment, as are the origins.
    pub flags: Vec<bool>,
    pub indexes: Vec<u32>,
    pub origins: Vec<u32>,
    pub closed: bool,
}

/// Whatever works a job into the buffers that it is lent.
pub type Stage = fn(&Job, Lent) -> Answer;

#[derive(Debug, Clone, PartialEq)]
pub struct Job {
    /// Three numbers a vertex.
    pub source: Vec<f64>,
    pub closed: bool,
    pub offset: f64,
    pub eps: f64,
    /// In the pointed mode of 02's 2026-13, how far off a point may lie; none in the round mode.
    pub ratio: Option<f64>,
    /// How many places are lent.
    pub room: Places,
}

/// How many places more than a job needs are lent, unless it says otherwise.
pub const SPARE: usize = 1;

/// How many places past those that are lent the comparison looks at.
pub const BEYOND: usize = 3;

impl Job {
    /// A job of the round mode that is lent the places it needs and `SPARE` more of each kind.
    pub fn new(closed: bool, offset: f64, eps: f64, source: Vec<f64>) -> Self {
        let job = Self {
            source,
            closed,
            offset,
            eps,
            ratio: None,
            room: [0; 4],
        };
        job.lent_enough()
    }

    /// The same job in the pointed mode, lent what it needs there.
    pub fn pointed(&self, ratio: f64) -> Self {
        let ratio = Some(ratio);
        let job = Self {
            ratio,
            ..self.clone()
        };
        job.lent_enough()
    }

    /// The same job in the round mode, lent what it needs there.
    pub fn round(&self) -> Self {
        Self::new(self.closed, self.offset, self.eps, self.source.clone())
    }

    /// The same job, lent the places it needs and `SPARE` more of each kind.
    pub fn lent_enough(&self) -> Self {
        let mut job = self.clone();
        job.lend(job.need() + SPARE);
        job
    }

    /// 01 §1: n.
    pub fn segments(&self) -> usize {
        match self.source.len() / 3 {
            0 | 1 => 0,
            v if self.closed => v,
            v => v - 1,
        }
    }

    /// How many places of each kind it needs: 01's 2n, and 3n in the pointed mode.
    pub fn need(&self) -> usize {
        let each = if self.ratio.is_some() { 3 } else { 2 };
        each * self.segments()
    }

    /// How many numbers it has: offset, ε, the source, and the ratio last.
    pub fn numbers(&self) -> usize {
        2 + self.source.len() + usize::from(self.ratio.is_some())
    }

    pub fn number(&self, slot: usize) -> f64 {
        match slot {
            0 => self.offset,
            1 => self.eps,
            _ => *self.source.get(slot - 2).unwrap_or_else(|| self.last()),
        }
    }

    fn last(&self) -> &f64 {
        self.ratio.as_ref().expect("a slot of the job's own")
    }

    /// The same job with another number.
    pub fn with_number(&self, slot: usize, number: f64) -> Self {
        let mut job = self.clone();
        match slot {
            0 => job.offset = number,
            1 => job.eps = number,
            _ => match job.source.get_mut(slot - 2) {
                Some(place) => *place = number,
                None => job.ratio = Some(number),
            },
        }
        job
    }

    /// Lends places for `count` vertices, flags, indexes and origins.
    pub fn lend(&mut self, count: usize) {
        self.room = [3 * count, count, count, count];
    }

    /// The source, with what is over of a ragged one left out.
    pub fn polyline(&self) -> Polyline {
        let vertices = self.source.chunks_exact(3);
        Polyline {
            vertices: vertices
                .map(|n| PlineVertex::new(n[0], n[1], n[2]))
                .collect(),
            is_closed: self.closed,
        }
    }

    pub fn run(&self, stage: Stage) -> Outcome {
        self.run_among(self.room, stage)
    }

    /// Runs with buffers of so many places, of which the job is lent the first.
    pub fn run_among(&self, places: Places, stage: Stage) -> Outcome {
        self.run_over(Before::MARKS, places, stage)
    }

    /// Runs as the comparison does: over a pattern of the job's own, with places past what is lent.
    pub fn run_compared(&self, stage: Stage) -> Outcome {
        self.run_over(self.before(), self.room.map(|lent| lent + BEYOND), stage)
    }

    /// The pattern that the comparison lends: by all bits of the job, so that a job that is printed
    /// and read again gets the same.
    pub fn before(&self) -> Before {
        let numbers = [self.offset, self.eps];
        Before::by(
            self.closed,
            numbers.iter().chain(&self.source).chain(&self.ratio),
        )
    }

    pub fn run_over(&self, before: Before, places: Places, stage: Stage) -> Outcome {
        let mut buffers = Buffers::over(before, places);
        let answer = stage(self, buffers.lend(self.room));
        buffers.after(answer)
    }
}

/// What a job may write to: numbers, flags, indexes and origins.
pub struct Lent<'a> {
    pub vertices: &'a mut [f64],
    pub flags: &'a mut [u8],
    pub indexes: &'a mut [u32],
    pub origins: &'a mut [u32],
}

impl Lent<'_> {
    /// The same places, lent on.
    pub fn on(&mut self) -> Lent<'_> {
        Lent {
            vertices: self.vertices,
            flags: self.flags,
            indexes: self.indexes,
            origins: self.origins,
        }
    }
}

/// Places to lend.
pub struct Buffers {
    pub vertices: Vec<f64>,
    pub flags: Vec<u8>,
    pub indexes: Vec<u32>,
    pub origins: Vec<u32>,
}

impl Buffers {
    pub fn of(places: Places) -> Self {
        Self::over(Before::MARKS, places)
    }

    pub fn over(before: Before, [numbers, flags, indexes, origins]: Places) -> Self {
        let number = |place| f64::from_bits(before.number(place));
        Self {
            vertices: (0..numbers).map(number).collect(),
            flags: (0..flags).map(|place| before.flag(place)).collect(),
            indexes: (0..indexes).map(|place| before.index(place)).collect(),
            origins: (0..origins).map(|place| before.origin(place)).collect(),
        }
    }

    /// An answer, and what they hold then.
    pub fn after(self, answer: Answer) -> Outcome {
        Outcome {
            answer,
            vertices: self.vertices.into_iter().map(f64::to_bits).collect(),
            flags: self.flags,
            indexes: self.indexes,
            origins: self.origins,
        }
    }

    /// The first places of each kind.
    pub fn lend(&mut self, [numbers, flags, indexes, origins]: Places) -> Lent<'_> {
        Lent {
            vertices: &mut self.vertices[..numbers],
            flags: &mut self.flags[..flags],
            indexes: &mut self.indexes[..indexes],
            origins: &mut self.origins[..origins],
        }
    }
}

/// The answer and every lent place after a job, numbers by their bits.
#[derive(Debug, Clone, PartialEq, Eq)]
pub struct Outcome {
    pub answer: Answer,
    pub vertices: Vec<u64>,
    pub flags: Vec<u8>,
    pub indexes: Vec<u32>,
    /// 2s of the span of source segment s, 2s+1 of the connector after it.
    pub origins: Vec<u32>,
}

impl Outcome {
    /// An answer that leaves so many places of each kind as they were.
    pub fn untouched(answer: Answer, before: Before, places: Places) -> Self {
        let [numbers, flags, indexes, origins] = places;
        Self {
            answer,
            vertices: (0..numbers).map(|place| before.number(place)).collect(),
            flags: (0..flags).map(|place| before.flag(place)).collect(),
            indexes: (0..indexes).map(|place| before.index(place)).collect(),
            origins: (0..origins).map(|place| before.origin(place)).collect(),
        }
    }

    /// Whether each place that the job may not touch holds what it held: all of them after Nos. 1
    /// to 5 and without a segment, otherwise those past what it needs.
    pub fn keeps(&self, job: &Job, before: Before) -> bool {
        let set = match self.answer[0] {
            1..=5 => 0,
            _ => job.need(),
        };
        let mut numbers = self.vertices.iter().enumerate().skip(3 * set);
        let mut flags = self.flags.iter().enumerate().skip(set);
        let mut indexes = self.indexes.iter().enumerate().skip(set);
        let mut origins = self.origins.iter().enumerate().skip(set);
        numbers.all(|(place, bits)| *bits == before.number(place))
            && flags.all(|(place, flag)| *flag == before.flag(place))
            && indexes.all(|(place, index)| *index == before.index(place))
            && origins.all(|(place, origin)| *origin == before.origin(place))
    }

    /// The drawn vertices, as numbers.
    pub fn drawn(&self) -> Vec<[f64; 3]> {
        let count = self.answer[2] as usize;
        let vertices = self.vertices.chunks_exact(3).take(count);
        vertices
            .map(|n| [n[0], n[1], n[2]].map(f64::from_bits))
            .collect()
    }

    /// How many segments are drawn.
    pub fn segments(&self) -> usize {
        let [_, _, vertices, _, closed] = self.answer;
        let open = u32::from(closed == 0 && vertices > 0);
        (vertices - open) as usize
    }

    /// One flag for each drawn segment.
    pub fn drawn_flags(&self) -> &[u8] {
        &self.flags[..self.segments()]
    }

    /// One origin for each drawn segment.
    pub fn drawn_origins(&self) -> &[u32] {
        &self.origins[..self.segments()]
    }

    /// The drawn indexes.
    pub fn invalid(&self) -> &[u32] {
        &self.indexes[..self.answer[3] as usize]
    }
}
