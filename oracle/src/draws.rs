//! Open jobs drawn vertex by vertex, 02's 2026-05: scripts of calls, whatever answers them, and what the
//! answers have to be.

mod held;
mod pencil;
mod reference;
mod shorten;
mod tally;

use crate::stage::{Answer, Before, Job, Lent, Places};
pub use held::{Difference, answers, hold};
pub use pencil::{Pencil, SAME, WRONG, Wrong};
pub use reference::Reference;
pub use shorten::shortened;
pub use tally::Tally;

/// What a job is started with.
#[derive(Debug, Copy, Clone, PartialEq)]
pub struct Settings {
    pub offset: f64,
    pub eps: f64,
    /// In the pointed mode, how far off a point may lie; none in the round mode.
    pub ratio: Option<f64>,
}

impl Settings {
    pub fn of(job: &Job) -> Self {
        Self {
            offset: job.offset,
            eps: job.eps,
            ratio: job.ratio,
        }
    }

    /// For how many segments a vertex needs room.
    pub fn each(&self) -> usize {
        if self.ratio.is_some() { 3 } else { 2 }
    }

    /// The open job of so many numbers as a whole, lent enough.
    pub fn whole(&self, source: &[f64]) -> Job {
        let job = Job::new(false, self.offset, self.eps, source.to_vec());
        self.ratio.map_or(job.clone(), |ratio| job.pointed(ratio))
    }
}

/// One step of a script.
#[derive(Debug, Clone, PartialEq)]
pub enum Call {
    Start(Settings),
    /// Three numbers a vertex, and how many places are lent.
    Draw(Vec<f64>, Places),
    End(Places),
    /// The record is copied. From here on each copy gets the same calls by turns.
    Copy,
    /// The record is filled by chance, from a seed; then no answer is known until a start.
    Garble(u64),
}

impl Call {
    pub fn numbers(&self) -> &[f64] {
        match self {
            Self::Draw(source, _) => source,
            _ => &[],
        }
    }

    pub fn room(&self) -> Places {
        match self {
            Self::Draw(_, room) | Self::End(room) => *room,
            _ => [0; 4],
        }
    }

    /// What the lent places hold before the call: by all its bits, so that a script that is printed and
    /// read again gets the same.
    pub fn before(&self) -> Before {
        let room = self.room().map(|places| places as f64);
        Before::by(false, self.numbers().iter().chain(&room))
    }
}

/// Calls for one record, which holds zeros at first.
pub type Script = Vec<Call>;

/// A record, and what answers the calls that are lent it. Of the five numbers the last is the count of
/// segments.
pub trait Pen: Clone {
    fn start(&mut self, settings: Settings) -> Answer;

    fn draw(&mut self, source: &[f64], lent: Lent) -> Answer;

    fn end(&mut self, lent: Lent) -> Answer;

    /// Whether two records hold the same, bit for bit.
    fn same(&self, other: &Self) -> bool;

    /// Changes each word of the record by its place, where it has any.
    fn garble(&mut self, _word: impl FnMut(usize, u32) -> u32) {}

    /// A job as a whole, by a form of its own.
    fn whole(&self, _job: &Job, _lent: Lent) -> Option<Answer> {
        None
    }
}
