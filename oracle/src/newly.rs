//! Which of the jobs that are worked now 01 refused, before 02's 2026-02 amended its Nos. 3 and 5.

use crate::stage::Job;

/// What 01 refused a job for.
#[derive(Debug, Copy, Clone, PartialEq, Eq)]
pub enum Newly {
    /// A bulge above 1000 in size.
    Bulge,
    /// Joined vertices within ε.
    Short,
    Both,
}

/// Why 01 refused a job, if it did, of two vertices or more and answered now with 0 or 6.
pub fn newly_accepted(job: &Job, number: u32) -> Option<Newly> {
    if !matches!(number, 0 | 6) || job.source.len() < 6 {
        return None;
    }
    match (has_steep_bulge(job), has_short_segment(job)) {
        (true, true) => Some(Newly::Both),
        (true, false) => Some(Newly::Bulge),
        (false, true) => Some(Newly::Short),
        (false, false) => None,
    }
}

fn has_steep_bulge(job: &Job) -> bool {
    job.source.chunks(3).any(|vertex| vertex[2].abs() > 1000.0)
}

fn has_short_segment(job: &Job) -> bool {
    let within = |i: usize| {
        let next = (i + 1) % (job.source.len() / 3);
        let (from, to) = (&job.source[3 * i..], &job.source[3 * next..]);
        (from[0] - to[0]).abs() < job.eps && (from[1] - to[1]).abs() < job.eps
    };
    job.offset != 0.0 && (0..job.segments()).any(within)
}
