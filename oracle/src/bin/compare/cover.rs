//! A short list of small jobs that reaches all that many reach.

use crate::jobs::each_job;
use oracle::stage::Job;
use oracle::text::job_row;
use oracle::traced::{Event, Pair, Site, Trace, job as traced_job};

#[derive(Debug, Copy, Clone, PartialEq)]
enum Reached {
    Test(Site, bool),
    Event(Pair, Event),
}

impl Reached {
    fn text(self) -> String {
        match self {
            Self::Test(site, true) => format!("{}: yes", site.text()),
            Self::Test(site, false) => format!("{}: no", site.text()),
            Self::Event(Pair::NoJoin, event) => event.text().to_string(),
            Self::Event(pair, event) => format!("{} {}", pair.text(), event.text()),
        }
    }
}

/// What one job reaches: tests with their answers, and events.
fn reached(job: &Job) -> Vec<Reached> {
    let mut trace = Trace::new();
    traced_job(&mut trace, job);
    let tests = trace.path.iter().map(|a| Reached::Test(a.site, a.answer));
    let events = trace.events.iter().map(|e| Reached::Event(e.0, e.1));
    let mut all: Vec<Reached> = Vec::new();
    for one in tests.chain(events) {
        if !all.contains(&one) {
            all.push(one);
        }
    }
    all
}

/// Digits that a job's row takes. Open jobs of one join and of round numbers come first.
fn cost(job: &Job) -> usize {
    let digits = |x: f64| 1 + (52 - (x.to_bits().trailing_zeros() as usize).min(52)) / 4;
    let source: usize = job.source.iter().map(|x| 2 + digits(*x)).sum();
    let closed = if job.closed { 100 } else { 0 };
    let more = 30 * (job.source.len() / 3).saturating_sub(3);
    source + digits(job.offset) + digits(job.eps) + closed + more
}

/// Prints, for each thing reached, the cheapest job that reaches it.
pub fn cover(seed: u64, random: u64, steered: u64) {
    let mut best: Vec<(Reached, usize, Job)> = Vec::new();
    each_job(seed, random, steered, |_, job| {
        let standard = *job == Job::new(job.closed, job.offset, job.eps, job.source.clone());
        let ragged = !job.source.len().is_multiple_of(3);
        if !standard || ragged || job.source.len() > 21 {
            return;
        }
        let cost = cost(job);
        for one in reached(job) {
            match best.iter_mut().find(|known| known.0 == one) {
                None => best.push((one, cost, job.clone())),
                Some(known) if cost < known.1 => (known.1, known.2) = (cost, job.clone()),
                Some(_) => {}
            }
        }
    });
    let mut rows: Vec<(String, Vec<String>)> = Vec::new();
    for (one, _, job) in best {
        let row = job_row(&job);
        match rows.iter_mut().find(|known| known.0 == row) {
            Some(known) => known.1.push(one.text()),
            None => rows.push((row, vec![one.text()])),
        }
    }
    for (row, names) in rows {
        println!("# {}\n{row}", names.join("; "));
    }
}
