//! How many of the jobs 02's 2026-02 let in, and what became of them.

use oracle::newly::{Newly, newly_accepted};
use oracle::stage::{Answer, Job};

/// For each reason, how many jobs draw something, draw nothing, and are not finite.
#[derive(Default)]
pub struct Counts([[u64; 3]; 3]);

const REASONS: [&str; 3] = ["by a bulge alone", "by a short segment alone", "by both"];

impl Counts {
    pub fn count(&mut self, job: &Job, answer: &Answer) {
        let [number, _, vertices, ..] = *answer;
        if let Some(newly) = newly_accepted(job, number) {
            let reason = match newly {
                Newly::Bulge => 0,
                Newly::Short => 1,
                Newly::Both => 2,
            };
            let outcome = match (number, vertices) {
                (6, _) => 2,
                (_, 0) => 1,
                _ => 0,
            };
            self.0[reason][outcome] += 1;
        }
    }

    pub fn print(&self) {
        let mut all = [0; 3];
        for counts in &self.0 {
            for (sum, count) in all.iter_mut().zip(counts) {
                *sum += count;
            }
        }
        println!("newly accepted by 2026-02: {}", text(all));
        for (reason, counts) in REASONS.iter().zip(self.0) {
            println!("  {reason}: {}", text(counts));
        }
    }
}

fn text([drawn, empty, not_finite]: [u64; 3]) -> String {
    let done = drawn + empty;
    let jobs = done + not_finite;
    format!("{jobs} jobs, of them {done} done ({empty} empty), {not_finite} not finite (No. 6)")
}
