//! The sides that are held against 000, and the count of what they were asked.

use crate::jobs::{each_plain_job, each_random_job, each_row};
use crate::newly::Counts;
use oracle::generate::{KEYHOLES, each_close_job};
use oracle::stage::{Before, Job, Outcome, Stage};
use oracle::text::{any_job_row, outcome_row};

/// A stage and its name.
pub type Side = (&'static str, Stage);

const BY_000: Side = ("000", oracle::job);

/// What the reference of single joins is held to 000 by, and the reference of the pointed mode.
pub const TRACED: Side = ("traced", oracle::traced::stage);

/// What is held against 000.
pub const SIDES: &[Side] = &[
    TRACED,
    #[cfg(feature = "proved")]
    PROVED,
];

#[cfg(feature = "proved")]
pub const PROVED: Side = ("proved", oracle::proved::job);

/// What is held against 000 in bulk: the proved code alone, where it is there.
#[cfg(feature = "proved")]
const IN_BULK: &[Side] = &[PROVED];
#[cfg(not(feature = "proved"))]
const IN_BULK: &[Side] = SIDES;

/// Differences are printed up to this many.
const SHOWN: u64 = 10;

/// The numbers of 01 §1: done, and six refusals.
const NUMBERS: usize = 7;

/// For each family, how many jobs were answered with each number.
#[derive(Default)]
pub struct Families(Vec<(&'static str, [u64; NUMBERS])>);

impl Families {
    pub fn count(&mut self, family: &'static str, number: usize) {
        if let Some(known) = self.0.iter_mut().find(|known| known.0 == family) {
            known.1[number] += 1;
        } else {
            let mut counts = [0; NUMBERS];
            counts[number] = 1;
            self.0.push((family, counts));
        }
    }

    /// How many of a family were answered with a number.
    #[cfg(feature = "proved")]
    pub fn of(&self, family: &str, number: usize) -> u64 {
        let known = self.0.iter().find(|known| known.0 == family);
        known.map_or(0, |known| known.1[number])
    }

    /// How many of all families were answered with each number.
    pub fn all(&self) -> [u64; NUMBERS] {
        let mut all = [0; NUMBERS];
        for (_, counts) in &self.0 {
            for (sum, count) in all.iter_mut().zip(counts) {
                *sum += count;
            }
        }
        all
    }

    pub fn print(&self, what: &str) {
        println!("{what}: in all; answered 0, 1, .. 6");
        for (name, counts) in &self.0 {
            print_counts(name, counts);
        }
        print_counts("all", &self.all());
    }
}

/// For each number, which patterns the buffers held before a job that it answers.
#[derive(Default)]
pub struct Patterns([[bool; Before::PATTERNS]; NUMBERS]);

impl Patterns {
    pub fn count(&mut self, before: Before, number: usize) {
        self.0[number][before.which()] = true;
    }

    pub fn print(&self) {
        let lent = self.0.map(|some| some.iter().filter(|l| **l).count());
        let lent = lent.map(|count| format!(" {count}")).concat();
        let of = Before::PATTERNS;
        println!("patterns lent, of {of}, to jobs answered 0, 1, .. 6:{lent}");
    }
}

#[derive(Default)]
pub struct Tally {
    families: Families,
    lent: Patterns,
    newly: Counts,
    pub jobs: u64,
    pub differing: u64,
}

impl Tally {
    /// Runs a job on 000 and on each of the sides. What no side may touch is held to what it was
    /// too, so that 000's own run can change nothing there.
    pub fn hold(&mut self, family: &'static str, job: &Job, sides: &[Side]) {
        self.outcome(family, job, sides);
    }

    /// The same, and hands back what 000 answers.
    pub fn outcome(&mut self, family: &'static str, job: &Job, sides: &[Side]) -> Outcome {
        self.outcome_by(BY_000, family, job, sides)
    }

    /// The same by another reference than 000.
    pub fn outcome_by(
        &mut self,
        reference: Side,
        family: &'static str,
        job: &Job,
        sides: &[Side],
    ) -> Outcome {
        let (by, stage) = reference;
        let expected = job.run_compared(stage);
        let number = expected.answer[0] as usize;
        self.jobs += 1;
        self.families.count(family, number);
        self.newly.count(job, &expected.answer);
        self.lent.count(job.before(), number);
        if !expected.keeps(job, job.before()) {
            let what = format!("{by} changes a place that stays");
            self.differ(&what, job, (by, &expected), &expected);
        }
        for (name, side) in sides {
            let outcome = job.run_compared(*side);
            if outcome != expected {
                self.differ(&format!("{name} differs"), job, (by, &expected), &outcome);
            }
        }
        expected
    }

    fn differ(&mut self, what: &str, job: &Job, expected: (&str, &Outcome), outcome: &Outcome) {
        self.differing += 1;
        if self.differing <= SHOWN {
            show(what, job, expected, outcome);
        }
    }

    pub fn print_families(&self) {
        self.families.print("jobs by family");
        self.lent.print();
    }

    pub fn print_newly(&self) {
        self.newly.print();
    }

    pub fn print_end(&self) {
        println!("{} jobs, {} differences", self.jobs, self.differing);
    }

    /// Prints all counts and says whether no side differed.
    fn agree(&self) -> bool {
        self.print_families();
        self.print_newly();
        self.print_end();
        self.differing == 0
    }
}

fn print_counts(name: &str, counts: &[u64; NUMBERS]) {
    let numbers = counts.map(|count| format!(" {count:>9}")).concat();
    println!("  {name:30} {:>10} {numbers}", counts.iter().sum::<u64>());
}

fn show(what: &str, job: &Job, (by, expected): (&str, &Outcome), outcome: &Outcome) {
    println!("{what}: {job:?}");
    println!("  job  {}", any_job_row(job));
    println!("  {by:4} {expected:?}");
    println!("  here {outcome:?}");
}

/// Runs the grids and random jobs of all families.
pub fn bulk(seed: u64, jobs: u64) -> bool {
    let mut tally = Tally::default();
    each_plain_job(seed, jobs, |family, job| tally.hold(family, job, IN_BULK));
    tally.agree()
}

/// Runs the close grid and random jobs of the families that 2026-02 let in.
pub fn keyholes(seed: u64, jobs: u64) -> bool {
    let mut tally = Tally::default();
    each_close_job(|job| tally.hold("close grid", &job, IN_BULK));
    each_random_job(KEYHOLES, seed, jobs, |family, job| {
        tally.hold(family, job, IN_BULK);
    });
    tally.agree()
}

/// Runs the jobs of standard input and prints what 000 answers.
pub fn rows() -> bool {
    let mut tally = Tally::default();
    let none = each_row(|job| {
        println!("{}", outcome_row(&job.run(oracle::job)));
        tally.hold("rows", job, SIDES);
    });
    tally.differing += none;
    tally.print_end();
    tally.differing == 0
}
