//! Holds what the proved code tells of each output segment, which move it is and why its flag is set or
//! clear, to the traced job, which is held to 000 on the same jobs.

use crate::jobs::each_row;
use crate::near::each_reasoned_job;
use crate::sides::{TRACED, Tally};
use oracle::proved::{self, WhyTold};
use oracle::stage::Job;
use oracle::text::{any_job_row, exact};
use oracle::traced::{Reason, Rule, Told, Whys, told, whys};

/// Differences are printed up to this many.
const SHOWN: u64 = 10;

/// Numbers of rules, 0 of none.
const RULES: usize = Rule::ALL.len() + 1;

/// Refusals have numbers up to this.
const LAST_REFUSAL: usize = 8;

#[derive(Default)]
struct Reasons {
    /// Holds the reference itself to 000.
    jobs: Tally,
    calls: u64,
    differing: u64,
    /// By number; none has 0.
    reasons: [u64; Reason::COUNT + 1],
    /// At the starts and at the ends of spans, by the rule's number, for each reason that a span has.
    rules: [[[u64; RULES]; 2]; 3],
    refused: [u64; LAST_REFUSAL + 1],
    /// Of the parameters told, pairs that are equal, and pairs with a −0.
    equal: u64,
    minus_zero: u64,
}

/// Runs the jobs that `rules` does, and as many of the families and near the samples made for reasons.
pub fn compare(seed: u64, random: u64, steered: u64) -> bool {
    let mut held = Reasons::default();
    each_reasoned_job(seed, random, steered, |family, job| held.hold(family, job));
    held.print_never();
    held.agree()
}

/// Runs the jobs of standard input.
pub fn rows() -> bool {
    let mut held = Reasons::default();
    let none = each_row(|job| held.hold("rows", job));
    held.differing += none;
    held.agree()
}

/// The number of each segment, and of none: the two after the last, and the largest.
fn numbers(whys: &Whys) -> impl Iterator<Item = u32> {
    let count = whys.as_ref().map_or(0, Vec::len) as u32;
    (0..=count + 1).chain([u32::MAX])
}

impl Reasons {
    fn hold(&mut self, family: &'static str, job: &Job) {
        // So that 000 does not ask for room either.
        let lent = Job::new(job.closed, job.offset, job.eps, job.source.clone());
        self.jobs.hold(family, &lent, &[TRACED]);
        let whys = whys(job);
        self.hold_to_000(&lent, &whys);
        for segment in numbers(&whys) {
            let expected = told(&whys, segment);
            self.count(&expected);
            let (answer, params) = expected;
            let expected = (answer, params.map(f64::to_bits));
            let proved = proved::why(job, segment);
            if proved != expected {
                self.differ(job, segment, &expected, &proved);
            }
        }
    }

    /// 000 tells the refusal, how many segments there are, and which of them are flagged.
    fn hold_to_000(&mut self, job: &Job, whys: &Whys) {
        let outcome = job.run(oracle::job);
        let reasons = whys.iter().flatten().map(|why| why.reason);
        let flags: Vec<u8> = reasons.map(|reason| reason.is_flagged().into()).collect();
        let refusal = whys.as_ref().err().copied().unwrap_or_default();
        if outcome.answer[..2] != refusal || outcome.drawn_flags() != flags {
            self.differing += 1;
            println!("traced reasons are not 000's: {}", any_job_row(job));
        }
    }

    fn count(&mut self, (answer, params): &Told) {
        self.calls += 1;
        let [number, _, _, _, reason, rules @ ..] = answer.map(|number| number as usize);
        if number != 0 {
            self.refused[number] += 1;
            return;
        }
        self.reasons[reason] += 1;
        if let Some(ends) = self.rules.get_mut(reason - 1) {
            for (counts, rule) in ends.iter_mut().zip(rules) {
                counts[rule] += 1;
            }
        }
        if reason == 2 {
            self.equal += u64::from(params[0] == params[1]);
            let minus_zero = |param: &f64| *param == 0.0 && param.is_sign_negative();
            self.minus_zero += u64::from(params.iter().any(minus_zero));
        }
    }

    fn differ(&mut self, job: &Job, segment: u32, expected: &WhyTold, proved: &WhyTold) {
        self.differing += 1;
        if self.differing <= SHOWN {
            println!("segment {segment} differs: {job:?}");
            println!("  job    {}", any_job_row(job));
            println!("  traced {}", text(expected));
            println!("  proved {}", text(proved));
        }
    }

    /// Prints which reasons were not reached, and which rules at either end of a span.
    fn print_never(&self) {
        for reason in Reason::KEPT {
            if self.reasons[reason] == 0 {
                println!("never: {}", Reason::NAMES[reason - 1]);
            }
        }
        for (end, name) in ["start", "end"].into_iter().enumerate() {
            for rule in Rule::ALL {
                let of = |ends: &[[u64; RULES]; 2]| ends[end][rule.number() as usize];
                if self.rules.iter().map(of).sum::<u64>() == 0 {
                    println!("never: a span's {name} by {}", rule.name());
                }
            }
        }
    }

    fn print_counts(&self) {
        println!("segments by reason");
        for (i, name) in Reason::NAMES.iter().enumerate() {
            println!("  {:>2} {name:32} {:>10}", i + 1, self.reasons[i + 1]);
        }
        println!("rules of spans: none, start, end, inside, past");
        for (ends, name) in self.rules.iter().zip(Reason::NAMES) {
            for (counts, end) in ends.iter().zip(["start", "end"]) {
                let counts = counts.map(|count| format!(" {count:>9}")).concat();
                println!("  {name:18} {end:6}{counts}");
            }
        }
        let (equal, minus_zero) = (self.equal, self.minus_zero);
        println!("turned back: {equal} with equal parameters, {minus_zero} with a -0");
        let refused = self.refused.map(|count| format!(" {count}")).concat();
        println!("calls refused by number, from 0:{refused}");
    }

    /// Prints all counts and says whether nothing differed and no meeting connector was kept.
    fn agree(&self) -> bool {
        self.jobs.print_families();
        self.print_counts();
        let meetings = self.reasons[Reason::Meeting.number() as usize];
        let differing = self.differing + self.jobs.differing + meetings;
        let (jobs, calls) = (self.jobs.jobs, self.calls);
        let segments: u64 = self.reasons.iter().sum();
        println!("{jobs} jobs, {segments} segments, {calls} calls, {differing} differences");
        differing == 0
    }
}

fn text((answer, params): &WhyTold) -> String {
    let answer = answer.map(|number| number.to_string()).join(" ");
    let [start, end] = params.map(|bits| exact(f64::from_bits(bits)));
    format!("{answer} {start} {end}")
}
