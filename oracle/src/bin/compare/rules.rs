//! Holds each join of a walk by itself: the proved code's cause, rules and numbers against those of the
//! traced job, which is held to 000 on the same jobs.

use crate::jobs::each_row;
use crate::layers::alike;
use crate::near::each_ruled_job;
use crate::sides::{TRACED, Tally};
use oracle::layers::{self, JoinTold};
use oracle::polyline::PlineVertex;
use oracle::stage::Job;
use oracle::text::{any_job_row, bits};
use oracle::traced::parts::{Fragment, Joined, joins};
use oracle::traced::{Rule, RuleTable};

/// Differences are printed up to this many.
const SHOWN: u64 = 10;

#[derive(Default)]
struct Joins {
    /// Holds the reference itself to 000.
    jobs: Tally,
    walks: u64,
    joins: u64,
    differing: u64,
    rules: RuleTable,
}

pub fn compare(seed: u64, random: u64, steered: u64) -> bool {
    let mut held = Joins::default();
    each_ruled_job(seed, random, steered, |family, job| held.hold(family, job));
    held.agree()
}

/// Runs the jobs of standard input.
pub fn rows() -> bool {
    let mut held = Joins::default();
    let none = each_row(|job| held.hold("rows", job));
    held.differing += none;
    held.agree()
}

impl Joins {
    fn hold(&mut self, family: &'static str, job: &Job) {
        self.jobs.hold(family, job, &[TRACED]);
        let Some(joins) = joins(job) else {
            return;
        };
        self.walks += 1;
        for (i, (fragment, join)) in joins.iter().enumerate() {
            self.joins += 1;
            self.rules.add(join.rules);
            let [b, c, d] = fragment.vertices;
            let proved = layers::join([before(job, &joins, i), b, c, d], job.offset, job.eps);
            let expected = told(join);
            if expected.0 != proved.0 || !alike(&expected.1, &proved.1) {
                self.differ(job, i, &expected, &proved);
            }
        }
    }

    fn differ(&mut self, job: &Job, join: usize, expected: &JoinTold, proved: &JoinTold) {
        self.differing += 1;
        if self.differing <= SHOWN {
            println!("join {join} differs: {job:?}");
            println!("  job    {}", any_job_row(job));
            println!("  traced {}", text(expected));
            println!("  proved {}", text(proved));
        }
    }

    /// Prints all counts and says whether nothing differed.
    fn agree(&self) -> bool {
        self.jobs.print_families();
        println!("rules by side: start, end, inside, past");
        self.rules.print("trimmed");
        println!("two arcs by the current one's rule: the next one's start, end, inside, past");
        self.rules.print_pairs("trimmed");
        for (side, counts) in self.rules.sides() {
            for rule in Rule::ALL {
                if counts[rule as usize] == 0 {
                    println!("never: {side} {}", rule.name());
                }
            }
        }
        let differing = self.differing + self.jobs.differing;
        println!("of the jobs {} are walked", self.walks);
        let (jobs, joins) = (self.jobs.jobs, self.joins);
        println!("{jobs} jobs, {joins} joins, {differing} differences");
        differing == 0
    }
}

/// The vertex before a join's three, so that the join before is made too. An open walk has none before
/// its first join, where the first vertex stands twice.
fn before(job: &Job, joins: &[(Fragment, Joined)], join: usize) -> PlineVertex {
    let earlier = match join {
        0 if job.closed => joins.len() - 1,
        0 => 0,
        _ => join - 1,
    };
    joins[earlier].0.vertices[0]
}

fn told(join: &Joined) -> JoinTold {
    let [current, next] = join.rules.map(Rule::number_of);
    (100 * join.number + 10 * current + next, join.numbers())
}

fn text((told, numbers): &JoinTold) -> String {
    let numbers = numbers.map(|number| format!(" {}", bits(number)));
    format!("{told:03}{}", numbers.concat())
}
