//! The comparison that says what its jobs reach, and steers some of them to where a test turns.

use crate::jobs::each_job;
use crate::sides::{SIDES, Tally};
use oracle::stage::Job;
use oracle::traced::{Site, Table, Trace, job as traced_job};

/// Ties are looked into up to this many a test.
const TIES: u64 = 1000;

struct Reach {
    table: Table,
    /// For each test, how often its two numbers were equal and another answer would have changed
    /// the outcome: a side that asks `<` for `<=` is found by these.
    ties: Vec<u64>,
}

impl Reach {
    fn look(&mut self, job: &Job) {
        let mut trace = Trace::new();
        let outcome = traced_job(&mut trace, job);
        self.table.add(&trace);
        for (place, asked) in trace.path.iter().enumerate() {
            let ties = &mut self.ties[asked.site as usize];
            if asked.margin == 0.0
                && *ties < TIES
                && traced_job(&mut Trace::flipped(place), job) != outcome
            {
                *ties += 1;
            }
        }
    }
}

pub fn compare(seed: u64, random: u64, steered: u64) -> bool {
    let mut tally = Tally::default();
    let mut reach = Reach {
        table: Table::default(),
        ties: vec![0; Site::ALL.len()],
    };
    let steering = each_job(seed, random, steered, |family, job| {
        tally.hold(family, job, SIDES);
        reach.look(job);
    });
    tally.print_families();
    println!("steered turns: changing an answer, changing none; ties changing an answer");
    for site in Site::ROUND {
        let i = *site as usize;
        let (turns, idle) = (steering.turns[i], steering.idle[i]);
        let ties = reach.ties[i];
        println!("  {:44} {turns:>9} {idle:>9} {ties:>6}", site.text());
    }
    reach.table.print();
    tally.print_newly();
    tally.print_end();
    tally.differing == 0
}
