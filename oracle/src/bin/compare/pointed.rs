//! Holds the pointed mode of the proved code to the traced job: whole outcomes, what is told of each output
//! segment, and each source segment's part. What 02's 2026-13 leaves as it was is held to 000: all of a
//! job without a point, and all but the points of one with them.

use crate::jobs::{each_line, each_random_job, samples, steer};
use crate::near::each_near_sample;
use crate::sides::{PROVED, TRACED, Tally};
use oracle::generate::{POINTED as FAMILIES, Steering, each_short_job};
use oracle::part::{Output, PartAnswer};
use oracle::proved;
use oracle::stage::{Job, Outcome};
use oracle::text::{any_job_row, read_job};
use oracle::traced::{
    Event, POINTED as EVENTS, Reason, Site, Table, Told, Trace, job as traced_job, told, whys,
};

/// Differences are printed up to this many.
const SHOWN: u64 = 10;

/// One job in so many is lent too little.
const PER_ROOM: u64 = 4;

/// For so many random jobs there is one near a sample.
const PER_SAMPLE: u64 = 10;

/// Of a long output about so many segments are asked for.
const MOST_ASKED: usize = 64;

/// Refusals of a question have numbers up to this.
const LAST_REFUSAL: usize = 13;

/// Jobs for each settled point and each branch.
pub const SAMPLES: &str = include_str!("../samples/pointed.txt");

/// The ratios that the jobs of the grid get by turns.
pub const RATIOS: [f64; 4] = [1.0, std::f64::consts::SQRT_2, 2.0, 10.0];

/// One family for each buffer that is lent one place too few.
const SHORT: [&str; 4] = [
    "one number too few",
    "one flag too few",
    "one index too few",
    "one origin too few",
];

/// How a job stands to 000's drawing of it.
#[derive(Copy, Clone)]
enum Likeness {
    /// Without a point it is the same.
    Same,
    /// But for its points it is the same.
    ButForPoints,
    /// A pair is not kept as a whole, or a number is not finite.
    Other,
    Refused,
}

#[derive(Default)]
struct Pointed {
    jobs: Tally,
    table: Table,
    /// By `Likeness`.
    likeness: [u64; 4],
    /// Jobs that draw more than 2n vertices, and those that draw all 3n.
    beyond: u64,
    full: u64,
    /// Calls for reasons by reason, none having 0, and by refusal.
    reasons: [u64; Reason::COUNT + 1],
    unanswered: [u64; LAST_REFUSAL + 1],
    /// Calls for parts by how many segments were found, and those refused.
    parts: [u64; 4],
    no_part: u64,
    /// Jobs refused for one place too few, by the buffer, and done with just enough.
    short: [u64; 4],
    enough: u64,
    differing: u64,
}

/// Runs the samples and jobs near them, the grid, RANDOM random jobs and about STEERED steered ones.
pub fn compare(seed: u64, random: u64, steered: u64) -> bool {
    let mut held = Pointed::default();
    let mut turn = 0_u64;
    let mut take = |family: &'static str, job: &Job| {
        held.hold(family, job);
        if turn.is_multiple_of(PER_ROOM) {
            held.hold_rooms(job);
        }
        turn += 1;
    };
    for job in samples(SAMPLES) {
        take("samples", &job);
    }
    for v in [0, 1, 2, 4096, 4097] {
        turning(v).iter().for_each(|job| take("at the limits", job));
    }
    each_near_sample(SAMPLES, seed, random / PER_SAMPLE, &mut take);
    let mut ratios = RATIOS.into_iter().cycle();
    each_short_job(|job| take("grid", &job.pointed(ratios.next().unwrap_or(1.0))));
    each_random_job(FAMILIES, seed, random, &mut take);
    let mut steering = Steering::pointed(!seed);
    steer(&mut steering, steered, |job| take("steered", job));
    print_turns(&steering);
    let never = held.print_never();
    held.agree() && !never
}

/// Runs the jobs of standard input.
pub fn rows() -> bool {
    let mut held = Pointed::default();
    let none = each_line(|row| held.hold_row(row));
    held.differing += none;
    held.agree()
}

/// Drawings of so many vertices that turn to one side, offset to the other: open and closed, and a copy.
pub fn turning(v: usize) -> [Job; 3] {
    let sides = v.max(3) as f64;
    let vertex = |i: usize| {
        let (sin, cos) = (std::f64::consts::TAU * i as f64 / sides).sin_cos();
        [1000.0 * cos, 1000.0 * sin, 0.0]
    };
    let source: Vec<f64> = (0..v).flat_map(vertex).collect();
    [(false, -2.0), (true, -2.0), (true, 0.0)]
        .map(|(closed, offset)| Job::new(closed, offset, 1e-5, source.clone()).pointed(2.0))
}

fn print_turns(steering: &Steering) {
    println!("steered turns: changing an answer, changing none");
    for site in Site::ALL {
        let (turns, idle) = (
            steering.turns[*site as usize],
            steering.idle[*site as usize],
        );
        if turns + idle > 0 || Site::POINTED.contains(site) {
            println!("  {:44} {turns:>9} {idle:>9}", site.text());
        }
    }
}

/// Whether something happens on the way that a job goes.
fn goes_by(trace: &Trace, event: Event) -> bool {
    trace.events.iter().any(|(_, other)| *other == event)
}

/// Whether each pair is kept as a whole.
fn keeps_pairs(trace: &Trace) -> bool {
    use Event::*;
    let split = [FirstKept, SecondKept, NeitherKept];
    let closing = [ClosingFirstKept, ClosingSecondKept, ClosingNeitherKept];
    let mut events = split.into_iter().chain(closing);
    !events.any(|event| goes_by(trace, event))
}

impl Pointed {
    /// A job of the pointed mode; not so where the row is none.
    fn hold_row(&mut self, row: &str) -> bool {
        let Some(job) = read_job(row).filter(|job| job.ratio.is_some()) else {
            return false;
        };
        self.hold("rows", &job);
        self.hold_rooms(&job);
        true
    }

    fn hold(&mut self, family: &'static str, job: &Job) {
        let outcome = self.jobs.outcome_by(TRACED, family, job, &[PROVED]);
        let mut trace = Trace::new();
        traced_job(&mut trace, job);
        self.table.add(&trace);
        let (drawn, n) = (outcome.answer[2] as usize, job.segments());
        self.beyond += u64::from(drawn > 2 * n);
        self.full += u64::from(n > 0 && drawn == 3 * n);
        self.hold_to_000(job);
        self.ask_reasons(job);
        self.ask_parts(job, &outcome);
    }

    /// Each buffer in turn with one place too few, all with just enough, and with what the round mode
    /// needs.
    fn hold_rooms(&mut self, job: &Job) {
        let mut exact = job.clone();
        exact.lend(job.need());
        let held = self
            .jobs
            .outcome_by(TRACED, "just enough", &exact, &[PROVED]);
        self.enough += u64::from(held.answer[0] == 0);
        if job.need() == 0 {
            return;
        }
        let expected = match held.answer[0] {
            0 | 5 | 6 => [4, 0, 0, 0, 0],
            _ => held.answer,
        };
        let mut round = job.clone();
        round.lend(2 * job.segments());
        self.hold_short("room of the round mode", &round, expected);
        for (kind, family) in SHORT.into_iter().enumerate() {
            let mut short = exact.clone();
            short.room[kind] -= 1;
            self.hold_short(family, &short, expected);
            self.short[kind] += u64::from(expected[0] == 4);
        }
    }

    fn hold_short(&mut self, family: &'static str, job: &Job, expected: [u32; 5]) {
        let outcome = self.jobs.outcome_by(TRACED, family, job, &[PROVED]);
        if outcome.answer != expected {
            self.unsound(family, job);
        }
    }

    /// What the points leave as it was.
    fn hold_to_000(&mut self, job: &Job) {
        let job = job.lent_enough();
        let mut trace = Trace::new();
        traced_job(&mut trace, &job);
        let round = job.round().run(oracle::job);
        let outcome = job.run(TRACED.1);
        match likeness(&job, &trace, &outcome, &round) {
            Some(likeness) => self.likeness[likeness as usize] += 1,
            None => self.unsound("not 000's, though it has to be", &job),
        }
    }

    /// Of each segment, of the two numbers after the last one, and of the largest.
    fn ask_reasons(&mut self, job: &Job) {
        let whys = whys(job);
        let count = whys.as_ref().map_or(0, Vec::len);
        let segments = (0..count).step_by(1 + count / MOST_ASKED);
        let segments = segments.chain(count.saturating_sub(3)..count + 2);
        for segment in segments.chain([u32::MAX as usize]) {
            let expected = told(&whys, segment as u32);
            self.count_reason(&expected);
            let (answer, params) = expected;
            let expected = (answer, params.map(f64::to_bits));
            let proved = proved::why(job, segment as u32);
            if proved != expected {
                self.unsound("a reason differs", job);
                println!("  segment {segment}: traced {expected:?}, proved {proved:?}");
            }
        }
    }

    fn count_reason(&mut self, (answer, _): &Told) {
        let [number, _, _, _, reason, ..] = answer.map(|number| number as usize);
        if number == 0 {
            self.reasons[reason] += 1;
        } else {
            self.unanswered[number] += 1;
        }
    }

    /// Each segment is in one part, and the parts come in the order of the source segments.
    fn ask_parts(&mut self, job: &Job, outcome: &Outcome) {
        let n = job.segments() as u32;
        let (flags, origins) = (outcome.drawn_flags(), outcome.drawn_origins());
        let own = Output { n, flags, origins };
        let mut covered = 0;
        let mut sound = origins.is_sorted();
        for source in 0..n {
            let [_, _, start, length] = self.ask_part(job, own, source);
            sound &= length <= 3 && (length == 0 || start == covered);
            covered += length;
        }
        self.ask_part(job, own, n);
        if !sound || covered as usize != origins.len() {
            self.unsound("the parts are not those of a done job", job);
        }
    }

    fn ask_part(&mut self, job: &Job, output: Output, source: u32) -> PartAnswer {
        let expected = output.part(source);
        match expected {
            [0, _, _, length] => self.parts[length.min(3) as usize] += 1,
            _ => self.no_part += 1,
        }
        let proved = proved::part(output, source);
        if proved != expected {
            self.unsound("a part differs", job);
            println!("  source {source}: expected {expected:?}, proved {proved:?}");
        }
        proved
    }

    fn unsound(&mut self, what: &str, job: &Job) {
        self.differing += 1;
        if self.differing <= SHOWN {
            println!("{what}: {job:?}");
            println!("  job  {}", any_job_row(job));
        }
    }

    /// Prints what has to be reached and was not, and says whether there is such a thing.
    fn print_never(&self) -> bool {
        let mut never: Vec<String> = Vec::new();
        let mut reach = |count: u64, what: &str| {
            if count == 0 {
                never.push(what.to_owned());
            }
        };
        for (pair, events) in EVENTS {
            for event in *events {
                reach(
                    self.table.events[*event as usize][*pair as usize],
                    event.text(),
                );
            }
        }
        for site in Site::POINTED {
            for count in self.table.sites[*site as usize] {
                reach(count, site.text());
            }
        }
        let pointed = Reason::Pointed.number() as usize;
        for reason in Reason::KEPT.into_iter().chain([pointed]) {
            reach(self.reasons[reason], Reason::NAMES[reason - 1]);
        }
        for (count, what) in self.short.iter().zip(SHORT) {
            reach(*count, what);
        }
        for (count, what) in self.likeness.iter().zip(LIKENESS) {
            reach(*count, what);
        }
        reach(self.beyond, "more than 2n vertices");
        reach(self.full, "3n vertices");
        reach(self.parts[3], "a part of three");
        for what in &never {
            println!("never: {what}");
        }
        !never.is_empty()
    }

    fn print_counts(&self) {
        self.table.print_pointed();
        for (count, what) in self.likeness.iter().zip(LIKENESS) {
            println!("held to 000: {what:38} {count:>10}");
        }
        let (beyond, full) = (self.beyond, self.full);
        println!("jobs with more than 2n vertices: {beyond}, with 3n: {full}");
        println!("segments asked for, by reason");
        for (i, name) in Reason::NAMES.iter().enumerate() {
            println!("  {:>2} {name:32} {:>10}", i + 1, self.reasons[i + 1]);
        }
        let refused = self.unanswered.map(|count| format!(" {count}")).concat();
        println!("reasons refused by number, from 0:{refused}");
        let parts = self.parts.map(|count| format!(" {count}")).concat();
        println!(
            "parts of 0, 1, 2, 3 segments:{parts}; refused {}",
            self.no_part
        );
        let short = self.short.map(|count| format!(" {count}")).concat();
        println!("refused for one number, flag, index, origin too few:{short}");
        println!("done with just enough: {}", self.enough);
    }

    /// Prints all counts and says whether nothing differed.
    fn agree(&self) -> bool {
        self.jobs.print_families();
        self.print_counts();
        let differing = self.differing + self.jobs.differing;
        let calls: u64 = self.reasons.iter().chain(&self.unanswered).sum();
        let parts = self.parts.iter().sum::<u64>() + self.no_part;
        let jobs = self.jobs.jobs;
        println!("{jobs} jobs, {calls} reasons, {parts} parts, {differing} differences");
        differing == 0
    }
}

const LIKENESS: [&str; 4] = [
    "no point, and the same",
    "points, and else the same",
    "a pair split, or not finite",
    "refused alike, or by the ratio",
];

/// How a job stands to 000's drawing of it; none where that is not as it has to be.
fn likeness(job: &Job, trace: &Trace, outcome: &Outcome, round: &Outcome) -> Option<Likeness> {
    let v = (job.source.len() / 3) as u32;
    let good = job.ratio.is_some_and(|ratio| (1.0..=10.0).contains(&ratio));
    match round.answer[0] {
        1..=3 => (outcome.answer == round.answer).then_some(Likeness::Refused),
        _ if !good => (outcome.answer == [3, v + 2, 0, 0, 0]).then_some(Likeness::Refused),
        5 => (outcome.answer == round.answer).then_some(Likeness::Refused),
        _ if !goes_by(trace, Event::Tip) => same(outcome, round).then_some(Likeness::Same),
        _ if outcome.answer[0] == 6 || round.answer[0] == 6 || !keeps_pairs(trace) => {
            Some(Likeness::Other)
        }
        _ => but_for_points(outcome, round),
    }
}

/// The same answer, and the same drawing by its bits.
fn same(outcome: &Outcome, round: &Outcome) -> bool {
    let numbers = |outcome: &Outcome| outcome.vertices[..3 * outcome.answer[2] as usize].to_vec();
    outcome.answer == round.answer
        && numbers(outcome) == numbers(round)
        && outcome.drawn_flags() == round.drawn_flags()
        && outcome.invalid() == round.invalid()
        && outcome.drawn_origins() == round.drawn_origins()
}

/// Takes the points out again: what is left has 000's vertices, flags and origins, and 000's bulges but
/// for the moves to a point, which are straight.
fn but_for_points(outcome: &Outcome, round: &Outcome) -> Option<Likeness> {
    let origins = outcome.drawn_origins();
    let is_point = |i: usize| i > 0 && i < origins.len() && origins[i] == origins[i - 1];
    let left: Vec<usize> = (0..outcome.answer[2] as usize)
        .filter(|i| !is_point(*i))
        .collect();
    let kept: Vec<u32> = left
        .iter()
        .filter_map(|i| origins.get(*i).copied())
        .collect();
    if kept != round.drawn_origins() {
        // 000 may drop a connector that is longer by way of the point.
        return Some(Likeness::Other);
    }
    let vertex = |outcome: &Outcome, i: usize| outcome.vertices[3 * i..3 * i + 3].to_vec();
    let alike = left.iter().enumerate().all(|(place, i)| {
        let (here, there) = (vertex(outcome, *i), vertex(round, place));
        let straight = is_point(i + 1);
        let bulge = if straight { 0 } else { there[2] };
        let flag = outcome.flags[*i] == round.flags[place];
        let clear = !straight || outcome.flags[*i] == 0 && outcome.flags[i + 1] == 0;
        here == [there[0], there[1], bulge] && flag && clear
    });
    let counts = [3, 4].map(|i| outcome.answer[i] == round.answer[i]);
    (alike && counts == [true; 2]).then_some(Likeness::ButForPoints)
}
