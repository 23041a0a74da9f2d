//! Holds the part that the proved code hands back for a source segment to 02's 2026-09: on the outputs of
//! jobs, on whole buffers, and on made-up lists. Outputs have to be what the request says of a done
//! job, and each buffer is lent one place too few.

use crate::jobs::{each_line, read_round};
use crate::made::{Made, PAST_CODES};
use crate::near::each_reasoned_job;
use crate::sides::{SIDES, Tally};
use oracle::generate::Random;
use oracle::part::{Output, PartAnswer, named};
use oracle::proved;
use oracle::stage::{Job, Outcome};
use oracle::text::{any_job_row, part_row, read_part};

/// Differences are printed up to this many.
const SHOWN: u64 = 10;

/// One job in so many is lent too little.
const PER_ROOM: u64 = 4;

/// Of a long output's whole buffers about so many source segments are asked for.
const MOST_ASKED: u32 = 256;

/// Refusals have numbers up to this.
const LAST_REFUSAL: usize = 13;

/// Which list is asked.
#[derive(Copy, Clone)]
enum List {
    Own,
    Whole,
    MadeUp,
}

impl List {
    const NAMES: [&str; 3] = ["an output's segments", "whole buffers", "made-up lists"];
}

/// What a part consists of.
const KINDS: [&str; 4] = ["empty", "spans alone", "connectors alone", "both"];

/// One family for each buffer that is lent one place too few.
const SHORT: [&str; 4] = [
    "one number too few",
    "one flag too few",
    "one index too few",
    "one origin too few",
];

/// What was asked of one kind of list.
#[derive(Default)]
struct Found {
    calls: u64,
    /// By what they consist of.
    parts: [u64; 4],
    /// Parts after which there is another one of the same source segment.
    broken: u64,
    /// Askings from 2^31 on, where twice the number, cut to 32 bits, is a code of the list.
    wrapped: u64,
    longest: u32,
}

#[derive(Default)]
struct Parts {
    /// Holds the proved code to 000 on the same jobs.
    jobs: Tally,
    segments: u64,
    copies: u64,
    found: [Found; 3],
    refused: [u64; LAST_REFUSAL + 1],
    /// Jobs that were refused for one place too few, by the buffer.
    short: [u64; 4],
    enough: u64,
    without_room: u64,
    differing: u64,
}

/// Runs the jobs that `why` does.
pub fn compare(seed: u64, random: u64, steered: u64) -> bool {
    let mut held = Parts::default();
    let mut made = Random::new(seed);
    let mut turn = 0_u64;
    each_reasoned_job(seed, random, steered, |family, job| {
        held.hold(family, job);
        held.hold_made_up(&Made::up(&mut made));
        if turn.is_multiple_of(PER_ROOM) {
            held.hold_rooms(job);
        }
        turn += 1;
    });
    let never = held.print_never();
    held.agree() && !never
}

/// Runs the jobs and asks the questions of standard input.
pub fn rows() -> bool {
    let mut held = Parts::default();
    let none = each_line(|row| held.hold_row(row));
    held.differing += none;
    held.agree()
}

impl Parts {
    /// A question or a job; not so where the row is neither.
    fn hold_row(&mut self, row: &str) -> bool {
        if let Some((n, source, flags, origins)) = read_part(row) {
            let (flags, origins) = (&flags, &origins);
            self.ask(List::MadeUp, Output { n, flags, origins }, source);
            return true;
        }
        let Some(job) = read_round(row) else {
            return false;
        };
        self.hold("rows", &job);
        self.hold_rooms(&job);
        true
    }

    fn hold(&mut self, family: &'static str, job: &Job) {
        let outcome = self.jobs.outcome(family, job, SIDES);
        let n = job.segments() as u32;
        self.hold_own(job, &outcome);
        let whole = Output {
            n,
            flags: &outcome.flags,
            origins: &outcome.origins,
        };
        for source in (0..n).step_by(1 + (n / MOST_ASKED) as usize) {
            self.ask(List::Whole, whole, source);
        }
        self.ask_about_limits(List::Whole, whole);
    }

    /// The segments of an output: each is in one part, and the parts come in the order of the source
    /// segments. A copy has one segment in each.
    fn hold_own(&mut self, job: &Job, outcome: &Outcome) {
        let (flags, origins) = (outcome.drawn_flags(), outcome.drawn_origins());
        let n = job.segments() as u32;
        let own = Output { n, flags, origins };
        let copied = outcome.answer[0] == 0 && job.offset == 0.0;
        let mut sound = origins.is_sorted_by(|a, b| a < b);
        let mut covered = 0_usize;
        for source in 0..n {
            let part = self.ask(List::Own, own, source);
            let [_, _, start, length] = part.map(|number| number as usize);
            sound &= length == 0 || start == covered;
            sound &= !copied || length == 1;
            covered += length;
        }
        sound &= covered == origins.len();
        self.ask_about_limits(List::Own, own);
        self.segments += origins.len() as u64;
        self.copies += u64::from(copied && n > 0);
        if !sound {
            self.unsound("the parts are not those of a done job", job);
        }
    }

    /// Asks for what is not below n, and, n being the largest, for what no code names.
    fn ask_about_limits(&mut self, list: List, output: Output) {
        let n = output.n;
        for source in [n, n + 1, PAST_CODES, u32::MAX] {
            self.ask(list, output, source);
        }
        let output = Output {
            n: u32::MAX,
            ..output
        };
        let (last, least) = (n.saturating_sub(1), PAST_CODES);
        for source in [last, least - 1, least, least + last, u32::MAX - 1, u32::MAX] {
            self.ask(list, output, source);
        }
    }

    fn hold_made_up(&mut self, made: &Made) {
        let before = made.clone();
        for source in &made.sources {
            self.ask(List::MadeUp, made.output(), *source);
        }
        if *made != before {
            self.differing += 1;
            println!("a list was written to: {before:?}");
        }
    }

    /// Each buffer in turn with one place too few, all with just enough, and no room where there is no
    /// segment.
    fn hold_rooms(&mut self, job: &Job) {
        let mut exact = job.clone();
        exact.lend(job.need());
        let outcome = self.jobs.outcome("just enough", &exact, SIDES);
        let number = outcome.answer[0];
        if exact.room == [0; 4] {
            self.without_room += u64::from(outcome.answer == [0; 5]);
            return;
        }
        self.enough += u64::from(number == 0);
        let expected = match number {
            0 | 5 | 6 => [4, 0, 0, 0, 0],
            _ => outcome.answer,
        };
        for (kind, family) in SHORT.into_iter().enumerate() {
            let mut short = exact.clone();
            short.room[kind] -= 1;
            let answer = self.jobs.outcome(family, &short, SIDES).answer;
            self.short[kind] += u64::from(answer[0] == 4);
            if answer != expected {
                self.unsound(family, &short);
            }
        }
    }

    /// Asks the proved code for a part, holds it to the request, and hands it back.
    fn ask(&mut self, list: List, output: Output, source: u32) -> PartAnswer {
        let expected = output.part(source);
        self.count(list, output, source, expected);
        let proved = proved::part(output, source);
        if proved != expected {
            self.differing += 1;
            if self.differing <= SHOWN {
                println!("a part differs");
                println!("  asked    {}", part_row(output, source));
                println!("  expected {expected:?}");
                println!("  proved   {proved:?}");
            }
        }
        proved
    }

    fn count(&mut self, list: List, output: Output, source: u32, answer: PartAnswer) {
        let found = &mut self.found[list as usize];
        found.calls += 1;
        let [number, _, start, length] = answer;
        self.refused[number as usize] += 1;
        if number != 0 {
            return;
        }
        let (part, after) = output.origins[start as usize..].split_at(length as usize);
        found.parts[kind(part)] += 1;
        found.longest = found.longest.max(length);
        let again = after.iter().any(|origin| named(*origin) == source);
        found.broken += u64::from(again && length > 0);
        let doubled = source.wrapping_mul(2);
        let wraps = source >= PAST_CODES && output.origins.contains(&doubled);
        found.wrapped += u64::from(wraps);
    }

    fn unsound(&mut self, what: &str, job: &Job) {
        self.differing += 1;
        if self.differing <= SHOWN {
            println!("{what}: {job:?}");
            println!("  job  {}", any_job_row(job));
        }
    }

    /// Prints what has to be reached and was not, and says whether there is such a thing.
    fn print_never(&self) -> bool {
        let mut never: Vec<String> = Vec::new();
        let mut reach = |count: u64, what: String| {
            if count == 0 {
                never.push(what);
            }
        };
        for (found, list) in self.found.iter().zip(List::NAMES) {
            for (count, kind) in found.parts.iter().zip(KINDS) {
                reach(*count, format!("{kind} of {list}"));
            }
            reach(found.wrapped, format!("no wrap of {list}"));
        }
        for list in [List::Whole, List::MadeUp] {
            let name = List::NAMES[list as usize];
            let broken = self.found[list as usize].broken;
            reach(broken, format!("another part of {name}"));
        }
        for (count, what) in self.short.iter().zip(SHORT) {
            reach(*count, what.to_owned());
        }
        for number in [0, 1, 13] {
            reach(self.refused[number], format!("a part with number {number}"));
        }
        reach(self.enough, "done with just enough".to_owned());
        reach(self.without_room, "done without room".to_owned());
        reach(self.copies, "a copy".to_owned());
        for what in &never {
            println!("never: {what}");
        }
        !never.is_empty()
    }

    fn print_counts(&self) {
        let kinds = KINDS.join(", ");
        println!("parts by list: calls; {kinds}; another part after; no wrap; longest");
        for (found, list) in self.found.iter().zip(List::NAMES) {
            let parts = found.parts.map(|count| format!(" {count:>9}")).concat();
            let (calls, broken, wrapped) = (found.calls, found.broken, found.wrapped);
            let longest = found.longest;
            println!("  {list:22} {calls:>10}{parts} {broken:>9} {wrapped:>9} {longest:>4}");
        }
        let refused = self.refused.map(|count| format!(" {count}")).concat();
        println!("calls refused by number, from 0:{refused}");
        let short = self.short.map(|count| format!(" {count}")).concat();
        println!("refused for one number, flag, index, origin too few:{short}");
        let (enough, without_room) = (self.enough, self.without_room);
        println!("done with just enough: {enough}; without room: {without_room}");
        println!("copies: {}", self.copies);
    }

    /// Prints all counts and says whether nothing differed. An output has no other part of a source
    /// segment, and of two moves at most.
    fn agree(&self) -> bool {
        self.jobs.print_families();
        self.print_counts();
        let own = &self.found[List::Own as usize];
        let others = own.broken + u64::from(own.longest > 2);
        let differing = self.differing + self.jobs.differing + others;
        let calls: u64 = self.refused.iter().sum();
        let (jobs, segments) = (self.jobs.jobs, self.segments);
        println!("{jobs} jobs, {segments} segments, {calls} calls, {differing} differences");
        differing == 0
    }
}

/// By its place in `KINDS`.
fn kind(part: &[u32]) -> usize {
    let spans = part.iter().any(|origin| origin.is_multiple_of(2));
    let connectors = part.iter().any(|origin| !origin.is_multiple_of(2));
    usize::from(spans) + 2 * usize::from(connectors)
}
