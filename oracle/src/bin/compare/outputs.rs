//! Holds what is told of two outputs side by side, 02's 2026-03, to the reference: the proved code, or without it
//! the other shape; and wrong readings of that.

use crate::jobs::{each_line, each_random_job};
use oracle::generate::outputs::{each_limit_pair, each_short_pair, pair, turned};
use oracle::generate::{FAMILIES, Family, KEYHOLES, POINTED, REASONS, Random};
use oracle::side_by_side::{
    FIELDS, Laid, ListLent, Met, Other, Output, Pair, PairAnswer, SAME, Tally, Told, WRONG, hold,
    hold_to, shortened, side_by_side,
};
use oracle::stage::{Job, Outcome, Stage};
use oracle::text::{pair_row, read_pair};

/// Differences are printed up to this many.
const SHOWN: u64 = 10;

/// A pair of more numbers is not printed as a row.
const ROW_NUMBERS: usize = 3000;

/// A wrong reading that so many pairs tell is held to no more.
const ENOUGH: u64 = 20;

/// What is held to the reference.
#[cfg(feature = "proved")]
const SIDE: fn([Laid; 2], ListLent) -> PairAnswer = oracle::proved::side_by_side;

#[cfg(not(feature = "proved"))]
const SIDE: fn([Laid; 2], ListLent) -> PairAnswer =
    |outputs, lent| Other::right().answer(outputs, lent);

/// What draws the output that is laid beside the reference's.
#[cfg(feature = "proved")]
const OTHER_STAGE: Stage = oracle::proved::job;

#[cfg(not(feature = "proved"))]
const OTHER_STAGE: Stage = oracle::traced::stage;

/// The slots of a job's output of which a bit is turned, by the field.
const TURNED: [Met; 4] = [Met::JobX, Met::JobY, Met::JobBulge, Met::JobFlag];

#[derive(Default)]
struct Held {
    tally: Tally,
    jobs: u64,
    differing: u64,
}

/// Lays side by side all short pairs, RANDOM random ones, those at the limits, and the outputs of JOBS jobs, each
/// beside itself, beside itself with one thing turned, and beside that of a job with one number changed.
pub fn compare(seed: u64, random: u64, jobs: u64) -> bool {
    let mut held = Held::default();
    each_pair(seed, random, |family, pair| held.hold(family, pair));
    let mut chance = Random::new(seed.rotate_left(24));
    each_job(seed, jobs, |job| held.job(&mut chance, job));
    let never = held.tally.print_never();
    held.agree() && !never
}

/// Lays side by side the pairs of standard input.
pub fn rows() -> bool {
    let mut held = Held::default();
    let none = each_line(|row| {
        let pair = read_pair(row);
        if let Some(pair) = &pair {
            held.hold("rows", pair);
            println!("{:?}", pair.run(side_by_side));
        }
        pair.is_some()
    });
    held.differing += none;
    held.agree()
}

/// Holds each wrong reading to the reference, on the same pairs, and says how many of them tell it, up to
/// `ENOUGH`.
pub fn wrong(seed: u64, random: u64) -> bool {
    let mut told: Vec<(u64, Option<Pair>)> = vec![(0, None); WRONG.len()];
    let mut pairs = 0_u64;
    each_pair(seed, random, |_, pair| {
        pairs += 1;
        let expected = pair.run(side_by_side);
        for ((wrong, _), (told, first)) in WRONG.iter().zip(&mut told) {
            let by = |outputs: [Laid; 2], lent: ListLent| Other::by(*wrong).answer(outputs, lent);
            if *told < ENOUGH && pair.run(by) != expected {
                *told += 1;
                let differs = |pair: &Pair| pair.run(by) != pair.run(side_by_side);
                first.get_or_insert_with(|| shortened(pair, differs));
            }
        }
    });
    let mut as_they_should = true;
    for ((wrong, text), (told, first)) in WRONG.iter().zip(&told) {
        let same = SAME.iter().find(|same| same.0 == *wrong);
        as_they_should &= same.is_some() == (*told == 0);
        println!("{told:>9} {wrong:?}: {text}");
        if let Some((_, why)) = same {
            println!("          the same: {why}");
        }
        if let Some(pair) = first {
            println!("          {}", in_words(pair));
        }
    }
    let untold = told.iter().filter(|told| told.0 == 0).count();
    let (all, same) = (WRONG.len(), SAME.len());
    println!("{all} readings, {untold} told by none of {pairs} pairs, {same} the same");
    as_they_should
}

/// Hands out the pairs, with the name of the family.
fn each_pair(seed: u64, random: u64, mut take: impl FnMut(&'static str, &Pair)) {
    each_short_pair(|pair| take("short", pair));
    let mut source = Random::new(seed);
    for _ in 0..random {
        let (family, pair) = pair(&mut source);
        take(family, &pair);
    }
    each_limit_pair(|pair| take("limits", pair));
}

/// Hands out random jobs of both modes.
fn each_job(seed: u64, jobs: u64, mut take: impl FnMut(&Job)) {
    let families: Vec<Family> = [FAMILIES, KEYHOLES, REASONS, POINTED].concat();
    each_random_job(&families, seed, jobs, |_, job| take(job));
}

/// What the reference of a job's mode draws.
fn stage(job: &Job) -> Stage {
    match job.ratio {
        None => oracle::job,
        Some(_) => oracle::traced::stage,
    }
}

/// An output with flags; one of no vertex where the job is refused.
fn output(outcome: &Outcome) -> Output {
    Output {
        numbers: outcome.drawn().concat(),
        closed: outcome.answer[4] != 0,
        flags: outcome.drawn_flags().to_vec(),
    }
}

impl Held {
    fn hold(&mut self, family: &'static str, pair: &Pair) {
        self.tally.family(family);
        if let Some(words) = hold(SIDE, pair, &mut self.tally) {
            self.differ(family, pair, &words);
        }
    }

    /// Holds two outputs of which it is known what is told.
    fn hold_known(&mut self, met: Met, pair: &Pair, told: &Told) {
        self.tally.family("of jobs");
        self.tally.met(met);
        if let Some(words) = hold_to(told, SIDE, pair, &mut self.tally) {
            self.differ("of jobs", pair, &words);
        }
    }

    /// The output of a job, beside all that it is laid beside.
    fn job(&mut self, random: &mut Random, job: &Job) {
        self.jobs += 1;
        let drawn = output(&job.run(stage(job)));
        let other = output(&job.run(OTHER_STAGE));
        let nothing = Told::default();
        self.hold_known(Met::JobSame, &Pair::shared(&drawn, false, [0; 2]), &nothing);
        self.hold_known(Met::JobSame, &Pair::apart(&drawn, &drawn, [2; 2]), &nothing);
        self.hold_known(Met::JobSide, &Pair::apart(&drawn, &other, [0; 2]), &nothing);
        for field in 0..4 {
            self.turned(random, &drawn, field);
        }
        self.other_mark(&drawn);
        self.less(&drawn);
        self.changed_job(random, job, &drawn);
    }

    /// With one bit turned: that alone is listed.
    fn turned(&mut self, random: &mut Random, drawn: &Output, field: usize) {
        let mut second = drawn.clone();
        let places = if field < 3 {
            drawn.vertices()
        } else {
            drawn.flags.len()
        };
        if places == 0 {
            return;
        }
        let i = random.below(places);
        match field {
            3 => second.flags[i] ^= 1 << random.below(8),
            _ => turned(random, &mut second.numbers[3 * i + field]),
        }
        let told = Told {
            list: vec![(i as u32, FIELDS[field])],
            ..Told::default()
        };
        let less = random.pick(&[[0, 1], [1, 0], [0, 0]]);
        for (met, room) in [(TURNED[field], [1; 2]), (Met::JobShort, less)] {
            self.hold_known(met, &Pair::apart(drawn, &second, room), &told);
            self.hold_known(met, &Pair::apart(&second, drawn, room), &told);
        }
    }

    /// With the other mark: the closing segment's flag is listed, unless it is clear.
    fn other_mark(&mut self, drawn: &Output) {
        let second = drawn.with_other_mark();
        let [first, other] = [drawn, &second].map(|output| output.flags.last().copied());
        let closing = if drawn.closed { first } else { other };
        let last = drawn.vertices().saturating_sub(1) as u32;
        let set = closing.is_some_and(|flag| flag != 0);
        let told = Told {
            list: set.then_some((last, FIELDS[3])).into_iter().collect(),
            marks: true,
            ..Told::default()
        };
        let room = [told.list.len(); 2];
        self.hold_known(Met::JobMark, &Pair::apart(drawn, &second, room), &told);
        self.hold_known(Met::JobMark, &Pair::apart(&second, drawn, room), &told);
    }

    /// Without its last vertex: what is left of the flag of the segment before it.
    fn less(&mut self, drawn: &Output) {
        let v = drawn.vertices();
        if v == 0 {
            return;
        }
        let mut second = drawn.clone();
        second.numbers.truncate(3 * (v - 1));
        second.fit_flags();
        let lost = drawn.flags.get(second.flags.len()).copied();
        let has_end = second.flags.len() + 1 == second.vertices();
        let listed = lost.filter(|flag| *flag != 0 && has_end);
        let told = Told {
            list: listed
                .map(|_| (v as u32 - 2, FIELDS[3]))
                .into_iter()
                .collect(),
            only_one: 1,
            marks: false,
        };
        self.hold_known(Met::JobLess, &Pair::apart(drawn, &second, [1; 2]), &told);
        self.hold_known(Met::JobLess, &Pair::apart(&second, drawn, [1; 2]), &told);
    }

    /// Beside the output of the same job with one number or the mark changed.
    fn changed_job(&mut self, random: &mut Random, job: &Job, drawn: &Output) {
        let slot = random.below(job.numbers().min(6));
        let number = job.number(slot);
        let little = random.size(-15.0, -3.0);
        let mut other = match random.below(4) {
            0 => job.with_number(slot, f64::from_bits(number.to_bits() ^ 1)),
            _ => job.with_number(slot, number * (1.0 + little)),
        };
        other.closed ^= random.one_in(8);
        let other = output(&other.lent_enough().run(stage(job)));
        let room = drawn.vertices().min(other.vertices());
        let pair = Pair::apart(drawn, &other, [room, room + 1]);
        let alike = pair.is_equal();
        self.tally
            .met(if alike { Met::JobAlike } else { Met::JobOther });
        self.hold("of jobs with a number changed", &pair);
    }

    fn differ(&mut self, family: &str, pair: &Pair, words: &str) {
        self.differing += 1;
        if self.differing > SHOWN {
            return;
        }
        let short = shortened(pair, |pair| {
            hold(SIDE, pair, &mut Tally::default()).is_some()
        });
        println!("{family}: two outputs differ: {words}");
        println!("  {}", in_words(&short));
        if let Some(words) = hold(SIDE, &short, &mut Tally::default()) {
            println!("  {words}");
        }
        for (name, pair) in [("here", &short), ("made", pair)] {
            if pair.numbers.len() <= ROW_NUMBERS {
                println!("  {name} {}", pair_row(pair));
            }
        }
    }

    /// Prints all counts and says whether nothing differed.
    fn agree(&self) -> bool {
        self.tally.print();
        let (pairs, entries) = (self.tally.pairs(), self.tally.entries());
        let (jobs, differing) = (self.jobs, self.differing);
        println!("{jobs} jobs, {pairs} pairs, {entries} entries, {differing} differences");
        differing == 0
    }
}

/// A pair for a reader.
fn in_words(pair: &Pair) -> String {
    let outputs = pair.outputs().map(|laid| {
        let mark = if laid.closed { "closed" } else { "open" };
        let (v, flags) = (laid.vertices(), laid.flags.len());
        if v > 20 || flags > 20 {
            let over = laid.numbers.len() % 3;
            return format!("{mark} of {v} vertices, {over} numbers over, {flags} flags");
        }
        let vertices = laid.numbers.chunks(3).map(|n| {
            let numbers: Vec<String> = n.iter().map(|x| format!("{x:?}")).collect();
            format!("({})", numbers.join(","))
        });
        format!("{mark} {} {:?}", vertices.collect::<String>(), laid.flags)
    });
    let shared = if pair.is_shared() {
        ", in the same places"
    } else {
        ""
    };
    format!(
        "{}; {}; room {:?}{shared}",
        outputs[0], outputs[1], pair.room
    )
}
