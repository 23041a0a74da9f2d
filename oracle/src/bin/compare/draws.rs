//! Holds scripts of calls for jobs drawn vertex by vertex, 02's 2026-05, to the reference that keeps every
//! vertex: the proved code, or without it the traced walk a vertex at a time; and wrong readings of that walk.

use crate::jobs::{each_line, each_random_job, each_steered_job, samples, steer};
use oracle::draws::{
    Call, Difference, Pen, Pencil, SAME, Script, Settings, Tally, WRONG, answers, hold, shortened,
};
use oracle::generate::draws::{each_limit_script, each_long_script, each_short_script, script};
use oracle::generate::{FAMILIES, Family, KEYHOLES, POINTED, REASONS, Random, Steering};
use oracle::stage::Job;
use oracle::text::{read_script, script_row};

/// Differences are printed up to this many.
const SHOWN: u64 = 10;

/// All scripts of so many calls are run, after each start.
const SHORT_CALLS: u32 = 4;

/// So many scripts are made of each sample.
const PER_SAMPLE: usize = 8;

/// Jobs that reach what few others do.
const SAMPLES: [&str; 3] = [
    include_str!("../samples/pointed.txt"),
    include_str!("../samples/why.txt"),
    include_str!("../samples/settled.txt"),
];

/// What is held to the reference.
#[cfg(feature = "proved")]
fn pen() -> impl Pen {
    oracle::proved::Drawing::default()
}

#[cfg(not(feature = "proved"))]
fn pen() -> impl Pen {
    Pencil::right()
}

struct Held<P> {
    pen: P,
    tally: Tally,
    differing: u64,
}

/// Runs the scripts at the limits, all short ones, SCRIPTS random ones, and some of about STEERED steered jobs.
pub fn compare(seed: u64, scripts: u64, steered: u64) -> bool {
    let mut held = Held::new(pen());
    each_long_script(|script| held.hold("one by one to the limit", script));
    each_script(seed, scripts, steered, |family, script| {
        held.hold(family, script);
    });
    let never = held.tally.print_never();
    held.agree() && !never
}

/// Runs the scripts of standard input.
pub fn rows() -> bool {
    let mut held = Held::new(pen());
    let none = each_line(|row| {
        let script = read_script(row);
        if let Some(script) = &script {
            held.hold("rows", script);
            print_answers(script);
        }
        script.is_some()
    });
    held.differing += none;
    held.agree()
}

/// Holds each wrong reading to the reference, on the same scripts, and says how many of them tell it.
pub fn wrong(seed: u64, scripts: u64) -> bool {
    let mut told: Vec<(u64, Option<Script>)> = vec![(0, None); WRONG.len()];
    let mut count = 0_u64;
    let mut tally = Tally::default();
    each_script(seed, scripts, scripts / 10, |_, script| {
        count += 1;
        for ((wrong, _), (told, first)) in WRONG.iter().zip(&mut told) {
            let pen = Pencil::by(*wrong);
            if hold(&pen, script, &mut tally).is_some() {
                *told += 1;
                first.get_or_insert_with(|| shortened(&pen, script));
            }
        }
    });
    let mut as_they_should = true;
    for ((wrong, text), (told, first)) in WRONG.iter().zip(&told) {
        let same = SAME.iter().find(|same| same.0 == *wrong);
        as_they_should &= same.is_some() == (*told == 0);
        println!("{told:>9} {wrong:?}: {text}");
        if let Some((_, why)) = same {
            println!("          the same: {why}");
        }
        if let Some(script) = first {
            println!("          {}", in_words(script));
        }
    }
    let untold = told.iter().filter(|told| told.0 == 0).count();
    let (all, same) = (WRONG.len(), SAME.len());
    println!("{all} readings, {untold} told by none of {count} scripts, {same} the same");
    as_they_should
}

/// Hands out the scripts, with the name of the family.
fn each_script(seed: u64, scripts: u64, steered: u64, mut take: impl FnMut(&'static str, &Script)) {
    each_limit_script(|script| take("limits", script));
    each_short_script(SHORT_CALLS, |script| take("short", script));
    let mut random = Random::new(seed.rotate_left(24));
    let mut last = Job::new(
        false,
        1.0,
        1e-5,
        vec![0.0, 0.0, 0.0, 4.0, 0.0, 0.0, 4.0, 4.0, 0.0],
    );
    let mut made = |family: &'static str, job: &Job| {
        take(family, &script(&mut random, job, &last));
        if job.source.len() <= 60 {
            last = job.clone();
        }
    };
    for job in SAMPLES.iter().flat_map(|list| samples(list)) {
        for _ in 0..PER_SAMPLE {
            made("samples", &job);
        }
    }
    let families: Vec<Family> = [FAMILIES, KEYHOLES, REASONS, POINTED].concat();
    each_random_job(&families, seed, scripts, &mut made);
    each_steered_job(seed, steered, &mut made);
    let mut steering = Steering::pointed(!seed);
    steer(&mut steering, steered, |job| made("steered", job));
}

impl<P: Pen> Held<P> {
    fn new(pen: P) -> Self {
        Self {
            pen,
            tally: Tally::default(),
            differing: 0,
        }
    }

    fn hold(&mut self, family: &'static str, script: &[Call]) {
        self.tally.script(family);
        if hold(&self.pen, script, &mut self.tally).is_some() {
            self.differing += 1;
            if self.differing <= SHOWN {
                self.show(family, script);
            }
        }
    }

    fn show(&self, family: &str, script: &[Call]) {
        let short = shortened(&self.pen, script);
        let mut tally = Tally::default();
        if let Some(Difference { call, words }) = hold(&self.pen, &short, &mut tally) {
            println!("{family}: call {call} differs: {words}");
        }
        println!("  {}", in_words(&short));
        println!("  here {}", script_row(&short));
        println!("  made {}", script_row(script));
    }

    /// Prints all counts and says whether nothing differed.
    fn agree(&self) -> bool {
        self.tally.print();
        let (scripts, calls) = (self.tally.scripts(), self.tally.calls());
        println!(
            "{scripts} scripts, {calls} calls, {} differences",
            self.differing
        );
        self.differing == 0
    }
}

/// A script for a reader.
fn in_words(script: &[Call]) -> String {
    let words = script.iter().map(|call| match call {
        Call::Start(Settings { offset, eps, ratio }) => match ratio {
            Some(ratio) => format!("start {offset:?} {eps:?} {ratio:?}"),
            None => format!("start {offset:?} {eps:?}"),
        },
        Call::Draw(source, room) => {
            let vertices = source.chunks(3).map(|n| {
                let numbers: Vec<String> = n.iter().map(|x| format!("{x:?}")).collect();
                format!("({})", numbers.join(","))
            });
            let vertices: Vec<String> = vertices.collect();
            match vertices.len() {
                0..20 => format!("draw {room:?} {}", vertices.concat()),
                many => format!("draw {room:?} of {many}"),
            }
        }
        Call::End(room) => format!("end {room:?}"),
        Call::Copy => "copy".to_owned(),
        Call::Garble(seed) => format!("garble {seed}"),
    });
    words.collect::<Vec<String>>().join("; ")
}

/// What the reference answers, a line a call.
fn print_answers(script: &[Call]) {
    for answer in answers(script) {
        println!("{}", answer.map(|number| number.to_string()).join(" "));
    }
}
