//! The stored input and output of the program that works whole jobs.
//!
//! The input is words of eight bytes, highest byte first: the count of rows, then for each row the
//! numbers of its source, closed, offset, ε, the four rooms, and the source; of the pointed mode, closed
//! is 2 or 3 and the ratio comes after ε. The output has a line for each, then for four long jobs that
//! the program makes itself.

use crate::{edges, jobs};
use oracle::generate::{FAMILIES, Family, POINTED, Random, Steering};
use oracle::newly::newly_accepted;
use oracle::stage::{Job, Outcome, Places, Stage};
use oracle::text::{bits, mode};
use oracle::traced::{Site, Table, Trace, job as traced_job};
use std::fmt::Write;
use std::path::Path;
use std::{fs, io};

/// The places of the program's source and buffers for a row, and for a long job.
const SOURCE: usize = 128;
const SHORT: Places = [256, 88, 88, 88];
const LONG: Places = [24579, 8193, 8193, 8193];

/// Drawings of more vertices are told by their checksums alone.
const MOST_SHOWN: u32 = 16;

/// Random jobs of each family.
const OF_A_FAMILY: usize = 4;

/// How often a turn is looked for.
const TRIES: usize = 20_000;
const POINTED_TRIES: usize = 2000;

const SEED: u64 = 9;

pub fn write(folder: &Path) -> io::Result<()> {
    let kinds = [
        (
            "01's rows, settled points and every branch",
            jobs::all().collect(),
        ),
        ("rooms", edges::rooms()),
        ("limits", edges::limits()),
        ("refusals and their order", edges::refusals()),
        ("short and ragged", edges::short()),
        ("offset zero and next to it", edges::zeros()),
        ("random", random(FAMILIES)),
        ("either side of a turn", steered(Steering::new(SEED), TRIES)),
        ("rooms for origins", edges::origins()),
        (
            "pointed: settled points and every branch",
            jobs::of_pointed().collect(),
        ),
        ("pointed: rooms", edges::pointed_rooms()),
        ("pointed: ratios", edges::ratios()),
        ("pointed: random", random(POINTED)),
        (
            "pointed: either side of a turn",
            steered(Steering::pointed(SEED), POINTED_TRIES),
        ),
    ];
    for (name, jobs) in &kinds {
        println!("{name:44} {:>5}", jobs.len());
    }
    let rows: Vec<Job> = kinds.into_iter().flat_map(|(_, jobs)| jobs).collect();
    let newly = |job: &&Job| newly_accepted(job, job.run(reference(job)).answer[0]).is_some();
    println!("{:44} {:>5}", "in all", rows.len());
    let count = rows.iter().filter(newly).count();
    println!("{:44} {count:>5}", "of them newly accepted by 2026-02");
    print_reached(&rows);
    let mut input = (rows.len() as u64).to_be_bytes().to_vec();
    let mut output = String::new();
    for job in &rows {
        input.extend(packed(job));
        output += &line(&job.run_among(SHORT, reference(job)));
    }
    for job in long() {
        output += &line(&job.run_among(LONG, oracle::job));
    }
    fs::write(folder.join("stdin"), input)?;
    fs::write(folder.join("stdout"), output)
}

/// 000, which has the round mode alone, and the traced job for the pointed mode.
fn reference(job: &Job) -> Stage {
    match job.ratio {
        None => oracle::job,
        Some(_) => oracle::traced::stage,
    }
}

fn packed(job: &Job) -> Vec<u8> {
    assert!(fits(job), "no place for {job:?}");
    let mut words = vec![job.source.len() as u64, mode(job).into()];
    words.extend([job.offset, job.eps].map(f64::to_bits));
    words.extend(job.ratio.map(f64::to_bits));
    words.extend(job.room.map(|count| count as u64));
    words.extend(job.source.iter().map(|number| number.to_bits()));
    words.into_iter().flat_map(u64::to_be_bytes).collect()
}

fn fits(job: &Job) -> bool {
    job.source.len() <= SOURCE && job.room.iter().zip(SHORT).all(|(room, most)| *room <= most)
}

/// The answer, then for each buffer what was drawn, if that is short, and a checksum of all its
/// places, also those past what was lent.
fn line(outcome: &Outcome) -> String {
    let mut line = outcome.answer.map(|number| number.to_string()).join(" ");
    let sums = [
        checksum(outcome.vertices.iter().copied()),
        checksum(outcome.flags.iter().copied().map(u64::from)),
        checksum(outcome.indexes.iter().copied().map(u64::from)),
        checksum(outcome.origins.iter().copied().map(u64::from)),
    ];
    for (shown, sum) in shown(outcome).into_iter().zip(sums) {
        for word in shown {
            write!(line, " {word}").expect("a string takes all");
        }
        write!(line, " sum {sum:016x}").expect("a string takes all");
    }
    line + "\n"
}

/// For each buffer the words of what was drawn, none if that is long.
fn shown(outcome: &Outcome) -> [Vec<String>; 4] {
    if outcome.answer[2] > MOST_SHOWN {
        return Default::default();
    }
    let drawn = outcome.drawn();
    let numbers = drawn.as_flattened().iter().map(|x| bits(*x));
    [
        numbers.collect(),
        outcome.drawn_flags().iter().map(u8::to_string).collect(),
        outcome.invalid().iter().map(u32::to_string).collect(),
        outcome.drawn_origins().iter().map(u32::to_string).collect(),
    ]
}

/// Tells places apart: before each word the sum is added to itself turned by five.
fn checksum(words: impl Iterator<Item = u64>) -> u64 {
    words.fold(0, |sum: u64, word| {
        sum.rotate_left(5).wrapping_add(sum).wrapping_add(word)
    })
}

/// The zigzag at the limit of vertices and one above it.
fn long() -> impl Iterator<Item = Job> {
    let vertex = |i: usize| [i as f64, (i % 2) as f64, 0.25 * (i % 2) as f64];
    [(4096, false), (4096, true), (4097, false), (4097, true)]
        .into_iter()
        .map(move |(v, closed)| {
            let mut job = Job::new(closed, 0.125, 1e-5, (0..v).flat_map(vertex).collect());
            job.lend(2 * 4096);
            job
        })
}

fn random(families: &[Family]) -> Vec<Job> {
    let mut source = Random::new(SEED);
    let mut jobs = Vec::new();
    for (_, family) in families {
        let drawn: Vec<Job> = (0..100).map(|_| family(&mut source)).collect();
        jobs.extend(drawn.into_iter().filter(fits).take(OF_A_FAMILY));
    }
    jobs
}

/// For each test that can be found to turn an answer, the two neighbouring doubles where it does.
fn steered(mut steering: Steering, tries: usize) -> Vec<Job> {
    let mut jobs = Vec::new();
    let mut seen = vec![false; Site::ALL.len()];
    for _ in 0..tries {
        let before = steering.turns.clone();
        let six = steering.around_a_turn();
        let turned = steering.turns.iter().zip(&before).position(|(n, m)| n > m);
        if let ([_, _, low, high, _, _], Some(site)) = (six.as_slice(), turned)
            && !seen[site]
        {
            seen[site] = true;
            jobs.extend([low.clone(), high.clone()]);
        }
    }
    jobs
}

/// Prints which tests and events the rows reach.
fn print_reached(rows: &[Job]) {
    let mut table = Table::default();
    for job in rows.iter().cloned().chain(long()) {
        let mut trace = Trace::new();
        traced_job(&mut trace, &job);
        table.add(&trace);
    }
    table.print();
    table.print_pointed();
}
