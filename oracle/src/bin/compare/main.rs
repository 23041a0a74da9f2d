//! Runs the sides of the comparison on the same jobs and holds their whole outcomes against each
//! other: answer and every lent place.
//!
//! - `compare SEED RANDOM STEERED` runs the jobs of the grids, RANDOM random ones and about STEERED
//!   steered ones, and says which tests and outcomes they reach.
//! - `compare bulk SEED JOBS` runs the grids and JOBS random ones on 000 and, where it is built in, the
//!   proved code alone.
//! - `compare keyholes SEED JOBS` likewise, only the grid and families that 02's 2026-02 let in.
//! - `compare rows` runs the jobs that standard input holds, a row each, and prints their outcomes.
//! - `compare cover SEED RANDOM STEERED` prints a short list of small jobs that reaches all that
//!   these reach.
//! - `compare layers SEED COUNT` holds the inner functions of the proved code to 01's arithmetic.
//! - `compare rules SEED RANDOM STEERED` holds each join of such jobs, and of the families that 2026-02
//!   let in, by itself: the proved code's against the traced one, with cause, numbers and rules.
//! - `compare rules` does so for the jobs that standard input holds, a row each.
//! - `compare why SEED RANDOM STEERED` asks the proved code of each output segment of such jobs which
//!   move it is and why its flag is set or clear, and holds the answer to the traced job's.
//! - `compare why` does so for the jobs that standard input holds, a row each.
//! - `compare parts SEED RANDOM STEERED` asks the proved code for the part of each source segment of such
//!   jobs, and of made-up lists, and holds it to 02's 2026-09; it lends each buffer a place too few.
//! - `compare parts` does so for the jobs, and for the questions, that standard input holds.
//! - `compare pointed SEED RANDOM STEERED` runs jobs of the pointed mode, 02's 2026-13, on the proved code
//!   and on the traced job, with what is told of each output segment and each source segment's part.
//! - `compare pointed` does so for the jobs that standard input holds, a row each.
//! - `compare columns SEED RANDOM STEERED` runs jobs of both modes in columns, 02's 2026-08, on the proved code
//!   and on 000 or the traced walk by the request's words, and in rows; with unequal columns, bad numbers in
//!   any of them, and buffers of any lengths.
//! - `compare columns` does so for the jobs, and for the calls, that standard input holds.
//! - `compare draws SEED SCRIPTS STEERED` runs scripts of calls for jobs drawn vertex by vertex, 02's 2026-05, on
//!   the proved code, or without it on the traced walk, and on a reference that keeps every vertex; each job is
//!   held to the whole form.
//! - `compare draws` does so for the scripts that standard input holds.
//! - `compare draws-wrong SEED SCRIPTS` says which of such scripts tell wrong readings of 2026-05 from that.
//! - `compare outputs SEED RANDOM JOBS` lays outputs with flags side by side, 02's 2026-03, on the proved code, or
//!   without it on another shape, and on the reference: random pairs, and the outputs of jobs, changed or not.
//! - `compare outputs` does so for the pairs that standard input holds.
//! - `compare outputs-wrong SEED RANDOM` says which of such pairs tell wrong readings of 2026-03 from that.

#[cfg(all(feature = "proved", with_000))]
mod columns;
#[cfg(with_000)]
mod cover;
#[cfg(with_000)]
mod draws;
#[cfg(with_000)]
mod jobs;
#[cfg(feature = "layers")]
mod layers;
#[cfg(all(feature = "proved", with_000))]
mod made;
#[cfg(all(any(feature = "layers", feature = "proved"), with_000))]
mod near;
#[cfg(with_000)]
mod newly;
#[cfg(with_000)]
mod outputs;
#[cfg(all(feature = "proved", with_000))]
mod parts;
#[cfg(all(feature = "proved", with_000))]
mod pointed;
#[cfg(all(feature = "layers", with_000))]
mod rules;
#[cfg(with_000)]
mod sides;
#[cfg(with_000)]
mod steered;
#[cfg(all(feature = "proved", with_000))]
mod why;

use std::process::exit;

fn main() {
    let words: Vec<String> = std::env::args().skip(1).collect();
    let (mode, numbers) = match words.split_first() {
        Some((first, rest)) if first.parse::<u64>().is_err() => (first.as_str(), rest),
        _ => ("", words.as_slice()),
    };
    let numbers: Option<Vec<u64>> = numbers.iter().map(|word| word.parse().ok()).collect();
    let alike = numbers.and_then(|numbers| run(mode, &numbers));
    match alike {
        Some(true) => {}
        Some(false) => exit(1),
        None => {
            eprintln!(
                "usage: compare [cover] SEED RANDOM STEERED | bulk SEED JOBS | keyholes SEED JOBS \
                 | layers SEED COUNT | rules [SEED RANDOM STEERED] | why [SEED RANDOM STEERED] \
                 | parts [SEED RANDOM STEERED] | pointed [SEED RANDOM STEERED] \
                 | columns [SEED RANDOM STEERED] | draws [SEED SCRIPTS STEERED] \
                 | draws-wrong SEED SCRIPTS | outputs [SEED RANDOM JOBS] \
                 | outputs-wrong SEED RANDOM | rows"
            );
            exit(2);
        }
    }
}

/// Whether all sides agree; nothing where the words mean nothing.
fn run(mode: &str, numbers: &[u64]) -> Option<bool> {
    match (mode, numbers) {
        #[cfg(feature = "layers")]
        ("layers", [seed, count]) => Some(layers::compare(*seed, *count)),
        _ => run_jobs(mode, numbers),
    }
}

#[cfg(not(with_000))]
fn run_jobs(_: &str, _: &[u64]) -> Option<bool> {
    eprintln!("compare: built without 000");
    exit(oracle::WITHOUT_000);
}

#[cfg(with_000)]
fn run_jobs(mode: &str, numbers: &[u64]) -> Option<bool> {
    match (mode, numbers) {
        ("", [seed, random, steered]) => Some(steered::compare(*seed, *random, *steered)),
        ("cover", [seed, random, steered]) => {
            cover::cover(*seed, *random, *steered);
            Some(true)
        }
        ("bulk", [seed, jobs]) => Some(sides::bulk(*seed, *jobs)),
        ("keyholes", [seed, jobs]) => Some(sides::keyholes(*seed, *jobs)),
        ("draws", [seed, scripts, steered]) => Some(draws::compare(*seed, *scripts, *steered)),
        ("draws", []) => Some(draws::rows()),
        ("draws-wrong", [seed, scripts]) => Some(draws::wrong(*seed, *scripts)),
        ("outputs", [seed, random, jobs]) => Some(outputs::compare(*seed, *random, *jobs)),
        ("outputs", []) => Some(outputs::rows()),
        ("outputs-wrong", [seed, random]) => Some(outputs::wrong(*seed, *random)),
        ("rows", []) => Some(sides::rows()),
        #[cfg(feature = "layers")]
        ("rules", [seed, random, steered]) => Some(rules::compare(*seed, *random, *steered)),
        #[cfg(feature = "layers")]
        ("rules", []) => Some(rules::rows()),
        #[cfg(feature = "proved")]
        ("why", [seed, random, steered]) => Some(why::compare(*seed, *random, *steered)),
        #[cfg(feature = "proved")]
        ("why", []) => Some(why::rows()),
        #[cfg(feature = "proved")]
        ("parts", [seed, random, steered]) => Some(parts::compare(*seed, *random, *steered)),
        #[cfg(feature = "proved")]
        ("parts", []) => Some(parts::rows()),
        #[cfg(feature = "proved")]
        ("pointed", [seed, random, steered]) => Some(pointed::compare(*seed, *random, *steered)),
        #[cfg(feature = "proved")]
        ("pointed", []) => Some(pointed::rows()),
        #[cfg(feature = "proved")]
        ("columns", [seed, random, steered]) => Some(columns::compare(*seed, *random, *steered)),
        #[cfg(feature = "proved")]
        ("columns", []) => Some(columns::rows()),
        _ => None,
    }
}
