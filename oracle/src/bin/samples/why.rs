//! The stored input and output of the program that tells reasons.
//!
//! The input is words of eight bytes, highest byte first: the count of jobs, then for each the numbers of
//! its source, closed, offset, ε, and the source; of the pointed mode, closed is 2 or 3 and the ratio comes
//! after ε. The output has a line for each segment in turn, one for
//! the first number that is none, and one for the largest: the answer, then both parameters.

use crate::jobs;
use oracle::stage::Job;
use oracle::text::{exact, mode};
use oracle::traced::{Reason, Whys, told, whys};
use std::fmt::Write;
use std::path::Path;
use std::{fs, io};

/// The places of the program's source.
const SOURCE: usize = 128;

pub fn write(folder: &Path) -> io::Result<()> {
    let jobs: Vec<Job> = jobs::of_reasons().chain(jobs::of_pointed()).collect();
    let mut input = (jobs.len() as u64).to_be_bytes().to_vec();
    let mut output = String::new();
    let mut reasons = [0; Reason::COUNT];
    for job in &jobs {
        input.extend(packed(job));
        let whys = whys(job);
        output += &lines(&whys);
        for why in whys.iter().flatten() {
            reasons[why.reason.number() as usize - 1] += 1;
        }
    }
    println!("{} jobs; segments by reason:", jobs.len());
    for (name, count) in Reason::NAMES.iter().zip(reasons) {
        println!("  {name:32} {count:>5}");
    }
    fs::write(folder.join("stdin"), input)?;
    fs::write(folder.join("stdout"), output)
}

fn packed(job: &Job) -> Vec<u8> {
    assert!(job.source.len() <= SOURCE, "no place for {job:?}");
    let mut words = vec![job.source.len() as u64, mode(job).into()];
    words.extend([job.offset, job.eps].map(f64::to_bits));
    words.extend(job.ratio.map(f64::to_bits));
    words.extend(job.source.iter().map(|number| number.to_bits()));
    words.into_iter().flat_map(u64::to_be_bytes).collect()
}

fn lines(whys: &Whys) -> String {
    let count = whys.as_ref().map_or(0, Vec::len) as u32;
    let mut lines = String::new();
    for segment in (0..=count).chain([u32::MAX]) {
        let (answer, params) = told(whys, segment);
        let answer = answer.map(|number| number.to_string()).join(" ");
        let [start, end] = params.map(exact);
        writeln!(lines, "{answer} {start} {end}").expect("a string takes all");
    }
    lines
}
