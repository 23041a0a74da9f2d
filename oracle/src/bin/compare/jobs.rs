//! The jobs in turn, each with the name of its family.

use oracle::generate::{
    FAMILIES, Family, Random, Steering, each_close_job, each_short_job, with_a_nan,
};
use oracle::stage::Job;
use oracle::text::read_job;
use std::io::stdin;

/// One in so many random jobs is handed out again with a NaN in it.
const PER_NAN: u64 = 20;

/// Hands out the jobs of the grids and `random` random ones of all families.
pub fn each_plain_job(seed: u64, random: u64, mut take: impl FnMut(&'static str, &Job)) {
    each_short_job(|job| take("grid", &job));
    each_close_job(|job| take("close grid", &job));
    each_random_job(FAMILIES, seed, random, take);
}

/// Hands out the jobs of standard input, a row each, and says how many rows are none of the round mode.
pub fn each_row(mut take: impl FnMut(&Job)) -> u64 {
    each_line(|row| read_round(row).map(|job| take(&job)).is_some())
}

/// Reads a job of the round mode, the only one that 000 has.
pub fn read_round(row: &str) -> Option<Job> {
    read_job(row).filter(|job| job.ratio.is_none())
}

/// The jobs of a list of samples.
pub fn samples(list: &str) -> Vec<Job> {
    let rows = list.lines().filter(|row| !row.starts_with('#'));
    rows.map(|row| read_job(row).expect("a job")).collect()
}

/// Hands out the rows of standard input, and says how many were not taken.
pub fn each_line(mut take: impl FnMut(&str) -> bool) -> u64 {
    let mut none = 0;
    for row in stdin().lines() {
        let row = row.expect("standard input can be read");
        if !take(&row) {
            println!("no job: {row}");
            none += 1;
        }
    }
    none
}

/// Hands out `count` jobs, by turns of each family, some of them once more with a NaN.
pub fn each_random_job(
    families: &[Family],
    seed: u64,
    count: u64,
    mut take: impl FnMut(&'static str, &Job),
) {
    let mut source = Random::new(seed);
    let mut nans = Random::new(seed.rotate_left(32));
    for i in 0..count {
        let (name, family) = families[i as usize % families.len()];
        let job = family(&mut source);
        take(name, &job);
        if i % PER_NAN == 0 {
            take("with a NaN", &with_a_nan(&mut nans, &job));
        }
    }
}

/// Hands out the plain jobs and about `steered` steered ones.
pub fn each_job(
    seed: u64,
    random: u64,
    steered: u64,
    mut take: impl FnMut(&'static str, &Job),
) -> Steering {
    each_plain_job(seed, random, &mut take);
    each_steered_job(seed, steered, take)
}

/// Hands out about `steered` steered jobs.
pub fn each_steered_job(
    seed: u64,
    steered: u64,
    mut take: impl FnMut(&'static str, &Job),
) -> Steering {
    let mut steering = Steering::new(!seed);
    steer(&mut steering, steered, |job| take("steered", job));
    steering
}

/// Hands out about `steered` jobs of a steering.
pub fn steer(steering: &mut Steering, steered: u64, mut take: impl FnMut(&Job)) {
    let (mut given, mut tries) = (0, 0);
    while given < steered && tries < 100 * steered {
        tries += 1;
        for job in steering.around_a_turn() {
            given += 1;
            take(&job);
        }
    }
}
