//! Jobs near samples, and among others.

use crate::jobs::{each_plain_job, each_random_job, each_steered_job, samples};
#[cfg(feature = "proved")]
use oracle::generate::REASONS;
use oracle::generate::{KEYHOLES, Random};
use oracle::stage::Job;

/// For so many random jobs there is one near a sample: few others have a point past an end.
const PER_SAMPLE: u64 = 10;

/// Jobs that reach each rule by which a trimmed arc is granted.
const RULES: &str = include_str!("../samples/rules.txt");

/// Jobs that reach each reason, by each way to it.
#[cfg(feature = "proved")]
const WHYS: &str = include_str!("../samples/why.txt");

/// Hands out the jobs of `each_ruled_job`, and as many of the families and near the samples made for
/// reasons.
#[cfg(feature = "proved")]
pub fn each_reasoned_job(
    seed: u64,
    random: u64,
    steered: u64,
    mut take: impl FnMut(&'static str, &Job),
) {
    samples(WHYS).iter().for_each(|job| take("samples", job));
    take("too many", &too_many());
    each_near_sample(WHYS, seed, random, &mut take);
    each_random_job(REASONS, seed, random, &mut take);
    each_ruled_job(seed, random, steered, take);
}

/// One vertex more than may be; of random jobs few have as many.
#[cfg(feature = "proved")]
fn too_many() -> Job {
    let source = (0..=4096).flat_map(|i| [f64::from(i), 0.0, 0.0]);
    Job::new(false, 1.0, 1e-5, source.collect())
}

/// Hands out the jobs of the grids, random ones of all families and once more of those that 2026-02
/// let in, jobs near the samples, and steered ones.
pub fn each_ruled_job(
    seed: u64,
    random: u64,
    steered: u64,
    mut take: impl FnMut(&'static str, &Job),
) {
    each_plain_job(seed, random, &mut take);
    each_random_job(KEYHOLES, !seed, random, &mut take);
    each_near_sample(RULES, seed, random / PER_SAMPLE, &mut take);
    each_steered_job(seed, steered, take);
}

/// Hands out `count` jobs of a list of samples with one or two of their numbers moved a little.
pub fn each_near_sample(
    list: &str,
    seed: u64,
    count: u64,
    mut take: impl FnMut(&'static str, &Job),
) {
    let samples = samples(list);
    let mut random = Random::new(seed);
    for i in 0..count {
        let mut job = samples[i as usize % samples.len()].clone();
        for _ in 0..=random.below(2) {
            let slot = random.below(job.source.len() + 1);
            let number = job.source.get_mut(slot).unwrap_or(&mut job.offset);
            let size = random.size(-12.0, -1.0);
            *number += random.around(size) * number.abs().max(job.eps);
        }
        take("near samples", &job);
    }
}
