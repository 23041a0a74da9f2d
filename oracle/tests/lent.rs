//! What is lent stays where it has to: every bit of it, whatever it was. The logic has one NaN, so
//! that a NaN's sign and payload are left open by the proof; the comparison lends all kinds.
#![cfg(with_000)]

use oracle::generate::{FAMILIES, Random, with_a_nan};
use oracle::stage::{Answer, Before, Job, Lent, Outcome, Stage};

const STAGES: &[Stage] = &[
    oracle::job,
    oracle::traced::stage,
    #[cfg(feature = "proved")]
    oracle::proved::job,
];

const QUIET: u64 = 1 << 51;

fn is_signalling(bits: u64) -> bool {
    f64::from_bits(bits).is_nan() && bits & QUIET == 0
}

/// A job for each answer, and for the two that draw nothing and copy.
fn jobs() -> Vec<(u32, Job)> {
    let corner = [[0.0, 0.0, 0.0], [4.0, 0.0, 0.5], [4.0, 1.0, 0.0]].concat();
    let good = Job::new(false, 2.0, 1e-5, corner.clone());
    let not_finite = vec![5.0, 0.0, 0.6180339887498949, -3.0, 4.0, 0.0, 5.0, 4.0, 0.0];
    let mut short = good.clone();
    short.lend(3);
    vec![
        (0, good.clone()),
        (0, Job::new(true, -0.0, 1e-5, corner.clone())),
        (0, Job::new(true, 1.0, 1e-5, vec![1.0, 2.0, 3.0])),
        (1, Job::new(false, 2.0, 1e-5, corner[..8].to_vec())),
        (2, Job::new(false, 2.0, 1e-5, vec![0.0; 3 * 4097])),
        (3, Job { eps: 1.0, ..good }),
        (4, short),
        (
            5,
            Job::new(true, 2.0, 1e-5, [&corner[..], &corner[..3]].concat()),
        ),
        (
            6,
            Job::new(false, 0.5000002384185791, 4.7683715820312495e-7, not_finite),
        ),
    ]
}

fn all_patterns() -> impl Iterator<Item = Before> {
    (0..Before::PATTERNS).map(Before::pattern)
}

fn run(job: &Job, before: Before, stage: Stage) -> Outcome {
    job.run_over(before, job.room.map(|lent| lent + 5), stage)
}

#[test]
fn every_answer_keeps_every_pattern() {
    for (number, job) in jobs() {
        for before in all_patterns() {
            let expected = run(&job, before, oracle::job);
            assert_eq!(expected.answer[0], number, "{job:?}");
            for stage in STAGES {
                let outcome = run(&job, before, *stage);
                assert!(outcome.keeps(&job, before), "{job:?} {before:?}");
                assert_eq!(outcome, expected, "{job:?} {before:?}");
            }
        }
    }
}

#[test]
fn a_source_with_any_nan_is_refused() {
    let mut random = Random::new(3);
    let (mut signalling, mut negative) = (0, 0);
    for turn in 0..20_000 {
        let good = FAMILIES[turn % FAMILIES.len()].1(&mut random);
        let job = with_a_nan(&mut random, &good);
        let numbers = [job.offset, job.eps];
        let numbers = numbers.iter().chain(&job.source);
        let nans: Vec<u64> = numbers
            .filter(|x| x.is_nan())
            .map(|x| x.to_bits())
            .collect();
        signalling += nans.iter().filter(|bits| is_signalling(**bits)).count();
        negative += nans.iter().filter(|bits| **bits >> 63 == 1).count();
        for stage in STAGES {
            let outcome = job.run_compared(*stage);
            assert!((1..=3).contains(&outcome.answer[0]), "{job:?}");
            assert!(outcome.keeps(&job, job.before()), "{job:?}");
        }
    }
    assert!(signalling > 5000 && negative > 5000);
}

/// 000 with the last place that is lent rewritten as a step of arithmetic would: a NaN made quiet.
fn quieting(job: &Job, mut lent: Lent) -> Answer {
    let answer = oracle::job(job, lent.on());
    if let Some(last) = lent.vertices.last_mut().filter(|last| last.is_nan()) {
        *last = f64::from_bits(last.to_bits() | QUIET);
    }
    answer
}

/// 000 with the first number, flag, index or origin past 2n set to zero.
fn zeroing<const KIND: usize>(job: &Job, mut lent: Lent) -> Answer {
    let answer = oracle::job(job, lent.on());
    let past = 2 * job.segments();
    match KIND {
        0 if 3 * past < lent.vertices.len() => lent.vertices[3 * past] = 0.0,
        1 if past < lent.flags.len() => lent.flags[past] = 0,
        2 if past < lent.indexes.len() => lent.indexes[past] = 0,
        3 if past < lent.origins.len() => lent.origins[past] = 0,
        _ => {}
    }
    answer
}

/// How many of 3800 random jobs show that a stage is not 000.
fn seen(wrong: Stage) -> usize {
    let mut random = Random::new(4);
    let jobs = (0..3800).map(|turn| FAMILIES[turn % FAMILIES.len()].1(&mut random));
    let differs = |job: &Job| {
        let (outcome, expected) = (job.run_compared(wrong), job.run_compared(oracle::job));
        assert!(expected.keeps(job, job.before()), "{job:?}");
        assert_eq!(
            outcome.keeps(job, job.before()),
            outcome == expected,
            "{job:?}"
        );
        outcome != expected
    };
    jobs.filter(differs).count()
}

#[test]
fn wrong_stages_are_seen() {
    assert_eq!(seen(oracle::job), 0);
    // Five of sixteen entries are signalling NaNs.
    let quieted = seen(quieting);
    assert!((900..1400).contains(&quieted), "{quieted}");
    for stage in [zeroing::<0>, zeroing::<1>, zeroing::<2>, zeroing::<3>] {
        let zeroed = seen(stage);
        assert!(zeroed > 3500, "{zeroed}");
    }
}
