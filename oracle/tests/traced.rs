//! The traced job is the oracle's on every job tried.
#![cfg(with_000)]

use oracle::generate::{FAMILIES, Random, Steering, with_a_nan};
use oracle::stage::Job;
use oracle::text::{any_job_row, job_row, read_job};
use oracle::traced::stage as traced;

fn agrees(job: &Job) {
    assert_eq!(job.run(oracle::job), job.run(traced), "{job:?}");
}

#[test]
fn on_random_jobs() {
    let mut random = Random::new(1);
    for _ in 0..2000 {
        for (_, family) in FAMILIES {
            agrees(&family(&mut random));
        }
    }
}

#[test]
fn on_steered_jobs() {
    let mut steering = Steering::new(1);
    for _ in 0..5000 {
        for job in steering.around_a_turn() {
            agrees(&job);
        }
    }
}

#[test]
fn a_job_is_read_as_it_was_written() {
    let mut random = Random::new(2);
    for _ in 0..1000 {
        let job = FAMILIES[0].1(&mut random);
        assert_eq!(read_job(&job_row(&job)), Some(job));
    }
    let (_, damaged) = FAMILIES
        .iter()
        .find(|f| f.0 == "damaged")
        .expect("it is there");
    for _ in 0..1000 {
        let good = damaged(&mut random);
        for job in [with_a_nan(&mut random, &good), good] {
            let read = read_job(&any_job_row(&job)).expect("a job");
            assert_eq!(any_job_row(&read), any_job_row(&job));
            assert_eq!(read.before(), job.before());
        }
    }
    assert_eq!(read_job("2 0 0 0"), None);
    assert_eq!(read_job("0 3ff0000000000000 3ee4f8b588e368f1 1 0"), None);
}
