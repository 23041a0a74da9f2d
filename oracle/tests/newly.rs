//! Which jobs 2026-02 let in, and that the families made for them reach them.
#![cfg(with_000)]

use oracle::generate::{FAMILIES, KEYHOLES, Random};
use oracle::newly::{Newly, newly_accepted};
use oracle::stage::Job;

fn newly(job: &Job) -> Option<Newly> {
    newly_accepted(job, job.run(oracle::job).answer[0])
}

#[test]
fn it_goes_by_what_01_refused() {
    let near = 1e-5_f64.next_down();
    let ends = [0.0, 0.0, 1000.0, 4.0, 3.0, 0.0];
    let plain = Job::new(false, 1.0, 1e-5, ends.to_vec());
    assert_eq!(newly(&plain), None);
    let with = |slot: usize, number: f64| {
        let mut job = plain.clone();
        job.source[slot] = number;
        job
    };
    let steep = with(2, -1000.0_f64.next_up());
    assert_eq!(newly(&steep), Some(Newly::Bulge));
    // The last bulge of an open job is tested too; above the new limit it is still refused.
    assert_eq!(newly(&with(5, 1e9)), Some(Newly::Bulge));
    assert_eq!(newly(&with(5, 1e9_f64.next_up())), None);
    let mut short = plain.clone();
    short.source[3..5].copy_from_slice(&[near, -near]);
    assert_eq!(newly(&short), Some(Newly::Short));
    short.source[2] = 1e9;
    assert_eq!(newly(&short), Some(Newly::Both));
    // A copy asks for no distance; ε apart was let in by 01, and equal vertices never are.
    short.offset = 0.0;
    assert_eq!(newly(&short), Some(Newly::Bulge));
    short.source[2] = 0.0;
    assert_eq!(newly(&short), None);
    short.offset = 1.0;
    short.source[3] = 1e-5;
    assert_eq!(newly(&short), None);
    short.source[3..5].fill(0.0);
    assert_eq!(newly(&short), None);
}

#[test]
fn last_to_first_counts_in_a_closed_job() {
    let corners = vec![0.0, 0.0, 0.0, 4.0, 0.0, 0.0, 1e-6, 1e-6, 0.0];
    let open = Job::new(false, 1.0, 1e-5, corners.clone());
    assert_eq!(newly(&open), None);
    let closed = Job::new(true, 1.0, 1e-5, corners);
    assert_eq!(newly(&closed), Some(Newly::Short));
    // One vertex has no segment, whatever its bulge.
    assert_eq!(newly(&Job::new(true, 1.0, 1e-5, vec![1.0, 2.0, 1e6])), None);
}

#[test]
fn each_family_made_for_them_reaches_them() {
    let mut random = Random::new(5);
    for (name, family) in KEYHOLES {
        assert!(FAMILIES.iter().any(|other| other.0 == *name), "{name}");
        let jobs: Vec<Job> = (0..1000).map(|_| family(&mut random)).collect();
        let reached = jobs.iter().filter(|job| newly(job).is_some()).count();
        assert!(reached > 400, "{name}: {reached}");
    }
}
