//! The jobs of `samples` reach every test both ways and every event, but for those listed here.

use oracle::text::read_job;
use oracle::traced::Event::{No1, No2, No4};
use oracle::traced::{EXPECTED, POINTED, Site, Table, Trace, job};

const JOBS: [&str; 2] = [
    include_str!("../src/bin/samples/settled.txt"),
    include_str!("../src/bin/samples/jobs.txt"),
];

const POINTED_JOBS: &str = include_str!("../src/bin/samples/pointed.txt");

/// Not in the list of samples: ragged and long lists, and little room, which `scope.rs` has.
const ELSEWHERE: &[(Site, bool)] = &[
    (Site::Ragged, true),
    (Site::TooMany, true),
    (Site::NoRoomVertices, true),
    (Site::NoRoomFlags, true),
    (Site::NoRoomIndexes, true),
    (Site::NoRoomOrigins, true),
];

/// No job is known. Two candidates lie further apart than ε, or they would be one tangent point, and
/// the ends that they stand for lie ε apart, so the offset is at least half of ε. Rounding counts most
/// where a circle of about ε meets one 4e7 times as large, and leaves the sum 7 % above its bound.
const NOT_KNOWN: &[(Site, bool)] = &[(Site::SumSmall, true)];

#[test]
fn the_sample_jobs_reach_all() {
    let mut table = Table::default();
    let rows = JOBS.iter().flat_map(|list| list.lines());
    for row in rows.filter(|row| !row.starts_with('#')) {
        let mut trace = Trace::new();
        job(&mut trace, &read_job(row).expect("a job"));
        table.add(&trace);
    }
    let mut missing = Vec::new();
    for site in Site::ROUND {
        for answer in [false, true] {
            let one = (*site, answer);
            let reached = table.sites[*site as usize][usize::from(answer)] > 0;
            if !reached && !ELSEWHERE.contains(&one) && !NOT_KNOWN.contains(&one) {
                missing.push(format!("{}: {answer}", site.text()));
            }
        }
    }
    for (pair, events) in EXPECTED {
        for event in *events {
            let reached = table.events[*event as usize][*pair as usize] > 0;
            if !reached && !matches!(event, No1 | No2 | No4) {
                missing.push(format!("{} {}", pair.text(), event.text()));
            }
        }
    }
    assert!(missing.is_empty(), "{missing:#?}");
}

/// Those of the pointed mode, all that it has besides.
#[test]
fn the_pointed_sample_jobs_reach_all() {
    let mut table = Table::default();
    for row in POINTED_JOBS.lines().filter(|row| !row.starts_with('#')) {
        let mut trace = Trace::new();
        job(&mut trace, &read_job(row).expect("a job"));
        table.add(&trace);
    }
    for site in Site::POINTED {
        let [no, yes] = table.sites[*site as usize];
        assert!(no > 0 && yes > 0, "{}", site.text());
    }
    for (pair, events) in POINTED {
        for event in *events {
            let count = table.events[*event as usize][*pair as usize];
            assert!(count > 0, "{}", event.text());
        }
    }
    assert!(table.not_listed().is_empty());
}
