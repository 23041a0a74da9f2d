//! Whole jobs, most of them open and of three vertices: two segments and one join.

use oracle::stage::Job;
use oracle::text::{job_row, outcome_row, read_job};

/// Comments and jobs: 01's rows and settled points, then what `compare cover` found.
const JOBS: [&str; 2] = [include_str!("settled.txt"), include_str!("jobs.txt")];

/// Jobs that reach each rule by which a trimmed arc is granted; for joins alone.
const RULES: &str = include_str!("rules.txt");

/// Jobs that reach each reason why a segment's flag is set or clear.
const REASONS: &str = include_str!("why.txt");

/// Jobs of the pointed mode: its settled points and every branch.
const POINTED: &str = include_str!("pointed.txt");

/// Each job of the two lists.
pub fn all() -> impl Iterator<Item = Job> {
    JOBS.iter().flat_map(|list| listed(list))
}

/// Each job of the list for joins.
pub fn of_rules() -> impl Iterator<Item = Job> {
    listed(RULES)
}

/// Each job of the list for reasons.
pub fn of_reasons() -> impl Iterator<Item = Job> {
    listed(REASONS)
}

/// Each job of the list for the pointed mode.
pub fn of_pointed() -> impl Iterator<Item = Job> {
    listed(POINTED)
}

fn listed(list: &'static str) -> impl Iterator<Item = Job> {
    let lines = list.lines();
    lines.filter(|line| !line.starts_with('#')).map(job)
}

fn job(line: &str) -> Job {
    read_job(line).unwrap_or_else(|| panic!("not a job: {line}"))
}

pub fn print() {
    println!("# job: closed offset eps v vertices -> number place vertices indexes closed,");
    println!(
        "# the drawn vertices, a flag for each segment, the indexes, an origin for each segment"
    );
    for line in JOBS.iter().flat_map(|list| list.lines()) {
        if line.starts_with('#') {
            println!("{line}");
            continue;
        }
        let job = job(line);
        let outcome = job.run(oracle::job);
        println!("job {} -> {}", job_row(&job), outcome_row(&outcome));
    }
}
