//! why [TURNS]: times a question, `blidrosk_why`, beside the offset of the same drawing, in one run.
//!
//! The segment asked for is the middle one of the output. Before anything is timed, it is told, and
//! its flag is held to its reason. How it is timed stands in bench/src/beside.rs.
use bench::beside::{table, Drawn, Figures};
use bench::drawings::EPS;
use oracle::proved;
use oracle::stage::{Buffers, Job};
use std::hint::black_box;

/// The reasons for which a flag is set.
const INVALID: [u32; 7] = [2, 3, 7, 8, 9, 10, 11];

fn main() {
    table("why", "offset", "why", figures);
}

fn figures(drawn: Drawn) -> Figures {
    let Drawn { shape, side, v, .. } = drawn;
    let job = Job::new(shape.closed, side * shape.offset, EPS, shape.source(v));
    let mut buffers = Buffers::of(job.room);
    let segment = told(&job, &mut buffers);
    drawn.time(
        || {
            black_box(proved::job(black_box(&job), buffers.lend(job.room)));
        },
        || {
            black_box(proved::why(black_box(&job), segment));
        },
    )
}

/// The middle segment of the output, which has to be told with a reason that goes with its flag.
fn told(job: &Job, buffers: &mut Buffers) -> u32 {
    let [number, _, vertices, _, closed] = proved::job(job, buffers.lend(job.room));
    assert!(number == 0, "refused: {job:?}");
    let segments = vertices - (1 - closed);
    let segment = segments / 2;
    let flag = buffers.lend(job.room).flags[segment as usize];
    let ([number, _, _, _, reason, _, _], _) = proved::why(job, segment);
    assert!(number == 0, "segment {segment} is not told: {job:?}");
    assert!(
        (flag == 1) == INVALID.contains(&reason),
        "segment {segment} has reason {reason} and flag {flag}: {job:?}"
    );
    let ([past, ..], _) = proved::why(job, segments);
    assert!(past == 8, "segment {segments} is told: {job:?}");
    segment
}
