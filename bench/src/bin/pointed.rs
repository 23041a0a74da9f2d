//! pointed [TURNS]: times whole jobs with pointed corners beside the same with round ones, in one run.
//!
//! The ratio is the largest, so that the most corners are pointed. 000 has no such mode. Before
//! anything is timed, both are held to each other: a job is done in both modes with the same spans,
//! and arcs alone are drawn alike. How it is timed stands in bench/src/beside.rs.
use bench::beside::{table, Drawn, Figures};
use bench::drawings::EPS;
use oracle::proved;
use oracle::stage::{Buffers, Job, Outcome};
use std::hint::black_box;

const RATIO: f64 = 10.0;

fn main() {
    table("pointed", "round", "pointed", figures);
}

fn figures(drawn: Drawn) -> Figures {
    let Drawn { shape, side, v, .. } = drawn;
    let round = Job::new(shape.closed, side * shape.offset, EPS, shape.source(v));
    let mut pointed = round.clone();
    pointed.ratio = Some(RATIO);
    pointed.lend(3 * pointed.segments());
    hold(drawn.kind, &round, &pointed);
    let [mut one, mut other] = [&round, &pointed].map(|job| Buffers::of(job.room));
    drawn.time(
        || {
            black_box(proved::job(black_box(&round), one.lend(round.room)));
        },
        || {
            black_box(proved::job(black_box(&pointed), other.lend(pointed.room)));
        },
    )
}

fn hold(kind: &str, round: &Job, pointed: &Job) {
    let a = round.run(proved::job);
    let b = pointed.run(proved::job);
    assert!(a.answer[0] == 0 && b.answer[0] == 0, "refused: {round:?}");
    assert!(spans(&a) == spans(&b), "spans differ: {round:?}");
    let alike = a.drawn() == b.drawn();
    assert!(alike || kind != "arcs", "arcs differ: {round:?}");
}

/// Where each span starts, its bulge and its origin.
fn spans(outcome: &Outcome) -> Vec<([f64; 3], u32)> {
    let origins = outcome.drawn_origins().iter().copied();
    let pieces = outcome.drawn().into_iter().zip(origins);
    pieces.filter(|(_, origin)| origin % 2 == 0).collect()
}
