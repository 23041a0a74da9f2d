//! 01 section 5's rows and limits, and what section 1 says of the buffers; Nos. 3 and 5 as 02's
//! 2026-02 amends them, No. 4 and the origins by 2026-09.
#![cfg(with_000)]

use oracle::job;
use oracle::stage::{Before, Job, Outcome};

const EPS: f64 = 1e-5;

fn numbers(vertices: &[[f64; 3]]) -> Vec<f64> {
    vertices.as_flattened().to_vec()
}

fn line(points: &[[f64; 2]]) -> Vec<[f64; 3]> {
    points.iter().map(|p| [p[0], p[1], 0.0]).collect()
}

fn open(points: &[[f64; 2]], offset: f64) -> Job {
    Job::new(false, offset, EPS, numbers(&line(points)))
}

fn square(offset: f64) -> Job {
    let corners = line(&[[0.0, 0.0], [4.0, 0.0], [4.0, 4.0], [0.0, 4.0]]);
    Job::new(true, offset, EPS, numbers(&corners))
}

/// A drawing: its vertices, the indexes, the origins' codes, and whether it is closed.
type Drawing<'a> = (&'a [[f64; 3]], &'a [u32], &'a [u32], bool);

/// No vertex.
const NOTHING: Drawing = (&[], &[], &[], false);

/// The whole outcome of a done job: the drawing, zeros up to 2n, and untouched places from there.
fn done(job: &Job, (drawn, invalid, origins, closed): Drawing) -> Outcome {
    let room = 2 * job.segments();
    let answer = [
        0,
        0,
        drawn.len() as u32,
        invalid.len() as u32,
        closed.into(),
    ];
    let mut outcome = Outcome::untouched(answer, Before::MARKS, job.room);
    outcome.vertices[..3 * room].fill(0);
    outcome.flags[..room].fill(0);
    outcome.indexes[..room].fill(0);
    outcome.origins[..room].fill(0);
    outcome.origins[..origins.len()].copy_from_slice(origins);
    for (place, number) in outcome.vertices.iter_mut().zip(drawn.as_flattened()) {
        *place = number.to_bits();
    }
    for (place, index) in outcome.indexes.iter_mut().zip(invalid) {
        *place = *index;
        outcome.flags[*index as usize] = 1;
    }
    outcome
}

/// The whole outcome of a refusal that changes nothing.
fn refused(job: &Job, number: u32, place: u32) -> Outcome {
    Outcome::untouched([number, place, 0, 0, 0], Before::MARKS, job.room)
}

fn outcome(job: &Job) -> Outcome {
    job.run(oracle::job)
}

fn draws(job: &Job, drawing: Drawing) {
    assert_eq!(outcome(job), done(job, drawing), "{job:?}");
}

fn refuses(job: &Job, number: u32, place: u32) {
    assert_eq!(outcome(job), refused(job, number, place), "{job:?}");
}

#[test]
fn rows_of_straight_open_jobs() {
    let straight = [[0.0, 0.0], [4.0, 0.0]];
    let row =
        |points: &[[f64; 2]], offset, drawn: &[[f64; 2]], invalid: &[u32], origins: &[u32]| {
            let drawing = (&line(drawn)[..], invalid, origins, false);
            draws(&open(points, offset), drawing);
        };
    row(&straight, 1.0, &[[0.0, 1.0], [4.0, 1.0]], &[], &[0]);
    row(&straight, -1.0, &[[0.0, -1.0], [4.0, -1.0]], &[], &[0]);
    row(
        &[[0.0, 0.0], [4.0, 0.0], [4.0, 4.0]],
        1.0,
        &[[0.0, 1.0], [3.0, 1.0], [3.0, 4.0]],
        &[],
        &[0, 2],
    );
    row(
        &[[0.0, 0.0], [4.0, 0.0], [8.0, 0.0]],
        1.0,
        &[[0.0, 1.0], [4.0, 1.0], [8.0, 1.0]],
        &[],
        &[0, 2],
    );
    row(
        &[[0.0, 0.0], [4.0, 0.0], [4.0, 1.0]],
        2.0,
        &[[0.0, 2.0], [4.0, 2.0], [2.0, 0.0], [2.0, 1.0]],
        &[1],
        &[0, 1, 2],
    );
}

#[test]
fn rows_with_round_connectors() {
    draws(
        &open(&[[0.0, 0.0], [4.0, 0.0], [0.0, 0.0]], 1.0),
        (
            &[
                [0.0, 1.0, 0.0],
                [4.0, 1.0, -1.0],
                [4.0, -1.0, 0.0],
                [0.0, -1.0, 0.0],
            ],
            &[],
            &[0, 1, 2],
            false,
        ),
    );
    draws(
        &open(&[[0.0, 0.0], [4.0, 0.0], [4.0, 4.0]], -1.0),
        (
            &[
                [0.0, -1.0, 0.0],
                [4.0, -1.0, f64::from_bits(0x3fda_8279_99fc_ef33)],
                [5.0, 0.0, 0.0],
                [5.0, 4.0, 0.0],
            ],
            &[],
            &[0, 1, 2],
            false,
        ),
    );
    assert_eq!(
        (1.0 / (1.0 + 2.0_f64.sqrt())).to_bits(),
        0x3fda_8279_99fc_ef33
    );
}

#[test]
fn rows_of_the_closed_square() {
    let smaller = line(&[[1.0, 1.0], [3.0, 1.0], [3.0, 3.0], [1.0, 3.0]]);
    draws(&square(1.0), (&smaller, &[], &[0, 2, 4, 6], true));
    let turned = line(&[[3.0, 3.0], [1.0, 3.0], [1.0, 1.0], [3.0, 1.0]]);
    let drawing: Drawing = (&turned, &[0, 1, 2, 3], &[0, 2, 4, 6], true);
    draws(&square(3.0), drawing);
    draws(&square(2.0), NOTHING);
}

#[test]
fn row_of_a_lone_collapsed_arc() {
    let job = Job::new(false, 3.0, EPS, vec![0.0, 0.0, 1.0, 4.0, 0.0, 0.0]);
    draws(&job, NOTHING);
}

#[test]
fn room_for_three_is_refused_and_four_suffices() {
    let points = [[0.0, 0.0], [4.0, 0.0], [4.0, 1.0]];
    let mut job = open(&points, 2.0);
    for (kind, need) in [(0, 12), (1, 4), (2, 4), (3, 4)] {
        for places in [need - 1, 0] {
            job.lend(4);
            job.room[kind] = places;
            refuses(&job, 4, 0);
            job.lend(40);
            job.room[kind] = places;
            refuses(&job, 4, 0);
        }
    }
    job.lend(4);
    assert_eq!(outcome(&job).answer, [0, 0, 4, 1, 0]);
    // A number of the next vertex is no room for it, and stays.
    job.room = [14, 6, 5, 7];
    let drawn = line(&[[0.0, 2.0], [4.0, 2.0], [2.0, 0.0], [2.0, 1.0]]);
    draws(&job, (&drawn, &[1], &[0, 1, 2], false));
}

#[test]
fn limits_pass_and_the_next_doubles_do_not() {
    let good = open(&[[0.0, 0.0], [4.0, 0.0], [4.0, 4.0]], 1.0);
    for (slot, limit) in [(3, 1_000_000.0), (4, 1_000_000.0), (5, 1_000_000_000.0)] {
        for sign in [1.0, -1.0] {
            let mut job = good.clone();
            job.source[slot] = sign * limit;
            assert_eq!(outcome(&job).answer[0], 0);
            for bad in [sign * limit.next_up(), sign * f64::INFINITY, f64::NAN] {
                job.source[slot] = bad;
                refuses(&job, 3, 1);
            }
        }
    }
    for sign in [1.0, -1.0] {
        let mut job = good.clone();
        job.offset = sign * 1_000_000.0;
        assert_eq!(outcome(&job).answer[0], 0);
        for bad in [job.offset * 2.0, sign * f64::INFINITY, f64::NAN] {
            job.offset = bad;
            refuses(&job, 3, 3);
        }
        job.offset = sign * 1_000_000.0_f64.next_up();
        refuses(&job, 3, 3);
    }
    for limit in [1e-9, 0.01] {
        let job = Job {
            eps: limit,
            ..good.clone()
        };
        assert_eq!(outcome(&job).answer[0], 0);
    }
    for eps in [
        1e-9_f64.next_down(),
        0.01_f64.next_up(),
        0.0,
        -1e-5,
        f64::NAN,
        f64::INFINITY,
    ] {
        refuses(
            &Job {
                eps,
                ..good.clone()
            },
            3,
            4,
        );
    }
}

#[test]
fn the_count_of_vertices_is_limited() {
    let zigzag = |v: usize| {
        let vertex = |i: usize| [i as f64, (i % 2) as f64, 0.0];
        (0..v).flat_map(vertex).collect::<Vec<f64>>()
    };
    for closed in [false, true] {
        let job = Job::new(closed, 0.125, EPS, zigzag(4096));
        assert_eq!(outcome(&job).answer[..2], [0, 0]);
        let mut job = Job::new(closed, 0.125, EPS, zigzag(4097));
        refuses(&job, 2, 0);
        // Ragged goes first, and too many before a bad number.
        job.source[0] = f64::NAN;
        refuses(&job, 2, 0);
        job.source.push(0.0);
        refuses(&job, 1, 0);
    }
}

#[test]
fn refusals_come_in_order() {
    let repeated = [[0.0, 0.0], [1.0, 0.0], [1.0, -0.0], [5.0, 5.0]];
    let mut job = open(&repeated, 1.0);
    refuses(&job, 5, 1);
    job.lend(5);
    refuses(&job, 4, 0);
    job.eps = 1.0;
    refuses(&job, 3, 5);
    job.offset = f64::NAN;
    refuses(&job, 3, 4);
    job.source[10] = f64::INFINITY;
    refuses(&job, 3, 3);
    job.source.pop();
    refuses(&job, 1, 0);
}

#[test]
fn equal_vertices_are_refused_at_the_first_pair() {
    let equal = [[2.0, 3.0], [2.0, 3.0]];
    let zeros = [[0.0, -0.0], [-0.0, 0.0]];
    for [a, b] in [equal, zeros] {
        for closed in [false, true] {
            let mut job = Job::new(closed, -1.0, EPS, numbers(&line(&[a, b, [4.0, 9.0]])));
            refuses(&job, 5, 0);
            job.source = numbers(&line(&[[4.0, 9.0], a, b]));
            refuses(&job, 5, 1);
            // A bulge makes no circle of two equal ends.
            job.source[5] = 1e9;
            refuses(&job, 5, 1);
        }
        let first_of_two = line(&[[4.0, 9.0], a, b, [5.0, 5.0], a, b]);
        refuses(&Job::new(false, 1.0, EPS, numbers(&first_of_two)), 5, 1);
        // Last to first counts only in a closed job.
        let back = numbers(&line(&[a, [4.0, 9.0], [7.0, 1.0], b]));
        refuses(&Job::new(true, 1.0, EPS, back.clone()), 5, 3);
        assert_eq!(outcome(&Job::new(false, 1.0, EPS, back)).answer[0], 0);
    }
}

/// Vertices that differ in one number, however little, are two.
#[test]
fn unequal_vertices_are_never_repeated() {
    let (up, down) = (2.0_f64.next_up(), 3.0_f64.next_down());
    let least = f64::from_bits(1);
    for [a, b] in [
        [[2.0, 3.0], [up, 3.0]],
        [[2.0, 3.0], [2.0, down]],
        [[0.0, -0.0], [least, 0.0]],
        [[0.0, 0.0], [-0.0, -least]],
        [[least, 0.0], [2.0 * least, 0.0]],
        [[1.0, 0.0], [1.0, 9.0e-6]],
        [[0.0, 0.0], [EPS.next_down(), -EPS.next_down()]],
    ] {
        for closed in [false, true] {
            for points in [[a, b, [4.0, 9.0]], [[4.0, 9.0], a, b], [b, [4.0, 9.0], a]] {
                for bulge in [0.0, 1.0, -1e9] {
                    let mut job = Job::new(closed, 1.0, EPS, numbers(&line(&points)));
                    job.source[2] = bulge;
                    let number = outcome(&job).answer[0];
                    assert!(number == 0 || number == 6, "{job:?}");
                }
            }
        }
    }
}

#[test]
fn a_zero_offset_copies() {
    let source = [[0.5, 0.0, 0.25], [0.5, 0.0, -3.0], [2.0, 1.0, 7.0]];
    for offset in [0.0, -0.0] {
        for closed in [false, true] {
            let mut job = Job::new(closed, offset, EPS, numbers(&source));
            let origins = &[0, 2, 4][..job.segments()];
            draws(&job, (&source, &[], origins, closed));
            job.lend(2 * job.segments() - 1);
            refuses(&job, 4, 0);
        }
    }
}

#[test]
fn fewer_than_two_vertices_draw_nothing() {
    for closed in [false, true] {
        for source in [vec![], vec![1.0, 2.0, 3.0]] {
            let mut job = Job::new(closed, 1.0, EPS, source);
            draws(&job, NOTHING);
            job.lend(0);
            draws(&job, NOTHING);
            job.offset = 0.0;
            draws(&job, NOTHING);
        }
    }
}

#[test]
fn job_is_a_stage() {
    let stage: oracle::stage::Stage = job;
    assert_eq!(open(&[], 1.0).run(stage).answer, [0; 5]);
}
