//! Jobs whose answers were settled by trial against 000: where a port that reads 01's words
//! otherwise goes wrong.
#![cfg(with_000)]

use oracle::stage::{Job, Outcome};

fn job(closed: bool, offset: f64, eps: f64, vertices: &[[f64; 3]]) -> Job {
    Job::new(closed, offset, eps, vertices.as_flattened().to_vec())
}

fn run(job: &Job) -> Outcome {
    job.run(oracle::job)
}

#[test]
fn a_coincident_closing_join_starts_at_the_last_segments_end() {
    // The two ends at the closing join differ by less than ε, and the last one's is taken.
    let corners = [
        [0.0, 0.0, 0.0],
        [4.0, 0.0, 0.0],
        [4.0, 4.0, 0.0],
        [-4.0, 2.0e-6, 0.0],
    ];
    let outcome = run(&job(true, 1.0, 1e-5, &corners));
    assert_eq!(outcome.answer[..2], [0, 0]);
    assert_ne!(outcome.drawn()[0][0], 0.0);
}

#[test]
fn two_vertices_closed_are_not_special() {
    let outcome = run(&job(true, 1.0, 1e-5, &[[0.0; 3], [4.0, 0.0, 0.0]]));
    assert_eq!(outcome.answer, [0, 0, 4, 0, 1]);
    let bulges: Vec<f64> = outcome.drawn().iter().map(|v| v[2]).collect();
    assert_eq!(bulges.iter().filter(|b| **b == -1.0).count(), 2);
    assert_eq!(bulges.iter().filter(|b| **b == 0.0).count(), 2);
}

#[test]
fn one_vertex_closed_is_empty_and_open() {
    assert_eq!(run(&job(true, 1.0, 1e-5, &[[1.0; 3]])).answer, [0; 5]);
}

#[test]
fn no_vertex_and_no_offset_is_a_bad_number() {
    let answer = run(&job(false, f64::NAN, 1e-5, &[])).answer;
    assert_eq!(answer, [3, 0, 0, 0, 0]);
}

#[test]
fn line_and_circle_can_meet_at_no_number() {
    let job = job(
        false,
        0.5000002384185791,
        4.7683715820312495e-7,
        &[
            [5.0, 0.0, 0.6180339887498949],
            [-3.0, 4.0, 0.0],
            [5.0, 4.0, 0.0],
        ],
    );
    let outcome = run(&job);
    assert_eq!(outcome.answer, [6, 0, 0, 0, 0]);
    assert!(outcome.vertices[..12].iter().all(|bits| *bits == 0));
    assert!(outcome.flags[..4].iter().all(|flag| *flag == 0));
    assert!(outcome.indexes[..4].iter().all(|index| *index == 0));
    assert!(outcome.origins[..4].iter().all(|origin| *origin == 0));
}

#[test]
fn a_whole_span_has_its_bulge_by_the_sweep() {
    let outcome = run(&job(false, 1.0, 1e-5, &[[0.0, 0.0, 1.0], [4.0, 0.0, 0.0]]));
    assert_eq!(outcome.drawn()[0][2].to_bits(), 0x3fef_ffff_ffff_fffe);
}

#[test]
fn a_good_pair_can_draw_nothing() {
    let job = job(
        false,
        0.7930896996123371,
        1e-5,
        &[[-1e-5, -9.999999999999999e-6, 0.0], [0.0; 3]],
    );
    assert_eq!(run(&job).answer, [0; 5]);
}

#[test]
fn overlap_goes_by_the_second_lines_end_as_given() {
    let first = job(
        false,
        0.2560771590269089,
        0.01,
        &[
            [-0.021140050346204677, 0.08082571733815964, 0.0],
            [-0.0007699998277305858, 0.03497627735864728, 0.0],
            [0.1331219340040639, -0.030588018182422554, 0.0],
        ],
    );
    assert_eq!(run(&first).answer, [0, 0, 3, 0, 0]);
    let second = job(
        false,
        0.10191800406024194,
        0.01,
        &[
            [0.08988071474548756, -0.02573615225529773, 0.0],
            [0.058751788922697605, 0.009166528711637614, 0.0],
            [-0.05949189524946503, -0.03258900506490463, 0.0],
        ],
    );
    let outcome = run(&second);
    assert_eq!(outcome.answer, [0, 0, 4, 1, 0]);
    assert_eq!(outcome.invalid(), [1]);
}

/// A radius so large that the offset is lost in it: the arc's end stays at the shared vertex.
#[test]
fn a_round_connector_from_the_shared_vertex_is_no_number() {
    let vertices = [[-1e6, 0.0, 1.1e-8], [1e6, 0.0, 0.0], [1e6, -1e6, 0.0]];
    assert_eq!(
        run(&job(false, 0.001, 1e-9, &vertices)).answer,
        [6, 0, 0, 0, 0]
    );
}

/// Two ends in one direction from the shared vertex, at distances that rounding tells apart.
#[test]
fn a_round_connector_of_size_0_has_minus_0() {
    let source = [
        0xbfb7_1f41_2fe3_a850,
        0xc111_ba9a_a5b3_a4ae,
        0x3e45_798e_e230_8c3a,
        0xc12e_8480_0000_0000,
        0x3fe6_bf1f_1949_1892,
        0,
        0x4105_d7d8_8109_1552,
        0x3fb9_276d_5a2d_4f60,
        0,
    ];
    let source = source.map(f64::from_bits).to_vec();
    let offset = f64::from_bits(0x3f18_53df_f16a_86cf);
    let outcome = run(&Job::new(false, offset, 1e-9, source));
    assert_eq!(outcome.answer, [0, 0, 4, 0, 0]);
    assert_eq!(outcome.drawn()[1][2].to_bits(), (-0.0_f64).to_bits());
}

/// Two vertices, open, the first with that bulge.
fn pair(offset: f64, bulge: f64, [a, b]: [[f64; 2]; 2]) -> Job {
    job(
        false,
        offset,
        1e-5,
        &[[a[0], a[1], bulge], [b[0], b[1], 0.0]],
    )
}

#[test]
fn the_two_zeros_are_one_number_to_no_5() {
    let zeros = [[0.0; 3], [-0.0, 0.0, 0.0], [4.0, 0.0, 0.0]];
    assert_eq!(run(&job(false, 1.0, 1e-5, &zeros)).answer, [5, 0, 0, 0, 0]);
    let twice = [[2.0, 3.0, 0.0]; 2];
    assert_eq!(run(&job(true, 1.0, 1e-5, &twice)).answer, [5, 0, 0, 0, 0]);
    // Last to first at the last vertex; one vertex closed is joined to nothing.
    let corners = [[0.0; 3], [4.0, 0.0, 0.0], [4.0, 4.0, 0.0], [0.0, -0.0, 0.0]];
    let closed = run(&job(true, 1.0, 1e-5, &corners));
    assert_eq!(closed.answer, [5, 3, 0, 0, 0]);
    let lone = [[1.0, 1.0, 1e9]];
    assert_eq!(run(&job(true, 1.0, 1e-5, &lone)).answer, [0; 5]);
}

/// The square of 1e-200 is 0, and so is the length that the direction is divided by.
#[test]
fn a_chord_whose_square_underflows_is_no_number() {
    let ends = [[0.0, 0.0], [1e-200, 0.0]];
    assert_eq!(run(&pair(1.0, 0.0, ends)).answer, [6, 0, 0, 0, 0]);
    // An arc's radius is 0 then: to its inner side it collapses, to the other it is no number.
    assert_eq!(run(&pair(1.0, 1.0, ends)).answer, [0; 5]);
    assert_eq!(run(&pair(-1.0, 1.0, ends)).answer, [6, 0, 0, 0, 0]);
}

/// Its offset is as short as it is, so both its joins are gaps; it is dropped between them.
#[test]
fn a_segment_shorter_than_eps_has_zero_tangents() {
    let step = [
        [0.0; 3],
        [4.0, 0.0, 0.0],
        [4.0, -1e-6, 0.0],
        [8.0, -1e-6, 0.0],
    ];
    let outcome = run(&job(false, 1.0, 1e-5, &step));
    assert_eq!(outcome.answer, [0, 0, 5, 2, 0]);
    assert_eq!(outcome.drawn_flags(), [0, 1, 1, 0]);
    let points: Vec<[f64; 2]> = outcome.drawn().iter().map(|v| [v[0], v[1]]).collect();
    let below = 1.0 - 1e-6;
    let expected = [
        [0.0, 1.0],
        [4.0, 1.0],
        [5.0, 0.0],
        [4.0, below],
        [8.0, below],
    ];
    assert_eq!(points, expected);
}

/// A gap that is less than ε in the offset too leaves one vertex, and so nothing.
#[test]
fn a_keyhole_can_draw_nothing() {
    let narrow = [[10.0, 5e-7], [10.0, -5e-7]];
    assert_eq!(run(&pair(-1.0, 4e7, narrow)).answer, [0; 5]);
    // Less than ε in the source, more in the offset.
    let wider = pair(-1.0, 4210526.3, [[10.0, 4.75e-6], [10.0, -4.75e-6]]);
    let outcome = run(&wider);
    assert_eq!(outcome.answer, [0, 0, 2, 0, 0]);
    let bits: Vec<[u64; 3]> = outcome
        .drawn()
        .iter()
        .map(|v| v.map(f64::to_bits))
        .collect();
    let [x, y] = [0x4025_ffff_ffff_ffc0, 0x3ed5_ea4d_1074_218c];
    let expected = [[x, y, 0x4150_0fd7_9331_ef24], [x, y | 1 << 63, 0]];
    assert_eq!(bits, expected);
    let closed = Job::new(true, wider.offset, wider.eps, wider.source);
    assert_eq!(run(&closed).answer, [0; 5]);
}
