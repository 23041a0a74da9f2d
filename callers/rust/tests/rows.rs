//! Drawings whose offset is known number by number.

use blidrosk::{Drawing, Origin, why};

const EPS: f64 = 1e-5;

const SQUARE: [f64; 12] = [0.0, 0.0, 0.0, 4.0, 0.0, 0.0, 4.0, 4.0, 0.0, 0.0, 4.0, 0.0];

fn straight(points: &[(f64, f64)]) -> Vec<f64> {
    points.iter().flat_map(|&(x, y)| [x, y, 0.0]).collect()
}

/// Its origins are those that are told of its segments.
#[track_caller]
fn offset(source: &[f64], closed: bool, offset: f64) -> Drawing {
    let drawing = Drawing::offset(source, closed, offset, EPS).expect("a good job");
    let told = |segment| why(source, closed, offset, EPS, segment as u32).expect("a segment");
    let origins: Vec<Origin> = (0..drawing.flags.len())
        .map(|segment| told(segment).origin)
        .collect();
    assert_eq!(drawing.origins, origins);
    drawing
}

#[track_caller]
fn assert_drawn(drawing: &Drawing, closed: bool, vertices: &[f64], indexes: &[u32]) {
    assert_eq!(drawing.closed, closed);
    assert_eq!(drawing.vertices, vertices);
    assert_eq!(drawing.indexes, indexes);
    let segments = (vertices.len() / 3).saturating_sub(usize::from(!closed));
    let flags: Vec<u8> = (0..segments)
        .map(|segment| indexes.contains(&(segment as u32)).into())
        .collect();
    assert_eq!(drawing.flags, flags);
}

#[test]
fn a_line_moves_to_either_side() {
    let line = straight(&[(0.0, 0.0), (4.0, 0.0)]);
    let left = straight(&[(0.0, 1.0), (4.0, 1.0)]);
    let right = straight(&[(0.0, -1.0), (4.0, -1.0)]);
    assert_drawn(&offset(&line, false, 1.0), false, &left, &[]);
    assert_drawn(&offset(&line, false, -1.0), false, &right, &[]);
}

#[test]
fn an_inner_corner_is_trimmed() {
    let corner = straight(&[(0.0, 0.0), (4.0, 0.0), (4.0, 4.0)]);
    let trimmed = straight(&[(0.0, 1.0), (3.0, 1.0), (3.0, 4.0)]);
    assert_drawn(&offset(&corner, false, 1.0), false, &trimmed, &[]);
}

#[test]
fn an_outer_corner_is_rounded() {
    let corner = straight(&[(0.0, 0.0), (4.0, 0.0), (4.0, 4.0)]);
    let bulge = f64::from_bits(0x3fda_8279_99fc_ef33);
    let rounded = [
        0.0, -1.0, 0.0, 4.0, -1.0, bulge, 5.0, 0.0, 0.0, 5.0, 4.0, 0.0,
    ];
    assert_drawn(&offset(&corner, false, -1.0), false, &rounded, &[]);
}

#[test]
fn a_reversal_is_a_half_circle() {
    let there_and_back = straight(&[(0.0, 0.0), (4.0, 0.0), (0.0, 0.0)]);
    let around = [
        0.0, 1.0, 0.0, 4.0, 1.0, -1.0, 4.0, -1.0, 0.0, 0.0, -1.0, 0.0,
    ];
    assert_drawn(&offset(&there_and_back, false, 1.0), false, &around, &[]);
}

#[test]
fn a_gap_is_bridged_and_flagged() {
    let short = straight(&[(0.0, 0.0), (4.0, 0.0), (4.0, 1.0)]);
    let bridged = straight(&[(0.0, 2.0), (4.0, 2.0), (2.0, 0.0), (2.0, 1.0)]);
    assert_drawn(&offset(&short, false, 2.0), false, &bridged, &[1]);
}

#[test]
fn a_square_shrinks_turns_over_and_vanishes() {
    let inner = straight(&[(1.0, 1.0), (3.0, 1.0), (3.0, 3.0), (1.0, 3.0)]);
    let turned = straight(&[(3.0, 3.0), (1.0, 3.0), (1.0, 1.0), (3.0, 1.0)]);
    assert_drawn(&offset(&SQUARE, true, 1.0), true, &inner, &[]);
    assert_drawn(&offset(&SQUARE, true, 3.0), true, &turned, &[0, 1, 2, 3]);
    assert_drawn(&offset(&SQUARE, true, 2.0), false, &[], &[]);
}

#[test]
fn a_lone_arc_collapses() {
    let arc = [0.0, 0.0, 1.0, 4.0, 0.0, 0.0];
    assert_drawn(&offset(&arc, false, 3.0), false, &[], &[]);
}

#[test]
fn an_offset_of_zero_copies() {
    let arc = [0.0, 0.0, 0.5, 4.0, 0.0, -0.25];
    for zero in [0.0, -0.0] {
        assert_drawn(&offset(&arc, false, zero), false, &arc, &[]);
        assert_drawn(&offset(&SQUARE, true, zero), true, &SQUARE, &[]);
    }
}

#[test]
fn fewer_than_two_vertices_draw_nothing() {
    for closed in [false, true] {
        assert_drawn(&offset(&[], closed, 1.0), false, &[], &[]);
        assert_drawn(&offset(&[1.0, 2.0, 0.5], closed, 1.0), false, &[], &[]);
    }
}

#[test]
fn a_nearly_full_circle_moves_outside() {
    let arc = [10.0, 4.75e-6, 4210526.3, 10.0, -4.75e-6, 0.0];
    let (x, y) = (10.999999999999886, 5.225000001781224e-6);
    let circle = [x, y, 4210526.299922738, x, -y, 0.0];
    assert_drawn(&offset(&arc, false, -1.0), false, &circle, &[]);
}

#[test]
fn a_gap_below_the_tolerance_leaves_nothing() {
    let narrow = [10.0, 5e-7, 4e7, 10.0, -5e-7, 0.0];
    assert_drawn(&offset(&narrow, false, -1.0), false, &[], &[]);
    let wider = [10.0, 4.75e-6, 4210526.3, 10.0, -4.75e-6, 0.0];
    assert_drawn(&offset(&wider, true, -1.0), false, &[], &[]);
}

#[test]
fn a_tolerance_below_the_gap_leaves_the_circle() {
    let narrow = [10.0, 5e-7, 4e7, 10.0, -5e-7, 0.0];
    let open = Drawing::offset(&narrow, false, -1.0, 1e-7).expect("a good job");
    assert_eq!((open.vertices.len(), open.closed), (3 * 2, false));
    let wider = [10.0, 4.75e-6, 4210526.3, 10.0, -4.75e-6, 0.0];
    let closed = Drawing::offset(&wider, true, -1.0, 1e-6).expect("a good job");
    assert_eq!((closed.vertices.len(), closed.closed), (3 * 2, true));
    assert!(closed.vertices[2] > 4e6, "a circle");
}

#[test]
fn a_circle_is_left_out_of_a_longer_drawing() {
    let there_and_back = [
        35.0, 5e-7, 0.0, 10.0, 5e-7, 4e7, 10.0, -5e-7, 0.0, 35.0, -5e-7, 0.0,
    ];
    let without = offset(&there_and_back, false, 1.0);
    assert_eq!((without.vertices.len(), without.indexes.len()), (3 * 5, 0));
    let with = Drawing::offset(&there_and_back, false, 1.0, 1e-8).expect("a good job");
    assert_eq!((with.vertices.len(), with.indexes.len()), (3 * 6, 0));
    assert!(with.vertices[8] > 3e7, "a circle");
}

#[test]
fn both_joins_of_a_segment_within_the_tolerance_are_gaps() {
    let step = straight(&[(0.0, 0.0), (4.0, 0.0), (4.0, -1e-6), (8.0, -1e-6)]);
    let bridged = straight(&[
        (0.0, 1.0),
        (4.0, 1.0),
        (5.0, 0.0),
        (4.0, 0.999999),
        (8.0, 0.999999),
    ]);
    assert_drawn(&offset(&step, false, 1.0), false, &bridged, &[1, 2]);
}
