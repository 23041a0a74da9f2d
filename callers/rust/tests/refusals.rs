//! Each refusal, at its border, and what it leaves in the buffers, with corners of both kinds.

use blidrosk::{Answer, Bad, Corners, Drawing, MOST_VERTICES, Refusal, raw_offset_with, room};

const EPS: f64 = 1e-5;

const POINTED: Corners = Corners::Pointed { ratio: 2.0 };

const BOTH: [Corners; 2] = [Corners::Round, POINTED];

const CORNER: [f64; 9] = [0.0, 0.0, 0.0, 4.0, 0.0, 0.0, 4.0, 4.0, 0.0];

/// Buffers that hold marks of their own, to see what a call changes.
#[derive(Clone, Debug, PartialEq)]
struct Buffers {
    vertices: Vec<f64>,
    flags: Vec<u8>,
    indexes: Vec<u32>,
    origins: Vec<u32>,
}

impl Buffers {
    fn marked([numbers, flags, indexes, origins]: [usize; 4]) -> Self {
        Buffers {
            vertices: vec![-7.5; numbers],
            flags: vec![77; flags],
            indexes: vec![777; indexes],
            origins: vec![7777; origins],
        }
    }

    /// So many places in each.
    fn of(places: usize) -> Self {
        Buffers::marked([3 * places, places, places, places])
    }

    fn job(
        &mut self,
        corners: Corners,
        source: &[f64],
        closed: bool,
        offset: f64,
        eps: f64,
    ) -> Answer {
        raw_offset_with(
            source,
            closed,
            offset,
            eps,
            corners,
            &mut self.vertices,
            &mut self.flags,
            &mut self.indexes,
            &mut self.origins,
        )
    }
}

#[track_caller]
fn assert_refused(source: &[f64], closed: bool, offset: f64, eps: f64, refusal: Refusal) {
    for corners in BOTH {
        let mut buffers = Buffers::of(corners.room(source.len() / 3, closed) + 1);
        let before = buffers.clone();
        let answer = buffers.job(corners, source, closed, offset, eps);
        assert_eq!(answer, Err(refusal));
        assert_eq!(buffers, before, "a refusal changed a buffer");
    }
}

/// So many vertices along a line, half apart.
fn row(vertices: usize) -> Vec<f64> {
    (0..vertices)
        .flat_map(|k| [0.5 * k as f64, 0.0, 0.0])
        .collect()
}

fn with(mut source: [f64; 9], place: usize, number: f64) -> [f64; 9] {
    source[place] = number;
    source
}

#[test]
fn numbers_left_over() {
    for left in [1, 2, 4, 5, 7, 8] {
        assert_refused(&CORNER[..left], false, 1.0, EPS, Refusal::Ragged);
    }
}

#[test]
fn the_most_vertices_and_one_more() {
    let most = Drawing::offset(&row(MOST_VERTICES), false, 1.0, EPS).expect("4096 pass");
    assert_eq!(most.vertices.len(), 3 * MOST_VERTICES);
    assert_eq!(most.indexes, []);
    let more = row(MOST_VERTICES + 1);
    assert_refused(&more, false, 1.0, EPS, Refusal::TooMany);
    assert_eq!(
        Drawing::offset(&more, true, 1.0, EPS),
        Err(Refusal::TooMany)
    );
}

#[test]
fn numbers_that_are_none() {
    for bad in [f64::NAN, f64::INFINITY, f64::NEG_INFINITY] {
        for place in 0..9 {
            let refusal = Refusal::BadNumber(Bad::Vertex(place / 3));
            assert_refused(&with(CORNER, place, bad), false, 1.0, EPS, refusal);
        }
        assert_refused(&CORNER, true, bad, EPS, Refusal::BadNumber(Bad::Offset));
        assert_refused(&CORNER, true, 1.0, bad, Refusal::BadNumber(Bad::Eps));
        assert_refused(&[], false, bad, bad, Refusal::BadNumber(Bad::Offset));
    }
}

#[test]
fn ranges_include_their_limits() {
    for sign in [-1.0, 1.0] {
        for (place, limit) in [(3, 1e6), (4, 1e6), (5, 1e9)] {
            let job = |x: f64| Drawing::offset(&with(CORNER, place, sign * x), false, 1.0, EPS);
            assert!(job(limit).is_ok());
            let refusal = Refusal::BadNumber(Bad::Vertex(1));
            assert_eq!(job(limit.next_up()), Err(refusal));
        }
        let job = |offset: f64| Drawing::offset(&CORNER, false, sign * offset, EPS);
        assert!(job(1e6).is_ok());
        assert_eq!(job(1e6_f64.next_up()), Err(Refusal::BadNumber(Bad::Offset)));
    }
    let job = |eps: f64| Drawing::offset(&CORNER, false, 1.0, eps).map(drop);
    assert_eq!((job(1e-9), job(0.01)), (Ok(()), Ok(())));
    for eps in [1e-9_f64.next_down(), 0.01_f64.next_up(), 0.0, -1e-5] {
        assert_eq!(job(eps), Err(Refusal::BadNumber(Bad::Eps)));
    }
}

#[test]
fn room_one_short() {
    assert_eq!((room(3, false), room(3, true)), (4, 6));
    for (corners, closed, places) in [
        (Corners::Round, false, 4),
        (Corners::Round, true, 6),
        (POINTED, false, 6),
        (POINTED, true, 9),
    ] {
        assert_eq!(corners.room(3, closed), places);
        let needed = [3 * places, places, places, places];
        for offset in [1.0, -1.0, 0.0] {
            let enough = Buffers::marked(needed).job(corners, &CORNER, closed, offset, EPS);
            assert!(enough.is_ok());
            for buffer in 0..4 {
                for lent in [needed[buffer] - 1, needed[buffer] * 2 / 3, places / 2, 0] {
                    let mut short = needed;
                    short[buffer] = lent;
                    let mut buffers = Buffers::marked(short);
                    let before = buffers.clone();
                    let answer = buffers.job(corners, &CORNER, closed, offset, EPS);
                    assert_eq!(answer, Err(Refusal::NoRoom), "{short:?}");
                    assert_eq!(buffers, before);
                }
            }
        }
    }
}

#[test]
fn room_is_looked_at_after_the_numbers_and_before_the_points() {
    for (corners, short) in [(Corners::Round, [12, 4, 4, 3]), (POINTED, [18, 6, 6, 5])] {
        let refused =
            |source: &[f64], eps| Buffers::marked(short).job(corners, source, false, 1.0, eps);
        let bad = Refusal::BadNumber(Bad::Eps);
        assert_eq!(refused(&CORNER, 1.0), Err(bad));
        let twice = with(CORNER, 7, 0.0);
        assert_eq!(refused(&twice, EPS), Err(Refusal::NoRoom));
        assert_eq!(refused(&CORNER[..8], EPS), Err(Refusal::Ragged));
    }
}

#[test]
fn a_bad_ratio_changes_no_buffer_however_long() {
    let bad = Corners::Pointed { ratio: f64::NAN };
    for source in [&CORNER[..0], &CORNER[..3], &CORNER[..6], &CORNER] {
        for places in [0, 1, POINTED.room(source.len() / 3, true) + 1] {
            let mut buffers = Buffers::of(places);
            let before = buffers.clone();
            let answer = buffers.job(bad, source, true, 1.0, EPS);
            assert_eq!(answer, Err(Refusal::BadNumber(Bad::Ratio)));
            assert_eq!(buffers, before);
        }
    }
}

#[test]
fn joined_vertices_on_one_point() {
    let twice = [0.0, 0.0, 0.0, 4.0, 0.0, 0.0, 4.0, 0.0, 0.0];
    assert_refused(&twice, false, 1.0, EPS, Refusal::Repeated(1));
    let back = [0.0, 0.0, 0.0, 4.0, 0.0, 0.0, 0.0, 0.0, 0.0];
    assert_refused(&back, true, 1.0, EPS, Refusal::Repeated(2));
    assert!(
        Drawing::offset(&back, false, 1.0, EPS).is_ok(),
        "open: not joined"
    );
    assert!(Drawing::offset(&twice, false, 0.0, EPS).is_ok(), "a copy");
}

#[test]
fn zeros_of_either_sign_are_one_point() {
    for (x, y) in [(-0.0, 0.0), (0.0, -0.0), (-0.0, -0.0)] {
        let pair = [0.0, 0.0, 0.0, x, y, 0.0, 4.0, 0.0, 0.0];
        assert_refused(&pair, false, 1.0, EPS, Refusal::Repeated(0));
        let back = [0.0, 0.0, 0.0, 4.0, 0.0, 0.0, x, y, 0.0];
        assert_refused(&back, true, 1.0, EPS, Refusal::Repeated(2));
    }
}

#[test]
fn vertices_that_differ_are_no_one_point() {
    let step = 4.0_f64.next_up() - 4.0;
    for apart in [9e-6, 1e-6, step] {
        for (x, y) in [(4.0 + apart, 0.0), (4.0, apart), (4.0 + apart, apart)] {
            let pair = [0.0, 0.0, 0.0, 4.0, 0.0, 0.0, x, y, 0.0];
            assert!(Drawing::offset(&pair, false, 1.0, EPS).is_ok());
            let ring = [4.0, 0.0, 0.0, 8.0, 4.0, 0.0, x, y, 0.0];
            assert!(Drawing::offset(&ring, true, 1.0, EPS).is_ok());
        }
    }
}

#[test]
fn a_segment_whose_length_is_zero_by_its_square() {
    let line = [0.0, 0.0, 0.0, 1e-200, 0.0, 0.0];
    assert_eq!(
        Drawing::offset(&line, false, 1.0, EPS),
        Err(Refusal::NotFinite)
    );
    let arc = [0.0, 0.0, 1.0, 1e-200, 0.0, 0.0];
    let inside = Drawing::offset(&arc, false, 1.0, EPS).expect("collapsed");
    assert_eq!(inside.vertices, []);
    assert_eq!(
        Drawing::offset(&arc, false, -1.0, EPS),
        Err(Refusal::NotFinite)
    );
}

#[test]
fn a_drawing_that_is_not_finite_leaves_zeros_in_the_room() {
    let source = [5.0, 0.0, 0.6180339887498949, -3.0, 4.0, 0.0, 5.0, 4.0, 0.0];
    let (by, eps) = (0.5000002384185791, 4.7683715820312495e-7);
    for corners in BOTH {
        let places = corners.room(3, false);
        let mut buffers = Buffers::of(places + 1);
        let answer = buffers.job(corners, &source, false, by, eps);
        assert_eq!(answer, Err(Refusal::NotFinite));
        let mut left = Buffers::of(places + 1);
        left.vertices[..3 * places].fill(0.0);
        left.flags[..places].fill(0);
        left.indexes[..places].fill(0);
        left.origins[..places].fill(0);
        assert_eq!(buffers, left);
    }
}

#[test]
fn what_is_done_stays_within_the_room() {
    let places = room(3, false);
    let mut buffers = Buffers::of(places + 1);
    let drawn = buffers
        .job(Corners::Round, &CORNER, false, 1.0, EPS)
        .expect("a good job");
    assert_eq!((drawn.vertices, drawn.indexes, drawn.closed), (3, 0, false));
    assert_eq!(buffers.vertices[9..], [0.0, 0.0, 0.0, -7.5, -7.5, -7.5]);
    assert_eq!(buffers.flags, [0, 0, 0, 0, 77]);
    assert_eq!(buffers.indexes, [0, 0, 0, 0, 777]);
    assert_eq!(buffers.origins, [0, 2, 0, 0, 7777]);
}

#[test]
fn what_is_done_with_a_point_stays_within_its_room() {
    let mut buffers = Buffers::of(POINTED.room(3, false) + 1);
    let drawn = buffers
        .job(POINTED, &CORNER, false, -1.0, EPS)
        .expect("a good job");
    assert_eq!((drawn.vertices, drawn.indexes, drawn.closed), (5, 0, false));
    let points = [0.0, -1.0, 0.0, 4.0, -1.0, 0.0, 5.0, -1.0, 0.0];
    assert_eq!(buffers.vertices[..9], points);
    assert_eq!(buffers.vertices[15..], [0.0, 0.0, 0.0, -7.5, -7.5, -7.5]);
    assert_eq!(buffers.flags, [0, 0, 0, 0, 0, 0, 77]);
    assert_eq!(buffers.indexes, [0, 0, 0, 0, 0, 0, 777]);
    assert_eq!(buffers.origins, [0, 1, 1, 2, 0, 0, 7777]);
}

#[test]
fn what_is_copied_stays_within_the_room() {
    for corners in BOTH {
        let places = corners.room(3, true);
        let mut buffers = Buffers::of(places + 1);
        let drawn = buffers
            .job(corners, &CORNER, true, -0.0, EPS)
            .expect("a good job");
        assert_eq!((drawn.vertices, drawn.indexes, drawn.closed), (3, 0, true));
        let mut left = Buffers::of(places + 1);
        left.vertices[..3 * places].fill(0.0);
        left.vertices[..9].copy_from_slice(&CORNER);
        left.flags[..places].fill(0);
        left.indexes[..places].fill(0);
        left.origins[..places].fill(0);
        left.origins[..3].copy_from_slice(&[0, 2, 4]);
        assert_eq!(buffers, left);
    }
}

#[test]
fn what_is_empty_leaves_zeros_in_the_room() {
    let arc = [0.0, 0.0, 1.0, 4.0, 0.0, 0.0];
    for corners in BOTH {
        let places = corners.room(2, false);
        let mut buffers = Buffers::of(places + 1);
        let drawn = buffers
            .job(corners, &arc, false, 3.0, EPS)
            .expect("a good job");
        assert_eq!((drawn.vertices, drawn.segments()), (0, 0));
        assert_eq!(buffers.flags[..places], vec![0; places]);
        assert_eq!(buffers.origins[..places], vec![0; places]);
        assert_eq!((buffers.flags[places], buffers.origins[places]), (77, 7777));
    }
}

#[test]
fn a_lone_vertex_changes_no_buffer() {
    for corners in BOTH {
        let mut buffers = Buffers::of(3);
        let before = buffers.clone();
        let drawn = buffers
            .job(corners, &CORNER[..3], true, 1.0, EPS)
            .expect("a good job");
        assert_eq!((drawn.vertices, drawn.indexes, drawn.closed), (0, 0, false));
        assert_eq!(buffers, before);
    }
}

#[test]
fn words_for_the_one_who_drew_it() {
    let said = |source: &[f64], eps| {
        Drawing::offset(source, false, 1.0, eps)
            .unwrap_err()
            .to_string()
    };
    let far = with(CORNER, 6, 2e6);
    assert!(said(&far, EPS).starts_with("vertex 2 has a number out of range"));
    assert!(said(&CORNER, 1.0).starts_with("the tolerance is out of range"));
    assert!(said(&CORNER[..4], EPS).contains("left over"));
    let bulge = with(CORNER, 5, -1e9_f64.next_up());
    assert!(said(&bulge, EPS).ends_with("bulge within ±1000000000"));
    let twice = with(CORNER, 7, 0.0);
    assert!(said(&twice, EPS).starts_with("vertex 1 and the one after it are the same point"));
    let short = Refusal::NoRoom.to_string();
    assert!(short.ends_with("two places a segment, or three where corners are pointed"));
}
