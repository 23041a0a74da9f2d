//! Pointed corners: drawings that are known number by number, how far a point may be, and the ratio.

use std::f64::consts::SQRT_2;

use blidrosk::Origin::{Connector, Span};
use blidrosk::{Bad, Corners, Drawing, MOST_VERTICES, Origin, Reason, Refusal, why_with};

const EPS: f64 = 1e-5;

const SQUARE: [f64; 12] = [0.0, 0.0, 0.0, 4.0, 0.0, 0.0, 4.0, 4.0, 0.0, 0.0, 4.0, 0.0];

/// Right to (4, 0), then down.
const CORNER: [f64; 9] = [0.0, 0.0, 0.0, 4.0, 0.0, 0.0, 4.0, -4.0, 0.0];

/// The sides of its point at (10, 0) have the slopes 0 and -24/7, so that the point is 1.25 times the
/// offset away.
const RIGHT: [f64; 9] = [0.0, 0.0, 0.0, 10.0, 0.0, 0.0, 17.0, -24.0, 0.0];

/// The bulge of a quarter circle as the stage works it out.
const QUARTER: f64 = f64::from_bits(0x3fda_8279_99fc_ef33);

#[derive(Clone, Copy)]
struct Job<'a> {
    source: &'a [f64],
    closed: bool,
    offset: f64,
    eps: f64,
}

fn open(source: &[f64], offset: f64) -> Job<'_> {
    Job {
        source,
        closed: false,
        offset,
        eps: EPS,
    }
}

fn closed(source: &[f64], offset: f64) -> Job<'_> {
    Job {
        closed: true,
        ..open(source, offset)
    }
}

impl Job<'_> {
    fn with(self, corners: Corners) -> Result<Drawing, Refusal> {
        Drawing::offset_with(self.source, self.closed, self.offset, self.eps, corners)
    }

    fn by(self, ratio: f64) -> Result<Drawing, Refusal> {
        self.with(Corners::Pointed { ratio })
    }

    /// The reasons of all segments, each of which has the origin that the drawing names.
    #[track_caller]
    fn reasons(self, corners: Corners) -> Vec<Reason> {
        let Job {
            source,
            closed,
            offset,
            eps,
        } = self;
        let ask = |segment| why_with(source, closed, offset, eps, corners, segment);
        let drawing = self.with(corners).expect("a good job");
        let told = (0..).zip(&drawing.origins).map(|(segment, origin)| {
            let told = ask(segment).expect("a segment");
            assert_eq!(told.origin, *origin);
            told.reason
        });
        let reasons: Vec<_> = told.collect();
        for past in [reasons.len() as u32, u32::MAX] {
            assert_eq!(ask(past), Err(Refusal::NoSuchSegment));
        }
        reasons
    }
}

/// x, y and bulge of a vertex, and the piece that leaves it.
type Row = ([f64; 3], Option<(Origin, Reason)>);

fn span([x, y]: [f64; 2], of: usize) -> Row {
    ([x, y, 0.0], Some((Span(of), Reason::InOrder)))
}

fn point([x, y]: [f64; 2], after: usize) -> Row {
    let piece = (Connector(after), Reason::PointedConnector);
    ([x, y, 0.0], Some(piece))
}

fn round([x, y]: [f64; 2], bulge: f64, after: usize) -> Row {
    ([x, y, bulge], Some((Connector(after), Reason::Round)))
}

fn end([x, y]: [f64; 2]) -> Row {
    ([x, y, 0.0], None)
}

fn bits(numbers: &[f64]) -> Vec<u64> {
    numbers.iter().map(|number| number.to_bits()).collect()
}

/// Bit for bit, and the reason of each segment.
#[track_caller]
fn assert_drawn(job: Job, ratio: f64, rows: &[Row]) {
    let drawing = job.by(ratio).expect("a good job");
    let vertices: Vec<f64> = rows.iter().flat_map(|(vertex, _)| *vertex).collect();
    let pieces: Vec<_> = rows.iter().filter_map(|(_, piece)| *piece).collect();
    assert_eq!(bits(&drawing.vertices), bits(&vertices), "{drawing:?}");
    assert_eq!(drawing.closed, job.closed);
    let origins = pieces.iter().map(|(origin, _)| *origin);
    assert_eq!(drawing.origins, origins.collect::<Vec<_>>());
    let reasons: Vec<_> = pieces.iter().map(|(_, reason)| *reason).collect();
    assert_eq!(job.reasons(Corners::Pointed { ratio }), reasons);
    let flags = reasons.iter().map(|reason| u8::from(reason.is_invalid()));
    assert_eq!(drawing.flags, flags.collect::<Vec<_>>());
    let red = (0..).zip(&drawing.flags).filter(|(_, flag)| **flag == 1);
    let red: Vec<u32> = red.map(|(segment, _)| segment).collect();
    assert_eq!(drawing.indexes, red);
}

/// No corner has a point: the drawing is the one with round corners.
#[track_caller]
fn assert_round(job: Job, ratio: f64) {
    assert_eq!(job.by(ratio), job.with(Corners::Round));
    let pointed = job.reasons(Corners::Pointed { ratio });
    assert_eq!(pointed, job.reasons(Corners::Round));
}

#[test]
fn a_square_has_a_point_at_each_corner() {
    let rows = [
        span([0.0, -1.0], 0),
        point([4.0, -1.0], 0),
        point([5.0, -1.0], 0),
        span([5.0, 0.0], 1),
        point([5.0, 4.0], 1),
        point([5.0, 5.0], 1),
        span([4.0, 5.0], 2),
        point([0.0, 5.0], 2),
        point([-1.0, 5.0], 2),
        span([-1.0, 4.0], 3),
        point([-1.0, 0.0], 3),
        point([-1.0, -1.0], 3),
    ];
    assert_drawn(closed(&SQUARE, -1.0), 2.0, &rows);
    let mut open_rows = rows[..8].to_vec();
    open_rows[7] = end([0.0, 5.0]);
    assert_drawn(open(&SQUARE, -1.0), 10.0, &open_rows);
    for (i, parted) in [0..3, 3..6, 6..9, 9..12].into_iter().enumerate() {
        let drawing = closed(&SQUARE, -1.0).by(2.0).expect("a good job");
        assert_eq!(drawing.part(i), Ok(parted));
    }
}

#[test]
fn a_point_that_is_too_far_is_rounded() {
    assert_round(closed(&SQUARE, -1.0), 1.0);
    assert_round(closed(&SQUARE, -1.0), 1.4);
    let needle = [0.0, 0.0, 0.0, 4.0, 0.0, 0.0, 0.0, -0.5, 0.0];
    assert_round(open(&needle, 0.125), 10.0);
}

#[test]
fn a_distance_equal_to_the_limit_is_near_enough() {
    let rows = [
        span([0.0, 25.0], 0),
        point([10.0, 25.0], 0),
        point([28.75, 25.0], 0),
        span([34.0, 7.000000000000001], 1),
        end([41.0, -17.0]),
    ];
    assert_drawn(open(&RIGHT, 25.0), 1.25, &rows);
    let below = [
        rows[0],
        round([10.0, 25.0], -1.0 / 3.0, 0),
        rows[3],
        rows[4],
    ];
    assert_drawn(open(&RIGHT, 25.0), 1.25_f64.next_down(), &below);
}

#[test]
fn a_point_is_worked_out_along_the_first_line() {
    let slanted = [0.0, 0.0, 0.0, 3.0, 1.0, 0.0, 5.0, -4.0, 0.0];
    let rows = [
        span([-0.22135943621178655, 0.6640783086353595], 0),
        point([2.7786405637882137, 1.6640783086353594], 0),
        point([3.4048033747498074, 1.872799245622557], 0),
        span([3.6499336836196816, 1.2599734734478725], 1),
        end([5.649933683619682, -3.7400265265521275]),
    ];
    assert_drawn(open(&slanted, 0.7), 3.0, &rows);
}

/// Other orders of work, as ratio² · offset², say otherwise of both.
#[test]
fn the_limit_is_the_square_of_ratio_by_offset() {
    let up = [0.0, 0.0, 0.0, 4.0, 0.0, 0.0, 4.0, 4.0, 0.0];
    let rows = [
        span([0.0, -31.886], 0),
        point([4.0, -31.886], 0),
        point([35.885999999999996, -31.886], 0),
        span([35.885999999999996, 0.0], 1),
        end([35.885999999999996, 4.0]),
    ];
    assert_drawn(open(&up, -31.886), SQRT_2.next_down(), &rows);
    assert_round(open(&up, -1.545), SQRT_2);
}

#[test]
fn lines_whose_cross_product_is_below_the_tolerance_are_rounded() {
    let tiny = [0.0, 0.0, 0.0, 0.05, 0.0, 0.0, 0.05, -0.05, 0.0];
    let job = Job {
        eps: 0.01,
        ..open(&tiny, 1.0)
    };
    let rows = [
        span([0.0, 1.0], 0),
        round([0.05, 1.0], -QUARTER, 0),
        span([1.05, 0.0], 1),
        end([1.05, -0.05]),
    ];
    assert_drawn(job, 2.0, &rows);
    let equal = [0.0, 0.0, 0.0, 0.125, 0.0, 0.0, 0.125, -0.0625, 0.0];
    let by_eps = |eps| Job {
        eps,
        ..open(&equal, 1.0)
    };
    let rows = [
        span([0.0, 1.0], 0),
        point([0.125, 1.0], 0),
        point([1.125, 1.0], 0),
        span([1.125, 0.0], 1),
        end([1.125, -0.0625]),
    ];
    assert_drawn(by_eps(0.0078125), 2.0, &rows);
    assert_round(by_eps(0.0078125_f64.next_up()), 2.0);
}

#[test]
fn each_connector_of_a_point_is_left_out_by_itself() {
    let flat = [0.0, 0.0, 0.0, 4.0, 0.0, 0.0, 8.0, -0.06, 0.0];
    let job = Job {
        eps: 0.01,
        ..open(&flat, 1.0)
    };
    let rows = [
        span([0.0, 1.0], 0),
        point([4.0, 1.0], 0),
        span([4.014998312784712, 0.9998875189808163], 1),
        end([8.014998312784712, 0.9398875189808162]),
    ];
    assert_drawn(job, 2.0, &rows);
    let by = -0.03414213562373077;
    let ring = |source| Job {
        eps: 0.01,
        ..closed(source, by)
    };
    let turned = |of| {
        [
            round(
                [1.5241421356237308, 0.9758578643762692],
                0.9058709600769339,
                of,
            ),
            span([1.4810613506699681, 1.0284079739950478], of + 1),
            round(
                [-0.018938649330031847, 0.02840797399504777],
                0.7420559691808208,
                of + 1,
            ),
        ]
    };
    let first = [
        span([0.0, by], 0),
        point([0.5, by], 0),
        span([0.5141421356237309, by], 1),
    ];
    let source = [0.0, 0.0, 0.0, 0.5, 0.0, 0.0, 1.5, 1.0, 0.0];
    assert_drawn(ring(&source), 1.25, &[first, turned(1)].concat());
    // the point is nearer to the first vertex than the tolerance
    let source = [0.5, 0.0, 0.0, 1.5, 1.0, 0.0, 0.0, 0.0, 0.0];
    let start = [span([0.5241421356237308, -0.024142135623730823], 0)];
    let last = [span([0.0, by], 2), point([0.5, by], 2)];
    assert_drawn(
        ring(&source),
        1.25,
        &[&start[..], &turned(0), &last].concat(),
    );
}

#[test]
fn arcs_and_reversals_have_no_point() {
    let back = [0.0, 0.0, 0.0, 4.0, 0.0, 0.0, 0.0, 0.0, 0.0];
    assert_round(open(&back, 1.0), 10.0);
    assert_round(closed(&back[..6], 1.0), 10.0);
    let arcs = [
        0.0, 0.0, 0.0, 4.0, 0.0, 1.0, 4.0, -4.0, 0.0, 0.0, -4.0, -0.5,
    ];
    assert_round(closed(&arcs, 0.5), 10.0);
    assert_round(closed(&arcs, -0.5), 10.0);
    // nor has an arc that the offset shrinks to nothing
    let collapsed = [
        0.0, 0.0, 0.0, 4.0, 0.0, -1.0, 4.5, -0.5, 0.0, 4.5, -6.0, 0.0,
    ];
    let job = open(&collapsed, -3.0);
    assert_round(job, 10.0);
    let reasons = job.reasons(Corners::Pointed { ratio: 10.0 });
    assert_eq!(
        reasons[1..4],
        [Reason::Round, Reason::CollapsedArc, Reason::Round]
    );
}

#[test]
fn a_segment_past_a_point_is_flagged_by_its_own_number() {
    let step = [0.0, 0.0, 0.0, 4.0, 0.0, 0.0, 4.0, -6.0, 0.0, 5.0, -6.0, 0.0];
    let rows = [
        span([0.0, 2.0], 0),
        point([4.0, 2.0], 0),
        point([6.0, 2.0], 0),
        span([6.0, 0.0], 1),
        (
            [6.0, -6.0, 0.0],
            Some((Connector(1), Reason::CandidatesMissed)),
        ),
        span([4.0, -4.0], 2),
        end([5.0, -4.0]),
    ];
    assert_drawn(open(&step, 2.0), 2.0, &rows);
}

#[test]
fn an_offset_of_zero_copies() {
    let twice = [0.0, 0.0, 0.5, -0.0, 0.0, -0.0, 4.0, 0.0, 1.0];
    for zero in [0.0, -0.0] {
        for job in [open(&twice, zero), closed(&twice, zero)] {
            assert_round(job, 1.0);
            let copy = job.by(10.0).expect("a good job");
            assert_eq!(
                (bits(&copy.vertices), copy.closed),
                (bits(&twice), job.closed)
            );
            let reasons = job.reasons(Corners::Pointed { ratio: 10.0 });
            assert!(reasons.iter().all(|reason| *reason == Reason::Copied));
        }
    }
}

#[test]
fn fewer_than_two_vertices_draw_nothing() {
    for count in [0, 3] {
        for job in [open(&SQUARE[..count], 1.0), closed(&SQUARE[..count], 0.0)] {
            let empty = job.by(1.0).expect("a good job");
            assert_eq!((empty.vertices.len(), empty.closed), (0, false));
            assert_eq!(job.reasons(Corners::Pointed { ratio: 10.0 }), []);
        }
    }
}

#[test]
fn a_ratio_lies_in_1_to_10() {
    let row: Vec<f64> = (0..MOST_VERTICES)
        .flat_map(|k| [0.5 * k as f64, 0.0, 0.0])
        .collect();
    let bad = Refusal::BadNumber(Bad::Ratio);
    for count in [0, 1, 2, 3, MOST_VERTICES] {
        for offset in [1.0, 0.0, -0.0] {
            let source = &row[..3 * count];
            for job in [open(source, offset), closed(source, offset)] {
                for ratio in [1.0, 1.0_f64.next_up(), 10.0_f64.next_down(), 10.0] {
                    assert!(job.by(ratio).is_ok());
                }
                for ratio in [1.0_f64.next_down(), 10.0_f64.next_up(), 0.0, -2.0] {
                    assert_eq!(job.by(ratio), Err(bad));
                    assert_eq!(asked(job, ratio), Err(bad));
                }
                for ratio in [f64::NAN, -f64::NAN, f64::INFINITY, f64::NEG_INFINITY] {
                    assert_eq!(job.by(ratio), Err(bad));
                    assert_eq!(asked(job, ratio), Err(bad));
                }
            }
        }
    }
    assert_eq!(
        bad.to_string(),
        "the ratio of pointed corners is out of range: 1 to 10"
    );
}

/// Of the first segment.
fn asked(job: Job, ratio: f64) -> Result<Reason, Refusal> {
    let corners = Corners::Pointed { ratio };
    let told = why_with(job.source, job.closed, job.offset, job.eps, corners, 0);
    told.map(|why| why.reason)
}

#[test]
fn a_ratio_is_tested_after_the_other_numbers() {
    let mut far = CORNER;
    far[3] = 2e6;
    let more = vec![0.0; 3 * (MOST_VERTICES + 1)];
    let twice = [0.0, 0.0, 0.0, 4.0, 0.0, 0.0, 4.0, 0.0, 0.0];
    let wide = Job {
        eps: 1.0,
        ..open(&CORNER, 1.0)
    };
    // with a bad ratio, and with a good one
    let refused = [
        (open(&CORNER[..8], 1.0), Refusal::Ragged, Refusal::Ragged),
        (open(&more, 1.0), Refusal::TooMany, Refusal::TooMany),
        (open(&far, 1.0), bad(Bad::Vertex(1)), bad(Bad::Vertex(1))),
        (open(&CORNER, 2e6), bad(Bad::Offset), bad(Bad::Offset)),
        (wide, bad(Bad::Eps), bad(Bad::Eps)),
        (open(&twice, 1.0), bad(Bad::Ratio), Refusal::Repeated(1)),
    ];
    for (job, with_bad, with_good) in refused {
        for (ratio, refusal) in [(0.0, with_bad), (f64::NAN, with_bad), (2.0, with_good)] {
            assert_eq!(job.by(ratio), Err(refusal));
            assert_eq!(asked(job, ratio), Err(refusal));
        }
    }
}

fn bad(number: Bad) -> Refusal {
    Refusal::BadNumber(number)
}

/// Goes round itself at right angles, ever farther out: each corner is an outer one.
fn spiral(count: usize) -> Vec<f64> {
    let (mut x, mut y) = (0.0, 0.0);
    let mut numbers = Vec::new();
    for i in 0..count {
        numbers.extend([x, y, 0.0]);
        let length = (i / 2 + 1) as f64;
        let (right, up) = [(1.0, 0.0), (0.0, 1.0), (-1.0, 0.0), (0.0, -1.0)][i % 4];
        x += right * length;
        y += up * length;
    }
    numbers
}

#[test]
fn the_most_vertices_have_three_segments_each() {
    let source = spiral(MOST_VERTICES);
    let n = MOST_VERTICES - 1;
    let job = open(&source, -0.25);
    let drawing = job.by(1.5).expect("a good job");
    assert_eq!(drawing.vertices.len(), 3 * (3 * n - 1));
    let pieces = (0..n).flat_map(|i| [Span(i), Connector(i), Connector(i)]);
    let origins: Vec<_> = pieces.take(3 * n - 2).collect();
    assert_eq!(drawing.origins, origins);
    assert_eq!(
        (drawing.part(0), drawing.part(n - 1)),
        (Ok(0..3), Ok(3 * n - 3..3 * n - 2))
    );
    assert!(
        drawing
            .vertices
            .chunks(3)
            .all(|vertex| vertex[2].to_bits() == 0)
    );
    assert_eq!(drawing.flags, vec![0; 3 * n - 2]);
    let ask = |segment: usize| {
        let corners = Corners::Pointed { ratio: 1.5 };
        why_with(&source, false, -0.25, EPS, corners, segment as u32).map(|why| why.reason)
    };
    assert_eq!(ask(3 * n - 3), Ok(Reason::InOrder));
    assert_eq!(ask(3 * n - 4), Ok(Reason::PointedConnector));
    assert_eq!(ask(3 * n - 5), Ok(Reason::PointedConnector));
    assert_eq!(ask(3 * n - 2), Err(Refusal::NoSuchSegment));
    let more = spiral(MOST_VERTICES + 1);
    assert_eq!(open(&more, -0.25).by(1.5), Err(Refusal::TooMany));
}

#[test]
fn round_corners_are_the_ones_without_a_word() {
    assert_eq!(Corners::default(), Corners::Round);
    for job in [
        open(&CORNER, 1.0),
        closed(&SQUARE, -1.0),
        open(&CORNER, 2e6),
    ] {
        let plain = Drawing::offset(job.source, job.closed, job.offset, job.eps);
        assert_eq!(job.with(Corners::Round), plain);
    }
}

#[test]
fn a_pointed_connector_is_told_in_a_sentence() {
    let pointed = Corners::Pointed { ratio: 2.0 };
    for segment in [1, 2] {
        let side = why_with(&CORNER, false, 1.0, EPS, pointed, segment).expect("a good job");
        assert_eq!(
            (side.origin, side.reason),
            (Connector(0), Reason::PointedConnector)
        );
        assert_eq!((side.start_rule, side.end_rule), (None, None));
        assert_eq!(
            side.to_string(),
            "the connector after source segment 0 makes the point of an outer corner"
        );
    }
    assert_eq!(Reason::PointedConnector.number(), 13);
    assert!(!Reason::PointedConnector.is_invalid());
}
