//! Which move an output segment is, and why its flag is set or clear: 02's 2026-01.

use oracle::generate::{FAMILIES, REASONS, Random};
use oracle::stage::Job;
use oracle::text::read_job;
use oracle::traced::{Event, Origin, Reason, Rule, Site, Trace, job as traced_job, why, whys};

/// Jobs that reach each reason.
const SAMPLES: &str = include_str!("../src/bin/samples/why.txt");

const EPS: f64 = 1e-5;

fn job(closed: bool, offset: f64, eps: f64, vertices: &[[f64; 3]]) -> Job {
    Job::new(closed, offset, eps, vertices.as_flattened().to_vec())
}

fn open(offset: f64, vertices: &[[f64; 3]]) -> Job {
    job(false, offset, EPS, vertices)
}

fn closed(offset: f64, vertices: &[[f64; 3]]) -> Job {
    job(true, offset, EPS, vertices)
}

/// The four corners of a square.
fn square(side: f64) -> [[f64; 3]; 4] {
    [[0.0, 0.0], [side, 0.0], [side, side], [0.0, side]].map(|[x, y]| [x, y, 0.0])
}

/// Connector, source segment, reason and rules of a segment, both parameters by their bits.
fn assert_told(job: &Job, segment: u32, expected: [u32; 5], params: [f64; 2]) {
    let (answer, told) = why(job, segment);
    let [number, place, rest @ ..] = answer;
    let told = (number, place, rest, told.map(f64::to_bits));
    let expected = (0, 0, expected, params.map(f64::to_bits));
    assert_eq!(told, expected, "segment {segment} of {job:?}");
}

/// A segment that shows no parameters.
fn assert_plain(job: &Job, segment: u32, expected: [u32; 5]) {
    assert_told(job, segment, expected, [0.0; 2]);
}

fn assert_refused(job: &Job, number: u32, place: u32) {
    for segment in [0, 1, u32::MAX] {
        let (answer, params) = why(job, segment);
        assert_eq!(answer, [number, place, 0, 0, 0, 0, 0], "{job:?}");
        assert_eq!(params.map(f64::to_bits), [0; 2]);
    }
}

fn count(job: &Job) -> usize {
    whys(job).expect("it is not refused").len()
}

/// Whether an event, and a test's answer, belong to the way that a job goes.
fn goes_by(job: &Job, event: Event, asked: Option<(Site, bool)>) -> bool {
    let mut trace = Trace::new();
    traced_job(&mut trace, job);
    let test = |(site, answer)| {
        let mut path = trace.path.iter();
        path.any(|asked| (asked.site, asked.answer) == (site, answer))
    };
    trace.events.iter().any(|(_, other)| *other == event) && asked.is_none_or(test)
}

#[test]
fn a_folded_closing_span_is_the_last_one() {
    let folded = closed(3.0, &square(4.0));
    assert_eq!(count(&folded), 4);
    for segment in 0..4 {
        assert_told(&folded, segment, [0, segment, 2, 0, 0], [0.75, 0.25]);
    }
    let in_order = closed(1.0, &square(4.0));
    for segment in 0..4 {
        assert_plain(&in_order, segment, [0, segment, 1, 0, 0]);
    }
}

#[test]
fn where_the_last_vertex_is_removed_the_move_into_it_is_last() {
    let job = closed(1.0, &[[3.0, 3.0, 0.0], [3.0, 4.0, 0.0], [2.0, 3.0, 0.0]]);
    assert_eq!(count(&job), 3);
    assert!(goes_by(&job, Event::LastRemoved, None));
    assert_plain(&job, 0, [1, 0, 9, 0, 0]);
    assert_plain(&job, 1, [0, 1, 1, 0, 0]);
    assert_plain(&job, 2, [1, 1, 9, 0, 0]);
}

#[test]
fn a_zero_tangent_and_one_direction_come_before_a_collapsed_side() {
    let zero = open(1.0, &[[0.0, 0.0, 1.0], [1.5e-5, 0.0, 0.0], [4.0, 0.0, 0.0]]);
    assert_plain(&zero, 0, [0, 0, 3, 0, 0]);
    assert_plain(&zero, 1, [1, 0, 10, 0, 0]);
    assert_plain(&zero, 2, [0, 1, 1, 0, 0]);
    let half = 0.5_f64;
    let up = half.next_up().next_up().next_up();
    let same = open(2.0, &[[0.0, 0.0, 1.0], [0.0, half, -1.0], [0.0, up, 0.0]]);
    assert_plain(&same, 0, [0, 0, 3, 0, 0]);
    assert_plain(&same, 1, [1, 0, 11, 0, 0]);
}

#[test]
fn outer_and_reversal_joins_with_a_collapsed_side_are_round_and_reversal() {
    let outer = open(0.5, &[[2.0, 0.0, 1.0], [1.0, 0.0, 0.0], [0.0, 0.0, 0.0]]);
    assert_plain(&outer, 0, [1, 0, 4, 0, 0]);
    let reversal = open(1.0, &[[2.0, 0.0, 1.0], [0.0, 0.0, 0.0], [0.0, 1.0, 0.0]]);
    assert_plain(&reversal, 0, [1, 0, 5, 0, 0]);
    for job in [outer, reversal] {
        let made = goes_by(&job, Event::CollapsedLeft, None);
        assert!(made && goes_by(&job, Event::SpanDroppedFlagged, None));
    }
}

#[test]
fn equal_parameters_are_turned_back() {
    let one = closed(
        3.000011,
        &[[0.0, 0.0, 0.0], [3.0, 0.0, 0.0], [3.0, 3.0, 0.2]],
    );
    // Span 0 is dropped.
    assert_told(&one, 0, [0, 1, 2, 0, 0], [1.0; 2]);
    let zero = closed(
        -2.0,
        &[
            [0.0, 0.0, 0.0],
            [0.5, 0.0, 0.5],
            [0.5_f64.next_down(), 0.0, 0.0],
        ],
    );
    assert_told(&zero, 2, [0, 1, 2, 0, 3], [0.0; 2]);
}

#[test]
fn minus_zero_is_shown() {
    let end = closed(0.5, &[[0.0, 2.0, -1.0], [0.0, 1.0, 0.0], [0.0, 0.0, 1.0]]);
    let (_, [start, _]) = why(&end, 1);
    assert!(start > 0.3 && start < 0.4);
    assert_told(&end, 1, [0, 1, 2, 0, 0], [start, -0.0]);
    // The first line's offset ends right above the second's start, which goes to the left.
    let (a, b) = (0.029521942138671875, 0.14532263846839655);
    let corner = [[-a, b, 0.0], [0.0; 3], [-a, -b, 0.0]];
    let turn = [-0.119140625, 0.09375, 0.0];
    let vertices = [corner.as_slice(), &[turn]].concat();
    let start = job(false, -0.04296875, 0.01, &vertices);
    assert_told(&start, 1, [0, 1, 2, 0, 0], [-0.0, 0.0]);
}

#[test]
fn each_reason_of_a_span_and_of_a_round_connector() {
    let there_and_back = open(0.5, &[[0.0; 3], [1.0, 0.0, 0.0], [0.0; 3]]);
    assert_plain(&there_and_back, 0, [0, 0, 1, 0, 0]);
    assert_plain(&there_and_back, 1, [1, 0, 5, 0, 0]);
    assert_plain(&there_and_back, 2, [0, 1, 1, 0, 0]);
    let corner = open(1.0, &[[0.0, 1.0, 0.0], [1.0, 0.0, 0.0], [0.0; 3]]);
    assert_plain(&corner, 1, [1, 0, 4, 0, 0]);
    let collapsed = open(2.0, &[[0.0; 3], [2.0, 0.0, 2.0], [0.0; 3]]);
    assert_plain(&collapsed, 1, [1, 0, 7, 0, 0]);
    assert_plain(&collapsed, 2, [0, 1, 3, 0, 0]);
    // The walk of 01's row 6: the connector belongs to the segment before it.
    let gap = open(2.0, &[[0.0; 3], [4.0, 0.0, 0.0], [4.0, 1.0, 0.0]]);
    assert_plain(&gap, 0, [0, 0, 1, 0, 0]);
    assert_plain(&gap, 1, [1, 0, 9, 0, 0]);
    assert_plain(&gap, 2, [0, 1, 1, 0, 0]);
}

#[test]
fn a_collapsed_arc_is_told_as_collapsed_wherever_it_stands() {
    let both = open(1.0, &[[0.0, 0.0, 0.5], [1.0, 0.0, 1.0], [0.0; 3]]);
    assert_plain(&both, 0, [0, 0, 3, 0, 0]);
    assert_plain(&both, 1, [1, 0, 7, 0, 0]);
    assert_plain(&both, 2, [0, 1, 3, 0, 0]);
    assert!(goes_by(&both, Event::CollapsedBoth, None));
    let folded = closed(1.0, &[[0.0, 1.0, 1.0], [0.0, 0.0, 1.0]]);
    assert_plain(&folded, 1, [0, 1, 3, 0, 0]);
    let current = open(0.5, &[[0.0, 0.0, 1.0], [0.0, 1.0, 0.0], [0.0; 3]]);
    assert_plain(&current, 0, [1, 0, 7, 0, 0]);
    assert!(goes_by(&current, Event::CollapsedCurrent, None));
    let next = open(0.5, &[[0.0; 3], [0.0, 1.0, 1.0], [0.0; 3]]);
    assert_plain(&next, 1, [1, 0, 7, 0, 0]);
    assert!(goes_by(&next, Event::CollapsedNext, None));
}

#[test]
fn gaps_from_tangents() {
    let outgoing = open(0.5, &[[0.0; 3], [1.0, 0.0, 0.0], [1.0, 1e-9, 0.0]]);
    assert_plain(&outgoing, 1, [1, 0, 10, 0, 0]);
    assert!(goes_by(&outgoing, Event::ZeroOutgoing, None));
    let incoming = open(1.0, &[[5e-6, 0.0, 0.0], [0.0; 3], [0.0, 1.0, 0.0]]);
    assert_plain(&incoming, 0, [1, 0, 10, 0, 0]);
    assert!(goes_by(&incoming, Event::ZeroIncoming, None));
    let line = [
        [1.0, 0.0, 0.0],
        [2.0, 1.0, 0.0],
        [2.999999985098839, 2.0, 0.0],
    ];
    let same = job(false, 0.5, 1e-9, &line);
    assert_plain(&same, 1, [1, 0, 11, 0, 0]);
    assert!(goes_by(&same, Event::SameDirection, None));
}

#[test]
fn none_is_lines_apart_one_centre_or_a_circle_out_of_reach() {
    let apart = open(1.0, &[[6e-6, 0.0, 0.0], [0.0, 1.0, 0.0], [0.0; 3]]);
    let before = open(0.5, &[[0.0; 3], [1.0, 0.0, 0.5], [0.0; 3]]);
    let after = open(0.5, &[[0.0, 0.0, 0.5], [2.0, 0.0, 0.0], [0.0; 3]]);
    let concentric = open(-1.0, &[[0.0, 8e-6, 0.5], [2.0, 0.0, -0.5], [0.0; 3]]);
    let two = open(0.5, &[[0.0, 0.0, 0.5], [0.0, 1.0, 0.5], [0.0; 3]]);
    let nested = open(0.5, &[[0.0, 0.0, -0.5], [2.0, 0.0, 1.0], [0.0; 3]]);
    let ways = [
        (apart, Event::LinesNone, (Site::LinesCross, false)),
        (before, Event::MeetNone, (Site::CircleMissed, true)),
        (after, Event::MeetNone, (Site::CircleMissed, true)),
        (concentric, Event::MeetNone, (Site::SameRadius, false)),
        (two, Event::MeetNone, (Site::CirclesApart, true)),
        (nested, Event::MeetNone, (Site::CirclesNested, true)),
    ];
    for (job, event, test) in ways {
        assert_plain(&job, 1, [1, 0, 8, 0, 0]);
        assert!(goes_by(&job, event, Some(test)), "{job:?}");
    }
}

#[test]
fn missed_is_a_meeting_or_candidates_off_a_span() {
    let lines = open(1.0, &[[1.0, 0.0, 0.0], [0.0, 2.0, 0.0], [0.0; 3]]);
    let by_line = open(-2.0, &[[1.0, 0.0, 0.0], [0.0, 0.0, 0.5], [0.0, 2.0, 0.0]]);
    let by_arc = open(1.0, &[[2.0, 0.0, 0.0], [0.0, 0.5, -0.25], [0.0; 3]]);
    let after = open(2.0, &[[0.0, 0.0, 0.25], [2.0, 0.0, 0.0], [3.0, 1.0, 0.0]]);
    let arcs = open(-1.0, &[[0.0, 2.0, -0.25], [2.0, 0.0, 0.5], [0.0; 3]]);
    let touching = open(0.625, &[[0.0, 0.0, -0.5], [2.0, 1.0, 0.5], [0.0, 2.0, 0.0]]);
    let ways = [
        (lines, Event::LinesFalse),
        (by_line, Event::ParamTooLow),
        (by_arc, Event::ArcMissed),
        (after, Event::ArcMissed),
        (arcs, Event::FirstNearMissed),
        (touching, Event::MeetTangentMissed),
    ];
    for (job, event) in ways {
        assert_plain(&job, 1, [1, 0, 9, 0, 0]);
        assert!(goes_by(&job, event, None), "{job:?}");
    }
}

#[test]
fn missed_is_an_overlap_with_nothing_usable() {
    let low = [
        [-0.125, 0.0625, 0.0],
        [0.03125, -0.03125, 0.0],
        [-0.125, 0.125, 0.0],
    ];
    let low = job(false, 0.015625, 0.01, &low);
    assert!(goes_by(&low, Event::ParamTooLow, None));
    let high = [
        [-0.03125, 0.0078125, 0.0],
        [-0.015625, -0.03125, 0.0],
        [-0.00390625, 0.5, 0.0],
    ];
    let high = job(false, 0.015625, 0.01, &high);
    assert!(goes_by(&high, Event::ParamTooHigh, None));
    for lines in [low, high] {
        assert_plain(&lines, 1, [1, 0, 9, 0, 0]);
        assert!(goes_by(&lines, Event::LinesOverlap, None));
    }
    let arcs = [
        [-0.0078125, 0.0, -0.5],
        [-0.001953125, 0.0, -0.5],
        [0.0, 0.001953125, 0.0],
    ];
    let circles = job(false, 1.0, 0.0078125, &arcs);
    assert_plain(&circles, 1, [1, 0, 9, 0, 0]);
    assert!(goes_by(&circles, Event::OverlapMissed, None));
}

/// Where a span may start in order it starts at 0 or inside, and it ends inside or at 1.
#[test]
fn each_rule_at_the_start_of_a_span() {
    let near = open(-1.0, &[[0.0, 0.0, 2.0], [6e-6, 0.0, 1.0], [0.0; 3]]);
    assert_plain(&near, 1, [0, 1, 1, 1, 0]);
    let inside = open(0.5, &[[0.0; 3], [1.0, 0.0, 2.0], [0.0; 3]]);
    assert_plain(&inside, 1, [0, 1, 1, 3, 0]);
    let end = [[0.0, 0.0, 1.0], [0.0, 6.0, -0.5], [0.0, 3.0, 0.0], [0.0; 3]];
    let end = open(1.5, &end);
    let (_, [_, back]) = why(&end, 1);
    assert_told(&end, 1, [0, 1, 2, 2, 3], [1.0, back]);
    let past = [
        [0.0, 0.0625, 0.75],
        [0.0, 0.0, 0.75],
        [0.0, -0.0078125, 0.0],
    ];
    let past = job(false, -0.0625, 0.0078125, &past);
    assert_plain(&past, 0, [0, 0, 1, 0, 4]);
    assert_told(&past, 1, [0, 1, 2, 4, 0], [1.0, 1.0]);
}

#[test]
fn each_rule_at_the_end_of_a_span() {
    let near = open(-1.0, &[[0.0, 0.0, 1.0], [4e-6, 1.0, 1.0], [0.0, 1.0, 0.0]]);
    assert_plain(&near, 0, [0, 0, 1, 0, 2]);
    let inside = open(0.5, &[[0.0, 0.0, 1.0], [0.0, 2.0, 0.0], [0.0; 3]]);
    assert_plain(&inside, 0, [0, 0, 1, 0, 3]);
    let past = [[0.0, 0.0625, 0.5], [0.0, 0.0, 1.0], [0.0, -0.0078125, 0.0]];
    let past = job(false, -0.0625, 0.0078125, &past);
    assert_plain(&past, 0, [0, 0, 1, 0, 4]);
    let eps = 0.009765625;
    let ring = [[0.46875, -0.65625, -8192.0], [0.4765625, -0.6484375, 0.0]];
    let keyhole = [[-8192.0, 0.0, 0.0], ring[0], ring[1]];
    let start = job(true, -0.03125, eps, &keyhole);
    let (_, [from, _]) = why(&start, 1);
    assert_told(&start, 1, [0, 1, 2, 3, 1], [from, 0.0]);
}

#[test]
fn the_closing_join_tells_the_first_start_and_the_last_end() {
    let two = closed(-1.0, &[[1.0, 0.0, 2.0], [2.0, 0.0, 1.0]]);
    assert_plain(&two, 0, [0, 0, 1, 3, 3]);
    assert_plain(&two, 1, [0, 1, 1, 3, 3]);
    let first = closed(0.5, &[[0.0, 0.0, 2.0], [0.0, 2.0, 0.0]]);
    assert_plain(&first, 0, [0, 0, 1, 3, 3]);
    assert_plain(&first, 1, [0, 1, 1, 0, 0]);
    let last = [[0.0, 0.0, 1.0], [6e-6, 0.0, 0.0], [0.0, 1.0, 1.0]];
    let last = closed(-1.0, &last);
    assert_plain(&last, 0, [0, 0, 1, 3, 0]);
    assert_plain(&last, 3, [0, 2, 1, 0, 2]);
}

#[test]
fn a_closing_connector_belongs_to_the_last_segment() {
    let reversal = closed(1.0, &[[1.0, 0.0, 0.0], [0.0; 3]]);
    assert_plain(&reversal, 3, [1, 1, 5, 0, 0]);
    let round = closed(-2.0, &[[1.0, 0.0, 1.0], [0.0; 3]]);
    assert_plain(&round, 3, [1, 1, 4, 0, 0]);
    let none = closed(0.5, &[[1.0, 0.0, 0.5], [0.0; 3]]);
    assert_plain(&none, 3, [1, 1, 8, 0, 0]);
}

#[test]
fn dropped_moves_are_not_counted() {
    // The first arc's offset is shorter than ε.
    let vertices = [[0.0, 0.0, 0.5], [1.0, 1.0, 0.0], [0.0; 3]];
    let job = open(0.883880615234375, &vertices);
    assert!(goes_by(&job, Event::SpanDropped, None));
    assert_eq!(count(&job), 2);
    assert_plain(&job, 0, [1, 0, 10, 0, 0]);
    assert_plain(&job, 1, [0, 1, 1, 0, 0]);
}

#[test]
fn a_copy_has_every_segment_and_no_repeated_vertex() {
    let vertices = [[0.0; 3], [0.0; 3], [4.0, 0.0, 1.0]];
    for offset in [0.0, -0.0] {
        for (job, count) in [(open(offset, &vertices), 2), (closed(offset, &vertices), 3)] {
            for segment in 0..count {
                assert_plain(&job, segment, [0, segment, 12, 0, 0]);
            }
            assert_eq!(why(&job, count).0, [8, 0, 0, 0, 0, 0, 0]);
        }
    }
    assert_refused(&open(1.0, &vertices), 5, 0);
}

#[test]
fn refusals_have_their_places() {
    let line = [[0.0; 3], [4.0, 0.0, 0.0], [4.0, 4.0, 0.0]];
    let mut ragged = open(f64::NAN, &line);
    ragged.source.pop();
    assert_refused(&ragged, 1, 0);
    let many = |v: usize| (0..v).map(|i| [i as f64, 0.0, 0.0]).collect::<Vec<_>>();
    assert_refused(&open(f64::NAN, &many(4097)), 2, 0);
    assert_plain(&open(1.0, &many(4096)), 4094, [0, 4094, 1, 0, 0]);
    let mut bad = line;
    bad[1][2] = 1e9_f64.next_up();
    assert_refused(&open(0.0, &bad), 3, 1);
    assert_refused(&open(1e6_f64.next_up(), &line), 3, 3);
    assert_refused(&job(false, 0.0, 0.0, &line), 3, 4);
    assert_refused(&open(1.0, &[line[0], line[1], line[1], line[1]]), 5, 1);
    assert_refused(&closed(1.0, &[line[0], line[1], line[0]]), 5, 2);
}

#[test]
fn no_room_is_asked_for() {
    let mut lent = open(1.0, &[[0.0; 3], [4.0, 0.0, 0.0]]);
    lent.lend(0);
    assert_plain(&lent, 0, [0, 0, 1, 0, 0]);
}

/// Of the settled point where a line and a circle meet at no number.
#[test]
fn not_finite_comes_before_no_such_segment() {
    let vertices = [
        [5.0, 0.0, 0.6180339887498949],
        [-3.0, 4.0, 0.0],
        [5.0, 4.0, 0.0],
    ];
    let eps = 4.7683715820312495e-7;
    assert_refused(&job(false, 0.5000002384185791, eps, &vertices), 6, 0);
}

#[test]
fn there_is_no_segment_past_the_last_and_none_of_nothing() {
    for vertices in [&[][..], &[[1.0; 3]]] {
        for drawn in [open(1.0, vertices), closed(0.0, vertices)] {
            assert_refused(&drawn, 8, 0);
        }
    }
    assert_refused(&closed(f64::NAN, &[]), 3, 0);
    assert_refused(&open(3.0, &[[0.0, 0.0, 1.0], [4.0, 0.0, 0.0]]), 8, 0);
    assert_refused(&open(-1.0, &[[10.0, 5e-7, 4e7], [10.0, -5e-7, 0.0]]), 8, 0);
    assert_refused(&closed(2.0, &square(4.0)), 8, 0);
    let line = open(1.0, &[[0.0; 3], [4.0, 0.0, 0.0]]);
    for segment in [1, 2, u32::MAX] {
        assert_eq!(why(&line, segment).0, [8, 0, 0, 0, 0, 0, 0]);
    }
}

/// The reason's number that stands before a colon.
fn said(about: &str) -> impl Iterator<Item = u32> {
    let parts = about.split("; ");
    parts.filter_map(|part| part.split_once(':')?.0.parse().ok())
}

#[test]
fn the_samples_have_the_reasons_they_are_there_for() {
    let mut reached = [false; Reason::COUNT + 1];
    let mut about = "";
    for row in SAMPLES.lines() {
        if let Some(text) = row.strip_prefix("# ") {
            about = text;
            continue;
        }
        let whys = whys(&read_job(row).expect("a job"));
        let reasons: Vec<u32> = whys
            .iter()
            .flatten()
            .map(|why| why.reason.number())
            .collect();
        assert!(
            said(about).all(|reason| reasons.contains(&reason)),
            "{about}"
        );
        for reason in reasons {
            reached[reason as usize] = true;
        }
    }
    assert!(
        Reason::KEPT.iter().all(|reason| reached[*reason]),
        "{reached:?}"
    );
}

/// What holds of every answer, whatever the job.
fn is_sound(job: &Job) {
    let whys = whys(job).unwrap_or_default();
    let place = |origin| match origin {
        Origin::Span(source) => (source, 0),
        Origin::Connector(source) => (source, 1),
    };
    let places: Vec<(usize, u32)> = whys.iter().map(|why| place(why.origin)).collect();
    assert!(places.is_sorted_by(|a, b| a < b), "{job:?}");
    for (segment, why) in whys.iter().enumerate() {
        let (answer, params) = oracle::traced::why(job, segment as u32);
        let [_, _, connector, source, reason, rules @ ..] = answer;
        assert_eq!((source as usize, connector), places[segment]);
        let span = matches!(reason, 1..=3 | 12);
        assert_eq!(span, connector == 0, "{job:?}");
        assert_ne!(reason, Reason::Meeting.number(), "{job:?}");
        assert!(reason == 2 || params.map(f64::to_bits) == [0; 2]);
        assert!(reason != 2 || params[1] <= params[0]);
        assert!(reason <= 2 || rules == [0, 0], "{job:?}");
        assert_eq!(why.rules.map(Rule::number_of), rules);
    }
}

#[test]
fn moves_come_in_the_order_of_the_walk_and_only_some_have_more_to_tell() {
    let mut random = Random::new(1);
    let mut reached = [false; Reason::COUNT + 1];
    for _ in 0..500 {
        for (_, family) in FAMILIES.iter().chain(REASONS) {
            let job = family(&mut random);
            if job.source.len() <= 60 {
                is_sound(&job);
            }
            for why in whys(&job).iter().flatten() {
                reached[why.reason.number() as usize] = true;
            }
        }
    }
    assert!(
        Reason::KEPT.iter().all(|reason| reached[*reason]),
        "{reached:?}"
    );
}

/// As many segments as 000 draws, with its flags, and its refusals.
#[cfg(with_000)]
#[test]
fn flags_and_refusals_are_000s() {
    let mut random = Random::new(2);
    for _ in 0..1000 {
        for (_, family) in FAMILIES.iter().chain(REASONS) {
            let job = family(&mut random);
            let job = Job::new(job.closed, job.offset, job.eps, job.source);
            let outcome = job.run(oracle::job);
            let whys = whys(&job);
            let flags = whys.iter().flatten().map(|why| why.reason.is_flagged());
            let flags: Vec<u8> = flags.map(u8::from).collect();
            assert_eq!(outcome.drawn_flags(), flags, "{job:?}");
            let refusal = whys.err().unwrap_or_default();
            assert_eq!(outcome.answer[..2], refusal, "{job:?}");
        }
    }
}
