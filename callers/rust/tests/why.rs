//! What an output segment is and why its flag is set or clear, and what is refused.

use blidrosk::{
    Bad, Corners, Drawing, MOST_VERTICES, Origin, Reason, Refusal, Rule, Why, why, why_with,
};

const EPS: f64 = 1e-5;

/// x, y and bulge.
type Vertex = [f64; 3];

const SQUARE: [Vertex; 4] = [[0.0; 3], [4.0, 0.0, 0.0], [4.0, 4.0, 0.0], [0.0, 4.0, 0.0]];

const CORNER: [Vertex; 3] = [[0.0; 3], [4.0, 0.0, 0.0], [4.0, 1.0, 0.0]];

const LINE: [Vertex; 2] = [[0.0; 3], [4.0, 0.0, 0.0]];

#[derive(Clone, Debug)]
struct Job {
    source: Vec<f64>,
    closed: bool,
    offset: f64,
    corners: Corners,
}

fn open(offset: f64, vertices: &[Vertex]) -> Job {
    Job {
        source: vertices.as_flattened().to_vec(),
        closed: false,
        offset,
        corners: Corners::Round,
    }
}

fn closed(offset: f64, vertices: &[Vertex]) -> Job {
    Job {
        closed: true,
        ..open(offset, vertices)
    }
}

impl Job {
    fn pointed(mut self, ratio: f64) -> Job {
        self.corners = Corners::Pointed { ratio };
        self
    }

    /// With round corners, and with those that are pointed.
    fn both(self) -> [Job; 2] {
        [self.clone(), self.pointed(2.0)]
    }

    fn why(&self, segment: u32) -> Result<Why, Refusal> {
        let Job {
            source,
            closed,
            offset,
            corners,
        } = self;
        let told = why_with(source, *closed, *offset, EPS, *corners, segment);
        if *corners == Corners::Round {
            assert_eq!(told, why(source, *closed, *offset, EPS, segment));
        }
        told
    }

    fn told(&self, segment: u32) -> Why {
        self.why(segment).expect("a good job and segment")
    }

    fn drawn(&self) -> Result<Drawing, Refusal> {
        Drawing::offset_with(&self.source, self.closed, self.offset, EPS, self.corners)
    }

    fn drawing(&self) -> Drawing {
        self.drawn().expect("a good job")
    }
}

/// A segment that no rule is told of.
#[track_caller]
fn assert_told(job: &Job, segment: u32, origin: Origin, reason: Reason) {
    let told = Why {
        origin,
        reason,
        start_rule: None,
        end_rule: None,
    };
    assert_eq!(job.why(segment), Ok(told));
}

#[track_caller]
fn assert_rules(why: Why, origin: Origin, start_rule: Option<Rule>, end_rule: Option<Rule>) {
    assert_eq!(why.origin, origin);
    assert_eq!((why.start_rule, why.end_rule), (start_rule, end_rule));
}

#[track_caller]
fn assert_refused(job: &Job, refusal: Refusal) {
    for segment in [0, 1, u32::MAX] {
        assert_eq!(job.why(segment), Err(refusal));
    }
}

#[test]
fn a_side_turned_back_tells_both_parameters() {
    let (start, end) = (0.75, 0.25);
    for segment in 0..4 {
        let side = Origin::Span(segment as usize);
        let reason = Reason::TurnedBack { start, end };
        assert_told(&closed(3.0, &SQUARE), segment, side, reason);
        assert_told(&closed(1.0, &SQUARE), segment, side, Reason::InOrder);
    }
}

#[test]
fn a_span_that_ends_where_it_starts_is_turned_back() {
    let job = closed(3.000011, &[[0.0; 3], [3.0, 0.0, 0.0], [3.0, 3.0, 0.2]]);
    let (start, end) = (1.0, 1.0);
    let reason = Reason::TurnedBack { start, end };
    assert_told(&job, 0, Origin::Span(1), reason);
}

#[test]
fn a_connector_belongs_to_the_segment_before_it() {
    let gap = open(2.0, &CORNER);
    assert_told(&gap, 0, Origin::Span(0), Reason::InOrder);
    assert_told(&gap, 1, Origin::Connector(0), Reason::CandidatesMissed);
    assert_told(&gap, 2, Origin::Span(1), Reason::InOrder);
    let ring = closed(1.0, &[[3.0, 3.0, 0.0], [3.0, 4.0, 0.0], [2.0, 3.0, 0.0]]);
    assert_told(&ring, 2, Origin::Connector(1), Reason::CandidatesMissed);
    let closing = closed(1.0, &LINE);
    assert_told(&closing, 3, Origin::Connector(1), Reason::Reversal);
}

#[test]
fn each_reason_has_its_number() {
    let corner = open(1.0, &[[0.0, 1.0, 0.0], [1.0, 0.0, 0.0], [0.0; 3]]);
    let back = open(0.5, &[[0.0; 3], [1.0, 0.0, 0.0], [0.0; 3]]);
    let collapsed = open(2.0, &[[0.0; 3], [2.0, 0.0, 2.0], [0.0; 3]]);
    let apart = open(0.5, &[[0.0; 3], [1.0, 0.0, 0.5], [0.0; 3]]);
    let zero = open(1.0, &[[0.0, 0.0, 1.0], [1.5e-5, 0.0, 0.0], [4.0, 0.0, 0.0]]);
    let up = 0.5_f64.next_up().next_up().next_up();
    let same = open(2.0, &[[0.0, 0.0, 1.0], [0.0, 0.5, -1.0], [0.0, up, 0.0]]);
    let (span, connector) = (Origin::Span, Origin::Connector);
    let told = [
        (&corner, 0, span(0), Reason::InOrder, 1),
        (&collapsed, 2, span(1), Reason::CollapsedArc, 3),
        (&corner, 1, connector(0), Reason::Round, 4),
        (&back, 1, connector(0), Reason::Reversal, 5),
        (&collapsed, 1, connector(0), Reason::CollapsedSide, 7),
        (&apart, 1, connector(0), Reason::NoMeeting, 8),
        (
            &open(2.0, &CORNER),
            1,
            connector(0),
            Reason::CandidatesMissed,
            9,
        ),
        (&zero, 1, connector(0), Reason::ZeroTangent, 10),
        (&same, 1, connector(0), Reason::SameDirection, 11),
        (&open(0.0, &CORNER), 1, span(1), Reason::Copied, 12),
    ];
    for (job, segment, origin, reason, number) in told {
        assert_told(job, segment, origin, reason);
        assert_eq!(reason.number(), number);
    }
    let (start, end) = (0.75, 0.25);
    assert_eq!(Reason::TurnedBack { start, end }.number(), 2);
    assert_eq!(Reason::Meeting.number(), 6);
    assert!(!Reason::Meeting.is_invalid());
}

#[test]
fn a_copy_has_every_segment_and_takes_equal_vertices() {
    let twice = [[0.0; 3], [0.0; 3], [4.0, 0.0, 1.0]];
    for zero in [0.0, -0.0] {
        for (job, count) in [(open(zero, &twice), 2), (closed(zero, &twice), 3)] {
            for segment in 0..count {
                let origin = Origin::Span(segment as usize);
                assert_told(&job, segment, origin, Reason::Copied);
            }
            assert_eq!(job.why(count), Err(Refusal::NoSuchSegment));
        }
    }
    assert_refused(&open(1.0, &twice), Refusal::Repeated(0));
}

#[test]
fn each_rule_of_a_trimmed_arc() {
    let inside = open(0.5, &[[0.0; 3], [1.0, 0.0, 2.0], [0.0; 3]]);
    assert_rules(inside.told(0), Origin::Span(0), None, None);
    assert_rules(inside.told(1), Origin::Span(1), Some(Rule::Inside), None);
    let near = open(-1.0, &[[0.0, 0.0, 2.0], [6e-6, 0.0, 1.0], [0.0; 3]]);
    let start = Some(Rule::StartMatched);
    assert_rules(near.told(1), Origin::Span(1), start, None);
    let end = open(-1.0, &[[0.0, 0.0, 1.0], [4e-6, 1.0, 1.0], [0.0, 1.0, 0.0]]);
    assert_rules(end.told(0), Origin::Span(0), None, Some(Rule::EndMatched));
    let step = -3.0994415283203125e-6;
    let past = closed(
        -0.5,
        &[[0.0, 0.25, 2.0], [step, 0.25, 0.0], [0.0, 0.0, 0.5]],
    );
    assert_rules(past.told(3), Origin::Span(2), None, Some(Rule::PastEnd));
}

#[test]
fn reasons_go_with_the_flags_and_origins_and_end_with_them() {
    let part = [
        [-3.5, 0.0, 0.0],
        [20.0, 0.0, 0.0],
        [20.0, 3.0, 0.0],
        [10.0, 3.0, 0.0],
        [10.0, 20.0, -0.5],
        [-5.0, 20.0, 0.0],
        [-4.5, 1.0, 0.25],
    ];
    let arcs = [
        [0.0, 0.0, 1.0],
        [0.0, 6.0, -0.5],
        [0.0, 3.0, 0.5],
        [2.0, 0.0, 2.0],
    ];
    let circle = [[10.0, 5e-7, 4e7], [10.0, -5e-7, 0.0]];
    for vertices in [
        &part[..],
        &arcs,
        &SQUARE,
        &CORNER,
        &LINE,
        &circle,
        &LINE[..1],
        &[],
    ] {
        for offset in [-3.0, -2.0, -0.5, 0.0, 0.5, 1.5, 2.0, 3.0] {
            let jobs = [open(offset, vertices), closed(offset, vertices)];
            for job in jobs.into_iter().flat_map(Job::both) {
                let Drawing { flags, origins, .. } = job.drawing();
                for (segment, marked) in (0..).zip(flags.iter().zip(&origins)) {
                    let told = job.told(segment);
                    let invalid = u8::from(told.reason.is_invalid());
                    assert_eq!(
                        (&invalid, &told.origin),
                        marked,
                        "segment {segment} of {job:?}"
                    );
                }
                assert_eq!(flags.len(), origins.len());
                let past = flags.len() as u32;
                assert_eq!(job.why(past), Err(Refusal::NoSuchSegment), "{job:?}");
            }
        }
    }
}

#[test]
fn a_job_is_refused_as_its_drawing_is() {
    let mut ragged = open(f64::NAN, &CORNER);
    ragged.source.pop();
    let most = [LINE[0]; MOST_VERTICES + 1];
    let mut bad = CORNER;
    bad[1][2] = 1e9_f64.next_up();
    let offset = open(1e6_f64.next_up(), &CORNER);
    let back = [CORNER[0], CORNER[1], CORNER[0]];
    let refused = [
        (ragged, Refusal::Ragged),
        (open(f64::NAN, &most), Refusal::TooMany),
        (open(0.0, &bad), Refusal::BadNumber(Bad::Vertex(1))),
        (offset, Refusal::BadNumber(Bad::Offset)),
        (open(f64::NAN, &[]), Refusal::BadNumber(Bad::Offset)),
        (
            open(1.0, &[LINE[0], LINE[1], LINE[1]]),
            Refusal::Repeated(1),
        ),
        (closed(1.0, &back), Refusal::Repeated(2)),
        (
            open(1.0, &[[0.0; 3], [1e-200, 0.0, 0.0]]),
            Refusal::NotFinite,
        ),
    ];
    for (job, refusal) in refused {
        for job in job.both() {
            assert_refused(&job, refusal);
            assert_eq!(job.drawn(), Err(refusal));
        }
    }
    let eps = why(CORNER.as_flattened(), false, 1.0, 0.0, 0);
    assert_eq!(eps, Err(Refusal::BadNumber(Bad::Eps)));
}

/// Goes up and down by 1, so that both connectors of a corner and trimmed spans come.
fn zigzag(count: usize) -> Vec<Vertex> {
    (0..count)
        .map(|i| [i as f64, (i % 2) as f64, 0.0])
        .collect()
}

#[test]
fn the_most_vertices_are_taken_and_one_more_is_not() {
    for job in [
        open(0.125, &zigzag(MOST_VERTICES)),
        closed(-0.125, &zigzag(MOST_VERTICES)),
        open(0.125, &zigzag(MOST_VERTICES)).pointed(2.0),
        closed(-0.125, &zigzag(MOST_VERTICES)).pointed(10.0),
        open(-0.0, &zigzag(MOST_VERTICES)),
    ] {
        let Drawing { flags, origins, .. } = job.drawing();
        let count = flags.len() as u32;
        assert!(count >= MOST_VERTICES as u32 - 1);
        for segment in [0, 1, count / 2, count - 2, count - 1] {
            let told = job.told(segment);
            assert_eq!(told.origin, origins[segment as usize]);
            assert_eq!(u8::from(told.reason.is_invalid()), flags[segment as usize]);
        }
        for segment in [count, count + 1, u32::MAX] {
            assert_eq!(job.why(segment), Err(Refusal::NoSuchSegment));
        }
    }
    let more = zigzag(MOST_VERTICES + 1);
    for job in [open(0.125, &more), closed(0.0, &more)] {
        for job in job.both() {
            assert_refused(&job, Refusal::TooMany);
        }
    }
}

#[test]
fn limits_are_taken_and_the_next_double_is_not() {
    let bad = |place| Err(Refusal::BadNumber(place));
    for (part, limit) in [(0, 1e6_f64), (1, 1e6), (2, 1e9)] {
        for sign in [1.0, -1.0] {
            let mut vertices = LINE;
            vertices[1][part] = sign * limit;
            assert!(open(1.0, &vertices).why(0).is_ok());
            for past in [limit.next_up(), f64::INFINITY, f64::NAN] {
                vertices[1][part] = sign * past;
                assert_eq!(open(1.0, &vertices).why(0), bad(Bad::Vertex(1)));
            }
        }
    }
    for sign in [1.0, -1.0] {
        assert!(open(sign * 1e6, &LINE).why(0).is_ok());
        for past in [1e6_f64.next_up(), f64::INFINITY, f64::NAN] {
            assert_eq!(open(sign * past, &LINE).why(0), bad(Bad::Offset));
        }
    }
    let by_eps = |eps| why(LINE.as_flattened(), false, 1.0, eps, 0);
    assert!(by_eps(1e-9).is_ok() && by_eps(0.01).is_ok());
    for eps in [1e-9_f64.next_down(), 0.01_f64.next_up(), -1e-5, f64::NAN] {
        assert_eq!(by_eps(eps), bad(Bad::Eps));
    }
}

#[test]
fn nothing_has_no_segment() {
    for vertices in [&[][..], &LINE[..1]] {
        let jobs = [open(1.0, vertices), closed(0.0, vertices)];
        for job in jobs.into_iter().flat_map(Job::both) {
            assert_refused(&job, Refusal::NoSuchSegment);
        }
    }
    assert_refused(&closed(2.0, &SQUARE), Refusal::NoSuchSegment);
    let line = open(1.0, &LINE);
    for segment in [1, 2, u32::MAX] {
        assert_eq!(line.why(segment), Err(Refusal::NoSuchSegment));
    }
}

#[test]
fn a_segment_is_told_in_a_sentence() {
    let arc = closed(0.5, &[[0.0, 0.0, 2.0], [0.0, 2.0, 0.0]]).told(0);
    assert_eq!(
        arc.to_string(),
        "the span of source segment 0 runs forward; its start was trimmed inside the arc; \
         its end was trimmed inside the arc"
    );
    let round = open(-1.0, &CORNER).told(1);
    assert_eq!(
        round.to_string(),
        "the connector after source segment 0 goes round an outer corner"
    );
    assert_eq!(
        Refusal::NoSuchSegment.to_string(),
        "the offset drawing has no segment of that number"
    );
}
