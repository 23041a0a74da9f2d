//! Where each output segment comes from: 02's 2026-09. 000 tells it by the number of its move, the traced
//! job by a tag; both are held to the words, and the proved code where it is there.
#![cfg(with_000)]

use oracle::generate::{FAMILIES, REASONS, Random, Steering};
use oracle::stage::{Answer, Before, Job, Lent, Outcome, Stage};
use oracle::traced::Origin::{self, Connector, Span};
use oracle::traced::{Event, Trace, job as traced_job, whys};

const STAGES: &[Stage] = &[
    oracle::job,
    oracle::traced::stage,
    #[cfg(feature = "proved")]
    oracle::proved::job,
];

const EPS: f64 = 1e-5;

const SQUARE: [[f64; 3]; 4] = [
    [0.0, 0.0, 0.0],
    [4.0, 0.0, 0.0],
    [4.0, 4.0, 0.0],
    [0.0, 4.0, 0.0],
];

const CORNER: [[f64; 3]; 3] = [[0.0, 0.0, 0.0], [4.0, 0.0, 0.0], [4.0, 1.0, 0.0]];

/// A line and a circle meet at no number.
const NOT_FINITE: [[f64; 3]; 3] = [
    [5.0, 0.0, 0.6180339887498949],
    [-3.0, 4.0, 0.0],
    [5.0, 4.0, 0.0],
];

fn open(offset: f64, vertices: &[[f64; 3]]) -> Job {
    Job::new(false, offset, EPS, vertices.as_flattened().to_vec())
}

fn closed(offset: f64, vertices: &[[f64; 3]]) -> Job {
    Job::new(true, offset, EPS, vertices.as_flattened().to_vec())
}

/// All 2n places: the drawn segments, then zeros.
fn assert_origins(job: &Job, drawn: &[Origin]) {
    let room = 2 * job.segments();
    let mut expected: Vec<u32> = drawn.iter().map(|origin| origin.code()).collect();
    expected.resize(room, 0);
    for stage in STAGES {
        for before in (0..Before::PATTERNS).map(Before::pattern) {
            let places = job.room.map(|lent| lent + 3);
            let outcome = job.run_over(before, places, *stage);
            assert_eq!(outcome.answer[0], 0, "{job:?}");
            assert_eq!(outcome.segments(), drawn.len(), "{job:?}");
            assert_eq!(outcome.origins[..room], expected, "{job:?}");
            assert!(outcome.keeps(job, before), "{job:?}");
        }
    }
}

/// Whether something happens on the way that a job goes.
fn goes_by(job: &Job, event: Event) -> bool {
    let mut trace = Trace::new();
    traced_job(&mut trace, job);
    trace.events.iter().any(|(_, other)| *other == event)
}

#[test]
fn a_code_is_twice_the_source_and_one_more_of_a_connector() {
    assert_eq!([Span(0), Span(1), Span(7)].map(Origin::code), [0, 2, 14]);
    let connectors = [Connector(0), Connector(1), Connector(7)];
    assert_eq!(connectors.map(Origin::code), [1, 3, 15]);
}

/// Not to the segment after it, and it is no span.
#[test]
fn a_connector_belongs_to_the_source_segment_before_it() {
    assert_origins(&open(2.0, &CORNER), &[Span(0), Connector(0), Span(1)]);
    assert_origins(&open(-1.0, &CORNER), &[Span(0), Connector(0), Span(1)]);
}

/// A trimmed join has no segment, so the two counts come apart.
#[test]
fn source_numbers_are_no_output_numbers() {
    assert_origins(&closed(1.0, &SQUARE), &[0, 1, 2, 3].map(Span));
    let dented = [
        [0.0, 0.0, 0.0],
        [4.0, 0.0, 0.0],
        [4.0, 4.0, 0.0],
        [8.0, 4.0, 0.0],
    ];
    // The first turn is inner, the second outer.
    let moves = [Span(0), Span(1), Connector(1), Span(2)];
    assert_origins(&open(1.0, &dented), &moves);
}

/// A folded closing move is a span, not the connector after it, also where its flag is set.
#[test]
fn a_folded_closing_move_is_the_last_span() {
    for offset in [1.0, 3.0] {
        let job = closed(offset, &SQUARE);
        assert!(goes_by(&job, Event::ClosingSpan));
        assert_origins(&job, &[0, 1, 2, 3].map(Span));
    }
}

/// It belongs to the last source segment, not to the first, where it leads.
#[test]
fn a_closing_connector_belongs_to_the_last_source_segment() {
    let job = closed(1.0, &[[1.0, 0.0, 0.0], [0.0; 3]]);
    assert!(goes_by(&job, Event::ClosingConnector));
    let moves = [Span(0), Connector(0), Span(1), Connector(1)];
    assert_origins(&job, &moves);
    let outside = [Span(0), Connector(0), Span(1), Connector(1)];
    let more = [Span(2), Connector(2), Span(3), Connector(3)];
    assert_origins(&closed(-1.0, &SQUARE), &[outside, more].concat());
}

/// The last segment is the kept move that leaves the last vertex left: not the dropped closing move,
/// nor one of the next number.
#[test]
fn where_the_last_vertex_is_removed_its_segment_keeps_its_origin() {
    let job = closed(1.0, &[[3.0, 3.0, 0.0], [3.0, 4.0, 0.0], [2.0, 3.0, 0.0]]);
    assert!(goes_by(&job, Event::LastRemoved));
    assert_origins(&job, &[Connector(0), Span(1), Connector(1)]);
}

/// A dropped move takes its origin with it, and leaves the others theirs.
#[test]
fn a_dropped_move_has_no_origin() {
    let job = open(
        0.883880615234375,
        &[[0.0, 0.0, 0.5], [1.0, 1.0, 0.0], [0.0; 3]],
    );
    assert!(goes_by(&job, Event::SpanDropped));
    assert_origins(&job, &[Connector(0), Span(1)]);
    // Both moves of segment 0 are dropped: its only trace would be the zeros.
    let short = open(1.0, &[[0.0; 3], [1e-6, 0.0, 0.0], [4.0, 0.0, 0.0]]);
    assert_origins(&short, &[Span(1)]);
    let step = [
        [0.0; 3],
        [4.0, 0.0, 0.0],
        [4.0, -1e-6, 0.0],
        [8.0, -1e-6, 0.0],
    ];
    let moves = [Span(0), Connector(0), Connector(1), Span(2)];
    assert_origins(&open(1.0, &step), &moves);
}

/// Also where vertices are repeated, and not all 0.
#[test]
fn a_copied_segment_is_the_span_of_itself() {
    let twice = [[0.0; 3], [0.0; 3], [4.0, 0.0, 1.0], [4.0, 0.0, 0.5]];
    for offset in [0.0, -0.0] {
        assert_origins(&open(offset, &twice), &[0, 1, 2].map(Span));
        assert_origins(&closed(offset, &twice), &[0, 1, 2, 3].map(Span));
    }
}

#[test]
fn a_drawing_of_nothing_has_zeros() {
    assert_origins(&closed(2.0, &SQUARE), &[]);
    assert_origins(&open(3.0, &[[0.0, 0.0, 1.0], [4.0, 0.0, 0.0]]), &[]);
    for vertices in [&[][..], &[[1.0; 3]]] {
        assert_origins(&open(1.0, vertices), &[]);
        assert_origins(&closed(0.0, vertices), &[]);
    }
}

/// All 2n, and none after them.
#[test]
fn not_finite_sets_zeros() {
    let mut job = open(0.5000002384185791, &NOT_FINITE);
    job.eps = 4.7683715820312495e-7;
    job.lend(6);
    for stage in STAGES {
        let outcome = job.run(*stage);
        assert_eq!(outcome.answer, [6, 0, 0, 0, 0]);
        let mark = Before::MARKS.origin(0);
        assert_eq!(mark, 0xcafe_f00d);
        assert_eq!(outcome.origins, [0, 0, 0, 0, mark, mark]);
    }
}

/// What is refused before leaves them, and so does a job without a segment, which needs none.
#[test]
fn other_refusals_change_no_origin() {
    let untouched = |job: &Job, number: u32| {
        for stage in STAGES {
            for before in (0..Before::PATTERNS).map(Before::pattern) {
                let outcome = job.run_over(before, job.room, *stage);
                assert_eq!(outcome.answer[0], number, "{job:?}");
                let expected = Outcome::untouched(outcome.answer, before, job.room);
                assert_eq!(outcome, expected, "{job:?}");
            }
        }
    };
    let good = open(2.0, &CORNER);
    let mut ragged = good.clone();
    ragged.source.pop();
    untouched(&ragged, 1);
    untouched(&open(2.0, &[[0.0; 3]; 4097]), 2);
    untouched(&open(f64::NAN, &CORNER), 3);
    untouched(&open(2.0, &[CORNER[0], CORNER[1], CORNER[1]]), 5);
    for origins in [0, 1, 3] {
        for offset in [2.0, 0.0] {
            let mut short = open(offset, &CORNER);
            short.room = [12, 4, 4, origins];
            untouched(&short, 4);
            short.room = [120, 40, 40, origins];
            untouched(&short, 4);
        }
        // Before No. 5, after No. 3.
        let mut repeated = open(2.0, &[CORNER[0], CORNER[1], CORNER[1]]);
        repeated.room[3] = origins;
        untouched(&repeated, 4);
        repeated.eps = 0.0;
        untouched(&repeated, 3);
    }
    for vertices in [&[][..], &[[1.0; 3]]] {
        let mut none = closed(1.0, vertices);
        none.room = [3, 1, 1, 0];
        untouched(&none, 0);
        none.room = [0, 0, 0, 2];
        untouched(&none, 0);
    }
}

#[test]
fn just_enough_suffices() {
    for stage in STAGES {
        let mut job = open(2.0, &CORNER);
        job.room = [12, 4, 4, 4];
        let outcome = job.run(*stage);
        assert_eq!(outcome.answer, [0, 0, 4, 1, 0]);
        assert_eq!(outcome.origins, [0, 1, 2, 0]);
    }
}

/// 000's count of its moves against the traced job's tags; none falls, and no two are alike.
#[test]
fn two_ways_to_tell_origins_agree() {
    let mut random = Random::new(6);
    let mut held = |job: &Job| {
        let job = Job::new(job.closed, job.offset, job.eps, job.source.clone());
        let outcome = job.run(oracle::job);
        let whys = whys(&job).unwrap_or_default();
        let tags: Vec<u32> = whys.iter().map(|why| why.origin.code()).collect();
        assert_eq!(outcome.drawn_origins(), tags, "{job:?}");
        assert!(tags.is_sorted_by(|a, b| a < b), "{job:?}");
        let last = tags
            .last()
            .is_none_or(|code| *code < 2 * job.segments() as u32);
        assert!(last, "{job:?}");
    };
    for _ in 0..1000 {
        for (_, family) in FAMILIES.iter().chain(REASONS) {
            held(&family(&mut random));
        }
    }
    let mut steering = Steering::new(6);
    for _ in 0..2000 {
        steering.around_a_turn().iter().for_each(&mut held);
    }
}

/// 000 with each origin that is drawn rewritten.
fn with_origins(job: &Job, mut lent: Lent, wrong: fn(u32) -> u32) -> Answer {
    let answer = oracle::job(job, lent.on());
    if answer[0] == 0 && job.segments() > 0 {
        let [_, _, vertices, _, closed] = answer;
        let open = u32::from(closed == 0 && vertices > 0);
        let drawn = &mut lent.origins[..(vertices - open) as usize];
        drawn.iter_mut().for_each(|origin| *origin = wrong(*origin));
    }
    answer
}

const WRONG: [Stage; 3] = [
    |job, lent| with_origins(job, lent, |origin| origin & !1),
    |job, lent| with_origins(job, lent, |origin| origin + 2),
    |job, lent| with_origins(job, lent, |origin| origin / 2),
];

/// The comparison looks at the origins: a stage that is wrong in them alone is told from 000.
#[test]
fn wrong_origins_are_seen() {
    for wrong in WRONG {
        let mut random = Random::new(7);
        let jobs = (0..2600).map(|turn| FAMILIES[turn % FAMILIES.len()].1(&mut random));
        let seen = jobs.filter(|job| job.run_compared(wrong) != job.run_compared(oracle::job));
        let seen = seen.count();
        assert!(seen > 1000, "{seen}");
    }
}
