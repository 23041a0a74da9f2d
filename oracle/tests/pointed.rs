//! Sharp outer corners: the settled points of 02's 2026-13, its refusals, its room, and what it leaves as
//! it was. 000 has no such mode; the traced job is held to the words, and the proved code where it is there.
#![cfg(with_000)]

use oracle::generate::{FAMILIES, POINTED, Random, Steering};
use oracle::stage::{Answer, Before, Job, Lent, Outcome, Stage};
use oracle::text::{any_job_row, job_row, read_job};
use oracle::traced::{Event, Reason, Site, Trace, job as traced_job, why, whys};

const STAGES: &[Stage] = &[
    oracle::traced::stage,
    #[cfg(feature = "proved")]
    oracle::proved::job,
];

const EPS: f64 = 1e-5;
/// A wide tolerance.
const WIDE: f64 = 0.01;

const SQUARE: [[f64; 2]; 4] = [[0.0, 0.0], [4.0, 0.0], [4.0, 4.0], [0.0, 4.0]];

/// Whose point is 31.25 from the corner, the offset being 25.
const AT_LIMIT: [[f64; 2]; 3] = [[0.0, 0.0], [10.0, 0.0], [17.0, -24.0]];

/// Lines through points.
fn job(closed: bool, offset: f64, eps: f64, ratio: f64, points: &[[f64; 2]]) -> Job {
    let source = points.iter().flat_map(|[x, y]| [*x, *y, 0.0]);
    Job::new(closed, offset, eps, source.collect()).pointed(ratio)
}

fn open(offset: f64, ratio: f64, points: &[[f64; 2]]) -> Job {
    job(false, offset, EPS, ratio, points)
}

fn square(offset: f64, ratio: f64) -> Job {
    job(true, offset, EPS, ratio, &SQUARE)
}

/// The same of every stage, over every pattern, with places past what is lent.
fn run(job: &Job) -> Outcome {
    let places = job.room.map(|lent| lent + 3);
    for before in (0..Before::PATTERNS).map(Before::pattern) {
        let expected = job.run_over(before, places, STAGES[0]);
        assert!(expected.keeps(job, before), "{job:?}");
        for stage in STAGES {
            let outcome = job.run_over(before, places, *stage);
            assert_eq!(outcome, expected, "{job:?}");
        }
    }
    job.run_over(Before::MARKS, places, STAGES[0])
}

/// Vertices, flags, indexes and origins.
type Drawing<'a> = (&'a [u64], &'a [u8], &'a [u32], &'a [u32]);

fn drawing(outcome: &Outcome) -> Drawing<'_> {
    (
        &outcome.vertices[..3 * outcome.answer[2] as usize],
        outcome.drawn_flags(),
        outcome.invalid(),
        outcome.drawn_origins(),
    )
}

/// All 3n places: straight lines through these points, no flag, the origins, then zeros.
fn assert_straight(job: &Job, points: &[[f64; 2]], origins: &[u32]) {
    let outcome = run(job);
    let room = job.need();
    let mut numbers: Vec<u64> = points
        .iter()
        .flat_map(|[x, y]| [x.to_bits(), y.to_bits(), 0])
        .collect();
    numbers.resize(3 * room, 0);
    let mut codes = origins.to_vec();
    codes.resize(room, 0);
    let closed = u32::from(job.closed);
    assert_eq!(outcome.answer, [0, 0, points.len() as u32, 0, closed]);
    assert_eq!(outcome.vertices[..3 * room], numbers, "{job:?}");
    assert_eq!(outcome.flags[..room], vec![0; room]);
    assert_eq!(outcome.indexes[..room], vec![0; room]);
    assert_eq!(outcome.origins[..room], codes);
}

/// Drawn as in the round mode.
fn assert_round(job: &Job) {
    let round = job.round().run(oracle::job);
    let outcome = run(job);
    assert_eq!(outcome.answer, round.answer, "{job:?}");
    assert_eq!(drawing(&outcome), drawing(&round), "{job:?}");
}

fn assert_refused(job: &Job, number: u32, place: u32) {
    assert_eq!(run(job).answer, [number, place, 0, 0, 0], "{job:?}");
}

/// The reasons of an output's segments, by number, none of them turned back; the proved code's too.
fn reasons(job: &Job) -> Vec<u32> {
    let count = whys(job).expect("it is not refused").len() as u32;
    let told = |segment: u32| {
        let (answer, params) = why(job, segment);
        #[cfg(feature = "proved")]
        assert_eq!(
            oracle::proved::why(job, segment),
            (answer, params.map(f64::to_bits))
        );
        assert_eq!(params.map(f64::to_bits), [0; 2]);
        answer
    };
    assert_eq!(told(count), [8, 0, 0, 0, 0, 0, 0]);
    (0..count).map(|segment| told(segment)[4]).collect()
}

fn goes_by(job: &Job, event: Event) -> bool {
    let mut trace = Trace::new();
    traced_job(&mut trace, job);
    trace.events.iter().any(|(_, other)| *other == event)
}

/// Whether a test is asked of two equal numbers.
fn is_tied(job: &Job, site: Site) -> bool {
    let mut trace = Trace::new();
    traced_job(&mut trace, job);
    let mut asked = trace.path.iter().filter(|asked| asked.site == site);
    asked.any(|asked| asked.margin == 0.0)
}

/// `≤`: both sides are 976.5625.
#[test]
fn a_point_just_as_far_as_may_be_is_taken() {
    let limit = open(25.0, 1.25, &AT_LIMIT);
    assert!(is_tied(&limit, Site::TipWithin));
    let start = 7.0_f64.next_up();
    let points = [
        [0.0, 25.0],
        [10.0, 25.0],
        [28.75, 25.0],
        [34.0, start],
        [41.0, -17.0],
    ];
    assert_straight(&limit, &points, &[0, 1, 1, 2]);
    let below = open(25.0, 1.25_f64.next_down(), &AT_LIMIT);
    assert_round(&below);
    assert_eq!(run(&below).answer, [0, 0, 4, 0, 0]);
    // To the other side the corner is an inner one, whatever the ratio.
    assert_round(&open(-25.0, 10.0, &AT_LIMIT));
}

/// The square root of 2, to the nearest double, squares to more than 2.
#[test]
fn the_bound_is_worked_in_its_order() {
    assert_eq!(run(&square(-1.0, std::f64::consts::SQRT_2)).answer[2], 12);
    assert_round(&square(-1.0, std::f64::consts::SQRT_2.next_down()));
    assert_round(&square(-1.0, 1.0));
}

#[test]
fn d_of_just_eps_is_taken_and_less_is_not() {
    let corner = |down: f64| {
        job(
            false,
            1.0,
            WIDE,
            2.0,
            &[[0.0, 0.0], [0.5, 0.0], [0.5, -down]],
        )
    };
    let points = |down: f64| [[0.0, 1.0], [0.5, 1.0], [1.5, 1.0], [1.5, 0.0], [1.5, -down]];
    let just = 2.0 * WIDE;
    assert!(is_tied(&corner(just), Site::TipCrosses));
    assert_straight(&corner(just), &points(just), &[0, 1, 1, 2]);
    let above = just.next_up();
    assert_straight(&corner(above), &points(above), &[0, 1, 1, 2]);
    assert_round(&corner(just.next_down()));
    // A right angle of short lines.
    let short = [[0.0, 0.0], [0.05, 0.0], [0.05, -0.05]];
    let short = job(false, 1.0, WIDE, 10.0, &short);
    assert!(goes_by(&short, Event::TipFlat));
    assert_round(&short);
}

#[test]
fn a_square_has_twelve_vertices() {
    let points = [
        [0.0, -1.0],
        [4.0, -1.0],
        [5.0, -1.0],
        [5.0, 0.0],
        [5.0, 4.0],
        [5.0, 5.0],
        [4.0, 5.0],
        [0.0, 5.0],
        [-1.0, 5.0],
        [-1.0, 4.0],
        [-1.0, 0.0],
        [-1.0, -1.0],
    ];
    let origins = [0, 1, 1, 2, 3, 3, 4, 5, 5, 6, 7, 7];
    for ratio in [2.0, 10.0] {
        let job = square(-1.0, ratio);
        assert_straight(&job, &points, &origins);
        assert_eq!(reasons(&job), [1, 13, 13].repeat(4));
    }
    assert_round(&square(1.0, 2.0));
    assert_round(&square(3.0, 10.0));
}

/// It is 50001 where the first line is that short; and under 1 where rounding, far out, moves the point
/// before that line's end.
#[test]
fn there_is_no_condition_on_t() {
    let short = open(5.0, 10.0, &[[0.0, 0.0], [1e-4, 0.0], [1e-4, -4.0]]);
    let x = 1e-4 + 5.0;
    let points = [[0.0, 5.0], [1e-4, 5.0], [x, 5.0], [x, 0.0], [x, -4.0]];
    assert_straight(&short, &points, &[0, 1, 1, 2]);

    let points = [[-873277.0, 42.5], [-873234.75, 0.0], [-873221.5, -13.0]];
    let far = job(
        false,
        -3.5762786865234375e-7,
        1.862645149230957e-9,
        2.0,
        &points,
    );
    assert!(goes_by(&far, Event::TipBehind));
    let points = [
        [-873277.0000002537, 42.49999974786597],
        [-873234.7500002537, -2.521340321586979e-7],
        [-873234.7500002559, -2.49932170959255e-7],
        [-873234.7500002504, -2.552779054420824e-7],
        [-873221.5000002504, -13.000000255277905],
    ];
    assert_straight(&far, &points, &[0, 1, 1, 2]);
}

/// (0,0)(4,0)(8,−0.06): the point is within ε of the first line's end, the next start is not.
#[test]
fn each_move_is_kept_or_dropped_by_itself() {
    let second = job(
        false,
        1.0,
        WIDE,
        2.0,
        &[[0.0, 0.0], [4.0, 0.0], [8.0, -0.06]],
    );
    assert!(goes_by(&second, Event::SecondKept));
    let outcome = run(&second);
    assert_eq!(outcome.answer, [0, 0, 4, 0, 0]);
    let ends = second.round().run(oracle::job).drawn()[2];
    assert_eq!(outcome.drawn()[1..3], [[4.0, 1.0, 0.0], ends]);
    assert_eq!(outcome.drawn()[1][2].to_bits(), 0);
    assert_eq!(outcome.drawn_origins(), [0, 1, 2]);
    assert_eq!(reasons(&second), [1, 13, 1]);

    let triangle = [[0.0, 0.0], [0.5, 0.0], [1.5, 1.0]];
    let offset = -0.03414213562373077;
    let first = job(true, offset, WIDE, 1.25, &triangle);
    assert!(goes_by(&first, Event::FirstKept));
    let outcome = run(&first);
    assert_eq!(outcome.answer, [0, 0, 6, 0, 1]);
    // The span after it leaves the point.
    let point = [0.5141421356237309, offset, 0.0];
    assert_eq!(outcome.drawn()[1..3], [[0.5, offset, 0.0], point]);
    assert_eq!(outcome.drawn_origins(), [0, 1, 2, 3, 4, 5]);
    assert_eq!(reasons(&first), [1, 13, 1, 4, 1, 4]);

    // The same corner where the drawing closes: the vertex at the point is removed.
    let closing = job(
        true,
        offset,
        WIDE,
        1.25,
        &[triangle[1], triangle[2], triangle[0]],
    );
    assert!(goes_by(&closing, Event::ClosingFirstKept));
    let outcome = run(&closing);
    assert_eq!(outcome.answer, [0, 0, 6, 0, 1]);
    assert_eq!(outcome.drawn()[5], [0.5, offset, 0.0]);
    assert_eq!(outcome.drawn_origins(), [0, 1, 2, 3, 4, 5]);
    assert_eq!(reasons(&closing), [1, 4, 1, 4, 1, 13]);
}

/// The last kept point is a connector's before, with the short line between dropped.
#[test]
fn neither_move_may_be_kept() {
    let points = [
        [0.375, -0.75],
        [0.0, 0.0],
        [-0.005859375, 0.0068359375],
        [-2.0, 4.0],
    ];
    let neither = job(false, 0.0625, 0.0078125, 2.0, &points);
    assert!(goes_by(&neither, Event::NeitherKept));
    assert_eq!(run(&neither).drawn_origins(), [0, 4]);
    let near = 7.62939453125e-6;
    let points = [[-near, near], [-6.0, 3.0], [2.0, -1.0], [0.0, 0.0]];
    let closing = job(true, -6.103515625e-5, 9.5367431640625e-6, 2.0, &points);
    assert!(goes_by(&closing, Event::ClosingNeitherKept));
    assert_eq!(run(&closing).drawn_origins(), [0, 1, 2, 3, 4]);
}

#[test]
fn a_closing_connector_may_be_a_pair() {
    let job = job(
        true,
        -1.0,
        EPS,
        3.0,
        &[[0.0, 0.0], [4.0, 0.0], [4.0, 4.0], [2.0, 1.0], [0.0, 4.0]],
    );
    assert!(goes_by(&job, Event::ClosingPairKept));
    let outcome = run(&job);
    assert_eq!(outcome.answer, [0, 0, 11, 0, 1]);
    assert_eq!(outcome.drawn()[9..], [[-1.0, 0.0, 0.0], [-1.0, -1.0, 0.0]]);
    assert_eq!(outcome.drawn_origins(), [0, 1, 1, 2, 3, 4, 6, 7, 8, 9, 9]);
    assert_eq!(reasons(&job), [1, 13, 13, 1, 4, 1, 1, 4, 1, 13, 13]);
}

/// At arcs, at collapsed arcs on either side, and at reversals.
#[test]
fn every_other_join_stays_as_it_was() {
    let sources: [&[[f64; 3]]; 6] = [
        &[[0.0, 0.0, 0.0], [4.0, 0.0, 0.25], [4.0, -4.0, 0.0]],
        &[[0.0, 0.0, -0.5], [4.0, 0.0, 0.0], [4.0, -4.0, 0.0]],
        &[[2.0, 0.0, 1.0], [1.0, 0.0, 0.0], [0.0, 0.0, 0.0]],
        &[
            [0.0, 0.0, 0.0],
            [4.0, 0.0, 1.0],
            [4.0, -1.0, 0.0],
            [0.0, -1.0, 0.0],
        ],
        &[[0.0, 0.0, 0.0], [4.0, 0.0, 0.0], [0.0, 0.0, 0.0]],
        &[[0.0, 0.0, 0.0], [4.0, 0.0, 0.0], [8.0, 0.0, 0.0]],
    ];
    for source in sources {
        for offset in [0.5, 1.0, 5.0] {
            for closed in [false, true] {
                let source = source.as_flattened().to_vec();
                let job = Job::new(closed, offset, EPS, source).pointed(10.0);
                if !goes_by(&job, Event::Tip) {
                    assert_round(&job);
                    continue;
                }
                assert!(closed, "only the closing line makes a corner of lines");
            }
        }
    }
}

/// Its direction is 0/0, and so are |D| and the rest.
#[test]
fn a_nan_in_the_test_is_round() {
    let points = [[0.0, 0.0], [1e-200, 0.0], [4.0, 0.0]];
    let nan = open(1.0, 2.0, &points);
    assert!(goes_by(&nan, Event::TipFlat));
    assert_refused(&nan, 6, 0);
    let outcome = run(&nan);
    let room = nan.need();
    assert_eq!(outcome.vertices[..3 * room], vec![0; 3 * room]);
    assert_eq!(outcome.origins[..room], vec![0; room]);
}

#[test]
fn the_ratio_is_the_last_number() {
    for ratio in [1.0, 10.0, 1.0_f64.next_up(), 10.0_f64.next_down()] {
        assert_eq!(run(&square(-1.0, ratio)).answer[0], 0);
        assert_eq!(run(&open(1.0, ratio, &[])).answer, [0; 5]);
    }
    let nans = [f64::NAN, -f64::NAN, f64::from_bits(0x7ff0_0000_0000_0001)];
    let low = [
        1.0_f64.next_down(),
        0.0,
        -0.0,
        -1.0,
        -10.0,
        f64::NEG_INFINITY,
    ];
    let high = [10.0_f64.next_up(), f64::INFINITY, f64::MAX];
    for ratio in nans.into_iter().chain(low).chain(high) {
        assert_refused(&open(1.0, ratio, &[]), 3, 2);
        assert_refused(&open(0.0, ratio, &SQUARE[..1]), 3, 3);
        assert_refused(&open(1.0, ratio, &SQUARE[..2]), 3, 4);
        assert_refused(&square(0.0, ratio), 3, 6);
        assert_refused(&square(-1.0, ratio), 3, 6);
        for segment in [0, 1, u32::MAX] {
            let (answer, _) = why(&square(-1.0, ratio), segment);
            assert_eq!(answer, [3, 6, 0, 0, 0, 0, 0]);
        }
    }
}

/// After the vertices, the offset and ε; before room and repeated vertices.
#[test]
fn the_ratio_has_its_turn() {
    let twice = [[1.0, 1.0], [1.0, 1.0]];
    let bad = f64::NAN;
    let mut all = job(false, f64::NAN, 0.0, bad, &twice);
    all.source[0] = 2e6;
    all.lend(0);
    assert_refused(&all, 3, 0);
    all.source[0] = 1.0;
    assert_refused(&all, 3, 2);
    all.offset = 1.0;
    assert_refused(&all, 3, 3);
    all.eps = EPS;
    assert_refused(&all, 3, 4);
    all.ratio = Some(2.0);
    assert_refused(&all, 4, 0);
    all.lend(3);
    assert_refused(&all, 5, 0);
    all.ratio = Some(bad);
    all.source.push(0.0);
    assert_refused(&all, 1, 0);
    let many = Job::new(false, 1.0, EPS, vec![0.0; 3 * 4097]).pointed(bad);
    assert_refused(&many, 2, 0);
}

#[test]
fn three_places_a_segment_are_needed_of_each_kind() {
    let copied = square(0.0, 2.0);
    let empty = square(2.0, 2.0);
    for job in [square(-1.0, 2.0), copied, empty, square(1.0, 1.0)] {
        let need = 3 * 4;
        let mut lent = job.clone();
        lent.room = [3 * need, need, need, need];
        assert_eq!(run(&lent).answer[0], 0);
        for kind in 0..4 {
            let mut short = lent.clone();
            short.room[kind] -= 1;
            assert_refused(&short, 4, 0);
        }
        lent.lend(2 * 4);
        assert_refused(&lent, 4, 0);
    }
    for points in [&[][..], &SQUARE[..1]] {
        let mut none = open(-1.0, 2.0, points);
        none.room = [0; 4];
        assert_eq!(run(&none).answer, [0; 5]);
    }
}

#[test]
fn a_copy_has_zeros_up_to_three_places_a_segment() {
    assert_straight(&square(-0.0, 2.0), &SQUARE, &[0, 2, 4, 6]);
    assert_eq!(reasons(&square(0.0, 2.0)), [12; 4]);
}

/// 4096 vertices are drawn as 12288, and 4097 are too many.
#[test]
fn the_largest_drawing() {
    let side = |count: usize| {
        let vertex = |i: usize| {
            let (sin, cos) = (std::f64::consts::TAU * i as f64 / count as f64).sin_cos();
            [1000.0 * cos, 1000.0 * sin]
        };
        let points: Vec<[f64; 2]> = (0..count).map(vertex).collect();
        job(true, -2.0, EPS, 2.0, &points)
    };
    for stage in STAGES {
        let outcome = side(4096).run(*stage);
        assert_eq!(outcome.answer, [0, 0, 3 * 4096, 0, 1]);
        assert_eq!(side(4097).run(*stage).answer, [2, 0, 0, 0, 0]);
    }
}

/// Without a point all is 000's, in any job.
#[test]
fn without_a_point_the_drawing_is_the_round_one() {
    let mut random = Random::new(21);
    let (mut round, mut sharp) = (0, 0);
    for turn in 0..20_000 {
        let job = FAMILIES[turn % FAMILIES.len()].1(&mut random).round();
        let job = job.pointed(1.0 + 9.0 * random.unit());
        if goes_by(&job, Event::Tip) {
            sharp += 1;
            continue;
        }
        round += 1;
        let outcome = job.run(oracle::traced::stage);
        let by_000 = job.round().run(oracle::job);
        assert_eq!(outcome.answer, by_000.answer, "{job:?}");
        assert_eq!(drawing(&outcome), drawing(&by_000), "{job:?}");
    }
    assert!(round > 10_000 && sharp > 500, "{round} {sharp}");
}

/// The origins rise, but for the two moves of a pair, which are connectors.
#[test]
fn only_a_pair_has_one_origin() {
    let mut random = Random::new(22);
    for turn in 0..20_000 {
        let job = POINTED[turn % POINTED.len()].1(&mut random).lent_enough();
        let whys = whys(&job).unwrap_or_default();
        for pair in whys.windows(2) {
            let [a, b] = [pair[0], pair[1]].map(|why| why.origin.code());
            let twice = a == b && a % 2 == 1 && pair[0].reason == Reason::Pointed;
            assert!(a < b || twice && pair[0] == pair[1], "{job:?}");
        }
        let last = whys.last().map_or(0, |why| why.origin.code());
        assert!(last <= 2 * job.segments() as u32, "{job:?}");
    }
}

#[test]
#[cfg(feature = "proved")]
fn the_proved_code_agrees() {
    let mut random = Random::new(23);
    let agrees = |job: &Job| {
        let expected = job.run_compared(oracle::traced::stage);
        assert_eq!(job.run_compared(oracle::proved::job), expected, "{job:?}");
    };
    for turn in 0..20_000 {
        agrees(&POINTED[turn % POINTED.len()].1(&mut random));
    }
    let mut steering = Steering::pointed(23);
    for _ in 0..500 {
        steering.around_a_turn().iter().for_each(agrees);
    }
}

/// Each test that the pointed mode alone asks can be steered to where it turns.
#[test]
fn steering_finds_every_test() {
    let mut steering = Steering::pointed(24);
    for _ in 0..1000 {
        let jobs = steering.around_a_turn();
        assert!(jobs.iter().all(|job| job.ratio.is_some()));
    }
    for site in Site::POINTED {
        assert!(steering.turns[*site as usize] > 0, "{}", site.text());
    }
}

#[test]
fn a_pointed_job_is_read_as_it_was_written() {
    let mut random = Random::new(25);
    for turn in 0..2000 {
        let job = POINTED[turn % POINTED.len()].1(&mut random);
        let read = read_job(&any_job_row(&job)).expect("a job");
        assert_eq!(any_job_row(&read), any_job_row(&job));
        assert_eq!((read.before(), read.room), (job.before(), job.room));
    }
    let job = square(-1.0, 2.0);
    assert!(job_row(&job).starts_with("3 bff0000000000000 3ee4f8b588e368f1 4000000000000000 4 "));
    assert_eq!(read_job(&job_row(&job)), Some(job));
    assert_eq!(read_job("4 0 0 0 0"), None);
    assert_eq!(read_job("2 0 0 0"), None);
}

/// The traced job with the first number, flag, index or origin between 2n and 3n left as it was.
fn leaving<const KIND: usize>(job: &Job, mut lent: Lent) -> Answer {
    let past = 2 * job.segments();
    let last = 3 * past < lent.vertices.len();
    let held = last.then(|| {
        (
            lent.vertices[3 * past],
            lent.flags[past],
            lent.indexes[past],
            lent.origins[past],
        )
    });
    let answer = oracle::traced::stage(job, lent.on());
    if let Some((number, flag, index, origin)) = held {
        match KIND {
            0 => lent.vertices[3 * past] = number,
            1 => lent.flags[past] = flag,
            2 => lent.indexes[past] = index,
            _ => lent.origins[past] = origin,
        }
    }
    answer
}

/// The comparison looks at each place up to 3n.
#[test]
fn a_place_past_2n_that_stays_is_seen() {
    for wrong in [leaving::<0>, leaving::<1>, leaving::<2>, leaving::<3>] {
        let mut random = Random::new(26);
        let jobs = (0..2000).map(|_| POINTED[0].1(&mut random));
        let seen =
            jobs.filter(|job| job.run_compared(wrong) != job.run_compared(oracle::traced::stage));
        let seen = seen.count();
        assert!(seen > 1000, "{seen}");
    }
}
