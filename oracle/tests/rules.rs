//! By which rule a point counts as one of a trimmed arc: 02's 2026-06.

use oracle::core::math::Vector2;
use oracle::generate::{FAMILIES, Random};
use oracle::stage::Job;
use oracle::text::read_rules;
use oracle::traced::parts::{Joined, Meets, Side, arc_param, joins, meeting, spans};
use oracle::traced::{Pair, Rule, RuleTable, Trace, stage as traced};
use std::f64::consts::{FRAC_PI_2, FRAC_PI_4, PI, SQRT_2, TAU};

/// What the program `joins_main` is held to.
const STORED: &str = include_str!("../../crates/joins_main/stdout");

const EPS: f64 = 1e-5;

/// A quarter of the unit circle, from (1, 0) to (0, 1), and backwards.
const LEFT: [f64; 9] = [1.0, 0.0, 0.0, 1.0, 0.0, 0.0, 1.0, 0.0, FRAC_PI_2];
const RIGHT: [f64; 9] = [0.0, 1.0, 1.0, 0.0, 0.0, 0.0, 1.0, FRAC_PI_2, -FRAC_PI_2];

/// Nearly all of the unit circle: its ends lie within ε of each other.
const RING: [f64; 9] = [1.0, 1e-6, 1.0, -1e-6, 0.0, 0.0, 1.0, 1e-6, TAU - 2e-6];

fn granted(arc: &[f64; 9], x: f64, y: f64) -> Option<(f64, Rule)> {
    arc_param(arc, Vector2::new(x, y), EPS)
}

/// Where two arcs meet whose source segments share (1, 0).
fn meeting_of(current: [f64; 9], next: [f64; 9]) -> Meets {
    let shared = Vector2::new(1.0, 0.0);
    let (met, _) = meeting(&Side::Arc(current), &Side::Arc(next), shared, EPS);
    met.expect("they meet")
}

fn job(closed: bool, offset: f64, eps: f64, vertices: &[[f64; 3]]) -> Job {
    Job::new(closed, offset, eps, vertices.as_flattened().to_vec())
}

fn stored(function: &str) -> RuleTable {
    let mut table = RuleTable::default();
    let of_it = |row: &&str| row.split(' ').next() == Some(function);
    for rules in STORED.lines().filter(of_it).filter_map(read_rules) {
        table.add(rules);
    }
    table
}

#[test]
fn the_stored_rows_tell_each_rule_of_each_side() {
    let all = [
        ("line_arc_meeting", "line/arc"),
        ("arc_line_meeting", "arc/line"),
        ("arc_arc_meeting", "arc/arc"),
        ("seen_line_arc", "line/arc"),
        ("seen_arc_line", "arc/line"),
        ("seen_arc_arc", "arc/arc"),
        ("join", ""),
        ("seen_join", ""),
    ];
    for (function, kinds) in all {
        for (side, counts) in stored(function).sides() {
            let asked = side.starts_with(kinds);
            let told = counts.iter().all(|count| (*count > 0) == asked);
            assert!(told, "{function} {side}: {counts:?}");
        }
    }
}

#[test]
fn the_stored_rows_tell_each_pair_of_rules_of_two_arcs() {
    for function in ["arc_arc_meeting", "seen_arc_arc", "join", "seen_join"] {
        for (current, counts) in stored(function).pairs() {
            let told = counts.iter().all(|count| *count > 0);
            assert!(told, "{function} {current}: {counts:?}");
        }
    }
}

#[test]
fn rules_have_numbers_and_names() {
    let of = |rule| (Rule::number_of(rule), Rule::name_of(rule));
    assert_eq!(of(None), (0, "none"));
    let all = Rule::ALL.map(|rule| of(Some(rule)));
    assert_eq!(all, [(1, "start"), (2, "end"), (3, "inside"), (4, "past")]);
}

#[test]
fn rules_are_read_as_they_are_told() {
    let both = Some([Some(Rule::PastEnd), Some(Rule::StartMatched)]);
    assert_eq!(read_rules("seen_arc_arc at 0 past start seen 0"), both);
    assert_eq!(read_rules("seen_arc_arc at 0 past start unseen"), both);
    let line = Some([None, Some(Rule::EndMatched)]);
    assert_eq!(read_rules("join inner Trimmed 0 false none end"), line);
    assert_eq!(read_rules("line_arc_meeting none"), None);
    assert_eq!(read_rules("usable_arc_param start 0"), None);
}

#[test]
fn a_point_is_granted_by_the_first_rule_that_holds() {
    assert_eq!(granted(&LEFT, 1.0, -9e-6), Some((0.0, Rule::StartMatched)));
    assert_eq!(granted(&LEFT, -9e-6, 1.0), Some((1.0, Rule::EndMatched)));
    let half = granted(&LEFT, 0.5, 0.5).expect("it is inside");
    assert_eq!(half, (0.5, Rule::Inside));
    // Twice as far out as the end, an angle that its radius makes half of.
    assert_eq!(granted(&LEFT, -1.8e-5, 2.0), Some((1.0, Rule::PastEnd)));
    assert_eq!(granted(&LEFT, -2.2e-5, 2.0), None);
}

#[test]
fn a_point_near_both_ends_is_start_matched() {
    for y in [0.0, 1e-6, -1e-6] {
        assert_eq!(granted(&RING, 1.0, y), Some((0.0, Rule::StartMatched)));
    }
}

#[test]
fn both_bounds_of_the_sweep_and_no_number_are_inside() {
    for arc in [LEFT, RIGHT] {
        let [start, end] = [[arc[0], arc[1]], [arc[2], arc[3]]];
        let twice = |[x, y]: [f64; 2]| granted(&arc, 2.0 * x, 2.0 * y);
        assert_eq!(twice(start), Some((0.0, Rule::Inside)));
        assert_eq!(twice(end), Some((1.0, Rule::Inside)));
    }
    let (param, rule) = granted(&LEFT, f64::NAN, 0.5).expect("it is not past the end");
    assert!(param.is_nan());
    assert_eq!(rule, Rule::Inside);
}

/// The circles touch in (1, 0), within ε of the next one's start alone; that is within ε of the
/// current one's end.
#[test]
fn the_rule_is_that_of_the_point_as_snapped() {
    let mut current = RIGHT;
    current[3] = 1.5e-5;
    assert_eq!(granted(&current, 1.0, 0.0), Some((1.0, Rule::Inside)));
    let next = [1.0, 8e-6, 2.0, -1.0, 2.0, 0.0, 1.0, PI, FRAC_PI_2];
    let met = meeting_of(current, next);
    assert_eq!([met.at.x, met.at.y], [1.0, 8e-6]);
    let rules = [Rule::EndMatched, Rule::StartMatched];
    assert_eq!(met.rules, rules.map(Some));
}

/// Two points equally near: the first starts the current arc, and is not on the next one.
#[test]
fn the_rule_is_that_of_the_candidate_taken() {
    let current = [1.0, 1.0, -1.0, -1.0, 0.0, 0.0, SQRT_2, FRAC_PI_4, -PI];
    let next = [
        2.0, -SQRT_2, 1.0, -1.0, 2.0, 0.0, SQRT_2, -FRAC_PI_2, -FRAC_PI_4,
    ];
    assert_eq!(granted(&current, 1.0, 1.0), Some((0.0, Rule::StartMatched)));
    let met = meeting_of(current, next);
    assert!((met.at.y + 1.0).abs() < EPS);
    let rules = [Rule::Inside, Rule::EndMatched];
    assert_eq!(met.rules, rules.map(Some));
}

#[test]
fn a_closed_walk_starts_and_ends_by_the_closing_joins_rules() {
    let two = job(true, -1.0, EPS, &[[1.0, 0.0, 2.0], [2.0, 0.0, 1.0]]);
    let inside = [Some(Rule::Inside); 2];
    assert_eq!(spans(&two), Some(vec![inside; 2]));
    let rules: Vec<_> = joins(&two).expect("a walk").iter().map(told).collect();
    assert_eq!(rules, [(1, inside); 2]);
}

fn told((_, join): &(oracle::traced::parts::Fragment, Joined)) -> (u32, [Option<Rule>; 2]) {
    (join.number, join.rules)
}

/// A nearly full circle on a long slot. Its offset's gap stays within ε: where the slot's other side
/// trims its end, the start matches too, and so the span goes back there.
#[test]
fn a_keyholes_end_is_start_matched_and_turned_back() {
    let eps = 0.009765625;
    let ring: [[f64; 3]; 2] = [[0.46875, -0.65625, -8192.0], [0.4765625, -0.6484375, 0.0]];
    assert!((0..2).all(|axis| (ring[0][axis] - ring[1][axis]).abs() < eps));
    let keyhole = job(
        true,
        -0.03125,
        eps,
        &[[-8192.0, 0.0, 0.0], ring[0], ring[1]],
    );
    let expected = [
        [None; 2],
        [Some(Rule::Inside), Some(Rule::StartMatched)],
        [None; 2],
    ];
    assert_eq!(spans(&keyhole), Some(expected.to_vec()));
    let joins = joins(&keyhole).expect("a walk");
    let (before, after) = (&joins[0].1, &joins[1].1);
    assert_eq!((before.number, after.number), (1, 1));
    assert_eq!(after.end_param, 0.0);
    assert!(before.start_param > after.end_param);
    let outcome = keyhole.run(traced);
    assert_eq!(outcome.answer, [0, 0, 4, 1, 1]);
    assert_eq!(outcome.invalid(), [1]);
}

#[test]
fn jobs_answered_without_a_walk_have_no_joins() {
    let line = [[0.0; 3], [4.0, 0.0, 0.0]];
    let collapsed = [[0.0, 0.0, 1.0], [4.0, 0.0, 0.0]];
    for none in [
        job(false, 0.0, EPS, &line),
        job(false, f64::NAN, EPS, &line),
        job(false, 1.0, EPS, &line[..1]),
        job(false, 1.0, EPS, &[line[0]; 2]),
        job(false, 3.0, EPS, &collapsed),
    ] {
        assert!(joins(&none).is_none() && spans(&none).is_none(), "{none:?}");
    }
    let whole = job(false, 1.0, EPS, &collapsed);
    assert_eq!(joins(&whole).map(|joins| joins.len()), Some(0));
    assert_eq!(spans(&whole), Some(vec![[None; 2]]));
}

fn is_arc(pair: Pair) -> [bool; 2] {
    match pair {
        Pair::LineArc => [false, true],
        Pair::ArcLine => [true, false],
        Pair::ArcArc => [true, true],
        Pair::NoJoin | Pair::LineLine | Pair::WithCollapsed => [false; 2],
    }
}

/// On random jobs: a trimmed join tells a rule of each arc, another none; its three vertices alone
/// tell the same; a span has the rules of the joins before and after it.
#[test]
fn spans_have_the_rules_of_their_joins() {
    let mut random = Random::new(6);
    for _ in 0..500 {
        for (_, family) in FAMILIES {
            let job = family(&mut random);
            let Some(joins) = joins(&job) else {
                continue;
            };
            for (fragment, join) in &joins {
                let trimmed = is_arc(join.pair).map(|arc| arc && join.number == 1);
                assert_eq!(join.rules.map(|rule| rule.is_some()), trimmed, "{job:?}");
                let alone = fragment.join(&mut Trace::new());
                assert_eq!((alone.number, alone.rules), (join.number, join.rules));
            }
            let ends = joins.iter().map(|(_, join)| join.rules[0]);
            let starts = joins.iter().map(|(_, join)| join.rules[1]);
            let closing = joins.last().filter(|_| job.closed);
            let first = closing.and_then(|(_, join)| join.rules[1]);
            let expected: Vec<_> = std::iter::once(first)
                .chain(starts)
                .zip(ends.chain([None]))
                .map(|(start, end)| [start, end])
                .take(job.segments())
                .collect();
            assert_eq!(spans(&job), Some(expected), "{job:?}");
        }
    }
}
