//! The parts of a join, and joins of three vertices taken from the sample jobs.

use crate::jobs;
use crate::layers::{SEGMENTS, vertices};
use crate::rows::{Rows, named, point, words};
use oracle::core::math::{Vector2, angle};
use oracle::polyline::PlineVertex;
use oracle::stage::Job;
use oracle::text::{bits, read_rules, rules_text};
use oracle::traced::parts::{
    Fragment, Joined, Meets, Met, Side, arc_param, equally_near, line_param, meeting, round, span,
    tangents,
};
use oracle::traced::{RuleTable, Table, Trace};
use std::f64::consts::{FRAC_1_SQRT_2, FRAC_PI_2, PI, TAU};

const INF: f64 = f64::INFINITY;
const NAN: f64 = f64::NAN;

/// A tolerance whose square is exact.
const E: f64 = 0.0078125;

/// A quarter of the unit circle, from (1, 0) to (0, 1).
const LEFT: [f64; 9] = [1.0, 0.0, 0.0, 1.0, 0.0, 0.0, 1.0, 0.0, FRAC_PI_2];

/// The same, backwards.
const RIGHT: [f64; 9] = [0.0, 1.0, 1.0, 0.0, 0.0, 0.0, 1.0, FRAC_PI_2, -FRAC_PI_2];

/// Another quarter of that circle, from (−1, 0) to (0, −1).
const OPPOSITE: [f64; 9] = [-1.0, 0.0, 0.0, -1.0, 0.0, 0.0, 1.0, PI, FRAC_PI_2];

/// The right half of the unit circle, from (0, −1) to (0, 1).
const HALF: [f64; 9] = [0.0, -1.0, 0.0, 1.0, 0.0, 0.0, 1.0, -FRAC_PI_2, PI];

/// The left half of the circle beside it, which it touches in (1, 0); also halved there.
const TOUCHING: [f64; 9] = [2.0, 1.0, 2.0, -1.0, 2.0, 0.0, 1.0, FRAC_PI_2, PI];
const UPPER: [f64; 9] = [2.0, 1.0, 1.0, NEAR, 2.0, 0.0, 1.0, FRAC_PI_2, FRAC_PI_2];
const LOWER: [f64; 9] = [1.0, NEAR, 2.0, -1.0, 2.0, 0.0, 1.0, PI, FRAC_PI_2];

/// Nearly all of each of the two circles, with its gap where they touch.
const RING: [f64; 9] = [1.0, NEAR, 1.0, -NEAR, 0.0, 0.0, 1.0, NEAR, NEARLY_TAU];
const RING_BESIDE: [f64; 9] = [1.0, -NEAR, 1.0, NEAR, 2.0, 0.0, 1.0, NEAR - PI, NEARLY_TAU];
const NEARLY_TAU: f64 = TAU - 2.0 * NEAR;

/// A line across the unit circle where the other touches it.
const ACROSS: Side = Side::Line([0.5, 0.0, 1.5, 0.0]);

/// Near zero and not at it.
const NEAR: f64 = 1e-6;

/// An arc with its end points other than where its angles have them.
const fn ending(arc: [f64; 9], which: usize, x: f64, y: f64) -> Side {
    let mut arc = arc;
    arc[2 * which] = x;
    arc[2 * which + 1] = y;
    Side::Arc(arc)
}

/// Meetings near an end and not at it, on each side; then arcs of one circle.
const BESIDE: [[Side; 2]; 15] = [
    [ending(LEFT, 0, 1.0, NEAR), Side::Arc(TOUCHING)],
    [ending(RIGHT, 1, 1.0, NEAR), Side::Arc(TOUCHING)],
    [Side::Arc(HALF), Side::Arc(LOWER)],
    [Side::Arc(HALF), Side::Arc(UPPER)],
    [
        Side::Line([1.0, -1.0, 1.0, 1.0]),
        ending(LEFT, 0, 1.0, NEAR),
    ],
    [
        Side::Line([1.0, -1.0, 1.0, 1.0]),
        ending(RIGHT, 1, 1.0, NEAR),
    ],
    [Side::Line([1.0, NEAR, 1.0, 1.0]), Side::Arc(HALF)],
    [Side::Line([1.0, -1.0, 1.0, -NEAR]), Side::Arc(HALF)],
    [
        ending(LEFT, 0, 1.0, NEAR),
        Side::Line([1.0, 1.0, 1.0, -1.0]),
    ],
    [
        ending(RIGHT, 1, 1.0, NEAR),
        Side::Line([1.0, 1.0, 1.0, -1.0]),
    ],
    [Side::Arc(HALF), Side::Line([1.0, NEAR, 1.0, 1.0])],
    [Side::Arc(HALF), Side::Line([1.0, -1.0, 1.0, -NEAR])],
    [Side::Arc(LEFT), Side::Arc(OPPOSITE)],
    [Side::Arc(RIGHT), Side::Arc(OPPOSITE)],
    [Side::Arc(LEFT), Side::Arc(RIGHT)],
];

/// Arcs that start, or end, in the direction of (1, 0) and away from it.
const STARTING: Side = ending(LEFT, 0, 2.0, 0.0);
const ENDING: Side = ending(RIGHT, 1, 2.0, 0.0);
const STARTING_BESIDE: Side = ending(LOWER, 0, 0.0, 0.0);
const ENDING_BESIDE: Side = ending(UPPER, 1, 0.0, 0.0);

/// Meetings where exactly 0 or exactly the sweep was travelled; then meetings near both ends.
const BOUNDS: [[Side; 2]; 13] = [
    [ACROSS, STARTING],
    [ACROSS, ENDING],
    [STARTING, ACROSS],
    [ENDING, ACROSS],
    [STARTING, STARTING_BESIDE],
    [STARTING, ENDING_BESIDE],
    [ENDING, STARTING_BESIDE],
    [ENDING, ENDING_BESIDE],
    [ACROSS, Side::Arc(RING)],
    [Side::Arc(RING), ACROSS],
    [Side::Arc(RING), Side::Arc(TOUCHING)],
    [Side::Arc(HALF), Side::Arc(RING_BESIDE)],
    [Side::Arc(RING), Side::Arc(RING_BESIDE)],
];

pub fn rows() -> Rows {
    let mut rows = Rows::default();
    segments(&mut rows);
    line_params(&mut rows);
    arc_params(&mut rows);
    distances(&mut rows);
    meetings(&mut rows);
    rounds(&mut rows);
    joins(&mut rows);
    seen_arc_params(&mut rows);
    seen_meetings(&mut rows);
    seen_joins(&mut rows);
    rows
}

fn truth(holds: bool) -> &'static str {
    if holds { "true" } else { "false" }
}

fn segments(rows: &mut Rows) {
    for p in SEGMENTS {
        let (v1, v2) = vertices(&p);
        let [start, end] = tangents(v1, v2, p[5]);
        let output = words(&[start.x, start.y, end.x, end.y]);
        rows.add("tangents", &p, &output);
    }
    let parts = [
        [0.0, 1.0],
        [0.25, 0.75],
        [0.75, 0.25],
        [0.5, 0.5],
        [NAN, 1.0],
    ];
    for p in SEGMENTS {
        let (v1, v2) = vertices(&p);
        for [from, to] in parts {
            let (bulge, invalid) = span(v1, v2, p[5], from, to);
            let inputs = [p.as_slice(), &[from, to]].concat();
            rows.add("span", &inputs, &named(truth(invalid), &[bulge]));
        }
    }
}

fn line_params(rows: &mut Rows) {
    for (param, line, eps) in [
        // Inside, at both ends, and no number.
        (0.5, [0.0, 0.0, 4.0, 3.0], 1e-5),
        (0.0, [0.0, 0.0, 4.0, 3.0], 1e-5),
        (-0.0, [0.0, 0.0, 4.0, 3.0], 1e-5),
        (1.0, [0.0, 0.0, 4.0, 3.0], 1e-5),
        (NAN, [0.0, 0.0, 4.0, 3.0], 1e-5),
        // Past an end by less than ε, by ε, by more.
        (-1e-6, [0.0, 0.0, 4.0, 3.0], 1e-5),
        (1.000001, [0.0, 0.0, 4.0, 3.0], 1e-5),
        (-E, [0.0, 0.0, 1.0, 0.0], E),
        ((-E).next_down(), [0.0, 0.0, 1.0, 0.0], E),
        (1.0 + E, [0.0, 0.0, 1.0, 0.0], E),
        ((1.0 + E).next_up(), [0.0, 0.0, 1.0, 0.0], E),
        (-0.5, [0.0, 0.0, 4.0, 3.0], 1e-5),
        (1.5, [0.0, 0.0, 4.0, 3.0], 1e-5),
        // A line of no length, no number, endless; no tolerance.
        (7.0, [1.0, 2.0, 1.0, 2.0], 1e-5),
        (-7.0, [NAN, 2.0, 1.0, 2.0], 1e-5),
        (INF, [0.0, 0.0, 4.0, 3.0], 1e-5),
        (2.0, [0.0, 0.0, 4.0, 3.0], NAN),
    ] {
        let usable = line_param(param, [point(&line), point(&line[2..])], eps);
        let output = usable.map_or("missed".to_string(), bits);
        let inputs = [&[param], line.as_slice(), &[eps]].concat();
        rows.add("usable_line_param", &inputs, &output);
    }
}

/// An arc, a point and ε.
fn points_of_arcs() -> [([f64; 9], [f64; 2], f64); 34] {
    let half = FRAC_1_SQRT_2;
    // Not on its own circle: a point past the end is then within ε along the arc alone.
    let mut small = LEFT;
    small[6] = 0.5;
    let mut straight = LEFT;
    straight[8] = 0.0;
    [
        (LEFT, [1.0, 0.0], 1e-5),
        (LEFT, [1.000001, -0.000001], 1e-5),
        (LEFT, [1.0 + E, 0.0], E),
        (LEFT, [1.0, -E], E),
        (LEFT, [0.0, 1.0], 1e-5),
        (LEFT, [-0.000001, 1.000001], 1e-5),
        (LEFT, [half, half], 1e-5),
        (LEFT, [0.6, 0.8], 1e-9),
        (LEFT, [-1.0, 0.0], 1e-5),
        (LEFT, [half, -half], 1e-5),
        (LEFT, [-half, -half], 1e-5),
        (LEFT, [0.0, 0.0], 1e-5),
        (LEFT, [NAN, 0.0], 1e-5),
        (LEFT, [0.6, 0.8], NAN),
        (LEFT, [-0.6, 0.8], NAN),
        (RIGHT, [0.0, 1.0], 1e-5),
        (RIGHT, [1.0, 0.0], 1e-5),
        (RIGHT, [half, half], 1e-5),
        (RIGHT, [0.8, 0.6], 1e-9),
        (RIGHT, [-half, half], 1e-5),
        (RIGHT, [half, -half], 1e-5),
        (OPPOSITE, [-half, -half], 1e-5),
        (OPPOSITE, [half, half], 1e-5),
        (small, [-E, 1.0], E),
        (small, [-2.0 * E, 1.0], E),
        (small, [-3.0 * E, 1.0], E),
        (straight, [2.0, 0.0], 1e-5),
        (straight, [2.0, 1.0], 1e-5),
        // Exactly 0 and exactly the sweep travelled; near both ends.
        (LEFT, [2.0, 0.0], 1e-5),
        (LEFT, [0.0, 2.0], 1e-5),
        (RIGHT, [0.0, 2.0], 1e-5),
        (RIGHT, [2.0, 0.0], 1e-5),
        (RING, [1.0, 0.0], 1e-5),
        (RING_BESIDE, [1.0, 0.0], 1e-5),
    ]
}

fn arc_params(rows: &mut Rows) {
    for (arc, at, eps) in points_of_arcs() {
        let inputs = [arc.as_slice(), &at, &[eps]].concat();
        rows.add("usable_arc_param", &inputs, &arc_way(&arc, at, eps));
    }
}

fn arc_way(arc: &[f64; 9], at: [f64; 2], eps: f64) -> String {
    arc_param(arc, point(&at), eps).map_or("off missed".to_string(), |(param, rule)| {
        named(rule.name(), &[param])
    })
}

fn distances(rows: &mut Rows) {
    for p in [
        [0.0, 0.0, 1e-5],
        [0.125, 0.125, 0.5],
        [0.25, 0.0, 0.5],
        [0.0, 0.25_f64.next_up(), 0.5],
        [0.125, 0.125_f64.next_up(), 0.5],
        [1.0, 1.0, 1e-5],
        [1.0, 2.25, 0.5],
        [1.0, 2.25_f64.next_down(), 0.5],
        [2.25, 1.0, 0.5],
        [2.25_f64.next_down(), 1.0, 0.5],
        [1.0, 4.0, 1e-5],
        [0.3, 0.30000001, 1e-5],
        [0.0, 1.0, 1e-5],
        [NAN, 1.0, 1e-5],
        [1.0, 1.0, NAN],
        [INF, INF, 1e-5],
    ] {
        let output = truth(equally_near(p[0], p[1], p[2]));
        rows.add("squared_distances_equal", &p, output);
    }
}

/// Two sides, the source vertex that they share, and ε.
fn neighbours() -> impl Iterator<Item = ([Side; 2], Vector2, f64)> {
    let of_jobs = fragments().filter_map(|fragment| {
        let shared = fragment.vertices[1].pos();
        Some((fragment.sides()?, shared, fragment.eps))
    });
    let made = BESIDE.into_iter().chain(BOUNDS);
    of_jobs.chain(made.map(|sides| (sides, Vector2::new(1.0, 0.0), 1e-5)))
}

fn meetings(rows: &mut Rows) {
    for ([current, next], shared, eps) in neighbours() {
        let function = match (current, next) {
            (Side::Line(_), Side::Line(_)) => "line_line_meeting",
            (Side::Line(_), Side::Arc(_)) => "line_arc_meeting",
            (Side::Arc(_), Side::Line(_)) => "arc_line_meeting",
            (Side::Arc(_), Side::Arc(_)) => "arc_arc_meeting",
        };
        let (met, _) = meeting(&current, &next, shared, eps);
        let numbers = [
            current.numbers(),
            next.numbers(),
            &[shared.x, shared.y, eps],
        ];
        rows.add(function, &numbers.concat(), &met_text(met));
    }
}

fn met_text(met: Met) -> String {
    match met {
        Ok(Meets { at, params, rules }) => {
            let numbers = named("at", &[at.x, at.y, params[0], params[1]]);
            format!("{numbers} {}", rules_text(rules))
        }
        Err(way) => way.to_string(),
    }
}

/// Stands where a start angle is not known, and must not count.
const UNKNOWN: f64 = 2.5;

/// A side as a row has it and as 000 has it, and, of an arc, whether its start angle is known.
struct View {
    given: Side,
    meant: Side,
    known: Option<bool>,
}

/// An arc once with its start angle not known, and once as it is; a line as it is.
fn views(side: Side) -> Vec<View> {
    let as_given = |known| View {
        given: side,
        meant: side,
        known,
    };
    let Side::Arc(numbers) = side else {
        return vec![as_given(None)];
    };
    let unknown = View {
        given: Side::Arc(with_start_angle(numbers, UNKNOWN)),
        meant: Side::Arc(worked_out(numbers)),
        known: Some(false),
    };
    vec![unknown, as_given(Some(true))]
}

fn with_start_angle(mut arc: [f64; 9], angle: f64) -> [f64; 9] {
    arc[7] = angle;
    arc
}

fn worked_out(arc: [f64; 9]) -> [f64; 9] {
    with_start_angle(arc, angle(point(&arc[4..]), point(&arc)))
}

fn seen_arc_params(rows: &mut Rows) {
    for (arc, at, eps) in points_of_arcs() {
        let output = arc_way(&worked_out(arc), at, eps);
        let arc = with_start_angle(arc, UNKNOWN);
        let inputs = [arc.as_slice(), &at, &[eps, 0.0]].concat();
        rows.add("seen_arc_param", &inputs, &output);
    }
}

/// The meetings with an arc once more, each start angle known or not, with the start angle that is
/// handed back: of the arc that the walk goes on with, where it was known or asked for.
fn seen_meetings(rows: &mut Rows) {
    for (sides, shared, eps) in neighbours() {
        let function = match sides {
            [Side::Line(_), Side::Line(_)] => continue,
            [Side::Line(_), Side::Arc(_)] => "seen_line_arc",
            [Side::Arc(_), Side::Line(_)] => "seen_arc_line",
            [Side::Arc(_), Side::Arc(_)] => "seen_arc_arc",
        };
        let [current, next] = sides.map(views);
        for current in &current {
            for next in &next {
                let (met, asked) = meeting(&current.meant, &next.meant, shared, eps);
                let seen = match next.meant {
                    Side::Line(_) => String::new(),
                    Side::Arc(arc) => {
                        seen_text((asked || next.known == Some(true)).then_some(arc[7]))
                    }
                };
                let known = [current.known, next.known].into_iter().flatten();
                let known: Vec<f64> = known.map(|known| f64::from(u8::from(known))).collect();
                let numbers = [
                    current.given.numbers(),
                    next.given.numbers(),
                    &[shared.x, shared.y, eps],
                    &known,
                ];
                rows.add(function, &numbers.concat(), &(met_text(met) + &seen));
            }
        }
    }
}

fn rounds(rows: &mut Rows) {
    // The product of this direction with itself is rounded to two units above one.
    let (x, y) = (1.473762804231308, -0.2860771949541574);
    for p in [
        [1.0, 0.0, 1.0, 0.5, 0.0, 0.0, 1.0],
        [1.0, 0.0, 1.0, 0.5, 0.0, 0.0, -1.0],
        [1.0, 0.0, 0.0, 1.0, 0.0, 0.0, 0.0],
        [1.0, 0.0, 0.0, -1.0, 0.0, 0.0, -0.0],
        [1.0, 0.0, -1.0, 0.5, 0.0, 0.0, 1.0],
        [1.0, 0.0, -1.0, 0.5, 0.0, 0.0, NAN],
        [1.0, 0.0, -1.0, 0.0, 0.0, 0.0, 1.0],
        [0.1, 0.2, 0.7, -0.4, 0.3, 0.3, -0.5],
        // Both bounds of the cosine, the sine's, and no direction.
        [x, y, -x, -y, 0.0, 0.0, 1.0],
        [x, y, x, y, 0.0, 0.0, 1.0],
        [x, y, x, y, 0.0, 0.0, -1.0],
        [x, y, -y, x, 0.0, 0.0, 1.0],
        [x, y, x, y, x, y, 1.0],
        [NAN, y, x, y, 0.0, 0.0, 1.0],
    ] {
        let bulge = round(point(&p), point(&p[2..]), point(&p[4..]), p[6]);
        rows.add("round", &p, &bits(bulge));
    }
}

fn joins(rows: &mut Rows) {
    for fragment in fragments() {
        let join = fragment.join(&mut Trace::new());
        let output = format!("{} {}", join.cause, boundary_text(&join));
        rows.add("join", &joined_numbers(&fragment), &output);
    }
}

fn joined_numbers(fragment: &Fragment) -> [f64; 10] {
    let [a, b, c] = fragment.vertices;
    let (offset, eps) = (fragment.offset, fragment.eps);
    [a.x, a.y, a.bulge, b.x, b.y, b.bulge, c.x, c.y, offset, eps]
}

fn boundary_text(join: &Joined) -> String {
    let numbers = named(join.class, &join.numbers());
    let rules = rules_text(join.rules);
    format!("{numbers} {} {rules}", truth(join.invalid))
}

/// The joins once more, with the start angle known where the current side is an arc, and with the
/// next one's that is handed back.
fn seen_joins(rows: &mut Rows) {
    for fragment in fragments() {
        let mut trace = Trace::new();
        let boundary = boundary_text(&fragment.join(&mut trace));
        let [known, next] = fragment.either_side().map(|side| match side {
            Some(Side::Arc(arc)) => Some(arc[7]),
            _ => None,
        });
        let given = known.map_or([0.0, UNKNOWN], |angle| [1.0, angle]);
        let inputs = [joined_numbers(&fragment).as_slice(), &given].concat();
        let seen = next.filter(|_| trace.asked_arc());
        rows.add("seen_join", &inputs, &(boundary + &seen_text(seen)));
    }
}

fn seen_text(seen: Option<f64>) -> String {
    seen.map_or(" unseen".to_string(), |angle| {
        format!(" seen {}", bits(angle))
    })
}

/// A right angle whose two forms of the connector's bulge differ.
const RIGHT_ANGLE: Fragment = Fragment {
    vertices: [
        PlineVertex {
            x: 3.8369140625,
            y: 1.2086029052734375,
            bulge: 0.0,
        },
        PlineVertex {
            x: 0.0,
            y: 0.0,
            bulge: 0.0,
        },
        PlineVertex {
            x: -1.2086029052734375,
            y: 3.8369140625,
            bulge: 0.0,
        },
    ],
    offset: 1.0,
    eps: 1e-5,
};

/// Each three vertices in a row of each sample job, and one more.
fn fragments() -> impl Iterator<Item = Fragment> {
    let of_jobs = jobs::all().chain(jobs::of_rules()).flat_map(|job| {
        let vertices = walked(&job);
        let windows: Vec<_> = vertices.windows(3).map(|v| [v[0], v[1], v[2]]).collect();
        windows.into_iter().map(move |vertices| Fragment {
            vertices,
            offset: job.offset,
            eps: job.eps,
        })
    });
    of_jobs.chain([RIGHT_ANGLE])
}

/// The vertices, and of a closed job the first two once more.
fn walked(job: &Job) -> Vec<PlineVertex> {
    let triples = job.source.chunks_exact(3);
    let mut vertices: Vec<_> = triples
        .map(|v| PlineVertex::new(v[0], v[1], v[2]))
        .collect();
    if job.closed && vertices.len() > 1 {
        vertices.extend_from_within(..2);
    }
    vertices
}

/// Prints which tests and events the joins reach, and how many rows tell each rule.
pub fn print_reached() {
    let mut table = Table::default();
    for fragment in fragments() {
        let mut trace = Trace::new();
        fragment.join(&mut trace);
        table.add(&trace);
    }
    table.print();
    let rules = told_rules();
    println!("rules by function and side: start, end, inside, past");
    for (function, table) in &rules {
        table.print(function);
    }
    println!(
        "two arcs by function and the current one's rule: the next one's start, end, inside, past"
    );
    for (function, table) in &rules {
        table.print_pairs(function);
    }
}

/// How many rows of each function tell each rule.
fn told_rules() -> Vec<(&'static str, RuleTable)> {
    let mut tables: Vec<(&'static str, RuleTable)> = Vec::new();
    for row in rows().samples() {
        let Some(rules) = read_rules(&row.output) else {
            continue;
        };
        if tables.iter().all(|known| known.0 != row.function) {
            tables.push((row.function, RuleTable::default()));
        }
        let mut same = tables.iter_mut().filter(|known| known.0 == row.function);
        if let Some((_, table)) = same.next() {
            table.add(rules);
        }
    }
    tables
}
