//! The functions of 01 section 3 and the offset segments of 000, on inputs that reach each branch.

use crate::rows::{Rows, flat, named, point, words};
use oracle::core::math::{
    CircleCircleIntr, LineCircleIntr, LineLineIntr, angle, angle_from_bulge, atan,
    bulge_from_angle, circle_circle_intr, dist_squared, line_circle_intr, line_line_intr,
    normalize_radians, parametric_from_point, point_from_parametric, tan,
};
use oracle::polyline::internal::raw_pline_offset::{
    RawOffsetSeg, create_untrimmed_raw_offset_segs,
};
use oracle::polyline::{PlineVertex, Polyline, seg_arc_radius_and_center};
use oracle::text::bits;
use std::f64::consts::{FRAC_PI_2, PI, SQRT_2, TAU};

const INF: f64 = f64::INFINITY;
const NAN: f64 = f64::NAN;
const TINY: f64 = 5e-324;

/// The tangent of an eighth of π: a quarter circle's bulge.
const QUARTER: f64 = SQRT_2 - 1.0;

/// Where angles are taken from.
const CENTERS: [[f64; 2]; 2] = [[0.0, 0.0], [0.1, -7.5]];

/// Spokes of huge, tiny and endless length.
const FAR: [[f64; 2]; 10] = [
    [f64::MAX, -f64::MAX],
    [1e300, 1e-300],
    [-1e-300, 1e300],
    [TINY, TINY],
    [-TINY, 0.0],
    [-0.0, -TINY],
    [-INF, 1.0],
    [-2.0, -INF],
    [INF, -INF],
    [NAN, NAN],
];

/// A vertex, the point after it, and the offset.
pub const SEGMENTS: [[f64; 6]; 34] = [
    [0.0, 0.0, 0.0, 4.0, 0.0, 1.0],
    [0.0, 0.0, 0.0, 4.0, 0.0, -1.0],
    [0.1, 0.2, 0.0, 0.7, -0.4, 0.3],
    [0.0, 0.0, 9.999999e-9, 4.0, 0.0, 1.0],
    [0.0, 0.0, 1e-8, 4.0, 0.0, 1.0],
    [0.0, 0.0, -1e-8, 4.0, 0.0, 1.0],
    [0.0, 0.0, 1.0, 4.0, 0.0, 1.0],
    [0.0, 0.0, -1.0, 4.0, 0.0, 1.0],
    [0.0, 0.0, 1.0, 4.0, 0.0, -1.0],
    [0.1, -0.3, 0.6, 1.7, 0.4, 0.2],
    [0.1, -0.3, -0.6, 1.7, 0.4, 0.2],
    [0.0, 0.0, QUARTER, 1.0, 1.0, 0.5],
    [0.0, 0.0, -3.0, 1.0, 1.0, 0.5],
    // The radius used up, all but used up by 1e-8 and a little more, by 1e-8, past zero.
    [0.0, 0.0, 1.0, 4.0, 0.0, 2.0],
    [0.0, 0.0, 1.0, 4.0, 0.0, 1.99999999],
    [0.0, 0.0, 1.0, 4.0, 0.0, 1.999999989],
    [0.0, 0.0, -1.0, 1e-8, 0.0, 5e-9],
    [0.0, 0.0, 1.0, 4.0, 0.0, 3.0],
    [0.0, 0.0, -1.0, 4.0, 0.0, -3.0],
    [0.3, 0.1, -0.7, 1.1, 0.9, -2.0],
    [1.0, 1.0, 0.0, 1.0, 1.0, 1.0],
    [1.0, 1.0, 0.5, 1.0, 1.0, 1.0],
    [0.0, 0.0, 1000.0, 1.0, 0.0, 0.25],
    // Bulges at 2026-02's limit, a keyhole, and chords whose square is 0 or subnormal.
    [0.0, 0.0, 1e9, 1.0, 0.0, 0.25],
    [0.0, 0.0, -1e9, 1e-9, 0.0, -0.25],
    [10.0, 4.75e-6, 4210526.3, 10.0, -4.75e-6, -1.0],
    [0.0, 0.0, 0.0, 1e-200, 0.0, 1.0],
    [0.0, 0.0, 1.0, 1e-200, 0.0, 1.0],
    [0.0, 0.0, -1.0, 2e-162, 1e-162, 1.0],
    [0.0, 0.0, 0.0, 0.0, 1e-162, 1.0],
    [0.0, 0.0, 0.0, TINY, 0.0, 1.0],
    [-1e6, 0.0, 1.1e-8, 1e6, 0.0, 0.001],
    [NAN, 0.0, 0.0, 1.0, 0.0, 1.0],
    [0.0, 0.0, NAN, 1.0, 0.0, 1.0],
];

pub fn rows() -> Rows {
    let mut rows = Rows::default();
    numbers(&mut rows);
    vectors(&mut rows);
    angles(&mut rows);
    points(&mut rows);
    lines(&mut rows);
    lines_and_circles(&mut rows);
    circles(&mut rows);
    segments(&mut rows);
    rows
}

fn numbers(rows: &mut Rows) {
    rows.about("01 3 Square root");
    let roots = [
        0.0,
        -0.0,
        1.0,
        2.0,
        3.0,
        4.0,
        0.5,
        0.25,
        1e-5,
        1e-10,
        1e6,
        2e12,
        1e300,
        1e-300,
        TINY,
        3.0 * TINY,
        f64::MIN_POSITIVE,
        f64::MIN_POSITIVE.next_down(),
        f64::MAX,
        INF,
        -1.0,
        -TINY,
        -INF,
        NAN,
        1.0_f64.next_up(),
        1.0_f64.next_down(),
        4.0_f64.next_down(),
        2.0_f64.next_up(),
        PI,
        1.0 / 3.0,
        123_456_789.0,
        0.1,
    ];
    rows.each("sqrt", &roots, f64::sqrt);
}

fn vectors(rows: &mut Rows) {
    rows.about("01 3 perp, normalize, unit_perp, dot, x, squared length");
    let pairs = [
        [3.0, 4.0, 1.0, -2.0],
        [0.1, 0.2, 0.3, 0.4],
        [-0.0, 0.0, 1.0, 1.0],
        [1e6, 1e-6, -1e6, 0.3],
        [0.0, 5.0, -0.7, 1e-9],
        [INF, 1.0, 2.0, NAN],
    ];
    for p in pairs {
        let (a, b) = (point(&p), point(&p[2..]));
        rows.add("dot", &p, &bits(a.dot(b)));
        rows.add("perp_dot", &p, &bits(a.perp_dot(b)));
        rows.add("length_squared", &p[..2], &bits(a.length_squared()));
        rows.add("length", &p[..2], &bits(a.length()));
        let (unit, across) = (a.normalize(), a.unit_perp());
        rows.add("normalize", &p[..2], &words(&[unit.x, unit.y]));
        rows.add("unit_perp", &p[..2], &words(&[across.x, across.y]));
    }
}

fn angles(rows: &mut Rows) {
    rows.about("01 3 atan, tan, Angle, Bulge to sweep, Normalizing");
    let ratios = [
        0.0,
        -0.0,
        1.0,
        -1.0,
        1.0_f64.next_up(),
        -1.0_f64.next_up(),
        0.5,
        -0.5,
        QUARTER,
        2.0,
        -3.0,
        1e-9,
        -1e-8,
        0.1,
        1000.0,
        -1000.0,
        1e9,
        -1e9,
        1e9_f64.next_down(),
        4e7,
        1e300,
        TINY,
        INF,
        -INF,
        NAN,
        0.9999999,
        1.0 / 3.0,
    ];
    rows.each("atan", &ratios, atan);
    let sizes = [
        0.0,
        -0.0,
        0.25 * PI,
        -0.25 * PI,
        0.125 * PI,
        FRAC_PI_2,
        -FRAC_PI_2,
        PI,
        1.0,
        -0.7,
        1e-9,
        0.1,
        1.5,
        1.5697963271282298,
        3.0,
        6.2,
        100.0,
        1e9,
        1e300,
        INF,
        NAN,
    ];
    rows.each("tan", &sizes, tan);
    rows.each("angle_from_bulge", &ratios, angle_from_bulge);
    let sweeps = [
        0.0,
        -0.0,
        PI,
        -PI,
        FRAC_PI_2,
        -FRAC_PI_2,
        TAU,
        0.3,
        -2.5,
        6.0,
        1e-7,
        NAN,
        INF,
        4.0 * atan(1.0),
        4.0 * atan(0.3),
        4.0 * atan(1000.0),
        4.0 * atan(1e9),
        -4.0 * atan(1e9_f64.next_down()),
        4.0 * atan(4e7),
    ];
    rows.each("bulge_from_angle", &sweeps, bulge_from_angle);
    let turns = [
        0.0, -0.0, 1.0, -1.0, -TINY, -PI, TAU, -TAU, -7.0, 7.0, -1e-20, NAN, INF, -INF,
    ];
    rows.each("normalize_radians", &turns, normalize_radians);
    let spokes = [
        [0.0, 0.0],
        [-0.0, 0.0],
        [0.0, -0.0],
        [1.0, 0.0],
        [1.0, -0.0],
        [-1.0, 0.0],
        [-1.0, -0.0],
        [0.0, 1.0],
        [0.0, -1.0],
        [-0.0, 2.0],
        [1.0, 1.0],
        [-1.0, 1.0],
        [-1.0, -1.0],
        [1.0, -1.0],
        [3.0, 2.0],
        [2.0, 3.0],
        [-2.0, 3.0],
        [-3.0, 2.0],
        [-3.0, -2.0],
        [-2.0, -3.0],
        [2.0, -3.0],
        [3.0, -2.0],
        [1e6, 1e-6],
        [1e-6, -1e6],
        [NAN, 1.0],
        [1.0, NAN],
        [NAN, 0.0],
        [INF, INF],
        [0.1, 0.7],
        [-0.3, 1e-9],
    ];
    for s in spokes {
        for center in CENTERS {
            let ends = [center[0], center[1], center[0] + s[0], center[1] + s[1]];
            rows.add(
                "angle",
                &ends,
                &bits(angle(point(&center), point(&ends[2..]))),
            );
        }
    }
    together(rows, &[spokes.as_slice(), &FAR].concat());
    sweeps_together(rows, &ratios);
}

/// One to four directions that are worked out side by side: each spoke in each place of each function,
/// beside others and beside itself.
fn together(rows: &mut Rows, spokes: &[[f64; 2]]) {
    let names = [
        "direction_of",
        "two_directions",
        "three_directions",
        "four_directions",
    ];
    for i in 0..spokes.len() {
        for step in [0, 7] {
            let lanes = [0, 1, 2, 3].map(|k| spokes[(i + k * step) % spokes.len()]);
            for (k, name) in names.iter().enumerate() {
                let vectors = &lanes[..=k];
                let angles: Vec<f64> = vectors.iter().map(|v| direction(*v)).collect();
                rows.add(name, vectors.as_flattened(), &words(&angles));
            }
        }
    }
}

/// The angle at which a vector's end is seen from its start. Less a zero, each number stays as it is, a
/// −0 too.
fn direction(vector: [f64; 2]) -> f64 {
    angle(point(&[0.0, 0.0]), point(&vector))
}

/// Two and four: each bulge in each place, beside others and beside itself.
fn sweeps_together(rows: &mut Rows, bulges: &[f64]) {
    for i in 0..bulges.len() {
        for step in [0, 7] {
            let four = [0, 1, 2, 3].map(|k| bulges[(i + k * step) % bulges.len()]);
            let all = four.map(angle_from_bulge);
            rows.add("two_sweeps", &four[..2], &words(&all[..2]));
            rows.add("four_sweeps", &four, &words(&all));
        }
    }
}

fn points(rows: &mut Rows) {
    rows.about("01 3 Point at t, Parameter of a point; squared distance");
    for p in [
        [0.0, 0.0, 4.0, 2.0, 0.5],
        [1.0, 3.0, 0.3, 0.7, 0.1],
        [0.1, 0.2, 0.3, 0.4, 1.0],
        [0.1, 0.2, 0.3, 0.4, 0.0],
        [1e6, -1e6, 1.0, 2.0, 1.0 / 3.0],
        [1.0, 2.0, 3.0, 4.0, NAN],
        [1.0, 2.0, 3.0, 4.0, -0.25],
    ] {
        let at = point_from_parametric(point(&p), point(&p[2..]), p[4]);
        rows.add("point_from_parametric", &p, &words(&[at.x, at.y]));
    }
    for p in [
        [0.0, 0.0, 4.0, 2.0, 1.0, 9.0, 1e-5],
        [0.0, 0.0, 0.0, 2.0, 9.0, 0.5, 1e-5],
        [1.0, 0.0, 1.00001, 2.0, 9.0, 0.5, 1e-5],
        [1.0, 0.0, 1.0000099, 2.0, 9.0, 0.5, 1e-5],
        [0.25, 1.0, 0.2578125, 3.0, 0.3, 1.5, 0.0078125],
        [0.25, 1.0, 0.2578125, 3.0, 0.3, 1.5, 0.0078125_f64.next_up()],
        [1.0, 1.0, 1.0, 1.0, 2.0, 2.0, 1e-5],
        [NAN, 0.0, 1.0, 1.0, 2.0, 3.0, 1e-5],
        [0.1, 0.2, -0.3, 0.4, 0.07, 0.6, 1e-9],
    ] {
        let t = parametric_from_point(point(&p), point(&p[2..]), point(&p[4..]), p[6]);
        rows.add("parametric_from_point", &p, &bits(t));
    }
    for p in [
        [0.0, 0.0, 3.0, 4.0],
        [0.1, 0.2, 0.3, -0.4],
        [1e6, 1e6, -1e6, -1e6],
        [NAN, 0.0, 1.0, 1.0],
    ] {
        rows.add(
            "dist_squared",
            &p,
            &bits(dist_squared(point(&p), point(&p[2..]))),
        );
    }
}

fn lines(rows: &mut Rows) {
    rows.about("01 3 Lines: both ends of the first, both ends of the second, eps");
    let e: f64 = 0.0078125;
    for p in [
        // True: inside, at each end, past each end by less than ε.
        [0.0, 0.0, 4.0, 0.0, 1.0, -1.0, 1.0, 3.0, 1e-5],
        [0.1, 0.2, 4.3, 0.7, 1.1, -1.3, 1.7, 3.9, 1e-5],
        [0.0, 0.0, 4.0, 0.0, 0.0, -1.0, 0.0, 3.0, 1e-5],
        [0.0, 0.0, 4.0, 0.0, 4.0, 0.0, 4.0, 3.0, 1e-5],
        [0.0, 0.0, 1.0, 0.0, -0.00390625, -1.0, -0.00390625, 1.0, e],
        [0.0, 0.0, 1.0, 0.0, 1.00390625, -1.0, 1.00390625, 1.0, e],
        [0.0, 0.0, 1.0, 0.0, 0.5, 0.00390625, 0.5, 1.00390625, e],
        [0.0, 0.0, 1.0, 0.0, 0.5, -1.00390625, 0.5, -0.00390625, e],
        // False: t or s at −ε and at 1+ε.
        [0.0, 0.0, 1.0, 0.0, -e, -1.0, -e, 1.0, e],
        [0.0, 0.0, 1.0, 0.0, 1.0 + e, -1.0, 1.0 + e, 1.0, e],
        [0.0, 0.0, 1.0, 0.0, 0.5, e, 0.5, 1.0 + e, e],
        [0.0, 0.0, 1.0, 0.0, 0.5, -1.0 - e, 0.5, -e, e],
        [0.0, 0.0, 4.0, 0.0, 9.0, -1.0, 9.5, 3.0, 1e-5],
        // |D| at ε and just below.
        [0.0, 0.0, 1.0, 0.0, 0.5, -e / 2.0, 1.5, e / 2.0, e],
        [0.0, 0.0, 1.0, 0.0, 0.5, -e / 2.0, 1.5, e / 2.0, e.next_up()],
        // Overlapping: a, b on either side.
        [0.0, 0.0, 4.0, 0.0, 3.0, 0.0, 7.0, 0.0, 1e-5],
        [0.0, 0.0, 4.0, 0.0, 7.0, 0.0, 3.0, 0.0, 1e-5],
        [0.0, 0.0, 4.0, 0.0, -3.0, 0.0, 1.0, 0.0, 1e-5],
        [0.0, 0.0, 4.0, 0.0, 1.0, 0.0, -3.0, 0.0, 1e-5],
        [0.0, 0.0, 4.0, 0.0, -1.0, 0.0, 9.0, 0.0, 1e-5],
        [0.0, 0.0, 4.0, 0.0, 4.0, 0.0, 9.0, 0.0, 1e-5],
        [0.0, 0.0, 4.0, 0.0, -9.0, 0.0, 0.0, 0.0, 1e-5],
        [0.0, 0.0, 4.0, 0.0, 3.0, 1e-6, 7.0, 1e-6, 1e-5],
        // None: past the end, before the start, beside by v×w, beside by u×w, parallel.
        [0.0, 0.0, 4.0, 0.0, 5.0, 0.0, 9.0, 0.0, 1e-5],
        [0.0, 0.0, 4.0, 0.0, -9.0, 0.0, -1.0, 0.0, 1e-5],
        [0.0, 0.0, 4.0, 0.0, 3.0, 1.0, 7.0, 1.0, 1e-5],
        [0.0, 0.0, 1e-6, 0.0, -1.0, 1.0, 3.0, 1.0, 1e-5],
        [0.0, 0.0, 4.0, 0.0, 1.0, 2.5e-6, 1.0, 2.5e-6, 1e-5],
        [0.0, 0.0, 0.0, 0.0, 1.0, 0.0, 2.0, 0.0, 1e-5],
        [NAN, 0.0, 4.0, 0.0, 1.0, -1.0, 1.0, 3.0, 1e-5],
        // The second line's end as given, and not its start plus its difference.
        [0.0, 0.0, 1.0, 0.0, 1.25, 0.0, 1.0_f64.next_up(), 0.0, 1e-5],
    ] {
        let ends = |i: usize| point(&p[i..]);
        let output = match line_line_intr(ends(0), ends(2), ends(4), ends(6), p[8]) {
            LineLineIntr::NoIntersect => named("none", &[]),
            LineLineIntr::TrueIntersect { seg1_t, seg2_t } => named("true", &[seg1_t, seg2_t]),
            LineLineIntr::FalseIntersect { seg1_t, seg2_t } => named("false", &[seg1_t, seg2_t]),
            LineLineIntr::Overlapping { .. } => named("overlapping", &[]),
        };
        rows.add("line_line_intr", &p, &output);
    }
}

fn lines_and_circles(rows: &mut Rows) {
    rows.about("01 3 Line and circle: both ends, radius, centre, eps");
    let e: f64 = 0.0078125;
    // A tolerance for which r+ε is rounded up: the line is then neither past nor touching.
    let up = (1..100)
        .map(|k| f64::from(k) * 1e-5)
        .find(|e| 1.0 + e - 1.0 > *e)
        .expect("one of these is rounded up");
    for p in [
        [-2.0, 0.5, 2.0, 0.5, 1.0, 0.0, 0.0, 1e-5],
        [0.3, 0.1, 2.7, 1.9, 1.3, 0.7, 0.2, 1e-9],
        [2.0, 0.0, -2.0, 0.0, 1.0, 0.0, 0.0, 1e-5],
        [-2.0, 3.0, 2.0, 3.0, 1.0, 0.0, 0.0, 1e-5],
        [-2.0, 1.0, 2.0, 1.0, 1.0, 0.0, 0.0, 1e-5],
        [-2.0, 1.0 + e, 2.0, 1.0 + e, 1.0, 0.0, 0.0, e],
        [
            -2.0,
            (1.0 + e).next_up(),
            2.0,
            (1.0 + e).next_up(),
            1.0,
            0.0,
            0.0,
            e,
        ],
        [-2.0, 1.0 - e, 2.0, 1.0 - e, 1.0, 0.0, 0.0, e],
        [
            -2.0,
            (1.0 - e).next_down(),
            2.0,
            (1.0 - e).next_down(),
            1.0,
            0.0,
            0.0,
            e,
        ],
        [0.0, 1.0 + up, 1.0, 1.0 + up, 1.0, 0.0, 0.0, up],
        [1.0, 1.0, 1.0, 1.0, 1.0, 0.0, 0.0, 1e-5],
        [0.0, NAN, 1.0, 1.0, 1.0, 0.0, 0.0, 1e-5],
    ] {
        let intersection = line_circle_intr(point(&p), point(&p[2..]), p[4], point(&p[5..]), p[7]);
        let output = match intersection {
            LineCircleIntr::NoIntersect => named("none", &[]),
            LineCircleIntr::TangentIntersect { t0 } => named("tangent", &[t0]),
            LineCircleIntr::TwoIntersects { t0, t1 } => named("two", &[t0, t1]),
        };
        rows.add("line_circle_intr", &p, &output);
    }
}

fn circles(rows: &mut Rows) {
    rows.about("01 3 Circles: radius, centre, radius, centre, eps");
    let e: f64 = 0.0078125;
    for p in [
        [1.0, 0.0, 0.0, 1.0, 1.0, 0.0, 1e-5],
        [1.3, 0.1, 0.2, 0.7, 1.1, 0.9, 1e-9],
        [2.0, 0.0, 0.0, 1.0, 0.0, -1.5, 1e-5],
        // Same centre: same radius, another one.
        [1.0, 0.5, 0.5, 1.0, 0.5, 0.5, 1e-5],
        [1.0, 0.0, 0.0, 1.0 + e, 0.0, 0.0, e],
        [1.0, 0.0, 0.0, (1.0 + e).next_down(), 0.00390625, 0.0, e],
        [1.0, 0.0, 0.0, 2.0, 0.0, 0.0, 1e-5],
        [1.0, 0.0, 0.0, 1.0, e, 0.0, e],
        // Apart, one inside the other.
        [1.0, 0.0, 0.0, 1.0, 3.0, 0.0, 1e-5],
        [1.0, 0.0, 0.0, 1.0, 2.0 + e, 0.0, e],
        [1.0, 0.0, 0.0, 1.0, (2.0 + e).next_up(), 0.0, e],
        [3.0, 0.0, 0.0, 1.0, 0.5, 0.0, 1e-5],
        [3.0, 0.0, 0.0, 1.0, 2.0 - e, 0.0, e],
        [3.0, 0.0, 0.0, 1.0, (2.0 - e).next_down(), 0.0, e],
        // Touching from outside, from inside, without height.
        [1.0, 0.0, 0.0, 1.0, 2.0, 0.0, 1e-5],
        [1.0, 0.0, 0.0, 2.0, 0.0, 3.0, 1e-5],
        [3.0, 0.0, 0.0, 1.0, 2.0, 0.0, 1e-5],
        [1.0, 0.0, 0.0, 3.0, -2.0, 0.0, 1e-5],
        [1e-9, 0.0, 0.0, 1e6, 1e6, 0.0, 1e-9],
        [1.0, 0.0, 0.0, 1.0, 2.0 - e, 0.0, e],
        [1.0, 0.0, 0.0, 1.0, (2.0 - e).next_up(), 0.0, e],
        [3.0, 0.0, 0.0, 1.0, 2.0 + e, 0.0, e],
        [1e6, 0.0, 0.0, 2e-9, 1e6, 0.0, 1e-9],
        [NAN, 0.0, 0.0, 1.0, 1.0, 0.0, 1e-5],
        [1.0, NAN, 0.0, 1.0, 1.0, 0.0, 1e-5],
    ] {
        let output = match circle_circle_intr(p[0], point(&p[1..]), p[3], point(&p[4..]), p[6]) {
            CircleCircleIntr::NoIntersect => named("none", &[]),
            CircleCircleIntr::Overlapping => named("overlapping", &[]),
            CircleCircleIntr::TangentIntersect { point } => named("tangent", &[point.x, point.y]),
            CircleCircleIntr::TwoIntersects { point1, point2 } => {
                named("two", &[point1.x, point1.y, point2.x, point2.y])
            }
        };
        rows.add("circle_circle_intr", &p, &output);
    }
}

fn segments(rows: &mut Rows) {
    rows.about("01 3 Arc: x y bulge x y -> radius, centre");
    rows.about(
        "000 offset segment: x y bulge x y offset -> line: ends; arc: ends, centre, radius,",
    );
    rows.about("start angle, sweep; collapsed: ends, tangent at start, tangent at end");
    for p in SEGMENTS {
        let (v1, v2) = vertices(&p);
        let (radius, center) = seg_arc_radius_and_center(v1, v2);
        let output = words(&[radius, center.x, center.y]);
        rows.add("seg_arc_radius_and_center", &p[..5], &output);
        rows.add("offset_segment", &p, &segment(v1, v2, p[5]));
    }
}

pub fn vertices(p: &[f64; 6]) -> (PlineVertex, PlineVertex) {
    (
        PlineVertex::new(p[0], p[1], p[2]),
        PlineVertex::new(p[3], p[4], 0.0),
    )
}

fn segment(v1: PlineVertex, v2: PlineVertex, offset: f64) -> String {
    let pline = Polyline {
        vertices: vec![v1, v2],
        is_closed: false,
    };
    match create_untrimmed_raw_offset_segs(&pline, offset)[0] {
        RawOffsetSeg::Line(line) => named("line", &flat(&[line.start, line.end])),
        RawOffsetSeg::Arc(arc) => {
            let mut numbers = flat(&[arc.start, arc.end, arc.center]);
            numbers.extend([arc.radius, arc.start_angle, arc.sweep]);
            named("arc", &numbers)
        }
        RawOffsetSeg::Collapsed(arc) => named(
            "collapsed",
            &flat(&[arc.start, arc.end, arc.start_tangent, arc.end_tangent]),
        ),
    }
}
