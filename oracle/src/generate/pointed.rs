//! Families of jobs in the pointed mode, 02's 2026-13: each near a boundary of its rule.

use super::families::{
    Family, TOLERANCES, arcs, bulge_of, lines, mixed, nudged, on_circle, scattered, snapped,
};
use super::{FAMILIES, Random};
use crate::core::math::{Vector2, dist_squared, point_from_parametric};
use crate::stage::Job;
use std::f64::consts::{FRAC_PI_4, PI, SQRT_2, TAU};

pub const POINTED: &[Family] = &[
    ("scattered lines", |r| sharp(r, |r| scattered(r, lines))),
    ("lines and arcs", |r| sharp(r, |r| scattered(r, mixed))),
    ("snapped", |r| sharp(r, snapped)),
    ("snapped, then nudged", |r| sharp(r, nudged)),
    ("as in the round mode", |r| sharp(r, any)),
    ("turning one way", |r| sharp(r, turning)),
    ("stars", |r| sharp(r, star)),
    ("zigzags", |r| sharp(r, zigzag)),
    ("letters", |r| sharp(r, letter)),
    ("|D| about eps", |r| sharp(r, crossing)),
    ("as far as may be", reaching),
    ("a move of about eps", |r| sharp(r, slight)),
    ("a closing pair of about eps", |r| sharp(r, slight_closing)),
    ("short steps at a corner", |r| sharp(r, stepped)),
    ("a pair within eps", |r| sharp(r, unkept)),
    ("a pair that comes back", |r| sharp(r, returning)),
    ("turned nearly back", |r| sharp(r, back)),
    ("collapsed arcs by lines", |r| sharp(r, collapsed)),
    ("far out", |r| sharp(r, far)),
    ("far out, a point off its place", |r| sharp(r, misplaced)),
    ("few vertices", |r| sharp(r, few)),
    ("offset zero", |r| sharp(r, copied)),
    ("odd ratios", odd),
    ("damaged", damaged),
    ("long", long),
];

const LEAST: f64 = 1.0;
const MOST: f64 = 10.0;

/// Outlines of letters, a point a step: x, then y.
const LETTERS: [&[[u8; 2]]; 5] = [
    &[[0, 0], [3, 0], [3, 1], [1, 1], [1, 5], [0, 5]],
    &[
        [0, 0],
        [1, 0],
        [1, 3],
        [3, 0],
        [4, 0],
        [4, 5],
        [3, 5],
        [3, 2],
        [1, 5],
        [0, 5],
    ],
    &[[2, 0], [3, 0], [5, 5], [4, 5], [2, 1], [1, 5], [0, 5]],
    &[
        [0, 0],
        [4, 0],
        [4, 1],
        [1, 1],
        [1, 2],
        [3, 2],
        [3, 3],
        [1, 3],
        [1, 4],
        [4, 4],
        [4, 5],
        [0, 5],
    ],
    &[
        [0, 0],
        [4, 0],
        [4, 1],
        [2, 1],
        [4, 4],
        [4, 5],
        [0, 5],
        [0, 4],
        [2, 4],
        [0, 1],
    ],
];

/// A ratio that is taken.
fn ratio(random: &mut Random) -> f64 {
    match random.below(8) {
        0 => LEAST,
        1 => MOST,
        2 => random.pick(&[LEAST.next_up(), MOST.next_down(), SQRT_2, SQRT_2.next_up()]),
        3 => (1 + random.below(10)) as f64,
        4 => 1.0 + random.size(-9.0, 0.0),
        _ => random.size(0.0, 1.0).clamp(LEAST, MOST),
    }
}

/// A job of the round mode with a ratio.
fn sharp(random: &mut Random, round: fn(&mut Random) -> Job) -> Job {
    let job = round(random);
    let ratio = ratio(random);
    job.pointed(ratio)
}

fn any(random: &mut Random) -> Job {
    let (_, family) = random.pick(FAMILIES);
    let job = family(random);
    // Its own rooms are those of the round mode.
    job.round()
}

/// A job through points, with no arc.
fn through(closed: bool, offset: f64, eps: f64, points: &[Vector2]) -> Job {
    let source = points.iter().flat_map(|point| [point.x, point.y, 0.0]);
    Job::new(closed, offset, eps, source.collect())
}

/// Lines that turn to one side, mostly offset to the other: nearly three vertices for each.
fn turning(random: &mut Random) -> Job {
    let sides = 3 + random.below(12);
    let (mut at, mut heading) = (Vector2::new(0.0, 0.0), random.around(3.2));
    let side = random.sign();
    let sharp = random.pick(&[TAU / sides as f64, 0.1, 1.0, 2.0, 3.0]);
    let points: Vec<Vector2> = (0..=sides)
        .map(|_| {
            heading += side * sharp * (0.5 + random.unit());
            at = on_circle(at, random.size(-0.5, 0.5), heading);
            at
        })
        .collect();
    let size = random.size(-3.0, 0.5);
    let offset = if random.one_in(5) { size } else { -size };
    let closed = random.one_in(2);
    through(closed, side * offset, random.pick(&TOLERANCES), &points)
}

/// Closed, with points and dents by turns.
fn star(random: &mut Random) -> Job {
    let tips = 3 + random.below(9);
    let (center, turn) = (
        Vector2::new(random.around(5.0), random.around(5.0)),
        random.around(3.2),
    );
    let (outer, inner) = (random.size(0.0, 1.0), random.size(-1.0, 0.5));
    let side = random.sign();
    let points: Vec<Vector2> = (0..2 * tips)
        .map(|i| {
            let radius = if i % 2 == 0 { outer } else { inner };
            on_circle(center, radius, turn + side * i as f64 * PI / tips as f64)
        })
        .collect();
    let size = random.size(-2.0, 0.3);
    let offset = random.pick(&[1.0, -1.0, -1.0]) * side * size;
    through(!random.one_in(6), offset, random.pick(&TOLERANCES), &points)
}

fn zigzag(random: &mut Random) -> Job {
    let (count, width) = (2 + random.below(12), random.size(-1.0, 0.5));
    let height = random.size(-1.0, 1.0);
    let points: Vec<Vector2> = (0..=count)
        .map(|i| Vector2::new(width * i as f64, height * (i % 2) as f64))
        .collect();
    let offset = random.sign() * random.size(-2.0, 0.3);
    let closed = random.one_in(4);
    through(closed, offset, random.pick(&TOLERANCES), &points)
}

/// A letter, as drawn or turned, from any of its corners on.
fn letter(random: &mut Random) -> Job {
    let mut corners = random.pick(&LETTERS).to_vec();
    let first = random.below(corners.len());
    corners.rotate_left(first);
    if random.one_in(2) {
        corners.reverse();
    }
    let size = random.pick(&[1.0, 0.25, 3.0]);
    let (sin, cos) = (random.pick(&[0.0, 1.0]) * random.around(3.2)).sin_cos();
    let points: Vec<Vector2> = corners
        .iter()
        .map(|corner| {
            let [x, y] = corner.map(|step| size * f64::from(step));
            Vector2::new(x * cos - y * sin, x * sin + y * cos)
        })
        .collect();
    let offset = random.sign() * size * random.pick(&[0.1, 0.25, 0.5, 1.0, 0.3]);
    let closed = !random.one_in(6);
    through(closed, offset, random.pick(&TOLERANCES), &points)
}

/// Some units in the last place to either side.
fn beside(random: &mut Random, mut number: f64) -> f64 {
    let up = random.one_in(2);
    for _ in 0..random.below(4) {
        number = if up {
            number.next_up()
        } else {
            number.next_down()
        };
    }
    number
}

/// Two lines whose |D| is about ε. Along the axes it comes out exact.
fn crossing(random: &mut Random) -> Job {
    let eps = random.pick(&TOLERANCES);
    let exact = random.one_in(2);
    let first = if exact {
        f64::from(random.below(4) as i32 - 2 + (eps.log2() / 2.0) as i32).exp2()
    } else {
        eps.sqrt() * random.size(-0.8, 0.8)
    };
    let turn = random.sign()
        * if exact {
            PI / 2.0
        } else {
            0.1 + 2.9 * random.unit()
        };
    let second = eps / (first * turn.sin().abs());
    let second = match random.below(3) {
        0 => second * (1.0 + random.around(0.01)),
        _ => beside(random, second),
    };
    let offset = -turn.signum() * random.size(-2.5, 1.0);
    let mut points = if exact {
        let down = turn.signum() * second;
        vec![
            Vector2::new(0.0, 0.0),
            Vector2::new(first, 0.0),
            Vector2::new(first, down),
        ]
    } else {
        let heading = random.around(3.2);
        let start = Vector2::new(random.around(1.0), random.around(1.0));
        let middle = on_circle(start, first, heading);
        vec![start, middle, on_circle(middle, second, heading + turn)]
    };
    let closed = random.one_in(4);
    if closed {
        let first = random.below(3);
        points.rotate_left(first);
    }
    through(closed, offset, eps, &points)
}

/// Two lines and the ratio at which their point lies as far off as may be.
fn reaching(random: &mut Random) -> Job {
    let (job, corner) = if random.one_in(4) {
        whole_corner(random)
    } else {
        any_corner(random)
    };
    let just = furthest(&corner, job.offset).clamp(LEAST, MOST);
    let ratio = match random.below(4) {
        0 => just * (1.0 + random.around(1e-9)),
        _ => beside(random, just),
    };
    job.pointed(ratio)
}

/// Whole numbers and twice the squares of Pythagoras, whose directions and points have few digits.
fn whole_corner(random: &mut Random) -> (Job, [Vector2; 3]) {
    let (a, b, c) = random.pick(&[
        (3.0, 4.0, 5.0),
        (5.0, 12.0, 13.0),
        (7.0, 24.0, 25.0),
        (8.0, 15.0, 17.0),
    ]);
    let (a, b) = if random.one_in(2) { (a, b) } else { (b, a) };
    let size = random.pick(&[1.0, 0.5, 2.0]);
    let start = Vector2::new(random.below(3) as f64, random.below(3) as f64);
    let middle = start + Vector2::new(10.0, 0.0);
    let end = middle + Vector2::new(size * a * random.sign(), -size * b);
    let corner = [start, middle, end];
    let offset = c * random.pick(&[1.0, 0.5, 2.0]);
    (through(false, offset, 1e-5, &corner), corner)
}

fn any_corner(random: &mut Random) -> (Job, [Vector2; 3]) {
    let heading = random.around(3.2);
    let turn = random.sign() * 3.0 * random.unit();
    let start = Vector2::new(random.around(5.0), random.around(5.0));
    let middle = on_circle(start, random.size(-0.5, 1.0), heading);
    let end = on_circle(middle, random.size(-0.5, 1.0), heading + turn);
    let corner = [start, middle, end];
    let offset = -turn.signum() * random.size(-2.0, 1.0);
    let closed = random.one_in(4);
    let mut points = corner;
    points.rotate_left(if closed { random.below(3) } else { 0 });
    let job = through(closed, offset, random.pick(&TOLERANCES), &points);
    (job, corner)
}

/// How far from a corner the offset lines meet, as a multiple of the offset's size.
fn furthest([a, b, c]: &[Vector2; 3], offset: f64) -> f64 {
    let [p, q] = [[*a, *b], [*b, *c]].map(|ends| {
        let aside = (ends[1] - ends[0]).unit_perp().scale(offset);
        ends.map(|end| end + aside)
    });
    let (v, u, w) = (p[1] - p[0], q[1] - q[0], p[0] - q[0]);
    let t = u.perp_dot(w) / v.perp_dot(u);
    let point = point_from_parametric(p[0], p[1], t);
    dist_squared(point, *b).sqrt() / offset.abs()
}

/// Headings from which ε counts differently in x and in y.
fn leaning(random: &mut Random) -> f64 {
    match random.below(3) {
        0 => random.around(3.2),
        1 => random.below(8) as f64 * FRAC_PI_4,
        _ => random.below(8) as f64 * FRAC_PI_4 + random.around(0.1),
    }
}

/// A corner at which either move is about as long as ε.
fn slight_corner(random: &mut Random, eps: f64) -> ([Vector2; 3], f64) {
    let heading = leaning(random);
    let turn = random.sign() * random.pick(&[FRAC_PI_4, 0.5, 1.0, 0.1, 2.0, 0.01]);
    let any = 0.5 + random.unit();
    let turn = turn * random.pick(&[1.0, 1.0, any]);
    let long = eps * (0.6 + random.unit());
    let offset = -turn.signum() * (long / (0.5 * turn.abs()).tan()).min(1e5);
    let start = Vector2::new(random.around(1.0), random.around(1.0));
    let start = start.scale(random.pick(&[0.0, 1.0]));
    let middle = on_circle(start, random.size(-0.8, 1.0), heading);
    let end = on_circle(middle, random.size(-0.8, 1.0), heading + turn);
    ([start, middle, end], offset)
}

fn slight(random: &mut Random) -> Job {
    let eps = random.pick(&TOLERANCES);
    let (corner, offset) = slight_corner(random, eps);
    let mut points = corner.to_vec();
    if random.one_in(3) {
        points.push(points[2] + Vector2::new(random.around(2.0), random.around(2.0)));
    }
    let first = random.below(points.len());
    let closed = random.one_in(3);
    if closed {
        points.rotate_left(first);
    }
    through(closed, offset, eps, &points)
}

/// The corner is where the drawing closes.
fn slight_closing(random: &mut Random) -> Job {
    let eps = random.pick(&TOLERANCES);
    let ([start, middle, end], offset) = slight_corner(random, eps);
    let mut points = vec![middle, end];
    if random.one_in(3) {
        points.push(end + Vector2::new(random.around(2.0), random.around(2.0)));
    }
    points.push(start);
    through(true, offset, eps, &points)
}

/// A step that is dropped, or nearly, before or after a corner whose moves are about as long.
fn stepped(random: &mut Random) -> Job {
    let eps = random.pick(&TOLERANCES);
    let part = |random: &mut Random| random.sign() * eps * (0.5 + 0.7 * random.unit());
    let mut at = Vector2::new(random.around(1.0), 0.0).scale(random.pick(&[0.0, 1.0]));
    let mut points = Vec::new();
    for _ in 0..3 + random.below(3) {
        points.push(at);
        at = if random.one_in(2) {
            at + Vector2::new(part(random), part(random))
        } else {
            on_circle(at, random.size(-0.3, 1.0), leaning(random))
        };
    }
    let most = random.pick(&[0.7, 0.7, 3.0]);
    let offset = random.sign() * eps * random.size(-0.7, most);
    through(random.one_in(3), offset, eps, &points)
}

/// A short line leads past the last kept point, from behind it, to a corner whose point and whose next
/// start are both within ε of it, though not of each other's ends: so neither move is kept.
fn unkept(random: &mut Random) -> Job {
    let eps = random.pick(&TOLERANCES);
    let size = eps * random.size(0.5, 2.5);
    let side = random.sign();
    let mut around = |middle: f64| eps * middle * (1.0 + random.around(0.05));
    let behind = 2.0 * (0.5 * around(1.34) / size).atan();
    let (step, ahead) = (around(1.06), 2.0 * (around(0.73) / size).atan());
    let away = (1.0 + random.unit()) / ahead.sin();
    let quarter = random.below(4) as f64 * 2.0 * FRAC_PI_4;
    let heading = FRAC_PI_4 + quarter + random.around(0.02);
    let turns = [side * behind, -side * ahead];
    let points = around_step(random, heading, turns, [step, away]);
    let closed = random.one_in(2);
    through_step(random, closed, side * size, eps, points)
}

/// The same with a sharp corner: the point is well away, but the next start is within ε of the last kept
/// point, though the connector as a whole is longer.
fn returning(random: &mut Random) -> Job {
    let eps = random.pick(&TOLERANCES);
    let size = eps * (0.5 + 0.15 * random.unit());
    let side = random.sign();
    let behind = side * (2.1 + 0.5 * random.unit());
    let ahead = -side * (2.0 + random.unit());
    let step = eps * (1.0 + 0.1 * random.unit());
    let away = (1.0 + random.unit()) / ahead.sin().abs();
    let heading = random.below(4) as f64 * 2.0 * FRAC_PI_4 + random.around(0.1);
    let points = around_step(random, heading, [behind, ahead], [step, away]);
    let closed = random.one_in(2);
    through_step(random, closed, side * size, eps, points)
}

/// A long line, a step in the direction `heading`, and a line away; with the turns before and after it.
fn around_step(
    random: &mut Random,
    heading: f64,
    [before, after]: [f64; 2],
    [step, away]: [f64; 2],
) -> [Vector2; 4] {
    let middle = Vector2::new(0.0, 0.0);
    let corner = on_circle(middle, step, heading);
    let start = on_circle(middle, -random.size(-0.5, 1.0), heading - before);
    [
        start,
        middle,
        corner,
        on_circle(corner, away, heading + after),
    ]
}

/// Through these points; where that is closed, mostly from the corner after the step on.
fn through_step(
    random: &mut Random,
    closed: bool,
    offset: f64,
    eps: f64,
    mut points: [Vector2; 4],
) -> Job {
    if closed && !random.one_in(4) {
        points.rotate_left(2);
    }
    through(closed, offset, eps, &points)
}

/// Turned back, just so or nearly: the point lies far off, or there is none.
fn back(random: &mut Random) -> Job {
    let (mut at, mut heading) = (Vector2::new(0.0, 0.0), leaning(random));
    let points: Vec<Vector2> = (0..3 + random.below(3))
        .map(|_| {
            heading += PI + random.pick(&[0.0, 1.0, -1.0]) * random.size(-9.0, 0.0);
            at = on_circle(at, random.size(-1.0, 1.0), heading);
            at
        })
        .collect();
    let offset = random.sign() * random.size(-2.0, 1.0);
    through(random.one_in(3), offset, random.pick(&TOLERANCES), &points)
}

/// Arcs that the offset uses up, or leaves, between lines.
fn collapsed(random: &mut Random) -> Job {
    let offset = random.sign() * random.size(-1.0, 0.5);
    let mut at = Vector2::new(random.around(1.0), random.around(1.0));
    let mut source = Vec::new();
    for _ in 0..3 + random.below(5) {
        let bulge = match random.below(4) {
            0 => bulge_of(offset.signum() * 3.0 * random.unit()),
            1 => arcs(random),
            _ => 0.0,
        };
        source.extend([at.x, at.y, bulge]);
        at = on_circle(
            at,
            offset.abs() * random.size(-0.5, 0.7),
            random.around(3.2),
        );
    }
    Job::new(random.one_in(2), offset, random.pick(&TOLERANCES), source)
}

/// Near the limits of the plane, where points are off by some of ε.
fn far(random: &mut Random) -> Job {
    let eps = random.pick(&[1e-9, 1e-9, 1e-7, 1e-5]);
    let corner = Vector2::new(random.sign() * 9e5, random.pick(&[0.0, 9e5, -9e5]));
    let size = random.size(-4.0, 4.5);
    let points: Vec<Vector2> = (0..3 + random.below(4))
        .map(|_| corner + Vector2::new(random.around(size), random.around(size)))
        .collect();
    let offset = random.sign() * random.size(-6.0, 6.0).min(1e6);
    through(random.one_in(3), offset, eps, &points)
}

/// So far out that rounding moves the point along its lines: it may lie before the first one's end, or after
/// the second one's start.
fn misplaced(random: &mut Random) -> Job {
    let eps = random.pick(&[1e-9, 1e-9, 3e-9, 1e-8]);
    let turn = random.sign() * random.size(-5.0, -0.5);
    let offset = -turn.signum() * eps * random.size(0.0, 1.5) / turn.abs();
    let out = random.size(4.0, 6.0) - 1000.0;
    let middle = Vector2::new(random.sign() * out, random.pick(&[0.0, out, -out]));
    let heading = leaning(random);
    let start = on_circle(middle, -random.size(-2.0, 2.0), heading);
    let end = on_circle(middle, random.size(-2.0, 2.0), heading + turn);
    let mut points = [start, middle, end];
    let closed = random.one_in(3);
    points.rotate_left(if closed { random.below(3) } else { 0 });
    through(closed, offset, eps, &points)
}

fn few(random: &mut Random) -> Job {
    let points: Vec<Vector2> = (0..random.below(4))
        .map(|_| Vector2::new(random.below(3) as f64, random.below(3) as f64))
        .collect();
    let offset = random.pick(&[1.0, -1.0, 0.0, -0.0, 1e6]);
    through(random.one_in(2), offset, 1e-5, &points)
}

/// Both zeros copy; the next doubles do not.
fn copied(random: &mut Random) -> Job {
    let mut job = snapped(random);
    let least = f64::from_bits(1);
    job.offset = random.pick(&[0.0, -0.0, 0.0, -0.0, least, -least]);
    job
}

/// A ratio that no job may have, or the last one that it may; at times with another bad number.
fn odd(random: &mut Random) -> Job {
    let round = random.pick(&[snapped, few, turning, copied, any]);
    let mut job = sharp(random, round);
    if random.one_in(6) {
        let slot = random.below(job.numbers());
        let number = random.pick(&[f64::NAN, f64::INFINITY, 2e9, -0.0]);
        job = job.with_number(slot, number);
    }
    let quiet = 1 << 51;
    let nan = f64::from_bits(0x7ff0_0000_0000_0001 | random.bits() & !(0x7ff << 52) | quiet);
    job.ratio = Some(random.pick(&[
        LEAST,
        LEAST.next_down(),
        MOST,
        MOST.next_up(),
        f64::NAN,
        nan,
        f64::INFINITY,
        f64::NEG_INFINITY,
        0.0,
        -0.0,
        -LEAST,
        -MOST,
        f64::MAX,
        f64::from_bits(1),
    ]));
    job
}

/// A job with something broken.
fn damaged(random: &mut Random) -> Job {
    let round = random.pick(&[snapped, turning, star, letter, slight, collapsed]);
    let mut job = sharp(random, round);
    let need = job.need();
    match random.below(5) {
        0 => {
            let length = random.below(job.source.len() + 1);
            job.source.truncate(length);
        }
        1 => job.source.push(random.around(1.0)),
        2 | 3 => {
            let kind = random.below(4);
            let need = if kind == 0 { 3 * need } else { need };
            // What the round mode needs is too little.
            let few = [0, need.saturating_sub(1), 2 * need / 3, need, need + 1];
            job.room[kind] = random.pick(&few);
        }
        _ if job.source.len() >= 6 => {
            let from = 3 * random.below(job.source.len() / 3);
            let to = 3 * random.below(job.source.len() / 3);
            job.source[to] = job.source[from];
            job.source[to + 1] = job.source[from + 1];
        }
        _ => {}
    }
    job
}

/// Drawings of many vertices, now and then as many as may be, or one more.
fn long(random: &mut Random) -> Job {
    let v = if random.one_in(100) {
        random.pick(&[4095, 4096, 4097])
    } else {
        30 + random.below(100)
    };
    let arcs = random.one_in(3);
    let side = random.sign();
    let (mut at, mut heading) = (Vector2::new(0.0, 0.0), 0.0_f64);
    let mut source = Vec::new();
    for _ in 0..v {
        heading += side * (2.0 * random.unit() - 0.3);
        at = on_circle(at, random.size(-1.0, 1.0), heading);
        let bulge = if arcs && random.one_in(3) {
            random.around(1.0)
        } else {
            0.0
        };
        source.extend([at.x, at.y, bulge]);
    }
    let offset = -side * random.size(-2.0, 0.3);
    let eps = random.pick(&TOLERANCES);
    let job = Job::new(random.one_in(2), offset, eps, source);
    let ratio = ratio(random);
    job.pointed(ratio)
}
