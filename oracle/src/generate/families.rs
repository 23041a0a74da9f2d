//! Families of random jobs, each near some boundary of the rules.

use super::{KEYHOLES, Random};
use crate::core::math::Vector2;
use crate::polyline::{PlineVertex, seg_arc_radius_and_center};
use crate::stage::Job;
use std::f64::consts::SQRT_2;

pub type Family = (&'static str, fn(&mut Random) -> Job);

pub const FAMILIES: &[Family] = &[
    ("scattered lines", |r| scattered(r, lines)),
    ("scattered arcs", |r| scattered(r, arcs)),
    ("scattered, mixed", |r| scattered(r, mixed)),
    ("snapped", snapped),
    ("snapped, then nudged", nudged),
    ("touching circles", touching),
    ("one circle for two arcs", same_circle),
    ("tiny segments", tiny),
    ("short, wide tolerance", short),
    ("collapsing", collapsing),
    ("wide", wide),
    ("far away", far),
    ("slight turns", slight),
    ("turned back by 1e-8", turned_back),
    ("turned back at the least eps", turned_short),
    ("a small circle on a large one", small_circle),
    ("small rings far out", ring),
    ("odd numbers", odd),
    KEYHOLES[0],
    KEYHOLES[1],
    KEYHOLES[2],
    KEYHOLES[3],
    KEYHOLES[4],
    KEYHOLES[5],
    // Others are damaged: all but these two.
    ("damaged", damaged),
    ("long", long),
];

const ROUND_BULGES: [f64; 12] = [
    0.0,
    0.0,
    0.0,
    1.0,
    -1.0,
    0.5,
    -0.5,
    0.25,
    SQRT_2 - 1.0,
    1.0 - SQRT_2,
    2.0,
    -3.0,
];

pub(super) const TOLERANCES: [f64; 5] = [1e-5, 1e-9, 0.01, 1e-3, 1e-7];

/// The largest bulge, by 2026-02.
const MOST_BULGE: f64 = 1e9;

pub(super) fn lines(_: &mut Random) -> f64 {
    0.0
}

pub(super) fn arcs(random: &mut Random) -> f64 {
    match random.below(8) {
        0 | 1 => random.around(1.0),
        2 | 3 => random.around(10.0),
        4 | 5 => random.sign() * random.size(-8.5, 9.0),
        6 if random.one_in(4) => steep_bulge(random),
        _ => random.pick(&[1.0, -1.0, 0.5, -0.5, 2.0]),
    }
}

/// A bulge above 01's 1000: next to it, of any size, or at the limit.
pub(super) fn steep_bulge(random: &mut Random) -> f64 {
    let size = match random.below(8) {
        0 => 1000.0_f64.next_up(),
        1 => MOST_BULGE,
        2 => MOST_BULGE.next_down(),
        _ => random.size(3.0, 9.0),
    };
    random.sign() * size
}

pub(super) fn mixed(random: &mut Random) -> f64 {
    if random.one_in(2) { 0.0 } else { arcs(random) }
}

/// How many vertices: mostly few.
fn count(random: &mut Random) -> usize {
    match random.below(16) {
        0 => random.below(2),
        1 => 5 + random.below(40),
        2..=4 => 2,
        5..=11 => 3,
        _ => 4 + random.below(3),
    }
}

pub(super) fn job(
    random: &mut Random,
    offset: f64,
    eps: f64,
    vertex: impl FnMut(&mut Random) -> [f64; 3],
) -> Job {
    let v = count(random);
    let closed = random.one_in(2);
    job_of(random, v, closed, offset, eps, vertex)
}

fn job_of(
    random: &mut Random,
    v: usize,
    closed: bool,
    offset: f64,
    eps: f64,
    mut vertex: impl FnMut(&mut Random) -> [f64; 3],
) -> Job {
    let source = (0..v).flat_map(|_| vertex(random)).collect();
    Job::new(closed, offset, eps, source)
}

pub(super) fn scattered(random: &mut Random, bulge: fn(&mut Random) -> f64) -> Job {
    let size = random.size(-1.0, 2.0);
    let offset = random.sign() * size * random.size(-2.0, 0.5);
    let eps = random.pick(&TOLERANCES);
    job(random, offset, eps, |random| {
        [random.around(size), random.around(size), bulge(random)]
    })
}

/// Points of a small grid: straight on, reversed, coincident, overlapping.
pub(super) fn snapped(random: &mut Random) -> Job {
    let step = random.pick(&[1.0, 0.5, 0.25, 3.0]);
    let offset = random.sign() * random.pick(&[0.25, 0.5, 1.0, 1.5, 2.0, 4.0, SQRT_2]);
    let eps = random.pick(&[1e-5, 1e-5, 0.01, 1e-9]);
    let reach = 2 + random.below(4);
    job(random, offset, eps, |random| {
        let on_grid = |random: &mut Random| random.below(reach) as f64 * step;
        [on_grid(random), on_grid(random), random.pick(&ROUND_BULGES)]
    })
}

/// A snapped job with one number moved by about ε, by a few units in the last place, by a middling
/// step, or turned in its sign.
pub(super) fn nudged(random: &mut Random) -> Job {
    let mut job = snapped(random);
    if job.source.is_empty() {
        return job;
    }
    for _ in 0..=random.below(3) {
        let slot = random.below(job.source.len());
        let number = &mut job.source[slot];
        match random.below(5) {
            0 => *number += job.eps * random.around(2.0),
            1 => *number += job.eps * random.pick(&[1.0, -1.0, 0.5, 2.0]),
            2 => *number += random.sign() * random.size(-9.0, -1.0),
            3 => *number = -*number,
            _ => {
                for _ in 0..=random.below(3) {
                    *number = number.next_up();
                }
            }
        }
    }
    job
}

/// A point of a circle.
pub(super) fn on_circle(center: Vector2, radius: f64, turn: f64) -> Vector2 {
    let (sin, cos) = turn.sin_cos();
    center + Vector2::new(radius * cos, radius * sin)
}

/// The bulge of the arc that turns by `sweep`.
pub(super) fn bulge_of(sweep: f64) -> f64 {
    (sweep / 4.0).tan()
}

/// Three vertices: two arcs, or an arc and a line, whose offset supports all but touch.
fn touching(random: &mut Random) -> Job {
    let eps = random.pick(&TOLERANCES);
    let center = Vector2::new(random.around(3.0), random.around(3.0));
    let (first, second) = (random.size(-0.5, 0.7), random.size(-0.5, 0.7));
    let turn = random.around(3.2);
    let near = random.pick(&[0.3, 0.01]) * random.around(1.0);
    let middle = on_circle(center, first, turn);
    let sweep = random.sign() * (0.2 + 2.8 * random.unit());
    let start = on_circle(center, first, turn - sweep);
    // The second support turns off the first by a small angle, to either side.
    let (end, bulge) = if random.one_in(2) {
        let along = turn + near + random.sign() * std::f64::consts::FRAC_PI_2;
        (on_circle(middle, 2.0 * second, along), 0.0)
    } else {
        let side = random.sign();
        let other = on_circle(middle, side * second, turn + near);
        let back = turn
            + near
            + if side > 0.0 {
                std::f64::consts::PI
            } else {
                0.0
            };
        let sweep = random.sign() * (0.2 + 2.8 * random.unit());
        (on_circle(other, second, back + sweep), bulge_of(sweep))
    };
    let offset = random.sign() * random.size(-2.0, 0.0);
    let mut vertices = [
        [start.x, start.y, bulge_of(sweep)],
        [middle.x, middle.y, bulge],
        [end.x, end.y, 0.0],
    ];
    if random.one_in(2) {
        vertices.reverse();
        let bulges = vertices.map(|vertex| -vertex[2]);
        (vertices[0][2], vertices[1][2], vertices[2][2]) = (bulges[1], bulges[2], 0.0);
    }
    let closed = random.one_in(8);
    Job::new(closed, offset, eps, vertices.as_flattened().to_vec())
}

/// Two arcs of one circle, or of two that all but agree; they may run over each other.
fn same_circle(random: &mut Random) -> Job {
    let eps = random.pick(&TOLERANCES);
    // Far out, or on a large circle, points are off by about the smallest ε.
    let reach = random.pick(&[3.0, 3.0, 4e5]);
    let center = Vector2::new(random.around(reach), random.around(reach));
    let radius = random.size(-0.5, if reach > 3.0 { 5.5 } else { 1.0 });
    let slack = random.pick(&[0.0, 0.0, 0.5, 1.5, 3.0]) * eps;
    let turn = random.around(3.2);
    let sweeps = [0; 2].map(|_| random.sign() * (0.05 + 5.5 * random.unit()));
    let start = on_circle(center, radius, turn);
    let middle = on_circle(
        center,
        radius + slack * random.around(1.0),
        turn + sweeps[0],
    );
    let end = on_circle(center, radius, turn + sweeps[0] + sweeps[1]);
    let offset = random.sign() * random.size(-4.0, 1.0);
    let vertices = [
        [start.x, start.y, bulge_of(sweeps[0])],
        [middle.x, middle.y, bulge_of(sweeps[1])],
        [end.x, end.y, 0.0],
    ];
    Job::new(
        random.one_in(4),
        offset,
        eps,
        vertices.as_flattened().to_vec(),
    )
}

/// Segments about as long as ε, or all shorter.
fn tiny(random: &mut Random) -> Job {
    let eps = random.pick(&TOLERANCES);
    let offset = random.sign() * eps * random.size(-1.0, 6.0).min(1e5 / eps);
    let at =
        Vector2::new(random.around(1.0), random.around(1.0)).scale(random.pick(&[0.0, 1.0, 1e3]));
    let size = match random.below(8) {
        0 => eps * random.size(-12.0, 0.0),
        _ => eps * random.pick(&[0.5, 1.0, 1.5, 2.0, 4.0]),
    };
    job(random, offset, eps, |random| {
        let part = |random: &mut Random| match random.below(3) {
            0 => random.pick(&[0.0, 1.0, -1.0]) * size,
            1 => random.around(size),
            _ => random.around(3.0 * size),
        };
        [at.x + part(random), at.y + part(random), mixed(random)]
    })
}

/// Segments so short that ε counts in their products.
fn short(random: &mut Random) -> Job {
    let size = random.pick(&[0.03, 0.1, 0.3]);
    let offset = random.sign() * size * random.size(-1.5, 1.0);
    job(random, offset, 0.01, |random| {
        let bulge = if random.one_in(4) { arcs(random) } else { 0.0 };
        [random.around(size), random.around(size), bulge]
    })
}

/// Arcs whose radius is all but used up.
fn collapsing(random: &mut Random) -> Job {
    let mut job = if random.one_in(2) {
        snapped(random)
    } else {
        scattered(random, arcs)
    };
    let arcs: Vec<usize> = (0..job.source.len().saturating_sub(3))
        .step_by(3)
        .filter(|i| job.source[i + 2] != 0.0)
        .collect();
    if arcs.is_empty() {
        return job;
    }
    let i = random.pick(&arcs);
    let vertex = |i: usize| PlineVertex::new(job.source[i], job.source[i + 1], job.source[i + 2]);
    let (radius, _) = seg_arc_radius_and_center(vertex(i), vertex(i + 3));
    let inward = if job.source[i + 2] < 0.0 {
        -radius
    } else {
        radius
    };
    let over = random.pick(&[0.0, 1e-8, -1e-8, job.eps, -job.eps, radius, -0.5 * radius]);
    job.offset = (inward + over).clamp(-1e6, 1e6);
    job
}

/// Coordinates up to the limits, where offsets and tolerances are lost to rounding.
fn wide(random: &mut Random) -> Job {
    let offset = random.sign() * random.size(-9.0, 6.0).min(1e6);
    let eps = random.pick(&TOLERANCES);
    job(random, offset, eps, |random| {
        let part = |random: &mut Random| match random.below(3) {
            0 => random.pick(&[1e6, -1e6, 0.0]),
            1 => random.around(1e6),
            _ => random.around(1.0),
        };
        let bulge = match random.below(4) {
            0 => 0.0,
            1 => random.sign() * random.size(-8.1, -7.0),
            2 => random.sign() * random.pick(&[MOST_BULGE, 1000.0, 1e-8]),
            _ => arcs(random),
        };
        [part(random), part(random), bulge]
    })
}

/// A small drawing near the limits of the plane, where its points are off by about ε.
fn far(random: &mut Random) -> Job {
    let at = Vector2::new(random.sign() * 1e6, random.pick(&[0.0, 9e5, -1e6]));
    let eps = random.pick(&[1e-9, 1e-9, 3e-9, 1e-8]);
    let offset = random.sign() * random.size(-9.3, -2.0);
    let size = random.size(-8.5, 0.5);
    let slightly = random.size(-5.0, 0.5);
    let (mut heading, mut step) = (random.around(3.2), Vector2::new(0.0, 0.0));
    job(random, offset, eps, |random| {
        heading += random.around(slightly);
        let (sin, cos) = heading.sin_cos();
        step = step + Vector2::new(cos, sin).scale(size * random.size(-0.5, 0.5));
        let bulge = if random.one_in(3) { arcs(random) } else { 0.0 };
        let clamped = |x: f64| x.clamp(-1e6, 1e6);
        [
            clamped(at.x - at.x.signum() * step.x.abs()),
            clamped(at.y + step.y),
            bulge,
        ]
    })
}

/// Segments that go on almost straight, or turn almost back.
fn slight(random: &mut Random) -> Job {
    let offset = random.sign() * random.size(-1.0, 6.0).min(1e6);
    let eps = random.pick(&[1e-9, 1e-9, 1e-5, 0.01]);
    let (mut at, mut heading) = (Vector2::new(0.0, 0.0), random.around(3.2));
    let turns = random.pick(&[-7.5, -6.0, -4.0, -2.0]);
    job(random, offset, eps, |random| {
        heading += random.sign() * random.size(-8.5, turns);
        heading += random.pick(&[0.0, 0.0, 0.0, std::f64::consts::PI]);
        let (sin, cos) = heading.sin_cos();
        at = at + Vector2::new(cos, sin).scale(random.size(-1.0, 2.0));
        let bulge = random.pick(&[0.0, 0.0, 1.0, -1.0]) * random.size(-8.5, -3.0);
        [at.x, at.y, bulge]
    })
}

/// A line that turns back at the very slope where a turn begins to count. Offset and lengths have
/// few digits, so that the tangents come out exact and both sides of that test all but agree.
fn turned_back(random: &mut Random) -> Job {
    let length = |random: &mut Random| (1 + random.below(4096)) as f64 / 512.0;
    let (there, back) = (length(random), length(random));
    let mut rise = random.sign() * 1e-8 * back;
    for _ in 0..random.below(3) {
        rise = if random.one_in(2) {
            rise.next_up()
        } else {
            rise.next_down()
        };
    }
    let offset = random.sign() * (1 + random.below(8)) as f64 / f64::from(1 << 30);
    let mut vertices = [[0.0, 0.0], [there, 0.0], [there - back, rise]];
    if random.one_in(2) {
        vertices.iter_mut().for_each(|point| point.reverse());
    }
    let source = vertices.iter().flat_map(|p| [p[0], p[1], 0.0]).collect();
    Job::new(false, offset, 1e-9, source)
}

/// A line of about the least ε that all but turns back, next to 0. Offset by so much more it is rounded
/// to another direction, so that the second line can lie past the first one's end with both its ends.
fn turned_short(random: &mut Random) -> Job {
    let eps = 1e-9 * random.size(0.0, 0.1);
    let heading = random.around(3.2);
    let turn = std::f64::consts::PI + random.sign() * random.size(-8.3, -7.1);
    let mut at = Vector2::new(random.around(10.0), random.around(10.0)).scale(eps);
    let mut vertices = vec![[at.x, at.y, 0.0]];
    for heading in [heading, heading + turn] {
        at = on_circle(at, eps * random.size(0.0, 0.3), heading);
        vertices.push([at.x, at.y, 0.0]);
    }
    let offset = random.sign() * (0.1 + 0.4 * random.unit());
    Job::new(false, offset, eps, vertices.concat())
}

/// An arc of about ε in size at the end of an ordinary one.
fn small_circle(random: &mut Random) -> Job {
    let eps = random.pick(&[5e-9, 2e-8, 1e-7, 1e-5, 0.01]);
    let first = random.size(-0.5, 0.5);
    let sweep = random.sign() * (0.2 + 2.8 * random.unit());
    let turn = random.around(3.2);
    let center = Vector2::new(0.0, 0.0);
    let (start, middle) = (
        on_circle(center, first, turn - sweep),
        on_circle(center, first, turn),
    );
    let second = eps * random.size(-0.3, 1.0);
    let other = on_circle(middle, second, random.around(3.2));
    let spoke = middle - other;
    let rest = random.sign() * (0.2 + 5.0 * random.unit());
    let end = on_circle(other, second, spoke.y.atan2(spoke.x) + rest);
    let offset = random.sign() * eps * random.size(-0.5, 1.0);
    let vertices = [
        [start.x, start.y, bulge_of(sweep)],
        [middle.x, middle.y, bulge_of(rest)],
        [end.x, end.y, 0.0],
    ];
    Job::new(false, offset, eps, vertices.as_flattened().to_vec())
}

/// Two arcs of one circle of about ε in size, so far out that their points are off by some of it,
/// offset outward.
fn ring(random: &mut Random) -> Job {
    let eps = random.pick(&[1e-9, 1e-9, 2e-9, 1e-8]);
    let center = Vector2::new(random.sign() * 9.9e5, random.pick(&[0.0, 5e5, -9e5]));
    let radius = eps * random.size(-0.2, 1.0);
    let (turn, side) = (random.around(3.2), random.sign());
    let sweeps = [0; 2].map(|_| side * random.size(-1.0, 0.7));
    let offset = -side * radius * random.size(0.0, 4.0);
    let vertices = [
        (turn, sweeps[0]),
        (turn + sweeps[0], sweeps[1]),
        (turn + sweeps[0] + sweeps[1], 0.0),
    ]
    .map(|(turn, sweep)| {
        let point = on_circle(center, radius, turn);
        [point.x, point.y, bulge_of(sweep)]
    });
    Job::new(false, offset, eps, vertices.as_flattened().to_vec())
}

/// A number that no range holds, or the last one that it does.
fn odd(random: &mut Random) -> Job {
    let mut job = if random.one_in(2) {
        snapped(random)
    } else {
        scattered(random, mixed)
    };
    let slot = random.below(job.source.len() + 2);
    let (limit, number) = match slot {
        0 => (1e6, &mut job.offset),
        1 => (random.pick(&[1e-9, 0.01]), &mut job.eps),
        _ if slot % 3 == 1 => (MOST_BULGE, &mut job.source[slot - 2]),
        _ => (1e6, &mut job.source[slot - 2]),
    };
    *number = match random.below(8) {
        0 => f64::NAN,
        1 => f64::INFINITY,
        2 => f64::NEG_INFINITY,
        3 => limit,
        4 => -limit,
        5 => random.sign() * limit.next_up(),
        6 => random.sign() * limit.next_down(),
        _ => random.pick(&[-0.0, f64::MIN_POSITIVE, 5e-324, f64::MAX]),
    };
    job
}

/// The job with a NaN for one of its numbers.
pub fn with_a_nan(random: &mut Random, job: &Job) -> Job {
    let slot = random.below(job.numbers());
    job.with_number(slot, nan(random))
}

/// A NaN of either sign, signalling or not, with any payload.
pub(super) fn nan(random: &mut Random) -> f64 {
    let any = random.bits() >> 13;
    let payload = random.pick(&[1, (1 << 51) - 1, any]);
    let quiet = random.one_in(2) || payload == 0;
    let sign = random.one_in(2);
    let top = u64::from(sign) << 63 | 0x7ff << 52 | u64::from(quiet) << 51;
    f64::from_bits(top | payload)
}

/// A good job with something broken.
fn damaged(random: &mut Random) -> Job {
    let mut job = FAMILIES[random.below(FAMILIES.len() - 2)].1(random);
    match random.below(5) {
        0 => {
            let length = random.below(job.source.len() + 1);
            job.source.truncate(length);
        }
        1 => job.source.push(random.around(1.0)),
        2 => {
            let kind = random.pick(&[0, 1, 2, 0, 1, 3]);
            let need = if kind == 0 { 6 } else { 2 } * job.segments();
            job.room[kind] = random.below(need + 2);
        }
        3 if !job.source.is_empty() => {
            let slot = random.below(job.source.len());
            let bit = 1 << random.below(64);
            job.source[slot] = f64::from_bits(job.source[slot].to_bits() ^ bit);
        }
        _ if job.source.len() >= 6 => {
            let from = 3 * random.below(job.source.len() / 3);
            let to = 3 * random.below(job.source.len() / 3);
            job.source[to] = job.source[from];
            job.source[to + 1] = job.source[from + 1];
        }
        _ => {}
    }
    job
}

/// Drawings of many vertices, now and then as many as may be, or one more.
fn long(random: &mut Random) -> Job {
    let v = if random.one_in(200) {
        random.pick(&[4095, 4096, 4097])
    } else {
        30 + random.below(100)
    };
    let (mut at, mut heading) = (Vector2::new(0.0, 0.0), 0.0_f64);
    let offset = random.around(2.0);
    let eps = random.pick(&TOLERANCES);
    let closed = random.one_in(2);
    job_of(random, v, closed, offset, eps, |random| {
        heading += random.around(1.5);
        let (sin, cos) = heading.sin_cos();
        at = at + Vector2::new(cos, sin).scale(random.size(-1.0, 1.0));
        let bulge = if random.one_in(3) {
            random.around(1.0)
        } else {
            0.0
        };
        [at.x, at.y, bulge]
    })
}
