//! Families of jobs that 02's 2026-02 let in: bulges above 01's 1000, and joined vertices within ε
//! of each other that are not equal.

use super::Random;
use super::families::{Family, TOLERANCES, job, mixed, scattered, snapped, steep_bulge};
use crate::core::math::Vector2;
use crate::stage::Job;

pub const KEYHOLES: &[Family] = &[
    ("nearly full circles", alone),
    ("keyholes with slots", slotted),
    ("steep bulges", steep),
    ("next to equal", next_to_equal),
    ("next to equal, steep", next_to_equal_and_steep),
    ("steps shorter than eps", steps),
];

/// A circle drawn as one arc, all but closed.
struct Ring {
    ends: [Vector2; 2],
    bulge: f64,
    radius: f64,
    gap: f64,
    /// From the centre through the gap.
    out: Vector2,
}

impl Ring {
    fn drawn(random: &mut Random) -> Self {
        let radius = random.size(-2.0, 3.0);
        let wanted = radius * random.size(-12.0, 0.0);
        let (middle, out) = gap_at(random, radius);
        let half = out.perp().scale(0.5 * wanted);
        let mut ends = [middle + half, middle - half];
        let gap = (ends[1] - ends[0]).length();
        // By the gap's own angle: the tangent of a quarter of the sweep would lose its digits.
        let angle = (0.5 * gap / radius).min(1.0).asin();
        let mut bulge = (1.0 / (0.5 * angle).tan()).min(1e9);
        if random.one_in(2) {
            ends.reverse();
            bulge = -bulge;
        }
        Self {
            ends,
            bulge,
            radius,
            gap,
            out,
        }
    }

    /// An offset to either side, and a tolerance about the gap, about the offset's gap, or any.
    fn settings(&self, random: &mut Random) -> (f64, f64) {
        let offset = random.sign() * self.radius * random.size(-3.0, 0.7);
        let grown = 1.0 - self.bulge.signum() * offset / self.radius;
        let width = self.gap * random.pick(&[1.0, grown.abs()]);
        let eps = match random.below(4) {
            0 => random.pick(&TOLERANCES),
            1 => width,
            _ => width * random.size(-0.5, 0.5),
        };
        (offset, eps.clamp(1e-9, 0.01))
    }
}

/// The middle of a circle's gap and the way out through it: on an axis, where the gap is as exact as
/// doubles are, anywhere near, or so far out that the gap may round to nothing.
fn gap_at(random: &mut Random, radius: f64) -> (Vector2, Vector2) {
    if random.one_in(2) {
        let out = random.pick(&[[1.0, 0.0], [-1.0, 0.0], [0.0, 1.0], [0.0, -1.0]]);
        let out = Vector2::new(out[0], out[1]);
        return (out.scale(radius), out);
    }
    let (sin, cos) = random.around(3.2).sin_cos();
    let out = Vector2::new(cos, sin);
    let reach = random.pick(&[radius, radius, 3e5]);
    let center = Vector2::new(random.around(3.0), random.around(3.0)).scale(reach);
    (center + out.scale(radius), out)
}

fn vertex(point: Vector2, bulge: f64) -> [f64; 3] {
    [point.x, point.y, bulge]
}

/// A nearly full circle by itself: open, or closed by a short line or arc.
fn alone(random: &mut Random) -> Job {
    let ring = Ring::drawn(random);
    let (offset, eps) = ring.settings(random);
    let closing = random.pick(&[0.0, 0.0, 0.0, 1.0, -1.0, ring.bulge, -ring.bulge]);
    let vertices = [
        vertex(ring.ends[0], ring.bulge),
        vertex(ring.ends[1], closing),
    ];
    let closed = random.one_in(2);
    let job = Job::new(closed, offset, eps, vertices.concat());
    with_either_zero(random, job)
}

/// A nearly full circle from which two lines lead out, or in, side by side and mostly parallel; open,
/// or closed by a cap.
fn slotted(random: &mut Random) -> Job {
    let ring = Ring::drawn(random);
    let (offset, eps) = ring.settings(random);
    let lead = ring
        .out
        .scale(random.sign() * ring.radius * random.size(-3.0, 0.5));
    let aside = if random.one_in(4) {
        Vector2::new(random.around(1.0), random.around(1.0)).scale(ring.radius)
    } else {
        Vector2::new(0.0, 0.0)
    };
    let leads = if random.one_in(4) {
        mixed
    } else {
        |_: &mut Random| 0.0
    };
    let cap = random.pick(&[0.0, 0.0, 1.0, -1.0, 0.5, ring.bulge]);
    let mut vertices = [
        vertex(ring.ends[0], ring.bulge),
        vertex(ring.ends[1], leads(random)),
        vertex(ring.ends[1] + lead, cap),
        vertex(ring.ends[0] + lead + aside, leads(random)),
    ];
    // Open, mostly cut at the cap.
    let closed = random.one_in(2);
    let first = if closed || random.one_in(4) {
        random.below(4)
    } else {
        3
    };
    vertices.rotate_left(first);
    let job = Job::new(closed, offset, eps, vertices.concat());
    with_either_zero(random, job)
}

/// Bulges above 1000 on chords of all sizes; the offset goes by the chords, or by their circles.
fn steep(random: &mut Random) -> Job {
    let size = random.size(-9.0, 3.0);
    let offset = random.sign() * (size * random.size(-2.0, 9.0)).min(1e6);
    let eps = random.pick(&TOLERANCES);
    let at = Vector2::new(random.around(1.0), random.around(1.0));
    let at = at.scale(random.pick(&[0.0, 0.0, 1.0, 1e3]));
    job(random, offset, eps, |random| {
        let bulge = if random.one_in(2) {
            steep_bulge(random)
        } else {
            mixed(random)
        };
        [
            at.x + random.around(size),
            at.y + random.around(size),
            bulge,
        ]
    })
}

/// An ordinary job in which one or two vertices were moved to, or next to, the one before.
fn next_to_equal(random: &mut Random) -> Job {
    let mut job = if random.one_in(2) {
        snapped(random)
    } else {
        scattered(random, mixed)
    };
    let v = job.source.len() / 3;
    if v < 2 {
        return job;
    }
    for _ in 0..=random.below(2) {
        let from = random.below(v);
        let to = (from + 1) % v;
        for axis in [0, 1] {
            // About 0 doubles lie closest.
            if random.one_in(2) {
                job.source[3 * from + axis] = random.pick(&[0.0, -0.0, 1e-200, 1e-17]);
            }
            job.source[3 * to + axis] = beside(random, job.source[3 * from + axis], job.eps);
        }
    }
    with_either_zero(random, job)
}

/// The same number, or one that lies less than ε off, or about ε. Squares of differences below 1e-162
/// are 0, and below 1e-154 they are subnormal.
fn beside(random: &mut Random, number: f64, eps: f64) -> f64 {
    number
        + match random.below(8) {
            0..=2 => 0.0,
            3 => random.pick(&[number.next_up(), number.next_down()]) - number,
            4 => random.sign() * random.pick(&[5e-324, 1e-200, 1e-162, 2e-162, 1e-160, 1e-17]),
            5 => random.sign() * random.size(-320.0, -9.0),
            6 => eps * random.around(2.0),
            _ => eps * random.pick(&[1.0, -1.0, 0.5, 0.999]),
        }
}

/// The same with bulges that draw circles of ordinary size over such chords.
fn next_to_equal_and_steep(random: &mut Random) -> Job {
    let mut job = next_to_equal(random);
    for vertex in job.source.chunks_exact_mut(3) {
        if random.one_in(2) {
            vertex[2] = steep_bulge(random);
        }
    }
    job
}

/// A walk in steps of some part of ε, now and then a long one.
fn steps(random: &mut Random) -> Job {
    let eps = random.pick(&TOLERANCES);
    let offset = random.sign() * (eps * random.size(-2.0, 7.0)).min(1e6);
    let slightly = random.size(-3.0, 0.5);
    let parts = random.pick(&[-9.0, -3.0, -1.0]);
    let mut at = Vector2::new(random.around(1.0), random.around(1.0));
    at = at.scale(random.pick(&[0.0, 1.0, 1e3]));
    let mut heading = random.around(3.2);
    job(random, offset, eps, |random| {
        heading += random.around(slightly);
        let (sin, cos) = heading.sin_cos();
        let length = if random.one_in(4) {
            random.size(-3.0, 1.0)
        } else {
            eps * random.size(parts, 0.3)
        };
        at = at + Vector2::new(cos, sin).scale(length);
        vertex(at, mixed(random))
    })
}

/// Each coordinate that is zero, of either sign.
fn with_either_zero(random: &mut Random, mut job: Job) -> Job {
    for vertex in job.source.chunks_exact_mut(3) {
        for number in &mut vertex[..2] {
            if *number == 0.0 {
                *number *= random.sign();
            }
        }
    }
    job
}
