//! Families of jobs for reasons, rules and parameters that few others have.

use super::Random;
use super::families::{Family, TOLERANCES, arcs, bulge_of, job, mixed, on_circle};
use crate::core::math::Vector2;
use crate::stage::Job;

pub const REASONS: &[Family] = &[
    ("a corner and its mirror image", mirrored),
    ("circles about one centre", concentric),
    ("straight on, with a gap", straight_on),
    ("within eps of the start", short_circles),
];

/// Two short lines of which the second is the first one's mirror image. They overlap within a wide ε, and
/// the first offset ends right above the second one's start: at parameter −0 if that goes to the left.
fn mirrored(random: &mut Random) -> Job {
    let (a, b) = (random.around(0.15), random.around(0.15));
    let longer = random.pick(&[0.5, 1.0, 2.0]);
    let bulge = random.pick(&[0.0, 1.0]) * arcs(random);
    let mut vertices = [
        [-a, -b, 0.0],
        [0.0, 0.0, 0.0],
        [-longer * a, longer * b, bulge],
        [random.around(0.3), random.around(0.3), mixed(random)],
    ];
    if random.one_in(2) {
        vertices.iter_mut().for_each(|vertex| vertex.swap(0, 1));
    }
    let offset = random.sign() * random.size(-2.5, -0.5);
    Job::new(random.one_in(4), offset, 0.01, vertices.concat())
}

/// Arcs of one circle that go there and back, with a corner between: offset, they have one centre and two
/// radii. Or the last is of another circle about that centre.
fn concentric(random: &mut Random) -> Job {
    let eps = random.pick(&TOLERANCES);
    let center = Vector2::new(random.around(3.0), random.around(3.0));
    let center = center.scale(random.pick(&[0.0, 1.0]));
    let radius = random.size(-0.5, 0.5);
    let turn = random.around(3.2);
    let sweep = random.sign() * (0.2 + 2.8 * random.unit());
    let back = -sweep * random.size(-1.0, 0.3);
    let aside = random.pick(&[0.0, 0.3, 1.0]) * eps * random.around(1.0);
    let middle = on_circle(center, radius + aside, turn);
    let end = on_circle(center, radius, turn + back);
    let start = on_circle(center, radius, turn - sweep);
    let vertices = [
        [start.x, start.y, bulge_of(sweep)],
        [middle.x, middle.y, bulge_of(back)],
        [end.x, end.y, mixed(random)],
    ];
    let offset = random.sign() * radius * random.size(-2.0, 0.3);
    Job::new(random.one_in(2), offset, eps, vertices.concat())
}

/// Lines and shallow arcs in one direction, so far out that an offset is rounded apart by more than ε.
fn straight_on(random: &mut Random) -> Job {
    let eps = random.pick(&[1e-9, 1e-9, 3e-9, 1e-5]);
    let offset = random.sign() * random.size(3.0, 6.0).min(1e6);
    let (sin, cos) = random.around(3.2).sin_cos();
    let mut at = Vector2::new(random.around(1.0), random.around(1.0));
    at = at.scale(random.size(-1.0, 5.0));
    job(random, offset, eps, |random| {
        let slight = random.around(1.0) * random.size(-10.0, -7.5);
        let step = Vector2::new(cos, sin) + Vector2::new(-sin, cos).scale(slight);
        at = at + step.scale(random.size(-3.0, 1.0));
        let bulge = random.pick(&[0.0, 0.0, 1.0, -1.0]) * random.size(-8.5, -7.5);
        [at.x, at.y, bulge]
    })
}

/// Arcs whose offsets are a few ε in size, so that one point is near both ends of one of them.
fn short_circles(random: &mut Random) -> Job {
    let eps = random.pick(&[1e-5, 0.01, 1e-7]);
    let offset = random.sign() * eps * random.size(-0.5, 1.5);
    let size = eps * random.size(0.0, 1.0);
    job(random, offset, eps, |random| {
        let bulge = if random.one_in(4) {
            0.0
        } else {
            random.sign() * random.size(-1.0, 2.5)
        };
        [random.around(size), random.around(size), bulge]
    })
}
