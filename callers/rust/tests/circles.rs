//! Circles drawn as one arc that goes nearly all the way round: what the README says of the tolerance.

use blidrosk::Drawing;

const TRIED: usize = 20_000;

/// Numbers that look random, the same in each run.
struct Numbers(u64);

impl Numbers {
    fn between(&mut self, low: f64, high: f64) -> f64 {
        self.0 = self.0.wrapping_mul(6364136223846793005).wrapping_add(1);
        low + (high - low) * ((self.0 >> 11) as f64 / (1_u64 << 53) as f64)
    }

    fn size(&mut self, low: f64, high: f64) -> f64 {
        10_f64.powf(self.between(low, high))
    }
}

/// A counterclockwise circle with a gap, the offset, and the gap that it leaves.
struct Circle {
    source: [f64; 6],
    offset: f64,
    gap: f64,
}

impl Circle {
    fn some(numbers: &mut Numbers, inside: bool) -> Circle {
        let radius = numbers.size(-1.0, 4.0);
        let centre = [0; 2].map(|_| numbers.size(-1.0, 5.0) * numbers.between(-1.0, 1.0));
        let (turn, half) = (numbers.between(-3.2, 3.2), numbers.size(-8.0, -0.7));
        let [from, to] = [turn + half, turn - half].map(|angle| {
            let (sin, cos) = angle.sin_cos();
            [centre[0] + radius * cos, centre[1] + radius * sin]
        });
        let apart = [from[0] - to[0], from[1] - to[1]].map(f64::abs);
        // by the chord as it was rounded, so that the radius is kept
        let quarter = (apart[0].hypot(apart[1]) / (2.0 * radius)).asin() / 2.0;
        let offset = if inside {
            radius * numbers.between(0.001, 0.9)
        } else {
            -radius * numbers.size(-3.0, 1.0)
        };
        Circle {
            source: [from[0], from[1], quarter.tan().recip(), to[0], to[1], 0.0],
            offset,
            gap: apart[0].max(apart[1]) * (radius - offset) / radius,
        }
    }

    /// Its drawing with this share of the gap for the tolerance, where that and the bulge are in range.
    fn drawn(&self, closed: bool, share: f64) -> Option<Drawing> {
        let eps = share * self.gap;
        let good = (1e-9..=0.01).contains(&eps) && self.source[2] <= 1e9;
        good.then(|| Drawing::offset(&self.source, closed, self.offset, eps).expect("a good job"))
    }
}

/// How many of the circles were in range; each of their drawings has to pass.
fn all(inside: bool, closed: bool, share: f64, pass: fn(&Drawing) -> bool) -> usize {
    let mut numbers = Numbers(7);
    let mut count = 0;
    for _ in 0..TRIED {
        let circle = Circle::some(&mut numbers, inside);
        if let Some(drawing) = circle.drawn(closed, share) {
            assert!(pass(&drawing), "{:?}, {}", circle.source, circle.offset);
            count += 1;
        }
    }
    count
}

fn is_circle(drawing: &Drawing) -> bool {
    drawing.vertices.chunks(3).any(|vertex| vertex[2] > 1.0) && drawing.indexes.is_empty()
}

fn is_empty(drawing: &Drawing) -> bool {
    drawing.vertices.is_empty()
}

#[test]
fn an_open_circle_comes_out_while_the_tolerance_is_below_its_gap() {
    for inside in [false, true] {
        for share in [0.1, 0.5, 0.9] {
            assert!(all(inside, false, share, is_circle) > TRIED / 4);
        }
    }
}

#[test]
fn an_open_circle_is_lost_where_the_tolerance_is_above_its_gap() {
    for inside in [false, true] {
        for share in [1.1, 3.0] {
            assert!(all(inside, false, share, is_empty) > TRIED / 4);
        }
    }
}

#[test]
fn a_closed_circle_comes_out_to_its_outside_with_half_of_its_gap() {
    assert!(all(false, true, 0.5, is_circle) > TRIED / 4);
}
