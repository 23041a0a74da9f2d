//! Holds the inner functions of the proved code to 01's arithmetic, bit for bit, so that a
//! difference of whole jobs can be placed. A NaN is held to any NaN.

use oracle::core::math::{
    CircleCircleIntr, LineCircleIntr, LineLineIntr, Vector2, angle, atan, circle_circle_intr,
    line_circle_intr, line_line_intr, tan,
};
use oracle::generate::Random;
use oracle::layers::{self, Told};
use std::f64::consts::FRAC_PI_2;

/// Differences are printed up to this many.
const SHOWN: u64 = 10;

struct Layer {
    name: &'static str,
    /// How often each kind came out; functions of one number have one kind.
    kinds: [u64; 4],
    differing: u64,
}

impl Layer {
    fn new(name: &'static str) -> Self {
        Self {
            name,
            kinds: [0; 4],
            differing: 0,
        }
    }

    fn hold(&mut self, arguments: &[f64], expected: Told, proved: Told) {
        self.kinds[expected.0 as usize] += 1;
        if expected.0 == proved.0 && alike(&expected.1, &proved.1) {
            return;
        }
        self.differing += 1;
        if self.differing <= SHOWN {
            let bits: Vec<String> = arguments.iter().map(|x| oracle::text::bits(*x)).collect();
            println!("{} of {}", self.name, bits.join(" "));
            println!("  01's {expected:?}, proved {proved:?}");
        }
    }
}

/// Whether all numbers are the same, a NaN being any NaN.
pub fn alike(a: &[f64], b: &[f64]) -> bool {
    let same = |(a, b): (&f64, &f64)| a.to_bits() == b.to_bits() || a.is_nan() && b.is_nan();
    a.iter().zip(b).all(same)
}

/// Runs `count` calls of each function.
pub fn compare(seed: u64, count: u64) -> bool {
    let names = [
        "sqrt",
        "atan",
        "tan",
        "angle",
        "line_line",
        "line_circle",
        "circle_circle",
    ];
    let mut layers = names.map(Layer::new);
    let mut random = Random::new(seed);
    for _ in 0..count {
        numbers(&mut layers, &mut random);
        intersections(&mut layers, &mut random);
    }
    let mut differing = 0;
    println!("calls by function: kinds of outcome; differences");
    for layer in &layers {
        let kinds = layer.kinds.map(|count| format!(" {count:>10}")).concat();
        println!("  {:14}{kinds} {:>6}", layer.name, layer.differing);
        differing += layer.differing;
    }
    println!("{} calls, {differing} differences", 7 * count);
    differing == 0
}

fn one(number: f64) -> Told {
    (0, [number, 0.0, 0.0, 0.0])
}

fn numbers(layers: &mut [Layer; 7], random: &mut Random) {
    let x = number(random);
    layers[0].hold(&[x], one(x.sqrt()), one(layers::layers_sqrt(x)));
    layers[1].hold(&[x], one(atan(x)), one(layers::layers_atan(x)));
    // Of a nearly full circle the quarter of the sweep is all but a right angle.
    let sweep = match random.below(4) {
        0 | 1 => x,
        2 => random.around(FRAC_PI_2),
        _ => random.sign() * (FRAC_PI_2 - random.size(-10.0, 0.0)),
    };
    layers[2].hold(&[sweep], one(tan(sweep)), one(layers::layers_tan(sweep)));
    let (c, p) = (point(random), point(random));
    let proved = layers::angle(c, p);
    layers[3].hold(&[c.x, c.y, p.x, p.y], one(angle(c, p)), one(proved));
}

fn intersections(layers: &mut [Layer; 7], random: &mut Random) {
    let eps = random.pick(&[1e-5, 1e-9, 0.01, f64::NAN, 0.0, 1.0]);
    let [a, b, c, d] = [0; 4].map(|_| point(random));
    let told = line_line_told(line_line_intr(a, b, c, d, eps));
    let arguments = [a.x, a.y, b.x, b.y, c.x, c.y, d.x, d.y, eps];
    layers[4].hold(&arguments, told, layers::line_line(a, b, c, d, eps));
    // radii at which the two touch, nearly
    let span = b - a;
    let touching = (span.perp_dot(a - c) / span.length()).abs();
    let radius = near(random, touching);
    let told = line_circle_told(line_circle_intr(a, b, radius, c, eps));
    let arguments = [a.x, a.y, b.x, b.y, radius, c.x, c.y, eps];
    layers[5].hold(&arguments, told, layers::line_circle(a, b, radius, c, eps));
    let first = number(random).abs();
    let apart = span.length();
    let touching = random.pick(&[apart - first, first - apart, apart + first, first]);
    let second = near(random, touching);
    let b = if random.one_in(8) { a } else { b };
    let told = circle_circle_told(circle_circle_intr(first, a, second, b, eps));
    let arguments = [first, a.x, a.y, second, b.x, b.y, eps];
    let proved = layers::circle_circle(first, a, second, b, eps);
    layers[6].hold(&arguments, told, proved);
}

fn line_line_told(intr: LineLineIntr) -> Told {
    match intr {
        LineLineIntr::NoIntersect => (0, [0.0; 4]),
        LineLineIntr::TrueIntersect { seg1_t, seg2_t } => (1, [seg1_t, seg2_t, 0.0, 0.0]),
        LineLineIntr::FalseIntersect { seg1_t, seg2_t } => (2, [seg1_t, seg2_t, 0.0, 0.0]),
        LineLineIntr::Overlapping { .. } => (3, [0.0; 4]),
    }
}

fn line_circle_told(intr: LineCircleIntr) -> Told {
    match intr {
        LineCircleIntr::NoIntersect => (0, [0.0; 4]),
        LineCircleIntr::TangentIntersect { t0 } => (1, [t0, 0.0, 0.0, 0.0]),
        LineCircleIntr::TwoIntersects { t0, t1 } => (2, [t0, t1, 0.0, 0.0]),
    }
}

fn circle_circle_told(intr: CircleCircleIntr) -> Told {
    match intr {
        CircleCircleIntr::NoIntersect => (0, [0.0; 4]),
        CircleCircleIntr::TangentIntersect { point } => (1, [point.x, point.y, 0.0, 0.0]),
        CircleCircleIntr::TwoIntersects { point1, point2 } => {
            (2, [point1.x, point1.y, point2.x, point2.y])
        }
        CircleCircleIntr::Overlapping => (3, [0.0; 4]),
    }
}

/// Any bits, a whole number, a middling number or one of any size.
fn number(random: &mut Random) -> f64 {
    match random.below(8) {
        0 => f64::from_bits(random.bits()),
        1..=3 => random.below(7) as f64 - 3.0,
        4..=6 => random.around(3.0),
        _ => random.sign() * random.size(-12.0, 12.0),
    }
}

/// Mostly with both coordinates of one sort, so that lines are parallel and circles touch.
fn point(random: &mut Random) -> Vector2 {
    match random.below(8) {
        0 => Vector2::new(number(random), number(random)),
        1..=4 => Vector2::new(random.below(4) as f64, random.below(4) as f64),
        _ => Vector2::new(random.around(3.0), random.around(3.0)),
    }
}

/// A number, or one about which a test turns, or some units or tolerances from it.
fn near(random: &mut Random, turn: f64) -> f64 {
    match random.below(5) {
        0 => number(random),
        1 => turn,
        2 => turn.next_up(),
        3 => turn + random.pick(&[1e-5, -1e-5, 1e-9, -1e-9, 0.01, -0.01]),
        _ => turn + random.around(0.1),
    }
}
