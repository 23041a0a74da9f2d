//! The stored output of the program that works numbers and vectors at the edges of binary64. It
//! reads no input: the numbers stand in the program.

use crate::rows::{flat, named};
use oracle::core::math::Vector2;
use oracle::core::traits::Real;
use std::path::Path;
use std::{fs, io};

const EDGES: [f64; 20] = [
    0.0,
    -0.0,
    1.0,
    -1.0,
    0.5,
    2.0,
    49.0,
    1.0_f64.next_up(),
    1e-8,
    4.0,
    -4.0,
    5e-324,
    f64::MIN_POSITIVE.next_down(),
    f64::MIN_POSITIVE,
    f64::MAX,
    f64::MIN,
    f64::INFINITY,
    f64::NEG_INFINITY,
    f64::NAN,
    f64::from_bits(0xfff0_0000_0000_0001),
];

/// Roots are looked for near these.
const GUESSES: [f64; 16] = [
    0.05,
    0.1,
    0.2,
    0.25,
    0.5,
    1.0,
    1.5,
    2.0,
    5.0,
    3.1,
    1.0_f64.next_up(),
    2.0_f64.next_down(),
    1.0 + 1.0 / 67_108_864.0,
    1e-6,
    f64::from_bits(0x5fe2_3456_789a_bcde),
    f64::from_bits(0x1ff2_3456_789a_bcde),
];

/// From 1 to 2, where a guess is of use, with borders of its tables; and beside it.
const WITHIN: [f64; 20] = [
    1.0_f64.next_down(),
    1.0,
    1.0_f64.next_up(),
    1.0 + 1.0 / 33_554_432.0,
    (1.0 + 1.0 / 33_554_432.0_f64).next_up(),
    (1.0 + 1.0 / 33_554_432.0_f64).next_up().next_up(),
    1.015625_f64.next_down(),
    1.015625,
    1.015625_f64.next_up(),
    1.265625,
    1.265625_f64.next_up(),
    1.5625,
    1.890625_f64.next_down(),
    1.890625,
    1.984375_f64.next_down(),
    1.984375,
    1.984375_f64.next_up(),
    2.0_f64.next_down(),
    2.0,
    2.0_f64.next_up(),
];

/// By how many guesses the program finds a root.
const WAYS: usize = 18;

/// Near the origin in x, in y, in both; as far from it as the tolerance.
const BESIDE: [[f64; 2]; 4] = [[0.005, 1.0], [1.0, 0.005], [0.005, -0.005], [0.01, 0.0]];

pub fn write(folder: &Path) -> io::Result<()> {
    let mut lines: Vec<String> = (0..EDGES.len()).flat_map(at_edge).collect();
    let origin = Vector2::new(0.0, 0.0);
    lines.extend(BESIDE.map(|[x, y]| vectors(origin, Vector2::new(x, y))));
    lines.push(vector(Vector2::new(3.0, 4.0)));
    lines.extend(GUESSES.into_iter().flat_map(near_guess));
    for (i, within) in WITHIN.into_iter().enumerate() {
        lines.extend(near_edge(i));
        lines.extend([guessed(EDGES[i]), guessed(within)]);
    }
    fs::write(folder.join("stdout"), lines.concat())
}

/// An edge, the next one and the seventh after it, around the table.
fn at_edge(i: usize) -> [String; 5] {
    let [a, b, c] = [0, 1, 7].map(|after| EDGES[(i + after) % EDGES.len()]);
    [
        one(a),
        two(a, b),
        two(a, a),
        vector(Vector2::new(a, c)),
        vectors(Vector2::new(a, b), Vector2::new(c, a)),
    ]
}

/// About the square of a guess, and one of the two far from it.
fn near_guess(g: f64) -> [String; 9] {
    let square = g * g;
    let further = |units: i64| f64::from_bits(square.to_bits().wrapping_add_signed(units));
    [
        near(square, square, g),
        near(further(1), further(-1), g),
        near(further(2), further(-2), g),
        near(further(-200), further(200), g),
        near(square * 1.000000001, square * 0.999999999, g),
        near(square * 1.000001, square * 0.999, g),
        near(square, 7.0, g),
        near(0.1, further(3), g),
        near(square, further(1), -g),
    ]
}

/// An edge beside others, near others and near its own root.
fn near_edge(i: usize) -> [String; 5] {
    let [a, b, c] = [0, 1, 7].map(|after| EDGES[(i + after) % EDGES.len()]);
    [
        near(a, b, c),
        near(a, 1.0, 1.0),
        near(1.0, a, 1.0),
        near(a, a, a.sqrt()),
        near(4.0, 4.0, a),
    ]
}

fn near(x: f64, y: f64, g: f64) -> String {
    line("near", &[x, y, g, x.sqrt(), y.sqrt()], &[])
}

fn guessed(a: f64) -> String {
    let mut numbers = [a.sqrt(); 1 + WAYS];
    numbers[0] = a;
    line("guessed", &numbers, &[])
}

fn one(x: f64) -> String {
    line("one", &[x, x.sqrt(), x.abs()], &[x.is_finite()])
}

fn two(a: f64, b: f64) -> String {
    let near = [1e-8, f64::INFINITY, f64::NAN].map(|eps| a.fuzzy_eq_eps(b, eps));
    line("two", &[a, b], &near)
}

fn vector(v: Vector2) -> String {
    let mut numbers = flat(&[v, -v, v.perp()]);
    numbers.extend([v.length_squared(), v.length()]);
    numbers.extend(flat(&[v.normalize(), v.unit_perp()]));
    line("vector", &numbers, &[])
}

fn vectors(a: Vector2, b: Vector2) -> String {
    let mut numbers = flat(&[a, b, a + b, a - b, a.scale(b.x)]);
    numbers.extend([a.dot(b), a.perp_dot(b)]);
    line("vectors", &numbers, &[a.fuzzy_eq_eps(b, 0.01)])
}

fn line(name: &str, numbers: &[f64], truths: &[bool]) -> String {
    let truths: String = truths.iter().map(|truth| format!(" {truth}")).collect();
    named(name, numbers) + &truths + "\n"
}
