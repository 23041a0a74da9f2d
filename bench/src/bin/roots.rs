//! Times the proved square root and Rust's `f64::sqrt` over the same numbers, in one run. Each time
//! is the least of many turns, in nanoseconds a root; the two take turns, so that both meet the
//! same machine. Two ways to a root that rest on what is known of it are timed beside it: by a guess,
//! and two roots near a number, where the time is that of both.
//!
//! The proved root is a call into an archive, which nothing inlines: the call is part of its time.
//! Rust's is one instruction in the loop, and where no root waits for another the compiler takes
//! two at once.
use bench::{guesses, plain_root, proved_root, root_by, roots_near, same, Random};
use std::hint::black_box;
use std::time::Instant;

const TURNS: usize = 4000;
const COUNT: usize = 4096;

fn main() {
    let mut random = Random::new(1);
    let normal: Vec<f64> = (0..COUNT).map(|_| normal(&mut random)).collect();
    let tiny: Vec<f64> = (0..COUNT).map(|_| subnormal(&mut random)).collect();
    for &x in normal.iter().chain(&tiny) {
        assert!(same(proved_root(x), x.sqrt()), "the roots of {x:e} differ");
    }
    println!("ns a root          proved    Rust   ratio");
    show(
        "chain",
        least(|| chain(proved_root, &normal), || chain(f64::sqrt, &normal)),
    );
    let guessed: Vec<[f64; 2]> = (0..COUNT).map(|_| guessed(&mut random)).collect();
    for &[a, guess] in &guessed {
        assert!(
            same(root_by(a, guess), a.sqrt()),
            "the roots of {a:e} differ"
        );
    }
    show(
        "chain, by a guess",
        least(
            || chain_by(root_by, &guessed),
            || chain_by(|a, _| plain_root(a), &guessed),
        ),
    );
    let offset = 0.05;
    let pairs: Vec<[f64; 2]> = (0..COUNT).map(|_| near(&mut random, offset)).collect();
    for &[x, y] in &pairs {
        let roots = roots_near(x, y, offset);
        let alike = same(roots[0], x.sqrt()) && same(roots[1], y.sqrt());
        assert!(alike, "the roots of {x:e} and {y:e} differ");
    }
    show(
        "chain, two near",
        least(
            || chain_near(roots_near, &pairs, offset),
            || chain_near(|x, y, _| [x, y].map(plain_root), &pairs, offset),
        ),
    );
    let mut out = vec![0.0; COUNT];
    let mut other = vec![0.0; COUNT];
    show(
        "array",
        least(
            || array(proved_root, &normal, &mut out),
            || array(f64::sqrt, &normal, &mut other),
        ),
    );
    show(
        "array, both calls",
        least(
            || array(proved_root, &normal, &mut out),
            || array(plain_call, &normal, &mut other),
        ),
    );
    show(
        "array, subnormal",
        least(
            || array(proved_root, &tiny, &mut out),
            || array(f64::sqrt, &tiny, &mut other),
        ),
    );
}

/// Rust's root as a call, as the proved one is.
#[inline(never)]
fn plain_call(x: f64) -> f64 {
    x.sqrt()
}

/// Each root waits for the one before it, by one product. It stays from 2^-40 to 2^40.
fn chain(root: impl Fn(f64) -> f64, numbers: &[f64]) {
    let mut last = 1.0;
    for &x in numbers {
        last = root(last * x);
    }
    black_box(last);
}

/// Each root waits for the one before it, by a product with zero, which changes no number but has to
/// be worked out.
fn chain_by(root: impl Fn(f64, f64) -> f64, numbers: &[[f64; 2]]) {
    let mut last = 1.0;
    for &[a, guess] in numbers {
        last = root(a + last * 0.0, guess);
    }
    black_box(last);
}

/// Each two roots wait for the two before them, in the same way.
fn chain_near(roots: impl Fn(f64, f64, f64) -> [f64; 2], pairs: &[[f64; 2]], g: f64) {
    let mut last = [1.0; 2];
    for &[x, y] in pairs {
        last = roots(x + last[0] * 0.0, y + last[1] * 0.0, g);
    }
    black_box(last);
}

/// No root waits for another.
fn array(root: impl Fn(f64) -> f64, numbers: &[f64], out: &mut [f64]) {
    for (r, &x) in out.iter_mut().zip(numbers) {
        *r = root(x);
    }
    black_box(out);
}

/// From 2^-40 to 2^40, every exponent alike.
fn normal(random: &mut Random) -> f64 {
    let exponent = 1023 - 40 + random.bits() % 80;
    f64::from_bits((exponent << 52) | (random.bits() >> 12))
}

/// 1 + x * x for an x from -1 to 1, and the guess for its root.
fn guessed(random: &mut Random) -> [f64; 2] {
    let x = 2.0 * random.part() - 1.0;
    let a = 1.0 + x * x;
    [a, guesses(a)[0]]
}

/// Two numbers as near to the square of an offset as the squared lengths are that joins have.
fn near(random: &mut Random, offset: f64) -> [f64; 2] {
    [0; 2].map(|_| offset * offset * (1.0 + 1e-12 * (random.part() - 0.5)))
}

/// Below the smallest normal number, every count of digits alike.
fn subnormal(random: &mut Random) -> f64 {
    let digits = 1 + random.bits() % 52;
    f64::from_bits((1 << (digits - 1)) | (random.bits() >> (65 - digits)))
}

fn least(mut proved: impl FnMut(), mut plain: impl FnMut()) -> (f64, f64) {
    let mut best = (f64::MAX, f64::MAX);
    for _ in 0..TURNS {
        best.0 = best.0.min(time(&mut proved));
        best.1 = best.1.min(time(&mut plain));
    }
    best
}

fn time(run: &mut impl FnMut()) -> f64 {
    let start = Instant::now();
    run();
    start.elapsed().as_nanos() as f64 / COUNT as f64
}

fn show(what: &str, (proved, plain): (f64, f64)) {
    println!(
        "{what:<18} {proved:>6.2}  {plain:>6.2}  {:>6.2}",
        proved / plain
    );
}
