//! compare_roots [COUNT [SEED]]: holds the proved square roots to Rust's, bit for bit: `sqrt`,
//! `roots_near` and `sqrt_by`, at the edges and COUNT times for each of the kinds below. It prints how
//! many roots of each kind were compared and how many differ, and exits with 1 where one does.
use bench::{guesses, plain_root, proved_root, root_by, root_guessed, roots_near, same, Random};
use std::process::exit;

/// Differences of a kind are printed up to this many.
const SHOWN: u64 = 5;

/// The roots of one kind.
struct Held {
    kind: &'static str,
    roots: u64,
    differing: u64,
}

impl Held {
    fn new(kind: &'static str) -> Self {
        Held {
            kind,
            roots: 0,
            differing: 0,
        }
    }

    /// Holds a proved root of x to Rust's. `by` is the number that it was looked for near, or the
    /// guess.
    fn hold(&mut self, x: f64, proved: f64, by: f64) {
        self.roots += 1;
        let plain = plain_root(x);
        if same(proved, plain) {
            return;
        }
        self.differing += 1;
        if self.differing <= SHOWN {
            println!(
                "{}: the root of {:016x} by {:016x} is {:016x}, and Rust's {:016x}",
                self.kind,
                x.to_bits(),
                by.to_bits(),
                proved.to_bits(),
                plain.to_bits()
            );
        }
    }

    fn hold_root(&mut self, x: f64) {
        self.hold(x, proved_root(x), 0.0);
    }

    fn hold_near(&mut self, x: f64, y: f64, g: f64) {
        let [first, second] = roots_near(x, y, g);
        self.hold(x, first, g);
        self.hold(y, second, g);
    }

    fn hold_by(&mut self, a: f64, guess: f64) {
        self.hold(a, root_by(a, guess), guess);
    }
}

type Draw = fn(&mut Random, &mut Held);

const KINDS: [(&str, Draw); 22] = [
    ("sqrt, any bits", |random, held| {
        held.hold_root(f64::from_bits(random.bits()));
    }),
    ("sqrt, subnormal", |random, held| {
        held.hold_root(f64::from_bits(random.bits() >> 12));
    }),
    ("sqrt, near a square", |random, held| {
        held.hold_root(near_square(random));
    }),
    ("sqrt, beside a middle", |random, held| {
        let scale = scale(random);
        held.hold_root(beside_middle(random) * scale * scale);
    }),
    ("near g: units off", |random, held| {
        let g = random.size(-500, 1000);
        held.hold_near(units_off(random, g), units_off(random, g), g);
    }),
    ("near g: parts off", |random, held| {
        let g = random.size(-500, 1000);
        held.hold_near(parts_off(random, g), parts_off(random, g), g);
    }),
    ("near g: near a square", |random, held| {
        let x = near_square(random);
        let g = next(x.sqrt(), random.below(9) as i64 - 4);
        held.hold_near(x, next(x, random.below(5) as i64 - 2), g);
    }),
    ("near g: beside a middle", |random, held| {
        let scale = scale(random);
        let x = beside_middle(random) * scale * scale;
        let g = next(x.sqrt(), random.below(9) as i64 - 4);
        match random.below(2) {
            0 => held.hold_near(x, units_off(random, g), g),
            _ => held.hold_near(units_off(random, g), x, g),
        }
    }),
    ("near an offset: units off", |random, held| {
        let g = random.pick(&OFFSETS);
        held.hold_near(units_off(random, g), units_off(random, g), g);
    }),
    ("near an offset: parts off", |random, held| {
        let g = random.pick(&OFFSETS);
        held.hold_near(parts_off(random, g), parts_off(random, g), g);
    }),
    ("near an offset: as joins ask", |random, held| {
        let g = random.pick(&OFFSETS);
        held.hold_near(offset_end(random, g), offset_end(random, g), g);
    }),
    ("near g: one of two far", |random, held| {
        let g = random.size(-500, 1000);
        let (near, far) = (units_off(random, g), f64::from_bits(random.bits()));
        match random.below(2) {
            0 => held.hold_near(near, far, g),
            _ => held.hold_near(far, near, g),
        }
    }),
    ("near g: any bits", |random, held| {
        let [x, y, g] = [0; 3].map(|_| f64::from_bits(random.bits()));
        match random.below(2) {
            0 => held.hold_near(x, y, g),
            // the square may be subnormal, zero or endless
            _ => held.hold_near(units_off(random, g), units_off(random, g), g),
        }
    }),
    ("by the first guess", |random, held| {
        by_guess(random, held, 0)
    }),
    ("by the second guess", |random, held| {
        by_guess(random, held, 1)
    }),
    ("by the third guess", |random, held| {
        by_guess(random, held, 2)
    }),
    ("by its own guess", |random, held| {
        let a = match random.below(4) {
            0 => f64::from_bits(random.bits()),
            1 => about_border(random),
            _ => within(random),
        };
        held.hold(a, root_guessed(a), 0.0);
    }),
    ("by a guess: near a square", |random, held| {
        let a = near_square_within(random);
        held.hold_by(a, guesses(a)[0]);
    }),
    ("by a guess: beside a middle", |random, held| {
        let a = beside_middle_within(random);
        held.hold_by(a, guesses(a)[0]);
    }),
    ("by a guess that is off", |random, held| {
        let a = hard_or_not(random);
        // up to 2^40 units, every count of digits alike
        let off = 1 + (random.bits() >> (24 + random.below(40))) as i64;
        let [guess, ..] = guesses(a);
        held.hold_by(a, next(guess, off));
        held.hold_by(a, next(guess, -off));
    }),
    ("by any guess", |random, held| {
        let a = hard_or_not(random);
        held.hold_by(a, any_guess(random, a));
    }),
    ("by a guess: past 1 to 2", |random, held| {
        let a = match random.below(3) {
            0 => f64::from_bits(random.bits()),
            1 => random.size(-2, 4),
            _ => next(random.pick(&[1.0, 2.0]), random.below(601) as i64 - 300),
        };
        held.hold_by(a, guesses(a)[0]);
        held.hold_by(a, any_guess(random, a));
    }),
];

/// Offsets as shops use them, in millimetres and inches.
const OFFSETS: [f64; 26] = [
    0.05, 0.1, 0.15, 0.2, 0.25, 0.3, 0.4, 0.5, 0.6, 0.75, 0.8, 1.0, 1.2, 1.5, 1.6, 2.0, 2.5, 3.0,
    3.175, 5.0, 6.35, 10.0, 0.001, 0.0625, 0.125, 25.4,
];

/// The zeros, the least and the largest numbers, those about 1 and 2, −1, the infinities and NaNs.
const EDGE_GUESSES: [f64; 18] = [
    0.0,
    -0.0,
    5e-324,
    -5e-324,
    f64::MIN_POSITIVE.next_down(),
    f64::MIN_POSITIVE,
    1.0_f64.next_down(),
    1.0,
    1.0_f64.next_up(),
    -1.0,
    2.0_f64.next_down(),
    2.0,
    2.0_f64.next_up(),
    f64::MAX,
    f64::INFINITY,
    f64::NEG_INFINITY,
    f64::NAN,
    // a signalling NaN, of the other sign
    f64::from_bits(0xfff0_0000_0000_0001),
];

fn main() {
    let mut words = std::env::args().skip(1);
    let count = number(words.next(), 10_000_000);
    let mut random = Random::new(number(words.next(), 1));
    let mut held = KINDS.map(|(kind, _)| Held::new(kind));
    for _ in 0..count {
        for ((_, draw), held) in KINDS.iter().zip(&mut held) {
            draw(&mut random, held);
        }
    }
    let held: Vec<Held> = at_edges().into_iter().chain(held).collect();
    println!("{:30} {:>12} {:>8}", "kind", "roots", "differ");
    for held in &held {
        println!("{:30} {:>12} {:>8}", held.kind, held.roots, held.differing);
    }
    let roots: u64 = held.iter().map(|held| held.roots).sum();
    let differing: u64 = held.iter().map(|held| held.differing).sum();
    println!("{roots} roots, {differing} differences");
    if differing > 0 {
        exit(1);
    }
}

fn number(word: Option<String>, default: u64) -> u64 {
    let Some(word) = word else { return default };
    word.parse().unwrap_or_else(|_| {
        eprintln!("compare_roots: no number: {word}");
        exit(2)
    })
}

/// The number some units in the last place on.
fn next(x: f64, units: i64) -> f64 {
    f64::from_bits(x.to_bits().wrapping_add_signed(units))
}

/// The square of g, or some hundred units from it.
fn units_off(random: &mut Random, g: f64) -> f64 {
    next(g * g, random.below(801) as i64 - 400)
}

/// Within a thousandth, a millionth or a milliardth of the square of g.
fn parts_off(random: &mut Random, g: f64) -> f64 {
    let part = random.pick(&[1e-3, 1e-6, 1e-9]);
    g * g * (1.0 + part * (2.0 * random.part() - 1.0))
}

/// The squared distance from a source vertex to an end that was moved from it by g, each rounded as
/// the offset rounds them.
fn offset_end(random: &mut Random, g: f64) -> f64 {
    let [x, y, across, along] = [1000.0, 1000.0, 1.0, 1.0].map(|size| size * (random.part() - 0.5));
    let length = (across * across + along * along).sqrt();
    let dx = x + across / length * g - x;
    let dy = y + along / length * g - y;
    dx * dx + dy * dy
}

/// From 1 to 2.
fn within(random: &mut Random) -> f64 {
    random.size(0, 1)
}

/// From 1 to 2: any, near a square or beside a middle.
fn hard_or_not(random: &mut Random) -> f64 {
    match random.below(3) {
        0 => within(random),
        1 => near_square_within(random),
        _ => beside_middle_within(random),
    }
}

/// Any bits, any number about 1 to 2, or the root of a or at most four units from it.
fn any_guess(random: &mut Random, a: f64) -> f64 {
    match random.below(3) {
        0 => f64::from_bits(random.bits()),
        1 => random.size(-1, 3),
        _ => next(plain_root(a), random.below(9) as i64 - 4),
    }
}

/// About a border of the tables or a number that a cubic of theirs is about, from 1 to 2.
fn about_border(random: &mut Random) -> f64 {
    let border = 1.0 + random.below(65) as f64 / 64.0;
    next(border, random.below(601) as i64 - 300)
}

/// From -1 to 1: any, tiny, next to 1, a quotient of small numbers, or one that a border belongs to.
fn tangent(random: &mut Random) -> f64 {
    match random.below(5) {
        0 => 2.0 * random.part() - 1.0,
        1 => random.size(-60, 60),
        2 => next(1.0, -(random.below(600) as i64)),
        3 => {
            let whole = 1 + random.below(1000);
            random.below(whole + 1) as f64 / whole as f64
        }
        _ => (about_border(random) - 1.0).abs().sqrt(),
    }
}

/// Halves x `halvings` times, as an arc tangent does, and holds the root that comes next, by its
/// guess.
fn by_guess(random: &mut Random, held: &mut Held, halvings: usize) {
    let mut x = tangent(random);
    let guesses = guesses(1.0 + x * x);
    for _ in 0..halvings {
        x /= 1.0 + (1.0 + x * x).sqrt();
    }
    held.hold_by(1.0 + x * x, guesses[halvings]);
}

/// From 2^-150 to 2^150: its square is exact, and so are products with that.
fn scale(random: &mut Random) -> f64 {
    f64::from_bits((1023 - 150 + random.below(300)) << 52)
}

/// The square of a number or of the middle of two neighbours, rounded, or at most two units away.
fn near_square(random: &mut Random) -> f64 {
    let root = (1 << 52) | (random.bits() >> 12);
    let scale = scale(random);
    near_square_of(random, root) * scale * scale
}

/// Such a number from 1 to 2.
fn near_square_within(random: &mut Random) -> f64 {
    // from 2^52 to 2^52 * √2
    let root = (1 << 52) + random.bits() % 0x6_a09e_667f_3bcc;
    near_square_of(random, root)
}

/// Of a root in units of 2^-52. Every fourth has half of its digits, so that its square is exact.
fn near_square_of(random: &mut Random, root: u64) -> f64 {
    let twice = match random.below(4) {
        0 => 2 * (root >> 27 << 27),
        1 => 2 * root,
        _ => 2 * root + 1,
    };
    let square = u128::from(twice) * u128::from(twice);
    let unit = f64::from_bits((1023 - 106) << 52);
    next(square as f64 * unit, random.below(5) as i64 - 2)
}

/// A number from 1 to 4 whose root lies as near as can be to the middle of two neighbours, or
/// almost so.
///
/// In units of 2^-53 of the root, that middle is an odd s of 54 digits, and its square is m * 2^k + c
/// with a small c. So m * 2^k, if m has 53 digits, is a number whose root is c / (2 * s) less. Such
/// an s is a root of c by the remainders modulo 2^k, which there are of each c that leaves 1 by 8.
fn beside_middle(random: &mut Random) -> f64 {
    loop {
        let (k, unit) = match random.below(2) {
            0 => (54, 1023 - 52),
            _ => (55, 1023 - 51),
        };
        let c = 1 + 8 * ((random.bits() as i64) >> (34 + random.below(30)));
        let s = remainder_root(random, c as u64, k);
        let square = i128::from(s) * i128::from(s) - i128::from(c);
        assert!(square % (1 << k) == 0, "{s} is no root of {c}");
        let m = (square >> k) as u64;
        if m >> 52 == 1 {
            return m as f64 * f64::from_bits(unit << 52);
        }
    }
}

/// Such a number from 1 to 2.
fn beside_middle_within(random: &mut Random) -> f64 {
    loop {
        let a = beside_middle(random);
        if a < 2.0 {
            return a;
        }
    }
}

/// From 2^53 to 2^54, with a square that leaves c modulo 2^k; k is 54 or 55, and c leaves 1 by 8.
fn remainder_root(random: &mut Random, c: u64, k: u32) -> i64 {
    // 1 / √c by Newton's steps, each of which nearly doubles the digits that are right
    let mut y = 1_u64;
    for _ in 0..6 {
        let rest = 3_u64.wrapping_sub(c.wrapping_mul(y).wrapping_mul(y));
        y = y.wrapping_mul(rest / 2);
    }
    let s = c.wrapping_mul(y);
    let s = if random.below(2) == 0 {
        s
    } else {
        s.wrapping_neg()
    };
    let s = s % (1 << 54);
    // modulo 2^54 the square stays if 2^53 is added, modulo 2^55 if the sign is turned
    let s = match (s >> 53, k) {
        (1, _) => s,
        (_, 54) => s + (1 << 53),
        _ => (1 << 54) - s,
    };
    s as i64
}

/// Every way to a root, at the edges.
fn at_edges() -> [Held; 3] {
    let mut sqrt = Held::new("sqrt, edges");
    let mut near = Held::new("near g: edges");
    let mut by = Held::new("by a guess: edges");
    for x in edges() {
        sqrt.hold_root(x);
        for g in [
            plain_root(x),
            x,
            1.0,
            0.0,
            -1.0,
            5e-324,
            f64::MAX,
            f64::INFINITY,
            f64::NAN,
        ] {
            near.hold_near(x, x, g);
            near.hold_near(x, g * g, g);
            near.hold_near(g * g, x, g);
        }
        for guess in guesses(x).into_iter().chain([plain_root(x), x]) {
            by.hold_by(x, guess);
        }
        for guess in EDGE_GUESSES {
            by.hold_by(x, guess);
        }
        by.hold(x, root_guessed(x), 0.0);
    }
    [sqrt, near, by]
}

/// Each exponent with the least and the greatest digits, among them the zeros, the infinities and
/// NaNs; and the powers of two below the normal numbers; of both signs.
fn edges() -> Vec<f64> {
    let fields =
        (0..=2047_u64).flat_map(|e| [0, 1, 2, (1 << 52) - 2, (1 << 52) - 1].map(|d| (e << 52) | d));
    let powers = (0..52).flat_map(|k| [(1_u64 << k) - 1, 1 << k, (1 << k) + 1]);
    fields
        .chain(powers)
        .flat_map(|bits| [bits, bits | (1 << 63)])
        .map(f64::from_bits)
        .collect()
}
