//! The proved functions, and what the programs here share.

pub mod beside;
pub mod drawings;

// Any numbers may be handed to these.
unsafe extern "C" {
    safe fn layers_sqrt(x: f64) -> f64;
    safe fn layers_roots_near(x: f64, y: f64, g: f64, out: &mut [f64; 2]);
    safe fn layers_sqrt_by(a: f64, g: f64) -> f64;
    safe fn layers_sqrt_guessed(a: f64) -> f64;
    safe fn layers_guess(a: f64, out: &mut [f64; 3]);
}

/// What stands where roots or guesses are handed back, before a call. It is neither.
const BEFORE: f64 = -7.25;

/// The proved square root, `floats::sqrt`. The archive is not inlined, so this is a call.
pub fn proved_root(x: f64) -> f64 {
    layers_sqrt(x)
}

/// The proved roots of x and y, looked for near g: `floats::roots_near`.
pub fn roots_near(x: f64, y: f64, g: f64) -> [f64; 2] {
    let mut roots = [BEFORE; 2];
    layers_roots_near(x, y, g, &mut roots);
    roots
}

/// The proved root of a by a guess, `floats::sqrt_by`, which is good if it is about √a.
pub fn root_by(a: f64, guess: f64) -> f64 {
    layers_sqrt_by(a, guess)
}

/// The same by the first of its own guesses.
pub fn root_guessed(a: f64) -> f64 {
    layers_sqrt_guessed(a)
}

/// The guesses at the root of a = 1 + x * x, and at those for what x is halved to once and twice:
/// `floats::guess`.
pub fn guesses(a: f64) -> [f64; 3] {
    let mut guesses = [BEFORE; 3];
    layers_guess(a, &mut guesses);
    guesses
}

/// Rust's square root, which is the processor's.
pub fn plain_root(x: f64) -> f64 {
    x.sqrt()
}

/// Equal bit for bit, or both a NaN: the sign and the digits of a NaN are nobody's promise.
pub fn same(a: f64, b: f64) -> bool {
    a.to_bits() == b.to_bits() || (a.is_nan() && b.is_nan())
}

/// Random numbers by xorshift64*: the same ones for the same seed.
pub struct Random(u64);

impl Random {
    pub fn new(seed: u64) -> Self {
        // xorshift stays at 0
        Random(seed.wrapping_mul(2).wrapping_add(1))
    }

    /// From 0 to 1, without 1.
    pub fn part(&mut self) -> f64 {
        (self.bits() >> 11) as f64 / (1_u64 << 53) as f64
    }

    /// A whole number below `count`.
    pub fn below(&mut self, count: u64) -> u64 {
        (self.bits() >> 32) % count
    }

    pub fn pick(&mut self, numbers: &[f64]) -> f64 {
        numbers[self.below(numbers.len() as u64) as usize]
    }

    /// From 2^low to 2^(low + count), every exponent alike.
    pub fn size(&mut self, low: i64, count: u64) -> f64 {
        let exponent = (1023 + low) as u64 + self.below(count);
        f64::from_bits((exponent << 52) | (self.bits() >> 12))
    }

    pub fn bits(&mut self) -> u64 {
        self.0 ^= self.0 >> 12;
        self.0 ^= self.0 << 25;
        self.0 ^= self.0 >> 27;
        self.0.wrapping_mul(0x2545_f491_4f6c_dd1d)
    }
}
