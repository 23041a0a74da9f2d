//! What stands in the lent places before a job.

/// The first is a plain mark. Then bits that a job has to leave alone, though a step of arithmetic
/// would change them: NaNs that signal and NaNs that do not, of either sign, with payloads. No
/// entry here or below is zero, so that a place set to zero is seen.
const NUMBERS: [u64; 16] = [
    0xc01d_0000_0000_0000, // −7.25
    0x7ff0_0000_0000_0001, // signalling, from here
    0x7ff7_ffff_ffff_ffff,
    0x7ff4_0000_dead_beef,
    0xfff0_0000_0000_0001,
    0xfff5_5555_5555_5555,
    0x7ff8_0000_0000_0000, // quiet, from here
    0x7ff8_0000_0000_0001,
    0x7fff_ffff_ffff_ffff,
    0xfff8_0000_0000_0000,
    0xfffa_aaaa_aaaa_aaaa,
    0x7ff0_0000_0000_0000, // infinities
    0xfff0_0000_0000_0000,
    0x8000_0000_0000_0000, // −0
    0x0000_0000_0000_0001, // the least number above zero
    0x3ff8_0000_0000_0000, // 1.5
];

const FLAGS: [u8; 4] = [0xa5, 0x01, 0xff, 0x02];

const INDEXES: [u32; 4] = [0xdead_beef, 0x0000_0001, 0xffff_ffff, 0x8000_0000];

const ORIGINS: [u32; 4] = [0xcafe_f00d, 0xffff_fffe, 0x0000_0002, 0x7fff_ffff];

/// A pattern: each place holds the entry `start`, or each the one after its neighbour's.
#[derive(Debug, Copy, Clone, PartialEq, Eq)]
pub struct Before {
    start: usize,
    step: usize,
}

impl Before {
    /// The same mark in each place of a kind.
    pub const MARKS: Self = Self::pattern(0);

    pub const PATTERNS: usize = 2 * NUMBERS.len();

    pub const fn pattern(number: usize) -> Self {
        Self {
            start: number % NUMBERS.len(),
            step: number / NUMBERS.len(),
        }
    }

    /// A pattern by the bits of a job.
    pub fn by<'a>(closed: bool, numbers: impl Iterator<Item = &'a f64>) -> Self {
        let mixed = numbers.fold(u64::from(closed), |mixed, number| {
            (mixed.rotate_left(5) ^ number.to_bits()).wrapping_mul(0x9e37_79b9_7f4a_7c15)
        });
        Self::pattern((mixed >> 32) as usize % Self::PATTERNS)
    }

    /// Another pattern, so many after this one.
    pub fn after(self, count: usize) -> Self {
        Self::pattern((self.which() + count) % Self::PATTERNS)
    }

    /// Which pattern this is.
    pub fn which(self) -> usize {
        self.start + self.step * NUMBERS.len()
    }

    /// The bits of a number.
    pub fn number(self, place: usize) -> u64 {
        NUMBERS[(self.start + self.step * place) % NUMBERS.len()]
    }

    pub fn flag(self, place: usize) -> u8 {
        FLAGS[(self.start + self.step * place) % FLAGS.len()]
    }

    pub fn index(self, place: usize) -> u32 {
        INDEXES[(self.start + self.step * place) % INDEXES.len()]
    }

    pub fn origin(self, place: usize) -> u32 {
        ORIGINS[(self.start + self.step * place) % ORIGINS.len()]
    }
}
