//! Origins that no job has, to be asked for parts.

use oracle::generate::Random;
use oracle::part::Output;

/// No code names a source segment from here on.
pub const PAST_CODES: u32 = 1 << 31;

/// A made-up output, and which source segments it is asked for.
#[derive(Debug, Clone, PartialEq)]
pub struct Made {
    n: u32,
    flags: Vec<u8>,
    origins: Vec<u32>,
    pub sources: Vec<u32>,
}

impl Made {
    /// Runs of one to three segments of a few sources, mostly broken, with any flags; at times a flag too
    /// many or too few.
    pub fn up(random: &mut Random) -> Self {
        let named: Vec<u32> = (0..=random.below(3)).map(|_| source(random)).collect();
        let runs = if random.one_in(50) {
            random.below(200)
        } else {
            random.below(8)
        };
        let origins: Vec<u32> = (0..runs).flat_map(|_| run(random, &named)).collect();
        let flags = if random.one_in(6) {
            random.below(2 * origins.len() + 2)
        } else {
            origins.len()
        };
        let n = limit(random, &named);
        Self {
            n,
            flags: (0..flags).map(|_| random.bits() as u8).collect(),
            origins,
            sources: named.iter().flat_map(|s| near(*s)).chain(at(n)).collect(),
        }
    }

    pub fn output(&self) -> Output<'_> {
        Output {
            n: self.n,
            flags: &self.flags,
            origins: &self.origins,
        }
    }
}

/// A source segment that a code can name.
fn source(random: &mut Random) -> u32 {
    match random.below(8) {
        0..=4 => random.below(4) as u32,
        5 => PAST_CODES - 1 - random.below(3) as u32,
        6 => PAST_CODES / 2 - 1 + random.below(3) as u32,
        _ => random.below(PAST_CODES as usize) as u32,
    }
}

/// Up to three segments of one source, spans and connectors.
fn run(random: &mut Random, named: &[u32]) -> Vec<u32> {
    let source = random.pick(named);
    let segments = 0..=random.below(3);
    segments
        .map(|_| 2 * source + random.below(2) as u32)
        .collect()
}

/// How many source segments there are said to be: of a source that is named, one too few or just
/// enough, or any.
fn limit(random: &mut Random, named: &[u32]) -> u32 {
    let source = random.pick(named);
    match random.below(8) {
        0 => 0,
        1 => source,
        2 => source + 1,
        3 => PAST_CODES,
        4 => PAST_CODES + 1 + source,
        _ => u32::MAX,
    }
}

/// A source, its neighbours, and the one whose code would be the same if it could be doubled.
fn near(source: u32) -> [u32; 4] {
    let before = source.saturating_sub(1);
    [before, source, source + 1, source + PAST_CODES]
}

/// The last source below n, and the first that is not.
fn at(n: u32) -> [u32; 2] {
    [n.saturating_sub(1), n]
}
