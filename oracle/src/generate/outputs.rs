//! Pairs of outputs with flags to lay side by side, 02's 2026-03: most of the second ones are the first with few
//! changes.

mod changes;
mod limits;

use super::Random;
use crate::side_by_side::{Output, Pair, differing};
pub use changes::turned;
use changes::{changed, differ_at};
pub use limits::{each_limit_pair, each_short_pair};

/// Numbers that are often alike, by their bits.
const PLAIN: [u64; 10] = [
    0x0000_0000_0000_0000,
    0x8000_0000_0000_0000, // −0
    0x3ff0_0000_0000_0000, // 1
    0x3ff0_0000_0000_0001,
    0xbff0_0000_0000_0000, // −1
    0x4004_0000_0000_0000, // 2.5
    0x4004_0000_0000_0400,
    0x412e_8480_0000_0000, // a million
    0x3e11_2e0b_e826_d695, // a millionth of a thousandth
    0x4059_0000_0000_0000, // 100
];

/// Bits that no done job has, or few: NaNs of either sign, with payloads, infinities, the ends of the range.
const WILD: [u64; 14] = [
    0x7ff8_0000_0000_0000,
    0xfff8_0000_0000_0000,
    0x7ff0_0000_0000_0001,
    0xfff4_0000_dead_beef,
    0x7fff_ffff_ffff_ffff,
    0x7ff8_0000_0000_0001,
    0x7ff0_0000_0000_0000,
    0xfff0_0000_0000_0000,
    0x0000_0000_0000_0001,
    0x8000_0000_0000_0001,
    0x000f_ffff_ffff_ffff,
    0x0010_0000_0000_0000,
    0x7fef_ffff_ffff_ffff,
    0xffef_ffff_ffff_ffff,
];

const FLAGS: [u8; 8] = [0, 0, 0, 1, 1, 2, 3, 255];

/// One random pair in so many is of some ten thousand vertices.
const PER_LONG: usize = 20_000;

/// A number, of the plain ones or any; in a wild output some of the others.
fn number(random: &mut Random, wild: bool) -> f64 {
    match random.below(8) {
        0 => random.around(10.0),
        1 | 2 if wild => f64::from_bits(random.pick(&WILD)),
        _ => f64::from_bits(random.pick(&PLAIN)),
    }
}

fn flag(random: &mut Random) -> u8 {
    match random.below(16) {
        0 => random.bits() as u8,
        _ => random.pick(&FLAGS),
    }
}

/// An output of so many vertices that is not ragged.
fn output(random: &mut Random, vertices: usize) -> Output {
    let wild = random.one_in(4);
    let mut output = Output {
        numbers: (0..3 * vertices).map(|_| number(random, wild)).collect(),
        closed: random.one_in(2),
        flags: Vec::new(),
    };
    let flags = output.laid().segments();
    let clear = random.one_in(4);
    output.flags = (0..flags)
        .map(|_| if clear { 0 } else { flag(random) })
        .collect();
    output
}

fn length(random: &mut Random) -> usize {
    if random.one_in(PER_LONG) {
        return 12_280 + random.below(16);
    }
    match random.below(200) {
        0 => 100 + random.below(500),
        1..=60 => random.below(4),
        61..=130 => random.below(10),
        _ => random.below(41),
    }
}

/// A random pair, with the name of its family.
pub fn pair(random: &mut Random) -> (&'static str, Pair) {
    let vertices = length(random);
    let mut first = output(random, vertices);
    match random.below(32) {
        0 => {
            let pair = Pair::shared(&first, random.one_in(2), [0; 2]);
            return ("in the same places", lent(random, pair));
        }
        1 => {
            let later = [random.pick(&[0, 1, 2, 3, 3, 6]), random.below(3)];
            let pair = Pair::overlapping(&first, later, random.one_in(2), [0; 2]);
            return ("with places of both", lent(random, pair));
        }
        _ => {}
    }
    let mut second = second_of(random, &first);
    for _ in 0..random.pick(&[0, 0, 0, 1, 1, 3]) {
        differ_at(random, &mut first, &mut second);
    }
    let family = match random.below(8) {
        0 => {
            let which = 1 + random.below(3);
            if which & 1 != 0 {
                ragged(random, &mut first);
            }
            if which & 2 != 0 {
                ragged(random, &mut second);
            }
            "ragged"
        }
        _ => "random",
    };
    (family, lent(random, Pair::apart(&first, &second, [0; 2])))
}

/// The same output with changes, or another, of the same length or not.
fn second_of(random: &mut Random, first: &Output) -> Output {
    let vertices = match random.below(24) {
        0 => first.vertices(),
        1 => length(random),
        _ => return changed(random, first),
    };
    output(random, vertices)
}

/// Numbers or flags of another count, or both.
fn ragged(random: &mut Random, output: &mut Output) {
    let which = random.below(4);
    if which != 1 {
        let more = random.pick(&[0, 1, 1, 2]);
        let numbers = output.numbers.len();
        match random.below(2) {
            0 => output.numbers.resize(numbers + more, 1.0),
            _ => output.numbers.truncate(numbers.saturating_sub(more)),
        }
        if random.one_in(2) {
            // the flags of the vertices that there are
            output.fit_flags();
        }
    }
    if which != 0 {
        let flags = output.flags.len();
        let any = random.below(2 * flags + 3);
        let count = random.pick(&[flags + 1, flags.saturating_sub(1), 0, flags + 2, any]);
        let byte = flag(random);
        output.flags.resize(count, byte);
    }
}

/// Places for the list: just enough, one or any too few of either kind or of both, none, or plenty.
fn lent(random: &mut Random, pair: Pair) -> Pair {
    let list = differing(pair.outputs()).len();
    let less = list.saturating_sub(1);
    let any = random.below(list + 1);
    let more = list + random.below(6);
    let room = match random.below(16) {
        0..=3 => [list; 2],
        4 => [less, list],
        5 => [list, less],
        6 => [less, more],
        7 => [more, less],
        8 => [less; 2],
        9 => [0; 2],
        10 => [any, list + random.below(4)],
        11 => [list + random.below(4), any],
        12 => [list, more],
        13 => [more, list],
        _ => [more + 1, more + random.below(40)],
    };
    Pair { room, ..pair }
}
