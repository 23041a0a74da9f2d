//! What a record may hold that no call has left there.

use crate::generate::Random;

/// In how many ways a record is filled.
pub const WAYS: usize = 8;

/// So many of a record's words, the first, are those of its numbers.
const OF_NUMBERS: usize = 80;

/// Numbers that a record's words may well be tested for.
const ODD: [u32; 12] = [
    0,
    1,
    2,
    3,
    9,
    4095,
    4096,
    4097,
    12_288,
    u32::MAX,
    0x7ff0_0000,
    0x7ff8_0000,
];

/// A word for that at a place, by the way that the whole record is filled in.
pub fn word(random: &mut Random, way: usize, place: usize, old: u32) -> u32 {
    let any = random.bits();
    let odd = random.pick(&ODD);
    let seldom = any >> 40 & 15 == 0;
    let is_number = place < OF_NUMBERS;
    match way {
        0 => any as u32,
        1 => odd,
        2 if seldom => odd,
        3 if seldom => old ^ 1 << (any & 31),
        4 if seldom => any as u32,
        5 => u32::MAX,
        6 if is_number => any as u32,
        7 if is_number => old,
        6 | 7 => any as u32 % 8,
        _ => old,
    }
}
