//! Pairs at the limits, and all pairs of short outputs over few numbers.

use crate::side_by_side::{Output, Pair, differing, segments};

const MOST: usize = crate::side_by_side::MOST_VERTICES;

/// Lengths at each limit.
const LENGTHS: [usize; 5] = [0, 1, 2, MOST, MOST + 1];

/// How many numbers and flags there are over or too few.
const RAGGED: [[isize; 2]; 4] = [[0, 0], [1, 0], [0, 1], [0, -1]];

/// An output of so many vertices on a line, flagged by turns.
fn line(vertices: usize, closed: bool) -> Output {
    let numbers = (0..vertices).flat_map(|i| [i as f64, -0.0, 0.5]);
    let flags = (0..segments(vertices, closed)).map(|i| u8::from(i % 3 == 1));
    Output {
        numbers: numbers.collect(),
        closed,
        flags: flags.collect(),
    }
}

/// With so many numbers and flags more or less, if there are as many.
fn with_more(mut output: Output, [numbers, flags]: [isize; 2]) -> Output {
    let numbers = output.numbers.len().checked_add_signed(numbers);
    let flags = output.flags.len().checked_add_signed(flags);
    output.numbers.resize(numbers.unwrap_or(0), 1.0);
    output.flags.resize(flags.unwrap_or(0), 1);
    output
}

/// Each length beside each, ragged or not in each way, open and closed.
pub fn each_limit_pair(mut take: impl FnMut(&Pair)) {
    let mut outputs = vec![line(MOST - 1, false), line(MOST - 1, true)];
    for vertices in LENGTHS {
        for closed in [false, true] {
            for more in RAGGED {
                outputs.push(with_more(line(vertices, closed), more));
            }
        }
    }
    for first in &outputs {
        for (turn, second) in outputs.iter().enumerate() {
            take(&Pair::apart(first, second, [0, turn % 2]));
        }
    }
    each_full_pair(&mut take);
    each_far_pair(take);
}

/// At the most vertices that may be: nothing differs, the first or the last vertex does, or all do.
fn each_full_pair(take: &mut impl FnMut(&Pair)) {
    for closed in [false, true] {
        let full = line(MOST, closed);
        let mut seconds = vec![full.clone(), full.with_other_mark(), line(MOST - 1, closed)];
        for slot in [0, 1, 2, 3 * MOST - 3, 3 * MOST - 2, 3 * MOST - 1] {
            let mut second = full.clone();
            second.numbers[slot] = 7.0;
            seconds.push(second);
        }
        let mut all = full.clone();
        all.numbers.iter_mut().for_each(|number| *number = 9e9);
        seconds.push(all);
        for second in &seconds {
            each_room(&full, second, &mut *take);
            each_room(second, &full, &mut *take);
        }
    }
    for closed in [false, true] {
        take(&Pair::shared(&line(MOST, closed), false, [0; 2]));
        take(&Pair::shared(&line(MOST, closed), true, [1; 2]));
        take(&Pair::shared(&line(MOST + 1, closed), false, [0; 2]));
    }
}

/// Far more vertices than may be, which count to few in 16 bits.
fn each_far_pair(mut take: impl FnMut(&Pair)) {
    for vertices in [1 << 16, (1 << 16) + 2] {
        let far = line(vertices, true);
        take(&Pair::apart(&far, &line(2, true), [9; 2]));
        take(&Pair::apart(&line(2, true), &far, [9; 2]));
        take(&Pair::shared(&far, false, [0; 2]));
    }
}

/// Just enough for the list, and one too few of either kind.
fn each_room(first: &Output, second: &Output, mut take: impl FnMut(&Pair)) {
    let list = differing([first.laid(), second.laid()]).len();
    let less = list.saturating_sub(1);
    for room in [[list; 2], [less, list], [list, less], [list + 2, list + 1]] {
        take(&Pair::apart(first, second, room));
    }
}

/// All pairs of outputs of up to two vertices whose numbers are +0 or −0 and whose flags are 0 or 1, with just
/// enough room or by turns other.
pub fn each_short_pair(mut take: impl FnMut(&Pair)) {
    let outputs: Vec<Output> = (0..=2).flat_map(all).collect();
    let mut turn = 0;
    for first in &outputs {
        for second in &outputs {
            turn += 1;
            let list = differing([first.laid(), second.laid()]).len();
            let room = match turn % 7 {
                0 => [list.saturating_sub(1), list],
                1 => [list, list.saturating_sub(1)],
                2 => [list + 1, list + 2],
                _ => [list; 2],
            };
            take(&Pair::apart(first, second, room));
        }
    }
}

/// All outputs of so many vertices.
fn all(vertices: usize) -> Vec<Output> {
    let mut outputs = Vec::new();
    for closed in [false, true] {
        let (numbers, flags) = (3 * vertices, segments(vertices, closed));
        for which in 0..1_u32 << (numbers + flags) {
            let is_set = |bit: usize| which >> bit & 1 != 0;
            let number = |slot| if is_set(slot) { -0.0 } else { 0.0 };
            outputs.push(Output {
                numbers: (0..numbers).map(number).collect(),
                closed,
                flags: (0..flags).map(|i| is_set(numbers + i).into()).collect(),
            });
        }
    }
    outputs
}
