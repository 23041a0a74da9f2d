//! Jobs in columns made from others: unequal columns, bad numbers in any of them, columns that share places;
//! and what they are lent.

use super::Random;
use super::families::nan;
use crate::columns::{ColumnPlaces, Columns};
use std::array;
use std::ops::Range;

/// The largest x, y and bulge.
const LIMITS: [f64; 3] = [1e6, 1e6, 1e9];

/// No tolerances.
pub(super) const BAD_EPS: [f64; 5] = [1e-9_f64.next_down(), 0.01_f64.next_up(), f64::NAN, 0.0, 1.0];

/// No ratios.
pub(super) const BAD_RATIOS: [f64; 5] = [
    1.0_f64.next_down(),
    10.0_f64.next_up(),
    f64::NAN,
    -2.0,
    f64::INFINITY,
];

/// A number outside ±`limit`: a NaN, an infinity, the next double or one far off.
pub(super) fn outside(random: &mut Random, limit: f64) -> f64 {
    match random.below(4) {
        0 => nan(random),
        1 => random.sign() * f64::INFINITY,
        2 => random.sign() * limit.next_up(),
        _ => random.sign() * limit * random.size(0.1, 3.0),
    }
}

/// The job with so many bad numbers, no two in one column or of one vertex.
pub fn with_bad_numbers(random: &mut Random, job: &Columns, count: usize) -> Columns {
    let mut lists = job.lists();
    let first = random.below(3);
    let mut taken = Vec::new();
    for k in (0..count).map(|i| (first + i) % 3) {
        let free = (0..lists[k].len()).filter(|i| !taken.contains(i));
        let free: Vec<usize> = free.collect();
        if !free.is_empty() {
            let place = random.pick(&free);
            lists[k][place] = outside(random, LIMITS[k]);
            taken.push(place);
        }
    }
    job.with_columns(&lists)
}

/// The job with some of its offset, ε and ratio bad, one at least.
pub fn with_bad_settings(random: &mut Random, job: &Columns) -> Columns {
    let mut job = job.clone();
    let which = 1 + random.below(7);
    if which & 1 != 0 {
        job.offset = outside(random, 1e6);
    }
    if which & 2 != 0 || job.ratio.is_none() && which == 4 {
        job.eps = random.pick(&BAD_EPS);
    }
    if which & 4 != 0 {
        job.ratio = job.ratio.map(|_| random.pick(&BAD_RATIOS));
    }
    job
}

/// The job with columns of unequal length: one or two of them longer or shorter, by one or by more.
pub fn ragged(random: &mut Random, job: &Columns) -> Columns {
    let mut lists = job.lists();
    let first = random.below(3);
    for k in (first..=first + random.below(2)).map(|k| k % 3) {
        let by = random.pick(&[1, 1, 1, 2, 3, 3 + lists[k].len() / 2]);
        let more = random.one_in(2);
        let length = lists[k].len();
        let length = if more {
            length + by
        } else {
            length.saturating_sub(by)
        };
        lists[k].resize_with(length, || random.around(1.0));
    }
    if lists.iter().all(|list| list.len() == lists[0].len()) {
        lists[first].push(random.around(1.0));
    }
    job.with_columns(&lists)
}

/// A job whose columns share places of one list, some or all.
pub fn sharing(random: &mut Random, job: &Columns) -> Columns {
    let [xs, ys, bulges] = job.source();
    let v = xs.len().min(ys.len()).min(bulges.len());
    let numbers = [&xs[..v], &ys[..v]].concat();
    let first = random.below(v + 1);
    let near = [first, first.saturating_sub(1), (first + 1).min(v)];
    let start = |random: &mut Random| match random.below(3) {
        0 => random.below(v + 1),
        _ => random.pick(&near),
    };
    let at: [Range<usize>; 3] = array::from_fn(|_| {
        let start = start(random);
        start..start + v
    });
    Columns {
        numbers,
        at,
        ..*job
    }
}

/// So many places and some more, of each kind by itself.
pub fn more(random: &mut Random, places: usize) -> ColumnPlaces {
    let most = random.pick(&[3, 5, 5, 40]);
    array::from_fn(|_| places + random.below(most))
}

/// The same, with one place of a kind too few.
pub fn one_too_few(random: &mut Random, places: usize, kind: usize) -> ColumnPlaces {
    let mut room = more(random, places);
    room[kind] = places.saturating_sub(1);
    room
}

/// The same, with any number too few of some kinds, one at least.
pub fn far_too_few(random: &mut Random, places: usize) -> ColumnPlaces {
    let which = 1 + random.below(63);
    let any = random.below(places + 1);
    let few = random.pick(&[0, 1, 2, any, any]).min(places);
    let mut room = more(random, places);
    for (kind, room) in room.iter_mut().enumerate() {
        if which >> kind & 1 != 0 {
            *room = few;
        }
    }
    room
}
