//! 02's 2026-03: the comparison of outputs tells wrong readings of the request from the right one.

use oracle::generate::Random;
use oracle::generate::outputs::{each_limit_pair, each_short_pair, pair};
use oracle::side_by_side::{
    Laid, ListLent, Other, Pair, PairAnswer, SAME, Tally, WRONG, Wrong, hold, shortened,
    side_by_side,
};
use oracle::text::{pair_row, read_pair};

const RANDOM: usize = 20_000;

/// Pairs of each kind, few of them.
fn each_pair(mut take: impl FnMut(&Pair)) {
    let mut random = Random::new(6);
    for _ in 0..RANDOM {
        take(&pair(&mut random).1);
    }
    each_limit_pair(&mut take);
    each_short_pair(take);
}

fn by(wrong: Wrong) -> impl Fn([Laid; 2], ListLent) -> PairAnswer {
    move |outputs, lent| Other::by(wrong).answer(outputs, lent)
}

fn differs(wrong: Wrong, pair: &Pair) -> bool {
    pair.run(by(wrong)) != pair.run(side_by_side)
}

#[test]
fn shapes_that_agree() {
    let mut tally = Tally::default();
    each_pair(|pair| {
        let difference = hold(by(Wrong::Nothing), pair, &mut tally);
        assert_eq!(difference, None, "{}", pair_row(pair));
    });
}

#[test]
fn wrong_readings_are_told() {
    let mut untold: Vec<Wrong> = WRONG.iter().map(|wrong| wrong.0).collect();
    each_pair(|pair| {
        let expected = pair.run(side_by_side);
        untold.retain(|wrong| pair.run(by(*wrong)) == expected);
    });
    let same: Vec<Wrong> = SAME.iter().map(|same| same.0).collect();
    assert_eq!(untold, same);
    assert!(WRONG.len() - SAME.len() >= 100);
}

/// Each is told by few random pairs, but for those that only long outputs tell.
#[test]
fn random_pairs_tell_most_of_them() {
    let mut untold: Vec<Wrong> = WRONG.iter().map(|wrong| wrong.0).collect();
    untold.retain(|wrong| SAME.iter().all(|same| same.0 != *wrong));
    let mut random = Random::new(7);
    for _ in 0..RANDOM {
        let pair = pair(&mut random).1;
        if pair.numbers.len() < 5000 {
            let expected = pair.run(side_by_side);
            untold.retain(|wrong| pair.run(by(*wrong)) == expected);
        }
    }
    let long = [
        Wrong::RaggedBothFirst,
        Wrong::LongFirst,
        Wrong::LongBothFirst,
        Wrong::SecondFirst,
        Wrong::FlagsAfterLong,
        Wrong::FlagsLast,
        Wrong::LongUntested,
        Wrong::LongUntestedSecond,
        Wrong::MostOut,
        Wrong::MostMore,
        Wrong::MostOfSource,
        Wrong::MostOfRound,
        Wrong::LongSegments,
        Wrong::LongSum,
        Wrong::LongWraps,
        Wrong::PlaceVertices,
    ];
    assert_eq!(untold, long);
}

#[test]
fn differing_pairs_are_shortened() {
    // so many vertices tell it
    let readings = [
        (Wrong::ZerosEqual, 2),
        (Wrong::NanByBits, 2),
        (Wrong::OnlyFirst, 1),
        (Wrong::FirstAlone, 4),
        (Wrong::FlagsOfBoth, 3),
    ];
    for (wrong, vertices) in readings {
        let mut random = Random::new(8);
        let mut least = usize::MAX;
        let mut left = 10;
        while left > 0 {
            let pair = pair(&mut random).1;
            if pair.numbers.len() < 300 && differs(wrong, &pair) {
                left -= 1;
                let short = shortened(&pair, |pair| differs(wrong, pair));
                assert!(differs(wrong, &short));
                least = least.min(short.numbers.len() / 3);
            }
        }
        assert_eq!(least, vertices, "{wrong:?}");
    }
}

/// A side that knows equal outputs alone, and one that leaves the first place of a list as it was.
#[test]
fn other_wrong_sides_are_told() {
    let mut told = [0; 2];
    let mut random = Random::new(9);
    let mut tally = Tally::default();
    for _ in 0..1000 {
        let pair = pair(&mut random).1;
        let equal = |_: [Laid; 2], _: ListLent| [0; 5];
        told[0] += usize::from(hold(equal, &pair, &mut tally).is_some());
        let kept = |outputs: [Laid; 2], lent: ListLent| {
            let before = lent.fields.first().copied();
            let fields = &mut *lent.fields;
            let numbers = &mut *lent.numbers;
            let answer = side_by_side(outputs, ListLent { numbers, fields });
            if let (Some(place), Some(before)) = (fields.first_mut(), before) {
                *place = before;
            }
            answer
        };
        told[1] += usize::from(hold(kept, &pair, &mut tally).is_some());
    }
    assert!(told[0] > 700 && told[1] > 300, "{told:?}");
}

#[test]
fn rows_of_text() {
    let mut random = Random::new(10);
    for _ in 0..1000 {
        let row = pair_row(&pair(&mut random).1);
        let read = read_pair(&row).map(|pair| pair_row(&pair));
        assert_eq!(read, Some(row));
    }
    let none = [
        "",
        "outputs",
        "outputs 0 0",
        "outputs 0 0 0 0 0 0 0 0 0 0 0 0",
        "outputs 0 0 2 0 0 0 0 0 0 0 0 0 0",
        "outputs 0 0 0 0 1 0 0 0 0 0 0 0 0",
        "outputs 0 0 0 0 0 0 1 0 0 0 0 0 0",
        "outputs 0 0 0 0 0 0 0 0 0 0 0 0 1",
        "outputs 0 0 0 0 0 0 0 0 0 0 0 0 0 256",
    ];
    for row in none {
        assert!(read_pair(row).is_none(), "{row}");
    }
    assert!(read_pair("outputs 0 0 0 0 0 0 0 0 0 0 0 0 0").is_some());
}
