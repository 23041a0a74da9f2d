//! 02's 2026-03: two outputs with flags side by side, the settled points with whole answers, and each refusal.

use oracle::side_by_side::{
    Laid, ListLent, Listed, MOST_VERTICES, Other, Output, Pair, PairAnswer, segments, side_by_side,
};

const EQUAL: PairAnswer = [0; 5];
const RAGGED: PairAnswer = [1, 0, 0, 0, 0];
const TOO_MANY: PairAnswer = [2, 0, 0, 0, 0];
const NO_ROOM: PairAnswer = [4, 0, 0, 0, 0];

const MOST: usize = MOST_VERTICES;

/// Bits of a NaN that signals, of one that does not, and of each with the other sign.
const NANS: [u64; 4] = [
    0x7ff0_0000_0000_0001,
    0x7ff8_0000_0000_0000,
    0xfff4_0000_dead_beef,
    0xffff_ffff_ffff_ffff,
];

fn open(vertices: &[[f64; 3]], flags: &[u8]) -> Output {
    Output {
        numbers: vertices.as_flattened().to_vec(),
        closed: false,
        flags: flags.to_vec(),
    }
}

fn closed(vertices: &[[f64; 3]], flags: &[u8]) -> Output {
    Output {
        closed: true,
        ..open(vertices, flags)
    }
}

/// So many vertices at one place, with clear flags.
fn many(vertices: usize, closed: bool) -> Output {
    Output {
        numbers: vec![1.0; 3 * vertices],
        closed,
        flags: vec![0; segments(vertices, closed)],
    }
}

/// With so many numbers and flags more or less.
fn with_more(mut output: Output, numbers: isize, flags: isize) -> Output {
    let numbers = output.numbers.len().checked_add_signed(numbers);
    let flags = output.flags.len().checked_add_signed(flags);
    output.numbers.resize(numbers.expect("so many"), 0.0);
    output.flags.resize(flags.expect("so many"), 0);
    output
}

/// Runs the reference, the other shape and, where it is there, the proved code, which have to leave the same in
/// every place.
fn run(pair: &Pair) -> Listed {
    let listed = pair.run(side_by_side);
    let sides: &[fn([Laid; 2], ListLent) -> PairAnswer] = &[
        |outputs, lent| Other::right().answer(outputs, lent),
        #[cfg(feature = "proved")]
        oracle::proved::side_by_side,
    ];
    for side in sides {
        assert_eq!(pair.run(side), listed);
    }
    listed
}

/// What is answered, with places that stay before what is expected in the list and after it.
fn answered(first: &Output, second: &Output, room: [usize; 2]) -> PairAnswer {
    let pair = Pair::apart(first, second, room);
    let listed = run(&pair);
    let before = Listed::untouched(listed.answer, pair.before(), room);
    let list = listed.answer[2] as usize;
    assert_eq!(listed.numbers[list..], before.numbers[list..]);
    assert_eq!(listed.fields[list..], before.fields[list..]);
    listed.answer
}

/// The list, the vertices that only one has and the marks, told the same with just enough room and with more, and
/// either way round; one place too few of either kind is No. 4, with every place as it was.
#[track_caller]
fn told(first: &Output, second: &Output, list: &[(u32, u8)], only_one: u32, marks: u32) {
    let count = list.len();
    for (first, second) in [(first, second), (second, first)] {
        for room in [[count; 2], [count + 1, count], [count, count + 5], [99; 2]] {
            let pair = Pair::apart(first, second, room);
            let mut expected = Listed::untouched(
                [0, 0, count as u32, only_one, marks],
                pair.before(),
                pair.room,
            );
            for (place, (number, fields)) in list.iter().enumerate() {
                expected.numbers[place] = *number;
                expected.fields[place] = *fields;
            }
            assert_eq!(run(&pair), expected);
        }
        if count > 0 {
            for room in [
                [count - 1, count],
                [count, count - 1],
                [0, 99],
                [99, 0],
                [0; 2],
            ] {
                let pair = Pair::apart(first, second, room);
                let expected = Listed::untouched(NO_ROOM, pair.before(), room);
                assert_eq!(run(&pair), expected);
            }
        }
    }
}

const CORNER: [[f64; 3]; 3] = [[0.0, 0.0, 0.0], [4.0, 0.0, 0.5], [4.0, 1.0, 0.25]];

#[test]
fn equal_outputs_need_no_room() {
    for output in [open(&CORNER, &[0, 1]), closed(&CORNER, &[0, 1, 2])] {
        told(&output, &output, &[], 0, 0);
        for room in [[0; 2], [3, 0]] {
            assert_eq!(run(&Pair::shared(&output, false, room)).answer, EQUAL);
        }
    }
    for vertices in [0, 1, 2, MOST - 1, MOST] {
        for closed in [false, true] {
            let output = many(vertices, closed);
            assert_eq!(answered(&output, &output, [0; 2]), EQUAL);
            assert_eq!(run(&Pair::shared(&output, false, [0; 2])).answer, EQUAL);
        }
    }
}

#[test]
fn each_field_by_itself_and_all_together() {
    let first = closed(&CORNER, &[0, 1, 2]);
    for fields in 1..16_u8 {
        for i in 0..3 {
            let mut second = first.clone();
            for slot in (0..3).filter(|slot| fields >> slot & 1 != 0) {
                second.numbers[3 * i + slot] = 7.0;
            }
            second.flags[i] ^= fields >> 3;
            told(&first, &second, &[(i as u32, fields)], 0, 0);
        }
    }
    let other = closed(&[[9.0; 3]; 3], &[4, 5, 6]);
    told(&first, &other, &[(0, 15), (1, 15), (2, 15)], 0, 0);
}

#[test]
fn the_list_rises_and_leaves_out_equal_vertices() {
    let mut second = open(&CORNER, &[1, 1]);
    second.numbers[7] = 2.0;
    told(&open(&CORNER, &[0, 1]), &second, &[(0, 8), (2, 2)], 0, 0);
}

#[test]
fn zeros_of_unlike_signs_differ() {
    for (slot, field) in [1, 2, 4].into_iter().enumerate() {
        let mut second = open(&[[0.0; 3]], &[]);
        second.numbers[slot] = -0.0;
        told(&open(&[[0.0; 3]], &[]), &second, &[(0, field)], 0, 0);
        told(&second, &second, &[], 0, 0);
    }
}

#[test]
fn numbers_differ_in_any_bit() {
    for bit in 0..64 {
        for (slot, field) in [1, 2, 4].into_iter().enumerate() {
            let first = open(&[[1.5, -2.0, 0.25]], &[]);
            let mut second = first.clone();
            let turned = first.numbers[slot].to_bits() ^ 1 << bit;
            second.numbers[slot] = f64::from_bits(turned);
            told(&first, &second, &[(0, field)], 0, 0);
        }
    }
}

#[test]
fn all_nans_are_one() {
    for one in NANS.map(f64::from_bits) {
        for other in NANS.map(f64::from_bits) {
            told(
                &open(&[[one; 3]], &[]),
                &open(&[[other; 3]], &[]),
                &[],
                0,
                0,
            );
        }
        for number in [0.0, -0.0, 1.0, f64::INFINITY, f64::NEG_INFINITY, f64::MAX] {
            let (nan, number) = (open(&[[one; 3]], &[]), open(&[[number; 3]], &[]));
            told(&nan, &number, &[(0, 7)], 0, 0);
        }
    }
    let [more, less] = [f64::INFINITY, f64::NEG_INFINITY];
    told(
        &open(&[[more; 3]], &[]),
        &open(&[[less; 3]], &[]),
        &[(0, 7)],
        0,
        0,
    );
}

#[test]
fn flags_are_bytes() {
    let output = |flag| open(&CORNER, &[0, flag]);
    for (one, other) in [(1, 2), (0, 255), (254, 255), (0, 128), (2, 3)] {
        told(&output(one), &output(other), &[(1, 8)], 0, 0);
        told(&output(one), &output(one), &[], 0, 0);
    }
}

#[test]
fn no_segment_has_flag_0() {
    let pair = [[0.0; 3], [1.0; 3]];
    told(&closed(&pair, &[0, 1]), &open(&pair, &[0]), &[(1, 8)], 0, 1);
    told(&closed(&pair, &[0, 0]), &open(&pair, &[0]), &[], 0, 1);
    told(&closed(&pair, &[1, 0]), &open(&pair, &[0]), &[(0, 8)], 0, 1);
    told(
        &closed(&pair, &[0, 255]),
        &open(&pair, &[1]),
        &[(0, 8), (1, 8)],
        0,
        1,
    );
    // the shorter one's last vertex has no segment, and the longer one's has
    let three = [[0.0; 3], [1.0; 3], [2.0; 3]];
    told(&open(&three, &[0, 1]), &open(&pair, &[0]), &[(1, 8)], 1, 0);
    told(&open(&three, &[0, 0]), &open(&pair, &[0]), &[], 1, 0);
    told(
        &closed(&pair, &[1, 0]),
        &closed(&pair[..1], &[]),
        &[(0, 8)],
        1,
        0,
    );
}

#[test]
fn the_last_bulge_of_an_open_output_counts() {
    let mut second = open(&CORNER, &[0, 1]);
    second.numbers[8] = -0.25;
    told(&open(&CORNER, &[0, 1]), &second, &[(2, 4)], 0, 0);
    told(
        &open(&[[0.0, 0.0, 1.0]], &[]),
        &open(&[[0.0; 3]], &[]),
        &[(0, 4)],
        0,
        0,
    );
}

#[test]
fn vertices_that_only_one_has_are_counted_alone() {
    let none = open(&[], &[]);
    told(&none, &open(&CORNER, &[1, 1]), &[], 3, 0);
    told(&none, &closed(&[], &[]), &[], 0, 1);
    told(&none, &closed(&CORNER, &[1, 1, 1]), &[], 3, 1);
    let mut other = CORNER;
    other[0][0] = -0.0;
    told(
        &open(&CORNER[..2], &[0]),
        &open(&other, &[0, 1]),
        &[(0, 1), (1, 8)],
        1,
        0,
    );
    assert_eq!(
        answered(&none, &many(MOST, true), [0; 2]),
        [0, 0, 0, MOST as u32, 1]
    );
}

#[test]
fn marks_alone_differ() {
    told(
        &open(&[[1.0; 3]], &[]),
        &closed(&[[1.0; 3]], &[]),
        &[],
        0,
        1,
    );
    told(
        &open(&CORNER, &[0, 1]),
        &closed(&CORNER, &[0, 1, 0]),
        &[],
        0,
        1,
    );
    let shared = Pair::shared(&closed(&CORNER, &[0, 1, 2]), true, [1; 2]);
    let listed = run(&shared);
    assert_eq!(listed.answer, [0, 0, 1, 0, 1]);
    assert_eq!((listed.numbers[0], listed.fields[0]), (2, 8));
}

/// Each way to be ragged, beside an output that is not, as the first and as the second.
#[test]
fn ragged_outputs_are_refused() {
    let good = open(&CORNER, &[0, 1]);
    let mut ragged = vec![
        open(&[[1.0; 3]], &[0]),
        closed(&[[1.0; 3]], &[0]),
        open(&[], &[0]),
        closed(&[], &[0]),
        open(&CORNER, &[0, 1, 0]),
        open(&CORNER, &[0]),
        open(&CORNER, &[]),
        closed(&CORNER, &[0, 1]),
        closed(&CORNER, &[0, 1, 2, 3]),
        open(&CORNER[..2], &[]),
        closed(&CORNER[..2], &[0]),
    ];
    for numbers in [-2, -1, 1, 2] {
        for flags in [-1, 0, 1] {
            ragged.push(with_more(closed(&CORNER, &[0, 1, 2]), numbers, flags));
            ragged.push(with_more(open(&CORNER, &[0, 1]), numbers, flags));
        }
    }
    ragged.push(with_more(open(&[], &[]), 1, 0));
    ragged.push(with_more(closed(&[], &[]), 2, 0));
    for ragged in &ragged {
        for room in [[0; 2], [9; 2]] {
            assert_eq!(answered(ragged, &good, room), RAGGED);
            assert_eq!(answered(&good, ragged, room), RAGGED);
            assert_eq!(answered(ragged, ragged, room), RAGGED);
            assert_eq!(run(&Pair::shared(ragged, false, room)).answer, RAGGED);
        }
    }
}

#[test]
fn too_many_vertices_are_refused() {
    let few = many(2, false);
    for closed in [false, true] {
        for (vertices, number) in [(MOST - 1, 0), (MOST, 0), (MOST + 1, 2), (65_536, 2)] {
            let long = many(vertices, closed);
            for (first, second) in [(&long, &few), (&few, &long), (&long, &long)] {
                assert_eq!(answered(first, second, [1; 2])[0], number);
            }
            assert_eq!(run(&Pair::shared(&long, false, [0; 2])).answer[0], number);
        }
    }
    assert_eq!(answered(&many(MOST + 1, true), &few, [9; 2]), TOO_MANY);
}

#[test]
fn the_first_is_refused_before_the_second() {
    let (long, few) = (many(MOST + 1, false), many(2, false));
    let ragged = with_more(many(2, false), 1, 0);
    let ragged_flags = with_more(many(2, false), 0, 1);
    for ragged in [&ragged, &ragged_flags] {
        assert_eq!(answered(&long, ragged, [0; 2]), TOO_MANY);
        assert_eq!(answered(ragged, &long, [0; 2]), RAGGED);
        assert_eq!(answered(&few, ragged, [0; 2]), RAGGED);
    }
    // of one output, ragged comes first
    for (numbers, flags) in [(1, 0), (2, 0), (0, 1), (0, -1), (0, -12_288)] {
        let both = with_more(long.clone(), numbers, flags);
        assert_eq!(answered(&both, &few, [0; 2]), RAGGED);
        assert_eq!(answered(&few, &both, [0; 2]), RAGGED);
        assert_eq!(answered(&both, &long, [0; 2]), RAGGED);
        assert_eq!(answered(&long, &both, [0; 2]), TOO_MANY);
    }
}

#[test]
fn room_comes_last() {
    let (first, other) = (open(&CORNER, &[0, 1]), open(&[[9.0; 3]; 3], &[1, 0]));
    assert_eq!(answered(&first, &other, [0; 2]), NO_ROOM);
    assert_eq!(
        answered(&first, &with_more(other.clone(), 0, 1), [0; 2]),
        RAGGED
    );
    assert_eq!(answered(&first, &with_more(other, 1, 0), [0; 2]), RAGGED);
    let mut long = many(MOST + 1, false);
    long.numbers.fill(9.0);
    assert_eq!(answered(&first, &long, [0; 2]), TOO_MANY);
    assert_eq!(answered(&long, &first, [0; 2]), TOO_MANY);
}

#[test]
fn a_list_of_all_vertices() {
    for closed in [false, true] {
        let first = many(MOST, closed);
        let mut second = first.clone();
        second.numbers.iter_mut().step_by(3).for_each(|x| *x = 2.0);
        for room in [[MOST - 1, MOST], [MOST, MOST - 1]] {
            assert_eq!(answered(&first, &second, room), NO_ROOM);
        }
        let listed = run(&Pair::apart(&first, &second, [MOST; 2]));
        assert_eq!(listed.answer, [0, 0, MOST as u32, 0, 0]);
        let numbers: Vec<u32> = (0..MOST as u32).collect();
        assert_eq!(listed.numbers[..MOST], numbers);
        assert_eq!(listed.fields[..MOST], vec![1; MOST]);
    }
}
