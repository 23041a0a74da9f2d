//! Where two outputs differ, and what is refused, at its border.

use blidrosk::{
    Compared, Comparison, Corners, Difference, Drawing, Fields, MOST_COMPARED_VERTICES,
    MOST_VERTICES, Output, Refusal, compare, compare_into, segments,
};

const EPS: f64 = 1e-5;

const CORNER: [f64; 9] = [0.0, 0.0, 0.0, 4.0, 0.0, 0.0, 4.0, 1.0, 0.0];

const SQUARE: [f64; 12] = [0.0, 0.0, 0.0, 4.0, 0.0, 0.0, 4.0, 4.0, 0.0, 0.0, 4.0, 0.0];

const X: u8 = 1;
const Y: u8 = 2;
const BULGE: u8 = 4;
const FLAG: u8 = 8;

fn open<'a>(vertices: &'a [f64], flags: &'a [u8]) -> Output<'a> {
    Output {
        vertices,
        flags,
        closed: false,
    }
}

fn closed<'a>(vertices: &'a [f64], flags: &'a [u8]) -> Output<'a> {
    Output {
        vertices,
        flags,
        closed: true,
    }
}

/// Buffers that hold marks of their own, to see what a call changes.
#[derive(Clone, Debug, PartialEq)]
struct Buffers {
    numbers: Vec<u32>,
    fields: Vec<u8>,
}

impl Buffers {
    fn marked(numbers: usize, fields: usize) -> Self {
        Buffers {
            numbers: (0..numbers as u32).map(|i| 0xdead_0000 + i).collect(),
            fields: (0..fields).map(|i| 0xa0 + i as u8 % 16).collect(),
        }
    }

    fn compare(&mut self, a: Output, b: Output) -> Result<Compared, Refusal> {
        compare_into(a, b, &mut self.numbers, &mut self.fields)
    }
}

#[track_caller]
fn assert_refused(a: Output, b: Output, [numbers, fields]: [usize; 2], refusal: Refusal) {
    let mut buffers = Buffers::marked(numbers, fields);
    assert_eq!(buffers.compare(a, b), Err(refusal));
    let before = Buffers::marked(numbers, fields);
    assert_eq!(buffers, before, "a refusal changed a buffer");
}

/// The list, in vectors and in buffers with just enough room, with more and with less, both ways round.
#[track_caller]
fn assert_compared(
    a: Output,
    b: Output,
    list: &[(usize, u8)],
    unmatched: usize,
    closed_differs: bool,
) {
    let listed = |&(vertex, code)| Difference {
        vertex,
        fields: Fields::from_code(code),
    };
    let wanted = Comparison {
        differences: list.iter().map(listed).collect(),
        unmatched,
        closed_differs,
    };
    let count = list.len();
    let counted = Compared {
        differences: count,
        unmatched,
        closed_differs,
    };
    for (a, b) in [(a, b), (b, a)] {
        let comparison = compare(a, b).expect("two outputs");
        assert_eq!(comparison, wanted);
        let equal = list.is_empty() && unmatched == 0 && !closed_differs;
        assert_eq!(comparison.is_equal(), equal);
        for [numbers, fields] in [[count; 2], [count + 1, count], [count, count + 3]] {
            let mut buffers = Buffers::marked(numbers, fields);
            let compared = buffers.compare(a, b).expect("enough room");
            assert_eq!(compared, counted);
            assert_eq!(compared.is_equal(), equal);
            let mut left = Buffers::marked(numbers, fields);
            for (i, &(vertex, code)) in list.iter().enumerate() {
                left.numbers[i] = vertex as u32;
                left.fields[i] = code;
            }
            assert_eq!(buffers, left, "the list, and nothing past it");
        }
        if count > 0 {
            for room in [[count - 1, count], [count, count - 1], [0, 0]] {
                assert_refused(a, b, room, Refusal::NoRoom);
            }
        }
    }
}

#[test]
fn equal_outputs_have_an_empty_list() {
    assert_compared(open(&[], &[]), open(&[], &[]), &[], 0, false);
    assert_compared(closed(&[], &[]), open(&[], &[]), &[], 0, true);
    for count in [1, 2, 3] {
        let vertices = &CORNER[..3 * count];
        let flags = [1, 0, 2];
        let ring = closed(vertices, &flags[..segments(count, true)]);
        assert_compared(ring, ring, &[], 0, false);
        let line = open(vertices, &flags[..segments(count, false)]);
        assert_compared(line, line, &[], 0, false);
    }
}

#[test]
fn each_of_four_is_told() {
    let flags = [0, 1, 0];
    for place in 0..9 {
        let mut other = CORNER;
        other[place] = 9.5;
        let told = [(place / 3, 1 << (place % 3))];
        assert_compared(
            closed(&CORNER, &flags),
            closed(&other, &flags),
            &told,
            0,
            false,
        );
        // the last bulge of an open output too
        let lines = [open(&CORNER, &flags[..2]), open(&other, &flags[..2])];
        assert_compared(lines[0], lines[1], &told, 0, false);
    }
    for (place, flag) in [(0, 1), (1, 0), (1, 2), (1, 0x81), (2, 255)] {
        let mut other = flags;
        other[place] = flag;
        let told = [(place, FLAG)];
        assert_compared(
            closed(&CORNER, &flags),
            closed(&CORNER, &other),
            &told,
            0,
            false,
        );
    }
    let other = [1.0, 0.0, 0.5, 4.0, 1.0, 0.0, 1.0, 4.0, -1.0];
    let told = [(0, X + BULGE), (1, Y + FLAG), (2, X + Y + BULGE + FLAG)];
    assert_compared(
        closed(&CORNER, &flags),
        closed(&other, &[0, 0, 1]),
        &told,
        0,
        false,
    );
}

#[test]
fn a_vertex_that_no_segment_leaves_has_flag_0() {
    let line = &CORNER[..6];
    assert_compared(
        closed(line, &[0, 1]),
        open(line, &[0]),
        &[(1, FLAG)],
        0,
        true,
    );
    assert_compared(closed(line, &[0, 0]), open(line, &[0]), &[], 0, true);
    let longer = open(&CORNER, &[1, 1]);
    assert_compared(longer, open(line, &[1]), &[(1, FLAG)], 1, false);
    assert_compared(longer, closed(&CORNER[..3], &[]), &[(0, FLAG)], 2, true);
}

#[test]
fn vertices_of_one_alone_are_counted_and_not_listed() {
    let flags = [1; 4];
    for count in 0..4 {
        let shorter = closed(&SQUARE[..3 * count], &flags[..segments(count, true)]);
        let flag = (0, FLAG);
        let told: &[(usize, u8)] = if count == 1 { &[flag] } else { &[] };
        assert_compared(shorter, closed(&SQUARE, &flags), told, 4 - count, false);
    }
}

#[test]
fn outputs_may_share_memory() {
    let told = [(0, X), (1, Y), (2, X)];
    assert_compared(
        closed(&SQUARE[..9], &[0; 3]),
        closed(&SQUARE[3..], &[0; 3]),
        &told,
        0,
        false,
    );
}

#[test]
fn numbers_are_compared_by_their_bits_and_nans_are_one() {
    let numbers = [
        0.0,
        -0.0,
        f64::from_bits(1),
        1.0,
        -1.0,
        1.0_f64.next_up(),
        f64::MAX,
        f64::INFINITY,
        f64::NEG_INFINITY,
    ];
    let bits = [0x7ff8 << 48, 0xfff8 << 48, (0x7ff0 << 48) + 1, u64::MAX];
    let nans = bits.map(f64::from_bits);
    let all = [&numbers[..], &nans].concat();
    for (i, &a) in all.iter().enumerate() {
        for (k, &b) in all.iter().enumerate() {
            let equal = i == k || (a.is_nan() && b.is_nan());
            for (place, code) in [X, Y, BULGE].into_iter().enumerate() {
                let (mut one, mut other) = ([5.0; 3], [5.0; 3]);
                (one[place], other[place]) = (a, b);
                let told: &[_] = if equal { &[] } else { &[(0, code)] };
                assert_compared(open(&one, &[]), open(&other, &[]), told, 0, false);
            }
        }
    }
    for bit in 0..64 {
        let other = f64::from_bits(1.5_f64.to_bits() ^ 1 << bit);
        let (a, b) = ([1.5; 3], [1.5, 1.5, other]);
        assert_compared(open(&a, &[]), open(&b, &[]), &[(0, BULGE)], 0, false);
    }
}

#[test]
fn numbers_left_over_and_flags_not_one_a_segment() {
    let numbers = [1.0; 14];
    let flags = [1; 6];
    let good = closed(&SQUARE, &flags[..4]);
    for len in 0..=numbers.len() {
        for flags_len in 0..=flags.len() {
            for shut in [false, true] {
                let output = Output {
                    vertices: &numbers[..len],
                    flags: &flags[..flags_len],
                    closed: shut,
                };
                // as 02 has it: v - 1 open, v closed, none below two
                let needed = match len / 3 {
                    0 | 1 => 0,
                    count => count - usize::from(!shut),
                };
                if len % 3 == 0 && flags_len == needed {
                    assert!(compare(output, good).is_ok() && compare(good, output).is_ok());
                } else {
                    assert_refused(output, good, [4, 4], Refusal::Ragged);
                    assert_refused(good, output, [0, 0], Refusal::Ragged);
                    assert_eq!(compare(output, output), Err(Refusal::Ragged));
                }
            }
        }
    }
}

#[test]
fn the_most_vertices_and_one_more() {
    assert_eq!(MOST_COMPARED_VERTICES, 12288);
    let most = MOST_COMPARED_VERTICES;
    let numbers: Vec<f64> = (0..3 * (most + 1)).map(|i| i as f64).collect();
    let mut turned = numbers.clone();
    turned[3 * most - 1] = -1.0;
    let negative = vec![-1.0; numbers.len()];
    let flags: Vec<u8> = (0..=most).map(|i| u8::from(i % 3 == 0)).collect();
    let mut marked = flags.clone();
    marked[5000] ^= 1;
    marked[most - 1] ^= 1;
    let last = [(most - 1, BULGE)];
    let flagged = [(5000, FLAG), (most - 1, FLAG)];
    let everywhere: Vec<_> = (0..most).map(|i| (i, X + Y + BULGE)).collect();
    let corner = closed(&CORNER, &[0; 3]);
    for shut in [false, true] {
        let of = |numbers, count| of_first(numbers, &flags, count, shut);
        let whole = of(&numbers, most);
        assert_compared(whole, whole, &[], 0, false);
        assert_compared(whole, of(&numbers, 0), &[], most, false);
        assert_compared(whole, of(&turned, most), &last, 0, false);
        // the last vertex of an open output has no flag
        let flagged = &flagged[..1 + usize::from(shut)];
        let other = of_first(&numbers, &marked, most, shut);
        assert_compared(whole, other, flagged, 0, false);
        assert_compared(whole, of(&negative, most), &everywhere, 0, false);

        let more = of(&numbers, most + 1);
        for other in [whole, corner, more] {
            assert_refused(more, other, [most + 1; 2], Refusal::TooMany);
            assert_refused(other, more, [0; 2], Refusal::TooMany);
            assert_eq!(compare(other, more), Err(Refusal::TooMany));
        }
    }
}

/// The first so many vertices with their flags.
fn of_first<'a>(numbers: &'a [f64], flags: &'a [u8], count: usize, closed: bool) -> Output<'a> {
    Output {
        vertices: &numbers[..3 * count],
        flags: &flags[..segments(count, closed)],
        closed,
    }
}

#[test]
fn the_first_output_is_tested_before_the_second() {
    let more = vec![0.5; 3 * (MOST_COMPARED_VERTICES + 1) + 1];
    let flags = vec![0; MOST_COMPARED_VERTICES + 1];
    let many = closed(&more[..more.len() - 1], &flags);
    let left_over = closed(&CORNER[..8], &flags[..2]);
    let no_flags = closed(&CORNER, &[]);
    let good = closed(&CORNER, &flags[..3]);
    // both of one output
    let many_left_over = closed(&more, &flags);
    let many_no_flags = closed(many.vertices, &flags[1..]);
    let ragged = [left_over, no_flags, many_left_over, many_no_flags];
    for ragged in ragged {
        for other in [good, many, left_over, no_flags] {
            assert_refused(ragged, other, [3, 3], Refusal::Ragged);
        }
        assert_refused(good, ragged, [3, 3], Refusal::Ragged);
        assert_refused(many, ragged, [3, 3], Refusal::TooMany);
    }
    // then room
    let other = closed(&SQUARE[3..], &flags[..3]);
    assert_refused(good, other, [0, 0], Refusal::NoRoom);
    assert_refused(other, left_over, [0, 0], Refusal::Ragged);
    assert_refused(other, many, [0, 0], Refusal::TooMany);
}

#[test]
fn drawings_of_two_jobs() {
    let job = |offset| Drawing::offset(&CORNER, false, offset, EPS).expect("a good job");
    let [two, more] = [2.0, 2.5].map(job);
    assert_compared((&two).into(), (&two).into(), &[], 0, false);
    let moved = [(0, Y), (1, Y), (2, X), (3, X)];
    assert_compared((&two).into(), (&more).into(), &moved, 0, false);

    let mut cleared = two.clone();
    cleared.flags[1] = 0;
    assert_compared((&two).into(), (&cleared).into(), &[(1, FLAG)], 0, false);
    // what == does not tell
    let mut negative = two.clone();
    negative.vertices[5] = -0.0;
    assert_eq!(two, negative);
    assert!(!compare(&two, &negative).expect("two outputs").is_equal());
    // indexes and origins are not looked at
    let mut renamed = two.clone();
    renamed.indexes.clear();
    renamed.origins.clear();
    assert!(compare(&two, &renamed).expect("two outputs").is_equal());
    renamed.flags.clear();
    assert_eq!(compare(&two, &renamed), Err(Refusal::Ragged));

    let pointed = Corners::Pointed { ratio: 2.0 };
    let round = Drawing::offset(&SQUARE, true, -1.0, EPS).expect("a good job");
    let tipped = Drawing::offset_with(&SQUARE, true, -1.0, EPS, pointed).expect("a good job");
    let comparison = compare(&round, &tipped).expect("two outputs");
    assert_eq!(comparison.unmatched, 4);
    let first = comparison.differences[0];
    assert_eq!(first.to_string(), "vertex 1 differs in bulge");
}

#[test]
fn the_longest_drawing_that_a_job_draws_is_compared() {
    // goes round ever farther out, so that each corner has a point
    let ways = [(1.0, 0.0), (0.0, 1.0), (-1.0, 0.0), (0.0, -1.0)];
    let mut source = Vec::new();
    let (mut x, mut y) = (0.0, 0.0);
    for i in 0..MOST_VERTICES {
        source.extend([x, y, 0.0]);
        let (step, (along, up)) = ((i / 2 + 1) as f64, ways[i % 4]);
        (x, y) = (x + step * along, y + step * up);
    }
    let job = |offset| {
        let pointed = Corners::Pointed { ratio: 2.0 };
        Drawing::offset_with(&source, true, offset, EPS, pointed).expect("a good job")
    };
    let drawn = job(-0.125);
    assert!(drawn.vertices.len() > 3 * (MOST_COMPARED_VERTICES - 8));
    assert!(
        compare(&drawn, &job(-0.125))
            .expect("two outputs")
            .is_equal()
    );
    let other = compare(&drawn, &job(-0.25)).expect("two outputs");
    assert_eq!(other.differences.len(), drawn.vertices.len() / 3);
}

/// The plain loop, as 02 has it.
fn plain(a: Output, b: Output) -> Result<Comparison, Refusal> {
    for output in [a, b] {
        let count = output.vertices.len() / 3;
        let needed = match count {
            0 | 1 => 0,
            _ if output.closed => count,
            _ => count - 1,
        };
        if !output.vertices.len().is_multiple_of(3) || output.flags.len() != needed {
            return Err(Refusal::Ragged);
        }
        if count > 12288 {
            return Err(Refusal::TooMany);
        }
    }
    let differ = |a: f64, b: f64| a.to_bits() != b.to_bits() && !(a.is_nan() && b.is_nan());
    let flag = |output: Output, i: usize| output.flags.get(i).copied().unwrap_or(0);
    let pairs = a.vertices.chunks(3).zip(b.vertices.chunks(3));
    let all = pairs.enumerate().map(|(vertex, (p, q))| Difference {
        vertex,
        fields: Fields {
            x: differ(p[0], q[0]),
            y: differ(p[1], q[1]),
            bulge: differ(p[2], q[2]),
            flag: flag(a, vertex) != flag(b, vertex),
        },
    });
    Ok(Comparison {
        differences: all
            .filter(|difference| difference.fields != Fields::default())
            .collect(),
        unmatched: a.vertices.len().abs_diff(b.vertices.len()) / 3,
        closed_differs: a.closed != b.closed,
    })
}

/// Random numbers by xorshift64*.
struct Random(u64);

impl Random {
    fn bits(&mut self) -> u64 {
        self.0 ^= self.0 >> 12;
        self.0 ^= self.0 << 25;
        self.0 ^= self.0 >> 27;
        self.0.wrapping_mul(0x2545_f491_4f6c_dd1d)
    }

    fn below(&mut self, count: u64) -> usize {
        ((self.bits() >> 32) % count) as usize
    }

    fn number(&mut self) -> f64 {
        let special = [0.0, -0.0, 1.0, f64::INFINITY, f64::NAN, -f64::NAN];
        match self.below(8) {
            i @ 0..6 => special[i],
            _ => f64::from_bits(self.bits()),
        }
    }
}

#[test]
fn random_pairs_as_a_plain_loop_has_them() {
    let mut random = Random(0x2026_0303);
    let mut told = [0; 2];
    for _ in 0..20_000 {
        let numbers: Vec<f64> = (0..24).map(|_| random.number()).collect();
        let flags: Vec<u8> = (0..8).map(|_| random.below(3) as u8).collect();
        let (mut others, mut other_flags) = (numbers.clone(), flags.clone());
        for _ in 0..random.below(5) {
            others[random.below(24)] = random.number();
            other_flags[random.below(8)] = random.below(256) as u8;
        }
        let count = random.below(8);
        let other_count = if random.below(2) == 0 {
            count
        } else {
            random.below(8)
        };
        let [one_closed, other_closed] = [0; 2].map(|_| random.below(2) == 0);
        let mut a = of_first(&numbers, &flags, count, one_closed);
        let b = of_first(&others, &other_flags, other_count, other_closed);
        match random.below(16) {
            0 => a.vertices = &numbers[..3 * count + 1 + random.below(2)],
            1 => a.flags = &flags[..random.below(8)],
            _ => {}
        }
        for (a, b) in [(a, b), (b, a)] {
            let wanted = plain(a, b);
            told[usize::from(wanted.is_err())] += 1;
            match &wanted {
                Err(refusal) => assert_refused(a, b, [2, 2], *refusal),
                Ok(found) => {
                    let listed = found.differences.iter();
                    let list: Vec<_> = listed.map(|d| (d.vertex, d.fields.code())).collect();
                    assert_compared(a, b, &list, found.unmatched, found.closed_differs);
                }
            }
            assert_eq!(compare(a, b), wanted);
        }
    }
    assert!(told.iter().all(|&count| count > 1000), "{told:?}");
}

#[test]
fn words_for_the_installer() {
    for code in 0..16 {
        assert_eq!(Fields::from_code(code).code(), code);
        assert_eq!(Fields::from_code(code | 0xf0).code(), code);
    }
    let said = |code| Fields::from_code(code).to_string();
    assert_eq!([0, 1, 2, 4, 8].map(said), ["", "x", "y", "bulge", "flag"]);
    assert_eq!(said(X + FLAG), "x and flag");
    assert_eq!(said(X + Y + BULGE + FLAG), "x, y, bulge and flag");
    let words = Refusal::TooMany.to_string();
    assert!(words.ends_with("a source has at most 4096, and an output to compare 12288"));
}
