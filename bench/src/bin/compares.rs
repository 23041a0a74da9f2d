//! compares [TURNS]: times the comparison of two outputs beside plain loops in Rust, in one run: equal
//! outputs, one bit turned in the middle, and outputs where all four differ at every vertex.
//!
//! Both sides get the same closed outputs, of random numbers and flags, and two buffers each with as many
//! places as there are vertices. The first plain loop lists as it goes, and would have written where room
//! runs short; the second counts first, as the stage has to. Neither tests the outputs' lengths. Before
//! anything is timed, lists and counts are held to each other. How it is timed stands in
//! bench/src/beside.rs.
use bench::beside::{time, turns};
use bench::Random;
use blidrosk::{compare_into, Compared, Output};
use std::hint::black_box;

const SIZES: [usize; 5] = [4, 64, 512, 4096, 12288];

/// The vertices that a turn has on each side: smaller outputs are compared again and again.
const TURN: usize = 1 << 16;

/// Numbers and flags of an output.
type Made = (Vec<f64>, Vec<u8>);

/// Its name, and how the second output comes from the first.
type Case = (&'static str, fn(&mut Made));

const CASES: [Case; 3] = [
    ("equal", |_| {}),
    ("one bit", |(numbers, _)| {
        let middle = numbers.len() / 2;
        numbers[middle] = f64::from_bits(numbers[middle].to_bits() ^ 1);
    }),
    ("everywhere", |(numbers, flags)| {
        numbers.iter_mut().for_each(|number| *number = -*number);
        flags.iter_mut().for_each(|flag| *flag = 1 - *flag);
    }),
];

/// A plain loop, over outputs whose lengths are right.
type Plain = fn(Output, Output, &mut [u32], &mut [u8]) -> Compared;

const LOOPS: [(&str, Plain); 2] = [
    ("beside a loop that lists as it goes", list),
    ("beside a loop that counts first", count_and_list),
];

const HEAD: &str =
    "outputs        v    plain us   proved us   proved/plain   quiet   proved ns a vertex";

fn main() {
    let turns = turns("compares");
    for (words, plain) in LOOPS {
        println!("{words}\n{HEAD}");
        for case in CASES {
            for v in SIZES {
                row(plain, case, v, turns);
            }
        }
        println!();
    }
}

fn row(plain: Plain, (words, change): Case, v: usize, turns: usize) {
    let first = made(v);
    // memory of its own, where they are equal too
    let mut second = first.clone();
    change(&mut second);
    let [a, b] = [&first, &second].map(output);
    let [mut ours, mut theirs] = [0; 2].map(|_| (vec![0; v], vec![0; v]));
    hold(plain, a, b);
    let [plain_us, proved_us, ratio, quiet] = time(
        turns,
        TURN.div_ceil(v),
        || {
            let (a, b) = black_box((a, b));
            black_box(plain(a, b, &mut theirs.0, &mut theirs.1));
        },
        || {
            let (a, b) = black_box((a, b));
            let compared = compare_into(a, b, &mut ours.0, &mut ours.1);
            assert!(black_box(compared).is_ok());
        },
    );
    println!(
        "{words:10} {v:>5} {plain_us:>11.3} {proved_us:>11.3} {ratio:>14.2} {quiet:>7.2} {:>20.2}",
        1000.0 * proved_us / v as f64
    );
}

fn made(v: usize) -> Made {
    let mut random = Random::new(v as u64);
    let numbers = (0..3 * v).map(|_| random.size(-10, 20)).collect();
    let flags = (0..v).map(|_| random.below(2) as u8).collect();
    (numbers, flags)
}

fn output((vertices, flags): &Made) -> Output<'_> {
    Output {
        vertices,
        flags,
        closed: true,
    }
}

/// What differs at each vertex that both have, by its code.
fn codes<'a>(a: Output<'a>, b: Output<'a>) -> impl Iterator<Item = u8> + 'a {
    let differ = |x: f64, y: f64| x.to_bits() != y.to_bits() && !(x.is_nan() && y.is_nan());
    let flag = |output: Output, i: usize| output.flags.get(i).copied().unwrap_or(0);
    let pairs = a.vertices.chunks_exact(3).zip(b.vertices.chunks_exact(3));
    pairs.enumerate().map(move |(i, (p, q))| {
        u8::from(differ(p[0], q[0]))
            + 2 * u8::from(differ(p[1], q[1]))
            + 4 * u8::from(differ(p[2], q[2]))
            + 8 * u8::from(flag(a, i) != flag(b, i))
    })
}

#[inline(never)]
fn count_and_list(a: Output, b: Output, numbers: &mut [u32], fields: &mut [u8]) -> Compared {
    let needed = codes(a, b).filter(|&code| code != 0).count();
    assert!(needed <= numbers.len().min(fields.len()), "too little room");
    list(a, b, numbers, fields)
}

#[inline(never)]
fn list(a: Output, b: Output, numbers: &mut [u32], fields: &mut [u8]) -> Compared {
    let mut differences = 0;
    for (i, code) in codes(a, b).enumerate() {
        if code != 0 {
            numbers[differences] = i as u32;
            fields[differences] = code;
            differences += 1;
        }
    }
    Compared {
        differences,
        unmatched: (a.vertices.len() / 3).abs_diff(b.vertices.len() / 3),
        closed_differs: a.closed != b.closed,
    }
}

/// Both sides list and count the same.
fn hold(plain: Plain, a: Output, b: Output) {
    let v = a.vertices.len() / 3;
    let [mut ours, mut theirs] = [0; 2].map(|_| (vec![0; v], vec![0; v]));
    let compared = compare_into(a, b, &mut ours.0, &mut ours.1).expect("two outputs");
    let counted = plain(a, b, &mut theirs.0, &mut theirs.1);
    assert!(
        compared == counted && ours == theirs,
        "the two differ at {v} vertices: {compared:?} and {counted:?}"
    );
}
