//! The stored input and output of the program that hands back parts.
//!
//! The input is words of eight bytes, highest byte first: the count of rows, then for each row n, how many
//! flags there are, how many origins, the source segment, and the origins. The program gives each flag
//! its own number as its byte. The output has a line for each row: the answer, then the flags of the part.

use oracle::part::Output;
use oracle::stage::{Job, Outcome};
use std::fmt::Write;
use std::path::Path;
use std::{fs, io};

/// The places of the program's flags and origins.
const MOST: usize = 64;

const EPS: f64 = 1e-5;

/// No code names a source segment from here on.
const PAST_CODES: u32 = 1 << 31;

struct Row {
    n: u32,
    /// How many.
    flags: usize,
    origins: Vec<u32>,
    source: u32,
}

impl Row {
    fn new(n: u32, origins: &[u32], source: u32) -> Self {
        Self {
            n,
            flags: origins.len(),
            origins: origins.to_vec(),
            source,
        }
    }
}

pub fn write(folder: &Path) -> io::Result<()> {
    let kinds = [
        ("outputs of jobs", outputs()),
        ("whole buffers", buffers()),
        ("made-up lists", made_up()),
        ("limits", limits()),
        ("ragged", ragged()),
    ];
    for (name, rows) in &kinds {
        println!("{name:20} {:>4}", rows.len());
    }
    let rows: Vec<Row> = kinds.into_iter().flat_map(|(_, rows)| rows).collect();
    println!("{:20} {:>4}", "in all", rows.len());
    let mut input = (rows.len() as u64).to_be_bytes().to_vec();
    let mut output = String::new();
    for row in &rows {
        input.extend(packed(row));
        output += &line(row);
    }
    print_reached(&output);
    fs::write(folder.join("stdin"), input)?;
    fs::write(folder.join("stdout"), output)
}

/// Prints how many lines have each number, and how many parts are empty.
fn print_reached(output: &str) {
    for number in ["0", "1", "13"] {
        let of_it = |line: &&str| line.split(' ').next() == Some(number);
        let count = output.lines().filter(of_it).count();
        println!("{:20} {count:>4}", format!("number {number}"));
    }
    let empty = output.lines().filter(|line| *line == "0 0 0 0").count();
    println!("{:20} {empty:>4}", "done and empty");
}

fn packed(row: &Row) -> Vec<u8> {
    assert!(
        row.flags.max(row.origins.len()) <= MOST,
        "no place for a row"
    );
    let mut words = vec![row.n.into(), row.flags as u64, row.origins.len() as u64];
    words.push(row.source.into());
    words.extend(row.origins.iter().map(|origin| u64::from(*origin)));
    words.into_iter().flat_map(u64::to_be_bytes).collect()
}

fn line(row: &Row) -> String {
    let flags: Vec<u8> = (0..row.flags as u8).collect();
    let output = Output {
        n: row.n,
        flags: &flags,
        origins: &row.origins,
    };
    let answer = output.part(row.source);
    let mut line = answer.map(|number| number.to_string()).join(" ");
    let [_, _, start, length] = answer.map(|number| number as usize);
    for flag in &flags[start..start + length] {
        write!(line, " {flag}").expect("a string takes all");
    }
    line + "\n"
}

fn run(closed: bool, offset: f64, vertices: &[[f64; 3]]) -> (u32, Outcome) {
    let job = Job::new(closed, offset, EPS, vertices.concat());
    (job.segments() as u32, job.run(oracle::job))
}

/// The corners of a square.
const SQUARE: [[f64; 3]; 4] = [
    [0.0, 0.0, 0.0],
    [4.0, 0.0, 0.0],
    [4.0, 4.0, 0.0],
    [0.0, 4.0, 0.0],
];

/// Its first segment is shorter than ε, and so are its offset and the connector after it.
const SHORT_FIRST: [[f64; 3]; 3] = [[0.0, 0.0, 0.0], [1e-6, 0.0, 0.0], [4.0, 0.0, 0.0]];

/// Each source segment of an output, and the first that is none: a gap, a folded closing move, nothing,
/// a last vertex that is removed, a closing connector, dropped moves, and copies.
fn outputs() -> Vec<Row> {
    let corner = [[0.0, 0.0, 0.0], [4.0, 0.0, 0.0], [4.0, 1.0, 0.0]];
    let removed = [[3.0, 3.0, 0.0], [3.0, 4.0, 0.0], [2.0, 3.0, 0.0]];
    let pair = [[1.0, 0.0, 0.0], [0.0, 0.0, 0.0]];
    let dropped = [[0.0, 0.0, 0.5], [1.0, 1.0, 0.0], [0.0, 0.0, 0.0]];
    let jobs = [
        run(false, 2.0, &corner),
        run(true, 3.0, &SQUARE),
        run(true, 2.0, &SQUARE),
        run(true, 1.0, &removed),
        run(true, 1.0, &pair),
        run(false, 0.883880615234375, &dropped),
        run(false, 1.0, &SHORT_FIRST),
        run(false, 0.0, &corner),
        run(true, -0.0, &corner),
    ];
    let mut rows = Vec::new();
    for (n, outcome) in &jobs {
        let origins = outcome.drawn_origins();
        rows.extend((0..=*n).map(|source| Row::new(*n, origins, source)));
    }
    rows
}

/// All that a job was lent, with the zeros, which name segment 0, and the place past 2n.
fn buffers() -> Vec<Row> {
    let not_finite = [
        [-1e6, 0.0, 1.1e-8],
        [1e6, 0.0, 0.0],
        [1e6, -1e6, 0.0],
        [0.0, 0.0, 0.0],
    ];
    let zigzag: Vec<[f64; 3]> = (0..16)
        .map(|i| [f64::from(i), f64::from(i % 2), 0.0])
        .collect();
    let jobs = [
        (run(true, 3.0, &SQUARE), vec![0, 3]),
        (run(true, 2.0, &SQUARE), vec![0, 3]),
        (run(false, 1.0, &SHORT_FIRST), vec![0, 1]),
        (run(true, 0.001, &not_finite), vec![0, 1]),
        (run(false, 0.125, &zigzag), vec![0, 7, 14]),
    ];
    let mut rows = Vec::new();
    for ((n, outcome), sources) in &jobs {
        let of_it = |source: &u32| Row::new(*n, &outcome.origins, *source);
        rows.extend(sources.iter().map(of_it));
    }
    rows
}

/// The first of broken parts, at the front, in the middle, at the end; one segment, all of them; spans
/// and connectors in any order; numbers that are codes of others; and names from n on.
fn made_up() -> Vec<Row> {
    let alike = [3; MOST];
    let mut last = [2; MOST];
    last[MOST - 1] = 4;
    let lists: [(u32, &[u32], u32); 21] = [
        (2, &[0, 2, 0, 1], 0),
        (2, &[2, 0, 1, 2, 1], 0),
        (2, &[2, 0, 1, 2, 1], 1),
        (3, &[4, 5, 2, 3, 2, 4], 2),
        (3, &[4, 5, 2, 3, 2, 4], 1),
        (3, &[0, 2, 4, 4], 2),
        (3, &[1, 0, 1, 0, 2], 0),
        (3, &[3, 2], 1),
        (3, &[5], 2),
        (3, &[5], 1),
        (4, &[6, 6, 6], 3),
        (9, &[7, 8, 9, 10], 4),
        (9, &[1, 4, 2, 8], 1),
        (9, &[1, 4, 2, 8], 4),
        (9, &[1, 3, 2, 6], 2),
        (2, &[8, 2, 3, 9], 1),
        (2, &[8, 2, 3, 9], 0),
        (2, &alike, 1),
        (2, &alike, 0),
        (3, &last, 2),
        (3, &last, 1),
    ];
    lists
        .map(|(n, list, source)| Row::new(n, list, source))
        .into()
}

/// No segment, no source segment, and numbers about 2^31, which twice over are no codes.
fn limits() -> Vec<Row> {
    let most = u32::MAX;
    let (past, last) = (PAST_CODES, PAST_CODES - 1);
    let tail: [u32; 5] = [most - 3, most - 2, most - 1, most, most - 1];
    let lists: [(u32, &[u32], u32); 23] = [
        (0, &[], 0),
        (1, &[], 0),
        (1, &[], 1),
        (most, &[], most - 1),
        (most, &[], most),
        (0, &[0, 1], 0),
        (0, &[0, 1], most),
        (1, &[0, 1, 2], 1),
        (1, &[0, 1, 2], 2),
        (1, &[0, 1, 2], most),
        (most, &[0, 1, 0], past),
        (most, &[0, 1, 2, 3], past + 1),
        (past + 1, &[0, 1, 0], past),
        (past, &[0, 1, 0], past),
        (most, &tail, past),
        (most, &tail, last),
        (past, &tail, last),
        (last, &tail, last),
        (most, &tail, last - 1),
        (most, &tail, most - 1),
        (most, &tail, most),
        (most, &[past, past + 1, past - 1], past / 2),
        (most, &[past, past + 1, past - 1], last / 2),
    ];
    lists
        .map(|(n, list, source)| Row::new(n, list, source))
        .into()
}

/// Unequal numbers of flags and origins, which is told first.
fn ragged() -> Vec<Row> {
    let list = [0, 1, 2, 3];
    let with = |n, flags, origins: &[u32], source| Row {
        flags,
        ..Row::new(n, origins, source)
    };
    vec![
        with(2, 0, &list, 0),
        with(2, 3, &list, 0),
        with(2, 5, &list, 1),
        with(2, 4, &[], 0),
        with(2, 1, &[], 0),
        with(2, 0, &[0], 0),
        with(2, 3, &list, 2),
        with(2, 5, &list, u32::MAX),
        with(0, 3, &list, 0),
        with(0, 0, &[0], 0),
        with(2, MOST, &[1; MOST - 1], 0),
        with(2, MOST - 1, &[1; MOST], 0),
    ]
}
