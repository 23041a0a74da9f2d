//! Times one piece of work beside another on every drawing, in one run.
//!
//! In each turn both work one right after the other, by turns the one and the other first; a time is
//! the median over the turns, in microseconds, and a ratio the median of the turns' own. `quiet` is that
//! ratio over the tenth of the turns that took the least time in all.
use crate::drawings::{Kind, Shape, KINDS};
use std::env;
use std::process::exit;
use std::time::Instant;

const SIZES: [usize; 4] = [4, 16, 64, 4096];

/// The vertices that a turn has on each side: a smaller job is worked again and again.
const TURN: usize = 4096;

/// The medians of a job's turns: of the one, of the other, and of the other's time by the one's; this last
/// once more over the quiet turns.
pub type Figures = [f64; 4];

/// A drawing with v vertices, offset to its left (1) or to its right (-1).
#[derive(Clone, Copy)]
pub struct Drawn {
    pub kind: &'static str,
    pub shape: &'static Shape,
    pub side: f64,
    pub v: usize,
    turns: usize,
}

impl Drawn {
    pub fn time(self, one: impl FnMut(), other: impl FnMut()) -> Figures {
        time(self.turns, TURN.div_ceil(self.v), one, other)
    }
}

/// Times both in so many turns, in each of which both work so many times.
pub fn time(turns: usize, times: usize, mut one: impl FnMut(), mut other: impl FnMut()) -> Figures {
    let mut took = Vec::new();
    for turn in 0..turns {
        let (a, b);
        if turn % 2 == 0 {
            a = timed(times, &mut one);
            b = timed(times, &mut other);
        } else {
            b = timed(times, &mut other);
            a = timed(times, &mut one);
        }
        took.push([a, b]);
    }
    took.sort_by(|[a, b], [c, d]| (a + b).total_cmp(&(c + d)));
    let quiet = &took[..took.len().div_ceil(10)];
    let ratio = |[a, b]: &[f64; 2]| b / a;
    [
        median(&took, |[a, _]| *a),
        median(&took, |[_, b]| *b),
        median(&took, ratio),
        median(quiet, ratio),
    ]
}

/// The count of turns, which the command line has.
pub fn turns(program: &str) -> usize {
    match env::args().nth(1).map(|word| word.parse()) {
        None => 100,
        Some(Ok(turns @ 1..)) => turns,
        Some(_) => {
            eprintln!("usage: {program} [TURNS]");
            exit(2)
        }
    }
}

/// Prints a row for each kind and count of vertices. The command line has the count of turns.
pub fn table(program: &str, one: &str, other: &str, figures: impl Fn(Drawn) -> Figures) {
    table_of(&SIZES, program, one, other, figures);
}

/// The same with counts of vertices of its own.
pub fn table_of(
    sizes: &[usize],
    program: &str,
    one: &str,
    other: &str,
    figures: impl Fn(Drawn) -> Figures,
) {
    let turns = turns(program);
    let [first, second] = [one, other].map(|name| format!("{name} us"));
    println!(
        "kind      v {first:>11} {second:>11}   {other}/{one}, mean and worst of the drawings; quiet"
    );
    for kind in KINDS {
        for &v in sizes {
            row(kind, v, turns, &figures);
        }
    }
}

/// The drawings of a kind with v vertices, to both sides.
fn row((kind, shapes): Kind, v: usize, turns: usize, figures: impl Fn(Drawn) -> Figures) {
    let sides = shapes
        .iter()
        .flat_map(|shape| [(shape, 1.0), (shape, -1.0)]);
    let drawn = sides.map(|(shape, side)| Drawn {
        kind,
        shape,
        side,
        v,
        turns,
    });
    let figures: Vec<_> = drawn.map(figures).collect();
    let mean = |of: fn(&Figures) -> f64| figures.iter().map(of).sum::<f64>() / figures.len() as f64;
    let worst = |of: fn(&Figures) -> f64| figures.iter().map(of).fold(0.0, f64::max);
    let ratio: fn(&Figures) -> f64 = |[_, _, ratio, _]| *ratio;
    let quiet: fn(&Figures) -> f64 = |[.., quiet]| *quiet;
    println!(
        "{kind:6} {v:>4} {:>11.2} {:>11.2} {:>12.2} {:>6.2} {:>12.2} {:>6.2}",
        mean(|[one, ..]| *one),
        mean(|[_, other, ..]| *other),
        mean(ratio),
        worst(ratio),
        mean(quiet),
        worst(quiet),
    );
}

fn timed(times: usize, work: &mut impl FnMut()) -> f64 {
    let start = Instant::now();
    for _ in 0..times {
        work();
    }
    start.elapsed().as_secs_f64() * 1e6 / times as f64
}

fn median(turns: &[[f64; 2]], of: impl Fn(&[f64; 2]) -> f64) -> f64 {
    let mut numbers: Vec<_> = turns.iter().map(of).collect();
    numbers.sort_by(f64::total_cmp);
    numbers[numbers.len() / 2]
}
