//! All scripts of a few calls after a start, over a small list of calls.

use crate::draws::{Call, Script, Settings};

const EPS: f64 = 1e-5;

/// Starts in both modes, of a copy, and one that is refused.
const STARTS: [Settings; 4] = [
    Settings {
        offset: 2.0,
        eps: EPS,
        ratio: None,
    },
    Settings {
        offset: -1.0,
        eps: EPS,
        ratio: Some(2.0),
    },
    Settings {
        offset: -0.0,
        eps: EPS,
        ratio: None,
    },
    Settings {
        offset: 1.0,
        eps: EPS,
        ratio: Some(11.0),
    },
];

/// The vertices that are given by turns. The first ones have an inner gap, and an arc that collapses.
const VERTICES: [[f64; 3]; 6] = [
    [0.0, 0.0, 0.0],
    [4.0, 0.0, 0.0],
    [4.0, 1.0, 0.5],
    [8.0, 1.0, 0.0],
    [9.0, -5.0, -0.25],
    [0.0, 7.0, 0.0],
];

/// What a call is, but for the vertex that it starts with.
#[derive(Copy, Clone)]
enum Short {
    Start(usize),
    /// So many vertices.
    Draw(usize),
    Ragged,
    WithoutRoom,
    /// A bulge that is none.
    Bad,
    /// The vertex before once more.
    Again,
    /// Two vertices that no line leads between.
    NoLine,
    End,
    EndWithoutRoom,
    Copy,
}

const CALLS: [Short; 13] = [
    Short::Start(0),
    Short::Start(1),
    Short::Start(3),
    Short::Draw(0),
    Short::Draw(1),
    Short::Draw(2),
    Short::Ragged,
    Short::WithoutRoom,
    Short::Bad,
    Short::Again,
    Short::NoLine,
    Short::End,
    Short::EndWithoutRoom,
];

/// Hands out each script of so many calls, alone and after each start.
pub fn each_short_script(calls: u32, mut take: impl FnMut(&Script)) {
    let mut each = |first: &[Short]| {
        for code in 0..CALLS.len().pow(calls) {
            let digit = |place: u32| CALLS[code / CALLS.len().pow(place) % CALLS.len()];
            let rest = (0..calls).map(digit);
            take(&script(first.iter().copied().chain(rest)));
        }
    };
    each(&[]);
    for start in 0..STARTS.len() {
        each(&[Short::Start(start)]);
    }
    each(&[Short::Start(0), Short::Draw(2), Short::Copy]);
}

fn script(calls: impl Iterator<Item = Short>) -> Script {
    let (mut next, mut each) = (0, 2);
    let written = |call| {
        let (source, given) = vertices(call, next);
        if let Short::Start(start) = call {
            each = STARTS[start].each();
            next = 0;
        }
        next += given;
        let need = each * (source.len() / 3);
        match call {
            Short::Start(start) => Call::Start(STARTS[start]),
            Short::End => Call::End([6, 2, 2, 2]),
            Short::EndWithoutRoom => Call::End([6, 2, 2, 1]),
            Short::Copy => Call::Copy,
            Short::WithoutRoom => Call::Draw(source, [3 * need - 1, need, need, need]),
            _ => Call::Draw(source, [3 * need, need, need, need]),
        }
    };
    calls.map(written).collect()
}

/// What a call gives, and how many of the vertices that are given by turns.
fn vertices(call: Short, next: usize) -> (Vec<f64>, usize) {
    let vertex = |place: usize| VERTICES[place % VERTICES.len()];
    let [x, y, bulge] = vertex(next);
    match call {
        Short::Draw(count) => ((next..next + count).flat_map(vertex).collect(), count),
        Short::Ragged => (vec![x, y, bulge, 1.0], 0),
        Short::WithoutRoom => (vec![x, y, bulge], 0),
        Short::Bad => (vec![x, y, f64::NAN], 0),
        Short::Again => (vertex(next.max(1) - 1).to_vec(), 0),
        Short::NoLine => (vec![20.0, 0.0, 0.0, 20.0, 1e-200, 0.0], 0),
        _ => (Vec::new(), 0),
    }
}
