//! The drawings, by kind. Each can be drawn with 4, 8, 16, .. vertices, and is offset to both sides.
use std::f64::consts::{FRAC_PI_4, FRAC_PI_8, SQRT_2, TAU};

/// The tolerance of every job.
pub const EPS: f64 = 1e-5;

/// A kind's name, and its drawings.
pub type Kind = (&'static str, &'static [Shape]);

pub const KINDS: [Kind; 3] = [("lines", LINES), ("arcs", ARCS), ("mixed", MIXED)];

pub struct Shape {
    pub name: &'static str,
    pub closed: bool,
    /// Positive; each shape is offset to both sides.
    pub offset: f64,
    drawing: fn(usize) -> Vec<f64>,
}

impl Shape {
    /// The shape with v vertices, three numbers each. No two of them are one point.
    pub fn source(&self, v: usize) -> Vec<f64> {
        let source = (self.drawing)(v);
        assert!(!repeats(&source), "{} repeats a vertex", self.name);
        source
    }

    pub fn ends(&self) -> &'static str {
        ["open", "closed"][usize::from(self.closed)]
    }
}

/// Lines alone, which 02 asks for. In a spiral and a polygon all joins are outer to one side and inner
/// to the other; in a zigzag both come by turns, and in a star of more than 83 vertices too, with sharp
/// corners. Lettering has all of them.
const LINES: &[Shape] = &[
    Shape {
        name: "zigzag",
        closed: false,
        offset: 0.2,
        drawing: |v| walked(v, |i| (if i % 2 == 0 { 0.9 } else { -0.9 }, 1.0, 0.0)),
    },
    Shape {
        name: "spiral",
        closed: false,
        offset: 0.3,
        drawing: |v| around(v, |i| (2.0 + 0.01 * i as f64, 0.1, 0.0)),
    },
    Shape {
        name: "polygon",
        closed: true,
        offset: 0.3,
        drawing: |v| around(v, |_| (100.0, TAU / v as f64, 0.0)),
    },
    Shape {
        name: "star",
        closed: true,
        offset: 0.3,
        drawing: |v| around(v, |i| ([700.0, 698.0][i % 2], TAU / v as f64, 0.0)),
    },
    Shape {
        name: "lettering",
        closed: true,
        offset: 0.1,
        drawing: |v| {
            walked(v, |i| {
                let (turn, length, _) = stroke(i, repeating);
                (turn, length, 0.0)
            })
        },
    },
];

/// Arcs alone, which 02 asks for. In a spiral, a rosette and scallops the joins are alike again; in a
/// vine they are nearly tangent, and outer for a while, then inner; lettering has all of them.
/// Each drawing has one bulge, two, or eight: a sweep that was worked out once could be used again.
const ARCS: &[Shape] = &[
    Shape {
        name: "vine",
        closed: false,
        offset: 0.2,
        drawing: |v| walked(v, |i| (0.1 * slow(i), 1.0, [0.4, -0.4][i % 2])),
    },
    Shape {
        name: "spiral",
        closed: false,
        offset: 0.3,
        drawing: |v| around(v, |i| (2.0 + 0.01 * i as f64, 0.1, 0.025)),
    },
    Shape {
        name: "rosette",
        closed: true,
        offset: 0.2,
        drawing: |v| around(v, |_| (700.0, TAU / v as f64, 0.5)),
    },
    Shape {
        name: "scallops",
        closed: true,
        offset: 0.2,
        drawing: |v| around(v, |_| (700.0, TAU / v as f64, -0.5)),
    },
    Shape {
        name: "lettering",
        closed: true,
        offset: 0.1,
        drawing: |v| walked(v, |i| stroke(i, repeating)),
    },
];

/// What the first two kinds leave out. Drift and petals are arcs like those of lettering and rosette
/// with no two bulges alike, so that no sweep can be used again. The others have lines and arcs by
/// turns, as shops draw: fillets are tangent to the runs between them, slots are half circles that meet
/// them at right angles, and in letters both join as they come. Strokes come in no order that a
/// processor could learn.
const MIXED: &[Shape] = &[
    Shape {
        name: "drift",
        closed: true,
        offset: 0.1,
        drawing: |v| {
            walked(v, |i| {
                let (turn, length, bulge) = stroke(i, scattered);
                (turn, length, bulge * (1.0 + i as f64 * 1e-5))
            })
        },
    },
    Shape {
        name: "petals",
        closed: true,
        offset: 0.2,
        drawing: |v| around(v, |i| (700.0, TAU / v as f64, 0.5 + i as f64 * 1e-5)),
    },
    Shape {
        name: "fillets",
        closed: true,
        offset: 0.2,
        drawing: fillets,
    },
    Shape {
        name: "slots",
        closed: true,
        offset: 0.2,
        // the last half circle closes a half disc, and the others stand along its edge
        drawing: |v| walked(v, |i| (0.0, slot_length(i), by_turns(i, sign(i)))),
    },
    Shape {
        name: "letters",
        closed: true,
        offset: 0.1,
        drawing: |v| {
            walked(v, |i| {
                let (turn, length, bulge) = stroke(i, scattered);
                (turn, length, by_turns(i, bulge))
            })
        },
    },
];

/// Each vertex a step from the last: how the heading turns, how far it goes, the bulge.
fn walked(v: usize, step: impl Fn(usize) -> (f64, f64, f64)) -> Vec<f64> {
    let (mut x, mut y, mut heading) = (0.0_f64, 0.0_f64, 0.0_f64);
    let mut numbers = Vec::new();
    for i in 0..v {
        let (turn, length, bulge) = step(i);
        numbers.extend([x, y, bulge]);
        heading += turn;
        x += length * heading.cos();
        y += length * heading.sin();
    }
    numbers
}

/// Each vertex about one centre: the distance, the angle to the next one, the bulge.
fn around(v: usize, step: impl Fn(usize) -> (f64, f64, f64)) -> Vec<f64> {
    let mut angle = 0.0_f64;
    let mut numbers = Vec::new();
    for i in 0..v {
        let (distance, turn, bulge) = step(i);
        numbers.extend([distance * angle.cos(), distance * angle.sin(), bulge]);
        angle += turn;
    }
    numbers
}

/// A strip of a gasket, drawn counterclockwise: runs, and after each a quarter circle that is tangent
/// to it and to the next. Four vertices have two fillets alone: the second one, far larger, closes the
/// strip at two corners.
fn fillets(v: usize) -> Vec<f64> {
    const RADIUS: f64 = 0.5;
    let corners = strip(v, RADIUS);
    let side = |corner: usize| corners[corner].0;
    walked(v, |i| match (i / 2, i % 2) {
        (0, 0) => (0.0, corners[0].1, 0.0),
        (corner, 0) => (FRAC_PI_4 * side(corner - 1), corners[corner].1, 0.0),
        (corner, _) => (
            FRAC_PI_4 * side(corner),
            RADIUS * SQRT_2,
            side(corner) * FRAC_PI_8.tan(),
        ),
    })
}

/// The corners of the strip, two vertices each: to which side it turns, and the run before it. Below it
/// is straight; above, every four corners are a notch or a tab.
fn strip(v: usize, radius: f64) -> Vec<(f64, f64)> {
    const END: f64 = 6.0;
    let above: Vec<_> = (1..v / 8)
        .flat_map(|i| {
            let (side, depth) = (sign(i), stroke_length(i + 1));
            [
                (side, stroke_length(i)),
                (-side, depth),
                (-side, stroke_length(i + 2)),
                (side, depth),
            ]
        })
        .collect();
    // of each four runs the first and the third go along the strip
    let along: f64 = above.iter().step_by(2).map(|corner| corner.1).sum();
    let below = along + radius * above.len() as f64 + END;
    let ends = [(1.0, END), (1.0, END)];
    [[(1.0, below), (1.0, END)].as_slice(), &above, &ends].concat()
}

/// Lines and arcs by turns.
fn by_turns(i: usize, bulge: f64) -> f64 {
    [0.0, bulge][i % 2]
}

/// Turn, length and bulge of a stroke, so that strokes look like the outline of letters: sharp corners
/// among slight turns.
fn stroke(i: usize, order: fn(usize) -> usize) -> (f64, f64, f64) {
    let turn = [0.1, -0.2, 1.5, 0.3, -1.4, 0.05, -0.6, 2.2][order(i) % 8];
    let length = 0.3 + 0.1 * (order(i + 7919) % 12) as f64;
    let bulge = [0.1, -0.3, 0.6, -0.05, 0.2, -0.8, 0.4, -0.15][order(i + 104_729) % 8];
    (turn, length, bulge)
}

fn stroke_length(i: usize) -> f64 {
    stroke(i, scattered).1
}

fn slot_length(i: usize) -> f64 {
    0.7 + stroke_length(i)
}

fn sign(i: usize) -> f64 {
    [1.0, -1.0][scattered(i) % 2]
}

/// For long stretches turns and bulges come again after eight strokes. Lettering has this order since
/// it was first timed, and keeps it, so that its times can be held to earlier ones.
fn repeating(i: usize) -> usize {
    (i.wrapping_mul(0x9e37_79b9_7f4a_7c15) >> 33).wrapping_mul(0x2545_f491) >> 13
}

/// By splitmix64: neighbours have nothing in common, in their lowest digits neither.
fn scattered(i: usize) -> usize {
    let bits = (i as u64 + 1).wrapping_mul(0x9e37_79b9_7f4a_7c15);
    let bits = (bits ^ (bits >> 30)).wrapping_mul(0xbf58_476d_1ce4_e5b9);
    let bits = (bits ^ (bits >> 27)).wrapping_mul(0x94d0_49bb_1331_11eb);
    ((bits ^ (bits >> 31)) >> 32) as usize
}

fn slow(i: usize) -> f64 {
    (0.05 * i as f64).sin()
}

/// Whether any two vertices, joined or not, are one point within ε.
fn repeats(source: &[f64]) -> bool {
    let mut points: Vec<_> = source.chunks_exact(3).map(|n| (n[0], n[1])).collect();
    points.sort_by(|a, b| a.0.total_cmp(&b.0));
    points.iter().enumerate().any(|(i, &(x, y))| {
        let beside = points[i + 1..].iter().take_while(|next| next.0 - x <= EPS);
        beside
            .map(|next| next.1)
            .any(|next| (next - y).abs() <= EPS)
    })
}
