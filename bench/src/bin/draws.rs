//! draws [TURNS]: times drawings whose vertices come by and by beside the same as a whole, in one run: one
//! vertex a call, sixteen, and all in one, with round corners and with pointed ones.
//!
//! Every drawing is drawn open. A call is lent the room that it needs, the same for each; the whole gets
//! its own. Before anything is timed, the pieces are joined and held to the whole. How it is timed stands
//! in bench/src/beside.rs.
use bench::beside::{table_of, Drawn, Figures};
use bench::drawings::EPS;
use blidrosk::{raw_offset_with, Corners, Drawing, Handed, Pen, Piece, END_ROOM};
use std::hint::black_box;

const SIZES: [usize; 5] = [4, 16, 64, 1024, 4096];

/// How many vertices a call takes at most.
const CALLS: [(usize, &str); 3] = [
    (1, "one vertex a call"),
    (16, "sixteen vertices a call"),
    (usize::MAX, "all vertices in one call"),
];

/// The largest, so that the most corners are pointed.
const RATIO: f64 = 10.0;

fn main() {
    let modes = [
        ("round", Corners::Round),
        ("pointed", Corners::Pointed { ratio: RATIO }),
    ];
    for (mode, corners) in modes {
        for (most, words) in CALLS {
            println!("{mode} corners, {words}");
            table_of(&SIZES, "draws", "whole", "drawn", |drawn| {
                figures(drawn, corners, most)
            });
            println!();
        }
    }
}

fn figures(drawn: Drawn, corners: Corners, most: usize) -> Figures {
    let Drawn { shape, side, v, .. } = drawn;
    let (source, offset) = (shape.source(v), side * shape.offset);
    let most = 3 * most.min(v);
    let mut whole = Lent::of(corners.room(v, false));
    let mut pieces = Lent::of(corners.draw_room(most / 3).max(END_ROOM));
    hold(&source, offset, corners, most);
    drawn.time(
        || {
            let answer = whole.offset(black_box(&source), offset, corners);
            assert!(black_box(answer));
        },
        || {
            let mut pen = Pen::start_with(offset, EPS, corners).expect("good settings");
            for group in black_box(&source).chunks(most) {
                black_box(pieces.draw(&mut pen, group));
            }
            let handed = pieces.end(&mut pen);
            assert!(black_box(handed).refusal.is_none());
        },
    )
}

/// What is lent: so many places in each.
struct Lent {
    vertices: Vec<f64>,
    flags: Vec<u8>,
    indexes: Vec<u32>,
    origins: Vec<u32>,
}

impl Lent {
    fn of(places: usize) -> Self {
        Lent {
            vertices: vec![0.0; 3 * places],
            flags: vec![0; places],
            indexes: vec![0; places],
            origins: vec![0; places],
        }
    }

    /// Whether the whole is done.
    fn offset(&mut self, source: &[f64], offset: f64, corners: Corners) -> bool {
        let answer = raw_offset_with(
            source,
            false,
            offset,
            EPS,
            corners,
            &mut self.vertices,
            &mut self.flags,
            &mut self.indexes,
            &mut self.origins,
        );
        answer.is_ok()
    }

    fn draw(&mut self, pen: &mut Pen, source: &[f64]) -> Handed {
        pen.draw_into(
            source,
            &mut self.vertices,
            &mut self.flags,
            &mut self.indexes,
            &mut self.origins,
        )
    }

    fn end(&mut self, pen: &mut Pen) -> Handed {
        pen.end_into(
            &mut self.vertices,
            &mut self.flags,
            &mut self.indexes,
            &mut self.origins,
        )
    }
}

/// The pieces, joined, are the whole.
fn hold(source: &[f64], offset: f64, corners: Corners, most: usize) {
    let whole = Drawing::offset_with(source, false, offset, EPS, corners).expect("a good job");
    let mut pen = Pen::start_with(offset, EPS, corners).expect("good settings");
    let mut joined = Piece::default();
    for group in source.chunks(most) {
        joined.append(pen.draw(group).expect("good vertices"));
    }
    joined.append(pen.end().expect("a good drawing"));
    let bits = |numbers: &[f64]| numbers.iter().map(|n| n.to_bits()).collect::<Vec<_>>();
    assert!(
        bits(&joined.vertices) == bits(&whole.vertices)
            && joined.flags == whole.flags
            && joined.indexes == whole.indexes
            && joined.origins == whole.origins,
        "the pieces differ from the whole: offset {offset}, {corners:?}, {source:?}"
    );
}
