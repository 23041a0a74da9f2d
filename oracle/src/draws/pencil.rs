//! The calls once more in another shape: by the traced walk, a vertex at a time, with a record that does not
//! grow. Each wrong reading is this one with a test, a count or an order changed.

mod calls;
mod out;
mod vertices;
mod wrong;

use super::{Pen, Settings};
use crate::stage::{Answer, Lent};
use crate::traced::{Stroke, Turns};
use out::Out;
use std::cell::RefCell;
pub use wrong::{SAME, WRONG, Wrong};

const MOST_VERTICES: usize = 4096;

#[derive(Debug, Clone)]
pub struct Pencil {
    wrong: Wrong,
    stage: Stage,
    /// How often the record was written to: what stays has the same.
    changes: u32,
}

#[derive(Debug, Clone)]
enum Stage {
    NeverBegun,
    /// After so many vertices.
    Ended(usize),
    /// What was answered.
    Refused(Answer),
    Begun(Box<Begun>),
}

#[derive(Debug, Clone)]
struct Begun {
    settings: Settings,
    turns: Turns,
    /// The first vertex, and the last one.
    first: [f64; 3],
    before: Option<[f64; 3]>,
    vertices: usize,
    segments: usize,
    /// What a wrong reading holds back.
    held: Vec<Stroke>,
}

thread_local! {
    /// The one job of all copies, by a wrong reading.
    static HIDDEN: RefCell<Stage> = const { RefCell::new(Stage::NeverBegun) };
}

impl Begun {
    fn new(settings: Settings, ratio: Option<f64>) -> Self {
        Self {
            settings,
            turns: Turns::new(settings.offset, settings.eps, ratio),
            first: [0.0; 3],
            before: None,
            vertices: 0,
            segments: 0,
            held: Vec::new(),
        }
    }
}

impl Pencil {
    pub fn right() -> Self {
        Self::by(Wrong::Nothing)
    }

    pub fn by(wrong: Wrong) -> Self {
        Self {
            wrong,
            stage: Stage::NeverBegun,
            changes: 0,
        }
    }

    fn is(&self, wrong: Wrong) -> bool {
        self.wrong == wrong
    }

    fn stage(&self) -> Stage {
        if self.is(Wrong::Shared) && self.changes > 0 {
            return HIDDEN.with_borrow(Stage::clone);
        }
        self.stage.clone()
    }

    fn set(&mut self, stage: Stage) {
        if self.is(Wrong::Shared) {
            HIDDEN.set(stage.clone());
        }
        self.stage = stage;
        self.changes += 1;
    }

    /// Ends the job with an answer, and with what was handed out before in the call.
    fn refuse(&mut self, answer: Answer) -> Answer {
        self.set(Stage::Refused(answer));
        answer
    }

    fn copies(&self, settings: &Settings) -> bool {
        let offset = settings.offset;
        offset == 0.0 && !(self.is(Wrong::CopyMinusZero) && offset.is_sign_negative())
    }
}

impl Pen for Pencil {
    fn start(&mut self, settings: Settings) -> Answer {
        let stage = self.stage();
        match &stage {
            Stage::Ended(_) if self.is(Wrong::StartAfterEnd) => return [9, 0, 0, 0, 0],
            Stage::Refused([number, place, ..]) if self.is(Wrong::StartAfterRefusal) => {
                return [*number, *place, 0, 0, 0];
            }
            Stage::Begun(_) if self.is(Wrong::StartIgnored) => return [0; 5],
            _ => {}
        }
        if let Some(place) = self.bad_setting(&settings) {
            return self.refuse_start(place);
        }
        let ratio = settings.ratio.filter(|_| !self.is(Wrong::RatioForgotten));
        let mut begun = Begun::new(settings, ratio);
        if let Stage::Begun(old) = &stage {
            if self.is(Wrong::StartKeepsVertices) {
                begun.vertices = old.vertices;
            }
            if self.is(Wrong::StartKeepsSegments) {
                begun.segments = old.segments;
            }
        }
        self.set(Stage::Begun(Box::new(begun)));
        [0; 5]
    }

    fn draw(&mut self, source: &[f64], lent: Lent) -> Answer {
        let mut begun = match self.before_vertices(source, &lent) {
            Ok(begun) => begun,
            Err(answer) => return answer,
        };
        if self.is(Wrong::GroupStarts) {
            begun.turns = Begun::new(begun.settings, begun.settings.ratio).turns;
        }
        let mut out = Out::new(self.wrong, begun.segments, begun.vertices, lent);
        if let Some((number, place)) = self.ahead(&begun, source) {
            return self.refuse([number, place, 0, 0, 0]);
        }
        for (given, vertex) in source.chunks_exact(3).enumerate() {
            let vertex = [vertex[0], vertex[1], vertex[2]];
            if self.out_of_room(&begun, given, &out) {
                self.set(Stage::Begun(Box::new(begun)));
                return out.answer([4, 0]);
            }
            let mut next = begun.clone();
            let piece = self.turn(&mut next, vertex);
            if let Some(number) = self.refusal(&begun, vertex, &piece) {
                return self.refuse_vertex(number, begun, &piece, given, out);
            }
            out.hand(&piece, next.segments);
            next.segments += piece.len();
            begun = next;
        }
        self.point_with_draw(&begun, &mut out);
        let need = begun.settings.each() * (source.len() / 3);
        out.zeros(Wrong::ZerosAfter, need);
        let ragged = self.is(Wrong::RaggedTakes) && !source.len().is_multiple_of(3);
        if !source.is_empty() || self.is(Wrong::EmptyChanges) {
            self.set(Stage::Begun(Box::new(begun)));
        }
        out.answer([u32::from(ragged), 0])
    }

    fn end(&mut self, lent: Lent) -> Answer {
        let mut begun = match self.before_end(&lent) {
            Ok(begun) => begun,
            Err(answer) => return answer,
        };
        let v = begun.vertices;
        if v < 2 && self.is(Wrong::EndFewNine) {
            return [9, 0, 0, 0, 0];
        }
        let mut out = Out::new(self.wrong, begun.segments, v, lent);
        let (strokes, point) = self.last(&mut begun);
        let mut drawn = strokes.iter().map(|stroke| stroke.vertex).chain(point);
        if self.asks_finite(&begun) && drawn.any(|vertex| !self.is_finite(vertex)) {
            return self.refuse_end(begun, &strokes, out);
        }
        out.hand_last(&strokes, point, begun.segments);
        out.zeros(Wrong::EndZerosAfter, 2);
        if !(v < 2 && self.is(Wrong::EndFewStays)) {
            self.set(Stage::Ended(v));
        }
        out.answer([0, 0])
    }

    fn same(&self, other: &Self) -> bool {
        self.changes == other.changes
    }
}
