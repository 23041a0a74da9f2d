//! What 000 draws on, which tells where its segments come from though 000 does not.
//!
//! 000 asks for the last vertex once for each move, whether it keeps the move or drops it, and sets that
//! vertex only where it keeps it. So its own run numbers the moves. By 01 §2 these are span 0,
//! connector 0, span 1 and on; a closed walk's last is span n−1 where that is the closing move, else
//! connector n−1. An even move is thus the span of half its number, an odd one the connector after
//! it, and the number is the origin's code.

use crate::polyline::{PlineCreation, PlineSource, PlineSourceMut, PlineVertex, Polyline};
use std::cell::Cell;

/// How often the last vertex is asked for in a move: 000's own assertions, where they are on, ask once
/// before each but the closing one.
const A_MOVE: u32 = if cfg!(debug_assertions) { 2 } else { 1 };

/// Whatever 000 may draw on.
pub trait Draws: PlineCreation<Num = f64> {
    fn vertices(&self) -> &[PlineVertex];

    /// The numbers of the moves that were kept, if they are counted.
    fn origins(&self) -> &[u32];
}

/// As 000 has it: nothing is counted.
impl Draws for Polyline {
    fn vertices(&self) -> &[PlineVertex] {
        &self.vertices
    }

    fn origins(&self) -> &[u32] {
        &[]
    }
}

/// A polyline that counts the moves.
pub struct Drawn {
    polyline: Polyline,
    /// How often the last vertex was asked for.
    asked: Cell<u32>,
    /// The numbers of the moves that were kept.
    kept: Vec<u32>,
}

impl Draws for Drawn {
    fn vertices(&self) -> &[PlineVertex] {
        &self.polyline.vertices
    }

    /// One for each segment: also where the last vertex was removed, since no move leaves that.
    fn origins(&self) -> &[u32] {
        assert_eq!(self.kept.len(), self.segment_count(), "a move a segment");
        &self.kept
    }
}

impl PlineSource for Drawn {
    type Num = f64;

    fn vertex_count(&self) -> usize {
        self.polyline.vertex_count()
    }

    fn is_closed(&self) -> bool {
        self.polyline.is_closed
    }

    fn at(&self, index: usize) -> PlineVertex {
        self.polyline.at(index)
    }

    fn last(&self) -> Option<PlineVertex> {
        self.asked.set(self.asked.get() + 1);
        self.polyline.last()
    }
}

impl PlineSourceMut for Drawn {
    fn set_last(&mut self, vertex: PlineVertex) {
        self.kept.push((self.asked.get() - 1) / A_MOVE);
        self.polyline.set_last(vertex);
    }

    fn add_vertex(&mut self, vertex: PlineVertex) {
        self.polyline.add_vertex(vertex);
    }

    fn remove_last(&mut self) {
        self.polyline.remove_last();
    }

    fn set_is_closed(&mut self, is_closed: bool) {
        self.polyline.set_is_closed(is_closed);
    }

    fn clear(&mut self) {
        *self = Self::empty();
    }
}

impl PlineCreation for Drawn {
    fn with_capacity(capacity: usize, is_closed: bool) -> Self {
        Self {
            polyline: Polyline::with_capacity(capacity, is_closed),
            asked: Cell::new(0),
            kept: Vec::with_capacity(capacity),
        }
    }

    /// Each segment of a copy is the span of itself.
    fn create_from<P>(source: &P) -> Self
    where
        P: PlineSource<Num = f64> + ?Sized,
    {
        Self {
            polyline: Polyline::create_from(source),
            asked: Cell::new(0),
            kept: (0..source.segment_count() as u32).map(|i| 2 * i).collect(),
        }
    }
}
