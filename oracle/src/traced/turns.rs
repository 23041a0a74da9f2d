//! An open walk a vertex at a time: the moves that are certain once a vertex is known. It holds the last
//! segment and the last kept point, and nothing that grows.

use super::joins::Setting;
use super::moves::{Move, SpanEnd, connectors};
use super::segments::Segment;
use super::{Site, Trace};
use crate::core::math::Vector2;
use crate::polyline::PlineVertex;

/// A kept move.
#[derive(Debug, Copy, Clone)]
pub struct Stroke {
    /// The vertex that it leaves, with its bulge.
    pub vertex: [f64; 3],
    pub flag: bool,
    pub origin: u32,
    /// Where it leads.
    pub end: [f64; 2],
}

#[derive(Debug, Copy, Clone)]
pub struct Turns {
    set: Setting,
    vertex: Option<PlineVertex>,
    /// The last segment and its number.
    segment: Option<(usize, Segment)>,
    /// Where that segment's span starts.
    from: SpanEnd,
    last: Vector2,
    /// Whether a move was kept.
    kept: bool,
}

impl Turns {
    pub fn new(offset: f64, eps: f64, ratio: Option<f64>) -> Self {
        Self {
            set: Setting { offset, eps, ratio },
            vertex: None,
            segment: None,
            from: SpanEnd::free(0.0),
            last: Vector2::new(0.0, 0.0),
            kept: false,
        }
    }

    /// From the third vertex on: the span before the last one, and what leads on from it.
    pub fn vertex(&mut self, vertex: PlineVertex) -> Vec<Stroke> {
        let Some(before) = self.vertex.replace(vertex) else {
            return Vec::new();
        };
        let mut trace = Trace::new();
        let next = trace.segment(before, vertex, self.set.offset);
        let Some((source, current)) = self.segment else {
            self.segment = Some((0, next));
            self.last = next.ends[0];
            return Vec::new();
        };
        self.segment = Some((source + 1, next));
        let join = trace.join(self.set, &current, &next, before.pos());
        let ends = [self.from, SpanEnd::before(&join)];
        let span = trace.span(&current, source, ends, join.end);
        self.from = SpanEnd::after(&join);
        let moves = std::iter::once(span).chain(connectors(source, &join));
        moves.filter_map(|step| self.stroke(&step)).collect()
    }

    /// The last span, if it is kept, and the point that the walk ends at, unless nothing is drawn.
    pub fn end(&mut self) -> (Option<Stroke>, Option<[f64; 3]>) {
        let Some((source, segment)) = self.segment else {
            return (None, None);
        };
        if source == 0 && segment.is_collapsed() {
            return (None, None);
        }
        self.last_span(source, &segment)
    }

    /// The same also of a lone collapsed arc, of which nothing is drawn.
    pub fn end_of_any(&mut self) -> (Option<Stroke>, Option<[f64; 3]>) {
        match self.segment {
            Some((source, segment)) => self.last_span(source, &segment),
            None => (None, None),
        }
    }

    fn last_span(
        &mut self,
        source: usize,
        segment: &Segment,
    ) -> (Option<Stroke>, Option<[f64; 3]>) {
        let ends = [self.from, SpanEnd::free(1.0)];
        let span = Trace::new().span(segment, source, ends, segment.ends[1]);
        let stroke = self.stroke(&span);
        (stroke, self.point())
    }

    /// The last kept point, once there is one.
    pub fn point(&self) -> Option<[f64; 3]> {
        self.kept.then_some([self.last.x, self.last.y, 0.0])
    }

    fn stroke(&mut self, step: &Move) -> Option<Stroke> {
        let sites = [Site::DropX, Site::DropY];
        if Trace::new().near(sites, self.last, step.end, self.set.eps) {
            return None;
        }
        let left = self.last;
        self.last = step.end;
        self.kept = true;
        Some(Stroke {
            vertex: [left.x, left.y, step.bulge],
            flag: step.why.reason.is_flagged(),
            origin: step.why.origin.code(),
            end: [step.end.x, step.end.y],
        })
    }
}
