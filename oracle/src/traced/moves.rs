//! The walk as a row of moves, and the drawing that the kept ones make.

use super::joins::{Join, Setting};
use super::segments::Segment;
use super::why::{Origin, Reason, Why};
use super::{Event, Rule, Site, Trace};
use crate::core::math::Vector2;
use crate::polyline::{PlineSource, PlineVertex, Polyline};

pub(super) struct Move {
    pub end: Vector2,
    pub bulge: f64,
    pub why: Why,
}

/// Where the walk starts, its moves, and its joins in the order in which they are made: the closing
/// one first. The last move of a closed walk ends where it starts.
pub(super) struct Walk {
    start: Vector2,
    pub moves: Vec<Move>,
    pub joins: Vec<Join>,
}

/// Where a span starts or ends on its segment, and by which rule.
#[derive(Debug, Copy, Clone)]
pub(super) struct SpanEnd {
    param: f64,
    rule: Option<Rule>,
}

impl SpanEnd {
    /// The end of a segment at which there is no join.
    pub fn free(param: f64) -> Self {
        Self { param, rule: None }
    }

    pub fn before(join: &Join) -> Self {
        Self {
            param: join.end_param,
            rule: join.end_rule,
        }
    }

    pub fn after(join: &Join) -> Self {
        Self {
            param: join.start_param,
            rule: join.start_rule,
        }
    }
}

/// The vertices, and for each kept move, thus for each segment, why it is as it is.
pub(super) struct Drawing {
    pub vertices: Vec<[f64; 3]>,
    pub whys: Vec<Why>,
    pub closed: bool,
}

impl Drawing {
    pub fn empty() -> Self {
        Self {
            vertices: Vec::new(),
            whys: Vec::new(),
            closed: false,
        }
    }

    pub fn flags(&self) -> impl Iterator<Item = bool> {
        self.whys.iter().map(|why| why.reason.is_flagged())
    }

    pub fn origins(&self) -> impl Iterator<Item = Origin> {
        self.whys.iter().map(|why| why.origin)
    }
}

impl Trace {
    pub(super) fn walk(&mut self, set: Setting, source: &Polyline, segments: &[Segment]) -> Walk {
        let last = segments.len() - 1;
        let closing = source
            .is_closed
            .then(|| self.join(set, &segments[last], &segments[0], source.at(0).pos()));
        let start = closing.map_or(segments[0].ends[0], |join| join.start);
        let mut from = closing.map_or(SpanEnd::free(0.0), |join| SpanEnd::after(&join));
        let mut moves = Vec::new();
        let mut joins = Vec::from_iter(closing);
        for i in 0..last {
            let shared = source.at(i + 1).pos();
            let join = self.join(set, &segments[i], &segments[i + 1], shared);
            let ends = [from, SpanEnd::before(&join)];
            moves.push(self.span(&segments[i], i, ends, join.end));
            moves.extend(connectors(i, &join));
            from = SpanEnd::after(&join);
            joins.push(join);
        }
        moves.extend(match closing {
            None => {
                let end = segments[last].ends[1];
                let ends = [from, SpanEnd::free(1.0)];
                vec![self.span(&segments[last], last, ends, end)]
            }
            Some(join) => self.closing(set, segments, from, &join),
        });
        Walk {
            start,
            moves,
            joins,
        }
    }

    /// The last span of a closed walk, and the closing connectors unless the span closes it.
    fn closing(
        &mut self,
        set: Setting,
        segments: &[Segment],
        from: SpanEnd,
        join: &Join,
    ) -> Vec<Move> {
        let last = segments.len() - 1;
        let ends = [from, SpanEnd::before(join)];
        let sites = [Site::ClosingMeetsX, Site::ClosingMeetsY];
        if self.near(sites, join.end, join.start, set.eps) {
            self.mark(Event::ClosingSpan);
            return vec![self.span(&segments[last], last, ends, join.start)];
        }
        self.mark(Event::ClosingConnector);
        let span = self.span(&segments[last], last, ends, join.end);
        std::iter::once(span)
            .chain(connectors(last, join))
            .collect()
    }

    /// The part of a segment between its two ends, as a move to `end`.
    pub(super) fn span(
        &mut self,
        segment: &Segment,
        source: usize,
        ends: [SpanEnd; 2],
        end: Vector2,
    ) -> Move {
        let [from, to] = ends.map(|end| end.param);
        Move {
            end,
            bulge: segment.bulge(from, to),
            why: Why {
                origin: Origin::Span(source),
                reason: self.span_reason(segment, from, to),
                rules: ends.map(|end| end.rule),
            },
        }
    }

    pub(super) fn span_reason(&mut self, segment: &Segment, from: f64, to: f64) -> Reason {
        if segment.is_collapsed() {
            Reason::Collapsed
        } else if self.at_most(Site::TurnedBack, to, from) {
            Reason::TurnedBack([from, to])
        } else {
            Reason::InOrder
        }
    }

    /// Draws each vertex when a kept move leaves it.
    pub(super) fn draw(&mut self, set: Setting, walk: &Walk, closed: bool) -> Drawing {
        let mut drawing = Drawing::empty();
        let mut last = walk.start;
        let mut kept = Vec::new();
        for (i, step) in walk.moves.iter().enumerate() {
            let closing = closed && i + 1 == walk.moves.len();
            let sites = walk.drop_sites(i, closing);
            let dropped = self.near(sites, last, step.end, set.eps);
            self.mark(fate(step, dropped));
            self.mark_if(
                dropped && closing && !drawing.vertices.is_empty(),
                Event::LastRemoved,
            );
            kept.push(!dropped);
            if !dropped {
                drawing.vertices.push([last.x, last.y, step.bulge]);
                drawing.whys.push(step.why);
                last = step.end;
            }
        }
        self.mark_pairs(walk, &kept, closed);
        if drawing.vertices.is_empty() {
            self.mark(Event::NothingKept);
            return drawing;
        }
        if !closed {
            drawing.vertices.push([last.x, last.y, 0.0]);
        }
        drawing.closed = closed;
        drawing
    }

    pub(super) fn segments(&mut self, source: &Polyline, offset: f64) -> Vec<Segment> {
        let ends: Vec<(PlineVertex, PlineVertex)> = source.iter_segments().collect();
        ends.into_iter()
            .map(|(v1, v2)| self.segment(v1, v2, offset))
            .collect()
    }
}

/// The connector that a join after the segment `source` leads along, or the two by its point.
pub(super) fn connectors(source: usize, join: &Join) -> impl Iterator<Item = Move> {
    let why = Why {
        origin: Origin::Connector(source),
        reason: Reason::of_connector(join.cause),
        rules: [None; 2],
    };
    let bulge = join.bulge;
    let ends = join.tip.into_iter().chain([join.start]);
    ends.map(move |end| Move { end, bulge, why })
}

fn fate(step: &Move, dropped: bool) -> Event {
    let Why { origin, reason, .. } = step.why;
    let span = matches!(origin, Origin::Span(_));
    match (span, dropped, reason.is_flagged()) {
        (true, false, false) => Event::SpanKept,
        (true, false, true) => Event::SpanFlagged,
        (true, true, false) => Event::SpanDropped,
        (true, true, true) => Event::SpanDroppedFlagged,
        (false, false, false) => Event::ConnectorKept,
        (false, false, true) => Event::ConnectorFlagged,
        (false, true, false) => Event::ConnectorDropped,
        (false, true, true) => Event::ConnectorDroppedFlagged,
    }
}
