//! One offset segment for each source segment, its tangents and spans.

use super::{Event, Pair, Site, Trace};
use crate::core::math::{Vector2, bulge_from_angle};
use crate::polyline::{PlineVertex, seg_arc_radius_and_center};

#[derive(Debug, Copy, Clone)]
pub(super) struct Segment {
    pub ends: [Vector2; 2],
    pub kind: Kind,
}

#[derive(Debug, Copy, Clone)]
pub(super) enum Kind {
    Line,
    Arc(Arc),
    /// The tangents of the source arc at its two ends.
    Collapsed([Vector2; 2]),
}

#[derive(Debug, Copy, Clone)]
pub(super) struct Arc {
    pub ends: [Vector2; 2],
    pub center: Vector2,
    pub radius: f64,
    pub start_angle: f64,
    pub sweep: f64,
}

impl Segment {
    pub fn is_collapsed(&self) -> bool {
        matches!(self.kind, Kind::Collapsed(_))
    }

    /// The bulge of the part between two parameters.
    pub fn bulge(&self, from: f64, to: f64) -> f64 {
        match self.kind {
            Kind::Arc(arc) => bulge_from_angle(arc.sweep * (to - from)),
            Kind::Line | Kind::Collapsed(_) => 0.0,
        }
    }
}

pub(super) fn pair(current: &Segment, next: &Segment) -> Pair {
    match (current.kind, next.kind) {
        (Kind::Line, Kind::Line) => Pair::LineLine,
        (Kind::Line, Kind::Arc(_)) => Pair::LineArc,
        (Kind::Arc(_), Kind::Line) => Pair::ArcLine,
        (Kind::Arc(_), Kind::Arc(_)) => Pair::ArcArc,
        _ => Pair::WithCollapsed,
    }
}

impl Trace {
    pub(super) fn segment(&mut self, v1: PlineVertex, v2: PlineVertex, offset: f64) -> Segment {
        let source = [v1.pos(), v2.pos()];
        if self.below(Site::BulgeZero, v1.bulge.abs(), 1e-8) {
            let aside = (source[1] - source[0]).unit_perp().scale(offset);
            self.mark(Event::LineMade);
            return Segment {
                ends: source.map(|point| point + aside),
                kind: Kind::Line,
            };
        }
        let clockwise = self.below(Site::BulgeNegative, v1.bulge, 0.0);
        let (source_radius, center) = seg_arc_radius_and_center(v1, v2);
        let radius = source_radius + if clockwise { offset } else { -offset };
        let spokes = source.map(|point| point - center);
        let ends = spokes.map(|spoke| center + spoke.scale(radius / source_radius));
        if self.below(Site::Collapses, radius, 0.0 + 1e-8) {
            self.mark(if clockwise {
                Event::CollapsedRight
            } else {
                Event::CollapsedLeft
            });
            let tangent = |spoke: Vector2| {
                if clockwise {
                    -spoke.perp()
                } else {
                    spoke.perp()
                }
            };
            return Segment {
                ends,
                kind: Kind::Collapsed(spokes.map(tangent)),
            };
        }
        self.mark(Event::ArcMade);
        let arc = Arc {
            ends,
            center,
            radius,
            start_angle: self.angle(center, ends[0]),
            sweep: 4.0 * self.atan(v1.bulge),
        };
        Segment {
            ends,
            kind: Kind::Arc(arc),
        }
    }

    /// The direction at the start (0) or the end (1) of a segment.
    pub(super) fn tangent(&mut self, segment: &Segment, which: usize) -> Vector2 {
        match segment.kind {
            Kind::Line => segment.ends[1] - segment.ends[0],
            Kind::Collapsed(tangents) => tangents[which],
            Kind::Arc(arc) => {
                let left = (segment.ends[which] - arc.center).perp();
                if self.below(Site::TangentTurns, arc.sweep, 0.0) {
                    -left
                } else {
                    left
                }
            }
        }
    }
}
