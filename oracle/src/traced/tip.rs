//! The point of a sharp outer corner, and what becomes of the two moves by it: 02's 2026-13.

use super::joins::Setting;
use super::moves::Walk;
use super::segments::{Kind, Segment};
use super::why::Reason;
use super::{Event, Site, Trace};
use crate::core::math::{Vector2, dist_squared, point_from_parametric};

impl Trace {
    /// The point of an outer join, unless the round rule stands: in the round mode, where a side is no
    /// line, and where the test fails or is asked of a NaN.
    pub(super) fn tip(
        &mut self,
        set: Setting,
        sides: [&Segment; 2],
        shared: Vector2,
    ) -> Option<Vector2> {
        let ratio = set.ratio?;
        let [Kind::Line, Kind::Line] = sides.map(|side| side.kind) else {
            return None;
        };
        let [p, q] = sides.map(|side| side.ends);
        let t = self.prolonged(p, q, set.eps)?;
        let point = point_from_parametric(p[0], p[1], t);
        let most = ratio * set.offset;
        let square = dist_squared(point, shared);
        let taken = self.at_most(Site::TipWithin, square, most * most);
        self.mark(if taken { Event::Tip } else { Event::TipFar });
        self.mark_if(taken && t < 1.0, Event::TipBehind);
        taken.then_some(point)
    }

    /// 01's t on the first line, whatever it is, unless |D| is under ε.
    fn prolonged(&mut self, p: [Vector2; 2], q: [Vector2; 2], eps: f64) -> Option<f64> {
        let (v, u, w) = (p[1] - p[0], q[1] - q[0], p[0] - q[0]);
        let d = v.perp_dot(u);
        if !self.at_least(Site::TipCrosses, d.abs(), eps) {
            self.mark(Event::TipFlat);
            return None;
        }
        Some(u.perp_dot(w) / d)
    }

    /// Marks what became of each pair, given which moves were kept.
    pub(super) fn mark_pairs(&mut self, walk: &Walk, kept: &[bool], closed: bool) {
        for first in (0..walk.moves.len()).filter(|i| walk.starts_pair(*i)) {
            let closing = closed && first + 2 == kept.len();
            self.mark(match (closing, kept[first], kept[first + 1]) {
                (false, true, true) => Event::PairKept,
                (false, true, false) => Event::FirstKept,
                (false, false, true) => Event::SecondKept,
                (false, false, false) => Event::NeitherKept,
                (true, true, true) => Event::ClosingPairKept,
                (true, true, false) => Event::ClosingFirstKept,
                (true, false, true) => Event::ClosingSecondKept,
                (true, false, false) => Event::ClosingNeitherKept,
            });
        }
    }
}

impl Walk {
    /// Whether a move leads to a point: the next one, from there, has the same origin.
    fn starts_pair(&self, place: usize) -> bool {
        let origin = |place: usize| self.moves.get(place).map(|step| step.why.origin);
        origin(place) == origin(place + 1)
    }

    /// The tests by which a move is dropped.
    pub(super) fn drop_sites(&self, place: usize, closing: bool) -> [Site; 2] {
        let pointed = self.moves[place].why.reason == Reason::Pointed;
        match (pointed, closing) {
            (false, false) => [Site::DropX, Site::DropY],
            (false, true) => [Site::CloseX, Site::CloseY],
            (true, true) => [Site::TipCloseX, Site::TipCloseY],
            (true, false) if self.starts_pair(place) => [Site::TipX, Site::TipY],
            (true, false) => [Site::TipNextX, Site::TipNextY],
        }
    }
}
