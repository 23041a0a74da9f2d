//! The tests of 01 section 3.

use super::{Event, Site, Trace};
use crate::core::math::{self, Vector2};
use std::f64::consts::{FRAC_PI_2, PI, TAU};

impl Trace {
    /// Within `eps` in x and, if so, in y.
    pub(super) fn near(&mut self, sites: [Site; 2], a: Vector2, b: Vector2, eps: f64) -> bool {
        self.below(sites[0], (a.x - b.x).abs(), eps) && self.below(sites[1], (a.y - b.y).abs(), eps)
    }

    pub(super) fn atan(&mut self, x: f64) -> f64 {
        if !self.above(Site::AtanBeyondOne, x.abs(), 1.0) {
            return math::atan(x);
        }
        let negative = self.below(Site::AtanNegative, x, 0.0);
        let quarter = if negative { -FRAC_PI_2 } else { FRAC_PI_2 };
        quarter - math::atan(1.0 / x)
    }

    pub(super) fn angle(&mut self, center: Vector2, point: Vector2) -> f64 {
        let Vector2 { x, y } = point - center;
        if self.equals(Site::AngleXZero, x, 0.0) && self.equals(Site::AngleYZero, y, 0.0) {
            return 0.0;
        }
        if !self.at_least(Site::AngleWide, x.abs(), y.abs()) {
            let below = self.below(Site::AngleBelow, y, 0.0);
            let quarter = if below { -FRAC_PI_2 } else { FRAC_PI_2 };
            return quarter - self.atan(x / y);
        }
        let base = self.atan(y / x);
        if !self.below(Site::AngleLeft, x, 0.0) {
            base
        } else if self.at_least(Site::AngleAbove, y, 0.0) {
            base + PI
        } else {
            base - PI
        }
    }

    pub(super) fn normalized(&mut self, angle: f64) -> f64 {
        if self.below(Site::AngleNegative, angle, 0.0) {
            angle + TAU
        } else {
            angle
        }
    }

    /// Both parameters where the lines cross, and whether they lie on the lines.
    pub(super) fn lines(&mut self, p: [Vector2; 2], q: [Vector2; 2], eps: f64) -> Lines {
        let (v, u, w) = (p[1] - p[0], q[1] - q[0], p[0] - q[0]);
        let d = v.perp_dot(u);
        if self.at_least(Site::LinesCross, d.abs(), eps) {
            let (t, s) = (u.perp_dot(w) / d, v.perp_dot(w) / d);
            let on_both = self.above(Site::TAbove, t, -eps)
                && self.below(Site::TBelow, t, 1.0 + eps)
                && self.above(Site::SAbove, s, -eps)
                && self.below(Site::SBelow, s, 1.0 + eps);
            return if on_both {
                Lines::True(t, s)
            } else {
                Lines::False
            };
        }
        let a = (q[0] - p[0]).dot(v) / v.dot(v);
        let b = (q[1] - p[0]).dot(v) / v.dot(v);
        let overlap = self.below(Site::CrossV, v.perp_dot(w).abs(), eps)
            && self.below(Site::CrossU, u.perp_dot(w).abs(), eps)
            && (self.at_most(Site::AAtMostOne, a, 1.0) || self.at_most(Site::BAtMostOne, b, 1.0))
            && (self.at_least(Site::AAtLeastZero, a, 0.0)
                || self.at_least(Site::BAtLeastZero, b, 0.0));
        if overlap { Lines::Overlap } else { Lines::None }
    }

    /// The parameters on the line `p`.
    pub(super) fn line_and_circle(
        &mut self,
        p: [Vector2; 2],
        radius: f64,
        center: Vector2,
        eps: f64,
    ) -> Candidates<f64> {
        let (v, w) = (p[1] - p[0], p[0] - center);
        let l = v.dot(v).sqrt();
        let h = v.perp_dot(w).abs() / l;
        let t = -w.dot(v) / v.dot(v);
        if self.above(Site::CircleMissed, h, radius + eps) {
            Candidates::None
        } else if self.at_most(Site::CircleTouched, (h - radius).abs(), eps) {
            Candidates::One(t)
        } else {
            let s = (radius * radius - h * h).sqrt() / l;
            Candidates::Two(t - s, t + s)
        }
    }

    pub(super) fn circles(
        &mut self,
        (r1, c1): (f64, Vector2),
        (r2, c2): (f64, Vector2),
        eps: f64,
    ) -> Candidates<Vector2> {
        let d = (c2 - c1).length();
        let apart = (r1 - r2).abs();
        if self.below(Site::SameCentre, d, eps) {
            let same = self.below(Site::SameRadius, apart, eps);
            return if same {
                Candidates::All
            } else {
                Candidates::None
            };
        }
        if self.above(Site::CirclesApart, d, r1 + r2 + eps)
            || self.below(Site::CirclesNested, d + eps, apart)
        {
            return Candidates::None;
        }
        let a = (r1 * r1 - r2 * r2 + d * d) / (2.0 * d);
        let middle = c1 + (c2 - c1).scale(a / d);
        let k = r1 * r1 - a * a;
        if self.below(Site::TouchOutside, (d - (r1 + r2)).abs(), eps)
            || self.below(Site::TouchInside, (d - apart).abs(), eps)
            || self.at_most(Site::NoHeight, k, 0.0)
        {
            return Candidates::One(middle);
        }
        let aside = (c2 - c1).perp().scale(k.sqrt() / d);
        Candidates::Two(middle + aside, middle - aside)
    }

    /// The parameter of `c` on the line `p`.
    pub(super) fn param_of(&mut self, p: [Vector2; 2], c: Vector2, eps: f64) -> f64 {
        if self.below(Site::Upright, (p[0].x - p[1].x).abs(), eps) {
            (c.y - p[0].y) / (p[1].y - p[0].y)
        } else {
            (c.x - p[0].x) / (p[1].x - p[0].x)
        }
    }

    pub(super) fn mark_if(&mut self, holds: bool, event: Event) {
        if holds {
            self.mark(event);
        }
    }
}

pub(super) enum Lines {
    True(f64, f64),
    False,
    None,
    Overlap,
}

pub(super) enum Candidates<C> {
    None,
    One(C),
    Two(C, C),
    All,
}
