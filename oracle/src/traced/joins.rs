//! Joins: classing, the connector's bulge, trimming and the order of candidates.

use super::arithmetic::{Candidates, Lines};
use super::segments::{Arc, Kind, Segment, pair};
use super::{Event, Pair, Rule, Site, Trace};
use crate::core::math::{Vector2, dist_squared, point_from_parametric};

/// The branch that made a join; its place here is its number in `parts`.
#[derive(Debug, Copy, Clone, PartialEq, Eq)]
pub(super) enum Cause {
    Coincident,
    Met,
    Outer,
    Reversal,
    CollapsedSide,
    NoMeeting,
    Missed,
    ZeroTangent,
    SameDirection,
    Pointed,
}

/// Where the span before ends, where the span after starts, and what leads from one to the other.
#[derive(Debug, Copy, Clone)]
pub(super) struct Join {
    pub pair: Pair,
    pub cause: Cause,
    pub end: Vector2,
    pub end_param: f64,
    /// By which rule an arc before was trimmed.
    pub end_rule: Option<Rule>,
    pub start: Vector2,
    pub start_param: f64,
    /// By which rule an arc after was trimmed.
    pub start_rule: Option<Rule>,
    pub bulge: f64,
    /// The point by which two straight connectors lead.
    pub tip: Option<Vector2>,
}

impl Join {
    /// A straight connector between two whole segments.
    fn whole(cause: Cause, end: Vector2, start: Vector2) -> Self {
        Self {
            pair: Pair::NoJoin,
            cause,
            end,
            end_param: 1.0,
            end_rule: None,
            start,
            start_param: 0.0,
            start_rule: None,
            bulge: 0.0,
            tip: None,
        }
    }
}

/// The place of a point on a segment: its parameter and, on an arc, the rule that granted it.
#[derive(Debug, Copy, Clone)]
pub(super) struct Granted {
    pub param: f64,
    pub rule: Option<Rule>,
}

impl Granted {
    /// A place on a line, where no rule is asked for.
    fn on_line(param: f64) -> Self {
        Self { param, rule: None }
    }

    fn by(rule: Rule, param: f64) -> Self {
        let rule = Some(rule);
        Self { param, rule }
    }
}

/// A point of both segments, with its place on each.
type Meeting = (Vector2, Granted, Granted);

/// A meeting, or the cause of the gap that there is for want of one.
type Met = Result<Meeting, Cause>;

/// Offset and ε of the job at hand, and its ratio in the pointed mode.
#[derive(Debug, Copy, Clone)]
pub(super) struct Setting {
    pub offset: f64,
    pub eps: f64,
    pub ratio: Option<f64>,
}

impl Setting {
    pub fn round(offset: f64, eps: f64) -> Self {
        let ratio = None;
        Self { offset, eps, ratio }
    }
}

/// The two candidates and what is recorded of the choice between them.
struct Choice<C> {
    candidates: [C; 2],
    squares: [f64; 2],
    nearer: Site,
}

impl Trace {
    pub(super) fn join(
        &mut self,
        set: Setting,
        current: &Segment,
        next: &Segment,
        shared: Vector2,
    ) -> Join {
        let pair = pair(current, next);
        self.pair = pair;
        let join = self.join_of(set, current, next, shared);
        self.pair = Pair::NoJoin;
        Join { pair, ..join }
    }

    fn join_of(
        &mut self,
        set: Setting,
        current: &Segment,
        next: &Segment,
        shared: Vector2,
    ) -> Join {
        let (end, start) = (current.ends[1], next.ends[0]);
        if self.near([Site::CoincidentX, Site::CoincidentY], end, start, set.eps) {
            self.mark(Event::Coincident);
            return Join::whole(Cause::Coincident, end, end);
        }
        if let Some(join) = self.settled(set, current, next, shared) {
            return join;
        }
        match self.meeting(set, current, next, shared) {
            Ok((point, on_current, on_next)) => {
                self.mark(Event::Trimmed);
                Join {
                    end_param: on_current.param,
                    end_rule: on_current.rule,
                    start_param: on_next.param,
                    start_rule: on_next.rule,
                    ..Join::whole(Cause::Met, point, point)
                }
            }
            Err(cause) => Join::whole(cause, end, start),
        }
    }

    /// Where the two meet; a collapsed one has no line or circle to meet.
    pub(super) fn meeting(
        &mut self,
        set: Setting,
        current: &Segment,
        next: &Segment,
        shared: Vector2,
    ) -> Met {
        match (current.kind, next.kind) {
            (Kind::Line, Kind::Line) => self.line_line(set, current.ends, next.ends),
            (Kind::Line, Kind::Arc(arc)) => self.line_arc(set, current.ends, &arc, shared),
            (Kind::Arc(arc), Kind::Line) => self
                .line_arc(set, next.ends, &arc, shared)
                .map(|(point, on_line, on_arc)| (point, on_arc, on_line)),
            (Kind::Arc(current), Kind::Arc(next)) => self.arc_arc(set, &current, &next, shared),
            _ => {
                self.mark(match (current.is_collapsed(), next.is_collapsed()) {
                    (true, true) => Event::CollapsedBoth,
                    (true, false) => Event::CollapsedCurrent,
                    _ => Event::CollapsedNext,
                });
                Err(Cause::CollapsedSide)
            }
        }
    }

    /// The join, unless the two segments have to be intersected.
    fn settled(
        &mut self,
        set: Setting,
        current: &Segment,
        next: &Segment,
        shared: Vector2,
    ) -> Option<Join> {
        let (end, start) = (current.ends[1], next.ends[0]);
        let (incoming, outgoing) = (self.tangent(current, 1), self.tangent(next, 0));
        let squares = [incoming.length_squared(), outgoing.length_squared()];
        let least = set.eps * set.eps;
        if self.at_most(Site::IncomingZero, squares[0], least) {
            self.mark(Event::ZeroIncoming);
            return Some(Join::whole(Cause::ZeroTangent, end, start));
        }
        if self.at_most(Site::OutgoingZero, squares[1], least) {
            self.mark(Event::ZeroOutgoing);
            return Some(Join::whole(Cause::ZeroTangent, end, start));
        }
        let turn = incoming.perp_dot(outgoing);
        let bound = 1e-8 * 1e-8 * squares[0] * squares[1];
        if self.at_most(Site::Straight, turn * turn, bound) {
            if self.below(Site::Opposed, incoming.dot(outgoing), 0.0) {
                self.mark(Event::ReversalRound);
                return Some(self.round(set, Cause::Reversal, [end, start], shared));
            }
            self.mark(Event::SameDirection);
            return Some(Join::whole(Cause::SameDirection, end, start));
        }
        if self.above(Site::Inner, set.offset * turn, 0.0) {
            return None;
        }
        self.mark(Event::OuterRound);
        if let Some(tip) = self.tip(set, [current, next], shared) {
            return Some(Join {
                tip: Some(tip),
                ..Join::whole(Cause::Pointed, end, start)
            });
        }
        Some(self.round(set, Cause::Outer, [end, start], shared))
    }

    pub(super) fn round(
        &mut self,
        set: Setting,
        cause: Cause,
        [end, start]: [Vector2; 2],
        shared: Vector2,
    ) -> Join {
        // What comes of a connector does not hang on the two segments.
        let pair = std::mem::replace(&mut self.pair, Pair::NoJoin);
        let (from, to) = ((end - shared).normalize(), (start - shared).normalize());
        let mut cos = from.dot(to);
        if self.below(Site::CosLow, cos, -1.0) {
            self.mark(Event::ClampedLow);
            cos = -1.0;
        } else if self.above(Site::CosHigh, cos, 1.0) {
            self.mark(Event::ClampedHigh);
            cos = 1.0;
        }
        let mut sin = from.perp_dot(to).abs();
        if self.above(Site::SinHigh, sin, 1.0) {
            self.mark(Event::ClampedSin);
            sin = 1.0;
        }
        let size = if self.at_least(Site::CosAtLeastZero, cos, 0.0) {
            self.mark(Event::BulgeFlat);
            sin / (1.0 + cos + (2.0 * (1.0 + cos)).sqrt())
        } else {
            self.mark(Event::BulgeSteep);
            (1.0 - cos) / (sin + (2.0 * (1.0 - cos)).sqrt())
        };
        let clockwise = self.at_least(Site::Clockwise, set.offset, 0.0);
        let bulge = if clockwise { -size } else { size };
        self.mark_if(size == 0.0 && clockwise, Event::MinusZeroBulge);
        self.mark_if(size == 0.0 && !clockwise, Event::ZeroBulge);
        self.mark_if(size.is_nan(), Event::NanBulge);
        self.pair = pair;
        Join {
            bulge,
            ..Join::whole(cause, end, start)
        }
    }

    fn line_line(&mut self, set: Setting, current: [Vector2; 2], next: [Vector2; 2]) -> Met {
        match self.lines(current, next, set.eps) {
            Lines::True(t, s) => {
                self.mark(Event::LinesTrue);
                Ok(self.clamped(t, s, current, next))
            }
            Lines::False => {
                self.mark(Event::LinesFalse);
                self.mark(Event::Missed);
                Err(Cause::Missed)
            }
            Lines::None => {
                self.mark(Event::LinesNone);
                self.mark(Event::NoMeeting);
                Err(Cause::NoMeeting)
            }
            Lines::Overlap => {
                self.mark(Event::LinesOverlap);
                let param = self.param_of(next, current[1], set.eps);
                let usable = self.usable_line_param(set, param, next);
                self.mark_if(usable.is_none(), Event::Missed);
                let param = usable.ok_or(Cause::Missed)?;
                Ok((current[1], Granted::on_line(1.0), Granted::on_line(param)))
            }
        }
    }

    /// A true meeting, moved to the end of the line that it lies past.
    fn clamped(&mut self, t: f64, s: f64, current: [Vector2; 2], next: [Vector2; 2]) -> Meeting {
        let low = [
            self.below(Site::TNegative, t, 0.0),
            self.below(Site::SNegative, s, 0.0),
        ];
        let high = [
            !low[0] && self.above(Site::TOverOne, t, 1.0),
            !low[1] && self.above(Site::SOverOne, s, 1.0),
        ];
        let place = |line: usize, own: f64| match (low[line], high[line]) {
            (true, _) => Granted::on_line(0.0),
            (_, true) => Granted::on_line(1.0),
            _ => Granted::on_line(own),
        };
        let (event, point) = match (low[0], high[0], low[1], high[1]) {
            (true, ..) => (Event::PointAtCurrentStart, current[0]),
            (_, true, ..) => (Event::PointAtCurrentEnd, current[1]),
            (_, _, true, _) => (Event::PointAtNextStart, next[0]),
            (_, _, _, true) => (Event::PointAtNextEnd, next[1]),
            _ => {
                let point = point_from_parametric(current[0], current[1], t);
                (Event::PointInside, point)
            }
        };
        self.mark(event);
        (point, place(0, t), place(1, s))
    }

    pub(super) fn usable_line_param(
        &mut self,
        set: Setting,
        param: f64,
        line: [Vector2; 2],
    ) -> Option<f64> {
        let low = self.below(Site::LineParamLow, param, 0.0);
        if !low && !self.above(Site::LineParamHigh, param, 1.0) {
            self.mark(if param.is_nan() {
                Event::ParamNan
            } else {
                Event::ParamInside
            });
            return Some(param);
        }
        let bound = if low { 0.0 } else { 1.0 };
        let over = param - bound;
        let length = (line[1] - line[0]).length_squared();
        let missed = self.above(Site::LineParamOver, over * over * length, set.eps * set.eps);
        self.mark(match (low, missed) {
            (true, true) => Event::ParamTooLow,
            (true, false) => Event::ParamLow,
            (false, true) => Event::ParamTooHigh,
            (false, false) => Event::ParamHigh,
        });
        (!missed).then_some(bound)
    }

    pub(super) fn usable_arc_param(
        &mut self,
        set: Setting,
        arc: &Arc,
        point: Vector2,
    ) -> Option<Granted> {
        let [start, end] = arc.ends;
        if self.near([Site::ArcStartX, Site::ArcStartY], point, start, set.eps) {
            self.mark(Event::ArcStartMatched);
            return Some(Granted::by(Rule::StartMatched, 0.0));
        }
        if self.near([Site::ArcEndX, Site::ArcEndY], point, end, set.eps) {
            self.mark(Event::ArcEndMatched);
            return Some(Granted::by(Rule::EndMatched, 1.0));
        }
        let at = self.angle(arc.center, point);
        let backward = self.below(Site::ArcTurns, arc.sweep, 0.0);
        let traveled = self.normalized(if backward {
            arc.start_angle - at
        } else {
            at - arc.start_angle
        });
        let sweep = arc.sweep.abs();
        if !self.above(Site::PastEnd, traveled, sweep) {
            self.mark(if traveled.is_nan() {
                Event::ArcNan
            } else {
                Event::ArcInside
            });
            return Some(Granted::by(Rule::Inside, traveled / sweep));
        }
        let past = arc.radius * (traveled - sweep);
        if self.above(Site::PastTooFar, past, set.eps) {
            self.mark(Event::ArcMissed);
            return None;
        }
        self.mark(Event::ArcPast);
        Some(Granted::by(Rule::PastEnd, 1.0))
    }

    fn line_arc(&mut self, set: Setting, line: [Vector2; 2], arc: &Arc, shared: Vector2) -> Met {
        let at = |t: f64| point_from_parametric(line[0], line[1], t);
        let attempt = |trace: &mut Self, t: f64| trace.line_arc_at(set, line, arc, t, at(t));
        match self.line_and_circle(line, arc.radius, arc.center, set.eps) {
            Candidates::None | Candidates::All => self.no_meeting(),
            Candidates::One(t) => {
                let meeting = attempt(self, t);
                self.tangent_meeting(meeting)
            }
            Candidates::Two(t0, t1) => {
                let choice = Choice {
                    candidates: [t0, t1],
                    squares: [t0, t1].map(|t| dist_squared(at(t), shared)),
                    nearer: Site::LineFirstNearer,
                };
                self.choose(set, choice, attempt)
            }
        }
    }

    fn line_arc_at(
        &mut self,
        set: Setting,
        line: [Vector2; 2],
        arc: &Arc,
        t: f64,
        meet: Vector2,
    ) -> Option<Meeting> {
        let on_line = self.usable_line_param(set, t, line)?;
        let starts = [Site::SnapArcStartX, Site::SnapArcStartY];
        let ends = [Site::SnapArcEndX, Site::SnapArcEndY];
        let (event, point) = if self.below(Site::LineLow, t, 0.0) {
            (Event::SnapLineStart, line[0])
        } else if self.above(Site::LineHigh, t, 1.0) {
            (Event::SnapLineEnd, line[1])
        } else if self.near(starts, meet, arc.ends[0], set.eps) {
            (Event::SnapArcStart, arc.ends[0])
        } else if self.near(ends, meet, arc.ends[1], set.eps) {
            (Event::SnapArcEnd, arc.ends[1])
        } else {
            (Event::SnapNone, meet)
        };
        self.mark(event);
        let on_arc = self.usable_arc_param(set, arc, point)?;
        Some((point, Granted::on_line(on_line), on_arc))
    }

    fn arc_arc(&mut self, set: Setting, current: &Arc, next: &Arc, shared: Vector2) -> Met {
        let attempt = |trace: &mut Self, meet: Vector2| trace.arc_arc_at(set, current, next, meet);
        let circles = [current, next].map(|arc| (arc.radius, arc.center));
        match self.circles(circles[0], circles[1], set.eps) {
            Candidates::None => self.no_meeting(),
            Candidates::One(point) => {
                let meeting = attempt(self, point);
                self.tangent_meeting(meeting)
            }
            Candidates::Two(first, second) => {
                let choice = Choice {
                    candidates: [first, second],
                    squares: [first, second].map(|point| dist_squared(point, shared)),
                    nearer: Site::ArcFirstNearer,
                };
                self.choose(set, choice, attempt)
            }
            Candidates::All => {
                let events = [
                    Event::OverlapFirst,
                    Event::OverlapSecond,
                    Event::OverlapMissed,
                ];
                self.either([next.ends[0], current.ends[1]], attempt, events)
            }
        }
    }

    fn arc_arc_at(
        &mut self,
        set: Setting,
        current: &Arc,
        next: &Arc,
        meet: Vector2,
    ) -> Option<Meeting> {
        use Site::*;
        let ends = [
            (
                current.ends[0],
                [SnapCurrentStartX, SnapCurrentStartY],
                Event::SnapCurrentStart,
            ),
            (
                current.ends[1],
                [SnapCurrentEndX, SnapCurrentEndY],
                Event::SnapCurrentEnd,
            ),
            (
                next.ends[0],
                [SnapNextStartX, SnapNextStartY],
                Event::SnapNextStart,
            ),
            (
                next.ends[1],
                [SnapNextEndX, SnapNextEndY],
                Event::SnapNextEnd,
            ),
        ];
        let snapped = ends
            .into_iter()
            .find(|(end, sites, _)| self.near(*sites, meet, *end, set.eps));
        let (point, event) =
            snapped.map_or((meet, Event::SnapNone), |(end, _, event)| (end, event));
        self.mark(event);
        let on_current = self.usable_arc_param(set, current, point)?;
        let on_next = self.usable_arc_param(set, next, point)?;
        Some((point, on_current, on_next))
    }

    fn no_meeting(&mut self) -> Met {
        self.mark(Event::MeetNone);
        self.mark(Event::NoMeeting);
        Err(Cause::NoMeeting)
    }

    fn tangent_meeting(&mut self, meeting: Option<Meeting>) -> Met {
        self.taken(meeting, Event::MeetTangentTaken, Event::MeetTangentMissed)
    }

    fn taken(&mut self, meeting: Option<Meeting>, yes: Event, no: Event) -> Met {
        self.mark(if meeting.is_some() { yes } else { no });
        self.mark_if(meeting.is_none(), Event::Missed);
        meeting.ok_or(Cause::Missed)
    }

    /// The first of two that can be used.
    fn either<C: Copy>(
        &mut self,
        candidates: [C; 2],
        mut attempt: impl FnMut(&mut Self, C) -> Option<Meeting>,
        [first, second, neither]: [Event; 3],
    ) -> Met {
        if let Some(meeting) = attempt(self, candidates[0]) {
            self.mark(first);
            return Ok(meeting);
        }
        let meeting = attempt(self, candidates[1]);
        self.taken(meeting, second, neither)
    }

    /// The nearer of two; both in turn only where they count as equally near.
    fn choose<C: Copy>(
        &mut self,
        set: Setting,
        choice: Choice<C>,
        mut attempt: impl FnMut(&mut Self, C) -> Option<Meeting>,
    ) -> Met {
        let [first, second] = choice.squares;
        if self.equally_near(set, first, second) {
            let events = [Event::EqualFirst, Event::EqualSecond, Event::EqualMissed];
            self.either(choice.candidates, attempt, events)
        } else if self.below(choice.nearer, first, second) {
            let meeting = attempt(self, choice.candidates[0]);
            self.taken(meeting, Event::FirstNearTaken, Event::FirstNearMissed)
        } else {
            let meeting = attempt(self, choice.candidates[1]);
            self.taken(meeting, Event::SecondNearTaken, Event::SecondNearMissed)
        }
    }

    pub(super) fn equally_near(&mut self, set: Setting, first: f64, second: f64) -> bool {
        let least = set.eps * set.eps;
        let sum = first + second;
        if self.at_most(Site::SumSmall, sum, least) {
            return true;
        }
        let rest = sum - least;
        self.below(Site::DistancesEqual, rest * rest, 4.0 * first * second)
    }
}
