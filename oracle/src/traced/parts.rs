//! The parts of a join by themselves, for samples of each: 000's own are private to it.

use super::joins::{Cause, Join, Setting};
use super::segments::{Arc, Kind, Segment};
use super::why::{Origin, Reason};
use super::{Event, Pair, Rule, Trace};
use crate::core::math::Vector2;
use crate::polyline::PlineVertex;
use crate::stage::Job;

/// Three vertices of a job: two segments and the join between them.
#[derive(Debug, Copy, Clone)]
pub struct Fragment {
    pub vertices: [PlineVertex; 3],
    pub offset: f64,
    pub eps: f64,
}

/// An offset segment that can be met: the ends of a line, or the nine numbers of an arc (start,
/// end, centre, radius, start angle, sweep).
#[derive(Debug, Copy, Clone)]
pub enum Side {
    Line([f64; 4]),
    Arc([f64; 9]),
}

/// The class of a join with the cause that led to it, by 000's names.
#[derive(Debug)]
pub struct Joined {
    pub pair: Pair,
    pub cause: &'static str,
    /// The precise cause: 0 coincident, 1 met, 2 outer turn, 3 reversal, 4 collapsed side, 5 no
    /// meeting, 6 candidates missed, 7 zero tangent, 8 same direction, 9 pointed (of no fragment).
    pub number: u32,
    pub class: &'static str,
    pub end: Vector2,
    pub end_param: f64,
    pub start: Vector2,
    pub start_param: f64,
    pub bulge: f64,
    pub invalid: bool,
    /// Of the current side and of the next one.
    pub rules: [Option<Rule>; 2],
}

impl Joined {
    /// 000's record: both points, each with its parameter, and the connector's bulge.
    pub fn numbers(&self) -> [f64; 7] {
        [
            self.end.x,
            self.end.y,
            self.end_param,
            self.start.x,
            self.start.y,
            self.start_param,
            self.bulge,
        ]
    }
}

/// Where two sides meet; parameters and rules of the current side and of the next one.
#[derive(Debug, Copy, Clone)]
pub struct Meets {
    pub at: Vector2,
    pub params: [f64; 2],
    pub rules: [Option<Rule>; 2],
}

/// What two sides come to: where they meet, or the name of the way they missed.
pub type Met = Result<Meets, &'static str>;

impl Cause {
    /// Its name, and that of the class.
    fn names(self) -> (&'static str, &'static str) {
        match self {
            Self::Coincident => ("coincident", "Coincident"),
            Self::Met => ("inner", "Trimmed"),
            Self::Outer | Self::Pointed => ("outer", "OuterRound"),
            Self::Reversal => ("reversal", "ReversalRound"),
            Self::CollapsedSide | Self::NoMeeting | Self::Missed => ("inner", "InvalidInnerGap"),
            Self::ZeroTangent => ("zero_tangent", "InvalidDegenerateGap"),
            Self::SameDirection => ("same_direction", "InvalidDegenerateGap"),
        }
    }
}

/// What comes of asking for a point on an arc.
const ARC_WAYS: &[Event] = &[
    Event::ArcStartMatched,
    Event::ArcEndMatched,
    Event::ArcInside,
    Event::ArcNan,
    Event::ArcPast,
    Event::ArcMissed,
];

fn vector(numbers: &[f64]) -> Vector2 {
    Vector2::new(numbers[0], numbers[1])
}

impl Side {
    fn of(segment: &Segment) -> Option<Self> {
        let [a, b] = segment.ends;
        match segment.kind {
            Kind::Line => Some(Self::Line([a.x, a.y, b.x, b.y])),
            Kind::Arc(arc) => Some(Self::Arc([
                a.x,
                a.y,
                b.x,
                b.y,
                arc.center.x,
                arc.center.y,
                arc.radius,
                arc.start_angle,
                arc.sweep,
            ])),
            Kind::Collapsed(_) => None,
        }
    }

    pub fn numbers(&self) -> &[f64] {
        match self {
            Self::Line(numbers) => numbers,
            Self::Arc(numbers) => numbers,
        }
    }

    fn segment(&self) -> Segment {
        match self {
            Self::Line(n) => Segment {
                ends: [vector(n), vector(&n[2..])],
                kind: Kind::Line,
            },
            Self::Arc(n) => {
                let arc = arc(n);
                Segment {
                    ends: arc.ends,
                    kind: Kind::Arc(arc),
                }
            }
        }
    }
}

fn arc(n: &[f64; 9]) -> Arc {
    Arc {
        ends: [vector(n), vector(&n[2..])],
        center: vector(&n[4..]),
        radius: n[6],
        start_angle: n[7],
        sweep: n[8],
    }
}

impl Fragment {
    fn segments(&self, trace: &mut Trace) -> [Segment; 2] {
        let [a, b, c] = self.vertices;
        [(a, b), (b, c)].map(|(v1, v2)| trace.segment(v1, v2, self.offset))
    }

    /// Both sides, unless one is collapsed.
    pub fn sides(&self) -> Option<[Side; 2]> {
        let [current, next] = self.either_side();
        Some([current?, next?])
    }

    /// Each side, unless it is collapsed.
    pub fn either_side(&self) -> [Option<Side>; 2] {
        self.segments(&mut Trace::new()).map(|side| Side::of(&side))
    }

    pub fn join(&self, trace: &mut Trace) -> Joined {
        let [current, next] = self.segments(trace);
        let set = Setting::round(self.offset, self.eps);
        let join = trace.join(set, &current, &next, self.vertices[1].pos());
        joined(&join)
    }
}

fn joined(join: &Join) -> Joined {
    let (cause, class) = join.cause.names();
    Joined {
        pair: join.pair,
        cause,
        number: join.cause as u32,
        class,
        end: join.end,
        end_param: join.end_param,
        start: join.start,
        start_param: join.start_param,
        bulge: join.bulge,
        invalid: Reason::of_connector(join.cause).is_flagged(),
        rules: [join.end_rule, join.start_rule],
    }
}

/// Each join of a job's walk with its three vertices: that after segment 0, and so on, a closed job's
/// closing one last. None where the job is answered without a walk.
pub fn joins(job: &Job) -> Option<Vec<(Fragment, Joined)>> {
    let walk = Trace::new().walked(job)?;
    let mut joins: Vec<Joined> = walk.joins.iter().map(joined).collect();
    if job.closed {
        // It is made first.
        joins.rotate_left(1);
    }
    Some(fragments(job).zip(joins).collect())
}

/// Each three vertices in a row; of a closed job round to the first two.
fn fragments(job: &Job) -> impl Iterator<Item = Fragment> {
    let vertices = job.polyline().vertices;
    let (offset, eps) = (job.offset, job.eps);
    (0..vertices.len()).map(move |first| Fragment {
        vertices: [0, 1, 2].map(|further| vertices[(first + further) % vertices.len()]),
        offset,
        eps,
    })
}

/// For each span of a job's walk the rules at its start and at its end. None where the job is
/// answered without a walk.
pub fn spans(job: &Job) -> Option<Vec<[Option<Rule>; 2]>> {
    let walk = Trace::new().walked(job)?;
    let whys = walk.moves.iter().map(|step| &step.why);
    let spans = whys.filter(|why| matches!(why.origin, Origin::Span(_)));
    Some(spans.map(|why| why.rules).collect())
}

/// The directions at both ends of an offset segment.
pub fn tangents(v1: PlineVertex, v2: PlineVertex, offset: f64) -> [Vector2; 2] {
    let mut trace = Trace::new();
    let segment = trace.segment(v1, v2, offset);
    [0, 1].map(|which| trace.tangent(&segment, which))
}

/// The bulge of a part of an offset segment, and whether that part is invalid.
pub fn span(v1: PlineVertex, v2: PlineVertex, offset: f64, from: f64, to: f64) -> (f64, bool) {
    let mut trace = Trace::new();
    let segment = trace.segment(v1, v2, offset);
    let invalid = trace.span_reason(&segment, from, to).is_flagged();
    (segment.bulge(from, to), invalid)
}

pub fn line_param(param: f64, line: [Vector2; 2], eps: f64) -> Option<f64> {
    Trace::new().usable_line_param(Setting::round(1.0, eps), param, line)
}

/// The parameter of a point of the arc's circle and the rule that grants it, unless it is missed.
pub fn arc_param(numbers: &[f64; 9], point: Vector2, eps: f64) -> Option<(f64, Rule)> {
    let set = Setting::round(1.0, eps);
    let granted = Trace::new().usable_arc_param(set, &arc(numbers), point)?;
    granted.rule.map(|rule| (granted.param, rule))
}

pub fn equally_near(first: f64, second: f64, eps: f64) -> bool {
    Trace::new().equally_near(Setting::round(1.0, eps), first, second)
}

/// The bulge of a round connector about `shared`.
pub fn round(end: Vector2, start: Vector2, shared: Vector2, offset: f64) -> f64 {
    let set = Setting::round(offset, 1e-5);
    let join = Trace::new().round(set, Cause::Outer, [end, start], shared);
    join.bulge
}

/// What two sides come to, and whether a parameter on an arc was asked for at the last point tried.
pub fn meeting(current: &Side, next: &Side, shared: Vector2, eps: f64) -> (Met, bool) {
    let mut trace = Trace::new();
    let set = Setting::round(1.0, eps);
    let met = trace.meeting(set, &current.segment(), &next.segment(), shared);
    let met = met.map(|(at, on_current, on_next)| Meets {
        at,
        params: [on_current.param, on_next.param],
        rules: [on_current.rule, on_next.rule],
    });
    let met = met.map_err(|cause| match cause {
        Cause::NoMeeting => "none",
        _ => "missed",
    });
    (met, trace.asked_arc())
}

impl Trace {
    /// The last point tried was not missed by a line, and so came to be asked for on an arc.
    pub fn asked_arc(&self) -> bool {
        let last = self.events.iter().rev().find_map(|(_, event)| match event {
            Event::ParamTooLow | Event::ParamTooHigh => Some(false),
            _ => ARC_WAYS.contains(event).then_some(true),
        });
        last.unwrap_or(false)
    }
}
