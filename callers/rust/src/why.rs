//! What an output segment is, and why its flag is set or clear, in words for the one who drew it.

use std::fmt;

use crate::archive::{WhyNumbers, blidrosk_why, blidrosk_why_pointed};
use crate::{Corners, Origin, Refusal};

/// What an output segment is, and why its flag is set or clear.
#[derive(Clone, Copy, Debug, PartialEq)]
pub struct Why {
    pub origin: Origin,
    pub reason: Reason,
    /// How an arc let in the point where its span starts, if it was trimmed there.
    pub start_rule: Option<Rule>,
    /// The same where its span ends.
    pub end_rule: Option<Rule>,
}

/// Why a flag is set or clear. More may come, as the last one did.
#[derive(Clone, Copy, Debug, PartialEq)]
#[non_exhaustive]
pub enum Reason {
    /// A span that runs forward.
    InOrder,
    /// A span whose end is not past its start. Both are told along the segment, from 0 at its start
    /// to 1 at its end.
    TurnedBack { start: f64, end: f64 },
    /// The span of an arc that the offset shrinks to nothing.
    CollapsedArc,
    /// A round connector at an outer corner.
    Round,
    /// A round connector where the drawing turns back on itself.
    Reversal,
    /// A connector where the spans meet. It leads nowhere, so no output has one.
    Meeting,
    /// A gap at an inner corner: a side is a collapsed arc.
    CollapsedSide,
    /// A gap at an inner corner: the sides never meet, however far they are prolonged.
    NoMeeting,
    /// A gap at an inner corner: the sides meet off a span.
    CandidatesMissed,
    /// A gap where a side is too small to have a direction.
    ZeroTangent,
    /// A gap where both sides run the same way.
    SameDirection,
    /// A segment of the source as it is, since the offset is zero.
    Copied,
    /// A straight connector to or from the point of an outer corner.
    PointedConnector,
}

/// How an arc let in the point where its span was trimmed.
#[derive(Clone, Copy, Debug, PartialEq, Eq)]
pub enum Rule {
    /// Within the tolerance of the arc's start.
    StartMatched,
    /// Within the tolerance of the arc's end.
    EndMatched,
    /// Inside the arc's sweep.
    Inside,
    /// Past the arc's end by no more than the tolerance.
    PastEnd,
}

/// Tells of an output segment of a job with round corners what it is and why its flag is set or
/// clear.
///
/// Source, closed, offset and tolerance are those of [`Drawing::offset`](crate::Drawing::offset),
/// and `segment` is the place of its flag. The job is refused as there; then a segment that the
/// output does not have is [`Refusal::NoSuchSegment`]. A call walks the whole job once.
///
/// ```
/// use blidrosk::{Origin, Reason, why};
///
/// // a square of side 4, cut 3 inside: each side starts past where it ends
/// let square = [0.0, 0.0, 0.0, 4.0, 0.0, 0.0, 4.0, 4.0, 0.0, 0.0, 4.0, 0.0];
/// let side = why(&square, true, 3.0, 1e-5, 3).expect("a good job");
/// assert_eq!(side.origin, Origin::Span(3));
/// assert_eq!(side.reason, Reason::TurnedBack { start: 0.75, end: 0.25 });
/// assert!(side.reason.is_invalid());
/// assert_eq!(
///     side.to_string(),
///     "the span of source segment 3 is turned back: \
///      it starts at 0.75 of its segment and ends at 0.25"
/// );
/// ```
pub fn why(
    source: &[f64],
    closed: bool,
    offset: f64,
    eps: f64,
    segment: u32,
) -> Result<Why, Refusal> {
    why_with(source, closed, offset, eps, Corners::Round, segment)
}

/// The same of a job with corners of either kind, of
/// [`Drawing::offset_with`](crate::Drawing::offset_with).
///
/// ```
/// use blidrosk::{Corners, why_with};
///
/// // a corner, cut 1 outside: its point stands out by 1.41421356.. times the offset
/// let corner = [0.0, 0.0, 0.0, 4.0, 0.0, 0.0, 4.0, 4.0, 0.0];
/// let told = |ratio| {
///     let why = why_with(&corner, false, -1.0, 1e-5, Corners::Pointed { ratio }, 1);
///     why.expect("a good job").to_string()
/// };
/// assert_eq!(told(1.5), "the connector after source segment 0 makes the point of an outer corner");
/// assert_eq!(told(1.4), "the connector after source segment 0 goes round an outer corner");
/// ```
pub fn why_with(
    source: &[f64],
    closed: bool,
    offset: f64,
    eps: f64,
    corners: Corners,
    segment: u32,
) -> Result<Why, Refusal> {
    let mut answer: WhyNumbers = [0; 7];
    let mut params = [0.0; 2];
    // SAFETY: the source's pointer goes with its own length, the answer has seven places and the
    // parameters two, and neither overlaps the other or the source, since both are new here.
    unsafe {
        match corners {
            Corners::Round => blidrosk_why(
                source.as_ptr(),
                source.len(),
                closed,
                offset,
                eps,
                segment,
                &mut answer,
                &mut params,
            ),
            Corners::Pointed { ratio } => blidrosk_why_pointed(
                source.as_ptr(),
                source.len(),
                closed,
                offset,
                eps,
                ratio,
                segment,
                &mut answer,
                &mut params,
            ),
        }
    };
    read(answer, params, source.len() / 3)
}

fn read(answer: WhyNumbers, params: [f64; 2], source_vertices: usize) -> Result<Why, Refusal> {
    let [number, place, connector, segment, reason, start, end] = answer;
    match Refusal::of(number, place as usize, source_vertices) {
        Some(refusal) => Err(refusal),
        None => Ok(Why {
            origin: origin_of(connector, segment as usize),
            reason: Reason::of(reason, params),
            start_rule: Rule::of(start),
            end_rule: Rule::of(end),
        }),
    }
}

fn origin_of(connector: u32, segment: usize) -> Origin {
    match connector {
        0 => Origin::Span(segment),
        1 => Origin::Connector(segment),
        _ => unreachable!("the archive tells of spans and connectors"),
    }
}

impl Reason {
    fn of(number: u32, [start, end]: [f64; 2]) -> Self {
        match number {
            1 => Reason::InOrder,
            2 => Reason::TurnedBack { start, end },
            3 => Reason::CollapsedArc,
            4 => Reason::Round,
            5 => Reason::Reversal,
            6 => Reason::Meeting,
            7 => Reason::CollapsedSide,
            8 => Reason::NoMeeting,
            9 => Reason::CandidatesMissed,
            10 => Reason::ZeroTangent,
            11 => Reason::SameDirection,
            12 => Reason::Copied,
            13 => Reason::PointedConnector,
            _ => unreachable!("the archive tells reasons 1 to 13"),
        }
    }

    /// Its number in `enum blidrosk_reason` of the header for C.
    pub const fn number(self) -> u32 {
        match self {
            Reason::InOrder => 1,
            Reason::TurnedBack { .. } => 2,
            Reason::CollapsedArc => 3,
            Reason::Round => 4,
            Reason::Reversal => 5,
            Reason::Meeting => 6,
            Reason::CollapsedSide => 7,
            Reason::NoMeeting => 8,
            Reason::CandidatesMissed => 9,
            Reason::ZeroTangent => 10,
            Reason::SameDirection => 11,
            Reason::Copied => 12,
            Reason::PointedConnector => 13,
        }
    }

    /// Whether the flag is set.
    pub const fn is_invalid(self) -> bool {
        match self {
            Reason::TurnedBack { .. }
            | Reason::CollapsedArc
            | Reason::CollapsedSide
            | Reason::NoMeeting
            | Reason::CandidatesMissed
            | Reason::ZeroTangent
            | Reason::SameDirection => true,
            Reason::InOrder
            | Reason::Round
            | Reason::Reversal
            | Reason::Meeting
            | Reason::Copied
            | Reason::PointedConnector => false,
        }
    }
}

impl Rule {
    /// The rule that a number stands for, if it is one.
    fn of(number: u32) -> Option<Self> {
        Some(match number {
            0 => return None,
            1 => Rule::StartMatched,
            2 => Rule::EndMatched,
            3 => Rule::Inside,
            4 => Rule::PastEnd,
            _ => unreachable!("the archive tells rules 1 to 4"),
        })
    }
}

/// What a sentence says of a segment, after its name.
impl fmt::Display for Reason {
    fn fmt(&self, f: &mut fmt::Formatter<'_>) -> fmt::Result {
        f.write_str(match self {
            Reason::TurnedBack { start, end } => {
                return write!(
                    f,
                    "is turned back: it starts at {start} of its segment and ends at {end}"
                );
            }
            Reason::InOrder => "runs forward",
            Reason::CollapsedArc => "belongs to an arc that the offset shrinks to nothing",
            Reason::Round => "goes round an outer corner",
            Reason::Reversal => "goes round where the drawing turns back on itself",
            Reason::Meeting => "leads nowhere: the spans meet",
            Reason::CollapsedSide => {
                "bridges a gap at an inner corner: a side is an arc that the offset shrinks to nothing"
            }
            Reason::NoMeeting => "bridges a gap at an inner corner: the sides never meet",
            Reason::CandidatesMissed => {
                "bridges a gap at an inner corner: the sides meet only past an end of one of them"
            }
            Reason::ZeroTangent => "bridges a gap: a side is too small to have a direction",
            Reason::SameDirection => "bridges a gap: both sides run the same way",
            Reason::Copied => "is copied as it is: the offset is zero",
            Reason::PointedConnector => "makes the point of an outer corner",
        })
    }
}

/// Where a trimmed arc was let in.
impl fmt::Display for Rule {
    fn fmt(&self, f: &mut fmt::Formatter<'_>) -> fmt::Result {
        f.write_str(match self {
            Rule::StartMatched => "within the tolerance of the arc's start",
            Rule::EndMatched => "within the tolerance of the arc's end",
            Rule::Inside => "inside the arc",
            Rule::PastEnd => "past the arc's end, within the tolerance",
        })
    }
}

impl fmt::Display for Why {
    fn fmt(&self, f: &mut fmt::Formatter<'_>) -> fmt::Result {
        write!(f, "{} {}", self.origin, self.reason)?;
        if let Some(rule) = self.start_rule {
            write!(f, "; its start was trimmed {rule}")?;
        }
        if let Some(rule) = self.end_rule {
            write!(f, "; its end was trimmed {rule}")?;
        }
        Ok(())
    }
}
