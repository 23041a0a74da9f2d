//! Which move an output segment is, and why its flag is set or clear: 02's 2026-01.

use super::joins::Cause;
use super::{Rule, whys};
use crate::stage::Job;

/// A move and its source segment; a connector belongs to the one before it.
#[derive(Debug, Copy, Clone, PartialEq, Eq)]
pub enum Origin {
    Span(usize),
    Connector(usize),
}

impl Origin {
    /// As a lent place holds it: twice the source segment, and one more of a connector.
    pub fn code(self) -> u32 {
        match self {
            Self::Span(source) => 2 * source as u32,
            Self::Connector(source) => 2 * source as u32 + 1,
        }
    }
}

/// The branch that a move came by.
#[derive(Debug, Copy, Clone, PartialEq)]
pub enum Reason {
    InOrder,
    /// With the parameters of its start and its end.
    TurnedBack([f64; 2]),
    Collapsed,
    Round,
    Reversal,
    Meeting,
    CollapsedSide,
    NoMeeting,
    Missed,
    ZeroTangent,
    SameDirection,
    Copied,
    /// Of both moves, by 02's 2026-13.
    Pointed,
}

impl Reason {
    pub const COUNT: usize = 13;

    /// By number, from 1 on.
    pub const NAMES: [&str; Self::COUNT] = [
        "span in order",
        "span turned back",
        "collapsed source arc",
        "round connector",
        "reversal connector",
        "meeting connector",
        "inner gap, collapsed side",
        "inner gap, no meeting",
        "inner gap, candidates missed",
        "gap, zero tangent",
        "gap, same direction",
        "copied",
        "pointed connector",
    ];

    /// The numbers of those that a segment of the round mode has: a meeting's connector leads nowhere,
    /// so it is dropped.
    pub const KEPT: [usize; 11] = [1, 2, 3, 4, 5, 7, 8, 9, 10, 11, 12];

    pub(super) fn of_connector(cause: Cause) -> Self {
        match cause {
            Cause::Coincident | Cause::Met => Self::Meeting,
            Cause::Outer => Self::Round,
            Cause::Reversal => Self::Reversal,
            Cause::CollapsedSide => Self::CollapsedSide,
            Cause::NoMeeting => Self::NoMeeting,
            Cause::Missed => Self::Missed,
            Cause::ZeroTangent => Self::ZeroTangent,
            Cause::SameDirection => Self::SameDirection,
            Cause::Pointed => Self::Pointed,
        }
    }

    pub fn number(self) -> u32 {
        match self {
            Self::InOrder => 1,
            Self::TurnedBack(_) => 2,
            Self::Collapsed => 3,
            Self::Round => 4,
            Self::Reversal => 5,
            Self::Meeting => 6,
            Self::CollapsedSide => 7,
            Self::NoMeeting => 8,
            Self::Missed => 9,
            Self::ZeroTangent => 10,
            Self::SameDirection => 11,
            Self::Copied => 12,
            Self::Pointed => 13,
        }
    }

    /// 01's invalid moves.
    pub fn is_flagged(self) -> bool {
        match self {
            Self::TurnedBack(_) | Self::Collapsed => true,
            Self::CollapsedSide | Self::NoMeeting | Self::Missed => true,
            Self::ZeroTangent | Self::SameDirection => true,
            Self::InOrder | Self::Copied => false,
            Self::Round | Self::Reversal | Self::Meeting | Self::Pointed => false,
        }
    }
}

#[derive(Debug, Copy, Clone, PartialEq)]
pub struct Why {
    pub origin: Origin,
    pub reason: Reason,
    /// By which rule a span starts, and by which it ends, where a trimmed arc does.
    pub rules: [Option<Rule>; 2],
}

/// For each segment of an output why it is as it is, or the number and the place of a refusal.
pub type Whys = Result<Vec<Why>, [u32; 2]>;

/// Number, place, 1 of a connector, source segment, reason, both rules; then both parameters.
pub type Told = ([u32; 7], [f64; 2]);

const NO_SUCH_SEGMENT: [u32; 2] = [8, 0];

impl Why {
    fn told(&self) -> Told {
        let (connector, source) = match self.origin {
            Origin::Span(source) => (0, source as u32),
            Origin::Connector(source) => (1, source as u32),
        };
        let params = match self.reason {
            Reason::TurnedBack(params) => params,
            _ => [0.0; 2],
        };
        let [start, end] = self.rules.map(Rule::number_of);
        let reason = self.reason.number();
        ([0, 0, connector, source, reason, start, end], params)
    }
}

/// The whole answer for an output segment.
pub fn told(whys: &Whys, segment: u32) -> Told {
    let asked = |whys: &Vec<Why>| whys.get(segment as usize).copied();
    match whys.as_ref().map(asked) {
        Ok(Some(why)) => why.told(),
        Ok(None) => refused(NO_SUCH_SEGMENT),
        Err(refusal) => refused(*refusal),
    }
}

fn refused([number, place]: [u32; 2]) -> Told {
    ([number, place, 0, 0, 0, 0, 0], [0.0; 2])
}

/// The whole answer for a job and an output segment.
pub fn why(job: &Job, segment: u32) -> Told {
    told(&whys(job), segment)
}
