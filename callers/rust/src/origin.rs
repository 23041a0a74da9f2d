//! Which piece of a source an output segment comes from.

use std::fmt;

/// A piece of the output and the source segment that it belongs to: segment `i` leaves vertex `i`
/// of the source.
#[derive(Clone, Copy, Debug, PartialEq, Eq, Hash)]
pub enum Origin {
    /// What is drawn of this segment.
    Span(usize),
    /// What joins the span of this segment to the next. That of the last closes the drawing.
    Connector(usize),
}

impl Origin {
    /// The origin that a number in a buffer of [`raw_offset`](crate::raw_offset()) stands for: half
    /// of it is the source segment, and an odd one is a connector's.
    ///
    /// ```
    /// use blidrosk::Origin;
    ///
    /// assert_eq!(Origin::from_code(6), Origin::Span(3));
    /// assert_eq!(Origin::from_code(7), Origin::Connector(3));
    /// ```
    pub const fn from_code(code: u32) -> Self {
        let source = (code / 2) as usize;
        if code % 2 == 1 {
            Origin::Connector(source)
        } else {
            Origin::Span(source)
        }
    }

    /// Its number. None where the source segment is 2147483648 or above, as in no drawing.
    pub const fn code(self) -> Option<u32> {
        let source = self.source();
        if source > (u32::MAX / 2) as usize {
            return None;
        }
        Some(2 * source as u32 + self.is_connector() as u32)
    }

    /// The source segment that it belongs to.
    pub const fn source(self) -> usize {
        match self {
            Origin::Span(i) | Origin::Connector(i) => i,
        }
    }

    pub const fn is_connector(self) -> bool {
        matches!(self, Origin::Connector(_))
    }
}

impl fmt::Display for Origin {
    fn fmt(&self, f: &mut fmt::Formatter<'_>) -> fmt::Result {
        match self {
            Origin::Span(i) => write!(f, "the span of source segment {i}"),
            Origin::Connector(i) => write!(f, "the connector after source segment {i}"),
        }
    }
}
