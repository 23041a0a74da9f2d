//! Why a job is refused, in words for the one who drew it.

use std::error::Error;
use std::fmt;

/// Why a job is refused. Where several apply, the first of them is given. More may come with
/// functions that are still to come.
#[derive(Clone, Copy, Debug, PartialEq, Eq)]
#[non_exhaustive]
pub enum Refusal {
    /// The source's length is no multiple of 3; two of its [`Columns`](crate::Columns) differ in
    /// length; for [`part`](crate::part()), flags and origins differ in number; for
    /// [`compare`](crate::compare()), an output's length is no multiple of 3, or its flags are not one
    /// a segment.
    Ragged,
    /// The source has more than [`MOST_VERTICES`](crate::MOST_VERTICES) vertices, or an output that is
    /// compared more than [`MOST_COMPARED_VERTICES`](crate::MOST_COMPARED_VERTICES).
    TooMany,
    /// A number is a NaN, infinite, or out of its range.
    BadNumber(Bad),
    /// A buffer has fewer places than [`Corners::room`](crate::Corners::room) says, or for a
    /// [`Pen`](crate::Pen) [`Corners::draw_room`](crate::Corners::draw_room); for
    /// [`compare_into`](crate::compare_into()), than there are vertices that differ.
    NoRoom,
    /// This vertex and the next that it is joined to are equal in x and in y; −0 equals 0. The offset
    /// is not zero. For a [`Pen`](crate::Pen) it is the later of the two, which is the one refused.
    Repeated(usize),
    /// The drawing came out with a NaN or an infinity.
    NotFinite,
    /// The output has no segment of the number that [`why`](crate::why()) or
    /// [`why_with`](crate::why_with()) was asked for.
    NoSuchSegment,
    /// The [`Pen`](crate::Pen) has ended its drawing.
    NoOpenJob,
    /// The source has no segment of the number that [`part`](crate::part()) was asked for.
    NoSuchSourceSegment,
}

/// Which number is bad. More may come, as the ratio and the setting did.
#[derive(Clone, Copy, Debug, PartialEq, Eq)]
#[non_exhaustive]
pub enum Bad {
    /// One of this vertex, counted from 0.
    Vertex(usize),
    Offset,
    Eps,
    /// That of [pointed corners](crate::Corners::Pointed).
    Ratio,
    /// One of the three before: the start of a [`Pen`](crate::Pen) does not tell which.
    Setting,
}

impl Refusal {
    /// The refusal that a number and a place stand for, if it is one.
    pub(crate) fn of(number: u32, place: usize, source_vertices: usize) -> Option<Self> {
        Some(match number {
            0 => return None,
            1 => Refusal::Ragged,
            2 => Refusal::TooMany,
            3 => Refusal::BadNumber(Bad::at(place, source_vertices)),
            4 => Refusal::NoRoom,
            5 => Refusal::Repeated(place),
            6 => Refusal::NotFinite,
            8 => Refusal::NoSuchSegment,
            9 => Refusal::NoOpenJob,
            13 => Refusal::NoSuchSourceSegment,
            _ => unreachable!("the archive answers 0 to 6, 8, 9 and 13"),
        })
    }
}

impl Bad {
    /// The offset, the tolerance and the ratio are counted after the vertices.
    fn at(place: usize, source_vertices: usize) -> Self {
        match place.checked_sub(source_vertices) {
            None => Bad::Vertex(place),
            Some(0) => Bad::Offset,
            Some(1) => Bad::Eps,
            Some(2) => Bad::Ratio,
            Some(_) => unreachable!("the archive counts three numbers after the vertices"),
        }
    }
}

impl fmt::Display for Refusal {
    fn fmt(&self, f: &mut fmt::Formatter<'_>) -> fmt::Result {
        match self {
            Refusal::Ragged => f.write_str(
                "numbers are left over: a vertex is x, y and bulge, and a segment has a flag and an origin",
            ),
            Refusal::TooMany => f.write_str(
                "there are too many vertices: a source has at most 4096, and an output to compare 12288",
            ),
            Refusal::BadNumber(bad) => bad.fmt(f),
            Refusal::NoRoom => f.write_str(
                "a buffer is too short: to compare, each needs a place for each vertex that differs; \
                 to offset, two places a segment, or three where corners are pointed",
            ),
            Refusal::Repeated(k) => write!(
                f,
                "vertex {k} and the one after it are the same point: leave one of them out"
            ),
            Refusal::NotFinite => f.write_str("the offset drawing has a number that is not finite"),
            Refusal::NoSuchSegment => {
                f.write_str("the offset drawing has no segment of that number")
            }
            Refusal::NoOpenJob => f.write_str("the drawing has ended: start a new one"),
            Refusal::NoSuchSourceSegment => f.write_str("the source has no segment of that number"),
        }
    }
}

impl fmt::Display for Bad {
    fn fmt(&self, f: &mut fmt::Formatter<'_>) -> fmt::Result {
        match self {
            Bad::Vertex(k) => write!(
                f,
                "vertex {k} has a number out of range: x and y within ±1000000, bulge within ±1000000000"
            ),
            Bad::Offset => f.write_str("the offset is out of range: within ±1000000"),
            Bad::Eps => f.write_str("the tolerance is out of range: 1e-9 to 0.01"),
            Bad::Ratio => f.write_str("the ratio of pointed corners is out of range: 1 to 10"),
            Bad::Setting => f.write_str(
                "a number is out of range: the offset within ±1000000, the tolerance 1e-9 to 0.01, \
                 the ratio of pointed corners 1 to 10",
            ),
        }
    }
}

impl Error for Refusal {}
