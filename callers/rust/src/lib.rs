//! Blidrosk: the raw offset of a drawing of lines and arcs, for cutting tables.
//!
//! A source has three numbers a vertex: x, y and the bulge of the segment that leaves it, which is
//! the tangent of a quarter of the segment's sweep, positive counterclockwise. A positive offset
//! moves to the left of the way drawn.
//!
//! ```
//! use blidrosk::Drawing;
//!
//! let source = [0.0, 0.0, 0.0, 4.0, 0.0, 0.0, 4.0, 1.0, 0.0];
//! let drawing = Drawing::offset(&source, false, 2.0, 1e-5).expect("a good job");
//! assert_eq!(drawing.vertices.len(), 3 * 4);
//! assert_eq!(drawing.flags, [0, 1, 0]);
//! assert_eq!(drawing.indexes, [1]);
//! ```
//!
//! Each output segment has an origin: the span of a source segment, or the connector after one.
//! [`Drawing::part`] goes back, from a source segment to its part of the output.
//!
//! ```
//! # use blidrosk::{Drawing, Origin};
//! # let source = [0.0, 0.0, 0.0, 4.0, 0.0, 0.0, 4.0, 1.0, 0.0];
//! # let drawing = Drawing::offset(&source, false, 2.0, 1e-5).expect("a good job");
//! assert_eq!(drawing.origins[1], Origin::Connector(0));
//! assert_eq!(drawing.part(0), Ok(0..2));
//! ```
//!
//! [`why`](why()) tells of an output segment why its flag is set or clear.
//!
//! ```
//! # let source = [0.0, 0.0, 0.0, 4.0, 0.0, 0.0, 4.0, 1.0, 0.0];
//! let gap = blidrosk::why(&source, false, 2.0, 1e-5, 1).expect("a good job");
//! assert_eq!(
//!     gap.to_string(),
//!     "the connector after source segment 0 bridges a gap at an inner corner: \
//!      the sides meet only past an end of one of them"
//! );
//! ```
//!
//! Outer corners are round. Between two lines they can have a point instead, where it stands out by at
//! most a given ratio of the offset: [`Corners`] says which, to [`Drawing::offset_with`] and
//! [`why_with`].
//!
//! ```
//! use blidrosk::{Corners, Drawing, Reason, why_with};
//!
//! let square = [0.0, 0.0, 0.0, 4.0, 0.0, 0.0, 4.0, 4.0, 0.0, 0.0, 4.0, 0.0];
//! let pointed = Corners::Pointed { ratio: 2.0 };
//! let drawing = Drawing::offset_with(&square, true, -1.0, 1e-5, pointed).expect("a good job");
//! assert_eq!(drawing.vertices[3..9], [4.0, -1.0, 0.0, 5.0, -1.0, 0.0]);
//! assert_eq!(drawing.part(0), Ok(0..3));
//! let side = why_with(&square, true, -1.0, 1e-5, pointed, 1).expect("a good job");
//! assert_eq!(side.reason, Reason::PointedConnector);
//! ```
//!
//! A machine that keeps all x, all y and all bulges apart lends them as [`Columns`], and gets columns
//! back; all else is the same.
//!
//! ```
//! use blidrosk::{Columns, Drawing};
//!
//! let source = Columns { xs: [0.0, 4.0, 4.0], ys: [0.0, 0.0, 1.0], bulges: [0.0; 3] };
//! let drawing = Drawing::offset_columns(&source, false, 2.0, 1e-5).expect("a good job");
//! assert_eq!(drawing.vertices.xs, [0.0, 4.0, 2.0, 2.0]);
//! assert_eq!(drawing.flags, [0, 1, 0]);
//! ```
//!
//! An open drawing can be offset while its vertices come: a [`Pen`] takes them, few or many at a time,
//! and hands out each segment as soon as it is certain. The pieces, joined, are the drawing.
//!
//! ```
//! use blidrosk::{Pen, Piece};
//!
//! let mut pen = Pen::start(2.0, 1e-5).expect("good settings");
//! let mut drawn = Piece::default();
//! for vertex in [[0.0, 0.0, 0.0], [4.0, 0.0, 0.0], [4.0, 1.0, 0.0]] {
//!     drawn.append(pen.draw(&vertex).expect("a good vertex"));
//! }
//! // the corner is certain, and the last span is not
//! assert_eq!(drawn.vertices, [0.0, 2.0, 0.0, 4.0, 2.0, 0.0]);
//! assert_eq!(drawn.indexes, [1]);
//! drawn.append(pen.end().expect("a good drawing"));
//! assert_eq!(drawn.vertices[6..], [2.0, 0.0, 0.0, 2.0, 1.0, 0.0]);
//! ```
//!
//! After a new build the outputs of the same job can be laid side by side: [`compare`](compare())
//! lists each vertex where they differ, bit for bit, and tells in what.
//!
//! ```
//! use blidrosk::{Drawing, compare};
//!
//! let source = [0.0, 0.0, 0.0, 4.0, 0.0, 0.0, 4.0, 1.0, 0.0];
//! let [two, more] = [2.0, 2.5].map(|offset| {
//!     Drawing::offset(&source, false, offset, 1e-5).expect("a good job")
//! });
//! assert!(compare(&two, &two).expect("two outputs").is_equal());
//! let comparison = compare(&two, &more).expect("two outputs");
//! assert_eq!(comparison.differences[2].to_string(), "vertex 2 differs in x");
//! ```
//!
//! # Nearly full circles and the tolerance
//!
//! An output segment that would end less than the tolerance from where it starts, in x and in y, is
//! left out, without a flag. An arc that goes nearly all the way round may end so: the circle is
//! then missing, and where the arc was all there is, the drawing is done and empty. So draw such a
//! circle open, and choose the tolerance below the gap that the offset leaves between the arc's
//! ends, in x or in y, whichever is wider; half of it leaves a margin. Outside a circle that gap is
//! wider than drawn, inside narrower. Closed, the short closing segment has joins of its own: cut
//! inside, they are often flagged, and the circle may be missing with any tolerance.
//!
//! ```
//! use blidrosk::Drawing;
//!
//! // a circle of radius 10 with a gap of 1e-6, which 1 outside is 1.1e-6
//! let source = [10.0, 5e-7, 4e7, 10.0, -5e-7, 0.0];
//! let lost = Drawing::offset(&source, false, -1.0, 1e-5).expect("a good job");
//! assert_eq!(lost.vertices, []);
//! let circle = Drawing::offset(&source, false, -1.0, 1e-7).expect("a good job");
//! assert_eq!(circle.vertices.len(), 3 * 2);
//! ```

mod archive;
mod columns;
mod compare;
mod corners;
mod origin;
mod part;
mod pen;
mod refusal;
mod why;

use std::ops::Range;

use archive::{Numbers, blidrosk_raw_offset, blidrosk_raw_offset_pointed};
pub use columns::{Columns, raw_offset_columns, raw_offset_columns_with};
pub use compare::{
    Compared, Comparison, Difference, Fields, MOST_COMPARED_VERTICES, Output, compare, compare_into,
};
pub use corners::Corners;
pub use origin::Origin;
pub use part::part;
pub use pen::{END_ROOM, Handed, Pen, Piece, Stopped};
pub use refusal::{Bad, Refusal};
pub use why::{Reason, Rule, Why, why, why_with};

/// The most vertices that a source may have.
pub const MOST_VERTICES: usize = 4096;

/// What a job that is done has written.
#[derive(Clone, Copy, Debug, PartialEq, Eq)]
pub struct Drawn {
    /// Count of vertices: three numbers each, or one in each of three columns.
    pub vertices: usize,
    /// Count of indexes, one for each invalid segment.
    pub indexes: usize,
    pub closed: bool,
}

impl Drawn {
    /// Count of segments, and so of flags and origins.
    pub const fn segments(self) -> usize {
        segments(self.vertices, self.closed)
    }
}

pub type Answer = Result<Drawn, Refusal>;

/// Offsets a drawing with round corners into the four buffers, each of which needs [`room`] places; a
/// place in `vertices` is three numbers.
///
/// `flags` receives a byte for each output segment, 1 where it is invalid, `indexes` the numbers of
/// the invalid ones, and `origins` the [code](Origin::from_code) of each segment's origin. What is
/// not drawn of the room is zero, and so is the code of a span of segment 0: the first
/// [`Drawn::segments`] are drawn. Places past the room never change, and on a refusal none does, save
/// that [`Refusal::NotFinite`] leaves zeros in the room.
#[expect(
    clippy::too_many_arguments,
    reason = "they are those of the header for C"
)]
pub fn raw_offset(
    source: &[f64],
    closed: bool,
    offset: f64,
    eps: f64,
    vertices: &mut [f64],
    flags: &mut [u8],
    indexes: &mut [u32],
    origins: &mut [u32],
) -> Answer {
    raw_offset_with(
        source,
        closed,
        offset,
        eps,
        Corners::Round,
        vertices,
        flags,
        indexes,
        origins,
    )
}

/// The same with corners of either kind: each buffer needs [`Corners::room`] places.
#[expect(
    clippy::too_many_arguments,
    reason = "they are those of the header for C"
)]
pub fn raw_offset_with(
    source: &[f64],
    closed: bool,
    offset: f64,
    eps: f64,
    corners: Corners,
    vertices: &mut [f64],
    flags: &mut [u8],
    indexes: &mut [u32],
    origins: &mut [u32],
) -> Answer {
    let mut answer: Numbers = [0; 5];
    // SAFETY: each pointer goes with the length of its own slice, the answer has five places, and
    // no two of them overlap, since all but the source are borrowed as `&mut`.
    unsafe {
        match corners {
            Corners::Round => blidrosk_raw_offset(
                source.as_ptr(),
                source.len(),
                closed,
                offset,
                eps,
                vertices.as_mut_ptr(),
                vertices.len(),
                flags.as_mut_ptr(),
                flags.len(),
                indexes.as_mut_ptr(),
                indexes.len(),
                origins.as_mut_ptr(),
                origins.len(),
                &mut answer,
            ),
            Corners::Pointed { ratio } => blidrosk_raw_offset_pointed(
                source.as_ptr(),
                source.len(),
                closed,
                offset,
                eps,
                ratio,
                vertices.as_mut_ptr(),
                vertices.len(),
                flags.as_mut_ptr(),
                flags.len(),
                indexes.as_mut_ptr(),
                indexes.len(),
                origins.as_mut_ptr(),
                origins.len(),
                &mut answer,
            ),
        }
    };
    read(answer, source.len() / 3)
}

fn read([number, place, vertices, indexes, closed]: Numbers, source_vertices: usize) -> Answer {
    match Refusal::of(number, place as usize, source_vertices) {
        Some(refusal) => Err(refusal),
        None => Ok(Drawn {
            vertices: vertices as usize,
            indexes: indexes as usize,
            closed: closed == 1,
        }),
    }
}

/// The places that each buffer needs for a source of so many vertices, with round corners: two for
/// each segment.
pub const fn room(vertices: usize, closed: bool) -> usize {
    Corners::Round.room(vertices, closed)
}

/// The segments of a drawing of so many vertices.
pub const fn segments(vertices: usize, closed: bool) -> usize {
    match vertices {
        0 | 1 => 0,
        _ if closed => vertices,
        _ => vertices - 1,
    }
}

/// A drawing in vectors of its own.
#[derive(Clone, Debug, PartialEq)]
pub struct Drawing<V = Vec<f64>> {
    /// Laid out as in the source: three numbers a vertex, or three [`Columns`].
    pub vertices: V,
    /// A byte for each segment: 1 where it is invalid.
    pub flags: Vec<u8>,
    /// The invalid segments, rising.
    pub indexes: Vec<u32>,
    /// Where each segment comes from.
    pub origins: Vec<Origin>,
    pub closed: bool,
    /// Count of the source's segments.
    pub source_segments: usize,
}

impl Drawing {
    /// Offsets a drawing with round corners, and as much room as it needs.
    pub fn offset(source: &[f64], closed: bool, offset: f64, eps: f64) -> Result<Self, Refusal> {
        Drawing::offset_with(source, closed, offset, eps, Corners::Round)
    }

    /// The same with corners of either kind.
    pub fn offset_with(
        source: &[f64],
        closed: bool,
        offset: f64,
        eps: f64,
        corners: Corners,
    ) -> Result<Self, Refusal> {
        with_room(
            source.len() / 3,
            closed,
            corners,
            |vertices: &mut Vec<f64>, flags, indexes, origins| {
                raw_offset_with(
                    source, closed, offset, eps, corners, vertices, flags, indexes, origins,
                )
            },
        )
    }
}

impl<V> Drawing<V> {
    /// The segments that belong to a source segment: its span and the connector after it, or both
    /// connectors of a point, as far as they were drawn. The range is empty where nothing was; a
    /// segment that the source does not have is [`Refusal::NoSuchSourceSegment`].
    ///
    /// ```
    /// use blidrosk::{Drawing, Refusal};
    ///
    /// // of a line shorter than the tolerance nothing is drawn
    /// let source = [0.0, 0.0, 0.0, 1e-6, 0.0, 0.0, 4.0, 0.0, 0.0];
    /// let drawing = Drawing::offset(&source, false, 1.0, 1e-5).expect("a good job");
    /// assert_eq!(drawing.part(0), Ok(0..0));
    /// assert_eq!(drawing.part(1), Ok(0..1));
    /// assert_eq!(drawing.part(2), Err(Refusal::NoSuchSourceSegment));
    /// ```
    pub fn part(&self, source_segment: usize) -> Result<Range<usize>, Refusal> {
        // A source has at most 4096 segments, so a number past 32 bits is none of them. An origin
        // without a code, as no job draws, would leave fewer codes than flags.
        let [n, asked] = [self.source_segments, source_segment]
            .map(|number| u32::try_from(number).unwrap_or(u32::MAX));
        let codes: Vec<u32> = self
            .origins
            .iter()
            .filter_map(|origin| origin.code())
            .collect();
        part(n, &self.flags, &codes, asked)
    }
}

/// How the vertices of a [`Drawing`] are laid out.
trait Layout {
    /// Room for so many vertices.
    fn zeros(vertices: usize) -> Self;

    /// The first so many are all there are.
    fn keep(&mut self, vertices: usize);
}

impl Layout for Vec<f64> {
    fn zeros(vertices: usize) -> Self {
        vec![0.0; 3 * vertices]
    }

    fn keep(&mut self, vertices: usize) {
        self.truncate(3 * vertices);
    }
}

/// Lends a job the room that a source of so many vertices needs, and keeps what it draws.
fn with_room<V: Layout>(
    source_vertices: usize,
    closed: bool,
    corners: Corners,
    job: impl FnOnce(&mut V, &mut [u8], &mut [u32], &mut [u32]) -> Answer,
) -> Result<Drawing<V>, Refusal> {
    // a longer source is refused before its room is looked at
    let source_vertices = source_vertices.min(MOST_VERTICES);
    let places = corners.room(source_vertices, closed);
    let mut vertices = V::zeros(places);
    let mut flags = vec![0; places];
    let mut indexes = vec![0; places];
    let mut origins = vec![0; places];
    let drawn = job(&mut vertices, &mut flags, &mut indexes, &mut origins)?;
    vertices.keep(drawn.vertices);
    flags.truncate(drawn.segments());
    indexes.truncate(drawn.indexes);
    origins.truncate(drawn.segments());
    Ok(Drawing {
        vertices,
        flags,
        indexes,
        origins: origins.into_iter().map(Origin::from_code).collect(),
        closed: drawn.closed,
        source_segments: segments(source_vertices, closed),
    })
}
