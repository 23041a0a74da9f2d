//! Open drawings whose vertices come by and by.

use std::error::Error;
use std::fmt;

use crate::archive::{
    Numbers, Record, blidrosk_draw_end, blidrosk_draw_start, blidrosk_draw_start_pointed,
    blidrosk_draw_vertices,
};
use crate::{Bad, Corners, Origin, Refusal};

/// The places that each buffer of [`Pen::end_into`] needs, with corners of either kind.
pub const END_ROOM: usize = 2;

/// An open drawing whose vertices come by and by.
///
/// It takes vertices and hands out each segment as soon as it is certain, as the vertex that it
/// leaves, with its bulge, its flag and its origin: with vertex `k`, from 2 on, the span of source
/// segment `k - 2` and the connectors after it, and with the end the last span and the last point.
/// An offset of zero copies: with vertex `k`, from 1 on, comes vertex `k - 1`. The pieces, joined,
/// are those of the open [`Drawing`](crate::Drawing), however the vertices are grouped.
///
/// A vertex that is refused ends the drawing: each later call gives the same refusal. Numbers left
/// over, or too little room, change nothing, and the drawing goes on. A pen holds nothing that grows;
/// a clone of it goes on by itself, and two are equal if they hold the same, bit for bit.
///
/// ```
/// use blidrosk::{Origin, Pen, Refusal};
///
/// let mut pen = Pen::start(1.0, 1e-5).expect("good settings");
/// assert_eq!(pen.draw(&[0.0, 0.0, 0.0, 4.0, 0.0, 0.0]).expect("good vertices").flags, []);
/// let piece = pen.draw(&[4.0, 4.0, 0.0]).expect("a good vertex");
/// assert_eq!(piece.vertices, [0.0, 1.0, 0.0]);
/// assert_eq!(piece.origins, [Origin::Span(0)]);
/// let stopped = pen.draw(&[4.0, 4.0, 1.0]).expect_err("the same point again");
/// assert_eq!(stopped.refusal, Refusal::Repeated(3));
/// assert_eq!(pen.end(), Err(stopped));
/// ```
#[derive(Clone, Debug)]
pub struct Pen {
    record: Record,
    /// For the room of [`Pen::draw`].
    corners: Corners,
}

/// What a call over lent buffers answers: the first places of each have what is handed out.
#[derive(Clone, Copy, Debug, PartialEq, Eq)]
pub struct Handed {
    pub refusal: Option<Refusal>,
    /// The number of the vertex that is refused, or of all vertices where the end is; else 0.
    pub place: usize,
    /// Count of vertices, three numbers each.
    pub vertices: usize,
    /// Count of indexes, one for each invalid segment.
    pub indexes: usize,
    /// Count of segments, and so of flags and origins.
    pub segments: usize,
}

/// What a call hands out, in vectors of its own. Indexes and origins are numbers in the whole drawing.
#[derive(Clone, Debug, Default, PartialEq)]
pub struct Piece {
    /// Three numbers a vertex. Segment `i` leaves vertex `i`; an end has a vertex more.
    pub vertices: Vec<f64>,
    /// A byte for each segment: 1 where it is invalid.
    pub flags: Vec<u8>,
    /// The invalid segments, rising.
    pub indexes: Vec<u32>,
    /// Where each segment comes from.
    pub origins: Vec<Origin>,
}

/// A call that is refused.
#[derive(Clone, Debug, PartialEq)]
pub struct Stopped {
    pub refusal: Refusal,
    /// The number of the vertex that is refused, or of all vertices where the end is; else 0.
    pub place: usize,
    /// What the vertices before it in the call hand out.
    pub piece: Piece,
}

impl Pen {
    /// Begins a drawing with round corners.
    pub fn start(offset: f64, eps: f64) -> Result<Self, Refusal> {
        Pen::start_with(offset, eps, Corners::Round)
    }

    /// The same with corners of either kind. A number out of its range is
    /// [`Bad::Setting`](crate::Bad::Setting).
    pub fn start_with(offset: f64, eps: f64, corners: Corners) -> Result<Self, Refusal> {
        let mut record = Record {
            numbers: [0.0; 40],
            words: [0; 16],
        };
        let mut answer: Numbers = [0; 5];
        // SAFETY: the record and the answer are new here, and the answer has five places.
        let number = unsafe {
            match corners {
                Corners::Round => blidrosk_draw_start(&mut record, offset, eps, &mut answer),
                Corners::Pointed { ratio } => {
                    blidrosk_draw_start_pointed(&mut record, offset, eps, ratio, &mut answer)
                }
            }
        };
        match number {
            0 => Ok(Pen { record, corners }),
            3 => Err(Refusal::BadNumber(Bad::Setting)),
            _ => unreachable!("the archive answers a start with 0 and 3"),
        }
    }

    /// Takes vertices, three numbers each, and hands out what they make certain.
    pub fn draw(&mut self, source: &[f64]) -> Result<Piece, Stopped> {
        let places = self.corners.draw_room(source.len() / 3);
        with_room(places, |vertices, flags, indexes, origins| {
            self.draw_into(source, vertices, flags, indexes, origins)
        })
    }

    /// Ends the drawing and hands out the rest: the last span, if it is drawn, and the last point, if
    /// anything was. After it there is no open drawing: [`Refusal::NoOpenJob`].
    pub fn end(&mut self) -> Result<Piece, Stopped> {
        with_room(END_ROOM, |vertices, flags, indexes, origins| {
            self.end_into(vertices, flags, indexes, origins)
        })
    }

    /// Takes vertices and hands out what they make certain into the four buffers, each of which needs
    /// [`Corners::draw_room`] places; a place in `vertices` is three numbers. `origins` receives
    /// [codes](Origin::from_code). Places past what is handed out never change.
    pub fn draw_into(
        &mut self,
        source: &[f64],
        vertices: &mut [f64],
        flags: &mut [u8],
        indexes: &mut [u32],
        origins: &mut [u32],
    ) -> Handed {
        let mut answer: Numbers = [0; 5];
        // SAFETY: each pointer goes with the length of its own slice, the answer has five places, and
        // neither it, the record nor a buffer overlaps another, since all but the source are borrowed
        // as `&mut`.
        unsafe {
            blidrosk_draw_vertices(
                &mut self.record,
                source.as_ptr(),
                source.len(),
                vertices.as_mut_ptr(),
                vertices.len(),
                flags.as_mut_ptr(),
                flags.len(),
                indexes.as_mut_ptr(),
                indexes.len(),
                origins.as_mut_ptr(),
                origins.len(),
                &mut answer,
            );
        }
        Handed::of(answer)
    }

    /// Ends the drawing and hands out the rest into the four buffers, each of which needs [`END_ROOM`]
    /// places.
    pub fn end_into(
        &mut self,
        vertices: &mut [f64],
        flags: &mut [u8],
        indexes: &mut [u32],
        origins: &mut [u32],
    ) -> Handed {
        let mut answer: Numbers = [0; 5];
        // SAFETY: as in `draw_into`.
        unsafe {
            blidrosk_draw_end(
                &mut self.record,
                vertices.as_mut_ptr(),
                vertices.len(),
                flags.as_mut_ptr(),
                flags.len(),
                indexes.as_mut_ptr(),
                indexes.len(),
                origins.as_mut_ptr(),
                origins.len(),
                &mut answer,
            );
        }
        Handed::of(answer)
    }

    fn bits(&self) -> ([u64; 40], [u32; 16]) {
        (self.record.numbers.map(f64::to_bits), self.record.words)
    }
}

/// By the bits of what they hold, NaNs too.
impl PartialEq for Pen {
    fn eq(&self, other: &Self) -> bool {
        self.bits() == other.bits()
    }
}

impl Eq for Pen {}

impl Handed {
    fn of([number, place, vertices, indexes, segments]: Numbers) -> Self {
        let [place, vertices, indexes, segments] =
            [place, vertices, indexes, segments].map(|number| number as usize);
        Handed {
            // every bad number after the start is a vertex's
            refusal: Refusal::of(number, place, usize::MAX),
            place,
            vertices,
            indexes,
            segments,
        }
    }
}

impl Piece {
    /// Puts the next piece at the end of this one.
    pub fn append(&mut self, mut next: Piece) {
        self.vertices.append(&mut next.vertices);
        self.flags.append(&mut next.flags);
        self.indexes.append(&mut next.indexes);
        self.origins.append(&mut next.origins);
    }
}

/// Lends a call so many places, and keeps what it hands out.
fn with_room(
    places: usize,
    call: impl FnOnce(&mut [f64], &mut [u8], &mut [u32], &mut [u32]) -> Handed,
) -> Result<Piece, Stopped> {
    let mut vertices = vec![0.0; 3 * places];
    let mut flags = vec![0; places];
    let mut indexes = vec![0; places];
    let mut origins = vec![0; places];
    let handed = call(&mut vertices, &mut flags, &mut indexes, &mut origins);
    vertices.truncate(3 * handed.vertices);
    flags.truncate(handed.segments);
    indexes.truncate(handed.indexes);
    origins.truncate(handed.segments);
    let piece = Piece {
        vertices,
        flags,
        indexes,
        origins: origins.into_iter().map(Origin::from_code).collect(),
    };
    match handed.refusal {
        None => Ok(piece),
        Some(refusal) => Err(Stopped {
            refusal,
            place: handed.place,
            piece,
        }),
    }
}

impl fmt::Display for Stopped {
    fn fmt(&self, f: &mut fmt::Formatter<'_>) -> fmt::Result {
        match self.refusal {
            Refusal::Repeated(k) => write!(
                f,
                "vertex {k} is the same point as the one before it: leave it out"
            ),
            Refusal::NotFinite => write!(f, "after {} vertices {}", self.place, self.refusal),
            refusal => refusal.fmt(f),
        }
    }
}

impl Error for Stopped {
    fn source(&self) -> Option<&(dyn Error + 'static)> {
        Some(&self.refusal)
    }
}
