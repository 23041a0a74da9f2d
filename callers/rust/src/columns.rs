//! Jobs in columns: all x, then all y, then all bulges.

use crate::archive::{Numbers, blidrosk_raw_offset_columns, blidrosk_raw_offset_columns_pointed};
use crate::{Answer, Corners, Drawing, Layout, Refusal, read, with_room};

/// Three columns of numbers: vertex `i` is `xs[i]`, `ys[i]` and `bulges[i]`.
///
/// A source has columns that can be read as slices: vectors, arrays, or slices, which may share
/// memory. Those of a buffer can be written to, and those of a [`Drawing`] are vectors of its own.
///
/// ```
/// use blidrosk::{Columns, Drawing};
///
/// let (xs, zeros) = (vec![0.0, 4.0, 9.0], vec![0.0; 3]);
/// let line = Columns { xs: &xs, ys: &zeros, bulges: &zeros };
/// let moved = Drawing::offset_columns(&line, false, 2.0, 1e-5).expect("a good job");
/// assert_eq!(moved.vertices.ys, [2.0, 2.0, 2.0]);
/// // what is drawn can be the next source
/// let back = Drawing::offset_columns(&moved.vertices, false, -2.0, 1e-5).expect("a good job");
/// assert_eq!(back.vertices.xs, xs);
/// ```
#[derive(Clone, Copy, Debug, Default, PartialEq, Eq)]
pub struct Columns<T> {
    pub xs: T,
    pub ys: T,
    pub bulges: T,
}

/// Offsets a drawing in columns with round corners, as [`raw_offset`](crate::raw_offset()) does one
/// in rows. Each of the six buffers, the three columns of `vertices` among them, needs
/// [`room`](crate::room()) places for as many vertices as the source has.
///
/// The buffers may differ in length, and the shortest counts: [`Refusal::NoRoom`]. The columns of
/// the source may not: [`Refusal::Ragged`], before all else. Places past the room never change, and
/// on a refusal none does, save that [`Refusal::NotFinite`] leaves zeros in the room.
#[expect(
    clippy::too_many_arguments,
    reason = "they are those of the header for C"
)]
pub fn raw_offset_columns(
    source: &Columns<impl AsRef<[f64]>>,
    closed: bool,
    offset: f64,
    eps: f64,
    vertices: &mut Columns<impl AsMut<[f64]>>,
    flags: &mut [u8],
    indexes: &mut [u32],
    origins: &mut [u32],
) -> Answer {
    raw_offset_columns_with(
        source,
        closed,
        offset,
        eps,
        Corners::Round,
        vertices,
        flags,
        indexes,
        origins,
    )
}

/// The same with corners of either kind: each buffer needs [`Corners::room`] places.
#[expect(
    clippy::too_many_arguments,
    reason = "they are those of the header for C"
)]
pub fn raw_offset_columns_with(
    source: &Columns<impl AsRef<[f64]>>,
    closed: bool,
    offset: f64,
    eps: f64,
    corners: Corners,
    vertices: &mut Columns<impl AsMut<[f64]>>,
    flags: &mut [u8],
    indexes: &mut [u32],
    origins: &mut [u32],
) -> Answer {
    // asked once each, so that a pointer and its length are of one slice
    let [xs, ys, bulges] = [&source.xs, &source.ys, &source.bulges].map(AsRef::as_ref);
    let out_xs = vertices.xs.as_mut();
    let out_ys = vertices.ys.as_mut();
    let out_bulges = vertices.bulges.as_mut();
    let mut answer: Numbers = [0; 5];
    // SAFETY: each pointer goes with the length of its own slice, the answer has five places, and
    // no buffer overlaps another or the source, since all but the source are borrowed as `&mut`.
    // Columns of the source may share memory.
    unsafe {
        match corners {
            Corners::Round => blidrosk_raw_offset_columns(
                xs.as_ptr(),
                xs.len(),
                ys.as_ptr(),
                ys.len(),
                bulges.as_ptr(),
                bulges.len(),
                closed,
                offset,
                eps,
                out_xs.as_mut_ptr(),
                out_xs.len(),
                out_ys.as_mut_ptr(),
                out_ys.len(),
                out_bulges.as_mut_ptr(),
                out_bulges.len(),
                flags.as_mut_ptr(),
                flags.len(),
                indexes.as_mut_ptr(),
                indexes.len(),
                origins.as_mut_ptr(),
                origins.len(),
                &mut answer,
            ),
            Corners::Pointed { ratio } => blidrosk_raw_offset_columns_pointed(
                xs.as_ptr(),
                xs.len(),
                ys.as_ptr(),
                ys.len(),
                bulges.as_ptr(),
                bulges.len(),
                closed,
                offset,
                eps,
                ratio,
                out_xs.as_mut_ptr(),
                out_xs.len(),
                out_ys.as_mut_ptr(),
                out_ys.len(),
                out_bulges.as_mut_ptr(),
                out_bulges.len(),
                flags.as_mut_ptr(),
                flags.len(),
                indexes.as_mut_ptr(),
                indexes.len(),
                origins.as_mut_ptr(),
                origins.len(),
                &mut answer,
            ),
        }
    };
    read(answer, xs.len())
}

impl Layout for Columns<Vec<f64>> {
    fn zeros(vertices: usize) -> Self {
        let [xs, ys, bulges] = [(); 3].map(|()| vec![0.0; vertices]);
        Columns { xs, ys, bulges }
    }

    fn keep(&mut self, vertices: usize) {
        for column in [&mut self.xs, &mut self.ys, &mut self.bulges] {
            column.truncate(vertices);
        }
    }
}

impl Drawing<Columns<Vec<f64>>> {
    /// Offsets a drawing in columns with round corners, and as much room as it needs.
    ///
    /// ```
    /// use blidrosk::{Columns, Drawing};
    ///
    /// let source = Columns { xs: [0.0, 4.0, 4.0], ys: [0.0, 0.0, 1.0], bulges: [0.0; 3] };
    /// let drawing = Drawing::offset_columns(&source, false, 2.0, 1e-5).expect("a good job");
    /// assert_eq!(drawing.vertices.xs, [0.0, 4.0, 2.0, 2.0]);
    /// assert_eq!(drawing.vertices.ys, [2.0, 2.0, 0.0, 1.0]);
    /// assert_eq!(drawing.vertices.bulges, [0.0; 4]);
    /// assert_eq!(drawing.indexes, [1]);
    /// assert_eq!(drawing.part(0), Ok(0..2));
    /// ```
    pub fn offset_columns(
        source: &Columns<impl AsRef<[f64]>>,
        closed: bool,
        offset: f64,
        eps: f64,
    ) -> Result<Self, Refusal> {
        Drawing::offset_columns_with(source, closed, offset, eps, Corners::Round)
    }

    /// The same with corners of either kind.
    pub fn offset_columns_with(
        source: &Columns<impl AsRef<[f64]>>,
        closed: bool,
        offset: f64,
        eps: f64,
        corners: Corners,
    ) -> Result<Self, Refusal> {
        // columns of other lengths are refused before their room is looked at
        let source_vertices = source.xs.as_ref().len();
        with_room(
            source_vertices,
            closed,
            corners,
            |vertices, flags, indexes, origins| {
                raw_offset_columns_with(
                    source, closed, offset, eps, corners, vertices, flags, indexes, origins,
                )
            },
        )
    }
}
