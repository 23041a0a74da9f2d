//! Where two outputs differ.

use std::fmt;

use crate::archive::{CompareNumbers, blidrosk_compare};
use crate::{Drawing, MOST_VERTICES, Refusal};

/// The most vertices that an output may have to be compared: as many as a job can draw.
pub const MOST_COMPARED_VERTICES: usize = 3 * MOST_VERTICES;

/// An output to be compared, in rows: that of a [`Drawing`], or one in buffers of the caller's own, as
/// [`raw_offset`](crate::raw_offset()) fills them. **Lend what was drawn**: as many flags as
/// [`segments`](crate::segments()) says, and none of the zeros past them.
#[derive(Clone, Copy, Debug)]
pub struct Output<'a> {
    /// Three numbers a vertex: x, y and bulge.
    pub vertices: &'a [f64],
    /// A byte for each segment. Any are taken.
    pub flags: &'a [u8],
    pub closed: bool,
}

impl<'a> From<&'a Drawing> for Output<'a> {
    fn from(drawing: &'a Drawing) -> Self {
        Output {
            vertices: &drawing.vertices,
            flags: &drawing.flags,
            closed: drawing.closed,
        }
    }
}

/// Where two outputs differ.
#[derive(Clone, Debug, Default, PartialEq, Eq)]
pub struct Comparison {
    /// The vertices that differ, rising, of those that both outputs have.
    pub differences: Vec<Difference>,
    /// Count of the vertices that only one of them has.
    pub unmatched: usize,
    /// Whether one is closed and the other open.
    pub closed_differs: bool,
}

/// A vertex that differs.
#[derive(Clone, Copy, Debug, PartialEq, Eq, Hash)]
pub struct Difference {
    /// Its number in both outputs, from 0.
    pub vertex: usize,
    pub fields: Fields,
}

/// What differs at a vertex.
#[derive(Clone, Copy, Debug, Default, PartialEq, Eq, Hash)]
pub struct Fields {
    pub x: bool,
    pub y: bool,
    pub bulge: bool,
    /// That of the segment that leaves the vertex.
    pub flag: bool,
}

/// What [`compare_into`] has found: the first places of both buffers have the list.
#[derive(Clone, Copy, Debug, PartialEq, Eq)]
pub struct Compared {
    /// Count of the vertices that differ, of those that both outputs have.
    pub differences: usize,
    /// Count of the vertices that only one of them has.
    pub unmatched: usize,
    /// Whether one is closed and the other open.
    pub closed_differs: bool,
}

/// Tells where two outputs differ, as those of two builds, bit for bit.
///
/// Of the vertices that both have, each is listed where x, y, bulge or the flag of the segment that
/// leaves it is not the same. 0 and −0 differ, so this is not `==`. A vertex that no segment leaves,
/// as the last of an open output, has the flag 0; its bulge is compared as any other. A NaN equals a
/// NaN, whatever its bits, and differs from every number; no drawing that is done has one. Indexes,
/// which the flags tell, and origins are not compared.
///
/// [`Refusal::Ragged`]: numbers are left over, or flags are not one a segment. Then
/// [`Refusal::TooMany`]: there are more than [`MOST_COMPARED_VERTICES`]. Both are tested of the first
/// output, and then of the second. No [`Drawing`] that was offset is refused.
///
/// ```
/// use blidrosk::{Drawing, Output, compare};
///
/// let source = [0.0, 0.0, 0.0, 4.0, 0.0, 0.0, 4.0, 1.0, 0.0];
/// let before = Drawing::offset(&source, false, 2.0, 1e-5).expect("a good job");
/// let mut after = before.clone();
/// assert!(compare(&before, &after).expect("two outputs").is_equal());
///
/// after.vertices[5] = -0.0;
/// after.flags[1] = 0;
/// let comparison = compare(&before, &after).expect("two outputs");
/// assert_eq!(comparison.differences.len(), 1);
/// assert_eq!(comparison.differences[0].to_string(), "vertex 1 differs in bulge and flag");
/// // two vertices fewer, and a segment that closes them
/// let closed = Output { vertices: &before.vertices[..6], flags: &[0, 1], closed: true };
/// let comparison = compare(&before, closed).expect("two outputs");
/// assert!(comparison.differences.is_empty() && !comparison.is_equal());
/// assert_eq!((comparison.unmatched, comparison.closed_differs), (2, true));
/// ```
pub fn compare<'a, 'b>(
    a: impl Into<Output<'a>>,
    b: impl Into<Output<'b>>,
) -> Result<Comparison, Refusal> {
    let (a, b) = (a.into(), b.into());
    // a longer output is refused before its room is looked at
    let places = a.vertices.len().min(b.vertices.len()) / 3;
    let places = places.min(MOST_COMPARED_VERTICES);
    let (mut numbers, mut fields) = (vec![0; places], vec![0; places]);
    let compared = compare_into(a, b, &mut numbers, &mut fields)?;
    let listed = numbers.into_iter().zip(fields).take(compared.differences);
    Ok(Comparison {
        differences: listed
            .map(|(number, code)| Difference {
                vertex: number as usize,
                fields: Fields::from_code(code),
            })
            .collect(),
        unmatched: compared.unmatched,
        closed_differs: compared.closed_differs,
    })
}

/// The same into two buffers: `numbers` receives the number of each vertex that differs, rising, and
/// `fields` in the same place the [code](Fields::from_code) of what differs there.
///
/// Each needs a place for each vertex that differs, so as many as the shorter output has vertices are
/// always enough, and equal outputs need none. With fewer it is [`Refusal::NoRoom`], after all other
/// refusals. Places past the list never change, and on a refusal none does.
///
/// ```
/// use blidrosk::{Output, compare_into};
///
/// let a = Output { vertices: &[0.0, 0.0, 0.0, 4.0, 0.0, 0.0], flags: &[0, 1], closed: true };
/// let b = Output { vertices: &[0.0, 0.0, 0.0, 4.0, 1.0, 0.0], flags: &[0], closed: false };
/// let (mut numbers, mut fields) = ([7; 2], [77; 2]);
/// let compared = compare_into(a, b, &mut numbers, &mut fields).expect("two outputs");
/// assert_eq!((compared.differences, compared.closed_differs), (1, true));
/// assert_eq!((numbers, fields), ([1, 7], [2 + 8, 77]));
/// ```
pub fn compare_into<'a, 'b>(
    a: impl Into<Output<'a>>,
    b: impl Into<Output<'b>>,
    numbers: &mut [u32],
    fields: &mut [u8],
) -> Result<Compared, Refusal> {
    let (a, b) = (a.into(), b.into());
    let mut answer: CompareNumbers = [0; 5];
    // SAFETY: each pointer goes with the length of its own slice, the answer has five places, and
    // neither it nor a buffer overlaps another or an output, since all but the outputs are borrowed
    // as `&mut`. Those may share memory.
    unsafe {
        blidrosk_compare(
            a.vertices.as_ptr(),
            a.vertices.len(),
            a.closed,
            a.flags.as_ptr(),
            a.flags.len(),
            b.vertices.as_ptr(),
            b.vertices.len(),
            b.closed,
            b.flags.as_ptr(),
            b.flags.len(),
            numbers.as_mut_ptr(),
            numbers.len(),
            fields.as_mut_ptr(),
            fields.len(),
            &mut answer,
        );
    }
    read(answer)
}

fn read(
    [number, place, differences, unmatched, closed]: CompareNumbers,
) -> Result<Compared, Refusal> {
    match Refusal::of(number, place as usize, 0) {
        Some(refusal) => Err(refusal),
        None => Ok(Compared {
            differences: differences as usize,
            unmatched: unmatched as usize,
            closed_differs: closed == 1,
        }),
    }
}

impl Comparison {
    /// Whether the outputs are equal: no vertex differs, both have as many, and both are closed or
    /// both open.
    pub fn is_equal(&self) -> bool {
        self.differences.is_empty() && self.unmatched == 0 && !self.closed_differs
    }
}

impl Compared {
    /// Whether the outputs are equal: no vertex differs, both have as many, and both are closed or
    /// both open.
    pub const fn is_equal(self) -> bool {
        self.differences == 0 && self.unmatched == 0 && !self.closed_differs
    }
}

impl Fields {
    /// What a number in the buffer of [`compare_into`] stands for: the sum of 1 for x, 2 for y, 4 for
    /// the bulge and 8 for the flag. Higher bits are not looked at.
    ///
    /// ```
    /// use blidrosk::Fields;
    ///
    /// let fields = Fields::from_code(9);
    /// assert!(fields.x && !fields.y && !fields.bulge && fields.flag);
    /// ```
    pub const fn from_code(code: u8) -> Self {
        Fields {
            x: code & 1 != 0,
            y: code & 2 != 0,
            bulge: code & 4 != 0,
            flag: code & 8 != 0,
        }
    }

    /// Its number.
    pub const fn code(self) -> u8 {
        self.x as u8 + 2 * self.y as u8 + 4 * self.bulge as u8 + 8 * self.flag as u8
    }
}

/// Their names: "x", "x and flag", "x, y and bulge". Nothing where none differs.
impl fmt::Display for Fields {
    fn fmt(&self, f: &mut fmt::Formatter<'_>) -> fmt::Result {
        let named = [
            (self.x, "x"),
            (self.y, "y"),
            (self.bulge, "bulge"),
            (self.flag, "flag"),
        ];
        let mut names: Vec<&str> = named
            .into_iter()
            .filter_map(|(differs, name)| differs.then_some(name))
            .collect();
        match names.pop() {
            None => Ok(()),
            Some(last) if names.is_empty() => f.write_str(last),
            Some(last) => write!(f, "{} and {last}", names.join(", ")),
        }
    }
}

impl fmt::Display for Difference {
    fn fmt(&self, f: &mut fmt::Formatter<'_>) -> fmt::Result {
        write!(f, "vertex {} differs in {}", self.vertex, self.fields)
    }
}
