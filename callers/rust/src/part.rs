//! Which segments of an output belong to a source segment.

use std::ops::Range;

use crate::Refusal;
use crate::archive::{PartNumbers, blidrosk_part};

/// Finds the part of an output that belongs to a source segment: the first unbroken row of segments
/// whose origins name it, or an empty range.
///
/// `n` is the source's [`segments`](crate::segments()); flags and origins are those that
/// [`raw_offset`](crate::raw_offset()) has written, an origin by its [code](crate::Origin::code()).
/// **Lend the output's own segments**, as many as [`Drawn::segments`](crate::Drawn::segments) says:
/// the zeros past them cannot be told from a span of segment 0. After a job that is done no other
/// segment belongs to the source segment. [`Drawing::part`](crate::Drawing::part) lends what it
/// should.
///
/// [`Refusal::Ragged`]: flags and origins differ in number. Then
/// [`Refusal::NoSuchSourceSegment`]: the source segment is not below `n`.
///
/// ```
/// use blidrosk::{Refusal, part};
///
/// // the span of segment 0 and the connector after it, then the span of segment 1
/// let (flags, origins) = ([0, 1, 0], [0, 1, 2]);
/// assert_eq!(part(2, &flags, &origins, 0), Ok(0..2));
/// assert_eq!(part(2, &flags, &origins, 1), Ok(2..3));
/// assert_eq!(part(2, &flags, &origins, 2), Err(Refusal::NoSuchSourceSegment));
/// assert_eq!(part(2, &flags, &origins[..2], 2), Err(Refusal::Ragged));
/// ```
pub fn part(
    n: u32,
    flags: &[u8],
    origins: &[u32],
    source_segment: u32,
) -> Result<Range<usize>, Refusal> {
    let mut answer: PartNumbers = [0; 4];
    // SAFETY: each pointer goes with the length of its own slice, and the answer has four places,
    // which overlap neither, since it is new here.
    unsafe {
        blidrosk_part(
            n,
            flags.as_ptr(),
            flags.len(),
            origins.as_ptr(),
            origins.len(),
            source_segment,
            &mut answer,
        );
    }
    read(answer)
}

fn read([number, place, start, length]: PartNumbers) -> Result<Range<usize>, Refusal> {
    match Refusal::of(number, place as usize, 0) {
        Some(refusal) => Err(refusal),
        None => Ok(start as usize..start as usize + length as usize),
    }
}
