//! The proved code, called through its archive.

/// As the Rust caller declares it.
#[path = "../../callers/rust/src/archive.rs"]
mod archive;
#[cfg(with_000)]
mod draws;
mod outputs;

use crate::columns::{ColumnLent, Columns};
use crate::part::{Output, PartAnswer};
use crate::stage::{Answer, Job, Lent};
use archive::{
    blidrosk_part, blidrosk_raw_offset, blidrosk_raw_offset_columns,
    blidrosk_raw_offset_columns_pointed, blidrosk_raw_offset_pointed, blidrosk_why,
    blidrosk_why_pointed,
};
#[cfg(with_000)]
pub use draws::Drawing;
pub use outputs::side_by_side;
use std::array;

/// An answer that no job has.
const TORN: Answer = [u32::MAX; 5];

/// The archive's function, or that of another build.
pub type Function = unsafe extern "C" fn(
    *const f64,
    usize,
    bool,
    f64,
    f64,
    *mut f64,
    usize,
    *mut u8,
    usize,
    *mut u32,
    usize,
    *mut u32,
    usize,
    *mut Answer,
) -> u32;

/// Works one job on the proved code, in the job's mode.
pub fn job(job: &Job, lent: Lent) -> Answer {
    match job.ratio {
        // SAFETY: it is the archive's.
        None => unsafe { job_by(blidrosk_raw_offset, job, lent) },
        Some(ratio) => pointed(job, ratio, lent),
    }
}

/// The same in the pointed mode.
fn pointed(job: &Job, ratio: f64, lent: Lent) -> Answer {
    let mut answer = TORN;
    // SAFETY: each pointer is lent with its own length, and the answer has five places.
    let number = unsafe {
        blidrosk_raw_offset_pointed(
            job.source.as_ptr(),
            job.source.len(),
            job.closed,
            job.offset,
            job.eps,
            ratio,
            lent.vertices.as_mut_ptr(),
            lent.vertices.len(),
            lent.flags.as_mut_ptr(),
            lent.flags.len(),
            lent.indexes.as_mut_ptr(),
            lent.indexes.len(),
            lent.origins.as_mut_ptr(),
            lent.origins.len(),
            &mut answer,
        )
    };
    if number == answer[0] { answer } else { TORN }
}

/// Works one job. Its number comes back twice; where the two differ, the answer is `TORN`.
///
/// # Safety
///
/// The function is one that `callers/include/blidrosk.h` declares.
#[inline]
pub unsafe fn job_by(function: Function, job: &Job, lent: Lent) -> Answer {
    let mut answer = TORN;
    // SAFETY: each pointer is lent with its own length, and the answer has five places.
    let number = unsafe {
        function(
            job.source.as_ptr(),
            job.source.len(),
            job.closed,
            job.offset,
            job.eps,
            lent.vertices.as_mut_ptr(),
            lent.vertices.len(),
            lent.flags.as_mut_ptr(),
            lent.flags.len(),
            lent.indexes.as_mut_ptr(),
            lent.indexes.len(),
            lent.origins.as_mut_ptr(),
            lent.origins.len(),
            &mut answer,
        )
    };
    if number == answer[0] { answer } else { TORN }
}

/// Works one job in columns, in the job's mode. Its number comes back twice; where the two differ, or a place
/// past the answer was written to, the answer is `TORN`.
pub fn columns(job: &Columns, lent: ColumnLent) -> Answer {
    let mut answer = [UNSET; 8];
    let [xs, ys, bulges] = job.source();
    let ColumnLent {
        xs: out_xs,
        ys: out_ys,
        bulges: out_bulges,
        flags,
        indexes,
        origins,
    } = lent;
    // The two functions differ in the ratio alone.
    macro_rules! call {
        ($function:ident $(, $ratio:expr)?) => {
            // SAFETY: each pointer is lent with its own length, and five numbers have their places.
            unsafe {
                $function(
                    xs.as_ptr(),
                    xs.len(),
                    ys.as_ptr(),
                    ys.len(),
                    bulges.as_ptr(),
                    bulges.len(),
                    job.closed,
                    job.offset,
                    job.eps,
                    $($ratio,)?
                    out_xs.as_mut_ptr(),
                    out_xs.len(),
                    out_ys.as_mut_ptr(),
                    out_ys.len(),
                    out_bulges.as_mut_ptr(),
                    out_bulges.len(),
                    flags.as_mut_ptr(),
                    flags.len(),
                    indexes.as_mut_ptr(),
                    indexes.len(),
                    origins.as_mut_ptr(),
                    origins.len(),
                    answer.as_mut_ptr().cast(),
                )
            }
        };
    }
    let number = match job.ratio {
        None => call!(blidrosk_raw_offset_columns),
        Some(ratio) => call!(blidrosk_raw_offset_columns_pointed, ratio),
    };
    if answer[5..] == [UNSET; 3] && number == answer[0] {
        array::from_fn(|i| answer[i])
    } else {
        TORN
    }
}

/// The seven numbers of an answer, and both parameters by their bits.
pub type WhyTold = ([u32; 7], [u64; 2]);

/// What stands in an answer and its parameters before a call, and after it in three places past each:
/// no number that is told or found, and NaNs that signal.
const UNSET: u32 = 0xaaaa_aaaa;
const UNSET_PARAM: u64 = 0x7ff4_0000_dead_beef;

const TORN_WHY: WhyTold = ([u32::MAX; 7], [u64::MAX; 2]);

/// Asks the proved code why a segment is as it is. The number comes back twice; where the two differ,
/// or a place past the answer or the parameters was written to, the answer is `TORN_WHY`.
pub fn why(job: &Job, segment: u32) -> WhyTold {
    let (mut answer, mut params) = ([UNSET; 10], [UNSET_PARAM; 5]);
    let (source, length) = (job.source.as_ptr(), job.source.len());
    let (closed, offset, eps) = (job.closed, job.offset, job.eps);
    let told = answer.as_mut_ptr().cast();
    let both = params.as_mut_ptr().cast();
    // SAFETY: the source is lent with its length; seven numbers and two parameters have their places.
    let number = unsafe {
        match job.ratio {
            None => blidrosk_why(source, length, closed, offset, eps, segment, told, both),
            Some(ratio) => blidrosk_why_pointed(
                source, length, closed, offset, eps, ratio, segment, told, both,
            ),
        }
    };
    let kept = answer[7..] == [UNSET; 3] && params[2..] == [UNSET_PARAM; 3];
    if kept && number == answer[0] {
        (array::from_fn(|i| answer[i]), array::from_fn(|i| params[i]))
    } else {
        TORN_WHY
    }
}

const TORN_PART: PartAnswer = [u32::MAX; 4];

/// Asks the proved code for a part. The number comes back twice; where the two differ, or a place past
/// the answer was written to, the answer is `TORN_PART`.
pub fn part(output: Output, source: u32) -> PartAnswer {
    let mut answer = [UNSET; 7];
    // SAFETY: both lists are lent with their lengths, and four numbers have their places.
    let number = unsafe {
        blidrosk_part(
            output.n,
            output.flags.as_ptr(),
            output.flags.len(),
            output.origins.as_ptr(),
            output.origins.len(),
            source,
            answer.as_mut_ptr().cast(),
        )
    };
    if answer[4..] == [UNSET; 3] && number == answer[0] {
        array::from_fn(|i| answer[i])
    } else {
        TORN_PART
    }
}
