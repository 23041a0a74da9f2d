//! The archive's call for two outputs side by side.

use super::archive::blidrosk_compare;
use super::{TORN, UNSET};
use crate::side_by_side::{Laid, ListLent, PairAnswer};
use std::{array, ptr};

/// Lays two outputs side by side on the proved code. Its number comes back twice; where the two differ, or a
/// place past the answer was written to, the answer is `TORN`. A list of length 0 may have any pointer: where the
/// second output is closed, it is null.
pub fn side_by_side([first, second]: [Laid; 2], lent: ListLent) -> PairAnswer {
    let mut answer = [UNSET; 8];
    let nulls = second.closed;
    let [first_flags, second_flags] = [first, second].map(|laid| pointer(laid.flags, nulls));
    let [first_numbers, second_numbers] = [first, second].map(|laid| pointer(laid.numbers, nulls));
    // SAFETY: each pointer is lent with its own length, and five numbers have their places.
    let number = unsafe {
        blidrosk_compare(
            first_numbers,
            first.numbers.len(),
            first.closed,
            first_flags,
            first.flags.len(),
            second_numbers,
            second.numbers.len(),
            second.closed,
            second_flags,
            second.flags.len(),
            pointer_mut(lent.numbers, nulls),
            lent.numbers.len(),
            pointer_mut(lent.fields, nulls),
            lent.fields.len(),
            answer.as_mut_ptr().cast(),
        )
    };
    if answer[5..] == [UNSET; 3] && number == answer[0] {
        array::from_fn(|i| answer[i])
    } else {
        TORN
    }
}

fn pointer<T>(list: &[T], nulls: bool) -> *const T {
    if nulls && list.is_empty() {
        ptr::null()
    } else {
        list.as_ptr()
    }
}

fn pointer_mut<T>(list: &mut [T], nulls: bool) -> *mut T {
    if nulls && list.is_empty() {
        ptr::null_mut()
    } else {
        list.as_mut_ptr()
    }
}
