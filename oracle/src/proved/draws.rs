//! The archive's calls for a job drawn vertex by vertex, and the record that is lent to each.

use super::archive::{
    Record, blidrosk_draw_end, blidrosk_draw_start, blidrosk_draw_start_pointed,
    blidrosk_draw_vertices,
};
use super::{TORN, UNSET};
use crate::draws::{Pen, Settings};
use crate::stage::{Answer, Job, Lent};
use std::array;

/// What stands beside the record, and has to stay.
const GUARD: [u64; 2] = [0x7ff4_0000_dead_beef, 0xaaaa_aaaa_5555_5555];

/// A record between two guards.
#[repr(C)]
#[derive(Debug, Copy, Clone)]
pub struct Drawing {
    before: [u64; 2],
    record: Record,
    after: [u64; 2],
}

/// All zeros: never begun.
impl Default for Drawing {
    fn default() -> Self {
        Self {
            before: GUARD,
            record: Record {
                numbers: [0.0; 40],
                words: [0; 16],
            },
            after: GUARD,
        }
    }
}

impl Drawing {
    /// Makes a call. Its number comes back twice; where the two differ, or a place past the answer or
    /// beside the record was written to, the answer is `TORN`.
    fn call(&mut self, function: impl FnOnce(*mut Record, *mut Answer) -> u32) -> Answer {
        let mut answer = [UNSET; 8];
        let number = function(&raw mut self.record, answer.as_mut_ptr().cast());
        let kept = answer[5..] == [UNSET; 3] && [self.before, self.after] == [GUARD; 2];
        if kept && number == answer[0] {
            array::from_fn(|i| answer[i])
        } else {
            TORN
        }
    }

    /// The record's bits.
    fn bits(&self) -> ([u64; 40], [u32; 16]) {
        (self.record.numbers.map(f64::to_bits), self.record.words)
    }
}

impl Pen for Drawing {
    fn start(&mut self, settings: Settings) -> Answer {
        let Settings { offset, eps, ratio } = settings;
        // SAFETY: the record is one, and the answer has five places.
        self.call(|record, answer| unsafe {
            match ratio {
                None => blidrosk_draw_start(record, offset, eps, answer),
                Some(ratio) => blidrosk_draw_start_pointed(record, offset, eps, ratio, answer),
            }
        })
    }

    /// Where the source was written to, the answer is `TORN` too.
    fn draw(&mut self, source: &[f64], lent: Lent) -> Answer {
        let given = source.to_vec();
        // SAFETY: as above, and each pointer is lent with its own length.
        let answer = self.call(|record, answer| unsafe {
            blidrosk_draw_vertices(
                record,
                given.as_ptr(),
                given.len(),
                lent.vertices.as_mut_ptr(),
                lent.vertices.len(),
                lent.flags.as_mut_ptr(),
                lent.flags.len(),
                lent.indexes.as_mut_ptr(),
                lent.indexes.len(),
                lent.origins.as_mut_ptr(),
                lent.origins.len(),
                answer,
            )
        });
        if crate::columns::same(&given, source) {
            answer
        } else {
            TORN
        }
    }

    fn end(&mut self, lent: Lent) -> Answer {
        // SAFETY: as above.
        self.call(|record, answer| unsafe {
            blidrosk_draw_end(
                record,
                lent.vertices.as_mut_ptr(),
                lent.vertices.len(),
                lent.flags.as_mut_ptr(),
                lent.flags.len(),
                lent.indexes.as_mut_ptr(),
                lent.indexes.len(),
                lent.origins.as_mut_ptr(),
                lent.origins.len(),
                answer,
            )
        })
    }

    fn same(&self, other: &Self) -> bool {
        self.bits() == other.bits()
    }

    fn garble(&mut self, mut word: impl FnMut(usize, u32) -> u32) {
        for (i, number) in self.record.numbers.iter_mut().enumerate() {
            let bits = number.to_bits();
            let low = u64::from(word(2 * i, bits as u32));
            let high = u64::from(word(2 * i + 1, (bits >> 32) as u32));
            *number = f64::from_bits(high << 32 | low);
        }
        for (i, place) in self.record.words.iter_mut().enumerate() {
            *place = word(80 + i, *place);
        }
    }

    fn whole(&self, job: &Job, lent: Lent) -> Option<Answer> {
        Some(super::job(job, lent))
    }
}
