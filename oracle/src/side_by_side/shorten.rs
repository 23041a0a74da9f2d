//! Two outputs that still show a difference, with all left out that has no part in it.

use super::{Output, Pair};

/// So many numbers it may look at: many tries of a short pair, and few of a long one.
const MOST_NUMBERS: usize = 1_000_000;

struct Shortening<F> {
    differs: F,
    pair: Pair,
    numbers: usize,
}

/// Leaves out vertices, then sets numbers and flags to zero, and lends other places, as long as there is a difference.
pub fn shortened(pair: &Pair, differs: impl Fn(&Pair) -> bool) -> Pair {
    let mut shortening = Shortening {
        differs,
        pair: pair.clone(),
        numbers: 0,
    };
    let [first, second] = pair.owned();
    if !shortening.take(Pair::apart(&first, &second, pair.room)) {
        // the places that they share have a part in it
        return shortening.pair;
    }
    for which in [&[0, 1][..], &[0], &[1]] {
        shortening.leave_out(which);
    }
    shortening.set_zeros();
    shortening.lend();
    shortening.pair
}

impl<F: Fn(&Pair) -> bool> Shortening<F> {
    /// Takes another pair, if it shows a difference too.
    fn take(&mut self, pair: Pair) -> bool {
        self.numbers += 50 + pair.numbers.len();
        let differs = !self.is_spent() && (self.differs)(&pair);
        if differs {
            self.pair = pair;
        }
        differs
    }

    fn is_spent(&self) -> bool {
        self.numbers >= MOST_NUMBERS
    }

    /// Runs of vertices, at the same places of each that is named.
    fn leave_out(&mut self, which: &[usize]) {
        let vertices = |pair: &Pair| {
            let [first, second] = pair.owned().map(|output| output.vertices());
            first.max(second)
        };
        let mut size = vertices(&self.pair);
        while size > 0 {
            let mut place = vertices(&self.pair);
            while place >= size && !self.is_spent() {
                place -= size;
                let mut outputs = self.pair.owned();
                for output in which {
                    without(&mut outputs[*output], place, size);
                }
                let room = self.pair.room;
                self.take(Pair::apart(&outputs[0], &outputs[1], room));
            }
            size /= 2;
        }
    }

    /// Where two stand beside each other, both at once, or each by itself.
    fn set_zeros(&mut self) {
        let [numbers, flags] = [self.pair.numbers.len(), self.pair.flags.len()];
        let second = self.pair.at[1].numbers.start;
        for slot in 0..numbers {
            if self.is_spent() {
                return;
            }
            let mut pair = self.pair.clone();
            pair.numbers[slot] = 0.0;
            if second + slot < numbers {
                pair.numbers[second + slot] = 0.0;
            }
            if !self.take(pair) && self.pair.numbers[slot].to_bits() != 0 {
                let mut pair = self.pair.clone();
                pair.numbers[slot] = 0.0;
                self.take(pair);
            }
        }
        for slot in 0..flags {
            if self.pair.flags[slot] != 0 && !self.is_spent() {
                let mut pair = self.pair.clone();
                pair.flags[slot] = 0;
                self.take(pair);
            }
        }
    }

    /// Plenty, or little.
    fn lend(&mut self) {
        for room in [[99; 2], [9; 2], [1; 2], [0; 2]] {
            self.take(Pair {
                room,
                ..self.pair.clone()
            });
        }
    }
}

/// An output with some vertices left out, and the flags of the segments leaving them.
fn without(output: &mut Output, place: usize, size: usize) {
    let v = output.vertices();
    let odd = output.flags.len() as isize - output.laid().segments() as isize;
    let run = place.min(v)..(place + size).min(v);
    output.numbers.drain(3 * run.start..3 * run.end);
    let flags = output.flags.len();
    output.flags.drain(run.start.min(flags)..run.end.min(flags));
    // as many flags too many or too few as there were
    let fit = output.laid().segments() as isize + odd;
    output.flags.resize(fit.max(0) as usize, 0);
}
