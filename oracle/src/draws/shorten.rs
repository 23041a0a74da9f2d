//! A script that still shows a difference, with all left out that has no part in it.

use super::{Call, Pen, Script, Tally, hold};
use std::time::{Duration, Instant};

/// So long it may take.
const LONGEST: Duration = Duration::from_secs(20);

struct Shortening<'a, P> {
    pen: &'a P,
    script: Script,
    began: Instant,
}

/// Leaves out calls and vertices, and then rounds numbers and lends more, as long as there is a difference.
pub fn shortened<P: Pen>(pen: &P, script: &[Call]) -> Script {
    let mut shortening = Shortening {
        pen,
        script: script.to_vec(),
        began: Instant::now(),
    };
    let mut before = usize::MAX;
    while shortening.size() < before {
        before = shortening.size();
        shortening.leave_out_calls();
        shortening.leave_out_vertices();
    }
    shortening.round_numbers();
    shortening.lend_more();
    shortening.script
}

impl<P: Pen> Shortening<'_, P> {
    fn size(&self) -> usize {
        let numbers = self.script.iter().map(|call| call.numbers().len());
        self.script.len() + numbers.sum::<usize>()
    }

    /// Takes another script, if it shows a difference too.
    fn take(&mut self, script: Script) -> bool {
        let differs = self.began.elapsed() < LONGEST
            && hold(self.pen, &script, &mut Tally::default()).is_some();
        if differs {
            self.script = script;
        }
        differs
    }

    fn leave_out_calls(&mut self) {
        let mut size = self.script.len();
        while size > 0 {
            let mut place = self.script.len();
            while place >= size {
                place -= size;
                let mut script = self.script.clone();
                script.drain(place..place + size);
                self.take(script);
                place = place.min(self.script.len());
            }
            size /= 2;
        }
    }

    fn leave_out_vertices(&mut self) {
        for call in 0..self.script.len() {
            let mut size = self.script[call].numbers().len() / 3;
            while size > 0 {
                let mut place = self.script[call].numbers().len() / 3;
                while place >= size {
                    place -= size;
                    let mut script = self.script.clone();
                    if let Call::Draw(source, _) = &mut script[call] {
                        source.drain(3 * place..3 * (place + size));
                    }
                    self.take(script);
                }
                size /= 2;
            }
        }
    }

    fn round_numbers(&mut self) {
        for call in 0..self.script.len() {
            for slot in 0..self.script[call].numbers().len() {
                let number = self.script[call].numbers()[slot];
                let rounder = [0.0, number.round(), (number * 16.0).round() / 16.0];
                let simpler = |other: &f64| other.to_bits() != number.to_bits();
                for other in rounder.into_iter().filter(simpler) {
                    let mut script = self.script.clone();
                    if let Call::Draw(source, _) = &mut script[call] {
                        source[slot] = other;
                    }
                    if self.take(script) {
                        break;
                    }
                }
            }
        }
    }

    fn lend_more(&mut self) {
        for call in 0..self.script.len() {
            let mut script = self.script.clone();
            if let Call::Draw(_, room) | Call::End(room) = &mut script[call] {
                *room = [99; 4];
                self.take(script);
            }
        }
    }
}
