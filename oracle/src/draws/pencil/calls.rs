//! What is tested before any vertex is taken: settings at the start, and in each call an old refusal, 9,
//! ragged, room.

use super::{Begun, MOST_VERTICES, Out, Pencil, Stage, Wrong};
use crate::draws::{Pen, Settings};
use crate::stage::{Answer, Lent};

#[derive(Copy, Clone)]
enum Test {
    Old,
    Nine,
    Ragged,
    Room,
}

use Test::{Nine, Old, Ragged, Room};

impl Pencil {
    /// The place by which a bad setting is told apart in a wrong reading alone.
    pub(super) fn bad_setting(&self, settings: &Settings) -> Option<u32> {
        let within = |number: f64, low: f64, high: f64, wrong: Wrong| {
            let inside = (low..=high).contains(&number);
            inside && !(self.is(wrong) && (number == low || number == high))
        };
        let bad_ratio = |ratio: f64| !(1.0..=10.0).contains(&ratio);
        if self.is(Wrong::RatioFirst) && settings.ratio.is_some_and(bad_ratio) {
            return Some(2);
        }
        let untested = self.is(Wrong::RatioUntested)
            || self.is(Wrong::RatioOfCopies) && settings.offset == 0.0;
        if !within(settings.offset, -1e6, 1e6, Wrong::OffsetOut) {
            return Some(0);
        }
        if !within(settings.eps, 1e-9, 0.01, Wrong::EpsOut) {
            return Some(1);
        }
        let ratio = settings.ratio.filter(|_| !untested)?;
        (!within(ratio, 1.0, 10.0, Wrong::RatioOut)).then_some(2)
    }

    pub(super) fn refuse_start(&mut self, place: u32) -> Answer {
        let place = if self.is(Wrong::StartPlaces) {
            place
        } else {
            0
        };
        let answer = [3, place, 0, 0, 0];
        match self.wrong {
            Wrong::RefusedStartKeeps => {}
            Wrong::RefusedStartEnds => self.set(Stage::Ended(0)),
            _ => self.set(Stage::Refused(answer)),
        }
        answer
    }

    pub(super) fn before_vertices(&mut self, source: &[f64], lent: &Lent) -> Result<Begun, Answer> {
        let order = match self.wrong {
            Wrong::RaggedFirst => [Ragged, Old, Nine, Room],
            Wrong::RoomFirst => [Room, Old, Nine, Ragged],
            Wrong::RoomBeforeRagged => [Old, Nine, Room, Ragged],
            Wrong::RaggedBeforeNine => [Old, Ragged, Nine, Room],
            Wrong::RoomBeforeNine => [Old, Room, Nine, Ragged],
            Wrong::NineBeforeOld => [Nine, Old, Ragged, Room],
            _ => [Old, Nine, Ragged, Room],
        };
        self.first_answer(order, Some(source), lent)
    }

    pub(super) fn before_end(&mut self, lent: &Lent) -> Result<Begun, Answer> {
        let order = match self.wrong {
            Wrong::RoomFirst => [Room, Old, Nine, Ragged],
            Wrong::RoomBeforeNine => [Old, Room, Nine, Ragged],
            Wrong::NineBeforeOld => [Nine, Old, Ragged, Room],
            _ => [Old, Nine, Ragged, Room],
        };
        self.first_answer(order, None, lent)
    }

    /// The job at hand, unless a test answers. The source is that of a draw.
    fn first_answer(
        &mut self,
        order: [Test; 4],
        source: Option<&[f64]>,
        lent: &Lent,
    ) -> Result<Begun, Answer> {
        let stage = self.stage();
        for test in order {
            let answer = match test {
                Old => self.old(&stage, source.is_none()),
                Nine => self.nine(&stage, source),
                Ragged => self.ragged(&stage, source),
                Room => self.room(&stage, source, lent),
            };
            if let Some(answer) = answer {
                return Err(answer);
            }
        }
        match stage {
            Stage::Begun(begun) => Ok(*begun),
            // a wrong reading alone gets here
            _ => Err([0; 5]),
        }
    }

    fn old(&mut self, stage: &Stage, end: bool) -> Option<Answer> {
        let Stage::Refused(answer) = stage else {
            return None;
        };
        let [number, place, ..] = *answer;
        if self.is(Wrong::LaterChanges) {
            self.changes += 1;
        }
        if end && self.is(Wrong::EndAfterEnds) {
            self.set(Stage::Ended(0));
        }
        Some(match self.wrong {
            Wrong::LaterCounts => *answer,
            Wrong::LaterPlaceZero => [number, 0, 0, 0, 0],
            Wrong::LaterNine => [9, 0, 0, 0, 0],
            Wrong::EndAfterDone if end => [0; 5],
            _ => [number, place, 0, 0, 0],
        })
    }

    fn nine(&mut self, stage: &Stage, source: Option<&[f64]>) -> Option<Answer> {
        let vertices = match stage {
            Stage::NeverBegun if self.is(Wrong::NeverBegun) => return Some([0; 5]),
            Stage::NeverBegun => 0,
            Stage::Ended(vertices) => *vertices as u32,
            _ => return None,
        };
        let ended = matches!(stage, Stage::Ended(_));
        if ended && source.is_none() && self.is(Wrong::EndTwice) {
            return Some([0; 5]);
        }
        if ended && source.is_some_and(<[f64]>::is_empty) && self.is(Wrong::DrawAfterEnd) {
            return Some([0; 5]);
        }
        if self.is(Wrong::NineChanges) {
            self.changes += 1;
        }
        let place = if self.is(Wrong::NineWithPlace) {
            vertices
        } else {
            0
        };
        Some([9, place, 0, 0, 0])
    }

    fn ragged(&mut self, stage: &Stage, source: Option<&[f64]>) -> Option<Answer> {
        let ragged = source.is_some_and(|source| !source.len().is_multiple_of(3));
        if !ragged || self.is(Wrong::RaggedTakes) {
            return None;
        }
        let answer = [1, 0, 0, 0, 0];
        match (self.wrong, stage) {
            (Wrong::RaggedEnds, Stage::Begun(_)) => {
                self.refuse(answer);
            }
            (Wrong::RaggedChanges, _) => self.changes += 1,
            (Wrong::RaggedAnswersLate, Stage::Begun(begun)) => {
                if let Some(refusal) = self.ragged_late(begun, source.unwrap_or_default()) {
                    return Some(refusal);
                }
            }
            _ => {}
        }
        Some(answer)
    }

    /// The refusal of a whole vertex before what is over.
    fn ragged_late(&mut self, begun: &Begun, source: &[f64]) -> Option<Answer> {
        let mut begun = begun.clone();
        for vertex in source.chunks_exact(3) {
            let vertex = [vertex[0], vertex[1], vertex[2]];
            let before = begun.clone();
            let piece = self.turn(&mut begun, vertex);
            if let Some(number) = self.refusal(&before, vertex, &piece) {
                let place = self.place(number, &before, 0);
                return Some(self.refuse([number, place, 0, 0, 0]));
            }
        }
        None
    }

    fn room(&mut self, stage: &Stage, source: Option<&[f64]>, lent: &Lent) -> Option<Answer> {
        let needs = match (stage, source) {
            (Stage::Begun(begun), Some(source)) => self.draw_needs(begun, source),
            (Stage::Begun(begun), None) => self.end_needs(begun),
            (_, Some(source)) => [2 * (source.len() / 3); 4],
            (_, None) => [2; 4],
        };
        if self.fits(needs, lent) {
            return None;
        }
        let answer = [4, 0, 0, 0, 0];
        match (self.wrong, stage) {
            (Wrong::RoomEnds, Stage::Begun(_)) => {
                self.refuse(answer);
            }
            (Wrong::RoomChanges, _) => self.changes += 1,
            _ => {}
        }
        Some(answer)
    }

    /// How many vertices, flags, indexes and origins have to fit.
    fn draw_needs(&self, begun: &Begun, source: &[f64]) -> [usize; 4] {
        let given = source.len() / 3;
        let each = match self.wrong {
            Wrong::RoomTwoPointed => 2,
            Wrong::RoomThreeRound => 3,
            Wrong::CopyRoomOne if self.copies(&begun.settings) => 1,
            _ => begun.settings.each(),
        };
        match self.wrong {
            Wrong::RoomByTurns | Wrong::RoomTakesFit => [0; 4],
            Wrong::RoomByDrawn => self.drawn(begun, source),
            Wrong::RoomWithoutFirst if begun.vertices == 0 => [each * given.saturating_sub(1); 4],
            Wrong::RoomUpToMost => [each * given.min(MOST_VERTICES - begun.vertices); 4],
            Wrong::EmptyNeedsRoom if given == 0 => [2; 4],
            _ => [each * given; 4],
        }
    }

    fn end_needs(&self, begun: &Begun) -> [usize; 4] {
        match self.wrong {
            Wrong::EndRoomNone => [0; 4],
            Wrong::EndRoomOne => [1; 4],
            Wrong::EndRoomThree => [begun.settings.each(); 4],
            Wrong::EndRoomOneFlag => [2, 1, 1, 1],
            Wrong::EndRoomFew if begun.vertices < 2 => [0; 4],
            Wrong::EndRoomByDrawn => {
                let (strokes, point) = self.last(&mut begun.clone());
                let vertices = strokes.len() + usize::from(point.is_some());
                let flagged = strokes.iter().filter(|stroke| stroke.flag).count();
                [vertices, strokes.len(), flagged, strokes.len()]
            }
            _ => [2; 4],
        }
    }

    /// What a draw would hand out.
    fn drawn(&self, begun: &Begun, source: &[f64]) -> [usize; 4] {
        let mut pen = Self::right();
        pen.set(Stage::Begun(Box::new(begun.clone())));
        let places = 3 * source.len();
        let mut buffers = crate::stage::Buffers::of([3 * places, places, places, places]);
        let lent = buffers.lend([3 * places, places, places, places]);
        let [_, _, vertices, indexes, segments] = pen.draw(source, lent);
        [vertices, segments, indexes, segments].map(|count| count as usize)
    }

    fn fits(&self, needs: [usize; 4], lent: &Lent) -> bool {
        let numbers = lent.vertices.len();
        let vertices = match self.wrong {
            Wrong::RoomRoundedUp => numbers.div_ceil(3),
            Wrong::RoomByNumbers => numbers,
            _ => numbers / 3,
        };
        let places = [
            (vertices, Wrong::RoomNoVertices),
            (lent.flags.len(), Wrong::RoomNoFlags),
            (lent.indexes.len(), Wrong::RoomNoIndexes),
            (lent.origins.len(), Wrong::RoomNoOrigins),
        ];
        let mut pairs = needs.into_iter().zip(places);
        pairs.all(|(need, (places, uncounted))| need <= places || self.is(uncounted))
    }

    /// Whether by a wrong reading the room ends at a vertex of the call.
    pub(super) fn out_of_room(&self, begun: &Begun, given: usize, out: &Out) -> bool {
        let needs = match self.wrong {
            Wrong::RoomByTurns => begun.settings.each() * (given + 1),
            Wrong::RoomTakesFit => out.count() + begun.settings.each(),
            _ => return false,
        };
        !self.fits([needs; 4], out.lent())
    }
}
