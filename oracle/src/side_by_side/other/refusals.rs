//! Refusals in their order, and room.

use super::super::{Laid, ListLent, MOST_VERTICES, PairAnswer};
use super::{Other, Wrong};

#[derive(Copy, Clone)]
enum Test {
    Numbers,
    Flags,
    Long,
    Room,
}

use Test::{Flags, Long, Numbers, Room};

impl Other {
    /// The first test that refuses, and what is told then.
    pub(super) fn refusal(self, outputs: [Laid; 2], lent: &mut ListLent) -> Option<PairAnswer> {
        let (which, test) = self.steps().into_iter().find(|(which, test)| match test {
            Numbers => !self.numbers_fit(outputs[*which]),
            Flags => !self.flags_fit(outputs[*which]),
            Long => self.is_long(outputs, *which),
            Room => !self.has_room(outputs, lent),
        })?;
        let number = match test {
            Flags if self.0 == Wrong::RaggedOtherNumber => 2,
            Numbers | Flags => 1,
            Long => 2,
            Room => 4,
        };
        self.spoil(outputs, lent, number);
        Some(self.refused(outputs, number, which))
    }

    /// Which test of which output comes when.
    fn steps(self) -> Vec<(usize, Test)> {
        let each = |which: usize, tests: &[Test]| -> Vec<(usize, Test)> {
            tests.iter().map(|test| (which, *test)).collect()
        };
        let both = |tests: &[Test]| [each(0, tests), each(1, tests)].concat();
        let room = || each(0, &[Room]);
        let all = [Numbers, Flags, Long];
        match self.0 {
            Wrong::RaggedBothFirst => [both(&all[..2]), both(&[Long]), room()].concat(),
            Wrong::LongFirst => [both(&[Long, Numbers, Flags]), room()].concat(),
            Wrong::LongBothFirst => [both(&[Long]), both(&all[..2]), room()].concat(),
            Wrong::SecondFirst => [each(1, &all), each(0, &all), room()].concat(),
            Wrong::FlagsAfterLong => [both(&[Numbers, Long, Flags]), room()].concat(),
            Wrong::FlagsLast => [both(&[Numbers, Long]), both(&[Flags]), room()].concat(),
            Wrong::FlagsBeforeNumbers => [both(&[Flags, Numbers, Long]), room()].concat(),
            Wrong::RoomFirst => [room(), both(&all)].concat(),
            Wrong::RoomBeforeSecond => [each(0, &all), room(), each(1, &all)].concat(),
            Wrong::NumbersUntested => [both(&all[1..]), room()].concat(),
            Wrong::FlagsUntested => [both(&[Numbers, Long]), room()].concat(),
            Wrong::LongUntested => [both(&all[..2]), room()].concat(),
            Wrong::LongUntestedSecond => [each(0, &all), each(1, &all[..2]), room()].concat(),
            Wrong::FirstUntested => [each(1, &all), room()].concat(),
            Wrong::SecondUntested => [each(0, &all), room()].concat(),
            Wrong::RoomUntested => both(&all),
            _ => [both(&all), room()].concat(),
        }
    }

    fn numbers_fit(self, laid: Laid) -> bool {
        let over = laid.numbers.len() % 3;
        over == 0 || self.0 == Wrong::NumbersTwoOver && over == 2
    }

    fn flags_fit(self, laid: Laid) -> bool {
        let (v, have) = (laid.vertices(), laid.flags.len());
        let need = match self.0 {
            Wrong::FlagsOfOne if laid.closed => v,
            Wrong::FlagsEachVertex => v,
            Wrong::FlagsOpen => v.saturating_sub(1),
            _ => laid.segments(),
        };
        match self.0 {
            Wrong::FlagsFewTaken => have <= need,
            Wrong::FlagsManyTaken => have >= need,
            Wrong::FlagsEither => have == v || have + 1 == v || have == need,
            Wrong::FlagsOfFew => v < 2 || have == need,
            _ => have == need,
        }
    }

    fn is_long(self, outputs: [Laid; 2], which: usize) -> bool {
        let laid = outputs[which];
        let v = laid.vertices();
        let most = MOST_VERTICES;
        match self.0 {
            Wrong::MostOut => v >= most,
            Wrong::MostMore => v > most + 1,
            Wrong::MostOfSource => v > 4096,
            Wrong::MostOfRound => v > 8192,
            Wrong::LongSegments => laid.segments() > most,
            Wrong::LongSum if which == 1 => outputs[0].vertices() + v > most,
            Wrong::LongWraps => v & 0xffff > most,
            Wrong::LongByNumbers => laid.numbers.len() > 3 * most,
            _ => v > most,
        }
    }

    fn has_room(self, outputs: [Laid; 2], lent: &ListLent) -> bool {
        let need = self.need(outputs);
        let [numbers, fields] = [lent.numbers.len(), lent.fields.len()];
        match self.0 {
            Wrong::RoomNoNumbers => need <= fields,
            Wrong::RoomNoFields => need <= numbers,
            Wrong::RoomEither => need <= numbers.max(fields),
            Wrong::RoomSum => 2 * need <= numbers + fields,
            Wrong::RoomLater => (0..need).all(|entry| entry < numbers && entry < fields),
            _ => need <= numbers.min(fields),
        }
    }

    fn need(self, outputs: [Laid; 2]) -> usize {
        let [first, second] = outputs.map(|laid| laid.vertices());
        let list = self.entries(outputs);
        match self.0 {
            Wrong::RoomOneMore => list + 1,
            Wrong::RoomOneLess => list.saturating_sub(1),
            Wrong::RoomAtLeastOne => list.max(1),
            Wrong::RoomForBoth => first.min(second),
            Wrong::RoomForLonger => first.max(second),
            Wrong::RoomForRest => list + first.abs_diff(second),
            _ => list,
        }
    }

    /// What a wrong reading writes though it refuses.
    fn spoil(self, outputs: [Laid; 2], lent: &mut ListLent, number: u32) {
        match self.0 {
            Wrong::RefusedZeros => {
                lent.numbers.fill(0);
                lent.fields.fill(0);
            }
            Wrong::RoomWrites if number == 4 => self.write(outputs, lent),
            Wrong::RoomWritesNumbers if number == 4 => {
                let list = self.list(outputs);
                let places = lent.numbers.iter_mut().zip(list);
                places.for_each(|(to, (vertex, _))| *to = vertex);
            }
            _ => {}
        }
    }

    fn refused(self, outputs: [Laid; 2], number: u32, which: usize) -> PairAnswer {
        let list = self.entries(outputs) as u32;
        let mut answer = [number, 0, 0, 0, 0];
        match (self.0, number) {
            (Wrong::PlaceOutput, _) => answer[1] = which as u32,
            (Wrong::PlaceVertices, 2) => answer[1] = outputs[which].vertices() as u32,
            (Wrong::PlaceRoom, 4) => answer[1] = list,
            (Wrong::RefusedCounts, 4) => answer[2] = list,
            (Wrong::RefusedRest, 4) => answer[3] = self.only_one(outputs),
            (Wrong::RefusedMarks, _) => answer[4] = self.marks(outputs).into(),
            _ => {}
        }
        answer
    }
}
