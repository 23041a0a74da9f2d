//! Runs a side and the reference on two outputs, and holds the whole outcomes to each other: the answer, every
//! place of the list's room, and three past each.

use super::{Laid, ListLent, Listed, Pair, PairAnswer, Tally, side_by_side};

/// What is known of two outputs by the way they were made.
#[derive(Debug, Clone, Default)]
pub struct Told {
    pub list: Vec<(u32, u8)>,
    pub only_one: u32,
    pub marks: bool,
}

/// Holds a side to the reference, and says in words how it differs.
pub fn hold(
    side: impl Fn([Laid; 2], ListLent) -> PairAnswer,
    pair: &Pair,
    tally: &mut Tally,
) -> Option<String> {
    let expected = pair.run(side_by_side);
    tally.pair(pair, &expected.answer);
    if let Some(words) = unsound(pair, &expected) {
        return Some(words);
    }
    let listed = pair.run(side);
    (listed != expected).then(|| difference(&expected, &listed))
}

/// The same, and holds both to what is known: the list, or No. 4 where it has too little room.
pub fn hold_to(
    told: &Told,
    side: impl Fn([Laid; 2], ListLent) -> PairAnswer,
    pair: &Pair,
    tally: &mut Tally,
) -> Option<String> {
    let listed = pair.run(side_by_side);
    let known = told.listed(pair);
    if listed != known {
        return Some(format!("the reference differs: {known:?} {listed:?}"));
    }
    hold(side, pair, tally)
}

impl Told {
    fn listed(&self, pair: &Pair) -> Listed {
        let count = self.list.len();
        let mut listed = Listed::untouched([4, 0, 0, 0, 0], pair.before(), pair.room);
        if pair.room.iter().all(|lent| count <= *lent) {
            listed.answer = [0, 0, count as u32, self.only_one, self.marks.into()];
            for (place, (number, fields)) in self.list.iter().enumerate() {
                listed.numbers[place] = *number;
                listed.fields[place] = *fields;
            }
        }
        listed
    }
}

/// What the request says of each answer, whatever the reference did: the list rises and each entry names a
/// field; nothing to tell means equal outputs, and they mean that; places past the list stay.
fn unsound(pair: &Pair, listed: &Listed) -> Option<String> {
    let [number, _, count, ..] = listed.answer;
    let count = count as usize;
    let before = Listed::untouched(listed.answer, pair.before(), pair.room);
    let (numbers, fields) = (&listed.numbers[..count], &listed.fields[..count]);
    let rises = numbers.is_sorted_by(|a, b| a < b);
    let named = fields.iter().all(|fields| (1..16).contains(fields));
    let nothing = listed.answer == [0; 5];
    let stays = listed.numbers[count..] == before.numbers[count..]
        && listed.fields[count..] == before.fields[count..];
    let words = if !rises || !named {
        "the list is none"
    } else if number == 0 && nothing != pair.is_equal() {
        "nothing to tell is not the same as equal outputs"
    } else if !stays {
        "a place that stays was written to"
    } else {
        return None;
    };
    Some(format!("of the reference {words}: {listed:?}"))
}

/// Both answers, and the first place that differs.
fn difference(expected: &Listed, listed: &Listed) -> String {
    let (these, those) = (expected.answer, listed.answer);
    let mut words = format!("expected {these:?}, here {those:?}");
    let numbers = expected.numbers.iter().zip(&listed.numbers);
    let fields = expected.fields.iter().zip(&listed.fields);
    if let Some((place, (this, that))) = numbers.enumerate().find(|(_, (a, b))| a != b) {
        words += &format!("; number at {place}: expected {this}, here {that}");
    }
    if let Some((place, (this, that))) = fields.enumerate().find(|(_, (a, b))| a != b) {
        words += &format!("; fields at {place}: expected {this}, here {that}");
    }
    words
}
