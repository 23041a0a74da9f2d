//! The count of what a comparison of outputs has met.

use super::{Laid, MOST_VERTICES, Pair, PairAnswer, bits, fields};

macro_rules! met {
    ($($name:ident: $text:literal,)*) => {
        /// Something that a comparison has to meet.
        #[derive(Debug, Copy, Clone, PartialEq, Eq)]
        pub enum Met { $($name,)* }

        const MET: &[(Met, &str)] = &[$((Met::$name, $text),)*];
    };
}

met! {
    NumbersFirst: "No. 1 for the first's numbers",
    FewFirst: "No. 1 for the first's flags alone, too few",
    ManyFirst: "No. 1 for the first's flags alone, too many",
    NumbersSecond: "No. 1 for the second's numbers",
    FewSecond: "No. 1 for the second's flags alone, too few",
    ManySecond: "No. 1 for the second's flags alone, too many",
    FlagOfFew: "No. 1 for a flag of fewer than two vertices",
    RaggedLong: "No. 1 for an output of too many vertices",
    RaggedThenLong: "No. 1 for the first, the second too many",
    LongFirst: "No. 2 for the first",
    LongSecond: "No. 2 for the second",
    LongThenRagged: "No. 2 for the first, the second ragged",
    RefusedRoomless: "Nos. 1 and 2 with no room",
    ShortNumbers: "No. 4 for vertex numbers alone",
    ShortNumber: "No. 4 for one vertex number alone",
    ShortFields: "No. 4 for fields alone",
    ShortField: "No. 4 for one place of fields alone",
    ShortBoth: "No. 4 for both",
    ShortNone: "No. 4 with no room at all",
    Just: "lists with just enough room",
    Plenty: "lists with more room than they need",
    NoRoom: "nothing to list, with no room at all",
    OnlyFirst: "outputs of which the first has more vertices",
    OnlySecond: "outputs of which the second has more vertices",
    OnlyAlone: "outputs that differ in their length alone",
    MarksFirst: "marks that differ, the first closed",
    MarksSecond: "marks that differ, the second closed",
    MarksAlone: "outputs that differ in their marks alone",
    Equal: "equal outputs",
    EqualShared: "equal outputs in the same places",
    Shared: "other outputs in the same places",
    NoneZero: "a clear flag beside no segment",
    NoneSet: "another flag beside no segment",
    FlagHigh: "flags that differ, but not in their lowest bit",
    FlagSame: "equal flags above 1",
    ZerosX: "+0 beside -0 for x",
    ZerosY: "+0 beside -0 for y",
    ZerosBulge: "+0 beside -0 for a bulge",
    NansX: "a NaN beside other bits of a NaN for x",
    NansY: "a NaN beside other bits of a NaN for y",
    NansBulge: "a NaN beside other bits of a NaN for a bulge",
    NanX: "a NaN beside a number for x",
    NanY: "a NaN beside a number for y",
    NanBulge: "a NaN beside a number for a bulge",
    LowX: "x that differ in their lowest bit alone",
    LowY: "y that differ in their lowest bit alone",
    LowBulge: "bulges that differ in their lowest bit alone",
    LastBulge: "last bulges of open outputs that alone differ",
    ListedFirst: "lists with vertex 0",
    ListedLast: "lists with the last vertex that both have",
    ListedAll: "lists of all vertices that both have, above one",
    ListedMost: "lists with vertex 12287",
    Size0: "pairs whose shorter has no vertex",
    Size1: "pairs whose shorter has 1 vertex",
    Size2: "pairs whose shorter has 2 vertices",
    Size3: "pairs whose shorter has 3 to 99 vertices",
    Size100: "pairs whose shorter has 100 to 9999 vertices",
    Size10000: "pairs whose shorter has more, not refused",
    SizeMost: "pairs of 12288 vertices each",
    JobSame: "outputs of jobs beside themselves",
    JobSide: "outputs of jobs beside those of another side",
    JobX: "outputs of jobs, a bit of x turned",
    JobY: "outputs of jobs, a bit of y turned",
    JobBulge: "outputs of jobs, a bit of a bulge turned",
    JobFlag: "outputs of jobs, a bit of a flag turned",
    JobMark: "outputs of jobs, the mark turned",
    JobLess: "outputs of jobs, the last vertex left out",
    JobShort: "outputs of jobs, a bit turned, and no room for one entry",
    JobOther: "outputs of jobs with a number changed, that differ",
    JobAlike: "outputs of jobs with a number changed, that do not",
}

/// Those of x, of y, and of bulges.
const ZEROS: [Met; 3] = [Met::ZerosX, Met::ZerosY, Met::ZerosBulge];
const NANS: [Met; 3] = [Met::NansX, Met::NansY, Met::NansBulge];
const NAN: [Met; 3] = [Met::NanX, Met::NanY, Met::NanBulge];
const LOW: [Met; 3] = [Met::LowX, Met::LowY, Met::LowBulge];

#[derive(Debug)]
pub struct Tally {
    pairs: Vec<(&'static str, u64)>,
    /// By number: done, 1, 2 and 4.
    numbers: [u64; 5],
    /// Vertices that both have, by what differs.
    fields: [u64; 16],
    met: Vec<u64>,
}

impl Default for Tally {
    fn default() -> Self {
        Self {
            pairs: Vec::new(),
            numbers: [0; 5],
            fields: [0; 16],
            met: vec![0; MET.len()],
        }
    }
}

impl Tally {
    pub fn family(&mut self, family: &'static str) {
        match self.pairs.iter_mut().find(|known| known.0 == family) {
            Some(known) => known.1 += 1,
            None => self.pairs.push((family, 1)),
        }
    }

    pub fn met(&mut self, met: Met) {
        self.met_if(true, met);
    }

    pub fn met_if(&mut self, is: bool, met: Met) {
        self.met[met as usize] += u64::from(is);
    }

    pub(super) fn pair(&mut self, pair: &Pair, answer: &PairAnswer) {
        self.numbers[answer[0] as usize] += 1;
        match answer[0] {
            1 | 2 => self.refused(pair, answer[0]),
            4 => self.roomless(pair),
            _ => self.done(pair, answer),
        }
    }

    fn refused(&mut self, pair: &Pair, number: u32) {
        let [first, second] = pair.outputs();
        let is_first = first.is_ragged() || first.vertices() > MOST_VERTICES;
        let refused = if is_first { first } else { second };
        let long = |laid: Laid| laid.vertices() > MOST_VERTICES;
        self.met_if(pair.room == [0; 2], Met::RefusedRoomless);
        if number == 2 {
            self.met(if is_first {
                Met::LongFirst
            } else {
                Met::LongSecond
            });
            self.met_if(is_first && second.is_ragged(), Met::LongThenRagged);
            return;
        }
        let few = refused.flags.len() < refused.segments();
        let numbers = !refused.numbers.len().is_multiple_of(3);
        self.met(match (is_first, numbers, few) {
            (true, true, _) => Met::NumbersFirst,
            (true, false, true) => Met::FewFirst,
            (true, false, false) => Met::ManyFirst,
            (false, true, _) => Met::NumbersSecond,
            (false, false, true) => Met::FewSecond,
            (false, false, false) => Met::ManySecond,
        });
        self.met_if(!numbers && refused.vertices() < 2, Met::FlagOfFew);
        self.met_if(long(refused), Met::RaggedLong);
        self.met_if(is_first && long(second), Met::RaggedThenLong);
    }

    fn roomless(&mut self, pair: &Pair) {
        let list = super::differing(pair.outputs()).len();
        let [numbers, fields] = pair.room;
        self.met_if(pair.room == [0; 2], Met::ShortNone);
        match [numbers < list, fields < list] {
            [true, false] => {
                self.met(Met::ShortNumbers);
                self.met_if(numbers + 1 == list, Met::ShortNumber);
            }
            [false, true] => {
                self.met(Met::ShortFields);
                self.met_if(fields + 1 == list, Met::ShortField);
            }
            _ => self.met(Met::ShortBoth),
        }
    }

    fn done(&mut self, pair: &Pair, answer: &PairAnswer) {
        let [_, _, list, only_one, marks] = *answer;
        let [first, second] = pair.outputs();
        let room = pair.room.map(|lent| lent as u32);
        self.met_if(list > 0 && room == [list; 2], Met::Just);
        self.met_if(
            list > 0 && room.iter().all(|lent| *lent > list),
            Met::Plenty,
        );
        self.met_if(list == 0 && room == [0; 2], Met::NoRoom);
        let longer = first.vertices() > second.vertices();
        self.met_if(only_one > 0 && longer, Met::OnlyFirst);
        self.met_if(only_one > 0 && !longer, Met::OnlySecond);
        self.met_if(only_one > 0 && [list, marks] == [0; 2], Met::OnlyAlone);
        self.met_if(marks > 0 && first.closed, Met::MarksFirst);
        self.met_if(marks > 0 && second.closed, Met::MarksSecond);
        self.met_if(marks > 0 && [list, only_one] == [0; 2], Met::MarksAlone);
        let (shared, equal) = (pair.is_shared(), *answer == [0; 5]);
        self.met_if(equal, Met::Equal);
        self.met_if(equal && shared, Met::EqualShared);
        self.met_if(!equal && shared && !first.numbers.is_empty(), Met::Shared);
        let both = first.vertices().min(second.vertices());
        self.met(match both {
            0 => Met::Size0,
            1 => Met::Size1,
            2 => Met::Size2,
            3..=99 => Met::Size3,
            100..=9999 => Met::Size100,
            _ => Met::Size10000,
        });
        self.met_if(both == MOST_VERTICES, Met::SizeMost);
        self.met_if(both > 1 && list as usize == both, Met::ListedAll);
        (0..both).for_each(|i| self.vertex([first, second], i, list));
    }

    fn vertex(&mut self, outputs: [Laid; 2], i: usize, list: u32) {
        let differs = fields(outputs, i);
        self.fields[usize::from(differs)] += 1;
        let listed = differs != 0;
        let last = |laid: &Laid| i + 1 == laid.vertices();
        let ends = |laid: &Laid| last(laid) && !laid.closed;
        self.met_if(listed && i == 0, Met::ListedFirst);
        self.met_if(listed && outputs.iter().any(last), Met::ListedLast);
        self.met_if(listed && i + 1 == MOST_VERTICES, Met::ListedMost);
        let alone = differs == 4 && list == 1;
        self.met_if(alone && outputs.iter().all(ends), Met::LastBulge);
        let [first, second] = outputs.map(|laid| laid.flags.get(i));
        match (first, second) {
            (Some(flag), None) | (None, Some(flag)) => {
                self.met(if *flag == 0 {
                    Met::NoneZero
                } else {
                    Met::NoneSet
                });
            }
            (Some(first), Some(second)) => {
                let high = first != second && (first ^ second) & 1 == 0;
                self.met_if(high, Met::FlagHigh);
                self.met_if(first == second && *first > 1, Met::FlagSame);
            }
            (None, None) => {}
        }
        for slot in 0..3 {
            let [first, second] = outputs.map(|laid| laid.numbers[3 * i + slot]);
            if first.to_bits() != second.to_bits() {
                self.number(first, second, slot);
            }
        }
    }

    /// Two numbers of unlike bits.
    fn number(&mut self, first: f64, second: f64, slot: usize) {
        let nans = [first, second].map(f64::is_nan);
        self.met_if(first == second, ZEROS[slot]);
        self.met_if(nans == [true; 2], NANS[slot]);
        self.met_if(nans[0] != nans[1], NAN[slot]);
        self.met_if(bits(first) ^ bits(second) == 1, LOW[slot]);
    }

    /// Prints what has to be met and was not, and says whether there is such a thing.
    pub fn print_never(&self) -> bool {
        let mut never: Vec<String> = Vec::new();
        for (met, text) in MET.iter().filter(|met| self.met[met.0 as usize] == 0) {
            never.push(format!("{text} ({met:?})"));
        }
        for (fields, _) in self.fields.iter().enumerate().filter(|known| *known.1 == 0) {
            never.push(format!("a vertex with fields {fields}"));
        }
        for number in [0, 1, 2, 4] {
            if self.numbers[number] == 0 {
                never.push(format!("No. {number}"));
            }
        }
        never.iter().for_each(|what| println!("never: {what}"));
        !never.is_empty()
    }

    pub fn print(&self) {
        println!("pairs by family");
        for (family, count) in &self.pairs {
            println!("  {family:46} {count:>11}");
        }
        let [done, ragged, long, _, roomless] = self.numbers;
        println!("pairs answered 0, 1, 2, 4: {done} {ragged} {long} {roomless}");
        let fields = self.fields.map(|count| format!(" {count}")).concat();
        println!("vertices that both have, by fields 0, 1, .. 15:{fields}");
        println!("met: count");
        for (met, text) in MET {
            println!("  {text:56} {:>11}", self.met[*met as usize]);
        }
    }

    pub fn pairs(&self) -> u64 {
        self.numbers.iter().sum()
    }

    /// How many entries the lists of all pairs have.
    pub fn entries(&self) -> u64 {
        self.fields[1..].iter().sum()
    }
}
