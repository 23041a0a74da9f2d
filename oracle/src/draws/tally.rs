//! The count of what a comparison has met.

use super::{Call, Reference, Settings};
use crate::stage::{Answer, Outcome};

/// The numbers that answer a call.
const NUMBERS: [u32; 8] = [0, 1, 2, 3, 4, 5, 6, 9];

macro_rules! met {
    ($($name:ident: $text:literal,)*) => {
        /// Something that a comparison has to meet.
        #[derive(Debug, Copy, Clone, PartialEq, Eq)]
        pub(super) enum Met { $($name,)* }

        const MET: &[(Met, &str)] = &[$((Met::$name, $text),)*];
    };
}

met! {
    Vertices: "vertices handed out",
    Indexes: "indexes handed out",
    Piece0: "vertices that hand out no segment",
    Piece1: "vertices that hand out 1 segment",
    Piece2: "vertices that hand out 2 segments",
    Piece3: "vertices that hand out 3 segments",
    End0: "ends that hand out nothing",
    End1: "ends that hand out the last point alone",
    End2: "ends that hand out a span and the last point",
    EndFlag: "ends that hand out a flagged span",
    Done0: "jobs done of no vertex",
    Done1: "jobs done of 1 vertex",
    Done2: "jobs done of 2 vertices",
    Done3: "jobs done of 3 to 9 vertices",
    Done10: "jobs done of 10 to 999 vertices",
    Done1000: "jobs done of 1000 and more vertices",
    DoneMost: "jobs done of 4096 vertices",
    DoneEmpty2: "jobs done of 2 vertices that draw nothing",
    DoneEmpty3: "jobs done of 3 and more that draw nothing",
    DoneFlagged: "jobs done with an index",
    DonePointed: "jobs done in the pointed mode",
    Copied: "copies done, offset 0",
    CopiedMinus: "copies done, offset -0",
    CopiedRepeated: "copies done with repeated vertices",
    RefusedFirst: "vertices refused with nothing handed out before",
    RefusedAfterCall: "vertices refused after something in the same call",
    RefusedAfterEarlier: "vertices refused after something in earlier calls alone",
    RepeatedZero: "repeated vertices that differ as zeros do",
    Six2: "No. 6 at vertex 2",
    SixLater: "No. 6 at a vertex from 3 on",
    SixEnd2: "No. 6 at the end of 2 vertices",
    SixEndLater: "No. 6 at the end of 3 and more",
    ShortNumbers: "No. 4 for numbers alone",
    ShortNumber: "No. 4 for one number alone",
    ShortFlags: "No. 4 for flags alone",
    ShortIndexes: "No. 4 for indexes alone",
    ShortOrigins: "No. 4 for origins alone",
    ShortEnd: "No. 4 at an end",
    ShortRound: "No. 4 in the pointed mode with the round one's room",
    Just: "draws with just enough room",
    NoRoom: "draws of nothing with no room at all",
    StartMiddle: "starts in the middle of a job",
    StartAfterRefusal: "starts after a refusal",
    StartRefused: "starts refused in the middle of a job",
    Stayed: "calls after which the record has to stay",
    Copies: "records copied",
    Garbled: "records filled by chance",
    Wholes: "jobs held to the whole form",
    OwnWholes: "jobs held to the archive's whole form",
}

/// A call, as it is counted.
type Kind = &'static str;

const START: Kind = "start";
const START_POINTED: Kind = "start, pointed";
const RAGGED: Kind = "ragged draw";
const DRAWS: [(usize, Kind); 6] = [
    (0, "draw of nothing"),
    (1, "draw of 1 vertex"),
    (2, "draw of 2"),
    (9, "draw of 3 to 9"),
    (999, "draw of 10 to 999"),
    (usize::MAX, "draw of 1000 and more"),
];
const END: Kind = "end";
const LATER: Kind = "draw after a refusal";
const LATER_END: Kind = "end after a refusal";
const UNKNOWN: Kind = "record of any contents";

/// The numbers that each kind of call has to be answered with.
const REACHED: &[(Kind, &[u32])] = &[
    (START, &[0, 3]),
    (START_POINTED, &[0, 3]),
    (RAGGED, &[1, 9]),
    (DRAWS[0].1, &[0, 9]),
    (DRAWS[1].1, &[0, 2, 3, 4, 5, 6, 9]),
    (DRAWS[2].1, &[0, 2, 3, 4, 5, 6, 9]),
    (DRAWS[3].1, &[0, 2, 3, 4, 5, 6, 9]),
    (DRAWS[4].1, &[0, 3, 4, 5, 6]),
    (DRAWS[5].1, &[0, 2, 4]),
    (END, &[0, 4, 6, 9]),
    (LATER, &[2, 3, 5, 6]),
    (LATER_END, &[2, 3, 5, 6]),
];

/// What a record held before a call, as far as it is counted.
#[derive(Copy, Clone)]
pub(super) struct Was {
    pub refused: bool,
    pub begun: Option<Settings>,
}

impl Was {
    pub fn of(reference: &Reference) -> Self {
        let begun = match reference {
            Reference::Begun(settings, _) => Some(*settings),
            _ => None,
        };
        let refused = reference.refusal().is_some();
        Self { refused, begun }
    }
}

#[derive(Debug)]
pub struct Tally {
    scripts: Vec<(&'static str, u64)>,
    calls: Vec<(Kind, [u64; 10])>,
    met: Vec<u64>,
}

impl Default for Tally {
    fn default() -> Self {
        Self {
            scripts: Vec::new(),
            calls: Vec::new(),
            met: vec![0; MET.len()],
        }
    }
}

impl Tally {
    pub fn script(&mut self, family: &'static str) {
        match self.scripts.iter_mut().find(|known| known.0 == family) {
            Some(known) => known.1 += 1,
            None => self.scripts.push((family, 1)),
        }
    }

    pub fn scripts(&self) -> u64 {
        self.scripts.iter().map(|known| known.1).sum()
    }

    pub(super) fn met(&mut self, met: Met) {
        self.add(met, 1);
    }

    pub(super) fn met_if(&mut self, is: bool, met: Met) {
        self.add(met, u64::from(is));
    }

    fn add(&mut self, met: Met, count: u64) {
        self.met[met as usize] += count;
    }

    fn count(&mut self, kind: Kind, number: u32) {
        let number = (number as usize).min(9);
        match self.calls.iter_mut().find(|known| known.0 == kind) {
            Some(known) => known.1[number] += 1,
            None => {
                let mut counts = [0; 10];
                counts[number] = 1;
                self.calls.push((kind, counts));
            }
        }
    }

    /// A call of a record with any contents.
    pub(super) fn unknown(&mut self, number: u32) {
        self.count(UNKNOWN, number);
    }

    pub(super) fn call(&mut self, call: &Call, was: Was, answer: &Answer) {
        let number = answer[0];
        self.count(kind(call, was.refused), number);
        let begun = was.begun.is_some();
        match call {
            Call::Start(_) => {
                self.met_if(begun && number == 0, Met::StartMiddle);
                self.met_if(begun && number != 0, Met::StartRefused);
                self.met_if(was.refused, Met::StartAfterRefusal);
            }
            Call::Draw(source, room) if source.is_empty() => {
                self.met_if(begun && *room == [0; 4], Met::NoRoom);
            }
            Call::End(_) => self.met_if(number == 4, Met::ShortEnd),
            _ => {}
        }
        if let (4, Some(settings)) = (number, was.begun) {
            self.roomless(call, &settings);
        }
    }

    /// Which lists of a draw are too short.
    fn roomless(&mut self, call: &Call, settings: &Settings) {
        let Call::Draw(source, room) = call else {
            return;
        };
        let [numbers, flags, indexes, origins] = *room;
        let need = settings.each() * (source.len() / 3);
        let short = [numbers / 3, flags, indexes, origins].map(|places| places < need);
        match short {
            [true, false, false, false] => {
                self.met(Met::ShortNumbers);
                self.met_if(numbers + 1 == 3 * need, Met::ShortNumber);
            }
            [false, true, false, false] => self.met(Met::ShortFlags),
            [false, false, true, false] => self.met(Met::ShortIndexes),
            [false, false, false, true] => self.met(Met::ShortOrigins),
            _ => {}
        }
        let round = 2 * (source.len() / 3);
        let as_round = [flags, indexes, origins] == [round; 3] && numbers / 3 == round;
        self.met_if(settings.ratio.is_some() && as_round, Met::ShortRound);
    }

    /// What a call that is done has handed out, after so many vertices.
    pub(super) fn pieces(
        &mut self,
        call: &Call,
        outcome: &Outcome,
        settings: &Settings,
        first: usize,
    ) {
        let [_, _, vertices, indexes, segments] = outcome.answer;
        self.add(Met::Vertices, vertices.into());
        self.add(Met::Indexes, indexes.into());
        let Call::Draw(source, room) = call else {
            self.met([Met::End0, Met::End1, Met::End2][vertices as usize]);
            self.met_if(indexes > 0, Met::EndFlag);
            return;
        };
        let given = source.len() / 3;
        let need = settings.each() * given;
        self.met_if(
            given > 0 && *room == [3 * need, need, need, need],
            Met::Just,
        );
        let since = if settings.offset == 0.0 { 1 } else { 2 };
        let mut origins = outcome.origins[..segments as usize].iter().peekable();
        for place in first..first + given {
            let own = |origin: &&u32| **origin as usize / 2 + since == place;
            let piece = std::iter::from_fn(|| origins.next_if(own)).count();
            self.met([Met::Piece0, Met::Piece1, Met::Piece2, Met::Piece3][piece]);
        }
    }

    /// The refusal of a draw's vertex, in a job that had handed out something or not, with all vertices up
    /// to it.
    pub(super) fn refused(&mut self, answer: &Answer, earlier: bool, source: &[f64]) {
        let [number, place, vertices, ..] = *answer;
        self.met(match (vertices > 0, earlier) {
            (true, _) => Met::RefusedAfterCall,
            (false, true) => Met::RefusedAfterEarlier,
            (false, false) => Met::RefusedFirst,
        });
        let six = if place == 2 { Met::Six2 } else { Met::SixLater };
        self.met_if(number == 6, six);
        if let (5, [.., x, y, _, a, b, _]) = (number, source) {
            let alike = x.to_bits() == a.to_bits() && y.to_bits() == b.to_bits();
            self.met_if(!alike, Met::RepeatedZero);
        }
    }

    /// No. 6 at the end of so many vertices.
    pub(super) fn refused_end(&mut self, vertices: u32) {
        self.met(match vertices {
            2 => Met::SixEnd2,
            _ => Met::SixEndLater,
        });
    }

    /// A job that is done, with how many numbers and indexes it drew.
    pub(super) fn done(&mut self, settings: &Settings, source: &[f64], drawn: [usize; 2]) {
        let v = source.len() / 3;
        let [numbers, indexes] = drawn;
        self.met(match v {
            0 => Met::Done0,
            1 => Met::Done1,
            2 => Met::Done2,
            3..=9 => Met::Done3,
            10..=999 => Met::Done10,
            _ => Met::Done1000,
        });
        self.met_if(v == 4096, Met::DoneMost);
        self.met_if(v == 2 && numbers == 0, Met::DoneEmpty2);
        self.met_if(v > 2 && numbers == 0, Met::DoneEmpty3);
        self.met_if(indexes > 0, Met::DoneFlagged);
        self.met_if(settings.ratio.is_some(), Met::DonePointed);
        if settings.offset == 0.0 {
            let minus = settings.offset.is_sign_negative();
            self.met(if minus { Met::CopiedMinus } else { Met::Copied });
            let vertices: Vec<&[f64]> = source.chunks(3).collect();
            let mut pairs = vertices.windows(2);
            let repeated = pairs.any(|pair| pair[0][..2] == pair[1][..2]);
            self.met_if(repeated, Met::CopiedRepeated);
        }
    }

    /// Prints what has to be met and was not, and says whether there is such a thing.
    pub fn print_never(&self) -> bool {
        let mut never = false;
        for (kind, numbers) in REACHED {
            let known = self.calls.iter().find(|known| known.0 == *kind);
            let counts = known.map_or([0; 10], |known| known.1);
            for number in numbers
                .iter()
                .filter(|number| counts[**number as usize] == 0)
            {
                println!("never: {kind}: No. {number}");
                never = true;
            }
        }
        for (met, text) in MET {
            if self.met[*met as usize] == 0 && *met != Met::OwnWholes {
                println!("never: {text}");
                never = true;
            }
        }
        never
    }

    pub fn print(&self) {
        println!("scripts by family");
        for (family, count) in &self.scripts {
            println!("  {family:46} {count:>11}");
        }
        println!("calls: in all; answered 0, 1, .. 6, 9");
        let mut all = [0; 10];
        let mut calls = self.calls.clone();
        calls.sort_by_key(|known| {
            REACHED
                .iter()
                .position(|row| row.0 == known.0)
                .unwrap_or(99)
        });
        for (kind, counts) in &calls {
            print_counts(kind, counts);
            all.iter_mut()
                .zip(counts)
                .for_each(|(sum, count)| *sum += count);
        }
        print_counts("all", &all);
        println!("met: count");
        for (met, text) in MET {
            println!("  {text:56} {:>11}", self.met[*met as usize]);
        }
    }

    /// How many calls there were.
    pub fn calls(&self) -> u64 {
        self.calls.iter().flat_map(|known| known.1).sum()
    }
}

fn print_counts(name: &str, counts: &[u64; 10]) {
    let numbers = NUMBERS.map(|number| format!(" {:>9}", counts[number as usize]));
    let sum: u64 = counts.iter().sum();
    println!("  {name:26} {sum:>10} {}", numbers.concat());
}

fn kind(call: &Call, refused: bool) -> Kind {
    match call {
        Call::Start(settings) if settings.ratio.is_some() => START_POINTED,
        Call::Start(_) => START,
        Call::Draw(..) if refused => LATER,
        Call::End(_) if refused => LATER_END,
        Call::Draw(source, _) if !source.len().is_multiple_of(3) => RAGGED,
        Call::Draw(source, _) => {
            let fits = |kind: &&(usize, Kind)| source.len() / 3 <= kind.0;
            DRAWS.iter().find(fits).map_or(RAGGED, |kind| kind.1)
        }
        Call::End(_) => END,
        Call::Copy | Call::Garble(_) => UNKNOWN,
    }
}
