//! Runs a script on a pen and on the reference, and holds the whole outcome of each call to the other's:
//! answer, every lent place and three past each list, and the record where it has to stay.

use super::tally::{Met, Was};
use super::{Call, Pen, Reference, Settings, Tally};
use crate::generate::Random;
use crate::generate::draws::garbled;
use crate::stage::{Answer, BEYOND, Before, Buffers, Outcome, Places};
use crate::text::exact;

/// Where a pen differs, and how.
#[derive(Debug)]
pub struct Difference {
    pub call: usize,
    pub words: String,
}

type Held = Result<(), String>;

/// Holds a pen that was never begun to the reference, call by call.
pub fn hold<P: Pen>(pen: &P, script: &[Call], tally: &mut Tally) -> Option<Difference> {
    let mut run = Run::new(pen, tally);
    let held = |(place, call)| run.step(call).err().map(|words| (place, words));
    let (call, words) = script.iter().enumerate().find_map(held)?;
    Some(Difference { call, words })
}

/// What each call has to answer. Of a record with any contents nothing is known, as of one never begun.
pub fn answers(script: &[Call]) -> Vec<Answer> {
    let mut reference = Reference::default();
    let calls = script.iter().map(|call| {
        if matches!(call, Call::Garble(_)) {
            reference = Reference::default();
        }
        answered(&mut reference, call, call.before()).answer
    });
    calls.collect()
}

/// A script under way.
struct Run<'a, P> {
    reference: Reference,
    /// The record, and its copies.
    pens: Vec<P>,
    /// Whether the record holds what calls have left there.
    known: bool,
    job: Option<Joined>,
    tally: &'a mut Tally,
}

/// The job at hand: all vertices given since its start, and all that was handed out.
struct Joined {
    settings: Settings,
    source: Vec<f64>,
    vertices: Vec<u64>,
    flags: Vec<u8>,
    indexes: Vec<u32>,
    origins: Vec<u32>,
}

impl<'a, P: Pen> Run<'a, P> {
    fn new(pen: &P, tally: &'a mut Tally) -> Self {
        Self {
            reference: Reference::default(),
            pens: vec![pen.clone()],
            known: true,
            job: None,
            tally,
        }
    }

    fn step(&mut self, call: &Call) -> Held {
        match call {
            Call::Copy => {
                self.tally.met(Met::Copies);
                self.pens.push(self.pens[0].clone());
                Ok(())
            }
            Call::Garble(seed) => {
                self.garble(*seed);
                Ok(())
            }
            Call::Draw(..) | Call::End(_) if !self.known => self.hold_unknown(call),
            _ => self.hold_known(call),
        }
    }

    fn garble(&mut self, seed: u64) {
        self.tally.met(Met::Garbled);
        self.pens.truncate(1);
        let mut random = Random::new(seed);
        let way = random.below(garbled::WAYS);
        self.pens[0].garble(|place, word| garbled::word(&mut random, way, place, word));
        self.known = false;
        self.job = None;
    }

    /// Of a record with any contents, a copy of it has to answer and to hold the same, and what is not
    /// handed out stays.
    fn hold_unknown(&mut self, call: &Call) -> Held {
        let before = call.before();
        let mut pens = [self.pens[0].clone(), self.pens[0].clone()];
        let [one, two] = pens.each_mut().map(|pen| answered(pen, call, before));
        self.pens.truncate(1);
        let [first, second] = pens;
        if one != two {
            return Err(format!("of a copy: {}", told(&one, &two)));
        }
        if !first.same(&second) {
            return Err("a record and its copy do not hold the same".to_owned());
        }
        if !fits(&one.answer, call.room()) {
            return Err(format!("more than fits: {:?}", one.answer));
        }
        if !keeps(&one, before) {
            return Err("a place that is not handed out does not stay".to_owned());
        }
        self.tally.unknown(one.answer[0]);
        self.pens[0] = first;
        Ok(())
    }

    fn hold_known(&mut self, call: &Call) -> Held {
        let before = call.before();
        let was = Was::of(&self.reference);
        let expected = answered(&mut self.reference, call, before);
        let stays = stays(call, &expected.answer, was.refused);
        self.tally.call(call, was, &expected.answer);
        for (copy, pen) in self.pens.iter_mut().enumerate() {
            let held = stays.then(|| pen.clone());
            let outcome = answered(pen, call, before);
            if outcome != expected {
                return Err(format!("{}{}", of_copy(copy), told(&expected, &outcome)));
            }
            if held.is_some_and(|held| !held.same(pen)) {
                return Err(format!("{}the record does not stay", of_copy(copy)));
            }
        }
        self.tally.met_if(stays, Met::Stayed);
        self.known = true;
        if self.pens.iter().any(|pen| !pen.same(&self.pens[0])) {
            return Err("a record and its copy do not hold the same".to_owned());
        }
        self.follow(call, &expected)
    }

    /// Joins what was handed out, and holds a job to the whole form once it has ended.
    fn follow(&mut self, call: &Call, outcome: &Outcome) -> Held {
        let number = outcome.answer[0];
        if let Call::Start(settings) = call {
            self.job = Some(Joined::new(*settings));
            return self.end_if(number != 0, outcome.answer);
        }
        let Some(job) = &mut self.job else {
            return Ok(());
        };
        let first = job.source.len() / 3;
        let earlier = !job.vertices.is_empty();
        job.join(call, outcome);
        match (call, number) {
            (_, 1 | 4) => return Ok(()),
            (_, 0) => self.tally.pieces(call, outcome, &job.settings, first),
            (Call::End(_), _) => self.tally.refused_end(outcome.answer[1]),
            _ => self.tally.refused(&outcome.answer, earlier, &job.source),
        }
        let ended = number != 0 || matches!(call, Call::End(_));
        if ended && number == 0 {
            let drawn = [job.vertices.len(), job.indexes.len()];
            self.tally.done(&job.settings, &job.source, drawn);
        }
        self.end_if(ended, outcome.answer)
    }

    /// The whole form of all vertices of a job that has ended has to draw the same, or to refuse them with
    /// the same number.
    fn end_if(&mut self, ended: bool, answer: Answer) -> Held {
        let Some(joined) = self.job.take_if(|_| ended) else {
            return Ok(());
        };
        let job = joined.settings.whole(&joined.source);
        let mut buffers = Buffers::of(job.room);
        let lent = buffers.lend(job.room);
        let whole = match job.ratio {
            None => crate::job(&job, lent),
            Some(_) => crate::traced::stage(&job, lent),
        };
        self.tally.met(Met::Wholes);
        let held = joined.held_to(&buffers.after(whole), answer);
        held.map_err(|words| format!("the whole form: {words}"))?;

        let mut buffers = Buffers::of(job.room);
        let Some(own) = self.pens[0].whole(&job, buffers.lend(job.room)) else {
            return Ok(());
        };
        self.tally.met(Met::OwnWholes);
        let held = joined.held_to(&buffers.after(own), answer);
        held.map_err(|words| format!("its own whole form: {words}"))
    }
}

impl Joined {
    fn new(settings: Settings) -> Self {
        Self {
            settings,
            source: Vec::new(),
            vertices: Vec::new(),
            flags: Vec::new(),
            indexes: Vec::new(),
            origins: Vec::new(),
        }
    }

    /// What a call handed out, and the vertices that it took, up to one that it refused.
    fn join(&mut self, call: &Call, outcome: &Outcome) {
        let [number, place, ..] = outcome.answer;
        let [_, _, vertices, indexes, segments] = outcome.answer.map(|count| count as usize);
        self.vertices.extend(&outcome.vertices[..3 * vertices]);
        self.indexes.extend(&outcome.indexes[..indexes]);
        self.flags.extend(&outcome.flags[..segments]);
        self.origins.extend(&outcome.origins[..segments]);
        let given = call.numbers();
        let taken = match number {
            0 => given.len(),
            1 | 4 => 0,
            _ => 3 * (place as usize + 1) - self.source.len(),
        };
        self.source.extend(&given[..taken.min(given.len())]);
    }

    /// The same as a whole drawing, or a refusal: places are those of 01.
    fn held_to(&self, whole: &Outcome, answer: Answer) -> Held {
        let [number, place, ..] = answer;
        let place = match number {
            // of a start: no vertex was given
            3 if self.source.is_empty() => whole.answer[1],
            3 => place,
            5 => place - 1,
            _ => 0,
        };
        if whole.answer[..2] != [number, place] {
            return Err(format!("{:?} for {number} at {place}", whole.answer));
        }
        let count = 3 * whole.answer[2] as usize;
        let same = whole.vertices[..count] == self.vertices
            && whole.drawn_flags() == self.flags
            && whole.invalid() == self.indexes
            && whole.drawn_origins() == self.origins;
        if number != 0 || same {
            return Ok(());
        }
        Err(format!(
            "{:?}, joined are {} vertices with {} flags and {} indexes",
            whole.answer,
            self.vertices.len() / 3,
            self.flags.len(),
            self.indexes.len(),
        ))
    }
}

/// A call over its pattern, with places past what is lent.
fn answered<P: Pen>(pen: &mut P, call: &Call, before: Before) -> Outcome {
    let room = call.room();
    let mut buffers = Buffers::over(before, room.map(|lent| lent + BEYOND));
    let lent = buffers.lend(room);
    let answer = match call {
        Call::Start(settings) => pen.start(*settings),
        Call::Draw(source, _) => pen.draw(source, lent),
        Call::End(_) => pen.end(lent),
        Call::Copy | Call::Garble(_) => [0; 5],
    };
    buffers.after(answer)
}

/// Whether a call leaves the record as it was.
fn stays(call: &Call, answer: &Answer, refused: bool) -> bool {
    match call {
        Call::Start(_) => false,
        Call::Draw(source, _) if source.is_empty() => true,
        _ => refused || [1, 4, 9].contains(&answer[0]),
    }
}

/// Whether there is room for so much.
fn fits(answer: &Answer, [numbers, flags, indexes, origins]: Places) -> bool {
    let [_, _, vertices, raised, segments] = answer.map(|count| count as usize);
    vertices <= numbers / 3 && raised <= indexes && segments <= flags.min(origins)
}

/// Whether each place from the counts on holds what it held.
fn keeps(outcome: &Outcome, before: Before) -> bool {
    let [_, _, vertices, indexes, segments] = outcome.answer.map(|count| count as usize);
    let mut numbers = outcome.vertices.iter().enumerate().skip(3 * vertices);
    let mut flags = outcome.flags.iter().enumerate().skip(segments);
    let mut origins = outcome.origins.iter().enumerate().skip(segments);
    let mut raised = outcome.indexes.iter().enumerate().skip(indexes);
    numbers.all(|(place, bits)| *bits == before.number(place))
        && flags.all(|(place, flag)| *flag == before.flag(place))
        && origins.all(|(place, origin)| *origin == before.origin(place))
        && raised.all(|(place, index)| *index == before.index(place))
}

fn of_copy(copy: usize) -> String {
    match copy {
        0 => String::new(),
        _ => format!("copy {copy}: "),
    }
}

/// Both answers, and the first place that differs.
fn told(expected: &Outcome, outcome: &Outcome) -> String {
    let words = |outcome: &Outcome| {
        let numbers = outcome
            .vertices
            .iter()
            .map(|bits| exact(f64::from_bits(*bits)));
        let words = |list: &[u32]| list.iter().map(u32::to_string).collect();
        [
            numbers.collect::<Vec<String>>(),
            outcome.flags.iter().map(u8::to_string).collect(),
            words(&outcome.indexes),
            words(&outcome.origins),
        ]
    };
    let answers = format!("answer {:?} for {:?}", outcome.answer, expected.answer);
    let kinds = ["number", "flag", "index", "origin"];
    for ((kind, one), two) in kinds.iter().zip(words(expected)).zip(words(outcome)) {
        let mut pairs = one.iter().zip(&two).enumerate();
        if let Some((place, (a, b))) = pairs.find(|(_, (a, b))| a != b) {
            return format!("{answers}; {kind} {place} is {b} for {a}");
        }
    }
    format!("{answers}; all places are the same")
}
