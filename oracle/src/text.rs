//! Jobs and outcomes as rows of text: words parted by one space, numbers as their 64 bits in
//! sixteen hexadecimal digits. In an outcome any NaN is written 7ff8000000000000.
//!
//! A job: `closed offset eps v x y bulge ..`, closed being 0 or 1; in the pointed mode 2 or 3, and the
//! ratio comes after eps. Where its list is ragged, or it is lent other places than it needs and one
//! more, `room numbers flags indexes origins` comes first, and the count of numbers stands for v. An
//! outcome: `number place vertices indexes closed`, the drawn
//! numbers, one flag for each output segment, the indexes, one origin for each output segment.
//!
//! A job in columns: `columns`, the six numbers of places lent, closed, offset, eps and the ratio as above, where
//! x, y and bulges start in a list and how many of each there are, then the list.
//!
//! A script of calls for a drawn job: `script`, then for each call `start` with its mode, offset, eps and the ratio as
//! above, `draw` or `end` with the four numbers of places lent, of a draw then how many numbers it gives and these,
//! `copy`, or `garble` with a seed.
//!
//! A question for a part: `part n source flags`, the last being how many there are, then the flags and
//! the origins.
//!
//! Two outputs side by side: `outputs`, the two numbers of places lent, for each output closed, where its numbers and
//! its flags start in the lists and how many there are, then how many numbers the first list has, these, and the flags.

use crate::columns::{ColumnPlaces, Columns};
#[cfg(with_000)]
use crate::draws::{Call, Script, Settings};
use crate::part::Output;
use crate::side_by_side::{At, Pair};
use crate::stage::{Job, Outcome};
use crate::traced::Rule;
use std::fmt::Write;

pub fn bits(number: f64) -> String {
    exact(if number.is_nan() { f64::NAN } else { number })
}

/// A NaN too is written as it is.
pub fn exact(number: f64) -> String {
    format!("{:016x}", number.to_bits())
}

/// The row of a job whose list is not ragged, and which is lent enough.
pub fn job_row(job: &Job) -> String {
    row_of(job, job.source.len() / 3)
}

/// The row of any job.
pub fn any_job_row(job: &Job) -> String {
    let [numbers, flags, indexes, origins] = job.room;
    let row = row_of(job, job.source.len());
    format!("room {numbers} {flags} {indexes} {origins} {row}")
}

fn row_of(job: &Job, count: usize) -> String {
    let mode = (job.closed, job.ratio);
    let settings = settings_row(mode, job.offset, job.eps);
    let mut row = format!("{settings} {count}");
    push_numbers(&mut row, &job.source);
    row
}

/// Closed mark and mode, offset, ε, and the ratio if there is one.
fn settings_row((closed, ratio): (bool, Option<f64>), offset: f64, eps: f64) -> String {
    let mode = mode_of(closed, ratio);
    let mut row = format!("{mode} {} {}", exact(offset), exact(eps));
    push_numbers(&mut row, ratio.as_slice());
    row
}

fn push_numbers(row: &mut String, numbers: &[f64]) {
    for number in numbers {
        write!(row, " {}", exact(*number)).expect("a string takes all");
    }
}

/// 1 of a closed job, and 2 more of the pointed mode.
pub fn mode(job: &Job) -> u8 {
    mode_of(job.closed, job.ratio)
}

fn mode_of(closed: bool, ratio: Option<f64>) -> u8 {
    u8::from(closed) + 2 * u8::from(ratio.is_some())
}

/// The row of a job in columns, lent so many places.
pub fn columns_row(job: &Columns, room: ColumnPlaces) -> String {
    let settings = settings_row((job.closed, job.ratio), job.offset, job.eps);
    let at = job.at.each_ref().map(|at| [at.start, at.len()]);
    let words = |numbers: &[usize]| {
        let words: Vec<String> = numbers.iter().map(usize::to_string).collect();
        words.join(" ")
    };
    let (room, at) = (words(&room), words(at.as_flattened()));
    let mut row = format!("columns {room} {settings} {at}");
    push_numbers(&mut row, &job.numbers);
    row
}

/// Reads what `columns_row` writes.
pub fn read_columns(row: &str) -> Option<(Columns, ColumnPlaces)> {
    let mut words = row.strip_prefix("columns ")?.split(' ');
    let mut room = [0; 6];
    for places in &mut room {
        *places = words.next()?.parse().ok()?;
    }
    let (closed, offset, eps, ratio) = read_settings(&mut words)?;
    let mut at = [0..0, 0..0, 0..0];
    for range in &mut at {
        let start: usize = words.next()?.parse().ok()?;
        let length: usize = words.next()?.parse().ok()?;
        *range = start..start.checked_add(length)?;
    }
    let numbers: Vec<f64> = words.map(number).collect::<Option<_>>()?;
    let inside = at.iter().all(|range| range.end <= numbers.len());
    let job = Columns {
        numbers,
        at,
        closed,
        offset,
        eps,
        ratio,
    };
    inside.then_some((job, room))
}

/// The row of a script.
#[cfg(with_000)]
pub fn script_row(script: &[Call]) -> String {
    let mut row = "script".to_owned();
    for call in script {
        let places = call.room().map(|places| places.to_string()).join(" ");
        let words = match call {
            Call::Start(set) => {
                let settings = settings_row((false, set.ratio), set.offset, set.eps);
                format!("start {settings}")
            }
            Call::Draw(source, _) => format!("draw {places} {}", source.len()),
            Call::End(_) => format!("end {places}"),
            Call::Copy => "copy".to_owned(),
            Call::Garble(seed) => format!("garble {seed}"),
        };
        write!(row, " {words}").expect("a string takes all");
        push_numbers(&mut row, call.numbers());
    }
    row
}

/// Reads what `script_row` writes.
#[cfg(with_000)]
pub fn read_script(row: &str) -> Option<Script> {
    let mut words = row.split(' ');
    let mut script = Script::new();
    if words.next()? != "script" {
        return None;
    }
    while let Some(word) = words.next() {
        script.push(match word {
            "start" => {
                let (_, offset, eps, ratio) = read_settings(&mut words)?;
                Call::Start(Settings { offset, eps, ratio })
            }
            "draw" => {
                let room = read_room(&mut words)?;
                let count: usize = words.next()?.parse().ok()?;
                let numbers: Option<Vec<f64>> = words.by_ref().take(count).map(number).collect();
                Call::Draw(numbers.filter(|numbers| numbers.len() == count)?, room)
            }
            "end" => Call::End(read_room(&mut words)?),
            "copy" => Call::Copy,
            "garble" => Call::Garble(words.next()?.parse().ok()?),
            _ => return None,
        });
    }
    Some(script)
}

fn read_room<'a>(words: &mut impl Iterator<Item = &'a str>) -> Option<[usize; 4]> {
    let mut room = [0; 4];
    for places in &mut room {
        *places = words.next()?.parse().ok()?;
    }
    Some(room)
}

pub fn outcome_row(outcome: &Outcome) -> String {
    let words = outcome.answer.map(|number| number.to_string());
    let mut row = words.join(" ");
    for number in outcome.drawn().as_flattened() {
        write!(row, " {}", bits(*number)).expect("a string takes all");
    }
    for flag in outcome.drawn_flags() {
        write!(row, " {flag}").expect("a string takes all");
    }
    for index in outcome.invalid() {
        write!(row, " {index}").expect("a string takes all");
    }
    for origin in outcome.drawn_origins() {
        write!(row, " {origin}").expect("a string takes all");
    }
    row
}

/// The row of a question for the part of a source segment.
pub fn part_row(output: Output, source: u32) -> String {
    let mut row = format!("part {} {source} {}", output.n, output.flags.len());
    for flag in output.flags {
        write!(row, " {flag}").expect("a string takes all");
    }
    for origin in output.origins {
        write!(row, " {origin}").expect("a string takes all");
    }
    row
}

/// What a question for a part asks: n, the source segment, flags and origins.
pub type PartAsked = (u32, u32, Vec<u8>, Vec<u32>);

/// Reads what `part_row` writes.
pub fn read_part(row: &str) -> Option<PartAsked> {
    let mut words = row.strip_prefix("part ")?.split(' ');
    let n = words.next()?.parse().ok()?;
    let source = words.next()?.parse().ok()?;
    let count: usize = words.next()?.parse().ok()?;
    let flags: Option<Vec<u8>> = words
        .by_ref()
        .take(count)
        .map(|word| word.parse().ok())
        .collect();
    let origins: Option<Vec<u32>> = words.map(|word| word.parse().ok()).collect();
    let flags = flags.filter(|flags| flags.len() == count)?;
    Some((n, source, flags, origins?))
}

/// The row of two outputs.
pub fn pair_row(pair: &Pair) -> String {
    let [numbers, fields] = pair.room;
    let mut row = format!("outputs {numbers} {fields}");
    for at in &pair.at {
        let (numbers, flags) = (&at.numbers, &at.flags);
        let closed = u8::from(at.closed);
        write!(row, " {closed} {} {}", numbers.start, numbers.len()).expect("a string takes all");
        write!(row, " {} {}", flags.start, flags.len()).expect("a string takes all");
    }
    write!(row, " {}", pair.numbers.len()).expect("a string takes all");
    push_numbers(&mut row, &pair.numbers);
    for flag in &pair.flags {
        write!(row, " {flag}").expect("a string takes all");
    }
    row
}

/// Reads what `pair_row` writes.
pub fn read_pair(row: &str) -> Option<Pair> {
    let mut words = row.strip_prefix("outputs ")?.split(' ');
    let mut room = [0; 2];
    for places in &mut room {
        *places = words.next()?.parse().ok()?;
    }
    let at = [read_at(&mut words)?, read_at(&mut words)?];
    let count: usize = words.next()?.parse().ok()?;
    let numbers: Option<Vec<f64>> = words.by_ref().take(count).map(number).collect();
    let flags: Option<Vec<u8>> = words.map(|word| word.parse().ok()).collect();
    let (numbers, flags) = (numbers?, flags?);
    let inside = |at: &At| at.numbers.end <= numbers.len() && at.flags.end <= flags.len();
    let whole = numbers.len() == count && at.iter().all(inside);
    whole.then_some(Pair {
        numbers,
        flags,
        at,
        room,
    })
}

/// Where one of two outputs stands.
fn read_at<'a>(words: &mut impl Iterator<Item = &'a str>) -> Option<At> {
    let closed = match words.next()? {
        "0" => false,
        "1" => true,
        _ => return None,
    };
    let mut range = || {
        let start: usize = words.next()?.parse().ok()?;
        let length: usize = words.next()?.parse().ok()?;
        Some(start..start.checked_add(length)?)
    };
    Some(At {
        closed,
        numbers: range()?,
        flags: range()?,
    })
}

/// The names of a current side's rule and the next one's.
pub fn rules_text(rules: [Option<Rule>; 2]) -> String {
    rules.map(Rule::name_of).join(" ")
}

/// Reads the rules of a meeting or a join from its row, whatever stands before them, and a start angle
/// after them.
pub fn read_rules(row: &str) -> Option<[Option<Rule>; 2]> {
    let row = row.split_once(" seen ").map_or(row, |parts| parts.0);
    let mut words = row.strip_suffix(" unseen").unwrap_or(row).rsplit(' ');
    let next = Rule::named(words.next()?)?;
    let current = Rule::named(words.next()?)?;
    Some([current, next])
}

/// Reads what `job_row` and `any_job_row` write.
pub fn read_job(row: &str) -> Option<Job> {
    let Some(rest) = row.strip_prefix("room ") else {
        return read_words(&mut row.split(' '), 3);
    };
    let mut words = rest.split(' ');
    let room = read_room(&mut words)?;
    let job = read_words(&mut words, 1)?;
    Some(Job { room, ..job })
}

/// Reads a job whose row says how many times `each` numbers there are.
fn read_words<'a>(words: &mut impl Iterator<Item = &'a str>, each: usize) -> Option<Job> {
    let (closed, offset, eps, ratio) = read_settings(words)?;
    let count: usize = words.next()?.parse().ok()?;
    let source: Vec<f64> = words.map(number).collect::<Option<_>>()?;
    let job = (source.len() == each * count).then(|| Job::new(closed, offset, eps, source))?;
    Some(match ratio {
        Some(ratio) => job.pointed(ratio),
        None => job,
    })
}

/// Reads what `settings_row` writes.
fn read_settings<'a>(
    words: &mut impl Iterator<Item = &'a str>,
) -> Option<(bool, f64, f64, Option<f64>)> {
    let (closed, pointed) = match words.next()? {
        "0" => (false, false),
        "1" => (true, false),
        "2" => (false, true),
        "3" => (true, true),
        _ => return None,
    };
    let offset = number(words.next()?)?;
    let eps = number(words.next()?)?;
    let ratio = if pointed {
        Some(number(words.next()?)?)
    } else {
        None
    };
    Some((closed, offset, eps, ratio))
}

fn number(word: &str) -> Option<f64> {
    u64::from_str_radix(word, 16).ok().map(f64::from_bits)
}
