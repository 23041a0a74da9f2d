//! Scripts of calls for jobs that are drawn vertex by vertex: random ones made of other jobs, all short ones,
//! and those at the limits.

pub mod garbled;
mod limits;
mod short;

use super::Random;
use super::columns::{BAD_EPS, BAD_RATIOS, outside};
use crate::draws::{Call, Script, Settings};
use crate::stage::{Job, Places};
pub use limits::{each_limit_script, each_long_script};
pub use short::each_short_script;

/// One script in so many runs up to the limit of vertices, or past it.
const PER_LIMIT: usize = 4000;

/// Jobs longer than this are not drawn one by one.
const LONGEST: usize = 150;

/// The largest x, y and bulge.
const LIMITS: [f64; 3] = [1e6, 1e6, 1e9];

/// How much is lent.
#[derive(Debug, Copy, Clone)]
enum Lending {
    Just,
    More,
    /// One place too few of a kind.
    Short(usize),
    /// Any number too few of some kinds.
    Few,
    /// What the round mode needs.
    Round,
    Nothing,
}

/// A call before it is lent anything.
#[derive(Debug, Clone)]
enum Step {
    Start(Settings),
    Draw(Vec<f64>, Lending),
    End(Lending),
    Copy,
    Garble(u64),
}

type Change = fn(&mut Random, &mut Vec<Step>, &Job);

/// What may befall a script.
const CHANGES: &[Change] = &[
    empty,
    ragged,
    without_room,
    without_room,
    end_without_room,
    end_early,
    start_again,
    start_another,
    start_badly,
    copy,
    garble,
    draw_twice,
    after,
    after,
    before,
    without_start,
];

/// A script of a job, with settings or numbers that may be spoiled, in any groups, with any calls between.
pub fn script(random: &mut Random, job: &Job, other: &Job) -> Script {
    let (mut settings, mut source) = (Settings::of(job), job.source.clone());
    if random.one_in(3) {
        spoil(random, &mut settings, &mut source);
    }
    let mut steps = vec![Step::Start(settings)];
    if random.one_in(PER_LIMIT) {
        steps.push(up_to_limit(random, source.len() / 3));
    }
    for group in groups(random, &source) {
        let lending = enough(random);
        steps.push(Step::Draw(group, lending));
    }
    steps.push(Step::End(enough(random)));
    for _ in 0..random.pick(&[0, 0, 1, 1, 2, 3, 5]) {
        let change = random.pick(CHANGES);
        change(random, &mut steps, other);
    }
    lent(random, steps)
}

/// Gives each call its places, by the mode that it is in.
fn lent(random: &mut Random, steps: Vec<Step>) -> Script {
    let mut each = 2;
    let mut script = Script::new();
    for step in steps {
        script.push(match step {
            Step::Start(settings) => {
                each = settings.each();
                Call::Start(settings)
            }
            Step::Draw(source, lending) => {
                let given = source.len() / 3;
                let room = room(random, lending, [each * given, 2 * given]);
                Call::Draw(source, room)
            }
            Step::End(lending) => Call::End(room(random, lending, [2, 1])),
            Step::Copy => Call::Copy,
            Step::Garble(seed) => Call::Garble(seed),
        });
    }
    script
}

/// So many places, given what is needed and what is needed in the round mode.
fn room(random: &mut Random, lending: Lending, [need, round]: [usize; 2]) -> Places {
    let most = random.pick(&[2, 3, 5, 40]);
    let mut more = || need + random.below(most);
    let mut places = [more(), more(), more(), more()];
    match lending {
        Lending::Just => places = [need; 4],
        Lending::More => {}
        Lending::Short(kind) => places[kind] = need.saturating_sub(1),
        Lending::Few => {
            let which = 1 + random.below(15);
            let few = random.below(need + 1);
            for (kind, places) in places.iter_mut().enumerate() {
                if which >> kind & 1 != 0 {
                    *places = few;
                }
            }
        }
        Lending::Round => places = [round; 4],
        Lending::Nothing => places = [0; 4],
    }
    let [vertices, flags, indexes, origins] = places;
    // a number or two of the next vertex are no room for it
    let over = match lending {
        Lending::Nothing => 0,
        _ => random.pick(&[0, 0, 1, 2]),
    };
    [3 * vertices + over, flags, indexes, origins]
}

fn enough(random: &mut Random) -> Lending {
    random.pick(&[Lending::Just, Lending::More])
}

fn too_little(random: &mut Random) -> Lending {
    let kind = random.below(4);
    random.pick(&[
        Lending::Short(kind),
        Lending::Short(kind),
        Lending::Few,
        Lending::Round,
        Lending::Nothing,
    ])
}

fn any_lending(random: &mut Random) -> Lending {
    match random.below(3) {
        0 => too_little(random),
        _ => enough(random),
    }
}

/// The vertices in groups: one by one, all at once, or of any sizes; some are empty.
fn groups(random: &mut Random, source: &[f64]) -> Vec<Vec<f64>> {
    let v = source.len() / 3;
    let way = random.below(5);
    let largest = match way {
        _ if v > LONGEST => 1 + v / 2,
        0 => 1,
        1 => v + 1,
        2 => 3,
        3 => 2,
        _ => 1 + random.below(v + 1),
    };
    let mut groups = Vec::new();
    let mut rest = source;
    while !rest.is_empty() {
        let size = match way {
            0 | 1 => largest,
            2 => random.below(largest + 1),
            _ => 1 + random.below(largest),
        };
        let (group, after) = rest.split_at((3 * size).min(rest.len()));
        groups.push(group.to_vec());
        rest = after;
    }
    groups
}

/// Settings that no job may have or that copy, a bad number, a repeated vertex, or what is not finite.
fn spoil(random: &mut Random, settings: &mut Settings, source: &mut Vec<f64>) {
    match random.below(8) {
        0 => *settings = bad_settings(random, *settings),
        1 => settings.offset = 0.0 * random.sign(),
        2 | 3 => bad_number(random, source),
        4 => repeat(random, source),
        5 => underflow(random, source),
        6 => no_number(random, settings, source),
        _ => {
            repeat(random, source);
            bad_number(random, source);
        }
    }
}

/// The settings with one that no job may have.
fn bad_settings(random: &mut Random, mut settings: Settings) -> Settings {
    match random.below(3) {
        0 => settings.offset = outside(random, LIMITS[0]),
        1 if settings.ratio.is_some() => settings.ratio = Some(random.pick(&BAD_RATIOS)),
        _ => settings.eps = random.pick(&BAD_EPS),
    }
    settings
}

fn bad_number(random: &mut Random, source: &mut [f64]) {
    if source.is_empty() {
        return;
    }
    let slot = random.below(source.len());
    let limit = LIMITS[slot % 3];
    source[slot] = match random.below(4) {
        0 => random.sign() * limit,
        _ => outside(random, limit),
    };
}

/// A vertex at one of the places after the first, at times the last.
fn later_vertex(random: &mut Random, source: &[f64]) -> Option<usize> {
    let v = source.len() / 3;
    let last = random.one_in(3);
    (v > 1).then(|| if last { v - 1 } else { 1 + random.below(v - 1) })
}

/// Puts a vertex where the one before is, at times as the other zero.
fn repeat(random: &mut Random, source: &mut [f64]) {
    let Some(place) = later_vertex(random, source) else {
        return;
    };
    for axis in [0, 1] {
        if random.one_in(3) {
            source[3 * place - 3 + axis] = 0.0 * random.sign();
        }
        let before = source[3 * place - 3 + axis];
        let other = before == 0.0 && random.one_in(2);
        source[3 * place + axis] = if other { -before } else { before };
    }
}

/// Puts a vertex so near to the one before that the square of the way there is zero. At times the one
/// before that is so near that a gap leads there, and nothing is found until the gap's end is left.
fn underflow(random: &mut Random, source: &mut [f64]) {
    let Some(place) = later_vertex(random, source) else {
        return;
    };
    let near = [1e-200, -1e-200, 5e-324, 1e-165];
    let before_that = random.one_in(2);
    for axis in [0, 1] {
        let before = 3 * place - 3 + axis;
        source[3 * place + axis] = source[before];
        if axis == 1 || random.one_in(2) {
            source[before] = 0.0;
            source[3 * place + axis] = random.pick(&near);
        }
        if place > 1 && before_that {
            source[before - 3] = source[before] - 1e-10;
        }
    }
}

/// An offset, ε, and three vertices whose join has no number.
type NoNumber = (f64, f64, [f64; 9]);

const NO_NUMBERS: [NoNumber; 2] = [
    (
        0.5000002384185791,
        4.7683715820312495e-7,
        [5.0, 0.0, 0.6180339887498949, -3.0, 4.0, 0.0, 5.0, 4.0, 0.0],
    ),
    (
        0.001,
        1e-9,
        [-1e6, 0.0, 1.1e-8, 1e6, 0.0, 0.0, 1e6, -1e6, 0.0],
    ),
];

/// Such vertices as they are, or the way back with the offset to the same side.
fn directed(no_number: &NoNumber, backward: bool) -> (Settings, [f64; 9]) {
    let (offset, eps, there) = *no_number;
    let [x, y, a, i, j, b, s, t, c] = there;
    let back = [s, t, -b, i, j, -a, x, y, c];
    let (turn, vertices) = if backward { (-1.0, back) } else { (1.0, there) };
    let (offset, ratio) = (turn * offset, None);
    (Settings { offset, eps, ratio }, vertices)
}

/// Puts such vertices among the others.
fn no_number(random: &mut Random, settings: &mut Settings, source: &mut Vec<f64>) {
    let backward = random.one_in(2);
    let (other, vertices) = directed(&random.pick(&NO_NUMBERS), backward);
    (settings.offset, settings.eps) = (other.offset, other.eps);
    let place = 3 * random.below(source.len() / 3 + 1);
    source.splice(place..place, vertices);
}

/// So many vertices that the job's own run about the limit.
fn up_to_limit(random: &mut Random, v: usize) -> Step {
    let count = 4098 - random.below(v + 4);
    Step::Draw(zigzag(count), enough(random))
}

/// Drawings at the limit of vertices.
fn zigzag(count: usize) -> Vec<f64> {
    let vertex = |i: usize| [i as f64 / 4.0, (i % 2) as f64, [0.0, 0.25][i / 2 % 2]];
    (0..count).flat_map(vertex).collect()
}

fn put(random: &mut Random, steps: &mut Vec<Step>, step: Step) {
    let place = random.below(steps.len() + 1);
    steps.insert(place, step);
}

/// The vertices of one of the draws.
fn any_draw(random: &mut Random, steps: &[Step]) -> Option<(usize, Vec<f64>)> {
    let draws = steps
        .iter()
        .enumerate()
        .filter_map(|(place, step)| match step {
            Step::Draw(source, _) => Some((place, source)),
            _ => None,
        });
    let draws: Vec<(usize, &Vec<f64>)> = draws.collect();
    let (place, source) = random.pick_clone(&draws)?;
    Some((place, source.clone()))
}

fn empty(random: &mut Random, steps: &mut Vec<Step>, _: &Job) {
    let lending = random.pick(&[Lending::Nothing, Lending::More]);
    put(random, steps, Step::Draw(Vec::new(), lending));
}

/// A draw with a number or two over, or too few, before it is made as it should be.
fn ragged(random: &mut Random, steps: &mut Vec<Step>, _: &Job) {
    let Some((place, mut source)) = any_draw(random, steps) else {
        return;
    };
    let over = 1 + random.below(2);
    if random.one_in(2) {
        source.truncate(source.len().saturating_sub(over));
    } else {
        source.extend(std::iter::repeat_n(random.pick(&[0.5, f64::NAN]), over));
    }
    let lending = any_lending(random);
    steps.insert(place, Step::Draw(source, lending));
}

/// A draw that is lent too little, before it is lent enough.
fn without_room(random: &mut Random, steps: &mut Vec<Step>, _: &Job) {
    if let Some((place, source)) = any_draw(random, steps) {
        let lending = too_little(random);
        steps.insert(place, Step::Draw(source, lending));
    }
}

fn end_without_room(random: &mut Random, steps: &mut Vec<Step>, _: &Job) {
    let lending = too_little(random);
    put(random, steps, Step::End(lending));
}

fn end_early(random: &mut Random, steps: &mut Vec<Step>, _: &Job) {
    let lending = enough(random);
    put(random, steps, Step::End(lending));
}

/// A start like the script's own, anywhere.
fn start_again(random: &mut Random, steps: &mut Vec<Step>, _: &Job) {
    if let Some(Step::Start(settings)) = steps.first().cloned() {
        put(random, steps, Step::Start(settings));
    }
}

/// The start of another job, some of its vertices, and mostly its end.
fn start_another(random: &mut Random, steps: &mut Vec<Step>, other: &Job) {
    let v = (other.source.len() / 3).min(12);
    let some = 3 * random.below(v + 1);
    let lendings = [enough(random), enough(random)];
    let mut place = random.below(steps.len() + 1);
    let mut put = |step| {
        steps.insert(place, step);
        place += 1;
    };
    put(Step::Start(Settings::of(other)));
    put(Step::Draw(other.source[..some].to_vec(), lendings[0]));
    if !random.one_in(4) {
        put(Step::End(lendings[1]));
    }
}

/// A start that is refused, anywhere.
fn start_badly(random: &mut Random, steps: &mut Vec<Step>, other: &Job) {
    let settings = bad_settings(random, Settings::of(other));
    put(random, steps, Step::Start(settings));
}

fn copy(random: &mut Random, steps: &mut Vec<Step>, _: &Job) {
    put(random, steps, Step::Copy);
}

/// Mostly before all else, so that a start follows.
fn garble(random: &mut Random, steps: &mut Vec<Step>, _: &Job) {
    let seed = random.bits();
    if random.one_in(3) {
        put(random, steps, Step::Garble(seed));
    } else {
        steps.insert(0, Step::Garble(seed));
    }
}

/// The same vertices once more.
fn draw_twice(random: &mut Random, steps: &mut Vec<Step>, _: &Job) {
    if let Some((place, source)) = any_draw(random, steps) {
        let lending = enough(random);
        steps.insert(place + 1, Step::Draw(source, lending));
    }
}

/// Some call of a few numbers.
fn any_call(random: &mut Random, other: &Job) -> Step {
    let lending = any_lending(random);
    let few = other.source.len().min(12);
    match random.below(4) {
        0 => Step::End(lending),
        1 => Step::Draw(Vec::new(), lending),
        2 => Step::Draw(other.source[..random.below(few + 1)].to_vec(), lending),
        _ => Step::Draw(other.source[..few / 3 * 3].to_vec(), lending),
    }
}

/// Calls after the end.
fn after(random: &mut Random, steps: &mut Vec<Step>, other: &Job) {
    for _ in 0..=random.below(2) {
        let call = any_call(random, other);
        steps.push(call);
    }
}

/// Calls before any start.
fn before(random: &mut Random, steps: &mut Vec<Step>, other: &Job) {
    for _ in 0..=random.below(2) {
        let call = any_call(random, other);
        steps.insert(0, call);
    }
}

fn without_start(_: &mut Random, steps: &mut Vec<Step>, _: &Job) {
    steps.retain(|step| !matches!(step, Step::Start(_)));
}
