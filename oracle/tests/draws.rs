//! 02's 2026-05: jobs drawn vertex by vertex, with the answers that 01 section 5 and the settled points give.
#![cfg(with_000)]

use oracle::draws::{Call, Pen, Pencil, Reference, Settings, Wrong};
use oracle::generate::{FAMILIES, KEYHOLES, POINTED, Random};
use oracle::stage::{Answer, BEYOND, Before, Buffers, Job, Outcome, Places};

const ROUND: Settings = Settings {
    offset: 1.0,
    eps: 1e-5,
    ratio: None,
};

const LEAST: f64 = 1e-200;

const NAN: f64 = f64::NAN;

fn offset(offset: f64) -> Settings {
    Settings { offset, ..ROUND }
}

fn pointed(offset: f64, ratio: f64) -> Settings {
    let ratio = Some(ratio);
    Settings {
        offset,
        ratio,
        ..ROUND
    }
}

/// What a call has to answer, and to hand out.
#[derive(Debug, Clone)]
struct Expected {
    number: u32,
    place: u32,
    vertices: Vec<[f64; 3]>,
    flags: Vec<u8>,
    indexes: Vec<u32>,
    origins: Vec<u32>,
}

/// Nothing, with a number and a place.
fn refused(number: u32, place: u32) -> Expected {
    Expected {
        number,
        place,
        vertices: Vec::new(),
        flags: Vec::new(),
        indexes: Vec::new(),
        origins: Vec::new(),
    }
}

fn nothing() -> Expected {
    refused(0, 0)
}

/// Vertices, the first of which have an origin each; of these some are flagged, by their place in the call
/// and their number in the job.
fn handed(vertices: &[[f64; 3]], origins: &[u32], flagged: &[(usize, u32)]) -> Expected {
    let mut flags = vec![0; origins.len()];
    for (place, _) in flagged {
        flags[*place] = 1;
    }
    Expected {
        vertices: vertices.to_vec(),
        flags,
        indexes: flagged.iter().map(|(_, index)| *index).collect(),
        origins: origins.to_vec(),
        ..nothing()
    }
}

/// The same before a refusal.
fn before(number: u32, place: u32, handed: Expected) -> Expected {
    Expected {
        number,
        place,
        ..handed
    }
}

impl Expected {
    fn answer(&self) -> Answer {
        let counts = [self.vertices.len(), self.indexes.len(), self.flags.len()];
        let [vertices, indexes, segments] = counts.map(|count| count as u32);
        [self.number, self.place, vertices, indexes, segments]
    }

    fn outcome(&self, before: Before, places: Places) -> Outcome {
        let mut outcome = Outcome::untouched(self.answer(), before, places);
        let numbers = self.vertices.as_flattened().iter();
        outcome
            .vertices
            .iter_mut()
            .zip(numbers)
            .for_each(|(place, number)| *place = number.to_bits());
        outcome.flags[..self.flags.len()].copy_from_slice(&self.flags);
        outcome.indexes[..self.indexes.len()].copy_from_slice(&self.indexes);
        outcome.origins[..self.origins.len()].copy_from_slice(&self.origins);
        outcome
    }
}

fn answered<P: Pen>(pen: &mut P, call: &Call, before: Before) -> Outcome {
    let room = call.room();
    let mut buffers = Buffers::over(before, room.map(|lent| lent + BEYOND));
    let lent = buffers.lend(room);
    let answer = match call {
        Call::Start(settings) => pen.start(*settings),
        Call::Draw(source, _) => pen.draw(source, lent),
        Call::End(_) => pen.end(lent),
        Call::Copy | Call::Garble(_) => [0; 5],
    };
    buffers.after(answer)
}

/// A pen that was never begun has to answer each call so, over each pattern, and to change no other place.
fn answers_by<P: Pen>(pen: &P, calls: &[(Call, Expected)]) {
    for before in (0..Before::PATTERNS).map(Before::pattern) {
        let mut pen = pen.clone();
        for (place, (call, expected)) in calls.iter().enumerate() {
            let places = call.room().map(|lent| lent + BEYOND);
            let outcome = answered(&mut pen, call, before);
            assert_eq!(outcome.answer, expected.answer(), "call {place}: {call:?}");
            assert_eq!(
                outcome,
                expected.outcome(before, places),
                "call {place}: {call:?}"
            );
        }
    }
}

fn answers(calls: &[(Call, Expected)]) {
    answers_by(&Reference::default(), calls);
    answers_by(&Pencil::right(), calls);
    #[cfg(feature = "proved")]
    answers_by(&oracle::proved::Drawing::default(), calls);
}

fn start(settings: Settings) -> (Call, Expected) {
    (Call::Start(settings), nothing())
}

/// A draw with room for so many segments.
fn draw_with(room: usize, vertices: &[[f64; 3]], expected: Expected) -> (Call, Expected) {
    let places = [3 * room, room, room, room];
    (Call::Draw(vertices.concat(), places), expected)
}

/// A draw with more room than either mode needs.
fn draw(vertices: &[[f64; 3]], expected: Expected) -> (Call, Expected) {
    draw_with(3 * vertices.len() + 1, vertices, expected)
}

fn end(expected: Expected) -> (Call, Expected) {
    (Call::End([6, 2, 2, 2]), expected)
}

/// Each call after a refusal repeats it.
fn later(number: u32, place: u32) -> Vec<(Call, Expected)> {
    let again = || refused(number, place);
    vec![
        draw(&[[7.0, 7.0, 0.0]], again()),
        draw(&[], again()),
        (Call::Draw(vec![1.0], [0; 4]), again()),
        draw_with(0, &[[7.0, 7.0, 0.0]], again()),
        (Call::End([0; 4]), again()),
        end(again()),
        draw(&[[9.0, 7.0, 0.0]], again()),
        end(again()),
    ]
}

#[test]
fn a_vertex_hands_out_what_it_makes_certain() {
    let [a, b, c] = [[0.0, 0.0, 0.0], [4.0, 0.0, 0.0], [4.0, 4.0, 0.0]];
    let first = || handed(&[[0.0, 1.0, 0.0]], &[0], &[]);
    let last = || handed(&[[3.0, 1.0, 0.0], [3.0, 4.0, 0.0]], &[2], &[]);
    answers(&[
        start(ROUND),
        draw(&[a], nothing()),
        draw(&[b], nothing()),
        draw(&[c], first()),
        end(last()),
        end(refused(9, 0)),
    ]);
    answers(&[start(ROUND), draw(&[a, b, c], first()), end(last())]);
    answers(&[
        start(ROUND),
        draw(&[], nothing()),
        draw(&[a], nothing()),
        draw(&[b, c], first()),
        end(last()),
    ]);
    // two vertices hand out nothing until the end
    let both = handed(&[[0.0, 1.0, 0.0], [4.0, 1.0, 0.0]], &[0], &[]);
    answers(&[start(ROUND), draw(&[a, b], nothing()), end(both)]);
}

#[test]
fn a_connector_comes_with_its_span() {
    let there_and_back = [[0.0, 0.0, 0.0], [4.0, 0.0, 0.0], [0.0, 0.0, 0.0]];
    let first = handed(&[[0.0, 1.0, 0.0], [4.0, 1.0, -1.0]], &[0, 1], &[]);
    let last = handed(&[[4.0, -1.0, 0.0], [0.0, -1.0, 0.0]], &[2], &[]);
    answers(&[start(ROUND), draw(&there_and_back, first), end(last)]);
}

#[test]
fn numbers_are_those_of_the_job() {
    // 01's sixth row, and once more the same corner further on
    let first = handed(&[[0.0, 2.0, 0.0], [4.0, 2.0, 0.0]], &[0, 1], &[(1, 1)]);
    let corner = [[0.0, 0.0, 0.0], [4.0, 0.0, 0.0], [4.0, 1.0, 0.0]];
    let last = handed(&[[2.0, 0.0, 0.0], [2.0, 1.0, 0.0]], &[2], &[]);
    answers(&[start(offset(2.0)), draw(&corner, first.clone()), end(last)]);
    // straight on: span 1 leaves (2,0); then a turn to the left again, with a gap
    answers(&[
        start(offset(2.0)),
        draw(&corner, first),
        draw(&[[4.0, 9.0, 0.0]], handed(&[[2.0, 0.0, 0.0]], &[2], &[])),
        draw(
            &[[3.0, 9.0, 0.0]],
            handed(&[[2.0, 1.0, 0.0], [2.0, 9.0, 0.0]], &[4, 5], &[(1, 4)]),
        ),
        end(handed(&[[4.0, 7.0, 0.0], [3.0, 7.0, 0.0]], &[6], &[])),
    ]);
}

#[test]
fn a_pointed_corner_hands_out_three() {
    let corner = [[0.0, 0.0, 0.0], [4.0, 0.0, 0.0], [4.0, 4.0, 0.0]];
    let three = [[0.0, -1.0, 0.0], [4.0, -1.0, 0.0], [5.0, -1.0, 0.0]];
    let last = handed(&[[5.0, 0.0, 0.0], [5.0, 4.0, 0.0]], &[2], &[]);
    let sharp = start(pointed(-1.0, 2.0));
    let [a, b, c] = corner;
    answers(&[
        sharp.clone(),
        draw_with(6, &[a, b], nothing()),
        draw_with(2, &[c], refused(4, 0)),
        draw_with(3, &[c], handed(&three, &[0, 1, 1], &[])),
        end(last.clone()),
    ]);
    answers(&[
        sharp,
        draw_with(8, &corner, refused(4, 0)),
        draw_with(9, &corner, handed(&three, &[0, 1, 1], &[])),
        end(last),
    ]);
}

#[test]
fn the_first_vertex_is_held_until_a_move_is_kept() {
    let near = [[0.0, 0.0, 0.0], [1e-6, 0.0, 0.0]];
    let last = handed(&[[0.0, 1.0, 0.0], [4.0, 1.0, 0.0]], &[2], &[]);
    answers(&[
        start(ROUND),
        draw(&near, nothing()),
        draw(&[[4.0, 0.0, 0.0]], nothing()),
        end(last),
    ]);
    // nothing at all is kept
    answers(&[start(ROUND), draw(&near, nothing()), end(nothing())]);
    // the last span is dropped
    let on = [[0.0, 0.0, 0.0], [4.0, 0.0, 0.0], [4.000001, 0.0, 5.0]];
    answers(&[
        start(ROUND),
        draw(&on, handed(&[[0.0, 1.0, 0.0]], &[0], &[])),
        end(handed(&[[4.0, 1.0, 0.0]], &[], &[])),
    ]);
}

#[test]
fn a_lone_collapsed_arc_draws_nothing() {
    let arc = [[0.0, 0.0, 1.0], [4.0, 0.0, 0.0]];
    let alone = [
        start(offset(3.0)),
        draw(&arc, nothing()),
        end(nothing()),
        end(refused(9, 0)),
    ];
    answers(&alone);
    // with a line after it, it is drawn and flagged
    answers(&[
        start(offset(3.0)),
        draw(&arc, nothing()),
        draw(
            &[[4.0, 9.0, 0.0]],
            handed(&[[3.0, 0.0, 0.0]], &[0], &[(0, 0)]),
        ),
        end(handed(&[[1.0, 0.0, 0.0], [1.0, 9.0, 0.0]], &[2], &[])),
    ]);
}

#[test]
fn an_offset_of_zero_copies() {
    let [a, b, c] = [[0.5, -0.0, 0.25], [0.5, 0.0, -3.0], [2.0, 1.0, 7.0]];
    for settings in [offset(0.0), offset(-0.0), pointed(-0.0, 1.0)] {
        answers(&[
            start(settings),
            draw(&[a], nothing()),
            draw(&[b], handed(&[a], &[0], &[])),
            draw(&[c], handed(&[b], &[2], &[])),
            end(handed(&[c], &[], &[])),
        ]);
        answers(&[
            start(settings),
            draw(&[a, b, c], handed(&[a, b], &[0, 2], &[])),
            end(handed(&[c], &[], &[])),
            end(refused(9, 0)),
        ]);
        answers(&[start(settings), draw(&[a], nothing()), end(nothing())]);
        // bad numbers are refused as ever, after what came before
        let handed = handed(&[a], &[0], &[]);
        answers(&[
            start(settings),
            draw(&[a, b, [0.0, 0.0, NAN], c], before(3, 2, handed)),
            end(refused(3, 2)),
        ]);
    }
}

#[test]
fn room_is_for_all_vertices_given() {
    let [a, b, c] = [[0.0, 0.0, 0.0], [4.0, 0.0, 0.0], [4.0, 4.0, 0.0]];
    let first = || handed(&[[0.0, 1.0, 0.0]], &[0], &[]);
    // the first vertex hands out nothing, and needs room for two
    let mut calls = vec![start(ROUND), draw_with(1, &[a], refused(4, 0))];
    calls.push(draw_with(2, &[a], nothing()));
    // each list by itself; a number or two of the next vertex are no room for it
    let rooms = [[11, 4, 4, 4], [12, 3, 4, 4], [12, 4, 3, 4], [12, 4, 4, 3]];
    for room in rooms {
        calls.push((Call::Draw([b, c].concat(), room), refused(4, 0)));
    }
    calls.push((Call::Draw([b, c].concat(), [14, 4, 4, 4]), first()));
    let last = handed(&[[3.0, 1.0, 0.0], [3.0, 4.0, 0.0]], &[2], &[]);
    for room in [
        [5, 2, 2, 2],
        [6, 1, 2, 2],
        [6, 2, 1, 2],
        [6, 2, 2, 1],
        [0; 4],
    ] {
        calls.push((Call::End(room), refused(4, 0)));
    }
    calls.push(end(last));
    answers(&calls);
    // an empty draw needs none, and the end needs two, whatever it hands out
    for settings in [ROUND, offset(0.0), pointed(1.0, 2.0)] {
        answers(&[
            start(settings),
            draw_with(0, &[], nothing()),
            (Call::End([3, 1, 1, 1]), refused(4, 0)),
            (Call::End([8, 2, 2, 2]), nothing()),
        ]);
    }
}

#[test]
fn room_before_any_vertex_is_taken() {
    let many: Vec<[f64; 3]> = (0..5000).map(|i| [f64::from(i), 0.0, 0.0]).collect();
    let copied = handed(&[[0.0, 0.0, 0.0]], &[0], &[]);
    answers(&[
        start(offset(0.0)),
        draw_with(8192, &many, refused(4, 0)),
        draw_with(4, &many[..2], copied),
    ]);
    // a bad vertex is not looked at either
    let bad = [[NAN, 0.0, 0.0], [0.0, 0.0, 0.0]];
    answers(&[
        start(ROUND),
        draw_with(3, &bad, refused(4, 0)),
        draw_with(4, &bad, refused(3, 0)),
    ]);
}

#[test]
fn too_many_vertices() {
    let vertex = |i: u32| [f64::from(i), f64::from(i % 2), 0.0];
    let many: Vec<[f64; 3]> = (0..4100).map(vertex).collect();
    let origins: Vec<u32> = (0..4096).map(|i| 2 * i).collect();
    let copied = |from: usize, to: usize| handed(&many[from..to], &origins[from..to], &[]);
    let mut calls = vec![
        start(offset(0.0)),
        draw(&many, before(2, 4096, copied(0, 4095))),
    ];
    calls.extend(later(2, 4096));
    calls.extend([
        start(offset(0.0)),
        draw(&many[..4095], copied(0, 4094)),
        draw(&many[4095..4097], before(2, 4096, copied(4094, 4095))),
        end(refused(2, 4096)),
        start(offset(0.0)),
        draw(&many[..4096], copied(0, 4095)),
        draw(&[], nothing()),
        end(handed(&many[4095..4096], &[], &[])),
        // too many before number, and a bad vertex before it
        start(offset(0.0)),
        draw(&many[..4096], copied(0, 4095)),
        draw(&[[NAN; 3]], refused(2, 4096)),
        start(offset(0.0)),
        draw(&many[..4095], copied(0, 4094)),
        draw(&[[NAN; 3], many[0]], refused(3, 4095)),
    ]);
    answers(&calls);
}

#[test]
fn each_vertex_is_drawn_before_the_next_is_looked_at() {
    let [a, b] = [[0.0, 0.0, 0.0], [4.0, 0.0, 0.0]];
    let bad = [NAN, 0.0, 0.0];
    // repeated, and a bad number after it
    answers(&[start(ROUND), draw(&[a, b, b, bad], refused(5, 2))]);
    answers(&[start(ROUND), draw(&[a, b, bad, bad], refused(3, 2))]);
    // in one vertex the number comes first
    answers(&[start(ROUND), draw(&[a, b, [4.0, 0.0, 2e9]], refused(3, 2))]);
    // what is repeated is no line, and is not drawn
    let mut calls = vec![start(ROUND), draw(&[a, b, [4.0, -0.0, 0.0]], refused(5, 2))];
    calls.extend(later(5, 2));
    answers(&calls);
    // also across calls
    answers(&[
        start(ROUND),
        draw(&[a, b], nothing()),
        draw(&[b], refused(5, 2)),
    ]);
    // equal in x alone, near, and equal to an earlier one is not repeated
    let drawn = [[-1.0, 0.0, 0.0], [-1.0, 4.0, 0.0], [0.0, 5.0, 0.0]];
    answers(&[
        start(ROUND),
        draw(&[a, [0.0, 4.0, 0.0]], nothing()),
        draw(&[[1e-9, 4.0, 0.0]], handed(&drawn[..2], &[0, 1], &[(1, 1)])),
        draw(&[a], handed(&drawn[2..], &[3], &[(0, 2)])),
    ]);
}

#[test]
fn a_refusal_counts_what_came_before_it() {
    let [a, b, c] = [[0.0, 0.0, 0.0], [4.0, 0.0, 0.0], [4.0, 1.0, 0.0]];
    let first = || handed(&[[0.0, 2.0, 0.0], [4.0, 2.0, 0.0]], &[0, 1], &[(1, 1)]);
    let mut calls = vec![
        start(offset(2.0)),
        draw(&[a, b, c, c, b], before(5, 3, first())),
    ];
    calls.extend(later(5, 3));
    answers(&calls);
    // what was handed out in earlier calls is not counted again
    let bad = [1_000_000.0_f64.next_up(), 0.0, 0.0];
    let mut calls = vec![
        start(offset(2.0)),
        draw(&[a, b, c], first()),
        draw(&[bad], refused(3, 3)),
    ];
    calls.extend(later(3, 3));
    answers(&calls);
}

#[test]
fn numbers_at_their_limits() {
    let taken = [[1e6, -1e6, 1e9], [-1e6, 1e6, -1e9]];
    answers(&[
        start(offset(0.0)),
        draw(&taken, handed(&taken[..1], &[0], &[])),
    ]);
    for slot in 0..3 {
        let limit = [1e6_f64, 1e6, 1e9][slot];
        for number in [limit.next_up(), -limit.next_up(), NAN, f64::INFINITY] {
            let mut vertex = [0.0, 4.0, 0.0];
            vertex[slot] = number;
            answers(&[
                start(ROUND),
                draw(&[[0.0; 3]], nothing()),
                draw(&[vertex], refused(3, 1)),
                end(refused(3, 1)),
            ]);
        }
    }
}

#[test]
fn not_finite_where_the_number_would_be_handed_out() {
    let line = [[0.0, 0.0, 0.0], [LEAST, 0.0, 0.0]];
    // at the end of two, place v, for good
    let mut calls = vec![start(ROUND), draw(&line, nothing()), end(refused(6, 2))];
    calls.extend(later(6, 2));
    answers(&calls);
    // at the third vertex
    let mut calls = vec![
        start(ROUND),
        draw(&line, nothing()),
        draw(&[[4.0, 0.0, 0.0]], refused(6, 2)),
    ];
    calls.extend(later(6, 2));
    answers(&calls);
    // a gap leads to no number: it leaves a good vertex, and the next one is refused
    let gap = [[0.0, 0.0, 0.0], [1e-6, 0.0, 0.0], [1e-6, LEAST, 0.0]];
    let first = || handed(&[[0.0, 1.0, 0.0]], &[1], &[(0, 0)]);
    answers(&[
        start(ROUND),
        draw(&gap, first()),
        draw(&[[4.0, 4.0, 0.0]], refused(6, 3)),
        end(refused(6, 3)),
    ]);
    answers(&[start(ROUND), draw(&gap, first()), end(refused(6, 3))]);
    let [a, b, c] = gap;
    let all = [a, b, c, [4.0, 4.0, 0.0], [NAN; 3]];
    answers(&[start(ROUND), draw(&all, before(6, 3, first()))]);
}

#[test]
fn no_finite_half_is_handed_out() {
    let settings = Settings {
        offset: -0.5000002384185791,
        eps: 4.7683715820312495e-7,
        ratio: None,
    };
    let no_number = [
        [5.0, 4.0, 0.0],
        [-3.0, 4.0, -0.6180339887498949],
        [5.0, 0.0, 0.0],
    ];
    let mut calls = vec![start(settings), draw(&no_number, refused(6, 2))];
    calls.extend(later(6, 2));
    answers(&calls);
    // the span alone would leave (5, 4.5..), and the connector a NaN
    let mut half = Pencil::by(Wrong::SixHalf);
    half.start(settings);
    let (call, _) = draw(&no_number, nothing());
    let outcome = answered(&mut half, &call, Before::MARKS);
    assert_eq!(outcome.answer, [6, 2, 1, 0, 1]);
    assert_eq!(outcome.drawn(), [[5.0, 4.500000238418579, 0.0]]);
}

#[test]
fn nine_after_the_end_and_before_any_start() {
    let nine = || refused(9, 0);
    let calls = [
        end(nine()),
        draw(&[], nine()),
        draw(&[[0.0, 0.0, 0.0]], nine()),
        draw_with(0, &[[NAN, 0.0, 0.0]], nine()),
        (Call::Draw(vec![1.0, 2.0], [0; 4]), nine()),
        (Call::End([0; 4]), nine()),
    ];
    answers(&calls);
    for given in [&[][..], &[[1.0, 2.0, 3.0]]] {
        let mut ended = vec![start(ROUND), draw(given, nothing()), end(nothing())];
        ended.extend(calls.clone());
        ended.extend([start(ROUND), end(nothing())]);
        answers(&ended);
    }
}

#[test]
fn ragged_before_room_and_after_nine() {
    let ragged = |room| Call::Draw(vec![0.0, 0.0, NAN, 1.0], room);
    answers(&[
        (ragged([9; 4]), refused(9, 0)),
        start(ROUND),
        (ragged([0; 4]), refused(1, 0)),
        (ragged([9; 4]), refused(1, 0)),
        (Call::Draw(vec![NAN], [9; 4]), refused(1, 0)),
        draw(&[[0.0, 0.0, 0.0]], nothing()),
        draw(&[[0.0, 0.0, 0.0]], refused(5, 1)),
        (ragged([0; 4]), refused(5, 1)),
    ]);
}

#[test]
fn starts() {
    let bad = |settings: Settings| (Call::Start(settings), refused(3, 0));
    let settings = [
        offset(1e6_f64.next_up()),
        offset(-f64::INFINITY),
        offset(NAN),
        Settings {
            eps: 1e-9_f64.next_down(),
            ..ROUND
        },
        Settings {
            eps: 0.01_f64.next_up(),
            ..ROUND
        },
        Settings { eps: NAN, ..ROUND },
        pointed(1.0, 1.0_f64.next_down()),
        pointed(0.0, 10.0_f64.next_up()),
        pointed(NAN, NAN),
    ];
    for settings in settings {
        // never begun, in the middle of a job, after its end and after a refusal
        let mut calls = vec![bad(settings)];
        calls.extend(later(3, 0));
        calls.extend([start(ROUND), draw(&[[0.0; 3]], nothing()), bad(settings)]);
        calls.extend(later(3, 0));
        calls.extend([start(ROUND), end(nothing()), bad(settings), bad(settings)]);
        calls.extend(later(3, 0));
        calls.push(start(ROUND));
        calls.push(end(nothing()));
        answers(&calls);
    }
    for settings in [
        offset(1e6),
        offset(-1e6),
        Settings { eps: 1e-9, ..ROUND },
        Settings { eps: 0.01, ..ROUND },
        pointed(1.0, 1.0),
        pointed(1.0, 10.0),
    ] {
        answers(&[start(settings), end(nothing())]);
    }
}

#[test]
fn a_start_begins_anew() {
    let [a, b, c] = [[0.0, 0.0, 0.0], [4.0, 0.0, 0.0], [4.0, 1.0, 0.0]];
    let first = || handed(&[[0.0, 2.0, 0.0], [4.0, 2.0, 0.0]], &[0, 1], &[(1, 1)]);
    answers(&[
        start(offset(2.0)),
        draw(&[a, b, c], first()),
        start(offset(2.0)),
        draw(&[c], nothing()),
        start(offset(2.0)),
        draw(&[a, b], nothing()),
        draw(&[c, c], before(5, 3, first())),
        start(offset(2.0)),
        draw(&[a, b, c], first()),
        end(handed(&[[2.0, 0.0, 0.0], [2.0, 1.0, 0.0]], &[2], &[])),
        start(pointed(2.0, 2.0)),
        draw(&[a, b, c], first()),
    ]);
}

/// Some jobs, each opened: of every family some.
fn jobs(count: usize) -> impl Iterator<Item = Job> {
    let mut random = Random::new(5);
    let families = [FAMILIES, KEYHOLES, POINTED].concat();
    (0..count).map(move |turn| {
        let job = families[turn % families.len()].1(&mut random);
        Settings::of(&job).whole(&job.source)
    })
}

/// What is handed out in all: numbers by their bits, flags, indexes, origins.
type Pieces = (Vec<u64>, Vec<u8>, Vec<u32>, Vec<u32>);

/// The pieces of a job in groups of so many vertices, unless it is refused.
fn joined(job: &Job, size: usize) -> Option<Pieces> {
    let room = [9 * size, 3 * size, 3 * size, 3 * size];
    let groups = job.source.chunks(3 * size);
    let mut calls = vec![Call::Start(Settings::of(job))];
    calls.extend(groups.map(|group| Call::Draw(group.to_vec(), room)));
    calls.push(Call::End([6, 2, 2, 2]));
    let mut pen = Reference::default();
    let mut all = Pieces::default();
    for call in calls {
        let outcome = answered(&mut pen, &call, Before::MARKS);
        let [number, _, vertices, indexes, segments] = outcome.answer.map(|count| count as usize);
        if number != 0 {
            return None;
        }
        all.0.extend(&outcome.vertices[..3 * vertices]);
        all.1.extend(&outcome.flags[..segments]);
        all.2.extend(&outcome.indexes[..indexes]);
        all.3.extend(&outcome.origins[..segments]);
    }
    Some(all)
}

/// The same of the whole form.
fn whole(job: &Job) -> Option<Pieces> {
    let whole = job.run(match job.ratio {
        None => oracle::job,
        Some(_) => oracle::traced::stage,
    });
    let numbers = 3 * whole.answer[2] as usize;
    (whole.answer[0] == 0).then(|| {
        let flags = whole.drawn_flags().to_vec();
        let (indexes, origins) = (whole.invalid(), whole.drawn_origins());
        let numbers = whole.vertices[..numbers].to_vec();
        (numbers, flags, indexes.to_vec(), origins.to_vec())
    })
}

#[test]
fn joined_pieces_are_the_whole() {
    let mut done = [0; 2];
    for job in jobs(20_000).filter(|job| job.source.len() < 400) {
        let expected = whole(&job);
        for size in [1, 2, 3, 1000] {
            assert_eq!(joined(&job, size), expected, "{size}: {job:?}");
        }
        if expected.is_some() {
            done[usize::from(job.ratio.is_some())] += 1;
        }
    }
    assert!(done.iter().all(|done| *done > 5000), "{done:?}");
}
