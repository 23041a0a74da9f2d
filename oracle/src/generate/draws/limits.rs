//! Scripts at the limits: of settings and vertices, of room, of how many vertices there may be, and of what is
//! handed out when.

use super::{LIMITS, NO_NUMBERS, directed, zigzag};
use crate::draws::{Call, Script, Settings};
use crate::stage::Places;
use std::f64::consts::SQRT_2;

const EPS: f64 = 1e-5;

/// Each way to be kept, dropped, flagged, copied, refused, or not finite: the offset, the ratio if there is one, and
/// vertices, each with its bulge unless that is 0. 1e-200 is 0 when it is squared.
const DRAWINGS: &[&str] = &[
    "1:",
    "1: 0 0",
    "0: 3 -0 7",
    "1: 0 0, 4 0 9",
    "1: 0 0, 4 0, 4 4 0.5",
    "-1: 0 0, 4 0, 4 4 0.5",
    "-1 2: 0 0, 4 0, 4 4 0.5",
    "-1 1.4: 0 0, 4 0, 4 4 0.5",
    "0: 0 0, 4 0, 4 4 0.5",
    "-0 2: 0 0, 4 0, 4 4 0.5",
    // inner gaps
    "2: 0 0, 4 0, 4 1",
    "2: 0 0, 4 0, 4 1, 3 1, 3 -5, 9 -5 1",
    "2 10: 0 0, 4 0, 4 1, 3 1, 3 -5, 9 -5 1",
    // there and back, and straight on
    "1: 0 0, 4 0, 0 0",
    "1 3: 0 0, 4 0, 8 0",
    // a collapsed arc alone, first, second and last
    "3: 0 0 1, 4 0",
    "3 2: 0 0 1, 4 0",
    "3: 0 0 1, 4 0, 9 3",
    "1: 0 0, 4 0 0.5, 4 1, 9 9",
    "1 10: 0 0, 4 0 0.5, 4 1, 9 9",
    "3: -4 0, 0 0 1, 4 0",
    // first moves dropped, all, some in the middle, and the last
    "1: 0 0, 1e-6 0, 2e-6 0, 4 0, 4 -4",
    "1 2: 0 0, 1e-6 0, 2e-6 0, 4 0, 4 -4",
    "1: 0 0, 1e-6 0",
    "1: 0 0, 1e-6 0, 2e-6 0",
    "1: 0 0, 4 0, 4 -1e-6, 8 -1e-6",
    "1: 0 0, 4 0, 4.000001 0 2",
    // arcs, and a bulge above 1000
    "0.5: 0 0 0.5, 4 0 -0.5, 8 0 1, 12 3",
    "-1: 10 4.75e-6 4210526.3, 10 -4.75e-6, 35 0",
    // a pair of which one move is kept
    "1 2: 0 0, 4 0, 8 -6e-5, 9 0",
    // repeated, by value; copies take it
    "1: 0 0 0.25, 4 0 -3, 4 -0 7, 9 0",
    "0: 0 0 0.25, 4 0 -3, 4 -0 7, 9 0",
    "-0 1: 0 0 0.25, 4 0 -3, 4 -0 7, 9 0",
    "1: 0 0, -0 0, 4 0",
    // back at the first vertex, and equal in x or in y alone
    "1: 0 0, 0 4, 4 4, 0 0",
    // repeated and then a bad number, the other way about, and both in one vertex
    "1: 0 0, 4 0, 4 0, NaN 0",
    "1: 0 0, 4 0 2e9, 4 0, 8 0",
    "1: 0 0, 4 0, 4 0 inf",
    // no line: at the end of two, at the third vertex, and where a gap leads to it
    "1: 0 0, 1e-200 0",
    "1: 0 0, 1e-200 1e-200",
    "1: 0 0, 1e-200 1e-200, 4 0",
    "1 2: 0 0, 4 0, 4 1e-200, 9 0",
    "1: 0 0, 1e-6 0, 1e-6 1e-200",
    "1: 0 0, 1e-6 0, 1e-6 1e-200, 4 4",
    // no line, and a bad or a repeated vertex where it is found
    "1: 0 0, 4 0, 4 1e-200 NaN",
    "1: 0 0, 1e-200 0, 1e-200 0",
    // limits
    "1: 1e6 -1e6 1e9, -1e6 1e6 -1e9, 1e6 1e6 1e9",
];

/// A corner.
const CORNER: [f64; 9] = [0.0, 0.0, 0.0, 4.0, 0.0, 0.0, 4.0, 4.0, 0.5];

const GOOD: Settings = Settings {
    offset: 1.0,
    eps: EPS,
    ratio: None,
};

/// Hands out all of them.
pub fn each_limit_script(mut take: impl FnMut(&Script)) {
    each_setting(&mut take);
    each_number(&mut take);
    for (settings, source) in drawings() {
        each_grouping(&settings, &source, &mut take);
        each_room(&settings, &source, &mut take);
    }
    each_of_many(&mut take);
}

fn drawings() -> Vec<(Settings, Vec<f64>)> {
    let plain = DRAWINGS.iter().map(|text| drawing(text));
    // what the third vertex of these hands out starts with a number, and has none after it
    let halves = NO_NUMBERS.iter().flat_map(|no_number| {
        [false, true].into_iter().flat_map(|backward| {
            let (settings, vertices) = directed(no_number, backward);
            let before = [-7.0, -7.0, 0.0, -7.0, -9.0, 0.25];
            let longer = [&before[..], &vertices, &[-20.0, 0.0, 0.0]].concat();
            [(settings, vertices.to_vec()), (settings, longer)]
        })
    });
    plain.chain(halves).collect()
}

/// Reads an offset, a ratio and vertices.
fn drawing(text: &str) -> (Settings, Vec<f64>) {
    let numbers = |text: &str| -> Vec<f64> {
        let words = text.split_whitespace();
        words.map(|word| word.parse().expect("a number")).collect()
    };
    let (settings, vertices) = text.split_once(':').expect("settings and vertices");
    let settings = numbers(settings);
    let vertices = vertices.split(',').map(numbers);
    let vertices = vertices.filter(|vertex| !vertex.is_empty());
    let source = vertices.flat_map(|vertex| {
        let bulge = vertex.get(2).copied().unwrap_or(0.0);
        [vertex[0], vertex[1], bulge]
    });
    let settings = Settings {
        offset: settings[0],
        ratio: settings.get(1).copied(),
        ..GOOD
    };
    (settings, source.collect())
}

/// Just as many places as so many vertices need.
fn places(settings: &Settings, vertices: usize) -> Places {
    let need = settings.each() * vertices;
    [3 * need, need, need, need]
}

fn draw(settings: &Settings, source: &[f64]) -> Call {
    Call::Draw(source.to_vec(), places(settings, source.len() / 3))
}

const END: Call = Call::End([6, 2, 2, 2]);

/// All calls once more, after an end or a refusal.
fn later() -> Script {
    vec![
        END,
        Call::Draw(Vec::new(), [0; 4]),
        Call::Draw(vec![0.0; 4], [0; 4]),
        Call::Draw(vec![1.0, 2.0, 0.0], [9; 4]),
        Call::End([0; 4]),
        END,
    ]
}

/// Settings at each limit, next to it, and out of all range.
fn each_setting(take: &mut impl FnMut(&Script)) {
    let beside = |limit: f64| [limit.next_down(), limit, limit.next_up(), -limit];
    let odd = [
        f64::NAN,
        -f64::NAN,
        f64::from_bits(0x7ff0_0000_0000_0001),
        f64::INFINITY,
        f64::NEG_INFINITY,
        0.0,
        -0.0,
        f64::from_bits(1),
        f64::MAX,
        SQRT_2,
    ];
    let numbers = [1e6, -1e6, 1e-9, 0.01, 1.0, 10.0]
        .into_iter()
        .flat_map(beside);
    for number in numbers.chain(odd) {
        for slot in 0..4 {
            let settings = match slot {
                0 => Settings {
                    offset: number,
                    ..GOOD
                },
                1 => Settings {
                    eps: number,
                    ..GOOD
                },
                2 => Settings {
                    ratio: Some(number),
                    ..GOOD
                },
                _ => Settings {
                    offset: number,
                    ratio: Some(2.0),
                    ..GOOD
                },
            };
            let copied = Settings {
                offset: 0.0,
                ..settings
            };
            for settings in [settings, copied] {
                let mut script = vec![Call::Start(GOOD), draw(&settings, &CORNER)];
                script.extend([Call::Start(settings), draw(&settings, &CORNER), END]);
                script.extend(later());
                take(&script);
            }
        }
    }
}

/// Each number of three vertices at its limit, next to it, and out of all range; in one call and in three.
fn each_number(take: &mut impl FnMut(&Script)) {
    for slot in 0..9 {
        let limit = LIMITS[slot % 3];
        let numbers = [
            limit,
            -limit,
            limit.next_up(),
            -limit.next_up(),
            f64::NAN,
            f64::from_bits(0xfff0_0000_0000_0001),
            f64::INFINITY,
            -f64::INFINITY,
            1e9,
            1000.0_f64.next_up(),
        ];
        for number in numbers {
            for offset in [1.0, 0.0] {
                let settings = Settings { offset, ..GOOD };
                let mut source = CORNER.to_vec();
                source[slot] = number;
                each_grouping(&settings, &source, take);
            }
        }
    }
}

/// A drawing in each grouping that there is, and calls after it.
fn each_grouping(settings: &Settings, source: &[f64], take: &mut impl FnMut(&Script)) {
    let v = source.len() / 3;
    for cuts in 0..1_usize << v.saturating_sub(1) {
        let mut script = vec![Call::Start(*settings)];
        let mut from = 0;
        for place in 1..=v {
            if place == v || cuts >> (place - 1) & 1 != 0 {
                script.push(draw(settings, &source[3 * from..3 * place]));
                from = place;
            }
        }
        script.push(END);
        script.extend(later());
        take(&script);
    }
}

/// A drawing in one call, with each list about as long as it has to be, and its end likewise; then with just
/// enough.
fn each_room(settings: &Settings, source: &[f64], take: &mut impl FnMut(&Script)) {
    let just = places(settings, source.len() / 3);
    let end = [6, 2, 2, 2];
    let about = |room: Places, kind: usize, by: usize| {
        let mut room = room;
        let least = if kind == 0 { 3 } else { 1 };
        room[kind] = (room[kind] + by).saturating_sub(least);
        room
    };
    for kind in 0..4 {
        for by in 0..6 {
            take(&vec![
                Call::Start(*settings),
                Call::Draw(source.to_vec(), about(just, kind, by)),
                draw(settings, source),
                Call::End(about(end, kind, by)),
                END,
                END,
            ]);
        }
    }
    let v = source.len() / 3;
    for few in [
        1,
        v,
        v.saturating_sub(1),
        2 * v,
        (2 * v).saturating_sub(1),
        0,
    ] {
        take(&vec![
            Call::Start(*settings),
            Call::Draw(source.to_vec(), [3 * few, few, few, few]),
            Call::Copy,
            draw(settings, source),
            Call::End([3, 1, 1, 1]),
            Call::End([6, 1, 1, 1]),
            END,
        ]);
    }
}

/// Settings in both modes, and of a copy.
const MODES: [Settings; 3] = [
    GOOD,
    Settings {
        offset: -0.25,
        ratio: Some(4.0),
        ..GOOD
    },
    Settings {
        offset: 0.0,
        ..GOOD
    },
];

/// So many vertices that some are too many, and what follows.
struct Many {
    settings: Settings,
    source: Vec<f64>,
}

impl Many {
    fn draw(&self, from: usize, to: usize) -> Call {
        draw(&self.settings, &self.source[3 * from..3 * to])
    }

    /// A script of some calls, calls after it, and a short job.
    fn script(&self, calls: &[Call]) -> Script {
        let mut script = vec![Call::Start(self.settings)];
        script.extend_from_slice(calls);
        script.extend(later());
        script.extend([Call::Start(self.settings), self.draw(0, 3), END]);
        script
    }
}

/// As many vertices as may be, and more.
fn each_of_many(take: &mut impl FnMut(&Script)) {
    let source = zigzag(5000);
    for settings in MODES {
        let source = source.clone();
        let many = Many { settings, source };
        let draw = |from: usize, to: usize| many.draw(from, to);
        let mut with = |calls: &[Call]| take(&many.script(calls));
        with(&[draw(0, 4095), END]);
        with(&[draw(0, 4096), END]);
        with(&[draw(0, 4097), END]);
        with(&[draw(0, 5000)]);
        with(&[draw(0, 4095), draw(4095, 4096), draw(4096, 4096), END]);
        with(&[draw(0, 4095), draw(4095, 4097)]);
        with(&[draw(0, 4096), draw(4096, 4097), END]);
        with(&[draw(0, 4094), draw(4094, 4096), draw(4096, 5000)]);
        let few = Call::Draw(many.source.clone(), [24_576, 8192, 8192, 8192]);
        with(&[few, draw(0, 2), END]);
        let ragged = Call::Draw(vec![1.0; 5], [99; 4]);
        let roomless = Call::Draw(vec![1.0; 3], [0; 4]);
        with(&[draw(0, 4096), ragged, roomless, draw(4096, 4097)]);
        for place in 4094..4098 {
            each_bad_at(place, &many, take);
        }
    }
}

/// A bad and a repeated vertex at a place about the limit.
fn each_bad_at(place: usize, many: &Many, take: &mut impl FnMut(&Script)) {
    let mut source = many.source.clone();
    source[3 * place + 2] = f64::NAN;
    let settings = many.settings;
    let bad = Many { settings, source };
    take(&many.script(&[bad.draw(0, 4098)]));
    take(&many.script(&[many.draw(0, 4094), bad.draw(4094, 4098), END]));
    take(&many.script(&[many.draw(0, place), bad.draw(place, place + 1), END]));
    let again = many.draw(place - 1, place);
    take(&many.script(&[many.draw(0, place), again]));
}

/// Hands out a drawing in each mode that runs past the limit one by one, or ends there. Each call works out
/// all vertices anew, so these take long.
pub fn each_long_script(mut take: impl FnMut(&Script)) {
    for (settings, count) in MODES.into_iter().zip([4097, 4096, 4097]) {
        let source = zigzag(count);
        let many = Many { settings, source };
        let calls = (0..count).map(|place| many.draw(place, place + 1));
        let calls: Script = calls.chain([END]).collect();
        take(&many.script(&calls));
    }
}
