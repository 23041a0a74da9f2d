//! What the calls of a drawn job have to answer: the words of 02's 2026-05 over 000, and in the pointed mode
//! over the traced walk. Every vertex since the start is kept, and each call is worked out from them all.

use super::{Pen, Settings};
use crate::job::built as by_000;
use crate::polyline::{PlineVertex, Polyline};
use crate::stage::{Answer, Built, Lent};
use crate::traced::built as traced;
use std::ops::Range;

const MOST_VERTICES: usize = 4096;

/// For so many segments the end call needs room.
const END_ROOM: usize = 2;

#[derive(Debug, Clone, Default)]
pub enum Reference {
    /// Never begun, or the end call has answered.
    #[default]
    Idle,
    /// Number and place.
    Refused(u32, u32),
    Begun(Settings, Vec<PlineVertex>),
}

/// What a call has handed out so far.
struct HandedOut<'a> {
    lent: Lent<'a>,
    vertices: usize,
    indexes: usize,
    segments: usize,
}

impl Pen for Reference {
    fn start(&mut self, settings: Settings) -> Answer {
        if is_good(&settings) {
            *self = Self::Begun(settings, Vec::new());
            [0; 5]
        } else {
            self.refused(3, 0, None)
        }
    }

    fn draw(&mut self, source: &[f64], lent: Lent) -> Answer {
        let (settings, mut vertices) = match self.begun() {
            Ok(begun) => begun,
            Err(answer) => return answer,
        };
        if !source.len().is_multiple_of(3) {
            return [1, 0, 0, 0, 0];
        }
        if !has_room(&lent, settings.each() * (source.len() / 3)) {
            return [4, 0, 0, 0, 0];
        }
        let first = vertices.len();
        let given = source.chunks(3).map(|n| PlineVertex::new(n[0], n[1], n[2]));
        vertices.extend(given);
        let bad = first_bad(&settings, &vertices, first);
        vertices.truncate(bad.map_or(vertices.len(), |(place, _)| place));

        let drawn = drawn(&settings, &vertices);
        let mut out = HandedOut::new(lent);
        for place in first..vertices.len() {
            let piece = piece(&settings, &drawn, place);
            if !drawn.vertices[piece.clone()].iter().all(is_finite) {
                return self.refused(6, place, Some(&out));
            }
            out.hand(&drawn, piece);
        }
        if let Some((place, number)) = bad {
            return self.refused(number, place, Some(&out));
        }
        *self = Self::Begun(settings, vertices);
        out.answer(0, 0)
    }

    fn end(&mut self, lent: Lent) -> Answer {
        let (settings, vertices) = match self.begun() {
            Ok(begun) => begun,
            Err(answer) => return answer,
        };
        if !has_room(&lent, END_ROOM) {
            return [4, 0, 0, 0, 0];
        }
        let drawn = drawn(&settings, &vertices);
        let certain = vertices.len().checked_sub(1);
        let certain = certain.map_or(0, |last| piece(&settings, &drawn, last).end);
        let rest = certain..drawn.vertices.len();
        if !drawn.vertices[rest.clone()].iter().all(is_finite) {
            return self.refused(6, vertices.len(), None);
        }
        let mut out = HandedOut::new(lent);
        out.hand(&drawn, rest);
        *self = Self::Idle;
        out.answer(0, 0)
    }

    fn same(&self, other: &Self) -> bool {
        let bits = |numbers: [f64; 3]| numbers.map(f64::to_bits);
        match (self, other) {
            (Self::Idle, Self::Idle) => true,
            (Self::Refused(..), Self::Refused(..)) => self.refusal() == other.refusal(),
            (Self::Begun(one, list), Self::Begun(two, others)) => {
                let set = |set: &Settings| bits([set.offset, set.eps, set.ratio.unwrap_or(0.0)]);
                let point = |vertex: &PlineVertex| bits([vertex.x, vertex.y, vertex.bulge]);
                (set(one), one.each()) == (set(two), two.each())
                    && list.iter().map(point).eq(others.iter().map(point))
            }
            _ => false,
        }
    }
}

impl Reference {
    /// An old refusal, number and place.
    pub fn refusal(&self) -> Option<(u32, u32)> {
        match self {
            Self::Refused(number, place) => Some((*number, *place)),
            _ => None,
        }
    }

    /// The job at hand, or what answers without one.
    fn begun(&self) -> Result<(Settings, Vec<PlineVertex>), Answer> {
        match self {
            Self::Idle => Err([9, 0, 0, 0, 0]),
            Self::Refused(number, place) => Err([*number, *place, 0, 0, 0]),
            Self::Begun(settings, vertices) => Ok((*settings, vertices.clone())),
        }
    }

    /// Ends the job. What was handed out before in the call is counted.
    fn refused(&mut self, number: u32, place: usize, out: Option<&HandedOut>) -> Answer {
        let place = place as u32;
        *self = Self::Refused(number, place);
        out.map_or([number, place, 0, 0, 0], |out| out.answer(number, place))
    }
}

/// 01's limits, which hold themselves. A NaN lies in none.
fn is_good(settings: &Settings) -> bool {
    (-1e6..=1e6).contains(&settings.offset)
        && (1e-9..=0.01).contains(&settings.eps)
        && settings.ratio.is_none_or(|r| (1.0..=10.0).contains(&r))
}

fn has_room(lent: &Lent, segments: usize) -> bool {
    let others = [lent.flags.len(), lent.indexes.len(), lent.origins.len()];
    segments <= lent.vertices.len() / 3 && others.iter().all(|places| segments <= *places)
}

/// The first vertex from a place on that is refused whatever is drawn: too many, number, repeated.
fn first_bad(settings: &Settings, vertices: &[PlineVertex], from: usize) -> Option<(usize, u32)> {
    let number = |place: usize| {
        let PlineVertex { x, y, bulge } = vertices[place];
        if place >= MOST_VERTICES {
            return Some(2);
        }
        let in_plane = |number: f64| (-1e6..=1e6).contains(&number);
        if !(in_plane(x) && in_plane(y) && (-1e9..=1e9).contains(&bulge)) {
            return Some(3);
        }
        let before = vertices[..place].last()?;
        let repeated = settings.offset != 0.0 && before.x == x && before.y == y;
        repeated.then_some(5)
    };
    (from..vertices.len()).find_map(|place| Some((place, number(place)?)))
}

/// What the whole form draws of the vertices. It may hold a number that is not finite.
fn drawn(settings: &Settings, vertices: &[PlineVertex]) -> Built {
    let Settings { offset, eps, ratio } = *settings;
    let source = Polyline {
        vertices: vertices.to_vec(),
        is_closed: false,
    };
    // 000 has both of these cases, the traced walk neither.
    if ratio.is_none() || vertices.len() < 2 || offset == 0.0 {
        by_000(&source, offset, eps)
    } else {
        traced(source, offset, eps, ratio)
    }
}

/// The segments that a vertex makes certain: those of the source segment before the last one that it ends,
/// and of a copy those of that segment itself.
fn piece(settings: &Settings, drawn: &Built, place: usize) -> Range<usize> {
    let since = if settings.offset == 0.0 { 1 } else { 2 };
    let certain = |place: usize| {
        let segments = (place + 1).saturating_sub(since) as u32;
        drawn
            .origins
            .partition_point(|origin| origin / 2 < segments)
    };
    certain(place.saturating_sub(1))..certain(place)
}

fn is_finite(vertex: &PlineVertex) -> bool {
    vertex.x.is_finite() && vertex.y.is_finite() && vertex.bulge.is_finite()
}

impl<'a> HandedOut<'a> {
    fn new(lent: Lent<'a>) -> Self {
        Self {
            lent,
            vertices: 0,
            indexes: 0,
            segments: 0,
        }
    }

    /// Vertices of a drawing and what leaves them: from the last one nothing does.
    fn hand(&mut self, drawn: &Built, vertices: Range<usize>) {
        for i in vertices {
            let PlineVertex { x, y, bulge } = drawn.vertices[i];
            let place = 3 * self.vertices;
            self.lent.vertices[place..place + 3].copy_from_slice(&[x, y, bulge]);
            self.vertices += 1;
            let Some(flag) = drawn.flags.get(i) else {
                continue;
            };
            self.lent.flags[self.segments] = u8::from(*flag);
            self.lent.origins[self.segments] = drawn.origins[i];
            self.segments += 1;
            if drawn.indexes.binary_search(&(i as u32)).is_ok() {
                self.lent.indexes[self.indexes] = i as u32;
                self.indexes += 1;
            }
        }
    }

    fn answer(&self, number: u32, place: u32) -> Answer {
        let counts = [self.vertices, self.indexes, self.segments];
        let [vertices, indexes, segments] = counts.map(|count| count as u32);
        [number, place, vertices, indexes, segments]
    }
}
