//! What a call hands out, kept until it is known whether it stays.

use super::Wrong;
use crate::stage::{Answer, Lent};
use crate::traced::Stroke;

/// Set in a NaN that does not signal.
const QUIET: u64 = 1 << 51;

/// A vertex, and of the segment that leaves it flag, origin and number.
type Handed = ([f64; 3], Option<(bool, u32, u32)>);

pub struct Out<'a> {
    wrong: Wrong,
    /// Segments and vertices before the call.
    segments: usize,
    vertices: usize,
    lent: Lent<'a>,
    handed: Vec<Handed>,
}

impl<'a> Out<'a> {
    pub fn new(wrong: Wrong, segments: usize, vertices: usize, lent: Lent<'a>) -> Self {
        Self {
            wrong,
            segments,
            vertices,
            lent,
            handed: Vec::new(),
        }
    }

    fn is(&self, wrong: Wrong) -> bool {
        self.wrong == wrong
    }

    /// The segments of a vertex, the first being of that number in the job.
    pub fn hand(&mut self, strokes: &[Stroke], first: usize) {
        for (i, stroke) in strokes.iter().enumerate() {
            let index = match self.wrong {
                Wrong::IndexInCall => first + i - self.segments,
                Wrong::IndexBySource => stroke.origin as usize / 2,
                Wrong::IndexByMove => stroke.origin as usize,
                _ => first + i,
            };
            let origin = match self.wrong {
                Wrong::OriginInCall => {
                    let source = self.vertices.saturating_sub(2) as u32;
                    stroke.origin.saturating_sub(2 * source)
                }
                Wrong::OriginNext => stroke.origin + 2 * (stroke.origin % 2),
                _ => stroke.origin,
            };
            let segment = (stroke.flag, origin, index as u32);
            self.handed.push((stroke.vertex, Some(segment)));
        }
    }

    /// A vertex that no segment leaves.
    pub fn hand_point(&mut self, point: [f64; 3]) {
        self.handed.push((point, None));
    }

    /// What the end hands out.
    pub fn hand_last(&mut self, strokes: &[Stroke], point: Option<[f64; 3]>, first: usize) {
        let less = usize::from(self.is(Wrong::IndexLessAtEnd) && first > 0);
        self.hand(strokes, first - less);
        if let Some(point) = point {
            let segment = self.is(Wrong::EndFlagsPoint).then_some((false, 0, 0));
            self.handed.push((point, segment));
        }
    }

    /// Nothing is handed out after all.
    pub fn take_back(&mut self) {
        self.handed.clear();
    }

    pub fn lent(&self) -> &Lent<'a> {
        &self.lent
    }

    pub fn count(&self) -> usize {
        self.handed.len()
    }

    /// By a wrong reading the first places of each list are zero, unless they are used.
    pub fn zeros(&mut self, wrong: Wrong, places: usize) {
        if !self.is(wrong) {
            return;
        }
        let numbers = (3 * places).min(self.lent.vertices.len());
        self.lent.vertices[..numbers].fill(0.0);
        for list in [&mut *self.lent.indexes, &mut *self.lent.origins] {
            let places = places.min(list.len());
            list[..places].fill(0);
        }
        let places = places.min(self.lent.flags.len());
        self.lent.flags[..places].fill(0);
    }

    /// Writes what is handed out. A wrong reading may have more than there is room for.
    pub fn answer(self, [number, place]: [u32; 2]) -> Answer {
        let at_segment = self.is(Wrong::IndexAtSegment);
        let unflagged = self.is(Wrong::FlagOfIndex);
        let Lent {
            vertices,
            flags,
            indexes,
            origins,
        } = self.lent;
        if let (Wrong::Quiets, Some(last)) = (self.wrong, vertices.last_mut())
            && last.is_nan()
        {
            *last = f64::from_bits(last.to_bits() | QUIET);
        }
        let [mut vertex_count, mut index_count, mut segment_count] = [0; 3];
        for (vertex, segment) in self.handed {
            let place = 3 * vertex_count;
            if let Some(place) = vertices.get_mut(place..place + 3) {
                place.copy_from_slice(&vertex);
            }
            vertex_count += 1;
            let Some((flag, origin, index)) = segment else {
                continue;
            };
            put(flags, segment_count, u8::from(flag && !unflagged));
            put(origins, segment_count, origin);
            if flag {
                let place = if at_segment {
                    segment_count
                } else {
                    index_count
                };
                put(indexes, place, index);
                index_count += 1;
            }
            segment_count += 1;
        }
        let [vertices, indexes, segments] =
            [vertex_count, index_count, segment_count].map(|count| count as u32);
        [number, place, vertices, indexes, segments]
    }
}

fn put<T>(list: &mut [T], place: usize, value: T) {
    if let Some(place) = list.get_mut(place) {
        *place = value;
    }
}
