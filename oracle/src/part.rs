//! The part of an output that came from one source segment: 02's 2026-09.

/// Number, place, where the part starts and how many segments it has.
pub type PartAnswer = [u32; 4];

/// An output that is asked for a part: n, a flag and an origin a segment.
#[derive(Debug, Copy, Clone)]
pub struct Output<'a> {
    pub n: u32,
    pub flags: &'a [u8],
    pub origins: &'a [u32],
}

impl Output<'_> {
    /// The first unbroken part whose origins name a source segment, or an empty one.
    pub fn part(&self, source: u32) -> PartAnswer {
        if self.flags.len() != self.origins.len() {
            return empty(1);
        }
        if source >= self.n {
            return empty(13);
        }
        let mut parts = self.origins.chunk_by(|a, b| named(*a) == named(*b));
        let mut start = 0;
        let found = parts.find(|part| {
            let here = named(part[0]) == source;
            start += if here { 0 } else { part.len() as u32 };
            here
        });
        found.map_or(empty(0), |part| [0, 0, start, part.len() as u32])
    }
}

/// The source segment of an origin, a span or a connector. None names one from 2^31 on.
pub fn named(origin: u32) -> u32 {
    origin / 2
}

fn empty(number: u32) -> PartAnswer {
    [number, 0, 0, 0]
}
