//! The job of 01 section 1, as 02's 2026-02 and 2026-09 amend it: refusals in their order, 000, and
//! the four lent buffers.

mod drawn;

use crate::polyline::internal::raw_pline_offset::{RawOffsetResult, create_raw_offset};
use crate::polyline::{PlineSource, PlineVertex, Polyline};
use crate::stage::{Answer, Built, Job, Lent};
use drawn::{Drawn, Draws};

const MOST_VERTICES: usize = 4096;

const EMPTY: Answer = [0; 5];

fn refused(number: u32, place: usize) -> Answer {
    [number, place as u32, 0, 0, 0]
}

/// Works one job on 000, whose moves are counted for the origins.
pub fn job(job: &Job, lent: Lent) -> Answer {
    job_on::<Drawn>(job, lent)
}

/// The same with nothing counted, which leaves zeros for the origins: for timing 000.
pub fn plain_job(job: &Job, lent: Lent) -> Answer {
    job_on::<Polyline>(job, lent)
}

/// What 000 draws of a source that nothing refuses.
pub(crate) fn built(source: &Polyline, offset: f64, eps: f64) -> Built {
    let drawn = create_raw_offset::<_, _, Drawn>(source, offset, eps);
    let indexes = drawn.invalid_segment_indexes.iter();
    Built {
        vertices: drawn.polyline.vertices().to_vec(),
        indexes: indexes.map(|index| *index as u32).collect(),
        origins: drawn.polyline.origins().to_vec(),
        closed: drawn.polyline.is_closed(),
        flags: drawn.invalid_segments,
    }
}

fn job_on<P: Draws>(job: &Job, mut lent: Lent) -> Answer {
    assert!(job.ratio.is_none(), "000 has the round mode alone");
    let v = job.source.len() / 3;
    if !job.source.len().is_multiple_of(3) {
        return refused(1, 0);
    }
    if v > MOST_VERTICES {
        return refused(2, 0);
    }
    if let Some(place) = bad_number(job) {
        return refused(3, place);
    }
    if v < 2 {
        return EMPTY;
    }
    let pline = job.polyline();
    let room = 2 * pline.segment_count();
    if !lent.holds(room) {
        return refused(4, 0);
    }
    if job.offset != 0.0
        && let Some(place) = repeated(&pline)
    {
        return refused(5, place);
    }
    let drawn = create_raw_offset::<_, _, P>(&pline, job.offset, job.eps);
    lent.clear(room);
    if !drawn.polyline.vertices().iter().all(is_finite) {
        return refused(6, 0);
    }
    lent.fill(&drawn);
    [
        0,
        0,
        drawn.polyline.vertex_count() as u32,
        drawn.invalid_segment_indexes.len() as u32,
        drawn.polyline.is_closed().into(),
    ]
}

impl Lent<'_> {
    fn holds(&self, room: usize) -> bool {
        let least = self.flags.len().min(self.indexes.len());
        room <= least.min(self.origins.len()) && room <= self.vertices.len() / 3
    }

    fn clear(&mut self, room: usize) {
        self.vertices[..3 * room].fill(0.0);
        self.flags[..room].fill(0);
        self.indexes[..room].fill(0);
        self.origins[..room].fill(0);
    }

    fn fill<P: Draws>(&mut self, drawn: &RawOffsetResult<P>) {
        for (place, vertex) in self.vertices.chunks_mut(3).zip(drawn.polyline.vertices()) {
            place.copy_from_slice(&[vertex.x, vertex.y, vertex.bulge]);
        }
        for (place, flag) in self.flags.iter_mut().zip(&drawn.invalid_segments) {
            *place = u8::from(*flag);
        }
        for (place, index) in self.indexes.iter_mut().zip(&drawn.invalid_segment_indexes) {
            *place = *index as u32;
        }
        for (place, origin) in self.origins.iter_mut().zip(drawn.polyline.origins()) {
            *place = *origin;
        }
    }
}

/// 01 §1 No. 3, with 2026-02's bulges: the first vertex, then the offset, then ε. A NaN lies in no
/// range.
fn bad_number(job: &Job) -> Option<usize> {
    let in_plane = |x: f64| (-1_000_000.0..=1_000_000.0).contains(&x);
    let is_bulge = |b: f64| (-1e9..=1e9).contains(&b);
    let v = job.source.len() / 3;
    let bad_vertex = |n: &[f64]| !(in_plane(n[0]) && in_plane(n[1]) && is_bulge(n[2]));
    if let Some(place) = job.source.chunks(3).position(bad_vertex) {
        Some(place)
    } else if !in_plane(job.offset) {
        Some(v)
    } else if !(1e-9..=0.01).contains(&job.eps) {
        Some(v + 1)
    } else {
        None
    }
}

/// No. 5 after 2026-02: the start of the first segment whose two ends are equal in x and in y. By
/// value, so −0 equals +0; ε has no part in it.
fn repeated(pline: &Polyline) -> Option<usize> {
    let equal = |(v1, v2): (PlineVertex, PlineVertex)| v1.x == v2.x && v1.y == v2.y;
    pline.iter_segments().position(equal)
}

fn is_finite(vertex: &PlineVertex) -> bool {
    vertex.x.is_finite() && vertex.y.is_finite() && vertex.bulge.is_finite()
}
