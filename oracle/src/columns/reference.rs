//! What a job in columns has to answer: 01 section 1 and 02's 2026-08 over 000, and in the pointed mode over
//! the traced walk. There are no rows here.

use super::{ColumnLent, Columns};
use crate::job::built as by_000;
use crate::polyline::{PlineVertex, Polyline};
use crate::stage::{Answer, Built};
use crate::traced::built as traced;

const MOST_VERTICES: usize = 4096;

/// What a job comes to, whatever it is lent.
#[derive(Debug)]
pub enum Verdict {
    /// Nos. 1 to 3, and of fewer than two vertices nothing: no room is asked for.
    Early(Answer),
    /// No. 4 unless so many places of each kind are lent. Then what follows.
    WithRoom(usize, Late),
}

#[derive(Debug)]
pub enum Late {
    /// No. 5, and its place.
    Repeated(usize),
    /// No. 6.
    NotFinite,
    Drawn(Built),
}

/// Works one job, by the words of the request.
pub fn job(job: &Columns, lent: ColumnLent) -> Answer {
    Verdict::of(job).placed(lent)
}

fn refused(number: u32, place: usize) -> Answer {
    [number, place as u32, 0, 0, 0]
}

impl Verdict {
    pub fn of(job: &Columns) -> Self {
        let [xs, ys, bulges] = job.source();
        let v = xs.len();
        if ys.len() != v || bulges.len() != v {
            return Self::Early(refused(1, 0));
        }
        if v > MOST_VERTICES {
            return Self::Early(refused(2, 0));
        }
        if let Some(place) = bad_number(job, v) {
            return Self::Early(refused(3, place));
        }
        if v < 2 {
            return Self::Early([0; 5]);
        }
        let n = if job.closed { v } else { v - 1 };
        let each = if job.ratio.is_some() { 3 } else { 2 };
        Self::WithRoom(each * n, late(job, n))
    }

    /// The answer in what is lent. The shortest column counts for the room.
    pub fn placed(&self, lent: ColumnLent) -> Answer {
        let (room, late) = match self {
            Self::Early(answer) => return *answer,
            Self::WithRoom(room, late) => (*room, late),
        };
        let shortest = lent.xs.len().min(lent.ys.len()).min(lent.bulges.len());
        let others = [lent.flags.len(), lent.indexes.len(), lent.origins.len()];
        if shortest < room || others.iter().any(|places| *places < room) {
            return refused(4, 0);
        }
        let built = match late {
            Late::Repeated(place) => return refused(5, *place),
            Late::NotFinite => None,
            Late::Drawn(built) => Some(built),
        };
        for i in 0..room {
            let vertex = built.and_then(|built| built.vertices.get(i));
            lent.xs[i] = vertex.map_or(0.0, |vertex| vertex.x);
            lent.ys[i] = vertex.map_or(0.0, |vertex| vertex.y);
            lent.bulges[i] = vertex.map_or(0.0, |vertex| vertex.bulge);
            let flag = built.and_then(|built| built.flags.get(i));
            lent.flags[i] = flag.map_or(0, |flag| u8::from(*flag));
            let index = built.and_then(|built| built.indexes.get(i));
            lent.indexes[i] = index.copied().unwrap_or(0);
            let origin = built.and_then(|built| built.origins.get(i));
            lent.origins[i] = origin.copied().unwrap_or(0);
        }
        built.map_or(refused(6, 0), |built| {
            let vertices = built.vertices.len() as u32;
            let indexes = built.indexes.len() as u32;
            [0, 0, vertices, indexes, built.closed.into()]
        })
    }
}

/// No. 3: the first vertex that has a bad number in any column, then the offset, ε and the ratio. A NaN
/// lies in no range.
fn bad_number(job: &Columns, v: usize) -> Option<usize> {
    let [xs, ys, bulges] = job.source();
    let within = |number: f64, limit: f64| -limit <= number && number <= limit;
    let good = |i: usize| within(xs[i], 1e6) && within(ys[i], 1e6) && within(bulges[i], 1e9);
    let bad_settings = [
        !within(job.offset, 1e6),
        !(1e-9..=0.01).contains(&job.eps),
        job.ratio
            .is_some_and(|ratio| !(1.0..=10.0).contains(&ratio)),
    ];
    let vertices = (0..v).map(|i| !good(i));
    vertices.chain(bad_settings).position(|bad| bad)
}

/// What follows once there is room: a copy, No. 5, No. 6 or a drawing.
fn late(job: &Columns, n: usize) -> Late {
    let [xs, ys, bulges] = job.source();
    let vertices = (0..xs.len()).map(|i| PlineVertex::new(xs[i], ys[i], bulges[i]));
    if job.offset == 0.0 {
        return Late::Drawn(Built {
            vertices: vertices.collect(),
            flags: vec![false; n],
            indexes: Vec::new(),
            origins: (0..n as u32).map(|i| 2 * i).collect(),
            closed: job.closed,
        });
    }
    let repeated = |i: usize| {
        let next = (i + 1) % xs.len();
        xs[i] == xs[next] && ys[i] == ys[next]
    };
    if let Some(place) = (0..n).position(repeated) {
        return Late::Repeated(place);
    }
    let source = Polyline {
        vertices: vertices.collect(),
        is_closed: job.closed,
    };
    let built = match job.ratio {
        None => by_000(&source, job.offset, job.eps),
        Some(_) => traced(source, job.offset, job.eps, job.ratio),
    };
    let is_finite = |p: &PlineVertex| p.x.is_finite() && p.y.is_finite() && p.bulge.is_finite();
    if built.vertices.iter().all(is_finite) {
        Late::Drawn(built)
    } else {
        Late::NotFinite
    }
}
