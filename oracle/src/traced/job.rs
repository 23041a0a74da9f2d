//! The job of 01 section 1, as 02's 2026-02, 2026-09 and 2026-13 amend it, with its tests recorded.

use super::joins::Setting;
use super::moves::{Drawing, Walk};
use super::segments::Segment;
use super::why::{Origin, Reason, Why, Whys};
use super::{Event, Site, Trace};
use crate::polyline::{PlineSource, PlineVertex, Polyline};
use crate::stage::{Answer, Built, Job, Lent};

/// What a job comes to, before it is written into the lent buffers.
enum Result {
    Refused(u32, usize),
    Drawn(Drawing),
}

/// What is left to be walked, where nothing answers before.
struct Work {
    source: Polyline,
    set: Setting,
    segments: Vec<Segment>,
}

/// The traced job as a stage of its own.
pub fn stage(job: &Job, lent: Lent) -> Answer {
    let result = Trace::new().result(job);
    write(job, &result, lent)
}

/// Works a job on a trace: the answer, and the bits of the drawn numbers, flags and indexes.
pub fn job(trace: &mut Trace, job: &Job) -> (Answer, Vec<u64>) {
    let result = trace.result(job);
    let bits = match &result {
        Result::Refused(..) => Vec::new(),
        Result::Drawn(drawing) => {
            let numbers = drawing.vertices.as_flattened().iter().map(|x| x.to_bits());
            numbers.chain(drawing.flags().map(u64::from)).collect()
        }
    };
    (answer(&result), bits)
}

/// Why each segment of a job's output is as it is. No room is asked for: the job is lent enough.
pub fn whys(job: &Job) -> Whys {
    match Trace::new().result(&job.lent_enough()) {
        Result::Refused(number, place) => Err([number, place as u32]),
        Result::Drawn(drawing) => Ok(drawing.whys),
    }
}

/// What the traced walk draws of a source that nothing refuses.
pub fn built(source: Polyline, offset: f64, eps: f64, ratio: Option<f64>) -> Built {
    let set = Setting { offset, eps, ratio };
    let mut trace = Trace::new();
    let drawing = match trace.work(source, set) {
        Some(work) => trace.drawing(&work),
        None => Drawing::empty(),
    };
    let vertices = drawing.vertices.iter();
    let flags: Vec<bool> = drawing.flags().collect();
    let raised = (0..).zip(&flags).filter(|(_, flag)| **flag);
    Built {
        vertices: vertices
            .map(|[x, y, bulge]| PlineVertex::new(*x, *y, *bulge))
            .collect(),
        indexes: raised.map(|(index, _)| index).collect(),
        origins: drawing.origins().map(Origin::code).collect(),
        closed: drawing.closed,
        flags,
    }
}

fn copied(segment: usize) -> Why {
    Why {
        origin: Origin::Span(segment),
        reason: Reason::Copied,
        rules: [None; 2],
    }
}

fn answer(result: &Result) -> Answer {
    match result {
        Result::Refused(number, place) => [*number, *place as u32, 0, 0, 0],
        Result::Drawn(drawing) => [
            0,
            0,
            drawing.vertices.len() as u32,
            drawing.flags().filter(|flag| *flag).count() as u32,
            drawing.closed.into(),
        ],
    }
}

fn write(job: &Job, result: &Result, lent: Lent) -> Answer {
    let room = job.need();
    let empty = Drawing::empty();
    let drawing = match result {
        Result::Refused(6, _) => &empty,
        Result::Refused(..) => return answer(result),
        Result::Drawn(drawing) => drawing,
    };
    let mut drawn = drawing.vertices.as_flattened().iter().copied();
    for place in &mut lent.vertices[..3 * room] {
        *place = drawn.next().unwrap_or(0.0);
    }
    let raised = drawing.flags().enumerate().filter(|(_, flag)| *flag);
    let mut raised = raised.map(|(i, _)| i as u32);
    let mut flags = drawing.flags();
    let mut origins = drawing.origins();
    for i in 0..room {
        lent.flags[i] = flags.next().unwrap_or(false).into();
        lent.indexes[i] = raised.next().unwrap_or(0);
        lent.origins[i] = origins.next().unwrap_or(Origin::Span(0)).code();
    }
    answer(result)
}

impl Trace {
    fn result(&mut self, job: &Job) -> Result {
        let result = self.worked(job);
        self.mark(match result {
            Result::Drawn(_) => Event::Done,
            Result::Refused(1, _) => Event::No1,
            Result::Refused(2, _) => Event::No2,
            Result::Refused(3, _) => Event::No3,
            Result::Refused(4, _) => Event::No4,
            Result::Refused(5, _) => Event::No5,
            Result::Refused(..) => Event::No6,
        });
        result
    }

    fn worked(&mut self, job: &Job) -> Result {
        match self.begun(job) {
            Ok(work) => self.drawn(&work),
            Err(answered) => answered,
        }
    }

    /// The walk of a job, unless it is answered without one.
    pub(super) fn walked(&mut self, job: &Job) -> Option<Walk> {
        let work = self.begun(job).ok()?;
        Some(self.walk(work.set, &work.source, &work.segments))
    }

    /// What there is to be walked, or what answers the job without that.
    fn begun(&mut self, job: &Job) -> std::result::Result<Work, Result> {
        let v = job.source.len() / 3;
        if self.ask(Site::Ragged, !job.source.len().is_multiple_of(3)) {
            return Err(Result::Refused(1, 0));
        }
        if self.ask(Site::TooMany, v > 4096) {
            return Err(Result::Refused(2, 0));
        }
        if let Some(place) = self.bad_number(job) {
            return Err(Result::Refused(3, place));
        }
        if self.ask(Site::Few, v < 2) {
            return Err(Result::Drawn(Drawing::empty()));
        }
        let need = job.need();
        if self.ask(Site::NoRoomVertices, job.room[0] / 3 < need)
            || self.ask(Site::NoRoomFlags, job.room[1] < need)
            || self.ask(Site::NoRoomIndexes, job.room[2] < need)
            || self.ask(Site::NoRoomOrigins, job.room[3] < need)
        {
            return Err(Result::Refused(4, 0));
        }
        let source = job.polyline();
        if self.equals(Site::ZeroOffset, job.offset, 0.0) {
            self.mark(Event::Copied);
            return Err(Result::Drawn(Drawing {
                vertices: job.source.chunks(3).map(|n| [n[0], n[1], n[2]]).collect(),
                whys: (0..job.segments()).map(copied).collect(),
                closed: job.closed,
            }));
        }
        for (i, (v1, v2)) in source.iter_segments().enumerate() {
            if self.equals(Site::RepeatedX, v1.x, v2.x) && self.equals(Site::RepeatedY, v1.y, v2.y)
            {
                return Err(Result::Refused(5, i));
            }
        }
        let set = Setting {
            offset: job.offset,
            eps: job.eps,
            ratio: job.ratio,
        };
        let work = self.work(source, set);
        work.ok_or(Result::Drawn(Drawing::empty()))
    }

    /// What there is to be walked: nothing of a lone collapsed arc.
    fn work(&mut self, source: Polyline, set: Setting) -> Option<Work> {
        let segments = self.segments(&source, set.offset);
        if segments.len() == 1 && segments[0].is_collapsed() {
            self.mark(Event::LoneCollapsed);
            return None;
        }
        Some(Work {
            source,
            set,
            segments,
        })
    }

    fn drawing(&mut self, work: &Work) -> Drawing {
        let walk = self.walk(work.set, &work.source, &work.segments);
        self.draw(work.set, &walk, work.source.is_closed)
    }

    fn drawn(&mut self, work: &Work) -> Result {
        let drawing = self.drawing(work);
        for number in drawing.vertices.as_flattened() {
            if !self.ask(Site::Finite, number.is_finite()) {
                return Result::Refused(6, 0);
            }
        }
        Result::Drawn(drawing)
    }

    fn bad_number(&mut self, job: &Job) -> Option<usize> {
        let v = job.source.len() / 3;
        let limits = [
            (Site::XAtLeast, Site::XAtMost, 1_000_000.0),
            (Site::YAtLeast, Site::YAtMost, 1_000_000.0),
            (Site::BulgeAtLeast, Site::BulgeAtMost, 1_000_000_000.0),
        ];
        for (i, number) in job.source.iter().enumerate() {
            let (low, high, limit) = limits[i % 3];
            if !(self.at_least(low, *number, -limit) && self.at_most(high, *number, limit)) {
                return Some(i / 3);
            }
        }
        if !(self.at_least(Site::OffsetAtLeast, job.offset, -1_000_000.0)
            && self.at_most(Site::OffsetAtMost, job.offset, 1_000_000.0))
        {
            return Some(v);
        }
        if !(self.at_least(Site::EpsAtLeast, job.eps, 1e-9)
            && self.at_most(Site::EpsAtMost, job.eps, 0.01))
        {
            return Some(v + 1);
        }
        let ratio = job.ratio?;
        let taken = self.at_least(Site::RatioAtLeast, ratio, 1.0)
            && self.at_most(Site::RatioAtMost, ratio, 10.0);
        (!taken).then_some(v + 2)
    }
}
