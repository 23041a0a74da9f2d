//! Times a job on all sides, by turns.
use bench::drawings::{Shape, EPS};
use oracle::polyline::internal::raw_pline_offset::create_raw_offset;
use oracle::polyline::Polyline;
use oracle::stage::{Buffers, Job, Stage};
use oracle::traced::{self, Site, Trace};
use std::hint::black_box;
use std::time::Instant;

/// The vertices that a turn has on each side: a smaller job is worked again and again.
const TURN: usize = 4096;

/// The turns that a job has at a time. Then the others have theirs, so that each meets the machine as
/// it is early and late in a run.
const VISIT: usize = 10;

/// Whoever works a job.
enum Side {
    /// The whole job, into buffers that the side is lent again and again.
    Job(Stage, Buffers),
    /// 000's walk, on a polyline that stands ready.
    Walk(Polyline),
}

impl Side {
    fn work(&mut self, job: &Job, times: usize) {
        for _ in 0..times {
            match self {
                Side::Job(stage, buffers) => {
                    black_box(stage(black_box(job), buffers.lend(job.room)));
                    black_box(buffers);
                }
                Side::Walk(pline) => {
                    let drawn =
                        create_raw_offset::<_, _, Polyline>(black_box(pline), job.offset, job.eps);
                    black_box(drawn);
                }
            }
        }
    }
}

/// A job, and what its turns took.
pub struct Case {
    pub kind: &'static str,
    pub shape: &'static Shape,
    pub v: usize,
    /// How many of its segments are invalid.
    pub flagged: u32,
    job: Job,
    sides: Vec<Side>,
    turns: Vec<Vec<f64>>,
}

impl Case {
    /// The shape with v vertices, offset to its left (1) or to its right (-1). Stops where two stages
    /// differ in an answer or in any place of the buffers, and where the job is refused.
    pub fn new(
        stages: &[[Stage; 2]],
        kind: &'static str,
        shape: &'static Shape,
        v: usize,
        side: f64,
    ) -> Self {
        let job = Job::new(shape.closed, side * shape.offset, EPS, shape.source(v));
        let outcome = job.run(oracle::job);
        let mut sides = Vec::new();
        for &[held, timed] in stages {
            assert!(job.run(held) == outcome, "{kind} differ: {job:?}");
            sides.push(Side::Job(timed, Buffers::of(job.room)));
        }
        assert!(outcome.answer[0] == 0, "{kind} are refused: {job:?}");
        sides.insert(WALK, Side::Walk(job.polyline()));
        Self {
            kind,
            shape,
            v,
            flagged: outcome.answer[3],
            job,
            sides,
            turns: Vec::new(),
        }
    }

    pub fn offset(&self) -> f64 {
        self.job.offset
    }

    pub fn title(&self) -> String {
        let (name, ends) = (self.shape.name, self.shape.ends());
        format!("{name} {ends} {:+}", self.job.offset)
    }

    /// The arc tangents that the job takes on 000, for each of its vertices.
    pub fn atans(&self) -> f64 {
        let mut trace = Trace::new();
        traced::job(&mut trace, &self.job);
        let sites = trace.path.iter().map(|asked| asked.site);
        sites.filter(|&site| site == Site::AtanBeyondOne).count() as f64 / self.v as f64
    }

    pub fn figures(&self) -> Figures {
        Figures::of(&self.turns)
    }

    /// So many turns, after one that is not counted.
    fn visit(&mut self, turns: usize) {
        self.turn();
        self.turns.pop();
        for _ in 0..turns {
            self.turn();
        }
    }

    /// All sides one right after another; another one is the first in each turn.
    fn turn(&mut self) {
        let count = self.sides.len();
        let times = TURN.div_ceil(self.v);
        let mut nanoseconds = vec![0.0; count];
        for place in 0..count {
            let side = (self.turns.len() + place) % count;
            let start = Instant::now();
            self.sides[side].work(&self.job, times);
            nanoseconds[side] = start.elapsed().as_nanos() as f64 / (times * self.v) as f64;
        }
        self.turns.push(nanoseconds);
    }
}

/// Gives each job so many turns.
pub fn take_turns(cases: &mut [Case], turns: usize) {
    // From here on the allocator keeps what 000's lists give back: new pages are not in its times.
    drop(black_box(vec![1_u8; 24 << 20]));
    let mut left = turns;
    while left > 0 {
        let visit = left.min(VISIT);
        for case in &mut *cases {
            case.visit(visit);
        }
        left -= visit;
    }
}

/// Where each side stands in `Figures`; the last one is there where it was asked for.
pub const PROVED: usize = 0;
pub const PLAIN: usize = 1;
pub const WALK: usize = 2;
pub const BEFORE: usize = 3;

/// Each has an entry a side: times are nanoseconds a vertex, and ratios the proved side's time by the
/// side's.
pub struct Figures {
    pub median: Vec<f64>,
    pub ratio: Vec<f64>,
    /// The same over the quiet turns: the tenth that took the least time in all.
    quiet_median: Vec<f64>,
    pub quiet: Vec<f64>,
    pub least: Vec<f64>,
}

impl Figures {
    fn of(turns: &[Vec<f64>]) -> Self {
        let sides = turns[0].len();
        let mut by_time: Vec<_> = turns.iter().collect();
        let total = |turn: &[f64]| turn.iter().sum::<f64>();
        by_time.sort_by(|a, b| total(a).total_cmp(&total(b)));
        let quiet = &by_time[..by_time.len().div_ceil(10)];
        let least = |side| turns.iter().map(|turn| turn[side]).fold(f64::MAX, f64::min);
        Self {
            median: each(sides, |side| median(&by_time, |turn| turn[side])),
            ratio: each(sides, |side| {
                median(&by_time, |turn| turn[PROVED] / turn[side])
            }),
            quiet_median: each(sides, |side| median(quiet, |turn| turn[side])),
            quiet: each(sides, |side| {
                median(quiet, |turn| turn[PROVED] / turn[side])
            }),
            least: each(sides, least),
        }
    }

    /// The mean times of several jobs, and the ratios of these.
    pub fn mean(of: &[Figures]) -> Self {
        let mean = |pick: fn(&Figures) -> &[f64]| {
            each(pick(&of[0]).len(), |side| {
                of.iter().map(|figures| pick(figures)[side]).sum::<f64>() / of.len() as f64
            })
        };
        let ratios = |times: &[f64]| times.iter().map(|time| times[PROVED] / time).collect();
        let median = mean(|figures| &figures.median);
        let quiet_median = mean(|figures| &figures.quiet_median);
        Self {
            ratio: ratios(&median),
            median,
            quiet: ratios(&quiet_median),
            quiet_median,
            least: mean(|figures| &figures.least),
        }
    }
}

fn each(sides: usize, entry: impl Fn(usize) -> f64) -> Vec<f64> {
    (0..sides).map(entry).collect()
}

fn median(turns: &[&Vec<f64>], of: impl Fn(&[f64]) -> f64) -> f64 {
    let mut numbers: Vec<_> = turns.iter().map(|turn| of(turn)).collect();
    numbers.sort_by(f64::total_cmp);
    (numbers[(numbers.len() - 1) / 2] + numbers[numbers.len() / 2]) / 2.0
}
