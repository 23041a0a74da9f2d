//! Holds jobs in columns on the proved code to 02's 2026-08: answer, six buffers, and three places past each,
//! bit for bit. The same job in rows has to come to the same, place by place.

use crate::jobs::{each_line, each_random_job, each_steered_job, samples, steer};
use crate::pointed::{RATIOS, SAMPLES, turning};
use crate::sides::{Families, Patterns};
use oracle::columns::{ColumnBuffers, ColumnPlaces, Columns, Verdict, same};
use oracle::generate::columns::{
    far_too_few, more, one_too_few, ragged, sharing, with_bad_numbers, with_bad_settings,
};
use oracle::generate::{
    FAMILIES, KEYHOLES, POINTED, Random, Steering, each_close_job, each_short_job,
};
use oracle::proved;
use oracle::stage::{Answer, BEYOND, Job, Places};
use oracle::text::{any_job_row, columns_row, read_columns, read_job};

/// Differences are printed up to this many.
const SHOWN: u64 = 10;

/// One job in so many of the grids is run.
const PER_GRID: u64 = 37;

/// One random job in so many is of the families that 2026-02 let in, besides those among the others.
const PER_KEYHOLE: u64 = 4;

/// In how many ways a job is held, one of them by chance.
const WAYS: usize = 4;

/// A call for each buffer that is lent one place too few.
const SHORT: [&str; 6] = [
    "one x too few",
    "one y too few",
    "one bulge too few",
    "one flag too few",
    "one index too few",
    "one origin too few",
];

const LONGER: &str = "more of each kind";
const OWN: &str = "as the job says";
const ENOUGH: &str = "just enough";
const FAR: &str = "too few of some kinds";
const NONE: &str = "nothing lent";
const ROUND: &str = "room of the round mode";
const UNEQUAL: &str = "unequal columns";
const UNEQUAL_BAD: &str = "unequal columns, bad numbers";
const BAD: &str = "a bad number";
const TWO_BAD: &str = "two or three bad numbers";
const SETTINGS: &str = "bad settings";
const SHARING: &str = "columns that share places";
const COPIED: &str = "offset zero";
const LIMIT: &str = "lengths about a limit";

const MODES: [&str; 2] = ["round", "pointed"];

/// What has to be reached in each mode: calls, and the numbers that answer them.
const REACHED: &[(&str, &[usize])] = &[
    (LONGER, &[0, 2, 3, 5, 6]),
    (ENOUGH, &[0, 2, 3, 5, 6]),
    (OWN, &[4]),
    (FAR, &[0, 2, 3, 4]),
    (NONE, &[0, 2, 3, 4]),
    (UNEQUAL, &[1]),
    (UNEQUAL_BAD, &[1]),
    (BAD, &[3]),
    (TWO_BAD, &[2, 3]),
    (SETTINGS, &[2, 3]),
    (SHARING, &[0, 4, 5]),
    (COPIED, &[0, 3, 4]),
    (LIMIT, &[0, 1, 2, 3]),
];

/// A job, what it has to come to, and the same in rows.
struct Case {
    job: Columns,
    /// What the columns hold, to see that they are not written to.
    numbers: Vec<f64>,
    verdict: Verdict,
    rows: Job,
}

impl Case {
    fn of(job: Columns) -> Self {
        Self {
            numbers: job.numbers.clone(),
            verdict: Verdict::of(&job),
            rows: job.rows(),
            job,
        }
    }
}

struct Held {
    random: Random,
    /// By family and number of the first call.
    jobs: Families,
    /// In each mode, by what is lent or wrong.
    calls: [Families; 2],
    lent: Patterns,
    /// Jobs, those made from others too.
    made: u64,
    differing: u64,
}

/// Runs drawings at the limits, samples, some of the grids, RANDOM random jobs and about STEERED steered ones
/// of either mode.
pub fn compare(seed: u64, random: u64, steered: u64) -> bool {
    let mut held = Held::new(seed);
    held.hold_limits();
    let mut take = |family: &'static str, job: &Job| {
        let way = held.random.below(WAYS);
        held.hold(family, job, way);
    };
    let pointed = samples(SAMPLES);
    pointed.iter().for_each(|job| take("samples", job));
    each_of_grids(&mut take);
    each_random_job(FAMILIES, seed, random, &mut take);
    each_random_job(KEYHOLES, !seed, random / PER_KEYHOLE, &mut take);
    each_random_job(POINTED, seed, random, &mut take);
    each_steered_job(seed, steered, &mut take);
    let mut steering = Steering::pointed(!seed);
    steer(&mut steering, steered, |job| take("steered", job));
    let never = held.print_never();
    held.agree() && !never
}

/// Runs the jobs, each in every way, and the calls of standard input.
pub fn rows() -> bool {
    let mut held = Held::new(0);
    let none = each_line(|row| held.hold_row(row));
    held.differing += none;
    held.agree()
}

/// Some of the jobs of both grids, by turns in one of the modes.
fn each_of_grids(mut take: impl FnMut(&'static str, &Job)) {
    let mut turn = 0;
    let mut ratios = RATIOS.into_iter().cycle();
    let mut some = |family: &'static str, job: &Job| {
        turn += 1;
        if turn % PER_GRID != 0 {
            return;
        }
        match turn / PER_GRID % 2 {
            0 => take(family, job),
            _ => take(family, &job.pointed(ratios.next().unwrap_or(1.0))),
        }
    };
    each_short_job(|job| some("grid", &job));
    each_close_job(|job| some("close grid", &job));
}

impl Held {
    fn new(seed: u64) -> Self {
        Self {
            random: Random::new(seed.rotate_left(16)),
            jobs: Families::default(),
            calls: Default::default(),
            lent: Patterns::default(),
            made: 0,
            differing: 0,
        }
    }

    /// A call, or a job in rows, which is held in each way; not so where the row is neither.
    fn hold_row(&mut self, row: &str) -> bool {
        if let Some((job, room)) = read_columns(row) {
            let mut case = self.case(job);
            let answer = self.call("rows", &mut case, room);
            println!("{}", answer.map(|number| number.to_string()).join(" "));
            return true;
        }
        let job = read_job(row);
        if let Some(job) = &job {
            (0..WAYS).for_each(|way| self.hold("rows", job, way));
        }
        job.is_some()
    }

    /// A job lent more than it needs, or what it says that it is lent, and in a further way.
    fn hold(&mut self, family: &'static str, job: &Job, way: usize) {
        let mut case = self.case(Columns::of(job));
        let need = job.need();
        let (how, room) = if job.room == job.lent_enough().room {
            (LONGER, more(&mut self.random, need))
        } else {
            (OWN, self.own_room(job))
        };
        let answer = self.call(how, &mut case, room);
        self.jobs.count(family, answer[0] as usize);
        match way {
            0 => self.hold_short(&mut case, need),
            1 => self.hold_rooms(&mut case, need),
            2 => self.hold_unequal(&case.job, need),
            _ => self.hold_numbers(&case.job, need),
        }
    }

    /// As many vertices as the job says fit into the shortest column.
    fn own_room(&mut self, job: &Job) -> ColumnPlaces {
        let [numbers, flags, indexes, origins] = job.room;
        let fit = numbers / 3;
        let mut room = more(&mut self.random, fit);
        room[self.random.below(3)] = fit;
        room[3..].copy_from_slice(&[flags, indexes, origins]);
        room
    }

    /// Just enough, and each buffer in turn one place too short.
    fn hold_short(&mut self, case: &mut Case, need: usize) {
        self.call(ENOUGH, case, [need; 6]);
        if need > 0 {
            for (kind, how) in SHORT.into_iter().enumerate() {
                let room = one_too_few(&mut self.random, need, kind);
                self.call(how, case, room);
            }
        }
    }

    /// Any number too few, nothing at all, and what the round mode needs.
    fn hold_rooms(&mut self, case: &mut Case, need: usize) {
        for _ in 0..2 {
            let room = far_too_few(&mut self.random, need);
            self.call(FAR, case, room);
        }
        self.call(NONE, case, [0; 6]);
        if case.job.ratio.is_some() {
            let mut room = more(&mut self.random, need);
            let round = need / 3 * 2;
            match self.random.below(7) {
                6 => room = [round; 6],
                kind => room[kind] = round,
            }
            self.call(ROUND, case, room);
        }
    }

    /// Unequal columns, with good numbers and with bad ones.
    fn hold_unequal(&mut self, job: &Columns, need: usize) {
        for _ in 0..2 {
            let unequal = ragged(&mut self.random, job);
            self.hold_made(UNEQUAL, unequal, need);
        }
        let unequal = ragged(&mut self.random, job);
        let count = self.random.below(4);
        let mut bad = with_bad_numbers(&mut self.random, &unequal, count);
        if count == 0 || self.random.one_in(4) {
            bad = with_bad_settings(&mut self.random, &bad);
        }
        self.hold_made(UNEQUAL_BAD, bad, need);
    }

    /// Bad numbers in any column and of any vertex, columns that share places, and a copy.
    fn hold_numbers(&mut self, job: &Columns, need: usize) {
        let bad = with_bad_numbers(&mut self.random, job, 1);
        self.hold_made(BAD, bad, need);
        let count = 2 + self.random.below(2);
        let mut bad = with_bad_numbers(&mut self.random, job, count);
        if self.random.one_in(4) {
            bad = with_bad_settings(&mut self.random, &bad);
        }
        self.hold_made(TWO_BAD, bad, need);
        let bad = with_bad_settings(&mut self.random, job);
        self.hold_made(SETTINGS, bad, need);
        let sharing = sharing(&mut self.random, job);
        self.hold_made(SHARING, sharing, need);
        let mut copied = job.clone();
        copied.offset = 0.0 * self.random.sign();
        self.hold_made(COPIED, copied, need);
    }

    /// A job made from another, lent more than that one needs, just enough, or too little.
    fn hold_made(&mut self, how: &'static str, job: Columns, need: usize) {
        let mut case = self.case(job);
        let room = match self.random.below(4) {
            0 => far_too_few(&mut self.random, need),
            1 => [need; 6],
            _ => more(&mut self.random, need),
        };
        self.call(how, &mut case, room);
    }

    /// Drawings of few and of as many vertices as may be, and of one more; and each way in which three columns
    /// differ by one there.
    fn hold_limits(&mut self) {
        for v in [0, 1, 2, 3, 4095, 4096, 4097] {
            for pointed in turning(v) {
                for job in [pointed.round(), pointed] {
                    (0..WAYS).for_each(|way| self.hold("at the limits", &job, way));
                }
            }
        }
        for v in [1, 2, 4096, 4097] {
            let [open, closed, _] = turning(v + 1);
            for way in 0..27 {
                let lengths = [way % 3, way / 3 % 3, way / 9].map(|by| v + by - 1);
                let job = if way % 2 == 0 { &open } else { &closed.round() };
                let job = Columns::of(job);
                let mut lists = job.lists();
                for (list, length) in lists.iter_mut().zip(lengths) {
                    list.truncate(length);
                }
                let job = job.with_columns(&lists);
                let bad = with_bad_numbers(&mut self.random, &job, 3);
                let bad = with_bad_settings(&mut self.random, &bad);
                self.hold_made(LIMIT, job, 3 * v);
                self.hold_made(LIMIT, bad, 0);
            }
        }
    }

    fn case(&mut self, job: Columns) -> Case {
        self.made += 1;
        Case::of(job)
    }

    /// Lends a job so many places, in columns and in rows, and hands back what it has to be answered.
    fn call(&mut self, how: &'static str, case: &mut Case, room: ColumnPlaces) -> Answer {
        let before = ColumnBuffers::over(case.job.before(), room.map(|lent| lent + BEYOND));
        let mut expected = before.clone();
        let answer = case.verdict.placed(expected.lend(room));
        let mode = usize::from(case.job.ratio.is_some());
        let number = answer[0] as usize;
        self.calls[mode].count(how, number);
        self.lent.count(case.job.before()[0], number);

        let mut lent = before.clone();
        let proved = proved::columns(&case.job, lent.lend(room));
        if proved != answer || lent != expected {
            self.differ(how, case, room, || {
                let place = expected.first_difference(&lent);
                format!("answer {answer:?}, in columns {proved:?}; {place}")
            });
        }
        if !same(&case.job.numbers, &case.numbers) {
            self.differ(how, case, room, || {
                "a source column was written to".to_owned()
            });
        }

        case.rows.room = rows_room(room);
        let mut lent = before.rows();
        let proved = proved::job(&case.rows, lent.lend(case.rows.room));
        if lent.after(proved) != expected.rows().after(answer) {
            self.differ(how, case, room, || {
                let row = any_job_row(&case.rows);
                format!("answer {answer:?}, in rows {proved:?}; in rows it is {row}")
            });
        }
        answer
    }

    fn differ(
        &mut self,
        how: &str,
        case: &Case,
        room: ColumnPlaces,
        words: impl FnOnce() -> String,
    ) {
        self.differing += 1;
        if self.differing <= SHOWN {
            println!("{how}: {}", words());
            println!("  job  {}", columns_row(&case.job, room));
        }
    }

    /// Prints what has to be reached and was not, and says whether there is such a thing.
    fn print_never(&self) -> bool {
        let mut never = false;
        let short = SHORT.iter().map(|how| (*how, &[4][..]));
        let calls: Vec<_> = REACHED.iter().copied().chain(short).collect();
        for (mode, counts) in MODES.into_iter().zip(&self.calls) {
            let round = (mode == "pointed").then_some((ROUND, &[4][..]));
            for (how, numbers) in calls.iter().copied().chain(round) {
                for number in numbers
                    .iter()
                    .filter(|number| counts.of(how, **number) == 0)
                {
                    println!("never: {mode}: {how}: No. {number}");
                    never = true;
                }
            }
        }
        never
    }

    /// Prints all counts and says whether nothing differed.
    fn agree(&self) -> bool {
        self.jobs.print("jobs by family");
        for (mode, counts) in MODES.into_iter().zip(&self.calls) {
            counts.print(&format!("calls in the {mode} mode"));
        }
        self.lent.print();
        let calls: u64 = self.calls.iter().flat_map(Families::all).sum();
        let (jobs, differing) = (self.made, self.differing);
        println!("{jobs} jobs, {calls} calls in either layout, {differing} differences");
        differing == 0
    }
}

/// What the same job in rows is lent. A number or two of the next vertex are no room for it.
fn rows_room([xs, ys, bulges, flags, indexes, origins]: ColumnPlaces) -> Places {
    let numbers = 3 * xs.min(ys).min(bulges) + flags % 3;
    [numbers, flags, indexes, origins]
}
