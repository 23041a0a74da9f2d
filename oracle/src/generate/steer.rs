//! Jobs at the very doubles between which a test turns.
//!
//! A small job and one of its numbers are taken, and the margin of one test of its path is
//! followed to where it turns; then the two neighbouring doubles are found by halving between
//! their bit patterns. A tally for each test makes rare tests as frequent as common ones.

use super::{FAMILIES, Family, POINTED, Random};
use crate::stage::Job;
use crate::traced::{Asked, Site, Trace, job as traced_job};

/// How many jobs are kept for each answer of each test to start from.
const POOL: usize = 64;
/// Jobs longer than this are not steered.
const LONGEST: usize = 6;
/// How often another answer is looked for near a job.
const PROBES: usize = 16;

/// A test of a job that asks it once or more: its first asking, or its last.
#[derive(Copy, Clone)]
struct Aim {
    site: Site,
    last: bool,
}

pub struct Steering {
    random: Random,
    /// Where jobs are taken from.
    families: &'static [Family],
    /// What is aimed at.
    sites: &'static [Site],
    /// For each test, jobs that answer it no and yes.
    pools: Vec<[Vec<Job>; 2]>,
    /// For each test, the turns found that change an answer.
    pub turns: Vec<u64>,
    /// For each test, the turns found that change none.
    pub idle: Vec<u64>,
    /// For each test, how often it was aimed at.
    aimed: Vec<u64>,
}

impl Steering {
    /// In the round mode, at all its tests.
    pub fn new(seed: u64) -> Self {
        Self::among(seed, FAMILIES, Site::ROUND)
    }

    /// In the pointed mode, at the tests that it alone asks.
    pub fn pointed(seed: u64) -> Self {
        Self::among(seed, POINTED, Site::POINTED)
    }

    fn among(seed: u64, families: &'static [Family], sites: &'static [Site]) -> Self {
        let all = Site::ALL.len();
        let mut steering = Self {
            random: Random::new(seed),
            families,
            sites,
            pools: vec![[Vec::new(), Vec::new()]; all],
            turns: vec![0; all],
            idle: vec![0; all],
            aimed: vec![0; all],
        };
        for _ in 0..2000 * families.len() {
            steering.draw();
        }
        steering
    }

    /// Takes a random job into the pools of the tests that it asks.
    fn draw(&mut self) {
        let (_, family) = self.random.pick(self.families);
        let job = family(&mut self.random);
        self.keep(&job);
    }

    fn keep(&mut self, job: &Job) {
        if job.source.len() > 3 * LONGEST {
            return;
        }
        for asked in path(job) {
            if asked.margin.is_nan() {
                continue;
            }
            let pool = &mut self.pools[asked.site as usize][usize::from(asked.answer)];
            if pool.len() < POOL {
                pool.push(job.clone());
            } else if self.random.one_in(8) {
                let place = self.random.below(POOL);
                pool[place] = job.clone();
            }
        }
    }

    /// Hands out the six jobs around one turn, when one is found.
    pub fn around_a_turn(&mut self) -> Vec<Job> {
        self.draw();
        let Some(site) = self.rarest() else {
            return Vec::new();
        };
        self.aimed[site as usize] += 1;
        let last = self.random.one_in(2);
        let aim = Aim { site, last };
        let Some((job, other)) = self.two_answers(aim) else {
            return Vec::new();
        };
        // Goes over to the other job number by number, until the answer changes.
        let answer = answer_of(&job, aim);
        let mut near = job;
        let slots = near.numbers();
        let first = self.random.below(slots);
        for slot in (0..slots).map(|i| (first + i) % slots) {
            let far = near.with_number(slot, other.number(slot));
            if answer_of(&far, aim) != answer {
                return self.between(&near, slot, far.number(slot), aim);
            }
            near = far;
        }
        Vec::new()
    }

    /// A test with few turns, found or sought.
    fn rarest(&mut self) -> Option<Site> {
        let weight = |site: &Site| {
            let i = *site as usize;
            let (found, aimed) = (self.turns[i] + self.idle[i] / 4, self.aimed[i]);
            if found == 0 {
                aimed
            } else {
                8 * found + aimed / 4
            }
        };
        let open = |site: &&Site| self.pools[**site as usize].iter().any(|p| !p.is_empty());
        let mut order: Vec<Site> = self.sites.iter().filter(open).copied().collect();
        order.sort_by_key(weight);
        let few = order.len().min(12);
        (few > 0).then(|| order[self.random.below(few)])
    }

    /// Two jobs of like shape that answer a test differently.
    fn two_answers(&mut self, aim: Aim) -> Option<(Job, Job)> {
        let pools = &self.pools[aim.site as usize];
        let rarer = usize::from(pools[1].len() < pools[0].len());
        let from = if pools[rarer].is_empty() || self.random.one_in(4) {
            1 - rarer
        } else {
            rarer
        };
        let job = self.random.pick_clone(&pools[from])?;
        if self.random.one_in(4)
            && let Some(other) = self
                .random
                .pick_clone(&self.pools[aim.site as usize][1 - from])
            && (other.closed, other.source.len()) == (job.closed, job.source.len())
        {
            return Some((job, other));
        }
        if self.random.one_in(2)
            && let Some(other) = self.followed(&job, aim)
        {
            return Some((job, other));
        }
        let other = self.probed(&job, aim)?;
        Some((job, other))
    }

    /// A job near by that answers a test the other way.
    fn probed(&mut self, job: &Job, aim: Aim) -> Option<Job> {
        let answer = answer_of(job, aim)?;
        for _ in 0..PROBES {
            let mut other = job.clone();
            for _ in 0..=self.random.below(2) {
                let slot = self.random.below(job.numbers());
                other = other.with_number(slot, self.moved(job, slot));
            }
            if answer_of(&other, aim) == Some(!answer) {
                return Some(other);
            }
        }
        None
    }

    /// Another value for a number: near it, or that of another vertex, since no step that is not
    /// aimed makes two numbers equal.
    fn moved(&mut self, job: &Job, slot: usize) -> f64 {
        let number = job.number(slot);
        if (2..2 + job.source.len()).contains(&slot) && self.random.one_in(4) {
            let vertex = self.random.below(job.source.len() / 3);
            return job.source[3 * vertex + (slot - 2) % 3];
        }
        let size = number.abs().max(job.eps) * self.random.size(-9.0, 0.5);
        number + self.random.around(size)
    }

    /// Follows the margin of a test, by one number, to where it turns.
    fn followed(&mut self, job: &Job, aim: Aim) -> Option<Job> {
        let start = asked_of(job, aim)?;
        let slot = self.random.below(job.numbers());
        let (mut at, mut margin) = (job.number(slot), start.margin);
        let mut step = at.abs().max(1e-3) * self.random.size(-9.0, -1.0) * self.random.sign();
        for _ in 0..PROBES {
            let other = job.with_number(slot, at + step);
            let Some(asked) = asked_of(&other, aim) else {
                step /= 4.0;
                continue;
            };
            if asked.answer != start.answer {
                return Some(other);
            }
            // The secant through the last two margins, a little beyond.
            let beyond = -asked.margin * step / (asked.margin - margin) * 1.1;
            (at, margin) = (at + step, asked.margin);
            step = if beyond.is_finite() {
                beyond
            } else {
                2.0 * step
            };
        }
        None
    }

    /// Halves the bit patterns down to the two neighbours between which the answer changes, and
    /// goes two units to either side.
    fn between(&mut self, job: &Job, slot: usize, far: f64, aim: Aim) -> Vec<Job> {
        let answer = answer_of(job, aim);
        let (mut low, mut high) = (key(job.number(slot)), key(far));
        while low.abs_diff(high) > 1 {
            let middle = low.midpoint(high);
            if answer_of(&job.with_number(slot, number(middle)), aim) == answer {
                low = middle;
            } else {
                high = middle;
            }
        }
        let [below, above] = [low, high].map(|key| job.with_number(slot, number(key)));
        let paths = (path(&below), path(&above));
        let turned = agree(&paths.0, &paths.1);
        // Another test than the one aimed at may have turned: it counts for what it is.
        let Some(asked) = paths.0.get(turned) else {
            return Vec::new();
        };
        let i = asked.site as usize;
        let middling = self.middling();
        let changes = matters(&below, turned) || matters(&above, turned);
        // Turns that change nothing, and those of common tests, are not all worth a run.
        let (count, enough) = if changes {
            (&mut self.turns[i], 4 * middling + 64)
        } else {
            (&mut self.idle[i], 64)
        };
        *count += 1;
        if *count > enough && !self.random.one_in(16) {
            return Vec::new();
        }
        self.keep(&below);
        self.keep(&above);
        let step = high - low;
        (-2..=3)
            .map(|units| job.with_number(slot, number(low.saturating_add(units * step))))
            .collect()
    }

    /// The turns of the middling test.
    fn middling(&self) -> u64 {
        let turns = self.sites.iter().map(|site| self.turns[*site as usize]);
        let mut turns: Vec<u64> = turns.collect();
        turns.sort_unstable();
        turns[turns.len() / 2]
    }
}

/// The first or last asking of a test by a job.
fn asked_of(job: &Job, aim: Aim) -> Option<Asked> {
    let mut askings = path(job).into_iter().filter(|asked| asked.site == aim.site);
    if aim.last {
        askings.next_back()
    } else {
        askings.next()
    }
}

fn answer_of(job: &Job, aim: Aim) -> Option<bool> {
    asked_of(job, aim).map(|asked| asked.answer)
}

fn path(job: &Job) -> Vec<Asked> {
    let mut trace = Trace::new();
    traced_job(&mut trace, job);
    trace.path
}

/// How many tests two paths share before they part.
fn agree(a: &[Asked], b: &[Asked]) -> usize {
    let same = |(a, b): &(&Asked, &Asked)| (a.site, a.answer) == (b.site, b.answer);
    a.iter().zip(b).take_while(same).count()
}

/// Whether another answer to that test gives the job another outcome.
fn matters(job: &Job, place: usize) -> bool {
    let plain = traced_job(&mut Trace::new(), job);
    plain != traced_job(&mut Trace::flipped(place), job)
}

/// The order of doubles as an order of whole numbers; the two zeros are one.
fn key(number: f64) -> i64 {
    let bits = number.to_bits() as i64;
    if bits < 0 { i64::MIN - bits } else { bits }
}

fn number(key: i64) -> f64 {
    let bits = if key < 0 { i64::MIN - key } else { key };
    f64::from_bits(bits as u64)
}
