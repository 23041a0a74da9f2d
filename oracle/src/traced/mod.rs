//! The job a second time, with a record of each test that it asks.
//!
//! Written after 000 and 01, in another shape: the walk is a row of moves, and a vertex is drawn
//! when a kept move leaves it. It is no second oracle: `compare` holds it against 000 on every job
//! that it runs, and takes from it which tests a job asks and how they turn.
//!
//! 000 has no pointed mode. There this is the reference, with the point and its two moves after 02's
//! 2026-13, and `compare pointed` holds all else in it to 000.

mod arithmetic;
mod job;
mod joins;
mod moves;
pub mod parts;
mod rules;
mod segments;
mod sites;
mod tip;
mod turns;
mod why;

pub use job::{built, job, stage, whys};
pub use rules::{Rule, RuleTable};
pub use sites::{EXPECTED, Event, POINTED, Pair, Site};
pub use turns::{Stroke, Turns};
pub use why::{Origin, Reason, Told, Why, Whys, told, why};

/// A test, its answer, and how far the two numbers compared lie apart.
#[derive(Debug, Copy, Clone)]
pub struct Asked {
    pub site: Site,
    pub answer: bool,
    /// NaN where no two numbers were compared.
    pub margin: f64,
}

/// What one job asked and did.
#[derive(Debug, Clone)]
pub struct Trace {
    /// Each test in turn.
    pub path: Vec<Asked>,
    /// Each thing that happened, with the kinds of the two segments joined.
    pub events: Vec<(Pair, Event)>,
    flip: Option<usize>,
    pair: Pair,
}

impl Default for Trace {
    fn default() -> Self {
        Self::new()
    }
}

impl Trace {
    pub fn new() -> Self {
        Self {
            path: Vec::new(),
            events: Vec::new(),
            flip: None,
            pair: Pair::NoJoin,
        }
    }

    /// A trace that answers the test at `place` of the path the other way.
    pub fn flipped(place: usize) -> Self {
        Self {
            flip: Some(place),
            ..Self::new()
        }
    }

    fn ask(&mut self, site: Site, answer: bool) -> bool {
        self.compare(site, answer, f64::NAN)
    }

    fn below(&mut self, site: Site, a: f64, b: f64) -> bool {
        self.compare(site, a < b, a - b)
    }

    fn at_most(&mut self, site: Site, a: f64, b: f64) -> bool {
        self.compare(site, a <= b, a - b)
    }

    fn above(&mut self, site: Site, a: f64, b: f64) -> bool {
        self.compare(site, a > b, a - b)
    }

    fn at_least(&mut self, site: Site, a: f64, b: f64) -> bool {
        self.compare(site, a >= b, a - b)
    }

    fn equals(&mut self, site: Site, a: f64, b: f64) -> bool {
        self.compare(site, a == b, a - b)
    }

    fn compare(&mut self, site: Site, answer: bool, margin: f64) -> bool {
        let answer = answer != (self.flip == Some(self.path.len()));
        self.path.push(Asked {
            site,
            answer,
            margin,
        });
        answer
    }

    fn mark(&mut self, event: Event) {
        self.events.push((self.pair, event));
    }
}

/// How often each test was answered no and yes, and how often each thing happened.
pub struct Table {
    pub sites: Vec<[u64; 2]>,
    pub events: Vec<[u64; Pair::ALL.len()]>,
}

impl Default for Table {
    fn default() -> Self {
        Self {
            sites: vec![[0; 2]; Site::ALL.len()],
            events: vec![[0; Pair::ALL.len()]; Event::ALL.len()],
        }
    }
}

impl Table {
    pub fn add(&mut self, trace: &Trace) {
        for asked in &trace.path {
            self.sites[asked.site as usize][usize::from(asked.answer)] += 1;
        }
        for (pair, event) in &trace.events {
            self.events[*event as usize][*pair as usize] += 1;
        }
    }

    /// One line a test, then one line an event, of the round mode; what was never reached is marked.
    pub fn print(&self) {
        self.print_of(Site::ROUND, EXPECTED);
        for (pair, event, count) in self.not_listed() {
            let (pair, event) = (pair.text(), event.text());
            println!("  {pair:9} {event:46} {count:>11}  <- not listed");
        }
    }

    /// The same of the pointed mode alone.
    pub fn print_pointed(&self) {
        self.print_of(Site::POINTED, POINTED);
    }

    fn print_of(&self, sites: &[Site], listed: &[(Pair, &[Event])]) {
        println!("test: no, yes");
        for site in sites {
            let [no, yes] = self.sites[*site as usize];
            let mark = if no == 0 || yes == 0 {
                "  <- one way only"
            } else {
                ""
            };
            println!("  {:44} {no:>11} {yes:>11}{mark}", site.text());
        }
        println!("event: count");
        for (pair, events) in listed {
            for event in *events {
                let count = self.events[*event as usize][*pair as usize];
                let mark = if count == 0 { "  <- never" } else { "" };
                println!("  {:9} {:46} {count:>11}{mark}", pair.text(), event.text());
            }
        }
    }

    /// What happened though neither `EXPECTED` nor `POINTED` has it.
    pub fn not_listed(&self) -> Vec<(Pair, Event, u64)> {
        let listed = |pair, event| {
            let rows = EXPECTED.iter().chain(POINTED);
            let mut rows = rows.filter(|row| row.0 == pair);
            rows.any(|row| row.1.contains(&event))
        };
        let mut found = Vec::new();
        for pair in Pair::ALL {
            for event in Event::ALL {
                let count = self.events[*event as usize][*pair as usize];
                if count > 0 && !listed(*pair, *event) {
                    found.push((*pair, *event, count));
                }
            }
        }
        found
    }
}
