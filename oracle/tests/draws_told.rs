//! 02's 2026-05: the comparison of scripts tells wrong readings of the request from the right one.
#![cfg(with_000)]

use oracle::draws::{
    Call, Pen, Pencil, Reference, SAME, Script, Settings, Tally, WRONG, Wrong, hold, shortened,
};
use oracle::generate::draws::{each_limit_script, each_short_script, script};
use oracle::generate::{FAMILIES, KEYHOLES, POINTED, Random};
use oracle::stage::{Answer, Job, Lent};
use oracle::text::{read_script, script_row};
use std::cell::Cell;

/// Random scripts, some of each family.
fn each_random_script(count: usize, mut take: impl FnMut(&Script)) {
    let mut random = Random::new(6);
    let families = [FAMILIES, KEYHOLES, POINTED].concat();
    let mut last = Job::new(false, 1.0, 1e-5, Vec::new());
    for turn in 0..count {
        let job = families[turn % families.len()].1(&mut random);
        take(&script(&mut random, &job, &last));
        last = job;
    }
}

/// Scripts of each kind, few of them.
fn each_script(mut take: impl FnMut(&Script)) {
    each_limit_script(&mut take);
    each_short_script(3, &mut take);
    each_random_script(4000, take);
}

#[test]
fn pens_that_agree() {
    let mut tally = Tally::default();
    each_script(|script| {
        let difference = hold(&Reference::default(), script, &mut tally)
            .or_else(|| hold(&Pencil::right(), script, &mut tally));
        assert!(
            difference.is_none(),
            "{difference:?}: {}",
            script_row(script)
        );
    });
}

#[test]
fn wrong_readings_are_told() {
    let mut tally = Tally::default();
    let mut untold: Vec<Wrong> = WRONG.iter().map(|wrong| wrong.0).collect();
    each_script(|script| {
        untold.retain(|wrong| hold(&Pencil::by(*wrong), script, &mut tally).is_none());
    });
    let same: Vec<Wrong> = SAME.iter().map(|same| same.0).collect();
    assert_eq!(untold, same);
}

/// Random scripts that tell a wrong reading, and what is left of them.
fn short_scripts(wrong: Wrong) -> Vec<Script> {
    let pen = Pencil::by(wrong);
    let mut tally = Tally::default();
    let mut short = Vec::new();
    each_random_script(1000, |script| {
        if short.len() < 10 && hold(&pen, script, &mut tally).is_some() {
            let left = shortened(&pen, script);
            assert!(hold(&pen, &left, &mut tally).is_some());
            short.push(left);
        }
    });
    short
}

#[test]
fn a_differing_script_is_shortened() {
    // so many calls and vertices tell it
    let readings = [
        (Wrong::PieceLate, 2, 3),
        (Wrong::EndTwice, 3, 0),
        (Wrong::RepeatedEarlier, 2, 2),
        (Wrong::RoomNoOrigins, 2, 0),
    ];
    for (wrong, calls, vertices) in readings {
        let short = short_scripts(wrong);
        let given = |script: &Script| -> usize {
            let numbers = script.iter().map(|call| call.numbers().len());
            numbers.sum::<usize>() / 3
        };
        let least = short.iter().map(|script| (script.len(), given(script)));
        assert_eq!(least.min(), Some((calls, vertices)), "{wrong:?}");
        // vertices may stand in calls of their own
        let most = short.iter().map(|script| script.len()).max();
        assert!(most <= Some(calls + 2), "{wrong:?}");
    }
}

/// A pen with a whole form of its own that draws nothing.
#[derive(Clone)]
struct Otherwise(Pencil);

/// A pen whose copies do not answer alike once its record holds anything.
#[derive(Clone)]
struct Fickle(Pencil, bool);

thread_local! {
    static TURNS: Cell<u32> = const { Cell::new(0) };
}

impl Pen for Otherwise {
    fn start(&mut self, settings: Settings) -> Answer {
        self.0.start(settings)
    }

    fn draw(&mut self, source: &[f64], lent: Lent) -> Answer {
        self.0.draw(source, lent)
    }

    fn end(&mut self, lent: Lent) -> Answer {
        self.0.end(lent)
    }

    fn same(&self, other: &Self) -> bool {
        self.0.same(&other.0)
    }

    fn whole(&self, _: &Job, _: Lent) -> Option<Answer> {
        Some([0; 5])
    }
}

impl Pen for Fickle {
    fn start(&mut self, settings: Settings) -> Answer {
        self.1 = false;
        self.0.start(settings)
    }

    fn draw(&mut self, source: &[f64], lent: Lent) -> Answer {
        if self.1 {
            TURNS.set(TURNS.get() + 1);
            return [9, TURNS.get() % 2, 0, 0, 0];
        }
        self.0.draw(source, lent)
    }

    fn end(&mut self, lent: Lent) -> Answer {
        self.0.end(lent)
    }

    fn same(&self, other: &Self) -> bool {
        self.0.same(&other.0)
    }

    fn garble(&mut self, _: impl FnMut(usize, u32) -> u32) {
        self.1 = true;
    }
}

#[test]
fn other_wrong_pens_are_told() {
    let [mut otherwise, mut fickle] = [0; 2];
    let mut tally = Tally::default();
    each_script(|script| {
        let pen = Otherwise(Pencil::right());
        otherwise += usize::from(hold(&pen, script, &mut tally).is_some());
        let pen = Fickle(Pencil::right(), false);
        fickle += usize::from(hold(&pen, script, &mut tally).is_some());
    });
    assert!(otherwise > 5000 && fickle > 50, "{otherwise} {fickle}");
}

#[test]
fn rows_of_text() {
    let held = |script: &Script| {
        let row = script_row(script);
        let read = read_script(&row).map(|script| script_row(&script));
        assert_eq!(read, Some(row));
    };
    each_short_script(1, held);
    each_random_script(500, held);
    held(&vec![Call::Copy, Call::Garble(u64::MAX), Call::Copy]);
    let none = [
        "",
        "job",
        "script draw",
        "script start 0 1",
        "script end 1 2 3",
        "script draw 1 1 1 1 2 0",
    ];
    for row in none {
        assert_eq!(read_script(row), None, "{row}");
    }
    assert_eq!(read_script("script"), Some(Vec::new()));
}
