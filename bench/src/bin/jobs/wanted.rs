//! What the command line asks for.
use crate::before;
use oracle::stage::Stage;
use std::path::PathBuf;
use std::process::exit;

pub struct Wanted {
    pub turns: usize,
    /// Whether another build of the stage was named, and loaded.
    pub before: bool,
}

impl Wanted {
    /// Ends the program where the words are no good.
    pub fn by_words(words: impl Iterator<Item = String>) -> Self {
        let mut wanted = Self {
            turns: 200,
            before: false,
        };
        let mut words = words.skip(1);
        while let Some(word) = words.next() {
            if word == "--before" {
                let path = words.next().unwrap_or_else(|| usage());
                before::load(&PathBuf::from(path)).unwrap_or_else(|why| fail(&why));
                wanted.before = true;
            } else {
                wanted.turns = word.parse().unwrap_or_else(|_| usage());
            }
        }
        if wanted.turns == 0 {
            usage();
        }
        wanted
    }

    /// Each that works whole jobs, as it is held and as it is timed: the proved stage, 000, whose moves
    /// are not counted while it is timed, and the other build.
    pub fn stages(&self) -> Vec<[Stage; 2]> {
        let mut stages: Vec<[Stage; 2]> =
            vec![[oracle::proved::job; 2], [oracle::job, oracle::plain_job]];
        if self.before {
            stages.push([before::job; 2]);
        }
        stages
    }
}

fn usage() -> ! {
    fail("usage: jobs [TURNS] [--before PATH.so]")
}

fn fail(why: &str) -> ! {
    eprintln!("jobs: {why}");
    exit(2)
}
