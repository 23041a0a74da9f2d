//! jobs [TURNS] [--before PATH.so]: times whole jobs on the proved code and on 000 over its support
//! module, on the same drawings, in one run, in nanoseconds a vertex.
//!
//! `proved` and `000` work the whole job: refusals, the offset, the lent buffers. `walk` is 000's own
//! `create_raw_offset`, on a polyline that stands ready, into lists of its own. `atans` is how many
//! arc tangents a vertex takes on 000. Before anything is timed, each job's outcome on the proved code
//! is held against 000's: the answer, and every place of the buffers. 000 tells no origins: its moves
//! are counted for that, and not while it is timed.
//!
//! A machine's speed may change in the middle of a run, and not by one factor for all sides: with other
//! work beside it 000 lost more than the proved code did. So the least of many turns may be from a fast
//! moment of one side and a slow one of another. In each turn all sides work one right after another. A
//! time is the median over the turns, and a ratio the median of the turns' own ratios. `quiet` is the
//! ratio to 000 over the tenth of the turns that took the least time in all: the one to quote where the
//! machine had other work. The jobs take turns too, some at a time, so that each meets the same machine.
//! Behind the bar stand the least times and their ratio.
//!
//! A turn has 4096 vertices on each side: a small job is shorter than the clock's step, so it is worked
//! again and again. Caches and branches are then warm, for all sides alike.
//!
//! `mean` has the mean times of a table and their ratio, `worst` the highest ratio of a job in it.
//!
//! With `--before` another build of the stage is timed beside these, and `now/before` is the median of
//! the turns' ratios of the two. It is a shared object, which a static archive becomes by
//!
//! ```sh
//! cc -shared -Wl,--whole-archive before.a -Wl,--no-whole-archive -o before.so
//! ```
//!
//! A build from before 2026-09 takes no origins. `objcopy --redefine-sym` gives its function another
//! name, and a function in C has the name, takes them and calls it. Every place is held, origins too:
//! so where a source is not that of the call before, it first lets the build of now work the job, under
//! another name too. That is when the outcome is held, and in the turns that are not counted.
mod before;
mod measure;
mod tables;
mod wanted;

use bench::drawings::KINDS;
use measure::{take_turns, Case, BEFORE, PLAIN};
use oracle::stage::Stage;
use wanted::Wanted;

/// The counts of vertices that have tables, and those between them.
const SMALL: [usize; 3] = [4, 16, 64];
const LARGE: usize = 4096;
const BETWEEN: [usize; 7] = [8, 32, 128, 256, 512, 1024, 2048];

/// Each drawing of each kind, and the last of each kind with every count of vertices.
fn cases(stages: &[[Stage; 2]]) -> Vec<Case> {
    let mut cases = Vec::new();
    for (kind, shapes) in KINDS {
        for shape in shapes {
            for v in SMALL.into_iter().chain([LARGE]) {
                cases.extend([1.0, -1.0].map(|side| Case::new(stages, kind, shape, v, side)));
            }
        }
        let last = shapes.last().expect("a kind has drawings");
        cases.extend(BETWEEN.map(|v| Case::new(stages, kind, last, v, 1.0)));
    }
    cases
}

fn main() {
    let wanted = Wanted::by_words(std::env::args());
    let mut cases = cases(&wanted.stages());
    println!(
        "{} jobs have the same outcome on all sides; {} turns each",
        cases.len(),
        wanted.turns
    );
    take_turns(&mut cases, wanted.turns);
    for kind in KINDS {
        tables::by_job(&cases, kind, LARGE);
    }
    for v in SMALL {
        for kind in KINDS {
            tables::by_drawing(&cases, kind, v);
        }
    }
    for kind in KINDS {
        tables::growth(&cases, kind);
    }
    let sizes = [&[LARGE], &SMALL[..]].concat();
    let summary = |name, pick| tables::summary(&cases, name, &sizes, pick);
    summary("proved / 000", |figures| figures.ratio[PLAIN]);
    summary("proved / 000, quiet turns", |figures| figures.quiet[PLAIN]);
    if wanted.before {
        summary("now / before", |figures| figures.ratio[BEFORE]);
        summary("now / before, quiet turns", |figures| figures.quiet[BEFORE]);
    }
}
