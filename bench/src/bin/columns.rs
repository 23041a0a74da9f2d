//! columns [TURNS]: times whole jobs in columns beside the same in rows, in one run, with round corners and
//! with pointed ones.
//!
//! Both are lent as many places, one more than they need. Before anything is timed, what they leave is held
//! to each other, every place. How it is timed stands in bench/src/beside.rs.
use bench::beside::{table, Drawn, Figures};
use bench::drawings::EPS;
use oracle::columns::{ColumnBuffers, Columns};
use oracle::proved;
use oracle::stage::{Before, Buffers, Job};
use std::hint::black_box;

/// The largest, so that the most corners are pointed.
const RATIO: f64 = 10.0;

fn main() {
    println!("round corners");
    table("columns", "rows", "columns", |drawn| figures(drawn, None));
    println!("\npointed corners");
    table("columns", "rows", "columns", |drawn| {
        figures(drawn, Some(RATIO))
    });
}

fn figures(drawn: Drawn, ratio: Option<f64>) -> Figures {
    let Drawn { shape, side, v, .. } = drawn;
    let round = Job::new(shape.closed, side * shape.offset, EPS, shape.source(v));
    let rows = ratio.map_or(round.clone(), |ratio| round.pointed(ratio));
    let columns = Columns::of(&rows);
    let [_, places, ..] = rows.room;
    let mut one = Buffers::of(rows.room);
    let mut other = ColumnBuffers::over([Before::MARKS; 3], [places; 6]);
    hold(&rows, &columns, places);
    drawn.time(
        || {
            black_box(proved::job(black_box(&rows), one.lend(rows.room)));
        },
        || {
            black_box(proved::columns(
                black_box(&columns),
                other.lend([places; 6]),
            ));
        },
    )
}

/// Both are done, with the same in each place.
fn hold(rows: &Job, columns: &Columns, places: usize) {
    let mut lent = ColumnBuffers::over([Before::MARKS; 3], [places; 6]);
    let answer = proved::columns(columns, lent.lend([places; 6]));
    assert!(answer[0] == 0, "refused: {columns:?}");
    let outcome = lent.rows().after(answer);
    assert!(outcome == rows.run(proved::job), "columns differ: {rows:?}");
}
