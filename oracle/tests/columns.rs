//! 02's 2026-08: a job in columns, with the answers that 01 section 5 and the request's own words give.
#![cfg(with_000)]

use oracle::columns::{ColumnBuffers, ColumnPlaces, ColumnStage, Columns};
use oracle::stage::{Answer, Before, Job};
use oracle::text::{columns_row, read_columns};

const EPS: f64 = 1e-5;

const STAGES: &[ColumnStage] = &[
    oracle::columns::job,
    #[cfg(feature = "proved")]
    oracle::proved::columns,
];

/// So many places past those that are lent are looked at.
const BEYOND: usize = 2;

fn columns(lists: [&[f64]; 3], closed: bool, offset: f64) -> Columns {
    let job = Columns::of(&Job::new(closed, offset, EPS, Vec::new()));
    job.with_columns(&lists.map(<[f64]>::to_vec))
}

fn pointed(job: &Columns, ratio: f64) -> Columns {
    Columns {
        ratio: Some(ratio),
        ..job.clone()
    }
}

/// 01's sixth row: (0,0)(4,0)(4,1), offset 2.
fn corner() -> Columns {
    columns([&[0.0, 4.0, 4.0], &[0.0, 0.0, 1.0], &[0.0; 3]], false, 2.0)
}

/// What a job draws, with zeros for all that is not named.
struct Drawing<'a> {
    columns: [&'a [f64]; 3],
    flags: &'a [u8],
    indexes: &'a [u32],
    origins: &'a [u32],
}

const NOTHING: Drawing = Drawing {
    columns: [&[]; 3],
    flags: &[],
    indexes: &[],
    origins: &[],
};

fn patterns() -> impl Iterator<Item = [Before; 3]> {
    let first = (0..Before::PATTERNS).map(Before::pattern);
    first.map(|before| [before, before.after(11), before.after(22)])
}

/// Each stage, over each pattern, has to answer so and to leave the drawing in the first `set` places of each
/// buffer, and all others as they were.
fn leaves(job: &Columns, room: ColumnPlaces, answer: Answer, set: usize, drawing: &Drawing) {
    for before in patterns() {
        let before = ColumnBuffers::over(before, room.map(|lent| lent + BEYOND));
        let mut expected = before.clone();
        for (list, drawn) in expected.numbers.iter_mut().zip(drawing.columns) {
            put(list, set, drawn);
        }
        put(&mut expected.flags, set, drawing.flags);
        put(&mut expected.indexes, set, drawing.indexes);
        put(&mut expected.origins, set, drawing.origins);
        for stage in STAGES {
            let mut lent = before.clone();
            let answered = stage(job, lent.lend(room));
            let place = expected.first_difference(&lent);
            assert_eq!(answered, answer, "{job:?} {room:?}");
            assert!(lent == expected, "{place}: {job:?} {room:?}");
        }
    }
}

fn put<T: Copy + Default>(list: &mut [T], set: usize, drawn: &[T]) {
    list[..set].fill(T::default());
    list[..drawn.len()].copy_from_slice(drawn);
}

fn refuses(job: &Columns, room: ColumnPlaces, number: u32, place: u32) {
    leaves(job, room, [number, place, 0, 0, 0], 0, &NOTHING);
}

#[test]
fn the_corner_of_01() {
    let drawing = Drawing {
        columns: [&[0.0, 4.0, 2.0, 2.0], &[2.0, 2.0, 0.0, 1.0], &[]],
        flags: &[0, 1],
        indexes: &[1],
        origins: &[0, 1, 2],
    };
    for room in [[4; 6], [5, 6, 7, 8, 9, 10], [9, 4, 5, 4, 6, 4]] {
        leaves(&corner(), room, [0, 0, 4, 1, 0], 4, &drawing);
    }
}

#[test]
fn an_arc_goes_to_the_column_of_bulges() {
    let there_and_back = [&[0.0, 4.0, 0.0][..], &[0.0; 3], &[0.0; 3]];
    let drawing = Drawing {
        columns: [&[0.0, 4.0, 4.0], &[1.0, 1.0, -1.0, -1.0], &[0.0, -1.0]],
        flags: &[],
        indexes: &[],
        origins: &[0, 1, 2],
    };
    let job = columns(there_and_back, false, 1.0);
    leaves(&job, [7, 4, 5, 4, 4, 4], [0, 0, 4, 0, 0], 4, &drawing);
}

#[test]
fn a_point_takes_room_for_three() {
    let round = columns([&[0.0, 4.0, 4.0], &[0.0, 0.0, 4.0], &[0.0; 3]], false, -1.0);
    let job = pointed(&round, 2.0);
    let drawing = Drawing {
        columns: [
            &[0.0, 4.0, 5.0, 5.0, 5.0],
            &[-1.0, -1.0, -1.0, 0.0, 4.0],
            &[],
        ],
        flags: &[],
        indexes: &[],
        origins: &[0, 1, 1, 2],
    };
    for room in [[6; 6], [8, 6, 7, 9, 6, 8]] {
        leaves(&job, room, [0, 0, 5, 0, 0], 6, &drawing);
    }
    refuses(&job, [4; 6], 4, 0);
    for kind in 0..6 {
        let mut room = [7; 6];
        room[kind] = 5;
        refuses(&job, room, 4, 0);
    }
    for ratio in [1.0_f64.next_down(), 10.0_f64.next_up(), f64::NAN] {
        refuses(&pointed(&round, ratio), [6; 6], 3, 5);
    }
}

#[test]
fn the_shortest_column_counts_for_room() {
    for kind in 0..6 {
        for (few, others) in [(3, 4), (3, 9), (0, 4), (1, 40)] {
            let mut room = [others; 6];
            room[kind] = few;
            refuses(&corner(), room, 4, 0);
        }
    }
    refuses(&corner(), [0; 6], 4, 0);
    // A repeated vertex is found after that, and a bad number before.
    let repeated = columns([&[1.0, 1.0], &[0.0, -0.0], &[0.0; 2]], false, 1.0);
    refuses(&repeated, [2, 2, 1, 2, 2, 2], 4, 0);
    refuses(&repeated, [2; 6], 5, 0);
    let eps = f64::NAN;
    refuses(&Columns { eps, ..repeated }, [0; 6], 3, 3);
}

#[test]
fn unequal_columns_come_before_all_else() {
    for good in [corner(), pointed(&corner(), 2.0)] {
        for k in 0..3 {
            for more in [false, true] {
                let mut lists = good.lists();
                if more {
                    lists[k].push(0.0);
                } else {
                    lists[k].pop();
                }
                let mut job = good.with_columns(&lists);
                refuses(&job, [9; 6], 1, 0);
                refuses(&job, [0; 6], 1, 0);
                job.offset = f64::NAN;
                refuses(&job, [9; 6], 1, 0);
                job.numbers.fill(f64::INFINITY);
                refuses(&job, [9; 6], 1, 0);
            }
        }
    }
    // By what only one of them has there is no vertex.
    for k in 0..3 {
        let mut lists: [Vec<f64>; 3] = Default::default();
        lists[k].push(1.0);
        refuses(&corner().with_columns(&lists), [0; 6], 1, 0);
    }
    // nine numbers are no three vertices, and too many are not looked for
    for lengths in [[4, 3, 2], [4097, 4097, 4096], [4097, 4098, 4097]] {
        for turn in 0..3 {
            let mut lists = lengths.map(|length| vec![0.0; length]);
            lists.rotate_left(turn);
            refuses(&corner().with_columns(&lists), [1; 6], 1, 0);
            lists[turn][1] = f64::NAN;
            refuses(&corner().with_columns(&lists), [1; 6], 1, 0);
        }
    }
}

#[test]
fn too_many_vertices() {
    let zigzag = |v: usize| {
        let xs = (0..v).map(|i| i as f64).collect();
        let ys = (0..v).map(|i| (i % 2) as f64).collect();
        corner().with_columns(&[xs, ys, vec![0.0; v]])
    };
    let mut job = zigzag(4097);
    refuses(&job, [0; 6], 2, 0);
    job.numbers[5] = f64::NAN;
    refuses(&job, [0; 6], 2, 0);
    refuses(&zigzag(4096), [8189; 6], 4, 0);
    for stage in STAGES {
        let mut lent = ColumnBuffers::over([Before::MARKS; 3], [8190; 6]);
        assert_eq!(stage(&zigzag(4096), lent.lend([8190; 6]))[..2], [0, 0]);
    }
}

#[test]
fn the_place_is_the_first_bad_vertex() {
    let limits = [1e6_f64, 1e6, 1e9];
    let bad_by = |places: &[(usize, usize)], number: fn(f64) -> f64| {
        let mut lists = corner().lists();
        for (k, i) in places {
            lists[*k][*i] = number(limits[*k]);
        }
        corner().with_columns(&lists)
    };
    let bad = |places: &[(usize, usize)]| bad_by(places, f64::next_up);
    for k in 0..3 {
        for i in 0..3 {
            let numbers: [fn(f64) -> f64; 3] = [|x| -x.next_up(), |_| f64::NAN, |_| -f64::INFINITY];
            for number in numbers {
                refuses(&bad_by(&[(k, i)], number), [4; 6], 3, i as u32);
            }
            // whichever column holds the other
            for other in 0..3 {
                refuses(&bad(&[(k, i), (other, 2)]), [4; 6], 3, i as u32);
            }
        }
    }
    let (offset, eps) = (f64::NAN, 1.0);
    let unset = Columns {
        offset,
        ..bad(&[(1, 2)])
    };
    refuses(&unset, [4; 6], 3, 2);
    refuses(
        &Columns {
            eps,
            ..bad(&[(2, 2)])
        },
        [4; 6],
        3,
        2,
    );
    refuses(&Columns { eps, ..corner() }, [4; 6], 3, 4);
    let both = Columns {
        offset,
        eps,
        ..corner()
    };
    refuses(&pointed(&both, 0.0), [4; 6], 3, 3);
    refuses(
        &Columns {
            eps,
            ..pointed(&corner(), 0.0)
        },
        [4; 6],
        3,
        4,
    );
    refuses(&pointed(&corner(), 0.0), [4; 6], 3, 5);
    // The limits themselves are taken, a bulge's being another than an x's.
    let wide = columns([&[1e6, -1e6], &[-1e6, 1e6], &[-1e9, 1e9]], false, 0.0);
    let drawing = Drawing {
        columns: wide.source(),
        ..NOTHING
    };
    leaves(&wide, [2; 6], [0, 0, 2, 0, 0], 2, &drawing);
    let swapped = columns([&[1e9, 0.0], &[0.0; 2], &[0.0; 2]], false, 0.0);
    refuses(&swapped, [2; 6], 3, 0);
}

#[test]
fn fewer_than_two_vertices_need_no_room() {
    for lists in [[&[][..]; 3], [&[1.0], &[2.0], &[3.0]]] {
        for closed in [false, true] {
            for room in [[0; 6], [3, 0, 2, 0, 1, 0]] {
                for offset in [0.0, 1.0] {
                    let job = columns(lists, closed, offset);
                    leaves(&job, room, [0; 5], 0, &NOTHING);
                    leaves(&pointed(&job, 2.0), room, [0; 5], 0, &NOTHING);
                    refuses(&pointed(&job, 11.0), room, 3, lists[0].len() as u32 + 2);
                }
            }
        }
    }
}

#[test]
fn an_offset_of_zero_copies() {
    let lists = [&[0.5, 0.5, 2.0][..], &[-0.0, 0.0, 1.0], &[0.25, -3.0, 7.0]];
    for offset in [0.0, -0.0] {
        for (closed, n) in [(false, 2), (true, 3)] {
            let job = columns(lists, closed, offset);
            let drawing = Drawing {
                columns: lists,
                flags: &[],
                indexes: &[],
                origins: &[0, 2, 4][..n],
            };
            let answer = [0, 0, 3, 0, closed.into()];
            for (job, each) in [(job.clone(), 2), (pointed(&job, 1.0), 3)] {
                let set = each * n;
                leaves(&job, [set; 6], answer, set, &drawing);
                leaves(
                    &job,
                    [set + 1, set, set + 3, set, set + 2, set],
                    answer,
                    set,
                    &drawing,
                );
                refuses(&job, [set, set - 1, set, set, set, set], 4, 0);
            }
        }
    }
}

#[test]
fn what_is_not_finite_leaves_zeros() {
    let lists = [
        &[5.0, -3.0, 5.0][..],
        &[0.0, 4.0, 4.0],
        &[0.6180339887498949, 0.0, 0.0],
    ];
    let offset = 0.5000002384185791;
    let job = Columns {
        eps: 4.7683715820312495e-7,
        ..columns(lists, false, offset)
    };
    leaves(&job, [4, 5, 6, 7, 8, 9], [6, 0, 0, 0, 0], 4, &NOTHING);
    leaves(
        &pointed(&job, 1.0),
        [9, 8, 7, 6, 6, 7],
        [6, 0, 0, 0, 0],
        6,
        &NOTHING,
    );
}

#[test]
fn source_columns_may_share_places() {
    // (0,0)(1,1)(2,2) straight on, and a copy of one list in all three
    let job = Columns {
        numbers: vec![0.0, 1.0, 2.0],
        at: [0..3, 0..3, 0..3],
        ..columns([&[]; 3], false, 0.0)
    };
    let list = &[0.0, 1.0, 2.0][..];
    let drawing = Drawing {
        columns: [list; 3],
        origins: &[0, 2],
        ..NOTHING
    };
    leaves(&job, [4; 6], [0, 0, 3, 0, 0], 4, &drawing);
    let shifted = Columns {
        at: [0..2, 1..3, 0..2],
        ..job
    };
    let drawing = Drawing {
        columns: [&[0.0, 1.0], &[1.0, 2.0], &[0.0, 1.0]],
        ..NOTHING
    };
    leaves(&shifted, [2; 6], [0, 0, 2, 0, 0], 2, &drawing);
}

#[test]
fn rows_and_columns_of_a_job() {
    let job = Job::new(true, 1.0, EPS, vec![1.0, 2.0, 3.0, 4.0, 5.0, 6.0]);
    let columns = Columns::of(&job);
    assert_eq!(
        columns.source(),
        [&[1.0, 4.0][..], &[2.0, 5.0], &[3.0, 6.0]]
    );
    assert_eq!(columns.rows().source, job.source);
    let ragged = Job::new(true, 1.0, EPS, job.source[..5].to_vec());
    let columns = Columns::of(&ragged);
    assert_eq!(columns.source().map(<[f64]>::len), [2, 2, 1]);
    assert_eq!(columns.rows().source.len() % 3, 1);
}

#[test]
fn rows_of_text() {
    let sharing = Columns {
        numbers: vec![0.5, -0.0, 3.0],
        at: [0..2, 1..3, 1..3],
        ..pointed(&corner(), 3.0)
    };
    for job in [corner(), sharing, columns([&[], &[1.0], &[]], true, 0.0)] {
        let room = [1, 2, 3, 4, 5, 60];
        let row = columns_row(&job, room);
        assert_eq!(read_columns(&row), Some((job, room)), "{row}");
    }
    let row = columns_row(&corner(), [4; 6]);
    assert_eq!(read_columns(&row[..row.len() - 17]), None);
}
