//! Jobs at the edges of 01 section 1, as 02's 2026-02, 2026-09 and 2026-13 amend it: rooms, limits,
//! refusals with their places and their order, short sources, and an offset of zero.

use oracle::stage::{Job, Places};

const EPS: f64 = 1e-5;
const REACH: f64 = 1_000_000.0;
const BULGE: f64 = 1_000_000_000.0;
/// 01's limit, which 2026-02 took away.
const OLD_BULGE: f64 = 1000.0;
const INF: f64 = f64::INFINITY;
const TINY: f64 = f64::from_bits(1);

/// Jobs to lend any room to: open, closed, of arcs, and a copy.
fn lendable() -> [Job; 4] {
    let corner = [[0.0, 0.0, 0.0], [4.0, 0.0, 0.0], [4.0, 1.0, 0.0]];
    let pair = [[0.0, 0.0, 0.5], [4.0, 0.0, -0.25]];
    let closing = Job::new(true, 2.0, EPS, corner.concat());
    let arcs = Job::new(true, -0.5, EPS, pair.concat());
    let copied = Job::new(true, 0.0, EPS, corner.concat());
    [open(&corner, 2.0), closing, arcs, copied]
}

/// No room, too many places and too few of each kind, around what a job needs.
pub fn rooms() -> Vec<Job> {
    let mut jobs = Vec::new();
    for job in lendable() {
        let need = 2 * job.segments();
        for count in [0, need - 1, need, need + 1, need + 3] {
            let mut lent = job.clone();
            lent.lend(count);
            jobs.push(lent);
        }
        for numbers in [3 * need - 1, 3 * need + 1, 3 * need + 2] {
            jobs.push(lent(&job, [numbers, need, need, need]));
        }
        jobs.push(lent(&job, [3 * need, need - 1, need, need]));
        jobs.push(lent(&job, [3 * need, need, need - 1, need]));
        jobs.push(lent(&job, [3 * need + 4, need + 2, need + 1, need + 3]));
    }
    jobs
}

/// Origins alone too few, also where all else is more than enough, and origins far too many. No. 4
/// comes before No. 5, after No. 3, and without a segment no origin is needed.
pub fn origins() -> Vec<Job> {
    let mut jobs = Vec::new();
    for job in lendable() {
        let need = 2 * job.segments();
        for room in [
            [3 * need, need, need, need - 1],
            [3 * need, need, need, 0],
            [256, 88, 88, need - 1],
            [3 * need, need, need, 88],
        ] {
            jobs.push(lent(&job, room));
        }
    }
    let corner = [[0.0, 0.0, 0.0], [4.0, 0.0, 0.0], [4.0, 1.0, 0.0]];
    let repeated = [corner[0], corner[1], corner[1]];
    for (vertices, offset) in [(repeated, 1.0), (corner, f64::NAN), (corner, -0.0)] {
        for origins in [3, 4] {
            jobs.push(lent(&open(&vertices, offset), [12, 4, 4, origins]));
        }
    }
    for vertices in [&corner[..0], &corner[..1]] {
        jobs.push(lent(&open(vertices, 1.0), [6, 2, 2, 0]));
        jobs.push(lent(&open(vertices, 0.0), [0, 0, 0, 2]));
    }
    jobs
}

/// Each number of a job in turn at its limits, at the next doubles, and at no number. The vertex
/// is one in the middle.
pub fn limits() -> Vec<Job> {
    let good = open(
        &[
            [0.0, 0.0, 0.0],
            [4.0, 0.0, 0.25],
            [4.0, 4.0, 0.0],
            [9.0, 4.0, 0.0],
        ],
        1.0,
    );
    let mut jobs = Vec::new();
    for (slot, limit) in [(3, REACH), (4, REACH), (5, BULGE)] {
        for bad in around(-limit, limit) {
            let mut job = good.clone();
            job.source[slot] = bad;
            jobs.push(job);
        }
    }
    for bulge in [OLD_BULGE.next_up(), -OLD_BULGE.next_up(), 1e6, -1e6] {
        let mut job = good.clone();
        job.source[5] = bulge;
        jobs.push(job);
    }
    for offset in around(-REACH, REACH) {
        jobs.push(Job {
            offset,
            ..good.clone()
        });
    }
    for eps in around(1e-9, 0.01).into_iter().chain([0.0, -0.0, -1e-5]) {
        jobs.push(Job {
            eps,
            ..good.clone()
        });
    }
    jobs
}

/// Jobs that earn two refusals or more, and places of the first bad vertex and the first pair.
pub fn refusals() -> Vec<Job> {
    // The first pair is short, the second is equal.
    let repeated = [
        [0.0, 0.0, 0.0],
        [1.0, 0.0, 0.0],
        [1.0, 9.0e-6, 0.0],
        [5.0, 5.0, 0.0],
        [5.0, 5.0, 0.0],
    ];
    let mut job = open(&repeated, 1.0);
    let mut jobs = vec![job.clone()];
    job.lend(7);
    jobs.push(job.clone());
    job.eps = 1.0;
    jobs.push(job.clone());
    job.offset = f64::NAN;
    jobs.push(job.clone());
    for slot in [14, 10, 6, 2] {
        job.source[slot] = INF;
        jobs.push(job.clone());
    }
    job.source.pop();
    jobs.push(job.clone());
    job.lend(0);
    jobs.push(job);
    jobs.extend(pairs());
    jobs
}

/// Two points that are equal, also as two zeros; that differ in one number by as little as doubles
/// can; whose difference has a square of 0, or a subnormal one; that lie within ε, or just ε apart.
const NEIGHBOURS: [[[f64; 2]; 2]; 13] = [
    [[2.0, 3.0], [2.0, 3.0]],
    [[0.0, -0.0], [-0.0, 0.0]],
    [[-0.0, 3.0], [0.0, 3.0]],
    [[2.0, 3.0], [2.0_f64.next_up(), 3.0]],
    [[2.0, 3.0], [2.0, 3.0_f64.next_down()]],
    [[0.0, -0.0], [TINY, 0.0]],
    [[0.0, 0.0], [-0.0, -TINY]],
    [[0.0, 0.0], [0.0, 1e-200]],
    [[0.0, 0.0], [2e-162, 1e-162]],
    [[0.0, 0.0], [3e-160, 0.0]],
    [[0.0, 0.0], [EPS.next_down(), EPS.next_down()]],
    [[0.0, 0.0], [EPS, 0.0]],
    [[0.0, 0.0], [0.0, -EPS]],
];

/// Such a pair first, last to first, and in the middle.
fn pairs() -> Vec<Job> {
    let mut jobs = Vec::new();
    for [[ax, ay], [bx, by]] in NEIGHBOURS {
        let first = [[ax, ay, 1.0], [bx, by, 0.0], [4.0, 4.0, 0.0]];
        let last = [[bx, by, 0.0], [4.0, 0.0, 0.0], [ax, ay, 0.0]];
        let middle = [
            [8.0, 0.0, 0.0],
            [ax, ay, 0.5],
            [bx, by, 0.0],
            [4.0, 4.0, 0.0],
        ];
        for closed in [false, true] {
            for source in [first.concat(), last.concat(), middle.concat()] {
                jobs.push(Job::new(closed, 1.0, EPS, source));
            }
        }
    }
    jobs
}

/// Sources of no vertex up to two, and lengths that are no multiple of three.
pub fn short() -> Vec<Job> {
    let numbers = [1.0, 2.0, 3.0, 5.0, 2.0, 0.0, 7.0];
    let mut jobs = Vec::new();
    for closed in [false, true] {
        for length in 0..=numbers.len() {
            let job = Job::new(closed, 0.5, EPS, numbers[..length].to_vec());
            jobs.push(lent(&job, [0; 4]));
            jobs.push(job);
        }
        for length in [0, 3] {
            let job = Job::new(closed, f64::NAN, 1.0, numbers[..length].to_vec());
            jobs.push(Job {
                offset: 0.0,
                eps: EPS,
                ..job.clone()
            });
            jobs.push(Job {
                offset: 0.0,
                ..job.clone()
            });
            jobs.push(job);
        }
    }
    jobs
}

/// Both zeros copy, repeated vertices too; the next doubles do not.
pub fn zeros() -> Vec<Job> {
    let source = [[0.5, -0.0, 0.25], [0.5, 0.0, -3.0], [2.0, 1.0, 7.0]];
    let mut jobs = Vec::new();
    for closed in [false, true] {
        for offset in [0.0, -0.0, f64::from_bits(1), -f64::from_bits(1)] {
            jobs.push(Job::new(closed, offset, EPS, source.concat()));
            jobs.push(Job::new(closed, offset, EPS, source[1..].concat()));
        }
    }
    jobs
}

const SQUARE: [[f64; 3]; 4] = [
    [0.0, 0.0, 0.0],
    [4.0, 0.0, 0.0],
    [4.0, 4.0, 0.0],
    [0.0, 4.0, 0.0],
];

/// A line and a circle meet at no number.
const NOT_FINITE: [[f64; 3]; 3] = [
    [5.0, 0.0, 0.6180339887498949],
    [-3.0, 4.0, 0.0],
    [5.0, 4.0, 0.0],
];

/// To lend any room to in the pointed mode: one that draws 3n vertices, an open one, one with nothing
/// drawn, a copy, and one that is not finite.
fn pointed_lendable() -> [Job; 5] {
    let square = |offset| Job::new(true, offset, EPS, SQUARE.concat()).pointed(2.0);
    let not_finite = Job {
        eps: 4.7683715820312495e-7,
        ..open(&NOT_FINITE, 0.5000002384185791)
    };
    [
        square(-1.0),
        open(&SQUARE, -1.0).pointed(2.0),
        square(2.0),
        square(0.0),
        not_finite.pointed(2.0),
    ]
}

/// Each buffer around 3n by itself, all of them, and what the round mode needs.
pub fn pointed_rooms() -> Vec<Job> {
    let mut jobs = Vec::new();
    for job in pointed_lendable() {
        let need = job.need();
        for count in [0, 2 * job.segments(), need - 1, need, need + 2] {
            let mut lent = job.clone();
            lent.lend(count);
            jobs.push(lent);
        }
        for room in [
            [3 * need - 1, need, need, need],
            [3 * need, need - 1, need, need],
            [3 * need, need, need - 1, need],
            [3 * need, need, need, need - 1],
            [3 * need + 2, need + 1, need + 3, need + 2],
        ] {
            jobs.push(lent(&job, room));
        }
    }
    jobs
}

/// Ratios at both limits and next to them, and such as lie in no range: of a corner, of a copy, and
/// without a segment. No. 3 comes before Nos. 4 and 5; the offset and ε come before the ratio.
pub fn ratios() -> Vec<Job> {
    let ratios = around(1.0, 10.0);
    let mut jobs = Vec::new();
    for ratio in ratios.into_iter().chain([0.0, -0.0, -1.0, -10.0, TINY]) {
        jobs.push(open(&SQUARE[..3], -1.0).pointed(ratio));
    }
    for ratio in [1.0, 10.0, 1.0_f64.next_down(), 10.0_f64.next_up(), f64::NAN] {
        for closed in [false, true] {
            jobs.push(Job::new(closed, -0.0, EPS, SQUARE.concat()).pointed(ratio));
            jobs.push(Job::new(closed, 1.0, EPS, Vec::new()).pointed(ratio));
            jobs.push(Job::new(closed, 0.0, EPS, SQUARE[0].to_vec()).pointed(ratio));
        }
    }
    let repeated = open(&[SQUARE[0], SQUARE[0], SQUARE[1]], 1.0);
    for (ratio, offset, eps) in [
        (2.0, 1.0, EPS),
        (INF, 1.0, EPS),
        (INF, 1.0, 0.0),
        (INF, INF, 0.0),
    ] {
        let job = Job {
            offset,
            eps,
            ..repeated.clone()
        };
        jobs.push(job.pointed(ratio));
        jobs.push(lent(&job.pointed(ratio), [0; 4]));
    }
    let mut ragged = repeated.pointed(0.0);
    ragged.source.pop();
    jobs.push(ragged);
    jobs
}

fn open(vertices: &[[f64; 3]], offset: f64) -> Job {
    Job::new(false, offset, EPS, vertices.concat())
}

fn lent(job: &Job, room: Places) -> Job {
    Job {
        room,
        ..job.clone()
    }
}

/// Both limits, the doubles next to them, and what lies in no range.
fn around(low: f64, high: f64) -> [f64; 9] {
    [
        low,
        low.next_down(),
        low.next_up(),
        high,
        high.next_up(),
        high.next_down(),
        -INF,
        INF,
        f64::NAN,
    ]
}
