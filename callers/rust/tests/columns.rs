//! Jobs in columns: they agree with the same jobs in rows, and what is refused of columns alone.

use blidrosk::{
    Answer, Bad, Columns, Corners, Drawing, MOST_VERTICES, Origin, Refusal, raw_offset_columns,
    raw_offset_columns_with, raw_offset_with, room, segments,
};

const EPS: f64 = 1e-5;

const POINTED: Corners = Corners::Pointed { ratio: 2.0 };

const BOTH: [Corners; 2] = [Corners::Round, POINTED];

/// The tables below count x, y and bulge as 0, 1 and 2.
const COLUMNS: usize = 3;

/// With lines and arcs, and no number twice in a row.
const STEPS: Columns<[f64; 4]> = Columns {
    xs: [0.0, 4.0, 5.0, 9.0],
    ys: [0.5, 0.0, 3.0, -2.0],
    bulges: [0.0, 0.5, 0.0, -0.25],
};

#[derive(Clone, Copy, Debug)]
struct Settings {
    closed: bool,
    offset: f64,
    eps: f64,
    corners: Corners,
}

fn open(offset: f64, corners: Corners) -> Settings {
    Settings {
        closed: false,
        offset,
        eps: EPS,
        corners,
    }
}

fn closed(offset: f64, corners: Corners) -> Settings {
    Settings {
        closed: true,
        ..open(offset, corners)
    }
}

fn owned(columns: Columns<&[f64]>) -> Columns<Vec<f64>> {
    Columns {
        xs: columns.xs.to_vec(),
        ys: columns.ys.to_vec(),
        bulges: columns.bulges.to_vec(),
    }
}

fn slices<T: AsRef<[f64]>>(columns: &Columns<T>) -> Columns<&[f64]> {
    Columns {
        xs: columns.xs.as_ref(),
        ys: columns.ys.as_ref(),
        bulges: columns.bulges.as_ref(),
    }
}

fn column(columns: &mut Columns<Vec<f64>>, which: usize) -> &mut Vec<f64> {
    match which {
        0 => &mut columns.xs,
        1 => &mut columns.ys,
        _ => &mut columns.bulges,
    }
}

/// The first so many of each column.
fn first<T: AsRef<[f64]>>(columns: &Columns<T>, lens: [usize; COLUMNS]) -> Columns<&[f64]> {
    let Columns { xs, ys, bulges } = slices(columns);
    Columns {
        xs: &xs[..lens[0]],
        ys: &ys[..lens[1]],
        bulges: &bulges[..lens[2]],
    }
}

/// One vertex after the other, as far as all three columns go; of ragged ones a number is left over.
fn rows(columns: Columns<&[f64]>) -> Vec<f64> {
    let Columns { xs, ys, bulges } = columns;
    let vertices = xs.iter().zip(ys).zip(bulges);
    let mut rows: Vec<f64> = vertices
        .flat_map(|((x, y), bulge)| [*x, *y, *bulge])
        .collect();
    if xs.len() != ys.len() || xs.len() != bulges.len() {
        rows.push(0.0);
    }
    rows
}

fn bits(numbers: &[f64]) -> Vec<u64> {
    numbers.iter().map(|number| number.to_bits()).collect()
}

/// The same bits, so that NaNs are equal to themselves and zeros of two signs differ.
#[track_caller]
fn assert_bits(found: &[f64], wanted: &[f64]) {
    assert_eq!(bits(found), bits(wanted), "{found:?}, not {wanted:?}");
}

/// Lengths of the six buffers: the columns, flags, indexes, origins.
type Lens = [usize; 6];

/// Buffers that hold marks of their own, another in each place.
#[derive(Clone, Debug)]
struct Buffers {
    vertices: Columns<Vec<f64>>,
    flags: Vec<u8>,
    indexes: Vec<u32>,
    origins: Vec<u32>,
}

fn mark(column: usize, place: usize) -> f64 {
    f64::from_bits(0xfff5_0000_0000_0000 | (place * COLUMNS + column) as u64)
}

fn marks(column: usize, len: usize) -> Vec<f64> {
    (0..len).map(|place| mark(column, place)).collect()
}

fn numbered(from: u32, len: usize) -> Vec<u32> {
    (from..).take(len).collect()
}

impl Buffers {
    fn marked(lens: Lens) -> Self {
        Buffers {
            vertices: Columns {
                xs: marks(0, lens[0]),
                ys: marks(1, lens[1]),
                bulges: marks(2, lens[2]),
            },
            flags: (0..lens[3])
                .map(|place| 100 + (place % 100) as u8)
                .collect(),
            indexes: numbered(777_000, lens[4]),
            origins: numbered(888_000, lens[5]),
        }
    }

    fn job(&mut self, source: Columns<&[f64]>, settings: Settings) -> Answer {
        raw_offset_columns_with(
            &source,
            settings.closed,
            settings.offset,
            settings.eps,
            settings.corners,
            &mut self.vertices,
            &mut self.flags,
            &mut self.indexes,
            &mut self.origins,
        )
    }

    #[track_caller]
    fn assert_same(&self, other: &Buffers) {
        assert_bits(&self.vertices.xs, &other.vertices.xs);
        assert_bits(&self.vertices.ys, &other.vertices.ys);
        assert_bits(&self.vertices.bulges, &other.vertices.bulges);
        assert_eq!(self.flags, other.flags);
        assert_eq!(self.indexes, other.indexes);
        assert_eq!(self.origins, other.origins);
    }
}

/// The same job in rows, over the same marks: what the columns have to hold, and the answer.
fn by_rows(source: Columns<&[f64]>, settings: Settings, lens: Lens) -> (Buffers, Answer) {
    let mut buffers = Buffers::marked(lens);
    let shortest = lens[0].min(lens[1]).min(lens[2]);
    let lent = first(&buffers.vertices, [shortest; COLUMNS]);
    let mut vertices = rows(lent);
    let answer = raw_offset_with(
        &rows(source),
        settings.closed,
        settings.offset,
        settings.eps,
        settings.corners,
        &mut vertices,
        &mut buffers.flags,
        &mut buffers.indexes,
        &mut buffers.origins,
    );
    for which in 0..COLUMNS {
        let numbers = vertices.iter().skip(which).step_by(COLUMNS);
        for (place, number) in column(&mut buffers.vertices, which).iter_mut().zip(numbers) {
            *place = *number;
        }
    }
    (buffers, answer)
}

/// Lends buffers of these lengths, and holds answer and every place to those in rows.
#[track_caller]
fn assert_agrees(source: Columns<&[f64]>, settings: Settings, lens: Lens) -> Answer {
    let (wanted, answer) = by_rows(source, settings, lens);
    let mut buffers = Buffers::marked(lens);
    assert_eq!(buffers.job(source, settings), answer, "{settings:?}");
    buffers.assert_same(&wanted);
    answer
}

/// Refused, with nothing changed, whatever is lent: these lengths too.
#[track_caller]
fn assert_refused(source: Columns<&[f64]>, settings: Settings, lens: Lens, refusal: Refusal) {
    let mut buffers = Buffers::marked(lens);
    assert_eq!(buffers.job(source, settings), Err(refusal), "{settings:?}");
    buffers.assert_same(&Buffers::marked(lens));
    assert_eq!(
        assert_agrees(source, settings, lens),
        Err(refusal),
        "in rows"
    );
}

/// The room of so many vertices in each buffer, and so many places more.
fn lens(vertices: usize, settings: Settings, more: Lens) -> Lens {
    more.map(|more| settings.corners.room(vertices, settings.closed) + more)
}

#[track_caller]
fn assert_refused_early(source: Columns<&[f64]>, settings: Settings, refusal: Refusal) {
    let vertices = source.xs.len().max(source.ys.len());
    let spare = lens(vertices, settings, [3, 1, 2, 6, 4, 5]);
    for lent in [spare, [0; 6], [0, 0, 1, 0, 0, 0]] {
        assert_refused(source, settings, lent, refusal);
    }
    let drawing = Drawing::offset_columns_with(
        &source,
        settings.closed,
        settings.offset,
        settings.eps,
        settings.corners,
    );
    assert_eq!(drawing, Err(refusal));
}

/// A drawing in columns has the facts of the same one in rows.
#[track_caller]
fn assert_drawn_alike(source: Columns<&[f64]>, settings: Settings) {
    let Settings {
        closed,
        offset,
        eps,
        corners,
    } = settings;
    let found = Drawing::offset_columns_with(&source, closed, offset, eps, corners);
    let wanted = Drawing::offset_with(&rows(source), closed, offset, eps, corners);
    if corners == Corners::Round {
        let round = Drawing::offset_columns(&source, closed, offset, eps);
        assert_eq!(round, found);
    }
    let (found, wanted) = match (found, wanted) {
        (Ok(found), Ok(wanted)) => (found, wanted),
        (found, wanted) => {
            assert_eq!(found.map(drop), wanted.map(drop));
            return;
        }
    };
    let vertices = slices(&found.vertices);
    assert_eq!(vertices.xs.len(), vertices.ys.len());
    assert_eq!(vertices.xs.len(), vertices.bulges.len());
    assert_bits(&rows(vertices), &wanted.vertices);
    assert_eq!(found.flags, wanted.flags);
    assert_eq!(found.indexes, wanted.indexes);
    assert_eq!(found.origins, wanted.origins);
    assert_eq!(found.closed, wanted.closed);
    assert_eq!(found.source_segments, wanted.source_segments);
    let n = found.source_segments;
    for i in (0..n).step_by(1 + n / 32).chain([n]) {
        assert_eq!(found.part(i), wanted.part(i));
    }
}

/// Numbers that seem to follow no rule, the same in every run: splitmix64.
struct Random(u64);

impl Random {
    fn next(&mut self) -> u64 {
        self.0 = self.0.wrapping_add(0x9e37_79b9_7f4a_7c15);
        let z = (self.0 ^ (self.0 >> 30)).wrapping_mul(0xbf58_476d_1ce4_e5b9);
        let z = (z ^ (z >> 27)).wrapping_mul(0x94d0_49bb_1331_11eb);
        z ^ (z >> 31)
    }

    fn below(&mut self, end: usize) -> usize {
        (self.next() % end as u64) as usize
    }

    fn one_of<T: Copy>(&mut self, all: &[T]) -> T {
        all[self.below(all.len())]
    }

    /// From -1 up to 1.
    fn number(&mut self) -> f64 {
        (self.next() >> 11) as f64 / (1u64 << 52) as f64 - 1.0
    }

    /// On a coarse grid or anywhere, so that lines meet at every kind of corner.
    fn source(&mut self, vertices: usize) -> Columns<Vec<f64>> {
        let grid = self.below(2) == 0;
        let place = |random: &mut Random| {
            if grid {
                random.below(9) as f64 - 4.0
            } else {
                9.0 * random.number()
            }
        };
        let mut source: Columns<Vec<f64>> = Columns::default();
        for _ in 0..vertices {
            source.xs.push(place(self));
            source.ys.push(place(self));
            let turned = 1.5 * self.number();
            source
                .bulges
                .push(self.one_of(&[0.0, 0.0, 0.0, -0.0, 1.0, -1.0, 0.5, turned]));
        }
        source
    }

    fn settings(&mut self) -> Settings {
        let by = 3.0 * self.number();
        let ratio = 1.0 + 9.0 * (self.number() + 1.0) / 2.0;
        Settings {
            closed: self.below(2) == 0,
            offset: self.one_of(&[0.0, -0.0, 1.0, -1.0, 0.25, -0.25, by, by]),
            eps: self.one_of(&[EPS, EPS, 1e-9, 0.01]),
            corners: self.one_of(&[Corners::Round, POINTED, Corners::Pointed { ratio }]),
        }
    }
}

#[test]
fn many_drawings_agree_with_rows() {
    let mut random = Random(8);
    let mut counts = [0; 3];
    for _ in 0..6000 {
        let vertices = random.below(14);
        let source = random.source(vertices);
        let settings = random.settings();
        let more = [(); 6].map(|()| random.below(5));
        let lens = lens(vertices, settings, more);
        let kind = match assert_agrees(slices(&source), settings, lens) {
            Ok(drawn) if drawn.indexes > 0 => 0,
            Ok(_) => 1,
            Err(_) => 2,
        };
        counts[kind] += 1;
        assert_drawn_alike(slices(&source), settings);
    }
    let [red, clear, refused] = counts;
    assert!(red > 1000 && clear > 1000 && refused > 100, "{counts:?}");
}

/// Bad numbers, lengths that differ and too little room, all at once.
#[test]
fn many_refusals_agree_with_rows() {
    let bad = [f64::NAN, f64::INFINITY, -2e6, 2e9];
    let mut random = Random(7);
    for _ in 0..6000 {
        let vertices = 1 + random.below(9);
        let mut source = random.source(vertices);
        let mut settings = random.settings();
        for _ in 0..random.below(3) {
            let place = random.below(vertices);
            column(&mut source, random.below(COLUMNS))[place] = random.one_of(&bad);
        }
        if random.below(3) == 0 {
            let place = random.below(vertices);
            for which in 0..2 {
                let repeated = column(&mut source, which)[place];
                column(&mut source, which)[(place + 1) % vertices] = repeated;
            }
        }
        if random.below(4) == 0 {
            let which = random.below(COLUMNS);
            column(&mut source, which).truncate(vertices - 1);
        }
        if random.below(5) == 0 {
            settings.offset = random.one_of(&bad);
        }
        if random.below(5) == 0 {
            settings.eps = random.one_of(&bad);
        }
        if settings.corners != Corners::Round && random.below(5) == 0 {
            let ratio = random.one_of(&bad);
            settings.corners = Corners::Pointed { ratio };
        }
        let more = [(); 6].map(|()| random.one_of(&[0, 0, 0, 1, 2, 5]));
        let mut lens = lens(vertices, settings, more);
        if random.below(3) == 0 {
            let short = random.below(6);
            lens[short] = lens[short].saturating_sub(1 + random.below(3));
        }
        let answer = assert_agrees(slices(&source), settings, lens);
        if answer.is_err_and(|refusal| refusal != Refusal::NotFinite) {
            assert_refused(slices(&source), settings, lens, answer.unwrap_err());
        }
        assert_drawn_alike(slices(&source), settings);
    }
}

#[test]
fn a_square_with_round_corners_and_with_points() {
    let square = Columns {
        xs: [0.0, 4.0, 4.0, 0.0],
        ys: [0.0, 0.0, 4.0, 4.0],
        bulges: [0.0; 4],
    };
    let inner = Drawing::offset_columns(&square, true, 1.0, EPS).expect("a good job");
    assert_eq!(inner.vertices.xs, [1.0, 3.0, 3.0, 1.0]);
    assert_eq!(inner.vertices.ys, [1.0, 1.0, 3.0, 3.0]);
    assert_eq!(inner.vertices.bulges, [0.0; 4]);
    assert_eq!(inner.origins, [0, 1, 2, 3].map(Origin::Span));
    assert!(inner.closed);
    let outer = Drawing::offset_columns_with(&square, true, -1.0, EPS, POINTED);
    let outer = outer.expect("a good job");
    assert_eq!(outer.vertices.xs[..6], [0.0, 4.0, 5.0, 5.0, 5.0, 5.0]);
    assert_eq!(outer.vertices.ys[..6], [-1.0, -1.0, -1.0, 0.0, 4.0, 5.0]);
    assert_eq!(outer.vertices.bulges, [0.0; 12]);
    assert_eq!((outer.flags.len(), outer.indexes.len()), (12, 0));
    assert_eq!((outer.part(1), outer.source_segments), (Ok(3..6), 4));
    assert_eq!(outer.part(4), Err(Refusal::NoSuchSourceSegment));
}

#[test]
fn an_offset_of_zero_copies_every_column() {
    let signs = Columns {
        xs: [0.0, -0.0, 4.0],
        ys: [-0.0, 0.0, -0.0],
        bulges: [-0.0, -1.0, -0.0],
    };
    for (zero, corners) in [(0.0, Corners::Round), (-0.0, POINTED)] {
        for by in [open(zero, corners), closed(zero, corners)] {
            let copy = Drawing::offset_columns_with(&signs, by.closed, zero, EPS, corners);
            let copy = copy.expect("a good job");
            assert_bits(&copy.vertices.xs, &signs.xs);
            assert_bits(&copy.vertices.ys, &signs.ys);
            assert_bits(&copy.vertices.bulges, &signs.bulges);
            assert_drawn_alike(slices(&signs), by);
        }
    }
}

#[test]
fn columns_that_differ_in_length() {
    for corners in BOTH {
        for count in 0..3 {
            for which in 0..COLUMNS {
                let mut longer = [count; COLUMNS];
                longer[which] += 1;
                let mut shorter = [count + 1; COLUMNS];
                shorter[which] -= 1;
                for lens in [longer, shorter] {
                    let source = first(&STEPS, lens);
                    assert_refused_early(source, open(1.0, corners), Refusal::Ragged);
                    assert_refused_early(source, closed(f64::NAN, corners), Refusal::Ragged);
                }
            }
        }
        for lens in [
            [1, 2, 3],
            [3, 2, 1],
            [2, 3, 4],
            [4, 2, 3],
            [0, 0, 3],
            [3, 0, 0],
        ] {
            assert_refused_early(first(&STEPS, lens), open(1.0, corners), Refusal::Ragged);
        }
    }
    let said = Refusal::Ragged.to_string();
    assert!(said.starts_with("numbers are left over: a vertex is x, y and bulge"));
}

/// Before too many vertices, and before bad numbers.
#[test]
fn ragged_comes_first() {
    let long = vec![f64::NAN; MOST_VERTICES + 1];
    for corners in [Corners::Round, POINTED, Corners::Pointed { ratio: 0.0 }] {
        for which in 0..COLUMNS {
            for less in [1, 2, MOST_VERTICES + 1] {
                let mut source = owned(Columns {
                    xs: &long,
                    ys: &long,
                    bulges: &long,
                });
                column(&mut source, which).truncate(long.len() - less);
                assert_refused_early(slices(&source), open(1.0, corners), Refusal::Ragged);
            }
        }
    }
}

#[test]
fn the_most_vertices_and_one_more() {
    let apart: Vec<f64> = (0..=MOST_VERTICES).map(|k| 0.5 * k as f64).collect();
    let zeros = vec![0.0; apart.len()];
    let line = Columns {
        xs: &apart,
        ys: &zeros,
        bulges: &zeros,
    };
    let most = first(&line, [MOST_VERTICES; COLUMNS]);
    for corners in BOTH {
        for by in [open(1.0, corners), open(0.0, corners), closed(1.0, corners)] {
            let exact = lens(MOST_VERTICES, by, [0; 6]);
            assert!(assert_agrees(most, by, exact).is_ok());
            assert_drawn_alike(most, by);
            assert_refused_early(slices(&line), by, Refusal::TooMany);
        }
        assert_refused_early(slices(&line), open(f64::NAN, corners), Refusal::TooMany);
    }
}

#[test]
fn a_bad_number_is_at_its_vertex_in_any_column() {
    let past = |which| if which == 2 { 1e9_f64 } else { 1e6 }.next_up();
    for corners in BOTH {
        for which in 0..COLUMNS {
            let limit = past(which);
            for bad in [f64::NAN, f64::INFINITY, f64::NEG_INFINITY, limit, -limit] {
                for vertex in 0..4 {
                    let mut source = owned(slices(&STEPS));
                    column(&mut source, which)[vertex] = bad;
                    let refusal = Refusal::BadNumber(Bad::Vertex(vertex));
                    assert_refused_early(slices(&source), open(1.0, corners), refusal);
                    assert_refused_early(slices(&source), closed(f64::NAN, corners), refusal);
                }
            }
            for limit in [limit.next_down(), -limit.next_down()] {
                let mut source = owned(slices(&STEPS));
                column(&mut source, which)[2] = limit;
                let copy = open(0.0, corners);
                assert!(assert_agrees(slices(&source), copy, lens(4, copy, [0; 6])).is_ok());
            }
        }
    }
}

#[test]
fn of_two_bad_vertices_the_first_is_named() {
    for (early, late) in (0..COLUMNS).flat_map(|a| (0..COLUMNS).map(move |b| (a, b))) {
        for (vertex, other) in [(0, 1), (1, 3), (0, 3), (2, 3)] {
            let mut source = owned(slices(&STEPS));
            column(&mut source, early)[vertex] = f64::NAN;
            column(&mut source, late)[other] = f64::INFINITY;
            let refusal = Refusal::BadNumber(Bad::Vertex(vertex));
            for corners in BOTH {
                assert_refused_early(slices(&source), closed(1.0, corners), refusal);
            }
        }
    }
}

#[test]
fn a_bad_setting_is_counted_after_the_vertices() {
    for count in 0..=4 {
        let source = first(&STEPS, [count; COLUMNS]);
        for corners in [Corners::Round, POINTED, Corners::Pointed { ratio: 0.0 }] {
            for offset in [1e6_f64.next_up(), -1e6_f64.next_up(), f64::NAN] {
                let by = closed(offset, corners);
                assert_refused_early(source, by, Refusal::BadNumber(Bad::Offset));
                let by = Settings { eps: 0.0, ..by };
                assert_refused_early(source, by, Refusal::BadNumber(Bad::Offset));
            }
            for eps in [1e-9_f64.next_down(), 0.01_f64.next_up(), f64::INFINITY] {
                let by = Settings {
                    eps,
                    ..open(1.0, corners)
                };
                assert_refused_early(source, by, Refusal::BadNumber(Bad::Eps));
            }
        }
        for ratio in [1.0_f64.next_down(), 10.0_f64.next_up(), f64::NAN] {
            let corners = Corners::Pointed { ratio };
            for by in [open(1.0, corners), closed(0.0, corners)] {
                assert_refused_early(source, by, Refusal::BadNumber(Bad::Ratio));
            }
        }
    }
}

#[test]
fn the_shortest_buffer_counts() {
    for corners in BOTH {
        for by in [
            open(1.0, corners),
            closed(-1.0, corners),
            open(0.0, corners),
            closed(-0.0, corners),
        ] {
            for more in [[0; 6], [1; 6], [5, 1, 3, 2, 6, 4]] {
                let enough = lens(4, by, more);
                assert!(assert_agrees(slices(&STEPS), by, enough).is_ok());
                for which in 0..6 {
                    let needed = corners.room(4, by.closed);
                    for lent in [needed - 1, needed * 2 / 3, 0] {
                        let mut short = enough;
                        short[which] = lent;
                        assert_refused(slices(&STEPS), by, short, Refusal::NoRoom);
                    }
                }
            }
        }
    }
}

#[test]
fn room_is_looked_at_after_the_numbers_and_before_the_points() {
    for corners in BOTH {
        let by = open(1.0, corners);
        for which in 0..6 {
            let mut short = lens(4, by, [0; 6]);
            short[which] -= 1;
            let bad = Settings { eps: 1.0, ..by };
            let refusal = Refusal::BadNumber(Bad::Eps);
            assert_refused(slices(&STEPS), bad, short, refusal);
            let mut twice = owned(slices(&STEPS));
            (twice.xs[2], twice.ys[2]) = (twice.xs[1], twice.ys[1]);
            assert_refused(slices(&twice), by, short, Refusal::NoRoom);
            let enough = lens(4, by, [0; 6]);
            assert_refused(slices(&twice), by, enough, Refusal::Repeated(1));
        }
    }
}

#[test]
fn zeros_of_either_sign_are_one_point() {
    let ring = Columns {
        xs: [0.0, 4.0, 4.0, -0.0],
        ys: [-0.0, 0.0, 3.0, 0.0],
        bulges: [0.0, 1.0, 0.0, 0.5],
    };
    let pair = Columns {
        xs: [-0.0, 0.0, 4.0],
        ys: [0.0, -0.0, 4.0],
        bulges: [0.5, 0.0, 0.0],
    };
    for corners in BOTH {
        let by = closed(1.0, corners);
        let last = Refusal::Repeated(3);
        assert_refused(slices(&ring), by, lens(4, by, [1; 6]), last);
        let by = open(1.0, corners);
        let first = Refusal::Repeated(0);
        assert_refused(slices(&pair), by, lens(3, by, [2; 6]), first);
        assert!(assert_agrees(slices(&ring), by, lens(4, by, [0; 6])).is_ok());
    }
}

#[test]
fn what_is_drawn_stays_within_the_room() {
    let corner = Columns {
        xs: [0.0, 4.0, 4.0],
        ys: [0.0, 0.0, 1.0],
        bulges: [0.0; 3],
    };
    let lens = [5, 6, 7, 8, 9, 10];
    assert_eq!(room(3, false), 4);
    let mut buffers = Buffers::marked(lens);
    let drawn = raw_offset_columns(
        &corner,
        false,
        2.0,
        EPS,
        &mut buffers.vertices,
        &mut buffers.flags,
        &mut buffers.indexes,
        &mut buffers.origins,
    );
    let drawn = drawn.expect("a good job");
    assert_eq!((drawn.vertices, drawn.indexes, drawn.closed), (4, 1, false));
    assert_eq!(drawn.segments(), segments(4, false));
    let mut wanted = Buffers::marked(lens);
    wanted.vertices.xs[..4].copy_from_slice(&[0.0, 4.0, 2.0, 2.0]);
    wanted.vertices.ys[..4].copy_from_slice(&[2.0, 2.0, 0.0, 1.0]);
    wanted.vertices.bulges[..4].fill(0.0);
    wanted.flags[..4].copy_from_slice(&[0, 1, 0, 0]);
    wanted.indexes[..4].copy_from_slice(&[1, 0, 0, 0]);
    wanted.origins[..4].copy_from_slice(&[0, 1, 2, 0]);
    buffers.assert_same(&wanted);
}

/// Where it is not finite, and where nothing is left of it.
#[test]
fn what_is_not_drawn_is_zero_in_every_buffer() {
    let far_off = Columns {
        xs: [5.0, -3.0, 5.0],
        ys: [0.0, 4.0, 4.0],
        bulges: [0.6180339887498949, 0.0, 0.0],
    };
    let arc = Columns {
        xs: [0.0, 4.0],
        ys: [0.0; 2],
        bulges: [1.0, 0.0],
    };
    for corners in BOTH {
        let by = Settings {
            eps: 4.7683715820312495e-7,
            ..open(0.5000002384185791, corners)
        };
        assert_left_zero(slices(&far_off), by, Err(Refusal::NotFinite));
        assert_left_zero(slices(&arc), open(3.0, corners), Ok(0));
    }
}

#[track_caller]
fn assert_left_zero(source: Columns<&[f64]>, by: Settings, vertices: Result<usize, Refusal>) {
    let places = by.corners.room(source.xs.len(), by.closed);
    for more in [[0; 6], [4, 0, 1, 2, 5, 3], [0, 3, 6, 1, 1, 1]] {
        let lens = more.map(|more| places + more);
        let mut buffers = Buffers::marked(lens);
        let answer = buffers.job(source, by);
        assert_eq!(answer.map(|drawn| drawn.vertices), vertices);
        let mut wanted = Buffers::marked(lens);
        for which in 0..COLUMNS {
            column(&mut wanted.vertices, which)[..places].fill(0.0);
        }
        wanted.flags[..places].fill(0);
        wanted.indexes[..places].fill(0);
        wanted.origins[..places].fill(0);
        buffers.assert_same(&wanted);
        assert_eq!(assert_agrees(source, by, lens), answer);
    }
}

#[test]
fn fewer_than_two_vertices_need_no_room() {
    for corners in BOTH {
        for count in 0..2 {
            for by in [open(1.0, corners), closed(0.0, corners)] {
                let source = first(&STEPS, [count; COLUMNS]);
                for lens in [[0; 6], [3, 1, 2, 0, 4, 5]] {
                    let mut buffers = Buffers::marked(lens);
                    let drawn = buffers.job(source, by).expect("a good job");
                    assert_eq!((drawn.vertices, drawn.indexes, drawn.closed), (0, 0, false));
                    buffers.assert_same(&Buffers::marked(lens));
                }
                assert_drawn_alike(source, by);
            }
        }
    }
}

#[test]
fn columns_of_a_source_may_share_memory() {
    let list = [0.0, 1.0, 0.5, -2.0, 0.25, 3.0, -1.0];
    for [x, y, bulge] in [[0, 0, 0], [0, 0, 2], [0, 1, 2], [2, 1, 0], [1, 0, 1]] {
        let source = Columns {
            xs: &list[x..x + 5],
            ys: &list[y..y + 5],
            bulges: &list[bulge..bulge + 5],
        };
        for corners in BOTH {
            for by in [
                open(0.25, corners),
                closed(-0.25, corners),
                closed(0.0, corners),
            ] {
                let lens = lens(5, by, [1, 0, 2, 0, 3, 4]);
                assert!(assert_agrees(source, by, lens).is_ok());
                assert_drawn_alike(source, by);
            }
        }
    }
}

#[test]
fn what_is_drawn_can_be_the_next_source() {
    let plate = Columns {
        xs: [0.0, 8.0, 8.0, 0.0],
        ys: [0.0, 0.0, 4.0, 4.0],
        bulges: [0.0; 4],
    };
    let inner = Drawing::offset_columns(&plate, true, 1.0, EPS).expect("a good job");
    let inmost = Drawing::offset_columns(&inner.vertices, true, 0.5, EPS).expect("a good job");
    assert_eq!(inmost.vertices.xs, [1.5, 6.5, 6.5, 1.5]);
    assert_eq!(inmost.vertices.ys, [1.5, 1.5, 2.5, 2.5]);
    assert_eq!(inmost.vertices.bulges, [0.0; 4]);
}

/// Vectors, arrays and slices; buffers of a caller's own.
#[test]
fn columns_of_every_kind() {
    let wanted = Drawing::offset_columns(&STEPS, false, 0.5, EPS).expect("a good job");
    let vectors = owned(slices(&STEPS));
    let of_vectors = Drawing::offset_columns(&vectors, false, 0.5, EPS);
    assert_eq!(of_vectors.as_ref(), Ok(&wanted));
    let of_slices = Drawing::offset_columns(&slices(&STEPS), false, 0.5, EPS);
    assert_eq!(of_slices.as_ref(), Ok(&wanted));
    let (mut xs, mut ys, mut bulges) = ([0.0; 6], [0.0; 6], [0.0; 6]);
    let (mut flags, mut indexes, mut origins) = ([0; 6], [0; 6], [0; 6]);
    let mut lent = Columns {
        xs: &mut xs[..],
        ys: &mut ys[..],
        bulges: &mut bulges[..],
    };
    let drawn = raw_offset_columns(
        &STEPS,
        false,
        0.5,
        EPS,
        &mut lent,
        &mut flags,
        &mut indexes,
        &mut origins,
    );
    let count = drawn.expect("a good job").vertices;
    assert_eq!(xs[..count], wanted.vertices.xs);
    assert_eq!(ys[..count], wanted.vertices.ys);
    assert_eq!(bulges[..count], wanted.vertices.bulges);
}
