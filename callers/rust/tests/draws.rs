//! Open drawings whose vertices come by and by: their pieces are those of the whole, each handed out
//! as soon as it is certain, and what is refused, at its border.

use blidrosk::{
    Bad, Corners, Drawing, END_ROOM, Handed, MOST_VERTICES, Origin, Pen, Piece, Refusal, Stopped,
};

const EPS: f64 = 1e-5;

const POINTED: Corners = Corners::Pointed { ratio: 2.0 };

const BOTH: [Corners; 2] = [Corners::Round, POINTED];

type Vertex = [f64; 3];

/// With lines and arcs.
const STEPS: [Vertex; 6] = [
    [0.0, 0.5, 0.0],
    [4.0, 0.0, 0.5],
    [5.0, 3.0, 0.0],
    [9.0, -2.0, -0.25],
    [9.0, -9.0, 0.0],
    [3.0, -9.0, 0.0],
];

const CORNER: [Vertex; 3] = [[0.0, 0.0, 0.0], [4.0, 0.0, 0.0], [4.0, 4.0, 0.0]];

#[derive(Clone, Copy, Debug)]
struct Settings {
    offset: f64,
    eps: f64,
    corners: Corners,
}

fn by(offset: f64, corners: Corners) -> Settings {
    Settings {
        offset,
        eps: EPS,
        corners,
    }
}

impl Settings {
    #[track_caller]
    fn pen(self) -> Pen {
        Pen::start_with(self.offset, self.eps, self.corners).expect("good settings")
    }

    fn whole(self, vertices: &[Vertex]) -> Result<Drawing, Refusal> {
        let Settings {
            offset,
            eps,
            corners,
        } = self;
        Drawing::offset_with(vertices.as_flattened(), false, offset, eps, corners)
    }

    /// With which vertex a source segment comes.
    fn comes_with(self, source_segment: usize) -> usize {
        source_segment + if self.offset == 0.0 { 1 } else { 2 }
    }
}

fn bits(numbers: &[f64]) -> Vec<u64> {
    numbers.iter().map(|number| number.to_bits()).collect()
}

#[track_caller]
fn assert_piece(found: &Piece, wanted: &Piece) {
    assert_eq!(
        bits(&found.vertices),
        bits(&wanted.vertices),
        "{found:?}, not {wanted:?}"
    );
    assert_eq!(found.flags, wanted.flags);
    assert_eq!(found.indexes, wanted.indexes);
    assert_eq!(found.origins, wanted.origins);
}

/// What the vertices from `start` up to `end` hand out of a whole.
fn piece_of(whole: &Drawing, settings: Settings, start: usize, end: usize) -> Piece {
    // origins rise, and so do indexes
    let before = |vertex| {
        whole
            .origins
            .partition_point(|origin| settings.comes_with(origin.source()) < vertex)
    };
    let [first, past] = [start, end].map(before);
    let red = |segment| {
        whole
            .indexes
            .partition_point(|&index| (index as usize) < segment)
    };
    Piece {
        vertices: whole.vertices[3 * first..3 * past].to_vec(),
        flags: whole.flags[first..past].to_vec(),
        indexes: whole.indexes[red(first)..red(past)].to_vec(),
        origins: whole.origins[first..past].to_vec(),
    }
}

/// What the end hands out after so many vertices: the rest, with the last vertex.
fn last_piece(whole: &Drawing, settings: Settings, vertices: usize) -> Piece {
    let mut piece = piece_of(whole, settings, vertices, usize::MAX);
    let last = whole.vertices.len().saturating_sub(3);
    piece.vertices.extend(&whole.vertices[last..]);
    piece
}

/// Nothing was handed out, and the pen is as it was.
#[track_caller]
fn assert_refused(
    pen: &mut Pen,
    call: impl FnOnce(&mut Pen) -> Result<Piece, Stopped>,
    refusal: Refusal,
    place: usize,
) {
    let before = pen.clone();
    let piece = Piece::default();
    assert_eq!(
        call(pen),
        Err(Stopped {
            refusal,
            place,
            piece
        })
    );
    assert_eq!(*pen, before);
}

/// Whatever comes after a refusal or the end is answered alike, and changes nothing.
#[track_caller]
fn assert_shut(pen: &mut Pen, refusal: Refusal, place: usize) {
    let sources: [&[f64]; 4] = [&[], &[7.0, 7.0, 0.0], &[1.0], &[f64::NAN; 3]];
    for source in sources {
        assert_refused(pen, |pen| pen.draw(source), refusal, place);
        let before = pen.clone();
        let mut buffers = Buffers::marked([0; 4]);
        assert_eq!(buffers.draw(pen, source), none(Some(refusal), place));
        assert_eq!(buffers.end(pen), none(Some(refusal), place));
        assert_eq!(*pen, before);
    }
    assert_refused(pen, Pen::end, refusal, place);
}

fn none(refusal: Option<Refusal>, place: usize) -> Handed {
    Handed {
        refusal,
        place,
        vertices: 0,
        indexes: 0,
        segments: 0,
    }
}

/// Lengths of the four buffers: vertices in numbers, flags, indexes, origins.
type Lens = [usize; 4];

fn lens(places: usize) -> Lens {
    [3 * places, places, places, places]
}

/// Buffers that hold marks of their own, another in each place.
#[derive(Clone, Debug)]
struct Buffers {
    vertices: Vec<f64>,
    flags: Vec<u8>,
    indexes: Vec<u32>,
    origins: Vec<u32>,
}

impl Buffers {
    fn marked([vertices, flags, indexes, origins]: Lens) -> Self {
        let mark = |place| f64::from_bits(0xfff5_0000_0000_0000 | place as u64);
        Buffers {
            vertices: (0..vertices).map(mark).collect(),
            flags: (0..flags).map(|place| 100 + (place % 100) as u8).collect(),
            indexes: (777_000..).take(indexes).collect(),
            origins: (888_000..).take(origins).collect(),
        }
    }

    fn lens(&self) -> Lens {
        [
            self.vertices.len(),
            self.flags.len(),
            self.indexes.len(),
            self.origins.len(),
        ]
    }

    fn draw(&mut self, pen: &mut Pen, source: &[f64]) -> Handed {
        pen.draw_into(
            source,
            &mut self.vertices,
            &mut self.flags,
            &mut self.indexes,
            &mut self.origins,
        )
    }

    fn end(&mut self, pen: &mut Pen) -> Handed {
        pen.end_into(
            &mut self.vertices,
            &mut self.flags,
            &mut self.indexes,
            &mut self.origins,
        )
    }

    /// The first places have the piece, and all others their marks.
    #[track_caller]
    fn assert_holds(&self, piece: &Piece) {
        let mut wanted = Buffers::marked(self.lens());
        wanted.vertices[..piece.vertices.len()].copy_from_slice(&piece.vertices);
        wanted.flags[..piece.flags.len()].copy_from_slice(&piece.flags);
        wanted.indexes[..piece.indexes.len()].copy_from_slice(&piece.indexes);
        for (place, origin) in wanted.origins.iter_mut().zip(&piece.origins) {
            *place = origin.code().expect("an origin of a drawing");
        }
        assert_eq!(bits(&self.vertices), bits(&wanted.vertices));
        assert_eq!(self.flags, wanted.flags);
        assert_eq!(self.indexes, wanted.indexes);
        assert_eq!(self.origins, wanted.origins);
    }
}

fn counts(piece: &Piece) -> Handed {
    Handed {
        vertices: piece.vertices.len() / 3,
        indexes: piece.indexes.len(),
        segments: piece.flags.len(),
        ..none(None, 0)
    }
}

/// One call in three ways: into vectors, into buffers that fit, and into longer ones.
#[track_caller]
fn assert_draws(pen: &mut Pen, settings: Settings, source: &[f64], wanted: &Piece) {
    let room = settings.corners.draw_room(source.len() / 3);
    let (mut one, mut other) = (pen.clone(), pen.clone());
    assert_piece(&pen.draw(source).expect("good vertices"), wanted);
    let mut exact = Buffers::marked(lens(room));
    assert_eq!(exact.draw(&mut one, source), counts(wanted));
    exact.assert_holds(wanted);
    let mut longer = Buffers::marked([3 * room + 2, room + 3, room + 1, room + 4]);
    assert_eq!(longer.draw(&mut other, source), counts(wanted));
    longer.assert_holds(wanted);
    assert!(one == *pen && other == *pen);
    if source.is_empty() {
        assert_eq!(wanted.vertices, []);
    }
}

#[track_caller]
fn assert_ends(pen: &mut Pen, wanted: &Piece) {
    let mut one = pen.clone();
    assert_piece(&pen.end().expect("a good drawing"), wanted);
    let mut buffers = Buffers::marked([3 * END_ROOM + 1, END_ROOM, END_ROOM + 2, END_ROOM + 1]);
    assert_eq!(buffers.end(&mut one), counts(wanted));
    buffers.assert_holds(wanted);
    assert_eq!(one, *pen);
}

/// Draws the vertices in groups of these sizes, over and over, each held to the whole, and ends.
#[track_caller]
fn assert_drawn(vertices: &[Vertex], settings: Settings, sizes: &[usize]) {
    let whole = settings.whole(vertices).expect("a good job");
    let mut pen = settings.pen();
    let mut joined = Piece::default();
    let mut k = 0;
    for size in sizes.iter().cycle() {
        let past = vertices.len().min(k + size);
        let wanted = piece_of(&whole, settings, k, past);
        let before = pen.clone();
        assert_draws(
            &mut pen,
            settings,
            vertices[k..past].as_flattened(),
            &wanted,
        );
        assert!(k < past || pen == before, "an empty call changed the pen");
        joined.append(wanted);
        k = past;
        if k == vertices.len() {
            break;
        }
    }
    let last = last_piece(&whole, settings, vertices.len());
    assert_ends(&mut pen, &last);
    joined.append(last);
    let drawing = Drawing {
        vertices: joined.vertices,
        flags: joined.flags,
        indexes: joined.indexes,
        origins: joined.origins,
        ..whole.clone()
    };
    assert_eq!(drawing, whole);
    assert_shut(&mut pen, Refusal::NoOpenJob, 0);
}

/// Vertex `k` is refused, in groups of every size; what is before it is handed out.
#[track_caller]
fn assert_refused_at(vertices: &[Vertex], settings: Settings, k: usize, refusal: Refusal) {
    let nothing = || settings.whole(&[]).expect("good settings");
    // where the whole of the vertices before is refused too, nothing came before
    let whole = settings.whole(&vertices[..k]).unwrap_or_else(|_| nothing());
    for size in 1..=vertices.len() {
        let mut pen = settings.pen();
        let start = k / size * size;
        for (i, group) in vertices[..start].chunks(size).enumerate() {
            let wanted = piece_of(&whole, settings, i * size, i * size + group.len());
            assert_draws(&mut pen, settings, group.as_flattened(), &wanted);
        }
        let group = &vertices[start..vertices.len().min(start + size)];
        let piece = piece_of(&whole, settings, start, k);
        let mut other = pen.clone();
        let mut buffers = Buffers::marked(lens(settings.corners.draw_room(size) + 1));
        let handed = buffers.draw(&mut other, group.as_flattened());
        assert_eq!(
            handed,
            Handed {
                refusal: Some(refusal),
                place: k,
                ..counts(&piece)
            }
        );
        buffers.assert_holds(&piece);
        let stopped = pen.draw(group.as_flattened()).expect_err("a bad vertex");
        assert_eq!((stopped.refusal, stopped.place), (refusal, k));
        assert_piece(&stopped.piece, &piece);
        assert_eq!(other, pen);
        assert_shut(&mut pen, refusal, k);
    }
}

const SIZES: [&[usize]; 9] = [
    &[1],
    &[usize::MAX >> 1],
    &[2],
    &[3],
    &[1, 2],
    &[0, 1],
    &[0, 3, 0, 1],
    &[1, usize::MAX >> 1],
    &[5, 1],
];

fn spiral(vertices: usize) -> Vec<Vertex> {
    let (mut x, mut y) = (0.0, 0.0);
    (0..vertices)
        .map(|i| {
            let vertex = [x, y, 0.0];
            let length = (i / 2 + 1) as f64;
            match i % 4 {
                0 => x += length,
                1 => y += length,
                2 => x -= length,
                _ => y -= length,
            }
            vertex
        })
        .collect()
}

/// Numbers that seem to follow no rule, the same in every run: splitmix64.
struct Random(u64);

impl Random {
    fn next(&mut self) -> u64 {
        self.0 = self.0.wrapping_add(0x9e37_79b9_7f4a_7c15);
        let z = (self.0 ^ (self.0 >> 30)).wrapping_mul(0xbf58_476d_1ce4_e5b9);
        let z = (z ^ (z >> 27)).wrapping_mul(0x94d0_49bb_1331_11eb);
        z ^ (z >> 31)
    }

    fn below(&mut self, end: usize) -> usize {
        (self.next() % end as u64) as usize
    }

    fn one_of<T: Copy>(&mut self, all: &[T]) -> T {
        all[self.below(all.len())]
    }

    /// From -1 up to 1.
    fn number(&mut self) -> f64 {
        (self.next() >> 11) as f64 / (1u64 << 52) as f64 - 1.0
    }

    /// On a coarse grid or anywhere, so that lines meet at every kind of corner.
    fn vertex(&mut self, grid: bool) -> Vertex {
        let turned = 1.5 * self.number();
        let bulge = self.one_of(&[0.0, 0.0, 0.0, -0.0, 1.0, -1.0, 0.5, turned]);
        if grid {
            let [x, y] = [(); 2].map(|()| self.below(9) as f64 - 4.0);
            [x, y, bulge]
        } else {
            [9.0 * self.number(), 9.0 * self.number(), bulge]
        }
    }

    fn settings(&mut self) -> Settings {
        let by = 3.0 * self.number();
        let ratio = 1.0 + 9.0 * (self.number() + 1.0) / 2.0;
        Settings {
            offset: self.one_of(&[0.0, -0.0, 1.0, -1.0, 0.25, -0.25, by, by]),
            eps: self.one_of(&[EPS, EPS, 1e-9, 0.01]),
            corners: self.one_of(&[Corners::Round, POINTED, Corners::Pointed { ratio }]),
        }
    }
}

#[test]
fn many_drawings_agree_with_the_whole() {
    let mut random = Random(5);
    let mut kinds = [0; 3];
    for _ in 0..3000 {
        let (count, grid) = (random.below(14), random.below(2) == 0);
        let vertices: Vec<_> = (0..count).map(|_| random.vertex(grid)).collect();
        let settings = random.settings();
        let sizes = [(); 4].map(|()| 1 + random.below(5));
        let kind = match settings.whole(&vertices) {
            Ok(whole) => {
                assert_drawn(&vertices, settings, &sizes);
                usize::from(whole.indexes.is_empty())
            }
            Err(Refusal::Repeated(k)) => {
                assert_refused_at(&vertices, settings, k + 1, Refusal::Repeated(k + 1));
                2
            }
            Err(refusal) => panic!("{refusal}"),
        };
        kinds[kind] += 1;
    }
    let [red, clear, refused] = kinds;
    assert!(red > 500 && clear > 500 && refused > 50, "{kinds:?}");
}

#[test]
fn every_grouping_gives_the_whole() {
    let tight = [[0.0, 0.0, 0.0], [4.0, 0.0, 0.0], [4.0, 1.0, 0.0]];
    let collapsed = [
        [0.0, 0.0, 0.0],
        [4.0, 0.0, -1.0],
        [4.5, -0.5, 0.0],
        [4.5, -6.0, 0.0],
    ];
    let short = |step: f64| [[0.0; 3], [step, 0.0, 0.0], [4.0, 0.0, 0.0]];
    let same = [[1.0, 1.0, 0.5], [1.0, 1.0, -0.25], [1.0, 1.0, -1e9]];
    let drawings: [(&[Vertex], f64); 14] = [
        (&CORNER, 1.0),
        (&CORNER, -1.0),
        (&tight, 2.0),
        (&STEPS, 0.5),
        (&STEPS, -1.5),
        (&STEPS, 0.0),
        (&collapsed, -3.0),
        (&short(1e-6), 1.0),
        (&[[0.0, 0.0, 1.0], [4.0, 0.0, 0.0]], 3.0),
        (&[[0.0, 0.0, 1.0], [1e-200, 0.0, 0.0]], 1.0),
        (&[[10.0, 5e-7, 4e7], [10.0, -5e-7, 0.0]], -1.0),
        (&same, -0.0),
        (&[[1.0, 2.0, 3.0]], 1.0),
        (&[], 0.0),
    ];
    for corners in BOTH {
        for (vertices, offset) in drawings {
            for sizes in SIZES {
                assert_drawn(vertices, by(offset, corners), sizes);
            }
        }
    }
}

#[test]
fn a_segment_comes_as_soon_as_it_is_certain() {
    let mut pen = Pen::start(1.0, EPS).expect("good settings");
    let [a, b, c] = CORNER;
    assert_eq!(pen.draw(&a), Ok(Piece::default()));
    assert_eq!(pen.draw(&b), Ok(Piece::default()));
    assert_eq!(
        pen.draw(&c),
        Ok(Piece {
            vertices: vec![0.0, 1.0, 0.0],
            flags: vec![0],
            indexes: vec![],
            origins: vec![Origin::Span(0)],
        })
    );
    assert_eq!(
        pen.end(),
        Ok(Piece {
            vertices: vec![3.0, 1.0, 0.0, 3.0, 4.0, 0.0],
            flags: vec![0],
            indexes: vec![],
            origins: vec![Origin::Span(1)],
        })
    );
}

#[test]
fn both_connectors_of_a_point_come_together() {
    let mut pen = Pen::start_with(-1.0, EPS, POINTED).expect("good settings");
    let piece = pen.draw(CORNER.as_flattened()).expect("good vertices");
    assert_eq!(
        piece.vertices,
        [0.0, -1.0, 0.0, 4.0, -1.0, 0.0, 5.0, -1.0, 0.0]
    );
    assert_eq!(
        piece.origins,
        [Origin::Span(0), Origin::Connector(0), Origin::Connector(0)]
    );
    assert_eq!(pen.end().expect("a good drawing").flags, [0]);
}

#[test]
fn a_copy_is_one_vertex_behind() {
    for corners in BOTH {
        for offset in [0.0, -0.0] {
            let mut pen = by(offset, corners).pen();
            let vertices = [[-0.0, 0.0, -0.0], [-0.0, 0.0, 7.0], [4.0, -0.0, -1.5]];
            let mut before: &[f64] = &[];
            for vertex in &vertices {
                let piece = pen.draw(vertex).expect("a good vertex");
                assert_eq!(bits(&piece.vertices), bits(before));
                before = vertex;
            }
            let end = pen.end().expect("a good drawing");
            assert_eq!(bits(&end.vertices), bits(before));
            assert_eq!(end.flags, []);
        }
    }
}

/// The next double away from zero.
fn farther(number: f64) -> f64 {
    f64::from_bits(number.to_bits() + 1)
}

/// The next double towards zero.
fn nearer(number: f64) -> f64 {
    f64::from_bits(number.to_bits() - 1)
}

const NO_NUMBERS: [f64; 3] = [f64::NAN, f64::INFINITY, f64::NEG_INFINITY];

#[test]
fn settings_are_taken_to_their_limits() {
    let bad = Err(Refusal::BadNumber(Bad::Setting));
    let start = |offset, eps, corners| Pen::start_with(offset, eps, corners).map(drop);
    let pointed = |ratio| Corners::Pointed { ratio };
    for corners in [Corners::Round, pointed(1.0), pointed(10.0)] {
        for offset in [1e6, -1e6, 0.0, -0.0, 5e-324] {
            for eps in [1e-9, 0.01] {
                assert_eq!(start(offset, eps, corners), Ok(()));
            }
        }
        let offsets = [farther(1e6), farther(-1e6)];
        for offset in NO_NUMBERS.into_iter().chain(offsets) {
            assert_eq!(start(offset, EPS, corners), bad);
        }
        let tolerances = [nearer(1e-9), farther(0.01), 0.0, -0.0, -EPS];
        for eps in NO_NUMBERS.into_iter().chain(tolerances) {
            assert_eq!(start(1.0, eps, corners), bad);
            assert_eq!(start(0.0, eps, corners), bad);
        }
    }
    let ratios = [nearer(1.0), farther(10.0), 0.0, -0.0, -2.0];
    for ratio in NO_NUMBERS.into_iter().chain(ratios) {
        assert_eq!(start(1.0, EPS, pointed(ratio)), bad);
        assert_eq!(start(0.0, EPS, pointed(ratio)), bad);
    }
}

#[test]
fn numbers_of_a_vertex_are_taken_to_their_limits() {
    for corners in BOTH {
        for k in 0..STEPS.len() {
            for (column, limit) in [1e6, 1e6, 1e9].into_iter().enumerate() {
                let mut vertices = STEPS;
                for good in [limit, -limit, 0.0, -0.0] {
                    vertices[k][column] = good;
                    assert_drawn(&vertices, by(0.0, corners), &[1, 2]);
                }
                let bad = [farther(limit), farther(-limit)];
                for (i, bad) in NO_NUMBERS.into_iter().chain(bad).enumerate() {
                    vertices[k][column] = bad;
                    let refusal = Refusal::BadNumber(Bad::Vertex(k));
                    let offset = [1.0, -1.0, 0.0][i % 3];
                    assert_refused_at(&vertices, by(offset, corners), k, refusal);
                }
            }
        }
    }
}

#[test]
fn the_most_vertices_are_taken_and_one_more_is_not() {
    let mut vertices = spiral(5000);
    for corners in BOTH {
        for offset in [-0.25, 0.0] {
            let settings = by(offset, corners);
            for sizes in [&[1][..], &[1000], &[MOST_VERTICES]] {
                assert_drawn(&vertices[..MOST_VERTICES], settings, sizes);
            }
            let mut pen = settings.pen();
            // room is tested for all of them before any is taken
            let mut buffers = Buffers::marked(lens(corners.draw_room(MOST_VERTICES)));
            let handed = buffers.draw(&mut pen, vertices.as_flattened());
            assert_eq!(handed, none(Some(Refusal::NoRoom), 0));
            assert_eq!(pen, settings.pen());
            let stopped = pen.draw(vertices.as_flattened()).expect_err("too many");
            assert_eq!(
                (stopped.refusal, stopped.place),
                (Refusal::TooMany, MOST_VERTICES)
            );
            let whole = settings.whole(&vertices[..MOST_VERTICES]).expect("good");
            let wanted = piece_of(&whole, settings, 0, MOST_VERTICES);
            assert_piece(&stopped.piece, &wanted);
            assert_shut(&mut pen, Refusal::TooMany, MOST_VERTICES);
            // and in a call of its own
            let (most, more) = vertices.split_at(MOST_VERTICES);
            let mut pen = settings.pen();
            assert_draws(&mut pen, settings, most.as_flattened(), &wanted);
            let stopped = pen.draw(&more[0]).expect_err("too many");
            assert_eq!(stopped.piece, Piece::default());
            assert_shut(&mut pen, Refusal::TooMany, MOST_VERTICES);
        }
        // too many comes before its numbers
        vertices[MOST_VERTICES] = [f64::NAN; 3];
    }
}

/// Most indexes come in late calls of many vertices.
#[test]
fn a_long_saw_gives_the_whole() {
    let tooth = |i: usize| {
        let bulge = [0.5, 0.0, 0.0, 0.0, 0.0][i % 5];
        [0.25 * i as f64, (i % 2) as f64, bulge]
    };
    let saw: Vec<_> = (0..MOST_VERTICES).map(tooth).collect();
    for corners in BOTH {
        let settings = by(0.75, corners);
        assert!(settings.whole(&saw).expect("a good job").indexes.len() > 1000);
        for sizes in [&[1000][..], &[17, 300], &[64]] {
            assert_drawn(&saw, settings, sizes);
        }
    }
}

#[test]
fn room_is_tested_in_each_buffer() {
    for corners in BOTH {
        for settings in [by(-1.0, corners), by(0.0, corners)] {
            for count in [1, 2, 6] {
                let room = corners.draw_room(count);
                let source = STEPS[..count].as_flattened();
                let bad = vec![f64::NAN; 3 * count];
                for short in 0..4 {
                    let mut pen = settings.pen();
                    let mut tight = lens(room);
                    tight[short] -= 1;
                    for source in [source, &bad] {
                        let mut buffers = Buffers::marked(tight);
                        assert_eq!(
                            buffers.draw(&mut pen, source),
                            none(Some(Refusal::NoRoom), 0)
                        );
                        buffers.assert_holds(&Piece::default());
                        assert_eq!(pen, settings.pen());
                    }
                    let mut tight = lens(END_ROOM);
                    tight[short] -= 1;
                    let mut buffers = Buffers::marked(tight);
                    assert_eq!(buffers.end(&mut pen), none(Some(Refusal::NoRoom), 0));
                    buffers.assert_holds(&Piece::default());
                    assert_eq!(pen, settings.pen());
                    // and then it goes on
                    assert_draws(
                        &mut pen,
                        settings,
                        source,
                        &piece_of(&settings.whole(&STEPS).expect("good"), settings, 0, count),
                    );
                }
            }
        }
    }
}

#[test]
fn numbers_left_over_change_nothing() {
    for corners in BOTH {
        let mut pen = by(1.0, corners).pen();
        for (k, vertex) in STEPS.iter().enumerate() {
            for left in [1, 2] {
                let numbers = vec![f64::NAN; 3 * k + left];
                assert_refused(&mut pen, |pen| pen.draw(&numbers), Refusal::Ragged, 0);
                let before = pen.clone();
                let mut buffers = Buffers::marked([0; 4]);
                let handed = buffers.draw(&mut pen, &numbers);
                assert_eq!(handed, none(Some(Refusal::Ragged), 0));
                assert_eq!(pen, before);
            }
            pen.draw(vertex).expect("a good vertex");
        }
        assert_ne!(pen.end().expect("a good drawing").vertices, []);
    }
}

#[test]
fn a_repeated_vertex_is_the_later_one() {
    let zeros = [[0.0, 0.0, 0.0], [4.0, 0.0, 0.0], [4.0, -0.0, 1.0], [9.0; 3]];
    let then_bad = [[0.0; 3], [4.0, 0.0, 0.0], [4.0, 0.0, 0.0], [f64::NAN; 3]];
    let bad_too = [[0.0; 3], [4.0, 0.0, 0.0], [4.0, 0.0, 2e9]];
    let late = [
        CORNER[0],
        CORNER[1],
        CORNER[2],
        [0.0, 4.0, 0.5],
        [0.0, 4.0, 0.0],
        [9.0; 3],
    ];
    for corners in BOTH {
        let settings = by(1.0, corners);
        assert_refused_at(&zeros, settings, 2, Refusal::Repeated(2));
        assert_refused_at(&then_bad, settings, 2, Refusal::Repeated(2));
        assert_refused_at(&late, settings, 4, Refusal::Repeated(4));
        assert_refused_at(&[[1.0; 3], [1.0; 3]], settings, 1, Refusal::Repeated(1));
        let bad = Refusal::BadNumber(Bad::Vertex(2));
        assert_refused_at(&bad_too, settings, 2, bad);
        assert_drawn(&late, by(-0.0, corners), &[1]);
        assert_drawn(&zeros, by(0.0, corners), &[3]);
        // equal in one number alone, or not joined
        let apart = [
            [4.0, 1.0, 0.0],
            [4.0, 2.0, 0.0],
            [1.0, 2.0, 0.0],
            [4.0, 1.0, 0.0],
        ];
        assert_drawn(&apart, settings, &[1]);
    }
}

#[test]
fn what_is_not_finite_is_refused_where_it_would_be_handed_out() {
    let tiny = [[0.0; 3], [1e-200, 0.0, 0.0], [4.0, 0.0, 0.0], [f64::NAN; 3]];
    let later = [
        [-9.0, 0.0, 0.0],
        [-9.0, -9.0, 0.0],
        [0.0; 3],
        [0.0, 1e-200, 0.0],
        [4.0, 4.0, 0.0],
    ];
    // the span alone would leave a good vertex, and the connector a NaN
    let half = [
        [5.0, 4.0, 0.0],
        [-3.0, 4.0, -0.6180339887498949],
        [5.0, 0.0, 0.0],
    ];
    for corners in BOTH {
        let settings = by(1.0, corners);
        assert_refused_at(&tiny, settings, 2, Refusal::NotFinite);
        assert_refused_at(&later, settings, 3, Refusal::NotFinite);
        let narrow = Settings {
            offset: -0.5000002384185791,
            eps: 4.7683715820312495e-7,
            corners,
        };
        assert_refused_at(&half, narrow, 2, Refusal::NotFinite);
        assert_drawn(&tiny[..3], by(0.0, corners), &[1]);
        // at the end, with as many vertices as there are
        let mut pen = settings.pen();
        pen.draw(tiny[..2].as_flattened()).expect("good vertices");
        let mut buffers = Buffers::marked(lens(END_ROOM + 1));
        let refused = none(Some(Refusal::NotFinite), 2);
        assert_eq!(buffers.end(&mut pen), refused);
        buffers.assert_holds(&Piece::default());
        assert_shut(&mut pen, Refusal::NotFinite, 2);
        // a gap that leads to a NaN leaves a good vertex, and the next one is refused
        let gap = [[0.0; 3], [1e-6, 0.0, 0.0], [1e-6, 1e-200, 0.0]];
        for end in [false, true] {
            let mut pen = settings.pen();
            let piece = pen.draw(gap.as_flattened()).expect("good vertices");
            assert_eq!(piece.vertices, [0.0, 1.0, 0.0]);
            assert_eq!(piece.indexes, [0]);
            assert_eq!(piece.origins, [Origin::Connector(0)]);
            let stopped = if end {
                pen.end()
            } else {
                pen.draw(&[4.0, 4.0, 0.0])
            };
            let stopped = stopped.expect_err("a NaN would be handed out");
            assert_eq!((stopped.refusal, stopped.place), (Refusal::NotFinite, 3));
            assert_eq!(stopped.piece, Piece::default());
            assert_shut(&mut pen, Refusal::NotFinite, 3);
        }
    }
}

#[test]
fn an_end_of_nothing_is_done_and_comes_once() {
    for corners in BOTH {
        for offset in [1.0, 0.0] {
            for count in 0..2 {
                let mut pen = by(offset, corners).pen();
                pen.draw(STEPS[..count].as_flattened()).expect("good");
                assert_ends(&mut pen, &Piece::default());
                assert_shut(&mut pen, Refusal::NoOpenJob, 0);
            }
        }
    }
}

#[test]
fn clones_go_on_by_themselves() {
    for corners in BOTH {
        let settings = by(-1.0, corners);
        for k in 0..=STEPS.len() {
            let mut moved = STEPS;
            for vertex in &mut moved[k..] {
                vertex[1] += 0.5;
            }
            let mut pen = settings.pen();
            pen.draw(STEPS[..k].as_flattened()).expect("good vertices");
            let mut other = pen.clone();
            for i in k..STEPS.len() {
                for (pen, vertices) in [(&mut pen, STEPS), (&mut other, moved)] {
                    let whole = settings.whole(&vertices).expect("a good job");
                    let wanted = piece_of(&whole, settings, i, i + 1);
                    assert_draws(pen, settings, &vertices[i], &wanted);
                }
            }
            for (pen, vertices) in [(&mut pen, STEPS), (&mut other, moved)] {
                let whole = settings.whole(&vertices).expect("a good job");
                assert_ends(pen, &last_piece(&whole, settings, STEPS.len()));
            }
        }
    }
}

#[test]
fn a_refusal_says_what_to_mend() {
    let told = |source: &[f64]| {
        let mut pen = Pen::start(1.0, EPS).expect("good settings");
        pen.draw(source).expect_err("a bad vertex").to_string()
    };
    assert_eq!(
        told(&[0.0, 0.0, 0.0, 0.0, -0.0, 0.0]),
        "vertex 1 is the same point as the one before it: leave it out"
    );
    assert_eq!(
        told(&[0.0, 0.0, 0.0, 1e-200, 0.0, 0.0, 4.0, 0.0, 0.0]),
        "after 2 vertices the offset drawing has a number that is not finite"
    );
    assert_eq!(
        told(&[0.0, 0.0, 2e9]),
        "vertex 0 has a number out of range: x and y within ±1000000, bulge within ±1000000000"
    );
    let mut pen = Pen::start(1.0, EPS).expect("good settings");
    pen.end().expect("nothing is drawn");
    assert_eq!(
        pen.end().expect_err("it has ended").to_string(),
        "the drawing has ended: start a new one"
    );
    let refusal = Pen::start(f64::NAN, EPS).expect_err("no number");
    assert_eq!(
        refusal.to_string(),
        "a number is out of range: the offset within ±1000000, the tolerance 1e-9 to 0.01, \
         the ratio of pointed corners 1 to 10"
    );
}
