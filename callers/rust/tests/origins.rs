//! Where each output segment comes from, and which of them belong to a source segment.

use blidrosk::Origin::{Connector, Span};
use blidrosk::{Drawing, MOST_VERTICES, Origin, Refusal, part, raw_offset, room, segments};

const EPS: f64 = 1e-5;

const SQUARE: [f64; 12] = [0.0, 0.0, 0.0, 4.0, 0.0, 0.0, 4.0, 4.0, 0.0, 0.0, 4.0, 0.0];

const CORNER: [f64; 9] = [0.0, 0.0, 0.0, 4.0, 0.0, 0.0, 4.0, 1.0, 0.0];

const TRIANGLE: [f64; 9] = [3.0, 3.0, 0.0, 3.0, 4.0, 0.0, 2.0, 3.0, 0.0];

/// Of the first line nothing is drawn: it is shorter than the tolerance.
const TWO_LINES: [f64; 9] = [0.0, 0.0, 0.0, 1e-6, 0.0, 0.0, 4.0, 0.0, 0.0];

fn offset(source: &[f64], closed: bool, offset: f64) -> Drawing {
    Drawing::offset(source, closed, offset, EPS).expect("a good job")
}

#[track_caller]
fn assert_origins(source: &[f64], closed: bool, by: f64, origins: &[Origin]) {
    let drawing = offset(source, closed, by);
    assert_eq!(drawing.origins, origins);
    assert_parts(&drawing);
}

fn codes(drawing: &Drawing) -> Vec<u32> {
    let codes = drawing.origins.iter().map(|origin| origin.code());
    codes.map(|code| code.expect("a small number")).collect()
}

/// Every part against a plain search over all segments.
#[track_caller]
fn assert_parts(drawing: &Drawing) {
    let codes = codes(drawing);
    let n = drawing.source_segments;
    let mut parted = 0;
    for i in 0..n {
        let of: Vec<usize> = (0..codes.len())
            .filter(|&segment| drawing.origins[segment].source() == i)
            .collect();
        let range = drawing.part(i).expect("a source segment");
        assert_eq!(range.clone().collect::<Vec<_>>(), of, "source segment {i}");
        assert!(range != (0..0) || of.is_empty());
        assert_eq!(part(n as u32, &drawing.flags, &codes, i as u32), Ok(range));
        parted += of.len();
    }
    assert_eq!(parted, drawing.flags.len(), "a segment is in no part");
    for past in [n, n + 1, u32::MAX as usize, usize::MAX] {
        assert_eq!(drawing.part(past), Err(Refusal::NoSuchSourceSegment));
    }
}

#[test]
fn a_span_is_of_its_segment_and_a_connector_of_the_one_before_it() {
    let bridged = [Span(0), Connector(0), Span(1)];
    assert_origins(&CORNER, false, 2.0, &bridged);
    assert_origins(&CORNER, false, -1.0, &bridged);
    assert_origins(&CORNER, false, 0.5, &[Span(0), Span(1)]);
    assert_origins(&SQUARE, true, 1.0, &[0, 1, 2, 3].map(Span));
    assert_origins(&SQUARE, true, 3.0, &[0, 1, 2, 3].map(Span));
    let around = [0, 1, 2, 3].map(|i| [Span(i), Connector(i)]);
    assert_origins(&SQUARE, true, -1.0, around.as_flattened());
}

#[test]
fn the_last_connector_closes_the_drawing() {
    let around = [Span(0), Connector(0), Span(1), Connector(1)];
    assert_origins(&SQUARE[..6], true, 1.0, &around);
    let step = [&SQUARE[..], &[0.0, 1e-6, 0.0]].concat();
    let closed = [Span(0), Span(1), Span(2), Span(3), Connector(4)];
    assert_origins(&step, true, 1.0, &closed);
}

#[test]
fn a_segment_that_closes_the_drawing_keeps_its_origin() {
    assert_origins(&TRIANGLE, true, 1.0, &[Connector(0), Span(1), Connector(1)]);
    let arc = [
        0.0,
        0.25,
        2.0,
        -3.0994415283203125e-6,
        0.25,
        0.0,
        0.0,
        0.0,
        0.5,
    ];
    let origins = [Span(0), Span(1), Connector(1), Span(2)];
    assert_origins(&arc, true, -0.5, &origins);
}

#[test]
fn a_copied_segment_is_its_own() {
    let twice = [0.0, 0.0, 0.0, -0.0, 0.0, 0.0, 4.0, 0.0, 1.0];
    for zero in [0.0, -0.0] {
        assert_origins(&twice, false, zero, &[Span(0), Span(1)]);
        assert_origins(&twice, true, zero, &[Span(0), Span(1), Span(2)]);
        for i in 0..3 {
            assert_eq!(offset(&twice, true, zero).part(i), Ok(i..i + 1));
        }
    }
}

#[test]
fn nothing_has_no_origin() {
    assert_origins(&SQUARE, true, 2.0, &[]);
    for count in [0, 3] {
        for closed in [false, true] {
            assert_origins(&SQUARE[..count], closed, 1.0, &[]);
            let empty = offset(&SQUARE[..count], closed, 1.0);
            assert_eq!(empty.source_segments, 0);
        }
    }
}

#[test]
fn a_segment_that_is_not_drawn_has_an_empty_part() {
    let drawing = offset(&TWO_LINES, false, 1.0);
    assert_eq!(drawing.origins, [Span(1)]);
    assert_eq!((drawing.part(0), drawing.part(1)), (Ok(0..0), Ok(0..1)));
    assert_eq!(offset(&TRIANGLE, true, 1.0).part(2), Ok(0..0));
    assert_eq!(offset(&SQUARE, true, 2.0).part(3), Ok(0..0));
}

#[test]
fn zeros_past_the_output_are_spans_of_segment_0() {
    let places = room(3, false);
    let (mut vertices, mut flags) = (vec![0.0; 3 * places], vec![0; places]);
    let (mut indexes, mut origins) = (vec![0; places], vec![0; places]);
    let drawn = raw_offset(
        &TWO_LINES,
        false,
        1.0,
        EPS,
        &mut vertices,
        &mut flags,
        &mut indexes,
        &mut origins,
    )
    .expect("a good job");
    let own = drawn.segments();
    assert_eq!((own, &origins[..]), (1, &[2, 0, 0, 0][..]));
    assert_eq!(part(2, &flags[..own], &origins[..own], 0), Ok(0..0));
    assert_eq!(part(2, &flags, &origins, 0), Ok(1..4));
}

#[test]
fn the_first_of_two_parts_is_found() {
    let origins = [2, 3, 4, 2, 2, 3, 1, 0, 9, u32::MAX, u32::MAX - 1];
    let found = [
        (0, 6..8),
        (1, 0..2),
        (2, 2..3),
        (3, 0..0),
        (4, 8..9),
        (5, 0..0),
        (u32::MAX / 2, 9..11),
    ];
    for flag in [0, 1, 0xa5] {
        let flags = [flag; 11];
        for (i, range) in &found {
            assert_eq!(part(u32::MAX, &flags, &origins, *i), Ok(range.clone()));
        }
        assert_eq!(part(2, &flags, &origins, 1), Ok(0..2));
    }
    assert_eq!(part(3, &[0; 4], &[5, 4, 5, 5], 2), Ok(0..4));
    assert_eq!(part(3, &[0; 4], &[5, 4, 5, 5], 1), Ok(0..0));
}

#[test]
fn a_number_that_no_origin_has_is_in_none() {
    let origins = [0, 1, 2, 3, u32::MAX];
    for i in [1 << 31, (1 << 31) + 1, (1 << 31) + 2, u32::MAX - 1] {
        assert_eq!(part(u32::MAX, &[1; 5], &origins, i), Ok(0..0));
    }
}

#[test]
fn parts_are_refused_at_their_borders() {
    let (flags, origins) = ([0, 1, 0], [0, 1, 2]);
    let no_such = Err(Refusal::NoSuchSourceSegment);
    for (n, i) in [(0, 0), (1, 1), (2, 2), (2, 3), (u32::MAX, u32::MAX)] {
        assert_eq!(part(n, &flags, &origins, i), no_such);
        assert_eq!(part(n, &[], &[], i), no_such);
        for (flags, origins) in [
            (&flags[..2], &origins[..]),
            (&flags, &origins[..2]),
            (&[], &origins),
            (&flags, &[]),
        ] {
            assert_eq!(part(n, flags, origins, i), Err(Refusal::Ragged));
            assert_eq!(part(n, flags, origins, 0), Err(Refusal::Ragged));
        }
    }
    assert_eq!(part(1, &[], &[], 0), Ok(0..0));
    assert_eq!(part(2, &flags, &origins, 1), Ok(2..3));
    assert_eq!(
        Refusal::NoSuchSourceSegment.to_string(),
        "the source has no segment of that number"
    );
    let said = Refusal::Ragged.to_string();
    assert!(said.ends_with("a segment has a flag and an origin"));
}

#[test]
fn a_drawing_that_was_changed_by_hand_is_refused() {
    let mut drawing = offset(&CORNER, false, 2.0);
    drawing.origins[1] = Span(1 << 31);
    assert_eq!(drawing.part(0), Err(Refusal::Ragged));
    drawing.origins.truncate(1);
    assert_eq!(drawing.part(0), Err(Refusal::Ragged));
    drawing.flags.truncate(1);
    assert_eq!(drawing.part(0), Ok(0..1));
}

#[test]
fn a_number_stands_for_an_origin() {
    let most = (u32::MAX / 2) as usize;
    let numbered = [
        (0, Span(0)),
        (1, Connector(0)),
        (2, Span(1)),
        (8191, Connector(4095)),
        (u32::MAX - 1, Span(most)),
        (u32::MAX, Connector(most)),
    ];
    for (code, origin) in numbered {
        assert_eq!(Origin::from_code(code), origin);
        assert_eq!(origin.code(), Some(code));
        assert_eq!(origin.source(), (code / 2) as usize);
        assert_eq!(origin.is_connector(), code % 2 == 1);
    }
    for past in [most + 1, usize::MAX] {
        assert_eq!((Span(past).code(), Connector(past).code()), (None, None));
    }
    assert_eq!(
        Connector(2).to_string(),
        "the connector after source segment 2"
    );
    assert_eq!(Span(2).to_string(), "the span of source segment 2");
}

#[test]
fn segments_of_few_vertices() {
    let counted = [
        (0, 0, 0),
        (1, 0, 0),
        (2, 1, 2),
        (3, 2, 3),
        (4096, 4095, 4096),
    ];
    for (vertices, open, closed) in counted {
        assert_eq!(segments(vertices, false), open);
        assert_eq!(segments(vertices, true), closed);
    }
}

/// Goes up and down by 1, so that both connectors of a corner and trimmed spans come.
fn zigzag(count: usize) -> Vec<f64> {
    (0..count)
        .flat_map(|i| [i as f64, (i % 2) as f64, 0.0])
        .collect()
}

#[test]
fn the_parts_of_the_most_vertices() {
    for (closed, by) in [(false, 0.125), (true, -0.125), (true, 0.0)] {
        let drawing = offset(&zigzag(MOST_VERTICES), closed, by);
        let n = drawing.source_segments;
        assert_eq!(n, segments(MOST_VERTICES, closed));
        let codes = codes(&drawing);
        let mut end = 0;
        for i in 0..n {
            let range = part(n as u32, &drawing.flags, &codes, i as u32).expect("a part");
            assert_eq!(range.start, end, "parts follow each other");
            let pieces = [Span(i), Connector(i)];
            assert!(!range.is_empty());
            assert_eq!(drawing.origins[range.clone()], pieces[..range.len()]);
            end = range.end;
        }
        assert_eq!(end, drawing.flags.len());
        assert_eq!(drawing.part(n - 1).map(|last| last.end), Ok(end));
    }
}
