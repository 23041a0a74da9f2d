//! The part of an output that came from one source segment: 02's 2026-09.

use oracle::part::{Output, PartAnswer, named};
use oracle::text::{part_row, read_part};

/// Asks with as many flags as origins.
fn part(n: u32, origins: &[u32], source: u32) -> PartAnswer {
    asked(n, origins.len(), origins, source)
}

/// Asks the reference and, where it is there, the proved code, whatever the flags are.
fn asked(n: u32, flags: usize, origins: &[u32], source: u32) -> PartAnswer {
    let [low, high] = [0, 255].map(|flag| vec![flag; flags]);
    let other: Vec<u8> = (0..flags).map(|place| place as u8).collect();
    let output = |flags| Output { n, flags, origins };
    let answer = output(&low).part(source);
    for flags in [&low, &high, &other] {
        assert_eq!(output(flags).part(source), answer);
        #[cfg(feature = "proved")]
        assert_eq!(oracle::proved::part(output(flags), source), answer);
    }
    answer
}

/// A part that is found.
fn found(start: u32, length: u32) -> PartAnswer {
    [0, 0, start, length]
}

const EMPTY: PartAnswer = [0; 4];
const RAGGED: PartAnswer = [1, 0, 0, 0];
const NO_SUCH: PartAnswer = [13, 0, 0, 0];

#[test]
fn a_part_has_span_and_connector() {
    let origins = [0, 1, 2, 4, 5, 7];
    assert_eq!(part(4, &origins, 0), found(0, 2));
    assert_eq!(part(4, &origins, 1), found(2, 1));
    assert_eq!(part(4, &origins, 2), found(3, 2));
    assert_eq!(part(4, &origins, 3), found(5, 1));
}

/// Not the last, not all of them, and not from the first to the last.
#[test]
fn only_the_first_of_broken_parts_is_given() {
    assert_eq!(part(2, &[2, 0, 1, 2, 3, 3, 0], 0), found(1, 2));
    assert_eq!(part(2, &[2, 0, 1, 2, 3, 3, 0], 1), found(0, 1));
    assert_eq!(part(2, &[0, 2, 0, 0], 0), found(0, 1));
}

#[test]
fn without_a_name_the_part_is_empty() {
    assert_eq!(part(4, &[0, 1, 4, 5], 1), EMPTY);
    assert_eq!(part(4, &[0, 1, 4, 5], 3), EMPTY);
    assert_eq!(part(1, &[], 0), EMPTY);
}

/// The first segment is dropped with its connector; what else names it are the zeros.
#[test]
fn zeros_are_spans_of_segment_0() {
    assert_eq!(part(2, &[2], 0), EMPTY);
    assert_eq!(part(2, &[2, 0, 0, 0], 0), found(1, 3));
    assert_eq!(part(2, &[2, 0, 0, 0], 1), found(0, 1));
}

#[test]
fn refusals_come_in_order() {
    for (flags, origins) in [(0, &[0][..]), (1, &[]), (2, &[0, 1, 2]), (4, &[0, 1, 2])] {
        for (n, source) in [(2, 0), (2, 1), (2, 2), (0, 0), (0, u32::MAX)] {
            assert_eq!(asked(n, flags, origins, source), RAGGED);
        }
    }
    for source in [3, 4, 1 << 31, u32::MAX] {
        assert_eq!(part(3, &[0, 1, 2, 6, 8], source), NO_SUCH);
        assert_eq!(part(0, &[], source), NO_SUCH);
    }
    assert_eq!(part(0, &[0, 0], 0), NO_SUCH);
    assert_eq!(part(u32::MAX, &[0, 0], u32::MAX), NO_SUCH);
    // Just below n; names from n on are not judged, nor that there are more than 2n.
    assert_eq!(part(5, &[0, 1, 2, 6, 8], 4), found(4, 1));
    assert_eq!(part(1, &[8, 1, 2, 6, 8], 0), found(1, 1));
    assert_eq!(part(1, &[8, 6, 2, 1, 0], 0), found(3, 2));
}

#[test]
fn no_code_names_a_source_segment_from_2_to_the_31_on() {
    let (most, past) = (u32::MAX, 1 << 31);
    let origins = [0, 1, 2, 3, most - 3, most - 2, most - 1, most];
    assert_eq!(part(most, &origins, past - 1), found(6, 2));
    assert_eq!(part(past, &origins, past - 1), found(6, 2));
    assert_eq!(part(past - 1, &origins, past - 1), NO_SUCH);
    assert_eq!(part(most, &origins, past - 2), found(4, 2));
    for source in [past, past + 1, most - 2, most - 1] {
        assert_eq!(part(most, &origins, source), EMPTY);
    }
    assert_eq!(part(past, &origins, past), NO_SUCH);
    assert_eq!(part(past + 1, &origins, past), EMPTY);
}

/// All maximal unbroken parts that name a source segment, by looking at every start and every end.
fn unbroken(origins: &[u32], source: u32) -> Vec<(usize, usize)> {
    let names = |place: Option<&u32>| place.is_some_and(|origin| named(*origin) == source);
    let mut parts = Vec::new();
    for start in 0..origins.len() {
        for end in start + 1..=origins.len() {
            let whole = origins[start..end].iter().all(|origin| names(Some(origin)));
            let before = start.checked_sub(1).and_then(|place| origins.get(place));
            if whole && !names(before) && !names(origins.get(end)) {
                parts.push((start, end - start));
            }
        }
    }
    parts
}

/// A list with each code below 6 after it.
fn longer(list: &[u32]) -> Vec<Vec<u32>> {
    (0..6).map(|code| [list, &[code]].concat()).collect()
}

/// Every list of up to five codes below 6.
#[test]
fn it_is_the_first_of_all_unbroken_parts() {
    let mut lists: Vec<Vec<u32>> = vec![Vec::new()];
    let (mut broken, mut empty) = (0, 0);
    for length in 0..=5 {
        for origins in &lists {
            assert_eq!(origins.len(), length);
            for source in 0..3 {
                let parts = unbroken(origins, source);
                let first = parts.first();
                let expected = first.map_or(EMPTY, |part| found(part.0 as u32, part.1 as u32));
                assert_eq!(
                    part(3, origins, source),
                    expected,
                    "{source} of {origins:?}"
                );
                broken += u32::from(parts.len() > 1);
                empty += u32::from(parts.is_empty());
            }
        }
        lists = lists.iter().flat_map(|list| longer(list)).collect();
    }
    assert!(broken > 1000 && empty > 1000);
}

#[test]
fn a_question_is_read_as_it_was_written() {
    for (flags, origins) in [
        (&[][..], &[][..]),
        (&[7, 255], &[1, u32::MAX, 3]),
        (&[0], &[]),
    ] {
        let output = Output {
            n: 9,
            flags,
            origins,
        };
        let row = part_row(output, u32::MAX);
        let expected = (9, u32::MAX, flags.to_vec(), origins.to_vec());
        assert_eq!(read_part(&row), Some(expected));
    }
    assert_eq!(read_part("part 1 0 3 1 1"), None);
    assert_eq!(read_part("part 1 0"), None);
    assert_eq!(read_part("part 1 0 1 256"), None);
}

/// Parts of jobs' outputs.
#[cfg(with_000)]
mod of_jobs {
    use super::{EMPTY, NO_SUCH, PartAnswer, found, part};
    use oracle::generate::{FAMILIES, Random};
    use oracle::stage::Job;

    fn job(closed: bool, offset: f64, vertices: &[[f64; 3]]) -> Job {
        Job::new(closed, offset, 1e-5, vertices.as_flattened().to_vec())
    }

    /// The parts of all source segments, over the output's own segments.
    fn parts(job: &Job) -> Vec<PartAnswer> {
        let outcome = job.run(oracle::job);
        let n = job.segments() as u32;
        let of = |source| part(n, outcome.drawn_origins(), source);
        assert_eq!(of(n), NO_SUCH);
        (0..n).map(of).collect()
    }

    #[test]
    fn settled_points_have_their_parts() {
        let corner = [[0.0, 0.0, 0.0], [4.0, 0.0, 0.0], [4.0, 1.0, 0.0]];
        assert_eq!(parts(&job(false, 2.0, &corner)), [found(0, 2), found(2, 1)]);
        let removed = [[3.0, 3.0, 0.0], [3.0, 4.0, 0.0], [2.0, 3.0, 0.0]];
        let expected = [found(0, 1), found(1, 2), EMPTY];
        assert_eq!(parts(&job(true, 1.0, &removed)), expected);
        let pair = [[1.0, 0.0, 0.0], [0.0, 0.0, 0.0]];
        assert_eq!(parts(&job(true, 1.0, &pair)), [found(0, 2), found(2, 2)]);
        let copied = [0, 1, 2].map(|start| found(start, 1));
        assert_eq!(parts(&job(true, 0.0, &corner)), copied);
        assert_eq!(parts(&job(false, -0.0, &corner)), copied[..2]);
        let short = [[0.0; 3], [1e-6, 0.0, 0.0], [4.0, 0.0, 0.0]];
        assert_eq!(parts(&job(false, 1.0, &short)), [EMPTY, found(0, 1)]);
        assert!(parts(&job(false, 1.0, &[[1.0; 3]])).is_empty());
    }

    /// After a done job the parts follow each other, and each segment is in one.
    #[test]
    fn parts_make_up_the_output() {
        let mut random = Random::new(8);
        for _ in 0..200 {
            for (_, family) in FAMILIES {
                let job = family(&mut random);
                if job.source.len() > 300 {
                    continue;
                }
                let mut covered = 0;
                for [_, _, start, length] in parts(&job) {
                    assert!(length == 0 || start == covered, "{job:?}");
                    assert!(length <= 2, "{job:?}");
                    covered += length;
                }
                let segments = job.run(oracle::job).segments();
                assert_eq!(covered as usize, segments, "{job:?}");
            }
        }
    }
}
