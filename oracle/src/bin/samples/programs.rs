//! The stored input and output of a test program. A row of the input is a fixed count of words of
//! eight bytes, highest byte first: the number of a function, then its arguments by their bits; the
//! output has a line for each.

use crate::rows::{Row, Rows};
use crate::{joins, layers};
use std::fmt::Write;
use std::path::Path;
use std::{fs, io};

struct Program {
    /// Words in a row.
    words: usize,
    /// Each function at the place that is its number.
    functions: &'static [&'static str],
    rows: fn() -> Rows,
}

const GEOMETRY: Program = Program {
    words: 16,
    functions: &[
        "atan",
        "tan",
        "angle_from_bulge",
        "bulge_from_angle",
        "normalize_radians",
        "angle",
        "point_from_parametric",
        "parametric_from_point",
        "dist_squared",
        "line_line_intr",
        "line_circle_intr",
        "circle_circle_intr",
        "direction_of",
        "two_directions",
        "three_directions",
        "four_directions",
        "two_sweeps",
        "four_sweeps",
    ],
    rows: layers::rows,
};

const JOINS: Program = Program {
    words: 24,
    functions: &[
        "seg_arc_radius_and_center",
        "offset_segment",
        "tangents",
        "span",
        "usable_line_param",
        "usable_arc_param",
        "squared_distances_equal",
        "line_line_meeting",
        "line_arc_meeting",
        "arc_line_meeting",
        "arc_arc_meeting",
        "round",
        "join",
        "seen_arc_param",
        "seen_line_arc",
        "seen_arc_line",
        "seen_arc_arc",
        "seen_join",
    ],
    rows: || {
        Rows(
            layers::rows()
                .0
                .into_iter()
                .chain(joins::rows().0)
                .collect(),
        )
    },
};

pub fn write(name: &str, folder: &Path) -> io::Result<()> {
    let program = match name {
        "geometry_main" => GEOMETRY,
        "joins_main" => JOINS,
        _ => return Err(io::Error::other(format!("no program {name}"))),
    };
    let mut input = Vec::new();
    let mut output = String::new();
    for row in (program.rows)().samples() {
        let number = program.functions.iter().position(|f| *f == row.function);
        if let Some(number) = number {
            input.extend(program.packed(number, &row));
            writeln!(output, "{} {}", row.function, row.output).expect("a string takes all");
        }
    }
    fs::write(folder.join("stdin"), input)?;
    fs::write(folder.join("stdout"), output)?;
    if name == "joins_main" {
        joins::print_reached();
    }
    Ok(())
}

impl Program {
    fn packed(&self, function: usize, row: &Row) -> Vec<u8> {
        let mut words = vec![function as u64];
        words.extend(row.inputs.iter().map(|x| x.to_bits()));
        assert!(words.len() <= self.words, "{} has too many", row.function);
        words.resize(self.words, 0);
        words.into_iter().flat_map(u64::to_be_bytes).collect()
    }
}
