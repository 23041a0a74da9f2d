//! drawings FOLDER V..: writes each drawing with V vertices to FOLDER/KIND-NAME-V.txt, as a text that
//! `rawoffset` reads (up to 512 vertices), offset to its left. V is 4, 8, 16, ..
use bench::drawings::{Shape, EPS, KINDS};
use std::path::Path;
use std::process::exit;
use std::{env, fs};

fn main() {
    let words: Vec<_> = env::args().skip(1).collect();
    let [folder, sizes @ ..] = &words[..] else {
        eprintln!("usage: drawings FOLDER V..");
        exit(2)
    };
    for size in sizes {
        let v = size.parse().ok().filter(|v: &usize| v.is_power_of_two());
        let Some(v @ 4..) = v else {
            eprintln!("drawings: V is 4, 8, 16, .., and not {size}");
            exit(2)
        };
        for (kind, shapes) in KINDS {
            for shape in shapes {
                let path = Path::new(folder).join(format!("{kind}-{}-{v}.txt", shape.name));
                if let Err(why) = fs::write(&path, text(shape, v)) {
                    eprintln!("drawings: {}: {why}", path.display());
                    exit(1)
                }
            }
        }
    }
}

fn text(shape: &Shape, v: usize) -> String {
    let head = format!("{}\noffset {}\neps {EPS}\n", shape.ends(), shape.offset);
    let source = shape.source(v);
    let vertices = source.chunks_exact(3);
    let lines = vertices.map(|n| format!("{} {} {}\n", n[0], n[1], n[2]));
    head + &lines.collect::<String>()
}
