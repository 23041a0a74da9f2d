//! Rows of inputs and the oracle's outputs for each layer.
//!
//! With no word it prints them: `function inputs -> outputs`, numbers as 64 bits in sixteen
//! hexadecimal digits, any NaN as 7ff8000000000000. A row that starts with `#` says what the next
//! rows reach. With the name of a test program and its folder it writes that program's stored
//! output, and its input if it reads one.

#[cfg(with_000)]
mod edges;
#[cfg(with_000)]
mod floats;
#[cfg(with_000)]
mod jobs;
#[cfg(with_000)]
mod joins;
#[cfg(with_000)]
mod layers;
#[cfg(with_000)]
mod parts;
#[cfg(with_000)]
mod programs;
#[cfg(with_000)]
mod rows;
#[cfg(with_000)]
mod stored;
#[cfg(with_000)]
mod why;

#[cfg(not(with_000))]
fn main() {
    eprintln!("samples: built without 000");
    std::process::exit(oracle::WITHOUT_000);
}

#[cfg(with_000)]
fn main() -> std::io::Result<()> {
    let given: Vec<String> = std::env::args().skip(1).collect();
    match given.as_slice() {
        [] => {
            layers::rows().print();
            jobs::print();
            Ok(())
        }
        [program, folder] if program == "floats_main" => floats::write(folder.as_ref()),
        [program, folder] if program == "jobs_main" => stored::write(folder.as_ref()),
        [program, folder] if program == "why_main" => why::write(folder.as_ref()),
        [program, folder] if program == "parts_main" => parts::write(folder.as_ref()),
        [program, folder] => programs::write(program, folder.as_ref()),
        _ => {
            eprintln!("samples: [PROGRAM FOLDER]");
            std::process::exit(2);
        }
    }
}
