//! Answers the packed job on standard input by 000, in the words of the program `rawoffset`. The
//! stored answers beside the repository's examples are made by it.

#[cfg(with_000)]
fn main() -> std::io::Result<()> {
    use std::io::Read;
    let mut bytes = Vec::new();
    std::io::stdin().read_to_end(&mut bytes)?;
    print!("{}", oracle::packed::answer(&bytes));
    Ok(())
}

#[cfg(not(with_000))]
fn main() {
    eprintln!("answer: built without 000");
    std::process::exit(oracle::WITHOUT_000);
}
