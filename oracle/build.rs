//! Finds 000, tests that it is 000, and hands it, unchanged, to the compiler. Where it is not there,
//! the build says so and goes on without `cfg(with_000)`; another file stops it.

#[path = "sha256.rs"]
mod sha256;

use std::path::{Path, PathBuf};
use std::{env, fs};

const BESIDE: &str = "../../shared/docs/src/src/polyline/internal/raw_pline_offset.rs";

/// 000's SHA-256.
const SUM: &str = "f6082bfc8939cbac0390db0994fad57dc4803211df9d88d3359763681b3c89cb";

fn main() {
    println!("cargo::rustc-check-cfg=cfg(with_000)");
    println!("cargo::rerun-if-env-changed=BLIDROSK_000");
    let here = PathBuf::from(env::var_os("CARGO_MANIFEST_DIR").expect("cargo names the folder"));
    let source = env::var_os("BLIDROSK_000").map_or_else(|| here.join(BESIDE), PathBuf::from);
    println!("cargo::rerun-if-changed={}", source.display());
    if source.is_file() {
        include_000(&source);
        println!("cargo::rustc-cfg=with_000");
        println!("cargo::metadata=found={}", source.display());
    } else {
        // never there: so the next build looks again, also where 000 comes with an old date
        println!("cargo::rerun-if-changed=without_000");
        println!(
            "cargo::warning=000 is not at {}: name its path in BLIDROSK_000",
            source.display()
        );
    }
    let archives = here.join("../target/native");
    if env::var_os("CARGO_FEATURE_PROVED").is_some() {
        link(&archives, "blidrosk");
    }
    if env::var_os("CARGO_FEATURE_LAYERS").is_some() {
        link(&archives, "layers");
    }
}

/// Copies 000 to the build's own folder and writes the one line that makes it a module.
fn include_000(source: &Path) {
    let text = fs::read(source).expect("000 can be read");
    let sum = sha256::sha256(&text);
    if sum != SUM {
        println!("cargo::error={} is not 000", source.display());
        println!("cargo::error=its SHA-256 is {sum}, and 000's is {SUM}");
        return;
    }
    let out = PathBuf::from(env::var_os("OUT_DIR").expect("cargo names the build folder"));
    let copy = out.join("raw_pline_offset.rs");
    fs::write(&copy, text).expect("000 can be copied");
    let line = format!("#[path = {copy:?}]\npub mod raw_pline_offset;\n");
    fs::write(out.join("internal.rs"), line).expect("the build folder can be written");
}

/// Links an archive of proved code.
fn link(folder: &Path, name: &str) {
    let archive = folder.join(format!("lib{name}.a"));
    println!("cargo::rerun-if-changed={}", archive.display());
    if archive.is_file() {
        println!("cargo::rustc-link-search=native={}", folder.display());
        println!("cargo::rustc-link-lib=static={name}");
    } else {
        println!("cargo::error=there is no target/native/lib{name}.a");
        println!(
            "cargo::error=at the repository's top, run `tools/archive {name}`, which makes it"
        );
    }
}
