//! Links the proved functions of the crate `layers`, which stand in a static archive.
use std::env;
use std::path::Path;

fn main() {
    let folder = Path::new(env!("CARGO_MANIFEST_DIR")).join("../target/native");
    let archive = folder.join("liblayers.a");
    println!("cargo::rerun-if-changed={}", archive.display());
    if !archive.is_file() {
        println!("cargo::error=there is no target/native/liblayers.a");
        println!(
            "cargo::error=at the repository's top, run `tools/archive layers`, which makes it"
        );
        return;
    }
    println!("cargo::rustc-link-search=native={}", folder.display());
    println!("cargo::rustc-link-lib=static=layers");
    let jobs = env::var_os("CARGO_FEATURE_JOBS").is_some();
    if jobs && env::var_os("DEP_RAW_PLINE_OFFSET_FOUND").is_none() {
        println!("cargo::error=whole jobs are timed against 000, which is not there");
        println!("cargo::error=name the path of raw_pline_offset.rs in BLIDROSK_000");
    }
}
