//! Links `libblidrosk.a`, the archive of the proved code.

use std::env;
use std::path::Path;

fn main() {
    let wanted = env::var("CARGO_CFG_TARGET_ARCH").expect("cargo names the processor");
    let (folder, words) = if wanted == env::consts::ARCH {
        ("native", String::new())
    } else {
        (wanted.as_str(), format!("--for {wanted} "))
    };
    let top = Path::new(env!("CARGO_MANIFEST_DIR")).join("../..");
    let archives = top.join("target").join(folder);
    let archive = archives.join("libblidrosk.a");
    println!("cargo::rerun-if-changed={}", archive.display());
    if archive.is_file() {
        println!("cargo::rustc-link-search=native={}", archives.display());
        println!("cargo::rustc-link-lib=static=blidrosk");
    } else {
        println!("cargo::error=there is no target/{folder}/libblidrosk.a");
        println!(
            "cargo::error=at the repository's top, run `tools/archive {words}blidrosk`, which makes it"
        );
    }
}
