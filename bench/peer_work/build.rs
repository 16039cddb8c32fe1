//! Links the archive of crates/peer_work, or says which command makes it. `cargo check` does without it.
use std::env;
use std::path::PathBuf;

const LIBRARY: &str = "peer_work";

fn main() {
    let here = PathBuf::from(env::var_os("CARGO_MANIFEST_DIR").expect("cargo sets it"));
    let folder = here.join("../../target/staticlib");
    let archive = folder.join(format!("lib{LIBRARY}.a"));
    println!("cargo::rerun-if-changed={}", archive.display());
    println!("cargo::rustc-link-search=native={}", folder.display());
    println!("cargo::rustc-link-lib=static={LIBRARY}");
    if !archive.is_file() {
        println!("cargo::warning={} is not there: host/archive {LIBRARY} makes it", archive.display());
    }
}
