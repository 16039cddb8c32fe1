//! Links the archive of the proved crate, or says which command makes it. `cargo check` and `cargo doc` do without
//! it, but not where a folder for it is named.
use std::env;
use std::path::PathBuf;

const LIBRARY: &str = "lekchnam";
/// The folder that has the archive, seen from this one; if it is not set or empty, where `host/archive` puts it.
const SETTING: &str = "LEKCHNAM_STATICLIB";

fn main() {
    println!("cargo::rerun-if-env-changed={SETTING}");
    let here = PathBuf::from(env::var_os("CARGO_MANIFEST_DIR").expect("cargo sets it"));
    let named = env::var_os(SETTING).filter(|folder| !folder.is_empty()).map(|folder| here.join(folder));
    let own = here.parent().expect("the project's root").join("target/staticlib");
    let folder = named.as_ref().unwrap_or(&own);
    let archive = folder.join(format!("lib{LIBRARY}.a"));
    println!("cargo::rerun-if-changed={}", archive.display());
    println!("cargo::rustc-link-search=native={}", folder.display());
    println!("cargo::rustc-link-lib=static={LIBRARY}");
    match (archive.is_file(), &named) {
        (true, _) => {}
        (false, Some(_)) => println!("cargo::error={} is not there, and {SETTING} names its folder", archive.display()),
        (false, None) => println!("cargo::warning={} is not there: host/archive makes it", archive.display()),
    }
}
