//! Finds the Rust: the one place that reads HNS_RS_SRC. lib.rs of hns-encoding is compiled where it stands, untouched.
use std::path::PathBuf;
use std::{env, fs};

const SETTING: &str = "HNS_RS_SRC";
const SOURCE: &str = "crates/hns-encoding/src/lib.rs";

fn main() {
    println!("cargo::rerun-if-env-changed={SETTING}");
    match folder() {
        Ok(folder) => include(folder),
        Err(reason) => println!("cargo::error={reason}"),
    }
}

fn folder() -> Result<PathBuf, String> {
    let unset = format!(
        "{SETTING} is not set: the sources of handshake-rs/hns-rs are not at hand, and nothing is compared (README.md)"
    );
    let folder = PathBuf::from(env::var_os(SETTING).ok_or(unset)?);
    if !folder.is_absolute() {
        return Err(format!("{SETTING} must start at the root: {}", folder.display()));
    }
    if !folder.join(SOURCE).is_file() {
        return Err(format!("{SETTING} does not have {SOURCE}: {}", folder.display()));
    }
    Ok(folder)
}

fn include(folder: PathBuf) {
    let source = folder.join(SOURCE);
    println!("cargo::rerun-if-changed={}", source.display());
    println!("cargo::metadata=folder={}", folder.display());
    let out = PathBuf::from(env::var_os("OUT_DIR").expect("cargo sets it"));
    fs::write(out.join("mods.rs"), format!("#[path = {source:?}]\nmod source;\n")).expect("mods.rs is written");
}
