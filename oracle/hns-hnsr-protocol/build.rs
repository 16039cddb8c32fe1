//! Takes the relay's part of hns-hnsr-protocol from the folder that the build script of hns-encoding found. Everything
//! that is changed is changed here; line numbers stay.
//!
//! - envelope.rs, body.rs: nothing; they are compiled where they stand.
//! - circuit.rs: T1: `HashMap` comes from `crate::ordered`. T2: one line behind the last adds `mod oracle_probe`, which
//!   reads private state, asks the private test for room, and sets the next sequence number.
//! - lib.rs: T3: what stands before `use hns_encoding::DecodeError;`, a module list and re-exports, is blanked; the
//!   rest is module `root`.
//! - record.rs: T4: only `struct RelayTicket` with its derive is taken.
//!
//! With the feature `as-written` T1 and T2 are left out: circuit.rs too is compiled where it stands.
use std::path::PathBuf;
use std::{env, fs};

struct Rust {
    sources: PathBuf,
    out: PathBuf,
}

impl Rust {
    fn path(&self, name: &str) -> PathBuf {
        let path = self.sources.join(name);
        println!("cargo::rerun-if-changed={}", path.display());
        path
    }

    fn text(&self, name: &str) -> String {
        let path = self.path(name);
        fs::read_to_string(&path).unwrap_or_else(|error| panic!("{}: {error}", path.display()))
    }

    fn write(&self, name: &str, text: &str) -> PathBuf {
        let path = self.out.join(name);
        fs::write(&path, text).unwrap_or_else(|error| panic!("{}: {error}", path.display()));
        path
    }
}

fn main() {
    println!("cargo::rerun-if-changed=build.rs");
    let rust = Rust {
        sources: setting("DEP_HNS_RS_SRC_FOLDER").join("crates/hns-hnsr-protocol/src"),
        out: setting("OUT_DIR"),
    };
    let circuit = match env::var_os("CARGO_FEATURE_AS_WRITTEN") {
        Some(_) => rust.path("circuit.rs"),
        None => rust.write("circuit.rs", &circuit(&rust.text("circuit.rs"))),
    };
    let root = rust.write("root.rs", &root(&rust.text("lib.rs")));
    rust.write("ticket.rs", ticket(&rust.text("record.rs")));
    let modules = [
        ("pub mod envelope", rust.path("envelope.rs")),
        ("pub mod body", rust.path("body.rs")),
        ("pub mod circuit", circuit),
        ("mod root", root),
    ];
    rust.write("mods.rs", &modules.map(|(module, path)| format!("#[path = {path:?}]\n{module};\n")).concat());
}

fn setting(name: &str) -> PathBuf {
    PathBuf::from(env::var_os(name).unwrap_or_else(|| panic!("{name} is not set")))
}

/// T1 and T2.
fn circuit(text: &str) -> String {
    let probe = setting("CARGO_MANIFEST_DIR").join("src/probe.rs");
    let line = "use std::collections::{HashMap, VecDeque};";
    assert_eq!(text.matches(line).count(), 1, "circuit.rs: {line}");
    let ordered = text.replace(line, "use crate::ordered::HashMap; use std::collections::VecDeque;");
    format!("{ordered}mod oracle_probe {{ use super::*; include!({probe:?}); }} pub use oracle_probe::*;\n")
}

/// T3.
fn root(text: &str) -> String {
    let start = text.find("use hns_encoding::DecodeError;").expect("lib.rs: where the kept part starts");
    "\n".repeat(text[..start].matches('\n').count()) + &text[start..]
}

/// T4.
fn ticket(text: &str) -> &str {
    let at = text.find("pub struct RelayTicket {").expect("record.rs: RelayTicket");
    let start = text[..at].rfind("#[derive").expect("record.rs: its derive");
    let end = at + text[at..].find("\n}\n").expect("record.rs: its end") + 3;
    &text[start..end]
}
