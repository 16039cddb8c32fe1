//! hns-encoding, compiled from HNS_RS_SRC (see build.rs).
include!(concat!(env!("OUT_DIR"), "/mods.rs"));
pub use source::*;
