//! The relay part of hns-hnsr-protocol, compiled from HNS_RS_SRC (see build.rs), with stand-ins.
#![allow(dead_code, unused_imports)]

include!(concat!(env!("OUT_DIR"), "/mods.rs"));

mod convert;
pub mod ordered;
mod standins;

pub use body::*;
pub use circuit::*;
pub use envelope::*;
pub use record::{RelayTicket, ReserveRequest};
pub(crate) use root::is_zero;
pub use root::*;
pub use runtime::{ConfirmedReservation, RelayService};
pub use standins::{record, routing, runtime};
