//! What a Rust host calls of the proved relay.
//!
//! [`OpaqueRelayRuntime`] relays circuits between two peers. The host owns connections, clock and reservations: it
//! hands packets in, sends the routes that come out, and acknowledges each. Types and words are those of
//! hns-hnsr-protocol, so that one takes the other's place.
//!
//! - A **circuit** is a two-way stream of bytes between two peers.
//! - A **reservation** is a peer's permission to be called: until when, by how many circuits, for how many bytes.
//! - A **window** is how much a side may send before the other gives it more.
//!
//! ```
//! use lekchnam_host::body::{AcceptBody, OpenBody};
//! use lekchnam_host::limits::DEFAULT_WINDOW;
//! use lekchnam_host::{
//!     Admission, Grant, HnsrOpcode, HnsrPacket, HnsrPeerId, HnsrRuntimeError, OpaqueRelayConfig, OpaqueRelayRuntime,
//! };
//!
//! let (supplier, merchant) = (HnsrPeerId::new("supplier")?, HnsrPeerId::new("merchant")?);
//! let mut relay = OpaqueRelayRuntime::new([1; 16], 1, OpaqueRelayConfig::default(), 100)?;
//!
//! // The supplier asks for a circuit by the merchant's reservation, and the host finds it in its book.
//! let open = OpenBody {
//!     ticket_id: [1; 32],
//!     reservation_id: [2; 16],
//!     endpoint_key: [3; 33],
//!     profile: 1,
//!     requester_nonce: [4; 16],
//!     initial_window: DEFAULT_WINDOW,
//! };
//! let body = open.encode(true)?;
//! let open = HnsrPacket::new(HnsrOpcode::Open, *b"request1", &body)?;
//! let grant = Grant {
//!     endpoint: merchant.as_bytes(),
//!     reservation_id: [2; 16],
//!     expires_at: 3_700,
//!     max_active_circuits: 1,
//!     max_bytes_per_circuit: 1 << 20,
//!     max_total_bytes: 1 << 20,
//! };
//! let routes = relay.handle(&Admission::Granted(grant), &supplier, &open, 100)?;
//!
//! // One route comes out: INCOMING, to the merchant. It counts until it is acknowledged.
//! let incoming = routes.iter().next().expect("one route");
//! let (number, circuit) = (incoming.action_id, incoming.route.packet.context_id);
//! assert_eq!(incoming.route.destination, merchant);
//! assert_eq!(relay.status().queued_actions, 1);
//! assert!(relay.acknowledge(number, true)?.is_empty());
//!
//! // The merchant accepts: OPENED goes to the supplier.
//! let body = AcceptBody { accepted_window: DEFAULT_WINDOW, endpoint_nonce: [5; 16] }.encode()?;
//! let accept = HnsrPacket::new(HnsrOpcode::Accept, circuit, &body)?;
//! let opened = relay.handle(&Admission::Refused, &merchant, &accept, 101)?.to_vec();
//! for queued in opened {
//!     assert_eq!(queued.route.destination, supplier);
//!     assert!(relay.acknowledge(queued.action_id, true)?.is_empty());
//! }
//!
//! // The supplier's bytes pass as they are.
//! let data = HnsrPacket::new(HnsrOpcode::Data, circuit, b"invoice 1")?;
//! let routes = relay.handle(&Admission::Refused, &supplier, &data, 101)?;
//! let arrives = routes.iter().next().expect("one route");
//! assert_eq!((arrives.route.destination, arrives.route.packet), (merchant, data));
//! assert_eq!(relay.status().queued_bytes, 9);
//! # Ok::<(), HnsrRuntimeError>(())
//! ```
//!
//! What a refusal is and what to do with it: [`HnsrRuntimeError`], [`Advice`], [`Row`]. Packets as bytes:
//! [`HnsrPacket::encode`], and over a connection [`stream`]. Bodies: [`body`]. Time: [`MonotonicClock`]. The figures:
//! [`limits`]. [`lent`] has the same calls over tables that the host keeps itself. docs/HOSTING.md is the page for host
//! authors, and `host/examples/tcp` a host over TCP.
//!
//! Proved is what stands behind the calls, in the crates of the project. This crate is not: it declares the C functions
//! of the archive `liblekchnam.a`, and gives them these types. At the first call the archive's version and the layout
//! of its structs are held to what is declared here. It runs on x86-64 Linux, as the archive does. `host/archive` makes
//! the archive; where it was made elsewhere, `LEKCHNAM_STATICLIB` names its folder.
#![deny(missing_docs, unsafe_code)]

mod admission;
pub mod body;
mod clock;
mod config;
mod ending;
mod envelope;
mod error;
#[allow(unsafe_code)]
mod ffi;
pub mod lent;
pub mod limits;
mod owned;
mod packet;
mod peer;
mod random;
mod reason;
mod relay;
mod route;
mod side;
mod status;
pub mod stream;
mod view;
mod why;

pub use admission::{Admission, Grant, GrantBuf};
pub use clock::MonotonicClock;
pub use config::OpaqueRelayConfig;
pub use ending::EndedCircuit;
pub use envelope::{EnvelopeError, HNSR_VERSION};
pub use error::{Advice, HnsrRuntimeError};
pub use limits::MAXIMUM_PEER;
pub use owned::{HnsrPacketBuf, HnsrRouteBuf, Outgoing, QueuedHnsrRouteBuf};
pub use packet::{HnsrOpcode, HnsrPacket, UnknownOpcode};
pub use peer::HnsrPeerId;
pub use random::{OsRandom, RandomSource, RANDOM_BYTES};
pub use reason::{HnsrErrorCode, Notice, UnknownErrorCode};
pub use relay::OpaqueRelayRuntime;
pub use route::{HnsrActionId, HnsrRoute, QueuedHnsrRoute, RouteIter, Routes};
pub use side::CircuitSide;
pub use status::HnsrRuntimeStatus;
pub use view::{Action, ActionKind, Circuit, PendingCircuit, Reservation};
pub use why::{ActionLimit, Row};

/// README and the page for host authors: their code is compiled and run as doctests.
#[cfg(doctest)]
mod pages {
    #[doc = include_str!("../../README.md")]
    struct Readme;

    #[doc = include_str!("../../docs/HOSTING.md")]
    struct Hosting;
}
