//! Traces: calls of the relay with what they answered, as lines of text, and the proved library held to
//! them. README.md has the format.

pub mod answer;
pub mod beyond;
pub mod bytes;
pub mod call;
pub mod cause;
pub mod counts;
pub mod coverage;
pub mod event;
mod fields;
pub mod file;
mod inputs;
pub mod reading;
pub mod relay;
pub mod replay;
pub mod required;
pub mod rng;
pub mod state;
mod stored;
pub mod words;

pub use answer::{After, Answer, Words};
pub use call::{Call, Class, Grant};
pub use cause::Cause;
pub use event::Event;
pub use lekchnam_host::OpaqueRelayConfig as Config;
pub use relay::Relay;
pub use state::State;
