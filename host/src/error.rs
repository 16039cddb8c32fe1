//! Why a body, a packet or a call is refused, and what a host does then.
mod advice;
mod protocol;
mod runtime;

pub use advice::Advice;
pub(crate) use protocol::checked;
pub use protocol::{Invalid, ProtocolError};
pub(crate) use runtime::answered;
pub use runtime::HnsrRuntimeError;
