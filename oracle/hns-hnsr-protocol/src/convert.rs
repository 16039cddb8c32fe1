//! What the harness has, as the Rust takes it.
use crate::runtime::Source;
use crate::{ConfirmedReservation, OpaqueRelayConfig, RelayTicket};
use lekchnam_traces::{Config, Grant};

/// The Rust's configuration and the traces' have the same names.
macro_rules! limits {
    ($from:ident to $to:ident) => {
        impl From<$from> for $to {
            fn from(limits: $from) -> Self {
                Self {
                    maximum_pending: limits.maximum_pending,
                    maximum_circuits: limits.maximum_circuits,
                    maximum_circuits_per_peer: limits.maximum_circuits_per_peer,
                    maximum_queue_bytes: limits.maximum_queue_bytes,
                    maximum_inflight_actions: limits.maximum_inflight_actions,
                    maximum_inflight_actions_per_circuit: limits.maximum_inflight_actions_per_circuit,
                    maximum_inflight_actions_per_peer: limits.maximum_inflight_actions_per_peer,
                    maximum_bytes_per_circuit: limits.maximum_bytes_per_circuit,
                    accept_timeout_seconds: limits.accept_timeout_seconds,
                }
            }
        }
    };
}

limits!(Config to OpaqueRelayConfig);
limits!(OpaqueRelayConfig to Config);

/// The reservation behind a grant. What a grant does not say is zero: the relay does not look at it.
impl From<&Grant> for ConfirmedReservation {
    fn from(grant: &Grant) -> Self {
        let ticket = RelayTicket {
            network_magic: 0,
            profile: 0,
            transport: 0,
            host_type: 0,
            host: [0; 16],
            port: 0,
            relay_key: [0; 33],
            endpoint_key: [0; 33],
            reservation_id: grant.reservation_id,
            issued_at: 0,
            expires_at: grant.expires_at,
            max_active_circuits: grant.max_active_circuits,
            max_bytes_per_circuit: grant.max_bytes_per_circuit,
            max_total_bytes: grant.max_total_bytes,
            flags: 0,
            relay_signature: Vec::new(),
            endpoint_signature: Vec::new(),
        };
        Self { ticket, source: Source(grant.endpoint.clone()) }
    }
}
