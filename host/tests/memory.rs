//! What a new relay takes of memory. Alone in its process, so that nothing else is counted.
use lekchnam_host::{OpaqueRelayConfig, OpaqueRelayRuntime};
use std::fs;

/// The bytes of this process that stand in memory, counted page by page.
fn resident() -> usize {
    let told = fs::read_to_string("/proc/self/smaps_rollup").expect("the system tells");
    let line = told.lines().find_map(|line| line.strip_prefix("Rss:")).expect("a line of it");
    let kilobytes: usize = line.trim().trim_end_matches(" kB").parse().expect("a number");
    kilobytes * 1024
}

#[test]
fn a_new_relay_of_the_default_size_uses_hardly_any() {
    let config = OpaqueRelayConfig::default();
    let before = resident();
    let relay = OpaqueRelayRuntime::new([1; 16], 1, config, 100).expect("a relay");
    let told = (relay.status().active_circuits, relay.next_due());
    let used = resident().saturating_sub(before);
    assert_eq!(told, (0, None));

    let tables = relay.tables();
    let lent = size_of_val(&tables.pending[..])
        + size_of_val(&tables.circuits[..])
        + size_of_val(&tables.ledger[..])
        + size_of_val(&tables.inflight[..]);
    assert!(lent > 10_000_000, "{lent} bytes of tables");
    assert!(used < 1_000_000, "{used} bytes used, of {lent} bytes of tables");
}
