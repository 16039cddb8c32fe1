//! What is due next (DUE), and that a host may sleep until then.
use crate::chance::{Chance, Parts};
use crate::fixture::{circuit, grant, open, open_body, peer, relay, say, small, Relay, EXPIRY, START};
use lekchnam_host::lent::{
    self, InflightAction, Places, RelayCircuit, RelayPending, RelayTicket, ReservationUsage, Runtime, Tables,
};
use lekchnam_host::HnsrRuntimeError::{ClockRollback, Short};
use lekchnam_host::{Admission, Grant, HnsrOpcode, HnsrPacket, HnsrRuntimeError};

/// An empty relay's parts, in which every mark counts.
fn empty() -> (Runtime, Tables) {
    let (runtime, tables) = relay(small()).into_parts();
    (runtime, Tables { places: Places::EVERY, ..tables })
}

fn usage(used: bool, expires_at: u64) -> ReservationUsage {
    ReservationUsage { used, reservation_id: [5; 16].into(), bytes: 2, expires_at }
}

/// The places of a ledger, each with its mark and its end.
type Found = [(bool, u64)];

/// What is due over this ledger, of whose places so many are in use.
fn due_by(ledger: &Found, number: usize) -> Result<Option<u64>, HnsrRuntimeError> {
    let (runtime, tables) = empty();
    let ledger = ledger.iter().map(|(used, expires_at)| usage(*used, *expires_at)).collect();
    let places = Places { ledger: number, ..Places::EVERY };
    lent::next_due(&Tables { ledger, places, ..tables }, &runtime)
}

#[test]
fn of_the_ledger_the_used_records_count() {
    const EVERY: usize = usize::MAX;
    let cases: [(&Found, usize, Option<u64>); 16] = [
        // a ledger of no places is not short
        (&[], EVERY, None),
        (&[], 0, None),
        // an unused record, alone and beside a used one
        (&[(false, 1)], EVERY, None),
        (&[(false, 0), (true, 500)], EVERY, Some(500)),
        (&[(true, 500), (false, 1)], EVERY, Some(500)),
        // the earliest, wherever it stands
        (&[(true, 500), (true, 600), (true, 700)], EVERY, Some(500)),
        (&[(true, 600), (true, 500), (true, 700)], EVERY, Some(500)),
        (&[(true, 700), (true, 600), (true, 500)], EVERY, Some(500)),
        // the first and the last second
        (&[(true, 0)], EVERY, Some(0)),
        (&[(true, u64::MAX)], EVERY, Some(u64::MAX)),
        (&[(true, u64::MAX), (true, 0)], EVERY, Some(0)),
        (&[(true, u64::MAX), (true, u64::MAX - 1)], EVERY, Some(u64::MAX - 1)),
        // at and above the number a record is unused
        (&[(true, 600), (true, 500)], 2, Some(500)),
        (&[(true, 600), (true, 500)], 1, Some(600)),
        (&[(true, 600), (true, 500)], 0, None),
        (&[(false, 600), (true, 500)], 1, None),
    ];
    for (ledger, number, due) in cases {
        assert_eq!(due_by(ledger, number), Ok(due), "{ledger:?}, {number} in use");
    }
}

/// The three tables each with no record, or with one of this end. All else in the records is earlier: the ticket of a
/// pending record (DUE.6), bytes, an action.
#[test]
fn the_earliest_of_three_tables_is_due() {
    const ENDS: [Option<u64>; 6] = [None, Some(0), Some(300), Some(400), Some(500), Some(u64::MAX)];
    let (runtime, tables) = empty();
    let mut compared = 0;
    for pending in ENDS {
        for circuit in ENDS {
            for ledger in ENDS {
                let mut tables = tables.clone();
                if let Some(deadline) = pending {
                    let ticket = RelayTicket { expires_at: 1, ..RelayTicket::default() };
                    tables.pending[1] = RelayPending { used: true, ticket, deadline, ..RelayPending::default() };
                }
                if let Some(expires_at) = circuit {
                    tables.circuits[1] = RelayCircuit { used: true, expires_at, ..RelayCircuit::default() };
                }
                if let Some(expires_at) = ledger {
                    tables.ledger[1] = usage(true, expires_at);
                }
                tables.inflight[1] = InflightAction { used: true, bytes: 3, ..InflightAction::default() };
                let due = [pending, circuit, ledger].into_iter().flatten().min();
                assert_eq!(lent::next_due(&tables, &runtime), Ok(due), "{pending:?} {circuit:?} {ledger:?}");
                compared += 1;
            }
        }
    }
    assert_eq!(compared, 216);
}

/// Three tables have a limit that their places are held to. The ledger has none.
#[test]
fn a_ledger_of_no_places_is_not_short() {
    let (runtime, tables) = empty();
    let mut shorter = [tables.clone(), tables.clone(), tables.clone()];
    shorter[0].pending.pop();
    shorter[1].circuits.pop();
    shorter[2].inflight.pop();
    for mut tables in shorter {
        assert_eq!(lent::next_due(&tables, &runtime), Err(Short));
        tables.ledger[0] = usage(true, 500);
        assert_eq!(lent::next_due(&tables, &runtime), Err(Short));
    }
    let mut tables = Tables { ledger: Vec::new(), ..tables };
    assert_eq!(lent::next_due(&tables, &runtime), Ok(None));
    tables.circuits[0] = RelayCircuit { used: true, expires_at: 500, ..RelayCircuit::default() };
    assert_eq!(lent::next_due(&tables, &runtime), Ok(Some(500)));
}

/// A circuit that was closed again: what is left is its reservation, until `EXPIRY`.
fn reserved() -> Relay {
    let mut relay = relay(small());
    let id = circuit(&mut relay, b"r", b"e", 1);
    assert_eq!(say(&mut relay, b"e", HnsrOpcode::Close, id, &[0, 0, 0]).map(|routes| routes.len()), Ok(1));
    assert_eq!((relay.circuits().count(), relay.reservations().count()), (0, 1));
    relay
}

#[test]
fn a_reservation_without_circuits_is_due_at_its_end() {
    let mut relay = reserved();
    assert_eq!(relay.next_due(), Some(EXPIRY));
    // nothing but its end and a revoke takes it away
    assert_eq!(relay.disconnect(&peer(b"e")).map(|routes| routes.len()), Ok(0));
    assert_eq!(relay.replace_enabled(1, false).map(|routes| routes.len()), Ok(0));
    assert_eq!(relay.expire(EXPIRY - 1).map(|routes| routes.len()), Ok(0));
    assert_eq!((relay.next_due(), relay.reservations().count()), (Some(EXPIRY), 1));
    assert_eq!(relay.expire(EXPIRY).map(|routes| routes.len()), Ok(0));
    assert_eq!((relay.next_due(), relay.reservations().count()), (None, 0));
}

/// Its OPEN's deadline is due first, ten seconds after the start, and then the reservation that it went by.
#[test]
fn an_open_that_nobody_accepts_leaves_its_reservation() {
    let mut relay = relay(small());
    assert_eq!(relay.next_due(), None);
    open(&mut relay, b"r", 1, grant(b"e")).expect("an OPEN");
    assert_eq!(relay.next_due(), Some(START + 10));
    // the requester gets an ERROR, the endpoint a CLOSE
    assert_eq!(relay.expire(START + 10).map(|routes| routes.len()), Ok(2));
    assert_eq!((relay.next_due(), relay.reservations().count()), (Some(EXPIRY), 1));
}

#[test]
fn a_revoked_reservation_is_not_due() {
    let mut relay = reserved();
    let other = Grant { reservation_id: [6; 16], expires_at: EXPIRY + 500, ..grant(b"e") };
    open(&mut relay, b"r", 2, other).expect("an OPEN");
    // the requester ends its OPEN by the context that it gave
    assert_eq!(say(&mut relay, b"r", HnsrOpcode::Close, 2, &[0, 0, 0]).map(|routes| routes.len()), Ok(1));
    assert_eq!((relay.next_due(), relay.reservations().count()), (Some(EXPIRY), 2));
    for (reservation, due) in [([7; 16], Some(EXPIRY)), ([5; 16], Some(EXPIRY + 500)), ([6; 16], None)] {
        assert_eq!(relay.revoke_reservation(reservation).map(|routes| routes.len()), Ok(0));
        assert_eq!(relay.next_due(), due);
    }
    assert_eq!(relay.reservations().count(), 0);
}

/// The clock has passed its end, by a call that drops nothing. `expire` is given the clock's time.
#[test]
fn a_lapsed_reservation_is_due_at_once() {
    let mut relay = reserved();
    relay.observe_time(EXPIRY + 5).expect("later");
    assert_eq!((relay.next_due(), relay.reservations().count()), (Some(EXPIRY), 1));
    assert_eq!(relay.expire(EXPIRY).map(|routes| routes.len()), Err(ClockRollback));
    assert_eq!(relay.next_due(), Some(EXPIRY));
    assert_eq!(relay.expire(EXPIRY + 5).map(|routes| routes.len()), Ok(0));
    assert_eq!((relay.next_due(), relay.reservations().count()), (None, 0));
}

/// OPEN.12: an OPEN at its end drops the record too, also where it is refused later on.
#[test]
fn an_open_drops_what_lapsed() {
    let mut relay = reserved();
    let body = open_body();
    let packet = HnsrPacket { opcode: HnsrOpcode::Open, context_id: [9; 8], body: &body };
    let granted = Grant { reservation_id: [6; 16], expires_at: EXPIRY + 500, ..grant(b"r") };
    let oneself = relay.handle(&Admission::Granted(granted), &peer(b"r"), &packet, EXPIRY).map(|routes| routes.len());
    assert_eq!(oneself, Err(HnsrRuntimeError::Capacity));
    assert_eq!((relay.next_due(), relay.reservations().map(|left| left.reservation_id).collect()), (None, vec![]));
}

/// What a walk came to.
#[derive(Debug, Default)]
struct Met {
    nothing: usize,
    work: usize,
    reservation_alone: usize,
    reservation_first: usize,
    lapsed: usize,
}

impl Met {
    fn add(&mut self, parts: &Parts) {
        let Parts { runtime, tables, .. } = parts;
        let work = tables.pending().map(|pending| pending.deadline);
        let work = work.chain(tables.circuits().map(|circuit| circuit.expires_at)).min();
        let reserved = tables.reservations().map(|reservation| reservation.expires_at).min();
        self.nothing += usize::from((work, reserved) == (None, None));
        self.work += usize::from(work.is_some_and(|work| reserved.is_none_or(|reserved| work < reserved)));
        self.reservation_alone += usize::from(work.is_none() && reserved.is_some());
        self.reservation_first += usize::from(work.is_some_and(|work| reserved.is_some_and(|end| end < work)));
        self.lapsed += usize::from(reserved.is_some_and(|end| end <= runtime.trusted_time_high_water));
    }
}

/// Before what is due next `expire` moves the clock, and every table, number and counter stays; nobody is told
/// anything.
fn sleeps(parts: &Parts, now: u64) {
    let mut relay = parts.clone().relay();
    assert_eq!(relay.expire(now).map(|routes| routes.len()), Ok(0));
    assert!(relay.outgoing().is_empty());
    assert_eq!(*relay.runtime(), Runtime { trusted_time_high_water: now, ..parts.runtime });
    assert_eq!(*relay.tables(), parts.tables);
}

/// `expire` at what is due, or at the clock where that is later, ends something, and what is due then is later.
fn wakes(parts: &Parts, now: u64) {
    let count = |tables: &Tables| tables.pending().count() + tables.circuits().count() + tables.reservations().count();
    let mut relay = parts.clone().relay();
    assert!(relay.expire(now).is_ok());
    assert!(count(relay.tables()) < count(&parts.tables));
    assert!(relay.next_due().is_none_or(|next| next > now), "{:?} after {now}", relay.next_due());
}

#[test]
fn a_host_may_sleep_until_something_is_due() {
    const SEEDS: u64 = 64;
    const CALLS: usize = 400;
    let mut met = Met::default();
    for seed in 0..SEEDS {
        let mut chance = Chance::new(seed);
        for _ in 0..CALLS {
            let call = chance.call();
            let _ = call.made(&mut chance.relay);
            chance.between();
            let parts = Parts::of(&chance.relay);
            met.add(&parts);
            let (due, clock) = (chance.relay.next_due(), parts.runtime.trusted_time_high_water);
            let last = due.map_or(Some(u64::MAX), |due| due.checked_sub(1));
            if let Some(last) = last.filter(|last| *last >= clock) {
                let between = clock + chance.random.below(1 << 10) as u64 % (last - clock).saturating_add(1);
                [clock, between, last].into_iter().for_each(|now| sleeps(&parts, now));
            }
            if let Some(due) = due {
                wakes(&parts, due.max(clock));
            }
        }
    }
    let Met { nothing, work, reservation_alone, reservation_first, lapsed } = met;
    assert!([nothing, work, reservation_alone, reservation_first, lapsed].into_iter().all(|n| n > 100), "{met:?}");
    println!(
        "compared: what is due next after {} calls with what expire does, {} of them by the ledger alone",
        SEEDS * CALLS as u64,
        reservation_alone + reservation_first
    );
}
