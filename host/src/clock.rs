//! Seconds that never go back.
use std::time::{Duration, Instant, SystemTime, UNIX_EPOCH};

/// The seconds that every call with a time is given: Unix time that never goes back.
///
/// The system's clock is asked once, at the start; from then on time goes by [`Instant`]. So where somebody sets the
/// system's clock back, no call is refused with 7 ([`ClockRollback`](crate::HnsrRuntimeError::ClockRollback)). Copies
/// tell the same time. `Instant` may stand still while the machine sleeps: a host that wants to catch up takes
/// [`starting_at`](Self::starting_at) with its own last time.
///
/// ```
/// use lekchnam_host::{HnsrRuntimeError, MonotonicClock, OpaqueRelayConfig, OpaqueRelayRuntime};
/// use std::time::Duration;
///
/// let clock = MonotonicClock::new();
/// let mut relay = OpaqueRelayRuntime::new([1; 16], 1, OpaqueRelayConfig::default(), clock.now())?;
/// relay.observe_time(clock.now())?;
///
/// // How long a host sleeps: until something is due, or until a packet comes.
/// let sleep = relay.next_due().map(|due| clock.until(due));
/// assert_eq!(sleep, None);
/// assert_eq!(clock.until(0), Duration::ZERO);
///
/// // A stored relay has seen a time, and no call may have an earlier one.
/// let later = clock.now() + 1_000;
/// relay.observe_time(later)?;
/// let clock = MonotonicClock::starting_at(relay.runtime().trusted_time_high_water);
/// assert!(clock.now() >= later);
/// # Ok::<(), HnsrRuntimeError>(())
/// ```
#[derive(Clone, Copy, Debug)]
pub struct MonotonicClock {
    started: Instant,
    /// The time when it started, since the first second of Unix time.
    start: Duration,
}

impl MonotonicClock {
    /// Starts at the system's time.
    pub fn new() -> Self {
        Self::starting_at(0)
    }

    /// Starts at the system's time, but no lower than at this second: for a relay that was stored, at its
    /// [`trusted_time_high_water`](crate::lent::Runtime::trusted_time_high_water).
    pub fn starting_at(high_water: u64) -> Self {
        // a system's time before the first second counts as that second
        let system = SystemTime::now().duration_since(UNIX_EPOCH).unwrap_or_default();
        Self { started: Instant::now(), start: system.max(Duration::from_secs(high_water)) }
    }

    /// The second that it is.
    pub fn now(&self) -> u64 {
        self.time_at(Instant::now()).as_secs()
    }

    /// How long it takes until that second begins, such as [`next_due`](crate::OpaqueRelayRuntime::next_due) tells;
    /// zero where it has.
    #[must_use = "this says how long to sleep, and does not sleep"]
    pub fn until(&self, due: u64) -> Duration {
        self.until_from(Instant::now(), due)
    }

    fn until_from(&self, instant: Instant, due: u64) -> Duration {
        Duration::from_secs(due).saturating_sub(self.time_at(instant))
    }

    fn time_at(&self, instant: Instant) -> Duration {
        self.start.saturating_add(instant.saturating_duration_since(self.started))
    }
}

impl Default for MonotonicClock {
    fn default() -> Self {
        Self::new()
    }
}

#[cfg(test)]
mod tests {
    use super::*;

    const START: Duration = Duration::from_millis(1_000_400);

    fn clock() -> MonotonicClock {
        MonotonicClock { started: Instant::now(), start: START }
    }

    #[test]
    fn seconds_pass_with_the_instants() {
        let clock = clock();
        for (passed, second) in [(0, 1_000), (599, 1_000), (600, 1_001), (1_599, 1_001), (3_600_600, 4_601)] {
            assert_eq!(clock.time_at(clock.started + Duration::from_millis(passed)).as_secs(), second);
        }
    }

    #[test]
    fn an_instant_before_the_start_is_the_start() {
        let clock = MonotonicClock { started: Instant::now() + Duration::from_secs(3_600), start: START };
        assert_eq!((clock.now(), clock.until(1_001)), (1_000, Duration::from_millis(600)));
    }

    #[test]
    fn a_sleep_ends_where_its_second_begins() {
        let clock = clock();
        let at = |passed| clock.started + Duration::from_millis(passed);
        for (passed, due, sleep) in [(0, 1_001, 600), (599, 1_001, 1), (600, 1_001, 0), (601, 1_001, 0), (0, 1_000, 0)]
        {
            assert_eq!(clock.until_from(at(passed), due), Duration::from_millis(sleep));
        }
        // it is that second when the sleep is over, and not before
        let sleep = clock.until_from(at(0), 1_003);
        assert_eq!(clock.time_at(at(0) + sleep).as_secs(), 1_003);
        assert_eq!(clock.time_at(at(0) + sleep - Duration::from_nanos(1)).as_secs(), 1_002);
    }

    #[test]
    fn it_starts_at_the_systems_time_or_at_what_was_seen() {
        let system = SystemTime::now().duration_since(UNIX_EPOCH).expect("after 1970").as_secs();
        for clock in [MonotonicClock::new(), MonotonicClock::default(), MonotonicClock::starting_at(system - 1_000)] {
            assert!((system..system + 60).contains(&clock.now()));
        }
        let ahead = MonotonicClock::starting_at(system + 1_000).now();
        assert!((system + 1_000..system + 1_060).contains(&ahead));
        // the last second lasts for ever
        let last = MonotonicClock::starting_at(u64::MAX);
        assert_eq!(last.time_at(last.started + Duration::from_secs(1 << 30)).as_secs(), u64::MAX);
        assert_eq!(last.until(u64::MAX), Duration::ZERO);
        assert!(MonotonicClock::new().until(u64::MAX) > Duration::from_secs(1 << 40));
    }
}
