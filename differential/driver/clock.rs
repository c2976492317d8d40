//! The settable clock that stands for `std::time::Instant`: a reading in milliseconds.

use std::cell::Cell;
use std::time::Duration;

thread_local! {
    static NOW: Cell<u64> = const { Cell::new(0) };
}

/// Sets the clock.
pub fn set(reading: u64) {
    NOW.set(reading);
}

/// A stored reading.
#[derive(Clone, Copy, PartialEq, Eq, PartialOrd, Ord, Debug)]
pub struct Instant(pub u64);

impl Instant {
    pub fn now() -> Instant {
        Instant(NOW.get())
    }

    /// Document 01's age: now minus the stored reading, zero if that is negative.
    pub fn elapsed(&self) -> Duration {
        Duration::from_millis(NOW.get().saturating_sub(self.0))
    }
}
