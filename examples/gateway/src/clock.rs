//! Where the gateway has its time from. Tests take a made-up clock.
use std::collections::hash_map::RandomState;
use std::hash::{BuildHasher, Hasher};
use std::hint::{black_box, spin_loop};
use std::time::Instant;

/// A clock of whole nanoseconds.
pub trait Clock {
    fn now(&self) -> u64;

    /// Comes back at `moment`, or at once where that has passed.
    fn wait_until(&mut self, moment: u64);
}

/// The machine's monotonic clock, read again and again until the moment has come: a sleep may last tens of
/// microseconds longer than asked for.
///
/// The readings follow each other by regular steps of some 50 ns from where a wait begins. How far behind `moment`
/// the last one falls would so depend on when the wait began, that is, on what the turn before it took: a nanosecond
/// or less in the mean, which a t-test sees. A random number of empty steps before the readings takes this away.
#[derive(Debug, Clone, Copy)]
pub struct BusyClock {
    origin: Instant,
    /// state of a xorshift generator, not 0
    random: u64,
}

/// Random steps are made before waits that are longer than this, in nanoseconds, which is more than they take.
const ROOM: u64 = 9_000;

/// Fewer random steps than this, of a nanosecond or less each: together many times the distance between two readings.
const STEPS: u64 = 8_192;

impl BusyClock {
    /// A clock that begins with 0 now.
    pub fn new() -> BusyClock {
        BusyClock {
            origin: Instant::now(),
            random: RandomState::new().build_hasher().finish() | 1,
        }
    }

    fn random_steps(&mut self) {
        self.random ^= self.random << 13;
        self.random ^= self.random >> 7;
        self.random ^= self.random << 17;
        for step in 0..self.random % STEPS {
            black_box(step);
        }
    }
}

impl Default for BusyClock {
    fn default() -> BusyClock {
        BusyClock::new()
    }
}

impl Clock for BusyClock {
    fn now(&self) -> u64 {
        u64::try_from(self.origin.elapsed().as_nanos()).unwrap_or(u64::MAX)
    }

    fn wait_until(&mut self, moment: u64) {
        if moment.saturating_sub(self.now()) > ROOM {
            self.random_steps();
        }
        while self.now() < moment {
            spin_loop();
        }
    }
}
