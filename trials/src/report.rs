//! What every trial shares: its options, counts of what it saw, progress on a terminal, and how a difference is told.

use oracle::random::Rng;
use std::collections::BTreeMap;
use std::io::{IsTerminal, Write};
use std::time::Instant;

/// `--count`, `--seed` and `--first`, the item to begin with.
#[derive(Clone, Copy)]
pub struct Options {
    pub count: u64,
    pub seed: u64,
    pub first: u64,
}

impl Options {
    /// The random numbers of one item, the same whichever the trial begins with.
    pub fn rng(&self, item: u64) -> Rng {
        Rng::new(
            self.seed
                .wrapping_mul(0x1_0000_0001)
                .wrapping_add(item << 20),
        )
    }
}

/// What two sides did not do alike.
pub struct Difference(pub String);

pub type Outcome = Result<(), Difference>;

/// Fails with both sides' words unless they are the same.
pub fn same<T: PartialEq + std::fmt::Debug>(what: &str, proved: T, other: T) -> Outcome {
    if proved == other {
        return Ok(());
    }
    Err(Difference(format!(
        "{what}: proved {proved:?}, expected {other:?}"
    )))
}

/// Fails with the first byte in which the two differ.
pub fn same_bytes(what: &str, proved: &[u8], other: &[u8]) -> Outcome {
    if proved == other {
        return Ok(());
    }
    let at = proved.iter().zip(other).position(|(a, b)| a != b);
    Err(Difference(format!(
        "{what}: first differ at byte {at:?} of {} and {}\nproved   {}\nexpected {}",
        proved.len(),
        other.len(),
        around(proved, at),
        around(other, at)
    )))
}

/// The 16 bytes in which a difference lies.
fn around(bytes: &[u8], at: Option<usize>) -> String {
    let from = at.unwrap_or(0) / 16 * 16;
    hex(&bytes[from.min(bytes.len())..(from + 16).min(bytes.len())])
}

pub fn hex(bytes: &[u8]) -> String {
    bytes.iter().map(|b| format!("{b:02x}")).collect()
}

/// How often each outcome was seen.
#[derive(Default)]
pub struct Tally(BTreeMap<String, u64>);

impl Tally {
    pub fn add(&mut self, outcome: impl Into<String>) {
        *self.0.entry(outcome.into()).or_default() += 1;
    }

    pub fn print(&self) {
        for (outcome, count) in &self.0 {
            println!("{count:>12}  {outcome}");
        }
    }
}

/// Tells on a terminal how far a trial is.
pub struct Progress {
    began: Instant,
    shown: Instant,
    on: bool,
}

impl Progress {
    pub fn new() -> Self {
        Progress {
            began: Instant::now(),
            shown: Instant::now(),
            on: std::io::stderr().is_terminal(),
        }
    }

    pub fn at(&mut self, done: u64, of: u64) {
        if self.on && self.shown.elapsed().as_millis() > 200 {
            eprint!("\r{done} of {of}");
            let _ = std::io::stderr().flush();
            self.shown = Instant::now();
        }
    }

    pub fn seconds(&self) -> f64 {
        if self.on {
            eprintln!();
        }
        self.began.elapsed().as_secs_f64()
    }
}
