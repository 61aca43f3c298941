//! The fixed grid of slots: a gap, then a slot, again and again from moment 0 of the clock.

/// The lengths of a gap and a slot in nanoseconds. Slot k follows gap k.
#[derive(Debug, Clone, Copy, PartialEq, Eq)]
pub struct Slots {
    slot: u64,
    gap: u64,
}

impl Slots {
    /// The longest slot and the longest gap: 1 s.
    pub const LONGEST: u64 = 1_000_000_000;

    /// Lengths in nanoseconds, each from 1 to `LONGEST`; else none.
    pub fn new(slot: u64, gap: u64) -> Option<Slots> {
        let fits = |length: u64| (1..=Slots::LONGEST).contains(&length);
        (fits(slot) && fits(gap)).then_some(Slots { slot, gap })
    }

    pub fn slot(&self) -> u64 {
        self.slot
    }

    pub fn gap(&self) -> u64 {
        self.gap
    }

    /// From one slot's end to the next one's.
    pub fn period(&self) -> u64 {
        self.slot + self.gap
    }

    pub fn start(&self, number: u64) -> u64 {
        number
            .saturating_mul(self.period())
            .saturating_add(self.gap)
    }

    pub fn end(&self, number: u64) -> u64 {
        number.saturating_add(1).saturating_mul(self.period())
    }

    /// Whether the moment lies between two slots; a slot's end does, its start does not.
    pub fn in_gap(&self, moment: u64) -> bool {
        moment % self.period() < self.gap
    }

    /// The first slot that does not start before the moment.
    pub fn next_start(&self, moment: u64) -> u64 {
        moment.saturating_sub(self.gap).div_ceil(self.period())
    }

    /// The first slot that does not end before the moment.
    pub fn next_end(&self, moment: u64) -> u64 {
        moment.div_ceil(self.period()).saturating_sub(1)
    }
}
