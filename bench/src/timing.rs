//! Rows of the table, and how one is timed: the two sides in turn, the best of several runs of each. A clock for single calls.
use std::arch::x86_64::{_mm_lfence, _mm_mfence, _rdtsc};
use std::hint::black_box;
use std::time::Instant;

pub struct Row {
    pub what: &'static str,
    pub against: &'static str,
    pub ours: f64,
    pub theirs: f64,
}

impl Row {
    pub fn print(&self) {
        println!("{:<34} {:>7.2} {:>10.2} {:>10.2}   {}", self.what, self.ours / self.theirs, self.ours, self.theirs, self.against);
    }
}

const RUNS: usize = 200;

fn seconds(f: &mut dyn FnMut()) -> f64 {
    let start = Instant::now();
    f();
    start.elapsed().as_secs_f64()
}

/// Nanoseconds for one of `count` operations, of `ours` and of `theirs`.
pub fn compare(what: &'static str, against: &'static str, count: usize, ours: &mut dyn FnMut(), theirs: &mut dyn FnMut()) -> Row {
    let (mut a, mut b) = (f64::INFINITY, f64::INFINITY);
    for _ in 0..RUNS {
        a = a.min(seconds(ours));
        b = b.min(seconds(theirs));
    }
    let unit = 1e9 / count as f64;
    Row { what, against, ours: a * unit, theirs: b * unit }
}

/// The processor's clock, for single calls. It is read between fences: what was begun before is done by then, and nothing
/// after it has begun. An empty call is timed the same way, and its best time is taken off every time: no less than a call's
/// own is left, also where the processor is slower for a while.
pub struct Clock {
    ns_per_tick: f64,
    empty: f64,
}

#[inline(always)]
fn ticks() -> u64 {
    unsafe {
        _mm_lfence();
        let now = _rdtsc();
        _mm_lfence();
        now
    }
}

#[inline(always)]
fn ticks_of<R>(call: impl FnOnce() -> R) -> (R, u64) {
    // what is still on its way to memory is not the call's
    unsafe { _mm_mfence() };
    let start = ticks();
    let result = call();
    (result, ticks() - start)
}

/// Over 2 ms.
fn ns_per_tick() -> f64 {
    let (start, first) = (Instant::now(), ticks());
    while start.elapsed().as_millis() < 2 {}
    let (elapsed, last) = (start.elapsed(), ticks());
    elapsed.as_secs_f64() * 1e9 / (last - first) as f64
}

impl Clock {
    pub fn new() -> Self {
        let mut ns = Vec::new();
        let mut empty = f64::INFINITY;
        for _ in 0..25 {
            ns.push(ns_per_tick());
            empty = (0..4_000).map(|_| ticks_of(|| black_box(())).1 as f64).fold(empty, f64::min);
        }
        Clock { ns_per_tick: median(&mut ns), empty }
    }

    /// What the call gives, and its nanoseconds.
    #[inline(always)]
    pub fn time<R>(&self, call: impl FnOnce() -> R) -> (R, f64) {
        let (result, ticks) = ticks_of(call);
        (result, (ticks as f64 - self.empty).max(0.0) * self.ns_per_tick)
    }
}

/// Runs something that many half kilobytes further down the stack. The place of its frames changes a call's time, and the
/// system begins the stack elsewhere in every run of the program.
#[inline(never)]
pub fn deeper(steps: usize, run: &mut dyn FnMut()) {
    let room = black_box([0u8; 512]);
    if steps == 0 {
        run();
    } else {
        deeper(steps - 1, run);
    }
    black_box(&room);
}

/// The upper one of two in the middle; sorts the numbers.
pub fn median(numbers: &mut [f64]) -> f64 {
    numbers.sort_unstable_by(f64::total_cmp);
    numbers[numbers.len() / 2]
}
