//! The crate `float`: `sqrt` and `ln` against the machine's square root and the standard library's logarithm.
use crate::timing::{compare, Row};
use std::hint::black_box;

extern "C" {
    fn float_sqrt(x: f64) -> f64;
    fn float_ln(x: f64) -> f64;
}

fn sqrt(x: f64) -> f64 {
    unsafe { float_sqrt(x) }
}

fn ln(x: f64) -> f64 {
    unsafe { float_ln(x) }
}

// The machine's root behind a call, as ours is.
#[inline(never)]
fn machine_sqrt(x: f64) -> f64 {
    x.sqrt()
}

#[inline(never)]
fn std_ln(x: f64) -> f64 {
    x.ln()
}

/// Marsaglia's xorshift.
pub struct Random(pub u64);

impl Random {
    pub fn next(&mut self) -> u64 {
        self.0 ^= self.0 << 13;
        self.0 ^= self.0 >> 7;
        self.0 ^= self.0 << 17;
        self.0
    }

    /// A positive finite number of any exponent.
    pub fn positive(&mut self) -> f64 {
        f64::from_bits(1 + self.next() % (0x7ff0_0000_0000_0000 - 1))
    }
}

const N: usize = 1 << 16;

// One after the other, each free of the one before.
fn all(xs: &[f64], f: fn(f64) -> f64) {
    for &x in xs {
        black_box(f(x));
    }
}

// Each waits for the one before.
fn chain(xs: &[f64], f: fn(f64) -> f64) {
    let mut y = 0.0;
    for &x in xs {
        y = f(x + y * 0.0);
    }
    black_box(y);
}

pub fn rows() -> Vec<Row> {
    let mut random = Random(88172645463325252);
    let any: Vec<f64> = (0..N).map(|_| random.positive()).collect();
    // What the equation of state takes roots and logarithms of: numbers of middling size.
    let near: Vec<f64> = (0..N).map(|_| 0.01 + 100.0 * (random.next() >> 11) as f64 / (1u64 << 53) as f64).collect();
    let row = |what, against, xs: &[f64], run: fn(&[f64], fn(f64) -> f64), ours: fn(f64) -> f64, theirs: fn(f64) -> f64| {
        compare(what, against, N, &mut || run(black_box(xs), ours), &mut || run(black_box(xs), theirs))
    };
    vec![
        row("sqrt, any exponent", "the machine's", &any, all, sqrt, machine_sqrt),
        row("sqrt, 0.01 to 100", "the machine's", &near, all, sqrt, machine_sqrt),
        row("sqrt, 0.01 to 100, in a chain", "the machine's", &near, chain, sqrt, machine_sqrt),
        row("ln, any exponent", "f64::ln", &any, all, ln, std_ln),
        row("ln, 0.01 to 100", "f64::ln", &near, all, ln, std_ln),
        row("ln, 0.01 to 100, in a chain", "f64::ln", &near, chain, ln, std_ln),
    ]
}

/// That the bits of the root are those that the Rust's compiler gives.
pub fn print_counts() {
    let mut random = Random(0x9e3779b97f4a7c15);
    let mut sets: Vec<(&str, Vec<f64>)> = vec![("random", (0..20_000_000).map(|_| random.positive()).collect())];
    let mut edges = Vec::new();
    for e in 0..2047u64 {
        for k in 0..256u64 {
            for b in [(e << 52) + k, ((e + 1) << 52) - 1 - k] {
                if b != 0 {
                    edges.push(f64::from_bits(b));
                }
            }
        }
    }
    sets.push(("next to powers of two", edges));
    let mut squares = Vec::new();
    for i in 0..1_000_000u64 {
        let r = 1.0 + i as f64 / 1_048_576.0;
        for b in [-1i64, 0, 1] {
            squares.push(f64::from_bits(((r * r).to_bits() as i64 + b) as u64));
        }
    }
    sets.push(("next to squares", squares));
    println!();
    println!("{:<24} {:>10} {:>12}", "sqrt on", "inputs", "other bits");
    for (name, xs) in &sets {
        let other = xs.iter().filter(|x| sqrt(**x).to_bits() != x.sqrt().to_bits()).count();
        println!("{:<24} {:>10} {:>12}", name, xs.len(), other);
    }
}
