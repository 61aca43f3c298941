//! The crate `jet`: each operation against the same rules in Rust, those of the oracle. Both sides are behind a call that
//! reads its operands and writes its result through references.
use crate::floats::Random;
use crate::timing::{compare, Row};
use oracle::jet::SIZE;
use oracle::Jet;
use std::hint::black_box;

type Coefficients = [f64; SIZE];

extern "C" {
    fn jet_add(a: &Coefficients, b: &Coefficients, r: &mut Coefficients);
    fn jet_mul(a: &Coefficients, b: &Coefficients, r: &mut Coefficients);
    fn jet_div(a: &Coefficients, b: &Coefficients, r: &mut Coefficients);
    fn jet_sqrt(a: &Coefficients, r: &mut Coefficients);
    fn jet_ln(a: &Coefficients, r: &mut Coefficients);
    fn jet_mul_to(n: usize, a: &Coefficients, b: &Coefficients, r: &mut Coefficients);
    fn jet_div_to(n: usize, a: &Coefficients, b: &Coefficients, r: &mut Coefficients);
    fn jet_sqrt_to(n: usize, a: &Coefficients, r: &mut Coefficients);
    fn jet_ln_to(n: usize, a: &Coefficients, r: &mut Coefficients);
}

type Operation = fn(&Coefficients, &Coefficients, &mut Coefficients);

// The rules of oracle/src/jet.rs for the first n coefficients.
mod first {
    use super::{Coefficients, SIZE};
    use oracle::jet::for_each_below;

    fn degree(p: usize) -> f64 {
        (p % 4 + p / 4 % 2 + p / 8 % 2 + p / 16) as f64
    }

    pub fn mul(n: usize, a: &Coefficients, b: &Coefficients) -> Coefficients {
        let mut c = [0.0; SIZE];
        for m in 0..n.min(SIZE) {
            let mut sum = a[0] * b[m];
            for_each_below(m, |p| {
                if p != 0 {
                    sum += a[p] * b[m - p];
                }
            });
            c[m] = sum;
        }
        c
    }

    pub fn div(n: usize, a: &Coefficients, b: &Coefficients) -> Coefficients {
        let mut q = [0.0; SIZE];
        for m in 0..n.min(SIZE) {
            let mut rest = a[m];
            for_each_below(m, |p| {
                if p != m {
                    rest -= q[p] * b[m - p];
                }
            });
            q[m] = rest / b[0];
        }
        q
    }

    pub fn sqrt(n: usize, a: &Coefficients) -> Coefficients {
        let mut r = [0.0; SIZE];
        r[0] = a[0].sqrt();
        for m in 1..n.min(SIZE) {
            let mut rest = a[m];
            for_each_below(m, |p| {
                if p != 0 && p != m {
                    rest -= r[p] * r[m - p];
                }
            });
            r[m] = rest / (2.0 * r[0]);
        }
        r
    }

    pub fn ln(n: usize, a: &Coefficients) -> Coefficients {
        let mut l = [0.0; SIZE];
        l[0] = oracle::float::ln(a[0]);
        for m in 1..n.min(SIZE) {
            let mut rest = degree(m) * a[m];
            for_each_below(m, |p| {
                if p != 0 && p != m {
                    rest -= (degree(p) * l[p]) * a[m - p];
                }
            });
            l[m] = rest / (degree(m) * a[0]);
        }
        l
    }
}

/// The same for four coefficients and no other number, on jets of any size from four: the compiler unrolls them.
pub mod four {
    pub fn mul<const S: usize>(a: &[f64; S], b: &[f64; S]) -> [f64; S] {
        let mut c = [0.0; S];
        for m in 0..4 {
            let mut sum = a[0] * b[m];
            for p in 1..=m {
                sum += a[p] * b[m - p];
            }
            c[m] = sum;
        }
        c
    }

    pub fn div<const S: usize>(a: &[f64; S], b: &[f64; S]) -> [f64; S] {
        let mut q = [0.0; S];
        for m in 0..4 {
            let mut rest = a[m];
            for p in 0..m {
                rest -= q[p] * b[m - p];
            }
            q[m] = rest / b[0];
        }
        q
    }

    pub fn sqrt<const S: usize>(a: &[f64; S]) -> [f64; S] {
        let mut r = [0.0; S];
        r[0] = a[0].sqrt();
        for m in 1..4 {
            let mut rest = a[m];
            for p in 1..m {
                rest -= r[p] * r[m - p];
            }
            r[m] = rest / (2.0 * r[0]);
        }
        r
    }

    pub fn ln<const S: usize>(a: &[f64; S]) -> [f64; S] {
        let mut l = [0.0; S];
        l[0] = oracle::float::ln(a[0]);
        for m in 1..4 {
            let mut rest = m as f64 * a[m];
            for p in 1..m {
                rest -= (p as f64 * l[p]) * a[m - p];
            }
            l[m] = rest / (m as f64 * a[0]);
        }
        l
    }
}

macro_rules! sides {
    ($($what:literal, $against:literal, $ours:expr, $theirs:expr;)*) => {{
        let mut all: Vec<(&'static str, &'static str, Operation, Operation)> = Vec::new();
        $({
            fn ours(a: &Coefficients, b: &Coefficients, r: &mut Coefficients) {
                let f: unsafe fn(&Coefficients, &Coefficients, &mut Coefficients) = $ours;
                unsafe { f(a, b, r) }
            }
            #[inline(never)]
            fn theirs(a: &Coefficients, b: &Coefficients, r: &mut Coefficients) {
                let f: fn(&Coefficients, &Coefficients) -> Coefficients = $theirs;
                *r = f(a, b);
            }
            all.push(($what, $against, ours, theirs));
        })*
        all
    }};
}

fn jet(a: &Coefficients) -> Jet {
    Jet { c: *a }
}

fn sides() -> Vec<(&'static str, &'static str, Operation, Operation)> {
    sides! {
        "jet add", "the oracle's", |a, b, r| unsafe { jet_add(a, b, r) }, |a, b| (jet(a) + jet(b)).c;
        "jet mul", "the oracle's", |a, b, r| unsafe { jet_mul(a, b, r) }, |a, b| (jet(a) * jet(b)).c;
        "jet div", "the oracle's", |a, b, r| unsafe { jet_div(a, b, r) }, |a, b| (jet(a) / jet(b)).c;
        "jet sqrt", "the oracle's", |a, _, r| unsafe { jet_sqrt(a, r) }, |a, _| jet(a).sqrt().c;
        "jet ln", "the oracle's", |a, _, r| unsafe { jet_ln(a, r) }, |a, _| jet(a).ln().c;
        "jet mul_to 4", "its rules to n", |a, b, r| unsafe { jet_mul_to(black_box(4), a, b, r) }, |a, b| first::mul(black_box(4), a, b);
        "jet div_to 4", "its rules to n", |a, b, r| unsafe { jet_div_to(black_box(4), a, b, r) }, |a, b| first::div(black_box(4), a, b);
        "jet sqrt_to 4", "its rules to n", |a, _, r| unsafe { jet_sqrt_to(black_box(4), a, r) }, |a, _| first::sqrt(black_box(4), a);
        "jet ln_to 4", "its rules to n", |a, _, r| unsafe { jet_ln_to(black_box(4), a, r) }, |a, _| first::ln(black_box(4), a);
        "jet mul_to 4", "unrolled for 4", |a, b, r| unsafe { jet_mul_to(black_box(4), a, b, r) }, four::mul;
        "jet div_to 4", "unrolled for 4", |a, b, r| unsafe { jet_div_to(black_box(4), a, b, r) }, four::div;
        "jet sqrt_to 4", "unrolled for 4", |a, _, r| unsafe { jet_sqrt_to(black_box(4), a, r) }, |a, _| four::sqrt(a);
        "jet ln_to 4", "unrolled for 4", |a, _, r| unsafe { jet_ln_to(black_box(4), a, r) }, |a, _| four::ln(a);
    }
}

const N: usize = 256;
const TURNS: usize = 4;
// Short runs, and many: the best of them are free of other work on the machine.
const REPEATS: usize = 40;

// Each operation free of the one before.
fn all(a: &[Coefficients], b: &[Coefficients], f: Operation) {
    let mut r = [0.0; SIZE];
    for _ in 0..TURNS {
        for i in 0..N {
            f(&a[i], &b[i], &mut r);
            black_box(&r);
        }
    }
}

pub fn rows() -> Vec<Row> {
    let mut random = Random(0x2545f4914f6cdd1d);
    let mut unit = || (random.next() >> 11) as f64 / (1u64 << 53) as f64;
    let mut jets = || -> Vec<Coefficients> {
        (0..N).map(|_| std::array::from_fn(|m| if m == 0 { 0.5 + unit() } else { 2.0 * unit() - 1.0 })).collect()
    };
    let (a, b) = (jets(), jets());
    let mut rows = Vec::new();
    for (what, against, ours, theirs) in sides() {
        for i in 0..N {
            let (mut x, mut y) = ([0.0; SIZE], [0.0; SIZE]);
            ours(&a[i], &b[i], &mut x);
            theirs(&a[i], &b[i], &mut y);
            assert!(x.map(f64::to_bits) == y.map(f64::to_bits), "{what}: the two sides differ");
        }
        let again = || {
            compare(what, against, N * TURNS, &mut || all(black_box(&a), black_box(&b), ours), &mut || {
                all(black_box(&a), black_box(&b), theirs)
            })
        };
        let mut best = again();
        for _ in 1..REPEATS {
            let row = again();
            best.ours = best.ours.min(row.ours);
            best.theirs = best.theirs.min(row.theirs);
        }
        rows.push(best);
    }
    rows
}
