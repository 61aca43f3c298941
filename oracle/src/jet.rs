//! Jets: polynomials in the marks e0 (degree up to 3), e1, e2 and e3 (degree up to 1), higher terms dropped. The coefficient
//! of e0^i e1^j e2^k e3^l stands at position i + 4j + 8k + 16l. The rules are document 01's stand-ins for `DualNum`. Without
//! e3 sixteen positions are enough: no coefficient hangs on one at a later position.

use crate::float;
use std::ops::{Add, AddAssign, Div, Mul, Neg, Sub};

/// Positions of a jet with every mark.
pub const SIZE: usize = 32;

/// The first positions of a jet: all 32, or the 16 without e3.
#[derive(Clone, Copy, Debug, PartialEq)]
pub struct JetOf<const S: usize> {
    pub c: [f64; S],
}

/// The jet of the documents.
pub type Jet = JetOf<SIZE>;

/// A jet without e3, in which kinds 1 to 8 are worked out.
pub type Jet16 = JetOf<16>;

/// The degrees in e0, e1, e2 and e3 of a position.
fn parts(p: usize) -> [usize; 4] {
    [p % 4, p / 4 % 2, p / 8 % 2, p / 16]
}

/// Calls f with each position p not above m in any mark, ascending: 0 first, m last.
#[inline]
pub fn for_each_below(m: usize, mut f: impl FnMut(usize)) {
    let [i, j, k, l] = parts(m);
    // half-open ranges: loops over `0..=l` and so on are slower
    for e3 in 0..l + 1 {
        for e2 in 0..k + 1 {
            for e1 in 0..j + 1 {
                for e0 in 0..i + 1 {
                    f(e0 + 4 * e1 + 8 * e2 + 16 * e3);
                }
            }
        }
    }
}

/// The same without 0 and m.
fn for_each_between(m: usize, mut f: impl FnMut(usize)) {
    for_each_below(m, |p| {
        if p != 0 && p != m {
            f(p);
        }
    });
}

/// The degree sum of a position.
fn degree(p: usize) -> f64 {
    let [i, j, k, l] = parts(p);
    (i + j + k + l) as f64
}

impl<const S: usize> From<f64> for JetOf<S> {
    /// A plain number beside a jet is a jet with zeros after it.
    fn from(x: f64) -> Self {
        let mut c = [0.0; S];
        c[0] = x;
        JetOf { c }
    }
}

impl Jet {
    /// x + e3.
    pub fn e3(x: f64) -> Self {
        Jet::from(x).with_mark(16)
    }
}

impl<const S: usize> JetOf<S> {
    pub fn zero() -> Self {
        Self::from(0.0)
    }

    pub fn one() -> Self {
        Self::from(1.0)
    }

    /// x + e0.
    pub fn e0(x: f64) -> Self {
        Self::from(x).with_mark(1)
    }

    /// x + e1.
    pub fn e1(x: f64) -> Self {
        Self::from(x).with_mark(4)
    }

    /// x + e2.
    pub fn e2(x: f64) -> Self {
        Self::from(x).with_mark(8)
    }

    /// A jet free of e0, plus e0.
    pub fn plus_e0(self) -> Self {
        self.with_mark(1)
    }

    fn with_mark(mut self, position: usize) -> Self {
        self.c[position] = 1.0;
        self
    }

    pub fn re(&self) -> f64 {
        self.c[0]
    }

    /// The Rust's `is_zero` looks at the real part.
    pub fn is_zero(&self) -> bool {
        self.c[0] == 0.0
    }

    pub fn recip(self) -> Self {
        Self::one() / self
    }

    /// `powi(2)` is a product.
    pub fn square(self) -> Self {
        self * self
    }

    pub fn sqrt(self) -> Self {
        let a = &self.c;
        let mut r = [0.0; S];
        r[0] = a[0].sqrt();
        for m in 1..S {
            let mut rest = a[m];
            for_each_between(m, |p| rest -= r[p] * r[m - p]);
            r[m] = rest / (2.0 * r[0]);
        }
        JetOf { c: r }
    }

    pub fn ln(self) -> Self {
        let a = &self.c;
        let mut l = [0.0; S];
        l[0] = float::ln(a[0]);
        for m in 1..S {
            let mut rest = degree(m) * a[m];
            for_each_between(m, |p| rest -= (degree(p) * l[p]) * a[m - p]);
            l[m] = rest / (degree(m) * a[0]);
        }
        JetOf { c: l }
    }

    /// The k-th derivative by e0: k factorial times the coefficients of e0^k, a jet free of e0.
    pub fn derivative(self, k: usize) -> Self {
        let factorial = (1..=k).product::<usize>() as f64;
        let mut c = [0.0; S];
        for m in (0..S).step_by(4) {
            c[m] = factorial * self.c[m + k];
        }
        JetOf { c }
    }
}

impl<const S: usize> Add for JetOf<S> {
    type Output = Self;
    fn add(self, rhs: Self) -> Self {
        let mut c = [0.0; S];
        for m in 0..S {
            c[m] = self.c[m] + rhs.c[m];
        }
        JetOf { c }
    }
}

impl<const S: usize> Sub for JetOf<S> {
    type Output = Self;
    fn sub(self, rhs: Self) -> Self {
        let mut c = [0.0; S];
        for m in 0..S {
            c[m] = self.c[m] - rhs.c[m];
        }
        JetOf { c }
    }
}

impl<const S: usize> Neg for JetOf<S> {
    type Output = Self;
    fn neg(self) -> Self {
        JetOf {
            c: self.c.map(|x| -x),
        }
    }
}

impl<const S: usize> Mul for JetOf<S> {
    type Output = Self;
    // not inlined: a copy in every caller is slower
    #[inline(never)]
    fn mul(self, rhs: Self) -> Self {
        let (a, b) = (&self.c, &rhs.c);
        let mut c = [0.0; S];
        for m in 0..S {
            let mut sum = a[0] * b[m];
            for_each_below(m, |p| {
                if p != 0 {
                    sum += a[p] * b[m - p];
                }
            });
            c[m] = sum;
        }
        JetOf { c }
    }
}

impl<const S: usize> Div for JetOf<S> {
    type Output = Self;
    fn div(self, rhs: Self) -> Self {
        let (a, b) = (&self.c, &rhs.c);
        let mut q = [0.0; S];
        for m in 0..S {
            let mut rest = a[m];
            for_each_below(m, |p| {
                if p != m {
                    rest -= q[p] * b[m - p];
                }
            });
            q[m] = rest / b[0];
        }
        JetOf { c: q }
    }
}

impl<const S: usize> AddAssign for JetOf<S> {
    fn add_assign(&mut self, rhs: Self) {
        *self = *self + rhs;
    }
}

impl<const S: usize> Add<f64> for JetOf<S> {
    type Output = Self;
    fn add(self, rhs: f64) -> Self {
        self + Self::from(rhs)
    }
}

impl<const S: usize> Sub<f64> for JetOf<S> {
    type Output = Self;
    fn sub(self, rhs: f64) -> Self {
        self - Self::from(rhs)
    }
}

impl<const S: usize> Mul<f64> for JetOf<S> {
    type Output = Self;
    fn mul(self, rhs: f64) -> Self {
        self * Self::from(rhs)
    }
}

impl<const S: usize> Div<f64> for JetOf<S> {
    type Output = Self;
    fn div(self, rhs: f64) -> Self {
        self / Self::from(rhs)
    }
}

/// Sum in ascending order from the first term.
pub fn sum<const S: usize>(x: &[JetOf<S>]) -> JetOf<S> {
    let mut s = x[0];
    for &term in &x[1..] {
        s += term;
    }
    s
}

/// `dot` in ascending order from the first term.
pub fn dot<const S: usize>(x: &[JetOf<S>], y: &[JetOf<S>]) -> JetOf<S> {
    let mut s = x[0] * y[0];
    for i in 1..x.len() {
        s += x[i] * y[i];
    }
    s
}
