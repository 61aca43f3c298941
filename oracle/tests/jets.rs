//! Jets against known series and against each other, in 32 positions and in the 16 without e3.

use oracle::float::bits;
use oracle::jet::{for_each_below, SIZE};
use oracle::random::Rng;
use oracle::vectors::{jet_cases, jet_operation, OPERATIONS};
use oracle::{Jet, Jet16, JetOf};

/// The degree in e0 and the degree sum of a position.
fn degrees(m: usize) -> (usize, usize) {
    (m % 4, m % 4 + m / 4 % 2 + m / 8 % 2 + m / 16)
}

fn factorial(n: usize) -> f64 {
    (1..=n).product::<usize>() as f64
}

/// The coefficients that are not 0, the others +0.
fn sparse(entries: &[(usize, f64)]) -> [f64; SIZE] {
    let mut c = [0.0; SIZE];
    for &(m, x) in entries {
        c[m] = x;
    }
    c
}

/// Coefficients up to 1 in size after a positive one.
fn ordinary_jet(rng: &mut Rng) -> Jet {
    let mut c = [0.0; SIZE];
    c.fill_with(|| rng.between(-1.0, 1.0));
    c[0] = rng.between(0.7, 3.0);
    Jet { c }
}

/// The first sixteen coefficients.
fn without_e3(j: Jet) -> Jet16 {
    Jet16 {
        c: std::array::from_fn(|m| j.c[m]),
    }
}

/// The positions below m as the operations go through them.
fn below(m: usize) -> Vec<usize> {
    let mut all = Vec::new();
    for_each_below(m, |p| all.push(p));
    all
}

/// The same by a test of every position.
fn not_above(m: usize) -> Vec<usize> {
    let parts = |p: usize| [p % 4, p % 8 / 4, p % 16 / 8, p / 16];
    let is_below = |p: &usize| (0..4).all(|i| parts(*p)[i] <= parts(m)[i]);
    (0..SIZE).filter(is_below).collect()
}

#[test]
fn positions() {
    let pairs: usize = (0..16).map(|m| below(m).len()).sum();
    assert_eq!(pairs, 90);
    let pairs: usize = (0..SIZE).map(|m| below(m).len()).sum();
    assert_eq!(pairs, 270);
    assert_eq!(below(0), [0]);
    assert_eq!(below(3), [0, 1, 2, 3]);
    assert_eq!(below(6), [0, 1, 2, 4, 5, 6]);
    assert_eq!(below(8), [0, 8]);
    assert_eq!(below(15), (0..16).collect::<Vec<_>>());
    assert_eq!(below(16), [0, 16]);
    assert_eq!(below(21), [0, 1, 4, 5, 16, 17, 20, 21]);
    assert_eq!(below(24), [0, 8, 16, 24]);
    assert_eq!(below(31), (0..32).collect::<Vec<_>>());
    // m - p is a position below m too
    for m in 0..SIZE {
        assert_eq!(below(m), not_above(m));
        assert!(below(m).iter().all(|p| below(m).contains(&(m - p))));
    }
}

/// Product, quotient, root and logarithm as document 01 words them, over `not_above`.
fn by_the_rules<const S: usize>(a: JetOf<S>, b: JetOf<S>) -> [JetOf<S>; 4] {
    let (a, b) = (&a.c, &b.c);
    let [mut c, mut q, mut r, mut l] = [[0.0; S]; 4];
    let w = |p: usize| degrees(p).1 as f64;
    for m in 0..S {
        let all = not_above(m);
        let before = || all.iter().copied().filter(|&p| p != m);
        let between = || before().filter(|&p| p != 0);
        let terms = all.iter().map(|&p| a[p] * b[m - p]);
        c[m] = terms.reduce(|sum, term| sum + term).unwrap();
        q[m] = before().fold(a[m], |rest, p| rest - q[p] * b[m - p]) / b[0];
        (r[m], l[m]) = if m == 0 {
            (a[0].sqrt(), oracle::float::ln(a[0]))
        } else {
            let root = between().fold(a[m], |rest, p| rest - r[p] * r[m - p]);
            let ln = between().fold(w(m) * a[m], |rest, p| rest - (w(p) * l[p]) * a[m - p]);
            (root / (2.0 * r[0]), ln / (w(m) * a[0]))
        };
    }
    [c, q, r, l].map(|c| JetOf { c })
}

/// The operations have the bits of the rules, in 32 positions and in 16, on ordinary and special operands.
#[test]
fn operations_follow_the_rules() {
    fn compare<const S: usize>(a: JetOf<S>, b: JetOf<S>) {
        let found = [a * b, a / b, a.sqrt(), a.ln()];
        let names = ["product", "quotient", "root", "logarithm"];
        for ((found, expected), name) in found.iter().zip(by_the_rules(a, b)).zip(names) {
            let (found, expected) = (found.c.map(bits), expected.c.map(bits));
            assert_eq!(found, expected, "{name} of {a:?} and {b:?}");
        }
    }
    let mut rng = Rng::new(13);
    let ordinary = (0..2000).map(|_| (ordinary_jet(&mut rng), ordinary_jet(&mut rng)));
    let cases = jet_cases(3, 12_000).map(|case| (case.a, case.b));
    for (a, b) in ordinary.chain(cases) {
        compare(a, b);
        compare(without_e3(a), without_e3(b));
    }
}

/// (w + e0)(x + e1)(y + e2)(z + e3) has every coefficient of degree up to 1.
#[test]
fn product_of_the_marks() {
    let j = Jet::e0(2.0) * Jet::e1(3.0) * Jet::e2(5.0);
    let three = [
        (0, 30.0),
        (1, 15.0),
        (4, 10.0),
        (5, 5.0),
        (8, 6.0),
        (9, 3.0),
        (12, 2.0),
        (13, 1.0),
    ];
    assert_eq!(j.c, sparse(&three));
    let four: Vec<(usize, f64)> = three
        .iter()
        .flat_map(|&(m, x)| [(m, 7.0 * x), (m + 16, x)])
        .collect();
    assert_eq!((j * Jet::e3(7.0)).c, sparse(&four));
    // marks of degree 1 have no square, e0 no fourth power
    for mark in [Jet::e1(0.0), Jet::e2(0.0), Jet::e3(0.0)] {
        assert_eq!((mark * mark).c, [0.0; SIZE]);
    }
    let e0 = Jet::e0(0.0);
    assert_eq!((e0 * e0 * e0).c, sparse(&[(3, 1.0)]));
    assert_eq!((e0 * e0 * e0 * e0).c, [0.0; SIZE]);
    let all = e0 * e0 * e0 * Jet::e1(0.0) * Jet::e2(0.0) * Jet::e3(0.0);
    assert_eq!(all.c, sparse(&[(31, 1.0)]));
}

/// 1 plus the same multiple of every mark.
fn one_and_marks(x: f64) -> Jet {
    Jet {
        c: sparse(&[(0, 1.0), (1, x), (4, x), (8, x), (16, x)]),
    }
}

/// 1/(1 - e0 - e1 - e2 - e3) has the multinomials (i+j+k+l)!/(i! j! k! l!).
#[test]
fn geometric_series() {
    let j = one_and_marks(-1.0);
    let q = j.recip();
    for m in 0..SIZE {
        let (i, degree) = degrees(m);
        assert_eq!(q.c[m], factorial(degree) / factorial(i), "position {m}");
    }
    // its logarithm is minus that of the denominator: (i+j+k+l-1)!/(i! j! k! l!)
    let l = j.ln();
    assert_eq!(l.c[0], 0.0);
    for m in 1..SIZE {
        let (i, degree) = degrees(m);
        let expected = -factorial(degree - 1) / factorial(i);
        assert!((l.c[m] - expected).abs() < 1e-13, "position {m}");
    }
}

/// The root of 1 + x for x = e0 + e1 + e2 + e3: binomial(1/2, d) times the multinomial.
#[test]
fn binomial_series() {
    let r = one_and_marks(1.0).sqrt();
    for m in 0..SIZE {
        let (i, degree) = degrees(m);
        let falling: f64 = (0..degree).map(|k| 0.5 - k as f64).product();
        let expected = falling / factorial(i);
        assert!((r.c[m] - expected).abs() < 1e-13, "position {m}");
    }
}

/// e3 alone, as on paper: f(x + e3) = f(x) + f'(x) e3, and with e0 the derivatives of f' beside it.
#[test]
fn closed_forms_of_e3() {
    let x = 1.75;
    assert_eq!(
        Jet::e3(x).recip().c,
        sparse(&[(0, 1.0 / x), (16, -(1.0 / x) / x)])
    );
    let root = x.sqrt();
    assert_eq!(
        Jet::e3(x).sqrt().c,
        sparse(&[(0, root), (16, 1.0 / (2.0 * root))])
    );
    assert_eq!(
        Jet::e3(x).ln().c,
        sparse(&[(0, oracle::float::ln(x)), (16, 1.0 / x)])
    );
    assert_eq!(Jet::e3(x).square().c, sparse(&[(0, x * x), (16, 2.0 * x)]));
    // f(x + e0 + e3): the coefficient of e0^i e3 is f^(i+1)(x)/i!
    let both = Jet {
        c: sparse(&[(0, x), (1, 1.0), (16, 1.0)]),
    };
    let recip = |k: i32| (-1.0f64).powi(k) * factorial(k as usize) / x.powi(k + 1);
    let ln = |k: i32| (-1.0f64).powi(k - 1) * factorial(k as usize - 1) / x.powi(k);
    let sqrt = |k: i32| {
        let falling: f64 = (0..k).map(|i| 0.5 - f64::from(i)).product();
        falling * x.powf(0.5 - f64::from(k))
    };
    for i in 0..4 {
        let near = |j: Jet, derivative: f64| {
            let (found, expected) = (j.c[16 + i], derivative / factorial(i));
            assert!((found - expected).abs() < 1e-13, "{i}: {found} {expected}");
        };
        let k = i as i32 + 1;
        near(both.recip(), recip(k));
        near(both.ln(), ln(k));
        near(both.sqrt(), sqrt(k));
    }
    // (x + e2)(y + e3)/(x + e2) is y + e3 again, whose logarithm has nothing beside e2
    let back = (Jet::e2(2.0) * Jet::e3(4.0)) / Jet::e2(2.0);
    assert_eq!(back.c, Jet::e3(4.0).c);
    // 1/(e2 + e3 + 1): twice the mixed term
    let mixed = (Jet::e2(1.0) + Jet::e3(0.0)).recip();
    assert_eq!(
        mixed.c,
        sparse(&[(0, 1.0), (8, -1.0), (16, -1.0), (24, 2.0)])
    );
}

/// e3 is a mark like e1 and e2: a jet with two of them exchanged gives the operation's result with the same exchange.
#[test]
fn marks_of_degree_1_are_alike() {
    let exchanged = |j: Jet, a: usize, b: usize| {
        let swap = |m: usize| match (m & a != 0, m & b != 0) {
            (true, false) => m - a + b,
            (false, true) => m - b + a,
            _ => m,
        };
        Jet {
            c: std::array::from_fn(|m| j.c[swap(m)]),
        }
    };
    let mut rng = Rng::new(5);
    for _ in 0..500 {
        let (a, b) = (ordinary_jet(&mut rng), ordinary_jet(&mut rng));
        for operation in 0..OPERATIONS.len() as u8 {
            let whole = jet_operation(operation, a, b).unwrap();
            for (x, y) in [(4, 16), (8, 16)] {
                let other =
                    jet_operation(operation, exchanged(a, x, y), exchanged(b, x, y)).unwrap();
                let back = exchanged(other, x, y);
                for m in 0..SIZE {
                    let scale = whole.c[m].abs().max(1.0);
                    assert!(
                        (back.c[m] - whole.c[m]).abs() < 1e-11 * scale,
                        "{operation} {m}"
                    );
                }
            }
        }
    }
}

#[test]
fn quotient_root_and_logarithm_undo() {
    let mut rng = Rng::new(1);
    for _ in 0..2000 {
        let (a, b) = (ordinary_jet(&mut rng), ordinary_jet(&mut rng));
        let close = |x: Jet, y: Jet, tolerance: f64| {
            for m in 0..SIZE {
                assert!((x.c[m] - y.c[m]).abs() < tolerance, "{x:?} {y:?} at {m}");
            }
        };
        close((a / b) * b, a, 1e-9);
        close(a.sqrt().square(), a, 1e-9);
        close((a * b).ln(), a.ln() + b.ln(), 1e-9);
        close(a - b, -(b - a), 1e-300);
    }
}

#[test]
fn derivatives() {
    let j = Jet {
        c: std::array::from_fn(|m| m as f64 + 1.0),
    };
    for (k, factorial) in [(1, 1.0), (2, 2.0), (3, 6.0)] {
        let mut expected = [0.0; SIZE];
        for m in [0, 4, 8, 12, 16, 20, 24, 28] {
            expected[m] = factorial * ((m + k) as f64 + 1.0);
        }
        assert_eq!(j.derivative(k).c, expected);
    }
    assert_eq!(j.derivative(1).c[4], 6.0);
    assert_eq!(j.derivative(2).c[8], 22.0);
    assert_eq!(j.derivative(3).c[16], 120.0);
}

fn lower<const S: usize>(j: JetOf<S>) -> [u64; 16] {
    std::array::from_fn(|m| bits(j.c[m]))
}

/// No coefficient hangs on one at a later position: jets of 16 give the first 16 words of jets of 32, whatever stands in the
/// upper sixteen, on ordinary and special operands.
#[test]
fn upper_sixteen_change_nothing_below() {
    let mut rng = Rng::new(9);
    for case in jet_cases(2, 24_000) {
        let (a, b) = (without_e3(case.a), without_e3(case.b));
        let sixteen = match case.operation {
            0 => a + b,
            1 => a - b,
            2 => -a,
            3 => a * b,
            4 => a / b,
            5 => a.recip(),
            6 => a.sqrt(),
            7 => a.ln(),
            8 => a.square(),
            k => a.derivative(usize::from(k - 8)),
        };
        let mut others = case.a;
        let mut other = case.b;
        for m in 16..SIZE {
            (others.c[m], other.c[m]) = (rng.special(), rng.any_finite());
        }
        for (a, b) in [(case.a, case.b), (others, other)] {
            let whole = jet_operation(case.operation, a, b).unwrap();
            assert_eq!(lower(whole), lower(sixteen), "{}", case.line());
        }
    }
}

/// The vectors hold what they are meant to: every operation, results that are finite and that are not, and marks e3.
#[test]
fn vectors_are_mixed() {
    for operation in 0..12u8 {
        let (mut finite, mut other, mut upper) = (0, 0, 0);
        for case in jet_cases(1, 6000).filter(|case| case.operation == operation) {
            let result = jet_operation(operation, case.a, case.b).unwrap();
            if result.c.iter().all(|x| x.is_finite()) {
                finite += 1;
            } else {
                other += 1;
            }
            upper += usize::from(result.c[16..].iter().any(|x| x.is_finite() && *x != 0.0));
        }
        assert!(finite > 30 && other > 30, "{operation}: {finite} {other}");
        assert!(upper > 100, "{operation}: {upper}");
    }
}
