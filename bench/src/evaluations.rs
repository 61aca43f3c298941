//! The crate `eos`: each evaluation against the oracle's. The proved code works out positions 0 to 3 in the evaluations
//! along the density, where only e0 is marked; the oracle works out all sixteen. So these three are also held to the same
//! rules in Rust on four coefficients, `four` below.
use crate::blends::{put, yielded, Blend, Evaluate, Reads, Rows, State, ALONG, EVALUATIONS};
use crate::floats::Random;
use crate::timing::{compare, Row};
use oracle::{PengRobinson, PengRobinsonRecord};
use std::hint::black_box;

// critical temperature in K, critical pressure in Pa, acentric factor
const FLUIDS: [(f64, f64, f64); 8] = [
    (369.83, 4248000.0, 0.1523),
    (425.12, 3796000.0, 0.2002),
    (190.56, 4599000.0, 0.0115),
    (305.32, 4872000.0, 0.0995),
    (304.21, 7383000.0, 0.2236),
    (126.20, 3400000.0, 0.0377),
    (507.60, 3025000.0, 0.3013),
    (562.05, 4895000.0, 0.2103),
];

fn blend(n: usize) -> Blend {
    let records: Vec<_> =
        FLUIDS[..n].iter().map(|&(tc, pc, acentric_factor)| PengRobinsonRecord { tc, pc, acentric_factor }).collect();
    let interactions: Vec<f64> = (0..n * (n - 1) / 2).map(|i| 0.01 * i as f64 - 0.05).collect();
    Blend::new(Rows::of(&PengRobinson::new(&records, &interactions), &vec![1.0 / n as f64; n]))
}

/// The rules of oracle/src/jet.rs up to position 4 and the Helmholtz energy of oracle/src/cubic.rs over them.
mod four {
    use crate::blends::Blend;
    use crate::jets::four;
    use std::f64::consts::SQRT_2;

    #[derive(Clone, Copy)]
    struct Jet([f64; 4]);

    impl Jet {
        fn from(x: f64) -> Self {
            Jet([x, 0.0, 0.0, 0.0])
        }
        fn sqrt(self) -> Self {
            Jet(four::sqrt(&self.0))
        }
        fn ln(self) -> Self {
            Jet(four::ln(&self.0))
        }
    }

    macro_rules! operator {
        ($trait:ident, $method:ident, $rule:expr) => {
            impl std::ops::$trait for Jet {
                type Output = Jet;
                fn $method(self, other: Jet) -> Jet {
                    let rule: fn(&[f64; 4], &[f64; 4]) -> [f64; 4] = $rule;
                    Jet(rule(&self.0, &other.0))
                }
            }
            impl std::ops::$trait<f64> for Jet {
                type Output = Jet;
                fn $method(self, other: f64) -> Jet {
                    std::ops::$trait::$method(self, Jet::from(other))
                }
            }
        };
    }

    operator!(Add, add, |a, b| std::array::from_fn(|m| a[m] + b[m]));
    operator!(Sub, sub, |a, b| std::array::from_fn(|m| a[m] - b[m]));
    operator!(Mul, mul, four::mul);
    operator!(Div, div, four::div);

    fn sum(terms: impl Iterator<Item = Jet>) -> Jet {
        terms.reduce(|s, x| s + x).expect("one component at least")
    }

    /// Coefficients of the residual Helmholtz energy along the volume.
    fn residual_helmholtz_energy(blend: &Blend, temperature: f64, molar_volume: f64) -> [f64; 4] {
        let rows = &blend.rows;
        let n = rows.n;
        let t = Jet::from(temperature);
        let volume = Jet([molar_volume, 1.0, 0.0, 0.0]);
        let rho: Vec<Jet> = blend.fractions().iter().map(|&x| Jet::from(x) / volume).collect();
        let density = sum(rho.iter().copied());
        let x: Vec<Jet> = rho.iter().map(|&d| d / density).collect();
        let ak: Vec<Jet> = (0..n)
            .map(|i| {
                let y = (Jet::from(1.0) - (t / rows.tc[i]).sqrt()) * rows.kappa[i] + 1.0;
                y * y * rows.a[i]
            })
            .collect();
        let mut ak_mix = Jet::from(0.0);
        for i in 0..n {
            for j in 0..n {
                ak_mix = ak_mix + (ak[i] * ak[j]).sqrt() * (x[i] * x[j] * (1.0 - rows.k[8 * i + j]));
            }
        }
        let b = sum((0..n).map(|i| x[i] * rows.b[i]));
        let v = Jet::from(1.0) / density;
        let a = density
            * ((v / (v - b)).ln()
                - ak_mix / (b * SQRT_2 * 2.0 * t) * ((v + b * (1.0 + SQRT_2)) / (v + b * (1.0 - SQRT_2))).ln());
        ((Jet::from(0.0) + a) * t * volume).0
    }

    pub fn p_dpdrho(blend: &Blend, t: f64, rho: f64) -> [f64; 3] {
        let v = 1.0 / rho;
        let a = residual_helmholtz_energy(blend, t, v);
        [-a[1] + t * rho, v * v * (2.0 * a[2]) + t, 0.0]
    }

    pub fn p_dpdrho_d2pdrho2(blend: &Blend, t: f64, rho: f64) -> [f64; 3] {
        let v = 1.0 / rho;
        let a = residual_helmholtz_energy(blend, t, v);
        [-a[1] + t * rho, v * v * (2.0 * a[2]) + t, -v * v * v * (2.0 * a[2] * 2.0 + v * (6.0 * a[3]))]
    }

    pub fn chemical_potential(blend: &Blend, t: f64, rho: f64) -> f64 {
        let v = 1.0 / rho;
        let a = residual_helmholtz_energy(blend, t, v);
        a[0] - a[1] * v + t * oracle::float::ln(rho)
    }
}

/// The evaluations along the density by the same rules on four coefficients.
const ON_FOUR: [Evaluate; ALONG] = [
    |blend, s, r| put(r, four::p_dpdrho(blend, s.temperature, s.density[0])),
    |blend, s, r| put(r, four::p_dpdrho_d2pdrho2(blend, s.temperature, s.density[0])),
    |blend, s, r| put(r, [four::chemical_potential(blend, s.temperature, s.density[0])]),
];

/// Partial densities are in the ratio of the fractions.
fn states(blend: &Blend, reads: Reads) -> Vec<State> {
    let mut random = Random(0x9e3779b97f4a7c15);
    let mut unit = || (random.next() >> 11) as f64 / (1u64 << 53) as f64;
    let max_density = blend.eos.compute_max_density(blend.fractions());
    let count = if blend.rows.n == 8 { 8 } else { 64 };
    let mut state = || State::of(200.0 + 400.0 * unit(), max_density * (0.01 + 0.9 * unit()));
    let partial = |state: State| {
        let (rho, x) = (state.density[0], &blend.rows.x);
        State { density: [x[0] * rho, x[1] * rho], pressure: 0.3, ..state }
    };
    (0..count).map(|_| state()).map(|state| if reads == Reads::Density { state } else { partial(state) }).collect()
}

fn row(name: &str, against: &'static str, blend: &Blend, reads: Reads, ours: Evaluate, theirs: Evaluate) -> Row {
    let what = format!("{name}, N = {}", blend.rows.n);
    let states = states(blend, reads);
    for state in &states {
        let [x, y] = [ours, theirs].map(|evaluate| yielded(evaluate, blend, state));
        assert!(x.map(f64::to_bits) == y.map(f64::to_bits), "{what}: the two sides differ");
    }
    let run = |f: Evaluate| {
        let mut r = [0.0; 12];
        for state in black_box(&states) {
            f(black_box(blend), state, &mut r);
            black_box(&r);
        }
    };
    compare(Box::leak(what.into_boxed_str()), against, states.len(), &mut || run(ours), &mut || run(theirs))
}

pub fn rows() -> Vec<Row> {
    let mut rows = Vec::new();
    for (evaluation, on_four) in EVALUATIONS.iter().zip(ON_FOUR) {
        for n in [1, 2, 8] {
            let blend = blend(n);
            rows.push(row(evaluation.name, "the oracle's", &blend, evaluation.reads, evaluation.ours, evaluation.theirs));
            rows.push(row(evaluation.name, "four coefficients", &blend, evaluation.reads, evaluation.ours, on_four));
        }
    }
    // of one component, and criticality of two, also at partial densities
    for evaluation in &EVALUATIONS[ALONG..] {
        for n in [1, 2].into_iter().filter(|&n| (evaluation.of)(n) == n) {
            rows.push(row(evaluation.name, "the oracle's", &blend(n), evaluation.reads, evaluation.ours, evaluation.theirs));
        }
    }
    rows
}
