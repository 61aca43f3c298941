//! A blend as both sides take it, and the seven evaluations of the crate `evaluations` beside the oracle's.
use oracle::{criticality, criticality_p, criticality_t, stability, PengRobinson, PengRobinsonRecord, _chemical_potential};

pub type Eight = [f64; 8];

extern "C" {
    fn eos_p_dpdrho(n: usize, tc: &Eight, a: &Eight, b: &Eight, kappa: &Eight, k: &[f64; 64], x: &Eight, t: f64, rho: f64, r: &mut [f64; 3]);
    fn eos_p_dpdrho_d2pdrho2(n: usize, tc: &Eight, a: &Eight, b: &Eight, kappa: &Eight, k: &[f64; 64], x: &Eight, t: f64, rho: f64, r: &mut [f64; 3]);
    fn eos_chemical_potential(n: usize, tc: &Eight, a: &Eight, b: &Eight, kappa: &Eight, k: &[f64; 64], x: &Eight, t: f64, rho: f64) -> f64;
    fn eos_criticality_conditions(n: usize, tc: &Eight, a: &Eight, b: &Eight, kappa: &Eight, k: &[f64; 64], x: &Eight, t: f64, rho: f64, r: &mut [f64; 6]);
    fn eos_criticality_conditions_t(n: usize, tc: &Eight, a: &Eight, b: &Eight, kappa: &Eight, k: &[f64; 64], x: &Eight, t: f64, rho0: f64, rho1: f64, r: &mut [f64; 6]);
    fn eos_criticality_conditions_p(n: usize, tc: &Eight, a: &Eight, b: &Eight, kappa: &Eight, k: &[f64; 64], x: &Eight, p: f64, t: f64, rho0: f64, rho1: f64, r: &mut [f64; 12]);
    fn eos_stability_condition(n: usize, tc: &Eight, a: &Eight, b: &Eight, kappa: &Eight, k: &[f64; 64], x: &Eight, t: f64, rho: f64, r: &mut [f64; 2]);
}

/// The numbers of a blend, with room for eight components.
#[derive(Clone)]
pub struct Rows {
    pub n: usize,
    pub tc: Eight,
    pub a: Eight,
    pub b: Eight,
    pub kappa: Eight,
    pub k: [f64; 64],
    pub x: Eight,
}

impl Rows {
    /// Zeros where there is no component.
    pub fn of(eos: &PengRobinson, fractions: &[f64]) -> Self {
        let n = eos.components();
        let eight = |v: &[f64]| std::array::from_fn(|i| if i < n { v[i] } else { 0.0 });
        Rows {
            n,
            tc: eight(&eos.tc),
            a: eight(&eos.a),
            b: eight(&eos.b),
            kappa: eight(&eos.kappa),
            k: std::array::from_fn(|e| if e / 8 < n && e % 8 < n { eos.k_ij[e / 8][e % 8] } else { 0.0 }),
            x: eight(fractions),
        }
    }

    /// The first n components for the oracle, whose parameters are set after it has made some from records.
    fn equation(&self, n: usize) -> PengRobinson {
        let record = PengRobinsonRecord { tc: 1.0, pc: 1.0, acentric_factor: 0.0 };
        let mut eos = PengRobinson::new(&vec![record; n], &vec![0.0; n * (n - 1) / 2]);
        eos.tc = self.tc[..n].to_vec();
        eos.a = self.a[..n].to_vec();
        eos.b = self.b[..n].to_vec();
        eos.kappa = self.kappa[..n].to_vec();
        eos.k_ij = (0..n).map(|i| self.k[8 * i..8 * i + n].to_vec()).collect();
        eos
    }
}

/// The same blend for both sides.
pub struct Blend {
    pub rows: Rows,
    pub eos: PengRobinson,
    /// the first component alone, of which stability is, and criticality of any other number of components than two
    first: PengRobinson,
}

impl Blend {
    pub fn new(rows: Rows) -> Self {
        let (eos, first) = (rows.equation(rows.n), rows.equation(1));
        Blend { rows, eos, first }
    }

    pub fn fractions(&self) -> &[f64] {
        &self.rows.x[..self.rows.n]
    }
}

/// Where an evaluation is made.
#[derive(Clone, Copy)]
pub struct State {
    pub temperature: f64,
    /// the density, or two partial densities
    pub density: [f64; 2],
    pub pressure: f64,
}

impl State {
    pub fn of(temperature: f64, density: f64) -> Self {
        State { temperature, density: [density, 0.0], pressure: 0.0 }
    }
}

pub type Yielded = [f64; 12];

/// Writes what is yielded over the first of these.
pub type Evaluate = fn(&Blend, &State, &mut Yielded);

/// What is yielded, zeros after it.
pub fn yielded(evaluate: Evaluate, blend: &Blend, state: &State) -> Yielded {
    let mut r = [0.0; 12];
    evaluate(blend, state, &mut r);
    r
}

pub fn put<const M: usize>(r: &mut Yielded, numbers: [f64; M]) {
    r[..M].copy_from_slice(&numbers);
}

macro_rules! ours {
    ($f:ident, $m:literal, $state:pat => $($number:expr),*) => {
        |blend, $state, r| {
            let Rows { n, tc, a, b, kappa, k, x } = &blend.rows;
            let r = r.first_chunk_mut::<$m>().expect("twelve");
            unsafe { $f(*n, tc, a, b, kappa, k, x, $($number),*, r) };
        }
    };
    ($f:ident, $m:literal) => {
        ours!($f, $m, s => s.temperature, s.density[0])
    };
}

/// What an evaluation reads of a state, and whether of the fractions.
#[derive(Clone, Copy, PartialEq)]
pub enum Reads {
    /// fractions, temperature and density
    Density,
    /// temperature and partial densities
    Partial,
    /// and the pressure
    PartialAndPressure,
}

pub struct Evaluation {
    pub name: &'static str,
    /// how many components of a blend of n it is of
    pub of: fn(usize) -> usize,
    pub reads: Reads,
    pub ours: Evaluate,
    pub theirs: Evaluate,
}

/// The first so many are along the density, of the whole blend.
pub const ALONG: usize = 3;
pub const EVALUATIONS: [Evaluation; 7] = [
    Evaluation {
        name: "p_dpdrho",
        of: |n| n,
        reads: Reads::Density,
        ours: ours!(eos_p_dpdrho, 3),
        theirs: |blend, s, r| {
            let (_, p, dp) = blend.eos.p_dpdrho(s.temperature, s.density[0], blend.fractions());
            put(r, [p, dp]);
        },
    },
    Evaluation {
        name: "p_dpdrho_d2pdrho2",
        of: |n| n,
        reads: Reads::Density,
        ours: ours!(eos_p_dpdrho_d2pdrho2, 3),
        theirs: |blend, s, r| put::<3>(r, blend.eos.p_dpdrho_d2pdrho2(s.temperature, s.density[0], blend.fractions()).into()),
    },
    Evaluation {
        name: "_chemical_potential",
        of: |n| n,
        reads: Reads::Density,
        ours: |blend, s, r| {
            let Rows { n, tc, a, b, kappa, k, x } = &blend.rows;
            r[0] = unsafe { eos_chemical_potential(*n, tc, a, b, kappa, k, x, s.temperature, s.density[0]) };
        },
        theirs: |blend, s, r| r[0] = _chemical_potential(&blend.eos, s.temperature, s.density[0], blend.fractions()),
    },
    Evaluation {
        name: "criticality_conditions",
        of: |n| if n == 2 { 2 } else { 1 },
        reads: Reads::Density,
        ours: ours!(eos_criticality_conditions, 6),
        theirs: |blend, s, r| {
            let (eos, n) = if blend.rows.n == 2 { (&blend.eos, 2) } else { (&blend.first, 1) };
            let (res, jac) = criticality(eos, s.temperature, s.density[0], &blend.rows.x[..n]);
            put(r, [res[0], res[1], jac[0][0], jac[0][1], jac[1][0], jac[1][1]]);
        },
    },
    Evaluation {
        name: "stability_condition",
        of: |_| 1,
        reads: Reads::Density,
        ours: ours!(eos_stability_condition, 2),
        theirs: |blend, s, r| {
            let (f, df) = stability(&blend.first, s.temperature, s.density[0], &blend.rows.x[..1]);
            put(r, [f, df]);
        },
    },
    // of blends of two alone
    Evaluation {
        name: "criticality_conditions_t",
        of: |_| 2,
        reads: Reads::Partial,
        ours: ours!(eos_criticality_conditions_t, 6, s => s.temperature, s.density[0], s.density[1]),
        theirs: |blend, s, r| put(r, criticality_t(&blend.eos, s.temperature, s.density)),
    },
    Evaluation {
        name: "criticality_conditions_p",
        of: |_| 2,
        reads: Reads::PartialAndPressure,
        ours: ours!(eos_criticality_conditions_p, 12, s => s.pressure, s.temperature, s.density[0], s.density[1]),
        theirs: |blend, s, r| put(r, criticality_p(&blend.eos, s.pressure, s.temperature, s.density)),
    },
];
