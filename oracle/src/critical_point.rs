//! Critical points of one component with fraction 1 or of a blend of two, also at a set temperature or pressure, and stability
//! spinodals of one component. After feos `state/critical_point.rs`. Mark e0 is on the mole numbers, s or the volume; e1, e2
//! and e3 are on the unknowns in their order.

use crate::cubic::PengRobinson;
use crate::evaluations::{finite, Evaluations, FeosError, FeosResult};
use crate::float;
use crate::jet::{self, Jet, JetOf};
use crate::residual::plain;
use crate::state::DensityInitialization::{self, InitialDensity, Liquid, Vapor};

const MAX_ITER_CRIT_POINT: usize = 50;
const MAX_ITER_CRIT_POINT_BINARY: usize = 200;
const TOL_CRIT_POINT: f64 = 1e-8;

/// Calculate the critical point of a system for given moles.
pub fn critical_point(
    eos: &PengRobinson,
    x: &[f64],
    initial_temperature: Option<f64>,
    rho_init: Option<f64>,
    evals: &mut Evaluations,
) -> FeosResult<[f64; 2]> {
    let trial_temperatures = [300.0, 700.0, 500.0];
    let mut t_rho = None;
    if let Some(t) = initial_temperature {
        t_rho = Some(critical_point_hkm(eos, x, t, rho_init, evals)?);
    }
    for &t in trial_temperatures.iter() {
        if t_rho.is_some() {
            break;
        }
        t_rho = critical_point_hkm(eos, x, t, rho_init, evals).ok();
    }
    t_rho.ok_or(FeosError::NotConverged)
}

fn critical_point_hkm(
    eos: &PengRobinson,
    molefracs: &[f64],
    initial_temperature: f64,
    initial_density: Option<f64>,
    evals: &mut Evaluations,
) -> FeosResult<[f64; 2]> {
    let (max_iter, tol) = (MAX_ITER_CRIT_POINT, TOL_CRIT_POINT);

    let mut t = initial_temperature;
    let max_density = eos.compute_max_density(molefracs);
    let mut rho = initial_density.unwrap_or(0.3 * max_density);

    for _ in 1..=max_iter {
        // calculate residuals and derivatives w.r.t. temperature and density
        let (res, jac) = evals.criticality(eos, t, rho, molefracs)?;

        // calculate Newton step
        let mut delta = float::solve(jac, res).ok_or(FeosError::IterationFailed)?;

        // reduce step if necessary
        if delta[0].abs() > 0.25 * t {
            let factor = 0.25 * t / delta[0].abs();
            delta = delta.map(|d| d * factor);
        }
        if delta[1].abs() > 0.03 * max_density {
            let factor = 0.03 * max_density / delta[1].abs();
            delta = delta.map(|d| d * factor);
        }

        // apply step
        t -= delta[0];
        rho -= delta[1];
        rho = float::max(rho, 1e-4 * max_density);
        finite(t)?;
        finite(rho)?;

        // check convergence
        if float::norm(res) < tol {
            return Ok([t, rho]);
        }
    }
    Err(FeosError::NotConverged)
}

/// Calculate the critical point of a binary system for given temperature: the partial densities.
pub fn critical_point_binary_t(
    eos: &PengRobinson,
    temperature: f64,
    initial_molefracs: &[f64],
    initial_density: Option<f64>,
    evals: &mut Evaluations,
) -> FeosResult<[f64; 2]> {
    let (max_iter, tol) = (MAX_ITER_CRIT_POINT_BINARY, TOL_CRIT_POINT);

    let t = temperature;
    let max_density = eos.compute_max_density(initial_molefracs);
    let rho_init = initial_density.unwrap_or(0.3 * max_density);
    let mut rho = [
        initial_molefracs[0] * rho_init,
        initial_molefracs[1] * rho_init,
    ];

    for _ in 1..=max_iter {
        // calculate residuals and derivatives w.r.t. partial densities
        let (res, jac) = evals.criticality_t(eos, t, rho)?;

        // calculate Newton step
        let mut delta = float::solve(jac, res).ok_or(FeosError::IterationFailed)?;

        // reduce step if necessary
        for i in 0..2 {
            if delta[i].abs() > 0.03 * max_density {
                let factor = 0.03 * max_density / delta[i].abs();
                delta = delta.map(|d| d * factor);
            }
        }

        // apply step
        rho[0] -= delta[0];
        rho[1] -= delta[1];
        rho[0] = float::max(rho[0], 1e-4 * max_density);
        rho[1] = float::max(rho[1], 1e-4 * max_density);
        finite(rho[0])?;
        finite(rho[1])?;

        // check convergence
        if float::norm(res) < tol {
            return Ok(rho);
        }
    }
    Err(FeosError::NotConverged)
}

/// Calculate the critical point of a binary system for given pressure: temperature and partial densities.
pub fn critical_point_binary_p(
    eos: &PengRobinson,
    pressure: f64,
    initial_temperature: Option<f64>,
    initial_molefracs: &[f64],
    initial_density: Option<f64>,
    evals: &mut Evaluations,
) -> FeosResult<[f64; 3]> {
    let (max_iter, tol) = (MAX_ITER_CRIT_POINT_BINARY, TOL_CRIT_POINT);

    let p = pressure;
    let mut t = initial_temperature.unwrap_or(300.0);
    let max_density = eos.compute_max_density(initial_molefracs);
    let rho_init = initial_density.unwrap_or(0.3 * max_density);
    let mut rho = [
        initial_molefracs[0] * rho_init,
        initial_molefracs[1] * rho_init,
    ];

    for _ in 1..=max_iter {
        // calculate residuals and derivatives w.r.t. temperature and partial densities
        let (res, jac) = evals.criticality_p(eos, p, t, rho)?;

        // calculate Newton step
        let mut delta = float::solve_three(jac, res).ok_or(FeosError::IterationFailed)?;

        // reduce step if necessary
        if delta[0].abs() > 0.25 * t {
            let factor = 0.25 * t / delta[0].abs();
            delta = delta.map(|d| d * factor);
        }
        if delta[1].abs() > 0.03 * max_density {
            let factor = 0.03 * max_density / delta[1].abs();
            delta = delta.map(|d| d * factor);
        }
        if delta[2].abs() > 0.03 * max_density {
            let factor = 0.03 * max_density / delta[2].abs();
            delta = delta.map(|d| d * factor);
        }

        // apply step
        t -= delta[0];
        rho[0] -= delta[1];
        rho[1] -= delta[2];
        rho[0] = float::max(rho[0], 1e-4 * max_density);
        rho[1] = float::max(rho[1], 1e-4 * max_density);
        finite(t)?;
        finite(rho[0])?;
        finite(rho[1])?;

        // check convergence
        if float::norm(res) < tol {
            return Ok([t, rho[0], rho[1]]);
        }
    }
    Err(FeosError::NotConverged)
}

/// Vapour and liquid density where the stability condition is 0.
pub fn spinodal(
    eos: &PengRobinson,
    temperature: f64,
    molefracs: &[f64],
    evals: &mut Evaluations,
) -> FeosResult<[f64; 2]> {
    let [_, critical_density] = critical_point(eos, molefracs, None, None, evals)?;
    let spinodal_vapor = calculate_spinodal(eos, temperature, molefracs, Vapor, evals)?;
    let rho = 2.0 * critical_density - spinodal_vapor;
    let spinodal_liquid =
        calculate_spinodal(eos, temperature, molefracs, InitialDensity(rho), evals)?;
    Ok([spinodal_vapor, spinodal_liquid])
}

fn calculate_spinodal(
    eos: &PengRobinson,
    temperature: f64,
    molefracs: &[f64],
    density_initialization: DensityInitialization,
    evals: &mut Evaluations,
) -> FeosResult<f64> {
    let (max_iter, tol) = (MAX_ITER_CRIT_POINT, TOL_CRIT_POINT);

    let max_density = eos.compute_max_density(molefracs);
    let t = temperature;
    let mut rho = match density_initialization {
        Vapor => 1e-5 * max_density,
        Liquid => max_density,
        InitialDensity(rho) => rho,
    };

    for _ in 1..=max_iter {
        // calculate residuals and derivative w.r.t. density
        let (f, df) = evals.stability(eos, t, rho, molefracs)?;

        // calculate Newton step
        let mut delta = f / df;

        // reduce step if necessary
        if delta.abs() > 0.03 * max_density {
            delta *= 0.03 * max_density / delta.abs()
        }

        // apply step
        rho -= delta;
        rho = float::max(rho, 1e-4 * max_density);
        finite(rho)?;

        // check convergence
        if f.abs() < tol {
            return Ok(rho);
        }
    }
    Err(FeosError::SuperCritical)
}

/// Both criticality conditions of one component or two, with their derivatives by temperature and density, the Rust's
/// `jacobian`.
pub fn criticality(
    eos: &PengRobinson,
    temperature: f64,
    density: f64,
    molefracs: &[f64],
) -> ([f64; 2], [[f64; 2]; 2]) {
    criticality_in::<16>(eos, temperature, density, molefracs)
}

/// The same in jets of another length.
pub fn criticality_in<const S: usize>(
    eos: &PengRobinson,
    temperature: f64,
    density: f64,
    molefracs: &[f64],
) -> ([f64; 2], [[f64; 2]; 2]) {
    let [l, c2] = criticality_conditions(
        eos,
        JetOf::<S>::e1(temperature),
        JetOf::e2(density),
        &plain(molefracs),
    );
    ([l.c[0], c2.c[0]], [[l.c[4], l.c[8]], [c2.c[4], c2.c[8]]])
}

/// Both criticality conditions of two components, then their derivatives by the partial densities, by rows: the Rust's
/// `jacobian` of `critical_point_binary_t`.
pub fn criticality_t(eos: &PengRobinson, temperature: f64, rho: [f64; 2]) -> [f64; 6] {
    criticality_t_in::<16>(eos, temperature, rho)
}

/// The same in jets of another length.
pub fn criticality_t_in<const S: usize>(
    eos: &PengRobinson,
    temperature: f64,
    rho: [f64; 2],
) -> [f64; 6] {
    let rho = [JetOf::<S>::e1(rho[0]), JetOf::e2(rho[1])];
    let density = jet::sum(&rho);
    let molefracs = rho.map(|rho| rho / density);
    let t = JetOf::from(temperature);
    let [l, c2] = criticality_conditions(eos, t, density, &molefracs);
    [l.c[0], c2.c[0], l.c[4], l.c[8], c2.c[4], c2.c[8]]
}

/// Both criticality conditions of two components and what the pressure is off by, then their derivatives by temperature and
/// the partial densities, by rows: the Rust's `jacobian` of `critical_point_binary_p`.
pub fn criticality_p(
    eos: &PengRobinson,
    pressure: f64,
    temperature: f64,
    rho: [f64; 2],
) -> [f64; 12] {
    let t = Jet::e1(temperature);
    let partial_density = [Jet::e2(rho[0]), Jet::e3(rho[1])];
    let res = criticality_conditions_p(eos, Jet::from(pressure), t, partial_density);
    let mut yields = [0.0; 12];
    for (i, r) in res.iter().enumerate() {
        yields[i] = r.c[0];
        for (j, mark) in [4, 8, 16].into_iter().enumerate() {
            yields[3 + 3 * i + j] = r.c[mark];
        }
    }
    yields
}

/// The stability condition with its derivative by density, the Rust's `first_derivative`.
pub fn stability(
    eos: &PengRobinson,
    temperature: f64,
    density: f64,
    molefracs: &[f64],
) -> (f64, f64) {
    stability_in::<16>(eos, temperature, density, molefracs)
}

/// The same in jets of another length.
pub fn stability_in<const S: usize>(
    eos: &PengRobinson,
    temperature: f64,
    density: f64,
    molefracs: &[f64],
) -> (f64, f64) {
    let f = stability_condition(
        eos,
        JetOf::<S>::from(temperature),
        JetOf::e2(density),
        &plain(molefracs),
    );
    (f.c[0], f.c[8])
}

fn criticality_conditions<const S: usize>(
    eos: &PengRobinson,
    temperature: JetOf<S>,
    density: JetOf<S>,
    molefracs: &[JetOf<S>],
) -> [JetOf<S>; 2] {
    // calculate M
    let molar_volume = density.recip();
    let sqrt_z: Vec<JetOf<S>> = molefracs.iter().map(|z| z.sqrt()).collect();
    let m = matrix(eos, temperature, molar_volume, molefracs, &sqrt_z);

    // calculate smallest eigenvalue and corresponding eigenvector
    let (l, u) = smallest_ev(&m);

    let s = JetOf::e0(0.0);
    let n: Vec<JetOf<S>> = (0..molefracs.len())
        .map(|i| molefracs[i] + (sqrt_z[i] * u[i]) * s)
        .collect();
    let t = temperature;
    let v = molar_volume;
    let ln_n: Vec<JetOf<S>> = n
        .iter()
        .map(|&n| {
            if n.is_zero() {
                JetOf::zero()
            } else {
                (n / v).ln() - 1.0
            }
        })
        .collect();
    let ig = jet::dot(&n, &ln_n);
    let a = eos.residual_helmholtz_energy(t, v, &n) / t + ig;
    let c2 = a.derivative(3);

    [l, c2]
}

fn criticality_conditions_p<const S: usize>(
    eos: &PengRobinson,
    pressure: JetOf<S>,
    temperature: JetOf<S>,
    partial_density: [JetOf<S>; 2],
) -> [JetOf<S>; 3] {
    let density = partial_density[0] + partial_density[1];
    let molefracs = partial_density.map(|rho| rho / density);

    let [c1, c2] = criticality_conditions(eos, temperature, density, &molefracs);

    // calculate pressure
    let v = density.recip().plus_e0();
    let a = eos.residual_helmholtz_energy(temperature, v, &molefracs);
    let da = a.derivative(1);
    let p_calc = -da + density * temperature;
    [c1, c2, -p_calc + pressure]
}

fn stability_condition<const S: usize>(
    eos: &PengRobinson,
    temperature: JetOf<S>,
    density: JetOf<S>,
    molefracs: &[JetOf<S>],
) -> JetOf<S> {
    // calculate M
    let molar_volume = density.recip();
    let sqrt_z: Vec<JetOf<S>> = molefracs.iter().map(|z| z.sqrt()).collect();
    let m = matrix(eos, temperature, molar_volume, molefracs, &sqrt_z);

    // calculate smallest eigenvalue and corresponding eigenvector
    let (l, _) = smallest_ev(&m);

    l
}

/// A matrix of 1 by 1 or 2 by 2 jets, by rows.
pub type Matrix<const S: usize> = Vec<Vec<JetOf<S>>>;

/// M: `dmu_dn` times the roots of both fractions, entry by entry, plus the identity, whose zeros are added too.
pub fn matrix<const S: usize>(
    eos: &PengRobinson,
    temperature: JetOf<S>,
    molar_volume: JetOf<S>,
    molefracs: &[JetOf<S>],
    sqrt_z: &[JetOf<S>],
) -> Matrix<S> {
    let identity = |i, j| if i == j { JetOf::one() } else { JetOf::zero() };
    let mut m = dmu_dn(eos, temperature, molar_volume, molefracs);
    for (i, row) in m.iter_mut().enumerate() {
        for (j, entry) in row.iter_mut().enumerate() {
            let z_mix = sqrt_z[i] * sqrt_z[j];
            *entry = *entry * z_mix + identity(i, j);
        }
    }
    m
}

/// The second derivatives by the mole numbers. The mixed one is half of that in direction (1,1) less the other two.
fn dmu_dn<const S: usize>(
    eos: &PengRobinson,
    temperature: JetOf<S>,
    molar_volume: JetOf<S>,
    molefracs: &[JetOf<S>],
) -> Matrix<S> {
    // e0 is on the mole numbers that the direction names
    let along = |direction: &[usize]| {
        let mut n = molefracs.to_vec();
        for &i in direction {
            n[i] = n[i].plus_e0();
        }
        let a = eos.residual_helmholtz_energy(temperature, molar_volume, &n) / temperature;
        a.derivative(2)
    };
    match molefracs.len() {
        1 => vec![vec![along(&[0])]],
        2 => {
            let (h11, h22, h) = (along(&[0]), along(&[1]), along(&[0, 1]));
            let h12 = ((h - h11) - h22) * 0.5;
            vec![vec![h11, h12], vec![h12, h22]]
        }
        n => panic!("{n} components"),
    }
}

/// The smallest eigenvalue and its vector: of one component the entry itself and 1, of two by document 02.
fn smallest_ev<const S: usize>(m: &Matrix<S>) -> (JetOf<S>, Vec<JetOf<S>>) {
    if m.len() == 1 {
        return (m[0][0], vec![JetOf::one()]);
    }
    let (m11, m12, m22) = (m[0][0], m[0][1], m[1][1]);
    let d = m11 - m22;
    let root = (d * d + (JetOf::from(4.0) * m12) * m12).sqrt();
    let l = ((m11 + m22) - root) * 0.5;
    let u = if m12.is_zero() {
        if m11.re() <= m22.re() {
            vec![JetOf::one(), JetOf::zero()]
        } else {
            vec![JetOf::zero(), JetOf::one()]
        }
    } else {
        let u = [m12, l - m11];
        let length = (u[0] * u[0] + u[1] * u[1]).sqrt();
        u.map(|x| x / length).to_vec()
    };
    (l, u)
}
