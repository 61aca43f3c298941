//! Facts checked against the equation of state written another way, by finite differences and by known limits.

use oracle::critical_point::{critical_point, spinodal};
use oracle::density_iteration::{
    _chemical_potential, _density_iteration, _density_iteration_stable, _pressure_spinodal,
    _pressure_spinodal_branch,
};
use oracle::evaluations::{Evaluations, FeosError};
use oracle::random::{blend, Rng};
use oracle::state::DensityInitialization::{InitialDensity, Liquid, Vapor};
use oracle::{criticality, stability, PengRobinson, PengRobinsonRecord};

const PROPANE: PengRobinsonRecord = PengRobinsonRecord {
    tc: 369.83,
    pc: 4248000.0,
    acentric_factor: 0.1523,
};
/// One Pascal in K per cubic angstrom.
const PASCAL: f64 = 1.0 / 13806490.0;

fn propane() -> PengRobinson {
    PengRobinson::new(&[PROPANE], &[])
}

/// The pressure as textbooks write it: T/(v - b) - a/(v (v + b) + b (v - b)), the blend by its mixing rules.
fn pressure(eos: &PengRobinson, t: f64, rho: f64, x: &[f64]) -> f64 {
    let n = x.len();
    let ak: Vec<f64> = (0..n)
        .map(|i| eos.a[i] * (1.0 + eos.kappa[i] * (1.0 - (t / eos.tc[i]).sqrt())).powi(2))
        .collect();
    let (mut a, mut b) = (0.0, 0.0);
    for i in 0..n {
        b += x[i] * eos.b[i];
        for j in 0..n {
            a += x[i] * x[j] * (1.0 - eos.k_ij[i][j]) * (ak[i] * ak[j]).sqrt();
        }
    }
    let v = 1.0 / rho;
    t / (v - b) - a / (v * (v + b) + b * (v - b))
}

fn close(x: f64, y: f64, relative: f64, what: &str) {
    let scale = x.abs().max(y.abs());
    assert!((x - y).abs() <= relative * scale, "{what}: {x:e} and {y:e}");
}

#[test]
fn pressure_and_derivatives() {
    let mut rng = Rng::new(7);
    for _ in 0..400 {
        let n = rng.pick(&[1, 2, 3, 8]);
        let blend = blend(&mut rng, n);
        let (eos, x) = (
            PengRobinson::new(&blend.coefficients, &blend.interactions),
            &blend.fractions[..],
        );
        let max = eos.compute_max_density(x);
        let (t, rho) = (rng.between(150.0, 900.0), max * rng.between(0.02, 0.95));
        let (p, dp, d2p) = eos.p_dpdrho_d2pdrho2(t, rho, x);
        let (_, p1, dp1) = eos.p_dpdrho(t, rho, x);
        assert_eq!((p, dp), (p1, dp1));
        let h = rho * 1e-4;
        let f = |rho| pressure(&eos, t, rho, x);
        let g = |rho| (f(rho + h) - f(rho - h)) / (2.0 * h);
        let size = t * max;
        let near = |ours: f64, theirs: f64, unit: f64| {
            let scale = unit.max(theirs.abs());
            assert!((ours - theirs).abs() < 1e-5 * scale, "{ours:e} {theirs:e}");
        };
        near(p, f(rho), size * 1e-4);
        near(dp, g(rho), t);
        near(
            d2p,
            (f(rho + h) - 2.0 * f(rho) + f(rho - h)) / (h * h),
            t / max,
        );
        // at constant temperature the potential changes by the volume per molecule: dmu/drho = (dp/drho)/rho
        let mu = |rho| _chemical_potential(&eos, t, rho, x);
        near((mu(rho + h) - mu(rho - h)) / (2.0 * h), dp / rho, t / rho);
    }
}

#[test]
fn criticality_and_stability() {
    let mut rng = Rng::new(8);
    let eos = propane();
    let max = eos.compute_max_density(&[1.0]);
    for _ in 0..400 {
        let (t, rho) = (rng.between(200.0, 600.0), max * rng.between(0.05, 0.9));
        let (res, jac) = criticality(&eos, t, rho, &[1.0]);
        let (f, df) = stability(&eos, t, rho, &[1.0]);
        close(f, res[0], 1e-12, "stability and first residual");
        close(df, jac[0][1], 1e-12, "stability and first row");
        // of one component l is the slope of the pressure over the temperature
        let (p, dp, d2p) = eos.p_dpdrho_d2pdrho2(t, rho, &[1.0]);
        assert!(p.is_finite());
        let unit = |x: f64, y: f64, scale: f64| {
            assert!((x - y).abs() < 1e-9 * scale.max(y.abs()), "{x:e} {y:e}");
        };
        unit(res[0], dp / t, 1.0);
        // at v fixed, d/dn of (dp/drho)/(T n) gives (rho d2p/drho2 - dp/drho)/T
        unit(res[1], (rho * d2p - dp) / t, 10.0);
        // the Jacobian by differences
        let (ht, hr) = (t * 1e-5, rho * 1e-5);
        for row in 0..2 {
            let at = |t: f64, rho: f64| criticality(&eos, t, rho, &[1.0]).0[row];
            let by_t = (at(t + ht, rho) - at(t - ht, rho)) / (2.0 * ht);
            let by_rho = (at(t, rho + hr) - at(t, rho - hr)) / (2.0 * hr);
            let near = |x: f64, y: f64, scale: f64| {
                assert!((x - y).abs() < 1e-5 * scale.max(y.abs()), "{x:e} {y:e}");
            };
            near(jac[row][0], by_t, 1.0 / t);
            near(jac[row][1], by_rho, 1.0 / max);
        }
    }
}

#[test]
fn ideal_gas_limit() {
    let eos = propane();
    for t in [200.0, 300.0, 700.0] {
        let p = 1.0 * PASCAL;
        let mut evals = Evaluations::default();
        let rho = _density_iteration(&eos, t, p, &[1.0], Vapor, &mut evals).unwrap();
        close(rho, p / t, 1e-4, "density of the ideal gas");
    }
}

#[test]
fn critical_point_of_propane() {
    let eos = propane();
    let mut evals = Evaluations::default();
    let [t, rho] = critical_point(&eos, &[1.0], None, None, &mut evals).unwrap();
    close(t, PROPANE.tc, 1e-4, "critical temperature");
    let (p, dp, d2p) = eos.p_dpdrho_d2pdrho2(t, rho, &[1.0]);
    close(p / PASCAL, PROPANE.pc, 1e-3, "critical pressure");
    assert!(dp.abs() < 1e-6 && d2p.abs() < 1e-2, "{dp:e} {d2p:e}");
    assert!(evals.count <= 50);
}

#[test]
fn spinodals_have_no_slope() {
    let eos = propane();
    let mut evals = Evaluations::default();
    let (_, vapor) = _pressure_spinodal_branch(&eos, 300.0, &[1.0], Vapor, &mut evals).unwrap();
    let (_, liquid) = _pressure_spinodal_branch(&eos, 300.0, &[1.0], Liquid, &mut evals).unwrap();
    assert!(vapor < liquid);
    for rho in [vapor, liquid] {
        assert!(eos.p_dpdrho(300.0, rho, &[1.0]).2.abs() < 1e-8);
        let (_, again, _) = _pressure_spinodal(&eos, 300.0, rho, &[1.0], &mut evals).unwrap();
        assert_eq!(again, rho);
    }
    let [v, l] = spinodal(&eos, 300.0, &[1.0], &mut evals).unwrap();
    close(v, vapor, 1e-6, "both vapour spinodals");
    close(l, liquid, 1e-6, "both liquid spinodals");
    let supercritical = spinodal(&eos, 500.0, &[1.0], &mut evals);
    assert_eq!(supercritical, Err(FeosError::SuperCritical));
}

/// Propane boils at about 231 K and one atmosphere.
#[test]
fn stable_phase_of_propane() {
    let eos = propane();
    let mut evals = Evaluations::default();
    let mut stable =
        |t| _density_iteration_stable(&eos, t, 101325.0 * PASCAL, &[1.0], &mut evals).unwrap();
    let max = eos.compute_max_density(&[1.0]);
    assert!(stable(225.0) > 0.5 * max);
    assert!(stable(237.0) < 0.01 * max);
}

#[test]
fn found_densities_have_the_pressure() {
    let eos = propane();
    let max = eos.compute_max_density(&[1.0]);
    let search = |start: f64, p: f64| {
        let mut evals = Evaluations::default();
        _density_iteration(&eos, 300.0, p, &[1.0], InitialDensity(start), &mut evals)
    };
    for (start, p) in [(0.2, 1e5), (0.5, 5e6), (1.0, 1e6), (1.1, 1e7)] {
        let p = p * PASCAL;
        let rho = search(start * max, p).unwrap();
        close(eos.p_dpdrho(300.0, rho, &[1.0]).1, p, 1e-6, "pressure");
    }
    // beyond 1/b the logarithm has no value
    assert_eq!(search(2.0 * max, 1e6 * PASCAL), Err(FeosError::NotFinite));
}
