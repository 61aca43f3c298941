//! Density for given temperature and pressure, and pressure spinodals. After feos `density_iteration.rs`.

use crate::cubic::PengRobinson;
use crate::evaluations::{finite, Evaluations, FeosError, FeosResult};
use crate::float::{self, is_sign_negative, is_sign_positive};
use crate::jet::JetOf;
use crate::residual::plain;
use crate::state::DensityInitialization::{self, InitialDensity, Liquid, Vapor};

pub fn _density_iteration_stable(
    eos: &PengRobinson,
    temperature: f64,
    pressure: f64,
    molefracs: &[f64],
    evals: &mut Evaluations,
) -> FeosResult<f64> {
    // calculate stable phase
    let max_density = eos.compute_max_density(molefracs);
    let liquid = _density_iteration(eos, temperature, pressure, molefracs, Liquid, evals);

    if pressure < max_density * temperature {
        let vapor = _density_iteration(eos, temperature, pressure, molefracs, Vapor, evals);
        match (&liquid, &vapor) {
            (Ok(_), Err(_)) => liquid,
            (Err(_), Ok(_)) => vapor,
            (Ok(l), Ok(v)) => {
                let mu_l = evals.chemical_potential(eos, temperature, *l, molefracs)?;
                let mu_v = evals.chemical_potential(eos, temperature, *v, molefracs)?;
                if mu_l > mu_v {
                    vapor
                } else {
                    liquid
                }
            }
            _ => Err(FeosError::BothPhasesFailed),
        }
    } else {
        liquid
    }
}

pub fn _chemical_potential(
    eos: &PengRobinson,
    temperature: f64,
    density: f64,
    molefracs: &[f64],
) -> f64 {
    _chemical_potential_in::<16>(eos, temperature, density, molefracs)
}

/// The same in jets of another length.
pub fn _chemical_potential_in<const S: usize>(
    eos: &PengRobinson,
    temperature: f64,
    density: f64,
    molefracs: &[f64],
) -> f64 {
    let molar_volume = 1.0 / density;
    let t = JetOf::<S>::from(temperature);
    let x = plain(molefracs);
    let a = eos.residual_helmholtz_energy(t, JetOf::e0(molar_volume), &x);
    let (a_res, da_res) = (a.re(), a.derivative(1).re());
    a_res - da_res * molar_volume + temperature * float::ln(density)
}

pub fn _density_iteration(
    eos: &PengRobinson,
    temperature: f64,
    pressure: f64,
    molefracs: &[f64],
    initial_density: DensityInitialization,
    evals: &mut Evaluations,
) -> FeosResult<f64> {
    let maxdensity = eos.compute_max_density(molefracs);
    let initial_density = match initial_density {
        Vapor => pressure / temperature,
        Liquid => maxdensity,
        InitialDensity(d) => d,
    };
    let (abstol, reltol) = (1e-12, 1e-14);

    let mut rho = initial_density;
    if rho <= 0.0 {
        return Err(FeosError::InvalidState);
    }

    let maxiter = 50;
    let mut converged = false;
    'iteration: for k in 0..maxiter {
        let (mut p, mut dp_drho) = evals.p_dpdrho(eos, temperature, rho, molefracs)?;

        // attempt to correct for poor initial density rho_init
        if is_sign_negative(dp_drho) && k == 0 {
            rho = if initial_density <= 0.15 * maxdensity {
                0.05 * initial_density
            } else {
                float::min(1.1 * initial_density, maxdensity)
            };
            (p, dp_drho) = evals.p_dpdrho(eos, temperature, rho, molefracs)?;
        }

        let mut error = p - pressure;

        let mut delta_rho = -error / dp_drho;
        if delta_rho.abs() > 0.075 * maxdensity {
            delta_rho = 0.075 * maxdensity * delta_rho.signum();
        };
        delta_rho = float::max(delta_rho, -0.95 * rho); // prevent stepping to rho < 0.0

        // correction for instable region
        if is_sign_negative(dp_drho) {
            let (_, _, d2pdrho2) = evals.p_dpdrho_d2pdrho2(eos, temperature, rho, molefracs)?;

            if rho > 0.85 * maxdensity {
                let (sp_p, sp_rho, _) =
                    _pressure_spinodal(eos, temperature, initial_density, molefracs, evals)?;
                rho = sp_rho;
                error = sp_p - pressure;
                if rho > 0.85 * maxdensity {
                    if is_sign_negative(error) {
                        return Err(FeosError::IterationFailed);
                    } else {
                        rho *= 0.98
                    }
                } else if is_sign_positive(error) {
                    rho = 0.001 * maxdensity
                } else {
                    rho = float::min(rho * 1.1, maxdensity)
                }
            } else if is_sign_positive(error) && is_sign_positive(d2pdrho2) {
                let (sp_p, sp_rho, _) =
                    _pressure_spinodal(eos, temperature, initial_density, molefracs, evals)?;
                rho = sp_rho;
                error = sp_p - pressure;
                if is_sign_positive(error) {
                    rho = 0.001 * maxdensity
                } else {
                    rho = float::min(rho * 1.1, maxdensity)
                }
            } else if is_sign_negative(error) && is_sign_negative(d2pdrho2) {
                let (sp_p, sp_rho, _) =
                    _pressure_spinodal(eos, temperature, initial_density, molefracs, evals)?;
                rho = sp_rho;
                error = sp_p - pressure;
                if is_sign_negative(error) {
                    rho = 0.8 * maxdensity
                } else {
                    rho *= 0.8
                }
            } else if is_sign_negative(error) && is_sign_positive(d2pdrho2) {
                let (_, rho_l) =
                    _pressure_spinodal_branch(eos, temperature, molefracs, Liquid, evals)?;
                let (sp_v_p, rho_v) =
                    _pressure_spinodal_branch(eos, temperature, molefracs, Vapor, evals)?;
                error = sp_v_p - pressure;
                if is_sign_positive(error)
                    && (initial_density - rho_v).abs() < (initial_density - rho_l).abs()
                {
                    rho = 0.8 * rho_v
                } else {
                    rho = float::min(rho_l * 1.1, maxdensity)
                }
            } else {
                // error is positive and d2pdrho2 negative: neither is NaN, so the Rust's last case is out of reach
                let (_, rho_l) =
                    _pressure_spinodal_branch(eos, temperature, molefracs, Liquid, evals)?;
                let (sp_v_p, rho_v) =
                    _pressure_spinodal_branch(eos, temperature, molefracs, Vapor, evals)?;
                error = sp_v_p - pressure;
                if is_sign_negative(error)
                    && (initial_density - rho_v).abs() > (initial_density - rho_l).abs()
                {
                    rho = float::min(rho_l * 1.1, maxdensity)
                } else {
                    rho = 0.8 * rho_v
                }
            }
            continue 'iteration;
        }
        // Newton step
        rho = finite(rho + delta_rho)?;
        if error.abs() < float::max(abstol, rho * reltol) {
            converged = true;
            break 'iteration;
        }
    }
    if converged {
        Ok(rho)
    } else {
        Err(FeosError::NotConverged)
    }
}

/// Spinodal (dp/drho = 0) closest to `rho_init`. Returns `(p, rho, d2p_drho2)`.
///
/// If vapor/liquid branch is required, [`_pressure_spinodal_branch`]
/// can be used, which verifies the result.
pub fn _pressure_spinodal(
    eos: &PengRobinson,
    temperature: f64,
    rho_init: f64,
    molefracs: &[f64],
    evals: &mut Evaluations,
) -> FeosResult<(f64, f64, f64)> {
    let maxiter = 30;
    let tol = 1e-8;

    let maxdensity = eos.compute_max_density(molefracs);
    let mut rho = rho_init;

    if rho <= 0.0 {
        return Err(FeosError::InvalidState);
    }

    for _ in 0..maxiter {
        let (p, dpdrho, d2pdrho2) = evals.p_dpdrho_d2pdrho2(eos, temperature, rho, molefracs)?;
        if dpdrho.abs() < tol {
            return Ok((p, rho, d2pdrho2));
        }
        let mut delta_rho = -dpdrho / d2pdrho2;
        // Check failure mode: d2pdrho2 is zero which makes delta_rho infinite.
        if !delta_rho.is_finite() {
            return Err(FeosError::NotConverged);
        }
        if delta_rho.abs() > 0.05 * maxdensity {
            delta_rho = 0.05 * maxdensity * delta_rho.signum()
        }
        delta_rho = float::max(delta_rho, -rho * 0.95); // prevent stepping to rho < 0.0
        delta_rho = float::min(delta_rho, maxdensity - rho); // prevent stepping to rho > maxdensity
        rho = finite(rho + delta_rho)?;
    }
    Err(FeosError::NotConverged)
}

/// Spinodal of the requested branch (liquid or vapor). Returns `(p, rho)`.
///
/// Errors if the iteration converged to the other branch.
pub fn _pressure_spinodal_branch(
    eos: &PengRobinson,
    temperature: f64,
    molefracs: &[f64],
    branch: DensityInitialization,
    evals: &mut Evaluations,
) -> FeosResult<(f64, f64)> {
    let maxdensity = eos.compute_max_density(molefracs);
    let rho_init = match branch {
        Liquid => 0.8 * maxdensity,
        Vapor => 0.001 * maxdensity,
        InitialDensity(_) => unreachable!("branch must be Liquid or Vapor"),
    };
    let (p, rho, d2pdrho2) = _pressure_spinodal(eos, temperature, rho_init, molefracs, evals)?;
    let on_branch = match branch {
        Liquid => d2pdrho2 > 0.0,
        Vapor => d2pdrho2 < 0.0,
        InitialDensity(_) => unreachable!(),
    };
    if on_branch {
        Ok((p, rho))
    } else {
        Err(FeosError::WrongBranch)
    }
}
