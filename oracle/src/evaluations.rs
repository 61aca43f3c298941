//! Evaluations as document 01 counts them, and its rule 27: what an evaluation yields, and a temperature or density
//! after a step and its floor, has to be finite. The searches make every evaluation through this file.

use crate::critical_point::{criticality, criticality_p, criticality_t, stability};
use crate::cubic::PengRobinson;
use crate::density_iteration::_chemical_potential;

/// Why a search ends without a result, with document 01's numbers.
#[derive(Clone, Copy, Debug, PartialEq, Eq)]
pub enum FeosError {
    /// starting density 0 or below
    InvalidState = 21,
    NotConverged = 22,
    IterationFailed = 23,
    /// the density iterations of both phases failed
    BothPhasesFailed = 24,
    /// a spinodal converged to the other branch
    WrongBranch = 25,
    SuperCritical = 26,
    NotFinite = 27,
}

pub type FeosResult<T> = Result<T, FeosError>;

/// One evaluation, kept for a trace.
#[derive(Clone, Debug)]
pub struct Evaluation {
    pub call: &'static str,
    pub temperature: f64,
    /// of two partial densities the sum
    pub density: f64,
    pub partial_density: Option<[f64; 2]>,
    pub yields: Vec<f64>,
}

/// The evaluations made so far.
#[derive(Default)]
pub struct Evaluations {
    pub count: u64,
    pub trace: Option<Vec<Evaluation>>,
}

/// 27 for a number that is not finite.
pub fn finite(x: f64) -> FeosResult<f64> {
    if x.is_finite() {
        Ok(x)
    } else {
        Err(FeosError::NotFinite)
    }
}

impl Evaluations {
    /// Counts an evaluation, and ends the search with 27 unless all that it yields is finite.
    fn made(
        &mut self,
        call: &'static str,
        temperature: f64,
        density: f64,
        yields: &[f64],
    ) -> FeosResult<()> {
        self.count += 1;
        if let Some(trace) = &mut self.trace {
            trace.push(Evaluation {
                call,
                temperature,
                density,
                partial_density: None,
                yields: yields.to_vec(),
            });
        }
        for &x in yields {
            finite(x)?;
        }
        Ok(())
    }

    /// The same at two partial densities.
    fn made_partial(
        &mut self,
        call: &'static str,
        temperature: f64,
        rho: [f64; 2],
        yields: &[f64],
    ) -> FeosResult<()> {
        let made = self.made(call, temperature, rho[0] + rho[1], yields);
        if let Some(last) = self.trace.as_mut().and_then(|trace| trace.last_mut()) {
            last.partial_density = Some(rho);
        }
        made
    }

    /// Pressure and slope.
    pub fn p_dpdrho(
        &mut self,
        eos: &PengRobinson,
        temperature: f64,
        density: f64,
        molefracs: &[f64],
    ) -> FeosResult<(f64, f64)> {
        let (_, p, dp_drho) = eos.p_dpdrho(temperature, density, molefracs);
        self.made("p_dpdrho", temperature, density, &[p, dp_drho])?;
        Ok((p, dp_drho))
    }

    /// Pressure, slope and curvature.
    pub fn p_dpdrho_d2pdrho2(
        &mut self,
        eos: &PengRobinson,
        temperature: f64,
        density: f64,
        molefracs: &[f64],
    ) -> FeosResult<(f64, f64, f64)> {
        let (p, dp, d2p) = eos.p_dpdrho_d2pdrho2(temperature, density, molefracs);
        self.made("p_dpdrho_d2pdrho2", temperature, density, &[p, dp, d2p])?;
        Ok((p, dp, d2p))
    }

    pub fn chemical_potential(
        &mut self,
        eos: &PengRobinson,
        temperature: f64,
        density: f64,
        molefracs: &[f64],
    ) -> FeosResult<f64> {
        let mu = _chemical_potential(eos, temperature, density, molefracs);
        self.made("_chemical_potential", temperature, density, &[mu])?;
        Ok(mu)
    }

    /// Both criticality conditions and their Jacobian by temperature and density.
    pub fn criticality(
        &mut self,
        eos: &PengRobinson,
        temperature: f64,
        density: f64,
        molefracs: &[f64],
    ) -> FeosResult<([f64; 2], [[f64; 2]; 2])> {
        let (res, jac) = criticality(eos, temperature, density, molefracs);
        let [[l_t, l_rho], [c2_t, c2_rho]] = jac;
        let yields = [res[0], res[1], l_t, l_rho, c2_t, c2_rho];
        self.made("criticality_conditions", temperature, density, &yields)?;
        Ok((res, jac))
    }

    /// Both criticality conditions and their Jacobian by the partial densities.
    pub fn criticality_t(
        &mut self,
        eos: &PengRobinson,
        temperature: f64,
        rho: [f64; 2],
    ) -> FeosResult<([f64; 2], [[f64; 2]; 2])> {
        let yields = criticality_t(eos, temperature, rho);
        self.made_partial("criticality_conditions", temperature, rho, &yields)?;
        let [l, c2, l_0, l_1, c2_0, c2_1] = yields;
        Ok(([l, c2], [[l_0, l_1], [c2_0, c2_1]]))
    }

    /// Both criticality conditions and the pressure's, and their Jacobian by temperature and the partial densities.
    pub fn criticality_p(
        &mut self,
        eos: &PengRobinson,
        pressure: f64,
        temperature: f64,
        rho: [f64; 2],
    ) -> FeosResult<([f64; 3], [[f64; 3]; 3])> {
        let yields = criticality_p(eos, pressure, temperature, rho);
        self.made_partial("criticality_conditions_p", temperature, rho, &yields)?;
        let three = |at: usize| [yields[at], yields[at + 1], yields[at + 2]];
        Ok((three(0), [three(3), three(6), three(9)]))
    }

    /// The stability condition and its derivative by density.
    pub fn stability(
        &mut self,
        eos: &PengRobinson,
        temperature: f64,
        density: f64,
        molefracs: &[f64],
    ) -> FeosResult<(f64, f64)> {
        let (f, df) = stability(eos, temperature, density, molefracs);
        self.made("stability_condition", temperature, density, &[f, df])?;
        Ok((f, df))
    }
}
