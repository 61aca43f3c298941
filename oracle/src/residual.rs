//! Residual Helmholtz energy and the pressure with its derivatives by density. After feos `equation_of_state/residual.rs`.

use crate::cubic::PengRobinson;
use crate::jet::JetOf;
use crate::state::StateHD;

/// A fraction or temperature without a mark, for each entry.
pub(crate) fn plain<const S: usize>(x: &[f64]) -> Vec<JetOf<S>> {
    x.iter().map(|&x| JetOf::from(x)).collect()
}

impl PengRobinson {
    /// Evaluate the residual reduced Helmholtz energy density.
    fn reduced_residual_helmholtz_energy_density<const S: usize>(
        &self,
        state: &StateHD<S>,
    ) -> JetOf<S> {
        let mut a = JetOf::zero();
        self.for_each_contribution(state, |_, a_i| a += a_i);
        a
    }

    /// Evaluate the residual Helmholtz energy.
    pub fn residual_helmholtz_energy<const S: usize>(
        &self,
        temperature: JetOf<S>,
        volume: JetOf<S>,
        moles: &[JetOf<S>],
    ) -> JetOf<S> {
        let state = StateHD::new(temperature, volume, moles);
        self.reduced_residual_helmholtz_energy_density(&state) * temperature * volume
    }

    /// calculates a_res, p, dp_drho
    pub fn p_dpdrho(&self, temperature: f64, density: f64, molefracs: &[f64]) -> (f64, f64, f64) {
        self.p_dpdrho_in::<16>(temperature, density, molefracs)
    }

    /// The same in jets of another length.
    pub fn p_dpdrho_in<const S: usize>(
        &self,
        temperature: f64,
        density: f64,
        molefracs: &[f64],
    ) -> (f64, f64, f64) {
        let molar_volume = 1.0 / density;
        let a = self.residual_helmholtz_energy(
            JetOf::<S>::from(temperature),
            JetOf::e0(molar_volume),
            &plain(molefracs),
        );
        let (da, d2a) = (a.derivative(1).re(), a.derivative(2).re());
        (
            a.re(),
            -da + temperature * density,
            molar_volume * molar_volume * d2a + temperature,
        )
    }

    /// calculates p, dp_drho, d2p_drho2
    pub fn p_dpdrho_d2pdrho2(
        &self,
        temperature: f64,
        density: f64,
        molefracs: &[f64],
    ) -> (f64, f64, f64) {
        self.p_dpdrho_d2pdrho2_in::<16>(temperature, density, molefracs)
    }

    /// The same in jets of another length.
    pub fn p_dpdrho_d2pdrho2_in<const S: usize>(
        &self,
        temperature: f64,
        density: f64,
        molefracs: &[f64],
    ) -> (f64, f64, f64) {
        let molar_volume = 1.0 / density;
        let a = self.residual_helmholtz_energy(
            JetOf::<S>::from(temperature),
            JetOf::e0(molar_volume),
            &plain(molefracs),
        );
        let da = a.derivative(1).re();
        let d2a = a.derivative(2).re();
        let d3a = a.derivative(3).re();
        (
            -da + temperature * density,
            molar_volume * molar_volume * d2a + temperature,
            -molar_volume * molar_volume * molar_volume * (d2a * 2.0 + molar_volume * d3a),
        )
    }
}
