//! The Peng-Robinson equation of state: parameters, maximum density and Helmholtz energy. After feos `cubic.rs`.

use crate::jet::{self, JetOf};
use crate::state::StateHD;
use std::f64::consts::SQRT_2;

const KB_A3: f64 = 13806490.0;

/// Peng-Robinson parameters for a single substance.
#[derive(Clone, Copy, Debug)]
pub struct PengRobinsonRecord {
    /// critical temperature in Kelvin
    pub tc: f64,
    /// critical pressure in Pascal
    pub pc: f64,
    /// acentric factor
    pub acentric_factor: f64,
}

/// A simple version of the Peng-Robinson equation of state.
#[derive(Clone, Debug)]
pub struct PengRobinson {
    records: Vec<PengRobinsonRecord>,
    /// Critical temperature in Kelvin
    pub tc: Vec<f64>,
    pub a: Vec<f64>,
    pub b: Vec<f64>,
    /// Binary interaction parameter
    pub k_ij: Vec<Vec<f64>>,
    pub kappa: Vec<f64>,
}

impl PengRobinson {
    /// Create a new equation of state from a set of parameters; the interactions are given by rows, i below j.
    pub fn new(records: &[PengRobinsonRecord], interactions: &[f64]) -> Self {
        let n = records.len();
        let mut k_ij = vec![vec![0.0; n]; n];
        let mut next = interactions.iter();
        for i in 0..n {
            for j in i + 1..n {
                k_ij[i][j] = *next.next().expect("one interaction for each pair");
                k_ij[j][i] = k_ij[i][j];
            }
        }
        let tc: Vec<f64> = records.iter().map(|r| r.tc).collect();
        let a = records
            .iter()
            .map(|r| 0.45724 * KB_A3 * ((r.tc * r.tc) / r.pc))
            .collect();
        let b = records
            .iter()
            .map(|r| 0.07780 * KB_A3 * (r.tc / r.pc))
            .collect();
        let kappa = records
            .iter()
            .map(|r| {
                let ac = r.acentric_factor;
                0.37464 + (1.54226 - 0.26992 * ac) * ac
            })
            .collect();
        Self {
            records: records.to_vec(),
            tc,
            a,
            b,
            k_ij,
            kappa,
        }
    }

    /// The equation of state of one of the components.
    pub fn subset(&self, component: usize) -> Self {
        Self::new(&[self.records[component]], &[])
    }

    pub fn components(&self) -> usize {
        self.tc.len()
    }

    pub fn compute_max_density(&self, molefracs: &[f64]) -> f64 {
        let mut dot = molefracs[0] * self.b[0];
        for i in 1..molefracs.len() {
            dot += molefracs[i] * self.b[i];
        }
        0.9 / dot
    }

    pub fn for_each_contribution<const S: usize>(
        &self,
        state: &StateHD<S>,
        mut f: impl FnMut(&'static str, JetOf<S>),
    ) {
        let density = jet::sum(&state.partial_density);
        let x = &state.molefracs;
        let ak: Vec<JetOf<S>> = (0..self.components())
            .map(|i| {
                let x = JetOf::one() - (state.temperature / self.tc[i]).sqrt();
                let x = x * JetOf::from(self.kappa[i]);
                (x + 1.0).square() * JetOf::from(self.a[i])
            })
            .collect();

        // Mixing rules
        let mut ak_mix = JetOf::zero();
        for i in 0..ak.len() {
            for j in 0..ak.len() {
                ak_mix += (ak[i] * ak[j]).sqrt() * (x[i] * x[j] * (1.0 - self.k_ij[i][j]));
            }
        }
        let b_i: Vec<JetOf<S>> = self.b.iter().map(|&b| JetOf::from(b)).collect();
        let b = jet::dot(x, &b_i);

        // Helmholtz energy
        let v = density.recip();
        let a = density
            * ((v / (v - b)).ln()
                - ak_mix / (b * SQRT_2 * 2.0 * state.temperature)
                    * ((v + b * (1.0 + SQRT_2)) / (v + b * (1.0 - SQRT_2))).ln());
        f("Peng Robinson", a)
    }
}
