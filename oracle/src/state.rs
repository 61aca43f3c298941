//! Thermodynamic state in reduced variables, and where a density search begins. After feos `state/mod.rs`.

use crate::jet::{self, JetOf};

/// Initial values in a density iteration.
#[derive(Clone, Copy, Debug, PartialEq)]
pub enum DensityInitialization {
    /// Calculate a vapor phase by initializing using the ideal gas.
    Vapor,
    /// Calculate a liquid phase by using the `max_density`.
    Liquid,
    /// Use the given density as initial value.
    InitialDensity(f64),
}

/// Thermodynamic state of the system in reduced variables including their derivatives.
pub struct StateHD<const S: usize> {
    /// temperature in Kelvin
    pub temperature: JetOf<S>,
    /// mole fractions
    pub molefracs: Vec<JetOf<S>>,
    /// partial number densities in Angstrom^-3
    pub partial_density: Vec<JetOf<S>>,
}

impl<const S: usize> StateHD<S> {
    /// Create a new `StateHD` for given temperature, volume and composition.
    pub fn new(temperature: JetOf<S>, volume: JetOf<S>, moles: &[JetOf<S>]) -> Self {
        Self::new_density(temperature, moles.iter().map(|&n| n / volume).collect())
    }

    /// Create a new `StateHD` for given temperature and partial densities
    pub fn new_density(temperature: JetOf<S>, partial_density: Vec<JetOf<S>>) -> Self {
        let sum = jet::sum(&partial_density);
        let molefracs = partial_density.iter().map(|&d| d / sum).collect();
        Self {
            temperature,
            molefracs,
            partial_density,
        }
    }
}
