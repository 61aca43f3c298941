//! A critical point of two components, as kinds 8 and 9 hand it out.

/// A point of the critical line of two components: what was set and what the search found, in reduced numbers.
///
/// [`Request::critical_point_at_temperature`](crate::Request::critical_point_at_temperature) and
/// [`critical_point_at_pressure`](crate::Request::critical_point_at_pressure) ask for one.
#[derive(Clone, Copy, Debug, PartialEq)]
pub struct BinaryCriticalPoint {
    /// Temperature, K: set in kind 8, found in kind 9.
    pub temperature: f64,
    /// Pressure, K/Å³: set in kind 9; kind 8 hands none out.
    pub pressure: Option<f64>,
    /// Partial densities of the first and the second component, 1/Å³.
    pub partial_densities: [f64; 2],
}

impl BinaryCriticalPoint {
    /// Kind 8: the temperature that was set, and the values that its job handed out.
    pub const fn at_temperature(temperature: f64, values: [f64; 3]) -> BinaryCriticalPoint {
        let [first, second, _] = values;
        BinaryCriticalPoint { temperature, pressure: None, partial_densities: [first, second] }
    }

    /// Kind 9: the pressure that was set, and the values that its job handed out.
    pub const fn at_pressure(pressure: f64, values: [f64; 3]) -> BinaryCriticalPoint {
        let [temperature, first, second] = values;
        BinaryCriticalPoint { temperature, pressure: Some(pressure), partial_densities: [first, second] }
    }

    /// The density, 1/Å³: the sum of the partial densities.
    pub fn density(&self) -> f64 {
        let [first, second] = self.partial_densities;
        first + second
    }

    /// The mole fractions: each partial density over their sum.
    pub fn fractions(&self) -> [f64; 2] {
        self.partial_densities.map(|density| density / self.density())
    }
}
