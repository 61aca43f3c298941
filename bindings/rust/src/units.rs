//! Reduced numbers and SI. The calls take and give reduced numbers; only critical values are filed in K and Pa.
//! Temperatures are in K on both sides.

/// mol/m³ in 1/Å³: cubic angstroms in a cubic metre over Avogadro's constant, 1/mol.
const MOLES_PER_CUBIC_METRE: f64 = 1e30 / 6.02214076e23;
/// Pa in 1 K/Å³: Boltzmann's constant, 1.380649e-23 J/K, times 1e30.
const PASCALS: f64 = 13_806_490.0;

/// A density in 1/Å³ as mol/m³.
///
/// ```
/// use peng_robinson_board::units::density_to_si;
///
/// assert!((density_to_si(6.02214076e-3) - 10_000.0).abs() < 1e-8);
/// ```
pub fn density_to_si(density: f64) -> f64 {
    density * MOLES_PER_CUBIC_METRE
}

/// A density in mol/m³ as 1/Å³.
pub fn density_from_si(density: f64) -> f64 {
    density / MOLES_PER_CUBIC_METRE
}

/// A pressure in K/Å³ as Pa.
///
/// ```
/// use peng_robinson_board::units::pressure_to_si;
///
/// assert_eq!(pressure_to_si(1.0), 13_806_490.0);
/// ```
pub fn pressure_to_si(pressure: f64) -> f64 {
    pressure * PASCALS
}

/// A pressure in Pa as K/Å³.
pub fn pressure_from_si(pressure: f64) -> f64 {
    pressure / PASCALS
}
