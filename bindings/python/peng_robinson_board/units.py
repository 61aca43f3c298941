"""Conversion between the library's reduced numbers and SI; the only place where it stands.
Reduced: temperature in K, density in molecules per cubic angstrom, pressure in K per cubic angstrom."""
from dataclasses import dataclass

# exact by the definition of the SI
AVOGADRO = 6.02214076e23  # 1/mol
BOLTZMANN = 1.380649e-23  # J/K
GAS_CONSTANT = 8.31446261815324  # J/(mol K), the product of the two

CUBIC_ANGSTROMS = 1e30  # in a cubic metre


@dataclass(frozen=True)
class Quantity:
    """A physical quantity: its units, and how many SI units a reduced one is."""

    si_unit: str
    reduced_unit: str
    si_per_reduced: float

    def to_si(self, reduced: float) -> float:
        return reduced * self.si_per_reduced

    def from_si(self, value: float) -> float:
        return value / self.si_per_reduced


FRACTION = Quantity("1", "1", 1.0)
TEMPERATURE = Quantity("K", "K", 1.0)
DENSITY = Quantity("mol/m^3", "1/angstrom^3", CUBIC_ANGSTROMS / AVOGADRO)
# the product in floats is not the exact 13806490
PRESSURE = Quantity("Pa", "K/angstrom^3", 13806490.0)
# second derivative of pressure by density
CURVATURE = Quantity(
    "Pa/(mol/m^3)^2", "K angstrom^3", PRESSURE.si_per_reduced / (DENSITY.si_per_reduced * DENSITY.si_per_reduced)
)
