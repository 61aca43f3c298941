"""Units against the definition of the SI, and against a dilute gas and a spinodal of the proved library."""
import unittest
from decimal import Decimal
from fractions import Fraction

from peng_robinson_board import Component, Blend, density, pressure_spinodal, units
from peng_robinson_board.record import bits

AVOGADRO, BOLTZMANN = Decimal("6.02214076e23"), Decimal("1.380649e-23")
METHANE = Component("methane", 190.564, 4.5992e6, 0.01142)

# a number in SI, its bits as a reduced one; the same number taken as reduced, its bits in SI
DENSITIES = [
    (1.0, "3EA434FAC208AAF2", "4139567B11324E23"),
    (7.0, "3ED1AE5B69C79594", "41662BABAF0C045F"),
    (1660.539, "3F50624DC7D308DF", "41E48B4DC7421AF8"),
    (11096.15062, "3F7B5EDAFF8CFE10", "42112900DCBF056E"),
    (0.1, "3E702A6234D3BBF5", "4104452F40F50B50"),
    (12345.678, "3F7E73E41BF44DB5", "421317B209D6FEA6"),
]
PRESSURES = [
    (1.0, "3E737154D92BC1FC", "416A557340000000"),
    (101325.0, "3F7E0F6FAC086C5B", "42745B77A0852000"),
    (500000.0, "3FA28AC0CEEC3F0C", "42991D25DD350000"),
    (0.1, "3E3F1BBAF512CFFB", "4135112900000000"),
    (7.0, "3EA1032A3E0649BD", "41970AC4D8000000"),
]


class Definitions(unittest.TestCase):
    def test_gas_constant_is_the_exact_product(self) -> None:
        self.assertEqual(AVOGADRO * BOLTZMANN, Decimal("8.31446261815324"))
        self.assertEqual(units.GAS_CONSTANT, float(AVOGADRO * BOLTZMANN))
        self.assertEqual((units.AVOGADRO, units.BOLTZMANN), (float(AVOGADRO), float(BOLTZMANN)))

    def test_factors(self) -> None:
        molecules, kelvin = Fraction(AVOGADRO), Fraction(BOLTZMANN)
        exact = {
            units.TEMPERATURE: Fraction(1),
            units.DENSITY: 10**30 / molecules,
            units.PRESSURE: kelvin * 10**30,
            units.CURVATURE: kelvin * 10**30 * (molecules / 10**30) ** 2,
        }
        for quantity, factor in exact.items():
            with self.subTest(unit=quantity.si_unit):
                self.assertLessEqual(abs(Fraction(quantity.si_per_reduced) / factor - 1), Fraction(1, 10**15))
                self.assertAlmostEqual(quantity.from_si(quantity.to_si(0.7)), 0.7, delta=1e-15)
        self.assertEqual(Fraction(units.PRESSURE.si_per_reduced), exact[units.PRESSURE])

    def test_bits_of_both_bindings(self) -> None:
        """The same SI number makes the same block in every binding: one factor, divided by or multiplied with. Worked
        out in exact fractions and rounded once; the Rust crate's tests have the same list."""
        for quantity, rows in (
            (units.DENSITY, DENSITIES),
            (units.PRESSURE, PRESSURES),
        ):
            for number, from_si, to_si in rows:
                with self.subTest(unit=quantity.si_unit, number=number):
                    found = (bits(quantity.from_si(number)), bits(quantity.to_si(number)))
                    self.assertEqual(found, (from_si, to_si))

    def test_pressure_times_volume_over_temperature_is_the_gas_constant(self) -> None:
        ratio = units.PRESSURE.si_per_reduced / units.DENSITY.si_per_reduced
        self.assertAlmostEqual(ratio, float(AVOGADRO * BOLTZMANN), delta=1e-14)

    def test_numbers_beyond_the_range_pass(self) -> None:
        for number in (float("inf"), float("-inf")):
            self.assertEqual(units.DENSITY.from_si(number), number)
            self.assertEqual(units.PRESSURE.to_si(number), number)
        self.assertNotEqual(units.PRESSURE.from_si(float("nan")), units.PRESSURE.from_si(float("nan")))
        self.assertEqual(units.PRESSURE.to_si(1e308), float("inf"))


class Physics(unittest.TestCase):
    def test_dilute_vapour_tends_to_the_ideal_gas(self) -> None:
        found = density(Blend.pure(METHANE), 300.0, 1.0, "vapor")
        self.assertLess(abs(1.0 / (found.density * 300.0) / 8.31446261815324 - 1.0), 1e-6)

    def test_curvature_is_that_of_pressure_by_density(self) -> None:
        blend = Blend.pure(METHANE)
        spinodal = pressure_spinodal(blend, 150.0, 1000.0)
        assert spinodal.curvature is not None
        # just below the spinodal the vapour branch is a parabola
        below = 1e-6 * spinodal.pressure
        distance = density(blend, 150.0, spinodal.pressure - below, "vapor").density - spinodal.density
        self.assertLess(abs(-2.0 * below / distance**2 / spinodal.curvature - 1.0), 0.01)
