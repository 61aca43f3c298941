"""The table of components: complete and consistent; names and forms; critical and boiling points by the library."""
import csv
import unittest
from pathlib import Path

import peng_robinson_board as board
from peng_robinson_board import calculations, components
from peng_robinson_board.units import GAS_CONSTANT

FILE = Path(components.__file__).with_name("components.csv")

# Tc / K, pc / Pa, acentric factor elsewhere: liquids of OpenFOAM 1912 and, for ammonia, iapws 1.5.3
OTHER_COLLECTIONS = {
    "argon": (150.86, 4.8981e6, 0.0),
    "nitrogen": (126.1, 3.3944e6, 0.0403),
    "ethane": (305.32, 4.872e6, 0.0995),
    "propane": (369.83, 4.248e6, 0.1523),
    "dimethyl ether": (400.1, 5.3702e6, 0.2036),
    "hexane": (507.6, 3.025e6, 0.3013),
    "ammonia": (405.40, 11.333e6, 0.25601),
}

ATMOSPHERE = 101325.0  # Pa

# boiling temperature / K as handbooks have it, at a pressure of 1 atm; a mistaken figure of the three moves it
BOILING_POINTS = {
    "methane": 111.7,
    "ethane": 184.6,
    "propane": 231.0,
    "butane": 272.7,
    "isobutane": 261.4,
    "pentane": 309.2,
    "isopentane": 301.0,
    "neopentane": 282.7,
    "hexane": 341.9,
    "ethylene": 169.4,
    "propylene": 225.5,
    "1-butene": 266.8,
    "isobutene": 266.2,
    "cis-2-butene": 276.9,
    "trans-2-butene": 274.0,
    "1,3-butadiene": 268.7,
    "dimethyl ether": 248.4,
    "hydrogen": 20.4,
    "nitrogen": 77.4,
    "oxygen": 90.2,
    "argon": 87.3,
    "carbon monoxide": 81.6,
    "helium": 4.22,
    "neon": 27.1,
    "krypton": 119.7,
    "xenon": 165.1,
    "nitrous oxide": 184.7,
    "ammonia": 239.8,
    "sulfur dioxide": 263.1,
    "hydrogen sulfide": 212.8,
    "chlorine": 239.1,
    "hydrogen chloride": 188.1,
    "R134a": 247.1,
    "R32": 221.5,
    "R1234yf": 243.7,
}

# those that sublime at 1 atm, at the triple point: temperature / K, pressure / Pa
TRIPLE_POINTS = {
    "acetylene": (192.4, 1.28e5),
    "carbon dioxide": (216.6, 5.18e5),
    "sulfur hexafluoride": (223.6, 2.31e5),
}

# pc / (rho_c R Tc) of every fluid by the Peng-Robinson equation
CRITICAL_COMPRESSIBILITY = 0.3074


class Table(unittest.TestCase):
    def test_has_every_row_of_the_file(self):
        lines = [line for line in FILE.read_text(encoding="utf-8").splitlines() if not line.startswith("#")]
        names = [row["name"] for row in csv.DictReader(lines)]
        self.assertGreaterEqual(len(names), 25)
        self.assertEqual(list(components.table()), names)

    def test_rows_are_complete(self):
        for name, entry in components.table().items():
            with self.subTest(name):
                self.assertEqual(entry.component.name, name)
                self.assertTrue(entry.formula)
                self.assertTrue(all(alias and alias == alias.strip() for alias in entry.aliases))

    def test_figures_are_in_their_ranges(self):
        for name, entry in components.table().items():
            with self.subTest(name):
                self.assertTrue(3.0 < entry.component.critical_temperature < 600.0)
                self.assertTrue(1e5 < entry.component.critical_pressure < 2e7)
                self.assertTrue(-0.5 < entry.component.acentric_factor < 0.5)

    def test_every_source_is_cited_and_every_citation_used(self):
        used = {source for entry in components.table().values() for source in entry.sources}
        self.assertEqual(used, set(components.citations()))
        for key, citation in components.citations().items():
            with self.subTest(key):
                # a key ends in the year, and perhaps a letter
                self.assertIn(f"({key.rstrip('ab')[-4:]})", citation)

    def test_head_says_what_the_figures_are_worth(self):
        self.assertIn("have not been compared with the publications", FILE.read_text(encoding="utf-8")[:400])

    def test_no_name_or_alias_stands_twice(self):
        names = [name for entry in components.table().values() for name in (entry.component.name, *entry.aliases)]
        for name in names:
            with self.subTest(name):
                plain = name.casefold().replace(" ", "").replace("-", "")
                same = [other for other in names if other.casefold().replace(" ", "").replace("-", "") == plain]
                self.assertEqual(same, [name])

    def test_agrees_with_other_collections(self):
        for name, (temperature, pressure, acentric) in OTHER_COLLECTIONS.items():
            with self.subTest(name):
                component = components.find(name)
                self.assertAlmostEqual(component.critical_temperature / temperature, 1.0, delta=0.01)
                self.assertAlmostEqual(component.critical_pressure / pressure, 1.0, delta=0.01)
                self.assertAlmostEqual(component.acentric_factor, acentric, delta=0.02)

    def test_changing_a_table_handed_out_changes_no_other(self):
        components.table().clear()
        components.citations().clear()
        self.assertIn("propane", components.table())
        self.assertIn("LMW2009", components.citations())


class Find(unittest.TestCase):
    def test_by_name_alias_and_any_case(self):
        for word, name in {
            "propane": "propane",
            "PROPANE": "propane",
            "R290": "propane",
            "r-290": "propane",
            "n-butane": "butane",
            "n-Butane": "butane",
            "CO2": "carbon dioxide",
            "co2": "carbon dioxide",
            "Carbon-Dioxide": "carbon dioxide",
            "carbon_dioxide": "carbon dioxide",
            " oxygen ": "oxygen",
            "1,3-butadiene": "1,3-butadiene",
            "isobutylene": "isobutene",
            "DME": "dimethyl ether",
        }.items():
            with self.subTest(word):
                self.assertEqual(components.find(word), components.table()[name].component)

    def test_unknown_name_suggests_close_ones(self):
        with self.assertRaises(components.UnknownComponent) as caught:
            components.find("propan")
        self.assertIn("propane", caught.exception.suggestions)
        self.assertIn("propane", str(caught.exception))
        self.assertNotIn('"', str(caught.exception))
        self.assertIsInstance(caught.exception, KeyError)

    def test_unknown_name_with_none_close(self):
        for word in ("", "unobtainium", "C4H10"):
            with self.subTest(word), self.assertRaises(components.UnknownComponent) as caught:
                components.find(word)
            self.assertIn(repr(word), str(caught.exception))


class Parse(unittest.TestCase):
    def test_name(self):
        self.assertEqual(components.parse("r290"), components.find("propane"))

    def test_own_figures(self):
        parsed = components.parse("our propane:369.83:4.248e6:0.1523")
        self.assertEqual(parsed, board.Component("our propane", 369.83, 4.248e6, 0.1523))

    def test_own_figures_go_before_the_table(self):
        self.assertEqual(components.parse("propane:300:4e6:-0.1").critical_temperature, 300.0)

    def test_unknown_name(self):
        with self.assertRaises(components.UnknownComponent):
            components.parse("propan")

    def test_bad_forms(self):
        for text, told in {
            "propane:369.83": "name:Tc:pc:omega",
            "propane:369.83:4.248e6": "name:Tc:pc:omega",
            "propane:369.83:4.248e6:0.1523:1": "name:Tc:pc:omega",
            ":369.83:4.248e6:0.1523": "name:Tc:pc:omega",
            " :369.83:4.248e6:0.1523": "name:Tc:pc:omega",
            "propane:": "name:Tc:pc:omega",
            "propane:warm:4.248e6:0.1523": "the critical temperature 'warm' is not a number",
            "propane:369.83:42,48:0.1523": "the critical pressure '42,48' is not a number",
            "propane:369.83:4.248e6:": "the acentric factor '' is not a number",
        }.items():
            with self.subTest(text), self.assertRaises(ValueError) as caught:
                components.parse(text)
            self.assertIn(told, str(caught.exception))

    def test_figures_that_cannot_be_used_are_left_to_the_writer(self):
        for text in ("x:nan:4e6:0.1", "x:inf:4e6:0.1", "x:-300:4e6:0.1", "x:300:0:0.1", "x:300:4e6:nan"):
            with self.subTest(text), self.assertRaises(board.Refused) as caught:
                calculations.critical_point(components.parse(text))
            self.assertEqual(caught.exception.number, 12)


class CriticalPoints(unittest.TestCase):
    """The equation has its critical point where the filed figures put it, helium and hydrogen included."""

    def test_every_row(self):
        for name, entry in components.table().items():
            with self.subTest(name):
                component = entry.component
                found = calculations.critical_point(component)
                self.assertAlmostEqual(found.temperature / component.critical_temperature, 1.0, delta=1e-3)
                pure = board.Blend.pure(component)
                pressure = calculations.pressure_spinodal(pure, found.temperature, found.density).pressure
                self.assertAlmostEqual(pressure / component.critical_pressure, 1.0, delta=1e-3)
                compressibility = pressure / (found.density * GAS_CONSTANT * found.temperature)
                self.assertAlmostEqual(compressibility, CRITICAL_COMPRESSIBILITY, delta=1e-3)


class BoilingPoints(unittest.TestCase):
    """The stable phase changes (kind 2) near the boiling temperature, by 1 part in 100, for helium in 50."""

    def test_every_row(self):
        boiling = {name: (temperature, ATMOSPHERE) for name, temperature in BOILING_POINTS.items()}
        boiling.update(TRIPLE_POINTS)
        self.assertEqual(set(boiling), set(components.table()))
        for name, (temperature, pressure) in boiling.items():
            with self.subTest(name):
                pure = board.Blend.pure(components.find(name))
                critical = calculations.critical_point(pure.components[0]).density
                near = 0.02 if name == "helium" else 0.01
                colder = calculations.stable_density(pure, (1.0 - near) * temperature, pressure)
                warmer = calculations.stable_density(pure, (1.0 + near) * temperature, pressure)
                self.assertGreater(colder.density, critical)
                self.assertLess(warmer.density, critical)


if __name__ == "__main__":
    unittest.main()
