"""The subcommand `plot`: the numbers drawn against the Peng-Robinson equation, pictures, bad input.
Pictures need matplotlib; without it their tests are skipped and everything else is run."""
import contextlib
import io
import json
import math
import os
import struct
import subprocess
import sys
import tempfile
import unittest
from pathlib import Path

import peng_robinson_board as board
from peng_robinson_board import calculations, cli, components, curves, plot
from peng_robinson_board.arguments import Usage
from peng_robinson_board.units import DENSITY, GAS_CONSTANT

try:
    import matplotlib  # noqa: F401
except ImportError:
    matplotlib = None

PACKAGE_FOLDER = Path(plot.__file__).resolve().parent.parent

PROPANE = board.Blend.pure(components.find("propane"))
BUTANE = components.find("butane")
BLEND = board.Blend.of([*PROPANE.components, BUTANE], [0.6, 0.4], {("propane", "butane"): 0.003})
TEMPERATURES = [280.0, 300.0, 320.0, 340.0, 360.0, 380.0]

ISOTHERMS = ["plot", "isotherms", "propane", "--temperatures", "280", "300", "320", "340", "360", "380"]
DOME = ["plot", "dome", "propane"]
CONVERGENCE = ["plot", "convergence", "propane=0.6", "butane=0.4", "--temperature", "300", "--pressure", "5e5"]
CONVERGENCE += ["--phase", "liquid"]
CRITICAL_LINE = ["plot", "critical-line", "propane", "butane"]


class PengRobinson:
    """Pressure and its slope as the textbooks give them (Peng and Robinson 1976), in SI."""

    def __init__(self, blend, temperature):
        self.temperature = temperature
        parameters = []
        for one in blend.components:
            kappa = 0.37464 + (1.54226 - 0.26992 * one.acentric_factor) * one.acentric_factor
            alpha = (1.0 + kappa * (1.0 - math.sqrt(temperature / one.critical_temperature))) ** 2
            a = 0.45724 * (GAS_CONSTANT * one.critical_temperature) ** 2 / one.critical_pressure * alpha
            parameters.append((a, 0.07780 * GAS_CONSTANT * one.critical_temperature / one.critical_pressure))
        pairs = iter(blend.interactions)
        self.a = self.b = 0.0
        for i, (x, (a, b)) in enumerate(zip(blend.fractions, parameters)):
            self.a += x * x * a
            self.b += x * b
            for other, (a_other, _) in list(zip(blend.fractions, parameters))[i + 1:]:
                self.a += 2.0 * x * other * math.sqrt(a * a_other) * (1.0 - next(pairs))

    def pressure(self, density):
        x = self.b * density
        repulsion = density * GAS_CONSTANT * self.temperature / (1.0 - x)
        return repulsion - self.a * density**2 / (1.0 + 2.0 * x - x * x)

    def slope(self, density):
        """In parts of the ideal gas's, R T."""
        x = self.b * density
        attraction = self.a * density * 2.0 * (1.0 + x) / (1.0 + 2.0 * x - x * x) ** 2
        return 1.0 / (1.0 - x) ** 2 - attraction / (GAS_CONSTANT * self.temperature)


class Isotherms(unittest.TestCase):
    def check_branches(self, blend, numbers):
        highest = numbers["highest_pressure"]
        for one in numbers["isotherms"]:
            equation = PengRobinson(blend, one["temperature"])
            for branch in one["branches"]:
                with self.subTest(temperature=one["temperature"], phase=branch["phase"]):
                    densities, pressures = branch["densities"], branch["pressures"]
                    self.assertEqual(branch["dropped"], 0)
                    self.assertGreaterEqual(len(densities), curves.BRANCH_POINTS)
                    self.assertTrue(all(low < high for low, high in zip(densities, densities[1:])))
                    self.assertTrue(all(low < high for low, high in zip(pressures, pressures[1:])))
                    self.assertLessEqual(pressures[-1], highest)
                    for density, pressure in zip(densities, pressures):
                        self.assertAlmostEqual(equation.pressure(density), pressure, delta=1e-6 * highest)
                        self.assertGreater(equation.slope(density), 0.0)

    def check_spinodals(self, blend, numbers):
        for one in numbers["isotherms"]:
            if one["spinodals"] is None:
                continue
            with self.subTest(one["temperature"]):
                equation = PengRobinson(blend, one["temperature"])
                vapor, liquid = one["spinodals"]["vapor"], one["spinodals"]["liquid"]
                self.assertLess(vapor["density"], liquid["density"])
                for spinodal in (vapor, liquid):
                    self.assertAlmostEqual(equation.slope(spinodal["density"]), 0.0, delta=1e-6)
                    self.assertAlmostEqual(equation.pressure(spinodal["density"]), spinodal["pressure"], delta=10.0)
                self.assertLess(equation.slope(0.5 * (vapor["density"] + liquid["density"])), 0.0)
                # each branch stays on its side and comes close to its spinodal
                on_vapor, on_liquid = (branch["densities"] for branch in one["branches"])
                self.assertTrue(0.98 * vapor["density"] < on_vapor[-1] < vapor["density"])
                self.assertTrue(liquid["density"] < on_liquid[0] < 1.02 * liquid["density"])

    def test_one_component(self):
        numbers = curves.isotherms(PROPANE, TEMPERATURES)
        self.assertEqual([one["temperature"] for one in numbers["isotherms"]], TEMPERATURES)
        self.check_branches(PROPANE, numbers)
        self.check_spinodals(PROPANE, numbers)
        # 380 K is above the critical temperature of propane, the others below
        self.assertEqual([one["spinodals"] is None for one in numbers["isotherms"]], [False] * 5 + [True])
        self.assertEqual([len(one["branches"]) for one in numbers["isotherms"]], [2] * 5 + [1])
        self.assertEqual(numbers["notes"], [])

    def test_critical_point(self):
        critical = curves.isotherms(PROPANE, [300.0])["critical_point"]
        filed = PROPANE.components[0]
        self.assertAlmostEqual(critical["temperature"] / filed.critical_temperature, 1.0, delta=1e-3)
        self.assertAlmostEqual(critical["pressure"] / filed.critical_pressure, 1.0, delta=1e-3)
        equation = PengRobinson(PROPANE, critical["temperature"])
        self.assertAlmostEqual(equation.pressure(critical["density"]), critical["pressure"], delta=1.0)
        self.assertAlmostEqual(equation.slope(critical["density"]), 0.0, delta=1e-6)

    def test_near_critical_temperatures(self):
        critical = calculations.critical_point(PROPANE.components[0]).temperature
        numbers = curves.isotherms(PROPANE, [0.9999 * critical, 1.0001 * critical])
        self.check_branches(PROPANE, numbers)
        self.assertEqual([one["spinodals"] is None for one in numbers["isotherms"]], [False, True])

    def test_line_through_the_spinodals(self):
        curve = curves.isotherms(PROPANE, TEMPERATURES)["spinodal_curve"]
        self.assertEqual(curve[0]["temperature"], 280.0)
        self.assertTrue(all(low["temperature"] < high["temperature"] for low, high in zip(curve, curve[1:])))
        self.assertEqual(curves.isotherms(PROPANE, [380.0])["spinodal_curve"], [])

    def test_blend(self):
        numbers = curves.isotherms(BLEND, [300.0, 360.0, 450.0])
        self.check_branches(BLEND, numbers)
        self.check_spinodals(BLEND, numbers)
        self.assertEqual([one["spinodals"] is None for one in numbers["isotherms"]], [False, False, True])
        self.assertIsNone(numbers["critical_point"])
        self.assertEqual(numbers["notes"], [curves.NO_CRITICAL_PRESSURE])

    def test_highest_pressure(self):
        numbers = curves.isotherms(PROPANE, [300.0, 340.0, 400.0], 1e6)
        self.check_branches_end(numbers, 1e6)
        # 1 MPa is below the liquid spinodal at 360 K: only vapour is left
        branches = curves.isotherms(PROPANE, [360.0], 1e6)["isotherms"][0]["branches"]
        self.assertEqual([branch["phase"] for branch in branches], ["vapor"])

    def check_branches_end(self, numbers, highest):
        pressures = [p for one in numbers["isotherms"] for branch in one["branches"] for p in branch["pressures"]]
        self.assertLessEqual(max(pressures), highest)
        self.assertGreater(max(pressures), 0.9 * highest)

    def test_points_off_their_branch_are_dropped(self):
        # beyond the vapour spinodal of 19 bar a search from the vapour's side comes to the liquid
        self.assertGreater(calculations.density(PROPANE, 300.0, 2.5e6, "vapor").density, 8000.0)
        spinodal = calculations.spinodal(PROPANE, 300.0, "vapor").density
        pressures = [-1e5, 5e5, 1e6, 2.5e6]
        branch = curves._branch(PROPANE, 300.0, ("vapor",), pressures, lambda found: found < spinodal)
        self.assertEqual((branch["pressures"], branch["dropped"]), ([5e5, 1e6], 2))

    def test_temperatures_are_drawn_once_and_in_order(self):
        numbers = curves.isotherms(PROPANE, [340.0, 300.0, 340.0])
        self.assertEqual([one["temperature"] for one in numbers["isotherms"]], [300.0, 340.0])

    def test_nothing_to_draw(self):
        for highest in (-1e9, 0.0):
            with self.subTest(highest), self.assertRaises(Usage):
                curves.isotherms(PROPANE, [380.0], highest)


class Dome(unittest.TestCase):
    def check(self, blend, numbers):
        curve = numbers["spinodals"]
        self.assertEqual(len(curve), curves.DOME_POINTS)
        for low, high in zip(curve, curve[1:]):
            self.assertLess(low["temperature"], high["temperature"])
            self.assertLess(low["vapor"]["density"], high["vapor"]["density"])
            self.assertGreater(low["liquid"]["density"], high["liquid"]["density"])
        for point in curve:
            equation = PengRobinson(blend, point["temperature"])
            self.assertLess(point["vapor"]["density"], point["liquid"]["density"])
            for phase in ("vapor", "liquid"):
                self.assertAlmostEqual(equation.slope(point[phase]["density"]), 0.0, delta=1e-6)

    def test_closes_at_the_critical_point(self):
        for name in ("propane", "carbon dioxide", "ammonia", "hydrogen", "helium", "R134a"):
            with self.subTest(name):
                blend = board.Blend.pure(components.find(name))
                numbers = curves.dome(blend)
                self.check(blend, numbers)
                critical, last = numbers["critical_point"], numbers["spinodals"][-1]
                self.assertLess(last["temperature"], critical["temperature"])
                for phase in ("vapor", "liquid"):
                    self.assertAlmostEqual(last[phase]["density"] / critical["density"], 1.0, delta=0.02)
                coldest = numbers["spinodals"][0]["temperature"]
                self.assertAlmostEqual(coldest / critical["temperature"], 0.5, delta=1e-9)

    def test_kind_6_agrees(self):
        numbers = curves.dome(PROPANE)
        self.assertEqual(len(numbers["stability_spinodals"]), curves.DOME_POINTS // curves.STABILITY_EVERY)
        curve = {point["temperature"]: point for point in numbers["spinodals"]}
        for point in numbers["stability_spinodals"]:
            for phase in ("vapor", "liquid"):
                other = curve[point["temperature"]][phase]["density"]
                self.assertAlmostEqual(point[phase]["density"] / other, 1.0, delta=1e-6)
        self.assertLess(numbers["largest_difference"], 1e-6)
        self.assertEqual(numbers["notes"], [])

    def test_tells_where_kind_6_does_not_agree(self):
        numbers = curves.dome(PROPANE, 150.0)
        coldest = numbers["stability_spinodals"][0]
        # kind 4's is the liquid spinodal, as the slope shows; kind 6 has not come to it
        self.check(PROPANE, numbers)
        self.assertGreater(abs(coldest["liquid"]["density"] / numbers["spinodals"][0]["liquid"]["density"] - 1.0), 0.5)
        self.assertTrue(any(note.startswith("Kind 6 comes to other densities") for note in numbers["notes"]))

    def test_blend(self):
        numbers = curves.dome(BLEND)
        self.check(BLEND, numbers)
        self.assertIsNone(numbers["critical_point"])
        self.assertEqual((numbers["stability_spinodals"], numbers["notes"]), ([], []))
        last = numbers["spinodals"][-1]
        self.assertAlmostEqual(last["liquid"]["density"] / last["vapor"]["density"], 1.0, delta=0.04)
        # outside the dome, where the pressure still rises with density
        critical = numbers["blend_critical_point"]
        self.assertGreater(critical["temperature"], last["temperature"])
        equation = PengRobinson(BLEND, critical["temperature"])
        self.assertGreater(equation.slope(critical["density"]), 1e-3)

    def test_blends_without_a_critical_point(self):
        three = board.Blend.of([*BLEND.components, components.find("ethane")], [0.5, 0.3, 0.2])
        without_butane = board.Blend.of(BLEND.components, [1.0, 0.0])
        for blend, note in ((three, curves.NO_CRITICAL_POINT), (without_butane, curves.CRITICAL_POINT_NOT_FOUND)):
            with self.subTest(note):
                numbers = curves.dome(blend)
                self.assertIsNone(numbers["blend_critical_point"])
                self.assertEqual(numbers["notes"], [note])

    def test_lowest_temperature(self):
        self.assertEqual(curves.dome(PROPANE, 250.0)["spinodals"][0]["temperature"], 250.0)
        for lowest in (369.89, 400.0):
            with self.subTest(lowest), self.assertRaises(Usage):
                curves.dome(PROPANE, lowest)


class CriticalLine(unittest.TestCase):
    PAIR = board.Blend.of(BLEND.components, [0.5, 0.5], {("propane", "butane"): 0.003})

    def check(self, blend, numbers):
        """Pressures are the equation's, and kind 7 finds the same points of blends of their compositions."""
        temperatures = [point["temperature"] for point in numbers["points"]]
        self.assertEqual(temperatures, sorted(set(temperatures)))
        for point in numbers["points"]:
            with self.subTest(temperature=point["temperature"]):
                self.assertAlmostEqual(sum(point["fractions"]), 1.0, delta=1e-12)
                there = board.Blend(blend.components, tuple(point["fractions"]), blend.interactions)
                pressure = PengRobinson(there, point["temperature"]).pressure(point["density"])
                self.assertAlmostEqual(point["pressure"] / pressure, 1.0, delta=1e-9)
                same = calculations.blend_critical_point(there, point["temperature"], point["density"])
                self.assertAlmostEqual(same.temperature / point["temperature"], 1.0, delta=1e-9)
                self.assertAlmostEqual(same.density / point["density"], 1.0, delta=1e-9)

    def test_from_one_component_to_the_other(self):
        numbers = curves.critical_line(self.PAIR)
        self.check(self.PAIR, numbers)
        self.assertEqual((len(numbers["points"]), numbers["notes"]), (59, []))
        fractions = [point["fractions"][0] for point in numbers["points"]]
        self.assertEqual(fractions, sorted(fractions, reverse=True))
        for end, point, component in zip(numbers["critical_points"], (numbers["points"][0], numbers["points"][-1]), (0, 1)):
            self.assertGreater(point["fractions"][component], 0.97)
            self.assertAlmostEqual(point["pressure"] / end["pressure"], 1.0, delta=0.01)
            self.assertAlmostEqual(point["density"] / end["density"], 1.0, delta=0.01)

    def test_a_line_with_a_high_pressure_between(self):
        blend = board.Blend.of([components.find("methane"), components.find("propane")], [0.5, 0.5])
        numbers = curves.critical_line(blend)
        self.check(blend, numbers)
        highest = max(point["pressure"] for point in numbers["points"])
        self.assertGreater(highest, 2.0 * max(end["pressure"] for end in numbers["critical_points"]))

    def test_a_line_that_does_not_join_its_ends(self):
        blend = board.Blend.of([components.find("hydrogen"), components.find("methane")], [0.5, 0.5])
        numbers = curves.critical_line(blend)
        self.check(blend, numbers)
        self.assertLess(len(numbers["points"]), 59)
        self.assertIn("temperatures are left out", numbers["notes"][0])
        self.assertLess(max(point["fractions"][0] for point in numbers["points"]), 0.8)

    def test_between_given_temperatures(self):
        numbers = curves.critical_line(self.PAIR, 380.0, 400.0)
        temperatures = [point["temperature"] for point in numbers["points"]]
        self.assertTrue(380.0 < temperatures[0] and temperatures[-1] < 400.0 and len(temperatures) == 59)
        self.assertLess(len(curves.critical_line(self.PAIR, None, 500.0)["points"]), 59)
        with self.assertRaises(Usage):
            curves.critical_line(self.PAIR, 500.0, 600.0)

    def test_where_the_search_begins_changes_nothing(self):
        fractions = curves.critical_line(self.PAIR)["points"][10]["fractions"]
        other = board.Blend.of(BLEND.components, [0.8, 0.2], {("propane", "butane"): 0.003})
        self.assertAlmostEqual(curves.critical_line(other)["points"][10]["fractions"][0], fractions[0], delta=1e-9)


class Convergence(unittest.TestCase):
    # a short search, one that makes spinodal searches on its way, one from a start
    SEARCHES = [(300.0, 5e5, "liquid"), (390.0, 38e5, "liquid"), (300.0, 2e5, "vapor"), (300.0, 5e5, 4000.0)]

    def record_of_the_board(self, temperature, pressure, phase):
        """The record that comes out with the last turn of the span."""
        jobs = board.Board()
        jobs.submit(0, board.Request.density(BLEND, temperature, pressure, phase))
        for turn in range(1, 4 * 3100 + 2):
            record = jobs.turn()
            self.assertEqual(record is None, turn < 4 * 3100 + 1)
        return record

    def test_ends_at_the_density_handed_out(self):
        for search in self.SEARCHES:
            with self.subTest(search):
                numbers = curves.convergence(BLEND, *search)
                record = self.record_of_the_board(*search)
                self.assertEqual(record.status, 0)
                same_bits = struct.pack("<d", DENSITY.to_si(record.values[0]))
                self.assertEqual(struct.pack("<d", numbers["answer"]["density"]), same_bits)
                self.assertEqual(struct.pack("<d", calculations.density(BLEND, *search).density), same_bits)
                self.assertEqual(numbers["answer"]["evaluations"], record.evaluations)
                equation = PengRobinson(BLEND, search[0])
                self.assertAlmostEqual(equation.pressure(numbers["answer"]["density"]) / search[1], 1.0, delta=1e-6)

    def test_every_evaluation_is_looked_at_once(self):
        for search in self.SEARCHES:
            with self.subTest(search):
                numbers = curves.convergence(BLEND, *search)
                looks, answer = numbers["looks"], numbers["answer"]
                self.assertEqual([look["evaluations"] for look in looks], list(range(1, answer["evaluations"] + 1)))
                for look in looks:
                    self.assertEqual(look["distance"], abs(look["density"] - answer["density"]))
                self.assertGreater(looks[0]["distance"], looks[-1]["distance"])
                self.assertLess(looks[-1]["distance"], 1e-6 * answer["density"])
        first = curves.convergence(BLEND, 300.0, 5e5, 4000.0)["looks"][0]
        self.assertAlmostEqual(first["density"], 4000.0, delta=1e-9)

    def test_refused(self):
        for number, *search in ((21, 300.0, -5.0, "vapor"), (15, 300.0, math.nan, "liquid"), (15, 0.0, 1e5, "liquid")):
            with self.subTest(search), self.assertRaises(board.Refused) as caught:
                curves.convergence(PROPANE, *search)
            self.assertEqual(caught.exception.number, number)


def run(words):
    """Exit status, standard output and standard error of a command, in this process."""
    said, told = io.StringIO(), io.StringIO()
    with contextlib.redirect_stdout(said), contextlib.redirect_stderr(told):
        status = cli.main(list(map(str, words)))
    return status, said.getvalue(), told.getvalue()


class InFolder(unittest.TestCase):
    """Tests in a folder of their own, which is also where commands run."""

    def setUp(self):
        folder = tempfile.TemporaryDirectory()
        self.addCleanup(folder.cleanup)
        self.folder = Path(folder.name)
        self.addCleanup(os.chdir, os.getcwd())
        os.chdir(self.folder)

    def command(self, *words, **settings):
        """A command in a process of its own."""
        path = os.pathsep.join([*settings.pop("path", []), str(PACKAGE_FOLDER)])
        return subprocess.run(
            [sys.executable, "-m", "peng_robinson_board", *map(str, words)],
            env=dict(os.environ, PYTHONPATH=path), text=True, stderr=subprocess.PIPE, **settings,
        )


class Json(InFolder):
    def test_numbers_are_those_collected(self):
        for words, numbers in (
            (ISOTHERMS, curves.isotherms(PROPANE, TEMPERATURES)),
            (DOME, curves.dome(PROPANE)),
        ):
            with self.subTest(words):
                status, said, told = run([*words, "--json"])
                self.assertEqual((status, told), (0, ""))
                self.assertEqual(json.loads(said), numbers)
        self.assertEqual(list(self.folder.iterdir()), [])

    def test_convergence(self):
        status, said, _ = run([*CONVERGENCE, "--json"])
        self.assertEqual(status, 0)
        numbers = json.loads(said)
        self.assertEqual(numbers["conditions"], {"temperature": 300.0, "pressure": 5e5, "phase": "liquid"})
        self.assertEqual([part["fraction"] for part in numbers["components"]], [0.6, 0.4])
        self.assertEqual(numbers["span"], 3101)

    def test_to_a_file(self):
        self.assertEqual(run([*DOME, "--json", "-o", "dome.txt"]), (0, "", ""))
        self.assertEqual(json.loads(Path("dome.txt").read_text())["plot"], "dome")

    def test_works_without_matplotlib(self):
        done = self.command(*DOME, "--json", stdout=subprocess.PIPE, path=[self.without_matplotlib()])
        self.assertEqual((done.returncode, done.stderr), (0, ""))
        self.assertEqual(json.loads(done.stdout)["plot"], "dome")

    def test_picture_without_matplotlib(self):
        done = self.command(*DOME, "-o", "dome.png", stdout=subprocess.PIPE, path=[self.without_matplotlib()])
        self.assertEqual((done.returncode, done.stdout), (1, ""))
        self.assertEqual(len(done.stderr.splitlines()), 1)
        self.assertIn("python3-matplotlib", done.stderr)
        self.assertFalse(Path("dome.png").exists())

    def without_matplotlib(self):
        """A folder with a module of that name that cannot be imported."""
        Path("hidden").mkdir()
        Path("hidden", "matplotlib.py").write_text("raise ImportError('hidden')\n")
        return str(self.folder / "hidden")

    def test_closed_standard_output(self):
        done = self.command(*DOME, "--json", preexec_fn=lambda: os.close(1))
        self.assertEqual(done.returncode, 1)
        self.assertEqual(len(done.stderr.splitlines()), 1)

    def test_full_standard_output(self):
        with open("/dev/full", "w") as full:
            done = self.command(*DOME, "--json", stdout=full)
        self.assertEqual(done.returncode, 1)
        self.assertEqual(len(done.stderr.splitlines()), 1)

    def test_reader_that_goes_away(self):
        read, write = os.pipe()
        os.close(read)
        with open(write, "w") as pipe:
            done = self.command(*ISOTHERMS, "--json", stdout=pipe)
        self.assertNotIn("Traceback", done.stderr)


class BadInput(InFolder):
    def test_bad_usage(self):
        for words, told in (
            (["plot"], "PLOT"),
            (["plot", "nothing"], "nothing"),
            (["plot", "dome"], "COMPONENT"),
            (["plot", "dome", "propan"], "propane"),
            (["plot", "dome", "x:1:2"], "name:Tc:pc:omega"),
            (["plot", "dome", "propane", "butane"], "fraction"),
            ([*DOME, "-o", "dome.jpg"], ".png, .svg, .pdf"),
            ([*DOME, "-o", "dome"], ".png, .svg, .pdf"),
            ([*DOME, "--lowest-temperature", "400"], "400 K"),
            ([*DOME, "--lowest-temperature", "cold"], "cold"),
            (["plot", "isotherms", "propane"], "--temperatures"),
            (["plot", "isotherms", "propane", "--temperatures", "warm"], "warm"),
            ([*ISOTHERMS, "--highest-pressure", "-1e9"], "nothing to draw"),
            (CONVERGENCE[:-2], "--phase"),
            ([*CONVERGENCE[:-1], "solid"], "solid"),
            (["plot", "critical-line", "propane=0.5", "butane"], "fraction"),
            ([*CRITICAL_LINE, "--lowest-temperature", "400", "--highest-temperature", "390"], "not below"),
            ([*CRITICAL_LINE, "--lowest-temperature", "500", "--highest-temperature", "600"], "nothing to draw"),
            (["plot", "critical-line", "a:369.83:4.248e6:0.1523", "b:369.83:4.248e6:0.1523"], "not below"),
            ([*CRITICAL_LINE, "-o", "line.jpg"], ".png, .svg, .pdf"),
        ):
            with self.subTest(words):
                status, said, message = run(words)
                self.assertEqual((status, said), (1, ""))
                self.assertIn(told, message)
                self.assertNotIn("Traceback", message)
        self.assertEqual(list(self.folder.iterdir()), [])

    def test_refusals(self):
        nine = [f"x{number}:300:4e6:0.1={1 if number == 0 else 0}" for number in range(9)]
        for words, number in (
            (["plot", "dome", *nine], 3),
            (["plot", "dome", "x:-300:4e6:0.1"], 12),
            (["plot", "dome", "x:300:nan:0.1"], 12),
            (["plot", "dome", "propane=0.5", "butane=0.5", "--kij", "propane,butane=nan"], 13),
            (["plot", "dome", "propane=-0.5", "butane=1.5"], 14),
            ([*DOME, "--lowest-temperature", "-1"], 15),
            ([*DOME, "--lowest-temperature", "nan"], 15),
            (["plot", "isotherms", "propane", "--temperatures", "300", "inf"], 15),
            (["plot", "isotherms", "propane", "--temperatures", "0"], 15),
            ([*ISOTHERMS, "--highest-pressure", "inf"], 15),
            (["plot", "isotherms", "propane", "--temperatures", "300", "--highest-pressure", "nan"], 15),
            (["plot", "dome", "propane=60", "butane=40"], 17),
            (["plot", "dome", "propane=0.9"], 17),
            ([*CONVERGENCE[:-3], "-5", "--phase", "vapor"], 21),
            ([*CONVERGENCE[:-2], "--start", "-5"], 21),
            (["plot", "critical-line", "propane"], 3),
            (["plot", "critical-line", "propane", "butane", "ethane"], 3),
            (["plot", "critical-line", "x:-300:4e6:0.1", "butane"], 12),
            ([*CRITICAL_LINE, "--kij", "propane,butane=nan"], 13),
            (["plot", "critical-line", "propane=60", "butane=40"], 17),
            ([*CRITICAL_LINE, "--lowest-temperature", "0"], 15),
            ([*CRITICAL_LINE, "--highest-temperature", "nan"], 15),
        ):
            with self.subTest(words):
                status, said, told = run(words)
                self.assertEqual((status, said), (2, ""))
                first, second = told.splitlines()
                self.assertIn(f"refused by {number} ", first)
                self.assertIn("what to do", second)
        self.assertEqual(list(self.folder.iterdir()), [])

    def test_file_that_cannot_be_written(self):
        for file in ("missing/dome.json", ".", "/dev/full"):
            with self.subTest(file):
                status, said, told = run([*DOME, "--json", "-o", file])
                self.assertEqual((status, said), (1, ""))
                self.assertEqual(len(told.splitlines()), 1)
                self.assertIn("cannot be written", told)


@unittest.skipIf(matplotlib is None, "no matplotlib here (Debian: python3-matplotlib, for /usr/bin/python3)")
class Pictures(InFolder):
    def test_png(self):
        for words, file in (
            (ISOTHERMS, "isotherms.png"),
            (DOME, "dome.png"),
            (CONVERGENCE, "convergence.png"),
            (CRITICAL_LINE, "critical-line.png"),
        ):
            for given in ([], ["-o", file.replace(".", "-named.")]):
                with self.subTest(words, given=given):
                    self.assertEqual(run([*words, *given]), (0, "", ""))
                    data = Path(given[-1] if given else file).read_bytes()
                    self.assertTrue(data.startswith(b"\x89PNG\r\n\x1a\n"))
                    self.assertGreater(len(data), 20_000)
                    # width and height stand in the first chunk
                    self.assertEqual(struct.unpack(">II", data[16:24]), (1200, 800))

    def test_svg_and_pdf(self):
        for ending, begins in (("svg", b"<?xml"), ("pdf", b"%PDF-"), ("PNG", b"\x89PNG")):
            with self.subTest(ending):
                self.assertEqual(run([*DOME, "-o", f"dome.{ending}"]), (0, "", ""))
                data = Path(f"dome.{ending}").read_bytes()
                self.assertTrue(data.startswith(begins))
                self.assertGreater(len(data), 5_000)

    def test_texts(self):
        run([*ISOTHERMS, "-o", "isotherms.svg"])
        drawn = Path("isotherms.svg").read_text()
        # matplotlib keeps the text of each label beside its outlines
        for text in ("280 K", "380 K", "density / (kmol/m³)", "pressure / bar", "critical point", "left out"):
            with self.subTest(text):
                self.assertIn(text, drawn)

    def test_critical_point_of_a_blend(self):
        words = ["propane=0.6", "butane=0.4", "--temperatures", "300", "450"]
        status, said, told = run(["plot", "isotherms", *words, "-o", "blend.svg"])
        self.assertEqual((status, told), (0, ""))
        self.assertIn("no call gives its pressure", said)
        self.assertIn("no call gives its pressure", Path("blend.svg").read_text())
        self.assertEqual(run(["plot", "dome", *words[:2], "-o", "dome.svg"]), (0, "", ""))
        self.assertIn("critical point of the blend", Path("dome.svg").read_text())

    def test_critical_line(self):
        self.assertEqual(run([*CRITICAL_LINE, "-o", "line.svg"]), (0, "", ""))
        drawn = Path("line.svg").read_text()
        for text in ("Critical line: propane, butane", "mole fraction of propane", "pressure / bar", "59 points"):
            with self.subTest(text):
                self.assertIn(text, drawn)
        words = ["plot", "critical-line", "hydrogen", "methane", "-o", "line.svg"]
        self.assertIn("temperatures are left out", run(words)[1])

    def test_names_are_drawn_as_they_are(self):
        # dollar signs enclose a formula in matplotlib
        for name in ("$\\frac$", "$x$", "100 % <gas> & co", "x" * 300):
            with self.subTest(name):
                line = ["plot", "critical-line", f"{name}:369.83:4.248e6:0.1523", "butane", "-o", "x.png"]
                self.assertEqual(run(line), (0, "", ""))
                self.assertEqual(run(["plot", "dome", f"{name}:369.83:4.248e6:0.1523", "-o", "x.png"]), (0, "", ""))

    def test_same_numbers_make_the_same_file(self):
        numbers = curves.dome(PROPANE)
        for ending in plot.FORMATS:
            with self.subTest(ending):
                self.assertEqual(plot.picture(numbers, ending), plot.picture(numbers, ending))

    def test_file_that_cannot_be_written(self):
        Path("folder.png").mkdir()
        for file in ("missing/dome.png", "folder.png"):
            with self.subTest(file):
                status, said, told = run([*DOME, "-o", file])
                self.assertEqual((status, said), (1, ""))
                self.assertEqual(len(told.splitlines()), 1)
                self.assertIn("cannot be written", told)


if __name__ == "__main__":
    unittest.main()
