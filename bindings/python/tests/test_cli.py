"""The command line: what it calculates, in every form; usage, refusals and their exit statuses."""
import csv
import io
import json
import os
import struct
import tempfile
import unittest
import unittest.mock
from pathlib import Path
from typing import Any, Dict, List

from peng_robinson_board import Kind, Record, Refused, Request, answer, commands

from tests.oracle_cases import CASES
from tests.support import PROJECT, Ran, run

LPG = ["propane:369.83:4.248e6:0.1523=0.6", "butane:425.12:3.796e6:0.2002=0.4", "--kij", "propane,butane=0.003"]
PURE = "propane:369.83:4.248e6:0.1523"
PRESSURE = repr(0.05 * 13806490)
LINE_PRESSURE = repr(0.29 * 13806490)

# a command line, and the case of the oracle's that it asks for
ASKED = [
    (["density", *LPG, "--temperature", "300", "--pressure", PRESSURE, "--phase", "liquid"], 0),
    (["stable", *LPG, "--temperature", "300", "--pressure", PRESSURE], 4),
    (["spinodal", *LPG, "--temperature", "300", "--phase", "vapour"], 9),
    (["spinodal", *LPG, "--temperature", "300", "--phase", "liquid"], 10),
    (["critical", PURE], 11),
    (["spinodal", PURE, "--temperature", "300", "--stability"], 14),
    (["critical", *LPG], 17),
    (["critical-line", *LPG, "--temperature", "400"], 22),
    (["critical-line", *LPG, "--pressure", LINE_PRESSURE, "--from-temperature", "400"], 26),
    (["critical-line", *LPG, "--pressure", LINE_PRESSURE, "--from-temperature", "0"], 27),
]
NAMES = {1: ["density"], 2: ["density"], 4: ["pressure", "density"], 5: ["temperature", "density"]}
NAMES.update({3: ["pressure", "density", "curvature"], 6: ["vapor_density", "liquid_density"], 7: NAMES[5]})
NAMES[8] = ["partial_density_1", "partial_density_2"]
NAMES[9] = ["temperature", *NAMES[8]]
SI = {"density": 1e30 / 6.02214076e23, "pressure": 13806490.0, "temperature": 1.0}
SI.update({name: SI["density"] for name in ("vapor_density", "liquid_density", *NAMES[8])})


def floats(line: str) -> List[float]:
    return [struct.unpack(">d", bytes.fromhex(word))[0] for word in line.split()[2:5]]


def objects(ran: Ran) -> List[Dict[str, Any]]:
    return [json.loads(line) for line in ran.text.splitlines()]


class Calculations(unittest.TestCase):
    def test_bits_are_the_oracles(self) -> None:
        for words, place in ASKED:
            case = CASES[place]
            with self.subTest(words=words):
                (found,) = objects(run(*words, "--bits", "--json"))
                bits = case.line.split()[2 : 2 + len(NAMES[case.kind])]
                self.assertEqual(found["values"], dict(zip(NAMES[case.kind], bits)))
                self.assertEqual((found["kind"], found["status"]), (case.kind, 0))
                self.assertEqual(found["evaluations"], int(case.line.split()[-1]))

    def test_reduced_and_si(self) -> None:
        for words, place in ASKED:
            case = CASES[place]
            with self.subTest(words=words):
                (reduced,) = objects(run(*words, "--reduced", "--json"))
                (si,) = objects(run(*words, "--json"))
                for name, number in zip(NAMES[case.kind], floats(case.line)):
                    self.assertEqual(reduced["values"][name], number)
                    self.assertAlmostEqual(si["values"][name] / (number * SI[name]), 1.0, delta=1e-15)

    def test_csv_parses_back_to_the_same_numbers(self) -> None:
        for words, _ in ASKED:
            for option in ([], ["--reduced"], ["--bits"]):
                with self.subTest(words=words, option=option):
                    (told,) = objects(run(*words, "--json", *option))
                    (row,) = csv.DictReader(io.StringIO(run(*words, "--csv", *option).text))
                    for name, number in told["values"].items():
                        entry = row[f"{name} [{told['units'][name]}]"]
                        self.assertEqual(entry if "--bits" in option else float(entry), number)
                    for name in ("kind", "status", "evaluations"):
                        self.assertEqual(int(row[name]), told[name])
                    filled = [name for name, entry in row.items() if entry and "[" in name]
                    self.assertEqual(len(filled), len(told["values"]))

    def test_readable(self) -> None:
        ran = run(*ASKED[0][0])
        self.assertEqual((ran.status, ran.err), (0, ""))
        lines = ran.text.splitlines()
        # two columns, the first as wide as "at temperature"
        self.assertTrue(all(line[14:16] == "  " and line[16] != " " for line in lines), ran.text)
        density = floats(CASES[0].line)[0] * SI["density"]
        self.assertIn(f"density         {density:.10g} mol/m^3", lines)
        self.assertIn("kind 1 (density from a start), 9 evaluations", ran.text)

    def test_both_branches(self) -> None:
        words = ["spinodal", *LPG, "--temperature", "300"]
        vapor, liquid = objects(run(*words, "--json", "--bits"))
        self.assertEqual((vapor["phase"], liquid["phase"]), ("vapor", "liquid"))
        self.assertEqual(list(vapor["values"].values()), CASES[9].line.split()[2:4])
        self.assertEqual(list(liquid["values"].values()), CASES[10].line.split()[2:4])
        self.assertEqual(run(*words).text.count("kind 4"), 2)

    def test_kind_6_far_below_the_critical_temperature(self) -> None:
        # the oracle too hands out the vapour density twice at 160 K
        words = ["spinodal", PURE, "--stability", "--temperature"]
        self.assertIn("both searches came to the one spinodal", run(*words, "160").err)
        self.assertEqual(run(*words, "300").err, "")

    def test_starts(self) -> None:
        (density,) = objects(run(*ASKED[0][0][:-2], "--start", "9963.2344", "--json"))
        self.assertEqual(density["evaluations"], 5)
        words = ["spinodal", *LPG, "--temperature", "300", "--start", "1660.539"]
        (spinodal,) = objects(run(*words, "--json", "--reduced"))
        self.assertEqual((spinodal["kind"], list(spinodal["values"])), (3, NAMES[3]))
        for name, number in zip(NAMES[3], floats(CASES[7].line)):
            self.assertAlmostEqual(spinodal["values"][name] / number, 1.0, delta=1e-8)
        # 0.002 in mol/m^3
        starts = ["--temperature", "350", "--start", "3321.0781"]
        for words, kind, place in (([PURE], 5, 12), (LPG, 7, 18)):
            (critical,) = objects(run("critical", *words, *starts, "--json"))
            self.assertEqual((critical["kind"], critical["evaluations"]), (kind, int(CASES[place].line.split()[-1])))
            self.assertAlmostEqual(critical["values"]["temperature"], floats(CASES[place].line)[0], delta=1e-6)
            readable = run("critical", *words, *starts).text.splitlines()
            self.assertIn("from temperature  350 K", readable)
            self.assertIn("from density      3321.0781 mol/m^3", readable)
            # 0 is none given
            none = run("critical", *words, "--temperature", "0", "--start", "0")
            self.assertEqual(none, run("critical", *words))

    def test_names_and_aliases(self) -> None:
        at = ["--temperature", "300", "--pressure", "5e5"]
        first = run("stable", "propane=0.6", "butane=0.4", "--kij", "butane,propane=0.003", *at)
        other = run("stable", "R290=0.6", "n-Butane=0.4", "--kij", "PROPANE,R600=0.003", *at)
        self.assertEqual((first.status, first.text), (0, other.text))

    def test_names_with_commas(self) -> None:
        blend = ["1,3-butadiene:425:4.32e6:0.195=0.5", "1,2-butadiene:452:4.36e6:0.166=0.5"]
        words = ["spinodal", *blend, "--temperature", "300", "--json"]
        plain = run(*words)
        self.assertEqual(plain.status, 0)
        self.assertEqual(run(*words, "--kij", "1,3-butadiene,1,2-butadiene=0").text, plain.text)
        self.assertNotEqual(run(*words, "--kij", "1,3-butadiene,1,2-butadiene=0.1").text, plain.text)

    def test_pairs_of_names_that_can_be_read_twice(self) -> None:
        figures = ":400:4e6:0.2=0.25"
        ran = run("spinodal", *(name + figures for name in ("a", "b,c", "a,b", "c")), "--temperature", "300", "--kij", "a,b,c=0.1")
        self.assertEqual(ran.status, 1)
        self.assertIn("more than one pair", ran.err)

    def test_components(self) -> None:
        readable, lines = run("components"), objects(run("components", "--json"))
        rows = list(csv.DictReader(io.StringIO(run("components", "--csv").text)))
        self.assertEqual(readable.status, 0)
        self.assertEqual([row["name"] for row in rows], [line["name"] for line in lines])
        for row, line in zip(rows, lines):
            self.assertEqual(float(row["critical pressure [Pa]"]), line["critical_pressure"])
            self.assertIn(line["name"], readable.text)


class CriticalPoints(unittest.TestCase):
    """`critical`, and `write critical`, by one component or by two with fractions."""

    BLEND = ["propane=0.6", "butane=0.4"]

    def temperature(self, *words: str) -> float:
        (found,) = objects(run("critical", *words, "--json"))
        return float(found["values"]["temperature"])

    def test_of_a_component_and_of_a_blend(self) -> None:
        self.assertIn("component    propane\n", run("critical", "propane").text)
        self.assertIn("kind 5 (critical point)", run("critical", "propane").text)
        ran = run("critical", *self.BLEND)
        self.assertEqual((ran.status, ran.err), (0, ""))
        self.assertIn("blend        propane 0.6, butane 0.4\n", ran.text)
        self.assertIn("kind 7 (critical point of a blend)", ran.text)

    def test_between_the_components(self) -> None:
        propane, butane = self.temperature("propane"), self.temperature("butane")
        self.assertLess(propane, self.temperature(*self.BLEND))
        self.assertLess(self.temperature(*self.BLEND), butane)
        # less attraction between unlike molecules, a lower critical temperature
        self.assertLess(self.temperature(*self.BLEND, "--kij", "R290,butane=0.01"), self.temperature(*self.BLEND))

    def test_refused(self) -> None:
        nine = [f"c{place}:300:4e6:0.1={1 / 9}" for place in range(9)]
        for number, told, words in (
            (3, "a blend of two", ["propane=0.5", "butane=0.3", "ethane=0.2"]),
            (3, "a blend of two", ["propane=0.25", "butane=0.25", "ethane=0.25", "methane=0.25"]),
            (3, "a blend of two", nine),
            (12, "critical temperature in K", ["x:-1:4e6:0.1=0.5", "butane=0.5"]),
            (13, "finite", [*self.BLEND, "--kij", "propane,butane=nan"]),
            (14, "minus sign", ["propane=1.4", "butane=-0.4"]),
            (14, "minus sign", ["propane=1", "butane=-0"]),
            (14, "not finite", ["propane=nan", "butane=0.4"]),
            (14, "not finite", ["propane=0.6", "butane=inf"]),
            (17, "divided by 100", ["propane=60", "butane=40"]),
            (17, "add up to 1", ["propane=0.6", "butane=0.3"]),
            (17, "add up to 1", ["propane=0", "butane=0"]),
            (15, "above 0 K", [*self.BLEND, "--temperature", "nan"]),
            (15, "above 0 K", [*self.BLEND, "--temperature", "-300"]),
            (15, "above 0 K", [*self.BLEND, "--temperature", "-0.0"]),
            (15, "finite", [*self.BLEND, "--start", "-inf"]),
        ):
            for command in (["critical"], ["write", "critical"]):
                with self.subTest(command=command, words=words):
                    ran = run(*command, *words)
                    self.assertEqual((ran.status, ran.out), (2, b""))
                    self.assertEqual(len(ran.err.splitlines()), 2)
                    self.assertIn(f"refused by {number} ", ran.err)
                    self.assertIn(told, ran.err)

    def test_a_fraction_of_zero(self) -> None:
        for number, words in ((22, []), (27, ["--temperature", "350"])):
            with self.subTest(words=words):
                ran = run("critical", "propane=1", "butane=0", *words)
                self.assertEqual((ran.status, ran.out), (2, b""))
                self.assertIn(f"refused by {number} ", ran.err)
                self.assertIn("both fractions above 0", ran.err)

    def test_bad_usage(self) -> None:
        for told, words in (
            ("'propane=1' has a fraction: critical takes one component without, or two with", ["propane=1"]),
            ("'propane=0.9' has a fraction", ["propane=0.9"]),
            ("'propane' has no fraction: critical takes one component without, or two with", ["propane", "butane"]),
            ("'butane' has no fraction", ["propane=0.6", "butane"]),
            ("two with their mole fractions", ["propane", "butane", "ethane"]),
            ("propane is named twice", ["propane=0.5", "propane=0.5"]),
            ("propane is named twice", ["propane=0.5", "R290=0.5"]),
            ("close to it: propane", ["propan=0.5", "butane=0.5"]),
            ("no component 'unobtainium'", ["propane=0.5", "unobtainium=0.5"]),
            ("'half' is no number", ["propane=half", "butane=0.5"]),
            ("'' is no number", ["propane=", "butane=1"]),
            ("'60%' is no number", ["propane=60%", "butane=40%"]),
            ("'0,6' is no number", ["propane=0,6", "butane=0,4"]),
            ("'warm' is no number", [*self.BLEND, "--temperature", "warm"]),
            ("does not name two components", [*self.BLEND, "--kij", "propane,ethane=0.01"]),
            ("does not name two components", ["propane", "--kij", "propane,butane=0.003"]),
            ("--pressure", [*self.BLEND, "--pressure", "1e5"]),
            ("COMPONENT", []),
        ):
            for command in (["critical"], ["write", "critical"]):
                with self.subTest(command=command, words=words):
                    ran = run(*command, *words)
                    self.assertEqual((ran.status, ran.out), (1, b""))
                    self.assertIn(told, ran.err)
                    self.assertNotIn("Traceback", ran.err)


class CriticalLines(unittest.TestCase):
    """`critical-line`, and `write critical-line`."""

    PAIR = ["propane", "butane"]

    def test_a_point_at_a_temperature(self) -> None:
        words = ["critical-line", *self.PAIR, "--temperature", "400"]
        ran = run(*words)
        self.assertEqual((ran.status, ran.err), (0, ""))
        (found,) = objects(run(*words, "--json"))
        values = found["values"]
        self.assertEqual((found["component_1"], found["component_2"]), ("propane", "butane"))
        self.assertEqual((found["at_temperature"], found["at_pressure"]), (400.0, None))
        self.assertAlmostEqual(values["density"], values["partial_density_1"] + values["partial_density_2"], delta=1e-9)
        self.assertAlmostEqual(values["fraction_1"], values["partial_density_1"] / values["density"], delta=1e-12)
        self.assertAlmostEqual(values["fraction_1"] + values["fraction_2"], 1.0, delta=1e-12)
        lines = dict(line.split("  ", 1) for line in ran.text.splitlines())
        lines = {name: said.strip() for name, said in lines.items()}
        self.assertEqual(lines["components"], "propane, butane")
        self.assertEqual(lines["at temperature"], "400 K")
        self.assertEqual(lines["search from"], "propane 0.5, butane 0.5")
        self.assertEqual(lines["fraction of propane"], f"{values['fraction_1']:.10g}")
        self.assertEqual(lines["density"], f"{values['density']:.10g} mol/m^3")
        self.assertEqual(lines["pressure"], f"{values['pressure']:.10g} Pa")
        self.assertIn("kind 8 (critical point at a temperature)", lines["answered by"])

    def test_its_pressure(self) -> None:
        """At it kind 1 comes to the density, and kind 9 to the point."""
        for temperature in ("371", "400", "424"):
            (found,) = objects(run("critical-line", *self.PAIR, "--temperature", temperature, "--json"))
            values = found["values"]
            blend = [f"propane={values['fraction_1']!r}", f"butane={values['fraction_2']!r}"]
            at, start = ["--pressure", repr(values["pressure"])], ["--start", repr(values["density"])]
            (there,) = objects(run("density", *blend, "--temperature", temperature, *at, *start, "--json"))
            self.assertAlmostEqual(there["values"]["density"] / values["density"], 1.0, delta=1e-6)
            (there,) = objects(run("critical-line", *blend, *at, *start, "--from-temperature", temperature, "--json"))
            self.assertAlmostEqual(there["values"]["temperature"], float(temperature), delta=1e-6)

    def test_a_point_without_a_pressure(self) -> None:
        words = ["critical-line", *self.PAIR, "--kij", "propane,butane=0.3", "--start", "8000", "--temperature"]
        ran = run(*words, "300")
        (found,) = objects(run(*words, "300", "--json"))
        self.assertEqual((ran.status, found["status"]), (0, 0))
        self.assertNotIn("pressure", found["values"])
        self.assertIn("none found above 0", ran.text)
        self.assertNotIn("kinds 1 and 9", ran.text)
        self.assertNotIn("pressure", run(*words, "300", "--bits").text)
        # of a table the first has none
        rows = run(*words, "300:400:100").text.splitlines()[-2:]
        self.assertEqual([len(row.split()) for row in rows], [6, 6])
        self.assertEqual(rows[0].split()[1], "-")

    def test_a_point_at_a_pressure(self) -> None:
        words = ["critical-line", *self.PAIR, "--pressure", "40e5"]
        ran = run(*words)
        self.assertEqual((ran.status, ran.err), (0, ""))
        # between the two critical temperatures filed
        self.assertIn("from temperature            397.5075 K\n", ran.text)
        self.assertIn("at pressure                 4000000 Pa\n", ran.text)
        self.assertIn("kind 9 (critical point at a pressure)", ran.text)
        (found,) = objects(run(*words, "--json"))
        self.assertEqual((found["at_temperature"], found["at_pressure"]), (None, 4e6))
        (at_temperature,) = objects(
            run("critical-line", *self.PAIR, "--temperature", repr(found["values"]["temperature"]), "--json")
        )
        self.assertAlmostEqual(at_temperature["values"]["pressure"] / 4e6, 1.0, delta=1e-8)
        for name in ("fraction_1", "fraction_2", "density", "partial_density_1", "partial_density_2"):
            self.assertAlmostEqual(at_temperature["values"][name] / found["values"][name], 1.0, delta=1e-8)

    def test_starts(self) -> None:
        half = run("critical-line", *self.PAIR, "--temperature", "400")
        self.assertEqual(run("critical-line", "propane=0.5", "R600=0.5", "--temperature", "400"), half)
        ran = run("critical-line", "propane=0.9", "butane=0.1", "--temperature", "400", "--start", "4000")
        self.assertIn("propane 0.9, butane 0.1\n", ran.text)
        self.assertIn("from density                4000 mol/m^3\n", ran.text)
        self.assertEqual(run("critical-line", *self.PAIR, "--temperature", "400", "--start", "0"), half)
        cold = run("critical-line", *self.PAIR, "--pressure", "42e5", "--from-temperature", "0")
        self.assertIn("from temperature            300 K\n", cold.text)
        # two points at one pressure, one on each side of the line's highest
        temperatures = []
        for blend in (["propane=0.95", "butane=0.05"], ["propane=0.4", "butane=0.6"]):
            (found,) = objects(run("critical-line", *blend, "--pressure", "43e5", "--json"))
            temperatures.append(found["values"]["temperature"])
        self.assertGreater(temperatures[1] - temperatures[0], 10.0)

    def test_order_of_the_components(self) -> None:
        for at in (["--temperature", "400"], ["--pressure", "40e5"]):
            (one,) = objects(run("critical-line", *self.PAIR, *at, "--json"))
            (other,) = objects(run("critical-line", *reversed(self.PAIR), *at, "--json"))
            self.assertAlmostEqual(one["values"]["fraction_1"], other["values"]["fraction_2"], delta=1e-9)
            self.assertAlmostEqual(one["values"]["density"] / other["values"]["density"], 1.0, delta=1e-9)

    def test_tables(self) -> None:
        for at, found, count in (
            (["--temperature", "375:420:5"], "pressure", 10),
            (["--temperature", "420:375:-5"], "pressure", 10),
            (["--pressure", "38e5:43e5:1e5"], "temperature", 6),
            (["--temperature", "380:380.3:0.1"], "pressure", 4),
            (["--temperature", "400:400:1"], "pressure", 1),
        ):
            with self.subTest(at=at):
                words = ["critical-line", *self.PAIR, *at]
                ran, points = run(*words), objects(run(*words, "--json"))
                self.assertEqual((ran.status, ran.err, len(points)), (0, "", count))
                if count == 1:
                    continue
                head, _, rows = ran.text.partition("\n\n")
                self.assertIn("components", head)
                header, *rows = rows.splitlines()
                self.assertEqual(len(rows), count)
                for row, point in zip(rows, points):
                    values = point["values"]
                    at_point = point["at_temperature"] or point["at_pressure"]
                    numbers = [at_point, *(values[name] for name in (found, "fraction_1", "fraction_2", "density"))]
                    self.assertEqual(row.split(), [*(f"{x:.10g}" for x in numbers), str(point["evaluations"])])
                    # columns are under their titles
                    self.assertEqual(row[header.index("density")], row.split()[4][0])
                table = list(csv.DictReader(io.StringIO(run(*words, "--csv").text)))
                self.assertEqual([float(row["density [mol/m^3]"]) for row in table], [p["values"]["density"] for p in points])
                self.assertEqual({row["component_2"] for row in table}, {"butane"})

    def test_tables_in_bits(self) -> None:
        ran = run("critical-line", *LPG, "--temperature", "380:400:20", "--bits")
        self.assertEqual(ran.text.splitlines()[-1].split(), ["400", *CASES[22].line.split()[2:4], "4"])

    def test_tables_with_refusals(self) -> None:
        ran = run("critical-line", *self.PAIR, "--temperature", "360:380:10")
        self.assertEqual(ran.status, 2)
        rows = ran.text.splitlines()[-3:]
        self.assertEqual(rows[0].split(), ["360", "refused", "by", "22"])
        self.assertEqual([row.split()[0] for row in rows], ["360", "370", "380"])
        told = ran.err.splitlines()
        self.assertIn("refused: 1 of the 3 points", told[0])
        self.assertIn("refused by 22 (NOT_CONVERGED)", told[1])
        self.assertIn("propane 369.89 K", told[3])
        points = objects(run("critical-line", *self.PAIR, "--temperature", "360:380:10", "--json"))
        self.assertEqual([(p["at_temperature"], p["status"]) for p in points], [(360.0, 22), (370.0, 0), (380.0, 0)])

    def test_written_requests(self) -> None:
        words = [*self.PAIR, "--temperature", "380:400:10"]
        ran = run("write", "critical-line", *words)
        self.assertEqual((ran.status, len(ran.out)), (0, 3 * 642))
        found = [answer(Request.from_bytes(ran.out[at : at + 642])) for at in range(0, len(ran.out), 642)]
        self.assertEqual({record.kind for record in found}, {Kind.CRITICAL_POINT_AT_TEMPERATURE})
        bits = [list(point["values"].values()) for point in objects(run("critical-line", *words, "--json", "--bits"))]
        self.assertEqual([list(record.bits[:2]) for record in found], bits)
        ran = run("write", "critical-line", *self.PAIR, "--pressure", "40e5")
        self.assertEqual(answer(Request.from_bytes(ran.out)).kind, Kind.CRITICAL_POINT_AT_PRESSURE)

    def test_refused(self) -> None:
        for number, told, words in (
            (3, "two (kinds 8 and 9)", ["propane", "--temperature", "400"]),
            (3, "two (kinds 8 and 9)", ["propane=1", "--pressure", "40e5"]),
            (3, "two (kinds 8 and 9)", ["propane", "butane", "ethane", "--temperature", "400"]),
            (12, "critical temperature in K", ["x:-1:4e6:0.1", "butane", "--pressure", "40e5"]),
            (12, "critical temperature in K", ["x:nan:4e6:0.1", "butane", "--temperature", "400"]),
            (13, "finite", [*self.PAIR, "--kij", "propane,butane=nan", "--temperature", "400"]),
            (14, "minus sign", ["propane=1.4", "butane=-0.4", "--pressure", "40e5"]),
            (17, "divided by 100", ["propane=60", "butane=40", "--temperature", "400"]),
            (15, "above 0 K", [*self.PAIR, "--temperature", "0"]),
            (15, "above 0 K", [*self.PAIR, "--temperature", "-400"]),
            (15, "above 0 K", [*self.PAIR, "--temperature", "nan"]),
            (15, "finite", [*self.PAIR, "--pressure", "inf"]),
            (15, "finite", [*self.PAIR, "--pressure", "40e5", "--start", "nan"]),
            (15, "above 0 K", [*self.PAIR, "--pressure", "40e5", "--from-temperature", "-1"]),
        ):
            for command in (["critical-line"], ["write", "critical-line"]):
                with self.subTest(command=command, words=words):
                    ran = run(*command, *words)
                    self.assertEqual((ran.status, ran.out), (2, b""))
                    self.assertEqual(len(ran.err.splitlines()), 2)
                    self.assertIn(f"refused by {number} ", ran.err)
                    self.assertIn(told, ran.err)

    def test_refused_by_the_equation(self) -> None:
        for number, told, words in (
            (22, "some temperatures and pressures only", [*self.PAIR, "--temperature", "500"]),
            (22, "butane 425.125 K, 3796000 Pa", [*self.PAIR, "--pressure", "60e5"]),
            (23, "same coefficients", ["a:369.83:4.248e6:0.1523", "b:369.83:4.248e6:0.1523", "--temperature", "5000"]),
            (27, "both fractions above 0", ["propane=1", "butane=0", "--temperature", "400"]),
            (27, "both fractions above 0", ["propane=0", "butane=1", "--pressure", "40e5"]),
            (27, "start above 0", [*self.PAIR, "--temperature", "400", "--start", "-1"]),
        ):
            with self.subTest(words=words):
                ran = run("critical-line", *words)
                self.assertEqual((ran.status, ran.out), (2, b""))
                self.assertIn(f"refused by {number} ", ran.err)
                self.assertIn(told, ran.err)
                (found,) = objects(run("critical-line", *words, "--json"))
                self.assertEqual((found["status"], found["values"]), (number, {}))
        # JSON has no NaN and no infinities
        for at in (["--temperature", "nan"], ["--pressure", "-inf"]):
            ran = run("critical-line", *self.PAIR, *at, "--json")
            (found,) = objects(ran)
            self.assertEqual((ran.status, found["status"]), (2, 15))
            self.assertEqual((found["at_temperature"], found["at_pressure"]), (None, None))

    def test_bad_usage(self) -> None:
        at = ["--temperature", "400"]
        for told, words in (
            ("one of the arguments --temperature --pressure is required", self.PAIR),
            ("not allowed with", [*self.PAIR, *at, "--pressure", "40e5"]),
            ("goes with --pressure", [*self.PAIR, *at, "--from-temperature", "300"]),
            ("'butane' has no fraction", ["propane=0.5", "butane", *at]),
            ("'propane' has no fraction", ["propane", "butane=0.5", *at]),
            ("propane is named twice", ["propane", "R290", *at]),
            ("close to it: propane", ["propan", "butane", *at]),
            ("does not name two components", [*self.PAIR, "--kij", "propane,ethane=0.01", *at]),
            ("'warm' is no number", [*self.PAIR, "--temperature", "warm"]),
            ("'40bar' is no number", [*self.PAIR, "--pressure", "40bar"]),
            ("neither a number nor FIRST:LAST:STEP", [*self.PAIR, "--temperature", "370:420"]),
            ("neither a number nor FIRST:LAST:STEP", [*self.PAIR, "--temperature", "370:420:5:1"]),
            ("'' is no number", [*self.PAIR, "--temperature", "370::5"]),
            ("its step leads to its last", [*self.PAIR, "--temperature", "370:420:0"]),
            ("its step leads to its last", [*self.PAIR, "--temperature", "370:420:-5"]),
            ("its step leads to its last", [*self.PAIR, "--temperature", "370:nan:5"]),
            ("its step leads to its last", [*self.PAIR, "--pressure", "0:inf:1e5"]),
            ("its step leads to its last", [*self.PAIR, "--pressure", "-1e308:1e308:1e-300"]),
            ("more than 10000 numbers", [*self.PAIR, "--pressure", "0:1e9:1"]),
            ("COMPONENT", at),
        ):
            for command in (["critical-line"], ["write", "critical-line"]):
                with self.subTest(command=command, words=words):
                    ran = run(*command, *words)
                    self.assertEqual((ran.status, ran.out), (1, b""))
                    self.assertIn(told, ran.err)
                    self.assertNotIn("Traceback", ran.err)


class Refusals(unittest.TestCase):
    def refused(self, number: int, *words: str) -> Ran:
        ran = run(*words)
        with self.subTest(words=words):
            self.assertEqual((ran.status, ran.out), (2, b""), ran)
            self.assertEqual(len(ran.err.splitlines()), 2)
            self.assertIn(f"refused by {number} ", ran.err)
            self.assertIn("what to do: ", ran.err)
        return ran

    def test_by_the_writer(self) -> None:
        at = ["--temperature", "300", "--pressure", "1e5", "--phase", "liquid"]
        self.refused(3, "density", *(f"c{i}:300:4e6:0.1={1 / 9}" for i in range(9)), *at)
        self.refused(12, "density", "x:-1:4e6:0.1", *at)
        self.refused(13, "density", "propane=0.5", "butane=0.5", "--kij", "propane,butane=nan", *at)
        self.refused(14, "density", "propane=1.5", "butane=-0.5", *at)
        self.refused(17, "density", "propane=60", "butane=40", *at)
        for text in ("nan", "NaN", "inf", "-inf", "1e999", "-1e-3", "-.5", "0", "9" * 5000):
            self.refused(15, "density", "propane", "--temperature", text, *at[2:])
            self.refused(15, "spinodal", "propane", "--temperature", text)
        self.refused(15, "stable", "propane", "--temperature", "300", "--pressure", "-inf")
        self.refused(15, "critical", "propane", "--start", "nan")

    def test_by_the_equation(self) -> None:
        self.refused(21, "spinodal", "propane", "--temperature", "300", "--start", "-1e-3")
        self.refused(22, "spinodal", PURE, "--temperature", "600", "--phase", "vapor")
        self.refused(26, "spinodal", PURE, "--temperature", "600", "--stability")
        self.refused(27, "density", PURE, "--temperature", "300", "--pressure", "1e307", "--phase", "vapor")

    def test_for_machines(self) -> None:
        words = ["spinodal", PURE, "--temperature", "600", "--stability"]
        ran = run(*words, "--json")
        (found,) = objects(ran)
        self.assertEqual((ran.status, found["status"], found["refusal"], found["values"]), (2, 26, "SUPERCRITICAL", {}))
        self.assertEqual(found["evaluations"], 55)
        (row,) = csv.DictReader(io.StringIO(run(*words, "--csv").text))
        self.assertEqual((row["status"], row["refusal"], row["vapor_density [mol/m^3]"]), ("26", "SUPERCRITICAL", ""))
        (found,) = objects(run("density", "propane=2", *ASKED[0][0][-6:], "--json"))
        self.assertEqual((found["status"], found["evaluations"]), (17, 0))


    def test_one_branch_of_two(self) -> None:
        def only_vapor(request: Request) -> Record:
            if request == liquid:
                raise Refused(22)
            return answer(request)

        liquid = Request.from_bytes(CASES[10].request())
        with unittest.mock.patch.object(commands, "answer", only_vapor):
            ran = run("spinodal", *LPG, "--temperature", "300")
        self.assertEqual((ran.status, ran.text.count("kind 4"), len(ran.err.splitlines())), (2, 1, 2))
        self.assertIn("liquid: refused by 22 ", ran.err)


class BadUsage(unittest.TestCase):
    def test_exit_status_1_and_no_traceback(self) -> None:
        at = ["--temperature", "300", "--pressure", "1e5", "--phase", "liquid"]
        for words in (
            [],
            ["nonsense"],
            ["density"],
            ["density", "propane"],
            ["density", "propane", "--temperature", "300"],
            ["density", "propane", *at, "--start", "1"],
            ["density", "propane", *at, "--json", "--csv"],
            ["density", "propane", *at, "--bits", "--reduced"],
            ["density", "propane", *at, "--nonsense"],
            ["density", "propane", *at[:-1], "solid"],
            ["density", "propane", "butane", *at],
            ["density", "propane=0.5", "R290=0.5", *at],
            ["density", "propane=0.5", "Propane:300:4e6:0=0.5", *at],
            ["density", "propene-ish=1", *at],
            ["density", "propane=", *at],
            ["density", "=1", *at],
            ["density", "", *at],
            ["density", "propane=0x", *at],
            ["density", "propane:1:2", *at],
            ["density", "propane:1:2:x", *at],
            ["density", "propane=0.5", "butane=0.5", "--kij", "propane,butane", *at],
            ["density", "propane=0.5", "butane=0.5", "--kij", "propane=0.1", *at],
            ["density", "propane=0.5", "butane=0.5", "--kij", "propane,propane=0.1", *at],
            ["density", "propane=0.5", "butane=0.5", "--kij", "propane,ethane=0.1", *at],
            ["density", "propane=0.5", "butane=0.5", "--kij", "propane,nonsense=0.1", *at],
            ["density", "propane=0.5", "butane=0.5", "--kij", "propane,butane=0x", *at],
            ["density", "propane=0.5", "butane=0.5", "--kij", "propane,butane=0.1", "--kij", "butane,propane=0.1", *at],
            ["density", "propane=0.5", "butane=0.5", "--kij", "propane,butane=0.1", "--kij", "propane,butane=0.1", *at],
            ["stable", "propane", "--temperature", "0x", "--pressure", "1e5"],
            ["stable", "propane", "--temperature", "", "--pressure", "1e5"],
            ["spinodal", "propane=0.5", "butane=0.5", "--temperature", "300", "--stability"],
            ["spinodal", "propane", "--temperature", "300", "--stability", "--phase", "liquid"],
            ["write"],
            ["write", "nonsense"],
            ["record"],
            ["answer"],
            ["record", "/nowhere/file"],
            ["answer", "/nowhere/file"],
            ["answer", "/"],
            ["replay", "/nowhere/file"],
            ["write", "critical", "propane", "-o", "/nowhere/file"],
        ):
            with self.subTest(words=words):
                ran = run(*words)
                self.assertEqual((ran.status, ran.out), (1, b""))
                self.assertTrue(ran.err)
                self.assertNotIn("Traceback", ran.err)

    def test_close_names_are_suggested(self) -> None:
        self.assertIn("propane", run("critical", "propan").err)

    def test_text_that_is_no_text(self) -> None:
        # as a terminal hands on bytes that are not UTF-8
        ran = run("critical", os.fsdecode(b"prop\xff\xfe"))
        self.assertEqual(ran.status, 1)
        self.assertEqual(run("record", os.fsdecode(b"/nowhere/\xff")).status, 1)
        ran = run("critical", os.fsdecode(b"\xff:300:4e6:0.1"))
        self.assertEqual((ran.status, "\\udcff" in ran.text), (0, True))


class Files(unittest.TestCase):
    def setUp(self) -> None:
        folder = tempfile.TemporaryDirectory()
        self.addCleanup(folder.cleanup)
        self.folder = Path(folder.name)

    def file(self, name: str, data: bytes) -> str:
        path = self.folder / name
        path.write_bytes(data)
        return str(path)

    def test_write_writes_the_block_of_document_01(self) -> None:
        for words, place in ASKED:
            case = CASES[place]
            with self.subTest(words=words):
                ran = run("write", *words)
                self.assertEqual((ran.status, ran.out, ran.err), (0, case.request(), ""))
                path = self.folder / "request"
                self.assertEqual(run("write", *words, "-o", str(path))[:2], (0, b""))
                self.assertEqual(path.read_bytes(), case.request())

    def test_write_both_branches(self) -> None:
        ran = run("write", "spinodal", *LPG, "--temperature", "300")
        self.assertEqual(ran.out, CASES[9].request() + CASES[10].request())

    def test_write_refused_writes_nothing(self) -> None:
        path = self.folder / "none"
        ran = run("write", "critical", "propane", "--temperature", "-1", "-o", str(path))
        self.assertEqual((ran.status, ran.out, path.exists()), (2, b"", False))
        self.assertIn("refused by 15 ", ran.err)

    def test_answer_prints_the_oracles_lines(self) -> None:
        stored = PROJECT / "crates" / "answers"
        ran = run("answer", str(stored / "stdin"), "--bits")
        self.assertEqual(ran.text, (stored / "stdout").read_text())
        self.assertEqual(ran.status, 2)
        self.assertIn("short", ran.err)

    def test_answer_in_other_forms(self) -> None:
        data = b"".join(case.request() for case in CASES) + b"\x0a\x01" + bytes(640)
        first, second = self.file("first", data), self.file("second", CASES[0].request() + bytes(3))
        ran = run("answer", first, second)
        self.assertEqual((ran.status, len(ran.text.splitlines())), (2, len(CASES) + 2))
        self.assertIn(f"{first}:{len(CASES) + 1}  kind 10", ran.text)
        self.assertIn("refused by 2: ", ran.text)
        self.assertIn("short: 3 bytes after 1 requests, a request has 642", ran.err)
        found = objects(run("answer", first, second, "--json", "--bits"))
        rows = list(csv.DictReader(io.StringIO(run("answer", first, second, "--csv", "--bits").text)))
        self.assertEqual(len(rows), len(found))
        for case, told, row in zip(CASES, found, rows):
            self.assertEqual((told["kind"], told["status"]), (case.kind, case.status))
            self.assertEqual((int(row["kind"]), int(row["status"])), (case.kind, case.status))
            self.assertEqual(told["evaluations"], int(case.line.split()[-1]))
            bits = case.line.split()[2 : 2 + len(NAMES[case.kind])] if case.status == 0 else []
            self.assertEqual(list(told["values"].values()), bits)
        self.assertEqual((found[-1]["file"], found[-1]["request"]), (second, 1))

    def test_answer_statuses(self) -> None:
        good, bad = CASES[0].request(), CASES[-1].request()
        for expected, names in (
            (0, [self.file("good", good)]),
            (2, [self.file("bad", bad + good)]),
            (1, [self.file("cut", good + b"x")]),
            (1, [self.file("empty", b"")]),
            (1, ["/nowhere/file", self.file("good", good)]),
            (2, ["/nowhere/file", self.file("bad", bad)]),
        ):
            with self.subTest(names=names):
                ran = run("answer", *names)
                self.assertEqual(ran.status, expected, ran)
        self.assertEqual(len(run("answer", "/nowhere/file", self.file("good", good)).text.splitlines()), 1)

    def test_answer_tells_what_to_do_once_for_each_refusal(self) -> None:
        refused = [case for case in CASES if case.status != 0]
        ran = run("answer", self.file("refused", b"".join(case.request() for case in refused * 2)))
        told = [line for line in ran.err.splitlines() if "what to do" in line]
        self.assertEqual([int(line.split()[2]) for line in told], sorted({case.status for case in refused}))

    def record(self, kind: int, status: int, values: "tuple[float, float, float]", evaluations: int) -> bytes:
        return struct.pack("<QBB6xQdddQ8x", 5, kind, 2, status, *values, evaluations)

    def test_record(self) -> None:
        answered = self.record(3, 0, (0.5, 0.001, -2.0), 7)
        ran = run("record", self.file("record", answered))
        self.assertEqual((ran.status, ran.err), (0, ""))
        lines = {line[:13].strip(): line[13:].split() for line in ran.text.splitlines()}
        self.assertEqual(lines["ticket"], ["5"])
        self.assertEqual(lines["kind"][0], "3,")
        self.assertEqual(lines["queue"], ["2"])
        self.assertEqual(lines["status"], ["0,", "answered"])
        self.assertEqual(lines["pressure"], ["6903245", "Pa"])
        self.assertEqual(lines["density"], ["1660.539067", "mol/m^3"])
        self.assertEqual(lines["curvature"][1], "Pa/(mol/m^3)^2")
        self.assertEqual(lines["evaluations"], ["7"])
        (found,) = objects(run("record", self.file("record", answered), "--json", "--reduced"))
        self.assertEqual(found["values"], {"pressure": 0.5, "density": 0.001, "curvature": -2.0})
        self.assertEqual((found["ticket"], found["queue"], found["status"], found["evaluations"]), (5, 2, 0, 7))

    def test_record_of_a_blends_critical_point(self) -> None:
        name = self.file("record", self.record(7, 0, (395.65, 0.0025, 0.0), 5))
        ran = run("record", name)
        self.assertEqual((ran.status, ran.err), (0, ""))
        lines = {line[:13].strip(): line[13:] for line in ran.text.splitlines()}
        self.assertEqual(lines["kind"], "7, critical point of a blend")
        self.assertEqual(lines["temperature"].split(), ["395.65", "K"])
        self.assertEqual(lines["density"].split(), ["4151.347668", "mol/m^3"])
        (found,) = objects(run("record", name, "--json", "--reduced"))
        self.assertEqual(found["values"], {"temperature": 395.65, "density": 0.0025})
        (row,) = csv.DictReader(io.StringIO(run("record", name, "--csv", "--reduced").text))
        self.assertEqual((row["temperature [K]"], row["density [1/angstrom^3]"]), ("395.65", "0.0025"))

    def test_records_of_critical_lines(self) -> None:
        for kind, title, values, shown in (
            (8, "critical point at a temperature", (0.002, 0.001, 0.0), {}),
            (9, "critical point at a pressure", (400.0, 0.002, 0.001), {"temperature": ["400", "K"]}),
        ):
            name = self.file("record", self.record(kind, 0, values, 5))
            ran = run("record", name)
            self.assertEqual((ran.status, ran.err), (0, ""))
            lines = {line[:17].strip(): line[17:].split() for line in ran.text.splitlines()}
            self.assertEqual(" ".join(lines["kind"]), f"{kind}, {title}")
            shown.update({"partial density 1": ["3321.078134", "mol/m^3"], "partial density 2": ["1660.539067", "mol/m^3"]})
            self.assertEqual({name: lines[name] for name in shown}, shown)
            (found,) = objects(run("record", name, "--json", "--reduced"))
            self.assertEqual(list(found["values"].items()), list(zip(NAMES[kind], values)))
            (row,) = csv.DictReader(io.StringIO(run("record", name, "--csv", "--reduced").text))
            self.assertEqual(row["partial_density_2 [1/angstrom^3]"], "0.001")

    def test_records_one_after_another(self) -> None:
        data = self.record(3, 0, (0.5, 0.001, -2.0), 7) + self.record(2, 17, (0.0, 0.0, 0.0), 0) + b"xyz"
        name = self.file("records", data)
        ran = run("record", name)
        self.assertEqual(ran.status, 2)
        self.assertIn("17, refused: the fractions do not add up to 1", ran.text)
        self.assertIn("percentages", ran.text)
        self.assertIn("short: 3 bytes after 2 records, a record has 64", ran.err)
        rows = list(csv.DictReader(io.StringIO(run("record", name, "--csv").text)))
        told = [(row["ticket"], row["status"], row["refusal"]) for row in rows]
        self.assertEqual(told, [("5", "0", ""), ("5", "17", "SUM_OF_FRACTIONS")])
        self.assertEqual(float(rows[0]["pressure [Pa]"]), 6903245.0)

    def test_what_is_no_record(self) -> None:
        good = self.record(3, 0, (0.5, 0.001, -2.0), 7)
        padded = good[:12] + b"x" + good[13:]
        for data in (bytes(64), good[:9] + bytes([4]) + good[10:], padded, CASES[0].request()):
            with self.subTest(data=data[:16]):
                ran = run("record", self.file("other", data))
                self.assertEqual((ran.status, ran.text), (1, ""))
                self.assertIn("no record of a board", ran.err)
        self.assertEqual(run("record", self.file("both", bytes(64) + good)).text.count("ticket"), 1)

    def test_records_of_numbers_not_known_here(self) -> None:
        nan = float("nan")
        zeros = (0.0, 0.0, 0.0)
        records = [self.record(10, 0, (1.0, nan, -0.0), 1), self.record(1, 30, zeros, 0)]
        records.append(self.record(1, 0, (nan, 0.0, 0.0), 0))
        name = self.file("later", b"".join(records))
        ran = run("record", name)
        self.assertEqual(ran.status, 2)
        self.assertIn("10, unknown kind", ran.text)
        self.assertIn("3FF0000000000000", ran.text)
        self.assertIn("30, refused", ran.text)
        found = objects(run("record", name, "--json"))
        self.assertEqual(list(found[0]["values"]), ["value_1", "value_2", "value_3"])
        bits = ["3FF0000000000000", "7FF8000000000000", "8000000000000000"]
        self.assertEqual(list(found[0]["values"].values()), bits)
        self.assertEqual((found[1]["status"], found[1]["refusal"]), (30, "REFUSAL_30"))
        self.assertEqual(found[2]["values"], {"density": None})
        self.assertEqual(run("record", name, "--csv").status, 2)
