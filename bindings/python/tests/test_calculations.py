"""Blocks against document 01's layout, answers against the oracle's, SI against reduced numbers; critical points of blends
against the textbook."""
import decimal
import struct
import unittest
from decimal import Decimal
from fractions import Fraction
from typing import List, Sequence, Tuple

from peng_robinson_board import (
    Blend,
    Component,
    Record,
    Refused,
    Request,
    answer,
    blend_critical_point,
    components,
    critical_point,
    critical_point_at_pressure,
    critical_point_at_temperature,
    density,
    pressure_spinodal,
    spinodal,
    stability_spinodals,
    stable_density,
)
from peng_robinson_board.units import GAS_CONSTANT

from tests.oracle_cases import CASES, LPG, PURE, Case
from tests.support import BUTANE, PROPANE

PASCALS = Fraction(13806490)
MOLES = Fraction(10**30) / Fraction(602214076 * 10**15)  # mol/m^3 in a molecule per cubic angstrom


def blend_of(case: Case) -> Blend:
    components = tuple(Component(f"c{place}", *numbers) for place, numbers in enumerate(case.components))
    return Blend(components, case.fractions, case.interactions)


def numbers_of(line: str) -> Tuple[float, ...]:
    return tuple(struct.unpack(">d", bytes.fromhex(word))[0] for word in line.split()[2:5])


class Oracle(unittest.TestCase):
    def test_every_kind_is_there(self) -> None:
        self.assertEqual({case.kind for case in CASES if case.status == 0}, set(range(1, 10)))

    def test_answers(self) -> None:
        for case in CASES:
            with self.subTest(case=case):
                record = answer(Request.from_bytes(case.request()))
                self.assertEqual(record.line(), case.line)
                self.assertEqual((record.ticket, record.queue, record.kind), (0, 0, case.kind))
                self.assertEqual(record.refused is not None, case.status != 0)

    def test_writer_packs_by_document_01_or_refuses_by_the_answer(self) -> None:
        for case in CASES:
            conditions = (case.choice, case.temperature, case.pressure, case.start)
            with self.subTest(case=case):
                if 11 <= case.status <= 17:
                    with self.assertRaises(Refused) as caught:
                        Request.new(case.kind, blend_of(case), *conditions)
                    self.assertEqual(caught.exception.number, case.status)
                else:
                    request = Request.new(case.kind, blend_of(case), *conditions)
                    self.assertEqual(request.to_bytes(), case.request())


class SI(unittest.TestCase):
    propane = Component("propane", *PROPANE)
    blend = Blend.of([propane, Component("butane", *BUTANE)], [0.6, 0.4], {("butane", "propane"): 0.003})

    def near(self, found: float, reduced: float, factor: Fraction) -> None:
        self.assertLess(abs(Fraction(found) / (Fraction(reduced) * factor) - 1), Fraction(1, 10**14))

    def conditions(self, request: Request) -> Tuple[int, float, float, float]:
        offset = struct.unpack_from("<H", request.block, 12)[0]
        return struct.unpack_from("<Qddd", request.block, offset)

    def test_requests(self) -> None:
        pressure = float(Fraction(5, 10**2) * PASCALS)
        start = float(Fraction(6, 10**3) * MOLES)
        for request, kind, choice, temperature, reduced_pressure, reduced_start in (
            (Request.density(self.blend, 300.0, pressure, "liquid"), 1, 1, 300.0, 0.05, 0.0),
            (Request.density(self.blend, 300.0, pressure, "vapor"), 1, 0, 300.0, 0.05, 0.0),
            (Request.density(self.blend, 300.0, pressure, "vapour"), 1, 0, 300.0, 0.05, 0.0),
            (Request.density(self.blend, 300.0, pressure, start), 1, 2, 300.0, 0.05, 0.006),
            (Request.stable_density(self.blend, 300.0, pressure), 2, 0, 300.0, 0.05, 0.0),
            (Request.pressure_spinodal(self.blend, 300.0, start), 3, 0, 300.0, 0.0, 0.006),
            (Request.spinodal(self.blend, 300.0, "liquid"), 4, 1, 300.0, 0.0, 0.0),
            (Request.spinodal(self.blend, 300.0, "vapour"), 4, 0, 300.0, 0.0, 0.0),
            (Request.critical_point(self.propane), 5, 0, 0.0, 0.0, 0.0),
            (Request.critical_point(self.propane, 350.0, start), 5, 0, 350.0, 0.0, 0.006),
            (Request.stability_spinodals(self.propane, 300.0), 6, 0, 300.0, 0.0, 0.0),
            (Request.blend_critical_point(self.blend), 7, 0, 0.0, 0.0, 0.0),
            (Request.blend_critical_point(self.blend, 350.0, start), 7, 0, 350.0, 0.0, 0.006),
            (Request.critical_point_at_temperature(self.blend, 400.0), 8, 0, 400.0, 0.0, 0.0),
            (Request.critical_point_at_temperature(self.blend, 400.0, start), 8, 0, 400.0, 0.0, 0.006),
            (Request.critical_point_at_pressure(self.blend, pressure), 9, 0, 0.0, 0.05, 0.0),
            (Request.critical_point_at_pressure(self.blend, pressure, 400.0, start), 9, 0, 400.0, 0.05, 0.006),
        ):
            with self.subTest(kind=kind, choice=choice):
                self.assertEqual((request.kind, request.n), (kind, 1 if kind in (5, 6) else 2))
                found = self.conditions(request)
                self.assertEqual(found[:2], (choice, temperature))
                self.assertAlmostEqual(found[2], reduced_pressure, delta=1e-17)
                self.assertAlmostEqual(found[3], reduced_start, delta=1e-17)

    def expected(self, *words: object) -> str:
        """The oracle's line for a blend and conditions."""
        (line,) = [case.line for case in CASES if case[1:] == Case("", *words)[1:]]  # type: ignore[arg-type]
        return line

    def test_calculations(self) -> None:
        pressure = 0.05 * 13806490
        for found, line in (
            (density(self.blend, 300.0, pressure, "liquid"), self.expected(1, *LPG, 1, 300.0, 0.05)),
            (stable_density(self.blend, 300.0, pressure), self.expected(2, *LPG, 0, 300.0, 0.05)),
        ):
            self.assertEqual(found.record.line(), line)
            self.near(found.density, numbers_of(line)[0], MOLES)
            self.assertEqual(found.evaluations, int(line.split()[-1]))
        line = self.expected(4, *LPG, 1, 300.0)
        branch = spinodal(self.blend, 300.0, "liquid")
        self.near(branch.pressure, numbers_of(line)[0], PASCALS)
        self.near(branch.density, numbers_of(line)[1], MOLES)
        self.assertIsNone(branch.curvature)
        line = self.expected(5, *PURE)
        critical = critical_point(self.propane)
        self.assertEqual(critical.temperature, numbers_of(line)[0])
        self.near(critical.density, numbers_of(line)[1], MOLES)
        line = self.expected(7, *LPG)
        critical = blend_critical_point(self.blend)
        self.assertEqual(critical.temperature, numbers_of(line)[0])
        self.near(critical.density, numbers_of(line)[1], MOLES)
        self.assertEqual((critical.evaluations, critical.record.line()), (int(line.split()[-1]), line))
        line = self.expected(8, *LPG, 0, 400.0)
        point = critical_point_at_temperature(self.blend, 400.0)
        self.assertEqual((point.temperature, point.pressure), (400.0, None))
        for found, number in zip(point.partial_densities, numbers_of(line)):
            self.near(found, number, MOLES)
        self.assertEqual((point.evaluations, point.record.line()), (int(line.split()[-1]), line))
        line = self.expected(9, *LPG, 0, 400.0, 0.29)
        point = critical_point_at_pressure(self.blend, 0.29 * 13806490, 400.0)
        self.assertEqual((point.temperature, point.pressure), (numbers_of(line)[0], 0.29 * 13806490))
        for found, number in zip(point.partial_densities, numbers_of(line)[1:]):
            self.near(found, number, MOLES)
        self.assertEqual((point.evaluations, point.record.line()), (int(line.split()[-1]), line))
        first, second = point.partial_densities
        self.assertEqual(point.density, first + second)
        self.assertEqual(point.fractions, (first / point.density, second / point.density))
        line = self.expected(6, *PURE, 0, 300.0)
        both = stability_spinodals(self.propane, 300.0)
        self.near(both.vapor_density, numbers_of(line)[0], MOLES)
        self.near(both.liquid_density, numbers_of(line)[1], MOLES)
        self.assertEqual(both.evaluations, int(line.split()[-1]))

    def test_spinodal_from_a_start(self) -> None:
        line = self.expected(3, *LPG, 0, 300.0, 0.0, 0.001)
        found = pressure_spinodal(self.blend, 300.0, float(Fraction(1, 1000) * MOLES))
        # the start is a rounding away from the oracle's
        for value, factor, number in zip(
            (found.pressure, found.density, found.curvature), (PASCALS, MOLES, PASCALS / MOLES**2), numbers_of(line)
        ):
            assert value is not None
            self.assertLess(abs(Fraction(value) / (Fraction(number) * factor) - 1), Fraction(1, 10**11))

    def test_refusals_raise_with_their_record(self) -> None:
        with self.assertRaises(Refused) as caught:
            stability_spinodals(self.propane, 600.0)
        self.assertEqual((caught.exception.number, caught.exception.refusal), (26, 26))
        assert caught.exception.record is not None
        self.assertEqual(caught.exception.record.line(), self.expected(6, *PURE, 0, 600.0))

    def test_nan_and_infinities_go_to_the_writer(self) -> None:
        for number in (float("nan"), float("inf"), float("-inf"), -300.0, 0.0):
            for refused in (
                lambda x: density(self.blend, x, 1e5, "liquid"),
                lambda x: spinodal(self.blend, x, "liquid"),
                lambda x: stability_spinodals(self.propane, x),
                # 0 is none given
                lambda x: blend_critical_point(self.blend, x or -0.0),
                lambda x: critical_point_at_temperature(self.blend, x),
                lambda x: critical_point_at_pressure(self.blend, 40e5, x or -0.0),
            ):
                with self.assertRaises(Refused) as caught:
                    refused(number)
                self.assertEqual(caught.exception.number, 15)
        for number in (float("nan"), float("inf"), float("-inf")):
            for pressure, start in ((number, None), (40e5, number)):
                with self.assertRaises(Refused) as caught:
                    critical_point_at_pressure(self.blend, pressure, 400.0, start)
                self.assertEqual(caught.exception.number, 15)

    def test_other_phases(self) -> None:
        self.assertRaises(ValueError, density, self.blend, 300.0, 1e5, "solid")
        self.assertRaises(ValueError, spinodal, self.blend, 300.0, "start")
        self.assertRaises(ValueError, spinodal, self.blend, 300.0, 1000.0)


class BlendCriticalPoints(unittest.TestCase):
    """Where the Helmholtz energy's matrix of second derivatives by the mole numbers has the eigenvalue 0, and its third
    derivative along the eigenvector is 0 too (Heidemann and Khalil 1980). The energy is the textbook's, with 60 digits."""

    def energy(self, blend: Blend, temperature: Decimal, volume: Decimal, moles: Sequence[Decimal]) -> Decimal:
        """Over RT, without what is linear in the mole numbers."""
        constants = []
        for one in blend.components:
            numbers = (one.critical_temperature, one.critical_pressure, one.acentric_factor)
            critical, pressure, acentric = map(Decimal, numbers)
            kappa = Decimal("0.37464") + (Decimal("1.54226") - Decimal("0.26992") * acentric) * acentric
            alpha = (1 + kappa * (1 - (temperature / critical).sqrt())) ** 2
            b = Decimal("0.07780") * Decimal(GAS_CONSTANT) * critical / pressure
            a = Decimal("0.45724") * (Decimal(GAS_CONSTANT) * critical) ** 2 / pressure * alpha
            constants.append((a / (Decimal(GAS_CONSTANT) * temperature), b))
        (a1, b1), (a2, b2) = constants
        n1, n2 = moles
        attraction = n1 * n1 * a1 + n2 * n2 * a2 + 2 * n1 * n2 * (a1 * a2).sqrt() * (1 - Decimal(blend.interactions[0]))
        b = n1 * b1 + n2 * b2
        root = Decimal(2).sqrt()
        ideal = sum(n * (n / volume).ln() for n in moles)
        ratio = (volume + (1 + root) * b) / (volume + (1 - root) * b)
        return ideal - (n1 + n2) * (1 - b / volume).ln() - attraction / (2 * root * b) * ratio.ln()

    def conditions(self, blend: Blend, temperature: float, density: float) -> Tuple[Decimal, Decimal]:
        """The smallest eigenvalue and the third derivative along its vector, by differences."""
        fractions = [Decimal(x) for x in blend.fractions]
        roots = [x.sqrt() for x in fractions]
        step = Decimal("1e-12")

        def moved(along: Sequence[Decimal], steps: int) -> Decimal:
            moles = [x + steps * step * root * u for x, root, u in zip(fractions, roots, along)]
            return self.energy(blend, Decimal(temperature), 1 / Decimal(density), moles)

        def second(*along: int) -> Decimal:
            first, middle, last = (moved([Decimal(u) for u in along], steps) for steps in (-1, 0, 1))
            return (first - 2 * middle + last) / step**2

        m11, m22 = second(1, 0), second(0, 1)
        m12 = (second(1, 1) - m11 - m22) / 2
        smallest = (m11 + m22 - ((m11 - m22) ** 2 + 4 * m12**2).sqrt()) / 2
        length = (m12**2 + (smallest - m11) ** 2).sqrt()
        vector: List[Decimal] = [m12 / length, (smallest - m11) / length]
        twice_back, back, on, twice_on = (moved(vector, steps) for steps in (-2, -1, 1, 2))
        return smallest, (twice_on - 2 * on + 2 * back - twice_back) / (2 * step**3)

    def test_conditions_hold(self) -> None:
        blends = []
        for names, interaction in ((("propane", "butane"), 0.003), (("methane", "propane"), 0.014), (("R32", "R134a"), 0.0)):
            parts = [components.find(name) for name in names]
            blends += [Blend.of(parts, [x, 1.0 - x], {names: interaction}) for x in (0.1, 0.5, 0.9)]
        with decimal.localcontext() as context:
            context.prec = 60
            for blend in blends:
                with self.subTest(blend=blend):
                    found = blend_critical_point(blend)
                    for condition in self.conditions(blend, found.temperature, found.density):
                        self.assertLess(abs(condition), Decimal("1e-9"))
                    # and not everywhere
                    for temperature, part in ((found.temperature + 1.0, 1.0), (found.temperature, 1.1)):
                        off = self.conditions(blend, temperature, part * found.density)
                        self.assertGreater(max(map(abs, off)), Decimal("1e-4"))

    def pressure(self, blend: Blend, temperature: float, density: float) -> Decimal:
        """Less the derivative of the energy by volume, by a difference."""
        volume, moles = 1 / Decimal(density), [Decimal(x) for x in blend.fractions]
        step = volume * Decimal("1e-20")
        before, after = (self.energy(blend, Decimal(temperature), volume + by, moles) for by in (-step, step))
        return (before - after) / (2 * step) * Decimal(GAS_CONSTANT) * Decimal(temperature)

    def test_conditions_hold_on_the_critical_line(self) -> None:
        with decimal.localcontext() as context:
            context.prec = 60
            for names, interaction, temperatures, pressures in (
                (("propane", "butane"), 0.003, (372.0, 400.0, 424.0), (38e5, 40e5, 43e5)),
                (("methane", "propane"), 0.014, (200.0, 280.0, 360.0), (50e5, 80e5)),
                (("R32", "R134a"), 0.0, (352.0, 372.0), (42e5, 55e5)),
            ):
                blend = Blend.of([components.find(name) for name in names], [0.5, 0.5], {names: interaction})
                kay = sum(one.critical_temperature for one in blend.components) / 2
                points = [critical_point_at_temperature(blend, temperature) for temperature in temperatures]
                points += [critical_point_at_pressure(blend, pressure, kay) for pressure in pressures]
                for point in points:
                    with self.subTest(names=names, temperature=point.temperature, pressure=point.pressure):
                        # the float fractions add up to 1 within rounding, which the conditions follow
                        there = Blend(blend.components, point.fractions, blend.interactions)
                        for condition in self.conditions(there, point.temperature, point.density):
                            self.assertLess(abs(condition), Decimal("1e-9"))
                        if point.pressure is not None:
                            found = self.pressure(there, point.temperature, point.density)
                            self.assertLess(abs(found / Decimal(point.pressure) - 1), Decimal("1e-9"))
                        # kind 7 finds the same of a blend of this composition
                        same = blend_critical_point(there, point.temperature)
                        self.assertAlmostEqual(same.temperature / point.temperature, 1.0, delta=1e-9)
                        self.assertAlmostEqual(same.density / point.density, 1.0, delta=1e-9)

    def test_between_the_components(self) -> None:
        propane, butane = components.find("propane"), components.find("butane")
        temperatures = [critical_point(propane).temperature]
        for percent in range(1, 100, 7):
            blend = Blend.of([butane, propane], [percent / 100, 1.0 - percent / 100])
            temperatures.append(blend_critical_point(blend).temperature)
        temperatures.append(critical_point(butane).temperature)
        self.assertEqual(temperatures, sorted(set(temperatures)))

    def test_order_of_the_components(self) -> None:
        propane, butane = components.find("propane"), components.find("butane")
        kij = {("propane", "butane"): 0.003}
        one = blend_critical_point(Blend.of([propane, butane], [0.6, 0.4], kij))
        other = blend_critical_point(Blend.of([butane, propane], [0.4, 0.6], kij))
        self.assertAlmostEqual(one.temperature / other.temperature, 1.0, delta=1e-9)
        self.assertAlmostEqual(one.density / other.density, 1.0, delta=1e-9)

    def test_one_component_under_two_names(self) -> None:
        propane = components.find("propane")
        alone = critical_point(propane)
        both = blend_critical_point(Blend((propane, propane), (0.3, 0.7), (0.0,)))
        self.assertAlmostEqual(both.temperature / alone.temperature, 1.0, delta=1e-9)
        self.assertAlmostEqual(both.density / alone.density, 1.0, delta=1e-9)

    def test_two_components_and_no_others(self) -> None:
        parts = [Component(str(i), *PROPANE) for i in range(9)]
        for n in (1, 3, 8, 9):
            blend = Blend.of(parts[:n], [1.0 / n] * n)
            for refused in (
                lambda blend: blend_critical_point(blend),
                lambda blend: critical_point_at_temperature(blend, 400.0),
                lambda blend: critical_point_at_pressure(blend, 40e5),
            ):
                with self.subTest(n=n), self.assertRaises(Refused) as caught:
                    refused(blend)
                self.assertEqual(caught.exception.number, 3)
                self.assertIn("two", caught.exception.remedy)


class Blends(unittest.TestCase):
    a, b, c, d = (Component(name, *PROPANE) for name in "abcd")

    def test_interactions_by_rows(self) -> None:
        kij = {("c", "a"): 2.0, ("a", "d"): 3.0, ("b", "c"): 4.0, ("d", "c"): 6.0}
        blend = Blend.of([self.a, self.b, self.c, self.d], [0.1, 0.2, 0.3, 0.4], kij)
        self.assertEqual(blend.interactions, (0.0, 2.0, 3.0, 4.0, 0.0, 6.0))
        self.assertEqual(blend.coefficients(), PROPANE * 4)
        self.assertEqual(Blend.of([self.a, self.b], [0.5, 0.5]).interactions, (0.0,))
        self.assertEqual(Blend.pure(self.a), Blend.of([self.a], [1.0]))

    def test_faults(self) -> None:
        for components, kij in (
            ([self.a, self.a], {}),
            ([self.a, self.b], {("a", "x"): 0.0}),
            ([self.a, self.b], {("a", "a"): 0.0}),
            ([self.a, self.b], {("a", "b"): 0.0, ("b", "a"): 0.0}),
        ):
            self.assertRaises(ValueError, Blend.of, components, [0.5, 0.5], kij)

    def test_counts_are_the_writers_to_refuse(self) -> None:
        for expected, blend in (
            (3, Blend((), (), ())),
            (3, Blend.of([Component(str(i), *PROPANE) for i in range(9)], [1 / 9] * 9)),
            (3, Blend.of([Component(str(i), *PROPANE) for i in range(300)], [1 / 300] * 300)),
            (11, Blend.of([self.a, self.b], [1.0])),
            (11, Blend((self.a,), (1.0,), (0.0,))),
        ):
            with self.assertRaises(Refused) as caught:
                Request.stable_density(blend, 300.0, 1e5)
            self.assertEqual(caught.exception.number, expected)


class Bytes(unittest.TestCase):
    def test_lengths(self) -> None:
        for length in (0, 641, 643):
            self.assertRaises(ValueError, Request.from_bytes, bytes(length))
        for length in (0, 63, 65, 128):
            self.assertRaises(ValueError, Record.from_bytes, bytes(length))
        self.assertRaises(ValueError, Request(3, 1, bytes(639)).to_bytes)
        self.assertRaises(ValueError, Request(256, 1, bytes(640)).to_bytes)

    def test_record_by_document_01(self) -> None:
        data = struct.pack("<QBB6xQdddQ8x", 2**64 - 1, 3, 2, 0, 1.0, -0.0, float("-inf"), 17)
        record = Record.from_bytes(data)
        self.assertEqual((record.ticket, record.kind, record.queue, record.status), (2**64 - 1, 3, 2, 0))
        self.assertEqual(record.line(), "3 0 3FF0000000000000 8000000000000000 FFF0000000000000 17")
        # document 01: a NaN counts as one value
        nans = data[:24] + struct.pack("<Q", 0xFFF0000000000001) + data[32:]
        self.assertEqual(Record.from_bytes(nans).bits[0], "7FF8000000000000")

    def test_near_case_of_document_01(self) -> None:
        line = "3 11 0000000000000000 0000000000000000 0000000000000000 0"
        self.assertEqual(answer(Request.from_bytes(b"\x03\x01" + bytes(640))).line(), line)

    def test_calls_that_are_refused(self) -> None:
        for expected, request in (
            (2, Request(0, 1, bytes(640))),
            (3, Request(1, 9, bytes(640))),
            (8, Request(1, 1, bytes(639))),
        ):
            with self.assertRaises(Refused) as caught:
                answer(request)
            self.assertEqual(caught.exception.number, expected)
            self.assertIsNone(caught.exception.record)
