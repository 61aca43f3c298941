"""The subcommand `critical-line`: points of the critical line of two components, at set temperatures (kind 8) or at set
pressures (kind 9), one or a table of them."""
import argparse
import math
import sys
from dataclasses import dataclass
from functools import partial
from typing import Any, Callable, Dict, List, Optional, Tuple

from . import calculations, kinds
from .arguments import Usage, blend_arguments, blend_of, real
from .blend import Blend
from .kinds import Kind, Value
from .output import Machine, Outcome, aligned, complain, tell, text, values_of
from .record import Record
from .refusals import Refusal, Refused
from .request import Request
from .units import DENSITY, FRACTION, GAS_CONSTANT, PRESSURE, TEMPERATURE

LONGEST_RANGE = 10_000
# what the words of a line are, for help
LINE_COMPONENTS = "two of them; with =FRACTION the composition that the search begins at, half of each if none is given"

VALUES = (
    Value("temperature", TEMPERATURE),
    Value("pressure", PRESSURE),
    Value("fraction_1", FRACTION),
    Value("fraction_2", FRACTION),
    Value("density", DENSITY),
    Value("partial_density_1", DENSITY),
    Value("partial_density_2", DENSITY),
)
_BY_NAME = {value.name: value for value in VALUES}


def numbers_of(word: str) -> List[float]:
    """A number, or those of FIRST:LAST:STEP. What a single number may be is left to the proved writer."""
    words = word.split(":")
    if len(words) == 1:
        return [real(word)]
    if len(words) != 3:
        raise argparse.ArgumentTypeError(f"{word!r} is neither a number nor FIRST:LAST:STEP")
    first, last, step = (real(one) for one in words)
    count = (last - first) / step if step != 0.0 else math.nan
    if not all(map(math.isfinite, (first, last, step, count))) or count < 0.0:
        raise argparse.ArgumentTypeError(f"{word!r}: FIRST:LAST:STEP are finite numbers, and its step leads to its last")
    if count >= LONGEST_RANGE:
        raise argparse.ArgumentTypeError(f"{word!r} has more than {LONGEST_RANGE} numbers")
    # the last belongs to it where it is missed by rounding alone
    return [first + place * step for place in range(int(count * (1.0 + 1e-12) + 1e-9) + 1)]


@dataclass(frozen=True)
class Point:
    """A point to be searched: what is set, and its request."""

    kind: Kind
    temperature: Optional[float]
    pressure: Optional[float]
    request: Callable[[], Request]


@dataclass(frozen=True)
class Line:
    """What a command line asks for: the components with the fractions that searches begin at, the conditions to be
    shown, and one or more points."""

    blend: Blend
    given: List[Tuple[str, str]]
    jobs: List[Point]


def line_blend(arguments: argparse.Namespace) -> Blend:
    """The components, with the fractions that searches begin at: equal ones where none are given."""
    words = arguments.components
    without = [word for word in words if "=" not in word]
    if without and len(without) < len(words):
        raise Usage(f"{without[0]!r} has no fraction: give every component the fraction to begin at, or none")
    if without:
        settings = {**vars(arguments), "components": [f"{word}={1.0 / len(words)!r}" for word in words]}
        return blend_of(argparse.Namespace(**settings))
    return blend_of(arguments)


def kay_temperature(blend: Blend) -> float:
    """Kay's rule: the fractions' mean of the critical temperatures. A start for searches, never an answer."""
    return sum(x * one.critical_temperature for x, one in zip(blend.fractions, blend.components))


def line_task(arguments: argparse.Namespace) -> Line:
    blend, start = line_blend(arguments), arguments.start
    begin = ", ".join(f"{one.name} {text(x)}" for one, x in zip(blend.components, blend.fractions))
    given = [("components", ", ".join(one.name for one in blend.components)), ("search from", begin)]
    if arguments.temperature is not None:
        if arguments.from_temperature is not None:
            raise Usage("--from-temperature goes with --pressure: with --temperature the temperature is set")
        kind, make = Kind.CRITICAL_POINT_AT_TEMPERATURE, Request.critical_point_at_temperature
        points = [Point(kind, at, None, partial(make, blend, at, start)) for at in arguments.temperature]
    else:
        warm = kay_temperature(blend) if arguments.from_temperature is None else arguments.from_temperature
        # 0 is none given, and the library takes 300 K
        given.append(("from temperature", f"{text(warm or 300.0)} K"))
        points = [
            Point(
                Kind.CRITICAL_POINT_AT_PRESSURE,
                None,
                at,
                partial(Request.critical_point_at_pressure, blend, at, warm, start),
            )
            for at in arguments.pressure
        ]
    if start:
        given.append(("from density", f"{text(start)} mol/m^3"))
    return Line(blend, given, points)


def pressure_there(blend: Blend, point: calculations.BinaryCriticalPoint) -> Optional[float]:
    """The pressure of a point that kind 8 found, which hands none out: the one at which kind 1 comes to its density,
    by halving, if kind 9 comes to the point there. Each step is a call of the library."""
    there = Blend(blend.components, point.fractions, blend.interactions)
    temperature, density = point.temperature, point.density

    def too_low(pressure: float) -> bool:
        return calculations.density(there, temperature, pressure, density).density < density

    try:
        low, high = 0.0, density * GAS_CONSTANT * temperature
        while too_low(high) and high < math.inf:
            low, high = high, 2.0 * high
        while low < (middle := 0.5 * (low + high)) < high:
            low, high = (middle, high) if too_low(middle) else (low, middle)
        back = calculations.critical_point_at_pressure(there, high, temperature, density)
    except Refused:
        return None
    same = abs(back.temperature - temperature) <= 1e-9 * temperature and abs(back.density - density) <= 1e-9 * density
    return high if same else None


def more_of(blend: Blend, point: Point, record: Record) -> Tuple[Tuple[Value, float], ...]:
    """What is shown beside the record's own values, in reduced numbers: fractions, density, and the pressure of a point
    at a set temperature."""
    if record.status != 0:
        return ()
    first, second = record.values[:2] if point.temperature is not None else record.values[1:]
    total = first + second
    more = [("fraction_1", first / total), ("fraction_2", second / total), ("density", total)]
    if point.temperature is not None:
        densities = (DENSITY.to_si(first), DENSITY.to_si(second))
        found = calculations.BinaryCriticalPoint(point.temperature, None, densities, record.evaluations, record)
        pressure = pressure_there(blend, found)
        if pressure is not None:
            more.append(("pressure", PRESSURE.from_si(pressure)))
    return tuple((_BY_NAME[name], number) for name, number in more)


def outcome_of(blend: Blend, point: Point) -> Outcome:
    """A point searched; a refusal of the writer or the call is an outcome too."""
    names = [one.name for one in blend.components]
    fields: Dict[str, Any] = {"component_1": names[0], "component_2": names[1] if len(names) > 1 else None}
    fields.update({"at_temperature": point.temperature, "at_pressure": point.pressure})
    try:
        record = calculations.answer(point.request())
    except Refused as refused:
        return Outcome(int(point.kind), None, refused.number, fields)
    return Outcome(int(point.kind), record, 0, fields, more_of(blend, point, record))


def _titles(blend: Blend) -> List[Tuple[str, str]]:
    """The values in the order that people read them, by name, with their titles."""
    first, second = (one.name for one in blend.components)
    return [
        ("temperature", "temperature"),
        ("pressure", "pressure"),
        ("fraction_1", f"fraction of {first}"),
        ("fraction_2", f"fraction of {second}"),
        ("density", "density"),
        ("partial_density_1", f"partial density of {first}"),
        ("partial_density_2", f"partial density of {second}"),
    ]


def point_text(line: Line, outcome: Outcome, arguments: argparse.Namespace) -> str:
    """One point, for people."""
    point, values = line.jobs[0], {name: (number, unit) for name, number, unit in values_of(outcome, arguments)}
    if point.temperature is not None:
        at = ("at temperature", f"{text(point.temperature)} K")
    else:
        at = ("at pressure", f"{text(point.pressure)} Pa")
    pairs = [line.given[0], at, *line.given[1:]]
    for name, title in _titles(line.blend):
        if name in values:
            number, unit = values[name]
            pairs.append((title, text(number) if unit == FRACTION.si_unit else f"{text(number)} {unit}"))
        elif name == "pressure" and point.temperature is not None and not arguments.bits:
            pairs.append((title, "none found above 0: the point may be none that is stable"))
    by = f"kind {outcome.kind} ({kinds.title(outcome.kind)}), {outcome.evaluations} evaluations"
    if "pressure" in values:
        by += "; the pressure by kinds 1 and 9"
    return aligned([*pairs, ("answered by", by)])


def table_text(line: Line, outcomes: List[Outcome], arguments: argparse.Namespace) -> str:
    """Several points, for people: a row for each. The partial densities are left out but for their bits."""
    by_temperature = line.jobs[0].temperature is not None
    found = [{name: (number, unit) for name, number, unit in values_of(one, arguments)} for one in outcomes]
    units = {name: unit for values in found for name, (_, unit) in values.items()}
    names = [(name, title) for name, title in _titles(line.blend) if name in units]
    if not arguments.bits:
        names = [(name, title) for name, title in names if not name.startswith("partial")]
    header = ["at temperature [K]" if by_temperature else "at pressure [Pa]"]
    header += [title if units[name] == FRACTION.si_unit else f"{title} [{units[name]}]" for name, title in names]
    rows = [[*header, "evaluations"]]
    for point, outcome, values in zip(line.jobs, outcomes, found):
        at = text(point.temperature if by_temperature else point.pressure)
        if outcome.status != 0:
            rows.append([at, f"refused by {outcome.status}"])
            continue
        shown = [text(values[name][0]) if name in values else "-" for name, _ in names]
        rows.append([at, *shown, str(outcome.evaluations)])
    # a row that tells of a refusal may run over its columns
    widths = [max(len(row[place]) for row in rows if len(row) > 2) for place in range(len(rows[0]))]
    widths[0] = max(len(row[0]) for row in rows)
    told = "".join("  ".join(entry.ljust(width) for entry, width in zip(row, widths)).rstrip() + "\n" for row in rows)
    return f"{aligned(line.given)}\n{told}"


def run_line(arguments: argparse.Namespace) -> int:
    line = line_task(arguments)
    outcomes = [outcome_of(line.blend, point) for point in line.jobs]
    refused = [outcome for outcome in outcomes if outcome.status != 0]
    if arguments.json or arguments.csv:
        machine = Machine(arguments, ["component_1", "component_2", "at_temperature", "at_pressure"], VALUES)
        for outcome in outcomes:
            machine.write(outcome)
    elif len(refused) < len(outcomes):
        one = len(outcomes) == 1
        sys.stdout.write(point_text(line, outcomes[0], arguments) if one else table_text(line, outcomes, arguments))
    if not refused:
        return 0
    sys.stdout.flush()
    numbers = sorted({outcome.status for outcome in refused})
    if len(refused) < len(outcomes):
        complain(f"{arguments.prog}: refused: {len(refused)} of the {len(outcomes)} points")
    for number in numbers:
        tell(arguments.prog, number)
    if Refusal.NOT_CONVERGED in numbers:
        filed = [
            f"{one.name} {text(one.critical_temperature)} K, {text(one.critical_pressure)} Pa"
            for one in line.blend.components
        ]
        complain(f"{arguments.prog}: critical points filed: {'; '.join(filed)}")
    return 2


def line_arguments(parser: argparse.ArgumentParser) -> None:
    blend_arguments(parser, LINE_COMPONENTS)
    at = parser.add_mutually_exclusive_group(required=True)
    at.add_argument(
        "--temperature", type=numbers_of, metavar="K", help="temperature in K, or FIRST:LAST:STEP for a table (kind 8)"
    )
    at.add_argument(
        "--pressure", type=numbers_of, metavar="PA", help="pressure in Pa, or FIRST:LAST:STEP for a table (kind 9)"
    )
    parser.add_argument(
        "--from-temperature",
        type=real,
        metavar="K",
        help="with --pressure: temperature in K that the search begins at (0: 300 K; without this option the mean of the "
        "critical temperatures by the fractions to begin at)",
    )
    parser.add_argument(
        "--start",
        type=real,
        metavar="DENSITY",
        help="density in mol/m^3 that the search begins at (0, or without this option: 0.3 of the maximum density)",
    )
