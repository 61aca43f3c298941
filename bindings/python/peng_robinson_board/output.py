"""Outcomes of jobs as aligned text, as JSON (an object on each line) and as CSV."""
import argparse
import contextlib
import csv
import json
import math
import sys
from dataclasses import dataclass, field
from typing import Any, Dict, Iterable, List, Optional, Tuple

from . import kinds, refusals
from .record import Record, bits


@dataclass(frozen=True)
class Outcome:
    """A job's record, or the refusal of its call or of the writer; `fields` are named before its kind. `more` are reduced
    numbers that are shown after the record's own, and not as bits."""

    kind: int
    record: Optional[Record] = None
    refusal: int = 0
    fields: Dict[str, Any] = field(default_factory=dict)
    more: Tuple[Tuple[kinds.Value, float], ...] = ()

    @property
    def status(self) -> int:
        return self.refusal if self.record is None else self.record.status

    @property
    def evaluations(self) -> int:
        return 0 if self.record is None else self.record.evaluations


def output_arguments(parser: argparse.ArgumentParser) -> None:
    form = parser.add_mutually_exclusive_group()
    form.add_argument("--json", action="store_true", help="a JSON object on a line for each answer")
    form.add_argument("--csv", action="store_true", help="a header, then a row for each answer")
    numbers = parser.add_mutually_exclusive_group()
    numbers.add_argument("--reduced", action="store_true", help="the record's reduced numbers in the place of SI")
    numbers.add_argument("--bits", action="store_true", help="the record's floats as 16 hexadecimal digits")


def shown(value: kinds.Value, reduced: float, arguments: argparse.Namespace) -> Tuple[Any, str]:
    """A number and its unit as the options ask: a float, or digits with the unit "bits"."""
    if arguments.bits:
        return bits(reduced), "bits"
    if arguments.reduced:
        return reduced, value.quantity.reduced_unit
    return value.quantity.to_si(reduced), value.quantity.si_unit


def values_of(outcome: Outcome, arguments: argparse.Namespace) -> List[Tuple[str, Any, str]]:
    """Name, number and unit of each value handed out. The floats of a kind that is not known are shown as bits."""
    record = outcome.record
    if record is None or record.status != 0:
        return []
    if kinds.describe(record.kind) is None:
        return [(f"value_{place}", digits, "bits") for place, digits in enumerate(record.bits, 1)]
    more = () if arguments.bits else outcome.more
    return [(value.name, *shown(value, reduced, arguments)) for value, reduced in (*record.handed_out(), *more)]


def text(number: Any) -> str:
    return f"{number:.10g}" if isinstance(number, float) else str(number)


def aligned(pairs: List[Tuple[str, str]]) -> str:
    """Names and what they are, in two columns."""
    width = max(len(name) for name, _ in pairs)
    return "".join(f"{name:<{width}}  {said}\n" for name, said in pairs)


def value_pairs(outcome: Outcome, arguments: argparse.Namespace) -> List[Tuple[str, str]]:
    values = values_of(outcome, arguments)
    width = max((len(text(number)) for _, number, _ in values), default=0)
    return [(name.replace("_", " "), f"{text(number):<{width}} {unit}") for name, number, unit in values]


def status_text(status: int) -> str:
    return "0, answered" if status == 0 else f"{status}, refused: {refusals.meaning(status)}"


def tell(prog: str, status: int) -> None:
    """A refusal on standard error: its number, what it means and what to do."""
    complain(f"{prog}: refused by {status} ({refusals.name(status)}): {refusals.meaning(status)}")
    complain(f"{prog}: what to do: {refusals.remedy(status)}")


def complain(line: str) -> None:
    """A line on standard error, if that takes any."""
    with contextlib.suppress(OSError):
        if sys.stderr is not None:
            print(line, file=sys.stderr, flush=True)


def _number(value: Any) -> Any:
    # JSON has no NaN and no infinities
    return value if not isinstance(value, float) or math.isfinite(value) else None


class Machine:
    """Writes outcomes for machines, JSON or CSV as the options ask. A table has a column for every value of every kind,
    or for those that are named."""

    def __init__(
        self, arguments: argparse.Namespace, fields: List[str], values: Optional[Iterable[kinds.Value]] = None
    ) -> None:
        self.arguments = arguments
        self.fields = fields
        self.writer = csv.writer(sys.stdout, lineterminator="\n")
        self.columns: List[str] = []
        if arguments.csv:
            if values is None:
                values = [value for description in kinds.DESCRIPTIONS.values() for value in description.values]
            units = {value.name: shown(value, 0.0, arguments)[1] for value in values}
            self.columns = list(units)
            named = [f"{name} [{unit}]" for name, unit in units.items()]
            self.writer.writerow([*fields, "kind", "name", "status", "refusal", *named, "evaluations"])

    def write(self, outcome: Outcome) -> None:
        values = values_of(outcome, self.arguments)
        refusal = refusals.name(outcome.status) if outcome.status != 0 else None
        before = [outcome.fields.get(name) for name in self.fields]
        about = [outcome.kind, kinds.title(outcome.kind), outcome.status, refusal]
        if self.arguments.csv:
            found = {name: number for name, number, _ in values}
            row = [*before, *about, *(found.get(name) for name in self.columns), outcome.evaluations]
            self.writer.writerow(["" if entry is None else entry for entry in row])
            return
        entry = dict(zip([*self.fields, "kind", "name", "status", "refusal"], [*map(_number, before), *about]))
        entry["meaning"] = refusals.meaning(outcome.status) if outcome.status != 0 else None
        entry["values"] = {name: _number(number) for name, number, _ in values}
        entry["units"] = {name: unit for name, _, unit in values}
        entry["evaluations"] = outcome.evaluations
        print(json.dumps(entry, allow_nan=False))
