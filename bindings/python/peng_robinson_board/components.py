"""Gases of the bottled-gas trade by name, from components.csv, and components written as `name:Tc:pc:omega`.
The figures of the table have not been compared with the publications: do so before a contract rests on them. Filings
carry the supplier's own constants (`name:Tc:pc:omega`, K and Pa)."""
import csv
import difflib
import functools
import re
import textwrap
from dataclasses import dataclass
from importlib import resources
from typing import Dict, Mapping, Tuple

from .blend import Component

_TABLE = "components.csv"
_SOURCE = re.compile(r"# source (\w+): (.+)")


@dataclass(frozen=True)
class Entry:
    """A row of the table. The sources are keys of `citations()`: of temperature, pressure and acentric factor."""

    component: Component
    aliases: Tuple[str, ...]
    formula: str
    temperature_source: str
    pressure_source: str
    acentric_source: str

    @property
    def sources(self) -> Tuple[str, ...]:
        """The keys of the three figures, each once."""
        return tuple(dict.fromkeys((self.temperature_source, self.pressure_source, self.acentric_source)))


class UnknownComponent(KeyError):
    """A name that the table does not have; the text suggests names that are close to it."""

    def __init__(self, name: str, suggestions: Tuple[str, ...]) -> None:
        super().__init__(name, suggestions)
        self.name = name
        self.suggestions = suggestions

    def __str__(self) -> str:
        near = f"; close to it: {', '.join(self.suggestions)}" if self.suggestions else ""
        name = textwrap.shorten(self.name, 60, placeholder="...") or self.name
        return f"no component {name!r} in the table{near} (or give your own as name:Tc:pc:omega, K and Pa)"


@functools.lru_cache(maxsize=None)
def _lines() -> Tuple[str, ...]:
    return tuple(resources.files(__package__).joinpath(_TABLE).read_text(encoding="utf-8").splitlines())


def _entry(row: Mapping[str, str]) -> Entry:
    return Entry(
        Component(
            row["name"],
            float(row["critical_temperature"]),
            float(row["critical_pressure"]),
            float(row["acentric_factor"]),
        ),
        tuple(row["aliases"].split(";")) if row["aliases"] else (),
        row["formula"],
        row["temperature_source"],
        row["pressure_source"],
        row["acentric_source"],
    )


@functools.lru_cache(maxsize=None)
def _entries() -> Tuple[Entry, ...]:
    return tuple(_entry(row) for row in csv.DictReader(line for line in _lines() if not line.startswith("#")))


def table() -> Dict[str, Entry]:
    """Every row by its name, in the table's order."""
    return {entry.component.name: entry for entry in _entries()}


def citations() -> Dict[str, str]:
    """The publications by their keys."""
    return {found[1]: found[2] for found in map(_SOURCE.fullmatch, _lines()) if found}


def _folded(name: str) -> str:
    """What two spellings of one name have in common: `R-290` and `r290`, `carbon dioxide` and `Carbon_Dioxide`."""
    return re.sub(r"[\s_-]", "", name).casefold()


@functools.lru_cache(maxsize=None)
def _names() -> Dict[str, Entry]:
    return {_folded(name): entry for entry in _entries() for name in (entry.component.name, *entry.aliases)}


def find(name: str) -> Component:
    """The component of a name or alias, in any case, with or without spaces and hyphens; raises `UnknownComponent`."""
    entry = _names().get(_folded(name))
    if entry is None:
        near = difflib.get_close_matches(_folded(name), _names(), n=5, cutoff=0.7)
        raise UnknownComponent(name, tuple(dict.fromkeys(_names()[match].component.name for match in near)))
    return entry.component


def parse(text: str) -> Component:
    """A component of the table by its name, or one written as `name:Tc:pc:omega` (K, Pa). Whether the three numbers
    can be used is for the proved writer to say, by refusal 12."""
    if ":" not in text:
        return find(text)
    name, *figures = text.split(":")
    control = any(ord(letter) < 32 or ord(letter) == 127 for letter in name)
    if not name.strip() or control or len(figures) != 3:
        raise ValueError(f"component {text!r} is not of the form name or name:Tc:pc:omega (K, Pa)")
    numbers = []
    for meaning, figure in zip(("critical temperature", "critical pressure", "acentric factor"), figures):
        try:
            numbers.append(float(figure))
        except ValueError:
            raise ValueError(f"component {text!r}: the {meaning} {figure!r} is not a number") from None
    return Component(name.strip(), *numbers)
