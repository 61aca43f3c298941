"""Kinds of jobs: their numbers, their spans in turns, and the values that each hands out (documents 01 and 02)."""
from dataclasses import dataclass
from enum import IntEnum
from typing import Optional, Tuple

from .units import CURVATURE, DENSITY, PRESSURE, TEMPERATURE, Quantity


class Kind(IntEnum):
    DENSITY = 1
    STABLE_DENSITY = 2
    PRESSURE_SPINODAL = 3
    SPINODAL_BRANCH = 4
    CRITICAL_POINT = 5
    STABILITY_SPINODALS = 6
    BLEND_CRITICAL_POINT = 7
    CRITICAL_POINT_AT_TEMPERATURE = 8
    CRITICAL_POINT_AT_PRESSURE = 9


class Choice(IntEnum):
    """The choice of kind 1, and its first two of kind 4."""

    VAPOR = 0
    LIQUID = 1
    START = 2


@dataclass(frozen=True)
class Value:
    """One of the up to three floats that a record hands out."""

    name: str
    quantity: Quantity


@dataclass(frozen=True)
class Description:
    """What a kind is called, how many turns of its queue a job takes, and what it hands out."""

    title: str
    span: int
    values: Tuple[Value, ...]


_temperature = Value("temperature", TEMPERATURE)
_pressure = Value("pressure", PRESSURE)
_density = Value("density", DENSITY)
# of the first and the second component
_partial_densities = (Value("partial_density_1", DENSITY), Value("partial_density_2", DENSITY))

DESCRIPTIONS = {
    Kind.DENSITY: Description("density from a start", 3101, (_density,)),
    Kind.STABLE_DENSITY: Description("stable density", 6204, (_density,)),
    Kind.PRESSURE_SPINODAL: Description(
        "pressure spinodal from a start", 30, (_pressure, _density, Value("curvature", CURVATURE))
    ),
    Kind.SPINODAL_BRANCH: Description("spinodal of a branch", 30, (_pressure, _density)),
    Kind.CRITICAL_POINT: Description("critical point", 150, (_temperature, _density)),
    Kind.STABILITY_SPINODALS: Description(
        "stability spinodals", 250, (Value("vapor_density", DENSITY), Value("liquid_density", DENSITY))
    ),
    Kind.BLEND_CRITICAL_POINT: Description("critical point of a blend", 150, (_temperature, _density)),
    Kind.CRITICAL_POINT_AT_TEMPERATURE: Description("critical point at a temperature", 200, _partial_densities),
    Kind.CRITICAL_POINT_AT_PRESSURE: Description(
        "critical point at a pressure", 200, (_temperature, *_partial_densities)
    ),
}


def describe(number: int) -> Optional[Description]:
    """The description of a kind, or none where a later library has a kind that is not known here."""
    try:
        return DESCRIPTIONS[Kind(number)]
    except ValueError:
        return None


def title(number: int) -> str:
    description = describe(number)
    return description.title if description is not None else "unknown kind"
