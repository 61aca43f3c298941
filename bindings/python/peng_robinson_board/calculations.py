"""Calculations in SI (K, Pa, mol/m^3), each a whole job of the proved library. Any refusal raises `Refused`."""
from dataclasses import dataclass
from typing import Optional, Tuple

from . import library
from .blend import Blend, Component
from .record import Record
from .refusals import Refused
from .request import Phase, Request


@dataclass(frozen=True)
class Density:
    density: float
    evaluations: int
    record: Record


@dataclass(frozen=True)
class Spinodal:
    pressure: float
    density: float
    curvature: Optional[float]  # Pa/(mol/m^3)^2; handed out by a search from a start only
    evaluations: int
    record: Record


@dataclass(frozen=True)
class CriticalPoint:
    temperature: float
    density: float
    evaluations: int
    record: Record


@dataclass(frozen=True)
class BinaryCriticalPoint:
    """A point of the critical line of two components."""

    temperature: float  # set in kind 8, found in kind 9
    pressure: Optional[float]  # set in kind 9; kind 8 hands none out
    partial_densities: Tuple[float, float]
    evaluations: int
    record: Record

    @property
    def density(self) -> float:
        """The sum of the partial densities."""
        return sum(self.partial_densities)

    @property
    def fractions(self) -> Tuple[float, float]:
        """Each partial density over their sum."""
        first, second = self.partial_densities
        return first / self.density, second / self.density


@dataclass(frozen=True)
class StabilitySpinodals:
    vapor_density: float
    liquid_density: float
    evaluations: int
    record: Record


def answer(request: Request) -> Record:
    """The record of a whole job without a board. Raises `Refused` where the call is refused, by the first of 2, 3, 8;
    what the data or the equation refuse is in the record's status."""
    data = bytearray(library.RECORD_BYTES)
    number = library.answer(request.kind, request.n, request.block, data)
    if number != 0:
        raise Refused(number)
    # the call writes the sealed part alone; ticket and queue stay 0
    data[8] = request.kind
    return Record.from_bytes(bytes(data))


def _answered(request: Request) -> Tuple[Record, Tuple[float, ...]]:
    """The record and its values in SI."""
    record = answer(request)
    if record.refused is not None:
        raise record.refused
    return record, tuple(value.quantity.to_si(reduced) for value, reduced in record.handed_out())


def density(blend: Blend, temperature: float, pressure: float, phase: Phase) -> Density:
    """Density that a search from the vapour or the liquid, or from a density in mol/m^3, comes to (kind 1). It may be
    of another phase than the one that the search begins in; `stable_density` compares the two."""
    record, (found,) = _answered(Request.density(blend, temperature, pressure, phase))
    return Density(found, record.evaluations, record)


def stable_density(blend: Blend, temperature: float, pressure: float) -> Density:
    """Density of the stable phase (kind 2)."""
    record, (found,) = _answered(Request.stable_density(blend, temperature, pressure))
    return Density(found, record.evaluations, record)


def spinodal(blend: Blend, temperature: float, phase: str) -> Spinodal:
    """Spinodal of the vapour or liquid branch (kind 4)."""
    record, (pressure, found) = _answered(Request.spinodal(blend, temperature, phase))
    return Spinodal(pressure, found, None, record.evaluations, record)


def pressure_spinodal(blend: Blend, temperature: float, start: float) -> Spinodal:
    """Spinodal that a search from a density in mol/m^3 comes to, with the curvature there (kind 3)."""
    record, (pressure, found, curvature) = _answered(Request.pressure_spinodal(blend, temperature, start))
    return Spinodal(pressure, found, curvature, record.evaluations, record)


def critical_point(
    component: Component, temperature: Optional[float] = None, start: Optional[float] = None
) -> CriticalPoint:
    """Critical point of a component, searched from a temperature and density if given (kind 5)."""
    record, (found, critical_density) = _answered(Request.critical_point(component, temperature, start))
    return CriticalPoint(found, critical_density, record.evaluations, record)


def stability_spinodals(component: Component, temperature: float) -> StabilitySpinodals:
    """Densities of both spinodals of a component by its stability condition (kind 6). Below about half of the critical
    temperature both may be the vapour's; `spinodal` searches each branch."""
    record, (vapor, liquid) = _answered(Request.stability_spinodals(component, temperature))
    return StabilitySpinodals(vapor, liquid, record.evaluations, record)


def blend_critical_point(
    blend: Blend, temperature: Optional[float] = None, start: Optional[float] = None
) -> CriticalPoint:
    """Critical point of a blend of two components, searched from a temperature and density if given (kind 7). A blend
    may have several or none; which one is found hangs on where the search begins. Both fractions have to be above 0."""
    record, (found, critical_density) = _answered(Request.blend_critical_point(blend, temperature, start))
    return CriticalPoint(found, critical_density, record.evaluations, record)


def critical_point_at_temperature(
    blend: Blend, temperature: float, start: Optional[float] = None
) -> BinaryCriticalPoint:
    """Critical point of two components at a temperature, its composition searched too, from the blend's fractions and
    from a density if given (kind 8). There may be several or none, and not every one is stable; which one is found hangs
    on where the search begins. Both fractions have to be above 0."""
    record, (first, second) = _answered(Request.critical_point_at_temperature(blend, temperature, start))
    return BinaryCriticalPoint(temperature, None, (first, second), record.evaluations, record)


def critical_point_at_pressure(
    blend: Blend, pressure: float, temperature: Optional[float] = None, start: Optional[float] = None
) -> BinaryCriticalPoint:
    """Critical point of two components at a pressure, searched as at a temperature, and from a temperature if given, else
    from 300 K (kind 9). A temperature near the line is worth giving."""
    record, (found, first, second) = _answered(Request.critical_point_at_pressure(blend, pressure, temperature, start))
    return BinaryCriticalPoint(found, pressure, (first, second), record.evaluations, record)
