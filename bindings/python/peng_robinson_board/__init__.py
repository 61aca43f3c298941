"""Densities, spinodals and critical points of blends by the Peng-Robinson equation of state. Every number comes from
the proved library that this package calls; its own part is units, names and files."""
from . import components, units
from .blend import Blend, Component
from .board import Board, Look, Ticket
from .calculations import (
    BinaryCriticalPoint,
    CriticalPoint,
    Density,
    Spinodal,
    StabilitySpinodals,
    answer,
    blend_critical_point,
    critical_point,
    critical_point_at_pressure,
    critical_point_at_temperature,
    density,
    pressure_spinodal,
    spinodal,
    stability_spinodals,
    stable_density,
)
from .kinds import Choice, Kind
from .library import BLOCK_BYTES, BOARD_BYTES, QUEUES, RECORD_BYTES, LibraryMissing
from .record import Record
from .refusals import Refusal, Refused
from .request import REQUEST_BYTES, Request

__version__ = "0.1.0"

__all__ = [
    "BLOCK_BYTES",
    "BOARD_BYTES",
    "QUEUES",
    "RECORD_BYTES",
    "REQUEST_BYTES",
    "BinaryCriticalPoint",
    "Blend",
    "Board",
    "Choice",
    "Component",
    "CriticalPoint",
    "Density",
    "Kind",
    "LibraryMissing",
    "Look",
    "Record",
    "Refusal",
    "Refused",
    "Request",
    "Spinodal",
    "StabilitySpinodals",
    "Ticket",
    "answer",
    "blend_critical_point",
    "components",
    "critical_point",
    "critical_point_at_pressure",
    "critical_point_at_temperature",
    "density",
    "pressure_spinodal",
    "spinodal",
    "stability_spinodals",
    "stable_density",
    "units",
]
