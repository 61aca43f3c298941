"""Requests: kind, number of components and the block that the proved writer makes; in files 642 bytes.
`Request.new` takes reduced numbers, the constructors named for calculations take SI."""
from dataclasses import dataclass, field
from typing import Optional, Union

from . import library
from .blend import Blend, Component
from .kinds import Choice, Kind
from .refusals import Refused
from .units import DENSITY, PRESSURE

REQUEST_BYTES = 2 + library.BLOCK_BYTES

# "vapor", "vapour", "liquid", or a starting density in mol/m^3
Phase = Union[str, float]

_BRANCHES = {"vapor": Choice.VAPOR, "vapour": Choice.VAPOR, "liquid": Choice.LIQUID}


def branch(phase: str) -> Choice:
    """The choice of a named phase; raises `ValueError` for another name."""
    try:
        return _BRANCHES[phase]
    except (KeyError, TypeError):
        raise ValueError(f"phase {phase!r} is not vapor, vapour or liquid") from None


@dataclass(frozen=True)
class Request:
    """A request for a job. Kind, N and block may be any: the library refuses those that do not fit. Its repr leaves out
    the block, which is the supplier's."""

    kind: int
    n: int
    block: bytes = field(repr=False)

    @classmethod
    def new(
        cls,
        kind: int,
        blend: Blend,
        choice: int = 0,
        temperature: float = 0.0,
        pressure: float = 0.0,
        start: float = 0.0,
    ) -> "Request":
        """The request that the proved writer makes of reduced numbers; raises `Refused` by the first of 2, 3, 11, 12,
        13, 14, 17, 15, 16."""
        n = len(blend.components)
        block = bytearray(library.BLOCK_BYTES)
        lists = (blend.coefficients(), blend.interactions, blend.fractions)
        number = library.write_block(kind, n, *lists, choice, temperature, pressure, start, block)
        if number != 0:
            raise Refused(number)
        return cls(int(kind), n, bytes(block))

    @classmethod
    def density(cls, blend: Blend, temperature: float, pressure: float, phase: Phase) -> "Request":
        """Kind 1: the density at K and Pa, searched from a phase or from a density in mol/m^3."""
        reduced = PRESSURE.from_si(pressure)
        if isinstance(phase, str):
            return cls.new(Kind.DENSITY, blend, branch(phase), temperature, reduced)
        return cls.new(Kind.DENSITY, blend, Choice.START, temperature, reduced, DENSITY.from_si(phase))

    @classmethod
    def stable_density(cls, blend: Blend, temperature: float, pressure: float) -> "Request":
        """Kind 2: the density of the stable phase at K and Pa."""
        return cls.new(Kind.STABLE_DENSITY, blend, 0, temperature, PRESSURE.from_si(pressure))

    @classmethod
    def pressure_spinodal(cls, blend: Blend, temperature: float, start: float) -> "Request":
        """Kind 3: the spinodal at K that a search from a density in mol/m^3 comes to."""
        return cls.new(Kind.PRESSURE_SPINODAL, blend, 0, temperature, 0.0, DENSITY.from_si(start))

    @classmethod
    def spinodal(cls, blend: Blend, temperature: float, phase: str) -> "Request":
        """Kind 4: the spinodal of the vapour or liquid branch at K."""
        return cls.new(Kind.SPINODAL_BRANCH, blend, branch(phase), temperature)

    @classmethod
    def critical_point(
        cls, component: Component, temperature: Optional[float] = None, start: Optional[float] = None
    ) -> "Request":
        """Kind 5: the critical point of a component; the search may start from K and mol/m^3 (+0 is none given)."""
        return cls._critical(Kind.CRITICAL_POINT, Blend.pure(component), temperature, start)

    @classmethod
    def stability_spinodals(cls, component: Component, temperature: float) -> "Request":
        """Kind 6: both spinodals of a component at K by its stability condition."""
        return cls.new(Kind.STABILITY_SPINODALS, Blend.pure(component), 0, temperature)

    @classmethod
    def blend_critical_point(
        cls, blend: Blend, temperature: Optional[float] = None, start: Optional[float] = None
    ) -> "Request":
        """Kind 7: the critical point of a blend of two; the search may start from K and mol/m^3 (+0 is none given)."""
        return cls._critical(Kind.BLEND_CRITICAL_POINT, blend, temperature, start)

    @classmethod
    def critical_point_at_temperature(
        cls, blend: Blend, temperature: float, start: Optional[float] = None
    ) -> "Request":
        """Kind 8: the critical point of two components at K. The search begins at the blend's fractions and may start
        from mol/m^3 (+0 is none given)."""
        return cls._critical(Kind.CRITICAL_POINT_AT_TEMPERATURE, blend, temperature, start)

    @classmethod
    def critical_point_at_pressure(
        cls, blend: Blend, pressure: float, temperature: Optional[float] = None, start: Optional[float] = None
    ) -> "Request":
        """Kind 9: the critical point of two components at Pa. The search begins at the blend's fractions and may start
        from K and mol/m^3 (+0 is none given; without a temperature it is 300 K)."""
        reduced = PRESSURE.from_si(pressure)
        return cls._critical(Kind.CRITICAL_POINT_AT_PRESSURE, blend, temperature, start, reduced)

    @classmethod
    def _critical(
        cls,
        kind: Kind,
        blend: Blend,
        temperature: Optional[float],
        start: Optional[float],
        reduced_pressure: float = 0.0,
    ) -> "Request":
        # +0 is how the block says that none is given
        density = 0.0 if start is None else DENSITY.from_si(start)
        return cls.new(kind, blend, 0, 0.0 if temperature is None else temperature, reduced_pressure, density)

    @classmethod
    def from_bytes(cls, data: bytes) -> "Request":
        """The request of 642 bytes; raises `ValueError` for another length."""
        if len(data) != REQUEST_BYTES:
            raise ValueError(f"a request has {REQUEST_BYTES} bytes, not {len(data)}")
        return cls(data[0], data[1], bytes(data[2:]))

    def to_bytes(self) -> bytes:
        """The 642 bytes; raises `ValueError` where kind or N is no byte or the block has not 640."""
        if len(self.block) != library.BLOCK_BYTES:
            raise ValueError(f"a block has {library.BLOCK_BYTES} bytes, not {len(self.block)}")
        return bytes([self.kind, self.n]) + self.block
