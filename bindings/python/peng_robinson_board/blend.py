"""Components and blends as suppliers file them: critical values in K and Pa, mole fractions, binary interactions.
No number is checked here: the proved writer does that and refuses by number."""
from dataclasses import dataclass
from typing import Mapping, Optional, Sequence, Tuple


@dataclass(frozen=True)
class Component:
    name: str
    critical_temperature: float  # K
    critical_pressure: float  # Pa
    acentric_factor: float


@dataclass(frozen=True)
class Blend:
    """Components with their mole fractions, and the interactions k_ij by rows, i below j."""

    components: Tuple[Component, ...]
    fractions: Tuple[float, ...]
    interactions: Tuple[float, ...]

    @classmethod
    def of(
        cls,
        components: Sequence[Component],
        fractions: Sequence[float],
        kij: Optional[Mapping[Tuple[str, str], float]] = None,
    ) -> "Blend":
        """A blend with interactions by pairs of names, 0 for a pair that is not named. Raises `ValueError` for a
        component named twice, a pair named twice, and a name that no component has."""
        places = {component.name: place for place, component in enumerate(components)}
        if len(places) < len(components):
            raise ValueError("a component is named twice")
        given = {}
        for (first, second), value in (kij or {}).items():
            for name in (first, second):
                if name not in places:
                    raise ValueError(f"{name!r} of the interaction {first},{second} is no component of the blend")
            pair = (min(places[first], places[second]), max(places[first], places[second]))
            if pair[0] == pair[1]:
                raise ValueError(f"the interaction {first},{second} names one component twice")
            if pair in given:
                raise ValueError(f"the interaction {first},{second} is given twice")
            given[pair] = value
        n = len(components)
        pairs = [(i, j) for i in range(n) for j in range(i + 1, n)]
        return cls(tuple(components), tuple(fractions), tuple(given.get(pair, 0.0) for pair in pairs))

    @classmethod
    def pure(cls, component: Component) -> "Blend":
        return cls((component,), (1.0,), ())

    def coefficients(self) -> Tuple[float, ...]:
        """Critical temperature, critical pressure and acentric factor of each component, as the writer takes them."""
        return tuple(
            number
            for one in self.components
            for number in (one.critical_temperature, one.critical_pressure, one.acentric_factor)
        )
