"""The numbers of `prboard plot`, collected from the proved calls, in SI: isotherms up to their spinodals, the spinodal dome
over temperature, the critical line of two components, and a density search as looks at a board show it."""
from typing import Any, Callable, Dict, Iterable, List, Optional, Tuple, Union

from . import calculations
from .arguments import Usage
from .blend import Blend
from .board import Board
from .kinds import DESCRIPTIONS, Kind
from .library import QUEUES
from .lines import pressure_there
from .refusals import Refusal, Refused
from .request import Request
from .units import DENSITY, PRESSURE, TEMPERATURE

Numbers = Dict[str, Any]

NO_CRITICAL_PRESSURE = "The blend's critical point is not shown: no call gives its pressure."
NO_CRITICAL_POINT = "The blend's critical point is not shown: kind 7 is for two components."
CRITICAL_POINT_NOT_FOUND = "The blend's critical point is not shown: its search (kind 7) came to none."

# how finely curves are drawn
BRANCH_POINTS = 80
SUPERCRITICAL_POINTS = 160
DOME_POINTS = 120
STABILITY_EVERY = 6  # of the dome's temperatures one in so many is asked of kind 6 too
LINE_POINTS = 60
SAME_DENSITY = 1e-6  # kinds 4 and 6 agree within this part of the density

# the search had data that it could use and found nothing: no such phase, spinodal or branch there
_NOT_FOUND = frozenset(
    {
        Refusal.STARTING_DENSITY,
        Refusal.NOT_CONVERGED,
        Refusal.ITERATION_FAILED,
        Refusal.BOTH_PHASES_FAILED,
        Refusal.WRONG_BRANCH,
        Refusal.SUPERCRITICAL,
        Refusal.NOT_FINITE,
    }
)


def _found(calculation: Callable[..., Any], *arguments: Any) -> Any:
    """The calculation's answer, or none where the equation has none; other refusals are the caller's to see."""
    try:
        return calculation(*arguments)
    except Refused as refused:
        if refused.refusal in _NOT_FOUND:
            return None
        raise


def _head(plot: str, blend: Blend) -> Numbers:
    return {
        "plot": plot,
        "components": [
            {
                "name": one.name,
                "critical_temperature": one.critical_temperature,
                "critical_pressure": one.critical_pressure,
                "acentric_factor": one.acentric_factor,
                "fraction": fraction,
            }
            for one, fraction in zip(blend.components, blend.fractions)
        ],
        "interactions": list(blend.interactions),
        "units": {"temperature": TEMPERATURE.si_unit, "pressure": PRESSURE.si_unit, "density": DENSITY.si_unit},
    }


def _both_spinodals(blend: Blend, temperature: float) -> Optional[Tuple[Numbers, Numbers]]:
    """Vapour and liquid spinodal (kind 4), or none where one is missing or they are not in order."""
    vapor = _found(calculations.spinodal, blend, temperature, "vapor")
    liquid = _found(calculations.spinodal, blend, temperature, "liquid")
    if vapor is None or liquid is None or not vapor.density < liquid.density:
        return None
    return (
        {"density": vapor.density, "pressure": vapor.pressure},
        {"density": liquid.density, "pressure": liquid.pressure},
    )


def _critical_point(blend: Blend) -> Optional[Numbers]:
    """Critical point of a single component. Its pressure is a spinodal's, searched at the critical density, where the
    slope is 0 already."""
    if len(blend.components) != 1:
        return None
    point = calculations.critical_point(blend.components[0])
    pressure = calculations.pressure_spinodal(blend, point.temperature, point.density).pressure
    return {"temperature": point.temperature, "pressure": pressure, "density": point.density}


def _blend_critical_point(blend: Blend) -> Optional[Numbers]:
    """Critical point of a blend of two (kind 7), or none where its search fails. It lies outside the spinodals of kind 4:
    a blend comes apart into two phases before dp/drho is 0."""
    if len(blend.components) != 2:
        return None
    point = _found(calculations.blend_critical_point, blend)
    return {"temperature": point.temperature, "density": point.density} if point is not None else None


def _highest_spinodal_temperature(blend: Blend) -> float:
    """The highest temperature at which a blend has both spinodals, to about one part in 10^9, by halving."""
    hottest = max(one.critical_temperature for one in blend.components)
    above = hottest
    while _both_spinodals(blend, above) is not None and above < 1e3 * hottest:
        above *= 1.1
    below = above
    while _both_spinodals(blend, below) is None:
        above, below = below, 0.9 * below
        if below < 1e-2 * hottest:
            # none at all: the search's own refusal tells why
            calculations.spinodal(blend, hottest, "vapor")
            raise Usage("the blend has no spinodals")
    while above - below > 1e-9 * above:
        middle = 0.5 * (below + above)
        if _both_spinodals(blend, middle) is None:
            above = middle
        else:
            below = middle
    return below


def _spinodal_curve(blend: Blend, lowest: float, highest: float) -> List[Numbers]:
    """Both spinodals at temperatures from the lowest up to just below the highest, closer together near the latter,
    where the densities change as the square root of the temperature."""
    curve = []
    for step in range(DOME_POINTS, 0, -1):
        temperature = highest - (highest - lowest) * (step / DOME_POINTS) ** 2
        both = _both_spinodals(blend, temperature)
        if both is not None:
            curve.append({"temperature": temperature, "vapor": both[0], "liquid": both[1]})
    return curve


def _branch(
    blend: Blend, temperature: float, phases: Iterable[str], pressures: Iterable[float], inside: Callable[[float], bool]
) -> Numbers:
    """Densities at given pressures (kind 1) by the first of the phases that has one inside the branch; pressures
    where none has are dropped and counted, as are those where the density does not rise with the pressure."""
    points: List[Tuple[float, float]] = []
    dropped = 0
    for pressure in pressures:
        for phase in phases:
            answer = _found(calculations.density, blend, temperature, pressure, phase)
            if answer is not None and inside(answer.density) and (not points or points[-1][1] < answer.density):
                points.append((pressure, answer.density))
                break
        else:
            dropped += 1
    return {
        "phase": "/".join(phases),
        "pressures": [pressure for pressure, _ in points],
        "densities": [density for _, density in points],
        "dropped": dropped,
    }


def _towards(end: float, other: float, count: int) -> List[float]:
    """Pressures from near the spinodal's to another. Density goes as the root of the distance to the spinodal's
    pressure, so that these are squared steps. The spinodal itself is a point of its own."""
    return [other + (end - other) * (1.0 - (step / count) ** 2) for step in range(1, count + 1)]


def _through(flat: float, highest: float, count: int) -> List[float]:
    """Pressures from near 0 to the highest, closer together near the one where isotherms are flat as a cube is."""
    if highest <= flat:
        return [highest * step / count for step in range(1, count + 1)] if highest > 0.0 else []
    half = count // 2
    below = [flat * (1.0 - (step / half) ** 3) for step in range(half - 1, 0, -1)]
    above = [highest + (flat - highest) * (1.0 - (step / half) ** 3) for step in range(half + 1)]
    return below + above


def _subcritical_branches(
    blend: Blend, temperature: float, vapor: Numbers, liquid: Numbers, highest: float
) -> List[Numbers]:
    """The vapour branch from near pressure 0 up to its spinodal, the liquid one from its spinodal up."""
    pressures = sorted(_towards(vapor["pressure"], 1e-3 * vapor["pressure"], BRANCH_POINTS))
    pressures = [pressure for pressure in pressures if pressure <= highest]
    branches = [_branch(blend, temperature, ("vapor",), pressures, lambda found: bool(found < vapor["density"]))]
    if liquid["pressure"] < highest:
        pressures = _towards(liquid["pressure"], highest, BRANCH_POINTS)
        branches.append(_branch(blend, temperature, ("liquid",), pressures, lambda found: bool(found > liquid["density"])))
    return branches


def isotherms(blend: Blend, temperatures: Iterable[float], highest_pressure: Optional[float] = None) -> Numbers:
    """Branches of isotherms by kind 1 between the spinodals of kind 4, and the line through the spinodals."""
    critical = _critical_point(blend)
    top = critical["temperature"] if critical else _highest_spinodal_temperature(blend)
    # isotherms are flat near this pressure
    flat = critical["pressure"] if critical else calculations.spinodal(blend, top, "vapor").pressure
    highest = 1.5 * flat if highest_pressure is None else highest_pressure
    # what is no pressure at all is refused by its number
    Request.density(blend, top, highest, "liquid")

    notes = [] if critical else [NO_CRITICAL_PRESSURE]
    drawn: List[Numbers] = []
    for temperature in sorted(set(temperatures)):
        both = _both_spinodals(blend, temperature)
        if both is not None:
            branches = _subcritical_branches(blend, temperature, *both, highest)
        elif temperature < top:
            notes.append(f"{temperature:g} K is left out: a spinodal search (kind 4) does not converge there.")
            continue
        else:
            pressures = _through(flat, highest, SUPERCRITICAL_POINTS)
            branches = [_branch(blend, temperature, ("vapor", "liquid"), pressures, lambda found: True)]
        spinodals = {"vapor": both[0], "liquid": both[1]} if both else None
        drawn.append({"temperature": temperature, "spinodals": spinodals, "branches": branches})
    dropped = sum(branch["dropped"] for one in drawn for branch in one["branches"])
    if dropped:
        notes.append(f"{dropped} points are left out: refused, or not on their branch.")
    if not any(branch["densities"] for one in drawn for branch in one["branches"]):
        raise Usage(f"nothing to draw up to {highest:g} Pa: no density was found at these temperatures")
    subcritical = [one["temperature"] for one in drawn if one["spinodals"]]
    return {
        **_head("isotherms", blend),
        "highest_pressure": highest,
        "isotherms": drawn,
        "spinodal_curve": _spinodal_curve(blend, subcritical[0], top) if subcritical else [],
        "critical_point": critical,
        "notes": notes,
    }


def dome(blend: Blend, lowest_temperature: Optional[float] = None) -> Numbers:
    """Both spinodals over temperature by kind 4, of a single component also by kind 6; the critical point of a blend of
    two by kind 7."""
    critical = _critical_point(blend)
    top = critical["temperature"] if critical else _highest_spinodal_temperature(blend)
    lowest = 0.5 * top if lowest_temperature is None else lowest_temperature
    # what is no temperature at all is refused by its number
    _both_spinodals(blend, lowest)
    if not lowest < top:
        raise Usage(f"the lowest temperature {lowest:g} K is not below the highest of the spinodals, {top:g} K")
    curve = _spinodal_curve(blend, lowest, top)
    if not curve:
        raise Usage("nothing to draw: no spinodal search (kind 4) converged")
    notes: List[str] = []
    of_blend = _blend_critical_point(blend)
    if not critical and not of_blend:
        notes.append(CRITICAL_POINT_NOT_FOUND if len(blend.components) == 2 else NO_CRITICAL_POINT)
    if len(curve) < DOME_POINTS:
        notes.append(f"{DOME_POINTS - len(curve)} temperatures are left out: a spinodal search fails there.")
    stability = []
    if critical:
        asked = curve[::STABILITY_EVERY]
        stability = [found for found in (_stability_spinodals(blend, point) for point in asked) if found is not None]
        if len(stability) < len(asked):
            notes.append(f"Kind 6 refuses {len(asked) - len(stability)} of the {len(asked)} temperatures asked.")
        # far below the critical temperature its search for the liquid spinodal can come to the vapour one
        other = [point["temperature"] for point in stability if point["difference"] > SAME_DENSITY]
        if other:
            notes.append(
                f"Kind 6 comes to other densities than kind 4 at {len(other)} of the {len(asked)} temperatures asked, "
                f"the highest {max(other):g} K."
            )
    return {
        **_head("dome", blend),
        "spinodals": curve,
        "stability_spinodals": stability,
        "largest_difference": max((point["difference"] for point in stability), default=None),
        "critical_point": critical,
        "blend_critical_point": of_blend,
        "notes": notes,
    }


def _stability_spinodals(blend: Blend, point: Numbers) -> Optional[Numbers]:
    """Kind 6 at the temperature of a point of the dome, and how far it is from kind 4, as a part of the density."""
    answer = _found(calculations.stability_spinodals, blend.components[0], point["temperature"])
    if answer is None:
        return None
    return {
        "temperature": point["temperature"],
        "vapor": {"density": answer.vapor_density},
        "liquid": {"density": answer.liquid_density},
        "difference": max(
            abs(answer.vapor_density / point["vapor"]["density"] - 1.0),
            abs(answer.liquid_density / point["liquid"]["density"] - 1.0),
        ),
    }


def _line_points(blend: Blend, temperatures: Iterable[float]) -> List[Numbers]:
    """Points of the critical line (kind 8), each searched from the one before, or, where that fails, from the blend's
    fractions; temperatures without one are dropped."""
    points: List[Numbers] = []
    begin = blend
    start: Optional[float] = None
    for temperature in temperatures:
        found = _found(calculations.critical_point_at_temperature, begin, temperature, start)
        if found is None and start is not None:
            found = _found(calculations.critical_point_at_temperature, blend, temperature)
        if found is None:
            continue
        points.append(
            {
                "temperature": temperature,
                "pressure": pressure_there(blend, found),
                "fractions": list(found.fractions),
                "density": found.density,
            }
        )
        begin, start = Blend(blend.components, found.fractions, blend.interactions), found.density
    return points


def critical_line(
    blend: Blend, lowest_temperature: Optional[float] = None, highest_temperature: Optional[float] = None
) -> Numbers:
    """Points of the critical line of two components by kind 8, their pressures by kinds 1 and 9, between the critical
    temperatures of the two (kind 5) or those given."""
    # other than two components, and what is no temperature at all, are refused by their numbers
    for temperature in (lowest_temperature, highest_temperature, blend.components[0].critical_temperature):
        if temperature is not None:
            Request.critical_point_at_temperature(blend, temperature)
    ends = [_critical_point(Blend.pure(one)) for one in blend.components]
    between = sorted(end["temperature"] for end in ends if end is not None)
    lowest = between[0] if lowest_temperature is None else lowest_temperature
    highest = between[-1] if highest_temperature is None else highest_temperature
    if not lowest < highest:
        raise Usage(f"the lowest temperature {lowest:g} K is not below the highest, {highest:g} K")
    temperatures = [lowest + (highest - lowest) * step / LINE_POINTS for step in range(1, LINE_POINTS)]
    # from the middle to both sides
    half = len(temperatures) // 2
    points = _line_points(blend, temperatures[half:])
    points = [*reversed(_line_points(blend, reversed(temperatures[:half]))), *points]
    if not points:
        raise Usage("nothing to draw: no search for a point of the critical line (kind 8) converged")
    notes: List[str] = []
    if len(points) < len(temperatures):
        notes.append(f"{len(temperatures) - len(points)} temperatures are left out: the search for a point fails there.")
    without = sum(point["pressure"] is None for point in points)
    if without:
        notes.append(f"{without} points have no pressure: kind 9 does not come back to them.")
    return {**_head("critical-line", blend), "points": points, "critical_points": ends, "notes": notes}


def convergence(blend: Blend, temperature: float, pressure: float, phase: Union[str, float]) -> Numbers:
    """A density search (kind 1) as looks at a board show it after each turn of its queue, until it makes no more
    evaluations. A look shows the density that was evaluated last; the answer can lie one step further."""
    answer = calculations.density(blend, temperature, pressure, phase)
    board = Board()
    board.submit(0, Request.density(blend, temperature, pressure, phase))
    looks: List[Numbers] = []
    span = DESCRIPTIONS[Kind.DENSITY].span
    # the span's last turn frees the place, after which there is nothing to look at
    for _ in range(1, span):
        for _ in range(QUEUES):
            board.turn()
        look = board.look(0)
        if looks and looks[-1]["evaluations"] == look.evaluations:
            break
        looks.append(
            {
                "evaluations": look.evaluations,
                "density": look.density_si,
                "distance": abs(look.density_si - answer.density),
            }
        )
    return {
        **_head("convergence", blend),
        "conditions": {"temperature": temperature, "pressure": pressure, "phase": phase},
        "looks": looks,
        "answer": {"density": answer.density, "evaluations": answer.evaluations},
        "span": span,
        "notes": [],
    }
