"""What the subcommands of the command line share: the parser, numbers, and the words that name a blend."""
import argparse
import re
from typing import Any, List, NoReturn, Optional, Tuple

from . import components
from .blend import Blend, Component
from .output import complain


class Usage(Exception):
    """A command that cannot be followed as it was given: one line, exit status 1."""


class Parser(argparse.ArgumentParser):
    """Ends bad usage with exit status 1, since 2 is a refusal's, and takes -1e-3 and -inf for numbers."""

    def __init__(self, *words: Any, **settings: Any) -> None:
        settings.setdefault("allow_abbrev", False)
        super().__init__(*words, **settings)
        self._negative_number_matcher = re.compile(r"-(\d|\.\d|inf|nan)", re.IGNORECASE)

    def error(self, message: str) -> NoReturn:
        complain(self.format_usage().rstrip())
        complain(f"{self.prog}: {message}")
        self.exit(1)


def real(text: str) -> float:
    """A float, NaN and infinities included: the proved writer refuses those."""
    try:
        return float(text)
    except ValueError:
        raise argparse.ArgumentTypeError(f"{text!r} is no number") from None


def temperature_argument(parser: argparse.ArgumentParser) -> None:
    parser.add_argument("--temperature", type=real, required=True, metavar="K", help="temperature in K")


def pressure_argument(parser: argparse.ArgumentParser) -> None:
    parser.add_argument("--pressure", type=real, required=True, metavar="PA", help="pressure in Pa")


PHASES = ("liquid", "vapor")


def phase_of(text: str) -> str:
    """A phase by one name, whichever spelling was given."""
    return "vapor" if text == "vapour" else text


def density_search_arguments(parser: argparse.ArgumentParser) -> None:
    """The conditions of a density search (kind 1)."""
    temperature_argument(parser)
    pressure_argument(parser)
    begin = parser.add_mutually_exclusive_group(required=True)
    begin.add_argument("--phase", type=phase_of, choices=PHASES, help="the phase that the search begins in")
    begin.add_argument("--start", type=real, metavar="DENSITY", help="a density in mol/m^3 that the search begins at")


def blend_arguments(
    parser: argparse.ArgumentParser, fractions: str = "and its mole fraction, which one component alone may leave out"
) -> None:
    """The words COMPONENT=FRACTION and the option --kij."""
    parser.add_argument(
        "components",
        nargs="+",
        metavar="COMPONENT=FRACTION",
        help=f"a name of the table (prboard components) or NAME:TC:PC:OMEGA, critical values in K and Pa, {fractions}",
    )
    parser.add_argument(
        "--kij",
        action="append",
        default=[],
        metavar="NAME,NAME=K",
        help="interaction of a pair, 0 where not given; may be used several times",
    )


def component_of(text: str) -> Component:
    """The component that a word names."""
    try:
        return components.parse(text)
    except (KeyError, ValueError) as fault:
        raise Usage(str(fault)) from None


def _number_of(word: str, text: str) -> float:
    try:
        return float(text)
    except ValueError:
        raise Usage(f"{word!r}: {text!r} is no number") from None


def _pair_of(word: str, names: str, blend: Tuple[Component, ...]) -> Tuple[str, str]:
    """The two components that NAME,NAME stands for; names such as 1,3-butadiene have commas of their own."""

    def match(name: str) -> Optional[str]:
        for one in blend:
            if one.name.casefold() == name.casefold():
                return one.name
        try:
            found = components.find(name).name
        except KeyError:
            return None
        return found if any(one.name == found for one in blend) else None

    parts = names.split(",")
    pairs = []
    for cut in range(1, len(parts)):
        first, second = match(",".join(parts[:cut])), match(",".join(parts[cut:]))
        if first is not None and second is not None:
            pairs.append((first, second))
    if len(pairs) == 1:
        return pairs[0]
    if pairs:
        raise Usage(f"--kij {word!r} can be read as more than one pair of names")
    raise Usage(f"--kij {word!r} does not name two components of the blend as NAME,NAME=K")


def blend_of(arguments: argparse.Namespace) -> Blend:
    """The blend that the words and --kij name; raises `Usage`. The numbers are left to the proved writer."""
    parts: List[Component] = []
    fractions: List[float] = []
    for word in arguments.components:
        name, equals, fraction = word.rpartition("=")
        if not equals:
            if len(arguments.components) > 1:
                raise Usage(f"{word!r} has no fraction: write {word}=0.5 or the like")
            name, fraction = word, "1"
        component = component_of(name)
        if any(one.name.casefold() == component.name.casefold() for one in parts):
            raise Usage(f"the component {component.name} is named twice")
        parts.append(component)
        fractions.append(_number_of(word, fraction))
    kij = {}
    for word in arguments.kij:
        names, equals, value = word.rpartition("=")
        if not equals:
            raise Usage(f"--kij {word!r} is not NAME,NAME=K")
        pair = _pair_of(word, names, tuple(parts))
        if pair in kij:
            raise Usage(f"the interaction {pair[0]},{pair[1]} is given twice")
        kij[pair] = _number_of(f"--kij {word}", value)
    try:
        return Blend.of(parts, fractions, kij)
    except ValueError as fault:
        raise Usage(str(fault)) from None
