"""Pictures of isotherms, of the spinodal dome, of a critical line and of a search's convergence: the subcommand
`prboard plot`. curves.py collects the numbers; only drawing them needs matplotlib."""
import argparse
import io
import json
import sys
import textwrap
import warnings
from pathlib import Path
from typing import Any, Callable, Iterable, List, Optional

from .arguments import Usage, blend_arguments, blend_of, density_search_arguments, real
from .curves import SAME_DENSITY, Numbers, convergence, critical_line, dome, isotherms
from .lines import LINE_COMPONENTS, line_blend

FORMATS = (".png", ".svg", ".pdf")

# Okabe and Ito's colours, which colour-blind readers can tell apart
BLACK, ORANGE, BLUE, VERMILION, GREY = "#000000", "#E69F00", "#0072B2", "#D55E00", "#6E6E6E"

WIDTH, HEIGHT, DPI = 1200, 800, 150  # in dots, and dots per inch

_STYLE = {
    "font.size": 10.0,
    "axes.titlesize": 12.0,
    "axes.grid": True,
    "grid.color": "#DDDDDD",
    "grid.linewidth": 0.6,
    "axes.axisbelow": True,
    "legend.framealpha": 0.95,
    "svg.hashsalt": "peng_robinson_board",
}

KMOL = 1e-3  # mol/m^3 to kmol/m^3
BAR = 1e-5  # Pa to bar


def _kmol(densities: Iterable[float]) -> List[float]:
    return [KMOL * density for density in densities]


def _bar(pressures: Iterable[float]) -> List[float]:
    return [BAR * pressure for pressure in pressures]


def _title(about: str, numbers: Numbers, conditions: str = "") -> str:
    parts = numbers["components"]
    names = [one["name"] if len(parts) == 1 else f"{one['name']} {one['fraction']:g}" for one in parts]
    return _plain(f"{about}: {', '.join(names)}{conditions}")


def _plain(text: str) -> str:
    # a dollar sign would begin a formula
    return textwrap.fill(text.replace("$", "\\$"), 75)


def _caption(figure: Any, sentences: Iterable[str]) -> None:
    """Sentences under the axes, in lines of their own."""
    text = "\n".join(line for sentence in sentences for line in textwrap.wrap(sentence, 140))
    figure.supxlabel(text, x=0.01, ha="left", fontsize=8.0, color="#444444", linespacing=1.4)


def draw_isotherms(figure: Any, numbers: Numbers) -> None:
    from matplotlib import colormaps

    axes = figure.subplots()
    curves = numbers["isotherms"]
    # dark is cold; the map's light end is left out
    shades = [colormaps["viridis"](0.88 * place / max(len(curves) - 1, 1)) for place in range(len(curves))]
    for one, shade in zip(curves, shades):
        label: Optional[str] = f"{one['temperature']:g} K"
        for branch in one["branches"]:
            densities, pressures = list(branch["densities"]), list(branch["pressures"])
            spinodal = one["spinodals"] and one["spinodals"][branch["phase"]]
            if spinodal and spinodal["pressure"] <= numbers["highest_pressure"]:
                # the branch ends in its spinodal
                place = len(densities) if branch["phase"] == "vapor" else 0
                densities.insert(place, spinodal["density"])
                pressures.insert(place, spinodal["pressure"])
            axes.plot(_kmol(densities), _bar(pressures), color=shade, linewidth=1.8, label=label)
            label = None

    curve, critical = numbers["spinodal_curve"], numbers["critical_point"]
    line = [point["vapor"] for point in curve] + ([critical] if critical else [])
    line += [point["liquid"] for point in reversed(curve)]
    if curve:
        axes.plot(
            _kmol(point["density"] for point in line), _bar(point["pressure"] for point in line),
            color=GREY, linewidth=0.8, linestyle="--", label="line through the spinodals", zorder=1.5,
        )
    ends = [one["spinodals"][phase] for one in curves if one["spinodals"] for phase in ("vapor", "liquid")]
    if ends:
        axes.plot(
            _kmol(point["density"] for point in ends), _bar(point["pressure"] for point in ends),
            linestyle="none", marker="o", markersize=4.5, markerfacecolor="white", markeredgecolor=BLACK,
            label="spinodals (kind 4)", zorder=3.0,
        )
    if critical:
        axes.plot(
            [KMOL * critical["density"]], [BAR * critical["pressure"]], linestyle="none", marker="*", markersize=12,
            color=VERMILION, markeredgecolor="white", markeredgewidth=0.6, zorder=4.0,
            label=f"critical point, {critical['temperature']:.2f} K",
        )
    highest = BAR * numbers["highest_pressure"]
    lowest = min([0.0] + [BAR * point["pressure"] for point in ends])
    axes.set_ylim(lowest - (0.04 * (highest - lowest) if lowest < 0.0 else 0.0), highest)
    axes.set_xlim(left=0.0)
    if lowest < 0.0:
        axes.axhline(0.0, color=GREY, linewidth=0.8)
    axes.set_xlabel("density / (kmol/m³)")
    axes.set_ylabel("pressure / bar")
    axes.set_title(_title("Isotherms", numbers))
    axes.legend(loc="best", ncols=1 if len(curves) <= 8 else 2)
    sentences = []
    if ends:
        sentences.append("Between its two spinodals an isotherm is mechanically unstable; that stretch is left out.")
    if lowest < 0.0:
        sentences.append("At pressures below 0 the liquid is under tension.")
    _caption(figure, sentences + numbers["notes"])


def draw_dome(figure: Any, numbers: Numbers) -> None:
    axes = figure.subplots()
    curve, critical, stability = numbers["spinodals"], numbers["critical_point"], numbers["stability_spinodals"]
    temperatures = [point["temperature"] for point in curve] + ([critical["temperature"]] if critical else [])
    sides = {}
    for phase, colour, name in (("vapor", BLUE, "vapour"), ("liquid", ORANGE, "liquid")):
        points = [point[phase] for point in curve] + ([critical] if critical else [])
        sides[phase] = _kmol(point["density"] for point in points)
        axes.plot(sides[phase], temperatures, color=colour, linewidth=2.0, label=f"{name} spinodal (kind 4)")
    axes.fill_betweenx(temperatures, sides["vapor"], sides["liquid"], color=GREY, alpha=0.12, linewidth=0.0)
    middle = len(temperatures) // 3
    axes.annotate(
        "unstable", (0.5 * (sides["vapor"][middle] + sides["liquid"][middle]), temperatures[middle]),
        ha="center", va="center", color="#444444",
    )
    if stability:
        axes.plot(
            _kmol(point[phase]["density"] for phase in ("vapor", "liquid") for point in stability),
            [point["temperature"] for _ in ("vapor", "liquid") for point in stability],
            linestyle="none", marker="o", markersize=5.0, markerfacecolor="none", markeredgecolor=BLACK,
            label="stability spinodals (kind 6)", zorder=3.0,
        )
    star, label = critical or numbers["blend_critical_point"], ""
    if critical:
        label = f"critical point, {critical['temperature']:.2f} K, {BAR * critical['pressure']:.2f} bar (kinds 5, 3)"
    elif star:
        label = f"critical point of the blend, {star['temperature']:.2f} K (kind 7)"
    if star:
        axes.plot(
            [KMOL * star["density"]], [star["temperature"]], linestyle="none", marker="*", markersize=13,
            color=VERMILION, markeredgecolor="white", markeredgewidth=0.6, zorder=4.0, label=label,
        )
    axes.set_xlim(left=0.0)
    axes.margins(y=0.08)
    axes.set_xlabel("density / (kmol/m³)")
    axes.set_ylabel("temperature / K")
    axes.set_title(_title("Spinodal dome", numbers))
    axes.legend(loc="lower center")
    sentences = []
    if stability and numbers["largest_difference"] <= SAME_DENSITY:
        sentences.append(
            f"Kinds 4 and 6 come to the same densities by different searches: the largest relative difference here is "
            f"{numbers['largest_difference']:.1e}."
        )
    if not critical:
        sentences.append("The dome's top is where dp/dρ = 0 ends at this composition, not the blend's critical point.")
    _caption(figure, sentences + numbers["notes"])


def draw_critical_line(figure: Any, numbers: Numbers) -> None:
    left, right = figure.subplots(1, 2)
    points, first = numbers["points"], numbers["components"][0]["name"]
    names = [one["name"] for one in numbers["components"]]
    known = [point for point in points if point["pressure"] is not None]
    left.plot(
        [point["temperature"] for point in known], _bar(point["pressure"] for point in known),
        color=BLUE, marker="o", markersize=3.0, linewidth=1.4, label="critical line (kind 8)",
    )
    right.plot(
        [point["fractions"][0] for point in points], [point["temperature"] for point in points],
        color=BLUE, marker="o", markersize=3.0, linewidth=1.4,
    )
    for end, name, colour, fraction in zip(numbers["critical_points"], names, (VERMILION, ORANGE), (1.0, 0.0)):
        star = {
            "linestyle": "none", "marker": "*", "markersize": 12, "color": colour, "markeredgecolor": "white",
            "markeredgewidth": 0.6, "zorder": 4.0,
        }
        label = _plain(f"{name} (kinds 5, 3)")
        left.plot([end["temperature"]], [BAR * end["pressure"]], label=label, **star)
        right.plot([fraction], [end["temperature"]], **star)
    left.set_xlabel("temperature / K")
    left.set_ylabel("pressure / bar")
    left.margins(y=0.1)
    right.set_xlabel(_plain(f"mole fraction of {first}"))
    right.set_ylabel("temperature / K")
    right.set_xlim(-0.03, 1.03)
    figure.suptitle(_plain(f"Critical line: {', '.join(names)}"), fontsize=12.0)
    right.legend(*left.get_legend_handles_labels(), loc="best", fontsize=8.0)
    sentences = [
        f"{len(points)} points at set temperatures; the pressure is the one at which kind 1 comes to the point's density "
        "and kind 9 to the point."
    ]
    _caption(figure, sentences + numbers["notes"])


def draw_convergence(figure: Any, numbers: Numbers) -> None:
    from matplotlib.ticker import MaxNLocator

    above, below = figure.subplots(2, 1, sharex=True)
    looks, answer, at = numbers["looks"], numbers["answer"], numbers["conditions"]
    evaluations = [look["evaluations"] for look in looks]
    above.plot(
        evaluations, _kmol(look["density"] for look in looks), color=BLUE, marker="o", markersize=4.5, linewidth=1.4,
        label="density of the latest evaluation, by look",
    )
    above.axhline(
        KMOL * answer["density"], color=VERMILION, linewidth=1.0, linestyle="--",
        label=f"density handed out: {answer['density']:.6g} mol/m³",
    )
    above.set_ylabel("density / (kmol/m³)")
    above.legend(loc="best")
    start = at["phase"] if isinstance(at["phase"], str) else f"from {at['phase']:g} mol/m³"
    conditions = f"; {at['temperature']:g} K, {BAR * at['pressure']:g} bar, {start}"
    above.set_title(_title("Density search", numbers, conditions))

    # 0 has no place on the logarithmic scale
    apart = [(look["evaluations"], look["distance"]) for look in looks if look["distance"] > 0.0]
    below.semilogy(
        [count for count, _ in apart], [distance for _, distance in apart],
        color=BLUE, marker="o", markersize=4.5, linewidth=1.4,
    )
    below.set_xlabel("evaluations")
    below.set_ylabel("distance to the density\nhanded out / (mol/m³)")
    below.xaxis.set_major_locator(MaxNLocator(integer=True))
    sentences = []
    if len(apart) < len(looks):
        sentences.append("Looks at the very density handed out have distance 0 and no point in the lower panel.")
    sentences.append("Evaluations of spinodal searches that the density search makes on its way are shown too.")
    sentences.append(
        f"The search ends after {answer['evaluations']} evaluations; the board hands its record out with the last of "
        f"the span's {numbers['span']:,} turns all the same."
    )
    _caption(figure, sentences + numbers["notes"])


DRAWINGS = {
    "isotherms": draw_isotherms, "dome": draw_dome, "critical-line": draw_critical_line, "convergence": draw_convergence
}


def picture(numbers: Numbers, ending: str) -> bytes:
    """A picture of collected numbers, in the format of a file ending of `FORMATS`."""
    try:
        from matplotlib import rc_context
        from matplotlib.figure import Figure
    except ImportError:
        raise Usage(
            "pictures need matplotlib, Debian's package python3-matplotlib for /usr/bin/python3; --json does without"
        ) from None
    file = io.BytesIO()
    with rc_context(_STYLE):
        figure = Figure(figsize=(WIDTH / DPI, HEIGHT / DPI), dpi=DPI, layout="constrained")
        DRAWINGS[numbers["plot"]](figure, numbers)
        # without a date the same numbers make the same file
        undated = {".png": {}, ".svg": {"Date": None}, ".pdf": {"CreationDate": None}}[ending]
        with warnings.catch_warnings():
            # of letters that the font lacks, which are drawn as boxes
            warnings.simplefilter("ignore")
            figure.savefig(file, format=ending[1:], metadata=undated)
    return file.getvalue()


def _write(path: str, data: bytes) -> None:
    try:
        Path(path).write_bytes(data)
    except OSError as fault:
        raise Usage(f"{path} cannot be written: {fault.strerror}") from None


def _run(arguments: argparse.Namespace) -> int:
    path = arguments.output
    if arguments.json:
        text = json.dumps(arguments.numbers(arguments), allow_nan=False) + "\n"
        if path in (None, "-"):
            sys.stdout.write(text)
        else:
            _write(path, text.encode())
        return 0
    path = path or f"{arguments.plot}.png"
    ending = Path(path).suffix.lower()
    if ending not in FORMATS:
        raise Usage(f"{path}: a picture's file ends in {', '.join(FORMATS)}")
    numbers = arguments.numbers(arguments)
    _write(path, picture(numbers, ending))
    for note in numbers["notes"]:
        print(f"{path}: {note}")
    return 0


def _isotherms(arguments: argparse.Namespace) -> Numbers:
    return isotherms(blend_of(arguments), arguments.temperatures, arguments.highest_pressure)


def _dome(arguments: argparse.Namespace) -> Numbers:
    return dome(blend_of(arguments), arguments.lowest_temperature)


def _critical_line(arguments: argparse.Namespace) -> Numbers:
    return critical_line(line_blend(arguments), arguments.lowest_temperature, arguments.highest_temperature)


def _convergence(arguments: argparse.Namespace) -> Numbers:
    phase = arguments.start if arguments.phase is None else arguments.phase
    return convergence(blend_of(arguments), arguments.temperature, arguments.pressure, phase)


def add_parser(subparsers: Any) -> None:
    """The subcommand `plot` with its four pictures."""
    what = "pictures of isotherms, of the spinodal dome, of a critical line, of a search's convergence"
    plots = subparsers.add_parser("plot", help=what, description=what).add_subparsers(metavar="PLOT", required=True)

    def add(
        name: str, description: str, numbers: Callable[[argparse.Namespace], Numbers], *fractions: str
    ) -> argparse.ArgumentParser:
        parser: argparse.ArgumentParser = plots.add_parser(name, help=description, description=description)
        blend_arguments(parser, *fractions)
        parser.add_argument(
            "-o", "--output", metavar="FILE", help=f"picture to write: png, svg or pdf by its ending ({name}.png)"
        )
        parser.add_argument("--json", action="store_true", help="the numbers in the place of a picture, in SI")
        parser.set_defaults(run=_run, prog=parser.prog, plot=name, numbers=numbers)
        return parser

    parser = add("isotherms", "pressure over density at given temperatures (kinds 1, 4 and 5)", _isotherms)
    parser.add_argument("--temperatures", type=real, nargs="+", required=True, metavar="K", help="temperatures in K")
    parser.add_argument(
        "--highest-pressure", type=real, metavar="PA", help="where the curves end, in Pa (1.5 times the critical one)"
    )
    parser = add("dome", "both spinodal densities over temperature, the critical point (kinds 4 to 7)", _dome)
    parser.add_argument(
        "--lowest-temperature", type=real, metavar="K", help="where the dome begins, in K (half of the critical one)"
    )
    what = "critical line of two components: pressure over temperature, temperature over composition (kind 8)"
    parser = add("critical-line", what, _critical_line, LINE_COMPONENTS)
    parser.add_argument(
        "--lowest-temperature", type=real, metavar="K", help="where the line begins, in K (the lower critical one)"
    )
    parser.add_argument(
        "--highest-temperature", type=real, metavar="K", help="where the line ends, in K (the higher critical one)"
    )
    parser = add("convergence", "a density search as looks at the board show it (kind 1)", _convergence)
    density_search_arguments(parser)
