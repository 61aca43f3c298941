"""The subcommands that calculate, and `write`, which writes their requests to a file."""
import argparse
import sys
from dataclasses import dataclass
from typing import Any, Callable, Dict, List, Optional, Tuple

from . import kinds, lines
from .arguments import (
    PHASES,
    Usage,
    blend_arguments,
    blend_of,
    density_search_arguments,
    phase_of,
    pressure_argument,
    real,
    temperature_argument,
)
from .blend import Blend
from .calculations import answer
from .kinds import Kind
from .output import Machine, Outcome, aligned, complain, output_arguments, tell, text, value_pairs
from .refusals import Refused
from .request import Request


@dataclass(frozen=True)
class Job:
    """A request to be written, and the phase that it asks for, if it names one."""

    kind: Kind
    phase: Optional[str]
    request: Callable[[], Request]


@dataclass(frozen=True)
class Task:
    """What a command line asks for: the conditions to be shown, and one or more jobs."""

    given: List[Tuple[str, str]]
    jobs: List[Job]


def _conditions(
    blend: Blend,
    temperature: Optional[float] = None,
    pressure: Optional[float] = None,
    start: Optional[float] = None,
) -> List[Tuple[str, str]]:
    """What was given, in SI."""
    if len(blend.components) == 1:
        given = [("component", blend.components[0].name)]
    else:
        parts = zip(blend.components, blend.fractions)
        given = [("blend", ", ".join(f"{one.name} {text(fraction)}" for one, fraction in parts))]
    for name, number, unit in (
        ("at temperature", temperature, "K"), ("at pressure", pressure, "Pa"), ("from density", start, "mol/m^3")
    ):
        if number is not None:
            given.append((name, f"{text(number)} {unit}"))
    return given


def density_task(arguments: argparse.Namespace) -> Task:
    blend, at = blend_of(arguments), (arguments.temperature, arguments.pressure)
    begin = arguments.start if arguments.phase is None else arguments.phase
    job = Job(Kind.DENSITY, arguments.phase, lambda: Request.density(blend, *at, begin))
    return Task(_conditions(blend, *at, arguments.start), [job])


def stable_task(arguments: argparse.Namespace) -> Task:
    blend, at = blend_of(arguments), (arguments.temperature, arguments.pressure)
    job = Job(Kind.STABLE_DENSITY, None, lambda: Request.stable_density(blend, *at))
    return Task(_conditions(blend, *at), [job])


def spinodal_task(arguments: argparse.Namespace) -> Task:
    blend, temperature, start = blend_of(arguments), arguments.temperature, arguments.start
    if arguments.stability:
        if len(blend.components) != 1:
            raise Usage("--stability is for one pure component")
        component = blend.components[0]
        job = Job(Kind.STABILITY_SPINODALS, None, lambda: Request.stability_spinodals(component, temperature))
        return Task(_conditions(blend, temperature), [job])
    given = _conditions(blend, temperature, None, start)
    if start is not None:
        job = Job(Kind.PRESSURE_SPINODAL, None, lambda: Request.pressure_spinodal(blend, temperature, start))
        return Task(given, [job])

    def branch(phase: str) -> Job:
        return Job(Kind.SPINODAL_BRANCH, phase, lambda: Request.spinodal(blend, temperature, phase))

    return Task(given, [branch(phase) for phase in ([arguments.phase] if arguments.phase else ["vapor", "liquid"])])


def critical_task(arguments: argparse.Namespace) -> Task:
    alone = len(arguments.components) == 1
    for word in arguments.components:
        if ("=" in word) == alone:
            has = "a fraction" if alone else "no fraction"
            raise Usage(f"{word!r} has {has}: critical takes one component without, or two with their mole fractions")
    blend, start = blend_of(arguments), (arguments.temperature, arguments.start)
    if alone:
        job = Job(Kind.CRITICAL_POINT, None, lambda: Request.critical_point(blend.components[0], *start))
    else:
        job = Job(Kind.BLEND_CRITICAL_POINT, None, lambda: Request.blend_critical_point(blend, *start))
    # 0 is none given
    given = _conditions(blend, None, None, arguments.start or None)
    if arguments.temperature:
        given.insert(1, ("from temperature", f"{text(arguments.temperature)} K"))
    return Task(given, [job])


def outcome_of(job: Job) -> Outcome:
    """A job written and answered; a refusal of the writer or the call is an outcome too."""
    fields: Dict[str, Any] = {"phase": job.phase}
    try:
        return Outcome(int(job.kind), answer(job.request()), 0, fields)
    except Refused as refused:
        return Outcome(int(job.kind), None, refused.number, fields)


def one_spinodal(outcome: Outcome) -> bool:
    """Whether kind 6 handed out one spinodal twice, but for the last digits, as it does far below the critical
    temperature, where its search for the liquid spinodal comes to the vapour one."""
    if outcome.kind != Kind.STABILITY_SPINODALS or outcome.record is None or outcome.status != 0:
        return False
    vapor, liquid, _ = outcome.record.values
    return not liquid > vapor * (1.0 + 1e-6)


def run_calculation(arguments: argparse.Namespace) -> int:
    task = arguments.task(arguments)
    outcomes = [outcome_of(job) for job in task.jobs]
    if any(one_spinodal(outcome) for outcome in outcomes):
        complain(f"{arguments.prog}: both searches came to the one spinodal; without --stability kind 4 searches each branch")
    if arguments.json or arguments.csv:
        machine = Machine(arguments, ["phase"])
        for outcome in outcomes:
            machine.write(outcome)
    elif any(outcome.status == 0 for outcome in outcomes):
        blocks = [task.given]
        for outcome in outcomes:
            if outcome.status == 0:
                phase = outcome.fields["phase"]
                by = f"kind {outcome.kind} ({kinds.title(outcome.kind)}), {outcome.evaluations} evaluations"
                # of kind 1 it is where the search begins, and the density found may be of the other phase
                label = "search from" if outcome.kind == Kind.DENSITY else "phase"
                block = [(label, phase)] if phase is not None else []
                blocks.append([*block, *value_pairs(outcome, arguments), ("answered by", by)])
        width = max(len(name) for block in blocks for name, _ in block)
        padded = [[(name.ljust(width), said) for name, said in block] for block in blocks]
        # conditions and one answer stand together, several answers apart
        joint = "" if len(padded) == 2 else "\n"
        sys.stdout.write(joint.join(aligned(block) for block in padded))
    refused = [outcome for outcome in outcomes if outcome.status != 0]
    if refused:
        sys.stdout.flush()
    if len({outcome.status for outcome in refused}) == 1 and len(refused) == len(outcomes):
        tell(arguments.prog, refused[0].status)
    else:
        for outcome in refused:
            tell(f"{arguments.prog}: {outcome.fields['phase']}", outcome.status)
    return 2 if refused else 0


def run_write(arguments: argparse.Namespace) -> int:
    task = arguments.task(arguments)
    data = b"".join(job.request().to_bytes() for job in task.jobs)
    if arguments.output not in (None, "-"):
        with open(arguments.output, "wb") as file:
            file.write(data)
        return 0
    if sys.stdout.isatty():
        raise Usage("a request is binary: name a file with -o, or redirect standard output")
    sys.stdout.buffer.write(data)
    sys.stdout.buffer.flush()
    return 0


def _density_arguments(parser: argparse.ArgumentParser) -> None:
    blend_arguments(parser)
    density_search_arguments(parser)


def _stable_arguments(parser: argparse.ArgumentParser) -> None:
    blend_arguments(parser)
    temperature_argument(parser)
    pressure_argument(parser)


def _spinodal_arguments(parser: argparse.ArgumentParser) -> None:
    blend_arguments(parser)
    temperature_argument(parser)
    which = parser.add_mutually_exclusive_group()
    which.add_argument("--phase", type=phase_of, choices=PHASES, help="one branch (kind 4); both if none is named")
    which.add_argument("--start", type=real, metavar="DENSITY", help="search from a density in mol/m^3 (kind 3)")
    which.add_argument("--stability", action="store_true", help="both of one component by its stability (kind 6)")


def _critical_arguments(parser: argparse.ArgumentParser) -> None:
    blend_arguments(parser, "without a fraction where it stands alone; a blend has two, with their mole fractions")
    parser.add_argument(
        "--temperature", type=real, metavar="K", help="temperature in K that the search begins at (0: none given)"
    )
    parser.add_argument(
        "--start", type=real, metavar="DENSITY", help="density in mol/m^3 that the search begins at (0: none given)"
    )


# name, what it does, its arguments, its task, its run
CALCULATIONS: List[Tuple[str, str, Callable[..., None], Callable[..., Any], Callable[..., int]]] = [
    ("density", "density at a temperature and pressure (kind 1)", _density_arguments, density_task, run_calculation),
    ("stable", "density of the stable phase (kind 2)", _stable_arguments, stable_task, run_calculation),
    ("spinodal", "spinodals at a temperature (kinds 4, 3 and 6)", _spinodal_arguments, spinodal_task, run_calculation),
    (
        "critical",
        "critical point of a component (kind 5) or of a blend of two (kind 7)",
        _critical_arguments,
        critical_task,
        run_calculation,
    ),
    (
        "critical-line",
        "critical points of two components at a temperature (kind 8) or pressure (kind 9), one or a table",
        lines.line_arguments,
        lines.line_task,
        lines.run_line,
    ),
]


def add_parsers(subparsers: Any) -> None:
    for name, what, add_arguments, task, run in CALCULATIONS:
        parser = subparsers.add_parser(name, help=what, description=what)
        add_arguments(parser)
        output_arguments(parser)
        parser.set_defaults(run=run, task=task, prog=parser.prog)
    what = "write the request of a calculation to a file, 642 bytes; for both spinodals two requests, for a table many"
    writer = subparsers.add_parser("write", help=what, description=what)
    requests = writer.add_subparsers(metavar="CALCULATION", required=True)
    for name, what, add_arguments, task, _ in CALCULATIONS:
        parser = requests.add_parser(name, help=what, description=f"request for: {what}")
        add_arguments(parser)
        parser.add_argument("-o", "--output", metavar="FILE", help="file to write; standard output where none is named")
        parser.set_defaults(run=run_write, task=task, prog=parser.prog)
