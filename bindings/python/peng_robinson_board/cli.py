"""The command line `prboard`. Exit status: 0 done, 1 bad usage, a file or the library at fault, 2 a refusal,
130 interrupted."""
import argparse
import csv
import io
import json
import os
import sys
from typing import Any, List, Optional

from . import __version__, commands, components, files, plot, replay
from .arguments import Parser, Usage
from .output import complain, tell
from .refusals import Refused

DESCRIPTION = """\
Densities, spinodals and critical points of blends by the Peng-Robinson equation of state.
Every number comes from the proved library. Given and shown are K, Pa and mol/m^3.

  prboard density propane=0.6 butane=0.4 --temperature 300 --pressure 5e5 --phase liquid
  prboard spinodal propane --temperature 300
  prboard critical propane=0.6 butane=0.4
  prboard critical-line propane butane --temperature 375:420:5
  prboard write stable propane=0.6 butane=0.4 --temperature 300 --pressure 5e5 | prboard answer -

Exit status: 0 done; 1 bad usage, or a file or the library at fault; 2 a refusal, told with its number.
"""


def run_components(arguments: argparse.Namespace) -> int:
    """The table of components, with the keys of its sources."""
    header = ["name", "formula", "critical temperature [K]", "critical pressure [Pa]", "acentric factor"]
    header += ["aliases", "sources"]
    rows: List[List[Any]] = []
    for entry in components.table().values():
        one = entry.component
        numbers = [one.critical_temperature, one.critical_pressure, one.acentric_factor]
        rows.append([one.name, entry.formula, *numbers, list(entry.aliases), list(entry.sources)])
    if arguments.json:
        keys = ["name", "formula", "critical_temperature", "critical_pressure", "acentric_factor", "aliases", "sources"]
        for row in rows:
            print(json.dumps(dict(zip(keys, row))))
        return 0
    if arguments.csv:
        writer = csv.writer(sys.stdout, lineterminator="\n")
        writer.writerow(header)
        writer.writerows([*row[:5], ";".join(row[5]), ";".join(row[6])] for row in rows)
        return 0
    shown = [header, *([*map(str, row[:5]), ", ".join(row[5]), ", ".join(row[6])] for row in rows)]
    widths = [max(len(row[place]) for row in shown) for place in range(len(header))]
    for row in shown:
        print("  ".join(entry.ljust(width) for entry, width in zip(row, widths)).rstrip())
    print("\nThe figures have not been compared with these publications: do so before a contract rests on them.")
    for key, citation in components.citations().items():
        print(f"{key}: {citation}")
    return 0


def parser() -> Parser:
    whole = Parser(prog="prboard", description=DESCRIPTION, formatter_class=argparse.RawDescriptionHelpFormatter)
    whole.add_argument("--version", action="version", version=f"prboard {__version__}")
    subparsers = whole.add_subparsers(metavar="COMMAND", required=True)
    commands.add_parsers(subparsers)
    files.add_parsers(subparsers)
    replay.add_parser(subparsers)
    plot.add_parser(subparsers)
    table = subparsers.add_parser("components", help="list the components that are known by name")
    form = table.add_mutually_exclusive_group()
    form.add_argument("--json", action="store_true", help="a JSON object on a line for each component")
    form.add_argument("--csv", action="store_true", help="a header, then a row for each component")
    table.set_defaults(run=run_components, prog=table.prog)
    return whole


def _let_go() -> None:
    """Has nothing left to be flushed to a standard output or error that takes no more."""
    for stream in (sys.stdout, sys.stderr):
        try:
            if stream is not None:
                stream.flush()
        except OSError:
            os.dup2(os.open(os.devnull, os.O_WRONLY), stream.fileno())


def _prints(arguments: argparse.Namespace) -> bool:
    """Whether what is asked for goes to standard output; a picture goes to a file, named or not."""
    picture = hasattr(arguments, "plot") and not arguments.json
    return not picture and getattr(arguments, "output", None) in (None, "-")


def main(words: Optional[List[str]] = None) -> int:
    """Runs a command line and answers its exit status; faults are told on standard error."""
    prog = "prboard"
    closed = sys.stdout is None
    if closed:
        sys.stdout = open(os.devnull, "w", encoding="utf-8")
    for stream in (sys.stdout, sys.stderr):
        # names may have letters that the terminal does not
        if isinstance(stream, io.TextIOWrapper):
            stream.reconfigure(errors="backslashreplace")
    try:
        try:
            arguments = parser().parse_args(words)
        except SystemExit as leaving:
            # argparse has told of bad usage, or printed help or the version
            status = leaving.code if isinstance(leaving.code, int) else 0
        else:
            prog = getattr(arguments, "prog", prog)
            if closed and _prints(arguments):
                raise Usage("standard output is closed")
            status = arguments.run(arguments)
        sys.stdout.flush()
        return status
    except Usage as fault:
        complain(f"{prog}: {fault}")
        return 1
    except Refused as refused:
        tell(prog, refused.number)
        return 2
    except BrokenPipeError:
        # the reader has seen enough
        return 0
    except KeyboardInterrupt:
        return 130
    except OSError as fault:
        complain(f"{prog}: {fault.filename}: {fault.strerror}" if fault.filename is not None else f"{prog}: {fault}")
        return 1
    except UnicodeError as fault:
        complain(f"{prog}: text that is not UTF-8: {fault}")
        return 1
    except MemoryError:
        complain(f"{prog}: not enough memory")
        return 1
    except Exception as fault:
        # none is known; a traceback would help no user
        complain(f"{prog}: a fault of this program: {type(fault).__name__}: {fault}")
        return 1
    finally:
        _let_go()
