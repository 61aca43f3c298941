"""The subcommands `record` and `answer`: files of records, 64 bytes each, and of requests, 642 bytes each."""
import argparse
import contextlib
import os
import stat
import sys
from typing import Any, BinaryIO, Iterator, List, Optional, Tuple

from . import kinds, refusals
from .arguments import Usage
from .calculations import answer
from .library import RECORD_BYTES
from .output import Machine, Outcome, aligned, complain, output_arguments, status_text, text, value_pairs, values_of
from .record import Record
from .refusals import Refused
from .request import REQUEST_BYTES, Request


@contextlib.contextmanager
def opened(name: str) -> Iterator[BinaryIO]:
    """A file to read; `-` is standard input."""
    if name == "-":
        if sys.stdin is None:
            raise Usage("standard input is closed")
        yield sys.stdin.buffer
    else:
        with open(name, "rb") as file:
            yield file


class Pieces:
    """The pieces of so many bytes in files one after the other. Files that cannot be read and pieces that are too
    short are told on standard error and do not stop the others."""

    def __init__(self, arguments: argparse.Namespace, size: int, what: str) -> None:
        self.prog, self.names = arguments.prog, arguments.files
        self.size, self.what = size, what
        self.faults = 0
        self.short = False
        # of the regular files: what standard input will bring is not known
        self.expected: Optional[int] = None
        with contextlib.suppress(OSError):
            states = [os.stat(name) for name in self.names]
            if all(stat.S_ISREG(state.st_mode) for state in states):
                self.expected = sum(state.st_size // size for state in states)

    def fault(self, line: str) -> None:
        self.faults += 1
        complain(f"{self.prog}: {line}")

    def __iter__(self) -> Iterator[Tuple[str, int, bytes]]:
        for name in self.names:
            try:
                with opened(name) as file:
                    yield from self._of_file(name, file)
            except BrokenPipeError:
                raise
            except OSError as fault:
                self.fault(f"{name}: {fault.strerror or fault}")

    def _of_file(self, name: str, file: BinaryIO) -> Iterator[Tuple[str, int, bytes]]:
        place = 0
        while True:
            piece = file.read(self.size)
            if len(piece) < self.size:
                break
            place += 1
            yield name, place, piece
        if piece:
            self.short = True
            after = f" after {place} {self.what}s" if place else ""
            self.fault(f"{name}: short: {len(piece)} bytes{after}, a {self.what} has {self.size}")
        elif place == 0:
            self.fault(f"{name}: empty, a {self.what} has {self.size} bytes")

    def label(self, name: str, place: int) -> str:
        return f"{name}:{place}" if len(self.names) > 1 else str(place)


class Progress:
    """A bar on standard error where that is a terminal. Lines that go to a terminal too push it down."""

    WIDTH = 40

    def __init__(self, expected: Optional[int]) -> None:
        self.expected = expected
        self.shown = ""
        self.on = sys.stderr is not None and sys.stderr.isatty() and expected != 1
        self.beside_lines = self.on and sys.stdout.isatty()

    def step(self, done: int) -> None:
        if not self.on:
            return
        if self.expected:
            part = min(done / self.expected, 1.0)
            bar = "#" * int(self.WIDTH * part)
            line = f"[{bar:<{self.WIDTH}}] {part:4.0%} of {self.expected} requests"
        else:
            line = f"{done} requests"
        if line != self.shown or self.beside_lines:
            self.shown = line
            sys.stderr.write(f"\r{line}")
            sys.stderr.flush()

    def before_line(self) -> None:
        """Makes room for a line on the same terminal."""
        if self.beside_lines:
            sys.stdout.flush()
            self.end()

    def end(self) -> None:
        if self.shown:
            sys.stderr.write("\r" + " " * len(self.shown) + "\r")
            sys.stderr.flush()


def _status(faults: int, refused: int) -> int:
    return 2 if refused else 1 if faults else 0


def record_pairs(outcome: Outcome, label: str, arguments: argparse.Namespace) -> List[Tuple[str, str]]:
    """What a record holds, for people."""
    assert outcome.record is not None
    record = outcome.record
    pairs = [
        ("record", label),
        ("ticket", str(record.ticket)),
        ("kind", f"{record.kind}, {kinds.title(record.kind)}"),
        ("queue", str(record.queue)),
        ("status", status_text(record.status)),
    ]
    if record.status != 0:
        pairs.append(("what to do", refusals.remedy(record.status)))
    return [*pairs, *value_pairs(outcome, arguments), ("evaluations", str(record.evaluations))]


def run_record(arguments: argparse.Namespace) -> int:
    pieces = Pieces(arguments, RECORD_BYTES, "record")
    machine = Machine(arguments, ["file", "record", "ticket", "queue"]) if arguments.json or arguments.csv else None
    seen = refused = 0
    for name, place, piece in pieces:
        record = Record.from_bytes(piece)
        if not record.plausible():
            pieces.fault(f"{name}: bytes {RECORD_BYTES * (place - 1)} to {RECORD_BYTES * place - 1} are no record of a board")
            continue
        fields = {"file": name, "record": place, "ticket": record.ticket, "queue": record.queue}
        outcome = Outcome(record.kind, record, 0, fields)
        if machine is not None:
            machine.write(outcome)
        else:
            block = aligned(record_pairs(outcome, pieces.label(name, place), arguments))
            sys.stdout.write(f"\n{block}" if seen else block)
        seen += 1
        refused += record.status != 0
    if refused:
        complain(f"{arguments.prog}: refused: {refused} of the records' jobs, {seen} in all")
    return _status(pieces.faults, refused)


def answer_line(outcome: Outcome, label: str, arguments: argparse.Namespace) -> str:
    """An answer on one line. With --bits it is the line of document 01's program."""
    if arguments.bits:
        return outcome.record.line() if outcome.record is not None else str(outcome.status)
    if outcome.status != 0:
        said = f"refused by {outcome.status}: {refusals.meaning(outcome.status)}"
    else:
        values = values_of(outcome, arguments)
        listed = ", ".join(f"{name.replace('_', ' ')} {text(number)} {unit}" for name, number, unit in values)
        said = f"{listed}; {outcome.evaluations} evaluations"
    return f"{label:>6}  kind {outcome.kind}  {kinds.title(outcome.kind):<31}  {said}"


def run_answer(arguments: argparse.Namespace) -> int:
    pieces = Pieces(arguments, REQUEST_BYTES, "request")
    machine = Machine(arguments, ["file", "request"]) if arguments.json or arguments.csv else None
    progress = Progress(pieces.expected)
    seen = refused = 0
    numbers = set()
    try:
        for name, place, piece in pieces:
            request = Request.from_bytes(piece)
            fields = {"file": name, "request": place}
            try:
                outcome = Outcome(request.kind, answer(request), 0, fields)
            except Refused as refusal:
                outcome = Outcome(request.kind, None, refusal.number, fields)
            progress.before_line()
            if machine is not None:
                machine.write(outcome)
            else:
                print(answer_line(outcome, pieces.label(name, place), arguments))
            if progress.beside_lines:
                sys.stdout.flush()
            seen += 1
            if outcome.status != 0:
                refused += 1
                numbers.add(outcome.status)
            progress.step(seen)
    finally:
        progress.end()
    if pieces.short and arguments.bits and machine is None:
        print("short")
    if refused:
        complain(f"{arguments.prog}: refused: {refused} of the requests, {seen} in all")
        for number in sorted(numbers):
            complain(f"{arguments.prog}: {number} ({refusals.name(number)}): what to do: {refusals.remedy(number)}")
    return _status(pieces.faults, refused)


def add_parsers(subparsers: Any) -> None:
    for name, run, what in (
        ("record", run_record, "tell what files of records hold, 64 bytes each"),
        ("answer", run_answer, "answer files of requests, 642 bytes each, a line for each"),
    ):
        parser = subparsers.add_parser(
            name, help=what, description=f"{what}. Exit status 2 where any is refused, else 1 where a file is at fault."
        )
        parser.add_argument("files", nargs="+", metavar="FILE", help="a file, or - for standard input")
        output_arguments(parser)
        parser.set_defaults(run=run, prog=parser.prog)
