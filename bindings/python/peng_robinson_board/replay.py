"""The subcommand `replay`: a readable list of calls made on a fresh board, a line for each, as the program
replay_calls prints them (crates/call_lines)."""
import argparse
import contextlib
import csv
import json
import struct
import sys
from dataclasses import dataclass
from typing import Any, BinaryIO, Dict, Iterator, List, Optional, TextIO

from .arguments import Usage
from .board import Board
from .library import BLOCK_BYTES, RECORD_BYTES
from .record import bits
from .refusals import Refused
from .request import Request

# the binary form of a list, which the programs read (crates/calls/specs/Calls.antt): what a call is by its number, and
# the longest record buffer of a turn
NUMBERS = {"submit": 0, "turn": 1, "look": 2}
LONGEST_RECORD = 256
# a block of another length than 640 is refused by 8; files without an end are not read
LONGEST_BLOCK = 2**24

FORM = """\
one call on a line; a # begins a comment:
  submit QUEUE REQUEST         REQUEST is a file that `prboard write` wrote, 642 bytes
  submit QUEUE KIND N BLOCK    BLOCK is a file with the block's bytes, or `zeros` for 640 zero bytes
  turn [LENGTH [TIMES]]        a turn with a record buffer of LENGTH bytes, 64 where none is given, so many times
  look QUEUE

prints a line for each: `ticket 7`, `turned 0`, `turned 1 TICKET KIND QUEUE`, `looked EVALUATIONS DENSITY` (bits) or
`refused 4`. A turn's length above 256 ends the list: `end` and the bytes left of it in its binary form. Refused calls
are answers like others and leave the exit status 0.
"""


@dataclass(frozen=True)
class Call:
    """A call of the list; a turn may stand for several."""

    what: str
    queue: int = 0
    request: Optional[Request] = None
    record_length: int = RECORD_BYTES
    times: int = 1

    def to_bytes(self) -> bytes:
        """One such call in the list's binary form: five numbers, and the block of a submit."""
        kind, n, block = (self.request.kind, self.request.n, self.request.block) if self.request is not None else (0, 0, b"")
        length = self.record_length if self.what == "turn" else len(block)
        return struct.pack("<5Q", NUMBERS[self.what], self.queue, kind, n, length) + block

    def size(self) -> int:
        """The bytes of all of them."""
        return self.times * len(self.to_bytes())


def _number(word: str) -> int:
    value = int(word, 0)
    if not 0 <= value < 2**64:
        raise ValueError(f"{word} is no number of eight bytes")
    return value


def _file(name: str) -> bytes:
    with open(name, "rb") as file:
        data = file.read(LONGEST_BLOCK + 1)
    if len(data) > LONGEST_BLOCK:
        raise ValueError(f"{name} has more than {LONGEST_BLOCK} bytes")
    return data


def _call(words: List[str]) -> Call:
    if words[0] == "submit" and len(words) == 3:
        return Call("submit", _number(words[1]), Request.from_bytes(_file(words[2])))
    if words[0] == "submit" and len(words) == 5:
        queue, kind, n = (_number(word) for word in words[1:4])
        block = bytes(BLOCK_BYTES) if words[4] == "zeros" else _file(words[4])
        return Call("submit", queue, Request(kind, n, block))
    if words[0] == "turn" and len(words) <= 3:
        numbers = [_number(word) for word in words[1:]]
        return Call("turn", 0, None, *numbers)
    if words[0] == "look" and len(words) == 2:
        return Call("look", _number(words[1]))
    raise ValueError("no call")


def calls(script: TextIO) -> Iterator[Call]:
    """The calls of a script; raises `Usage` with the line that is none."""
    for place, line in enumerate(script, 1):
        words = line.split("#")[0].split()
        if words:
            try:
                call = _call(words)
            except (ValueError, OSError) as fault:
                raise Usage(f"line {place}: {line.strip()}: {fault}") from None
            yield call


def made(board: Board, call: Call, records: Optional[BinaryIO] = None) -> List[Any]:
    """The answer of one call, as the words of its line. A record that it hands out goes to `records`."""
    try:
        if call.request is not None:
            return ["ticket", board.submit(call.queue, call.request).number]
        if call.what == "look":
            look = board.look(call.queue)
            return ["looked", look.evaluations, bits(look.density)]
        record = board.turn(call.record_length)
        if record is None:
            return ["turned", 0]
        if records is not None:
            records.write(record.to_bytes())
        return ["turned", 1, record.ticket, record.kind, record.queue]
    except Refused as refused:
        return ["refused", refused.number]


# what the words of a line are, by the first
_NAMES = {
    "ticket": ["ticket"],
    "looked": ["evaluations", "density_bits"],
    "turned": ["written", "ticket", "kind", "queue"],
    "refused": ["refusal"],
    "end": ["bytes_left"],
}
COLUMNS = ["answer", *dict.fromkeys(name for names in _NAMES.values() for name in names)]


def named(words: List[Any]) -> Dict[str, Any]:
    """An answer with names, for machines."""
    return {"answer": words[0], **dict(zip(_NAMES[words[0]], words[1:]))}


def replay(script: TextIO, records: Optional[BinaryIO] = None) -> Iterator[List[Any]]:
    """The answers to a script's calls on a fresh board; its records go to `records`, one after the other."""
    board = Board()
    listed = calls(script)
    for call in listed:
        if call.what == "turn" and call.record_length > LONGEST_RECORD and call.times > 0:
            yield ["end", call.size() + sum(later.size() for later in listed)]
            return
        for _ in range(call.times):
            yield made(board, call, records)


def run_replay(arguments: argparse.Namespace) -> int:
    with contextlib.ExitStack() as files:
        if arguments.script not in (None, "-"):
            script: TextIO = files.enter_context(open(arguments.script, encoding="utf-8"))
        elif sys.stdin is not None:
            script = sys.stdin
        else:
            raise Usage("standard input is closed")
        records = files.enter_context(open(arguments.records, "wb")) if arguments.records is not None else None
        table = csv.DictWriter(sys.stdout, COLUMNS, lineterminator="\n")
        if arguments.csv:
            table.writeheader()
        for words in replay(script, records):
            if arguments.csv:
                table.writerow(named(words))
            else:
                print(json.dumps(named(words)) if arguments.json else " ".join(map(str, words)))
    return 0


def add_parser(subparsers: Any) -> None:
    what = "make a readable list of calls on a fresh board, a line for each"
    parser = subparsers.add_parser(
        "replay", help=what, description=f"{what}\n\n{FORM}", formatter_class=argparse.RawDescriptionHelpFormatter
    )
    parser.add_argument("script", nargs="?", metavar="SCRIPT", help="a file; standard input where none is named, or -")
    form = parser.add_mutually_exclusive_group()
    form.add_argument("--json", action="store_true", help="a JSON object on a line for each call")
    form.add_argument("--csv", action="store_true", help="a header, then a row for each call")
    parser.add_argument("--records", metavar="FILE", help="file for the records that are handed out, 64 bytes each")
    parser.set_defaults(run=run_replay, prog=parser.prog)
