"""What the tests share: the project's folders, blocks packed by document 01's layout, and runs of the command line."""
import contextlib
import io
import os
import struct
import subprocess
import sys
from pathlib import Path
from typing import Any, Dict, List, NamedTuple, Optional, Sequence

from peng_robinson_board import cli

FOLDER = Path(__file__).resolve().parent.parent
PROJECT = FOLDER.parent.parent
LAUNCHER = PROJECT / "prboard"

PROPANE = (369.83, 4.248e6, 0.1523)
BUTANE = (425.12, 3.796e6, 0.2002)


def packed(
    coefficients: Sequence[float],
    interactions: Sequence[float],
    fractions: Sequence[float],
    choice: int,
    temperature: float,
    pressure: float,
    start: float,
) -> bytes:
    """A block by document 01: pairs of offset and length, then the parts packed from 16, then zeros."""
    parts = [struct.pack(f"<{len(values)}d", *values) for values in (coefficients, interactions, fractions)]
    parts.append(struct.pack("<Qddd", choice, temperature, pressure, start))
    pairs, offset = b"", 16
    for part in parts:
        pairs += struct.pack("<HH", offset, len(part))
        offset += len(part)
    return (pairs + b"".join(parts)).ljust(640, b"\0")


class Ran(NamedTuple):
    status: int
    out: bytes
    err: str

    @property
    def text(self) -> str:
        return self.out.decode()


def run(*words: str) -> Ran:
    """A command line in this process."""
    out, err = io.TextIOWrapper(io.BytesIO(), "utf-8"), io.TextIOWrapper(io.BytesIO(), "utf-8")
    with contextlib.redirect_stdout(out), contextlib.redirect_stderr(err):
        status = cli.main(list(words))
    out.flush()
    err.flush()
    return Ran(status, out.buffer.getvalue(), err.buffer.getvalue().decode())  # type: ignore[attr-defined]


def environment(**changes: Optional[str]) -> Dict[str, str]:
    """This process' environment with variables set, or cleared by None."""
    found = dict(os.environ, PYTHON=sys.executable)
    # what is left to be flushed at the end is part of what is tested
    found.pop("PYTHONUNBUFFERED", None)
    for name, value in changes.items():
        if value is None:
            found.pop(name, None)
        else:
            found[name] = value
    return found


def launch(words: List[str], data: bytes = b"", **changes: Optional[str]) -> Ran:
    """A command line in a process of its own, through the launcher."""
    done = subprocess.run(
        [str(LAUNCHER), *words], input=data, capture_output=True, env=environment(**changes), timeout=20, check=False
    )
    return Ran(done.returncode, done.stdout, done.stderr.decode())


def start(words: List[str], **settings: Any) -> "subprocess.Popen[bytes]":
    return subprocess.Popen([str(LAUNCHER), *words], env=environment(), **settings)
