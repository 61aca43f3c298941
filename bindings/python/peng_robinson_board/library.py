"""The proved functions of libgateway.a, called by ctypes through a shared object made from that archive.
Nothing is loaded before the first call, so that what needs no calculation works without the library."""
import contextlib
import ctypes
import os
import shlex
import subprocess
import threading
from pathlib import Path
from typing import Any, Optional, Sequence, Union

BOARD_BYTES = 24_584
QUEUES = 4
BLOCK_BYTES = 640
RECORD_BYTES = 64

PACKAGE = Path(__file__).resolve().parent
ARCHIVE = "libgateway.a"
SHARED_OBJECT = PACKAGE / "libgateway.so"
ARCHIVE_FOLDER_VARIABLE = "PENG_ROBINSON_BOARD_LIB"
SHARED_OBJECT_VARIABLE = "PENG_ROBINSON_BOARD_SO"

Bytes = Union[bytes, bytearray]


class LibraryMissing(OSError):
    """The proved library cannot be found, made or loaded; the text says what to run."""


def in_checkout() -> bool:
    """Whether this package stands in the project's checkout, rather than installed."""
    return (PACKAGE.parent / "make-shared").is_file()


def archive_path() -> Path:
    """Where the static archive is looked for."""
    folder = os.environ.get(ARCHIVE_FOLDER_VARIABLE)
    if folder:
        return Path(folder) / ARCHIVE
    return PACKAGE.parent.parent.parent / "target" / "staticlib" / ARCHIVE


def make_shared(shared: Path = SHARED_OBJECT) -> Path:
    """Makes the shared object from the archive where it is missing or of another archive. The script make-shared,
    the packaging and the loader all come here."""
    archive = archive_path()
    try:
        stamp = archive.stat().st_mtime_ns
    except OSError:
        raise LibraryMissing(
            f"{archive} is missing: `tools/build gateway` at the project's root writes it "
            f"({ARCHIVE_FOLDER_VARIABLE} names another folder to look in)"
        ) from None
    try:
        if shared.stat().st_mtime_ns == stamp:
            return shared
    except OSError:
        pass
    # under another name first, so that no one loads half of it
    made = shared.with_name(f"{shared.name}.{os.getpid()}")
    try:
        compiler = shlex.split(os.environ.get("CC", "")) or ["cc"]
    except ValueError as fault:
        raise LibraryMissing(f"CC is no command ({fault}): {os.environ['CC']}") from None
    whole = ["-Wl,--whole-archive", str(archive), "-Wl,--no-whole-archive"]
    try:
        subprocess.run(
            [*compiler, "-shared", "-o", str(made), *whole],
            check=True, stdin=subprocess.DEVNULL, stdout=subprocess.DEVNULL, stderr=subprocess.PIPE,
        )
        # the archive's time marks which archive it was made from
        os.utime(made, ns=(stamp, stamp))
        made.replace(shared)
    except subprocess.CalledProcessError as fault:
        # its first line names the cause, the last one only the linker's exit status
        said = fault.stderr.decode(errors="replace").strip().splitlines() or [f"exit status {fault.returncode}"]
        raise LibraryMissing(f"{compiler[0]} makes no shared object of {archive}: {said[0]}") from None
    except FileNotFoundError:
        raise LibraryMissing(f"no C compiler {compiler[0]!r} to make {shared} of {archive}: set CC") from None
    except OSError as fault:
        raise LibraryMissing(f"{shared} cannot be made of {archive}: {fault}") from None
    finally:
        with contextlib.suppress(OSError):
            made.unlink()
    return shared


def checkout_shared() -> Path:
    """The checkout's shared object, made if need be. One made before serves where the archive has been cleared away,
    unless a folder is named."""
    named = os.environ.get(ARCHIVE_FOLDER_VARIABLE)
    if not named and SHARED_OBJECT.is_file() and not archive_path().is_file():
        return SHARED_OBJECT
    return make_shared()


def shared_object() -> Path:
    """The shared object to load: the one that the variable names, the checkout's or the installed one."""
    named = os.environ.get(SHARED_OBJECT_VARIABLE)
    if named:
        if not Path(named).is_file():
            raise LibraryMissing(f"{named}, which {SHARED_OBJECT_VARIABLE} names, is no file: name another or unset it")
        return Path(named).resolve()
    if in_checkout():
        return checkout_shared()
    if not SHARED_OBJECT.is_file():
        raise LibraryMissing(
            f"{SHARED_OBJECT} is missing: install the package again with `pip install bindings/python` "
            f"at the project's root, or name a shared object by {SHARED_OBJECT_VARIABLE}"
        )
    return SHARED_OBJECT


_u64, _size, _double = ctypes.c_uint64, ctypes.c_size_t, ctypes.c_double
_bytes, _doubles = ctypes.POINTER(ctypes.c_uint8), ctypes.POINTER(ctypes.c_double)

_ARGUMENTS = {
    "pr_submit": [_bytes, _size, _u64, _u64, _u64, _bytes, _size, ctypes.POINTER(_u64)],
    "pr_turn": [_bytes, _size, _bytes, _size],
    "pr_look": [_bytes, _size, _u64, ctypes.POINTER(_u64), _doubles],
    "pr_quote": [_bytes, _size, _u64, _u64, ctypes.POINTER(_u64)],
    "pr_answer": [_u64, _u64, _bytes, _size, _bytes, _size],
    "pr_write_block": [
        _u64, _u64, _doubles, _size, _doubles, _size, _doubles, _size, _u64, _double, _double, _double, _bytes, _size,
    ],
}

_loaded: Optional[ctypes.CDLL] = None
_loading = threading.Lock()


def load() -> ctypes.CDLL:
    """The loaded library with its functions declared; raises `LibraryMissing`."""
    global _loaded
    with _loading:
        if _loaded is None:
            path = shared_object()
            try:
                library = ctypes.CDLL(str(path))
                for name, arguments in _ARGUMENTS.items():
                    function = getattr(library, name)
                    function.argtypes = arguments
                    function.restype = _u64
            except (OSError, AttributeError) as fault:
                raise LibraryMissing(
                    f"{path} cannot be used ({fault}): `tools/build gateway` at the project's root and then "
                    "bindings/python/make-shared make it anew"
                ) from None
            _loaded = library
        return _loaded


def _call(name: str, *words: Any) -> int:
    return int(getattr(load(), name)(*words))


def _whole(name: str, value: int) -> int:
    # ctypes would cut a number that does not fit to 64 bits
    if not 0 <= value < 2**64:
        raise ValueError(f"{name} {value} is no whole number below 2^64")
    return value


def _lent(data: bytearray) -> "ctypes.Array[ctypes.c_uint8]":
    """The bytes themselves, to be written by the call."""
    return (ctypes.c_uint8 * len(data)).from_buffer(data)


def _copied(data: Bytes) -> "ctypes.Array[ctypes.c_uint8]":
    return (ctypes.c_uint8 * len(data)).from_buffer_copy(data)


def _listed(values: Sequence[float]) -> "ctypes.Array[ctypes.c_double]":
    return (ctypes.c_double * len(values))(*values)


def submit(board: bytearray, queue: int, kind: int, n: int, block: Bytes, ticket: ctypes.c_uint64) -> int:
    """0 and the ticket, or a refusal, which leaves board and ticket as they were."""
    words = [_whole("queue", queue), _whole("kind", kind), _whole("N", n)]
    return _call("pr_submit", _lent(board), len(board), *words, _copied(block), len(block), ctypes.byref(ticket))


def turn(board: bytearray, record: bytearray) -> int:
    """1 if a record was written, 0 if none, or a refusal, which leaves both as they were."""
    return _call("pr_turn", _lent(board), len(board), _lent(record), len(record))


def look(board: bytearray, queue: int, evaluations: ctypes.c_uint64, density: ctypes.c_double) -> int:
    """0 and what the running job has come to, or a refusal, which leaves both numbers as they were."""
    queue = _whole("queue", queue)
    return _call("pr_look", _lent(board), len(board), queue, ctypes.byref(evaluations), ctypes.byref(density))


def quote(board: bytearray, queue: int, kind: int, turns: ctypes.c_uint64) -> int:
    """0 and the turns until a job submitted now would come out, or a refusal, which leaves the number as it was."""
    words = [_whole("queue", queue), _whole("kind", kind)]
    return _call("pr_quote", _lent(board), len(board), *words, ctypes.byref(turns))


def answer(kind: int, n: int, block: Bytes, record: bytearray) -> int:
    """A whole job without a board: 0 and bytes 16 to 63 of the record, or a refusal and the record as it was."""
    words = [_whole("kind", kind), _whole("N", n)]
    return _call("pr_answer", *words, _copied(block), len(block), _lent(record), len(record))


def write_block(
    kind: int,
    n: int,
    coefficients: Sequence[float],
    interactions: Sequence[float],
    fractions: Sequence[float],
    choice: int,
    temperature: float,
    pressure: float,
    start: float,
    block: bytearray,
) -> int:
    """0 and the block written, or a refusal and the block as it was. Numbers are reduced."""
    slices = [word for values in (coefficients, interactions, fractions) for word in (_listed(values), len(values))]
    words = [_whole("kind", kind), _whole("N", n), *slices, _whole("choice", choice)]
    return _call("pr_write_block", *words, temperature, pressure, start, _lent(block), len(block))
