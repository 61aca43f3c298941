"""The board of four queues: submit a request, take turns, look at a running job, ask when a job would come out."""
import ctypes
import threading
from typing import Any, NamedTuple, Optional, Tuple

from . import library
from .record import Record
from .refusals import Refused
from .request import Request
from .units import DENSITY


class Ticket(NamedTuple):
    """A job's number in its queue."""

    queue: int
    number: int


class Look(NamedTuple):
    """A running job's evaluations so far and the reduced density of the latest one, in kinds 8 and 9 the sum of the
    partial densities; 0 before any."""

    evaluations: int
    density: float

    @property
    def density_si(self) -> float:
        """In mol/m^3."""
        return DENSITY.to_si(self.density)


class Board:
    """A board, fresh or of given bytes. Calls of several threads on one board are made one after the other."""

    def __init__(self, data: Optional[bytes] = None) -> None:
        self._bytes = bytearray(library.BOARD_BYTES if data is None else data)
        self._lock = threading.Lock()

    def to_bytes(self) -> bytes:
        with self._lock:
            return bytes(self._bytes)

    def __reduce__(self) -> Tuple[Any, ...]:
        # a copy has a lock of its own
        return Board, (self.to_bytes(),)

    def submit(self, queue: int, request: Request) -> Ticket:
        """Brings a job to a queue; raises `Refused` by the first of 6, 1, 2, 3, 8, 4, and nothing has changed then."""
        ticket = ctypes.c_uint64()
        with self._lock:
            number = library.submit(self._bytes, queue, request.kind, request.n, request.block, ticket)
        if number != 0:
            raise Refused(number)
        return Ticket(queue, ticket.value)

    def turn(self, record_length: int = library.RECORD_BYTES) -> Optional[Record]:
        """Serves the queue whose turn it is: the record of the job that came out, or none; raises `Refused` by 6 or 5,
        and nothing has changed then."""
        record = bytearray(record_length)
        with self._lock:
            number = library.turn(self._bytes, record)
        if number == 1:
            return Record.from_bytes(bytes(record[: library.RECORD_BYTES]))
        if number != 0:
            raise Refused(number)
        return None

    def look(self, queue: int) -> Look:
        """What the queue's running job has come to; raises `Refused` by the first of 6, 1, 7."""
        evaluations, density = ctypes.c_uint64(), ctypes.c_double()
        with self._lock:
            number = library.look(self._bytes, queue, evaluations, density)
        if number != 0:
            raise Refused(number)
        return Look(evaluations.value, density.value)

    def quote(self, queue: int, kind: int) -> int:
        """How many turns of the board, whichever queues they serve, it takes until a job of the kind, submitted to the
        queue now, is handed out, that turn counted; raises `Refused` by the first of 6, 1, 2, 4. The number is exact if
        no turn and no other submit to the queue comes between quote and submit."""
        turns = ctypes.c_uint64()
        with self._lock:
            number = library.quote(self._bytes, queue, kind, turns)
        if number != 0:
            raise Refused(number)
        return turns.value
