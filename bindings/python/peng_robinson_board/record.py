"""Records: the 64 bytes that a finished job leaves, public fields first, then the sealed part (document 01)."""
import struct
from dataclasses import dataclass, field
from typing import List, Optional, Tuple

from .kinds import Value, describe
from .library import QUEUES, RECORD_BYTES
from .refusals import Refused


def bits(number: float) -> str:
    """A float's bits in 16 upper-case hexadecimal digits; every NaN is one value."""
    if number != number:
        return "7FF8000000000000"
    return struct.pack(">d", number).hex().upper()


@dataclass(frozen=True)
class Record:
    """A record; its values are reduced numbers. In one made without a board ticket and queue are 0. Its repr shows the
    public fields alone."""

    ticket: int
    kind: int
    queue: int
    status: int = field(repr=False)
    values: Tuple[float, float, float] = field(repr=False)
    evaluations: int = field(repr=False)
    data: bytes = field(repr=False, compare=False)

    @classmethod
    def from_bytes(cls, data: bytes) -> "Record":
        """The record of 64 bytes; raises `ValueError` for another length. Bytes that are kept zero are not read."""
        if len(data) != RECORD_BYTES:
            raise ValueError(f"a record has {RECORD_BYTES} bytes, not {len(data)}")
        ticket, kind, queue, status, first, second, third, evaluations = struct.unpack("<QBB6xQdddQ8x", data)
        return cls(ticket, kind, queue, status, (first, second, third), evaluations, bytes(data))

    def to_bytes(self) -> bytes:
        """The 64 bytes as they came."""
        return self.data

    def plausible(self) -> bool:
        """Whether kind, queue and the zeros after them are such as a board writes; kinds of later libraries pass."""
        return self.kind != 0 and self.queue < QUEUES and not any(self.data[10:16])

    @property
    def refused(self) -> Optional[Refused]:
        """The refusal that the sealed status says, or none."""
        return Refused(self.status, self) if self.status != 0 else None

    @property
    def bits(self) -> Tuple[str, str, str]:
        first, second, third = self.values
        return bits(first), bits(second), bits(third)

    def handed_out(self) -> List[Tuple[Value, float]]:
        """The values that the kind hands out and their reduced numbers; none after a refusal or of an unknown kind."""
        description = describe(self.kind)
        if description is None or self.status != 0:
            return []
        return list(zip(description.values, self.values))

    def line(self) -> str:
        """Kind, status, three floats as bits, evaluations: the line of document 01's program."""
        return " ".join([str(self.kind), str(self.status), *self.bits, str(self.evaluations)])
