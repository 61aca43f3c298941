"""Refusals by their numbers: what each means and what its causer can do (documents 01 and 02)."""
from enum import IntEnum
from typing import TYPE_CHECKING, Optional

if TYPE_CHECKING:
    from .record import Record


class Refusal(IntEnum):
    """A refusal that is known here. 1 to 8 are the caller's, 11 to 17 the data's, 21 to 27 the equation's."""

    QUEUE = 1
    KIND = 2
    COMPONENTS = 3
    QUEUE_FULL = 4
    RECORD_LENGTH = 5
    BOARD = 6
    NO_RUNNING_JOB = 7
    BLOCK_LENGTH = 8
    PAIRS = 11
    COEFFICIENTS = 12
    INTERACTIONS = 13
    FRACTIONS = 14
    CONDITIONS = 15
    CHOICE = 16
    SUM_OF_FRACTIONS = 17
    STARTING_DENSITY = 21
    NOT_CONVERGED = 22
    ITERATION_FAILED = 23
    BOTH_PHASES_FAILED = 24
    WRONG_BRANCH = 25
    SUPERCRITICAL = 26
    NOT_FINITE = 27


# number: what it means, what to do
_TEXTS = {
    Refusal.QUEUE: ("the queue is above 3", "name a queue from 0 to 3"),
    Refusal.KIND: ("the kind is not 1 to 9", "name a kind from 1 to 9"),
    Refusal.COMPONENTS: (
        "the number of components is not 1 to 8, or not 2 in kinds 7 to 9, critical points of two components",
        "give 1 to 8 components, for a critical point one (kind 5) or a blend of two (kind 7), and for a critical line "
        "two (kinds 8 and 9)",
    ),
    Refusal.QUEUE_FULL: (
        "the queue holds eight jobs",
        "take turns until the queue's oldest job has come out, then submit again",
    ),
    Refusal.RECORD_LENGTH: ("the record buffer has fewer than 64 bytes", "give a buffer of 64 bytes or more"),
    Refusal.BOARD: (
        "the board has not 24,584 bytes, or a number stored in it is out of its range",
        "begin with a fresh board, all zeros; something other than its calls has changed this one",
    ),
    Refusal.NO_RUNNING_JOB: (
        "the queue has no running job",
        "submit a job and take turns until the queue has had one",
    ),
    Refusal.BLOCK_LENGTH: ("the block has not 640 bytes", "give a block of 640 bytes; a request has 642"),
    Refusal.PAIRS: (
        "lists or offsets do not fit the number of components",
        "for N components give 3N coefficients, N(N-1)/2 interactions and N fractions; "
        "have blocks made by the writer",
    ),
    Refusal.COEFFICIENTS: (
        "a critical temperature or pressure is not finite and positive, an acentric factor or kappa is not finite, "
        "or an a or b worked out of them is not finite and positive",
        "check every component's critical temperature in K, critical pressure in Pa and acentric factor",
    ),
    Refusal.INTERACTIONS: ("an interaction is not finite", "give a finite k_ij for every pair, 0 where none is known"),
    Refusal.FRACTIONS: (
        "a fraction is not finite or has a minus sign",
        "give fractions from 0 to 1, and 0 without a minus sign",
    ),
    Refusal.CONDITIONS: (
        "the temperature is not finite and positive, or the pressure or start is not finite",
        "give a temperature above 0 K and a finite pressure or start",
    ),
    Refusal.CHOICE: (
        "the choice is out of its range, or the blend's maximum density is not finite and positive",
        "choose a phase or a component that the kind has; check the coefficients and fractions",
    ),
    Refusal.SUM_OF_FRACTIONS: (
        "the fractions do not add up to 1",
        "give fractions whose sum differs from 1 by at most 1e-9; percentages have to be divided by 100",
    ),
    Refusal.STARTING_DENSITY: (
        "the search starts from a density of 0 or below",
        "start from a density above 0; a search from the vapour starts at pressure over temperature",
    ),
    Refusal.NOT_CONVERGED: (
        "the search did not converge within its limit",
        "begin the search elsewhere; above the critical temperature there are no spinodals to find, the critical "
        "point of a blend (kind 7) needs both fractions above 0, and a critical line (kinds 8 and 9) has points at some "
        "temperatures and pressures only",
    ),
    Refusal.ITERATION_FAILED: (
        "the iteration failed",
        "start from another density or temperature; the phase may not exist at these conditions, and two components of "
        "the same coefficients have no critical line (kinds 8 and 9)",
    ),
    Refusal.BOTH_PHASES_FAILED: (
        "neither the vapour nor the liquid search found a density",
        "check temperature and pressure, or search one phase from a start of your own",
    ),
    Refusal.WRONG_BRANCH: (
        "the spinodal found has not the curvature of its branch",
        "ask for the other phase, or for a spinodal from a start of your own (kind 3)",
    ),
    Refusal.SUPERCRITICAL: (
        "no spinodals were found, as above the critical temperature",
        "give a temperature below the critical one, or search each branch (kind 4)",
    ),
    Refusal.NOT_FINITE: (
        "a number that an evaluation yields, or a temperature or density after a step, is not finite",
        "check the size of coefficients, temperature, pressure and start; critical points of two components (kinds 7 "
        "to 9) need both fractions above 0, and a start above 0 where one is given",
    ),
}


def known(number: int) -> Optional[Refusal]:
    """The refusal of a number, or none where a later library gives one that is not known here."""
    try:
        return Refusal(number)
    except ValueError:
        return None


def name(number: int) -> str:
    refusal = known(number)
    return refusal.name if refusal is not None else f"REFUSAL_{number}"


def meaning(number: int) -> str:
    refusal = known(number)
    return _TEXTS[refusal][0] if refusal is not None else "a refusal that this package does not know"


def remedy(number: int) -> str:
    refusal = known(number)
    return _TEXTS[refusal][1] if refusal is not None else "see the documents of the library's version"


class Refused(Exception):
    """A call, the writer or the sealed status of a record refused. `record` is there for a sealed status."""

    def __init__(self, number: int, record: "Optional[Record]" = None) -> None:
        super().__init__(number, record)
        self.number = number
        self.record = record

    @property
    def refusal(self) -> Optional[Refusal]:
        return known(self.number)

    @property
    def name(self) -> str:
        return name(self.number)

    @property
    def meaning(self) -> str:
        return meaning(self.number)

    @property
    def remedy(self) -> str:
        return remedy(self.number)

    def __str__(self) -> str:
        return f"refused by {self.number}: {self.meaning}"

    def __repr__(self) -> str:
        return f"Refused({self.number})"
