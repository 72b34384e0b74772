"""How a run of the program ended, and what is wrong with that whatever the input was."""
import re
import resource
from collections.abc import Sequence
from typing import Protocol

from barrierfs_tools.model.grammar import STATUSES
from barrierfs_tools.runs import child

PATIENCE = 60  # seconds of a run


class Input(Protocol):
    """The words to run the program with, and its input."""

    words: Sequence[str]
    data: bytes


class Outcome:
    """How a run ended: what it printed, its status, and the seconds of a processor that it took."""

    def __init__(self, program: str, given: Input) -> None:
        before = children_seconds()
        done = child.run([program, *given.words], given.data, PATIENCE)
        self.seconds = children_seconds() - before
        self.status = done.status
        # a character stands for a byte
        self.printed = (done.err if done.status else done.out).decode("latin-1")
        self.is_clean = not (done.out if done.status else done.err)

    def fault(self) -> str | None:
        """What is wrong with its end, whatever the input."""
        if self.status == child.LATE:
            return f"it did not end within {PATIENCE} seconds"
        if self.status < 0:
            return f"it was ended by signal {-self.status}"
        return None if self.status == status_of(self.printed) and self.is_clean else f"its status is {self.status}"


def status_of(printed: str) -> int | None:
    """The status that stands for what is said on standard error, 0 for a report, or none where it is no fault of
    FORMATS."""
    said = re.fullmatch(r"barrierfs: (\D+?)( \d+)?: .*\n|barrierfs: (.*)\n", printed)
    return STATUSES.get(said[1] or said[3]) if said else 0


def children_seconds() -> float:
    """The seconds of a processor that all children took that have ended."""
    used = resource.getrusage(resource.RUSAGE_CHILDREN)
    return used.ru_utime + used.ru_stime


def printed_of(program: str, given: Input) -> str:
    """What the program prints: its report, or its fault."""
    return Outcome(program, given).printed
