"""Processes that share the work, and end with the tool."""
import contextlib
import multiprocessing
import multiprocessing.pool
import signal
import sys
from collections.abc import Iterator
from types import FrameType

from barrierfs_tools.runs import child


def _end(number: int, _: FrameType | None) -> None:
    child.end_all()
    sys.exit(128 + number)


def _begin() -> None:
    """What each process does first: the tool alone hears of an interruption, and ends the others."""
    signal.signal(signal.SIGINT, signal.SIG_IGN)
    signal.signal(signal.SIGTERM, _end)


@contextlib.contextmanager
def workers(jobs: int) -> Iterator[multiprocessing.pool.Pool]:
    """So many processes, which are ended behind this with what they run."""
    with multiprocessing.Pool(jobs, _begin) as pool:
        yield pool
