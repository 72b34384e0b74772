"""Wall time and peak memory of a run."""
import os
import resource
import subprocess
import time
from collections.abc import Sequence
from typing import NamedTuple

KILO = 1024


class Measured(NamedTuple):
    """Seconds of wall time, MB at the peak, and the status, negative where a signal ended the run."""

    seconds: float
    peak: float
    status: int


def measured(words: Sequence[str], path: str, most: int | None = None) -> Measured:
    """Runs a program with a file as its input; it is ended after so many seconds of a processor."""

    def limit() -> None:
        if most is not None:
            resource.setrlimit(resource.RLIMIT_CPU, (most, most))

    null = subprocess.DEVNULL
    with open(path, "rb") as source:
        begun = time.monotonic()
        # the program has one thread here, which sets its own limit
        # pylint: disable-next=subprocess-popen-preexec-fn
        with subprocess.Popen(words, stdin=source, stdout=null, stderr=null, preexec_fn=limit) as child:
            try:
                _, status, used = os.wait4(child.pid, 0)
                child.returncode = os.waitstatus_to_exitcode(status)
            except BaseException:
                child.kill()
                raise
    return Measured(time.monotonic() - begun, used.ru_maxrss / KILO, child.returncode)
