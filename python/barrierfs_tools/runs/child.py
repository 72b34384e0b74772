"""Children of a tool: their exact bytes, their statuses, and that none of them is left behind."""
import contextlib
import os
import pathlib
import signal
import subprocess
import threading
from collections.abc import Iterator, Mapping, Sequence
from typing import NamedTuple

Words = Sequence[str | pathlib.Path]
LATE = 1000  # stands for the status of a run that was ended because it took too long

_LOCK = threading.Lock()
_RUNNING: set["subprocess.Popen[bytes]"] = set()
_STOPPED = threading.Event()


class Stopped(Exception):
    """The tool ends, so no child is begun any more."""


class Done(NamedTuple):
    """How a child ended: its status, negative where a signal ended it, and the bytes that it wrote."""

    status: int
    out: bytes
    err: bytes


def run(
    words: Words,
    data: bytes = b"",
    seconds: float | None = None,
    env: Mapping[str, str] | None = None,
    user: int | None = None,
) -> Done:
    """Runs a program on these bytes to its end, or for so many seconds; then its status is `LATE`. Root may run it as
    another user, and as the group of that number."""
    with _child(words, env, user) as begun:
        try:
            out, err = begun.communicate(data, timeout=seconds)
        except subprocess.TimeoutExpired:
            return Done(LATE, b"", b"")
    return Done(begun.returncode, out, err)


@contextlib.contextmanager
def _child(words: Words, env: Mapping[str, str] | None, user: int | None) -> Iterator["subprocess.Popen[bytes]"]:
    """A child, which has ended behind this, however that is left."""
    with _LOCK:
        if _STOPPED.is_set():
            raise Stopped
        pipe = subprocess.PIPE
        groups: list[str | int] | None = None if user is None else []
        begun = subprocess.Popen(
            words, stdin=pipe, stdout=pipe, stderr=pipe, env=env, user=user, group=user, extra_groups=groups
        )
        _RUNNING.add(begun)
    try:
        with begun:
            try:
                yield begun
            finally:
                if begun.poll() is None:
                    begun.kill()
    finally:
        with _LOCK:
            _RUNNING.discard(begun)


def end_all() -> None:
    """Ends all children, and lets none be begun until `begin` is called."""
    with _LOCK:
        _STOPPED.set()
        for running in _RUNNING:
            running.kill()


def begin() -> None:
    """Lets children be begun."""
    _STOPPED.clear()


def end_group(leader: "subprocess.Popen[str]") -> None:
    """Ends a child that was begun in a session of its own, with all that it began."""
    if leader.poll() is None:
        os.killpg(leader.pid, signal.SIGTERM)
    leader.wait()
