"""Runs the program on many scripts at once."""
import concurrent.futures
from collections.abc import Iterable, Iterator
from types import TracebackType

from barrierfs_tools.runs import child
from barrierfs_tools.runs.program import replay
from barrierfs_tools.runs.progress import Progress

EVERY = 10  # runs between two words on how far it is


class Runner:
    """Runs the program on many scripts at once. On a terminal it says how far it is."""

    def __init__(self, program: str, jobs: int, name: str) -> None:
        self.program, self.jobs, self.done = program, jobs, 0
        self.pool = concurrent.futures.ThreadPoolExecutor(jobs)
        self.progress = Progress(name)

    def __enter__(self) -> "Runner":
        return self

    def __exit__(self, kind: type[BaseException] | None, _: BaseException | None, __: TracebackType | None) -> None:
        if kind is not None:
            self.pool.shutdown(wait=False, cancel_futures=True)
            child.end_all()
        self.pool.shutdown(cancel_futures=True)
        self.progress.end()

    def one(self, text: str) -> str:
        """What is printed of this script."""
        printed = replay(self.program, text)
        self.done += 1
        if self.done % EVERY == 0:
            self.progress.say(f"{self.done} runs")
        return printed

    def all(self, texts: Iterable[str]) -> Iterator[str]:
        """What is printed of each of these scripts, in their order."""
        return self.pool.map(self.one, texts)
