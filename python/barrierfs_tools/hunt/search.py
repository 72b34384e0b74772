"""Looks for a schedule that breaks a claim, by the strategies in rotation, in as many processes as are asked for."""
import functools
import itertools
import time
from collections.abc import Callable, Iterator
from typing import NamedTuple

from barrierfs_tools.hunt.reading import Asked, state_of
from barrierfs_tools.hunt.sessions import Broken, Counts, Named, Run, Start
from barrierfs_tools.hunt.strategies import ROTATION, schedule, strategy_of
from barrierfs_tools.runs.pool import workers
from barrierfs_tools.runs.program import replay
from barrierfs_tools.scripts.reading import Report, Script

BATCH = 8  # schedules of a job

Job = tuple[str, int, int]  # the file's text, and the seeds from the first to before the last


class Hit(NamedTuple):
    """A schedule that breaks a claim: its seed, its strategy, the claim, and the events by what they move."""

    seed: int
    strategy: str
    claim: str
    names: list[Named]


class Result(NamedTuple):
    """What a job found, and what it tried."""

    hit: Hit | None
    counts: Counts


@functools.lru_cache(maxsize=2)
def start_of(text: str) -> Start:
    """The start of this file."""
    return Start(Asked(text))


def tried(start: Start, seed: int, counts: Counts) -> Hit | None:
    """Tries the schedule of this seed."""
    name = strategy_of(seed)
    try:
        run = Run(start, counts)
        run.look()
        schedule(name, seed // len(ROTATION))(run)
    except Broken as broken:
        return Hit(seed, name, broken.claim.text, broken.names)
    return None


def done(job: Job) -> Result:
    """Tries the schedules of a job, up to the first that breaks a claim."""
    text, first, last = job
    counts = Counts()
    for seed in range(first, last):
        hit = tried(start_of(text), seed, counts)
        if hit:
            return Result(hit, counts)
    return Result(None, counts)


def jobs_of(text: str, first: int, last: int) -> Iterator[Job]:
    """The jobs of these seeds."""
    for low in itertools.count(first, BATCH):
        if low > last:
            return
        yield text, low, min(low + BATCH, last + 1)


def results(text: str, seeds: tuple[int, int], jobs: int) -> Iterator[Result]:
    """The results of all jobs, in the order of their seeds."""
    if jobs == 1:
        yield from map(done, jobs_of(text, *seeds))
        return
    with workers(jobs) as pool:
        lows = jobs_of(text, *seeds)
        # some at a time, so that the list of jobs need not be there whole
        while some := list(itertools.islice(lows, 4 * jobs)):
            yield from pool.imap(done, some)


def search(text: str, seeds: tuple[int, int], seconds: float, jobs: int, say: Callable[[str], None]) -> Result:
    """The first schedule of these seeds that breaks a claim, if one does before the time is over."""
    counts, begun = Counts(), time.monotonic()
    for result in results(text, seeds, jobs):
        counts.add(result.counts)
        if result.hit:
            return Result(result.hit, counts)
        say(f"{counts.schedules} schedules, {counts.moments} moments, {len(counts.trees)} trees")
        if time.monotonic() - begun > seconds:
            break
    return Result(None, counts)


def confirmed(asked: Asked, program: str, script: str, claim: str) -> Report | None:
    """What the program prints of a script, if this claim is broken by that."""
    report = Report(replay(program, script), Script(script))
    return report if asked.broken(state_of(report), claim) else None
