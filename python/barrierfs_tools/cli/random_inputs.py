"""Runs random inputs, as many of each kind as is said, and compares what is printed with the second program
(docs/TOOLS.md says what the kinds are). Ends with status 1 at the first difference, and prints the input. An input by
its kind and seed is always the same.

tools/campaign does the same over many hosts, and goes on after a difference. outside/twins tells which wrong rules
these inputs would see.
"""
import collections
import pathlib
import sys
from typing import NamedTuple, NoReturn

from barrierfs_tools.cli.tool import add_jobs, add_program, natural, parser_of, positive, program_of, run_tool
from barrierfs_tools.runs.outcome import Outcome
from barrierfs_tools.runs.pool import workers
from barrierfs_tools.runs.progress import Progress
from barrierfs_tools.scripts import cases

EXAMPLE = """  examples/random 20 --kinds blocks,cut
  examples/random --kinds image --first 1234 --write /tmp/image"""
CHUNK, MANY = 16, 100  # runs that a process takes at a time, where there are so many
EVERY = 20  # runs between two words on how far it is

Counts = dict[str, collections.Counter[int]]


class Job(NamedTuple):
    """A run: of a hostile input it may take so many seconds."""

    program: str
    kind: str
    seed: int
    most: float


class Tried(NamedTuple):
    """How a run ended, and what is wrong with it, or none."""

    kind: str
    seed: int
    status: int
    seconds: float
    shown: str | None


def tried(job: Job) -> Tried:
    """Does a run."""
    case = cases.case(job.kind, job.seed)
    outcome = Outcome(job.program, case)
    why = outcome.fault() or case.fault(outcome.printed)
    if not why and job.kind in cases.HOSTILE and outcome.seconds > job.most:
        why = f"it took {outcome.seconds:.2f} seconds"
    shown = f"{job.kind} {job.seed}\n\n{case.script}\nprints\n\n{outcome.printed}\n{why}\n" if why else None
    return Tried(job.kind, job.seed, outcome.status, outcome.seconds, shown)


def table(counts: Counts, slowest: dict[str, tuple[float, int]]) -> None:
    """Of each kind how many runs ended with each status, and the one that took longest."""
    for kind, found in counts.items():
        seconds, seed = slowest[kind]
        ends = ", ".join(f"{count} with status {status}" for status, count in sorted(found.items()))
        print(f"{kind:8} {ends}; at most {seconds:.2f} seconds, by seed {seed}")


def try_all(jobs: list[Job], processes: int, chunk: int) -> str | None:
    """Does all runs, prints the table, and gives what is shown of the first that is wrong, or none."""
    kinds = list(dict.fromkeys(job.kind for job in jobs))
    counts: Counts = {kind: collections.Counter() for kind in kinds}
    slowest = {kind: (0.0, 0) for kind in kinds}
    progress = Progress("random")
    with workers(processes) as pool:
        for done, found in enumerate(pool.imap(tried, jobs, chunk), 1):
            if found.shown:
                progress.end()
                return found.shown
            counts[found.kind][found.status] += 1
            slowest[found.kind] = max(slowest[found.kind], (found.seconds, found.seed))
            if done % EVERY == 0:
                progress.say(f"{done} of {len(jobs)} inputs")
    progress.end()
    table(counts, slowest)
    return None


def work() -> int:
    """What the command does."""
    parser = parser_of("random", __doc__, EXAMPLE)
    count = "inputs of each kind; 200 without this"
    parser.add_argument("count", nargs="?", type=positive, default=200, metavar="COUNT", help=count)
    parser.add_argument("--first", type=natural, default=0, metavar="SEED", help="the first seed; 0 without this")
    kinds = f"of which kinds: {', '.join(cases.CASES)}; all without this"
    parser.add_argument("--kinds", default=",".join(cases.CASES), metavar="KIND,..", help=kinds)
    seconds = "of a processor that an image or a changed script may take; 1 without this"
    parser.add_argument("--seconds", type=float, default=1, metavar="S", help=seconds)
    parser.add_argument("--write", metavar="FILE", help="write the first input to this file, and run nothing")
    add_jobs(parser, "processes")
    add_program(parser)
    asked = parser.parse_args()
    chosen = asked.kinds.split(",")
    if not set(chosen) <= set(cases.CASES):
        parser.error(f"kinds are {', '.join(cases.CASES)}")
    if asked.write:
        pathlib.Path(asked.write).write_bytes(cases.case(chosen[0], asked.first).data)
        return 0
    program, seeds = program_of(asked), range(asked.first, asked.first + asked.count)
    jobs = [Job(program, kind, seed, asked.seconds) for kind in chosen for seed in seeds]
    shown = try_all(jobs, asked.jobs, CHUNK if asked.count >= MANY else 1)
    if shown:
        sys.stdout.write(shown)
        return 1
    print(f"{asked.count} inputs of each kind are as they should be")
    return 0


def main() -> NoReturn:
    """The command."""
    run_tool("random", work)
