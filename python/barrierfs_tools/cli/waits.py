"""Prints what a durable and an ordered write cost in the model: flushes, device steps, and steps that a call waits.

Each of 1, 4 or 16 threads writes a block of its own file WRITES times, with a call behind each write: the block behind
the last one (`append`), or the first one again (`overwrite`). Before that, which is not counted, the files are made,
synced, and all of it has reached the medium.

Two schedules. With a **quick host** each transfer and persist of the device comes behind three times four steps of each
thread, sixteen of the commit actor, four of the flush actor and eight of the scheduler. **In step** is the event
`round`: each thread and each part takes one step in turn.

- **Device steps** are those of the line `steps`.
- **Waiting steps** of a call are the device steps between its begin and its answer. The script is run up to each turn
  or round, and it is noted at which a call stands in the line of its thread as begun, or is answered.
- **Flushes** are twice the requests less the device steps. In both schedules transfer and persist take turns, so the
  cache of the device is empty before each transfer, and no put takes another's place in it. So each put costs two
steps,
  and a flush, which has nothing to persist, one; and at the end everything was done. Three things are seen besides: it
  comes to 0 where no sync call is made; it is no more than the sync calls; and where a session of `fsync` closes as
many
  transactions as that of `fbarrier`, it is what the one has more requests than the other. `--count` sums up by how much
  `requests` grows at each event `flush`, which submits nothing else.
"""
import itertools
import re
from collections.abc import Callable, Iterable, Iterator
from typing import NamedTuple, NoReturn

from barrierfs_tools.cli.tool import add_jobs, add_program, parser_of, program_of, run_tool
from barrierfs_tools.failed import Failed
from barrierfs_tools.runs.runner import Runner

EXAMPLE = "  bench/waits.py --count"
THREADS = (1, 4, 16)
WRITES = 8
CALLS = ("fsync", "fdatasync", "fbarrier", "fdatabarrier")
SYNC_CALLS = ("fsync", "fdatasync")
FIGURES = ("steps", "requests", "closed", "found")


class Measured(NamedTuple):
    """What calls cost: steps that they waited, flushes and steps of the device, and the transactions and requests of
    them all."""

    waits: int
    flushes: int
    steps: int
    closed: int
    requests: int


def figure(word: str, text: str) -> int:
    """A figure of a report."""
    found = re.search(rf"^{word} (\d+)$", text, re.MULTILINE)
    if not found:
        raise Failed(f"no figure {word} is printed")
    return int(found[1])


class Seen:
    """What is printed of a session."""

    def __init__(self, text: str) -> None:
        self.steps, self.requests, self.closed, self.found = (figure(word, text) for word in FIGURES)
        if re.search(r"^\d+ .*: (?!ok$)", text, re.M):
            raise Failed("a call did not end as ok")
        # Of each thread how many calls were answered, how many it has, and whether the next one has begun.
        lines = re.findall(r"^thread \d+: (\d+) of (\d+)(.*)$", text, re.M)
        self.threads = [(int(answered), int(calls), state) for answered, calls, state in lines]

    def is_done(self) -> bool:
        """Whether every call was answered."""
        return all(answered == calls for answered, calls, _ in self.threads)


Moment = tuple[str, Seen]  # the events, and what is seen after them


class Session:
    """Threads that write, each with a call behind each write."""

    def __init__(self, runner: Runner, threads: int, word: str, mode: str) -> None:
        self.runner, self.threads = runner, threads
        lines = ["volume inodes 64 zones 2048 journal 1024", "depth 64", "queue 64", "limit 200000"]
        for t in range(1, threads + 1):
            lines += ["thread %d" % t, "create /f%d" % t, "write /f%d 0 1024 ff" % t]
            if t == 1:
                lines.append("sync")
            for k in range(WRITES):
                lines.append("write /f%d %d 1024 %02x" % (t, 1024 * (k + 1) if mode == "append" else 0, k))
                lines.append("%s /f%d" % (word, t))
        lines.append("events")
        lines += ["call %d x 2" % t for t in range(1, threads + 1)]
        # The sync call begins, sends a page of each file, and waits; then all goes to the medium, and it is answered.
        lines += ["call 1 x %d" % (threads + 5), "back 500", "call 1"]
        self.script = "\n".join(lines) + "\n"
        self.before = self.run("")
        if [answered for answered, _, _ in self.before.threads] != [3] + [2] * (threads - 1) or self.before.found != 1:
            raise Failed("the files were not made as they should be")

    def run(self, events: str) -> Seen:
        """What is seen after these events."""
        return Seen(self.runner.one(self.script + events))

    def moments(self, events_of: Callable[[int], str]) -> Iterator[Moment]:
        """What is seen after each turn or round, up to the first at which all is done: many are run at once."""
        width = 4 * self.runner.jobs
        for first in itertools.count(1, width):
            events = [events_of(turns) for turns in range(first, first + width)]
            for its, printed in zip(events, self.runner.all(self.script + each for each in events)):
                seen = Seen(printed)
                yield its, seen
                if seen.is_done():
                    return

    def quick_moments(self) -> Iterator[Moment]:
        """What is seen after each turn, in which the host goes first."""
        calls = "".join("call %d x 4\n" % t for t in range(1, self.threads + 1))
        turn = 3 * (calls + "commit x 16\nflush x 4\naccept x 8\ndispatch 0 x 8\nreceive x 8\n")
        turn += "transfer 0\npersist 0\nanswer\n"
        return self.moments(lambda turns: turns * turn)

    def step_moments(self) -> Iterator[Moment]:
        """What is seen after each round."""
        return self.moments(lambda rounds: "round %d\n" % rounds)

    def measure(self, moments: Iterable[Moment]) -> Measured:
        """What the calls cost."""
        begun: dict[tuple[int, int], int] = {}
        answered: dict[tuple[int, int], int] = {}
        steps, events = self.before.steps, ""
        for events, seen in moments:
            # In a turn and in a round the threads go first, so the device had done no more than this.
            for t, (count, _, state) in enumerate(seen.threads):
                if state:
                    begun.setdefault((t, count), steps)
                for at in range(self.before.threads[t][0], count):
                    answered.setdefault((t, at), steps)
            steps = seen.steps
        # A call that was never seen as begun was answered at once.
        waits = 0
        for t, (first, calls, _) in enumerate(self.before.threads):
            waits += sum(answered[t, at] - begun.get((t, at), answered[t, at]) for at in range(first + 1, calls, 2))
        end = self.run(events + "back 5000\n")
        if end.steps != self.run(events + "back 9000\n").steps or end.found != end.closed:
            raise Failed("something had not reached the medium")
        steps, requests = end.steps - self.before.steps, end.requests - self.before.requests
        return Measured(waits, 2 * requests - steps, steps, end.closed, requests)

    def flushes_counted(self) -> int:
        """The flushes where the host goes in step: what `requests` grows by at each event `flush`."""
        calls = "".join("call %d\n" % t for t in range(1, self.threads + 1)) + "commit\n"
        total, events = 0, ""
        for rounds in itertools.count(1):
            before, after = self.run(events + calls), self.run(events + calls + "flush\n")
            total += after.requests - before.requests
            events = "round %d\n" % rounds
            if self.run(events).is_done():
                return total
        raise AssertionError("rounds have no end")


def check(word: str, calls: int, found: Measured, synced: dict[str, Measured], schedule: str) -> None:
    """Tests the flushes; `synced` has what `fsync` cost by each schedule."""
    if word not in SYNC_CALLS and found.flushes != 0 or found.flushes > calls:
        raise Failed(f"{found.flushes} flushes for {calls} calls of {word}")
    if word == "fsync":
        synced[schedule] = found
    elif word == "fbarrier":
        other = synced[schedule]
        if other.closed == found.closed and other.requests - other.flushes != found.requests:
            raise Failed("the flushes are not what fsync has more requests than fbarrier")


def row(runner: Runner, mode: str, word: str, synced: dict[str, Measured], counting: bool) -> str:
    """The row of a call."""
    cells: list[list[str]] = [[], [], [], []]
    for threads in THREADS:
        calls = threads * WRITES
        session = Session(runner, threads, word, mode)
        quick = session.measure(session.quick_moments())
        check(word, calls, quick, synced, f"quick {threads}")
        step = session.measure(session.step_moments())
        check(word, calls, step, synced, f"step {threads}")
        figures = (f"{quick.flushes / calls:.2f}", f"{quick.steps / calls:.1f}", f"{quick.waits / calls:.1f}")
        for cell, text in zip(cells, [*figures, f"{step.waits / calls:.1f}"]):
            cell.append(text)
        if counting and session.flushes_counted() != step.flushes:
            raise Failed("the flushes that were counted one by one are others")
    return f"| {word} | {' | '.join(', '.join(cell) for cell in cells)} |"


def work() -> None:
    """What the command does."""
    parser = parser_of("waits.py", __doc__, EXAMPLE)
    text = "count the flushes one by one besides, where the host goes in step"
    parser.add_argument("--count", action="store_true", help=text)
    add_jobs(parser)
    add_program(parser, stands_alone=True)
    asked = parser.parse_args()
    with Runner(program_of(asked), asked.jobs, "waits") as runner:
        for mode in ("append", "overwrite"):
            costs = "flushes a write | device steps a write | steps that a call waits, quick host | in step"
            print(f"| {mode}, behind each write | {costs} |")
            print("|---|---|---|---|---|")
            synced: dict[str, Measured] = {}
            for word in CALLS:
                print(row(runner, mode, word, synced, asked.count), flush=True)
            print()


def main() -> NoReturn:
    """The command."""
    run_tool("waits.py", work)
