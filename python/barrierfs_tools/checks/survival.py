"""Five sessions whose power is cut at each of their device steps, and the promise that is checked of each."""

from collections.abc import Iterator
from typing import NoReturn

from barrierfs_tools import paths
from barrierfs_tools.failed import Failed
from barrierfs_tools.model.grammar import DATA_CALLS, MAKES, SYNC_CALLS
from barrierfs_tools.runs.runner import Runner
from barrierfs_tools.runs.sweeps import Sweep
from barrierfs_tools.scripts.reading import Report

# The host runs ahead of the device, which turns the order round where it may. Before each part of the device's steps
# stands the number of calls that were answered by then. The write-back sends /g's second version without an order; the
# scheduler passes over it each time (`dispatch 1`), so it is the last on the medium. No call covers it.
BARRIERS = """\
volume inodes 32 zones 64 journal 128
thread 1
create /f
create /g
write /f 0 1024 a1
write /g 0 1024 b1
fbarrier /f
write /g 0 1024 b2
write /f 0 1024 a2
fdatabarrier /f
create /h
write /f 0 1024 a3
fbarrier /f
write /f 0 1024 a4
fdatabarrier /f
events
call 1 x 7
commit x 10
call 1
# 5 calls.
accept x 8
dispatch 1 x 7
dispatch 0
accept
dispatch 0
receive x 9
transfer 1 x 5
answer x 9
flush x 9
call 1
write 0
call 1 x 4
# 8 calls.
accept x 2
dispatch 1
receive
transfer 0 x 4
persist 1 x 3
answer x 9
flush x 9
call 1 x 5
commit x 9
call 1
# 11 calls.
accept x 9
dispatch 3
dispatch 2 x 2
dispatch 1 x 9
accept
dispatch 1
receive x 9
persist 1 x 3
transfer 0 x 3
answer x 9
flush x 9
call 1 x 4
# All 13 calls.
accept
dispatch 1
receive x 9
persist 0 x 2
transfer 1
transfer 0 x 9
persist 1 x 3
persist 0 x 2
persist 1 x 3
persist 2 x 3
persist 0 x 19
accept
dispatch 0
receive
transfer 0
persist 0
"""
# Thread, host, scheduler and device do a step each, in turn. Recovery is cut twice before it may end.
SYNCS = """\
volume inodes 32 zones 64 journal 128
thread 1
mkdir /a
create /a/f
write /a/f 0 3 61
fsync /a/f
write /a/f 0 3 62
fsync /a/f
create /a/g
write /a/g 0 3 63
fsync /a/g
events
round 100
recover d3
recover t0 t0 p1
"""


def example(name: str) -> str:
    """A script of examples/ without its comments and its line `cut`."""
    lines = (paths.examples() / (name + ".script")).read_text().splitlines()
    return "".join(line + "\n" for line in lines if not line.startswith(("#", "cut")))


ORDERS = ("order-kept", "order-lost", "order-synced")
OWN = {"barriers": BARRIERS, "syncs": SYNCS}
NAMES = (*OWN, *ORDERS)


def script_of(name: str) -> str:
    """The script of a session."""
    return OWN[name] if name in OWN else example(name)


def fail(text: str) -> NoReturn:
    """A promise was not kept."""
    raise Failed("NOT KEPT: " + text)


def calls_of(script: str) -> list[list[str]]:
    """The words of each call, in order."""
    lines = script[: script.index("events\n")].splitlines()
    return [line.split() for line in lines[lines.index("thread 1") + 1 :]]


class Outcome:
    """What the program prints of one session."""

    def __init__(self, report: Report) -> None:
        self.text, self.steps, self.closed, self.found = report.text, report.steps, report.closed, report.found
        self.replies = [(line, reply) for _, line, reply in report.answers]
        self.paths = set(report.tree)
        self.versions = {path: node.blocks[0] for path, node in report.tree.items() if 0 in node.blocks}


class Session:
    """The calls of a session, and what is promised of them."""

    def __init__(self, script: str) -> None:
        self.script, self.calls = script, calls_of(script)
        self.made = [words[1] for words in self.calls if words[0] in MAKES]
        # Of each write the text of its bytes in a tree, and so its version, as the number of the call.
        self.writes = {(w[1], f"{w[3]}x{w[4]}"): at for at, w in enumerate(self.calls) if w[0] == "write"}

    def is_there(self, outcome: Outcome, at: int) -> bool:
        """Whether the effect of this call is there, or what a later call put in its place."""
        words = self.calls[at]
        if words[0] in MAKES:
            return words[1] in outcome.paths
        if words[0] == "write" and words[1] in outcome.versions:
            return self.writes[words[1], outcome.versions[words[1]]] >= at
        return False

    def covered(self, at: int) -> Iterator[int]:
        """The calls that this barrier or sync call covers."""
        call = self.calls[at]
        for before, words in enumerate(self.calls[:at]):
            if words[0] == "write" and call[1:] in ([], words[1:2]) or words[0] in MAKES and call[0] not in DATA_CALLS:
                yield before

    def check(self, outcome: Outcome, where: str) -> int:
        """Tests an outcome, and gives how many calls were answered `ok`."""
        count = self.answered(outcome, where)
        for path, version in outcome.versions.items():
            if (path, version) not in self.writes:
                fail(f"{where}: nobody wrote {version} to {path}")
        if outcome.paths != {"/", *self.made[: len(outcome.paths) - 1]}:
            fail(f"{where}: a file is there, and one that was made before it is not")
        for at, words in enumerate(self.calls[:count]):
            if words[0] in MAKES or words[0] == "write":
                continue
            later = any(self.is_there(outcome, after) for after in range(at + 1, len(self.calls)))
            if words[0] in SYNC_CALLS or later:
                self.check_covered(outcome, where, at)
        return count

    def answered(self, outcome: Outcome, where: str) -> int:
        """How many calls were answered `ok`: they are the first ones, in their order."""
        count = 0
        for words, (line, reply) in zip(self.calls, outcome.replies):
            if " ".join(words) != line:
                fail(f"{where}: {line} was answered out of turn")
            count += reply == "ok"
        if any(reply == "ok" for _, reply in outcome.replies[count:]):
            fail(f"{where}: a call is ok behind one that is not")
        return count

    def check_covered(self, outcome: Outcome, where: str, at: int) -> None:
        """Tests that all is there that a call covers."""
        for before in self.covered(at):
            if not self.is_there(outcome, before):
                lost = " ".join(self.calls[before])
                fail(f"{where}: {' '.join(self.calls[at])} was answered ok, and {lost} is lost")

    def is_in_order(self, outcome: Outcome) -> bool:
        """Whether the page is no newer than the record."""
        return outcome.versions.get("/db", "") <= outcome.versions.get("/log", "")

    def table(self, name: str, runner: Runner) -> Iterator[str]:
        """Sweeps the session over its power cuts, and gives the lines of its table."""
        for at, words in enumerate(self.calls, 1):
            yield f"call {at:2}  {' '.join(words)}"
        yield ""
        yield "steps  ok  found  " + "  ".join(f"{path:5}" for path in self.made).rstrip()
        sweep = Sweep(name, self.script, runner)
        self.check_attempts(sweep, runner)
        *outcomes, whole = map(Outcome, sweep.reports)
        lost: list[str] = []
        for steps, outcome in enumerate(outcomes):
            where = f"cut {steps}"
            if outcome.steps != steps:
                fail(f"{where}: the device did {outcome.steps} steps")
            count = self.check(outcome, where)
            if name in ORDERS and not self.is_in_order(outcome):
                lost.append(where)
            cells = "  ".join(f"{self.cell(outcome, path):5}" for path in self.made)
            yield f"{steps:5}  {count:2}  {outcome.found:5}  {cells.rstrip()}"
        self.check_whole(whole)
        if (name == "order-lost") != bool(lost):
            fail(f"{name}: the page is newer than the record at {', '.join(lost) or 'no step'}")

    def check_attempts(self, sweep: Sweep, runner: Runner) -> None:
        """Tests that attempts of recovery change nothing."""
        if not sweep.script.attempts:
            return
        plain = runner.all(sweep.script.text(cut=steps, attempts=False) for steps in range(sweep.steps + 1))
        for steps, (report, printed) in enumerate(zip(sweep.reports, plain)):
            if printed != report.text:
                fail(f"cut {steps}: attempts of recovery changed what is left")

    def check_whole(self, whole: Outcome) -> None:
        """Tests that all is there where the power stays."""
        written = [at for at, words in enumerate(self.calls) if words[0] in (*MAKES, "write")]
        answered = len(whole.replies) == len(self.calls) and all(reply == "ok" for _, reply in whole.replies)
        if not answered or not all(self.is_there(whole, at) for at in written):
            fail("without a power cut something is lost")

    def cell(self, outcome: Outcome, path: str) -> str:
        """What the table has of a file."""
        if path not in outcome.paths:
            return "-"
        return outcome.versions[path].split("x")[1] if path in outcome.versions else "made"
