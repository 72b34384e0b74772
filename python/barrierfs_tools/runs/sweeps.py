"""What is left of a script for each number of steps before the power cut."""
from collections.abc import Iterable
from dataclasses import dataclass, field

from barrierfs_tools.model.grammar import SYNC_CALLS
from barrierfs_tools.runs.runner import Runner
from barrierfs_tools.scripts.reading import Report, Script, contents
from barrierfs_tools.scripts.writing import Events


@dataclass(frozen=True)
class Left:
    """What is left after a cut: counts and files of a volume script, blocks of one of block requests."""

    counts: dict[str, int] = field(default_factory=dict)
    files: dict[str, str] = field(default_factory=dict)
    blocks: dict[str, tuple[str, str]] = field(default_factory=dict)  # byte and request of each


class Sweep:
    """A script, and what is left of it for each number of steps before the power cut."""

    def __init__(self, name: str, text: str, runner: Runner) -> None:
        self.name = name
        runner.one(text)  # a fault is told by the script's own lines
        self.script = Script(text)
        whole = Report(runner.one(self.script.text()), self.script)
        self.steps = whole.steps
        self.calls = sum(map(len, self.script.calls()))
        printed = runner.all(self.script.text(cut=cut) for cut in range(self.steps + 1))
        # The last one is of the power going off after the last event.
        self.reports = [*(Report(text, self.script) for text in printed), whole]
        self.flushes = flush_moments(self.script, runner) if self.script.is_volume else []
        self.outcomes = [self.outcome(cut) for cut in range(self.steps + 2)]

    def outcome(self, cut: int) -> Left:
        """What is left after so many steps."""
        report = self.reports[cut]
        if not self.script.is_volume:
            return Left(blocks={f"block {at}": cell for at, cell in report.blocks.items()})
        flushes = sum(moment < cut for moment in self.flushes)
        files = {path: contents(node) for path, node in report.tree.items() if path != "/"}
        return Left({"answered": report.answered(), "found": report.found, "flushes": flushes}, files)

    def at(self, cut: int) -> Left:
        """The outcome where the power is cut after so many steps; where the device does fewer, that of the end."""
        return self.outcomes[min(cut, self.steps + 1)]

    def counts(self) -> list[str]:
        """The names of the columns of counts, in order."""
        return ["answered", "found", "flushes"] if self.script.is_volume else []

    def paths(self) -> list[str]:
        """The names of the columns of contents, in order."""
        if self.script.is_volume:
            return sorted({path for outcome in self.outcomes for path in outcome.files})
        last = self.outcomes[-1].blocks
        return [name for name in last if any(outcome.blocks[name][1] != "-" for outcome in self.outcomes)]

    def cell(self, outcome: Left, path: str) -> str:
        """What a column has."""
        if self.script.is_volume:
            return outcome.files.get(path, "-")
        value, origin = outcome.blocks.get(path, ("-", "-"))
        return value if origin == "-" else f"{value} ({origin})"

    def cells(self, cut: int) -> tuple[list[str], list[str]]:
        """The counts and the contents after so many steps."""
        outcome = self.at(cut)
        return [str(outcome.counts[count]) for count in self.counts()], [
            self.cell(outcome, path) for path in self.paths()
        ]


def flush_moments(script: Script, runner: Runner) -> list[int]:
    """The number of steps that the device had done as each flush was submitted."""
    if not any(line.split(" ")[0] in SYNC_CALLS for calls in script.calls() for line in calls):
        return []
    events = Events(script)
    count, place = events.places("flush")
    known: dict[int, Report] = {}

    def learn(places: Iterable[int]) -> None:
        wanted = sorted({at for at in places if at not in known})
        texts = (script.text(events.prefix(at), attempts=False) for at in wanted)
        for at, printed in zip(wanted, runner.all(texts)):
            known[at] = Report(printed, script)

    # Of events from the first to the last of a span, those that submit a flush, if the number of requests grows at all.
    spans = [(0, count)] if count else []
    moments: list[int] = []
    while spans:
        learn(at for first, last in spans for at in (place(first), place(last - 1) + 1))
        halves: list[tuple[int, int]] = []
        for first, last in spans:
            before, after = known[place(first)], known[place(last - 1) + 1]
            if before.requests == after.requests:
                continue
            if last - first == 1:
                moments.append(before.steps)
            else:
                middle = (first + last) // 2
                halves += [(first, middle), (middle, last)]
        spans = halves
    return sorted(moments)
