"""Files of claims: a volume script's header and calls, with no events, and behind the line `claims` what must hold."""
from barrierfs_tools.failed import Failed
from barrierfs_tools.hunt.claims import Call, Claim, Fault, Place, State, claim_of
from barrierfs_tools.model import faults
from barrierfs_tools.model.grammar import MOST_BYTES, lines_of
from barrierfs_tools.scripts.reading import Report

NOT_HERE = ("cut", "seed", "events", "recover")  # what a hunt chooses itself, or does not need
OUTSIDE = ("fail", "limit")  # header lines of which --complete says nothing


class Wrong(Failed):
    """A file of claims has a fault, in this line."""


class Reader(faults.Reader):
    """Reads the lines before the line `claims`."""

    def __init__(self) -> None:
        super().__init__()
        self.setup: int | None = None  # calls of the first thread that are set-up

    def line(self, words: list[str]) -> None:
        if words[0] in NOT_HERE:
            raise faults.Wrong("order")
        if words == ["begin"]:
            if self.setup is not None:
                raise faults.Wrong("twice")
            if self.threads != 1:
                raise faults.Wrong("order")
            self.setup = self.calls
            return
        if self.section == "first" and words[0] != "volume":
            raise faults.Wrong("order" if words[0] in ("device", "blocks") else "word")
        super().line(words)


class Asked:
    """A file of claims."""

    def __init__(self, text: str) -> None:
        self.text = text
        self.head: list[str] = []
        self.threads: list[list[str]] = []
        self.calls: dict[int, Call] = {}  # by line
        self.claims: list[Claim] = []
        if len(text) > MOST_BYTES:
            raise Wrong("input too long")
        lines, reader, behind = lines_of(text), Reader(), False
        for number, line in enumerate(lines, 1):
            if not line or line[0] == "#":
                continue
            try:
                if behind:
                    self.claims.append(claim_of(line, self.calls))
                elif line == "claims":
                    self.end(reader)
                    behind = True
                else:
                    reader.line(line.split(" "))
                    self.keep(number, line)
            except Fault as fault:
                raise Wrong(f"line {number}: {fault}") from None
            except faults.Wrong as wrong:
                raise Wrong(f"line {number}: {wrong}: `{line}`") from None
        if not self.claims:
            wanted = "a claim is wanted" if behind else "`claims` is wanted"
            raise Wrong(f"line {len(lines) + 1}: order: the end of the file: {wanted}")
        self.setup = reader.setup or 0

    @staticmethod
    def end(reader: Reader) -> None:
        """The claims begin; a volume has to be there."""
        if reader.section == "first":
            raise faults.Wrong("order")

    def keep(self, number: int, line: str) -> None:
        """Keeps a line that is right."""
        if line.startswith("thread "):
            self.threads.append([])
        elif not self.threads:
            self.head.append(line)
        elif line != "begin":
            self.calls[number] = Call(len(self.threads), len(self.threads[-1]), line)
            self.threads[-1].append(line)

    def script(self, events: list[str]) -> str:
        """The volume script of these calls, with these events."""
        lines = list(self.head)
        for number, calls in enumerate(self.threads, 1):
            lines += [f"thread {number}", *calls]
        return "".join(line + "\n" for line in [*lines, "events", *events])

    def broken(self, state: State, only: str | None = None) -> Claim | None:
        """The first claim that does not hold, of all or of those with this text only."""
        asked = (claim for claim in self.claims if only in (None, claim.text))
        return next((claim for claim in asked if not claim.holds(state)), None)

    def has_answers(self) -> bool:
        """Whether a claim speaks of answers."""
        return any(claim.has_answers for claim in self.claims)

    def outside(self) -> list[str]:
        """The header lines of which --complete says nothing."""
        return [line for line in self.head if line.split(" ")[0] in OUTSIDE]

    def has_elevator(self) -> bool:
        """Whether the scheduler is the elevator."""
        return "elevator" in self.head


def state_of(report: Report) -> State:
    """What a report of the program says is left."""
    answers = [(thread, reply) for thread, _, reply in report.answers]
    return State(report.tree, report.found, answered(answers))


def answered(answers: list[tuple[int, str]]) -> frozenset[Place]:
    """The calls that were answered `ok`, of threads and replies in the order of the answers."""
    found: set[Place] = set()
    counts: dict[int, int] = {}
    for thread, reply in answers:
        at = counts.get(thread, 0)
        counts[thread] = at + 1
        if reply == "ok":
            found.add((thread, at))
    return frozenset(found)
