"""A session of the second program, event by event, with what a power cut now would leave. One pass sees the cut at each
step: until its power is off a device does the same whatever its line `cut` says, and then its medium stays."""
import pickle
from typing import NamedTuple

from barrierfs_tools.failed import Failed
from barrierfs_tools.hunt.claims import Claim, State
from barrierfs_tools.hunt.reading import Asked, answered
from barrierfs_tools.model import recovery
from barrierfs_tools.model.blocks import FlashLog, Value
from barrierfs_tools.model.bodies import Body
from barrierfs_tools.model.host import Script, Session
from barrierfs_tools.scripts.reading import Tree, tree_of

HOST = ("call", "commit", "flush", "write")
PLACED = ("dispatch", "transfer", "persist", "write")
MOST_ROUNDS = 10_000  # of the set-up
MOST_SHOWN = 20_000  # trees that are kept

Event = tuple[str, ...] | tuple[str, int]
Name = tuple[
    int, int, int
]  # of a request: its block, its content, and how many of the same came before it; of a page ..
Choice = tuple[str, int | None]  # the word of an event, and the thread of a call
Named = tuple[str, int | Name | None]  # an event by the request or page that it moves, or by its place
Overlay = frozenset[tuple[int, int]]  # blocks and contents of a medium, where it is not that of the start

_IDENTITIES: dict[object, int] = {}


def identity(value: object) -> int:
    """A number that equal values share, and no others."""
    return _IDENTITIES.setdefault(value, len(_IDENTITIES))


def content_of(block: int, value: Value) -> int:
    """A number of what is put to a block."""
    return identity((block, tuple(sorted(value.items())) if isinstance(value, dict) else value))


class Shown(NamedTuple):
    """What recovery makes of a medium: the lines of its tree, its nodes, and the transactions found."""

    lines: list[str]
    tree: Tree
    found: int


class Broken(Exception):
    """A claim is broken after these events."""

    def __init__(self, claim: Claim, run: "Run", shown: Shown) -> None:
        super().__init__(claim.text)
        self.claim, self.events, self.names, self.lines = claim, list(run.events), list(run.names), shown.lines


def acts(session: Session, word: str, *places: int) -> bool:
    """Does an event, and says whether it did anything."""
    before = session.changes
    session.doer(word)(*places)
    return session.changes != before


def settle(session: Session) -> int:
    """Brings all that was submitted to the medium, and says in how many turns of `back`."""
    turns = 0
    while True:
        before = session.changes
        session.event("back 1")
        if session.changes == before:
            return turns
        turns += 1


def overlay_of(session: Session, first: int) -> dict[int, Value]:
    """The blocks of the medium that requests from this one on wrote."""
    cells = enumerate(session.device.surface())
    return {block: body for block, (body, origin) in cells if origin != "-" and int(origin) >= first}


class Start:
    """The session of a file of claims once its set-up is on the medium, and the event lines that lead there."""

    def __init__(self, asked: Asked) -> None:
        self.asked = asked
        session = Session(Script(asked.script([])))
        self.lines = [line for line in self.set_up(session) if line != "back 0"]
        self.frozen = pickle.dumps(session, -1)
        self.requests = session.requests
        self.medium: list[Body] = [body for body, _ in session.device.surface()]
        self.base, self.table = session.script.zones, session.places.table
        self.shown: dict[Overlay, Shown] = {}

    def set_up(self, session: Session) -> list[str]:
        """Does the calls of the set-up, with the event lines that do them."""
        lines: list[str] = []
        if not self.asked.setup:
            return lines
        first = session.threads[0]
        while first.at < self.asked.setup:
            count = 0
            while first.at < self.asked.setup and acts(session, "call", 1):
                count += 1
            if count:
                lines.append("call 1" if count == 1 else f"call 1 x {count}")
            lines.append(f"back {settle(session)}")
            if len(lines) > MOST_ROUNDS or count == 0 and lines[-1] == "back 0":
                raise Failed("the set-up does not end")
        return [*lines, f"back {settle(session)}"]

    def session(self) -> Session:
        """The session at the start, anew."""
        found: Session = pickle.loads(self.frozen)
        return found

    def show(self, blocks: dict[int, Value], name: Overlay | None = None) -> tuple[Overlay, Shown]:
        """What recovery makes of the medium with these blocks laid over that of the start."""
        name = (
            name if name is not None else frozenset((block, content_of(block, body)) for block, body in blocks.items())
        )
        if name not in self.shown:
            medium = list(self.medium)
            for block, body in blocks.items():
                medium[block] = body
            lines = recovery.Tree(recovery.recovered(medium, self.base), self.table).lines
            if len(self.shown) >= MOST_SHOWN:
                self.shown.clear()
            self.shown[name] = Shown(lines, tree_of(lines), recovery.Log(medium, self.base).last())
        return name, self.shown[name]


class Counts:
    """What was tried."""

    def __init__(self) -> None:
        self.schedules = self.moments = 0
        self.trees: set[tuple[str, ...]] = set()

    def add(self, other: "Counts") -> None:
        """Adds what another one counted."""
        self.schedules, self.moments = self.schedules + other.schedules, self.moments + other.moments
        self.trees |= other.trees


def answers_of(session: Session) -> frozenset[tuple[int, int]]:
    """The calls that were answered `ok`."""
    lines = (line.split(" ", 1) for line in session.answers)
    return answered([(int(thread), rest.rpartition(": ")[2]) for thread, rest in lines])


class Run:
    """One schedule. `do` does an event; where it acts it is noted, and what a power cut now would leave is judged, by all claims
    or by one only."""

    def __init__(
        self, start: Start, counts: Counts | None = None, judges: bool = True, only: str | None = None
    ) -> None:
        self.start, self.counts, self.judges, self.only = start, counts or Counts(), judges, only
        self.session = start.session()
        self.events: list[Event] = []
        self.names: list[Named] = []
        self.answered = answers_of(self.session)
        self.stuck: dict[Choice, int] = {}  # what did nothing, and the changes by then
        self.named: dict[int, Name] = {}
        self.same: dict[tuple[int, int], int] = {}
        self.shown: tuple[Overlay, Shown] | None = None
        self.counts.schedules += 1

    def do(self, word: str, place: int | Name | None = None) -> bool:
        """Does an event, by its place or by the request or page that it moves, and says whether it did anything."""
        session = self.session
        at = self.place_of(word, place) if isinstance(place, tuple) else place
        if isinstance(place, tuple) and at is None:
            return False
        before, answers, requests = session.changes, len(session.answers), session.requests
        name = (
            place if isinstance(place, tuple) else self.name_at(word, at) if word in PLACED and at is not None else None
        )
        if not acts(session, word, *([] if at is None else [at])):
            if word in HOST:
                self.stuck[word, at if word == "call" else None] = before
            return False
        self.events.append((word,) if at is None else (word, str(at)))
        self.names.append((word, at if name is None else name))
        if session.requests != requests:
            self.note_request()
        self.counts.moments += 1
        grew = len(session.answers) != answers
        if grew:
            self.answered = answers_of(session)
        if self.judges and (word == "persist" or grew):
            self.look(word == "persist")
        return True

    def note_request(self) -> None:
        """Names the request that was submitted last."""
        request = self.session.submitted[-1]
        content = (request.block, content_of(request.block, request.value))
        at = self.same.get(content, 0)
        self.same[content] = at + 1
        self.named[request.number] = (*content, at)

    def look(self, anew: bool = True) -> None:
        """Judges what a power cut now would leave."""
        if anew or self.shown is None:
            self.shown = self.start.show(overlay_of(self.session, self.start.requests))
            self.counts.trees.add(tuple(self.shown[1].lines))
        shown = self.shown[1]
        claim = self.start.asked.broken(State(shown.tree, shown.found, self.answered), self.only)
        if claim:
            raise Broken(claim, self, shown)

    # Names and places

    def dirty(self) -> list[tuple[int, int]]:
        """The pages that the write-back may send."""
        return [place for place, page in sorted(self.session.pages.items()) if page.state == "dirty"]

    def names_of(self, word: str) -> list[Name | None]:
        """What is at the places of an event, by name."""
        if word == "write":
            return [(*place, 0) for place in self.dirty()]
        return [self.named.get(number) for number in self.numbers(word)]

    def name_at(self, word: str, place: int) -> Name | None:
        """What is at a place."""
        names = self.names_of(word)
        return names[place] if place < len(names) else None

    def place_of(self, word: str, name: Name) -> int | None:
        """The place at which this one is now; none where it is not there."""
        names = self.names_of(word)
        return names.index(name) if name in names else None

    def numbers(self, word: str) -> list[int]:
        """The requests at the places of an event of scheduler or device."""
        session = self.session
        if word == "dispatch":
            return [request.number for request in session.scheduler.eligible()] if session.kept is None else [-1]
        return self.transfers() if word == "transfer" else self.persists()

    def transfers(self) -> list[int]:
        """The first requests of the commands that may be transferred."""
        device = self.session.device
        return [command.numbers[0] for at, command in enumerate(device.waiting) if device.may_transfer(at)]

    def persists(self) -> list[int]:
        """The requests of what may be persisted."""
        device = self.session.device
        if isinstance(device, FlashLog):
            return [page.number for page in device.writes()]
        return [entry.number for entry in device.cache if entry.epoch == device.cache[0].epoch]

    # What may act next

    def choices(self) -> dict[Choice, int]:
        """The events that may act, each with the number of its places."""
        session = self.session
        found: dict[Choice, int] = {}
        for number, thread in enumerate(session.threads, 1):
            if thread.at < len(thread.lines):
                found["call", number] = 1
        found["commit", None] = found["flush", None] = 1
        found["write", None] = sum(page.state == "dirty" for page in session.pages.values())
        found["accept", None] = int(bool(session.submitted) and session.scheduler.can_accept())
        if session.kept is None:
            found["dispatch", None] = len(session.scheduler.eligible())
        else:
            found["dispatch", None] = int(len(session.sent) < session.script.queue)
        found["receive", None] = int(bool(session.sent) and session.device.has_room())
        if not session.device.has_failed():
            found["transfer", None] = len(self.transfers())
        found["persist", None] = len(self.persists())
        found["answer", None] = int(bool(session.device.done) or session.kept_completion is not None)
        return {one: count for one, count in found.items() if count and self.stuck.get(one) != session.changes}


def lines_of(events: list[Event]) -> list[str]:
    """Event lines, equal ones together."""
    found: list[tuple[str, int]] = []
    for event in events:
        line = " ".join(map(str, event))
        if found and found[-1][0] == line:
            found[-1] = (line, found[-1][1] + 1)
        else:
            found.append((line, 1))
    return [line if count == 1 else f"{line} x {count}" for line, count in found]
