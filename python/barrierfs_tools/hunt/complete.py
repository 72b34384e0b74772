"""All schedules and power cuts of a file of claims: each order of the host's own steps, with states that were met left out, and
for each list of requests that it submits the order-closed media."""
import pickle
import time
from collections.abc import Callable
from typing import NamedTuple

from barrierfs_tools.hunt.claims import Claim, Place, State
from barrierfs_tools.hunt.media import Content, Put, Tops, content_name, kept_of, values_of
from barrierfs_tools.hunt.orders import Host, Move
from barrierfs_tools.hunt.realise import realised
from barrierfs_tools.hunt.sessions import Broken, Run, Shown, Start, answers_of

MOST_STATES, MOST_MEDIA = 200_000, 16_384  # of the host, and of one list of requests
Path = tuple[Move, ...]
Answers = frozenset[Place]
Watch = Callable[[Path, frozenset[int], Tops], None]
Keys = Callable[[Host], object]


class GivenUp(Exception):
    """A bound was met."""


class Stopped(Exception):
    """A schedule breaks a claim."""


class Answer:
    """What was found: whether all was looked at, and a schedule that breaks a claim."""

    def __init__(self) -> None:
        self.states = self.lists = self.media = self.unrealised = 0
        self.trees: set[tuple[str, ...]] = set()
        self.broken: Broken | None = None
        self.gave_up: str | None = None
        self.maybe: Claim | None = None  # broken by a medium that the rule allows, and no schedule was found for

    def figures(self) -> str:
        """What was looked at."""
        return f"{self.states} states of the host, {self.lists} lists of requests, {self.media} media, {len(self.trees)} trees"


class Reached(NamedTuple):
    """Media that a power cut may leave by now, between two flushes: by what they hold, and the requests that they keep."""

    media: dict[Content, frozenset[int]]


class Explorer:
    """Goes through the host's orders. Where claims speak of answers, each state has the media that a power cut may leave by then,
    in groups between flushes: a flush that was taken leaves none from before it."""

    def __init__(self, start: Start, seconds: float = 300.0, watch: Watch | None = None, keys: Keys = Host.key) -> None:
        self.start, self.watch, self.keys = start, watch, keys
        self.until = time.monotonic() + seconds
        self.answer = Answer()
        self.speaks = start.asked.has_answers()
        self.judged: set[tuple[Content, Answers]] = set()
        self.told: set[object] = set()
        self.shown: dict[Content, Shown] = {}

    def explored(self) -> Answer:
        """What is found."""
        try:
            self.explore()
        except GivenUp as why:
            self.answer.gave_up = str(why)
        except Stopped:
            pass
        return self.answer

    def explore(self) -> None:
        """Goes through all orders."""
        first = Host.at_start(self.start)
        groups: list[Reached] = [Reached({})]
        self.look({}, (), groups, answers_of(first) if self.speaks else frozenset(), [])
        seen = {self.key_of(first, groups)}
        todo: list[tuple[bytes, Path, list[Reached]]] = [(pickle.dumps(first, -1), (), groups)]
        while todo:
            frozen, path, groups = todo.pop()
            self.answer.states += 1
            if self.answer.states > MOST_STATES:
                raise GivenUp(f"there are more than {MOST_STATES:,} states of the host")
            here: Host = pickle.loads(frozen)
            for move in list(here.moves()):
                other: Host = pickle.loads(frozen)
                if not other.move(move):
                    continue
                longer = (*path, move)
                reached = self.check(other, longer, groups)
                key = self.key_of(other, reached)
                if key not in seen:
                    seen.add(key)
                    todo.append((pickle.dumps(other, -1), longer, reached))

    def key_of(self, host: Host, groups: list[Reached]) -> object:
        """A state by what counts for what comes."""
        if not self.speaks:
            return self.keys(host)
        return self.keys(host), answers_of(host), tuple(frozenset(group.media) for group in groups)

    def check(self, host: Host, path: Path, groups: list[Reached]) -> list[Reached]:
        """Judges the media that the last move made possible. Gives the groups of media behind it."""
        word, place = path[-1]
        answers = answers_of(host) if self.speaks else frozenset()
        if self.speaks:
            groups = self.grouped(host, word, place, groups)
        if host.new is not None and host.before is not None:
            name = (host.new.content, host.before.key())
            if self.speaks or name not in self.told:
                self.told.add(name)
                self.tell(host, path, groups, answers)
        if self.speaks:
            for group in groups:
                for content, kept in group.media.items():
                    self.judge(content, kept, answers, path)
        return groups

    def grouped(self, host: Host, word: str, place: int | None, groups: list[Reached]) -> list[Reached]:
        """The groups behind a move: a flush that is submitted begins one, and one that is taken leaves none before its own."""
        groups = [*groups[:-1], Reached(dict(groups[-1].media))]
        if word == "flush" and host.log and host.log[-1].is_flush:
            tops = host.frontier.closed
            self.shown_of(tops)
            groups.append(Reached({content_name(tops): kept_of(tops, host.puts())}))
        if word == "take" and place is not None and host.log[place - host.first].is_flush:
            left = sum(flush > place for flush in host.flushes)
            groups = groups[-1 - left :]
        return groups

    def tell(self, host: Host, path: Path, groups: list[Reached], answers: Answers) -> None:
        """Judges the media that hold the put which was submitted last."""
        frontier = host.before
        assert frontier is not None
        self.answer.lists += 1
        if frontier.count() > MOST_MEDIA:
            raise GivenUp(f"an epoch leaves up to {frontier.count():,} media, of which {MOST_MEDIA:,} are looked at")
        puts = list(host.puts())
        for tops in frontier.media(host.new):
            self.look(tops, path, groups, answers, puts)

    def look(self, tops: Tops, path: Path, groups: list[Reached], answers: Answers, puts: list[Put]) -> None:
        """Judges a medium."""
        if time.monotonic() > self.until:
            raise GivenUp("the time is over")
        content, kept = content_name(tops), kept_of(tops, puts)
        self.shown_of(tops)
        if self.watch is not None:
            self.watch(path, kept, tops)
        if self.speaks:
            groups[-1].media.setdefault(content, kept)
        self.judge(content, kept, answers, path)

    def shown_of(self, tops: Tops) -> None:
        """Notes what recovery makes of a medium."""
        content = content_name(tops)
        if content not in self.shown:
            _, self.shown[content] = self.start.show(values_of(tops), content)
            self.answer.trees.add(tuple(self.shown[content].lines))

    def judge(self, content: Content, kept: frozenset[int], answers: Answers, path: Path) -> None:
        """Judges a medium and what was answered by now."""
        if (content, answers) in self.judged:
            return
        self.judged.add((content, answers))
        self.answer.media += 1
        shown = self.shown[content]
        claim = self.start.asked.broken(State(shown.tree, shown.found, answers))
        if claim is None:
            return
        run = realised(self.start, path, kept)
        try:
            run.look()
        except Broken as broken:
            self.answer.broken = broken
            raise Stopped from None
        self.answer.unrealised += 1
        self.answer.maybe = self.answer.maybe or claim


def complete(start: Start, seconds: float = 300.0) -> Answer:
    """What is found of all schedules and power cuts."""
    return Explorer(start, seconds).explored()


def media_of(run: Run) -> Content:
    """The medium that a power cut would leave now, but for what it held at the start."""
    cells = enumerate(run.session.device.surface())
    first = run.start.requests
    return frozenset(
        (block, run.named[int(origin)][1]) for block, (_, origin) in cells if origin != "-" and int(origin) >= first
    )
