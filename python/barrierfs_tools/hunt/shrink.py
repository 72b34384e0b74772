"""Makes a schedule that breaks a claim as short as it gets: events are named by the request or page that they move, so that one
of them can be left out and the others still mean the same."""
import time

from barrierfs_tools.failed import Failed
from barrierfs_tools.hunt.reading import Asked
from barrierfs_tools.hunt.sessions import PLACED, Broken, Event, Named, Run, Start, lines_of
from barrierfs_tools.model.grammar import PARTS, lines_of as all_lines

SECONDS = 8.0  # of a processor; what is short by then stays
MOST_TURNS = 8  # tried in place of single events
COARSE, WORTH = 8, 0.8  # what is left out at a time by a first try behind them, and what that may leave

BACK: list[Named] = [(part.split(" ", maxsplit=1)[0], 0 if part.endswith(" 0") else None) for part in PARTS]
KEPT_LINES = ("volume", "thread", "begin", "depth", "queue", "flash", "elevator")  # no calls


class Shrinker:
    """Shrinks the events that break a claim."""

    def __init__(self, start: Start, claim: str, seconds: float = SECONDS) -> None:
        self.start, self.claim = start, claim
        self.until = time.process_time() + seconds
        self.threads: list[Named] = [("call", number) for number in range(1, len(start.asked.threads) + 1)]

    def is_late(self) -> bool:
        """Whether it has to end."""
        return time.process_time() > self.until

    def play(self, events: list[Named], at_end: bool = False) -> Broken | None:
        """How these events break the claim, if they do, or if they do at their end."""
        run = Run(self.start, judges=not at_end, only=self.claim)
        try:
            run.look()
            for event in events:
                run.do(*event)
            run.look()
        except Broken as broken:
            return broken
        return None

    def broken(self, events: list[Named]) -> list[Named] | None:
        """The events up to where they break the claim, without those that do nothing; none where they do not."""
        found = self.play(events)
        return found.names if found else None

    def must(self, events: list[Named]) -> list[Named]:
        """The same, of events that break it."""
        found = self.broken(events)
        if found is None:
            raise Failed("a schedule that broke the claim does so no more")
        return found

    def fewer(self, head: list[Named], tail: list[Named], least: int = 1) -> list[Named]:
        """Of these as few of the tail's events as break the claim, left out by so many at least; the head stays."""
        size = max(1, len(tail) // 2)
        while size >= least and tail:
            at = len(tail)
            while at > 0 and not self.is_late():
                low = max(0, at - size)
                if self.play([*head, *tail[:low], *tail[at:]], at_end=True) is not None:
                    tail = tail[:low] + tail[at:]
                at = low
            size //= 2
        return tail

    def lower(self, tail: list[Named], events: list[Event]) -> list[Named]:
        """First places in place of names, where they do as well."""
        for at, event in enumerate(events):
            if event[0] not in PLACED:
                continue
            for place in range(int(event[1])):
                other = [*tail[:at], (tail[at][0], place), *tail[at + 1 :]]
                if not self.is_late() and self.broken(other) is not None:
                    tail = other
                    break
        return tail

    def grouped(self, tail: list[Named]) -> list[Named]:
        """Events of one word side by side, where they may stand so: a run of them goes back to the one before it."""
        at = 1
        while at < len(tail) and not self.is_late():
            word = tail[at][0]
            before = [place for place in range(at - 1) if tail[place][0] == word]
            if word != tail[at - 1][0] and before:
                end = next((place for place in range(at, len(tail)) if tail[place][0] != word), len(tail))
                low = before[-1] + 1
                other = [*tail[:low], *tail[at:end], *tail[low:at], *tail[end:]]
                if self.broken(other) is not None:
                    tail = other
            at += 1
        return tail

    def placed(self, head: list[Named], tail: list[Named]) -> list[Event] | None:
        """The tail's events by their places, up to where they break the claim; none where the head does, or they do not."""
        found = self.play([*head, *tail])
        if found is None:
            return None
        run = Run(self.start, only=self.claim)
        try:
            for event in head:
                run.do(*event)
        except Broken:
            return []
        return found.events[len(run.events) :]

    def breaks_behind(self, head: list[Named], tail: list[Named]) -> bool:
        """Whether the tail breaks the claim at its end, behind this head."""
        return not self.is_late() and self.play([*head, *tail], at_end=True) is not None

    def turns(self, tail: list[Named]) -> list[str]:
        """Event lines that break the claim, with `round` or `back` in place of single events where there are fewer lines so."""
        best = lines_of(self.placed([], tail) or [])
        for word, unit in (("round", [*self.threads, *BACK]), ("back", BACK)):
            counts = [count for count in range(1, MOST_TURNS + 1) if self.breaks_behind(unit * count, tail)]
            for count in {*counts[:1], *counts[-1:]}:
                coarse = self.fewer(unit * count, tail, len(tail) // COARSE + 1)
                if len(coarse) > WORTH * len(tail):
                    continue
                events = self.placed(unit * count, self.fewer(unit * count, coarse))
                if events is not None and 1 + len(lines_of(events)) < len(best):
                    best = [f"{word} {count}", *lines_of(events)]
        return best

    def lines(self, names: list[Named]) -> list[str]:
        """Event lines, as few as were found, that break the claim."""
        found = self.fewer([], self.must(names))
        other = self.must(self.grouped(found))
        other = self.must(self.lower(other, self.placed([], other) or []))
        return self.turns(other if other == found else self.fewer([], other))


def without_calls(shrinker: Shrinker, names: list[Named]) -> tuple[Shrinker, list[Named]]:
    """The same with as few calls as break the claim. What is left out becomes a comment, so that lines keep their numbers. What
    the claim says has to hold before the first event, or else it would break for want of a call."""
    lines, is_changed = all_lines(shrinker.start.asked.text), True
    names = shrinker.fewer([], shrinker.must(names))
    while is_changed:
        is_changed = False
        for at in reversed(range(lines.index("claims"))):
            if not lines[at] or lines[at][0] == "#" or lines[at].split(" ")[0] in KEPT_LINES or shrinker.is_late():
                continue
            other = [*lines[:at], f"# {lines[at]}", *lines[at + 1 :]]
            again = tried("\n".join(other) + "\n", shrinker)
            found = again.broken(names) if again is not None else None
            if again is not None and found is not None:
                lines, names, shrinker, is_changed = other, again.fewer([], found), again, True
    return shrinker, names


def tried(text: str, before: Shrinker) -> Shrinker | None:
    """What shrinks this file's schedules, if it is a file of claims which hold at its start."""
    try:
        again = Shrinker(Start(Asked(text)), before.claim)
        again.until = before.until
        Run(again.start).look()
    except (Failed, Broken):
        return None
    return again
