"""What each event of a volume script did, by runs of the program alone.

An event is done on the script up to it. What it did is what the report then has more: an answer, a request, a closed
transaction, a step. What moved between two queues is not in the report; so endings are done besides, which bring to the
medium all that stands below one of the queues, and the steps that this takes are counted. Why an event did nothing is
said where the report tells it, or where the event acts once the cause is removed."""

import concurrent.futures
import re
from collections.abc import Callable, Iterator
from typing import NamedTuple

from barrierfs_tools.explain.block_events import LEVELS, OFF, Moment
from barrierfs_tools.model.blocks import HELD_LIMIT
from barrierfs_tools.runs.runner import Runner
from barrierfs_tools.scripts.reading import Report, Script
from barrierfs_tools.scripts.writing import packed, repeated

# What can be between submission and cache, in commands: two queues of 64, 128 requests, 64 commands.
MOST_COMMANDS = 330
ALL = 100_000
# An event that does nothing does nothing when it is repeated. So where so many of it do something, the first one did.
MANY_TIMES = 100
MORE_PLACES = 40  # counted beyond the one that was taken
UNTOLD = "goes on by a step that the report does not tell"


Acts = Callable[[str], bool]  # whether an event acts


class Single(NamedTuple):
    """One event of a line: how it is called there, the event, or none for those of which nothing is seen, and all
    before it."""

    number: int
    line: str
    time: int | str
    event: str | None
    before: list[str]


class Prefix:
    """The script up to some event, and what it can be asked. Where it is brief, nobody asks why the event does
    nothing."""

    def __init__(self, owner: "Explained", events: list[str], brief: bool = False) -> None:
        self.owner, self.events, self.brief = owner, events, brief

    def then(self, *events: str) -> "Prefix":
        """The prefix with more events."""
        return Prefix(self.owner, [*self.events, *events])

    def report(self) -> Report:
        """The report of the prefix."""
        return self.owner.report(self.events)

    def steps(self) -> int:
        """The steps of its device."""
        return self.report().steps

    def grows(self, event: str) -> bool:
        """Whether this event makes requests, answers or closed transactions more."""
        before, after = self.report(), self.then(event).report()
        return (after.requests, after.closed, len(after.answers)) != (
            before.requests,
            before.closed,
            len(before.answers),
        )

    def does_a_step(self, event: str) -> bool:
        """Whether this event is a step."""
        return self.then(event).steps() > self.steps()

    def emptied(self, levels: int) -> "Prefix":
        """The prefix with all brought to the medium that stands in the first so many parts: cache, device, dispatch
        queue .."""
        cycle = [f"persist 0 x {16}", *LEVELS[1:levels]][::-1]
        times = min(self.report().requests, MOST_COMMANDS) + 1 if levels > 1 else 0
        return self.then(f"persist 0 x {ALL}", *cycle * times, f"persist 0 x {ALL}")

    def depth(self, levels: int) -> int:
        """How many steps that takes."""
        return self.emptied(levels).steps() - self.steps()

    def looks_like(self, other: "Prefix") -> bool:
        """Whether nothing tells the two apart."""
        return (
            self.report().text == other.report().text
            and self.emptied(5).report().text == other.emptied(5).report().text
        )

    def places(self, word: str, most: int, acts: Acts) -> int:
        """How many places are eligible, up to so many."""
        return next((place for place in range(most) if not acts(f"{word} {place}")), most)


class Ids:
    """Which request moves, as far as the order of the queues says it; requests are submitted in the order of their
    ids."""

    def __init__(self, elevator: bool) -> None:
        self.accepted = 0
        self.flushes: set[int] = set()
        # What each part holds, in order; none once that is not certain.
        self.held: list[int | None] | None = None if elevator else []
        self.sent: list[int | None] = []
        self.waiting: list[int | None] | None = []

    def named(self, event: str | None, text: str) -> str:
        """The text with the request's id in it, where that is certain."""
        if text.startswith("submits a flush, request "):
            self.flushes.add(int(text.split(" ")[4].strip(";")))
        if text.startswith("nothing") or event is None:
            return text
        word = event.split(" ")[0]
        if word == "accept":
            if self.held is not None:
                self.held.append(self.accepted)
            self.accepted += 1
            return text.replace("a request", f"request {self.accepted - 1}")
        if word == "dispatch":
            number = self.taken(self.held, text)
            self.held = self.held if number is not None else None
            self.sent.append(number)
            return (
                text
                if number is None
                else text.replace("the request", f"request {number},").replace(" leaves", ", leaves")
            )
        if word == "receive":
            number = self.sent.pop(0) if self.sent else None
            if self.waiting is not None:
                self.waiting.append(number)
            return text if number is None else text.replace("a command", f"request {number}")
        if word == "transfer":
            number = self.taken(self.waiting, text)
            self.waiting = self.waiting if number is not None else None
            if number in self.flushes:
                return text.replace("the command", f"request {number}, the flush").replace(
                    "goes into the cache", "is done, for the cache is empty"
                )
            return (
                text if number is None else text.replace("the command", f"request {number},").replace(" goes", ", goes")
            )
        return text

    def taken(self, items: list[int | None] | None, text: str) -> int | None:
        """What is taken from these at the place that the text names: the text has it, and how many were eligible."""
        found = re.search(r"at place (\d+) .*eligible were (\d+)( or more)?", text)
        if not items or not found:
            return None
        place, count, is_more = int(found[1]), int(found[2]), found[3]
        if (
            not is_more
            and count == len(items)
            or place == 0
            and (items[0] not in self.flushes or count == 1 == len(items))
        ):
            return items.pop(place)
        return None


class Explained:
    """The events of a script with what is said of them."""

    def __init__(self, script: Script, runner: Runner, shows_all: bool) -> None:
        self.script, self.runner, self.shows_all = script, runner, shows_all
        self.known: dict[str, Report] = {}
        self.wrong: None = None
        self.calls = script.calls()
        self.names = {
            "call": self.call,
            "commit": self.commit,
            "flush": self.flush,
            "write": self.write,
            "answer": self.answer,
        }
        self.names |= {"accept": self.accept, "dispatch": self.dispatch, "receive": self.receive}
        self.names |= {"transfer": self.transfer, "persist": self.persist}
        self.moments = list(self.tell())

    def report(self, events: list[str]) -> Report:
        """The report after these events, with the power on and no attempt of recovery."""
        text = self.script.text(packed(events), attempts=False)
        if text not in self.known:
            self.known[text] = Report(self.runner.one(text), self.script)
        return self.known[text]

    def singles(self) -> Iterator[Single]:
        """The single events of each line: number, line, how it is called there, the event, and all before it."""
        before: list[str] = []
        for number, line in self.script.events:
            unit, times = self.script.unit(line)
            seen = self.rounds_seen(before, line, unit, times) if len(unit) > 1 else times
            for time in range(1, seen + 1):
                for event in unit:
                    name: int | str = f"round {time}, {event}" if len(unit) > 1 else time
                    yield Single(number, line, name, event, before)
                    before = [*before, event]
            if seen < times:
                rest = f"round {seen + 1} to {times}" if seen + 1 < times else f"round {times}"
                yield Single(number, line, rest, None, before)
                before = [*before, *repeated(unit, times - seen)]

    def rounds_seen(self, before: list[str], line: str, unit: list[str], times: int) -> int:
        """After how many rounds of a line nothing more is seen of it: what the report counts never becomes less."""
        end = Prefix(self, [*before, line])
        low, high = 0, times
        while low < high:
            middle = (low + high) // 2
            if Prefix(self, [*before, *repeated(unit, middle)]).looks_like(end):
                high = middle
            else:
                low = middle + 1
        return low

    def tell(self) -> Iterator[Moment]:
        """Says of each event what it did."""
        singles = list(self.singles())
        pool = concurrent.futures.ThreadPoolExecutor(self.runner.jobs)
        try:
            texts = list(pool.map(lambda single: self.say(single.time, single.event, single.before), singles))
        finally:
            pool.shutdown(cancel_futures=True)
        ids = Ids("elevator" in self.script.head)
        for (number, line, time, event, _), text in zip(singles, texts):
            text = ids.named(event, text)
            is_nothing = text.startswith("nothing")
            if self.shows_all or not isinstance(time, str) or not is_nothing or event is None:
                yield Moment(number, line, time, not is_nothing, text)

    def say(self, time: int | str, event: str | None, before: list[str]) -> str:
        """Says of one event what it did."""
        if event is None:
            return "nothing is seen of these"
        cut, prefix = self.script.cut, Prefix(self, before, isinstance(time, str) and not self.shows_all)
        word = event.split(" ")[0]
        if cut is not None and prefix.steps() >= cut:
            if word in ("receive", "transfer", "persist"):
                return f"nothing: {OFF}"
            return self.after_the_cut(event, before)
        text = self.names[word](prefix, event)
        is_last = cut is not None and prefix.then(event).steps() >= cut
        return text + ("; then the power goes off" if is_last else "")

    def after_the_cut(self, event: str, before: list[str]) -> str:
        """What the host does once the power is off, of which the report of the cut session tells."""
        reports = [
            self.runner.one(self.script.text(packed(events), cut=self.script.cut, attempts=False))
            for events in (before, [*before, event])
        ]
        old, new = (Report(text, self.script) for text in reports)
        return self.difference(old, new) or f"nothing was seen of it: {OFF}"

    def difference(self, old: Report, new: Report) -> str:
        """What the second report has more than the first, in words."""
        said = [f"{line}: {reply}" for _, line, reply in new.answers[len(old.answers) :]]
        said += [f"closes transaction {number}" for number in range(old.closed + 1, new.closed + 1)]
        said += [f"submits request {number}" for number in range(old.requests, new.requests)]
        for thread, (was, now) in enumerate(zip(old.threads, new.threads), 1):
            if now[2] and now[2] != was[2]:
                said.append(f"{self.calls[thread - 1][now[0]]}: {state_of(now[2])}")
        return "; ".join(said)

    def seen(self, prefix: Prefix, event: str) -> str:
        """What is seen of an event."""
        return self.difference(prefix.report(), prefix.then(event).report())

    def cause(self, prefix: Prefix, event: str, acts: Callable[[Prefix, str], bool], otherwise: str) -> str:
        """Why an event did nothing: the first of these causes without which it acts."""
        if prefix.brief:
            return otherwise
        causes = [
            ("the submission queue is full", prefix.then("accept")),
            ("a completion was not taken yet", prefix.then("answer x 64", "flush x 64")),
            ("what was sent is not in the cache yet", prefix.emptied(5)),
            ("what was sent is not on the medium, with its completions taken", self.settled(prefix)),
        ]
        for text, other in causes:
            if acts(other, event):
                return f"nothing: {text}"
        return otherwise

    def settled(self, prefix: Prefix) -> "Prefix":
        """The prefix with all on the medium that was submitted, and all completions taken."""
        return prefix.emptied(5).then("answer x 64", "flush x 64").then(*["answer x 64", "flush x 64"] * 4).emptied(5)

    def call(self, prefix: Prefix, event: str) -> str:
        """What a `call` did."""
        text = self.seen(prefix, event)
        if text:
            return text
        thread = int(event.split(" ")[1])
        answered, count, state = prefix.report().threads[thread - 1]
        if answered == count:
            return f"nothing: all {count} calls of thread {thread} were answered"
        line = self.calls[thread - 1][answered]
        if state.startswith("waiting"):
            return f"nothing: {line} {state_of(state)}"
        if self.seen(prefix, f"{event} x {MANY_TIMES}"):
            return f"{line}: {UNTOLD}"
        unseen = f"nothing was seen of it; next is {line}" + (f", {state_of(state)}" if state else "")
        text = self.cause(prefix, event, Prefix.grows, unseen)
        return text.replace("nothing:", f"nothing: {line} waits:")

    def commit(self, prefix: Prefix, event: str) -> str:
        """What a `commit` did."""
        text = self.seen(prefix, event)
        if text:
            return text
        if self.seen(prefix, f"{event} x {MANY_TIMES}"):
            return UNTOLD
        return self.cause(
            prefix,
            event,
            Prefix.grows,
            "nothing: no transaction is to be closed or sent, nor would one be if all that was sent were on the medium",
        )

    def flush(self, prefix: Prefix, event: str) -> str:
        """What a `flush` did."""
        text = self.seen(prefix, event)
        if text:
            return text.replace("submits request", "submits a flush, request")
        # What does nothing once does nothing many times.
        if self.shows_later(prefix, f"{event} x {MANY_TIMES}", []):
            return "takes a completion"
        unseen = "nothing was seen of it: no flush is due, and if it took a completion, nobody waits for that one alone"
        return self.cause(
            prefix, event, lambda other, it: other.then(it).report().requests > other.report().requests, unseen
        ).replace(
            "what was sent is not in the cache yet",
            "no flush is due, for the request that a sync call waits for was not transferred",
        )

    def answer(self, prefix: Prefix, event: str) -> str:
        """What an `answer` did."""
        if self.shows_later(prefix, f"{event} x {MANY_TIMES}", ["flush x 200"]):
            return "a completion goes up to the host"
        return "nothing was seen of it: if a completion went up, nobody waits for it"

    def shows_later(self, prefix: Prefix, event: str, first: list[str]) -> bool:
        """Whether the host goes on otherwise after this event, with what takes no completion but those in `first`."""
        host = [*first, *(f"call {thread} x 50" for thread in range(1, len(self.calls) + 1)), "commit x 100"] * 2
        return prefix.then(*host).report().text != prefix.then(event, *host).report().text

    def write(self, prefix: Prefix, event: str) -> str:
        """What a `write` did."""
        text = self.seen(prefix, event)
        if text:
            return text
        if prefix.brief:
            return "nothing"
        place = int(event.split(" ")[1])
        dirty = prefix.places("write", place, prefix.grows)
        if dirty:
            return f"nothing: place {place} is past the {dirty} Dirty pages"
        return self.cause(prefix, event, Prefix.grows, "nothing: no page is Dirty")

    def accept(self, prefix: Prefix, event: str) -> str:
        """What an `accept` did."""
        if prefix.then(event).depth(4) > prefix.depth(4):
            return "the scheduler takes a request"
        if prefix.brief:
            return "nothing"
        if prefix.depth(5) == prefix.depth(4):
            return "nothing: the submission queue is empty"
        full = "" if prefix.report().requests < HELD_LIMIT else ", or full"
        return f"nothing: the scheduler is closed{full}, until a barrier's epoch or a flush has left"

    def dispatch(self, prefix: Prefix, event: str) -> str:
        """What a `dispatch` did."""
        below = prefix.depth(3)

        def acts(other: str) -> bool:
            return prefix.then(other).depth(3) > below

        place = int(event.split(" ")[1])
        if acts(event):
            count = prefix.places("dispatch", place + MORE_PLACES, acts)
            return f"the request at place {place} leaves the scheduler; {eligible(count, place + MORE_PLACES)}"
        if prefix.brief:
            return "nothing"
        if prefix.depth(4) == below:
            return "nothing: the scheduler holds no request"
        count = prefix.places("dispatch", place, acts)
        if count:
            return f"nothing: place {place} is past the eligible requests, of which there are {count}"
        taken = prefix.then("receive")
        if taken.then(event).depth(3) > taken.depth(3):
            return "the dispatch queue is full: the command is kept"
        return "nothing was seen of it: no command reached the dispatch queue"

    def receive(self, prefix: Prefix, event: str) -> str:
        """What a `receive` did."""
        if prefix.then(event).depth(2) > prefix.depth(2):
            return "the device takes a command"
        if prefix.brief:
            return "nothing"
        if prefix.depth(3) == prefix.depth(2):
            return "nothing: the dispatch queue is empty"
        room = prefix.then(f"persist 0 x {ALL}", "transfer 0")
        if room.then(event).depth(2) > room.depth(2):
            return "nothing: the device has no room"
        return "nothing was seen of it"

    def transfer(self, prefix: Prefix, event: str) -> str:
        """What a `transfer` did."""
        place = int(event.split(" ")[1])
        if prefix.does_a_step(event):
            count = prefix.places("transfer", place + MORE_PLACES, prefix.does_a_step)
            return f"the command at place {place} goes into the cache; {eligible(count, place + MORE_PLACES)}"
        if prefix.brief:
            return "nothing"
        count = prefix.places("transfer", place, prefix.does_a_step)
        if count:
            return f"nothing: place {place} is past the eligible commands, of which there are {count}"
        if prefix.depth(2) == prefix.depth(1):
            return "nothing: no command waits in the device"
        if prefix.then(f"persist 0 x {ALL}").does_a_step("transfer 0"):
            return "nothing: a flush waits until the cache is empty"
        return "nothing was seen of it"

    def persist(self, prefix: Prefix, event: str) -> str:
        """What a `persist` did."""
        place = int(event.split(" ")[1])
        if prefix.does_a_step(event):
            count = prefix.places("persist", place + MORE_PLACES, prefix.does_a_step)
            return f"the entry at place {place} goes to the medium; {eligible(count, place + MORE_PLACES)}"
        if prefix.brief:
            return "nothing"
        count = prefix.places("persist", place, prefix.does_a_step)
        if count:
            return f"nothing: place {place} is past the entries of the oldest epoch, of which there are {count}"
        return "nothing: the cache is empty"


def eligible(count: int, most: int) -> str:
    """How many were eligible."""
    return f"eligible were {count}" + (" or more" if count == most else "")


def state_of(state: str) -> str:
    """What a call waits for, by the words of its thread's line."""
    words = state.split(" ")
    if words[:2] == ["waiting", "conflict"]:
        return f"waits for the running transaction, which waits for block {words[2]} that transaction {words[3]} holds"
    if words[:2] == ["waiting", "commit"]:
        return f"waits for the commit block of transaction {words[2]}"
    if words[:2] == ["waiting", "durable"]:
        return f"waits for a flush after request {words[2]}"
    return "has begun"
