"""Scripts of block requests by docs/FORMATS.md: a second program, written from that page alone."""
import itertools
from collections.abc import Iterable, Sequence
from typing import Any, NamedTuple, Protocol

from barrierfs_tools.model.grammar import DEPTH, QUEUE, repeats, spoken

CLASS_LIMIT = 16  # puts in one command of the elevator
SEGMENT = 16  # places in a segment of a flash log
HELD_LIMIT = 128  # requests that the scheduler holds
FLUSH = -1  # stands for the block of a flush, which has none

Value = Any  # what a block holds: two digits in a script of block requests, a body in a session
Cell = tuple[Value, str]  # what a block of a medium holds, and where it comes from
Completion = tuple[str, int]  # what a device tells of a request


class Request:
    """A put or a flush."""

    def __init__(self, number: int, block: int, value: Value, keeps_order: bool, is_barrier: bool) -> None:
        self.number, self.block, self.value = number, block, value
        self.is_flush = block == FLUSH
        self.keeps_order, self.is_barrier = keeps_order or self.is_flush, is_barrier or self.is_flush


def request_of(number: int, line: str) -> Request:
    """The request of a line."""
    words = line.split(" ")
    if words[0] == "flush":
        return Request(number, FLUSH, None, True, True)
    return Request(number, int(words[1]), words[2], words[3] != "free", words[3] == "barrier")


class Command:
    """What the device takes: `parts` are blocks, bytes and requests."""

    def __init__(self, requests: Sequence[Request], is_ordered: bool, has_flag: bool) -> None:
        self.parts = [(r.block, r.value, r.number) for r in requests if not r.is_flush]
        self.numbers = [r.number for r in requests]
        self.is_flush = not self.parts
        self.is_ordered = is_ordered
        self.has_flag = has_flag
        self.homes = frozenset(block for block, _, _ in self.parts)

    def blocks(self) -> frozenset[int]:
        """The blocks that it writes."""
        return self.homes


class Event(NamedTuple):
    """An event line: its word, its place where it has one, and how often it is done."""

    word: str
    pick: int
    times: int


def event_of(words: list[str]) -> Event:
    """The event of these words."""
    words, times = repeats(words)
    return Event(words[0], int(words[1]) if len(words) > 1 else 0, times)


class Setup(Protocol):
    """What a device is made with."""

    depth: int
    fail: int | None
    cut: int | None
    flash: int | None
    blocks: int


class Script:
    """A script of block requests."""

    def __init__(self, text: str) -> None:
        lines = spoken(text)
        kind, blocks = lines[0].split(" ")
        self.has_scheduler = kind == "blocks"
        self.blocks = int(blocks)
        self.depth, self.queue, self.elevator = DEPTH, QUEUE, False
        self.fail: int | None = None
        self.cut: int | None = None
        self.flash: int | None = None
        self.requests: list[Request] = []
        at = 1
        while lines[at] != "events":
            word, *rest = lines[at].split(" ")
            if word == "elevator":
                self.elevator = True
            elif word in ("depth", "queue", "fail", "cut", "flash"):
                setattr(self, word, int(rest[0]))
            else:
                self.requests.append(request_of(len(self.requests), lines[at]))
            at += 1
        self.events = [event_of(line.split(" ")) for line in lines[at + 1 :]]


class Scheduler:
    """What waits between host and device."""

    def __init__(self, elevator: bool) -> None:
        self.elevator = elevator
        self.held: list[Request] = []
        self.closing: Request | None = None  # the barrier or flush that was accepted and has not left
        self.place = 0  # the block behind the elevator's last command

    def can_accept(self) -> bool:
        """Whether a request may come in."""
        return self.closing is None and len(self.held) < HELD_LIMIT

    def accept(self, request: Request) -> None:
        """Takes a request."""
        self.held.append(request)
        if request.is_barrier:
            self.closing = request

    def eligible(self) -> list[Request]:
        """What may leave, in the order in which places count."""
        found: list[Request] = []
        waiting: set[int] = set()
        for request in self.held:
            if request.is_flush:
                if len(self.held) == 1:
                    found.append(request)
            elif request.block not in waiting:
                waiting.add(request.block)
                found.append(request)
        if not self.elevator or found and found[0].is_flush:
            return found
        return sorted(found, key=lambda r: (r.block < self.place, r.block))

    def dispatch(self, pick: int) -> Command | None:
        """The command at this place of the eligible list, or none."""
        eligible = self.eligible()
        if pick >= len(eligible):
            return None
        taken = [eligible[pick]]
        if taken[0].is_flush:
            self.held, self.closing = [], None
            return Command(taken, True, True)
        if self.elevator:
            taken = self.joined(taken[0], eligible)
        self.place = taken[-1].block + 1
        self.held = [r for r in self.held if r not in taken]
        is_last = self.closing is not None and not self.closing.is_flush and not any(r.keeps_order for r in self.held)
        carries = taken[0].keeps_order and is_last
        if carries:
            self.closing = None
        return Command(taken, carries, carries)

    @staticmethod
    def joined(first: Request, eligible: list[Request]) -> list[Request]:
        """A put, and those of consecutive blocks and of its class that leave with it."""
        known = {r.block: r for r in eligible if r.keeps_order == first.keeps_order}
        taken = [first]
        while len(taken) < CLASS_LIMIT and taken[-1].block + 1 in known:
            taken.append(known[taken[-1].block + 1])
        return taken


class Entry(NamedTuple):
    """An entry of the cache."""

    epoch: int
    block: int
    value: Value
    number: int


class Device:
    """The model device: commands that wait, a cache of epochs, and a medium."""

    def __init__(self, script: Setup) -> None:
        self.depth, self.fail, self.cut = script.depth, script.fail, script.cut
        self.waiting: list[Command] = []
        self.cache: list[Entry] = []
        self.epoch = self.steps = self.transfers = 0
        self.medium: list[Cell] = [("00", "-")] * script.blocks

    def is_on(self) -> bool:
        """Whether the power is on."""
        return self.cut is None or self.steps < self.cut

    def has_failed(self) -> bool:
        """Whether a transfer failed."""
        return self.fail is not None and self.transfers >= self.fail

    def has_room(self) -> bool:
        """Whether a command may come in."""
        return self.is_on() and len(self.waiting) < self.depth

    def may_transfer(self, at: int) -> bool:
        """Whether the command at this place of those that wait may be transferred."""
        command, before = self.waiting[at], self.waiting[:at]
        if command.is_ordered:
            return not before and not (command.is_flush and self.cache)
        return not any(c.is_ordered or c.blocks() & command.blocks() for c in before)

    def transfer(self, pick: int) -> bool:
        """Transfers the command at this place of the eligible list, or fails to, and says whether one was there."""
        if not self.is_on() or self.has_failed():
            return False
        places = (at for at in range(len(self.waiting)) if self.may_transfer(at))
        place = next(itertools.islice(places, pick, None), None)
        if place is None:
            return False
        command = self.waiting.pop(place)
        self.steps, self.transfers = self.steps + 1, self.transfers + 1
        if not self.has_failed():
            self.move(command)
        return True

    def move(self, command: Command) -> None:
        """Puts the parts of a command into the cache."""
        for block, value, number in command.parts:
            entry = Entry(self.epoch, block, value, number)
            same = [at for at, other in enumerate(self.cache) if other[:2] == (self.epoch, block)]
            if same:
                self.cache[same[0]] = entry
            else:
                self.cache.append(entry)
        if command.has_flag and not command.is_flush:
            self.epoch += 1

    def persist(self, pick: int) -> bool:
        """Puts the entry at this place of the eligible list onto the medium, and says whether one was there."""
        eligible = [at for at, entry in enumerate(self.cache) if entry.epoch == self.cache[0].epoch]
        if not self.is_on() or pick >= len(eligible):
            return False
        entry = self.cache.pop(eligible[pick])
        self.medium[entry.block] = (entry.value, str(entry.number))
        self.steps += 1
        return True

    def surface(self) -> list[Cell]:
        """What the medium has, for each block its bytes and where they come from."""
        return self.medium


class LogPage:
    """A page of a flash log."""

    def __init__(self, block: int, value: Value, number: int, programmed: bool = False) -> None:
        self.block, self.value, self.number, self.programmed = block, value, number, programmed


class FlashLog(Device):
    """A device that puts all parts into a log, in order of their transfers, and from there into its data area,
    `medium`."""

    def __init__(self, script: Setup) -> None:
        super().__init__(script)
        assert script.flash is not None
        self.segments = script.flash
        self.pages: list[LogPage] = []  # all that were ever given a place
        self.folded = 0  # how many of them, the first ones

    def free_places(self) -> int:
        """The places of the log that are free."""
        erased = self.folded // SEGMENT
        return (self.segments + erased) * SEGMENT - len(self.pages)

    def may_transfer(self, at: int) -> bool:
        command = self.waiting[at]
        if len(command.parts) > self.free_places():
            return False
        if command.is_flush:
            return at == 0 and all(page.programmed for page in self.pages[self.folded :])
        return super().may_transfer(at)

    def move(self, command: Command) -> None:
        self.pages += [LogPage(*part) for part in command.parts]

    def kept(self) -> list[LogPage]:
        """The pages that are not folded, up to the first one that is not programmed."""
        return list(itertools.takewhile(lambda page: page.programmed, self.pages[self.folded :]))

    def writes(self) -> list[LogPage]:
        """What may be persisted: the pages that are not programmed, and the one that may be folded."""
        return [page for page in self.pages[self.folded :] if not page.programmed] + self.kept()[:1]

    def persist(self, pick: int) -> bool:
        eligible = self.writes()
        if not self.is_on() or pick >= len(eligible):
            return False
        page = eligible[pick]
        if page.programmed:
            self.fold(page, self.kept()[1:])
        page.programmed = True
        self.steps += 1
        return True

    def fold(self, page: LogPage, later: Iterable[LogPage]) -> None:
        """Puts a page into the data area, unless a later one has its block."""
        if page.block not in [other.block for other in later]:
            self.medium[page.block] = (page.value, str(page.number))
        self.folded += 1

    def surface(self) -> list[Cell]:
        medium = list(self.medium)
        for page in self.kept():
            medium[page.block] = (page.value, str(page.number))
        return medium


def device_of(script: Setup) -> Device:
    """A new device."""
    return Device(script) if script.flash is None else FlashLog(script)


class Run:
    """A run of a script of block requests."""

    def __init__(self, script: Script) -> None:
        self.script = script
        self.scheduler, self.device = Scheduler(script.elevator), device_of(script)
        self.left = list(script.requests)
        self.submitted: list[Request] = []
        self.sent: list[Command] = []
        self.kept: Command | None = None

    def send(self, command: Command) -> bool:
        """Puts a command into the dispatch queue, or keeps it, and says whether that changed anything."""
        if len(self.sent) < self.script.queue:
            self.sent.append(command)
            self.kept = None
            return True
        was_kept = self.kept is command
        self.kept = command
        return not was_kept

    def receive(self) -> bool:
        """The device takes a command, if it can."""
        if not self.device.has_room():
            return False
        if self.script.has_scheduler:
            if not self.sent:
                return False
            command = self.sent.pop(0)
        else:
            if not self.left:
                return False
            request = self.left.pop(0)
            command = Command([request], request.is_barrier, request.is_barrier)
        self.device.waiting.append(command)
        return True

    def submit(self) -> bool:
        """The host hands over its next request, if it can."""
        acts = bool(self.left) and len(self.submitted) < self.script.queue
        if acts:
            self.submitted.append(self.left.pop(0))
        return acts

    def accept(self) -> bool:
        """The scheduler takes a request, if it can."""
        acts = bool(self.submitted) and self.scheduler.can_accept()
        if acts:
            self.scheduler.accept(self.submitted.pop(0))
        return acts

    def do(self, event: str, pick: int) -> bool:
        """Does an event, and says whether it acted."""
        if event == "submit":
            return self.submit()
        if event == "accept":
            return self.accept()
        if event == "dispatch":
            command = self.kept or self.scheduler.dispatch(pick)
            return command is not None and self.send(command)
        if event == "receive":
            return self.receive()
        return self.device.transfer(pick) if event == "transfer" else self.device.persist(pick)


def printed(run: Run) -> str:
    """The report of a run."""
    lines = [f"steps {run.device.steps}"]
    lines += [f"block {at} {value} {origin}" for at, (value, origin) in enumerate(run.device.surface())]
    return "".join(line + "\n" for line in lines)


def report(text: str) -> str:
    """What `replay` prints of this script."""
    script = Script(text)
    run = Run(script)
    for event, pick, times in script.events:
        for _ in range(times):
            if not run.do(event, pick):
                break
    return printed(run)
