"""What each event of a script of block requests did, and why it did nothing.

The words come from a model, that of barrierfs_tools/model/blocks.py, which was written from docs/FORMATS.md alone. After
each event the model is compared with the program: both run the script up to that event, and then each of several
endings, which empty the stack from one of its queues on. Nothing is said past the first difference."""

import copy
from collections.abc import Callable, Iterator
from typing import Protocol, cast

from barrierfs_tools.model import blocks
from barrierfs_tools.runs.runner import Runner
from barrierfs_tools.scripts.reading import Script

LEVELS = ["persist 0", "transfer 0", "receive", "dispatch 0", "accept", "submit"]
# With more moments than this, fewer endings are tried at each.
MANY = 300
MOST_NAMES = 12  # in a list of what was eligible
OFF = "the power is off"


def request_name(request: blocks.Request) -> str:
    """A request by its number."""
    return f"request {request.number}"


def put_name(number: int, block: int) -> str:
    """A put by its number and its block."""
    return f"request {number} (block {block})"


def listed(names: list[str]) -> str:
    """What was eligible, with places."""
    text = ", ".join(f"{at}: {name}" for at, name in enumerate(names[:MOST_NAMES])) or "none"
    return text if len(names) <= MOST_NAMES else f"{text}, and {len(names) - MOST_NAMES} more"


def among(names: list[str]) -> str:
    """What else was eligible."""
    return "nothing else was eligible" if len(names) == 1 else f"eligible were {listed(names)}"


class Stack(Protocol):
    """What a run of requests and a session have in common."""

    @property
    def scheduler(self) -> blocks.Scheduler:
        """The scheduler."""

    @property
    def device(self) -> blocks.Device:
        """The device."""

    @property
    def submitted(self) -> list[blocks.Request]:
        """The submission queue."""

    @property
    def sent(self) -> list[blocks.Command]:
        """The dispatch queue."""

    @property
    def kept(self) -> blocks.Command | None:
        """The command that is kept."""


class Words:
    """Says of one event what it is about to do in the model, by the state before and after it."""

    def __init__(self, run: Stack) -> None:
        self.run = run

    @property
    def requests(self) -> blocks.Run:
        """The run, where it is one of block requests."""
        return cast(blocks.Run, self.run)

    def title(self, request: blocks.Request) -> str:
        """A request, as it goes into a queue."""
        return request_name(request)

    def put(self, number: int, block: int) -> str:
        """A put, as it goes on."""
        return put_name(number, block)

    def command(self, command: blocks.Command, name: Callable[[int, int], str] | None = None) -> str:
        """A command, by the requests that it carries."""
        if command.is_flush:
            return "the flush"
        return " and ".join((name or self.put)(number, block) for block, _, number in command.parts)

    def eligible_requests(self) -> list[str]:
        """What may leave the scheduler."""
        return [
            "the flush " + request_name(r) if r.is_flush else put_name(r.number, r.block)
            for r in self.run.scheduler.eligible()
        ]

    def eligible_commands(self) -> list[str]:
        """What may be transferred."""
        device = self.run.device
        return [
            self.command(device.waiting[at], put_name) for at in range(len(device.waiting)) if device.may_transfer(at)
        ]

    def eligible_entries(self) -> list[str]:
        """What may be persisted."""
        cache = self.run.device.cache
        return [put_name(entry.number, entry.block) for entry in cache if entry.epoch == cache[0].epoch]

    def did(self, event: str, after: Stack) -> str:
        """What an event did that acted."""
        if event == "transfer" and after.device.has_failed():
            command = self.command(self.transferred(after))
            return f"the transfer of {command} fails: nothing of it is moved, and nothing is transferred from here on"
        act: Callable[[Stack], str] = getattr(self, event)
        return act(after)

    def submit(self, _: Stack) -> str:
        """What a `submit` did."""
        request = self.requests.left[0]
        kind = "a flush" if request.is_flush else f"a put of block {request.block}"
        return f"{request_name(request)}, {kind}, goes into the submission queue"

    def accept(self, _: Stack) -> str:
        """What an `accept` did."""
        request = self.run.submitted[0]
        text = f"the scheduler takes {self.title(request)}"
        if request.is_flush:
            return text + ", a flush, and is closed until that has left"
        return text + (", a barrier, and is closed until its epoch has left" if request.is_barrier else "")

    def dispatch(self, after: Stack) -> str:
        """What a `dispatch` did."""
        if self.run.kept is not None:
            return f"the command that was kept goes into the dispatch queue: {self.command(self.run.kept)}"
        command = after.kept if after.kept is not None else after.sent[-1]
        text = f"{self.command(command)} leaves as {self.priority(command)}"
        if after.kept is not None:
            text += ", finds the dispatch queue full, and is kept"
        return f"{text}; {among(self.eligible_requests())}"

    def priority(self, command: blocks.Command) -> str:
        """How a command leaves, and whose flag it carries."""
        if command.is_flush:
            return "ORDERED with the flag"
        closing = self.run.scheduler.closing
        numbers = [number for _, _, number in command.parts]
        if command.has_flag:
            assert closing is not None
            own = closing.number in numbers
            return "ORDERED with the barrier flag" + (
                " that it brought" if own else f" that request {closing.number} brought"
            )
        if closing is not None and closing.number in numbers:
            return "SIMPLE, without the barrier flag that it brought"
        return "SIMPLE"

    def receive(self, after: Stack) -> str:
        """What a `receive` did."""
        return f"the device takes the command of {self.command(after.device.waiting[-1])}"

    def transfer(self, after: Stack) -> str:
        """What a `transfer` did."""
        names = self.eligible_commands()
        command = self.transferred(after)
        text = f"{self.command(command)} goes into the cache"
        if command.is_flush:
            text = "the flush is done: the cache was empty"
        elif command.has_flag:
            text += self.replaced(command) + ", and the epoch ends"
        else:
            text += self.replaced(command)
        return f"{text}; {among(names)}"

    def transferred(self, after: Stack) -> blocks.Command:
        """The command that left the queue."""
        return next(c for c in self.run.device.waiting if all(c is not other for other in after.device.waiting))

    def replaced(self, command: blocks.Command) -> str:
        """Whose entries a command replaces."""
        device = self.run.device
        present = [entry for entry in device.cache if entry.epoch == device.epoch]
        gone = [str(entry.number) for entry in present if entry.block in command.blocks()]
        return f", in the place of that of request {', '.join(gone)}" if gone else ""

    def persist(self, after: Stack) -> str:
        """What a `persist` did."""
        names = self.eligible_entries()
        gone = next(entry for entry in self.run.device.cache if entry not in after.device.cache)
        return f"{self.put(gone.number, gone.block)} goes to the medium; {among(names)}"

    def why(self, event: str, pick: int) -> str:
        """Why an event does nothing."""
        if event == "transfer" and self.run.device.has_failed():
            return "a transfer failed before"
        cause: Callable[[int], str] = getattr(self, "no_" + event)
        return cause(pick)

    def no_submit(self, _: int) -> str:
        """Why a `submit` did nothing."""
        if not self.requests.left:
            return "every request was submitted"
        return f"the submission queue is full, with {len(self.run.submitted)}"

    def no_accept(self, _: int) -> str:
        """Why an `accept` did nothing."""
        closing = self.run.scheduler.closing
        if not self.run.submitted:
            return "the submission queue is empty"
        if closing is None:
            return f"the scheduler is full, with {len(self.run.scheduler.held)} requests"
        if closing.is_flush:
            return f"the scheduler is closed by the flush {request_name(closing)} until that has left"
        waiting = [str(r.number) for r in self.run.scheduler.held if r.keeps_order]
        still = f"until its epoch has left; of that it still holds {', '.join(waiting)}"
        return f"the scheduler is closed by the barrier {request_name(closing)} {still}"

    def no_dispatch(self, pick: int) -> str:
        """Why a `dispatch` did nothing."""
        if self.run.kept is not None:
            return "the dispatch queue is full, and the command of " + self.command(self.run.kept) + " is kept"
        if not self.run.scheduler.held:
            return "the scheduler holds no request"
        return f"place {pick} is past the eligible requests, {listed(self.eligible_requests())}"

    def no_receive(self, _: int) -> str:
        """Why a `receive` did nothing."""
        has_scheduler = self.requests.script.has_scheduler
        source = self.run.sent if has_scheduler else self.requests.left
        if not source:
            return "the dispatch queue is empty" if has_scheduler else "every request was received"
        return f"the device has no room: {len(self.run.device.waiting)} commands wait"

    def no_transfer(self, pick: int) -> str:
        """Why a `transfer` did nothing."""
        if not self.run.device.waiting:
            return "no command waits in the device"
        names = self.eligible_commands()
        if not names:
            return "the flush waits until the cache is empty"
        return f"place {pick} is past the eligible commands, {listed(names)}"

    def no_persist(self, pick: int) -> str:
        """Why a `persist` did nothing."""
        if not self.run.device.cache:
            return "the cache is empty"
        return f"place {pick} is past the entries of the oldest epoch, {listed(self.eligible_entries())}"


class FlashWords(Words):
    """The same where the device is a flash log."""

    def eligible_entries(self) -> list[str]:
        log = log_of(self.run)
        programs = [put_name(page.number, page.block) for page in log.writes() if not page.programmed]
        return programs + [f"the fold of {put_name(page.number, page.block)}" for page in log.kept()[:1]]

    def transfer(self, after: Stack) -> str:
        names, command = self.eligible_commands(), self.transferred(after)
        text = f"{self.command(command)} goes into the log"
        if command.is_flush:
            text = "the flush is done: each page is programmed"
        return f"{text}; {among(names)}"

    def persist(self, after: Stack) -> str:
        log, later, names = log_of(self.run), log_of(after), self.eligible_entries()
        if later.folded > log.folded:
            page = log.pages[log.folded]
            covered = page.block in [other.block for other in log.kept()[1:]]
            where = ": a later page has its block" if covered else " into the data area"
            text = f"{self.put(page.number, page.block)} is folded{where}"
        else:
            at = next(at for at, page in enumerate(log.pages) if page.programmed != later.pages[at].programmed)
            page = log.pages[at]
            behind = any(not other.programmed for other in log.pages[:at])
            where = "behind a page that is not" if behind else "and is on the medium"
            text = f"{self.put(page.number, page.block)} is programmed, {where}"
        return f"{text}; {among(names)}"

    def no_transfer(self, pick: int) -> str:
        log = log_of(self.run)
        if log.waiting and not self.eligible_commands():
            if log.waiting[0].is_flush:
                return "the flush waits until each page is programmed"
            return f"the log has {log.free_places()} free places"
        return super().no_transfer(pick)

    def no_persist(self, pick: int) -> str:
        names = self.eligible_entries()
        return f"place {pick} is past the writes, {listed(names)}" if names else "each page is folded"


def log_of(run: Stack) -> blocks.FlashLog:
    """The device, where it is a flash log."""
    assert isinstance(run.device, blocks.FlashLog)
    return run.device


class Moment:
    """An event: its line, which of its line's events it is, whether it acted, and what is said of it."""

    def __init__(self, number: int, line: str, time: int | str, acted: bool, text: str) -> None:
        self.number, self.line, self.time, self.acted, self.text = number, line, time, acted, text
        self.last = time


def copy_entries(device: blocks.Device, fresh: blocks.Device) -> None:
    """Gives a copy of a device its own cache, or pages of the log."""
    fresh.cache = list(device.cache)
    if isinstance(device, blocks.FlashLog) and isinstance(fresh, blocks.FlashLog):
        fresh.pages = [copy.copy(page) for page in device.pages]


def copied(run: blocks.Run) -> blocks.Run:
    """A copy of the model's run that shares requests and commands, which never change."""
    fresh = copy.copy(run)
    fresh.scheduler, fresh.device = copy.copy(run.scheduler), copy.copy(run.device)
    fresh.left, fresh.submitted, fresh.sent = list(run.left), list(run.submitted), list(run.sent)
    fresh.scheduler.held = list(run.scheduler.held)
    fresh.device.waiting, fresh.device.medium = list(run.device.waiting), list(run.device.medium)
    copy_entries(run.device, fresh.device)
    return fresh


def do(run: blocks.Run, line: str) -> bool:
    """Does an event of the model, and says whether it acted."""
    word, pick, _ = blocks.event_of(line.split(" "))
    return run.do(word, pick)


class Explained:
    """The events of a script with what is said of them, once the program agrees."""

    def __init__(self, script: Script, runner: Runner) -> None:
        self.script, self.runner = script, runner
        self.model = blocks.Script(script.text(cut=script.cut))
        self.moments: list[Moment] = []
        self.checks: list[tuple[int, str, str]] = []
        self.wrong: str | None = None
        self.tell()
        self.compare()

    def tell(self) -> None:
        """Does the events in the model, and says what they did."""
        run = blocks.Run(self.model)
        before: list[str] = []
        self.check(0, run, before)
        for number, line in self.script.events:
            (event,), times = self.script.unit(line)
            word, pick, _ = blocks.event_of(event.split(" "))
            for time in range(1, times + 1):
                was = copied(run)
                acted = run.do(word, pick)
                self.moments.append(Moment(number, line, time, acted, self.text(was, run, word, pick, acted)))
                before = [*before, event]
                self.check(len(self.moments), run, before)
                if not acted:
                    self.moments[-1].last = times  # the same again: nothing has changed
                    break

    def text(self, was: blocks.Run, run: blocks.Run, word: str, pick: int, acted: bool) -> str:
        """What is said of an event."""
        if not was.device.is_on():
            acted_on = "nothing" if word in ("receive", "transfer", "persist") else "nothing of it is seen"
            return f"{acted_on}: {OFF}"
        words = Words(was) if self.model.flash is None else FlashWords(was)
        if not acted:
            return "nothing: " + words.why(word, pick)
        text = words.did(word, run)
        return text + ("; then the power goes off" if not run.device.is_on() else "")

    def endings(self) -> Iterator[list[str]]:
        """Lists of events that empty the stack from each of its queues on: by the first place, or by the last once."""
        levels = LEVELS if self.model.has_scheduler else LEVELS[:3]
        cycles = min(len(self.model.requests) + 1, 100)
        for depth in range(1, len(levels) + 1):
            # from the top down, so that a request goes the whole way in one turn
            yield [*levels[:depth][::-1]] * cycles
            word = levels[depth - 1].split(" ")[0]
            if word in ("persist", "transfer", "dispatch") and len(self.moments) <= MANY:
                yield [f"{word} {place}" for place in (3, 2, 1, 0)] + levels[: depth - 1][::-1] * 2

    def check(self, count: int, run: blocks.Run, before: list[str]) -> None:
        """Keeps what the program is to print after an event, alone and with each ending."""
        self.checks.append((count, self.script.text(before, cut=self.script.cut), blocks.printed(run)))
        if not run.device.is_on():
            return
        for ending in self.endings():
            end = copied(run)
            end.device.cut = None
            for event in ending:
                do(end, event)
            self.checks.append((count, self.script.text([*before, *ending]), blocks.printed(end)))

    def compare(self) -> None:
        """Drops what is said from the first event on at which program and model differ."""
        answers = self.runner.all(text for _, text, _ in self.checks)
        for (count, text, wanted), answer in zip(self.checks, answers):
            if answer != wanted:
                self.wrong = text
                self.moments = self.moments[: max(count - 1, 0)]
                return
