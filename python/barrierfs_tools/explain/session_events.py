"""What each event of a volume script did, and why it did nothing, by a model of the session.

The model is that of barrierfs_tools/model/host.py, which was written from docs/FORMATS.md alone. Its whole report is
compared with the program's: of the script, of the script up to many of its events, and of endings after these, which
bring to the medium what the queues hold, some with one thread more. Where one report differs, nothing of this is
said."""

import copy
import sys
from collections.abc import Callable, Iterator, Sequence

from barrierfs_tools.explain import block_events
from barrierfs_tools.explain.block_events import LEVELS, OFF, Moment
from barrierfs_tools.explain.volume_events import state_of
from barrierfs_tools.model import host
from barrierfs_tools.model.blocks import FLUSH, Command, Request, Value
from barrierfs_tools.model.bodies import JournalBlock
from barrierfs_tools.model.grammar import MOST_THREADS
from barrierfs_tools.runs.runner import Runner
from barrierfs_tools.scripts.reading import Script
from barrierfs_tools.scripts.writing import repeated

DEEP = 100_000  # calls in one another, of directories deep in others
DEVICE = ("receive", "transfer", "persist")
LOG_BLOCKS = {"descriptor": "descriptor", "revoke": "revoke block", "commit": "commit block"}
# At so many ends of repeats, and at so many ends of lines, model and program are compared.
MOST_POINTS = 30
ENDINGS = 3  # tried at each of these
# Calls of one thread more, which meet what is held, and whose barriers meet what was sent.
MORE_CALLS = ["create /.more", "write /.more 0 1024 ee", "fdatabarrier /.more", "sync"]
MOST_LINES = 20_000


def blocks_listed(numbers: set[int]) -> str:
    """Blocks by their numbers."""
    listed = ", ".join(map(str, sorted(numbers)))
    return f"block{'' if len(numbers) == 1 else 's'} {listed}" if numbers else "no block"


def counted(count: int, name: str) -> str:
    """So many of these."""
    return f"{count or 'no'} {name}{'' if count == 1 else 's'}"


class Session(host.Session):
    """The model, which notes of each request what it is."""

    def __init__(self, script: host.Script) -> None:
        super().__init__(script)
        self.names: list[str] = []
        self.rank = ""  # of each request, and the class of the last one
        self.listed: list[int] = []  # the blocks whose journal bodies come next

    def submit(self, block: int, value: Value, keeps_order: bool = True, is_barrier: bool = False) -> bool:
        is_done = super().submit(block, value, keeps_order, is_barrier)
        if is_done:
            self.names.append(self.named(self.requests - 1, block, value))
            self.rank = "barrier" if is_barrier else "order-preserving" if keeps_order else "orderless"
        return is_done

    def named(self, number: int, block: int, value: Value) -> str:
        """A request with its block and its content."""
        about = "a flush" if block == FLUSH else f"block {block}, {self.content(block, value)}"
        return f"request {number} ({about})"

    def content(self, block: int, value: Value) -> str:
        """What a put writes."""
        if isinstance(value, bytes):
            return self.page_at(block)
        if isinstance(value, dict):
            if block < self.script.zones:
                return f"home write of a {self.metadata(block)}"
            home = self.listed.pop(0)
            return f"journal body of block {home}"
        assert isinstance(value, JournalBlock)
        if value.kind == "descriptor":
            self.listed = list(value.listed)
        if value.kind == "super":
            return "journal superblock"
        return f"{LOG_BLOCKS[value.kind]} of transaction {value.sequence}"

    def page_at(self, zone: int) -> str:
        """A page by its zone."""
        number, at = next(place for place, page in self.pages.items() if page.zone == zone)
        return f"page {at} of {self.path(number)}"

    def path(self, number: int) -> str:
        """The first path of a node."""
        return next(path for _, path, node, _ in self.places.volume.rows() if node.number == number)

    def metadata(self, block: int) -> str:
        """What a block of metadata is for."""
        places = self.places
        if block < places.zone_map:
            return "map of the inodes"
        if block < places.table:
            return "map of the zones"
        if block < places.first:
            return "table of the inodes"
        return "zone of numbers" if any(block in node.numbers() for node in places.nodes.values()) else "directory"

    def dirty(self) -> int:
        """How many pages are Dirty."""
        return sum(page.state == "dirty" for page in self.pages.values())


class Call:
    """Where a thread was before an event."""

    def __init__(self, thread: host.Thread) -> None:
        self.at, self.has_begun = thread.at, thread.begun is not None
        self.target = thread.begun.target if thread.begun is not None else None
        self.durable = thread.begun.durable if thread.begun is not None else None


class Before:
    """What an event finds; the queues that it may change are copied."""

    def __init__(self, session: Session, word: str) -> None:
        self.scheduler, self.device = copy.copy(session.scheduler), copy.copy(session.device)
        self.device.waiting, self.device.done = list(session.device.waiting), list(session.device.done)
        if word in DEVICE:
            block_events.copy_entries(session.device, self.device)
        self.submitted, self.sent, self.kept = list(session.submitted), list(session.sent), session.kept
        self.completions, self.kept_completion = list(session.completions), session.kept_completion
        self.changes, self.requests = session.changes, session.requests
        self.phase, self.closed = session.phase, session.closed
        self.answers, self.running, self.wanted = len(session.answers), session.running, session.running.wanted
        self.holders = set(session.held.values())
        if word == "call":
            self.calls = [Call(thread) for thread in session.threads]
            self.blocks, self.pages = set(session.running.blocks), dict(session.pages)


class QueueWords(block_events.Words):
    """The words of block requests, with what each request is."""

    def __init__(self, before: Before, session: Session) -> None:
        super().__init__(before)
        self.session = session

    def title(self, request: Request) -> str:
        return super().title(request) if request.is_flush else self.session.names[request.number]

    def put(self, number: int, _: int) -> str:
        return self.session.names[number]

    def command(self, command: Command, name: Callable[[int, int], str] | None = None) -> str:
        return self.session.names[command.numbers[0]] if command.is_flush else super().command(command, name)

    def no_receive(self, _: int) -> str:
        if not self.run.sent:
            return "the dispatch queue is empty"
        return f"the device has no room: {len(self.run.device.waiting)} commands wait"


class FlashQueueWords(QueueWords, block_events.FlashWords):
    """The same where the device is a flash log."""


class HostWords:
    """Says of an event of the host what it did, by the session before and after it."""

    def __init__(self, before: Before, session: Session) -> None:
        self.before, self.session = before, session

    def submitted(self) -> str:
        """The request that was submitted."""
        name, rank = self.session.names[-1], self.session.rank
        return f"submits {name}" + ("" if name.endswith("(a flush)") else f", {rank}")

    def call(self, number: int) -> str:
        """What a `call` did."""
        was, thread = self.before.calls[number - 1], self.session.threads[number - 1]
        line, call = thread.lines[was.at], thread.begun
        return f"{line}: {self.step(was, thread, call, number)}{self.asks()}"

    def step(self, was: Call, thread: host.Thread, call: host.Begun | None, number: int) -> str:
        """What the step of a call did."""
        session = self.session
        if len(session.answers) > self.before.answers:
            return session.answers[-1].removeprefix(f"{number} {thread.lines[was.at]}: ") + self.changed()
        if call is not None and not was.has_begun:
            return f"begins, with {counted(len(call.pages), 'page')} to send"
        if session.requests > self.before.requests:
            return self.submitted()
        if call is not None and call.target != was.target:
            return f"waits for the commit block of transaction {call.target}"
        if call is not None and call.durable != was.durable:
            return f"waits for a flush after request {call.durable}"
        return "waits: " + self.hindrance()

    def changed(self) -> str:
        """The blocks that a call noted in the running transaction, and the pages that it wrote."""
        session, before = self.session, self.before
        noted = session.running.blocks - before.blocks
        names = ", ".join(f"block {block} ({session.metadata(block)})" for block in sorted(noted))
        text = f"; transaction {session.running.number} notes {names}" if names else ""
        for place, page in sorted(session.pages.items()):
            if before.pages.get(place) is not page:
                text += f"; {session.page_at(page.zone)} is Dirty, for block {page.zone}"
        return text

    def asks(self) -> str:
        """That a transaction is to be closed."""
        running = self.before.running
        return f"; transaction {running.number} is to be closed" if running.wanted and not self.before.wanted else ""

    def hindrance(self) -> str:
        """Why a call that changes something is not done yet."""
        session = self.session
        if session.phase == "closing":
            return f"transaction {session.closing.number} is being closed"
        if not session.fits():
            return f"transaction {session.running.number} is full"
        return "the zones that it needs wait for the transactions that freed them"

    def no_call(self, number: int) -> str:
        """Why a `call` did nothing."""
        thread = self.session.threads[number - 1]
        if thread.at == len(thread.lines):
            return f"all {len(thread.lines)} calls of thread {number} were answered"
        return (
            f"{thread.lines[thread.at]} waits: {self.hindrance()}"
            if thread.begun is None
            else f"{thread.lines[thread.at]} {self.waits(thread)}"
        )

    def waits(self, thread: host.Thread) -> str:
        """What a call waits for."""
        session, state = self.session, self.session.state(thread).strip()
        if state == "sending":
            return f"waits: {self.full()}"
        need = session.need(thread.begun) if thread.begun is not None else None
        more = ""
        if need is not None:
            flush = next((flush for flush in session.flushes if flush > need), None)
            more = ", and none was submitted yet" if flush is None else f", which is request {flush}"
        return state_of(state) + more

    def full(self) -> str:
        """Why nothing can be submitted."""
        session = self.session
        return (
            f"all {session.requests} requests were submitted"
            if session.is_full()
            else f"the submission queue is full, with {len(session.submitted)}"
        )

    def commit(self) -> str:
        """What a `commit` did."""
        session, before = self.session, self.before
        if session.requests > before.requests:
            is_last = before.phase == "committing" and session.phase == "idle"
            return self.submitted() + (
                f"; the commit of transaction {session.closing.number} was all submitted" if is_last else ""
            )
        if session.closed > before.closed:
            return f"closes transaction {session.closing.number}, with {counted(len(session.plan), 'put')} to submit"
        return f"begins to close transaction {session.closing.number}, which changed {blocks_listed(session.closing.blocks)}"

    def stopped(self) -> str:
        """Why the actors have stopped."""
        session = self.session
        return (
            f"the host knows that {OFF}" if session.is_down else f"the host knows that request {session.failed} failed"
        )

    def no_commit(self) -> str:
        """Why a `commit` did nothing."""
        session = self.session
        if session.has_stopped():
            return self.stopped()
        if session.phase != "idle":
            return self.full()
        running = session.running.number
        if not session.running.wanted:
            return f"nobody asked for transaction {running} to be closed"
        block = min(session.conflicts)
        return f"transaction {running} waits for block {block}, which transaction {session.held[block]} holds"

    def flush(self) -> str:
        """What a `flush` did."""
        session, before = self.session, self.before
        if session.requests > before.requests:
            return self.submitted()
        kind, number = before.completions[0]
        if kind == "cut":
            return f"takes the completion that says that {OFF}"
        about = {"moved": "which is in the cache", "flushed": "a flush, which is done", "failed": "which failed"}[kind]
        text = f"takes the completion of request {number}, {about}"
        free = sorted(before.holders - set(session.held.values()))
        return text + "".join(f"; transaction {number} holds no block any more" for number in free)

    def no_flush(self) -> str:
        """Why a `flush` did nothing."""
        session = self.session
        if session.taken > session.script.limit:
            return f"{session.taken} completions were taken, one more than the limit"
        return f"a flush is due, but {self.full()}" if session.is_due() else "no flush is due, and no completion waits"

    def write(self, _: int) -> str:
        """What a `write` did."""
        return self.submitted()

    def no_write(self, pick: int) -> str:
        """Why a `write` did nothing."""
        dirty = self.session.dirty()
        if self.session.has_stopped():
            return self.stopped()
        if pick < dirty:
            return self.full()
        return f"place {pick} is past the Dirty pages, of which there are {dirty}" if dirty else "no page is Dirty"

    def answer(self) -> str:
        """What an `answer` did."""
        before, session = self.before, self.session
        kind, number = before.kept_completion or (before.device.done[0] if before.device.done else ("cut", None))
        about = "of the power cut" if kind == "cut" else f"of request {number}"
        if session.kept_completion is not None:
            return f"the completion {about} finds the queue of completions full, and is kept"
        return f"the completion {about} goes up to the host"

    def no_answer(self) -> str:
        """Why an `answer` did nothing."""
        if self.before.kept_completion is not None:
            return f"the queue of completions is full, with {len(self.before.completions)}"
        return "the device has no completion"


def said(before: Before, session: Session, event: str) -> str:
    """What is said of an event that was done."""
    word, *rest = event.split(" ")
    numbers = [int(number) for number in rest]
    acted = session.changes != before.changes
    if word in DEVICE and not before.device.is_on():
        return f"nothing: {OFF}"
    if word in ("accept", "dispatch", *DEVICE):
        words = (QueueWords if session.script.flash is None else FlashQueueWords)(before, session)
        text = words.did(word, session) if acted else "nothing: " + words.why(word, (numbers or [0])[0])
    else:
        said_by: Callable[..., str] = getattr(HostWords(before, session), word if acted else f"no_{word}")
        text = ("" if acted else "nothing: ") + said_by(*numbers)
    return text + ("; then the power goes off" if before.device.is_on() and not session.device.is_on() else "")


class Explained:
    """The events of a script with what is said of them, once the program agrees."""

    def __init__(self, script: Script, runner: Runner, shows_all: bool) -> None:
        self.script, self.runner, self.shows_all = script, runner, shows_all
        self.model = script.text(cut=script.cut)
        self.compared = 0
        self.moments: list[block_events.Moment] = []
        self.wrong: str | None = None
        self.ends = [0]  # how many repeats were done that changed something, after each line
        sys.setrecursionlimit(DEEP)
        self.tell()
        self.compare()

    def begun(self) -> Session:
        """The model before any event."""
        return Session(host.Script(self.model))

    def tell(self) -> None:
        """Does the events in the model, and says what they did."""
        session = self.begun()
        for number, line in self.script.events:
            done = self.tell_line(session, number, line)
            self.ends.append(self.ends[-1] + done)

    def tell_line(self, session: Session, number: int, line: str) -> int:
        """Tells one line, and gives how many of its repeats were done until one changed nothing."""
        unit, times = self.script.unit(line)
        for time in range(1, times + 1):
            changes = session.changes
            for event in unit:
                name: int | str = f"round {time}, {event}" if len(unit) > 1 else time
                self.tell_event(session, event, number, line, name)
            if session.changes == changes:
                self.nothing_more(number, line, unit, time, times)
                return time
        return times

    def tell_event(self, session: Session, event: str, number: int, line: str, name: int | str) -> None:
        """Does one event, and says what it did."""
        before = Before(session, event.split(" ")[0])
        session.single(event)
        acted = session.changes != before.changes
        if acted or self.shows_all or not isinstance(name, str):
            self.moments.append(Moment(number, line, name, acted, said(before, session, event)))

    def nothing_more(self, number: int, line: str, unit: list[str], time: int, times: int) -> None:
        """This repeat changed nothing, so none after it does."""
        if len(unit) == 1:
            self.moments[-1].last = times
        else:
            first = time + 1 if self.shows_all else time  # with --all this one's events are told
            name = f"round {first} to {times}" if first < times else f"round {first}"
            if first <= times:
                self.moments.append(Moment(number, line, name, False, "nothing: no event of these acts"))

    def points(self) -> list[int]:
        """After which repeats model and program are compared."""
        return sorted({*spread(range(self.ends[-1] + 1)), *spread(self.ends)})

    def compare(self) -> None:
        """Compares the reports; the first text of which they differ is kept."""
        self.compared = len(self.points())
        checks = [(self.model, host.report(self.model)), *self.checks()]
        answers = self.runner.all(text for text, _ in checks)
        for (text, wanted), answer in zip(checks, answers):
            if answer != wanted:
                self.wrong = text
                return

    def checks(self) -> Iterator[tuple[str, str]]:
        """Scripts up to some events, each alone and with some endings, and the model's reports."""
        session, points = self.begun(), set(self.points())
        lines: list[str] = []
        singles: list[str] = []
        yield from self.checks_at(session, lines, 0)
        done = 0
        for at, (_, line) in enumerate(self.script.events):
            unit, times = self.script.unit(line)[0], self.ends[at + 1] - self.ends[at]
            for time in range(1, times + 1):
                for event in unit:
                    session.single(event)
                calls = [event for event in unit if event.startswith("call ")]
                singles += unit if len(unit) == 1 else [*calls, "back 1"]
                done += 1
                if done in points:
                    yield from self.checks_at(session, [*lines, *repeated(unit, time)], done)
                    if len(session.threads) < MOST_THREADS and len(singles) < MOST_LINES:
                        yield self.one_more(session, singles)
            lines += repeated(unit, times)

    def checks_at(self, session: Session, lines: list[str], done: int) -> Iterator[tuple[str, str]]:
        """The same of one moment."""
        yield self.script.text(lines, cut=self.script.cut, attempts=False), report_of(session)
        if session.device.is_on():
            kinds = endings(session)
            for ending in (kinds * 2)[done % len(kinds) :][:ENDINGS]:
                yield self.script.text([*lines, *ending], attempts=False), ended(copied(session), ending)

    def one_more(self, session: Session, singles: list[str]) -> tuple[str, str]:
        """The script up to an event, with no round in it, and an ending in which one thread more makes calls."""
        number = len(session.threads) + 1
        end, script = copied(session), copy.copy(self.script)
        end.threads.append(host.Thread(list(MORE_CALLS)))
        script.head = [*script.head, f"thread {number}", *MORE_CALLS]
        own = [f"call {number} x 9", "commit x 12"]
        ending = [
            *own,
            "accept x 64",
            *backwards("dispatch"),
            "receive x 64",
            *backwards("transfer"),
            *own,
            *backwards("persist"),
        ]
        cut = None if session.device.is_on() else script.cut
        return script.text([*singles, *ending], cut=cut, attempts=False), ended(end, ending, cut)


def ended(session: Session, ending: list[str], cut: int | None = None) -> str:
    """The report once these events are done, with the power on but for a cut."""
    session.device.cut = cut
    for line in ending:
        session.event(line)
    return report_of(session)


def backwards(word: str) -> list[str]:
    """The greatest places first."""
    return [f"{word} {place}" for place in range(8, -1, -1)]


def report_of(session: Session) -> str:
    """The report with no attempt of recovery."""
    attempts, session.script.attempts = session.script.attempts, []
    text = session.report()
    session.script.attempts = attempts
    return text


def spread(items: Sequence[int]) -> set[int]:
    """So many of these, evenly, with the first and the last."""
    last = len(items) - 1
    return {items[at * last // (MOST_POINTS - 1)] for at in range(MOST_POINTS)}


def copied(session: Session) -> Session:
    """A copy of the session; bodies never change, so that they are shared."""
    return copy.deepcopy(session, {id(entry): entry for entry in session.device.medium})


def endings(session: Session) -> list[list[str]]:
    """Lists of events that bring to the medium what the queues hold. Backwards ones try the greatest places first, so
    that the steps tell how many were eligible."""
    commands = (
        len(session.submitted) + len(session.scheduler.held) + len(session.sent) + len(session.device.waiting) + 2
    )
    persist, transfer = backwards("persist"), [*backwards("transfer"), *backwards("persist")]
    dispatch = [*backwards("dispatch"), "receive x 64", *transfer]
    calls = [f"call {number} x 9" for number in range(1, len(session.threads) + 1)]
    host_side = ["write 1", "write 0", *calls, "commit x 9", "answer x 9", "flush x 9"]
    return [
        persist,
        transfer,
        ["receive x 64", *transfer],
        dispatch * 2,
        ["accept x 64", *dispatch] * 2,
        [*host_side, "accept x 64", *dispatch] * 2,
        [*LEVELS[:5][::-1]] * commands + ["persist 0 x 1000"],
        ["answer", "flush", *calls, "commit x 2"] * 9,
        ["answer x 64", "flush x 64", *calls, "round 40"],
    ]
