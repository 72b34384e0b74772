"""Volume scripts by docs/FORMATS.md: a second program. Host, journal, scheduler and device do each event as it is
said there; what recovery then makes of the medium is in recovery.py."""
from collections.abc import Callable, Iterable

from barrierfs_tools.model import blocks, calls, recovery
from barrierfs_tools.model.blocks import FLUSH, Command, Completion, Request, Setup, Value
from barrierfs_tools.model.bodies import Body, JournalBlock, super_of
from barrierfs_tools.model.grammar import (
    DATA_CALLS,
    DEPTH,
    FILE_CALLS,
    LIMIT,
    LISTED,
    PARTS,
    QUEUE,
    READS,
    SYNC_CALLS,
    repeats,
    spoken,
)
from barrierfs_tools.model.places import Change, Place, Places

MORE_BODIES, MORE_REVOKES = 12, 520  # of the greatest call
Put = tuple[int, Body, bool]  # block, body, and whether it is a barrier


class Page:
    """A cached block of a file."""

    def __init__(self, zone: int, body: bytes) -> None:
        self.zone, self.body, self.state = zone, body, "dirty"

    def is_unsent(self) -> bool:
        """Whether a barrier or sync call would send it."""
        return self.state in ("dirty", "loose")


class Begun:
    """A barrier or sync call that has begun."""

    def __init__(self, word: str, node: int | None, pages: list[Place]) -> None:
        self.word, self.node, self.pages = word, node, pages
        self.target: int | None = None  # the transaction that it waits for
        self.durable: int | None = None  # the request after which it waits for a flush
        self.sent_barrier = False


class Thread:
    """The calls of a thread, and how far it is."""

    def __init__(self, lines: list[str]) -> None:
        self.lines, self.at = lines, 0
        self.begun: Begun | None = None


class Running:
    """The transaction that calls go into."""

    def __init__(self, number: int) -> None:
        self.number = number
        self.blocks: set[int] = set()
        self.revokes: set[int] = set()
        self.nodes: set[int] = set()
        self.bodies: dict[int, Body] = {}  # once it is closed
        self.wanted = False


class Script:
    """A volume script."""

    def __init__(self, text: str) -> None:
        lines = spoken(text)
        words = lines[0].split(" ")
        self.inodes, self.zones, self.journal = int(words[2]), int(words[4]), int(words[6])
        self.names = calls.names_by(lines[0])
        self.tags = int(words[-1]) if words[-2] == "tags" else 32
        self.blocks = self.zones + self.journal
        self.depth, self.queue, self.limit, self.elevator = DEPTH, QUEUE, LIMIT, False
        self.fail: int | None = None
        self.cut: int | None = None
        self.flash: int | None = None
        self.threads: list[Thread] = []
        at = lines.index("events")
        for line in lines[1:at]:
            word, *rest = line.split(" ")
            if word == "thread":
                self.threads.append(Thread([]))
            elif self.threads:
                self.threads[-1].lines.append(line)
            elif word == "elevator":
                self.elevator = True
            else:
                setattr(self, word, int(rest[0]))
        self.events = [line for line in lines[at + 1 :] if not line.startswith("recover")]
        self.attempts = [line.split(" ")[1:] for line in lines[at + 1 :] if line.startswith("recover")]

    def log_blocks(self, bodies: int, revokes: int) -> int:
        """The log blocks of a transaction."""
        in_descriptor, in_revoke = LISTED[self.tags]
        return -(-revokes // in_revoke) + -(-bodies // in_descriptor) + bodies + 1


class Completions(blocks.Device):
    """What a device of blocks.py tells besides."""

    def __init__(self, script: Setup) -> None:
        super().__init__(script)
        self.done: list[Completion] = []
        self.told_cut = False

    def transfer(self, pick: int) -> bool:
        before = list(self.waiting)
        acts = super().transfer(pick)
        if acts:
            command = next(c for at, c in enumerate(before) if at == len(self.waiting) or c is not self.waiting[at])
            kind = "failed" if self.has_failed() else "flushed" if command.is_flush else "moved"
            self.done += [(kind, number) for number in command.numbers]
        return acts

    def next_completion(self) -> Completion | None:
        """The next thing that the device tells."""
        if self.done:
            return self.done.pop(0)
        if not self.is_on() and not self.told_cut:
            self.told_cut = True
            return "cut", -1
        return None


class Device(Completions):
    """The model device of a session."""


class FlashLog(Completions, blocks.FlashLog):
    """The flash log of a session."""


def device_of(script: Setup) -> Completions:
    """A new device."""
    return Device(script) if script.flash is None else FlashLog(script)


class Session:
    """A volume in use: its host, and the parts of the stack."""

    def __init__(self, script: Script) -> None:
        self.script, self.threads = script, script.threads
        self.places = Places(script.inodes, script.zones, script.names)
        self.running, self.phase = Running(1), "idle"
        self.closing = self.running  # the transaction that is being closed or committed, or was last
        self.plan: list[Put] = []
        self.pages: dict[Place, Page] = {}
        self.taker: dict[int, int] = {}  # of a zone: the transaction that took it
        self.quarantine: dict[int, int] = {}  # of a zone: the transaction that freed it
        self.changer: dict[int, int] = {}  # of a node: the last transaction that changed it
        self.commits: dict[int, int] = {}  # of a transaction whose commit block is submitted: its request
        self.held: dict[int, int] = {}  # of a block: the transaction that holds it
        self.conflicts: set[int] = set()
        self.homes: dict[int, Body] = {}
        self.checkpoint: list[int] | None = None
        self.head, self.free = 1, script.journal - 1
        self.requests = 0
        self.last_put: int | None = None
        self.flushes: list[int] = []
        self.moved: set[int] = set()
        self.flushed, self.taken = -1, 0
        self.is_down = False
        self.failed: int | None = None  # the first request of which a completion says that it failed
        self.submitted: list[Request] = []
        self.sent: list[Command] = []
        self.kept: Command | None = None
        self.completions: list[Completion] = []
        self.kept_completion: Completion | None = None
        self.scheduler, self.device = blocks.Scheduler(script.elevator), device_of(script)
        self.device.medium = [(body, "-") for body in self.made()]
        self.answers: list[str] = []
        self.closed = 0
        self.changes = 0

    def made(self) -> list[Body]:
        """The image that the session is made over."""
        bodies = self.places.bodies()
        image: list[Body] = [bodies.get(block, {}) for block in range(self.script.blocks)]
        image[self.script.zones] = super_of(1, 0)
        return image

    # Submission

    def is_full(self) -> bool:
        """Whether all requests were submitted that there may be."""
        return self.requests >= self.script.limit

    def submit(self, block: int, value: Value, keeps_order: bool = True, is_barrier: bool = False) -> bool:
        """Submits a put, or a flush where there is no block; false where the queue is full."""
        if len(self.submitted) >= self.script.queue:
            return False
        self.submitted.append(Request(self.requests, block, value, keeps_order, is_barrier))
        if block == FLUSH:
            self.flushes.append(self.requests)
        else:
            self.last_put = self.requests
        self.requests += 1
        self.changes += 1
        return True

    # Calls

    def call(self, number: int) -> None:
        """A thread takes the next step of its next call."""
        thread = self.threads[number - 1]
        if thread.at == len(thread.lines):
            return
        line = thread.lines[thread.at]
        reply = self.step(thread, line)
        if reply is not None:
            self.answers.append(f"{number} {line}: {reply}")
            thread.at, thread.begun = thread.at + 1, None
            self.changes += 1

    def step(self, thread: Thread, line: str) -> str | None:
        """The reply of a call's next step, or none where it goes on."""
        word, *rest = line.split(" ")
        if self.is_down:
            return "down"
        if self.failed is not None and word not in READS:
            return f"read-only {self.failed}"
        if thread.begun is not None:
            return self.go_on(thread.begun)
        if word in FILE_CALLS or word == "sync":
            return self.begin(thread, word, rest)
        if word in READS:
            return self.places.volume.reply(line)
        return self.plain(line)

    def begin(self, thread: Thread, word: str, rest: list[str]) -> str | None:
        """Begins a barrier or sync call."""
        node = None
        if rest:
            try:
                node = self.places.volume.walk(calls.names_of(rest[0])).number
            except calls.Refused as refused:
                return str(refused)
        pages = [place for place, page in sorted(self.pages.items()) if page.is_unsent() and node in (None, place[0])]
        thread.begun = Begun(word, node, pages)
        self.changes += 1
        return None

    def plain(self, line: str) -> str | None:
        """Does a call that changes something, if nothing hinders it."""
        if self.may_hinder():
            need, changes = self.trial(line)
            if changes and self.hinders(need):
                return "session full" if self.is_full() else None
        reply, change = self.places.do(line)
        self.note(change)
        return reply

    def trial(self, line: str) -> tuple[int, bool]:
        """The zones that a call would take, and whether it would change the tree or a page."""
        places = self.places.copied()
        places.used -= self.quarantine.keys()
        free = places.volume.free_zones()
        _, change = places.do(line)
        return free - places.volume.free_zones(), bool(change.blocks or change.pages or change.freed or change.nodes)

    def fits(self) -> bool:
        """Whether the running transaction has room for the greatest call."""
        running, script = self.running, self.script
        bodies, revokes = len(running.blocks) + self.places.maps + MORE_BODIES, len(running.revokes) + MORE_REVOKES
        return script.log_blocks(bodies, revokes) <= (script.journal - 1) // 4

    def may_hinder(self) -> bool:
        """Whether there is anything that some call would wait for."""
        return self.phase == "closing" or not self.fits() or bool(self.quarantine)

    def hinders(self, need: int) -> bool:
        """Whether the call waits; what it waits for becomes wanted, but for a session that is full."""
        if self.phase == "closing":
            return True
        if not self.fits():
            self.want()
            return True
        free = self.places.volume.free_zones() - len(self.quarantine)
        if need <= free:
            return False
        if need > free + sum(tx != self.running.number for tx in self.quarantine.values()):
            self.want()
        return True

    def want(self) -> None:
        """Asks for the running transaction to be closed."""
        if not self.is_full() and not self.running.wanted:
            self.running.wanted = True
            self.changes += 1

    def note(self, change: Change) -> None:
        """Notes what a call did in the running transaction, and in the pages."""
        running = self.running
        running.revokes |= change.revoked
        running.blocks |= change.blocks
        running.blocks -= change.revoked
        running.nodes |= change.nodes
        self.changer |= {node: running.number for node in change.nodes}
        self.conflicts |= {block for block in change.blocks if block in self.held}
        self.taker |= {zone: running.number for zone in change.taken}
        self.quarantine |= {zone: running.number for zone in change.freed}
        for place in change.dropped:
            self.pages.pop(place, None)
        self.pages |= {place: Page(zone, body) for place, (zone, body) in change.pages.items()}

    def go_on(self, call: Begun) -> str | None:
        """The next step of a barrier or sync call."""
        left = [at for at, place in enumerate(call.pages) if self.is_unsent(place)]
        if left:
            return self.send_page(call, left[0], is_last=len(left) == 1)
        call.pages = []
        if call.target is None and call.durable is None:
            return self.fix(call)
        if call.target is not None and call.target not in self.commits:
            return "session full" if self.is_full() else None
        if call.word in ("fbarrier", "fdatabarrier"):
            return "ok"
        if call.word == "fdatasync" and call.durable is None:
            call.durable = self.last_put
            self.changes += 1
        need = self.need(call)
        assert need is not None
        return self.await_flush(need)

    def is_unsent(self, place: Place) -> bool:
        """Whether a page is there and was not sent."""
        return place in self.pages and self.pages[place].is_unsent()

    def send_page(self, call: Begun, at: int, is_last: bool) -> str | None:
        """Sends the page at this place of a call's list, which then has passed those before it."""
        if self.is_full():
            return "session full"
        page, is_barrier = self.pages[call.pages[at]], is_last and call.word in DATA_CALLS
        if self.submit(page.zone, page.body, is_barrier=is_barrier):
            page.state = "firm"
            call.sent_barrier = call.sent_barrier or is_barrier
            call.pages = call.pages[at + 1 :]
        return None

    def fix(self, call: Begun) -> str | None:
        """Fixes what a call waits for, once it has no page left."""
        target = self.running.number if self.phase != "closing" else self.closing.number
        if call.word in DATA_CALLS:
            changed = None if call.node is None else self.changer.get(call.node)
            if changed is not None and changed not in self.commits:
                target = changed
            elif call.word == "fdatasync":
                if self.last_put is None:
                    return "ok"
                return self.fix_durable(call, self.last_put)
            elif call.sent_barrier:
                return "ok"
        if self.is_full():
            return "session full"
        call.target = target
        self.changes += 1
        if target == self.running.number:
            self.want()
        return None

    def fix_durable(self, call: Begun, request: int) -> str | None:
        """Fixes that a call waits for a flush after this request, if it has to."""
        reply = self.await_flush(request)
        if reply is None:
            call.durable = request
            self.changes += 1
        return reply

    def need(self, call: Begun) -> int | None:
        """The request that a call needs durable, or none."""
        if call.word == "fdatasync":
            return call.durable
        return self.commits.get(call.target) if call.target is not None and call.word in SYNC_CALLS else None

    def await_flush(self, request: int) -> str | None:
        """The reply once a flush after this request is done."""
        if self.flushed > request:
            return "ok"
        if self.is_full() and not any(flush > request for flush in self.flushes):
            return "session full"
        return None

    # The actors

    def has_stopped(self) -> bool:
        """Whether the actors submit nothing any more."""
        return self.is_down or self.failed is not None

    def commit(self) -> None:
        """The commit actor takes its next step."""
        if self.has_stopped():
            return
        if self.phase == "idle":
            if self.running.wanted and not self.conflicts:
                self.phase, self.closing = "closing", self.running
                self.changes += 1
        elif self.phase == "closing":
            self.close()
        elif not self.is_full():
            block, body, is_barrier = self.plan[0]
            if self.submit(block, body, is_barrier=is_barrier):
                self.plan.pop(0)
                if not self.plan:
                    self.end_commit()

    def close(self) -> None:
        """The next step of closing: a page, a home write, or the transaction itself."""
        unsent = [
            page for place, page in sorted(self.pages.items()) if place[0] in self.closing.nodes and page.is_unsent()
        ]
        if unsent:
            if not self.is_full() and self.submit(unsent[0].zone, unsent[0].body):
                unsent[0].state = "firm"
            return
        need = self.script.log_blocks(len(self.closing.blocks), len(self.closing.revokes))
        if self.checkpoint is None and need > self.free:
            self.checkpoint = sorted(self.homes)
        if self.checkpoint is not None:
            self.go_home(self.checkpoint)
            return
        self.make_plan(need)

    def go_home(self, left: list[int]) -> None:
        """The next step of a checkpoint that has these blocks left."""
        if self.is_full():
            return
        if left:
            block = left[0]
            if self.submit(block, self.homes[block], is_barrier=len(left) == 1):
                del self.homes[left.pop(0)]
        elif self.submit(self.script.zones, super_of(self.closing.number, self.head), is_barrier=True):
            self.checkpoint, self.free = None, self.script.journal - 1

    def log_places(self, count: int) -> list[int]:
        """Takes the next places of the log."""
        length = self.script.journal - 1
        found = [self.script.zones + 1 + (self.head - 1 + at) % length for at in range(count)]
        self.head, self.free = (self.head - 1 + count) % length + 1, self.free - count
        return found

    def make_plan(self, need: int) -> None:
        """Closes the transaction: what is submitted for it is fixed."""
        closing = self.closing
        puts: list[tuple[int, Body]] = [(self.script.zones, super_of(1, self.head))] if closing.number == 1 else []
        puts += zip(self.log_places(need), self.log_of(closing))
        self.plan = [(block, body, at >= len(puts) - 2) for at, (block, body) in enumerate(puts)]
        self.held |= {block: closing.number for block in closing.blocks}
        self.closed += 1
        self.running, self.phase = Running(closing.number + 1), "committing"
        self.changes += 1

    def log_of(self, closing: Running) -> list[Body]:
        """The log blocks of a transaction."""
        present, sequence = self.places.bodies(), closing.number
        closing.bodies = {block: present[block] for block in sorted(closing.blocks)}
        revokes, homes = sorted(closing.revokes), list(closing.bodies)
        in_descriptor, in_revoke = LISTED[self.script.tags]
        log: list[Body] = []
        for at in range(0, len(revokes), in_revoke):
            log.append(JournalBlock("revoke", sequence, listed=tuple(revokes[at : at + in_revoke])))
        for at in range(0, len(homes), in_descriptor):
            listed = homes[at : at + in_descriptor]
            log.append(JournalBlock("descriptor", sequence, listed=tuple(listed)))
            log += [present[block] for block in listed]
        return [*log, JournalBlock("commit", sequence)]

    def end_commit(self) -> None:
        """The commit block was submitted."""
        number = self.closing.number
        assert self.last_put is not None
        self.commits[number] = self.last_put
        for zone in [zone for zone, tx in self.quarantine.items() if tx == number]:
            del self.quarantine[zone]
            self.places.used.discard(zone)
        for block in self.closing.revokes:
            self.homes.pop(block, None)
        self.homes |= self.closing.bodies
        self.phase = "idle"

    def flush(self) -> None:
        """The flush actor submits a flush that is due, or takes a completion."""
        if self.taken > self.script.limit:
            return
        if self.is_due():
            if not self.is_full():
                self.submit(FLUSH, None, is_barrier=True)
        elif self.completions:
            self.taken += 1
            self.changes += 1
            self.take(*self.completions.pop(0))

    def begun(self) -> list[Begun]:
        """The calls that have begun."""
        return [thread.begun for thread in self.threads if thread.begun is not None]

    def is_due(self) -> bool:
        """Whether a flush is to be submitted."""
        needs = [self.need(call) for call in self.begun()]
        moved = [need for need in needs if need in self.moved]
        return not self.has_stopped() and any(
            not any(flush > need for flush in self.flushes) for need in moved if need is not None
        )

    def take(self, kind: str, number: int) -> None:
        """Takes a completion."""
        if kind == "cut":
            self.is_down = True
        elif kind == "failed":
            if self.failed is None:
                self.failed = number
        elif kind == "moved":
            self.moved.add(number)
            for tx in [tx for tx, commit in self.commits.items() if commit == number]:
                if not any(call.word in SYNC_CALLS and call.target == tx for call in self.begun()):
                    self.release(tx)
        else:
            self.flushed = max(self.flushed, number)
            for tx, commit in self.commits.items():
                if commit < number:
                    self.release(tx)

    def release(self, tx: int) -> None:
        """A transaction holds its blocks no more."""
        gone = {block for block, holder in self.held.items() if holder == tx}
        self.held = {block: holder for block, holder in self.held.items() if holder != tx}
        self.conflicts -= gone

    def write(self, pick: int) -> None:
        """The write-back sends a Dirty page."""
        dirty = [page for _, page in sorted(self.pages.items()) if page.state == "dirty"]
        if self.has_stopped() or pick >= len(dirty) or self.is_full():
            return
        page = dirty[pick]
        is_free = self.taker[page.zone] in self.commits
        if self.submit(page.zone, page.body, keeps_order=not is_free):
            page.state = "loose" if is_free else "firm"

    # Scheduler and device

    def accept(self) -> None:
        """The scheduler takes a request."""
        if self.submitted and self.scheduler.can_accept():
            self.scheduler.accept(self.submitted.pop(0))
            self.changes += 1

    def dispatch(self, pick: int) -> None:
        """A command leaves the scheduler, or the one that was kept."""
        command, was_kept = self.kept, self.kept is not None
        command = command or self.scheduler.dispatch(pick)
        if command is None:
            return
        if len(self.sent) < self.script.queue:
            self.sent.append(command)
            self.kept = None
            self.changes += 1
        else:
            self.kept = command
            self.changes += not was_kept

    def receive(self) -> None:
        """The device takes a command."""
        if self.sent and self.device.has_room():
            self.device.waiting.append(self.sent.pop(0))
            self.changes += 1

    def transfer(self, pick: int) -> None:
        """The device transfers a command."""
        self.changes += self.device.transfer(pick)

    def persist(self, pick: int) -> None:
        """The device persists an entry."""
        self.changes += self.device.persist(pick)

    def answer(self) -> None:
        """A completion goes up."""
        was_kept = self.kept_completion is not None
        completion = self.kept_completion or self.device.next_completion()
        if completion is None:
            return
        if len(self.completions) < self.script.queue:
            self.completions.append(completion)
            self.kept_completion = None
            self.changes += 1
        else:
            self.kept_completion = completion
            self.changes += not was_kept

    # Events

    def single(self, event: str) -> None:
        """Does one event."""
        word, *rest = event.split(" ")
        self.doer(word)(*map(int, rest))

    def doer(self, word: str) -> Callable[..., None]:
        """What does the events of this word."""
        found: Callable[..., None] = getattr(self, word)
        return found

    def unit(self, words: list[str]) -> Iterable[str]:
        """The single events of an event line, once."""
        if words[0] not in ("round", "back"):
            return [" ".join(words)]
        threads = range(1, len(self.threads) + 1) if words[0] == "round" else ()
        return [*(f"call {number}" for number in threads), *PARTS]

    def event(self, line: str) -> None:
        """Does an event line; what does nothing once does nothing more."""
        words, times = repeats(line.split(" "))
        if words[0] in ("round", "back"):
            times *= int(words[1])
        singles = [event.split(" ") for event in self.unit(words)]
        unit = [(self.doer(word), [int(number) for number in rest]) for word, *rest in singles]
        for _ in range(times):
            before = self.changes
            for act, rest in unit:
                act(*rest)
            if self.changes == before:
                break

    # The report

    def state(self, thread: Thread) -> str:
        """What stands behind the line of a thread whose next call has begun."""
        call = thread.begun
        if call is None:
            return ""
        if any(self.is_unsent(place) for place in call.pages) or call.target is None and call.durable is None:
            return " sending"
        if call.durable is None and call.target not in self.commits:
            if call.target == self.running.number and self.conflicts:
                block = min(self.conflicts)
                return f" waiting conflict {block} {self.held[block]}"
            return f" waiting commit {call.target}"
        need = self.need(call)
        return f" waiting commit {call.target}" if need is None else f" waiting durable {need}"

    def surface(self) -> list[Body]:
        """What the medium has."""
        return [body for body, _ in self.device.surface()]

    def recovered(self) -> list[Body]:
        """The medium once the attempts of recovery were made, and recovery went to its end."""
        medium, base = self.surface(), self.script.zones
        for words in self.script.attempts:
            medium = recovery.attempt(medium, base, self.script.depth, self.script.flash, words)
        return recovery.recovered(medium, base)

    def report(self) -> str:
        """What `replay` prints."""
        lines = [f"steps {self.device.steps}", f"requests {self.requests}", *self.answers]
        for number, thread in enumerate(self.threads, 1):
            lines.append(f"thread {number}: {thread.at} of {len(thread.lines)}{self.state(thread)}")
        lines += [f"closed {self.closed}", f"found {recovery.Log(self.surface(), self.script.zones).last()}"]
        lines += recovery.Tree(self.recovered(), self.places.table).lines
        return "".join(line + "\n" for line in lines)


def ended(text: str) -> Session:
    """The session of a script, with its events done."""
    session = Session(Script(text))
    for line in session.script.events:
        session.event(line)
    return session


def report(text: str) -> str:
    """What `replay` prints of this script."""
    return ended(text).report()
