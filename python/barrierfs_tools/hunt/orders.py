"""The host's own orders: its session without scheduler and device. What it submits is noted, and a completion comes when the
search says so."""
from collections.abc import Iterable, Iterator
from typing import Any

from barrierfs_tools.hunt.media import Frontier, Put
from barrierfs_tools.hunt.sessions import Start, content_of, identity
from barrierfs_tools.model.blocks import FLUSH, Request, Value
from barrierfs_tools.model.host import Begun, Session

Move = tuple[str, int | None]  # call, commit, flush, write, or `take` with the request whose completion is taken
Ranks = dict[int, int]


class Host(Session):
    """A host alone."""

    first: int
    log: list[Request]
    frontier: Frontier
    new: Put | None  # the put that the last move submitted
    before: Frontier | None  # the frontier in which the media with it are told

    @staticmethod
    def at_start(start: Start) -> "Host":
        """The host at the start. All that was submitted by then is on the medium."""
        session = start.session()
        session.__class__ = Host
        assert isinstance(session, Host)
        session.first, session.log = session.requests, []
        session.frontier, session.new, session.before = Frontier(), None, None
        session.device.medium, session.completions = [], []
        return session

    def submit(self, block: int, value: Value, keeps_order: bool = True, is_barrier: bool = False) -> bool:
        request = Request(self.requests, block, value, keeps_order, is_barrier)
        self.log.append(request)
        if block == FLUSH:
            self.flushes.append(self.requests)
        else:
            self.last_put = self.requests
        self.note_request(request)
        self.requests += 1
        self.changes += 1
        return True

    def note_request(self, request: Request) -> None:
        """Notes what media there are more."""
        self.new = self.before = None
        if not request.is_flush:
            self.before = self.frontier.copied()
            self.new = Put(request)
            self.before.epoch.append(self.new)
        self.frontier.add(request)

    def puts(self) -> Iterator[Put]:
        """All puts that were submitted."""
        return (Put(request) for request in self.log if not request.is_flush)

    # What may come next

    def waited_for(self) -> set[int]:
        """The requests whose completions count for the host, and were not taken."""
        wanted = {call.durable for call in self.begun() if call.durable is not None} | set(self.commits.values())
        return {number for number in wanted if number >= self.first and number not in self.moved}

    def next_taken(self) -> list[int]:
        """The requests whose completion may be the next that the host takes, of those that count for it. A flush comes behind all
        before it, and what follows a barrier behind that."""
        first_flush = min((number for number in self.flushes if number > self.flushed), default=None)
        found: list[int] = []
        for number in sorted(self.waited_for()):
            if first_flush is not None and number > first_flush:
                break
            found.append(number)
            if self.log[number - self.first].is_barrier:
                break
        return found or ([] if first_flush is None else [first_flush])

    def moves(self) -> Iterator[Move]:
        """The steps that the host may take, or may not be able to."""
        for number, thread in enumerate(self.threads, 1):
            if thread.at < len(thread.lines):
                yield "call", number
        yield "commit", None
        if self.is_due():
            yield "flush", None
        else:
            yield from (("take", number) for number in self.next_taken())
        for place in range(sum(page.state == "dirty" for page in self.pages.values())):
            yield "write", place

    def move(self, move: Move) -> bool:
        """Takes a step, and says whether it did anything."""
        self.new = self.before = None
        word, place = move
        before = self.changes
        if word == "take":
            assert place is not None
            self.take("flushed" if self.log[place - self.first].is_flush else "moved", place)
            self.changes += 1
        else:
            self.doer(word)(*([] if place is None else [place]))
        return self.changes != before

    # What counts for what comes

    def key(self) -> tuple[Any, ...]:
        """A state by what counts for what comes: two states of one key have the same moves, with the same effects."""
        ranks = self.ranks()
        return (
            self.volume_key(),
            tuple((thread.at, self.call_key(thread.begun, ranks)) for thread in self.threads),
            self.transactions_key(),
            tuple((place, page.zone, page.state, identity(page.body)) for place, page in sorted(self.pages.items())),
            self.requests_key(ranks),
            self.frontier.key(),
        )

    def ranks(self) -> Ranks:
        """The requests that count for what comes, by their order alone."""
        needed = {self.last_put, self.flushed, *(number for number in self.flushes if number > self.flushed)}
        needed |= {number for number in self.commits.values() if number not in self.moved or number > self.flushed}
        needed |= {call.durable for call in self.begun()}
        return {number: at for at, number in enumerate(sorted(number for number in needed if number is not None))}

    def call_key(self, call: Begun | None, ranks: Ranks) -> object:
        """Of a call that has begun."""
        if call is None:
            return None
        durable = None if call.durable is None else (ranks[call.durable], call.durable in self.moved)
        return call.word, call.node, tuple(call.pages), call.target, durable, call.sent_barrier

    def volume_key(self) -> object:
        """Of the volume, and of the zones that transactions took and freed."""
        places = self.places
        taker = {zone: tx for zone, tx in self.taker.items() if tx not in self.commits}
        nodes = tuple(sorted((number, node.inode) for number, node in places.nodes.items()))
        items = identity(frozenset(places.items.items()))
        return items, nodes, ordered(places.used), pairs(self.changer), pairs(taker), pairs(self.quarantine)

    def transactions_key(self) -> object:
        """Of the transactions: the running one, the one that is closed or committed, and what they hold."""
        run, closing = self.running, self.closing
        running = (run.number, ordered(run.blocks), ordered(run.revokes), ordered(run.nodes), run.wanted)
        plan = tuple((block, content_of(block, body), is_barrier) for block, body, is_barrier in self.plan)
        ended = ordered(closing.revokes) if self.phase == "committing" else ()
        homes = tuple(content_of(block, body) for block, body in sorted(self.homes.items()))
        log = (self.head, self.free, None if self.checkpoint is None else tuple(self.checkpoint))
        return running, self.phase, closing.number, plan, ended, homes, log, pairs(self.held), ordered(self.conflicts)

    def requests_key(self, ranks: Ranks) -> tuple[Any, ...]:
        """Of the requests that count: which commit they end, and which of them were moved."""
        commits = tuple((tx, ranks[n], n in self.moved) for tx, n in sorted(self.commits.items()) if n in ranks)
        flushes = tuple(ranks[number] for number in self.flushes if number > self.flushed)
        last = None if self.last_put is None else (ranks[self.last_put], self.last_put in self.moved)
        barriers = tuple(ranks[n] for n in self.waited_for() if self.log[n - self.first].is_barrier)
        return len(self.commits), commits, flushes, ranks[self.flushed], last, barriers


def ordered(numbers: Iterable[int]) -> tuple[int, ...]:
    """Numbers in their order."""
    return tuple(sorted(numbers))


def pairs(table: dict[int, Any]) -> tuple[tuple[int, Any], ...]:
    """The entries of a table in their order."""
    return tuple(sorted(table.items()))
