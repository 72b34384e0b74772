"""A schedule of the whole stack that does what the host did, and keeps just these requests."""
from collections.abc import Iterable

from barrierfs_tools.hunt.orders import Move
from barrierfs_tools.hunt.sessions import Run, Start
from barrierfs_tools.model.host import Session

MOST = 5_000  # events below one step of the host


class Realised:
    """The schedule, event by event."""

    def __init__(self, start: Start, kept: frozenset[int]) -> None:
        self.run = Run(start, judges=False)
        self.session: Session = self.run.session
        self.kept = kept

    def lets_on(self, word: str, needed: Iterable[int]) -> bool:
        """Lets the oldest of these requests on by an event that has places."""
        wanted = set(needed)
        ranked = sorted(
            (number, at) for at, number in enumerate(self.run.numbers(word)) if number in wanted or number < 0
        )
        return any(self.run.do(word, at) for _, at in ranked)

    def stack(self, needed: Iterable[int]) -> bool:
        """Lets requests on as far as these, the oldest first, and no other; says whether something moved."""
        run = self.run
        return (
            run.do("accept")
            or self.lets_on("dispatch", needed)
            or run.do("receive")
            or self.lets_on("transfer", needed)
        )

    def persist(self) -> bool:
        """Brings a request to the medium that is to be kept."""
        return self.lets_on("persist", self.kept)

    def wanted(self) -> set[int]:
        """What is to be kept, and the flushes below it."""
        top = max(self.kept, default=-1)
        return {*self.kept, *(number for number in self.session.flushes if number < top)}

    def lost(self) -> set[int]:
        """The requests in the scheduler that are orderless, and not to be kept."""
        waiting = [*self.session.submitted, *self.session.scheduler.held]
        return {request.number for request in waiting if not request.keeps_order} - self.kept

    def take(self, number: int) -> None:
        """Lets the host take the completion of this request."""
        session, run = self.session, self.run
        below = set(range(number + 1))
        for _ in range(MOST):
            if number in session.moved or session.flushed >= number:
                return
            if self.stack(below - self.lost()) or self.stack(below):
                continue
            if any(command.is_flush for command in session.device.waiting) and self.persist():
                continue
            if not (run.do("answer") or run.do("flush")):
                return

    def move(self, move: Move) -> None:
        """Does a step of the host; where a queue is full, it lets requests on first."""
        word, place = move
        if word == "take" and place is not None:
            self.take(place)
            return
        while not self.run.do(word, place) and len(self.session.submitted) >= self.session.script.queue:
            if not (self.persist() or self.stack(self.wanted())):
                return
            self.run.stuck = {}

    def end(self) -> Run:
        """Brings to the medium what is to be kept."""
        for _ in range(MOST):
            if not (self.persist() or self.stack(self.wanted())):
                break
        return self.run


def realised(start: Start, path: Iterable[Move], kept: frozenset[int]) -> Run:
    """The schedule, played."""
    found = Realised(start, kept)
    for move in path:
        found.move(move)
    return found.end()
