"""The order-closed media of a list of requests: with a put that is kept, each put of an earlier epoch is kept that keeps the
order, or has a flush behind it; below a flush whose completion was taken all is kept.

Of the plain scheduler over the model device these are just the media that schedules leave; `exact_order` proves that of up to
128 requests. The elevator, a flash log and queues that are short may leave fewer of them."""
from collections.abc import Iterable, Iterator

from barrierfs_tools.hunt.sessions import content_of
from barrierfs_tools.model.blocks import Request, Value

Tops = dict[int, "Put"]  # of each block the put that it holds
Content = frozenset[tuple[int, int]]


class Put:
    """A put: its number, its block, what it puts, and whether it keeps the order."""

    def __init__(self, request: Request) -> None:
        self.number, self.block, self.value = request.number, request.block, request.value
        self.keeps_order, self.content = request.keeps_order, content_of(request.block, request.value)


class Frontier:
    """What a list of requests has come to: `closed` is what all ended epochs leave where nothing is lost, `free` are the puts of
    these epochs that nothing has to keep, and `epoch` is the one that has not ended."""

    def __init__(self) -> None:
        self.closed: Tops = {}
        self.free: list[Put] = []
        self.epoch: list[Put] = []

    def copied(self) -> "Frontier":
        """A copy that shares the puts."""
        other = Frontier()
        other.closed, other.free, other.epoch = dict(self.closed), list(self.free), list(self.epoch)
        return other

    def add(self, request: Request) -> None:
        """One request more."""
        if not request.is_flush:
            self.epoch.append(Put(request))
        if request.is_barrier:
            self.end_epoch()
        if request.is_flush:
            self.closed |= {put.block: put for put in self.free}
            self.free = []

    def end_epoch(self) -> None:
        """The epoch ends: what keeps the order in it is kept below all that comes."""
        for put in self.epoch:
            if put.keeps_order:
                self.closed[put.block] = put
                self.free = [other for other in self.free if other.block != put.block]
            else:
                self.free.append(put)
        self.epoch = []

    def choices(self) -> dict[int, list[Put]]:
        """Of each block the puts that a medium may hold in place of what it holds without them."""
        found: dict[int, list[Put]] = {}
        for put in [*self.free, *self.epoch]:
            found.setdefault(put.block, []).append(put)
        return found

    def key(self) -> object:
        """What of it counts for media that come: equal keys have equal ones. Of the free puts and of the epoch the order counts
        of those of one block."""
        per_block: dict[tuple[bool, int], list[tuple[int, bool]]] = {}
        for is_free, puts in ((True, self.free), (False, self.epoch)):
            for put in puts:
                per_block.setdefault((is_free, put.block), []).append((put.content, put.keeps_order))
        return frozenset(put.content for put in self.closed.values()), tuple(
            (at, tuple(puts)) for at, puts in sorted(per_block.items())
        )

    def count(self) -> int:
        """How many media there are at most."""
        total = 1
        for puts in self.choices().values():
            total *= len(puts) + 1
        return total

    def media(self, last: Put | None = None) -> Iterator[Tops]:
        """The media, each by what its blocks hold; of `last` only those that hold it."""
        choices = self.choices()
        if last is not None:
            choices[last.block] = [last]
        yield from self.chosen(list(choices.items()), dict(self.closed), None if last is None else last.block)

    def chosen(self, left: list[tuple[int, list[Put]]], tops: Tops, must: int | None) -> Iterator[Tops]:
        """The media that choices for these blocks make of this one."""
        if not left:
            yield dict(tops)
            return
        (block, puts), rest = left[0], left[1:]
        before = tops.get(block)
        if block != must:
            yield from self.chosen(rest, tops, must)
        for put in puts:
            tops[block] = put
            yield from self.chosen(rest, tops, must)
        if before is None:
            tops.pop(block, None)
        else:
            tops[block] = before


def content_name(tops: Tops) -> Content:
    """A medium by what its blocks hold."""
    return frozenset((put.block, put.content) for put in tops.values())


def values_of(tops: Tops) -> dict[int, Value]:
    """What the blocks of a medium hold."""
    return {block: put.value for block, put in tops.items()}


def kept_of(tops: Tops, puts: Iterable[Put]) -> frozenset[int]:
    """The requests that are on a medium, or were overwritten there."""
    return frozenset(put.number for put in puts if put.block in tops and put.number <= tops[put.block].number)
