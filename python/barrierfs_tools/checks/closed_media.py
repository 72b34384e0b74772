"""The media that schedules leave of small lists of block requests, and those that are order-closed.

Of a list every state of the second program is visited, whatever the order of its events. A medium is order-closed
where with each put that is kept, all is kept that a flush separates from it, and all that keeps order and that a
barrier or a flush separates from it.
"""
import copy
import itertools
import random
from collections.abc import Iterator, Sequence
from typing import NamedTuple

from barrierfs_tools.model import blocks

Medium = tuple[str, ...]  # for each block the request that it comes from, or -
Event = tuple[str, int]
State = tuple[object, ...]


class Sizes(NamedTuple):
    """What is compared, and on which stack."""

    requests: int  # of each list
    blocks: int  # of the medium
    depth: int  # commands that may wait in the device
    queue: int  # items that each queue holds
    room: int  # requests that the scheduler holds


def other(run: blocks.Run) -> blocks.Run:
    """The same again. What is never changed is not copied."""
    new = copy.copy(run)
    new.scheduler, new.device = copy.copy(run.scheduler), copy.copy(run.device)
    new.left, new.submitted, new.sent = list(run.left), list(run.submitted), list(run.sent)
    new.scheduler.held = list(run.scheduler.held)
    device = new.device
    device.waiting, device.cache, device.medium = list(device.waiting), list(device.cache), list(device.medium)
    return new


def named(command: blocks.Command) -> State:
    """A command, by its requests."""
    return (*command.numbers, command.has_flag)


def state(run: blocks.Run) -> State:
    """All that its further media depend on. Epochs are counted from the oldest one."""
    scheduler, device = run.scheduler, run.device
    oldest = min([device.epoch, *(entry.epoch for entry in device.cache)])
    return (
        len(run.left),
        len(run.submitted),
        tuple(it.number for it in scheduler.held),
        scheduler.closing is not None,
        tuple(map(named, run.sent)),
        run.kept and named(run.kept),
        tuple(map(named, device.waiting)),
        tuple((entry.epoch - oldest, entry.number) for entry in device.cache),
        device.epoch - oldest,
        medium(run),
    )


def medium(run: blocks.Run) -> Medium:
    """What the medium has, by requests."""
    return tuple(origin for _, origin in run.device.surface())


def events(run: blocks.Run) -> Iterator[Event]:
    """All events that might act here."""
    yield from (("submit", 0), ("accept", 0), ("receive", 0))
    yield from (("dispatch", place) for place in range(max(1, len(run.scheduler.held))))
    yield from (("transfer", place) for place in range(len(run.device.waiting)))
    yield from (("persist", place) for place in range(len(run.device.cache)))


def left(script: blocks.Script) -> set[Medium]:
    """The media that some schedule leaves."""
    first = blocks.Run(script)
    seen, found, waiting = {state(first)}, {medium(first)}, [first]
    while waiting:
        run = waiting.pop()
        for event, place in events(run):
            new = other(run)
            if new.do(event, place) and (now := state(new)) not in seen:
                seen.add(now)
                found.add(medium(new))
                waiting.append(new)
    return found


def is_before(requests: Sequence[blocks.Request], i: int, j: int) -> bool:
    """Put i is ordered before put j, a later one."""
    flush = any(it.is_flush for it in requests[i:j])
    fence = any(it.is_barrier for it in requests[i:j])
    return flush or requests[i].keeps_order and fence


def closed(requests: Sequence[blocks.Request], count: int) -> set[Medium]:
    """The media of so many blocks that are order-closed."""
    puts = [it.number for it in requests if not it.is_flush]
    before = [(i, j) for i, j in itertools.combinations(puts, 2) if is_before(requests, i, j)]
    found = set()
    origins = ([-1, *(i for i in puts if requests[i].block == block)] for block in range(count))
    for origin in itertools.product(*origins):
        kept = {i for i in puts if origin[requests[i].block] >= i}
        if all(i in kept or j not in kept for i, j in before):
            found.add(tuple("-" if it < 0 else str(it) for it in origin))
    return found


def lists(sizes: Sizes, sample: int | None, seed: int) -> Iterator[tuple[str, ...]]:
    """All lists of puts of each class and flushes, or so many random ones."""
    kinds = ("free", "ordered", "barrier")
    lines = [f"put {block} {block + 1:02x} {kind}" for block in range(sizes.blocks) for kind in kinds] + ["flush"]
    if sample is None:
        return itertools.product(lines, repeat=sizes.requests)
    rng = random.Random(seed)
    return (tuple(rng.choices(lines, k=sizes.requests)) for _ in range(sample))


def compared(sizes: Sizes, lines: Sequence[str]) -> tuple[set[Medium], set[Medium]]:
    """The media that are left of a list, and those that are order-closed."""
    head = [f"blocks {sizes.blocks}", f"depth {sizes.depth}", f"queue {sizes.queue}"]
    script = blocks.Script("\n".join([*head, *lines, "events"]))
    before, blocks.HELD_LIMIT = blocks.HELD_LIMIT, sizes.room
    try:
        return left(script), closed(script.requests, sizes.blocks)
    finally:
        blocks.HELD_LIMIT = before
