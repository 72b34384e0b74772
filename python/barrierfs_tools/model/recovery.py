"""What recovery makes of a medium, by docs/FORMATS.md: what each block holds is said in bodies.py."""
from collections.abc import Iterable

from barrierfs_tools.model import blocks, calls
from barrierfs_tools.model.bodies import Body, Inode, JournalBlock, Metadata, is_log_block, super_of
from barrierfs_tools.model.grammar import BLOCK, DIRECT, NUMBERS, TABLE_INODES

Medium = list[Body]


class Log:
    """The whole transactions of a journal, each with its bodies and revokes."""

    def __init__(self, medium: Medium, base: int) -> None:
        self.medium, self.base, self.length = medium, base, len(medium) - base - 1
        head = medium[base]
        assert isinstance(head, JournalBlock)
        self.first, self.start = head.sequence, head.start
        self.transactions: list[tuple[list[tuple[int, Body]], list[int]]] = []
        if self.start:
            self.read()

    def block(self, at: int) -> Body:
        """The block at a place of the log."""
        return self.medium[self.base + 1 + (self.start - 1 + at) % self.length]

    def read(self) -> None:
        """Reads the whole transactions."""
        at = 0
        bodies: list[tuple[int, Body]] = []
        revokes: list[int] = []
        while at < self.length:
            block = self.block(at)
            expected = self.first + len(self.transactions)
            if not isinstance(block, JournalBlock) or not is_log_block(block) or block.sequence != expected:
                return
            at += 1
            if block.kind == "descriptor":
                if at + len(block.listed) > self.length:
                    return
                bodies += [(home, self.block(at + tag)) for tag, home in enumerate(block.listed)]
                at += len(block.listed)
            elif block.kind == "revoke":
                revokes += block.listed
            else:
                self.transactions.append((bodies, revokes))
                bodies, revokes = [], []

    def homes(self) -> dict[int, Body]:
        """The last body of each block that no revoke of its own or of a later transaction cancels."""
        found: dict[int, Body] = {}
        for bodies, revokes in self.transactions:
            found |= dict(bodies)
            for block in revokes:
                found.pop(block, None)
        return found

    def last(self) -> int:
        """The sequence of the last whole transaction."""
        return self.first - 1 + len(self.transactions) if self.start else 0

    def closed(self) -> JournalBlock:
        """The superblock of the recovered journal."""
        return super_of(self.first + len(self.transactions) + 1, 0)


class Setup:
    """What the device of an attempt is made with: no transfer fails, and the power stays."""

    def __init__(self, depth: int, flash: int | None, count: int) -> None:
        self.depth, self.flash = depth, flash
        self.fail: int | None = None
        self.cut: int | None = None
        self.blocks = count


def put_of(number: int, block: int, body: Body, is_barrier: bool) -> blocks.Request:
    """A write of recovery."""
    return blocks.Request(number, block, body, True, is_barrier)


class Attempt:
    """An attempt of recovery, on a device like the session's."""

    def __init__(self, medium: Medium, base: int, depth: int, flash: int | None) -> None:
        log = Log(medium, base)
        homes = sorted(log.homes().items())
        self.puts = [put_of(at, block, body, at == len(homes) - 1) for at, (block, body) in enumerate(homes)]
        self.puts.append(put_of(len(homes), base, log.closed(), True))
        self.puts.append(blocks.Request(len(homes) + 1, blocks.FLUSH, None, True, True))
        self.device = blocks.device_of(Setup(depth, flash, len(medium)))
        self.device.medium = [(value, "-") for value in medium]

    def fill(self) -> None:
        """Gives the device as many writes as it has room for."""
        while self.puts and self.device.has_room():
            put = self.puts.pop(0)
            self.device.waiting.append(blocks.Command([put], put.is_barrier, put.is_barrier))

    def step(self, kind: str, place: int) -> bool:
        """Does a step, and says whether that did anything."""
        self.fill()
        before = self.device.steps
        if kind == "d":
            self.device.transfer(0) or self.device.persist(0)  # pylint: disable=expression-not-assigned
        elif kind == "t":
            self.device.transfer(place)
        else:
            self.device.persist(place)
        return self.device.steps != before


def attempt(medium: Medium, base: int, depth: int, flash: int | None, words: Iterable[str]) -> Medium:
    """The medium that an attempt leaves which is cut after these words."""
    if not Log(medium, base).start:
        return medium
    tried = Attempt(medium, base, depth, flash)
    for word in words:
        kind, number = word[0], int(word[1:])
        for _ in range(number if kind == "d" else 1):
            if not tried.step(kind, number):
                break
    return [value for value, _ in tried.device.surface()]


def recovered(medium: Medium, base: int) -> Medium:
    """The medium once recovery went to its end."""
    log = Log(medium, base)
    if not log.start:
        return medium
    after = list(medium)
    for block, body in log.homes().items():
        after[block] = body
    after[base] = log.closed()
    return after


class Tree:
    """The text of the tree that a medium has."""

    def __init__(self, medium: Medium, table: int) -> None:
        self.medium, self.table = medium, table
        self.first: dict[int, str] = {}
        self.lines: list[str] = []
        self.enter(1, "/")

    def metadata(self, block: int) -> Metadata:
        """A block of metadata."""
        body = self.medium[block]
        assert isinstance(body, dict)
        return body

    def inode(self, number: int) -> Inode:
        """An inode of the table."""
        found: Inode = self.metadata(self.table + (number - 1) // TABLE_INODES)[number - 1]
        return found

    def zones(self, listed: Iterable[tuple[int, int]]) -> dict[int, int]:
        """The zones of a node by index."""
        entries = dict(listed)
        found = {at: zone for at, zone in entries.items() if at < DIRECT}
        found |= {DIRECT + at: zone for at, zone in self.numbers(entries.get(DIRECT, 0))}
        for group, second in self.numbers(entries.get(DIRECT + 1, 0)):
            found |= {DIRECT + NUMBERS * (group + 1) + at: zone for at, zone in self.numbers(second)}
        return found

    def numbers(self, zone: int) -> Iterable[tuple[int, int]]:
        """Places and numbers of a zone of numbers."""
        return self.metadata(zone).items() if zone else []

    def enter(self, number: int, path: str) -> None:
        """Tells a directory, and what is in it."""
        _, _, _, entries = self.inode(number)
        self.lines.append(f"dir {path}")
        names: dict[str, int] = {}
        for zone in self.zones(entries).values():
            names |= {name: inode for name, inode in self.metadata(zone).values() if name not in (".", "..")}
        for name, child in sorted(names.items()):
            below = f"{path.rstrip('/')}/{name}"
            if self.inode(child)[0]:
                self.enter(child, below)
            elif child in self.first:
                self.lines.append(f"link {below} {self.first[child]}")
            else:
                self.first[child] = below
                self.file(child, below)

    def bytes_of(self, zone: int) -> bytes:
        """The bytes of a zone of a file; zeros where nothing was written to it."""
        body = self.medium[zone]
        return body if isinstance(body, bytes) else bytes(BLOCK)

    def file(self, number: int, path: str) -> None:
        """Tells a file."""
        _, links, size, entries = self.inode(number)
        self.lines.append(f"file {path} size {size} links {links}")
        for at, zone in sorted(self.zones(entries).items()):
            if at * BLOCK < size:
                self.lines.append(f"block {at} {calls.runs(self.bytes_of(zone)[: size - at * BLOCK])}")
