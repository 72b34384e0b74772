"""A journal in the format of JBD2 in its bytes, by docs/FORMATS.md, for a second program: what a log
has, and how its blocks are spelled."""

import struct
from collections.abc import Collection
from typing import Protocol

from barrierfs_tools.model.grammar import BLOCK, JOURNAL_MAGIC

DESCRIPTOR, COMMIT, OLD_SUPER, SUPER, REVOKE = 1, 2, 3, 4, 5
REVOKES_FEATURE, WIDE_FEATURE = 1, 2
ESCAPED, SAME_UUID, LAST = 1, 2, 8
HEAD, UUID = 12, 16  # bytes of a journal block's header, and of a tag's uuid


class Fault(Exception):
    """The first fault of an image: its kind and its block."""


class Image(Protocol):
    """What a journal reads."""

    zones: int
    count: int

    def stored(self, at: int) -> bytes:
        """A block as it is stored."""


Body = tuple[int, int, int]  # its home, its place in the image, and its flags


class Journal:
    """The whole transactions of an image's log, each with its bodies and revokes."""

    def __init__(self, image: Image) -> None:
        self.image, self.base = image, image.zones
        head = image.stored(self.base)
        size: int
        self.end: int
        self.first: int
        self.sequence: int
        self.start: int
        size, self.end, self.first, self.sequence, self.start = struct.unpack_from(">5I", head, HEAD)
        incompat = int.from_bytes(head[0x28:0x2C], "big")
        if int.from_bytes(head[4:8], "big") != SUPER:
            raise Fault("bad kind", self.base)
        if incompat & ~(REVOKES_FEATURE | WIDE_FEATURE):
            raise Fault(f"feature {incompat & ~(REVOKES_FEATURE | WIDE_FEATURE)}", self.base)
        is_sound = (
            size == BLOCK and 0 < self.first < self.end and (self.start == 0 or self.first <= self.start < self.end)
        )
        if not is_sound or self.end > image.count - self.base:
            raise Fault("bad count", self.base)
        self.wide = bool(incompat & WIDE_FEATURE)
        self.transactions: list[tuple[list[Body], list[int]]] = []
        if self.start:
            self.read()

    def place(self, at: int) -> int:
        """The block of the image at a place of the log."""
        return self.base + self.first + (self.start - self.first + at) % (self.end - self.first)

    def read(self) -> None:
        """Reads the whole transactions; a fault counts where its transaction is whole."""
        at = 0
        bodies: list[Body] = []
        revokes: list[int] = []
        fault: Fault | None = None
        while at < self.end - self.first:
            block = self.image.stored(self.place(at))
            kind, sequence = struct.unpack_from(">2I", block, 4)
            expected = (self.sequence + len(self.transactions)) % 2**32
            if block[:4] != JOURNAL_MAGIC or kind not in (DESCRIPTOR, COMMIT, REVOKE) or sequence != expected:
                return
            here, at = self.place(at), at + 1
            if kind == COMMIT:
                if fault is not None:
                    raise fault  # pylint: disable=raising-bad-type  # it is none or a fault
                self.transactions.append((bodies, revokes))
                bodies, revokes = [], []
            elif kind == REVOKE:
                listed = self.revoked(block)
                fault = fault or (Fault("bad count", here) if listed is None else None)
                revokes = [*revokes, *(listed or [])]
            else:
                tags = self.tags(block)
                if at + len(tags) > self.end - self.first:
                    return
                if any(not 2 <= home < self.image.zones for home, _ in tags):
                    fault = fault or Fault("bad count", here)
                bodies = [*bodies, *((home, self.place(at + tag), flags) for tag, (home, flags) in enumerate(tags))]
                at += len(tags)

    def tags(self, block: bytes) -> list[tuple[int, int]]:
        """The tags of a descriptor: block and flags."""
        found: list[tuple[int, int]] = []
        at, length = HEAD, 12 if self.wide else 8
        while at + length <= BLOCK:
            home, _, flags = struct.unpack_from(">IHH", block, at)
            home += int.from_bytes(block[at + 8 : at + 12], "big") << 32 if self.wide else 0
            at += length + (0 if flags & SAME_UUID else UUID)
            if at > BLOCK:
                break
            found.append((home, flags))
            if flags & LAST:
                break
        return found

    def revoked(self, block: bytes) -> list[int] | None:
        """The numbers of a revoke block, or none where its count is bad."""
        count, width = int.from_bytes(block[12:16], "big"), 8 if self.wide else 4
        if not 16 <= count <= BLOCK or (count - 16) % width:
            return None
        return [int.from_bytes(block[at : at + width], "big") for at in range(16, count, width)]

    def places(self) -> dict[int, tuple[int, int]]:
        """Where the last body stands, and with which flags, of each block of which no revoke of that transaction or
        of a later one cancels it."""
        found: dict[int, tuple[int, int]] = {}
        for bodies, revokes in self.transactions:
            found |= {home: (place, flags) for home, place, flags in bodies}
            for block in revokes:
                found.pop(block, None)
        return found

    def homes(self) -> dict[int, bytes]:
        """The last body of each block."""
        return {home: self.body(place, flags) for home, (place, flags) in self.places().items()}

    def body(self, place: int, flags: int) -> bytes:
        """A body as it was before it was escaped."""
        stored = self.image.stored(place)
        return JOURNAL_MAGIC + stored[4:] if flags & ESCAPED else stored


def padded(body: bytes) -> bytes:
    """A block that begins so."""
    return body + bytes(BLOCK - len(body))


def header(kind: int, sequence: int) -> bytes:
    """The header of a block of the journal."""
    return JOURNAL_MAGIC + struct.pack(">2I", kind, sequence % 2**32)


def journal_super(sequence: int, start: int, end: int, wide: bool, first: int = 1) -> bytes:
    """The superblock of a journal."""
    incompat = REVOKES_FEATURE | (WIDE_FEATURE if wide else 0)
    head = header(SUPER, 0) + struct.pack(">9I", BLOCK, end, first, sequence % 2**32, start, 0, 0, incompat, 0)
    return padded(head.ljust(0x40, b"\0") + struct.pack(">I", 1))


def descriptor(sequence: int, homes: Collection[int], wide: bool, escaped: Collection[int] = ()) -> bytes:
    """A descriptor."""
    body = header(DESCRIPTOR, sequence)
    for at, home in enumerate(homes):
        flags = (SAME_UUID if at else 0) | (LAST if at == len(homes) - 1 else 0) | (ESCAPED if home in escaped else 0)
        body += struct.pack(">IHH", home, 0, flags) + (bytes(4) if wide else b"") + (b"" if at else bytes(UUID))
    return padded(body)


def revoke(sequence: int, blocks: Collection[int], wide: bool) -> bytes:
    """A revoke block."""
    width = 8 if wide else 4
    body = header(REVOKE, sequence) + struct.pack(">I", 16 + width * len(blocks))
    return padded(body + b"".join(block.to_bytes(width, "big") for block in blocks))


def commit(sequence: int) -> bytes:
    """A commit block."""
    return padded(header(COMMIT, sequence))
