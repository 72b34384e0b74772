"""Images by docs/FORMATS.md, for a second program: the bytes that a volume and its journal have, and the text of the
tree of an image that is read, or its first fault."""

import struct
from collections.abc import Iterable, Sequence
from typing import Any, cast

from barrierfs_tools.model import calls, host
from barrierfs_tools.model.bodies import Body, Inode, JournalBlock, Metadata
from barrierfs_tools.model.grammar import BLOCK, DIRECT, JOURNAL_MAGIC, LARGEST, MAGICS, MAP_BITS, NUMBERS, TABLE_INODES
from barrierfs_tools.model.journal import (
    OLD_SUPER,
    SUPER,
    Fault,
    Journal,
    commit,
    descriptor,
    journal_super,
    padded,
    revoke,
)

Named = tuple[int, str]  # an inode, and a path that leads to it
Mapped = list[tuple[int, int]]  # blocks of a node, each with its zone
DIRECTORY, FILE = 4, 8  # the upper four bits of a mode


def numbers_in(body: bytes) -> tuple[int, ...]:
    """The numbers of a zone of numbers."""
    return struct.unpack("<512H", body)


class Reader:
    """An image, block by block; once its journal is read, as it is recovered."""

    def __init__(self, data: bytes) -> None:
        self.data, self.count = data, len(data) // BLOCK
        self.homes: dict[int, bytes] = {}
        self.journal: Journal | None = None
        self.inodes: int
        self.zones: int
        self.first: int
        self.lines: list[str] = []
        self.met: set[int] = set()  # zones
        self.named = {1}  # directories
        self.paths: dict[int, str] = {}  # files with their first paths
        # of each directory its mapped blocks, its size, and its names with their inodes
        self.listed_in: dict[int, tuple[dict[int, int], int, dict[bytes, int]]] = {}
        if self.count < 2:
            raise Fault("bad geometry", self.count)
        self.read_super()
        if self.count < self.zones:
            raise Fault("bad geometry", self.count)
        if self.has_journal():
            self.journal = Journal(self)
            self.homes = self.journal.homes()

    def block(self, at: int) -> bytes:
        """A block as it is recovered."""
        return self.homes.get(at) or self.stored(at)

    def stored(self, at: int) -> bytes:
        """A block as it is stored."""
        return self.data[BLOCK * at : BLOCK * (at + 1)]

    def read_super(self) -> None:
        """Reads the superblock of the volume."""
        self.inodes, self.zones, imap, zmap, self.first, scale, _, magic = struct.unpack_from("<6HIH", self.stored(1))
        if magic not in MAGICS:
            raise Fault("bad magic", 1)
        self.names, self.maps = MAGICS[magic], (imap, zmap)
        self.table = 2 + imap + zmap
        end = self.table + -(-self.inodes // TABLE_INODES)
        short = imap * MAP_BITS < self.inodes + 1 or zmap * MAP_BITS < self.zones - self.first + 1
        if scale or not self.inodes or self.first >= self.zones or self.first < end or short:
            raise Fault("bad geometry", 1)

    def has_journal(self) -> bool:
        """Whether a journal is there."""
        if self.count == self.zones:
            return False
        head = self.stored(self.zones)
        return head[:4] == JOURNAL_MAGIC and int.from_bytes(head[4:8], "big") in (OLD_SUPER, SUPER)

    # The walk

    def walk(self) -> None:
        """Walks the tree from the root, and notes its text."""
        left = [(1, "/")]
        while left:
            number, path = left.pop()
            left += reversed(self.enter(number, path))

    def inode(self, number: int) -> tuple[int, int, int, list[int]]:
        """Mode, size, links and the nine zones of an inode."""
        mode, _, size, _, _, links, *zones = struct.unpack_from(
            "<HHIIBB9H", self.block(self.home(number)), 32 * ((number - 1) % TABLE_INODES)
        )
        return mode, size, links, zones

    def home(self, number: int) -> int:
        """The block of the table that has an inode."""
        block: int = self.table + (number - 1) // TABLE_INODES
        return block

    def enter(self, number: int, path: str) -> list[Named]:
        """Notes the lines of a node, and gives what comes behind it: inodes and their paths."""
        mode, size, links, zones = self.inode(number)
        if number in self.paths:
            self.lines.append(f"link {path} {self.paths[number]}")
            return []
        is_directory = mode >> 12 == DIRECTORY
        if number == 1 and not is_directory:
            raise Fault("bad inode", self.home(number))
        if not is_directory and mode >> 12 != FILE:
            self.lines.append(f"other {path} mode {mode:06o}")
            return []
        if size > LARGEST or is_directory and size % calls.slot_bytes(self.names):
            raise Fault("bad inode", self.home(number))
        mapped = self.mapped(number, zones)
        if is_directory:
            self.lines.append(f"dir {path}")
            return self.entries(number, mapped, size, path)
        self.paths[number] = path
        self.lines.append(f"file {path} size {size} links {links}")
        for at, zone in mapped:
            if at * BLOCK < size:
                self.lines.append(f"block {at} {calls.runs(self.block(zone)[: size - at * BLOCK])}")
        return []

    def mapped(self, number: int, zones: list[int]) -> Mapped:
        """The mapped blocks of a node, each with its zone, once each zone number is tested."""
        found: Mapped = []
        home = self.home(number)
        for at, zone in enumerate(zones):
            if not self.is_mapped(zone, home):
                continue
            if at < DIRECT:
                found.append((at, zone))
            elif at == DIRECT:
                found += self.listed(zone, DIRECT)
            else:
                for group, second in enumerate(numbers_in(self.block(zone))):
                    if self.is_mapped(second, zone):
                        found += self.listed(second, DIRECT + NUMBERS * (group + 1))
        return found

    def listed(self, zone: int, first: int) -> Mapped:
        """The blocks that a zone of numbers maps, from this index on."""
        return [
            (first + at, data) for at, data in enumerate(numbers_in(self.block(zone))) if self.is_mapped(data, zone)
        ]

    def is_mapped(self, zone: int, holder: int) -> bool:
        """Tests a zone number, and says whether it is no hole."""
        if not zone:
            return False
        if not self.first <= zone < self.zones or zone in self.met:
            raise Fault("bad zone", holder)
        self.met.add(zone)
        return True

    def entries(self, directory: int, mapped: Mapped, size: int, path: str) -> list[Named]:
        """The entries of a directory in the order of their names: inodes and paths."""
        width = calls.slot_bytes(self.names)
        found: dict[bytes, int] = {}
        for at, zone in mapped:
            body = self.block(zone)
            for place in range(0, min(BLOCK, size - at * BLOCK), width):
                number = int.from_bytes(body[place : place + 2], "little")
                name = body[place + 2 : place + width].split(b"\0")[0]
                if number and name not in (b".", b".."):
                    self.test_slot(number, name, found, zone)
                    found[name] = number
        self.listed_in[directory] = dict(mapped), size, found
        return [(number, f"{path.rstrip('/')}/{spelled(name)}") for name, number in sorted(found.items())]

    def test_slot(self, number: int, name: bytes, found: dict[bytes, int], zone: int) -> None:
        """Tests a slot in use."""
        if number > self.inodes or not name or b"/" in name or name in found:
            raise Fault("bad slot", zone)
        if self.inode(number)[0] >> 12 == DIRECTORY:
            if number in self.named:
                raise Fault("bad slot", zone)
            self.named.add(number)


def spelled(name: bytes) -> str:
    """A name as paths have it."""
    return "".join(chr(byte) if 0x21 <= byte <= 0x7E and byte != 0x5C else f"\\x{byte:02x}" for byte in name)


def report(data: bytes) -> str:
    """What `show` prints of these bytes, or says on standard error."""
    try:
        return "".join(line + "\n" for line in walked(data).lines)
    except Fault as fault:
        return fault_text(fault)


def walked(data: bytes) -> Reader:
    """An image without a fault, once it was walked."""
    reader = Reader(data)
    reader.walk()
    return reader


def fault_text(fault: Fault) -> str:
    """What is said of a fault."""
    kind, block = fault.args
    return f"barrierfs: image: {kind} at block {block}\n"


def volume_super(inodes: int, zones: int, imap: int, zmap: int, first: int, names: int) -> bytes:
    """The superblock of a volume."""
    magic = next(magic for magic, width in MAGICS.items() if width == names)
    return padded(struct.pack("<6HIHH", inodes, zones, imap, zmap, first, 0, LARGEST, magic, 1))


def inode(mode: int, size: int, links: int, zones: Sequence[int]) -> bytes:
    """An inode of the table."""
    return struct.pack("<HHIIBB9H", mode, 0, size, 0, 0, links, *zones)


def bits(numbers: Iterable[int], most: int) -> bytes:
    """A map of which these bits are set, and those past the last one."""
    body = bytearray(BLOCK)
    for bit in [*numbers, *range(most + 1, MAP_BITS)]:
        body[bit // 8] |= 1 << bit % 8
    return bytes(body)


class Writer:
    """The bytes of a medium of the second program's session: host.py says what stands in each of its blocks."""

    def __init__(self, session: host.Session) -> None:
        self.script, self.places = session.script, session.places
        self.medium = session.surface()

    def image(self) -> bytes:
        """The bytes of all blocks."""
        homes = self.logged()
        blocks = [self.block(body, homes.get(at, at)) for at, body in enumerate(self.medium)]
        imap = self.places.zone_map - self.places.inode_map
        blocks[1] = volume_super(
            self.places.inodes, self.places.zones, imap, self.places.maps, self.places.first, self.script.names
        )
        return b"".join(blocks)

    def logged(self) -> dict[int, int]:
        """The home of each body that a descriptor of the log lists."""
        base, length = self.script.zones, self.script.journal - 1
        found: dict[int, int] = {}
        for at, body in enumerate(self.medium[base + 1 :]):
            if isinstance(body, JournalBlock) and body.kind == "descriptor":
                found |= {base + 1 + (at + 1 + tag) % length: home for tag, home in enumerate(body.listed)}
        return found

    def block(self, body: Body, home: int) -> bytes:
        """The bytes of a block that is, or is a body for, this one of the volume."""
        if isinstance(body, bytes):
            return body
        if isinstance(body, JournalBlock):
            return self.of_journal(body)
        return self.of_metadata(home, body)

    def of_journal(self, body: JournalBlock) -> bytes:
        """The bytes of a block of the journal."""
        wide = self.script.tags == 64
        if body.kind == "super":
            return journal_super(body.sequence, body.start, self.script.journal, wide)
        if body.kind == "commit":
            return commit(body.sequence)
        if body.kind == "descriptor":
            return descriptor(body.sequence, body.listed, wide)
        return revoke(body.sequence, body.listed, wide)

    def of_metadata(self, home: int, items: Metadata) -> bytes:
        """The bytes of a block of metadata."""
        places = self.places
        if places.inode_map <= home < places.zone_map:
            return self.map_block(items, home - places.inode_map, places.inodes)
        if places.zone_map <= home < places.table:
            return self.map_block(items, home - places.zone_map, places.zones - places.first)
        body, width = bytearray(BLOCK), calls.slot_bytes(self.script.names)
        value: Any  # a number, a slot or an inode
        for at, value in items.items():
            # a body that no descriptor lists any more tells by itself what it is
            if not isinstance(value, tuple):
                struct.pack_into("<H", body, 2 * at % BLOCK, value)
            elif len(value) == 2:
                struct.pack_into(f"<H{width - 2}s", body, at * width % BLOCK, value[1], value[0].encode())
            else:
                struct.pack_into("<32s", body, 32 * (at % TABLE_INODES), self.inode(cast(Inode, value)))
        return bytes(body)

    @staticmethod
    def map_block(items: Iterable[int], nth: int, last: int) -> bytes:
        """A block of a map."""
        return bits([0] * (nth == 0) + [bit % MAP_BITS for bit in items], min(MAP_BITS - 1, last - nth * MAP_BITS))

    @staticmethod
    def inode(value: Inode) -> bytes:
        """The bytes of an inode."""
        is_directory, links, size, entries = value
        zones = [dict(entries).get(at, 0) for at in range(9)]
        return inode(0o040755 if is_directory else 0o100644, size, links, zones)
