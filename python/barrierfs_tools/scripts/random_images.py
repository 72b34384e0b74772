"""Images by a seed, and damage to them by another: shared by examples/random and tools/campaign. Some images are what
the power cut leaves of a session of the second program, with its journal as it stands; others are made here, as other
writers might."""

import functools
import random
import re
import struct
from collections.abc import Callable
from typing import Literal

from barrierfs_tools.model import calls, host, images, journal
from barrierfs_tools.model.grammar import BLOCK, DIRECT, JOURNAL_MAGIC, LARGEST, NUMBERS, TABLE_INODES
from barrierfs_tools.scripts import random_scripts

DAMAGES = 40  # of one image
Order = Literal["little", "big"]
MODES = [0o040755, 0o100644, 0o120777, 0o020600, 0, 0o177777]


@functools.lru_cache(maxsize=4)
def whole_image(seed: int) -> bytes:
    """The image of this seed, before any damage."""
    rng = random.Random(f"image {seed}")
    return session_image(rng) if rng.random() < 0.6 else Maker(rng).image()


def damaged_image(seed: int) -> bytes:
    """The image of this seed, most often with one place or some changed."""
    rng = random.Random(seed)
    damage = Damage(rng, whole_image(seed // DAMAGES))
    for _ in range(rng.choice([0, 1, 1, 1, 1, 2, 3])):
        rng.choice(damage.kinds)()
    return bytes(damage.data)


def session_image(rng: random.Random) -> bytes:
    """What the power cut leaves of a session."""
    zones = rng.choice([12, 16, 24, 40])
    text = re.sub(r"zones \d+ journal \d+", f"zones {zones} journal 128", random_scripts.cut_script(rng), count=1)
    return images.Writer(host.ended(text)).image()


class Maker:
    """An image such as another writer might leave: inodes and zones in any order, slots that are free, nodes of other
    kinds, maps of more blocks than there have to be, and a journal with whole and broken transactions."""

    def __init__(self, rng: random.Random) -> None:
        self.rng, self.names, self.inodes = rng, rng.choice([14, 30]), rng.randint(1, 70)
        self.imap, self.zmap = rng.choice([1, 1, 2]), rng.choice([1, 1, 2])
        self.table = 2 + self.imap + self.zmap
        self.first = self.table + -(-self.inodes // TABLE_INODES) + rng.choice([0, 0, 3])
        self.zones = self.first + rng.choice([2, 20, 60])
        self.free = rng.sample(range(self.first, self.zones), self.zones - self.first)
        self.numbers = rng.sample(range(2, self.inodes + 1), self.inodes - 1)
        self.blocks = [bytes(BLOCK)] * self.zones
        self.blocks[1] = images.volume_super(self.inodes, self.zones, self.imap, self.zmap, self.first, self.names)
        self.table_bytes = bytearray(BLOCK * -(-self.inodes // TABLE_INODES))
        self.files: list[int] = []

    def image(self) -> bytes:
        """The bytes of the image."""
        left = [1]
        while left:
            left += self.directory(left.pop())
        for at in range(0, len(self.table_bytes), BLOCK):
            self.blocks[self.table + at // BLOCK] = bytes(self.table_bytes[at : at + BLOCK])
        log = JournalMaker(self.rng, self.zones, self.blocks).blocks if self.rng.random() < 0.8 else []
        return b"".join([*self.blocks, *log])

    def put_inode(self, number: int, mode: int, size: int, zones: list[int]) -> None:
        """Puts an inode into the table."""
        links = self.rng.randrange(256)
        struct.pack_into("<32s", self.table_bytes, 32 * (number - 1), images.inode(mode, size, links, zones))

    def put(self, body: bytes) -> int:
        """Puts a block into a free zone."""
        zone = self.free.pop()
        self.blocks[zone] = journal.padded(body)
        return zone

    def mapped(self, bodies: dict[int, bytes]) -> list[int]:
        """The nine zones of a node with these bodies by index; those for which no zone is left are holes."""
        zones = [0] * 9
        second: dict[tuple[int, int], dict[int, int]] = {}
        for at, body in sorted(bodies.items()):
            if len(self.free) < 3:
                break
            if at < DIRECT:
                zones[at] = self.put(body)
            elif at < DIRECT + NUMBERS:
                second.setdefault((7, 0), {})[at - DIRECT] = self.put(body)
            else:
                second.setdefault((8, (at - DIRECT - NUMBERS) // NUMBERS), {})[
                    (at - DIRECT - NUMBERS) % NUMBERS
                ] = self.put(body)
        double: dict[int, int] = {}
        for (place, group), entries in second.items():
            if place == 7:
                zones[7] = self.listed(entries)
            else:
                double[group] = self.listed(entries)
        zones[8] = self.listed(double) if double else 0
        return zones

    def listed(self, entries: dict[int, int]) -> int:
        """A zone of these numbers."""
        return self.put(struct.pack("<512H", *(entries.get(at, 0) for at in range(NUMBERS)))) if self.free else 0

    def name(self) -> bytes:
        """A name of any bytes."""
        letters = [bytes([value]) for value in b"abcABC.\\ _"] + [b"\x80", b"\xff", b"\x01"]
        return b"".join(self.rng.choice(letters) for _ in range(self.rng.choice([1, 2, 2, 3, self.names])))

    def directory(self, number: int) -> list[int]:
        """Makes a directory, and gives the directories that it names."""
        rng, width = self.rng, calls.slot_bytes(self.names)
        slots: list[tuple[int, bytes]] = []
        below: list[int] = []
        if rng.random() < 0.9:
            slots += [(number, b"."), (1, b"..")]
        names = {self.name() for _ in range(rng.choice([0, 1, 3, 8, 70]))} - {b".", b".."}
        for name in sorted(names, key=lambda it: (len(it), it[::-1])):
            while rng.random() < 0.2:
                slots.append((0, self.name()))
            child = self.child(below)
            if child:
                slots.append((child, name))
        body = b"".join(inode.to_bytes(2, "little") + self.padded_name(name) for inode, name in slots)
        gap = rng.random() < 0.1
        bodies = {(at // BLOCK + (at > 0) * gap * 9): body[at : at + BLOCK] for at in range(0, len(body), BLOCK)}
        size = max((at * BLOCK + len(part) for at, part in bodies.items()), default=0)
        self.put_inode(
            number, 0o040000 | rng.randrange(0o10000), size + width * rng.choice([0, 0, 3]), self.mapped(bodies)
        )
        return below

    def padded_name(self, name: bytes) -> bytes:
        """A name in its slot; behind its end there may be anything."""
        rest = self.names - len(name) - 1
        return (
            name if rest < 0 else name + b"\0" + (self.rng.randbytes(rest) if self.rng.random() < 0.2 else bytes(rest))
        )

    def child(self, below: list[int]) -> int:
        """A node that a directory names: a file, a directory, or something else."""
        rng = self.rng
        if self.files and rng.random() < 0.2:
            return rng.choice(self.files)
        if not self.numbers:
            return 0
        number = self.numbers.pop()
        kind = rng.random()
        if kind < 0.3:
            below.append(number)
        elif kind < 0.4:
            self.put_inode(
                number,
                rng.choice([0o120777, 0o020600, 0o060600, 0o010644, 0]),
                rng.randrange(2**32),
                [rng.randrange(2**16) for _ in range(9)],
            )
        else:
            self.files.append(number)
            places = rng.sample([0, 1, 2, 6, 7, 8, 100, 518, 519, 520, 1030, 1031, 2000], rng.choice([0, 1, 1, 2, 4]))
            size = rng.choice([0, 1, 1024 * (max(places, default=0) + 1), 5000, rng.randrange(2_200_000), LARGEST])
            self.put_inode(number, 0o100644, size, self.mapped({at: self.body() for at in places}))
        return number

    def body(self) -> bytes:
        """A block of a file."""
        return body_of(self.rng)


def body_of(rng: random.Random) -> bytes:
    """A block of a file, some of which begin as a journal's."""
    half = bytes([rng.randrange(256)]) * 512
    return rng.choice([half + bytes([rng.randrange(256)]) * 512, JOURNAL_MAGIC + half, rng.randbytes(BLOCK)])


class JournalMaker:
    """A journal of transactions with bodies and revokes, which may run over its end, and often has more behind them
    that counts for nothing."""

    def __init__(self, rng: random.Random, zones: int, old: list[bytes]) -> None:
        self.rng, self.zones, self.old, self.wide = rng, zones, old, rng.random() < 0.5
        first, length = rng.choice([1, 1, 1, 3]), rng.choice([10, 60, 127])
        start, self.sequence = first + rng.randrange(length), rng.choice(
            [1, 7, 2**32 - 2, 2**32 - 1, rng.randrange(2**32)]
        )
        super_block = journal.journal_super(
            self.sequence, start if rng.random() < 0.9 else 0, first + length, self.wide, first
        )
        self.log: list[bytes] = []
        for _ in range(rng.choice([1, 2, 4])):
            self.transaction()
        for _ in range(rng.choice([0, 0, 1])):
            self.log += [journal.commit(rng.randrange(9)), journal.descriptor(self.sequence, [self.home()], self.wide)]
        self.log = self.log[:length] + [bytes(BLOCK)] * (length - len(self.log))
        turned = self.log[length - (start - first) :] + self.log[: length - (start - first)]
        self.blocks = [super_block, *[bytes(BLOCK)] * (first - 1), *turned, *[bytes(BLOCK)] * rng.choice([0, 0, 2])]

    def home(self) -> int:
        """A block of the volume."""
        return self.rng.randrange(2, self.zones)

    def transaction(self) -> None:
        """A transaction, most often a whole one."""
        rng = self.rng
        for _ in range(rng.choice([0, 1, 1, 2, 3])):
            if rng.random() < 0.3:
                more = [self.zones, 2**32 - 1] + [2**32 + 5] * self.wide
                self.log.append(
                    journal.revoke(
                        self.sequence,
                        [rng.choice([self.home(), self.home(), *more]) for _ in range(rng.choice([0, 1, 5]))],
                        self.wide,
                    )
                )
                continue
            homes = [self.home() for _ in range(rng.choice([1, 1, 2, 6]))]
            bodies = [self.old[home] if home < self.zones and rng.random() < 0.8 else body_of(rng) for home in homes]
            escaped = [home for home, body in zip(homes, bodies) if body[:4] == JOURNAL_MAGIC]
            self.log.append(journal.descriptor(self.sequence, homes, self.wide, escaped))
            self.log += [bytes(4) + body[4:] if home in escaped else body for home, body in zip(homes, bodies)]
        if rng.random() < 0.9:
            self.log.append(journal.commit(self.sequence))
            self.sequence = (self.sequence + 1) % 2**32


class Damage:
    """Changes of an image: of bits and bytes, and of fields of its superblock, inodes, slots, zones of numbers, maps
    and journal."""

    def __init__(self, rng: random.Random, data: bytes) -> None:
        self.rng, self.data = rng, bytearray(data)
        self.reader: images.Reader | None = None
        self.kinds: list[Callable[[], None]] = [self.bit, self.byte, self.block, self.length]
        try:
            self.reader = images.Reader(data)
            self.reader.walk()
        except journal.Fault:
            pass
        if self.reader:
            self.places = self.reader.journal.places() if self.reader.journal else {}
            self.kinds += [
                self.super_field,
                *[self.inode_field] * 4,
                *[self.slot] * 4,
                *[self.zone_number] * 2,
                self.map_bit,
            ]
        if self.reader and self.reader.journal:
            self.kinds += [self.journal_super, *[self.log_block] * 4]

    @property
    def known(self) -> images.Reader:
        """The image, of which the superblock can be read."""
        assert self.reader is not None
        return self.reader

    # Where and what

    def put(self, at: int, width: int, value: int, order: Order = "little") -> None:
        """Puts a number."""
        self.data[at : at + width] = (value % 256**width).to_bytes(width, order)

    def old(self, at: int, width: int, order: Order = "little") -> int:
        """The number that stands there."""
        return int.from_bytes(self.data[at : at + width], order)

    def number(self, old: int, width: int) -> int:
        """A number for a field: at or past a limit, near the old one, or any."""
        rng, known = self.rng, [0, 1, 2, 16, 32, BLOCK, LARGEST, 256**width - 1, old]
        if self.reader:
            known += [self.reader.inodes, self.reader.zones, self.reader.first, self.reader.count, *self.reader.met]
        drawn: list[int] = [
            rng.choice(known) + rng.choice([-1, 0, 0, 1]),
            old ^ 1 << rng.randrange(8 * width),
            rng.randrange(256**width),
        ]
        return rng.choice(drawn)

    def field(self, at: int, width: int, order: Order = "little") -> None:
        """Changes a number."""
        if at + width <= len(self.data):
            self.put(at, width, self.number(self.old(at, width, order), width), order)

    def standing(self, home: int) -> int:
        """The byte from which on a block of the volume stands, most often in the log where a body there counts."""
        place, _ = self.places.get(home, (home, 0))
        return BLOCK * (place if self.rng.random() < 0.8 else home)

    # The kinds

    def any_place(self) -> int | None:
        """A byte, most often of what is read."""
        rng, count = self.rng, len(self.data) // BLOCK
        if not self.data:
            return None
        if self.reader and rng.random() < 0.8:
            read = [1, *range(2, self.reader.first), *self.reader.met]
            return min(
                self.standing(rng.choice(read)) + rng.choice([rng.randrange(64), rng.randrange(BLOCK)]),
                len(self.data) - 1,
            )
        return min(BLOCK * rng.randrange(max(count, 1)) + rng.randrange(BLOCK), len(self.data) - 1)

    def bit(self) -> None:
        """Changes a bit."""
        at = self.any_place()
        if at is not None:
            self.data[at] ^= 1 << self.rng.randrange(8)

    def byte(self) -> None:
        """Changes a byte."""
        at = self.any_place()
        if at is not None:
            self.data[at] = self.rng.choice([0, 1, 0x2F, 0x80, 0xFF, self.rng.randrange(256)])

    def block(self) -> None:
        """Changes a block."""
        count = len(self.data) // BLOCK
        if count:
            at, source = BLOCK * self.rng.randrange(count), BLOCK * self.rng.randrange(count)
            fresh = self.rng.choice(
                [bytes(BLOCK), b"\xff" * BLOCK, bytes(self.data[source : source + BLOCK]), self.rng.randbytes(BLOCK)]
            )
            self.data[at : at + BLOCK] = fresh

    def length(self) -> None:
        """Changes the length."""
        if self.rng.random() < 0.3:
            self.data += self.rng.randbytes(self.rng.choice([1, BLOCK - 1, BLOCK, 3 * BLOCK]))
            return
        edges = [0, 1, 2, self.reader.zones, self.reader.zones + 1, self.reader.first] if self.reader else [0, 1, 2]
        del self.data[
            max(0, BLOCK * self.rng.choice([*edges, len(self.data) // BLOCK]) - self.rng.choice([0, 0, 1, 500])) :
        ]

    def super_field(self) -> None:
        """Changes a number of the superblock."""
        self.field(BLOCK + self.rng.choice([0, 2, 4, 6, 8, 10, 12, 16, 18]), 2)

    def inode_field(self) -> None:
        """Changes a field of an inode."""
        rng, reader = self.rng, self.known
        number = rng.choice([1, *reader.paths, *reader.named, rng.randint(1, reader.inodes)])
        at = self.standing(reader.home(number)) + 32 * ((number - 1) % 32)
        place, width = rng.choice(
            [(0, 2), (4, 4), (13, 1), *((14 + 2 * zone, 2) for zone in [0, 0, 1, 2, 6, 7, 7, 8, 8])]
        )
        if place == 0 and rng.random() < 0.7:
            self.put(at, 2, rng.choice(MODES))
        else:
            self.field(at + place, width)

    def slot(self) -> None:
        """Changes a slot."""
        rng, width = self.rng, calls.slot_bytes(self.known.names)
        if not self.known.met:
            return
        at = self.standing(rng.choice(sorted(self.known.met))) + width * rng.choice(
            [0, 1, 2, 2, 3, 4, rng.randrange(BLOCK // width)]
        )
        if rng.random() < 0.5:
            self.put(
                at,
                2,
                rng.choice(
                    [
                        0,
                        1,
                        self.known.inodes,
                        self.known.inodes + 1,
                        *self.known.named,
                        *self.known.paths,
                        rng.randrange(2**16),
                    ]
                ),
            )
        else:
            other = bytes(self.data[at + width + 2 : at + 2 * width])
            name = rng.choice([b"", b"a/b", b".", b"..", b"/", b"a", b"\xff", b"b" * 30, other, rng.randbytes(width)])
            self.data[at + 2 : at + width] = name[: width - 2].ljust(width - 2, b"\0")

    def zone_number(self) -> None:
        """Changes a number in a zone."""
        if self.known.met:
            self.field(
                self.standing(self.rng.choice(sorted(self.known.met))) + 2 * self.rng.choice([0, 1, 2, 100, 511]), 2
            )

    def map_bit(self) -> None:
        """Changes a bit of a map."""
        at = self.standing(self.rng.randrange(2, self.known.table)) + self.rng.randrange(32)
        if at < len(self.data):
            self.data[at] ^= 1 << self.rng.randrange(8)

    def journal_super(self) -> None:
        """Changes a number of the journal's superblock."""
        self.field(
            BLOCK * self.known.zones + self.rng.choice([0, 4, 8, 0x0C, 0x10, 0x14, 0x18, 0x1C, 0x24, 0x28, 0x2C, 0x40]),
            4,
            "big",
        )

    def log_block(self) -> None:
        """A field of a descriptor, a revoke block or a commit block."""
        rng, magic = self.rng, JOURNAL_MAGIC
        starts = range(BLOCK * (self.known.zones + 1), len(self.data) - BLOCK + 1, BLOCK)
        found = [at for at in starts if self.data[at : at + 4] == magic]
        if not found:
            return
        at = rng.choice(found)
        place = rng.choice([0, 4, 8, 12, 12, 16, 16, 20, 24, 28, 36, 40, 44, rng.randrange(12, BLOCK, 4)])
        if rng.random() < 0.3:
            self.put(at + rng.choice([18, 18, rng.randrange(18, BLOCK, 2)]), 2, rng.randrange(16), "big")
        elif place == 4:
            self.put(at + 4, 4, rng.randint(0, 6), "big")
        elif place == 8:
            self.put(at + 8, 4, self.old(at + 8, 4, "big") + rng.choice([-1, 1]), "big")
        else:
            self.field(at + place, 4, "big")
