"""Images with long names, by docs/FORMATS.md: a second program, written from that page alone. It gives the bytes that
`widen --raw` writes."""
import struct

from barrierfs_tools.model import images
from barrierfs_tools.model.calls import block_slots, directory_zones, slot_bytes
from barrierfs_tools.model.grammar import BLOCK, DIRECT, DIRECTORY_BLOCKS, LONG_NAMES, MAGICS, NUMBERS, TABLE_INODES
from barrierfs_tools.model.journal import Fault

SLOTS, WIDTH = block_slots(LONG_NAMES), slot_bytes(LONG_NAMES)
MAGIC_AT = BLOCK + 16  # the byte of the superblock that has the magic number
NO_ROOM = "barrierfs: no room\n"


class NoRoom(Exception):
    """A directory, or all of them, need more blocks than there may be."""


class Widener:
    """An image, as it is recovered and then given long names."""

    def __init__(self, data: bytes) -> None:
        self.reader = images.walked(data)
        self.data = bytearray(b"".join(self.reader.block(at) for at in range(self.reader.count)))
        self.empty_log()

    def empty_log(self) -> None:
        """The journal is left with no transaction, one sequence behind the first that was missing."""
        journal = self.reader.journal
        if journal and journal.start:
            at = BLOCK * self.reader.zones + 24
            self.data[at : at + 8] = struct.pack(">2I", (journal.sequence + len(journal.transactions) + 1) % 2**32, 0)

    def bit(self, zone: int) -> tuple[int, int]:
        """The byte and the bit of a zone in its map."""
        number = zone - self.reader.first + 1
        return BLOCK * (2 + self.reader.maps[0]) + number // 8, 1 << number % 8

    def mark(self, zone: int, is_used: bool) -> None:
        """Sets the bit of a zone, or takes it away."""
        at, bit = self.bit(zone)
        self.data[at] = self.data[at] | bit if is_used else self.data[at] & ~bit

    def is_free(self, zone: int) -> bool:
        """Whether nothing of the volume has a zone, and its bit is 0."""
        at, bit = self.bit(zone)
        return zone not in self.reader.met and not self.data[at] & bit

    def zones_of(self, inode: int) -> tuple[list[int], list[int]]:
        """The zones of a directory: those of data in the order of their index, and those of numbers, the indirect one first."""
        mapped, _, _ = self.reader.listed_in[inode]
        own = self.reader.inode(inode)[3]
        numbers = [zone for zone in own[DIRECT:] if zone]
        if own[DIRECT + 1]:
            numbers += [zone for zone in images.numbers_in(self.reader.block(own[DIRECT + 1])) if zone]
        return [mapped[at] for at in sorted(mapped)], numbers

    def widen(self) -> bytes:
        """The bytes of the widened image."""
        if self.reader.names == LONG_NAMES:
            return bytes(self.data)
        directories = sorted(self.reader.listed_in)
        parents = {1: 1}
        for above in directories:
            parents |= {
                below: above for below in self.reader.listed_in[above][2].values() if below in self.reader.listed_in
            }
        needs = {inode: directory_zones(len(self.reader.listed_in[inode][2]) + 2, LONG_NAMES) for inode in directories}
        own = {inode: sum(map(len, self.zones_of(inode))) for inode in directories}
        free = [zone for zone in range(self.reader.first, self.reader.zones) if self.is_free(zone)]
        most = directory_zones(DIRECTORY_BLOCKS * SLOTS, LONG_NAMES)
        more = sum(max(0, needs[inode] - own[inode]) for inode in directories)
        if any(need > most for need in needs.values()) or more > len(free):
            raise NoRoom
        for inode in directories:
            self.rewrite(inode, parents[inode], free)
        magic = next(magic for magic, width in MAGICS.items() if width == LONG_NAMES)
        self.data[MAGIC_AT : MAGIC_AT + 2] = magic.to_bytes(2, "little")
        return bytes(self.data)

    def rewrite(self, inode: int, parent: int, free: list[int]) -> None:
        """Writes a directory anew."""
        names = sorted(self.reader.listed_in[inode][2].items())
        slots = [(inode, b"."), (parent, b".."), *((number, name) for name, number in names)]
        body = b"".join(struct.pack(f"<H{LONG_NAMES}s", number, name) for number, name in slots)
        data, numbers = self.zones_of(inode)
        blocks = -(-len(slots) // SLOTS)
        indirect = self.reader.inode(inode)[3][DIRECT] if blocks > DIRECT else 0
        owned = [zone for zone in [*data, *numbers] if zone != indirect]
        need = blocks + (1 if blocks > DIRECT and not indirect else 0)
        taken = owned[:need] + [free.pop(0) for _ in range(need - len(owned))]
        for zone in owned[need:]:
            self.mark(zone, False)
        for zone in taken[len(owned) :]:
            self.mark(zone, True)
        if blocks > DIRECT and not indirect:
            indirect = taken.pop()
        for at, zone in enumerate(taken):
            self.put(zone, body[BLOCK * at : BLOCK * (at + 1)])
        if indirect:
            listed = taken[DIRECT:]
            self.put(indirect, struct.pack(f"<{NUMBERS}H", *listed, *[0] * (NUMBERS - len(listed))))
        place = BLOCK * self.reader.home(inode) + 32 * ((inode - 1) % TABLE_INODES)
        struct.pack_into("<I", self.data, place + 4, WIDTH * len(slots))
        direct = taken[:DIRECT] + [0] * (DIRECT - len(taken[:DIRECT]))
        struct.pack_into("<9H", self.data, place + 14, *direct, indirect, 0)

    def put(self, zone: int, body: bytes) -> None:
        """Writes a block."""
        self.data[BLOCK * zone : BLOCK * (zone + 1)] = body.ljust(BLOCK, b"\0")


def report(data: bytes) -> str:
    """What `widen --raw` writes of these bytes, a character for a byte, or says on standard error."""
    try:
        return Widener(data).widen().decode("latin-1")
    except Fault as fault:
        return images.fault_text(fault)
    except NoRoom:
        return NO_ROOM
