"""Whether the maps, links and dots of an image agree with its tree, by docs/FORMATS.md, for a second program."""

from collections import Counter

from barrierfs_tools.model import calls, images, journal
from barrierfs_tools.model.grammar import BLOCK, MAP_BITS


class Unsound(Exception):
    """What is wrong first: its kind and its block."""

    def __init__(self, kind: str, block: int) -> None:
        super().__init__(kind, block)
        self.kind, self.block = kind, block


class Check:
    """An image that has no fault, once it was walked."""

    def __init__(self, reader: images.Reader) -> None:
        self.reader = reader
        self.names = Counter(inode for _, _, found in reader.listed_in.values() for inode in found.values())
        self.reached = {1, *self.names}
        self.parents = {1: 1} | {
            inode: above for above, (_, _, found) in reader.listed_in.items() for inode in found.values()
        }

    def bit(self, first: int, number: int) -> tuple[int, int]:
        """A bit of the map that begins at this block, and the block that has it."""
        block, at = first + number // MAP_BITS, number % MAP_BITS
        return self.reader.block(block)[at // 8] >> at % 8 & 1, block

    def inode_map(self) -> None:
        """Tests the bit of each inode."""
        for inode in range(1, self.reader.inodes + 1):
            bit, block = self.bit(2, inode)
            if bit != (inode in self.reached):
                raise Unsound("inode map", block)

    def zone_map(self) -> None:
        """Tests the bit of each zone of data."""
        reader = self.reader
        knows_all = self.reached <= {*reader.paths, *reader.listed_in}
        for zone in range(reader.first, reader.zones):
            bit, block = self.bit(2 + reader.maps[0], zone - reader.first + 1)
            if not bit and zone in reader.met or bit and zone not in reader.met and knows_all:
                raise Unsound("zone map", block)

    def links(self) -> None:
        """Tests the links of each inode that names lead to."""
        for inode in sorted(self.reached):
            wanted = self.names[inode]
            if inode in self.reader.listed_in:
                wanted = 2 + sum(child in self.reader.listed_in for child in self.reader.listed_in[inode][2].values())
            if self.reader.inode(inode)[2] != wanted:
                raise Unsound("links", self.reader.home(inode))

    def dots(self) -> None:
        """Tests the first two slots of each directory."""
        width = calls.slot_bytes(self.reader.names)
        for inode, (mapped, size, _) in sorted(self.reader.listed_in.items()):
            body = self.reader.block(mapped[0]) if 0 in mapped else bytes(BLOCK)
            slots = [
                (int.from_bytes(body[at : at + 2], "little"), body[at + 2 : at + width].split(b"\0")[0])
                for at in (0, width)
            ]
            if size < 2 * width or slots != [(inode, b"."), (self.parents[inode], b"..")]:
                raise Unsound("dots", mapped.get(0, self.reader.home(inode)))


def report(data: bytes) -> str:
    """What `check` prints of these bytes, or says on standard error."""
    try:
        check = Check(images.walked(data))
        for test in (check.inode_map, check.zone_map, check.links, check.dots):
            test()
    except journal.Fault as fault:
        return images.fault_text(fault)
    except Unsound as unsound:
        return f"barrierfs: unsound: {unsound.kind} at block {unsound.block}\n"
    return "clean\n"
