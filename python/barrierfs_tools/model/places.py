"""Where the nodes of a volume stand in its blocks, by docs/FORMATS.md: which blocks of metadata a call changes, which
zones it takes and frees, and which blocks of files it writes."""

import copy
from typing import Any

from barrierfs_tools.model import calls
from barrierfs_tools.model.bodies import Metadata
from barrierfs_tools.model.grammar import BLOCK, BYTE_CALLS, DIRECT, MAP_BITS, NUMBERS, TABLE_INODES

Place = tuple[int, int]  # of a block of a file: its node, and its index
INODE = -1  # stands for the block of what an inode itself says


class Change:
    """What a call did to the blocks."""

    def __init__(self) -> None:
        self.blocks: set[int] = set()  # of metadata, whose bytes changed or which were taken
        self.freed: set[int] = set()
        self.revoked: set[int] = set()
        self.pages: dict[Place, tuple[int, bytes]] = {}  # of each written block of a file: its zone and its bytes
        self.dropped: set[Place] = set()
        self.nodes: set[int] = set()  # whose size, zones or slots changed
        self.taken: set[int] = set()


class Node:
    """The zones of a node."""

    def __init__(self, inode: int) -> None:
        self.inode = inode
        self.data: dict[int, int] = {}  # by index
        self.single = 0
        self.double = 0
        self.second: dict[int, int] = {}

    def numbers(self) -> set[int]:
        """The zones of numbers."""
        return {zone for zone in [self.single, self.double, *self.second.values()] if zone}

    def entries(self) -> dict[tuple[int, int], int]:
        """What the inode and the zones of numbers say: place and zone."""
        found: dict[tuple[int, int], int] = {}
        for at, zone in self.data.items():
            if at < DIRECT:
                found[INODE, at] = zone
            elif at < DIRECT + NUMBERS:
                found[self.single, at - DIRECT] = zone
            else:
                group, within = divmod(at - DIRECT - NUMBERS, NUMBERS)
                found[self.second[group], within] = zone
        found |= {(self.double, group): zone for group, zone in self.second.items()}
        return found | {(INODE, DIRECT): self.single, (INODE, DIRECT + 1): self.double}


class Places:
    """A volume, and where its nodes stand."""

    def __init__(self, inodes: int, zones: int, names: int) -> None:
        self.volume = calls.Volume(inodes, zones, names)
        self.block_slots = calls.block_slots(names)
        self.inodes, self.zones = inodes, zones
        self.maps = -(-(zones + 1) // MAP_BITS)
        self.inode_map = 2
        self.zone_map = 2 + -(-(inodes + 1) // MAP_BITS)
        self.table = self.zone_map + self.maps
        self.first = self.table + -(-inodes // TABLE_INODES)
        self.used = {self.first}  # zones in use, and those that wait for a transaction that freed them
        self.nodes = {0: Node(1)}
        self.nodes[0].data = {0: self.first}
        self.note_parents()
        self.items = self.all_items()

    def copied(self) -> "Places":
        """A copy that shares the bytes."""
        other = copy.copy(self)
        other.volume, other.used = self.volume.copied(), set(self.used)
        other.nodes = {number: copy.copy(place) for number, place in self.nodes.items()}
        for place in other.nodes.values():
            place.data, place.second = dict(place.data), dict(place.second)
        return other

    def do(self, line: str) -> tuple[str, Change]:
        """Does a call, and gives its reply and what it changed; one that is refused changes nothing."""
        signs = {number: self.sign(number) for number in self.volume.nodes}
        reply, change = self.volume.reply(line), Change()
        if reply != "ok":
            return reply, change
        self.note_parents()
        self.remove_nodes(change)
        self.add_nodes(change)
        for number in self.volume.nodes:
            self.resize(change, number, self.wanted(number))
        self.note_blocks(change)
        self.note_pages(change, line)
        after = {number: self.sign(number) for number in self.volume.nodes}
        change.nodes = {n for n in signs.keys() | after.keys() if signs.get(n) != after.get(n)}
        return reply, change

    def wanted(self, number: int) -> set[int]:
        """The indices that a node maps."""
        node = self.volume.nodes[number]
        return set(range(-(-len(node.slots) // self.block_slots))) if node.is_directory else set(node.blocks)

    def sign(self, number: int) -> tuple[Any, dict[tuple[int, int], int]]:
        """A node's size, zones and slots."""
        node, place = self.volume.nodes[number], self.nodes[number]
        slots = [(name, self.slot_inode(node, name)) for name in node.slots] if node.is_directory else node.size
        return slots, place.entries()

    def slot_inode(self, node: calls.Node, name: str | None) -> int:
        """The inode of a slot."""
        if name is calls.FREE:
            return 0
        if name in (".", ".."):
            return self.nodes[node.number if name == "." else self.parents[node.number]].inode
        return self.nodes[node.names[name].number].inode

    def note_parents(self) -> None:
        """The directory that names each directory; the root is its own."""
        self.parents = {0: 0}
        for number, node in self.volume.nodes.items():
            if node.is_directory:
                self.parents |= {child.number: number for child in node.names.values() if child.is_directory}

    def take(self, change: Change) -> int:
        """Takes the lowest free zone."""
        zone = next(zone for zone in range(self.first, self.zones) if zone not in self.used)
        self.used.add(zone)
        change.taken.add(zone)
        return zone

    def remove_nodes(self, change: Change) -> None:
        """Frees what nodes had that are gone."""
        for number in [number for number in self.nodes if number not in self.volume.nodes]:
            place = self.nodes.pop(number)
            is_directory = number in self.directories
            change.freed |= {*place.data.values(), *place.numbers()}
            change.revoked |= place.numbers() | (set(place.data.values()) if is_directory else set())
            if not is_directory:
                change.dropped |= {(number, at) for at in place.data}

    def add_nodes(self, change: Change) -> None:
        """Gives new nodes their inodes, and directories their first zone."""
        for number, node in self.volume.nodes.items():
            if number not in self.nodes:
                taken = {place.inode for place in self.nodes.values()}
                self.nodes[number] = Node(next(n for n in range(1, self.inodes + 1) if n not in taken))
                if node.is_directory:
                    self.nodes[number].data[0] = self.take(change)
                    change.blocks.add(self.nodes[number].data[0])

    def resize(self, change: Change, number: int, wanted: set[int]) -> None:
        """Gives a node the zones that it wants, and takes away the others."""
        place, is_directory = self.nodes[number], self.volume.nodes[number].is_directory
        for at in sorted(wanted - place.data.keys()):
            place.data[at] = self.take(change)
            if is_directory:
                change.blocks.add(place.data[at])
            self.take_numbers(change, place, at)
        for at in sorted(place.data.keys() - wanted):
            change.freed.add(place.data.pop(at))
            change.dropped.add((number, at))
        self.free_numbers(change, place)

    def take_numbers(self, change: Change, place: Node, at: int) -> None:
        """Takes the zones of numbers that a block needs."""
        if at < DIRECT:
            return
        if at < DIRECT + NUMBERS:
            if not place.single:
                place.single = self.take(change)
                change.blocks.add(place.single)
            return
        if not place.double:
            place.double = self.take(change)
            change.blocks.add(place.double)
        group = (at - DIRECT - NUMBERS) // NUMBERS
        if group not in place.second:
            place.second[group] = self.take(change)
            change.blocks.add(place.second[group])

    def free_numbers(self, change: Change, place: Node) -> None:
        """Frees the zones of numbers that no block needs."""
        had = place.numbers()
        if not any(DIRECT <= at < DIRECT + NUMBERS for at in place.data):
            place.single = 0
        groups = {(at - DIRECT - NUMBERS) // NUMBERS for at in place.data if at >= DIRECT + NUMBERS}
        place.second = {group: zone for group, zone in place.second.items() if group in groups}
        if not place.second:
            place.double = 0
        change.freed |= had - place.numbers()
        change.revoked |= had - place.numbers()

    def all_items(self) -> dict[tuple[int, int], Any]:
        """What stands in the blocks of metadata: block and place in it, and value."""
        found: dict[tuple[int, int], Any] = {}
        self.directories = {number for number, node in self.volume.nodes.items() if node.is_directory}
        for number, node in self.volume.nodes.items():
            place = self.nodes[number]
            at = place.inode - 1
            inode = []
            for (where, entry), zone in place.entries().items():
                if where == INODE:
                    inode.append((entry, zone))
                else:
                    found[where, entry] = zone
            size = self.volume.size_of(node)
            found[self.table + at // TABLE_INODES, at] = (node.is_directory, node.links, size, tuple(sorted(inode)))
            found[self.inode_map + place.inode // MAP_BITS, place.inode] = 1
            for zone in [*place.data.values(), *place.numbers()]:
                bit = zone - self.first + 1
                found[self.zone_map + bit // MAP_BITS, bit] = 1
            if node.is_directory:
                for slot, name in enumerate(node.slots):
                    if name is not calls.FREE:
                        found[place.data[slot // self.block_slots], slot] = (name, self.slot_inode(node, name))
        return found

    def note_blocks(self, change: Change) -> None:
        """Notes the blocks of metadata whose bytes changed."""
        items = self.all_items()
        for key in items.keys() | self.items.keys():
            if items.get(key) != self.items.get(key):
                change.blocks.add(key[0])
        self.items = items
        change.blocks -= change.freed

    def note_pages(self, change: Change, line: str) -> None:
        """Notes the pages that a call wrote."""
        word, *rest = line.split(" ")
        if word not in (*BYTE_CALLS, "truncate"):
            return
        node = self.volume.file(rest[0])
        low = int(rest[1])
        if word == "truncate":
            high = low + 1 if low % BLOCK else low
        else:
            high = low + (int(rest[2]) if word == "write" else len(rest[2]) // 2)
        for at in range(low // BLOCK, -(-high // BLOCK)):
            if at in node.blocks:
                change.pages[node.number, at] = (self.nodes[node.number].data[at], node.blocks[at])

    def bodies(self) -> dict[int, Metadata]:
        """The blocks of metadata, each as a map of what stands in it."""
        found: dict[int, Metadata] = {block: {} for block in range(2, self.first)}
        for (block, at), value in self.items.items():
            found.setdefault(block, {})[at] = value
        for place in self.nodes.values():
            found |= {zone: found.get(zone, {}) for zone in place.numbers()}
        return found
