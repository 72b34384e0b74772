"""Calls on a volume, and the text of its tree, by docs/FORMATS.md: a second program, written from that page alone."""

import copy
import math
import re
from collections.abc import Callable, Collection

from barrierfs_tools.model.grammar import (
    BLOCK,
    DIRECT,
    DIRECTORY_BLOCKS,
    LARGEST,
    MOST_LINKS,
    NAMES,
    NUMBERS,
    tables_of,
)

FREE = None  # a slot of a directory that has no name


class Node:
    """A file or a directory."""

    def __init__(self, number: int, is_directory: bool) -> None:
        self.number = number
        self.is_directory = is_directory
        self.links = 2 if is_directory else 1
        self.size = 0  # of a file
        self.blocks: dict[int, bytes] = {}  # of a file: its mapped blocks
        self.names: dict[str, "Node"] = {}  # of a directory: its entries
        self.slots: list[str | None] = [".", ".."]  # of a directory


def names_by(line: str) -> int:
    """The bytes of the longest name in the volume of a script with this first line."""
    words = line.split(" ")
    return int(words[8]) if words[7:8] == ["names"] else NAMES


def slot_bytes(names: int) -> int:
    """Of a slot: the number of an inode, and a name."""
    return 2 + names


def block_slots(names: int) -> int:
    """The slots of a block of a directory."""
    return BLOCK // slot_bytes(names)


def directory_zones(slots: int, names: int) -> int:
    """The zones of a directory of so many slots."""
    blocks = math.ceil(slots / block_slots(names))
    return blocks + (1 if blocks > DIRECT else 0)


def file_zones(blocks: Collection[int]) -> int:
    """The zones of a file that maps these blocks."""
    indirect = any(DIRECT <= at < DIRECT + NUMBERS for at in blocks)
    double = {(at - DIRECT - NUMBERS) // NUMBERS for at in blocks if at >= DIRECT + NUMBERS}
    return len(blocks) + indirect + (1 + len(double) if double else 0)


class Refused(Exception):
    """A call is refused, with this reply."""


def names_of(path: str) -> list[str]:
    """The names of a path."""
    names = [] if path == "/" else path.split("/")[1:]
    is_spelled = path.startswith("/") and all(re.fullmatch(r"[A-Za-z0-9._-]+", name) for name in names)
    if not is_spelled or "." in names or ".." in names:
        raise Refused("bad path")
    return names


Row = tuple[str, str, Node, str]  # kind, path, node, and the first path of a file
Rows = list[Row]
Lines = list[str]


class Volume:
    """A volume, with the calls on it as its methods; each gives its reply, or none for `ok`."""

    def __init__(self, inodes: int, zones: int, names: int = NAMES) -> None:
        self.inodes, self.capacity, self.names = inodes, zones - tables_of(inodes, zones), names
        self.made = 1
        self.root = Node(0, True)
        self.nodes = {0: self.root}

    def copied(self) -> "Volume":
        """A copy that shares the bytes."""
        other = copy.copy(self)
        other.nodes = {number: copy.copy(node) for number, node in self.nodes.items()}
        other.root = other.nodes[0]
        for node in other.nodes.values():
            node.blocks, node.slots = dict(node.blocks), list(node.slots)
            node.names = {name: other.nodes[child.number] for name, child in node.names.items()}
        return other

    def free_zones(self) -> int:
        """How many zones are free."""
        return self.capacity - sum(self.zones_of(node) for node in self.nodes.values())

    def zones_of(self, node: Node) -> int:
        """The zones of a node."""
        return directory_zones(len(node.slots), self.names) if node.is_directory else file_zones(node.blocks)

    def size_of(self, node: Node) -> int:
        """The size that `stat` tells."""
        return slot_bytes(self.names) * len(node.slots) if node.is_directory else node.size

    def may_have(self, name: str) -> None:
        """Tests the length of a name."""
        if len(name) > self.names:
            raise Refused("name too long")

    def walk(self, names: list[str]) -> Node:
        """The node to which these names lead."""
        node = self.root
        for name in names:
            if not node.is_directory:
                raise Refused("not a directory")
            self.may_have(name)
            if name not in node.names:
                raise Refused("not found")
            node = node.names[name]
        return node

    def parent(self, names: list[str]) -> Node:
        """The directory of the last of these names."""
        node = self.walk(names[:-1])
        if not node.is_directory:
            raise Refused("not a directory")
        self.may_have(names[-1])
        return node

    def file(self, path: str) -> Node:
        """The file of a path."""
        node = self.walk(names_of(path))
        if node.is_directory:
            raise Refused("is a directory")
        return node

    def room_for_name(self, names: list[str], links: bool = False, inode: bool = False, zones: int = 0) -> Node:
        """The directory of a new name, once nothing refuses it."""
        if not names:
            raise Refused("exists")
        directory = self.parent(names)
        if names[-1] in directory.names:
            raise Refused("exists")
        if links and directory.links >= MOST_LINKS:
            raise Refused("too many links")
        self.may_grow(directory, inode, zones)
        return directory

    def may_grow(self, directory: Node, inode: bool, zones: int) -> None:
        """Tests that a directory has room for a name more."""
        slots = len(directory.slots)
        has_slot = FREE in directory.slots
        if slots >= DIRECTORY_BLOCKS * block_slots(self.names) and not has_slot:
            raise Refused("too big")
        if inode and len(self.nodes) >= self.inodes:
            raise Refused("no inode")
        more = 0 if has_slot else directory_zones(slots + 1, self.names) - directory_zones(slots, self.names)
        if more + zones > self.free_zones():
            raise Refused("no space")

    @staticmethod
    def put_name(directory: Node, name: str, node: Node) -> None:
        """Names a node, in the first free slot."""
        if FREE in directory.slots:
            directory.slots[directory.slots.index(FREE)] = name
        else:
            directory.slots.append(name)
        directory.names[name] = node

    @staticmethod
    def take_name(directory: Node, name: str) -> Node:
        """Takes a name out, and gives its node."""
        directory.slots[directory.slots.index(name)] = FREE
        return directory.names.pop(name)

    def new_node(self, is_directory: bool) -> Node:
        """A node more."""
        node = Node(self.made, is_directory)
        self.made += 1
        self.nodes[node.number] = node
        return node

    def mkdir(self, path: str) -> None:
        """The call `mkdir`."""
        names = names_of(path)
        directory = self.room_for_name(names, links=True, inode=True, zones=1)
        self.put_name(directory, names[-1], self.new_node(True))
        directory.links += 1

    def create(self, path: str) -> None:
        """The call `create`."""
        names = names_of(path)
        directory = self.room_for_name(names, inode=True)
        self.put_name(directory, names[-1], self.new_node(False))

    def rmdir(self, path: str) -> None:
        """The call `rmdir`."""
        names = names_of(path)
        if not names:
            raise Refused("invalid")
        node = self.walk(names)
        if not node.is_directory:
            raise Refused("not a directory")
        if node.names:
            raise Refused("not empty")
        directory = self.walk(names[:-1])
        self.take_name(directory, names[-1])
        directory.links -= 1
        del self.nodes[node.number]

    def unlink(self, path: str) -> None:
        """The call `unlink`."""
        names = names_of(path)
        if not names:
            raise Refused("invalid")
        node = self.file(path)
        self.take_name(self.walk(names[:-1]), names[-1])
        node.links -= 1
        if node.links == 0:
            del self.nodes[node.number]

    def link(self, path: str, other: str) -> None:
        """The call `link`."""
        names_of(path)
        names = names_of(other)
        node = self.file(path)
        if not names:
            raise Refused("exists")
        directory = self.parent(names)
        if names[-1] in directory.names:
            raise Refused("exists")
        if node.links >= MOST_LINKS:
            raise Refused("too many links")
        self.may_grow(directory, inode=False, zones=0)
        self.put_name(directory, names[-1], node)
        node.links += 1

    def rename(self, path: str, other: str) -> None:
        """The call `rename`."""
        names, others = names_of(path), names_of(other)
        if not names or not others:
            raise Refused("invalid")
        node, directory = self.walk(names), self.parent(others)
        source, target = self.walk(names[:-1]), directory.names.get(others[-1])
        if node.is_directory and any(self.walk(others[:at]) is node for at in range(len(others))):
            raise Refused("invalid")
        self.may_replace(node, target)
        leaves = directory is not source
        if node.is_directory and leaves and directory.links >= MOST_LINKS:
            raise Refused("too many links")
        # in its own directory the name goes into the slot that it leaves, or one before it
        if target is None and leaves:
            self.may_grow(directory, inode=False, zones=0)
        if target is not node:
            self.move_name(source, names[-1], directory, others[-1])
            if node.is_directory and leaves:
                source.links -= 1
                directory.links += 1

    @staticmethod
    def may_replace(node: Node, target: Node | None) -> None:
        """Tests that a node may take the place of another."""
        if target is None or target is node:
            return
        if target.is_directory:
            raise Refused("exists" if node.is_directory else "is a directory")
        if node.is_directory:
            raise Refused("not a directory")

    def move_name(self, source: Node, name: str, directory: Node, other: str) -> None:
        """Takes a name out, and another names its node; a file that had this one keeps no link by it."""
        node, target = self.take_name(source, name), directory.names.get(other)
        if target is None:
            self.put_name(directory, other, node)
            return
        directory.names[other] = node
        target.links -= 1
        if target.links == 0:
            del self.nodes[target.number]

    def put_bytes(self, path: str, offset: int, data: bytes) -> None:
        """Writes bytes to a file."""
        node = self.file(path)
        end = offset + len(data)
        if end > LARGEST:
            raise Refused("too big")
        touched = range(offset // BLOCK, (end - 1) // BLOCK + 1)
        if file_zones({*node.blocks, *touched}) - file_zones(node.blocks) > self.free_zones():
            raise Refused("no space")
        for at in touched:
            body = bytearray(node.blocks.get(at, bytes(BLOCK)))
            low, high = max(offset, at * BLOCK), min(end, (at + 1) * BLOCK)
            body[low - at * BLOCK : high - at * BLOCK] = data[low - offset : high - offset]
            node.blocks[at] = bytes(body)
        node.size = max(node.size, end)

    def write(self, path: str, offset: str, length: str, value: str) -> None:
        """The call `write`."""
        self.put_bytes(path, int(offset), bytes([int(value, 16)]) * int(length))

    def bytes(self, path: str, offset: str, digits: str) -> None:
        """The call `bytes`."""
        self.put_bytes(path, int(offset), bytes.fromhex(digits))

    def truncate(self, path: str, words: str) -> None:
        """The call `truncate`."""
        node, size = self.file(path), int(words)
        if size > LARGEST:
            raise Refused("too big")
        node.blocks = {at: body for at, body in node.blocks.items() if at * BLOCK < size}
        last, within = size // BLOCK, size % BLOCK
        if within and last in node.blocks:
            node.blocks[last] = node.blocks[last][:within] + bytes(BLOCK - within)
        node.size = size

    def read(self, path: str, offset: str, length: str) -> str:
        """The call `read`."""
        node, at = self.file(path), int(offset)
        end = min(at + int(length), node.size)
        found = b""
        while at < end:
            limit = min(end, (at // BLOCK + 1) * BLOCK)
            body = node.blocks.get(at // BLOCK, bytes(BLOCK))
            found += body[at % BLOCK : at % BLOCK + limit - at]
            at = limit
        return "bytes " + (runs(found) or "-")

    def list(self, path: str) -> str:
        """The call `list`."""
        node = self.walk(names_of(path))
        if not node.is_directory:
            raise Refused("not a directory")
        return "names " + (" ".join(sorted(node.names)) or "-")

    def stat(self, path: str) -> str:
        """The call `stat`."""
        node = self.walk(names_of(path))
        return f"{'dir' if node.is_directory else 'file'} size {self.size_of(node)} links {node.links}"

    def of_node(self, path: str) -> None:
        """A barrier or sync call of a node, which changes no tree."""
        self.walk(names_of(path))

    fsync = fdatasync = fbarrier = fdatabarrier = of_node

    def sync(self) -> None:
        """The call `sync`."""

    def reply(self, line: str) -> str:
        """Does the call of this line, and gives its reply."""
        word, *rest = line.split(" ")
        try:
            act: Callable[..., str | None] = getattr(self, word)
            return act(*rest) or "ok"
        except Refused as refused:
            return str(refused)

    def rows(self) -> Rows:
        """The nodes of the tree in the order of its text: kind, path, node, and the first path of a file."""
        found: Rows = []
        first: dict[int, str] = {}

        def enter(node: Node, path: str) -> None:
            found.append(("dir", path, node, path))
            for name, child in sorted(node.names.items()):
                below = f"{path.rstrip('/')}/{name}"
                if child.is_directory:
                    enter(child, below)
                else:
                    kind = "link" if child.number in first else "file"
                    first.setdefault(child.number, below)
                    found.append((kind, below, child, first[child.number]))

        enter(self.root, "/")
        return found

    def text(self) -> Lines:
        """The text of the tree."""
        lines = []
        for kind, path, node, first in self.rows():
            if kind == "dir":
                lines.append(f"dir {path}")
            elif kind == "link":
                lines.append(f"link {path} {first}")
            else:
                lines.append(f"file {path} size {node.size} links {node.links}")
                lines += [f"block {at} {runs(body)}" for at, body in shown(node)]
        return lines


def shown(node: Node) -> list[tuple[int, bytes]]:
    """The mapped blocks of a file below its size, and their bytes up to it."""
    return [(at, body[: node.size - at * BLOCK]) for at, body in sorted(node.blocks.items()) if at * BLOCK < node.size]


def runs(data: bytes) -> str:
    """Bytes as runs of equal ones."""
    found = (run[0] for run in re.finditer(rb"(.)\1*", data, re.DOTALL))
    return "+".join(f"{len(run)}x{run[0]:02x}" for run in found)
