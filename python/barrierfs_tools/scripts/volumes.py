"""Minix V1 images for measurements."""

import random
import struct
import subprocess
from collections.abc import Callable

from barrierfs_tools.failed import Failed

ZONES = 65535
DIRECTORY, FILE = 0o040755, 0o100644


class Volume:
    """An image under construction: zones are taken one after the other, inodes by number."""

    def __init__(self, inodes: int, zones: int) -> None:
        imap, zmap = -(-(inodes + 1) // 8192), -(-(zones + 1) // 8192)
        self.table = 2 + imap + zmap
        self.first = self.next = self.table + -(-inodes // 32)
        self.zones = zones
        self.bytes = bytearray(1024 * zones)
        head = struct.pack("<HHHHHHIHH", inodes, zones, imap, zmap, self.first, 0, 268966912, 0x137F, 1)
        self.bytes[1024 : 1024 + len(head)] = head

    def zone(self, body: bytes) -> int:
        """Takes the next zone, for this body."""
        zone = self.next
        if zone >= self.zones:
            raise Failed("the volume is full")
        self.next += 1
        self.bytes[1024 * zone : 1024 * zone + len(body)] = body
        return zone

    def numbers(self, zones: list[int]) -> int:
        """A zone of these numbers."""
        return self.zone(struct.pack("<%dH" % len(zones), *zones)) if zones else 0

    def inode(self, number: int, mode: int, size: int, links: int, zones: list[int]) -> None:
        """Zones are the numbers of its blocks, at most 7 + 512 + 512 * 512 of them."""
        direct = zones[:7] + [0] * (7 - len(zones[:7]))
        indirect = self.numbers(zones[7:519])
        rest = [zones[k : k + 512] for k in range(519, len(zones), 512)]
        double = self.numbers([self.numbers(part) for part in rest])
        at = 1024 * self.table + 32 * (number - 1)
        self.bytes[at : at + 32] = struct.pack(
            "<HHIIBB9H", mode, 1000, size, 1700000000, 100, links, *direct, indirect, double
        )

    def directory(self, number: int, parent: int, entries: list[tuple[int, bytes]]) -> None:
        """Makes a directory."""
        slots = [(number, b"."), (parent, b"..")] + entries
        body = b"".join(struct.pack("<H14s", inode, name) for inode, name in slots)
        zones = [self.zone(body[k : k + 1024]) for k in range(0, len(body), 1024)]
        self.inode(number, DIRECTORY, len(body), 2, zones)

    def file(self, number: int, body: bytes) -> None:
        """Makes a file."""
        zones = [self.zone(body[k : k + 1024]) for k in range(0, len(body), 1024)]
        self.inode(number, FILE, len(body), 1, zones)


def empty(path: str) -> None:
    """An empty volume of 65,535 zones, made by mkfs.minix of util-linux."""
    with open(path, "wb") as image:
        image.truncate(1024 * ZONES)
    subprocess.run(["mkfs.minix", "-1", "-n14", path], check=True, stdout=subprocess.DEVNULL)


def tree(path: str, files: int, body: Callable[[int], bytes]) -> None:
    """Files, 100 in each directory below the root; body(k) has the bytes of file k."""
    folders = files // 100
    volume = Volume(1 + folders + files, ZONES)
    volume.directory(1, 1, [(2 + f, b"folder%03d" % f) for f in range(folders)])
    for f in range(folders):
        first = 2 + folders + 100 * f
        volume.directory(2 + f, 1, [(first + k, b"file%02d" % k) for k in range(100)])
        for k in range(100):
            volume.file(first + k, body(100 * f + k))
    save(volume, path)


def chain(path: str, depth: int) -> None:
    """Directories, one in the other."""
    volume = Volume(depth, ZONES)
    for n in range(1, depth + 1):
        volume.directory(n, max(1, n - 1), [(n + 1, b"d")] if n < depth else [])
    save(volume, path)


MAGIC = 0xC03B3998
DESCRIPTOR, COMMIT, SUPERBLOCK = 1, 2, 4
SAME_UUID, LAST = 2, 8


def journal_block(kind: int, sequence: int, body: bytes = b"") -> bytes:
    """A block of a journal."""
    return (struct.pack(">III", MAGIC, kind, sequence) + body).ljust(1024, b"\0")


def transaction(sequence: int, zones: list[int]) -> list[bytes]:
    """A descriptor with a tag for each of the zones, their bodies, and a commit block."""
    tags = []
    for k, zone in enumerate(zones):
        flags = (SAME_UUID if k else 0) | (LAST if k == len(zones) - 1 else 0)
        tags.append(struct.pack(">II", zone, flags) + (b"" if k else bytes(16)))
    bodies = [bytes([zone % 256]) * 1024 for zone in zones]
    return [journal_block(DESCRIPTOR, sequence, b"".join(tags)), *bodies, journal_block(COMMIT, sequence)]


def logged(path: str, blocks: int) -> None:
    """A file whose zones are zeros, and behind the volume a journal of so many blocks, full of their bodies."""
    volume = Volume(2, ZONES)
    volume.directory(1, 1, [(2, b"logged")])
    log: list[bytes] = []
    rest = blocks - 1
    zones = []
    while rest >= 3:
        tags = min(122, rest - 2)
        added = [volume.zone(b"") for _ in range(tags)]
        log += transaction(1 + len(log) // 124, added)
        zones += added
        rest -= tags + 2
    volume.inode(2, FILE, 1024 * len(zones), 1, zones)
    numbers = struct.pack(">IIIII8xI20xI", 1024, blocks, 1, 1, 1, 1, 1)
    volume.bytes += journal_block(SUPERBLOCK, 0, numbers) + b"".join(log) + bytes(1024 * rest)
    save(volume, path)


def save(volume: Volume, path: str) -> None:
    """Writes the image."""
    with open(path, "wb") as image:
        image.write(volume.bytes)


def full(path: str, zones: int) -> None:
    """Files of 256 blocks, 64 in a directory, until nine tenths of the zones are used."""
    files = (zones * 9 // 10) // 258
    folders = -(-files // 64)
    volume = Volume(1 + folders + files, zones)
    volume.directory(1, 1, [(2 + f, b"folder%03d" % f) for f in range(folders)])
    for f in range(folders):
        held = range(64 * f, min(64 * (f + 1), files))
        volume.directory(2 + f, 1, [(2 + folders + k, b"file%04d" % k) for k in held])
        for k in held:
            volume.file(2 + folders + k, bytes([k % 256]) * (256 * 1024))
    save(volume, path)


def filled(k: int) -> bytes:
    """Up to 20 blocks, each of one byte, and a last one that is cut."""
    blocks = bytes(b for block in range(k % 21) for b in [(k + block) % 256] * 1024)
    return blocks + bytes([k % 256]) * (k % 1000)


LETTERS = random.Random(1)


def letters(k: int) -> bytes:
    """Some 2 KB of letters in no order."""
    return bytes(LETTERS.choices(b"abcdefghijklmnopqrstuvwxyz \n", k=1024 + k % 2048))


IMAGES: dict[str, Callable[[str], None]] = {
    "volume-empty": empty,
    "volume-files": lambda path: tree(path, 4000, filled),
    "volume-mail": lambda path: tree(path, 4000, letters),
    "journal-full": lambda path: logged(path, 16384),
    "volume-chain": lambda path: chain(path, 20000),
}
