"""Journals that `debugfs` writes, what `e2fsck` replays of them, and what `show` recovers of them."""

import pathlib
import random
import struct
import subprocess

from barrierfs_tools.failed import Failed
from barrierfs_tools.model.grammar import BLOCK, JOURNAL_MAGIC, LARGEST
from barrierfs_tools.runs import child

BLOCKS = 16_384
FIRST, COUNT = 12_000, 401  # the blocks that journals write, which ext4 does not use


def debugfs(image: pathlib.Path, *lines: str) -> None:
    """Runs these commands of `debugfs` on an image."""
    commands = image.with_suffix(".commands")
    commands.write_text("".join(line + "\n" for line in lines))
    subprocess.run(["debugfs", "-w", "-f", commands, image], check=True, capture_output=True)


def write_journal(rng: random.Random, image: pathlib.Path, bits: int) -> None:
    """An ext4 image with a journal that was not replayed."""
    feature = "64bit" if bits == 64 else "^64bit"
    options = f"{feature},^metadata_csum,^metadata_csum_seed,^resize_inode,^orphan_file"
    image.write_bytes(b"")
    with image.open("r+b") as file:
        file.truncate(BLOCK * BLOCKS)
    subprocess.run(
        ["mkfs.ext4", "-q", "-F", "-b", str(BLOCK), "-O", options, "-J", "size=1", image],
        check=True,
        capture_output=True,
    )
    with image.open("r+b") as file:
        file.seek(BLOCK * FIRST)
        file.write(rng.randbytes(BLOCK * COUNT))
    lines = ["journal_open"]
    for at in range(rng.randint(1, 6)):
        lines += transaction(rng, image, at)
    debugfs(image, *lines, "journal_close")


def transaction(rng: random.Random, image: pathlib.Path, at: int) -> list[str]:
    """The commands for a transaction."""
    if rng.random() < 0.3:
        revoked = rng.sample(range(FIRST, FIRST + COUNT), rng.choice([1, 5, 126, 127, 250]))
        return ["journal_write -r " + ",".join(map(str, revoked))]
    homes = rng.sample(range(FIRST, FIRST + COUNT), rng.choice([1, 2, 30, 82, 83, 84, 122, 124, 125]))
    bodies = image.with_suffix(f".bodies{at}")
    bodies.write_bytes(b"".join(body(rng) for _ in homes))
    return [f"journal_write -b {','.join(map(str, homes))} {bodies}"]


def body(rng: random.Random) -> bytes:
    """A body, sometimes one that has to be escaped."""
    return JOURNAL_MAGIC + rng.randbytes(BLOCK - 4) if rng.random() < 0.1 else rng.randbytes(BLOCK)


def turned(rng: random.Random, journal: bytes) -> bytes:
    """The same log from another block on."""
    log, length = journal[BLOCK:], len(journal) // BLOCK - 1
    turn = rng.randrange(length) if rng.random() < 0.5 else 0
    start = struct.unpack(">I", journal[0x1C:0x20])[0]
    log = log[-turn * BLOCK :] + log[: -turn * BLOCK] if turn else log
    return journal[:0x1C] + struct.pack(">I", (start - 1 + turn) % length + 1) + journal[0x20:BLOCK] + log


def journal_of(image: pathlib.Path) -> tuple[bytes, list[int]]:
    """The journal of an image, and its blocks."""
    found = image.with_suffix(".journal")
    debugfs(image, f"dump <8> {found}")
    places = subprocess.run(
        ["debugfs", "-R", "blocks <8>", image], check=True, capture_output=True, text=True
    ).stdout.split()
    return found.read_bytes(), [int(place) for place in places]


def put_journal(image: pathlib.Path, journal: bytes, places: list[int]) -> None:
    """Writes the journal back."""
    with image.open("r+b") as file:
        for at in range(len(journal) // BLOCK):
            file.seek(BLOCK * places[at])
            file.write(journal[BLOCK * at : BLOCK * (at + 1)])


def replayed(image: pathlib.Path) -> bytes:
    """The blocks as e2fsck leaves them."""
    done = subprocess.run(["e2fsck", "-y", "-E", "journal_only", image], capture_output=True, text=True, check=False)
    if done.returncode not in (0, 1):
        raise Failed(f"e2fsck: {done.stdout}{done.stderr}")
    return image.read_bytes()[BLOCK * FIRST : BLOCK * (FIRST + COUNT)]


def minix(bodies: bytes, journal: bytes) -> bytes:
    """A Minix volume with one file over these blocks, and the journal behind it."""
    first = 2 + 1 + 3 + 1
    image = bytearray(BLOCK * BLOCKS)
    struct.pack_into("<6HI2H", image, BLOCK, 32, BLOCKS, 1, 3, first, 0, LARGEST, 0x137F, 1)
    numbers, root, table = first + 1, first, BLOCK * (first - 1)
    zones = list(range(FIRST, FIRST + COUNT))
    struct.pack_into("<2H2I2B9H", image, table, 0o040755, 0, 48, 0, 0, 2, root, *[0] * 8)
    struct.pack_into("<2H2I2B9H", image, table + 32, 0o100644, 0, BLOCK * COUNT, 0, 0, 1, *zones[:7], numbers, 0)
    for at, (number, name) in enumerate([(1, b"."), (1, b".."), (2, b"f")]):
        struct.pack_into("<H14s", image, BLOCK * root + 16 * at, number, name)
    struct.pack_into(f"<{COUNT - 7}H", image, BLOCK * numbers, *zones[7:])
    image[BLOCK * FIRST : BLOCK * (FIRST + COUNT)] = bodies
    return bytes(image) + journal


def shown(program: str, image: bytes) -> bytes:
    """The bytes of the file, as `show` tells them."""
    done = child.run([program, "show"], image)
    if done.status:
        raise Failed(done.err.decode().strip())
    lines = [line.split(" ") for line in done.out.decode().split("\n") if line.startswith("block ")]
    runs = [run.split("x") for line in lines for run in line[2].split("+")]
    return b"".join(bytes([int(value, 16)]) * int(length) for length, value in runs)
