"""Images of which one bit or field was changed, and what `fsck.minix` says of them."""

import functools
import pathlib
import random
import struct
import subprocess

from barrierfs_tools.model import calls, host, images, recovery
from barrierfs_tools.model.grammar import BLOCK, LARGEST
from barrierfs_tools.scripts import random_scripts

KINDS = ("inode map", "zone map", "links", "dots", "sizes")
OWN = 20  # images of one session


@functools.lru_cache(maxsize=2)
def session_image(seed: int) -> bytes:
    """The recovered image of a session with a tree of some nodes."""
    rng = random.Random(f"fsck {seed}")
    rest = [random_scripts.call(rng, random_scripts.NEAR, 7) for _ in range(40)]
    lines = [
        "mkdir /a",
        "mkdir /a/b",
        "create /c",
        "link /c /a/d",
        "write /c 0 9000 61",
        "create /a/e",
        "write /a/e 0 100 62",
        *rest,
        "sync",
    ]
    script = (
        f"volume inodes 40 zones 80 journal 128{random_scripts.width(rng)}\nthread 1\n"
        + "\n".join(lines)
        + "\nevents\nround 2000\n"
    )
    session = host.ended(script)
    medium = session.surface()
    session.device.medium = [(body, "-") for body in recovery.recovered(medium, session.script.zones)]
    return images.Writer(session).image()


def changed(kind: str, seed: int) -> tuple[bytes, str]:
    """An image with one bit or field changed, and what was changed."""
    rng, old = random.Random(f"{kind} {seed}"), session_image(seed // OWN)
    while True:
        data, what = drawn(rng, kind, bytearray(old), images.walked(old))
        if data != old:
            return data, what


def drawn(rng: random.Random, kind: str, data: bytearray, reader: images.Reader) -> tuple[bytes, str]:
    """An image with a bit or field drawn anew, and what that is."""
    if kind in ("inode map", "zone map"):
        first, most = (2, reader.inodes) if kind == "inode map" else (2 + reader.maps[0], reader.zones - reader.first)
        bit = rng.randint(1, most)
        data[BLOCK * first + bit // 8] ^= 1 << bit % 8
        return bytes(data), f"bit {bit} of the {kind}"
    inode = rng.choice(sorted({*reader.paths, *reader.listed_in}))
    at = BLOCK * reader.home(inode) + 32 * ((inode - 1) % 32)
    if kind == "links":
        data[at + 13] = rng.choice([data[at + 13] + 1, max(0, data[at + 13] - 1), 0, 255]) % 256
        return bytes(data), f"links {data[at + 13]} of inode {inode}"
    if kind == "sizes":
        old = struct.unpack_from("<I", data, at + 4)[0]
        size = rng.choice(
            [old + 1, max(0, old - 1), old + 32, max(0, old - 32), old ^ 1 << rng.randrange(28), 0, LARGEST + 1]
        )
        struct.pack_into("<I", data, at + 4, size)
        return (
            bytes(data),
            f"size {size} in place of {old} of inode {inode}, a {'directory' if inode in reader.listed_in else 'file'}",
        )
    inode = rng.choice(sorted(reader.listed_in))
    width, slot = calls.slot_bytes(reader.names), rng.choice([0, 1])
    at = BLOCK * reader.listed_in[inode][0][0] + width * slot
    if rng.random() < 0.5:
        number = rng.choice([0, 1, inode, 2, 3, reader.inodes, reader.inodes + 1])
        struct.pack_into("<H", data, at, number)
        return bytes(data), f"slot {slot} of directory {inode} leads to {number}"
    name = rng.choice([b"", b".", b"..", b"x", b"..."])
    data[at + 2 : at + width] = name.ljust(width - 2, b"\0")
    return bytes(data), f"slot {slot} of directory {inode} is named {name.decode() or 'nothing'}"


def said_by_fsck(path: pathlib.Path) -> tuple[bool, str]:
    """Whether fsck.minix finds nothing, and what it says."""
    done = subprocess.run(["fsck.minix", "-f", path], capture_output=True, check=False)
    said = (done.stdout + done.stderr).decode(errors="replace").split("\n")
    return done.returncode == 0, " / ".join(line for line in said if line and not line.startswith("Forcing"))
