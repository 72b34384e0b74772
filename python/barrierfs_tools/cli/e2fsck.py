"""Lets `debugfs` write journals, with tags of 64 bits or of 32, and compares what `show` recovers of each with what
`e2fsck` replays. By hand; wants e2fsprogs.

A journal is written into an ext4 image: some transactions with bodies and revokes, among them bodies that begin with
the journal's magic number. Half of the logs are turned so that they run over the journal's end. `e2fsck` replays that
image. The same journal then stands behind a Minix volume whose one file has the blocks that the journal writes, and
`show` prints them once it has recovered the image.
"""
import pathlib
import random
import struct
import tempfile
from typing import NoReturn

from barrierfs_tools.checks.e2fsck import (
    COUNT,
    FIRST,
    journal_of,
    minix,
    put_journal,
    replayed,
    shown,
    turned,
    write_journal,
)
from barrierfs_tools.cli.tool import add_program, parser_of, positive, program_of, run_tool
from barrierfs_tools.model.grammar import BLOCK

EXAMPLE = "  examples/outside/e2fsck 5"


def compared(program: str, seed: int) -> bool:
    """Compares one journal, and says whether both make the same of it."""
    rng = random.Random(seed)
    bits = rng.choice([64, 64, 32])
    with tempfile.TemporaryDirectory() as folder:
        image = pathlib.Path(folder) / "image"
        write_journal(rng, image, bits)
        journal, places = journal_of(image)
        journal = turned(rng, journal)
        put_journal(image, journal, places)
        before = image.read_bytes()[BLOCK * FIRST : BLOCK * (FIRST + COUNT)]
        wanted, found = replayed(image), shown(program, minix(before, journal))
    changed = sum(wanted[at : at + BLOCK] != before[at : at + BLOCK] for at in range(0, len(wanted), BLOCK))
    start = struct.unpack(">I", journal[0x1C:0x20])[0]
    what = "same" if found == wanted else "DIFFERENT"
    print(f"seed {seed}: tags of {bits} bits, log from block {start}, {changed} blocks changed: {what}")
    return found == wanted


def work() -> int:
    """What the command does."""
    parser = parser_of("e2fsck", __doc__, EXAMPLE)
    text = "journals; 20 without this"
    parser.add_argument("count", nargs="?", type=positive, default=20, metavar="COUNT", help=text)
    add_program(parser)
    asked = parser.parse_args()
    program = program_of(asked)
    return 0 if all(compared(program, seed) for seed in range(asked.count)) else 1


def main() -> NoReturn:
    """The command."""
    run_tool("e2fsck", work)
