"""Compares `check` with `fsck.minix -f` on images of which one bit or field was changed, by a seed: of the two maps,
of links, of dots and of sizes. Prints a table of how both answered, by the kind of change, with what each said where
they differ; ends with status 1 where `check` says something else than the second program. By hand; wants fsck.minix
(Debian package util-linux-extra).
"""
import collections
import pathlib
import tempfile
from typing import NoReturn

from barrierfs_tools.checks.fsck_table import KINDS, changed, said_by_fsck
from barrierfs_tools.cli.tool import add_program, parser_of, positive, program_of, run_tool
from barrierfs_tools.failed import Failed
from barrierfs_tools.model import clean
from barrierfs_tools.model.grammar import STATUSES
from barrierfs_tools.runs import child

EXAMPLE = """  examples/outside/fsck_table 20 --all
  examples/outside/fsck_table 20 --second"""
HEAD = f"{'change':10} {'both clean':>10} {'both not':>9} {'check alone':>12} {'fsck alone':>11}"


def said_by_program(program: str, data: bytes) -> str:
    """What `check` says of an image."""
    done = child.run([program, "check"], data)
    if done.status == STATUSES["bad words"]:
        raise Failed("this program has no check")
    return (done.err if done.status else done.out).decode()


def row(kind: str, count: int, program: str | None, shows_all: bool) -> int:
    """Prints the row of a kind of change, and gives on how many images `check` and the second program differ."""
    counts, wrong = collections.Counter[tuple[bool, bool]](), 0
    differing: list[str] = []
    with tempfile.TemporaryDirectory() as folder:
        path = pathlib.Path(folder) / "image"
        for seed in range(count):
            data, what = changed(kind, seed)
            path.write_bytes(data)
            wanted = clean.report(data)
            ours = said_by_program(program, data) if program else wanted
            if ours != wanted:
                wrong += 1
                print(
                    f"{kind}, image {seed}, {what}: check says {ours.strip()}, and the second program {wanted.strip()}"
                )
            theirs, said = said_by_fsck(path)
            is_clean = ours == "clean\n"
            counts[is_clean, theirs] += 1
            if is_clean != theirs:
                differing.append(
                    f"    {seed}: {what}\n        check: {ours.strip()}\n        fsck: {said or 'nothing'}\n"
                )
    both = f"{counts[True, True]:10} {counts[False, False]:9}"
    print(f"{kind:10} {both} {counts[False, True]:12} {counts[True, False]:11}", flush=True)
    if shows_all:
        print("".join(differing), end="")
    return wrong


def work() -> int:
    """What the command does."""
    parser = parser_of("fsck_table", __doc__, EXAMPLE)
    count = "images of each kind of change; 100 without this"
    parser.add_argument("count", nargs="?", type=positive, default=100, metavar="COUNT", help=count)
    parser.add_argument(
        "--all", action="store_true", help="list each image on which the two differ, with what both say"
    )
    second = "take what the second program says for that of `check`"
    parser.add_argument("--second", action="store_true", help=second)
    add_program(parser)
    asked = parser.parse_args()
    program = None if asked.second else program_of(asked)
    print(HEAD)
    return 1 if sum(row(kind, asked.count, program, asked.all) for kind in KINDS) else 0


def main() -> NoReturn:
    """The command."""
    run_tool("fsck_table", work)
