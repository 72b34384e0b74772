"""Writes Minix V1 images to the folder that is given, and prints their names.

`journal-full` has a log of 16,384 blocks with every block of a file that is zeros without it. `volume-chain` is 20,000
directories, one in the other, whose text has some 400 MB.
"""
import pathlib
from typing import NoReturn

from barrierfs_tools.cli.tool import parser_of, run_tool
from barrierfs_tools.scripts.volumes import IMAGES

EXAMPLE = "  bench/images.py /tmp volume-mail"
USUAL = 4  # of the list, without a name


def work() -> None:
    """What the command does."""
    parser = parser_of("images.py", __doc__, EXAMPLE)
    parser.add_argument("folder", metavar="FOLDER", help="where they are written")
    names = f"of {', '.join(IMAGES)}; the first four without this, which are those of bench/run"
    parser.add_argument("names", metavar="NAME", nargs="*", help=names)
    asked = parser.parse_args()
    unknown = [name for name in asked.names if name not in IMAGES]
    if unknown:
        parser.error(f"there is no image {', '.join(unknown)}")
    for name in asked.names or list(IMAGES)[:USUAL]:
        IMAGES[name](str(pathlib.Path(asked.folder) / name))
        print(name)


def main() -> NoReturn:
    """The command."""
    run_tool("images.py", work)
