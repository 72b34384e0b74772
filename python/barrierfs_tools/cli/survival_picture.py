"""Draws the table of examples/survival as an SVG: what is there after a power cut at each device step.

A column is one run, with the power off after so many steps; a row is a call. The row of a write is coloured where
recovery finds its bytes, or newer ones of the same file; that of a barrier or sync call has a mark at the first column
where the program printed its answer `ok`. The last panel has three scripts that differ in one line, from the step on
after which their files are there; a frame is round each column in which the page is there and its record is not.
"""
import sys
from typing import NoReturn

from barrierfs_tools.cli.tool import parser_of, run_tool
from barrierfs_tools.draw.survival_picture import picture
from barrierfs_tools.runs.program import text_of

EXAMPLE = "  bench/survival_picture.py examples/survival.table > docs/survival.svg"


def work() -> None:
    """What the command does."""
    parser = parser_of("survival_picture.py", __doc__, EXAMPLE)
    parser.add_argument("table", metavar="TABLE", help="what examples/survival printed, as examples/survival.table")
    sys.stdout.write(picture(text_of(parser.parse_args().table)))


def main() -> NoReturn:
    """The command."""
    run_tool("survival_picture.py", work)
