"""Runs a program with its words on an input, and prints its wall time in seconds and its peak memory in MB.
"""
import argparse
import pathlib
from typing import NoReturn

from barrierfs_tools.cli.tool import parser_of, run_tool
from barrierfs_tools.failed import Failed
from barrierfs_tools.runs.measure import measured

EXAMPLE = '  bench/measure.py "$(./barrierfs --unproved --program)" examples/flag-moves.script replay'


def work() -> None:
    """What the command does."""
    parser = parser_of("measure.py", __doc__, EXAMPLE)
    parser.add_argument("program", metavar="PROGRAM")
    parser.add_argument("input", metavar="INPUT", help="the file that it reads")
    parser.add_argument("words", metavar="WORD", nargs=argparse.REMAINDER, help="the words for the program")
    asked = parser.parse_args()
    found = measured([asked.program, *asked.words], asked.input)
    if found.status:
        raise Failed(f"{pathlib.Path(asked.input).name} ended with status {found.status}")
    print(f"{found.seconds:.3f} {found.peak:.0f}")


def main() -> NoReturn:
    """The command."""
    run_tool("measure.py", work)
