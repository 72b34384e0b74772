"""Compares the usage that the launcher prints with the words that the program takes: the commands of both are the
same, in this order, with the same numbers behind them, and `--raw` is a word of those of which the launcher says so,
and of no others.

Ends with status 1 where they differ.
"""
from typing import NoReturn

from barrierfs_tools.checks.usage import compare
from barrierfs_tools.cli.tool import add_program, parser_of, program_of, run_tool
from barrierfs_tools.failed import Failed
from barrierfs_tools.paths import root
from barrierfs_tools.runs import child

EXAMPLE = "  tools/usage"


def work() -> None:
    """What the command does."""
    parser = parser_of("usage", __doc__, EXAMPLE)
    add_program(parser, stands_alone=True)
    program = program_of(parser.parse_args())
    done = child.run([root() / "barrierfs", "--help"])
    if done.status:
        raise Failed(f"barrierfs --help ends with status {done.status}")
    print(f"usage: the launcher shows the {compare(done.out.decode(), program)} commands of the program")


def main() -> NoReturn:
    """The command."""
    run_tool("usage", work)
