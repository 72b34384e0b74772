"""Draws six moments of the session of out-of-order.script: what waits, the cache, and the medium with its journal.

The program prints neither queues nor cache. So scheduler and device are those of the second program over
the rules of docs/FORMATS.md; they do the script's events on the eight requests that the host submits. At each moment
the program itself says what recovery finds where the power goes off there, and the script ends with status 1 where
that is not what the drawn medium has: the file with its page once all eight blocks are there, and nothing before.
"""
import sys
from typing import NoReturn

from barrierfs_tools.cli.tool import add_program, parser_of, program_of, run_tool
from barrierfs_tools.draw.frames import picture

EXAMPLE = "  examples/frames > docs/frames.svg"


def work() -> None:
    """What the command does."""
    parser = parser_of("frames", __doc__, EXAMPLE)
    add_program(parser, stands_alone=True)
    sys.stdout.write(picture(program_of(parser.parse_args())))


def main() -> NoReturn:
    """The command."""
    run_tool("frames", work)
