"""Fills a directory to its last slot, by hand: random scripts do not get there. The replies were worked out from the
format: a directory has 519 blocks of 64 slots, so 33,216, of which `.` and `..` have two, and 16 bytes for each;
where names have up to 30 bytes, 519 blocks of 32 slots, so 16,608, and 32 bytes for each.

Some ten seconds; ends with status 1 where a reply is another one.
"""
from typing import NoReturn

from barrierfs_tools.checks.full_directory import KINDS, replies, script
from barrierfs_tools.cli.tool import add_program, parser_of, program_of, run_tool
from barrierfs_tools.failed import Failed
from barrierfs_tools.runs.program import replay

EXAMPLE = "  examples/outside/full_directory"


def work() -> None:
    """What the command does."""
    parser = parser_of("full_directory", __doc__, EXAMPLE)
    add_program(parser, stands_alone=True)
    program = program_of(parser.parse_args())
    for ending, (names, last, size) in KINDS.items():
        printed = replay(program, script(ending, names, last))
        wanted = replies(last, size)
        found: dict[str, list[str]] = {line: [] for line in wanted}
        for answer in printed.split("\n"):
            line, _, reply = answer.partition(" ")[2].rpartition(": ")
            if line in found:
                found[line].append(reply)
        for line, told in wanted.items():
            if found[line] != told:
                raise Failed(f"{line}{ending}: {found[line]} and not {told}")
    print("a full directory answers as it should")


def main() -> NoReturn:
    """The command."""
    run_tool("full_directory", work)
