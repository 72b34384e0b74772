"""Writes rows of crates/program_tests/data that are too many or too long to write by hand: every script of examples/
beside its output (examples.txt), and scripts that differ in a number, beside what was worked out for them (long.txt).
"""
from typing import NoReturn

from barrierfs_tools.checks.example_rows import files
from barrierfs_tools.cli.tool import parser_of, run_tool

EXAMPLE = "  examples/rows --check"


def work() -> int:
    """What the command does."""
    parser = parser_of("rows", __doc__, EXAMPLE)
    text = "write nothing, and end with status 1 where they are other ones"
    parser.add_argument("--check", action="store_true", help=text)
    asked, wanted = parser.parse_args(), files()
    if asked.check:
        return int(any(path.read_text(encoding="utf-8") != text for path, text in wanted.items()))
    for path, text in wanted.items():
        path.write_text(text, encoding="utf-8")
    return 0


def main() -> NoReturn:
    """The command."""
    run_tool("rows", work)
