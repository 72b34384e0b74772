"""Plays the rows of crates/program_tests/data with the second program, and tells each of which it says something else.

It plays `replay`, `show`, `check` and `kv`, and of `run` what is refused; the other rows are passed over, and so is a
row over an image of which it does not know the bytes. Ends with status 1 where a row differs.
"""
from typing import NoReturn

from barrierfs_tools.checks.rows import play, row_files
from barrierfs_tools.cli.tool import parser_of, run_tool

EXAMPLE = "  examples/outside/rows calls.txt trees.txt"


def work() -> int:
    """What the command does."""
    parser = parser_of("rows", __doc__, EXAMPLE)
    known = {path.name: path for path in row_files()}
    parser.add_argument("names", nargs="*", metavar="NAME", help="only the rows of these files")
    asked = parser.parse_args()
    unknown = [name for name in asked.names if name not in known]
    if unknown:
        parser.error(f"there is no file of rows {', '.join(unknown)}")
    worst = 0
    for name in asked.names or known:
        played, wrong = play(known[name])
        print(f"{name}: {played} rows played, {wrong} differ")
        worst = max(worst, wrong)
    return min(worst, 1)


def main() -> NoReturn:
    """The command."""
    run_tool("rows", work)
