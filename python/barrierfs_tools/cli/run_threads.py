"""Runs a volume script in threads, with the word `run`, so often, and checks each output by the rules of the second
program: each thread did its whole program, replies are those of a tree in the order of the printed lines, and the
tree at the end has what barrier and sync calls promised. Prints how many different outputs there were. Ends with
status 1 at the first that is wrong, and prints it.
"""
from typing import NoReturn

from barrierfs_tools.cli.tool import add_program, parser_of, positive, program_of, run_tool
from barrierfs_tools.model import threads
from barrierfs_tools.runs import child
from barrierfs_tools.runs.program import bytes_of, decoded, text_of

EXAMPLE = "  examples/runs examples/threads-differ.run 5"


def work() -> int:
    """What the command does."""
    parser = parser_of("runs", __doc__, EXAMPLE)
    parser.add_argument("script", metavar="SCRIPT", help="a volume script")
    parser.add_argument(
        "count", metavar="COUNT", nargs="?", type=positive, default=20, help="twenty times without this"
    )
    add_program(parser)
    asked = parser.parse_args()
    script, program = text_of(asked.script), program_of(asked)
    found: set[str] = set()
    for _ in range(asked.count):
        done = child.run([program, "run"], bytes_of(script))
        printed = decoded(done.err if done.status else done.out)
        why = threads.fault(script, printed)
        if why:
            print(f"{printed}\n{why}")
            return 1
        found.add(printed)
    print(f"{asked.count} runs with {len(found)} different outputs, each as it should be")
    return 0


def main() -> NoReturn:
    """The command."""
    run_tool("runs", work)
