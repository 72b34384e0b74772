"""Cuts the power of five sessions at each of their device steps, prints what recovery finds, and checks the promise.

A line of the table is one run, with the power off after so many device steps. It has the number of calls that were
answered `ok`, the transactions that were found, and the version of each file: the byte that it was written with, `made`
for a file or directory without bytes, and `-` where it is not there.

What is checked of each line, from what the program printed alone:

- the calls that were answered `ok` are the first ones of the thread, and each file has one whole version;
- the files and directories are the first ones that were made;
- where a sync call was answered `ok`, all that it covers is there, or something newer in its place;
- where a barrier call was answered `ok`, so is what it covers, once anything is there that was done after the call;
- attempts of recovery that are cut change nothing of what is printed;
- in order-kept and order-synced the page is never newer than the record; in order-lost it is, at some step.

A call covers what was written before to its file, and all but `fdatabarrier` and `fdatasync` cover what was made
before; `sync` covers all. The script ends with status 1 and says where, if one of these is not so.
"""
import sys
from typing import NoReturn

from barrierfs_tools.checks.survival import NAMES, Session, script_of
from barrierfs_tools.cli.tool import add_jobs, add_program, parser_of, program_of, run_tool
from barrierfs_tools.runs.runner import Runner

EXAMPLE = """  examples/survival > examples/survival.table
  examples/survival --script order-lost"""


def work() -> None:
    """What the command does."""
    parser = parser_of("survival", __doc__, EXAMPLE)
    text = (
        f"print one of the scripts, without its line `cut`: {', '.join(NAMES)}; the last three are those of examples/"
    )
    parser.add_argument("--script", metavar="SESSION", choices=NAMES, help=text)
    add_jobs(parser)
    add_program(parser, stands_alone=True)
    asked = parser.parse_args()
    if asked.script:
        sys.stdout.write(script_of(asked.script))
        return
    with Runner(program_of(asked), asked.jobs, "survival") as runner:
        for at, name in enumerate(NAMES):
            print(("\n" if at else "") + f"session {name}")
            for line in Session(script_of(name)).table(name, runner):
                print(line, flush=True)


def main() -> NoReturn:
    """The command."""
    run_tool("survival", work)
