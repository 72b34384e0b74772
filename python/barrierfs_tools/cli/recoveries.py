"""Stops the recovery of a script's session after each number of its steps, and a second one after each number of its
own, and compares what is printed with what it prints where no recovery is stopped: it has to be the same.

Each script is tried with both schedulers and on both devices. Its own attempts of recovery are left out. Without a
script there are two: one of a single `fsync`, and one whose log comes round, with the power cut at three places. How
many steps a recovery has is counted by the second program; attempts of drawn places, by a seed, come besides.
"""
import random
from typing import NoReturn

from barrierfs_tools.checks.recoveries import Recoveries, attempts, sessions, variants
from barrierfs_tools.cli.tool import add_jobs, add_program, parser_of, program_of, run_tool
from barrierfs_tools.runs.runner import Runner

EXAMPLE = """  tools/recoveries
  tools/recoveries examples/mail-fsync.script"""
SHOWN = 3  # attempts that are printed of a session


def tried(runner: Runner, name: str, variant: str, script: str) -> int:
    """Tries the recoveries of a session, and gives how many of them print something else."""
    wanted, steps = runner.one(script), Recoveries(script).steps()
    lines = list(attempts(steps, random.Random(name)))
    printed = runner.all(script + line for line in lines)
    bad = [line for line, found in zip(lines, printed) if found != wanted]
    print(f"{name}, {variant}: {steps} steps of recovery, {len(lines)} runs, {len(bad)} other reports", flush=True)
    for line in bad[:SHOWN]:
        print(f"\n{script}{line}")
    return len(bad)


def work() -> int:
    """What the command does."""
    parser = parser_of("recoveries", __doc__, EXAMPLE)
    parser.add_argument("scripts", nargs="*", metavar="SCRIPT", help="a volume script, in place of the two")
    add_jobs(parser)
    add_program(parser)
    asked = parser.parse_args()
    broken = 0
    with Runner(program_of(asked), asked.jobs, "recoveries") as runner:
        for name, text in sessions(asked.scripts):
            for variant, script in variants(text):
                broken += tried(runner, name, variant, script)
    return 1 if broken else 0


def main() -> NoReturn:
    """The command."""
    run_tool("recoveries", work)
