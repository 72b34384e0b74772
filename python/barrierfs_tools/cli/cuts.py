"""Cuts the power of one small session at each of its first thousand device steps, one run after the other, and prints
the wall time of all runs in seconds and the peak memory in MB.
"""
import resource
import time
from typing import NoReturn

from barrierfs_tools.cli.tool import add_program, parser_of, program_of, run_tool
from barrierfs_tools.runs.program import replay
from barrierfs_tools.scripts.workloads import synced

EXAMPLE = '  bench/cuts.py "$(./barrierfs --unproved --program)"'
CUTS, FILES = 1000, 100
KILO = 1024


def work() -> None:
    """What the command does."""
    parser = parser_of("cuts.py", __doc__, EXAMPLE)
    add_program(parser, stands_alone=True)
    program = program_of(parser.parse_args())
    scripts = [synced(FILES, cut) for cut in range(CUTS)]
    start = time.monotonic()
    for script in scripts:
        replay(program, script)
    seconds = time.monotonic() - start
    peak = resource.getrusage(resource.RUSAGE_CHILDREN).ru_maxrss / KILO
    print(f"{seconds:.3f} {peak:.0f}")


def main() -> NoReturn:
    """The command."""
    run_tool("cuts.py", work)
