"""Makes the second program wrong in one rule at a time, and counts the random scripts until the program prints
something else.

So it tells what the random scripts would see of a rule that definition and code have wrong together: the second
program then has it right. Each wrong rule, a twin, is in barrierfs_tools/checks/twin_list.py; it is done on a copy in
memory. For each twin its kind of scripts is run in the order of their seeds. The second program without a change has
to agree with the program on each of them.

Ends with status 1 where 5,000 scripts do not see a twin of which the list does not say what does, or where the second
program without a change differs.
"""
from typing import NoReturn

from barrierfs_tools.checks.twin_list import TWINS
from barrierfs_tools.checks.twins import MOST, Found, changed, run, table
from barrierfs_tools.cli.tool import add_jobs, add_program, parser_of, positive, program_of, run_tool
from barrierfs_tools.failed import Failed
from barrierfs_tools.runs.pool import workers
from barrierfs_tools.scripts import cases

EXAMPLE = "  examples/outside/twins write-shrinks held-127 --most 200"


def work() -> int:
    """What the command does."""
    parser = parser_of("twins", __doc__, EXAMPLE)
    parser.add_argument("names", nargs="*", metavar="NAME", help="only these twins, or those of these groups")
    text = "inputs for each twin; 5000 without this"
    parser.add_argument("--most", type=positive, default=MOST, metavar="N", help=text)
    add_jobs(parser, "processes")
    add_program(parser)
    asked = parser.parse_args()
    unknown = set(asked.names) - {twin.name for twin in TWINS} - {twin.group for twin in TWINS}
    if unknown:
        raise Failed(f"there is no twin {', '.join(sorted(unknown))}")
    twins = [twin for twin in TWINS if not asked.names or {twin.name, twin.group} & {*asked.names}]
    for twin in twins:
        changed(twin)
    program = program_of(asked)
    found: Found = {}
    with workers(asked.jobs) as pool:
        for kind in cases.CASES:
            names = [twin.name for twin in twins if twin.kind == kind]
            found |= run(pool, program, kind, names, asked.most)
    return 0 if table(twins, found, asked.most) else 1


def main() -> NoReturn:
    """The command."""
    run_tool("twins", work)
