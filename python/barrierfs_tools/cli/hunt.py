"""Looks for a schedule and a power cut that break a claim: FILE has the calls of a volume script, without events, and behind a
line `claims` what must hold, whenever the power goes off (docs/FORMATS.md, Claims).

Schedules come by their seeds, from four strategies in rotation: rounds, ladders, priorities and drawn ones. What breaks a
claim is made as short as it gets, and played by the program; then this prints the claim, the script, what its events do, and
the tree.

With --complete no schedule is drawn: all orders of the host's own steps are gone through, and of each list of requests that it
submits all order-closed media. It ends in one of three: the claims hold for every schedule and power cut; a schedule that
breaks one; or where it gave up.

The status is 0 where nothing was found, 1 where a claim is broken, 2 where the file has a fault, and 3 where --complete gave up.
"""
import argparse
import sys
import time
from typing import NamedTuple, NoReturn

from barrierfs_tools.cli.explain import explained, joined, lines_of
from barrierfs_tools.cli.tool import add_jobs, add_program, parser_of, positive, program_of, run_tool
from barrierfs_tools.failed import Failed
from barrierfs_tools.hunt.complete import Explorer
from barrierfs_tools.hunt.reading import Asked, Wrong
from barrierfs_tools.hunt.search import confirmed, search
from barrierfs_tools.hunt.sessions import Broken, Named, Run, Start
from barrierfs_tools.hunt.shrink import Shrinker, without_calls
from barrierfs_tools.runs.program import text_of
from barrierfs_tools.runs.progress import Progress
from barrierfs_tools.runs.runner import Runner
from barrierfs_tools.scripts.reading import Script

EXAMPLE = """  tools/hunt examples/patterns/write-ahead.without-barrier.claims
  tools/hunt examples/patterns/write-ahead.claims --complete"""
MOST_SEEDS = 9_999
UPPER = "the elevator, a flash log and short queues may leave fewer media than the rule"


class Found(NamedTuple):
    """A schedule that breaks a claim: by what it was found, the claim, and the events by what they move."""

    by: str
    claim: str
    names: list[Named]


def seeds_of(word: str) -> tuple[int, int]:
    """The first and the last seed."""
    first, _, last = word.partition("-")
    if not first.isdecimal() or last and not last.isdecimal() or "-" in word and not last:
        raise argparse.ArgumentTypeError("wants N or FIRST-LAST")
    return int(first), int(last or first)


def searched(asked: argparse.Namespace, text: str, progress: Progress) -> Found | None:
    """What the strategies find. Says what was tried where they find nothing."""
    begun = time.monotonic()
    hit, counts = search(text, asked.seeds, asked.seconds, asked.jobs, progress.say)
    progress.end()
    tried = f"{counts.schedules} schedules, {counts.moments} moments, {len(counts.trees)} different trees"
    seconds = f"{time.monotonic() - begun:.1f} s"
    if hit is None:
        print(f"no claim was broken: {tried}; {seconds}")
        print("--complete looks at every schedule")
        return None
    return Found(f"found by {hit.strategy}, seed {hit.seed}, after {tried}; {seconds}", hit.claim, hit.names)


def completed(start: Start, seconds: float, progress: Progress) -> tuple[Found | None, int]:
    """What going through all finds, and the status where that is nothing."""
    asked, begun = start.asked, time.monotonic()
    if asked.outside():
        print(
            f"gave up: {' and '.join(f'`{line}`' for line in asked.outside())}: --complete has no failures and no limits"
        )
        return None, 3
    progress.say("goes through the host's orders")
    answer = Explorer(start, seconds).explored()
    progress.end()
    figures = f"{answer.figures()}; {time.monotonic() - begun:.1f} s"
    if answer.broken is not None:
        return Found(f"found by --complete: {figures}", answer.broken.claim.text, answer.broken.names), 1
    if answer.gave_up:
        print(f"gave up: {answer.gave_up}; no claim was broken by then: {figures}")
        return None, 3
    if answer.maybe is not None:
        print(
            f"gave up: the rule allows {answer.unrealised} media that break a claim, and no schedule was found for them"
        )
        print(f"  {answer.maybe.text}\n{UPPER}: {figures}")
        return None, 3
    print(f"holds for every schedule and cut: {figures}")
    return None, 0


def shown(start: Start, found: Found, program: str, jobs: int, leaves_calls: bool) -> None:
    """Makes a schedule short, and prints it."""
    shrinker, names = Shrinker(start, found.claim), found.names
    if leaves_calls:
        shrinker, names = without_calls(shrinker, names)
    start, events = shrinker.start, shrinker.lines(names)
    script = start.asked.script([*start.lines, *events])
    report = confirmed(start.asked, program, script, found.claim)
    print(f"broken: {found.claim}")
    print(f"{found.by}; {len(found.names)} events became {len(events)} lines\n")
    print(script)
    if report is None:
        raise Failed("the program does not break the claim by this script, as the model does: please report it")
    first = script.split("\n").index("events") + 1 + len(start.lines)
    with Runner(program, jobs, "hunt") as runner:
        moments, wrong, _ = explained(Script(script), runner, False)
    for line in lines_of(joined([moment for moment in moments if moment.number > first]), False):
        print(line)
    if wrong:
        print(wrong)
    print(f"\nthe program: broken: {found.claim}")
    print(report.text[report.text.index("\nfound ") + 1 :], end="")


def hunted(asked: argparse.Namespace) -> int:
    """What the command does."""
    text = text_of(asked.file)
    start, progress = Start(Asked(text)), Progress("hunt")
    program = program_of(asked)
    try:
        Run(start).look()
    except Broken as broken:
        raise Failed(f"{broken.claim.text}: this does not hold of what the set-up leaves") from None
    found, status = (
        completed(start, asked.seconds, progress) if asked.complete else (searched(asked, text, progress), 0)
    )
    if found is None:
        return status
    shown(start, found, program, asked.jobs, asked.shrink_calls)
    return 1


def work() -> int:
    """Reads the words, and does it."""
    parser = parser_of("hunt", __doc__, EXAMPLE)
    parser.add_argument("file", metavar="FILE", help="the calls and the claims")
    parser.add_argument("--complete", action="store_true", help="go through all schedules and power cuts")
    seconds = "end the search after so many seconds (default: 60, and 300 with --complete)"
    parser.add_argument("--seconds", metavar="N", type=positive, help=seconds)
    seeds = f"the schedules to try, FIRST-LAST (default: 0-{MOST_SEEDS})"
    parser.add_argument("--seeds", metavar="SEEDS", type=seeds_of, default=(0, MOST_SEEDS), help=seeds)
    leave = "leave out calls, too; what the rest means may be another thing than you meant"
    parser.add_argument("--shrink-calls", action="store_true", help=leave)
    add_jobs(parser, "processes")
    add_program(parser)
    asked = parser.parse_args()
    asked.seconds = asked.seconds or (300 if asked.complete else 60)
    try:
        return hunted(asked)
    except Wrong as wrong:
        print(f"hunt: {wrong}", file=sys.stderr)
        return 2


def main() -> NoReturn:
    """The command."""
    run_tool("hunt", work)
