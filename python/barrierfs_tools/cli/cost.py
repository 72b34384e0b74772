"""Prints the table of README: what twenty overwrites cost with each barrier and sync call, in device steps and flushes.

Each thread writes over one block of its own file twenty times, with the call after each write. Thread, host,
scheduler and device take a step each in turn (`round`) until all is on the medium. What it takes to make the files is
left out. A put takes two steps, a transfer and a persist, and a flush takes one; so the flushes are twice the
requests less the steps.
"""
from typing import NoReturn

from barrierfs_tools.cli.tool import add_program, parser_of, program_of, run_tool
from barrierfs_tools.failed import Failed
from barrierfs_tools.runs.program import replay
from barrierfs_tools.scripts.reading import Report, Script

EXAMPLE = '  bench/cost.py "$(./barrierfs --unproved --program)"'
WRITES, THREADS = 20, (1, 8)
CALLS = (None, "fdatabarrier", "fbarrier", "fdatasync", "fsync", "sync")


def script(threads: int, word: str | None) -> str:
    """Threads that write over their files, with this call behind each write."""
    lines = ["volume inodes 64 zones 512 journal 1024", "limit 200000"]
    for thread in range(1, threads + 1):
        lines += [f"thread {thread}", f"create /f{thread}", f"write /f{thread} 0 1024 ff"]
        lines += ["sync"] if thread == 1 else []
        for version in range(WRITES):
            lines.append(f"write /f{thread} 0 1024 {version:02x}")
            lines += [word if word == "sync" else f"{word} /f{thread}"] if word else []
    # All files are made. The sync call begins, sends a page of each, waits until all is on the medium, and is answered.
    lines += ["events", *(f"call {thread} x 2" for thread in range(1, threads + 1))]
    return "\n".join([*lines, f"call 1 x {threads + 5}", "back 500", "call 1"]) + "\n"


def cost(program: str, threads: int, word: str | None) -> tuple[float, float]:
    """Device steps and flushes of the overwrites, for each thread."""
    text = script(threads, word)
    before = Report(replay(program, text), Script(text))
    # With no call, the write-back sends what is left.
    end = text + ("round 4000\n" if word else "round 20\nwrite 0 x 20\n") + "back 2000\n"
    after = Report(replay(program, end), Script(end))
    later = end + "back 2000\n"
    is_done = all(stand.answered == stand.calls for stand in after.threads)
    if not is_done or after.found != after.closed or Report(replay(program, later), Script(later)).steps != after.steps:
        raise Failed("something is not on the medium")
    steps, requests = after.steps - before.steps, after.requests - before.requests
    return steps / threads, (2 * requests - steps) / threads


def figure(value: float) -> str:
    """A figure of the table."""
    return f"{value:.1f}".removesuffix(".0")


def work() -> None:
    """What the command does."""
    parser = parser_of("cost.py", __doc__, EXAMPLE)
    add_program(parser, stands_alone=True)
    program = program_of(parser.parse_args())
    print("| after each write | alone: steps | flushes | one of eight threads: steps | flushes |")
    print("|---|---|---|---|---|")
    for word in CALLS:
        cells = [figure(value) for threads in THREADS for value in cost(program, threads, word)]
        print(f"| {f'`{word}`' if word else 'nothing'} | {' | '.join(cells)} |", flush=True)


def main() -> NoReturn:
    """The command."""
    run_tool("cost.py", work)
