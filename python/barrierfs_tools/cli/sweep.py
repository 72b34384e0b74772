"""Cuts the power of a script at each step of its device, and prints one row for each different outcome.

A row has the range of cuts that end so, and what is then left; `end` is the run whose power goes off after the last
event. Of a volume script:

  answered   the calls that were answered otherwise than by `down`
  found      the transactions that recovery finds
  flushes    the flushes that the host had submitted before the power went off
  PATH       what the file holds: its bytes as runs, so 1024xaa+3x00 is 1,024 bytes aa and three of 00; `hole` where no
             block is mapped, `empty` for a file of no bytes, `dir` for a directory, `-` where it is not there

Of a script of block requests: the byte that each block holds and, in brackets, the request that wrote it; blocks that
no request reaches are left out. (There is no column of flushes then: no host waits for them.)

The script's own line `cut` is replaced; its attempts of recovery stay. All of this is what the program prints, but for
the flushes: the report counts requests and does not tell flushes from puts. So where the script makes sync calls, the
script is run up to each event `flush` whose neighbours differ in the number of requests; where that event makes the
number grow, it submitted a flush. Without a sync call no flush is due, and none is looked for.

With --against two scripts stand side by side, cut by cut. The mark between them is `!` where the files differ, `~`
where only the counts do, and blank where all is the same; what differs in the second script has a `*`.
"""
import itertools
import json
import pathlib
import sys
from collections.abc import Iterable, Iterator, Sequence
from typing import Any, NoReturn, TypeVar

from barrierfs_tools.cli.tool import add_jobs, add_program, parser_of, program_of, run_tool
from barrierfs_tools.draw import sweep_picture
from barrierfs_tools.failed import Failed
from barrierfs_tools.runs.program import text_of
from barrierfs_tools.runs.runner import Runner
from barrierfs_tools.runs.sweeps import Sweep

EXAMPLE = """  tools/sweep examples/write-ahead.script
  tools/sweep examples/database-barrier.script --svg /tmp/barrier.svg"""
Item = TypeVar("Item")
WIDEST = 160  # columns of a table; a wider one is printed as changes
WIDEST_CELL = 32


def ranges(rows: Iterable[Item]) -> Iterator[tuple[int, int, Item]]:
    """The spans of equal rows that follow one another: first, last and row."""
    for row, group in itertools.groupby(enumerate(rows), key=lambda pair: pair[1]):
        places = [at for at, _ in group]
        yield places[0], places[-1], row


def span(first: int, last: int, end: int) -> str:
    """The cuts from first to last; `end` is the place after the last cut."""
    names = ["end" if at == end else str(at) for at in (first, last)]
    return names[0] if first == last else "-".join(names)


def shorten(cell: str) -> str:
    """As much of a cell as a table shows."""
    return cell if len(cell) <= WIDEST_CELL else cell[: WIDEST_CELL - 2] + ".."


def grid(rows: list[list[str]], right: Iterable[int]) -> Iterator[str]:
    """Rows of cells as lines; the columns with these numbers are set to the right."""
    known = set(right)
    widths = [max(len(row[at]) for row in rows) for at in range(len(rows[0]))]
    for row in rows:
        cells = (f"{cell:{'>' if at in known else '<'}{width}}" for at, (cell, width) in enumerate(zip(row, widths)))
        yield "  ".join(cells).rstrip()


def title(sweep: Sweep) -> str:
    """What stands above a table."""
    calls = f", {sweep.calls} calls" if sweep.script.is_volume else ""
    return f"{sweep.name}: {sweep.steps} steps{calls}"


def table(sweep: Sweep) -> Iterator[str]:
    """The lines for one script."""
    counts, paths = sweep.counts(), sweep.paths()
    found = list(ranges(sweep.cells(cut) for cut in range(sweep.steps + 2)))
    head = ["cut", *counts, *paths]
    rows = [[span(low, high, sweep.steps + 1), *numbers, *map(shorten, cells)] for low, high, (numbers, cells) in found]
    right = range(1, len(counts) + 1)
    lines = list(grid([head, *rows], right))
    yield title(sweep)
    if max(map(len, lines)) <= WIDEST:
        yield from lines
        return
    before = ["-"] * len(paths) if sweep.script.is_volume else None
    narrow = list(grid([row[: len(counts) + 1] for row in [head, *rows]], right))
    yield narrow[0] + "  then what changed"
    for line, (_, _, (_, cells)) in zip(narrow[1:], found):
        yield line
        for path, old, new in zip(paths, before or cells, cells):
            if old != new:
                yield f"    {path} {new}"
        before = cells


def both(first: Sweep, second: Sweep) -> Iterator[str]:
    """The lines for two scripts, side by side."""
    steps = max(first.steps, second.steps)
    paths = sorted({*first.paths(), *second.paths()}, key=order)
    head = [*first.counts(), *paths]
    found: list[list[str]] = []  # what differs in each row
    yield f"A: {title(first)}"
    yield f"B: {title(second)}"
    rows = [["cut", *(f"A {name}" for name in head), " ", *(f"B {name}" for name in head)]]
    for low, high, (left, right) in ranges(pair_at(first, second, paths, cut) for cut in range(steps + 2)):
        mark = "!" if left[1] != right[1] else "~" if left[0] != right[0] else " "
        known = zip([*left[0], *left[1]], [*right[0], *right[1]])
        marked = [f"{shorten(b)}{'' if a == b else ' *'}" for a, b in known]
        rows.append([span(low, high, steps + 1), *left[0], *map(shorten, left[1]), mark, *marked])
        found.append([f"    {path}  A {a}  B {b}" for path, a, b in zip(paths, left[1], right[1]) if a != b])
    lines = list(grid(rows, []))
    if max(map(len, lines)) > WIDEST:
        few, wide = len(first.counts()) + 1, len(paths)
        lines = list(grid([[*row[:few], row[few + wide], *row[few + wide + 1 :][: few - 1]] for row in rows], []))
        for at, differing in reversed(list(enumerate(found, 1))):
            lines[at + 1 : at + 1] = differing
    yield from lines
    what = "files differ   ~ only the counts do" if first.script.is_volume else "blocks differ"
    yield f"! the {what}   * another than in A"


def order(path: str) -> tuple[int, int, str]:
    """The order of columns."""
    return (0, int(path[6:]), "") if path.startswith("block ") else (1, 0, path)


Side = tuple[list[str], list[str]]  # the counts of a script, and its contents


def pair_at(first: Sweep, second: Sweep, paths: list[str], cut: int) -> tuple[Side, Side]:
    """What both scripts leave after so many steps."""
    return side_at(first, paths, cut), side_at(second, paths, cut)


def side_at(sweep: Sweep, paths: list[str], cut: int) -> Side:
    """What a script leaves after so many steps."""
    outcome = sweep.at(cut)
    counts = [str(outcome.counts[count]) for count in sweep.counts()]
    return counts, [sweep.cell(outcome, path) for path in paths]


def as_json(sweep: Sweep) -> dict[str, Any]:
    """A script with all that is left, for programs."""
    rows: list[dict[str, Any]] = []
    for first, last, left in ranges(sweep.outcomes):
        row: dict[str, Any] = {"first": first, "last": last, "to_the_end": last == sweep.steps + 1}
        if sweep.script.is_volume:
            rows.append(row | left.counts | {"files": left.files})
        else:
            rows.append(row | {"blocks": left.blocks})
    return {
        "script": sweep.name,
        "steps": sweep.steps,
        "calls": sweep.calls,
        "flushes_after_steps": sweep.flushes,
        "rows": rows,
    }


def panels(shown: Sequence[Sweep]) -> Iterator[tuple[str, list[sweep_picture.Lane]]]:
    """What a picture shows of each script: its title, its counts and contents, each as spans of cuts."""
    for sweep in shown:
        rows = [sweep.cells(cut) for cut in range(max(each.steps for each in shown) + 2)]
        lanes: list[sweep_picture.Lane] = []
        for at, name in enumerate(sweep.counts()):
            lanes.append((name, "count", list(ranges(counts[at] for counts, _ in rows))))
        for at, name in enumerate(sweep.paths()):
            lanes.append((name, "content", list(ranges(contents[at] for _, contents in rows))))
        yield title(sweep), lanes


def work() -> None:
    """What the command does."""
    parser = parser_of("sweep", __doc__, EXAMPLE)
    parser.add_argument("script", metavar="SCRIPT", help="a script of block requests or of file calls")
    parser.add_argument("--against", metavar="OTHER", help="a second script of the same kind, shown beside the first")
    text = "draw it to this file as well; - for standard output, in place of the table"
    parser.add_argument("--svg", metavar="FILE", help=text)
    parser.add_argument("--json", action="store_true", help="print it for programs, and no table")
    add_jobs(parser)
    add_program(parser)
    asked = parser.parse_args()
    with Runner(program_of(asked), asked.jobs, "sweep") as runner:
        sweeps = [Sweep(path, text_of(path), runner) for path in (asked.script, asked.against) if path]
    if len({sweep.script.is_volume for sweep in sweeps}) > 1:
        raise Failed("one is a script of file calls, and the other of block requests")
    if asked.svg:
        drawn = sweep_picture.draw(list(panels(sweeps)))
        if asked.svg == "-":
            sys.stdout.write(drawn)
        else:
            pathlib.Path(asked.svg).write_text(drawn, encoding="utf-8")
    if asked.json:
        json.dump([as_json(sweep) for sweep in sweeps], sys.stdout, indent=1)
        print()
    elif asked.svg != "-":
        print("\n".join(both(sweeps[0], sweeps[1]) if asked.against else table(sweeps[0])))


def main() -> NoReturn:
    """The command."""
    run_tool("sweep", work)
