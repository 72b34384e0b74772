"""Measures the program over sizes of input and draws time over size, both by powers of ten, as an SVG.

A line that runs beside the dashed ones is linear; one that is twice as steep is quadratic. Each point is the least of
five runs, less the time that the program takes for the smallest script there is.
"""
import pathlib
import tempfile
from collections.abc import Callable, Iterator
from typing import NoReturn

from barrierfs_tools.cli.tool import parser_of, run_tool
from barrierfs_tools.draw.scaling import Chart, Row, picture
from barrierfs_tools.failed import Failed
from barrierfs_tools.runs.measure import measured
from barrierfs_tools.scripts import volumes, workloads

EXAMPLE = '  bench/picture.py "$(./barrierfs --program)" docs/scaling.svg'
SIZES = (10, 100, 1000, 10000)
MEGABYTES = (1, 8, 64)
RUNS, LEAST = 5, 1e-5  # of each point, and the least time that is drawn


def least(program: str, word: str, path: pathlib.Path) -> float:
    """The least wall time of five runs, in seconds."""
    runs = [measured([program, word], str(path)) for _ in range(RUNS)]
    for run in runs:
        if run.status:
            raise Failed(f"{path.name} ended with status {run.status}")
    return min(run.seconds for run in runs)


def script_rows(program: str, folder: pathlib.Path, floor: float) -> Iterator[Row]:
    """Time over the number of requests, for each kind of script."""
    elevator = ("elevator",)

    def ordered(number: int) -> str:
        return workloads.put(number, "ordered")

    def epochs(number: int) -> str:
        return workloads.put(number, "barrier" if number % 10 == 9 else "ordered")

    kinds: list[tuple[str, Callable[[int], tuple[str, str]]]] = [
        ("device, ten puts an epoch", lambda count: workloads.device("a", epochs, count)),
        ("device, one epoch", lambda count: workloads.device("b", ordered, count)),
        ("blocks, one epoch", lambda count: workloads.scheduled("c", ordered, 32, (), count)),
        ("elevator, one epoch", lambda count: workloads.scheduled("d", ordered, 32, elevator, count)),
    ]
    path = folder / "case.script"
    for label, make in kinds:
        points: list[tuple[float, float]] = []
        for size in SIZES:
            path.write_text(make(size)[1], encoding="utf-8")
            points.append((size, max(least(program, "replay", path) - floor, LEAST)))
        yield label, points


def image_rows(program: str, folder: pathlib.Path, floor: float) -> Iterator[Row]:
    """Time over the megabytes of an image whose files fill most of it."""
    points: list[tuple[float, float]] = []
    path = folder / "case.minix"
    for size in MEGABYTES:
        volumes.full(str(path), 1024 * size - 1)
        points.append((size, max(least(program, "show", path) - floor, LEAST)))
    yield "show of an image of full files", points


def work() -> None:
    """What the command does."""
    parser = parser_of("picture.py", __doc__, EXAMPLE)
    parser.add_argument("program", metavar="PROGRAM")
    parser.add_argument("out", metavar="OUT.svg", help="bench/run calls it with docs/scaling.svg")
    asked = parser.parse_args()
    with tempfile.TemporaryDirectory() as name:
        folder = pathlib.Path(name)
        smallest = folder / "smallest.script"
        smallest.write_text("device 1\nevents\n", encoding="utf-8")
        floor = least(asked.program, "replay", smallest)
        rows = script_rows(asked.program, folder, floor)
        charts = [
            Chart(70, 50, "Scripts: time over requests", "requests", rows),
            Chart(540, 50, "Images: time over size", "megabytes", image_rows(asked.program, folder, floor)),
        ]
    pathlib.Path(asked.out).write_text(picture(charts), encoding="utf-8")


def main() -> NoReturn:
    """The command."""
    run_tool("picture.py", work)
