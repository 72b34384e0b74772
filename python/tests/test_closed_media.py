"""The media of all schedules, and the rule of order, of lists that were worked out by hand."""
from conftest import Run

from barrierfs_tools.checks.closed_media import Sizes, compared

SIZES = Sizes(3, 2, 32, 32, 128)


def test_a_barrier() -> None:
    """The second put is there only with the first."""
    left, closed = compared(SIZES, ["put 0 01 barrier", "put 1 02 ordered"])
    assert left == closed == {("-", "-"), ("0", "-"), ("0", "1")}


def test_no_order() -> None:
    """A put that asks for no order may come last, and a flush brings all before it."""
    left, closed = compared(SIZES, ["put 0 01 free", "put 1 02 barrier"])
    assert left == closed == {("-", "-"), ("0", "-"), ("-", "1"), ("0", "1")}
    left, closed = compared(SIZES, ["put 0 01 free", "flush", "put 1 02 free"])
    assert left == closed == {("-", "-"), ("0", "-"), ("0", "2")}


def test_room() -> None:
    """Where the scheduler holds one request, the first put goes before the barrier, and so before what is behind it."""
    lines = ["put 0 01 free", "put 1 02 barrier", "put 1 03 ordered"]
    left, closed = compared(SIZES, lines)
    assert left == closed and ("-", "2") in closed
    left, closed = compared(SIZES._replace(room=1), lines)
    assert not left - closed and closed - left == {("-", "2")}


def test_the_command(tool: Run) -> None:
    """All lists of two puts to a block: (3 puts + a flush) squared."""
    done = tool("examples/outside/closed_media.py", 2, 1)
    assert done.returncode == 0 and done.stdout.startswith("16 lists with ")
    assert done.stdout.endswith(": 0 lists differ\n")
