"""The launcher's usage against the words of a program, which is made up here, but for one that is the real one."""
import pathlib

import pytest
from conftest import Run

from barrierfs_tools.checks.usage import Command, compare, of_launcher
from barrierfs_tools.failed import Failed

USAGE = """usage: barrierfs replay [--raw] < SCRIPT     does it
       barrierfs bulk N           writes so much
       barrierfs --program        says where it is

Whatever comes behind.
"""
# Words as clap tells them: without one, with too many, and `--raw`.
PROGRAM = """#!/bin/sh
case "$#:$1:$2" in
0::) echo "  [subcommands: replay, bulk]" ;;
2:replay:--raw) exit 0 ;;
*:replay:*) echo "Usage: barrierfs replay [OPTIONS]" ;;
*:bulk:*) echo "Usage: barrierfs bulk <N>" ;;
esac >&2
exit 2
"""


@pytest.fixture
def made(tmp_path: pathlib.Path) -> str:
    """A program that takes these words."""
    path = tmp_path / "program"
    path.write_text(PROGRAM, encoding="utf-8")
    path.chmod(0o755)
    return str(path)


def test_the_same_words(made: str) -> None:
    """Two commands, by hand."""
    assert of_launcher(USAGE) == [Command("replay", [], True), Command("bulk", ["N"], False)]
    assert compare(USAGE, made) == 2


@pytest.mark.parametrize(
    "old, new", [("bulk N ", "bulk "), ("bulk N", "bulk M"), ("replay [--raw]", "replay"), ("bulk", "mass")]
)
def test_other_words_are_seen(made: str, old: str, new: str) -> None:
    """Each word counts."""
    with pytest.raises(Failed, match="other words"):
        compare(USAGE.replace(old, new), made)


def test_raw_is_tried(made: str) -> None:
    """What the program tells of `--raw` has to be so."""
    path = pathlib.Path(made)
    path.write_text(PROGRAM.replace("2:replay:--raw) exit 0 ;;\n", ""), encoding="utf-8")
    with pytest.raises(Failed, match="replay --raw"):
        compare(USAGE, made)


def test_usage(tool: Run) -> None:
    """The launcher and the program."""
    done = tool("tools/usage")
    assert done.returncode == 0, done.stderr
