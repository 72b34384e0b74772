"""Each command says how it is used, with an example that stands, and does nothing by wrong words."""
import pathlib
import re

import pytest
from conftest import ROOT, Run

TOOLS = ["sweep", "explain", "recoveries", "campaign", "believe", "check", "usage", "hunt"]
EXAMPLES = ["random", "rows", "runs", "frames", "survival", "compare"]
OUTSIDE = ["rows", "twins", "e2fsck", "fsck_table", "full_directory", "closed_media.py"]
BENCH = ["cost.py", "cuts.py", "dear", "images.py", "measure.py", "picture.py", "refused", "run", "scripts.py"]
COMMANDS = [f"tools/{name}" for name in TOOLS] + [f"examples/{name}" for name in EXAMPLES]
COMMANDS += [f"examples/outside/{name}" for name in OUTSIDE] + [f"bench/{name}" for name in BENCH]
COMMANDS += ["bench/survival_picture.py", "bench/waits.py"]


def test_all_commands_are_tried() -> None:
    """No command of the clone is left out."""
    folders = ["tools", "examples", "examples/outside", "bench"]
    found = [path for folder in folders for path in (ROOT / folder).iterdir()]
    programs = [path for path in found if path.is_file() and path.read_bytes()[:2] == b"#!"]
    assert sorted(str(path.relative_to(ROOT)) for path in programs) == sorted(COMMANDS)


@pytest.mark.parametrize("command", COMMANDS)
def test_help(command: str, tool: Run, tmp_path: pathlib.Path) -> None:
    """`--help` tells a use and an example, whose files are there; another word is refused, and nothing is made."""
    done = tool(command, "--help")
    assert done.returncode == 0 and not done.stderr
    assert done.stdout.startswith("usage: ") and "Traceback" not in done.stdout
    example = done.stdout.split("Example:\n", 1)[1]
    assert command in example
    for path in re.findall(r"(?:examples|docs|tools|bench)/[\w./-]+", example):
        assert (ROOT / path).exists(), path
    wrong = tool(command, "--nonsense")
    assert wrong.returncode == 2 and "usage: " in wrong.stderr and "Traceback" not in wrong.stderr
    assert not list((tmp_path / "empty").iterdir())
