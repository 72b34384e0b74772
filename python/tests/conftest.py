"""What the tests share: the clone, and the program, which is the launcher's unproved one where none is named."""
import os
import pathlib
import subprocess
import sys
from collections.abc import Callable

import pytest

HERE = pathlib.Path(__file__).resolve().parent
ROOT = HERE.parents[1]
sys.dont_write_bytecode = True
sys.path.insert(0, str(HERE.parent))

from barrierfs_tools.runs.program import program_at  # noqa: E402

Run = Callable[..., "subprocess.CompletedProcess[str]"]


@pytest.fixture(scope="session")
def program() -> str:
    """The program that is tried."""
    given = os.environ.get("BARRIERFS_PROGRAM")
    return program_at(given, unproved=not given)


@pytest.fixture
def tool(program: str, tmp_path: pathlib.Path) -> Run:
    """Runs a command of the clone in an empty folder."""

    def run(path: str, *words: object, seconds: int = 300) -> "subprocess.CompletedProcess[str]":
        env = {**os.environ, "BARRIERFS_PROGRAM": program}
        where = tmp_path / "empty"
        where.mkdir(exist_ok=True)
        said = [str(ROOT / path), *map(str, words)]
        return subprocess.run(said, cwd=where, env=env, capture_output=True, text=True, timeout=seconds, check=False)

    return run


@pytest.fixture
def planted(program: str, tmp_path: pathlib.Path) -> Callable[[str], str]:
    """Makes a program that prints what the real one does, once this code has changed it: `text` and `printed` are bytes."""

    def make(code: str) -> str:
        path = tmp_path / "planted"
        path.write_text(
            "#!/usr/bin/env python3\nimport re, subprocess, sys\n"
            "text = sys.stdin.buffer.read()\n"
            f"done = subprocess.run([{program!r}, *sys.argv[1:]], input=text, capture_output=True)\n"
            f"printed = done.stdout\n{code}\n"
            "sys.stdout.buffer.write(printed)\nsys.stderr.buffer.write(done.stderr)\nsys.exit(done.returncode)\n",
            encoding="utf-8",
        )
        path.chmod(0o755)
        return str(path)

    return make
