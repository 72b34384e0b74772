"""Tries the Python side, in minutes and without a proof: types by mypy, style by pylint, and the tests of python/tests by pytest.

Where no program is named, by --program or BARRIERFS_PROGRAM, the tests run the launcher's unproved one, which is built first.
Wants the Debian packages mypy, pylint and python3-pytest; the tests of tools want what these tools want. Ends with status 1
where one of the three finds anything.
"""
import os
import shutil
import subprocess
from typing import NoReturn

from barrierfs_tools.cli.tool import add_program, parser_of, run_tool
from barrierfs_tools.failed import Failed
from barrierfs_tools.paths import root
from barrierfs_tools.runs.child import end_group
from barrierfs_tools.runs.program import program_at

EXAMPLE = """  tools/check
  tools/check --only pytest -- -k grammar"""
STEPS = {"mypy": ["mypy", "--no-incremental"], "pylint": ["pylint", "barrierfs_tools"], "pytest": ["pytest"]}


def passes(name: str, more: list[str], env: dict[str, str]) -> bool:
    """Runs one of the three, and says whether it finds nothing."""
    words = STEPS[name]
    path = shutil.which(words[0]) or shutil.which(f"{words[0]}-3")
    if not path:
        raise Failed(f"{name} is not there: apt-get install mypy pylint python3-pytest")
    print(f"check: {name}", flush=True)
    folder = root() / "python"
    with subprocess.Popen([path, *words[1:], *more], cwd=folder, env=env, text=True, start_new_session=True) as begun:
        try:
            return begun.wait() == 0
        finally:
            end_group(begun)


def work() -> int:
    """What the command does."""
    parser = parser_of("check", __doc__, EXAMPLE)
    parser.add_argument("--only", metavar="STEP", choices=STEPS, help=f"one of {', '.join(STEPS)} alone")
    add_program(parser)
    parser.add_argument("more", metavar="WORD", nargs="*", help="words for pytest, behind --")
    asked = parser.parse_args()
    chosen = [asked.only] if asked.only else list(STEPS)
    env = {**os.environ, "PYTHONDONTWRITEBYTECODE": "1", "PYTHONPATH": str(root() / "python")}
    if "pytest" in chosen:
        named = asked.program or os.environ.get("BARRIERFS_PROGRAM")
        env["BARRIERFS_PROGRAM"] = program_at(named, asked.unproved or not named)
    broken = [name for name in chosen if not passes(name, asked.more if name == "pytest" else [], env)]
    print(f"check: {', '.join(broken)} found something" if broken else "check: nothing was found")
    return 1 if broken else 0


def main() -> NoReturn:
    """The command."""
    run_tool("check", work)
