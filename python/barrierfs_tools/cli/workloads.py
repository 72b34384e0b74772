"""Writes scripts of the most blocks and requests that the limits allow, and volume scripts of several sizes, to the
folder that is given; with a word behind it, volume scripts for `run` in their place.
"""
import pathlib
from typing import NoReturn

from barrierfs_tools.cli.tool import parser_of, run_tool
from barrierfs_tools.scripts.workloads import cases, thread_cases

EXAMPLE = """  bench/scripts.py /tmp/scripts
  bench/scripts.py /tmp/scripts threads"""


def work() -> None:
    """What the command does."""
    parser = parser_of("scripts.py", __doc__, EXAMPLE)
    parser.add_argument("folder", metavar="FOLDER", help="where they are written; it is made where it is not there")
    parser.add_argument("threads", nargs="?", choices=["threads"], help="volume scripts for `run` in their place")
    asked = parser.parse_args()
    folder = pathlib.Path(asked.folder)
    folder.mkdir(parents=True, exist_ok=True)
    for name, text in thread_cases() if asked.threads else cases():
        (folder / f"{name}.script").write_text(text, encoding="utf-8")
        print(name)


def main() -> NoReturn:
    """The command."""
    run_tool("scripts.py", work)
