"""What all commands share: words for the program and the processors, and how they end."""
import argparse
import os
import signal
import sys
from collections.abc import Callable
from types import FrameType
from typing import NoReturn

from barrierfs_tools.failed import Failed
from barrierfs_tools.runs import child
from barrierfs_tools.runs.program import program_at

PROGRAM = "the program to run (default: $BARRIERFS_PROGRAM, or the launcher's, built where that is needed)"


class Ended(Exception):
    """A signal asks the tool to end."""


def parser_of(name: str, says: str | None, example: str = "") -> argparse.ArgumentParser:
    """A parser of this command's words; behind the help stands an example that works."""
    epilog = f"Example:\n{example}" if example else None
    form = argparse.RawDescriptionHelpFormatter
    return argparse.ArgumentParser(prog=name, description=says, epilog=epilog, formatter_class=form, allow_abbrev=False)


def add_program(parser: argparse.ArgumentParser, stands_alone: bool = False) -> None:
    """The words that name the program; of some commands a word that stands alone does too."""
    which = parser.add_mutually_exclusive_group()
    if stands_alone:
        which.add_argument("path", nargs="?", metavar="PROGRAM", help="the same as --program PROGRAM")
    which.add_argument("--program", metavar="PROGRAM", help=PROGRAM)
    which.add_argument(
        "--unproved", action="store_true", help="run the launcher's unproved program, built in a minute or three"
    )


def program_of(asked: argparse.Namespace) -> str:
    """The program that the words name."""
    return program_at(asked.program or vars(asked).get("path"), asked.unproved)


def positive(word: str) -> int:
    """A number from 1 on."""
    number = int(word)
    if number < 1:
        raise argparse.ArgumentTypeError("wants 1 or more")
    return number


def natural(word: str) -> int:
    """A number from 0 on."""
    number = int(word)
    if number < 0:
        raise argparse.ArgumentTypeError("wants 0 or more")
    return number


def add_jobs(parser: argparse.ArgumentParser, what: str = "runs") -> None:
    """The word that says how much is done at a time."""
    text = f"how many {what} at a time (default: the processors)"
    parser.add_argument("--jobs", metavar="N", type=positive, default=os.cpu_count() or 1, help=text)


def _ended(number: int, _: FrameType | None) -> NoReturn:
    raise Ended(number)


def run_tool(name: str, work: Callable[[], int | None]) -> NoReturn:
    """Does the work of a command, and says on one line what it cannot do. No child is left behind."""
    child.begin()
    signal.signal(signal.SIGTERM, _ended)
    try:
        sys.exit(work())
    except BrokenPipeError:
        os.dup2(os.open(os.devnull, os.O_WRONLY), 1)
        sys.exit(0)
    except (Failed, OSError) as failed:
        sys.exit(f"{name}: {failed}")
    except KeyboardInterrupt:
        _leave(name, 128 + signal.SIGINT)
    except Ended as ended:
        _leave(name, 128 + int(ended.args[0]))
    finally:
        child.end_all()


def _leave(name: str, status: int) -> NoReturn:
    signal.signal(signal.SIGINT, signal.SIG_IGN)
    child.end_all()
    sys.stderr.write(f"\r\033[K{name}: interrupted\n" if sys.stderr.isatty() else f"{name}: interrupted\n")
    sys.exit(status)
