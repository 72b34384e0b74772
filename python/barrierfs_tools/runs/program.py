"""Where the program is, what is said of one run of it, and how bytes stand in a text."""
import os
import pathlib
import subprocess

from barrierfs_tools.failed import Failed
from barrierfs_tools.paths import root
from barrierfs_tools.runs import child


def program_at(given: str | None, unproved: bool = False) -> str:
    """The path of the program: the one that is given, or $BARRIERFS_PROGRAM, or the launcher's, built where that is
    needed."""
    if not unproved:
        given = given or os.environ.get("BARRIERFS_PROGRAM")
    if given:
        if not os.access(given, os.X_OK):
            raise Failed(f"{given} is no program")
        return os.path.abspath(given)
    words = [str(root() / "barrierfs"), *(["--unproved"] if unproved else []), "--program"]
    with subprocess.Popen(words, stdout=subprocess.PIPE, text=True, start_new_session=True) as launcher:
        try:
            said, _ = launcher.communicate()
        finally:
            child.end_group(launcher)
    if launcher.returncode:
        raise Failed("the program could not be built")
    return said.strip()


def bytes_of(text: str) -> bytes:
    """The bytes of a text that `text_of` gave: the exact ones, also where they are no UTF-8."""
    return text.encode("utf-8", "surrogateescape")


def decoded(data: bytes) -> str:
    """These bytes as a text that has them all."""
    return data.decode("utf-8", "surrogateescape")


def text_of(path: str | pathlib.Path) -> str:
    """The text of a script's file. What is no text is left to the program, which says at which line it is wrong."""
    return decoded(pathlib.Path(path).read_bytes())


def replay(program: str, text: str) -> str:
    """What the program prints of this script."""
    done = child.run([program, "replay"], bytes_of(text))
    if done.status:
        said = done.err.decode(errors="replace").strip()
        raise Failed(said or f"the program ended with status {done.status}")
    return decoded(done.out)
