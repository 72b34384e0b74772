"""Where the clone is that the tools work on."""
import functools
import os
import pathlib

from barrierfs_tools.failed import Failed


def is_clone(folder: pathlib.Path) -> bool:
    """Whether this folder is a clone of barrierfs."""
    return (folder / "crates.txt").is_file() and (folder / "barrierfs").is_file()


@functools.lru_cache(maxsize=None)
def root() -> pathlib.Path:
    """The clone that this package stands in; of an installed one $BARRIERFS_ROOT, or the clone that one stands in."""
    given = os.environ.get("BARRIERFS_ROOT")
    here = pathlib.Path(__file__).resolve()
    near = [pathlib.Path(given)] if given else [here.parents[2], pathlib.Path.cwd(), *pathlib.Path.cwd().parents]
    for folder in near:
        if is_clone(folder):
            return folder
    raise Failed("no clone of barrierfs is here: stand in one, or name it by BARRIERFS_ROOT")


def examples() -> pathlib.Path:
    """The folder of the examples."""
    return root() / "examples"
