"""The rows of crates/program_tests/data, played with the second program."""
import pathlib
from collections.abc import Callable, Iterator
from typing import NamedTuple

from barrierfs_tools.model import clean, faults, images, stores, threads
from barrierfs_tools.model.grammar import STATUSES
from barrierfs_tools.paths import root
from barrierfs_tools.scripts import cases

BAD_WORDS = f"{STATUSES['bad words']} bad words"  # the end of a row whose words are none


class Row(NamedTuple):
    """A row: the words, the input as it is written there, the end, and the output."""

    words: str
    given: str
    end: str
    output: str


def data_folder() -> pathlib.Path:
    """The folder of the rows."""
    return root() / "crates/program_tests/data"


def row_files() -> list[pathlib.Path]:
    """The files of rows; `wrong.txt` has rows that must fail."""
    return [path for path in sorted(data_folder().glob("*.txt")) if path.name != "wrong.txt"]


def rows_of(text: str) -> Iterator[Row]:
    """The rows of a file."""
    for part in text.split("-> ")[1:]:
        words, rest = part.split("\n", 1)
        given, rest = rest.split("<- ", 1)
        end, rest = rest.split("\n", 1)
        yield Row(words, given, end, rest.split("== ", 1)[0])


def changed(image: bytes, lines: list[str]) -> bytes:
    """An image with the changes of these lines."""
    data = bytearray(image)
    for verb, place, *rest in (line.split(" ") for line in lines):
        at = int(place)
        if verb == "length":
            data = data[:at] + bytes(max(0, at - len(data)))
        elif verb == "at":
            data[at : at + len(rest[0]) // 2] = bytes.fromhex(rest[0])
        else:
            data[at : at + int(rest[0])] = bytes.fromhex(rest[1]) * int(rest[0])
    return bytes(data)


def replay(text: str) -> str:
    """What `replay` says of a script."""
    return faults.report(text) or cases.report(text)


OF_SCRIPTS: dict[str, Callable[[str], str | None]] = {
    "replay": replay,
    "kv": lambda text: stores.fault(text) or stores.report(text),
    "run": threads.refusal,
}
OF_IMAGES: dict[str, Callable[[bytes], str]] = {"show": images.report, "check": clean.report}


def told(printed: str) -> tuple[str, str]:
    """The end and the output of a row, of what the second program says."""
    if not printed.startswith("barrierfs: "):
        return "0", printed
    text = printed.removeprefix("barrierfs: ").rstrip("\n")
    status = next(status for says, status in STATUSES.items() if text.startswith(says))
    return f"{status} {text}", ""


class Player:
    """Plays the rows of a file, with the image that the last row left of which the bytes are known."""

    def __init__(self) -> None:
        self.image: bytes | None = b""
        self.played = self.wrong = 0

    def said(self, row: Row) -> str | None:
        """What the second program says, or none where it does not play the row."""
        lines = row.given.splitlines()
        data = row.given.encode()
        if lines[:1] in (["image"], ["base"]):
            if self.image is None:
                return None
            data = changed(self.image, lines[1:])
            if lines[0] == "base":
                self.image = data
        if row.end == BAD_WORDS:
            return None
        if row.words in OF_IMAGES:
            return OF_IMAGES[row.words](data)
        return OF_SCRIPTS[row.words](data.decode("latin-1")) if row.words in OF_SCRIPTS else None

    def play(self, row: Row) -> str | None:
        """What the second program says of a row of which it says something else, or none."""
        printed = self.said(row)
        if row.output.startswith("image\n"):
            self.image = None if self.image is None else changed(self.image, row.output.splitlines()[1:])
        elif row.output == "kept\n":
            self.image = None
        if printed is None:
            return None
        self.played += 1
        if told(printed) == (row.end, row.output):
            return None
        self.wrong += 1
        return printed


def play(path: pathlib.Path) -> tuple[int, int]:
    """How many rows of a file were played, and how many of them differ; these are printed."""
    player = Player()
    for number, row in enumerate(rows_of(path.read_bytes().decode()), 1):
        printed = player.play(row)
        if printed is not None:
            print(f"{path.name}, row {number}: {printed}", end="")
    return player.played, player.wrong
