"""The second program against the worked rows, which are the program's own."""
import pathlib

import pytest

from barrierfs_tools.checks import rows
from barrierfs_tools.checks.rows import Player, Row, row_files, rows_of

NOT_PLAYED = ("words.txt", "workloads.txt")  # rows of words that the second program does not have


@pytest.mark.parametrize("path", row_files(), ids=lambda path: path.name)
def test_rows(path: pathlib.Path) -> None:
    """It says of each row what the row wants."""
    player = Player()
    found = list(rows_of(path.read_bytes().decode()))
    wrong = [(number, said) for number, row in enumerate(found, 1) if (said := player.play(row)) is not None]
    assert not wrong
    assert (player.played == 0) == (path.name in NOT_PLAYED)


def test_a_wrong_row_is_seen() -> None:
    """A row that wants another thing is told."""
    right = Row(
        "replay", "device 1\nput 0 5a ordered\nevents\nreceive\ntransfer 0\npersist 0\n", "0", "steps 2\nblock 0 5a 0\n"
    )
    assert Player().play(right) is None
    assert Player().play(right._replace(output="steps 3\nblock 0 5a 0\n")) == right.output
    assert Player().play(right._replace(end="3 script line 1: word", output="")) == right.output


def test_images_are_changed_as_rows_say() -> None:
    """The changes of an image, by hand."""
    assert rows.changed(b"", ["length 4", "at 1 0aff", "fill 3 1 07"]) == b"\x00\x0a\xff\x07"
    assert rows.changed(b"\x01\x02\x03", ["length 2"]) == b"\x01\x02"
