"""Pictures, by their numbers."""
import re
import xml.dom.minidom

from conftest import ROOT

from barrierfs_tools.draw import survival_picture, sweep_picture
from barrierfs_tools.draw.sweep_picture import LEFT, WIDTH, Lane, draw, tail

# A hundred cuts in which a count grows at each cut, which leaves no room for its numbers, and a file has three contents.
COUNT: Lane = ("found", "count", [(at, at, str(1000 + at)) for at in range(100)])
FILE: Lane = ("/var/lib/postgresql/data/base", "content", [(0, 39, "-"), (40, 69, "1024xaa"), (70, 99, "1024xbb")])


def test_every_tick_stands() -> None:
    """There is a tick for each number, where it begins, also where the number has no room."""
    drawn = draw([("a title", [COUNT, FILE])])
    ticks = [float(x) for x in re.findall(r'<path d="M([\d.]+) \d+v18" class="edge"', drawn)]
    column = (WIDTH - LEFT - 16) / 100
    assert ticks == [round(LEFT + at * column, 2) for at in range(100)]
    numbers = re.findall(r'class="ink">(1\d\d\d)<', drawn)
    assert numbers[0] == "1000" and 1 < len(numbers) < 100


def test_contents() -> None:
    """A box for each span, of the right width, and the end of a long path."""
    drawn = draw([("a title", [FILE])])
    widths = [float(width) for width in re.findall(r'<rect x="[\d.]+" y="[\d.]+" width="([\d.]+)" height="20"', drawn)]
    column = (WIDTH - LEFT - 16) / 100
    assert widths == [round(column * count, 2) for count in (40, 30, 30)]
    assert "data/base<" in drawn and tail("/db", 100) == "/db" and len(tail("/" + "a" * 99, 80)) == 10


def test_pictures_are_xml() -> None:
    """What is drawn can be read, whatever the names are."""
    xml.dom.minidom.parseString(draw([('<a & "b">', [("/<&>", "content", [(0, 3, "<&>")])])]))
    assert sweep_picture.styles().count("prefers-color-scheme:dark") == 1


def test_survival_is_current() -> None:
    """docs/survival.svg is of the table that is there."""
    table = (ROOT / "examples" / "survival.table").read_text(encoding="utf-8")
    assert survival_picture.picture(table) == (ROOT / "docs" / "survival.svg").read_text(encoding="utf-8")
