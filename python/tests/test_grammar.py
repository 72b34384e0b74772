"""The tables of words and limits against docs/FORMATS.md."""
import re

from conftest import ROOT

from barrierfs_tools.model import grammar

FORMATS = (ROOT / "docs" / "FORMATS.md").read_text(encoding="utf-8")


def number(text: str) -> int:
    """A number of the page."""
    return int(text.replace(",", ""))


def section(title: str) -> str:
    """The text below a title, up to the next one."""
    return re.split(r"^#+ ", FORMATS.split(f"# {title}\n", 1)[1], maxsplit=1, flags=re.MULTILINE)[0]


def rows(text: str) -> list[list[str]]:
    """The cells of each row of the tables of a text."""
    lines = [line for line in text.split("\n") if line.startswith("|") and not line.startswith("|-")]
    return [[cell.strip() for cell in re.split(r"(?<!\\)\|", line)[1:-1]] for line in lines]


def test_header_lines() -> None:
    """Limits and defaults of each line of a header."""
    found: dict[str, str] = {}
    for title in ("Scripts of block requests", "Volume scripts"):
        for _, line, meaning in (row for row in rows(section(title)) if len(row) == 3):
            word = re.match(r"`(\w+) [A-Z]`$", line)
            if word:
                found.setdefault(word[1], meaning)
    for word, (least, most) in grammar.HEADER.items():
        said = re.search(r"([\d,]+) to ([\d,]+)", found[word])
        assert said and (number(said[1]), number(said[2])) == (least, most), word
    for word, default in (("depth", grammar.DEPTH), ("queue", grammar.QUEUE), ("limit", grammar.LIMIT)):
        said = re.search(r"([\d,]+) without this line", found[word])
        assert said and number(said[1]) == default, word


def test_sizes() -> None:
    """Limits of sizes, requests, calls, events and lines."""
    sentences = {
        rf"a device of N blocks of zeros, 1 to {grammar.BLOCKS[1]:,}": True,
        rf"each 1 to {grammar.INODES[1]:,} and with a zone of data left": grammar.INODES == grammar.ZONES,
        rf"a journal of J blocks, {grammar.JOURNAL[0]} to {grammar.JOURNAL[1]:,}": True,
        rf"there are at most {grammar.MOST_REQUESTS:,}\.": True,
        rf"N from 1 to {grammar.TIMES:,}, and is then done N times": True,
        rf"a script has at most {grammar.MOST_EVENTS:,} events": True,
        rf"P is below {grammar.PLACE + 1:,}": True,
        rf"the calls of thread T follow, at most {grammar.MOST_CALLS:,}": True,
        rf"at most {grammar.MOST_THREADS} \|": True,
        rf"at most {grammar.MOST_ATTEMPTS} lines": True,
        rf"A line has at most {grammar.MOST_WORDS:,} words after the first": True,
        rf"HEX has 2 to {grammar.MOST_DIGITS:,} hexadecimal digits": True,
        rf"LEN is 1 to {grammar.LENGTH[1]:,}": grammar.LENGTH[0] == 1,
        rf"N steps, 0 to {grammar.STEPS[1]:,}": grammar.STEPS[0] == 0,
        rf"more than {grammar.MOST_BYTES:,} bytes of a script or {grammar.MOST_IMAGE:,} of an image": True,
        rf"a log of N blocks, 1 to {grammar.MOST_ROOM:,}": True,
        rf"past {grammar.LARGEST:,} bytes": True,
        rf"where the parent has {grammar.MOST_LINKS}": True,
        rf"more than {grammar.DIRECTORY_BLOCKS} blocks": True,
        rf"At most {grammar.LISTED[32][0]} narrow ones or {grammar.LISTED[64][0]} wide ones": True,
        rf"at most {grammar.LISTED[32][1]} or {grammar.LISTED[64][1]}\.": True,
        rf"A table of {grammar.TABLE_INODES} inodes a block|a table of {grammar.TABLE_INODES} inodes a block": True,
        rf"{grammar.MAP_BITS:,} bits each": True,
        r"either 0x137F nor 0x138F": sorted(grammar.MAGICS) == [0x137F, 0x138F],
        r"magic number 0xC03B3998": grammar.JOURNAL_MAGIC.hex() == "c03b3998",
    }
    for sentence, holds in sentences.items():
        assert holds and re.search(sentence, FORMATS), sentence


def test_calls_and_events() -> None:
    """The words of calls, events and round, with what follows them."""
    kinds = {"P": "p", "Q": "p", "OFF": "n", "LEN": "n", "SIZE": "n", "VV": "v", "HEX": "h"}
    told: dict[str, str] = {}
    for cells in rows(section("Calls")):
        for call in re.findall(r"`([^`]*)`", cells[0]):
            word, *rest = call.split(" ")
            told[word] = "".join(kinds[name] for name in rest)
    assert told == grammar.CALLS
    lines = [re.findall(r"`([^`]*)`", row[0]) for row in rows(section("Events of a volume script"))]
    events = {line.split(" ")[0]: "n" * (len(line.split(" ")) - 1) for found in lines for line in found}
    assert events == grammar.VOLUME_EVENTS
    told_round = re.search(r"rising order, then (.*?) \|", FORMATS)
    assert told_round and tuple(re.findall(r"`([^`]*)`", told_round[1])) == grammar.PARTS
    of_blocks = [row[-2] for row in rows(section("Scripts of block requests"))]
    said = {line.strip("`").split(" ")[0]: "n" * line.count(" P") for line in of_blocks if line.startswith("`")}
    assert {word: said[word] for word in grammar.BLOCKS_EVENTS} == grammar.BLOCKS_EVENTS


def test_statuses() -> None:
    """The status of each fault."""
    found = {row[1].strip("`"): int(row[0]) for row in rows(section("Faults")) if row[0].isdigit()}
    assert {re.sub(r"( N)?: .*", "", text): status for text, status in found.items()} == grammar.STATUSES
