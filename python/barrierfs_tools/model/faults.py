"""The faults of scripts, by docs/FORMATS.md: which line of a script is the first that is wrong, and how."""
import re
from collections.abc import Callable

from barrierfs_tools.model.grammar import (
    BLOCKS,
    BYTE_CALLS,
    CALLS,
    EVENTS,
    FIRST,
    HEADER,
    HEADERS,
    INODES,
    JOURNAL,
    LENGTH,
    MOST_ATTEMPTS,
    MOST_BYTES,
    MOST_CALLS,
    MOST_DIGITS,
    MOST_EVENTS,
    MOST_REQUESTS,
    MOST_THREADS,
    MOST_WORDS,
    PARTS,
    PLACE,
    PUTS,
    SPELLINGS,
    STEPS,
    TIMES,
    WORDS,
    ZONES,
    lines_of,
    tables_of,
)


class Wrong(Exception):
    """A line is wrong: the kind of this fault."""


def within(word: int | str, limits: tuple[int, int]) -> None:
    """Tests a number."""
    if not limits[0] <= int(word) <= limits[1]:
        raise Wrong("number")


def spelled(words: list[str], kinds: str) -> None:
    """Tests that these words, behind the first one, are of these kinds."""
    if len(words) != len(kinds) or not all(re.fullmatch(SPELLINGS[kind], word) for word, kind in zip(words, kinds)):
        raise Wrong("word")


class Reader:
    """Reads the lines of a script one by one."""

    def __init__(self) -> None:
        self.section, self.kind, self.blocks = "first", "", 0
        self.seen: set[str] = set()
        self.requests = self.events = self.threads = self.calls = self.attempts = 0

    def line(self, words: list[str]) -> None:
        """Reads a line."""
        if words[0] not in WORDS:
            raise Wrong("word")
        self.sections()[self.section](words)

    def sections(self) -> dict[str, Callable[[list[str]], None]]:
        """What reads the lines of each section."""
        return {
            "first": self.first,
            "header": self.header,
            "body": self.body,
            "events": self.event,
            "recover": self.attempt,
        }

    def first(self, words: list[str]) -> None:
        """Reads the first line."""
        if words[0] not in FIRST:
            raise Wrong("order")
        self.section, self.kind = "header", words[0]
        if self.kind == "volume":
            self.volume(words)
            return
        spelled(words[1:], "n")
        within(words[1], BLOCKS)
        self.blocks = int(words[1])

    @staticmethod
    def volume(words: list[str]) -> None:
        """Reads the first line of a volume script."""
        if not re.fullmatch(r"volume inodes N zones N journal N( names 30)?( tags 64)?", " ".join(generic(words))):
            raise Wrong("word")
        inodes, zones, journal = map(int, words[2:7:2])
        within(inodes, INODES)
        within(zones, ZONES)
        within(journal, (0, PLACE))
        if tables_of(inodes, zones) >= zones or not JOURNAL[0] <= journal <= JOURNAL[1]:
            raise Wrong("geometry")

    def header(self, words: list[str]) -> None:
        """Reads a line of the header."""
        if words[0] not in HEADERS[self.kind]:
            self.section = "body"
            self.body(words)
            return
        if words[0] in self.seen:
            raise Wrong("twice")
        self.seen.add(words[0])
        spelled(words[1:], "" if words[0] == "elevator" else "n")
        if words[0] != "elevator":
            within(words[1], HEADER[words[0]])

    def body(self, words: list[str]) -> None:
        """Reads a line behind the header."""
        if words[0] == "events":
            spelled(words[1:], "")
            self.section = "events"
        elif self.kind != "volume" and words[0] in PUTS:
            self.request(words)
        elif self.kind == "volume" and words[0] == "thread":
            self.thread(words)
        elif self.kind == "volume" and words[0] in CALLS and self.threads:
            self.call(words)
        else:
            raise Wrong("order")

    def thread(self, words: list[str]) -> None:
        """Reads the line that begins a thread."""
        spelled(words[1:], "n")
        self.threads, self.calls = self.threads + 1, 0
        if int(words[1]) != self.threads or self.threads > MOST_THREADS:
            raise Wrong("number")

    def request(self, words: list[str]) -> None:
        """Reads a request."""
        spelled(words[1:], PUTS[words[0]])
        self.requests += 1
        if words[0] == "put":
            within(words[1], (0, self.blocks - 1))
        if self.requests > MOST_REQUESTS:
            raise Wrong("number")

    def call(self, words: list[str]) -> None:
        """Reads a call."""
        spelled(words[1:], CALLS[words[0]])
        self.calls += 1
        if words[0] == "bytes" and len(words[3]) > MOST_DIGITS:
            raise Wrong("word")
        if words[0] in (*BYTE_CALLS, "read", "truncate"):
            within(words[2], (0, PLACE))
        if words[0] in ("write", "read"):
            within(words[3], LENGTH)
        if self.calls > MOST_CALLS:
            raise Wrong("number")

    def event(self, words: list[str]) -> None:
        """Reads an event."""
        if words[0] == "recover" and self.kind == "volume":
            self.section = "recover"
            self.attempt(words)
            return
        events = EVENTS[self.kind]
        if words[0] not in events:
            raise Wrong("order")
        said = "1"
        if words[-2:-1] == ["x"]:
            words, said = words[:-2], words[-1]
        spelled([*words[1:], said], events[words[0]] + "n")
        within(said, (1, TIMES))
        times = int(said)
        if words[0] == "call":
            within(words[1], (1, self.threads))
        elif words[0] in ("round", "back"):
            within(words[1], (1, TIMES))
            times *= int(words[1]) * (len(PARTS) + (self.threads if words[0] == "round" else 0))
        elif len(words) > 1:
            within(words[1], (0, PLACE))
        self.events += times
        if self.events > MOST_EVENTS:
            raise Wrong("number")

    def attempt(self, words: list[str]) -> None:
        """Reads an attempt of recovery."""
        if words[0] != "recover":
            raise Wrong("order")
        self.attempts += 1
        if len(words) > MOST_WORDS + 1 or not all(re.fullmatch(r"[tpd](0|[1-9][0-9]*)", word) for word in words[1:]):
            raise Wrong("word")
        for word in words[1:]:
            within(word[1:], STEPS if word[0] == "d" else (0, PLACE))
        if self.attempts > MOST_ATTEMPTS:
            raise Wrong("number")


def generic(words: list[str]) -> list[str]:
    """The words with N for each number."""
    return [
        words[0],
        *(
            "N" if at in (2, 4, 6) and re.fullmatch(SPELLINGS["n"], word) else word
            for at, word in enumerate(words[1:], 1)
        ),
    ]


def report(text: str) -> str | None:
    """What the program says of the first line that is wrong, or none. A character stands for a byte."""
    return first_fault(Reader(), text)


def first_fault(reader: Reader, text: str) -> str | None:
    """The same, of a script that this one reads."""
    if len(text) > MOST_BYTES:
        return "barrierfs: input too long\n"
    lines = lines_of(text)
    for number, line in enumerate(lines, 1):
        try:
            if line and line[0] != "#":
                reader.line(line.split(" "))
        except Wrong as wrong:
            return f"barrierfs: script line {number}: {wrong}\n"
    if reader.section in ("first", "header", "body"):
        return f"barrierfs: script line {len(lines) + 1}: order\n"
    return None
