"""Scripts by their parts, and what is printed of them by its parts."""
import re
from typing import NamedTuple

from barrierfs_tools.failed import Failed
from barrierfs_tools.model.grammar import BLOCK, PARTS, repeats

Lines = list[tuple[int, str]]  # with their numbers


class Script:
    """A script by its parts: the head up to the line `events`, the events, and the attempts of recovery."""

    def __init__(self, text: str) -> None:
        self.lines = text.removesuffix("\n").split("\n")
        if "events" not in self.lines:
            raise Failed("the script has no line `events`")
        at = self.lines.index("events")
        self.head = [line for line in self.lines[:at] if not line.startswith("cut ")]
        self.cut = next((int(line[4:]) for line in self.lines[:at] if line.startswith("cut ")), None)
        rows = [(number, line) for number, line in enumerate(self.lines[at + 1 :], at + 2) if line and line[0] != "#"]
        self.events: Lines = [(number, line) for number, line in rows if not line.startswith("recover")]
        self.attempts = [line for _, line in rows if line.startswith("recover")]
        self.first = next(at for at, line in enumerate(self.head) if line and line[0] != "#")
        words = self.head[self.first].split(" ")
        self.kind = words[0]
        self.is_volume = self.kind == "volume"

    def body(self) -> list[list[str]]:
        """The lines between the head's first line and `events` that say something, split into words."""
        return [line.split(" ") for line in self.head[self.first + 1 :] if line and line[0] != "#"]

    def calls(self) -> list[list[str]]:
        """The lines of the calls of each thread."""
        found: list[list[str]] = []
        for words in self.body():
            if words[0] == "thread":
                found.append([])
            elif found:
                found[-1].append(" ".join(words))
        return found

    def text(self, events: list[str] | None = None, cut: int | None = None, attempts: bool = True) -> str:
        """The script with these events in place of its own, and with the power off after so many steps, or never."""
        cuts = [] if cut is None else [f"cut {cut}"]
        lines = self.head[: self.first + 1] + cuts + self.head[self.first + 1 :]
        lines = [*lines, "events", *([line for _, line in self.events] if events is None else events)]
        return "\n".join(lines + (self.attempts if attempts else [])) + "\n"

    def unit(self, line: str) -> tuple[list[str], int]:
        """The single events that an event line does once, and how often it does them."""
        words, times = repeats(line.split(" "))
        if words[0] not in ("round", "back"):
            return [" ".join(words)], times
        calls = [f"call {thread}" for thread in range(1, len(self.calls()) + 1)] if words[0] == "round" else []
        return [*calls, *PARTS], times * int(words[1])


class Stand(NamedTuple):
    """Where a thread is: how many of its calls were answered, how many it has, and what is said of the next one."""

    answered: int
    calls: int
    state: str


class Node:
    """A node of a tree's text: its kind, its words, and the runs of its blocks."""

    def __init__(self, kind: str, words: list[str]) -> None:
        self.kind, self.words = kind, words
        self.blocks: dict[int, str] = {}


Tree = dict[str, Node]  # by path


class Report:
    """What is printed of a script, of either kind."""

    def __init__(self, printed: str, script: Script) -> None:
        self.text = printed
        lines = printed.removesuffix("\n").split("\n")
        self.steps = int(lines[0].split(" ")[1])
        self.blocks: dict[int, tuple[str, str]] = {}
        self.requests = self.closed = self.found = 0
        self.threads: list[Stand] = []
        self.answers: list[tuple[int, str, str]] = []  # thread, line and reply
        self.tree: Tree = {}
        if script.is_volume:
            self.read_session(lines)
        else:
            for words in (line.split(" ") for line in lines[1:]):
                self.blocks[int(words[1])] = (words[2], words[3])

    def read_session(self, lines: list[str]) -> None:
        """Reads the report of a volume script."""
        self.requests = int(lines[1].split(" ")[1])
        at = next(at for at, line in enumerate(lines) if line.startswith("closed "))
        self.closed, self.found = int(lines[at][7:]), int(lines[at + 1][6:])
        rows = [re.fullmatch(r"thread \d+: (\d+) of (\d+)(?: (.*))?", line) for line in lines[2:at]]
        self.threads = [Stand(int(row[1]), int(row[2]), row[3] or "") for row in rows if row]
        for line in lines[2 : at - len(self.threads)]:
            thread, _, rest = line.partition(" ")
            call, _, reply = rest.rpartition(": ")
            self.answers.append((int(thread), call, reply))
        self.tree = tree_of(lines[at + 2 :])

    def answered(self) -> int:
        """How many calls ended otherwise than by the power cut."""
        return sum(reply != "down" for _, _, reply in self.answers)


def tree_of(lines: list[str]) -> Tree:
    """The nodes of a tree's text."""
    found: Tree = {}
    path = ""
    for line in lines:
        words = line.split(" ")
        if words[0] == "block":
            found[path].blocks[int(words[1])] = words[2]
        else:
            path = words[1]
            found[path] = Node(words[0], words[2:])
    return found


def contents(node: Node) -> str:
    """What a node of a tree is, in a word or two: of a file its bytes as runs, over all its blocks."""
    if node.kind == "dir":
        return "dir"
    if node.kind == "link":
        return f"link {node.words[0]}"
    if node.kind != "file":
        return " ".join(node.words)
    size = int(node.words[1])
    return "+".join(f"{length}x{value}" for length, value in runs_of(size, node.blocks)) if size else "empty"


def runs_of(size: int, blocks: dict[int, str]) -> list[tuple[int, str]]:
    """The runs of equal bytes of a file of this size, with `hole` for those of no block."""
    runs: list[tuple[int, str]] = []
    end = 0
    for block, text in sorted(blocks.items()):
        add_run(runs, block * BLOCK - end, "hole")
        for piece in text.split("+"):
            length, value = piece.split("x")
            add_run(runs, int(length), value)
        end = min(size, (block + 1) * BLOCK)
    add_run(runs, size - end, "hole")
    return runs


def add_run(runs: list[tuple[int, str]], length: int, value: str) -> None:
    """Puts a run behind others."""
    if runs and runs[-1][1] == value:
        runs[-1] = (runs[-1][0] + length, value)
    elif length > 0:
        runs.append((length, value))
