"""Claims, by docs/FORMATS.md: what must hold of the tree that a power cut leaves, and of the calls that were answered."""
import operator
import re
from collections.abc import Callable, Mapping
from typing import NamedTuple

from barrierfs_tools.scripts.reading import Node, Tree, contents

NONE = -1  # stands for what is not there; it is below each byte and each number
Value = int | str
Place = tuple[int, int]  # of a call: its thread, and how many calls come before it there
WORD = re.compile(r'"[^"]*"|[()]|<=|>=|!=|=|<|>|[^\s()=<>!"]+|.')
ORDERS: dict[str, Callable[[int, int], bool]] = {
    "<": operator.lt,
    "<=": operator.le,
    ">": operator.gt,
    ">=": operator.ge,
}
COMPARISONS = ("=", "!=", *ORDERS)
PARTS = {"block": "byte", "size": "number", "links": "number", "bytes": "bytes"}  # of a file, and what each is
SPELLED = {
    "byte": r"[0-9a-f]{2}",
    "number": r"0|[1-9][0-9]*",
    "bytes": r"empty|[1-9][0-9]*x([0-9a-f]{2}|hole)(\+[1-9][0-9]*x([0-9a-f]{2}|hole))*",
}
WANTED = {"byte": "a byte of two digits", "number": "a number", "bytes": "runs as 1024x02+476x00"}


class Fault(Exception):
    """A line is wrong: the kind of the fault, the word at which it is, and what was wanted there."""

    def __init__(self, kind: str, word: str, wanted: str) -> None:
        super().__init__(f"{kind}: {word}: {wanted}")


class State(NamedTuple):
    """What a power cut leaves: the tree, the transactions that recovery finds, and the calls that were answered `ok`."""

    tree: Tree
    found: int
    answered: frozenset[Place]


class Call(NamedTuple):
    """A call of the script: its thread, how many come before it there, and its text."""

    thread: int
    at: int
    text: str

    def place(self) -> Place:
        """Where it is."""
        return self.thread, self.at


Holds = Callable[[State], bool]
Reads = Callable[[State], Value]


class Claim(NamedTuple):
    """A claim: its text, whether it speaks of answers, and whether it holds."""

    text: str
    has_answers: bool
    holds: Holds


class Operand(NamedTuple):
    """A side of a comparison: a literal by its word, or what is read of the state, and of which kind."""

    word: str
    kind: str | None  # of a literal: none
    reads: Reads | None


def node_at(tree: Tree, path: str) -> Node | None:
    """The node of a path; a later name of a file is the file."""
    node = tree.get(path)
    return tree.get(node.words[0]) if node is not None and node.kind == "link" else node


def block_at(node: Node | None, at: int) -> Value:
    """The byte that all of a block has; its runs where they are unlike."""
    if node is None or at not in node.blocks:
        return NONE
    runs = node.blocks[at]
    return runs if "+" in runs else int(runs.split("x")[1], 16)


def part_of(path: str, part: str) -> Reads:
    """What reads the size, the links or all bytes of a file."""

    def reads(state: State) -> Value:
        node = node_at(state.tree, path)
        if node is None:
            return NONE
        if part == "bytes":
            return contents(node)
        if node.kind != "file":
            return NONE
        return int(node.words[1 if part == "size" else 3])

    return reads


class Parser:
    """Reads one claim."""

    def __init__(self, line: str, calls: Mapping[int, Call]) -> None:
        self.words: list[str] = [word for word in WORD.findall(line) if not word.isspace()]
        self.at, self.calls, self.line, self.has_answers = 0, calls, line, False

    def peek(self, ahead: int = 0) -> str:
        """The next word; none at the end of the line."""
        return self.words[self.at + ahead] if self.at + ahead < len(self.words) else ""

    def take(self, *wanted: str) -> str:
        """Takes the next word, which has to be one of these if any are given."""
        word = self.peek()
        if not word or wanted and word not in wanted:
            raise self.wrong(" or ".join(f"`{one}`" for one in wanted) or "more")
        self.at += 1
        return word

    def wrong(self, wanted: str, kind: str = "word") -> Fault:
        """The next word is wrong."""
        return Fault(kind, f"`{self.peek()}`" if self.peek() else "the end of the line", f"{wanted} is wanted")

    def claim(self) -> Claim:
        """The whole line."""
        word = self.take("never", "always", "if")
        left = self.either()
        if word == "if":
            self.take("then")
            right: Holds | None = self.either()
        else:
            right = self.unless()
        if self.peek():
            raise self.wrong("the end of the line")
        is_wanted = word == "always"

        def holds(state: State) -> bool:
            return left(state) == is_wanted or right is not None and right(state)

        return Claim(self.line, self.has_answers, holds)

    def unless(self) -> Holds | None:
        """What excuses, if anything does."""
        if self.peek() != "unless":
            return None
        self.take()
        return self.either()

    def either(self) -> Holds:
        """One or more by `or`."""
        parts = [self.both()]
        while self.peek() == "or":
            self.take()
            parts.append(self.both())
        return lambda state: any(part(state) for part in parts)

    def both(self) -> Holds:
        """One or more by `and`."""
        parts = [self.one()]
        while self.peek() == "and":
            self.take()
            parts.append(self.one())
        return lambda state: all(part(state) for part in parts)

    def one(self) -> Holds:
        """One that is not made by `and` or `or`."""
        word = self.peek()
        if word == "not":
            self.take()
            inner = self.one()
            return lambda state: not inner(state)
        if word == "(":
            self.take()
            inside = self.either()
            self.take(")")
            return inside
        if word == "answered":
            self.take()
            place, self.has_answers = self.answered(), True
            return lambda state: place in state.answered
        if word.startswith("/") and self.peek(1) in ("exists", "missing"):
            path, is_there = self.take(), self.take() == "exists"
            return lambda state: (path in state.tree) == is_there
        return self.comparison()

    def answered(self) -> Place:
        """The call that is to be answered, by its line or its text."""
        if self.peek() == "line":
            self.take()
            if not re.fullmatch(SPELLED["number"], self.peek()):
                raise self.wrong("a line")
            if int(self.peek()) not in self.calls:
                raise self.wrong("the line of a call", "number")
            return self.calls[int(self.take())].place()
        word = self.peek()
        if len(word) < 2 or word[0] != '"':
            raise self.wrong('`line` or a call in `"`')
        found = [call for call in self.calls.values() if call.text == word[1:-1]]
        if not found:
            raise self.wrong("a call of this script")
        if len(found) > 1:
            raise self.wrong("a call that is there once, or `line`", "twice")
        self.take()
        return found[0].place()

    def comparison(self) -> Holds:
        """Two values, of which one at least is read."""
        left = self.operand()
        name = self.take(*COMPARISONS)
        behind = self.at
        right = self.operand()
        kind = left.kind or right.kind
        if kind is None or right.kind not in (None, kind) or kind == "bytes" and name in ORDERS:
            self.at = behind
            raise self.wrong("what can be compared so")
        first, second = self.value(left, kind, behind - 2), self.value(right, kind, behind)
        if name in ORDERS:
            order = ORDERS[name]

            def ordered(state: State) -> bool:
                one, other = first(state), second(state)
                return isinstance(one, int) and isinstance(other, int) and order(one, other)

            return ordered
        is_equal = name == "="
        return lambda state: (first(state) == second(state)) == is_equal

    def operand(self) -> Operand:
        """A side of a comparison."""
        word = self.take()
        if word == "found":
            return Operand(word, "number", lambda state: state.found)
        if word[0] != "/":
            if not any(re.fullmatch(form, word.removeprefix("#")) for form in SPELLED.values()) and word != "none":
                self.at -= 1
                raise self.wrong("a path, `found`, `none`, a byte, a number or runs")
            return Operand(word, None, None)
        part = self.take(*PARTS)
        if part != "block":
            return Operand(word, PARTS[part], part_of(word, part))
        if not re.fullmatch(SPELLED["number"], self.peek()):
            raise self.wrong("the place of a block")
        at = int(self.take())
        return Operand(word, "byte", lambda state: block_at(node_at(state.tree, word), at))

    def value(self, side: Operand, kind: str, at: int) -> Reads:
        """What a side is, where the other one is of this kind."""
        if side.reads is not None:
            return side.reads
        said: Value
        if side.word == "none":
            said = NONE
        elif side.word[0] == "#" and kind != "bytes":
            said = int(side.word[1:])
        elif re.fullmatch(SPELLED[kind], side.word):
            said = side.word if kind == "bytes" else int(side.word, 16 if kind == "byte" else 10)
        else:
            self.at = at
            raise self.wrong(WANTED[kind])
        return lambda state: said


def claim_of(line: str, calls: Mapping[int, Call]) -> Claim:
    """The claim of this line, over these calls by their lines."""
    return Parser(line, calls).claim()
