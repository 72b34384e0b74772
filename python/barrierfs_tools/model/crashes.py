"""The report of a volume script whose power was cut, checked by what docs/FORMATS.md and README.md say of such a
report."""

from collections import defaultdict
from typing import NamedTuple

from barrierfs_tools.model.calls import Volume, names_by, shown
from barrierfs_tools.model.grammar import BARRIER_CALLS, BLOCK, BYTE_CALLS, CHANGES, NOT_OF_TREE, SYNC_CALLS

OVER_METADATA = ("fsync", "sync", "fbarrier")


class Answer(NamedTuple):
    """An answered call."""

    thread: int
    line: str
    reply: str


def answers_in(lines: list[str]) -> tuple[list[Answer], list[str]]:
    """The answers of a report, and the lines of its tree."""
    found: list[Answer] = []
    at = 2
    while not lines[at].startswith(("thread ", "closed ")):
        thread, rest = lines[at].split(" ", 1)
        line, reply = rest.rsplit(": ", 1)
        found.append(Answer(int(thread), line, reply))
        at += 1
    while not lines[at].startswith("found "):
        at += 1
    return found, lines[at + 1 :]


def outline_of(lines: list[str]) -> tuple[list[str], dict[tuple[int, int], bytes]]:
    """The lines of a tree without bytes, and the bytes of each block by the place of its file among them."""
    outline: list[str] = []
    bodies: dict[tuple[int, int], bytes] = {}
    for line in lines:
        words = line.split(" ")
        if words[0] == "block":
            pieces = [piece.split("x") for piece in words[2].split("+")]
            body = b"".join(bytes([int(value, 16)]) * int(length) for length, value in pieces)
            bodies[len(outline) - 1, int(words[1])] = body
        else:
            outline.append(line)
    return outline, bodies


class History:
    """The answered calls, numbered from 1, with the volume as it was behind each."""

    def __init__(self, first: str, answers: list[Answer]) -> None:
        words = first.split(" ")
        self.answers = answers
        self.volume = Volume(int(words[2]), int(words[4]), names_by(first))
        self.outlines: list[list[str]] = []
        self.files: list[list[tuple[int, int, list[int]]]] = []
        self.named: list[dict[str, int]] = []
        self.versions: defaultdict[tuple[int, int], list[tuple[int, bytes]]] = defaultdict(
            list
        )  # of a file's block: call and body
        self.unmapped: defaultdict[tuple[int, int], list[int]] = defaultdict(list)  # of a file's block: calls
        self.writes: list[tuple[int, int, int]] = []  # call, file and block
        self.wrong: str | None = None
        self.note()
        for call, answer in enumerate(answers, 1):
            self.do(call, answer)

    def note(self) -> None:
        """Notes the volume behind a call."""
        lines = [line for line in self.volume.text() if not line.startswith("block ")]
        self.outlines.append(lines)
        self.named.append({path: node.number for _, path, node, _ in self.volume.rows()})
        rows = enumerate(self.volume.rows())
        self.files.append(
            [
                (at, node.number, [block for block, _ in shown(node)])
                for at, (kind, _, node, _) in rows
                if kind == "file"
            ]
        )

    def mapped(self) -> dict[tuple[int, int], bytes]:
        """The bytes of each mapped block of each file."""
        return {(n.number, at): body for n in self.volume.nodes.values() for at, body in n.blocks.items()}

    def do(self, call: int, answer: Answer) -> None:
        """Does a call that was answered."""
        word, *rest = answer.line.split(" ")
        if not answer.reply.startswith(NOT_OF_TREE):
            before = self.mapped()
            reply = self.volume.reply(answer.line)
            # a barrier or sync call is the tree's where it began
            if reply != answer.reply and not (answer.reply == "ok" and word in SYNC_CALLS + BARRIER_CALLS):
                self.wrong = self.wrong or f"call {call}, {answer.line}: {reply}"
            self.compare(call, before, self.mapped())
            if word in BYTE_CALLS and answer.reply == "ok":
                self.note_write(call, rest)
        self.note()

    def compare(self, call: int, before: dict[tuple[int, int], bytes], after: dict[tuple[int, int], bytes]) -> None:
        """Notes which blocks have other bytes now."""
        for place in before.keys() | after.keys():
            if place not in after:
                self.unmapped[place].append(call)
            elif after[place] != before.get(place):
                self.versions[place].append((call, after[place]))

    def note_write(self, call: int, words: list[str]) -> None:
        """Notes the blocks that a write wrote."""
        node, offset = self.volume.file(words[0]), int(words[1])
        length = int(words[2]) if len(words) == 4 else len(words[2]) // 2
        for at in range(offset // BLOCK, (offset + length - 1) // BLOCK + 1):
            place = node.number, at
            if not self.versions[place] or self.versions[place][-1][0] != call:
                self.versions[place].append((call, node.blocks[at]))
            self.writes.append((call, *place))

    def covered(self, call: int) -> list[int]:
        """The calls that one covers for certain: those of its thread before it, or all where there is one thread."""
        thread = self.answers[call - 1].thread
        return [n for n in range(1, call) if self.answers[n - 1].thread == thread]

    def file_of(self, call: int, path: str) -> int | None:
        """The node that a call of its thread found at this path; none where another call may have moved it
        meanwhile."""
        thread = self.answers[call - 1].thread
        began = max((n for n in range(1, call) if self.answers[n - 1].thread == thread), default=0)
        found = {self.named[n].get(path) for n in range(began, call)}
        return found.pop() if len(found) == 1 else None


class Recovery:
    """A tree that was recovered, as that after the first `calls` calls."""

    def __init__(self, history: History, calls: int, bodies: dict[tuple[int, int], bytes]) -> None:
        self.history, self.calls = history, calls
        self.fitting: dict[
            tuple[int, int], list[int]
        ] = {}  # of each block that is shown: the calls that left such bytes
        for at, file, blocks in history.files[calls]:
            for block in blocks:
                body = bodies[at, block]
                self.fitting[file, block] = [
                    n for n, left in history.versions[file, block] if left[: len(body)] == body
                ]

    def survived(self, call: int, place: tuple[int, int]) -> bool:
        """Whether a write survived, or something newer in its place."""
        if any(call < n <= self.calls for n in self.history.unmapped[place]):
            return True
        # what lies past the size is not shown
        return place not in self.fitting or max(self.fitting[place]) >= call

    def shows_later(self, call: int) -> bool:
        """Whether anything is there that was done after a call."""
        changed = [
            n for n in range(call + 1, self.calls + 1) if self.history.answers[n - 1].line.split(" ")[0] in CHANGES
        ]
        changed = [n for n in changed if self.history.answers[n - 1].reply == "ok"]
        return bool(changed) or any(min(calls) > call for calls in self.fitting.values())

    def broken(self) -> str | None:
        """What is not as it should be, if anything."""
        if not all(self.fitting.values()):
            return "a block has bytes that no call left"
        for call, answer in enumerate(self.history.answers, 1):
            word = answer.line.split(" ")[0]
            if answer.reply != "ok" or word not in SYNC_CALLS + BARRIER_CALLS:
                continue
            if word in BARRIER_CALLS and not self.shows_later(call):
                continue
            lost = self.lost(call, answer.line.split(" "))
            if lost:
                return f"call {call}, {answer.line}, is ok, and call {lost} did not survive"
        return None

    def lost(self, call: int, words: list[str]) -> int | None:
        """A call that one covers and that did not survive, or none."""
        covered = self.history.covered(call)
        if words[0] in OVER_METADATA:
            for n in covered:
                answer = self.history.answers[n - 1]
                if answer.reply == "ok" and answer.line.split(" ")[0] in CHANGES and n > self.calls:
                    return n
        synced = None if words[0] == "sync" else self.history.file_of(call, words[1])
        for n, file, block in self.history.writes:
            is_covered = n in covered and (words[0] == "sync" or file == synced)
            if is_covered and not self.survived(n, (file, block)):
                return n
        return None


def fault(first: str, report: str) -> str | None:
    """What is wrong with the report of a script with this first line, or none."""
    answers, tree = answers_in(report.split("\n")[:-1])
    history = History(first, answers)
    if history.wrong:
        return history.wrong
    outline, bodies = outline_of(tree)
    why: str | None = "the tree is that after no prefix of the calls"
    for calls, lines in enumerate(history.outlines):
        blocks = {(at, block) for at, _, found in history.files[calls] for block in found}
        if lines == outline and blocks == bodies.keys():
            why = Recovery(history, calls, bodies).broken()
            if why is None:
                return None
    return why
