"""Random files of claims, and whether what --complete says of them is what schedules of the whole stack leave: each medium of it
is left by the schedule that is built for it, and no random schedule leaves another medium, or that one with other answers."""
import random
from typing import NamedTuple

from barrierfs_tools.hunt.claims import Place
from barrierfs_tools.hunt.complete import Explorer, Keys, Path, media_of
from barrierfs_tools.hunt.media import Content, Tops, content_name
from barrierfs_tools.hunt.orders import Host
from barrierfs_tools.hunt.reading import Asked
from barrierfs_tools.hunt.realise import realised
from barrierfs_tools.hunt.sessions import Run, Start
from barrierfs_tools.hunt.strategies import ROTATION, schedule, strategy_of

FILES = ["/a", "/b", "/c"]
WORDS = (
    ["write"] * 4
    + ["fdatabarrier"] * 2
    + ["fbarrier", "fsync", "fdatasync", "rename", "create", "unlink", "truncate", "sync"]
)

Pair = tuple[Content, frozenset[Place]]


def call_of(rng: random.Random, value: int) -> str:
    """A random call."""
    path, word = rng.choice(FILES), rng.choice(WORDS)
    if word == "write":
        return f"write {path} {rng.choice([0, 0, 1024, 2048])} 1024 {value:02x}"
    if word == "rename":
        return f"rename {path} {rng.choice([*FILES, '/d'])}"
    if word == "create":
        return f"create {rng.choice(['/c', '/d'])}"
    if word == "truncate":
        return f"truncate {path} {rng.choice([0, 1024])}"
    return word if word == "sync" else f"{word} {path}"


def made(seed: int, header: tuple[str, ...] = ()) -> str:
    """A random file of claims, of one or two threads."""
    rng = random.Random(seed)
    lines = ["volume inodes 32 zones 64 journal 128", *header, "thread 1"]
    for path in FILES[: rng.choice([2, 3])]:
        lines += [f"create {path}", f"write {path} 0 {rng.choice([1024, 2048])} 01"]
    lines += ["sync", "begin"]
    # which holds, and lets answers count
    claim = f"if answered line {len(lines) - 1} then found >= 0"
    value = 1
    for thread in range(1, rng.choice([2, 2, 2, 3])):
        lines += [f"thread {thread}"] if thread > 1 else []
        for _ in range(rng.choice([2, 3, 4]) if thread == 1 else rng.choice([1, 2])):
            value += 1
            lines.append(call_of(rng, value))
    return "\n".join([*lines, "claims", claim, ""])


class Said(NamedTuple):
    """What --complete says: of each medium how the host got there and what is kept; each medium with its answers; and why it
    gave up, if it did."""

    media: dict[Content, tuple[Path, frozenset[int]]]
    pairs: set[Pair]
    gave_up: str | None
    states: int


def said_of(start: Start, seconds: float, keys: Keys = Host.key) -> Said:
    """What --complete says of this file."""
    media: dict[Content, tuple[Path, frozenset[int]]] = {}

    def watch(path: Path, kept: frozenset[int], tops: Tops) -> None:
        media.setdefault(content_name(tops), (path, kept))

    explorer = Explorer(start, seconds, watch, keys)
    answer = explorer.explored()
    return Said(media, explorer.judged, answer.gave_up, answer.states)


def is_left(start: Start, content: Content, path: Path, kept: frozenset[int]) -> bool:
    """Whether the schedule that is built for a medium leaves it."""
    return media_of(realised(start, path, kept)) == content


class Watched(Run):
    """A schedule whose media are noted, each with the answers by then."""

    left: set[Pair]

    def look(self, anew: bool = True) -> None:
        self.left.add((media_of(self), self.answered))


def left_by(start: Start, schedules: int) -> set[Pair]:
    """What random schedules leave."""
    found: set[Pair] = set()
    for seed in range(schedules):
        run = Watched(start)
        run.left = found
        run.look()
        schedule(strategy_of(seed), seed // len(ROTATION))(run)
    return found


class Compared(NamedTuple):
    """What a comparison found: media, how many of them are left by their schedules, and what random ones leave besides."""

    media: int
    left: int
    seen: int
    outside: int
    gave_up: bool


def compared(text: str, schedules: int, seconds: float = 30.0) -> Compared:
    """Compares the two of this file."""
    start = Start(Asked(text))
    said = said_of(start, seconds)
    left = sum(is_left(start, content, *how) for content, how in said.media.items())
    if said.gave_up:
        return Compared(len(said.media), left, 0, 0, True)
    seen = left_by(start, schedules)
    return Compared(len(said.media), left, len(seen), len(seen - said.pairs), False)
