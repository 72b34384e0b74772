"""Recoveries that are stopped after each number of their steps, by the second program."""

import random
from collections.abc import Iterator

from barrierfs_tools.failed import Failed
from barrierfs_tools.model import host, recovery
from barrierfs_tools.runs.program import text_of
from barrierfs_tools.scripts.reading import Script

SYNC = """volume inodes 32 zones 64 journal 128
thread 1
mkdir /a
create /a/f
write /a/f 0 3 61
fsync /a/f
events
round 100
"""
SEGMENTS = 64  # of the flash log
DRAWN = 20  # attempts of drawn places for each session
PAST = 2  # numbers of steps that are tried past the last step


def wrapped() -> str:
    """A hundred blocks, each with a barrier: the log comes round."""
    calls = [line for at in range(100) for line in (f"write /f {1024 * at} 1024 {at:02x}", "fbarrier /f")]
    return (
        "\n".join(["volume inodes 32 zones 256 journal 128", "thread 1", "create /f", *calls, "events", "round 5000"])
        + "\n"
    )


def sessions(names: list[str]) -> Iterator[tuple[str, str]]:
    """Name and text of each session."""
    if names:
        for name in names:
            script = Script(text_of(name))
            if not script.is_volume:
                raise Failed(f"{name} is no volume script")
            yield name, script.text(cut=script.cut, attempts=False)
        return
    yield "fsync", SYNC
    script = Script(wrapped())
    for cut in (700, 1100, 1500):
        yield f"wrapped log, cut after {cut} steps", script.text(cut=cut)


def variants(text: str) -> Iterator[tuple[str, str]]:
    """The script on each device, with each scheduler."""
    script = Script(text)
    kept = [line for line in script.head[script.first + 1 :] if line != "elevator" and not line.startswith("flash ")]
    cut = [] if script.cut is None else [f"cut {script.cut}"]
    chosen: list[list[str]] = [[], [f"flash {SEGMENTS}"], ["elevator"], ["elevator", f"flash {SEGMENTS}"]]
    for lines in chosen:
        head = [*script.head[: script.first + 1], *lines, *cut, *kept]
        yield " ".join(lines) or "as it stands", "\n".join(
            [*head, "events", *(line for _, line in script.events)]
        ) + "\n"


class Recoveries:
    """The recoveries of a session, by the second program."""

    def __init__(self, text: str) -> None:
        self.session = host.ended(text)
        self.medium = self.session.surface()

    def attempt(self, words: list[str]) -> recovery.Medium:
        """The medium after an attempt of these words."""
        script = self.session.script
        return recovery.attempt(self.medium, script.zones, script.depth, script.flash, words)

    def steps(self) -> int:
        """The number of steps after which an attempt has done all."""
        whole, count = self.attempt(["d1000000"]), 0
        while self.attempt([f"d{count}"]) != whole:
            count += 1
        return count


def attempts(steps: int, rng: random.Random) -> Iterator[str]:
    """The attempts that are tried behind a script, each as lines."""
    numbers = range(steps + 1 + PAST)
    for first in numbers:
        for second in numbers:
            yield f"recover d{first}\nrecover d{second}\n"
    for _ in range(DRAWN):
        yield "".join(drawn(steps, rng) + "\n" for _ in range(rng.randint(1, 3)))


def drawn(steps: int, rng: random.Random) -> str:
    """An attempt of drawn places."""
    count = rng.randint(1, 2 * steps + 2)
    return "recover" + "".join(f" {rng.choice('tp')}{rng.randrange(4)}" for _ in range(count))
