"""Scripts with some lines, words, numbers or bytes changed by a seed: shared by examples/random and tools/campaign. A
character stands for a byte."""

import functools
import random
import re

from barrierfs_tools.model.grammar import (
    BLOCKS,
    HEADER,
    INODES,
    JOURNAL,
    LARGEST,
    LENGTH,
    LONG_NAMES,
    MOST_EVENTS,
    MOST_THREADS,
    NAMES,
    PLACE,
    STEPS,
    TIMES,
    WORDS,
)
from barrierfs_tools.scripts import random_scripts

MUTATIONS = 20  # of one script
RANGES = [BLOCKS, INODES, JOURNAL, LENGTH, STEPS, *HEADER.values()]
NUMBERS = [PLACE, TIMES, MOST_EVENTS, MOST_THREADS, NAMES, LONG_NAMES, 32, 127, LARGEST, 2**64, 2**128]
LIMITS = sorted({limit for limits in RANGES for limit in limits} | {*NUMBERS})
SPOILED = ["", "00", "01", "-1", "+1", "1.0", "1x", "0x10", "1_000", "x", "#", "\t"]


@functools.lru_cache(maxsize=4)
def whole_script(seed: int) -> str:
    """The script of this seed, before it is changed."""
    rng = random.Random(f"script {seed}")
    chosen = rng.random()
    if chosen < 0.35:
        return "\n".join(random_scripts.short_script(rng)) + "\n"
    if chosen < 0.45:
        return limit_script(rng)
    lines = random_scripts.cut_script(rng).split("\n")
    # a long one repeats its first lines
    return "\n".join([*lines[:80], *([] if "events" in lines[:80] else ["events"]), *lines[-30:]])


def limit_script(rng: random.Random) -> str:
    """A script at a limit or past it, but for those of many events."""
    while True:
        script = random_scripts.limit_script(rng)
        if not re.search(r"^(round|back|.* x) [0-9]{6}", script, re.MULTILINE):
            return script


def mutated_script(seed: int) -> str:
    """The script of this seed, changed in a place or some."""
    return "\n".join(mutated_lines(random.Random(seed), whole_script(seed // MUTATIONS).split("\n")))


def mutated_lines(rng: random.Random, lines: list[str]) -> list[str]:
    """The lines of a script, changed in a place or some."""
    for _ in range(rng.choice([1, 1, 1, 2, 3, 5])):
        change = rng.choice([drop, double, swap, number, number, number, word, word, byte, byte, end])
        lines = change(rng, lines)
    return lines


def drop(rng: random.Random, lines: list[str]) -> list[str]:
    """Some lines left out."""
    at = rng.randrange(len(lines))
    return lines[:at] + lines[at + rng.choice([1, 1, 1, 3, 10]) :] or [""]


def double(rng: random.Random, lines: list[str]) -> list[str]:
    """A line doubled, or all from one on."""
    at, place = rng.randrange(len(lines)), rng.randrange(len(lines))
    return lines[: at + 1] + lines[at:] if rng.random() < 0.5 else lines[:place] + [lines[at]] + lines[place:]


def swap(rng: random.Random, lines: list[str]) -> list[str]:
    """Two lines exchanged."""
    at, other = rng.randrange(len(lines)), rng.randrange(len(lines))
    lines = list(lines)
    lines[at], lines[other] = lines[other], lines[at]
    return lines


def number(rng: random.Random, lines: list[str]) -> list[str]:
    """A number at a limit or past one, or next to what it was, or spelled wrong."""
    places = [at for at, line in enumerate(lines) if re.search(r"\b[0-9]+\b", line)]
    if not places:
        return lines
    at = rng.choice(places)
    found = rng.choice(list(re.finditer(r"[0-9]+", lines[at])))
    kind, old = rng.random(), int(found[0])
    fresh = (
        str(max(0, old + rng.choice([-1, 1])))
        if kind < 0.3
        else str(max(0, rng.choice(LIMITS) + rng.choice([-1, 0, 1])))
        if kind < 0.85
        else rng.choice(SPOILED)
    )
    return changed(lines, at, lines[at][: found.start()] + fresh + lines[at][found.end() :])


def changed(lines: list[str], at: int, line: str) -> list[str]:
    """The lines with another one at this place."""
    return lines[:at] + line.split("\n") + lines[at + 1 :]


def word(rng: random.Random, lines: list[str]) -> list[str]:
    """A word left out, doubled, or another one."""
    at = rng.randrange(len(lines))
    words = lines[at].split(" ")
    place = rng.randrange(len(words))
    known = [
        rng.choice(sorted(WORDS)),
        rng.choice(rng.choice(lines).split(" ")),
        words[place].upper(),
        words[place][:-1],
        "x",
        "free",
        "names",
        "30",
    ]
    fresh: list[str] = rng.choice(
        [[], [words[place]] * 2, [rng.choice(known)], [rng.choice(known)], [words[place], rng.choice(known)]]
    )
    return changed(lines, at, " ".join(words[:place] + fresh + words[place + 1 :]))


def byte(rng: random.Random, lines: list[str]) -> list[str]:
    """A byte more, less, or another one."""
    at = rng.randrange(len(lines))
    place = rng.randrange(len(lines[at]) + 1)
    fresh = rng.choice(
        ["", " ", "\t", "\r", "\n", "#", "\0", "/", chr(rng.randrange(256)), chr(rng.randrange(0x20, 0x7F))]
    )
    return changed(lines, at, lines[at][:place] + fresh + lines[at][place + rng.choice([0, 1]) :])


def end(rng: random.Random, lines: list[str]) -> list[str]:
    """Other ends: the text is cut off, or something stands behind it."""
    text = "\n".join(lines)
    return rng.choice(
        [
            text[: rng.randrange(len(text) + 1)],
            text.rstrip("\n"),
            text + "\n",
            text + rng.choice(lines),
            text + "recover d3\n",
        ]
    ).split("\n")
