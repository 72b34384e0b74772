"""Random inputs of some kinds, each by its seed, and what is wrong with what a program prints of one. What is wanted
comes from the second program, barrierfs_tools.model."""

import random
import signal
from collections.abc import Callable, Sequence
from types import FrameType

from barrierfs_tools.model import blocks, clean, crashes, faults, host, images, stores, threads, widening
from barrierfs_tools.model.grammar import spoken
from barrierfs_tools.scripts import mutated, random_images
from barrierfs_tools.scripts.random_scripts import (
    block_script,
    crowd_script,
    cut_script,
    limit_script,
    session_script,
    store_script,
    threads_script,
)


class Case:
    """An input, as bytes and as the text that is shown of it, the words to run the program with, and what is wrong
    with what is printed, on standard error where the program ends with a fault."""

    def __init__(
        self,
        script: str,
        fault: Callable[[str], str | None],
        words: Sequence[str] = ("replay",),
        data: bytes | None = None,
    ) -> None:
        self.script, self.fault = script, fault
        self.words: Sequence[str] = list(words)
        self.data = script.encode("latin-1") if data is None else data


def blocks_case(rng: random.Random, _: int) -> Case:
    """A script of block requests."""
    script = block_script(rng)
    return Case(script, lambda printed: difference(printed, blocks.report(script)))


def limit_case(rng: random.Random, _: int) -> Case:
    """A script at a limit, or past it."""
    script = limit_script(rng)
    return Case(script, lambda printed: limit_fault(printed, faults.report(script)))


def limit_fault(printed: str, wanted: str | None) -> str | None:
    """A script within the limits has a report."""
    return (
        difference(printed, wanted)
        if wanted
        else None
        if printed.startswith("steps ")
        else f"this is no report: {printed[:200]}"
    )


def session_case(rng: random.Random, _: int) -> Case:
    """A session of one thread."""
    script = session_script(rng)
    return Case(script, lambda printed: difference(printed, host.report(script)))


def cut_case(rng: random.Random, _: int) -> Case:
    """A session whose power is cut."""
    script = cut_script(rng)
    return Case(
        script,
        lambda printed: crash_fault(script.partition("\n")[0], printed) or difference(printed, host.report(script)),
    )


def crowd_case(rng: random.Random, _: int) -> Case:
    """A session that gets to a limit."""
    script = crowd_script(rng)
    return Case(
        script,
        lambda printed: crash_fault(script.partition("\n")[0], printed) or difference(printed, host.report(script)),
    )


def crash_fault(first: str, printed: str) -> str | None:
    """What the report of a cut session, by the first line of its script, breaks, or none; a report that is none is
    wrong too."""
    if not printed.startswith("steps "):
        return f"this is no report: {printed[:200]}"
    return crashes.fault(first, printed)


def difference(printed: str, wanted: str) -> str | None:
    """That what is printed is not what is wanted, or none."""
    return None if printed == wanted else f"and not\n\n{wanted}"


def image_case(rng: random.Random, seed: int) -> Case:
    """An image, most often a damaged one: its tree or its first fault, or whether it is clean."""
    data = random_images.damaged_image(seed)
    words = rng.choice([["show"], ["show"], ["check"], ["widen"]])
    said_by = clean.report if words == ["check"] else images.report
    return Case(f"{words[0]} of image {seed}", lambda printed: image_fault(words, printed, said_by(data)), words, data)


def widen_case(_: random.Random, seed: int) -> Case:
    """An image, most often a damaged one: its bytes once it has long names."""
    data = random_images.damaged_image(seed)
    name = f"widen --raw of image {seed}"
    return Case(name, lambda printed: difference(printed, widening.report(data)), ["widen", "--raw"], data)


def image_fault(words: Sequence[str], printed: str, wanted: str) -> str | None:
    """A widened image has the tree that it had, or had no room."""
    return None if list(words) == ["widen"] and printed == "barrierfs: no room\n" else difference(printed, wanted)


def store_case(rng: random.Random, _: int) -> Case:
    """A store's script, sometimes changed in some places."""
    lines = store_script(rng)
    if rng.random() < 0.2:
        lines = mutated.mutated_lines(rng, lines)
    script = "\n".join(lines) + "\n"
    return Case(
        script,
        lambda printed: stores.broken(script, printed)
        or difference(printed, stores.fault(script) or report_soon(script) or printed),
        ["kv"],
    )


def threads_case(rng: random.Random, _: int) -> Case:
    """A session in threads."""
    script = threads_script(rng)
    return Case(script, lambda printed: threads.fault(script, printed), ["run"])


def mutant_case(_: random.Random, seed: int) -> Case:
    """A script that was changed in some places: its first faulty line, or its report."""
    script = mutated.mutated_script(seed)
    return Case(script, lambda printed: difference(printed, faults.report(script) or report_soon(script) or printed))


class Late(Exception):
    """The second program takes too long."""


SOON = 2  # seconds that the second program may take for the report of a script that was changed


def report(script: str) -> str:
    """The report of a script without a fault, by the second program."""
    first = spoken(script)[0]
    if first.startswith("volume"):
        return host.report(script)
    return stores.report(script) if first.startswith("store") else blocks.report(script)


def report_soon(script: str) -> str | None:
    """The same, or none where the second program takes long."""
    before = signal.signal(signal.SIGALRM, late)
    signal.setitimer(signal.ITIMER_REAL, SOON)
    try:
        return report(script)
    except Late:
        return None
    finally:
        signal.setitimer(signal.ITIMER_REAL, 0)
        signal.signal(signal.SIGALRM, before)


def late(_: int, __: FrameType | None) -> None:
    """What the alarm does."""
    raise Late


CASES = {
    "blocks": blocks_case,
    "session": session_case,
    "cut": cut_case,
    "crowd": crowd_case,
    "limit": limit_case,
    "image": image_case,
    "mutant": mutant_case,
    "store": store_case,
    "threads": threads_case,
    "widen": widen_case,
}
HOSTILE = ("image", "mutant")  # kinds of inputs of which any bytes may come, and none may take long


def case(kind: str, seed: int) -> Case:
    """The random input of this kind and seed."""
    return CASES[kind](random.Random(seed), seed)
