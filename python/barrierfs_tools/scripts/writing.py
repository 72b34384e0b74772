"""Lines that do events, without a list of all of them."""

import bisect
import itertools
from collections.abc import Callable

from barrierfs_tools.model.grammar import PARTS, TIMES
from barrierfs_tools.scripts.reading import Script


class Events:
    """The single events of a script, numbered from 0, without a list of them all."""

    def __init__(self, script: Script) -> None:
        self.units = [script.unit(line) for _, line in script.events]
        self.starts = [0]
        for unit, times in self.units:
            self.starts.append(self.starts[-1] + len(unit) * times)

    def __len__(self) -> int:
        """How many there are."""
        return self.starts[-1]

    def prefix(self, count: int) -> list[str]:
        """Lines that do the first so many events."""
        whole = bisect.bisect_right(self.starts, count) - 1
        lines = [line for unit, times in self.units[:whole] for line in repeated(unit, times)]
        if whole < len(self.units):
            unit, _ = self.units[whole]
            times, rest = divmod(count - self.starts[whole], len(unit))
            lines += [*repeated(unit, times), *unit[:rest]]
        return lines

    def places(self, event: str) -> tuple[int, Callable[[int], int]]:
        """The places of an event: how many there are, and the place of each by its number."""
        sums = [0]
        found: list[tuple[int, int, list[int]]] = []
        for (unit, times), start in zip(self.units, self.starts):
            inside = [at for at, other in enumerate(unit) if other == event]
            if inside:
                found.append((start, len(unit), inside))
                sums.append(sums[-1] + len(inside) * times)

        def place(number: int) -> int:
            row = bisect.bisect_right(sums, number) - 1
            start, width, inside = found[row]
            times, within = divmod(number - sums[row], len(inside))
            return start + times * width + inside[within]

        return sums[-1], place


def repeated(unit: list[str], times: int) -> list[str]:
    """Lines that do these events so many times."""
    if times == 0:
        return []
    if len(unit) == 1:
        return [f"{unit[0]} x {least}" for least in pieces(times)]
    word = "back" if unit[0] == PARTS[0] else "round"
    return [f"{word} {least}" for least in pieces(times)]


def pieces(times: int, most: int = TIMES) -> list[int]:
    """So many repeats, as many as a line may have at a time."""
    return [most] * (times // most) + ([times % most] if times % most else [])


def packed(events: list[str]) -> list[str]:
    """The events with runs of one as one line."""
    lines: list[str] = []
    for event, run in itertools.groupby(events):
        count = len(list(run))
        if " x " in event or event.startswith(("round", "back")):
            lines += [event] * count
        else:
            lines.append(event if count == 1 else f"{event} x {count}")
    return lines
