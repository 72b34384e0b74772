"""The report of a volume script whose threads ran at once, checked by what docs/FORMATS.md and README.md say of such
a report. Which calls came first is read off the printed answers; all else that two runs may have different is
bounded, not computed."""

import re

from barrierfs_tools.model import crashes, faults
from barrierfs_tools.model.grammar import LIMIT, READS, WORDS, spoken


class RunReader(faults.Reader):
    """Reads scripts of threads: volume scripts alone, in which no line begins with `flash`."""

    def line(self, words: list[str]) -> None:
        """Reads a line."""
        if words[0] == "flash" or self.section == "first" and words[0] in WORDS and words[0] != "volume":
            raise faults.Wrong("order")
        super().line(words)


def refusal(text: str) -> str | None:
    """What the program says of the first line that is wrong, or none."""
    return faults.first_fault(RunReader(), text)


class Asked:
    """What a script asks for: its header's numbers, and the calls of each thread."""

    def __init__(self, script: str) -> None:
        lines = spoken(script)
        self.first, self.numbers, self.elevator = lines[0], {"limit": LIMIT}, False
        self.programs: list[list[str]] = []
        for line in lines[1 : lines.index("events")]:
            words = line.split(" ")
            if words[0] == "thread":
                self.programs.append([])
            elif self.programs:
                self.programs[-1].append(line)
            elif words[0] == "elevator":
                self.elevator = True
            else:
                self.numbers[words[0]] = int(words[1])


class Printed:
    """The figures and the answers of a report."""

    def __init__(self, report: str) -> None:
        lines = report.split("\n")[:-1]
        self.steps, self.requests = number(lines[0], "steps"), number(lines[1], "requests")
        self.answers, _ = crashes.answers_in(lines)
        at = 2 + len(self.answers)
        end = next(at for at, line in enumerate(lines) if line.startswith("closed "))
        self.threads, self.closed, self.found = (
            lines[at:end],
            number(lines[end], "closed"),
            number(lines[end + 1], "found"),
        )


def number(line: str, word: str) -> int:
    """The figure of a line that begins with this word."""
    found = re.fullmatch(rf"{word} (0|[1-9][0-9]*)", line)
    if not found:
        raise ValueError(f"no figure `{word}`: {line}")
    return int(found[1])


def broken(script: str, report: str) -> str | None:
    """What is wrong with a report of this script, or none."""
    try:
        asked, printed = Asked(script), Printed(report)
    except (ValueError, IndexError, StopIteration) as why:
        return f"this is no report: {why}"
    return (
        programs_broken(asked, printed)
        or figures_broken(asked, printed)
        or ends_broken(asked, printed)
        or crashes.fault(asked.first, report)
    )


def programs_broken(asked: Asked, printed: Printed) -> str | None:
    """Each thread did its whole program, in order."""
    for thread, calls in enumerate(asked.programs, 1):
        done = [answer.line for answer in printed.answers if answer.thread == thread]
        if done != calls:
            return f"thread {thread} did not do its calls: {done}"
    wanted = [f"thread {thread}: {len(calls)} of {len(calls)}" for thread, calls in enumerate(asked.programs, 1)]
    return None if printed.threads == wanted else f"threads stand so: {printed.threads}"


def is_cut(asked: Asked, printed: Printed) -> bool:
    """The power went at the steps of the line `cut`."""
    return asked.numbers.get("cut") == printed.steps


def figures_broken(asked: Asked, printed: Printed) -> str | None:
    """What is wrong with the figures, or none."""
    limit, cut = asked.numbers["limit"], asked.numbers.get("cut")
    if printed.requests > limit or cut is not None and printed.steps > cut or printed.found > printed.closed:
        return "a figure is past its bound"
    if is_cut(asked, printed) or may_fail(asked, printed) or printed.requests == limit:
        return None
    if printed.found != printed.closed:
        return "all was to be on the medium"
    # a command has a request of its own, but for those that the elevator merges, and one persist for each block at most
    if printed.steps > 2 * printed.requests or not asked.elevator and printed.steps < printed.requests:
        return "these are no steps of these requests"
    return None


def ends_broken(asked: Asked, printed: Printed) -> str | None:
    """Calls end otherwise than by the tree for a cause alone, and all calls behind them too."""
    down, failed = False, None
    for answer in printed.answers:
        reply, is_query = answer.reply, answer.line.split(" ")[0] in READS
        read_only = re.fullmatch(r"read-only (0|[1-9][0-9]*)", reply)
        if down and reply != "down":
            return f"{answer.line} is answered when the power is off"
        if failed and not is_query and reply not in ("down", failed):
            return f"{answer.line} is answered behind {failed}"
        if reply == "down":
            down = True
        elif read_only:
            failed = reply
            if is_query or int(read_only[1]) >= printed.requests:
                return f"{answer.line} is {reply}"
        elif reply == "session full" and (is_query or printed.requests != asked.numbers["limit"]):
            return f"{answer.line} is full at {printed.requests} requests"
    if down and not is_cut(asked, printed):
        return "the power was not to go"
    return "no transfer was to fail" if failed and not may_fail(asked, printed) else None


def may_fail(asked: Asked, printed: Printed) -> bool:
    """As many transfers were made as the line `fail` says, each of them a step."""
    return asked.numbers.get("fail", printed.steps + 1) <= printed.steps


def fault(script: str, printed: str) -> str | None:
    """What is wrong with what the program prints of this script with the word `run`, or none."""
    said = refusal(script)
    if said:
        return None if printed == said else f"and not\n\n{said}"
    return broken(script, printed)
