"""The words that the launcher's usage shows, and those that the program takes."""
import re
from typing import NamedTuple

from barrierfs_tools.failed import Failed
from barrierfs_tools.runs import child

WRONG = 2  # the status of wrong words


class Command(NamedTuple):
    """A command, the names of its numbers, and whether `--raw` may stand behind it."""

    name: str
    numbers: list[str]
    has_raw: bool


def ended(program: str, *words: str) -> tuple[int, str]:
    """Status and standard error of the program with these words and an empty input."""
    done = child.run([program, *words])
    return done.status, done.err.decode()


def of_launcher(usage: str) -> list[Command]:
    """The commands of the launcher's usage."""
    commands = []
    for said in re.split(r"^(?:usage:|      ) barrierfs ", usage.split("\n\n", maxsplit=1)[0], flags=re.M)[1:]:
        name, *words = re.split(r" {2,}|\n", said)[0].split()
        if not name.startswith("--"):
            numbers = [word for word in words if len(word) == 1 and word.isupper()]
            commands.append(Command(name, numbers, "--raw" in said))
    return commands


def of_program(program: str) -> list[Command]:
    """The commands that the program tells where there is no word, each as it tells it behind words that are too
    many."""
    commands = []
    status, said = ended(program)
    names = re.search(r"\[subcommands: (.*)\]", said)
    if status != WRONG or names is None:
        raise Failed(f"without a word the program ends with status {status} and says: {said}")
    for name in names[1].split(", "):
        said = ended(program, name, *"1234567")[1]
        usage = re.search(rf"^Usage: barrierfs {name}(.*)$", said, flags=re.M)
        if usage is None:
            raise Failed(f"with too many words behind {name} the program says: {said}")
        commands.append(Command(name, re.findall(r"<(\w+)>", usage[1]), "[OPTIONS]" in usage[1]))
    return commands


def compare(usage: str, program: str) -> int:
    """How many commands there are; they are the same."""
    shown, taken = of_launcher(usage), of_program(program)
    if shown != taken:
        raise Failed(f"the launcher shows other words than the program takes:\n{shown}\n{taken}")
    for command in shown:
        if (ended(program, command.name, "--raw")[0] != WRONG) != command.has_raw:
            raise Failed(f"{command.name} --raw: the launcher says otherwise")
    return len(shown)
