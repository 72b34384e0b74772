"""Scripts of a key-value store by docs/FORMATS.md: a second program. A store's session is that of a volume script,
which host.py does; here are the calls of that script, the first faulty line of a text that is none, and what is read
of the log."""

import re

from barrierfs_tools.model import faults, host, recovery
from barrierfs_tools.model.grammar import BLOCK, HEADER, LENGTH, MOST_CALLS, MOST_ROOM, STORE_HEADER, WORDS, spoken

TEXT = r"[A-Za-z0-9._-]"
KEY, VALUE = re.compile(TEXT + r"{1,32}"), re.compile(TEXT + r"{1,200}")
# The words of the grammar by what may stand first in a line before `events`, and behind it.
BEFORE = {"store", "put", "flush", "events", "recover", *WORDS}
FILL = LENGTH[1]


def block(number: int, key: str, value: str) -> bytes:
    """The block that spells a put."""
    data = b"WAL1" + number.to_bytes(4, "big") + bytes([len(key), len(value)]) + key.encode() + value.encode()
    return data.ljust(BLOCK, b"\0")


def put_in(body: bytes) -> tuple[int, str, str] | None:
    """The number, the key and the value that a block spells, or none."""
    if body[:4] != b"WAL1":
        return None
    number, key_size, value_size = int.from_bytes(body[4:8], "big"), body[8], body[9]
    key, value = (
        part.decode("latin-1") for part in (body[10 : 10 + key_size], body[10 + key_size : 10 + key_size + value_size])
    )
    if not KEY.fullmatch(key) or not VALUE.fullmatch(value) or block(number, key, value) != body:
        return None
    return number, key, value


def held_in(bodies: list[bytes]) -> list[tuple[str, str]]:
    """The puts that the first blocks of a log spell, each with the number of its place."""
    found: list[tuple[str, str]] = []
    for number, body in enumerate(bodies, 1):
        put = put_in(body)
        if put is None or put[0] != number:
            break
        found.append(put[1:])
    return found


class Files(recovery.Tree):
    """The blocks of each file that a medium has, up to the first hole."""

    def __init__(self, medium: recovery.Medium, table: int) -> None:
        self.bodies: dict[str, list[bytes]] = {}
        super().__init__(medium, table)

    def file(self, number: int, path: str) -> None:
        zones = self.zones(self.inode(number)[3])
        self.bodies[path] = [
            self.bytes_of(zones[at]) for at in range(next(at for at in range(len(zones) + 1) if at not in zones))
        ]


def calls_of(room: int, asked: list[list[str]]) -> list[str]:
    """The lines of the calls of a store with so many blocks, of which this is asked."""
    calls, number = ["create /log"], 0
    calls += [f"write /log {at} {min(FILL, 1_024 * room - at)} 00" for at in range(0, 1_024 * room, FILL)]
    calls.append("fsync /log")
    for word, *rest in asked:
        if word == "flush":
            calls.append("fdatasync /log")
        else:
            calls += [f"bytes /log {1_024 * number} {block(number + 1, *rest).hex()}", "fdatabarrier /log"]
            number += 1
    return calls


def volume_script(text: str) -> str:
    """The volume script of a store's script."""
    lines = [line.split(" ") for line in spoken(text)]
    room, at = int(lines[0][1]), lines.index(["events"])
    asked = [words for words in lines[1:at] if words[0] in ("put", "flush")]
    header = [" ".join(words) for words in lines[1:at] if words[0] in STORE_HEADER]
    script = [f"volume inodes 32 zones {room + 16} journal 128", *header, "thread 1", *calls_of(room, asked)]
    return "\n".join(script + [" ".join(words) for words in lines[at:]]) + "\n"


def acknowledged(answers: list[str]) -> int:
    """The puts that ended before the last flush that was answered with `ok`."""
    puts = last = 0
    for answer in answers:
        puts += answer.startswith("1 bytes ")
        if answer.startswith("1 fdatasync ") and answer.endswith(": ok"):
            last = puts
    return last


def report(text: str) -> str:
    """What `kv` prints of this script."""
    session = host.ended(volume_script(text))
    held = held_in(Files(session.recovered(), session.places.table).bodies.get("/log", []))
    lines = [
        f"steps {session.device.steps}",
        f"requests {session.requests}",
        f"acknowledged {acknowledged(session.answers)}",
        f"held {len(held)}",
    ]
    return "".join(line + "\n" for line in lines + [f"{key} {value}" for key, value in sorted(dict(held).items())])


def broken(text: str, printed: str) -> str | None:
    """What a text that `kv` printed of this script breaks of its promises, or none: what was acknowledged is held,
    and what is held are the pairs of the first puts."""
    found = re.fullmatch(r"steps \d+\nrequests \d+\nacknowledged (\d+)\nheld (\d+)\n((?:[^\n]*\n)*)", printed)
    if not found:
        return None
    count = int(found[2])
    puts = [line.split(" ")[1:] for line in spoken(text) if line.startswith("put ")]
    pairs = {key: value for key, value, *_ in puts[:count]}
    if int(found[1]) > count or count > len(puts):
        return f"{found[1]} puts were acknowledged, and {count} are held"
    wanted = "".join(f"{key} {value}\n" for key, value in sorted(pairs.items()))
    return None if found[3] == wanted else f"the first {count} puts leave\n\n{wanted}"


class Reader(faults.Reader):
    """Reads the lines of a store's script."""

    def __init__(self) -> None:
        super().__init__()
        self.kind, self.threads, self.room, self.puts = "volume", 1, 0, 0

    def line(self, words: list[str]) -> None:
        if words[0] not in BEFORE:
            raise faults.Wrong("word")
        self.sections()[self.section](words)

    def first(self, words: list[str]) -> None:
        if words[0] != "store":
            raise faults.Wrong("order")
        faults.spelled(words[1:], "n")
        faults.within(words[1], (1, MOST_ROOM))
        self.section, self.room = "header", int(words[1])
        self.calls = len(calls_of(self.room, []))

    def header(self, words: list[str]) -> None:
        if words[0] not in STORE_HEADER:
            self.section = "body"
            self.body(words)
            return
        if words[0] in self.seen:
            raise faults.Wrong("twice")
        self.seen.add(words[0])
        faults.spelled(words[1:], "n")
        faults.within(words[1], HEADER[words[0]])

    def body(self, words: list[str]) -> None:
        if words[0] == "events":
            faults.spelled(words[1:], "")
            self.section = "events"
        elif words[0] == "put":
            if len(words) != 3 or not KEY.fullmatch(words[1]) or not VALUE.fullmatch(words[2]):
                raise faults.Wrong("word")
            self.puts += 1
            self.more(2)
        elif words[0] == "flush":
            faults.spelled(words[1:], "")
            self.more(1)
        else:
            raise faults.Wrong("order")

    def more(self, calls: int) -> None:
        """So many calls more, which the limits must allow."""
        self.calls += calls
        if self.puts > self.room or self.calls > MOST_CALLS:
            raise faults.Wrong("number")


def fault(text: str) -> str | None:
    """What `kv` says of the first line that is wrong, or none."""
    return faults.first_fault(Reader(), text)
