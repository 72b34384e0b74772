"""Random scripts of some kinds, each by its seed."""

import itertools
import random
from collections.abc import Callable, Iterator

from barrierfs_tools.model.grammar import (
    BLOCKS,
    HEADER,
    INODES,
    JOURNAL,
    LENGTH,
    MOST_ATTEMPTS,
    MOST_CALLS,
    MOST_DIGITS,
    MOST_EVENTS,
    MOST_REQUESTS,
    MOST_THREADS,
    MOST_WORDS,
    PLACE,
    STEPS,
    TIMES,
    ZONES,
)

Parts = tuple[list[str], list[str]]  # of a script: the lines before the events, and those from there on


def repeated(rng: random.Random, line: str, most: int) -> str:
    """A line that may be done more than once."""
    return f"{line} x {rng.randint(1, most)}" if rng.random() < 0.3 else line


def header(rng: random.Random, lines: list[str]) -> list[str]:
    """Some of these header lines, in any order."""
    chosen = [line for line in lines if rng.random() < 0.4]
    rng.shuffle(chosen)
    return chosen


def add_failure(rng: random.Random, script: list[str], most: int) -> None:
    """Lets a transfer fail in one of five scripts."""
    if rng.random() < 0.2:
        script.insert(1, f"fail {rng.randint(1, most)}")


SIZES = [1, 1, 2, 3, 4, 6, 8, 64]  # of a queue, or of the device's


def block_script(rng: random.Random) -> str:
    """A script of block requests."""
    script = full_script(rng) if rng.random() < 0.2 else short_script(rng)
    if rng.random() < 0.4:
        script.insert(1, f"flash {rng.choice([3, 3, 3, 4, 5, 64])}")
    add_failure(rng, script, 30)
    return "\n".join(script) + "\n"


def short_script(rng: random.Random) -> list[str]:
    """A short one, as lines."""
    kind = rng.choice(["device", "blocks", "blocks", "blocks"])
    count = rng.choice([1, 2, 3, 5, 8, 20])
    lines = [f"depth {rng.choice(SIZES)}", f"cut {rng.randint(0, 60)}"]
    names = ["receive", "transfer", "persist"]
    if kind == "blocks":
        lines += [f"queue {rng.choice(SIZES)}", "elevator"]
        names += ["submit", "accept", "dispatch"]
    script = [f"{kind} {count}", *header(rng, lines)]
    for _ in range(rng.choice([0, 1, 4, 10, 30, 60])):
        order = rng.choice(["free", "ordered", "ordered", "barrier"])
        put = f"put {rng.randrange(count)} {rng.randrange(256):02x} {order}"
        script.append("flush" if rng.random() < 0.07 else put)
    script.append("events")
    for _ in range(rng.choice([0, 10, 60, 200, 400])):
        script.append(placed(rng, repeated(rng, rng.choice(names), 9)))
    return script


def full_script(rng: random.Random) -> list[str]:
    """Many requests of neighbouring blocks, and long runs of one event: scheduler, queues and device get full."""
    kind, count = rng.choice(["device", "blocks", "blocks", "blocks"]), rng.choice([20, 40, 150, 400])
    lines, words = [f"depth {rng.choice(SIZES)}"], ["receive", "transfer", "persist"]
    if kind == "blocks":
        lines += [f"queue {rng.choice(SIZES)}", "elevator", "elevator"]
        words += ["submit", "accept", "submit", "accept", "dispatch"]
    script = [f"{kind} {count}", *dict.fromkeys(header(rng, lines))]
    at, order = 0, "free"
    for _ in range(rng.choice([100, 200, 300])):
        at = (at + 1) % count if rng.random() < 0.93 else rng.randrange(count)
        order = rng.choice(["free", "ordered"]) if rng.random() < 0.03 else order
        ends = rng.random()
        script.append(
            "flush" if ends < 0.004 else f"put {at} {rng.randrange(256):02x} {'barrier' if ends < 0.01 else order}"
        )
    script.append("events")
    if kind == "blocks" and rng.random() < 0.7:
        script += ["submit x 64", "accept x 64"] * rng.randint(1, 6)
    for _ in range(rng.choice([20, 60, 150])):
        script.append(placed(rng, repeated(rng, rng.choice(words), 150)))
    return script


def placed(rng: random.Random, line: str) -> str:
    """An event with its place, where it has one."""
    word, space, rest = line.partition(" ")
    if word not in ("dispatch", "transfer", "persist") or rest[:1].isdigit():
        return line
    return f"{word} {rng.choice([0, 0, 0, 1, 2, 3, 7])}{space}{rest}"


LONG = [f"name-of-{count}-bytes-{'b' * 30}"[:count] for count in (14, 15, 30, 31)]


def path(rng: random.Random) -> str:
    """A path, most often of few names."""
    names = ["a", "b", "c", "dd"] * 7 + ["e.f", "..", "x_y", *LONG]
    parts = [rng.choice(names) for _ in range(rng.choice([1, 1, 1, 2, 2, 3]))]
    return "/" + "/".join(parts) if rng.random() < 0.93 else rng.choice(["/", "a", "//", "/a/"])


def call(rng: random.Random, offsets: list[int], value: int, place: str | None = None) -> str:
    """A call, with one of these offsets, and on this file if one is named."""
    word = rng.choice(
        "mkdir mkdir create create create rmdir unlink link rename rename write write write write bytes truncate read list stat "
        "fbarrier fdatabarrier fsync fdatasync sync".split()
    )
    place, offset = place or path(rng), rng.choice(offsets)
    length = rng.choice([1, 3, 1024, 1500, 5000, 65_536])
    return {
        "sync": "sync",
        "write": f"write {place} {offset} {length} {value:02x}",
        "bytes": f"bytes {place} {offset} {''.join(f'{rng.randrange(3):02x}' for _ in range(rng.choice([1, 4, 100])))}",
        "truncate": f"truncate {place} {rng.choice([0, 1, 1000, 1024, 2048, 7168, 7000, offset])}",
        "read": f"read {place} {offset} {length}",
        "link": f"link {place} {path(rng)}",
        "rename": f"rename {place} {path(rng)}",
    }.get(word, f"{word} {place}")


NEAR = [0, 0, 5, 1000, 1024, 3000, 7168]
FAR = [*NEAR, 7165, 20_000, 531_446, 531_456, 1_054_288, 268_966_900, 268_966_911, 4_294_967_295]


def many_names(rng: random.Random) -> list[str]:
    """Calls past a limit: the links of a file or of a directory, or the zones that an inode names itself."""
    kind = rng.choice(["links", "directories", "slots", "moves", "moves", "moves", "far", "numbers", "numbers"])
    count = rng.randint(248, 253)
    if kind == "numbers":
        # as many bodies as a descriptor has, or as many zones of numbers that are freed as a revoke block has
        drawn: list[tuple[int, list[str]]] = [
            (rng.randint(116, 118), []),
            (rng.randint(76, 78), []),
            (rng.randint(249, 251), ["write /a 7168 1 11"]),
            (rng.randint(123, 125), ["write /a 7168 1 11"]),
        ]
        count, more = rng.choice(drawn)
        return [
            "create /a",
            *more,
            *(f"write /a {1024 * (519 + 512 * at)} 1 22" for at in range(count)),
            "sync",
            "unlink /a",
        ]
    if kind == "far":
        places = rng.sample([6, 7, 518, 519, 1030, 1031, 2000], rng.randint(1, 3))
        lines = ["create /a", "create /b", *(f"write /a {1024 * at} 1 {at % 256:02x}" for at in places)]
        return [
            *lines,
            *(f"write /b {1024 * at} 1024 66" for at in range(40)),
            f"truncate /a {1024 * places[0]}",
            "write /b 50000 1024 67",
        ]
    if kind == "moves":
        return moved_names(rng)
    if kind == "directories":
        return [
            "mkdir /m",
            *(f"mkdir /m/{at}" for at in range(count)),
            "stat /m",
            "rmdir /m/7",
            "mkdir /m/new",
            "stat /m",
        ]
    lines = ["mkdir /m", "create /m/0", *(f"link /m/0 /m/{at}" for at in range(1, count)), "stat /m/0"]
    if kind == "slots" and rng.random() < 0.3:
        # seven blocks of slots of long names
        return [
            "mkdir /m",
            "create /m/0",
            *(f"link /m/0 /m/{at}" for at in range(1, rng.randint(218, 226))),
            "stat /m",
            "sync",
            "stat /m",
        ]
    if kind == "slots":
        lines += ["create /m/x0", *(f"link /m/x0 /m/x{at}" for at in range(1, rng.randint(190, 205)))]
        lines += ["stat /m", "create /f", *(f"write /f {1024 * at} 1024 77" for at in range(rng.choice([0, 35])))]
    return [*lines, "unlink /m/3", "create /m/new", "stat /m"]


def moved_names(rng: random.Random) -> list[str]:
    """Renames into directories that are nearly full: of links, or of slots in their last block."""
    kind = rng.choice(["links", "linked", "linked", "slots"])
    if kind == "linked":
        return names_of_linked(rng)
    if kind == "links":
        count = rng.randint(246, 249)
        return [
            "mkdir /m",
            *(f"mkdir /m/{at}" for at in range(count)),
            "mkdir /x",
            "create /y",
            "mkdir /z",
            "rename /x /m/x",
            "rename /y /m/y",
            "rename /z /m/z",
            "rename /m/3 /w",
            "rename /z /m/z",
            "stat /m",
            "stat /",
        ]
    count = rng.choice([29, 30, 31, 61, 62, 63, 125, 126])
    moves = [
        f"rename /m/{rng.randrange(count)} /{rng.choice(['m/', '', 'k/'])}{rng.choice('pqrs')}"
        for _ in range(rng.randint(5, 30))
    ]
    return [
        "create /p",
        "mkdir /m",
        "mkdir /k",
        "create /m/0",
        *(f"link /m/0 /m/{at}" for at in range(1, count)),
        *moves,
        "stat /m",
        "stat /k",
    ]


def names_of_linked(rng: random.Random) -> list[str]:
    """Names that come and move into a directory that has all its links, and within it, over directories and files or
    not; and more names of a file that has all its links."""
    count = rng.choice([247, 248, 248, 248])
    made = ["create /m/f", "create /y", "mkdir /x", "mkdir /x/z"]
    places = ["/m/f", "/m/new", "/m/other", "/y", "/x", "/x/z", "/x/7"]
    places += [f"/m/{rng.randrange(count)}" for _ in range(4)]
    words = ["rename", "rename", "rename", "link", "mkdir", "rmdir"]
    changes = [(rng.choice(words), rng.choice(places), rng.choice(places)) for _ in range(rng.randint(10, 40))]
    lines = [f"{word} {one}" + (f" {two}" if word in ("rename", "link") else "") for word, one, two in changes]
    if rng.random() < 0.7:
        made += [f"link /y /x/{at}" for at in range(249)]
        lines = [*(f"link /y {rng.choice(places)}" for _ in range(4)), *lines]
    return ["mkdir /m", *(f"mkdir /m/{at}" for at in range(count)), *made, *lines, "stat /m", "stat /y"]


def first_line(rng: random.Random, inodes: int, zones: int, journal: int) -> str:
    """The first line of a volume script."""
    return f"volume inodes {inodes} zones {zones} journal {journal}{width(rng)}{rng.choice(['', '', ' tags 64'])}"


def width(rng: random.Random) -> str:
    """How wide its names are."""
    return rng.choice(["", " names 30"])


def stack_lines(rng: random.Random) -> list[str]:
    """Lines of the header about the stack."""
    return ["elevator", f"depth {rng.choice(SIZES)}", f"queue {rng.choice(SIZES)}"]


def session_script(rng: random.Random) -> str:
    """Calls of one thread, which all become durable, and the volume's sizes."""
    inodes, zones = rng.choice([1, 3, 8, 32, 40, 96, 255]), rng.choice([10, 14, 30, 80, 300, 2000])
    zones += 8 * (inodes > 40)
    offsets = FAR if rng.random() < 0.3 else NEAR
    lines = [call(rng, offsets, rng.randrange(256)) for _ in range(rng.choice([3, 20, 60, 120]))]
    chosen = rng.random()
    if chosen < 0.08:
        inodes, zones = rng.choice([4, 250, 300]), rng.choice([30, 40, 400, 700])
        lines = many_names(rng) + lines[:20]
    elif chosen < 0.2:
        lines = ["create /a", "create /b", *(on_a_file(rng) for _ in range(rng.choice([10, 40])))]
    first = first_line(rng, inodes, zones, rng.choice([128, 200, 1000, 2000]))
    script = [first, *header(rng, stack_lines(rng)), "limit 200000"]
    script += ["thread 1", *lines, "sync", "events", "round 60000"]
    return "\n".join(script) + "\n"


def on_a_file(rng: random.Random) -> str:
    """A call that cuts, lengthens or reads a file of some blocks, inside a block or at its end."""
    place, at = rng.choice(["/a", "/a", "/b"]), 512 * rng.randint(0, 18)
    word = rng.choice(["truncate", "truncate", "write", "write", "read", "stat"])
    return {"truncate": f"truncate {place} {at}", "stat": f"stat {place}"}.get(word) or (
        f"{word} {place} {at} {rng.choice([1, 512, 1024, 3000])}"
        + (f" {rng.randrange(256):02x}" if word == "write" else "")
    )


def one_name(rng: random.Random) -> str:
    """A path of one letter."""
    return f"/{rng.choice('abcdefghijklmnopqrstuvwxyz')}"


def thread_calls(rng: random.Random, kind: str, files: list[str], values: Iterator[int]) -> list[str]:
    """Calls of one thread. Of the kinds `wide` changes many blocks in one transaction, `tight` frees zones and takes
    them again, and `long` closes many transactions."""
    lines = []
    for _ in range(
        {"plain": rng.choice([4, 10, 25]), "wide": 40, "tight": 25, "long": rng.choice([60, 150, 250])}[kind]
    ):
        value = next(values) % 250 + 1
        place = rng.choice(files) if files and rng.random() < 0.6 else None
        if kind != "plain" and rng.random() < {"wide": 0.85, "tight": 0.6, "long": 0.9}[kind]:
            lines.append(call_of(rng, kind, place or rng.choice(["/a", "/b"]), value))
        else:
            lines.append(call(rng, NEAR, value, place))
    return lines


def call_of(rng: random.Random, kind: str, place: str, value: int) -> str:
    """A call of a thread of this kind."""
    if kind == "wide":
        return f"{rng.choice(['mkdir', 'mkdir', 'mkdir', 'rmdir'])} {one_name(rng)}"
    size = rng.choice([0, 500, 1024, 2048, 7168, 9000])
    changes = [f"write {place} {size} {rng.choice([1024, 3000])} {value:02x}", f"truncate {place} {size}"]
    if kind == "tight":
        return rng.choice([*changes, f"unlink {place}", f"create {place}"])
    if rng.random() < 0.5:
        return f"{rng.choice(['fbarrier', 'fbarrier', 'fbarrier', 'fsync', 'fdatabarrier', 'fdatasync'])} {place}"
    return rng.choice(
        [*changes, f"mkdir {one_name(rng)}", f"rmdir {one_name(rng)}", f"rename {place} {rng.choice(['/a', '/b'])}"]
    )


def session_events(rng: random.Random, threads: int) -> Iterator[str]:
    """Events in any order."""
    names = "call call commit commit flush write accept dispatch receive transfer persist answer round back".split()
    for _ in range(rng.choice([30, 100, 250])):
        name = rng.choice(names)
        if name == "call":
            name += f" {rng.randint(1, threads)}"
        elif name in ("dispatch", "transfer", "persist", "write"):
            name += f" {rng.choice([0, 0, 1, 2, 5])}"
        elif name in ("round", "back"):
            name += f" {rng.randint(1, 4)}"
        yield repeated(rng, name, rng.choice([6, 6, 40]))


def slow_rounds(rng: random.Random) -> Iterator[str]:
    """Rounds, with single events between that take others than the first."""
    for _ in range(rng.choice([100, 300])):
        yield f"round {rng.randint(1, 9)}"
        yield f"{rng.choice(['write', 'write', 'dispatch', 'transfer', 'persist', 'persist'])} {rng.choice([0, 0, 1, 2])}"


def recover_line(rng: random.Random) -> str:
    """An attempt of recovery."""
    if rng.random() < 0.3:
        # all into the cache, and then the last first
        return (
            "recover"
            + " t0" * rng.randint(1, 20)
            + "".join(f" p{rng.randint(0, 12)}" for _ in range(rng.randint(1, 12)))
        )
    count = rng.randint(0, 8) if rng.random() < 0.95 else rng.choice([100, 1000])
    return "recover" + "".join(f" {rng.choice('tpd')}{rng.choice([0, 0, 1, 2, 20])}" for _ in range(count))


def cut_script(rng: random.Random) -> str:
    """Calls of some threads, events in any order, a power cut and attempts of recovery."""
    kind = rng.choice(["plain", "plain", "wide", "tight", "long"])
    threads = rng.choice([1, 1, 2, 3, 3, 16]) if kind == "plain" else rng.choice([1, 1, 2])
    inodes, zones = rng.choice([8, 32, 40]), rng.choice({"tight": [10, 12, 14, 16]}.get(kind, [40, 100, 400]))
    lines = stack_lines(rng)
    if kind != "long" or rng.random() < 0.3:
        lines += [
            f"cut {rng.randint(0, rng.choice([20, 60, 150, 600]))}",
            f"limit {rng.randint(1, rng.choice([30, 100]))}",
        ]
    script = [first_line(rng, inodes, zones, rng.choice([128, 128, 256])), *header(rng, lines)]
    # Most have two files from the start, so that there is something to lose.
    files, values = ["/a", "/b"] if rng.random() < 0.8 else [], itertools.count()
    for thread in range(1, threads + 1):
        script += [
            f"thread {thread}",
            *(f"create {file}" for file in files if thread == 1),
            *thread_calls(rng, kind, files, values),
        ]
    script += ["events", *session_events(rng, threads)]
    if kind == "long":
        script += (
            [f"round {rng.choice([300, 1500, 5000])}", *session_events(rng, threads)]
            if rng.random() < 0.5
            else slow_rounds(rng)
        )
    script += [recover_line(rng) for _ in range(rng.choice([0, 0, 1, 3]))]
    add_failure(rng, script, rng.choice([10, 60, 200]))
    return "\n".join(script) + "\n"


def threads_script(rng: random.Random) -> str:
    """Calls of threads that run at once, with power cuts, failing transfers and limits, and sometimes a script that
    is changed in some places."""
    kind = rng.choice(["plain", "plain", "plain", "wide", "tight", "long"])
    count = rng.choice([1, 2, 3, 4, 8, 16]) if kind == "plain" else rng.choice([1, 2, 4])
    zones = rng.choice({"tight": [10, 12, 14, 16]}.get(kind, [40, 100, 400]))
    lines = [*stack_lines(rng), f"seed {rng.randint(0, 1_000_000_000)}"]
    lines += [
        f"cut {rng.randint(0, rng.choice([20, 60, 150, 600]))}",
        f"limit {rng.randint(1, rng.choice([30, 100, 300]))}",
    ]
    script = [first_line(rng, rng.choice([8, 32, 40]), zones, rng.choice([128, 128, 256])), *header(rng, lines)]
    files, values = ["/a", "/b"] if rng.random() < 0.8 else [], itertools.count()
    for thread in range(1, count + 1):
        script += [
            f"thread {thread}",
            *(f"create {file}" for file in files if thread == 1),
            *thread_calls(rng, kind, files, values),
        ]
        script += ["sync"] if rng.random() < 0.3 else []
    script += [
        "events",
        *([f"round {rng.randint(1, 9)}"] if rng.random() < 0.2 else []),
        *(recover_line(rng) for _ in range(rng.choice([0, 0, 1, 3]))),
    ]
    add_failure(rng, script, rng.choice([10, 60, 200]))
    if rng.random() < 0.1:
        script.insert(rng.randint(1, len(script)), rng.choice(["flash 3", "flash", "flush", "device 4", "thread 9"]))
    return "\n".join(script) + "\n"


def crowd_script(rng: random.Random) -> str:
    """A session that gets to a limit, and most often a power cut and attempts of recovery: more requests than the
    scheduler holds, of neighbouring blocks; a log that comes round many times; directories and files of as many links
    as there may be, or of so many slots that they have an indirect zone."""
    kind = rng.choice(["waiting", "log", "names"])
    size = rng.choice([1, 64])
    lines = [
        "elevator",
        "elevator",
        f"depth {size}",
        f"queue {64 if kind == 'waiting' else size}",
        f"cut {rng.randint(0, 900)}",
        f"flash {rng.choice([3, 64])}",
    ]
    script = [
        first_line(rng, 300, {"waiting": 600, "log": 100, "names": 400}[kind], 128),
        *dict.fromkeys(header(rng, lines)),
    ]
    if kind == "waiting" and not any(line.startswith("queue") for line in script):
        script.append("queue 64")
    crowd = {"waiting": crowd_of_requests, "log": crowd_of_transactions, "names": crowd_of_names}[kind]
    calls, events = crowd(rng)
    script += ["thread 1", *calls, "events", *events]
    script += [recover_line(rng) for _ in range(rng.choice([0, 1, 2]))]
    return "\n".join(script) + "\n"


def crowd_of_requests(rng: random.Random) -> tuple[list[str], list[str]]:
    """Pages that the write-back sends while nothing leaves the scheduler."""
    calls = ["create /a", *(f"write /a {65_536 * at} 65536 {at + 1:02x}" for at in range(rng.choice([3, 5])))]
    if rng.random() < 0.5:
        calls += ["fsync /a", "write /a 0 65536 77", "write /a 65536 65536 78", "fdatasync /a"]
    events = [f"call 1 x {rng.randint(4, 8)}", *["write 0 x 64", "accept x 64"] * rng.choice([2, 3, 5])]
    return calls, [
        *events,
        *session_events(rng, 1),
        "round 400",
        "write 0 x 64",
        "accept x 64",
        *session_events(rng, 1),
        "round 600",
    ]


def crowd_of_transactions(rng: random.Random) -> tuple[list[str], list[str]]:
    """A log that comes round many times."""
    calls = ["create /a", "create /b"]
    for at in range(rng.choice([60, 150])):
        calls += [
            f"write {rng.choice(['/a', '/b'])} {1024 * (at % 20)} 1024 {at + 1:02x}",
            f"{rng.choice(['fbarrier', 'fbarrier', 'fsync'])} {rng.choice(['/a', '/b'])}",
        ]
        calls += (
            [rng.choice(["mkdir /d", "rmdir /d", "truncate /a 0", "create /b", "unlink /b", "rename /b /a"])]
            if rng.random() < 0.4
            else []
        )
    return calls, ["round 2500", *slow_rounds(rng)] if rng.random() < 0.5 else list(slow_rounds(rng))


def crowd_of_names(rng: random.Random) -> Parts:
    """Files and directories of as many links as there may be."""
    calls: list[str] = []
    for line in many_names(rng):
        calls += [line, f"{rng.choice(['fbarrier', 'fsync', 'fdatabarrier'])} /"] if rng.random() < 0.03 else [line]
    return [*calls, "sync"], [f"round {rng.choice([300, 600, 1500])}", *session_events(rng, 1), "round 300"]


KEYS = ["a", "b", "c", "d", "A", "0", "a.b", "a-b", "a_b", "aa", "ab", "k" * 32]


def store_script(rng: random.Random) -> list[str]:
    """A key-value store: some puts and flushes, events in any order or rounds, and most often a power cut."""
    room = rng.choice([1, 2, 3, 4, 4, 6, 6, 10, 20, 64, 65, 130])
    keys = rng.sample(KEYS, rng.choice([1, 2, 3, 6]))
    asked = [f"put {rng.choice(keys)} {stored_value(rng)}" for _ in range(rng.randint(0, min(room, 30)))]
    for _ in range(rng.choice([0, 1, 1, 2, 5])):
        asked.insert(rng.randint(0, len(asked)), "flush")
    steps = 8 + 6 * room + 12 * len(asked)
    lines = [
        f"depth {rng.choice(SIZES)}",
        f"queue {rng.choice(SIZES)}",
        f"cut {rng.randint(0, steps)}",
        f"cut {rng.randint(0, steps)}",
    ]
    script = [f"store {room}", *{line.split(" ")[0]: line for line in header(rng, lines)}.values()]
    add_failure(rng, script, rng.choice([10, 60, 200]))
    return [
        *script,
        *asked,
        "events",
        *store_events(rng, steps),
        *(recover_line(rng) for _ in range(rng.choice([0, 0, 1, 3]))),
    ]


def stored_value(rng: random.Random) -> str:
    """A value of a store."""
    return rng.choice(
        [
            str(rng.randrange(1000)),
            "x" * rng.choice([1, 199, 200]),
            "".join(rng.choice("abcXYZ019._-") for _ in range(rng.randint(1, 9))),
        ]
    )


def store_events(rng: random.Random, steps: int) -> list[str]:
    """Rounds, or events in any order."""
    chosen = rng.random()
    if chosen < 0.3:
        return [f"round {steps}"]
    if chosen < 0.6:
        return [*slow_rounds(rng), f"round {rng.choice([1, steps])}"]
    # events in any order do little before the log is filled
    return [f"round {rng.randint(1, steps)}", *session_events(rng, 1), *([f"round {steps}"] if chosen < 0.8 else [])]


VOLUME = "volume inodes 4 zones 40 journal 128"


class Limits:
    """Scripts at a limit, or past it by one where `past` is 1."""

    def __init__(self, rng: random.Random, past: int) -> None:
        self.rng, self.past = rng, past
        self.event = rng.choice(["transfer 0", "persist 1", "receive"])

    def number(self, limits: tuple[int, int]) -> int:
        """The least or the most number, or one past it."""
        least, most = limits
        return self.rng.choice([least - (1 if self.past and least > 0 else 0), most + self.past])

    def line(self, word: str) -> str:
        """A line of the header."""
        return f"{word} {self.number(HEADER[word])}"

    def of_volume(self, *lines: str) -> list[str]:
        """The lines of a volume script before its events."""
        return [VOLUME + width(self.rng), "cut 0", *lines]

    def size(self, inodes: int, zones: int, journal: int) -> Parts:
        """A volume script with a volume of this size."""
        return [f"volume inodes {inodes} zones {zones} journal {journal}{width(self.rng)}", "cut 0"], []

    def any_first(self) -> str:
        """The first line of a script."""
        return self.rng.choice(["device 3", "blocks 3", VOLUME + width(self.rng)])

    def of_blocks(self) -> list[Callable[[], Parts]]:
        """Scripts of block requests, or of either kind."""
        rng, past, event = self.rng, self.past, self.event
        return [
            lambda: ([f"{rng.choice(['device', 'blocks'])} {self.number(BLOCKS)}"], []),
            lambda: (["blocks 3", self.line(rng.choice(["depth", "queue"]))], []),
            lambda: ([f"{rng.choice(['device', 'blocks'])} 3", self.line("flash")], []),
            lambda: ([self.any_first(), self.line("fail")], []),
            lambda: ([VOLUME + width(rng), rng.choice([self.line(word) for word in ("seed", "limit", "cut")])], []),
            lambda: (["device 5", f"put {4 + past} 00 free"], []),
            lambda: (["device 5", *["put 1 00 free"] * (MOST_REQUESTS + past)], []),
            lambda: (["device 5"], [f"{event} x {self.number((1, TIMES))}"]),
            lambda: (["device 5"], [f"{event} x {TIMES}"] * (MOST_EVENTS // TIMES) + [event] * past),
            lambda: (["device 5"], [f"persist {PLACE + past}"]),
        ]

    def of_volumes(self) -> list[Callable[[], Parts]]:
        """Volume scripts."""
        past, number, volume = self.past, self.number, self.of_volume
        full = [f"round {(MOST_EVENTS - 2) // 9}" if not past else f"round {TIMES} x 3", "flush", "flush"]
        rounds = [f"round {TIMES} x 2", f"flush x {TIMES}", f"flush x {TIMES}"]
        return [
            lambda: self.size(number(INODES), ZONES[1], JOURNAL[0]),
            lambda: self.size(1, number((6, ZONES[1])), JOURNAL[0]),
            lambda: self.size(1, 6, number(JOURNAL)),
            lambda: (volume(*(f"thread {at}" for at in range(1, MOST_THREADS + 1 + past))), []),
            lambda: (volume("thread 1", *["sync"] * (MOST_CALLS + past)), []),
            lambda: (volume("thread 1", f"write /a 0 {number(LENGTH)} 11"), []),
            lambda: (volume("thread 1", f"read /a {PLACE + past} 1"), []),
            lambda: (volume("thread 1", f"bytes /a 0 {'61' * (MOST_DIGITS // 2 + past)}"), []),
            lambda: (volume("thread 1"), [f"call {number((1, 1))}"]),
            lambda: (volume("thread 1"), [f"{self.rng.choice(['round', 'back'])} {number((1, TIMES))}"]),
            lambda: (volume("thread 1"), full),
            lambda: (volume("thread 1"), rounds + ["flush"] * past),
            lambda: (volume("thread 1"), ["recover" + " t0" * (MOST_WORDS + past)]),
            lambda: (volume("thread 1"), ["recover t0"] * (MOST_ATTEMPTS + past)),
            lambda: (volume("thread 1"), [f"recover d{number(STEPS)}"]),
        ]

    def drawn(self) -> Parts:
        """One of these."""
        return self.rng.choice([*self.of_blocks(), *self.of_volumes()])()


def limit_script(rng: random.Random) -> str:
    """A script at a limit, or one past it."""
    head, events = Limits(rng, int(rng.random() < 0.6)).drawn()
    return "\n".join([*head, "events", *events]) + "\n"
