"""Runs small scripts that ask for much, and prints for each its size, wall time and peak memory: many steps of
recovery, and events that find nothing to do. Ends with status 1 where a script of up to 4 MB takes more than 3 GB, or
one of up to 10 KB more than ten seconds.
"""
import pathlib
import tempfile
from collections.abc import Iterator
from typing import NoReturn

from barrierfs_tools.cli.tool import add_program, parser_of, positive, program_of, run_tool
from barrierfs_tools.runs.measure import measured

EXAMPLE = "  bench/dear --only d1000000 --seconds 20"
Dear = tuple[str, list[str]]  # a name, and the lines of a script
MOST_MB, MOST_SECONDS, SMALL, LARGEST = 3072, 10, 10_240, 4_194_304
VOLUME = "volume inodes 32 zones 64 journal 128"
MILLION = 1_000_000


def repeated(line: str, times: int = 19) -> list[str]:
    """Nineteen million events in a small script."""
    return [f"{line} x {MILLION}"] * times


def filled(lines: list[str]) -> list[str]:
    """As many of these lines, over and over, as a script of 4 MB may have behind its head."""
    size = sum(len(line) + 1 for line in lines)
    return lines * ((LARGEST - 200_000) // size)


def blocks(events: list[str], *header: str) -> list[str]:
    """A script whose scheduler holds 128 puts, of blocks with a gap between."""
    puts = [f"put {2 * at} 11 ordered" for at in range(200)]
    return [
        "blocks 400",
        "queue 64",
        "depth 64",
        *header,
        *puts,
        "events",
        *["submit x 64", "accept x 64"] * 2,
        *events,
    ]


def same_block(events: list[str], *header: str) -> list[str]:
    """The same with all puts of one block, so that one alone may leave."""
    return [
        "blocks 1",
        "queue 64",
        "depth 64",
        *header,
        *["put 0 11 ordered"] * 200,
        "events",
        *["submit x 64", "accept x 64"] * 2,
        *events,
    ]


def pairs(events: list[str], *header: str) -> list[str]:
    """The same with 64 blocks, of two puts each, so that half of them may leave."""
    puts = [f"put {at % 64} 11 ordered" for at in range(200)]
    return ["blocks 64", "queue 64", "depth 64", *header, *puts, "events", *["submit x 64", "accept x 64"] * 2, *events]


def merged_pairs(events: list[str]) -> list[str]:
    """A device with 64 commands of 16 parts each, of which half may be transferred."""
    puts = [f"put {at % 512} 11 free" for at in range(1024)]
    rounds = ["submit x 64", "accept x 64", "submit x 64", "accept x 64", "dispatch 0 x 8", "receive x 8"] * 8
    return ["blocks 512", "queue 64", "depth 64", "elevator", *puts, "events", *rounds, *events]


def in_device(events: list[str], word: str) -> list[str]:
    """A script whose device has 64 commands waiting, or as many entries in its cache."""
    moved = ["receive x 64"] + ["transfer 0 x 64"] * (word == "persist")
    return ["device 400", "depth 64", *(f"put {at} 11 free" for at in range(200)), "events", *moved, *events]


def synced(attempts: list[str]) -> list[str]:
    """A session, with these attempts of recovery."""
    return [VOLUME, "thread 1", "create /a", "write /a 0 5000 11", "fsync /a", "events", "round 200", *attempts]


def cases() -> Iterator[Dear]:
    """Name and lines of each script."""
    yield from of_schedulers()
    yield from of_devices()
    yield from of_sessions()


def of_schedulers() -> Iterator[Dear]:
    """Attempts of recovery, and events of the scheduler."""
    defaults = "recover" + " d1000000" * 1000
    yield "one line of a thousand d1000000", synced([defaults])
    yield "a hundred lines of a thousand d1000000", synced([defaults] * 100)
    yield "a hundred lines of a thousand t127", synced(["recover" + " t127" * 1000] * 100)
    yield "a hundred lines d1000000", synced(["recover d1000000"] * 100)
    for header in ((), ("elevator",)):
        said = " with elevator" if header else ""
        for pick in (127, 128, 4_294_967_295):
            yield f"dispatch {pick}{said}, 19 million", blocks(repeated(f"dispatch {pick}"), *header)
        yield f"dispatch 1{said} of one block, 19 million", same_block(repeated("dispatch 1"), *header)
        yield f"dispatch 64{said} of 64 blocks, 19 million", pairs(repeated("dispatch 64"), *header)
        yield f"dispatch 64{said} of 64 blocks, 4 MB", pairs(filled(["dispatch 64 x 50"]), *header)
        yield f"dispatch 127{said}, 4 MB", blocks(filled(["dispatch 128 x 60"]), *header)
        yield f"accept{said}, 19 million", blocks(repeated("accept"), *header)


def of_devices() -> Iterator[Dear]:
    """Events of the device."""
    yield "transfer 32 of merged commands, 19 million", merged_pairs(repeated("transfer 32"))
    yield "transfer 32 of merged commands, 4 MB", merged_pairs(filled(["transfer 32 x 50"]))
    for pick in (64, 4_294_967_295):
        yield f"transfer {pick}, 19 million", in_device(repeated(f"transfer {pick}"), "transfer")
        yield f"persist {pick}, 19 million", in_device(repeated(f"persist {pick}"), "persist")
    yield "persist 2 of two entries, 4 MB", [
        "device 2",
        "put 0 11 free",
        "put 1 11 free",
        "events",
        "receive x 2",
        "transfer 0 x 2",
        *filled(["persist 2 x 50"]),
    ]
    yield "transfer 1 of one block, 19 million", [
        "device 1",
        "depth 64",
        *["put 0 11 free"] * 64,
        "events",
        "receive x 64",
        *repeated("transfer 1"),
    ]
    yield "transfer 1 on flash, 19 million", [
        "device 1",
        "depth 64",
        "flash 64",
        *["put 0 11 free"] * 64,
        "events",
        "receive x 64",
        *repeated("transfer 1"),
    ]
    flash = [
        "device 1000",
        "depth 64",
        "flash 64",
        *(f"put {at} 11 free" for at in range(1000)),
        "events",
        *["receive x 64", "transfer 0 x 64"] * 15,
    ]
    yield "persist 1000 on flash, 19 million", [*flash, *repeated("persist 1000")]


def of_sessions() -> Iterator[Dear]:
    """Events of the host, and the largest volume."""
    files = [line for at in range(30) for line in (f"create /{at}", f"write /{at} 0 65536 11")]
    held = ["volume inodes 64 zones 4000 journal 128", "thread 1", *files, "events", "call 1 x 60"]
    yield "write 4294967295 with many dirty pages, 19 million", [*held, *repeated("write 4294967295")]
    yield "commit, flush and answer with nothing to do, 19 million", [
        VOLUME,
        "events",
        *[line for word in ("commit", "flush", "answer") for line in repeated(word, 6)],
    ]
    yield "round with 16 threads, 19 million", [
        VOLUME,
        *(f"thread {at}" for at in range(1, 17)),
        "events",
        f"round {833_333}",
    ]
    waits = [
        "thread 1",
        "create /a",
        "fsync /a",
        *(line for at in range(2, 17) for line in (f"thread {at}", "fsync /a", "sync")),
    ]
    yield "calls of 16 threads that wait, 19 million", [
        VOLUME,
        *waits,
        "events",
        *(f"call {at % 16 + 1} x {MILLION}" for at in range(19)),
    ]
    yield "the largest volume", ["volume inodes 65535 zones 65535 journal 16384", "events"]


def work() -> int:
    """What the command does."""
    parser = parser_of("dear", __doc__, EXAMPLE)
    seconds = "a run is ended after so many seconds; 60 without this"
    parser.add_argument("--seconds", type=positive, default=60, metavar="N", help=seconds)
    only = "only the scripts with these words in their names"
    parser.add_argument("--only", default="", metavar="WORDS", help=only)
    add_program(parser, stands_alone=True)
    asked = parser.parse_args()
    program, broken = program_of(asked), 0
    print(f"{'KB':>6} {'seconds':>8} {'MB':>6} {'status':>6}  script")
    with tempfile.TemporaryDirectory() as folder:
        path = pathlib.Path(folder) / "script"
        for name, lines in cases():
            if asked.only not in name:
                continue
            text = "".join(line + "\n" for line in lines).encode()
            path.write_bytes(text)
            found = measured([program, "replay"], str(path), asked.seconds)
            is_slow = found.seconds > MOST_SECONDS and len(text) <= SMALL
            is_dear = found.peak > MOST_MB or found.status < 0 or is_slow
            broken += is_dear
            status = "ended" if found.status < 0 else str(found.status)
            figures = f"{len(text) / 1024:6.0f} {found.seconds:8.2f} {found.peak:6.0f} {status:>6}"
            print(f"{figures}  {name}{': dear' if is_dear else ''}", flush=True)
    return 1 if broken else 0


def main() -> NoReturn:
    """The command."""
    run_tool("dear", work)
