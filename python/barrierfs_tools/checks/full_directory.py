"""A script that fills a directory to its last slot, and its replies, worked out from the format."""

from collections.abc import Iterator

LINKS = 250
CALLS = 10_000  # of a thread
# By the end of a script's first line: the names that leave one slot, the last file of these, and the size with that
# slot left.
KINDS = {"": (33_213, 132, 531_440), " names 30": (16_605, 66, 531_424)}


def replies(last: int, size: int) -> dict[str, list[str]]:
    """The replies of each call that is looked at."""
    return {
        "stat /d": [f"dir size {size} links 2", "dir size 531456 links 2", "dir size 531456 links 2"],
        "create /d/last": ["ok"],
        "create /d/more": ["too big", "ok"],
        "mkdir /d/more": ["too big"],
        f"link /d/{last} /d/more": ["too big"],
        "link /d/0 /d/more": ["too many links"],
        "unlink /d/7": ["ok"],
    }


def calls(names: int, last: int) -> Iterator[str]:
    """The calls, which fill a directory up to one slot and then go past it."""
    yield "mkdir /d"
    for at in range(names):
        file, link = divmod(at, LINKS)
        yield f"link /d/{file} /d/{file}_{link}" if link else f"create /d/{file}"
    yield from ["stat /d", "create /d/last", "stat /d", "create /d/more", "mkdir /d/more", f"link /d/{last} /d/more"]
    yield from ["link /d/0 /d/more", "unlink /d/7", "create /d/more", "stat /d"]


def script(ending: str, names: int, last: int) -> str:
    """The script, of as many threads as its calls need."""
    lines, threads = list(calls(names, last)), []
    for at in range(0, len(lines), CALLS):
        threads += [f"thread {at // CALLS + 1}", *lines[at : at + CALLS]]
    events = [f"call {at // CALLS + 1} x {CALLS}" for at in range(0, len(lines), CALLS)]
    return "\n".join([f"volume inodes 200 zones 2000 journal 16384{ending}", *threads, "events", *events]) + "\n"
