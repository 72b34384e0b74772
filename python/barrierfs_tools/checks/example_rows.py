"""Rows of crates/program_tests/data that are too many or too long to write by hand."""

import pathlib
from collections.abc import Iterator

from barrierfs_tools import paths
from barrierfs_tools.checks.rows import data_folder

VOLUME = "volume inodes 32 zones 64 journal 128\n"


def row(script: str, printed: str, words: str = "replay") -> str:
    """A row of a script without a fault."""
    return f"-> {words}\n{script}<- 0\n{printed}"


def remark(text: str) -> str:
    """A line that says what the rows behind it are."""
    return f"== {text}\n"


def examples() -> Iterator[str]:
    """Each script with its output; of threads the one whose output is always the same."""
    for words, pattern in [("replay", "*.script"), ("kv", "*.kv"), ("run", "threads-same.run")]:
        for path in sorted(paths.examples().glob(pattern)):
            yield remark(path.name) + row(path.read_text(), path.with_suffix(".out").read_text(), words)


def numbered(count: int, front: str, back: str = "") -> str:
    """A line for each number."""
    return "".join(f"{front}{number}{back}\n" for number in range(count))


def commits() -> Iterator[str]:
    """The transaction that a barrier asks for, with the power cut after so many of its 18 steps: its tree is there
    whole, or not at all."""
    calls = "mkdir /a\ncreate /a/f\nwrite /a/f 0 3 61\nfbarrier /a/f\n"
    events = "call 1 x 6\ncommit x 10\ncall 1\naccept x 8\ndispatch 0 x 8\naccept\ndispatch 0\n"
    events += "receive x 9\ntransfer 0 x 9\npersist 0 x 9\n"
    replies = (
        "1 mkdir /a: ok\n1 create /a/f: ok\n1 write /a/f 0 3 61: ok\n1 fbarrier /a/f: ok\nthread 1: 4 of 4\nclosed 1\n"
    )
    for cut in range(19):
        tree = "found 0\ndir /\n" if cut < 18 else "found 1\ndir /\ndir /a\nfile /a/f size 3 links 1\nblock 0 3x61\n"
        yield row(f"{VOLUME}cut {cut}\nthread 1\n{calls}events\n{events}", f"steps {cut}\nrequests 9\n{replies}{tree}")


def syncs() -> Iterator[str]:
    """A sync call, with the power cut after so many steps. A request goes out a round and takes two steps of the
    device in it, the flush one: the page, then superblock, descriptor, five bodies, commit block, and the flush. The
    host submits on until it hears of the cut. All of the transaction is there or nothing of it, and all once the call
    was answered."""
    calls = "mkdir /a\ncreate /a/f\nwrite /a/f 0 3 61\nfsync /a/f\n"
    submitted = [0, 1, 1, 4, 4, 5, 5, 6, 6, 7, 7, 8, 8, 9, 9, 9, 9, 10, 10, 10]
    for cut, requests in enumerate(submitted):
        script = f"{VOLUME}cut {cut}\nthread 1\n{calls}events\nround 100\nrecover d3\nrecover t0 t0 p1\n"
        written, closed = ("ok", 1) if cut else ("down", 0)
        synced = "ok" if cut == 19 else "down"
        tree = "found 0\ndir /\n" if cut < 18 else "found 1\ndir /\ndir /a\nfile /a/f size 3 links 1\nblock 0 3x61\n"
        replies = f"1 mkdir /a: ok\n1 create /a/f: ok\n1 write /a/f 0 3 61: {written}\n1 fsync /a/f: {synced}\n"
        yield row(script, f"steps {cut}\nrequests {requests}\n{replies}thread 1: 4 of 4\nclosed {closed}\n{tree}")


def wraps() -> Iterator[str]:
    """A hundred transactions in a log that has room for a quarter of them, over a scheduler of each kind and a flash
    log: 100 pages, the log's 6 blocks for the first, 4 for each of the next six and 5 for each of the other 93, which
    have an indirect block, the first superblock, and three checkpoints, behind 26, 51 and 76 transactions, of 5, 3
    and 3 blocks that go home and a superblock each. A flash log takes three steps for each of them, the model device
    two."""
    calls = "".join(f"write /f {1024 * block} 1024 {block:02x}\nfbarrier /f\n" for block in range(100))
    replies = "".join(f"1 write /f {1024 * block} 1024 {block:02x}: ok\n1 fbarrier /f: ok\n" for block in range(100))
    tree = "dir /\nfile /f size 102400 links 1\n" + "".join(f"block {block} 1024x{block:02x}\n" for block in range(100))
    for header, steps in [("", 1220), ("elevator\n", 1220), ("flash 3\n", 1830)]:
        script = f"volume inodes 32 zones 256 journal 128\n{header}thread 1\ncreate /f\n{calls}events\nround 5000\n"
        printed = f"steps {steps}\nrequests 610\n1 create /f: ok\n{replies}thread 1: 201 of 201\nclosed 100\nfound 100\n{tree}"
        yield row(script, printed)


def directories() -> Iterator[str]:
    """A directory of 450 files has 452 slots of 16 bytes: seven blocks, and one more behind the indirect zone. The
    files all go again, and it does not shrink. Then it goes, and a new one is small."""
    calls = (
        "mkdir /d\n"
        + numbered(450, "create /d/n")
        + "stat /d\n"
        + numbered(450, "unlink /d/n")
        + "stat /d\nrmdir /d\nmkdir /d\nstat /d\n"
    )
    script = f"volume inodes 512 zones 128 journal 1024\nthread 1\n{calls}events\ncall 1 x 906\n"
    size = "1 stat /d: dir size 7232 links 2\n"
    replies = (
        "1 mkdir /d: ok\n"
        + numbered(450, "1 create /d/n", ": ok")
        + size
        + numbered(450, "1 unlink /d/n", ": ok")
        + size
    )
    replies += "1 rmdir /d: ok\n1 mkdir /d: ok\n1 stat /d: dir size 32 links 2\n"
    yield row(script, f"steps 0\nrequests 0\n{replies}thread 1: 906 of 906\nclosed 0\nfound 0\ndir /\n")


def links() -> Iterator[str]:
    """A directory has two links and one for each directory in it, and no more than 250. What stands where a directory
    goes is told before the links of its new parent, and a name before those of its parent or file; within one parent
    links are not looked at."""
    calls = "mkdir /d\n" + numbered(249, "mkdir /d/")
    script = f"volume inodes 512 zones 1024 journal 2048\nthread 1\n{calls}events\ncall 1 x 250\n"
    replies = "1 mkdir /d: ok\n" + numbered(248, "1 mkdir /d/", ": ok") + "1 mkdir /d/248: too many links\n"
    yield row(script, f"steps 0\nrequests 0\n{replies}thread 1: 250 of 250\nclosed 0\nfound 0\ndir /\n")
    made = ["mkdir /p", "create /p/f", *(f"mkdir /p/d{at}" for at in range(248)), "mkdir /q", "mkdir /q/x"]
    told = [
        ("stat /p", "dir size 4016 links 250"),
        ("rename /q/x /p/f", "not a directory"),
        ("rename /q/x /p/d0", "exists"),
        ("rename /q/x /p/new", "too many links"),
        ("rename /p/d1 /p/e1", "ok"),
        ("mkdir /p/d5", "exists"),
        ("rename /p/f /q/f", "ok"),
        ("rename /q/f /p/d0", "is a directory"),
        ("rename /q/f /p/f", "ok"),
        ("stat /p", "dir size 4016 links 250"),
    ]
    yield told_row(made, told)
    # 254 names fill four blocks of slots, so that one name more takes a zone, and none is left
    made = ["create /f", *(f"link /f /f{at}" for at in range(249)), *(f"create /g{at}" for at in range(4))]
    told = [
        ("link /f /f0", "exists"),
        ("link /f /new", "too many links"),
        ("link /g0 /f0", "exists"),
        ("link /g0 /new", "no space"),
        ("rename /g0 /h", "ok"),
        ("unlink /f7", "ok"),
        ("link /f /new", "ok"),
        ("stat /f", "file size 0 links 250"),
    ]
    yield told_row(made, told, zones=24)


def told_row(made: list[str], told: list[tuple[str, str]], zones: int = 1024) -> str:
    """Calls that are done, and calls with their replies; nothing of them is durable."""
    calls = "".join(f"{call}\n" for call in [*made, *(call for call, _ in told)])
    replies = "".join(f"1 {call}: ok\n" for call in made) + "".join(f"1 {call}: {reply}\n" for call, reply in told)
    count = len(made) + len(told)
    script = f"volume inodes 512 zones {zones} journal 2048\nthread 1\n{calls}events\ncall 1 x {count}\n"
    return row(script, f"steps 0\nrequests 0\n{replies}thread 1: {count} of {count}\nclosed 0\nfound 0\ndir /\n")


def long() -> Iterator[str]:
    """The rows of scripts that differ in a number."""
    for rows in [commits, syncs, wraps, directories, links]:
        yield remark(" ".join((rows.__doc__ or "").split()))
        yield from rows()


def files() -> dict[pathlib.Path, str]:
    """The files of these rows, and what they are to hold."""
    return {data_folder() / "examples.txt": "".join(examples()), data_folder() / "long.txt": "".join(long())}
