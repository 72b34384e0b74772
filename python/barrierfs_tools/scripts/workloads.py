"""Scripts of the most blocks and requests that the limits allow, and volume scripts of several sizes, for
measurements."""

from collections.abc import Callable, Iterator

BLOCKS, REQUESTS = 4096, 10000


def device(name: str, line: Callable[[int], str], requests: int = REQUESTS) -> tuple[str, str]:
    """A device script: line(i) is request i; all are received, transferred and persisted."""
    body = [line(i) for i in range(requests)]
    text = ["device %d" % BLOCKS] + body + ["events"]
    done = 0
    while done < requests:
        n = min(32, requests - done)
        text += ["receive x %d" % n, "transfer 0 x %d" % n]
        done += n
    text += ["persist 0 x %d" % requests]
    return name, "\n".join(text) + "\n"


def scheduled(
    name: str, line: Callable[[int], str], batch: int, header: tuple[str, ...] = (), requests: int = REQUESTS
) -> tuple[str, str]:
    """A blocks script: requests go through the scheduler, so many at a time."""
    body = [line(i) for i in range(requests)]
    text = ["blocks %d" % BLOCKS, *header] + body + ["events"]
    done = 0
    while done < requests:
        n = min(batch, requests - done)
        text += [event + " x %d" % n for event in ("submit", "accept", "dispatch 0", "receive", "transfer 0")]
        done += n
    text += ["persist 0 x %d" % requests]
    return name, "\n".join(text) + "\n"


def batches(name: str, kind: str, size: int, header: tuple[str, ...] = (), requests: int = 9600) -> tuple[str, str]:
    """A script in which so many requests at a time go the whole way to the medium: by one persist each, or by two on
    a flash log."""
    words = ("submit", "accept", "dispatch 0") if kind == "blocks" else ()
    text = ["%s %d" % (kind, BLOCKS), *header, *(put(i, "ordered") for i in range(requests)), "events"]
    for _ in range(0, requests, size):
        for _ in range(0, size, 32):
            text += [event + " x 32" for event in (*words, "receive", "transfer 0")]
        text.append("persist 0 x %d" % (2 * size))
    return name, "\n".join(text) + "\n"


def volume(name: str, groups: int, length: int, rounds: int) -> tuple[str, str]:
    """A volume script of one thread: groups of five `create` and `write`, with an `fbarrier` behind the last of
    them."""
    text = ["volume inodes 4608 zones 16384 journal 1024", "limit 200000", "thread 1"]
    for group in range(groups):
        for file in range(5 * group, 5 * group + 5):
            text += ["create /f%d" % file, "write /f%d 0 %d %02x" % (file, length, file % 256)]
        text.append("fbarrier /f%d" % (5 * group + 4))
    return name, "\n".join(text + ["events", "round %d" % rounds]) + "\n"


def letters(name: str, threads: int, count: int, rounds: int) -> tuple[str, str]:
    """A volume script of mail servers: each thread makes so many files of 2,000 bytes, with an `fsync` behind each."""
    text = ["volume inodes 2048 zones 8192 journal 1024", "limit 200000"]
    for thread in range(1, threads + 1):
        text.append("thread %d" % thread)
        for letter in range(count):
            path = "/t%dm%d" % (thread, letter)
            text += ["create " + path, "write %s 0 2000 %02x" % (path, letter % 256), "fsync " + path]
    return name, "\n".join(text + ["events", "round %d" % rounds]) + "\n"


def wraps(name: str, files: int, blocks: int, rounds: int) -> tuple[str, str]:
    """A volume script that goes round a small log: files of so many blocks, with an `fbarrier` behind each block.

    Each block is a transaction of four log blocks at least, as descriptor, map of the zones, inodes and commit block,
    and the log has 127 places: so it is gone round `files * blocks * 4 / 127` times and more.
    """
    text = ["volume inodes 64 zones 4096 journal 128", "limit 200000", "thread 1"]
    for file in range(files):
        text.append("create /f%d" % file)
        for block in range(blocks):
            text += ["write /f%d %d 1024 %02x" % (file, 1024 * block, block), "fbarrier /f%d" % file]
    return name, "\n".join(text + ["events", "round %d" % rounds]) + "\n"


def small_files(name: str, count: int, rounds: int) -> tuple[str, str]:
    """A volume script of one thread: so many `create` and `write` of 1,000 bytes, with an `fbarrier` behind every
    tenth file."""
    text = ["volume inodes 4608 zones 16384 journal 1024", "limit 200000", "thread 1"]
    for file in range(count):
        text += ["create /f%d" % file, "write /f%d 0 1000 %02x" % (file, file % 256)]
        if file % 10 == 9:
            text.append("fbarrier /f%d" % file)
    return name, "\n".join(text + ["events", "round %d" % rounds]) + "\n"


def turns(name: str, count: int, rounds: int) -> tuple[str, str]:
    """A volume script that goes round a small log with few calls: five directories come and go again, so many times.

    A transaction in which they come has 15 log blocks: a descriptor, the blocks of five directories and of their five
    parents, both maps, the inodes and the commit block. One in which they go has 11: a descriptor, a revoke, the
    parents, the maps, the inodes and the commit block.
    """
    text = ["volume inodes 64 zones 256 journal 128", "limit 200000", "thread 1"]
    text += ["mkdir /d%d" % place for place in range(5)]
    for _ in range(count):
        text += ["mkdir /d%d/x" % place for place in range(5)] + ["fbarrier /d0"]
        text += ["rmdir /d%d/x" % place for place in range(5)] + ["fbarrier /d0"]
    return name, "\n".join(text + ["events", "round %d" % rounds]) + "\n"


def waiting(name: str, files: int, steps: int) -> tuple[str, str]:
    """A volume script in which a call is asked so many times while the transaction is being closed: a `create` in a
    directory of so many files, which waits until the pages of another file are sent."""
    text = ["volume inodes %d zones 16384 journal 4096" % (2 * files), "limit 200000", "thread 1", "mkdir /d"]
    text += ["create /d/%d" % file for file in range(files)]
    text += ["create /a", "write /a 0 31744 11", "fbarrier /d", "thread 2", "create /d/x"]
    events = ["call 1 x %d" % (files + 8), "commit x 2", "call 2 x %d" % steps]
    return name, "\n".join(text + ["events", *events]) + "\n"


def one_file(name: str) -> tuple[str, str]:
    """A volume script that makes one file on the largest volume, and syncs it."""
    text = ["volume inodes 21845 zones 65535 journal 4096", "thread 1", "create /file", "fsync /file"]
    return name, "\n".join(text + ["events", "round 100"]) + "\n"


def written(path: str, blocks: int, value: int = 0) -> list[str]:
    """Calls that write so many blocks of a file, 31 a call."""
    return [
        "write %s %d %d %02x" % (path, 1024 * first, 1024 * min(31, blocks - first), (first + value) % 256)
        for first in range(0, blocks, 31)
    ]


def on_large_volume(name: str, blocks: int, calls: list[str], *events: str) -> tuple[str, str]:
    """A volume script of one thread, on a volume with room for so many blocks."""
    text = [
        "volume inodes 64 zones %d journal 16384" % (blocks + blocks // 500 + 100),
        "limit 200000",
        "thread 1",
        *calls,
        "events",
    ]
    return name, "\n".join([*text, *(events or ["call 1 x %d" % len(calls)])]) + "\n"


def large(name: str, blocks: int, last: str) -> tuple[str, str]:
    """Writes a file of so many blocks, and then does `last` with it; no event but these calls."""
    return on_large_volume(name, blocks, ["create /file", *written("/file", blocks), last])


def beside(name: str, blocks: int) -> tuple[str, str]:
    """Appends half of so many blocks to a file, where a file that was made later has the other half."""
    half = blocks // 2
    return on_large_volume(
        name, blocks, ["create /file", "create /later", *written("/later", half), *written("/file", half)]
    )


def synced_file(name: str, blocks: int, again: bool) -> tuple[str, str]:
    """Writes a file of so many blocks, syncs it, and where `again` is said writes over all of it and syncs it once
    more."""
    calls = ["create /file", *written("/file", blocks), "fsync /file"]
    if again:
        calls += [*written("/file", blocks, 1), "fsync /file"]
    return on_large_volume(name, blocks, calls, "round %d" % (3 * blocks * (1 + again) + 1000))


def other_barrier(name: str, blocks: int) -> tuple[str, str]:
    """An `fbarrier` on a file of one block, while another one has so many blocks that were not sent."""
    calls = ["create /file", "create /other", *written("/other", blocks), "write /file 0 1024 11", "fbarrier /file"]
    return on_large_volume(name, blocks, calls, "round %d" % (3 * blocks + 1000))


def directory(name: str, count: int, emptied: bool = False) -> tuple[str, str]:
    """So many files in one directory, which are all taken out again where that is said; by as many threads as their
    calls need, and no event but these calls."""
    lines = ["create /d/%d" % file for file in range(count)] + [
        "unlink /d/%d" % file for file in range(count) if emptied
    ]
    text, threads = ["volume inodes %d zones %d journal 16384" % (count + 64, 4096 + count // 16)], -(
        -len(lines) // 9999
    )
    for thread in range(threads):
        text += [
            "thread %d" % (thread + 1),
            *(["mkdir /d"] if thread == 0 else []),
            *lines[thread * 9999 : (thread + 1) * 9999],
        ]
    calls = ["call %d x %d" % (thread + 1, 10000) for thread in range(threads)]
    return name, "\n".join([*text, "events", *calls]) + "\n"


def synced(files: int, cut: int) -> str:
    """A small volume script: so many files with an `fsync` behind each, and the power is cut after so many steps of
    the device."""
    text = ["volume inodes 128 zones 512 journal 128", "cut %d" % cut, "thread 1"]
    for file in range(files):
        path = "/f%d" % file
        text += ["create " + path, "write %s 0 100 %02x" % (path, file), "fsync " + path]
    return "\n".join(text + ["events", "round 2000"]) + "\n"


def put(i: int, kind: str) -> str:
    """Request `i`: a put of a block with a gap between."""
    return "put %d %02x %s" % (i * 7 % BLOCKS, i % 256, kind)


def mails(name: str, threads: int, files: int) -> tuple[str, str]:
    """Threads that each make a directory and so many files in it, each of 1,000 bytes and synced, and then sync all."""
    text = ["volume inodes 256 zones 512 journal 256"]
    for thread in range(1, threads + 1):
        text += ["thread %d" % thread, "mkdir /t%d" % thread]
        for file in range(files):
            path = "/t%d/m%d" % (thread, file)
            text += ["create " + path, "write %s 0 1000 61" % path, "fsync " + path]
        text.append("sync")
    return name, "\n".join(text + ["events", "round %d" % (40 * files)]) + "\n"


def syncing(name: str, threads: int, count: int) -> tuple[str, str]:
    """Threads that each write over the block of a file of their own so many times, with an `fsync` behind each
    write."""
    text = ["volume inodes 64 zones 512 journal 1024", "limit 200000"]
    for thread in range(1, threads + 1):
        path = "/f%d" % thread
        text += ["thread %d" % thread, "create " + path]
        for at in range(count):
            text += ["write %s 0 1024 %02x" % (path, at % 256), "fsync " + path]
    return name, "\n".join(text + ["events", "round %d" % (60 * count)]) + "\n"


def thread_cases() -> Iterator[tuple[str, str]]:
    """Name and text of each script for `run`."""
    yield mails("threads-608-replies", 4, 50)
    for threads in (1, 2, 4, 8, 16):
        yield syncing("threads-%d-fsync" % threads, threads, 100)


def cases() -> Iterator[tuple[str, str]]:
    """Name and text of each script."""
    yield device("device-thousand-epochs", lambda i: put(i, "barrier" if i % 10 == 9 else "ordered"))
    yield device("device-one-epoch", lambda i: put(i, "ordered"))
    yield device("device-orderless", lambda i: put(i, "free"))
    yield device("device-every-barrier", lambda i: put(i, "barrier"))
    yield device("device-mixed", lambda i: put(i, ("free", "ordered", "barrier")[i % 3]))
    yield scheduled("elevator-consecutive", lambda i: "put %d %02x free" % (i % BLOCKS, i % 256), 32, ("elevator",))
    for scheduler, header in (("blocks", ()), ("elevator", ("elevator",))):
        yield scheduled(
            scheduler + "-thousand-epochs", lambda i: put(i, "barrier" if i % 10 == 9 else "ordered"), 10, header
        )
        yield scheduled(scheduler + "-ordered", lambda i: put(i, "ordered"), 32, header)
        yield scheduled(scheduler + "-orderless", lambda i: put(i, "free"), 32, header)
        yield scheduled(scheduler + "-every-barrier", lambda i: put(i, "barrier"), 1, header)
        yield scheduled(scheduler + "-mixed", lambda i: put(i, ("free", "ordered", "barrier")[i % 3]), 3, header)
    for kind, size in (("device", 32), ("device", 960), ("blocks", 32)):
        name = "%s-batches-%d" % (kind, size)
        yield batches(name, kind, size)
        yield batches(name + "-flash", kind, size, ("flash 64",))
    for name, groups in (("100", 9), ("1000", 91), ("10000", 909)):
        yield volume("volume-%s-calls" % name, groups, 1000, 40 * groups)
    yield small_files("volume-thousand-files", 1000, 16000)
    yield volume("volume-large-writes", 91, 32000, 20000)
    yield letters("volume-letters", 8, 200, 8000)
    yield wraps("volume-hundred-wraps", 32, 100, 45000)
    yield waiting("volume-waiting", 4000, 1000000)
    for name, count in (("quarter", 123), ("half", 245), ("whole", 489)):
        yield turns("volume-turns-" + name, count, 80 * count)
    yield one_file("volume-one-file")
    for size in (1000, 4000, 16000, 60000):
        for word, last in (("stat", "stat /file"), ("unlink", "unlink /file"), ("truncate", "truncate /file 0")):
            yield large("volume-file-%d-%s" % (size, word), size, last)
        yield synced_file("volume-file-%d-fsync" % size, size, False)
        yield beside("volume-file-%d-beside" % size, size)
    for size in (1000, 4000, 16000, 30000):
        yield synced_file("volume-file-%d-again" % size, size, True)
    for size in (1000, 4000, 16000, 30000, 60000):
        yield other_barrier("volume-file-%d-other" % size, size)
    for count in (1000, 4000, 16000, 30000):
        yield directory("volume-directory-%d" % count, count)
        yield directory("volume-directory-%d-emptied" % count, count, True)
