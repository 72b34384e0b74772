"""Refuses memory and threads to the built program, in one way a run: it must end with status 8, `no memory` alone on
standard error, and write nothing, or end as it does otherwise, with the same output and the same first line on
standard error.

Each request for memory is refused in turn: of sessions of every kind of call, of images that are shown, widened,
checked and made, of a workload, of lists of words, and of runs of one thread and of sixteen. Of the runs also each
request with all behind it, each thread, so much address space in twenty steps, and so many processes from 1 to 30, as
another user.

Ends with status 1 where a run ends otherwise, or not within a minute. Wants gcc and prlimit, and for another user
root; a program that was built by --unproved has its memory from elsewhere.
"""
import concurrent.futures
import os
import pathlib
import shutil
import subprocess
import tempfile
from collections.abc import Callable, Iterable, Iterator, Mapping, Sequence
from typing import NamedTuple, NoReturn

from barrierfs_tools.cli.tool import add_jobs, add_program, parser_of, program_of, run_tool
from barrierfs_tools.model.grammar import STATUSES
from barrierfs_tools.paths import examples, root
from barrierfs_tools.runs import child

EXAMPLE = "  bench/refused --only mkdir"
FIRST = "volume inodes 32 zones 64 journal 128"
BLOCKS = """blocks 4
put 0 11 ordered
put 1 22 barrier
flush
events
submit x 3
accept x 3
dispatch 0 x 3
receive x 3
transfer 0 x 3
persist 0 x 3
"""
# The calls of a session, by name; each is done on a tree of two directories and a file.
SESSIONS = {
    "mkdir": ["mkdir /d/x"],
    "rmdir": ["rmdir /e"],
    "create": ["create /d/x"],
    "write": ["write /f 500 9000 33"],
    "bytes": ["bytes /f 3 616263"],
    "truncate": ["truncate /f 100", "truncate /f 5000", "truncate /f 0"],
    "read": ["read /f 10 2000"],
    "list": ["list /", "list /d"],
    "stat": ["stat /f", "stat /d"],
    "link": ["link /f /d/g"],
    "unlink": ["unlink /f"],
    "rename within a directory": ["rename /f /g"],
    "rename to another": ["rename /f /d/g"],
    "rename of a directory": ["rename /e /d/e"],
    "rename onto a file": ["create /h", "rename /h /f"],
    "rename onto a directory": ["mkdir /h", "rename /h /e"],
    "fbarrier": ["fbarrier /f"],
    "fdatabarrier": ["fdatabarrier /f"],
    "fsync": ["fsync /f"],
    "fdatasync": ["fdatasync /f"],
    "sync": ["sync"],
    "indirect": ["write /f 7000 3000 11", "truncate /f 8000", "unlink /f"],
}
# Words of each command, some that are refused by each test, and none. Where nothing is asked, the status is 2.
WORDS: list[list[str]] = [
    *([name] for name in ("replay", "run", "show", "widen", "check", "kv", "make", "bulk", "reply", "--")),
    *([name, "--raw"] for name in ("replay", "run", "widen", "show", "make", "bulk")),
    *(["make", *numbers.split()] for numbers in ("32 5 128", "32 64", "32 64 128 1", "032 64 128", "32 64 x")),
    ["make", "32", "--", "128"],
    *(["bulk", number] for number in ("0", "+5", "10001", "5 5")),
    ["replay", "replay"],
    ["replay", "--raw", "--raw"],
    ["show", "x"],
    ["replay", "-r"],
    ["check", ""],
    [],
]
TREE = ["mkdir /d", "mkdir /e", "create /f", "write /f 0 2000 aa"]
PATIENCE = 60  # seconds of a run
# Megabytes of address space. Where the program itself finds no room, the system tells so by a status of its own.
SPACE, UNLOADED = "address space of MB", 127
SPACES = [20, 25, 30, 35, 40, 50, 60, 70, 80, 100, 120, 150, 200, 250, 300, 400, 500, 600, 800, 1000]
MOST_PROCESSES = 30
NOBODY = 65534  # another user, whom a limit on processes binds
NO_MEMORY = b"barrierfs: no memory\n"
FIGURES = (b"steps", b"requests", b"closed", b"found")


class Case(NamedTuple):
    """The words to run the program with, and its input."""

    name: str
    words: list[str]
    data: bytes


class End(NamedTuple):
    """How a run ended: its status, its output, and what was said of a fault."""

    status: int
    out: bytes
    said: bytes


class Verdict(NamedTuple):
    """What is printed of some runs, and whether each ended as it should."""

    text: str
    well: bool


Try = Callable[[], Verdict]


def told_by(words: Sequence[str], output: bytes) -> list[bytes]:
    """What each run of a script tells: of one in threads neither figures nor the order of the answers."""
    if words[:1] != ["run"]:
        return [output]
    return sorted(line for line in output.split(b"\n") if line.split(b" ")[0] not in FIGURES)


def ended(case: Case, command: child.Words, env: Mapping[str, str] | None = None, user: int | None = None) -> End:
    """How a command ends with the input of a case."""
    done = child.run(command, case.data, PATIENCE, {**os.environ, **(env or {})}, user)
    # Behind a first line clap may have said something, or found no memory for it.
    said = done.err if done.status == STATUSES["no memory"] else done.err[: done.err.find(b"\n") + 1]
    return End(done.status, done.out, said)


class Tries:
    """A case, and what is refused to it."""

    def __init__(self, program: str, library: str, folder: str, case: Case) -> None:
        self.program, self.library, self.case = program, library, case
        told = pathlib.Path(folder) / case.name.replace(" ", "-")
        self.whole = self.loaded({"REFUSE_TELL": str(told)})
        self.requests, self.threads = map(int, told.read_text(encoding="utf-8").split())

    def loaded(self, env: Mapping[str, str]) -> End:
        """How it ends with the library that refuses."""
        return ended(self.case, [self.program, *self.case.words], {"LD_PRELOAD": self.library, **env})

    def within(self, limit: str, user: int | None = None) -> End:
        """How it ends below a limit of the system."""
        return ended(self.case, ["prlimit", limit, "--", self.program, *self.case.words], user=user)

    def is_whole(self, end: End) -> bool:
        """Whether a run ended as where nothing is refused."""
        told, whole = (told_by(self.case.words, each.out) for each in (end, self.whole))
        return told == whole and (end.status, end.said) == (self.whole.status, self.whole.said)

    def judged(self, what: str, ends: Iterable[tuple[int, End]]) -> Verdict:
        """What is to be said of runs in which this was refused, each with its place."""
        count = well = unloaded = 0
        for at, end in ends:
            count += 1
            if self.is_whole(end):
                well += 1
            elif what == SPACE and end[:2] == (UNLOADED, b""):
                unloaded += 1
            elif end != (STATUSES["no memory"], b"", NO_MEMORY):
                status = "no end" if end.status == child.LATE else f"status {end.status}"
                return Verdict(f"{self.case.name}: {what} {at}: {status}, {len(end.out)} bytes, {end.said!r}", False)
        more = f", {unloaded} were not loaded" if unloaded else ""
        refused = f"{count} runs, {count - well - unloaded} ended with status 8{more}"
        return Verdict(f"{self.case.name}: {what}: {refused}", count > unloaded)

    def each_request(self) -> Verdict:
        """Each request for memory in turn."""
        ends = ((at, self.loaded({"REFUSE_AT": str(at)})) for at in range(1, self.requests + 1))
        return self.judged("a request for memory", ends)

    def all_behind(self) -> Verdict:
        """Each request for memory in turn, with all that come behind it."""
        ends = ((at, self.loaded({"REFUSE_AT": str(at), "REFUSE_ON": "1"})) for at in range(1, self.requests + 1))
        return self.judged("a request for memory and all behind it", ends)

    def each_thread(self) -> Verdict:
        """Each thread in turn."""
        ends = ((at, self.loaded({"REFUSE_THREAD": str(at)})) for at in range(1, self.threads + 1))
        return self.judged("a thread", ends)

    def spaces(self) -> Verdict:
        """Address space, three times each: how much a run takes depends on how its threads go on."""
        return self.judged(SPACE, ((mb, self.within(f"--as={mb * 1000 * 1024}")) for mb in SPACES for _ in range(3)))

    def processes(self) -> Verdict:
        """Processes, one run after the other, since those of one user are counted together."""
        counts = range(1, MOST_PROCESSES + 1)
        return self.judged("processes", ((n, self.within(f"--nproc={n}", NOBODY)) for n in counts))


def session(calls: Sequence[str], header: Sequence[str] = (), events: Sequence[str] = ("round 200",)) -> bytes:
    """A volume script with these calls behind those of the tree."""
    return ("\n".join([FIRST, *header, "thread 1", *TREE, *calls, "events", *events]) + "\n").encode()


def cases(program: str) -> Iterator[Case]:
    """All cases."""
    for name, calls in SESSIONS.items():
        yield Case(name, ["replay"], session(calls))
    cut = session(["fsync /f"], ["cut 20"], ["round 200", "recover d3", "recover t0 p0"])
    yield Case("cut and recovered", ["replay"], cut)
    yield Case("failed", ["replay"], session(["fsync /f"], ["fail 3"]))
    yield Case("raw", ["replay", "--raw"], session(["sync"]))
    long = session(["create /d/abcdefghijklmnopqrstuvwxyz0123"]).replace(b"128\n", b"128 names 30\n", 1)
    yield Case("names of 30 bytes", ["replay"], long)
    yield Case("flash", ["replay"], session(["fsync /f"], ["flash 3"]))
    yield Case("elevator", ["replay"], session(["fsync /f"], ["elevator"]))
    yield Case("blocks", ["replay"], BLOCKS.encode())
    image = child.run([program, "replay", "--raw"], session(["sync"])).out
    yield Case("show", ["show"], image)
    yield Case("widen", ["widen"], image)
    yield Case("raw widen", ["widen", "--raw"], image)
    yield Case("check", ["check"], image)
    yield Case("make", ["make", "32", "64", "128"], b"")
    yield Case("bulk", ["bulk", "20"], b"")
    for words in WORDS:
        yield Case(f"words {' '.join(words) or 'none'}".replace("/", "-"), words, b"")
    yield Case("kv", ["kv"], b"store 4\ncut 27\nput a 1\nput b 2\nput a 3\nflush\nevents\nround 200\nrecover d3\n")


def thread_cases() -> Iterator[Case]:
    """Runs of one thread, which commits three times, and of sixteen, each with a file of its own."""
    yield Case("run", ["run"], (examples() / "threads-same.run").read_bytes())
    threads = [f"thread {t}\ncreate /f{t}\nwrite /f{t} 0 4000 61\nfsync /f{t}" for t in range(1, 17)]
    sixteen = "\n".join(["volume inodes 64 zones 400 journal 256", *threads, "events\n"])
    yield Case("run of sixteen", ["run"], sixteen.encode())


def made_in(folder: str, program: str) -> tuple[str, str]:
    """The program and the library that refuses, where another user may read them."""
    os.chmod(folder, 0o755)
    own, library = f"{folder}/program", f"{folder}/refuse.so"
    shutil.copy(program, own)
    os.chmod(own, 0o755)
    source = root() / "bench" / "refuse.c"
    subprocess.run(["gcc", "-shared", "-fPIC", "-O1", "-o", library, source, "-ldl"], check=True)
    return own, library


def verdict(each: Try) -> Verdict:
    """What is found by this."""
    return each()


def tried(tries: Sequence[Try], jobs: int) -> list[Verdict]:
    """What is found by these, so many at a time."""
    with concurrent.futures.ThreadPoolExecutor(jobs) as pool:
        try:
            return list(pool.map(verdict, tries))
        except BaseException:
            pool.shutdown(wait=False, cancel_futures=True)
            child.end_all()
            raise


def found_by(program: str, only: str, jobs: int) -> list[Verdict]:
    """What is found of the cases with these words in their names."""
    with tempfile.TemporaryDirectory() as folder:
        program, library = made_in(folder, program)

        def chosen(given: Iterable[Case]) -> list[Tries]:
            return [Tries(program, library, folder, case) for case in given if only in case.name]

        runs = chosen(thread_cases())
        tries: list[Try] = [it.each_request for it in chosen(cases(program))]
        for it in runs:
            tries += [it.each_request, it.all_behind, it.each_thread, it.spaces]
        found = tried(tries, jobs)
        if os.geteuid() == 0:
            found += [it.processes() for it in runs]
        elif runs:
            found.append(Verdict("processes: not tried, which root can", True))
    return found


def work() -> int:
    """What the command does."""
    parser = parser_of("refused", __doc__, EXAMPLE)
    parser.add_argument("--only", default="", metavar="WORDS", help="only the cases with these words in their names")
    add_jobs(parser)
    add_program(parser, stands_alone=True)
    asked = parser.parse_args()
    found = found_by(str(pathlib.Path(program_of(asked)).resolve()), asked.only, asked.jobs)
    for text, _ in found:
        print(text)
    return int(not all(well for _, well in found))


def main() -> NoReturn:
    """The command."""
    run_tool("refused", work)
