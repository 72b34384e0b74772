"""The hunt for a schedule that breaks a claim."""
import pathlib
import random
import time

import pytest
from conftest import ROOT, Run as Tool

from barrierfs_tools.hunt import crosscheck, search, strategies
from barrierfs_tools.hunt.claims import Call, Fault, State, claim_of
from barrierfs_tools.hunt.complete import Explorer, complete
from barrierfs_tools.hunt.orders import Host
from barrierfs_tools.hunt.reading import Asked, Wrong
from barrierfs_tools.hunt.sessions import Broken, Counts, Run, Start
from barrierfs_tools.hunt.shrink import Shrinker, without_calls
from barrierfs_tools.scripts.reading import tree_of

PATTERNS = ROOT / "examples" / "patterns"
HOLD = [
    "write-ahead",
    "rollback",
    "replace",
    "mail",
    "two-phase",
    "new-file.without-barrier",
    "mail.without-letter-sync",
]
BROKEN = {
    "write-ahead.without-barrier": "never /db block 0 > /log block 0",
    "rollback.without-barrier": "always /db block 0 = /db block 1 or /db-journal bytes = 2048x01",
    "replace.without-barrier": "always /f bytes = 2048x01 or /f bytes = 2048x02",
    "mail.without-sync": 'if answered "fbarrier /new" then /new/1 exists and /tmp/1 missing',
    "two-phase.without-barrier": "never /log block 0 = 02 unless /a block 1 = 02 and /b block 1 = 02",
}
TREE = """dir /
file /a size 1500 links 2
block 0 1024x02
block 1 476x02
link /b /a
file /c size 1024 links 1
block 0 1000x02+24x00
file /empty size 0 links 1"""
HEAD = "volume inodes 32 zones 64 journal 128\nthread 1\n"


def text_of(name: str) -> str:
    """A file of the gallery."""
    return (PATTERNS / f"{name}.claims").read_text(encoding="utf-8")


def start_of(name: str) -> Start:
    """Its start."""
    return Start(Asked(text_of(name)))


def lines_of(start: Start, broken: Broken) -> list[str]:
    """The event lines that a schedule is shrunk to."""
    return Shrinker(start, broken.claim.text).lines(broken.names)


# Claims

CALLS = {3: Call(1, 0, "create /a"), 4: Call(1, 1, "fsync /a"), 7: Call(2, 0, "sync"), 8: Call(2, 1, "sync")}


@pytest.mark.parametrize(
    ("line", "holds"),
    [
        ("always /a exists", True),
        ("never /b missing", True),
        ("always /d exists", False),
        ("always /a size = 1500", True),
        ("always /b size < 1500", False),
        ("always /b size = #1500 and /a links = 2", True),
        ("always /d size = none", True),
        ("always /d size < 0 and /empty size = 0", True),
        ("always /a block 0 = 02", True),
        ("always /a block 0 = #2 and /a block 0 > 01", True),
        ("always /a block 2 = none", True),
        ("always /c block 0 = 02 or /c block 0 < 02 or /c block 0 > 02", False),
        ("always /c block 0 = /c block 0", True),
        ("always /a block 0 = /a block 1", True),
        ("always /a bytes = 1500x02", True),
        ("always /c bytes = 1000x02+24x00", True),
        ("always /a bytes = /b bytes and /a bytes != /c bytes", True),
        ("always /empty bytes = empty", True),
        ("never ( /a exists and not /d exists ) or /d exists", False),
        ("never /a exists and /d exists", True),
        ("never /a exists unless /c exists", True),
        ("never /a exists unless /d exists", False),
        ("always /d exists unless /a exists", True),
        ("if /d exists then /a missing", True),
        ("if /a exists then /c missing", False),
        ('if answered "create /a" then /d exists', False),
        ('if answered "fsync /a" then /d exists', True),
        ("if answered line 3 then /a exists", True),
        ("if answered line 7 then /d exists", True),
        ("always found = 3", True),
        ("always not(/d exists)", True),
    ],
)
def test_what_claims_mean(line: str, holds: bool) -> None:
    """Each word, on a tree that is written here."""
    state = State(tree_of(TREE.split("\n")), 3, frozenset({(1, 0)}))
    assert claim_of(line, CALLS).holds(state) == holds


@pytest.mark.parametrize(
    ("line", "says"),
    [
        ("neither /a exists", "word: `neither`"),
        ("always", "word: the end of the line"),
        ("always /a exist", "word: `exist`"),
        ("always /a block x = 02", "word: `x`"),
        ("always /a size = 0x10", "word: `0x10`"),
        ("always /a block 0 = 2", "word: `2`"),
        ("always /a size = 0a", "word: `0a`"),
        ("always /a size = /a block 0", "word: `/a`"),
        ("always /a bytes < /b bytes", "word: `/b`"),
        ("always 02 = 02", "word: `02`"),
        ("always /a exists and", "word: the end of the line"),
        ("always ( /a exists", "word: the end of the line"),
        ("always /a exists /b exists", "word: `/b`"),
        ("if /a exists", "word: the end of the line"),
        ('if answered "fsync /b" then /a exists', 'word: `"fsync /b"`'),
        ('if answered "sync" then /a exists', 'twice: `"sync"`'),
        ("if answered line 5 then /a exists", "number: `5`"),
        ("if answered fsync then /a exists", "word: `fsync`"),
    ],
)
def test_faults_of_claims(line: str, says: str) -> None:
    """Each tells the kind and the word."""
    with pytest.raises(Fault) as fault:
        claim_of(line, CALLS)
    assert str(fault.value).startswith(f"{says}: ")


@pytest.mark.parametrize(
    ("text", "says"),
    [
        ("device 4\n", "line 1: order: `device 4`"),
        ("volume inodes 32\n", "line 1: word: `volume inodes 32`"),
        ("claims\nalways /a exists\n", "line 1: order: `claims`"),
        (f"{HEAD}events\n", "line 3: order: `events`"),
        (f"{HEAD}creat /a\n", "line 3: word: `creat /a`"),
        ("volume inodes 32 zones 64 journal 128\ncut 3\n", "line 2: order: `cut 3`"),
        (f"{HEAD}begin\nbegin\n", "line 4: twice: `begin`"),
        (f"{HEAD}thread 2\nbegin\n", "line 4: order: `begin`"),
        (f"{HEAD}create /a\n", "line 4: order: the end of the file: `claims` is wanted"),
        (f"{HEAD}claims\n", "line 4: order: the end of the file: a claim is wanted"),
        (f"{HEAD}claims\n# none\n\nalways /a\n", "line 6: word: the end of the line"),
    ],
)
def test_faults_of_files(text: str, says: str) -> None:
    """Each tells the line, the kind and the word."""
    with pytest.raises(Wrong) as wrong:
        Asked(text)
    assert str(wrong.value).startswith(says)


# The search


@pytest.mark.parametrize("name", list(strategies.ROTATION))
def test_each_strategy_finds(name: str) -> None:
    """Each one finds the write-ahead log without its barrier, in so many schedules."""
    start = start_of("write-ahead.without-barrier")
    for nth in range(30):
        try:
            strategies.schedule(name, nth)(Run(start))
        except Broken as broken:
            assert broken.claim.text == BROKEN["write-ahead.without-barrier"]
            return
    pytest.fail("nothing was found")


def test_a_schedule_is_fixed_by_its_seed() -> None:
    """The same seed does the same events."""
    start, events = start_of("write-ahead"), []
    for seed in [6, 6, 7]:
        run = Run(start)
        strategies.schedule(strategies.strategy_of(seed), seed // len(strategies.ROTATION))(run)
        events.append(run.events)
    assert events[0] == events[1] != events[2]


@pytest.mark.parametrize("name", list(BROKEN))
def test_broken_patterns(name: str, program: str) -> None:
    """The search finds each, and the program breaks the claim by what it is shrunk to."""
    text = text_of(name)
    hit, counts = search.search(text, (0, 199), 60, 1, lambda _: None)
    assert hit is not None and hit.claim == BROKEN[name] and counts.schedules <= 200
    start = Start(Asked(text))
    lines = Shrinker(start, hit.claim).lines(hit.names)
    assert len(lines) <= 30
    assert search.confirmed(start.asked, program, start.asked.script([*start.lines, *lines]), hit.claim)
    # and not by a beginning of it
    assert not search.confirmed(start.asked, program, start.asked.script([*start.lines, *lines[:-1]]), hit.claim)


def test_the_shortest_write_ahead() -> None:
    """Ten event lines at most behind the set-up."""
    start = start_of("write-ahead.without-barrier")
    hit = search.search(start.asked.text, (0, 50), 60, 1, lambda _: None).hit
    assert hit is not None and len(Shrinker(start, hit.claim).lines(hit.names)) <= 10


def test_shrinking_is_quick() -> None:
    """A schedule of 200 events takes no three seconds of a processor."""
    start = start_of("rollback.without-barrier")
    found = complete(start).broken
    assert found is not None
    events, rng = list(found.names), random.Random(1)
    # with events that do nothing, or nothing that is needed
    while len(events) < 200:
        events.insert(rng.randrange(len(events)), (rng.choice(["commit", "flush", "answer", "accept"]), None))
    shrinker = Shrinker(start, found.claim.text)
    assert shrinker.broken(events) is not None
    begun = time.process_time()
    lines = shrinker.lines(events)
    assert time.process_time() - begun < 3 and len(lines) <= 30


def test_calls_are_left_out_where_that_is_allowed() -> None:
    """A call that has nothing to do with it goes; those of the claim stay."""
    text = text_of("write-ahead.without-barrier").replace("begin\n", "begin\ncreate /other\n")
    start = Start(Asked(text))
    found = complete(start).broken
    assert found is not None
    shrinker, names = without_calls(Shrinker(start, found.claim.text), found.names)
    left = [call for calls in shrinker.start.asked.threads for call in calls]
    assert "create /other" not in left and "write /db 0 1024 02" in left and names


# All schedules


@pytest.mark.parametrize("name", HOLD)
def test_patterns_that_hold(name: str) -> None:
    """They hold, all was looked at, and it was not nothing."""
    answer = complete(start_of(name))
    assert (answer.broken, answer.gave_up, answer.maybe) == (None, None, None)
    assert len(answer.trees) > 1


@pytest.mark.parametrize("name", list(BROKEN))
def test_patterns_that_break(name: str, program: str) -> None:
    """A schedule is found, and the program breaks the claim by it."""
    start = start_of(name)
    found = complete(start).broken
    assert found is not None and found.claim.text == BROKEN[name]
    script = start.asked.script([*start.lines, *lines_of(start, found)])
    assert search.confirmed(start.asked, program, script, found.claim.text)


def test_it_gives_up_at_its_bounds(monkeypatch: pytest.MonkeyPatch) -> None:
    """At an epoch of too many pages, at too many states, and where the time is over."""
    monkeypatch.setattr("barrierfs_tools.hunt.complete.MOST_MEDIA", 4)
    text = HEAD + "create /f\nwrite /f 0 4096 01\nsync\nbegin\nwrite /f 0 4096 02\nclaims\nalways /f exists\n"
    answer = complete(Start(Asked(text)))
    assert answer.broken is None and answer.gave_up == "an epoch leaves up to 8 media, of which 4 are looked at"
    monkeypatch.setattr("barrierfs_tools.hunt.complete.MOST_STATES", 5)
    assert complete(start_of("two-phase")).gave_up == "there are more than 5 states of the host"
    assert Explorer(start_of("rollback"), 0.0).explored().gave_up == "the time is over"


@pytest.mark.parametrize("seed", [0, 4, 5])
def test_media_are_those_of_schedules(seed: int) -> None:
    """Each medium is left by its schedule, and random ones leave no other."""
    found = crosscheck.compared(crosscheck.made(seed), 12)
    assert not found.gave_up and found.seen > 1
    assert (found.left, found.outside) == (found.media, 0)


def without_moved(host: Host) -> object:
    """A wrong key: which completions were taken does not count."""
    moved, host.moved = host.moved, set()
    try:
        return host.key()
    finally:
        host.moved = moved


def without_transactions(host: Host) -> object:
    """A wrong key: how far the commit is does not count."""
    gone = host.transactions_key()
    return tuple(part for part in host.key() if part != gone)


@pytest.mark.parametrize("wrong", [without_moved, without_transactions])
def test_wrong_merges_lose_media(wrong: crosscheck.Keys) -> None:
    """States that are not alike, taken as one, lose a medium that a schedule leaves."""
    start = Start(Asked(crosscheck.made(0)))
    right, lost = crosscheck.said_of(start, 60), crosscheck.said_of(start, 60, wrong)
    assert lost.states < right.states
    missing = right.media.keys() - lost.media.keys()
    assert missing
    assert all(crosscheck.is_left(start, content, *right.media[content]) for content in missing)


# The command


def test_command_finds(tool: Tool) -> None:
    """It prints the claim, the script, what its events do, and the tree."""
    path = PATTERNS / "write-ahead.without-barrier.claims"
    done = tool("tools/hunt", path, "--jobs", 1)
    assert done.returncode == 1 and not done.stderr
    for part in (
        "broken: never /db block 0 > /log block 0\nfound by ",
        "\nwrite /db 0 1024 02\nevents\n",
        "request 10 (block 7, page 0 of /db) goes to the medium",
        "the program: broken: never",
        "file /log size 1024 links 1\nblock 0 1024x01\n",
    ):
        assert part in done.stdout


def test_command_finds_nothing(tool: Tool) -> None:
    """It says how much was tried, and by --complete that it holds."""
    path = PATTERNS / "write-ahead.claims"
    done = tool("tools/hunt", path, "--jobs", 2, "--seeds", "0-15")
    assert (
        done.returncode == 0
        and "no claim was broken: 16 schedules, " in done.stdout
        and "different trees" in done.stdout
    )
    done = tool("tools/hunt", path, "--complete")
    assert done.returncode == 0 and done.stdout.startswith("holds for every schedule and cut: 9 states of the host, ")


def test_command_gives_up(tool: Tool, tmp_path: pathlib.Path) -> None:
    """It names what is outside, with a status of its own."""
    path = tmp_path / "limit.claims"
    path.write_text(text_of("write-ahead").replace("thread 1", "limit 100\nthread 1"), encoding="utf-8")
    done = tool("tools/hunt", path, "--complete")
    assert done.returncode == 3 and done.stdout.startswith("gave up: `limit 100`: ")


def test_command_tells_faults(tool: Tool, tmp_path: pathlib.Path) -> None:
    """Line, kind and word, with status 2; a set-up that breaks a claim is told, too."""
    path = tmp_path / "wrong.claims"
    path.write_text(f"{HEAD}create /a\nclaims\nalways /a size is 3\n", encoding="utf-8")
    done = tool("tools/hunt", path)
    assert done.returncode == 2 and done.stderr.startswith("hunt: line 5: word: `is`: ") and not done.stdout
    path.write_text(f"{HEAD}create /a\nsync\nbegin\nclaims\nalways /a missing\n", encoding="utf-8")
    done = tool("tools/hunt", path)
    assert done.returncode == 1 and "this does not hold of what the set-up leaves" in done.stderr


def test_counts_are_added() -> None:
    """Of two jobs."""
    one, other = Counts(), Counts()
    one.schedules, other.schedules, one.moments, other.moments = 2, 3, 4, 5
    one.trees, other.trees = {("a",)}, {("a",), ("b",)}
    one.add(other)
    assert (one.schedules, one.moments, len(one.trees)) == (5, 9, 2)
