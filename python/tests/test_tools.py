"""Each tool on small inputs, and that it finds what is planted."""
import json
import pathlib
import shutil
from collections.abc import Callable

import pytest
from conftest import ROOT, Run

EXAMPLES = ROOT / "examples"
Planted = Callable[[str], str]
# Three outcomes, by hand: nothing is there before the persist of step 2, the byte of request 0 then, and that of 1 after step 4.
TWO_PUTS = "device 1\nput 0 11 barrier\nput 0 22 barrier\nevents\n" + "receive\ntransfer 0\npersist 0\n" * 2
SYNC = "volume inodes 4 zones 12 journal 128\nthread 1\ncreate /a\nwrite /a 0 1024 11\nfsync /a\nevents\nround 40\n"


@pytest.fixture
def script(tmp_path: pathlib.Path) -> Callable[[str], pathlib.Path]:
    """Writes a script."""

    def write(text: str) -> pathlib.Path:
        path = tmp_path / "case.script"
        path.write_text(text, encoding="utf-8")
        return path

    return write


def test_sweep(tool: Run, script: Callable[[str], pathlib.Path]) -> None:
    """The rows of a sweep, worked out by hand."""
    done = tool("tools/sweep", script(TWO_PUTS))
    rows = [line.split() for line in done.stdout.splitlines()[1:]]
    assert rows == [["cut", "block", "0"], ["0-1", "00"], ["2-3", "11", "(0)"], ["4-end", "22", "(1)"]]
    found = json.loads(tool("tools/sweep", script(TWO_PUTS), "--json").stdout)[0]
    assert found["steps"] == 4 and [row["last"] for row in found["rows"]] == [1, 3, 5]
    assert found["rows"][1]["blocks"] == {"block 0": ["11", "0"]}


def test_sweep_counts_flushes(tool: Run, script: Callable[[str], pathlib.Path]) -> None:
    """One flush for one sync call, submitted behind the commit block."""
    found = json.loads(tool("tools/sweep", script(SYNC), "--json").stdout)[0]
    assert found["calls"] == 3 and len(found["flushes_after_steps"]) == 1
    assert found["rows"][-1]["files"] == {"/a": "1024x11"}


def test_sweep_tells_faults(tool: Run, script: Callable[[str], pathlib.Path]) -> None:
    """A fault of a script is told with its line, and two kinds do not go together."""
    done = tool("tools/sweep", script("device 1\nput 0 5g free\nevents\n"))
    assert done.returncode == 1 and "script line 2: word" in done.stderr
    done = tool("tools/sweep", script(TWO_PUTS), "--against", EXAMPLES / "epoch-end.script", "--jobs", 0)
    assert done.returncode == 2


# Of these scripts each event that did nothing: line, which times, and some words of the cause. Worked out by hand.
NOTHING = {
    "flag-moves": [
        (9, "3", "closed by the barrier request 1"),
        (12, "", "closed by the barrier request 1"),
        (22, "", "past the entries of the oldest epoch, 0: request 1"),
    ],
    "out-of-order": [
        (16, "8", "the scheduler is closed"),
        (17, "", "place 7 is past the eligible requests, 0: request 0 (block 6), 1: request 1 (block 64)"),
        (31, "", "place 7 is past the eligible commands, 0: request 6 (block 69), 1: request 5 (block 68)"),
        (32, "", "place 6 is past the eligible commands, 0: request 6 (block 69), 1: request 5 (block 68)"),
        (42, "", "place 7 is past the entries of the oldest epoch, 0: request 1 (block 64), 1: request 2 (block 65)"),
        (44, "", "place 1 is past the entries of the oldest epoch, 0: request 0 (block 6)"),
    ],
}
# What is said of some events that acted, by line. The superblock of the volume is block 1, the maps are 2 and 3, the table
# is 4, the root directory 5, the first free zone 6; the journal's superblock is 64.
SAID = {
    "out-of-order": [
        (10, "fbarrier /f: submits request 0 (block 6, page 0 of /f), order-preserving"),
        (13, "submits request 6 (block 69, journal body of block 5), barrier"),
        (13, "submits request 7 (block 70, commit block of transaction 1), barrier"),
        (
            19,
            "request 6 (block 69, journal body of block 5) leaves as SIMPLE, without the barrier flag that it brought",
        ),
        (25, "request 0 (block 6, page 0 of /f) leaves as ORDERED with the barrier flag that request 6 brought"),
    ],
    "write-ahead": [
        (22, "submits request 9 (a flush)"),
        (26, "submits request 11 (block 7, page 0 of /db), orderless"),
        (32, "request 11 (block 7, page 0 of /db) leaves as SIMPLE; nothing else was eligible"),
    ],
}
# After how many steps of the device each flush is submitted: one for each sync call that waits.
FLUSHES = {"mail-fsync": 2, "write-ahead": 1, "database-barrier": 0}


def said_by(text: str) -> list[tuple[int, str]]:
    """The line of each event that is told, and what is said of it."""
    found: list[tuple[int, str]] = []
    line = 0
    for row in text.splitlines():
        if row.startswith("line "):
            line = int(row[5:].split(":")[0])
        elif row.startswith("    "):
            found.append((line, row.strip()))
    return found


@pytest.mark.parametrize("name", NOTHING)
def test_explain_tells_causes(name: str, tool: Run) -> None:
    """Each event of an example that did nothing, with its cause."""
    done = tool("tools/explain", EXAMPLES / f"{name}.script", "--nothing")
    assert done.returncode == 0 and "agree with this" in done.stdout
    found = said_by(done.stdout)
    assert len(found) == len(NOTHING[name])
    for (line, text), (wanted, times, words) in zip(found, NOTHING[name]):
        assert line == wanted and text.startswith(f"{times}: nothing: " if times else "nothing: ") and words in text


@pytest.mark.parametrize("name", SAID)
def test_explain_tells_what_was_done(name: str, tool: Run) -> None:
    """Some events of an example that acted."""
    done = tool("tools/explain", EXAMPLES / f"{name}.script")
    found = said_by(done.stdout)
    assert done.returncode == 0
    assert all(any(line == at and words in text for line, text in found) for at, words in SAID[name])


@pytest.mark.parametrize("name", FLUSHES)
def test_flushes_of_examples(name: str, tool: Run) -> None:
    """The flushes of an example."""
    found = json.loads(tool("tools/sweep", EXAMPLES / f"{name}.script", "--json").stdout)
    assert len(found[0]["flushes_after_steps"]) == FLUSHES[name]


def test_explain_by_runs(tool: Run, planted: Planted, script: Callable[[str], pathlib.Path]) -> None:
    """Of a session that differs, runs tell the rest."""
    other = planted('printed = printed.replace(b"found 0", b"found 1") if b"call 1 x 5" in text else printed')
    path = script(SYNC.replace("round 40", "call 1 x 5"))
    done = tool("tools/explain", path, "--program", other)
    assert done.returncode == 1 and "runs of the program alone" in done.stdout


def test_explain_finds_another_program(tool: Run, planted: Planted) -> None:
    """A program in which the second request never loses its flag."""
    other = planted('printed = printed.replace(b"block 2 00 -", b"block 2 22 2") if b"persist 1" in text else printed')
    done = tool("tools/explain", EXAMPLES / "flag-moves.script", "--program", other)
    assert done.returncode == 1 and "The model and the program differ here:" in done.stdout


def test_explain_a_session(tool: Run, script: Callable[[str], pathlib.Path]) -> None:
    """What a session did; block 6 is the first free zone, behind the superblock, two maps, the table and the root's."""
    done = tool("tools/explain", script(SYNC.replace("round 40", "call 1 x 4")))
    assert done.returncode == 0
    assert "fsync /a: submits request 0 (block 6, page 0 of /a), order-preserving" in done.stdout


def test_random(tool: Run, planted: Planted) -> None:
    """Random inputs agree; a program that tells one step more is found out, and one that ends by another status."""
    done = tool("examples/random", 4, "--kinds", "blocks,limit,store", "--seconds", 30, "--jobs", 2)
    assert done.returncode == 0 and "4 inputs of each kind are as they should be" in done.stdout
    done = tool(
        "examples/random",
        4,
        "--kinds",
        "blocks",
        "--program",
        planted('printed = printed.replace(b"steps ", b"steps 1")'),
    )
    assert done.returncode == 1 and "and not" in done.stdout
    done = tool("examples/random", 4, "--kinds", "limit", "--first", 0, "--program", planted("done.returncode = 5"))
    assert done.returncode == 1 and "its status is 5" in done.stdout


def test_random_writes(tool: Run, tmp_path: pathlib.Path) -> None:
    """The same seed has the same input."""
    for name in ("one", "two"):
        assert tool("examples/random", "--kinds", "image", "--first", 7, "--write", tmp_path / name).returncode == 0
    assert (tmp_path / "one").read_bytes() == (tmp_path / "two").read_bytes() != b""


def test_campaign(tool: Run, planted: Planted, tmp_path: pathlib.Path) -> None:
    """A campaign finds what is planted and no more, goes on where it was, and is done job by job."""
    if not shutil.which("parallel"):
        pytest.skip("GNU parallel is not there")
    words = ["--seeds", "0-9", "--kinds", "blocks", "--batch", 5, "--jobs", 2]
    good = tool("tools/campaign", tmp_path / "good", *words)
    assert good.returncode == 0 and "2 of 2 jobs were done" in good.stdout
    other = planted('printed = printed.replace(b"steps ", b"steps 1") if sum(text) % 3 == 0 else printed')
    bad = tool("tools/campaign", tmp_path / "bad", *words, "--program", other)
    names = sorted(path.stem for path in (tmp_path / "bad" / "broken").glob("*.script"))
    wanted: list[str] = []
    for seed in range(10):
        path = tmp_path / f"blocks-{seed}"
        tool("examples/random", "--kinds", "blocks", "--first", seed, "--write", path)
        wanted += [path.name] if sum(path.read_bytes()) % 3 == 0 else []
    assert bad.returncode == 1 and names == wanted != []
    assert tool("tools/campaign", tmp_path / "plan", *words, "--plan").stdout == "2\n"
    assert tool("tools/campaign", tmp_path / "plan", "--nth", 1).returncode == 0
    table = tool("tools/campaign", tmp_path / "plan", "--table")
    assert table.returncode == 1 and "1 of 2 jobs were done" in table.stdout
    kept = (tmp_path / "plan" / "done" / "1.json").stat().st_mtime_ns
    rest = tool("tools/campaign", tmp_path / "plan", "--jobs", 2)
    assert rest.returncode == 0 and "2 of 2 jobs were done" in rest.stdout
    assert (tmp_path / "plan" / "done" / "1.json").stat().st_mtime_ns == kept


SSH = """#!/bin/sh
# Stands for ssh: the host is this machine.
while [ "${1#-}" != "$1" ]; do shift; done
host=$1
shift
[ "$1" != -- ] || shift
echo "$host" >>{log}
exec sh -c "$*"
"""


def test_campaign_over_hosts(tool: Run, tmp_path: pathlib.Path) -> None:
    """A campaign runs over two hosts, which are this machine behind a stand-in for ssh."""
    if not shutil.which("parallel"):
        pytest.skip("GNU parallel is not there")
    ssh = tmp_path / "ssh"
    ssh.write_text(SSH.replace("{log}", str(tmp_path / "log")), encoding="utf-8")
    ssh.chmod(0o755)
    hosts = ["--sshlogin", "2/one", "--sshlogin", "2/two", "--ssh", ssh]
    done = tool("tools/campaign", tmp_path / "hosts", "--seeds", "0-7", "--kinds", "blocks", "--batch", 1, *hosts)
    assert done.returncode == 0 and "8 of 8 jobs were done" in done.stdout
    assert {"one", "two"} <= set((tmp_path / "log").read_text(encoding="utf-8").split())


def test_recoveries(tool: Run, planted: Planted, script: Callable[[str], pathlib.Path]) -> None:
    """Recoveries that are stopped change nothing; a program in which one does is found out."""
    path = script("volume inodes 4 zones 12 journal 128\nthread 1\ncreate /a\nevents\nround 3\n")
    done = tool("tools/recoveries", path, "--jobs", 2)
    assert done.returncode == 0 and done.stdout.count(" 0 other reports") == 4
    other = planted('printed = printed.replace(b"found 0", b"found 1") if b"recover d1" in text else printed')
    assert tool("tools/recoveries", path, "--program", other, "--jobs", 2).returncode == 1


def test_runs(tool: Run, planted: Planted) -> None:
    """Runs in threads are checked."""
    done = tool("examples/runs", EXAMPLES / "threads-same.run", 2)
    assert done.returncode == 0 and done.stdout.startswith("2 runs with 1 different outputs")
    other = planted('printed = printed.replace(b"closed", b"closed 7\\nclosed", 1)')
    assert tool("examples/runs", EXAMPLES / "threads-same.run", 1, "--program", other).returncode == 1


def test_twins(tool: Run) -> None:
    """A wrong rule is seen, by the first script that shows it."""
    done = tool("examples/outside/twins", "first-in-first-out", "--most", 40, "--jobs", 2)
    assert "stack: 1 of 1 seen" in done.stdout
    assert tool("examples/outside/twins", "nobody").returncode == 1


def test_fsck_table(tool: Run) -> None:
    """The table has a row for each kind of change."""
    if not shutil.which("fsck.minix"):
        pytest.skip("fsck.minix is not there")
    done = tool("examples/outside/fsck_table", 1, "--second")
    assert done.returncode == 0 and len(done.stdout.splitlines()) == 6


def test_pages_are_current(tool: Run) -> None:
    """Rows and pages that are written by tools are what these would write."""
    assert tool("examples/rows", "--check").returncode == 0
    assert tool("tools/believe", "--check").returncode == 0
    assert "rests on" in tool("tools/believe", "IsKept").stdout


def test_bench_writes(tool: Run, tmp_path: pathlib.Path) -> None:
    """Scripts and measures of the benchmarks."""
    done = tool("bench/scripts.py", tmp_path / "made", "threads")
    assert done.returncode == 0 and len(list((tmp_path / "made").iterdir())) == len(done.stdout.splitlines()) == 6
    seconds, peak = tool("bench/measure.py", "/bin/cat", EXAMPLES / "epoch-end.script").stdout.split()
    assert float(seconds) >= 0 and float(peak) > 0
