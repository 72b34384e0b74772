"""The program as a child: exact bytes, statuses, time, and an end with the tool."""
import os
import pathlib
import signal
import subprocess
import time

import pytest
from conftest import ROOT, Run

from barrierfs_tools.failed import Failed
from barrierfs_tools.runs import child
from barrierfs_tools.runs.outcome import status_of
from barrierfs_tools.runs.program import bytes_of, decoded, program_at, replay, text_of


def test_exact_bytes(tmp_path: pathlib.Path) -> None:
    """A text has all bytes of its file, also those that are no UTF-8, and line ends stay."""
    data = bytes(range(256)) + b"\r\n\xff\xfe\n"
    path = tmp_path / "script"
    path.write_bytes(data)
    assert bytes_of(text_of(path)) == data
    assert child.run(["cat"], data) == child.Done(0, data, b"")


def test_status_and_time() -> None:
    """A child tells its status, the signal that ended it, or that it took too long."""
    assert child.run(["sh", "-c", "echo no >&2; exit 3"]) == child.Done(3, b"", b"no\n")
    assert child.run(["sh", "-c", "kill -9 $$"]).status == -signal.SIGKILL
    begun = time.monotonic()
    assert child.run(["sleep", "60"], seconds=0.2).status == child.LATE
    assert time.monotonic() - begun < 30


def test_statuses_of_what_is_said() -> None:
    """The status that stands for a fault."""
    assert status_of("steps 0\n") == 0
    assert status_of("barrierfs: script line 3: word\n") == 3
    assert status_of("barrierfs: image: bad slot at block 9\n") == 4
    assert status_of("barrierfs: no room\n") == 9
    assert status_of("barrierfs: oh\n") is None


def test_faults_are_told(program: str) -> None:
    """A script's fault is told by its line, and a carriage return stays one."""
    with pytest.raises(Failed, match="script line 1: word"):
        replay(program, decoded(b"device 1\r\nevents\r\n"))
    with pytest.raises(Failed, match="is no program"):
        program_at("/nonexistent")


def running(words: str) -> list[str]:
    """The processes whose words have this."""
    found = []
    for path in pathlib.Path("/proc").glob("[0-9]*/cmdline"):
        try:
            if words in path.read_bytes().replace(b"\0", b" ").decode(errors="replace"):
                found.append(path.parent.name)
        except OSError:
            pass
    return found


@pytest.mark.parametrize(
    "words",
    [
        ["tools/sweep", "examples/order-kept.script", "--jobs", "2"],
        ["examples/random", "40", "--kinds", "blocks", "--jobs", "2"],
        ["examples/runs", "examples/threads-same.run"],
        ["tools/campaign", "FOLDER", "--seeds", "0-9", "--kinds", "blocks", "--jobs", "2"],
    ],
    ids=lambda words: str(words[0]),
)
@pytest.mark.parametrize("number", [signal.SIGINT, signal.SIGTERM], ids=lambda number: str(number.name))
def test_interrupted(words: list[str], number: signal.Signals, tmp_path: pathlib.Path) -> None:
    """A tool that is interrupted says so in one line, and leaves no child behind."""
    slow = tmp_path / "slow-program"
    slow.write_text("#!/bin/sh\nexec sleep 98765\n", encoding="utf-8")
    slow.chmod(0o755)
    said = [str(ROOT / words[0]), *(word.replace("FOLDER", str(tmp_path / "campaign")) for word in words[1:])]
    env = {**os.environ, "BARRIERFS_PROGRAM": str(slow)}
    pipe = subprocess.PIPE
    with subprocess.Popen(said, cwd=ROOT, env=env, stdout=pipe, stderr=pipe, text=True) as tool:
        limit = time.monotonic() + 120
        while not running("sleep 98765") and time.monotonic() < limit:
            time.sleep(0.1)
        assert running("sleep 98765")
        tool.send_signal(number)
        _, errors = tool.communicate(timeout=120)
    assert tool.returncode == 128 + number
    assert errors.strip().endswith("interrupted") and "Traceback" not in errors
    limit = time.monotonic() + 20
    while running("sleep 98765") and time.monotonic() < limit:
        time.sleep(0.1)
    assert not running("sleep 98765")


def test_help_goes_into_a_closed_pipe(tool: Run) -> None:
    """Who reads no more ends a tool quietly."""
    done = subprocess.run(
        f"{ROOT}/examples/survival --script barriers | head -1", shell=True, capture_output=True, check=False
    )
    assert done.stdout.startswith(b"volume") and not done.stderr
    assert tool("examples/survival", "--script", "nothing").returncode == 2
