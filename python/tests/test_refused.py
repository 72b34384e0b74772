"""What bench/refused says of small programs that are made here: one that ends as it should, and others that do not."""
import pathlib
import shutil
import subprocess
from collections.abc import Callable

import pytest
from conftest import Run

# Two requests and a thread.
SOURCE = r"""
#include <pthread.h>
#include <stdlib.h>
#include <unistd.h>

static void *nothing(void *with) { return with; }

int main(void) {
    pthread_t thread;
    char *one = malloc(1000), *two = malloc(1000);
    if (!one || !two || pthread_create(&thread, NULL, nothing, NULL)) {
        write(2, "barrierfs: no memory\n", 21);
        return 8;
    }
    pthread_join(thread, NULL);
    write(1, "done\n", 5);
    return 0;
}
"""


@pytest.fixture
def made(tmp_path: pathlib.Path) -> Callable[[str, str], str]:
    """Builds the program, with one text of its source changed."""
    if not shutil.which("gcc"):
        pytest.skip("gcc is not there")

    def make(old: str, new: str) -> str:
        path = tmp_path / "program"
        assert old in SOURCE
        (tmp_path / "program.c").write_text(SOURCE.replace(old, new), encoding="utf-8")
        words = ["gcc", "-O0", "-fno-builtin", "-w", "-o", path, tmp_path / "program.c", "-lpthread"]
        subprocess.run(words, check=True)
        return str(path)

    return make


def test_all_is_well(tool: Run, made: Callable[[str, str], str]) -> None:
    """Each of two requests is refused once, of a run the thread too."""
    done = tool("bench/refused", "--only", "run of", "--jobs", 1, "--program", made("", ""))
    lines = done.stdout.splitlines()
    assert done.returncode == 0, done.stdout
    assert "run of sixteen: a request for memory and all behind it: " in lines[1]
    assert lines[2] == "run of sixteen: a thread: 1 runs, 1 ended with status 8"


@pytest.mark.parametrize(
    "old, new, said",
    [
        ("return 8", "return 7", "status 7"),
        ("return 8", 'write(1, "half", 4); return 8', "status 8, 4 bytes"),
        ("no memory", "no Memory", "status 8, 0 bytes"),
        ("!one || ", "!one ? abort(), 1 : ", "status -6"),
    ],
)
def test_other_ends_are_told(tool: Run, made: Callable[[str, str], str], old: str, new: str, said: str) -> None:
    """Another status, output beside it, other words, and a signal."""
    done = tool("bench/refused", "--only", "mkdir", "--jobs", 1, "--program", made(old, new))
    assert done.returncode == 1 and said in done.stdout
