"""The jobs of a campaign, and the folder that keeps them."""
import functools
import json
import os
import pathlib
import time
from collections.abc import Iterator
from typing import NamedTuple, TypedDict

from barrierfs_tools.failed import Failed
from barrierfs_tools.model import blocks
from barrierfs_tools.runs.outcome import Outcome
from barrierfs_tools.runs.program import text_of
from barrierfs_tools.scripts import cases
from barrierfs_tools.scripts.reading import Script

Span = tuple[str, int, int]  # a kind or the path of a script, and the first and the last seed or cut


class Job(NamedTuple):
    """Some inputs of one kind."""

    number: int
    kind: str
    first: int
    last: int


class Broken(TypedDict):
    """An input that broke a promise, what was printed, and why it is wrong."""

    name: str
    script: str
    printed: str
    why: str


class Result(TypedDict):
    """What a job found."""

    number: int
    kind: str
    scripts: int
    seconds: float
    broken: list[Broken]


def cut_fault(script: Script, text: str, printed: str) -> str | None:
    """What is wrong with what was printed of a script of one's own."""
    if not script.is_volume:
        return cases.difference(printed, blocks.report(text))
    return cases.crash_fault(script.head[script.first], printed)


def cases_of(job: Job) -> Iterator[tuple[str, cases.Case]]:
    """The inputs of a job, each with its name."""
    if job.kind in cases.CASES:
        for seed in range(job.first, job.last + 1):
            yield f"{job.kind}-{seed}", cases.case(job.kind, seed)
        return
    script = Script(text_of(job.kind))
    for cut in range(job.first, job.last + 1):
        text = script.text(cut=cut)
        yield f"{pathlib.Path(job.kind).stem}-cut-{cut}", cases.Case(text, functools.partial(cut_fault, script, text))


def done_job(job: Job, program: str) -> Result:
    """The result of a job."""
    begun, count = processor_seconds(), 0
    broken: list[Broken] = []
    for name, case in cases_of(job):
        outcome = Outcome(program, case)
        why = outcome.fault() or case.fault(outcome.printed)
        count += 1
        if why:
            broken.append({"name": name, "script": case.script, "printed": outcome.printed, "why": why})
    seconds = round(processor_seconds() - begun, 2)
    return {"number": job.number, "kind": job.kind, "scripts": count, "seconds": seconds, "broken": broken}


def processor_seconds() -> float:
    """The seconds of a processor that this process and its children took."""
    times = os.times()
    return time.process_time() + times.children_user + times.children_system


class Campaign:
    """A folder with a plan, and a file for each job that was done."""

    def __init__(self, folder: str) -> None:
        self.folder = pathlib.Path(folder)
        self.plan_file, self.done = self.folder / "plan.json", self.folder / "done"

    def make(self, planned: list[Span]) -> None:
        """Writes the plan."""
        self.done.mkdir(parents=True, exist_ok=True)
        jobs = [Job(number, *span)._asdict() for number, span in enumerate(planned)]
        write_whole(self.plan_file, json.dumps(jobs))

    def jobs(self) -> list[Job]:
        """All jobs of the plan."""
        if not self.plan_file.exists():
            raise Failed(f"{self.folder} has no plan: say --seeds or --cuts")
        return [Job(**job) for job in json.loads(self.plan_file.read_text(encoding="utf-8"))]

    def left(self) -> list[Job]:
        """The jobs that were not done."""
        return [job for job in self.jobs() if not self.file(job.number).exists()]

    def file(self, number: int) -> pathlib.Path:
        """The file of a job's result."""
        return self.done / f"{number}.json"

    def keep(self, result: Result) -> None:
        """Keeps a result."""
        write_whole(self.file(result["number"]), json.dumps(result))

    def results(self) -> list[Result]:
        """The results, in the order of the jobs."""
        paths = sorted(self.done.glob("*.json"), key=lambda path: int(path.stem))
        return [json.loads(path.read_text(encoding="utf-8")) for path in paths]


def write_whole(path: pathlib.Path, text: str) -> None:
    """Writes a file so that nobody sees half of it."""
    fresh = path.with_name(f".{path.name}.{os.uname().nodename}.{os.getpid()}")
    fresh.write_text(text, encoding="utf-8")
    fresh.replace(path)


def spans(first: int, last: int, width: int) -> Iterator[tuple[int, int]]:
    """The numbers from first to last, so many at a time."""
    for low in range(first, last + 1, width):
        yield low, min(low + width - 1, last)
