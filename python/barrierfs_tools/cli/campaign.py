"""Tries many scripts over many processors and hosts, and lists those that broke a promise.

What is tried is random scripts by their seeds, or scripts of your own with the power cut at each step of their device:

  blocks    random scripts of block requests: every byte is compared with a second program
  session   random calls of one thread: the whole report is compared with that second program
  cut       random calls, events, power cuts and attempts of recovery: the report is compared with that second
program, and
            the tree is to be that after the first calls, and to have what barrier and sync calls promised
  limit     scripts at a limit, or one past it: the fault is compared (not without --kinds, as the next four)
  image     images, most of them damaged: the tree or the first fault is compared
  store     scripts of key-value stores: the report is compared, and what was acknowledged is to be held
  threads   sessions in threads: each did its program, and the tree is checked as that of `cut`
  mutant    scripts that were changed in some places: the first faulty line is compared, or the report
  SCRIPT    a script of your own, whose tree is checked as that of `cut`, or which is checked like `blocks` where it
is one of block requests

The work is split into jobs, which GNU parallel (Debian package `parallel`) spreads over the processors of this machine,
or over hosts that you name. FOLDER keeps the plan and the result of each job that was done. So a campaign that was
stopped goes on where it was: give the folder alone. It ends in one table, and in a list of the scripts that broke a
promise, with what was printed and why it is wrong in FOLDER/broken; the status is 1 then.

A host needs this repository, the program and your scripts at the same paths, Python 3, and an ssh login that asks
nothing.

By Slurm in place of GNU parallel, as an array job: FOLDER on a disk that all nodes see, and then

  tools/campaign FOLDER --seeds 0-99999 --plan           writes the plan and prints the number of jobs, say 6000
  sbatch --array=0-5999 --wrap 'tools/campaign FOLDER --nth $SLURM_ARRAY_TASK_ID'
  tools/campaign FOLDER --table                          what was done so far; `tools/campaign FOLDER` does the rest
"""
import argparse
import json
import os
import pathlib
import re
import shutil
import subprocess
from typing import NoReturn

from barrierfs_tools.checks.campaigns import Broken, Campaign, Job, Span, done_job, spans
from barrierfs_tools.cli.tool import add_program, parser_of, positive, program_of, run_tool
from barrierfs_tools.failed import Failed
from barrierfs_tools.paths import root
from barrierfs_tools.runs.child import end_group
from barrierfs_tools.runs.program import replay, text_of
from barrierfs_tools.runs.progress import Progress
from barrierfs_tools.scripts import cases
from barrierfs_tools.scripts.reading import Report, Script

EXAMPLE = """  tools/campaign /tmp/night --seeds 0-9999               30,000 random scripts on all processors
  tools/campaign /tmp/night                              goes on with it
  tools/campaign /tmp/mine --cuts examples/epoch-end.script examples/order-lost.script
  tools/campaign /tmp/night --sshlogin 8/hostA --sshlogin 8/hostB"""


def planned(asked: argparse.Namespace, program: str) -> list[Span]:
    """The jobs that the words ask for: kind or script, first and last seed or cut."""
    jobs: list[Span] = []
    if asked.seeds:
        first, _, last = asked.seeds.partition("-")
        for low, high in spans(int(first), int(last or first), asked.batch):
            jobs += [(kind, low, high) for kind in asked.kinds.split(",")]
    for path in asked.cuts or []:
        text = text_of(path)
        replay(program, text)  # a fault is told by the script's own lines
        script = Script(text)
        steps = Report(replay(program, script.text()), script).steps
        jobs += [(os.path.abspath(path), low, high) for low, high in spans(0, steps, asked.batch)]
    return jobs


def run_jobs(campaign: Campaign, jobs: list[Job], asked: argparse.Namespace, program: str) -> None:
    """Spreads the jobs by GNU parallel, and keeps each result as it comes."""
    if not shutil.which("parallel"):
        raise Failed("GNU parallel is not there: apt-get install parallel, or take the jobs one by one by --nth")
    words = ["parallel", "--will-cite", "--plain", "--jobs", str(asked.jobs)]
    for login in asked.sshlogin:
        words += ["--sshlogin", login]
    words += [*(["--ssh", asked.ssh] if asked.ssh else []), "--colsep", "\t", str(root() / "tools" / "campaign")]
    words += [str(campaign.folder), "--job", "{1}", "{2}", "{3}", "{4}", "--program", program]
    lines = "".join(f"{job.number}\t{job.kind}\t{job.first}\t{job.last}\n" for job in jobs)
    progress, pipe = Progress("campaign"), subprocess.PIPE
    with subprocess.Popen(words, stdin=pipe, stdout=pipe, text=True, start_new_session=True) as started:
        try:
            assert started.stdin is not None and started.stdout is not None
            with started.stdin as sink:
                sink.write(lines)
            for count, line in enumerate(started.stdout, 1):
                campaign.keep(json.loads(line))
                progress.say(f"{count} of {len(jobs)} jobs")
        finally:
            end_group(started)
            progress.end()


def table(campaign: Campaign) -> int:
    """Prints what was done, and lists the scripts that broke a promise. Gives the status."""
    jobs, results = campaign.jobs(), campaign.results()
    width = max(map(len, ["what", *(result["kind"] for result in results)]))
    print(f"{'what':{width}}  scripts  broken  processor seconds")
    for kind in dict.fromkeys(result["kind"] for result in results):
        rows = [result for result in results if result["kind"] == kind]
        count, bad = sum(row["scripts"] for row in rows), sum(len(row["broken"]) for row in rows)
        print(f"{kind:{width}}  {count:7}  {bad:6}  {sum(row['seconds'] for row in rows):17.1f}")
    print(f"{len(results)} of {len(jobs)} jobs were done")
    broken = [found for result in results for found in result["broken"]]
    for found in broken:
        print(f"broken: {written(campaign, found)}: {found['why'].splitlines()[0]}")
    return 1 if broken or len(results) < len(jobs) else 0


def written(campaign: Campaign, found: Broken) -> pathlib.Path:
    """Writes a script that broke a promise, what was printed and why it is wrong, and gives the script's path."""
    folder = campaign.folder / "broken"
    folder.mkdir(exist_ok=True)
    for ending, text in (("printed", found["printed"]), ("why", found["why"] + "\n"), ("script", found["script"])):
        (folder / f"{found['name']}.{ending}").write_text(text, encoding="utf-8")
    return folder / f"{found['name']}.script"


def parse() -> argparse.Namespace:
    """The words of the command."""
    parser = parser_of("campaign", __doc__, EXAMPLE)
    parser.add_argument("folder", metavar="FOLDER", help="where the plan and the results are kept")
    parser.add_argument("--seeds", metavar="FIRST-LAST", help="random scripts of these seeds")
    parser.add_argument(
        "--kinds",
        metavar="KINDS",
        default="blocks,session,cut",
        help="which kinds of them (default: blocks,session,cut)",
    )
    parser.add_argument("--cuts", metavar="SCRIPT", nargs="+", help="these scripts, with the power cut at each step")
    parser.add_argument("--batch", metavar="N", type=positive, default=50, help="scripts in a job (default: 50)")
    jobs = "jobs at a time on each host (default: its processors)"
    parser.add_argument("--jobs", metavar="N", default="100%", help=jobs)
    login = "a host for GNU parallel, as 8/user@host; `:` is this one"
    parser.add_argument("--sshlogin", metavar="LOGIN", action="append", default=[], help=login)
    parser.add_argument("--ssh", metavar="COMMAND", help="what GNU parallel calls in place of ssh")
    add_program(parser)
    parser.add_argument("--plan", action="store_true", help="only write the plan, and print the number of jobs")
    parser.add_argument("--nth", metavar="N", type=int, help="do this one job, from 0 on")
    parser.add_argument("--table", action="store_true", help="only print the table of what was done")
    parser.add_argument("--job", nargs=4, metavar=("NUMBER", "KIND", "FIRST", "LAST"), help=argparse.SUPPRESS)
    asked = parser.parse_args()
    if any(kind not in cases.CASES for kind in asked.kinds.split(",")):
        parser.error(f"--kinds wants some of {', '.join(cases.CASES)}, with commas between")
    if asked.seeds and not re.fullmatch(r"[0-9]+(-[0-9]+)?", asked.seeds):
        parser.error("--seeds wants two numbers, as 0-99")
    return asked


def work() -> int:
    """What the command does."""
    asked = parse()
    campaign = Campaign(asked.folder)
    if asked.table:
        return table(campaign)
    program = program_of(asked)
    if asked.job:
        number, kind, first, last = asked.job
        print(json.dumps(done_job(Job(int(number), kind, int(first), int(last)), program)))
        return 0
    if asked.seeds or asked.cuts:
        planned_spans = planned(asked, program)
        if campaign.plan_file.exists():
            raise Failed(f"{asked.folder} has a plan: give the folder alone to go on with it, or take another")
        campaign.make(planned_spans)
    if asked.plan:
        print(len(campaign.jobs()))
        return 0
    if asked.nth is not None:
        jobs = campaign.jobs()
        if not 0 <= asked.nth < len(jobs):
            raise Failed(f"there are the jobs 0 to {len(jobs) - 1}")
        campaign.keep(done_job(jobs[asked.nth], program))
        return 0
    run_jobs(campaign, campaign.left(), asked, program)
    return table(campaign)


def main() -> NoReturn:
    """The command."""
    run_tool("campaign", work)
