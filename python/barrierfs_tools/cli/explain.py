"""Says of each event line of a script what it did, and of each event that did nothing, why.

Of a script of block requests: which request went from where to where, with which flag it left the scheduler, and what
was eligible. These words come from a model of the queues in Python, written from docs/FORMATS.md. After each event the
model is compared with the program, on the script up to there and on several endings that bring to the medium what each
queue holds. Where the two differ it says so, and nothing from there on.

Of a script of file calls the words come from the second program, a model of the whole session: which
call went on and to where, which request was submitted with which block, class and content, what moved in scheduler and
device and with which flag, which completion came back. The program's whole report must be the model's, of the script,
of its beginnings, and of these with endings that bring to the medium what the queues hold. Where one differs, all is
said from runs of the program alone, as far as these show it. Events inside `round` and `back` that did nothing are
left out, unless --all is given.
"""
from collections.abc import Iterator
from typing import NoReturn

from barrierfs_tools.cli.tool import add_jobs, add_program, parser_of, program_of, run_tool
from barrierfs_tools.explain import block_events, session_events, volume_events
from barrierfs_tools.explain.block_events import Moment
from barrierfs_tools.runs.program import text_of
from barrierfs_tools.runs.runner import Runner
from barrierfs_tools.scripts.reading import Script

EXAMPLE = """  tools/explain examples/flag-moves.script
  tools/explain examples/out-of-order.script --nothing"""
BY_RUNS = "What is said above is from runs of the program alone, for the model and the program differ here:"


def joined(moments: list[Moment]) -> list[Moment]:
    """Moments of one line, with those of equal words as one."""
    found: list[Moment] = []
    for moment in moments:
        if found and found[-1].text == moment.text and found[-1].number == moment.number:
            found[-1].last = moment.last
        else:
            found.append(moment)
    return found


def lines_of(moments: list[Moment], only_nothing: bool) -> Iterator[str]:
    """What is printed of moments."""
    shown = [m for m in moments if not only_nothing or m.text.startswith("nothing")]
    for at, moment in enumerate(shown):
        if at == 0 or shown[at - 1].number != moment.number:
            yield f"line {moment.number}: {moment.line}"
        if isinstance(moment.time, int):
            time = "" if moment.time == moment.last == 1 and " x " not in moment.line else f"{moment.time}: "
            if moment.last != moment.time:
                time = f"{moment.time} to {moment.last}: "
        else:
            time = f"{moment.time}: "
        yield f"    {time}{moment.text}"


def explained(script: Script, runner: Runner, shows_all: bool) -> tuple[list[Moment], str | None, str]:
    """The moments of a script, what is said where model and program differ, and what was compared."""
    if not script.is_volume:
        of_blocks = block_events.Explained(script, runner)
        wrong = of_blocks.wrong and f"The model and the program differ here:\n{of_blocks.wrong}"
        return of_blocks.moments, wrong, ""
    found = session_events.Explained(script, runner, shows_all)
    if not found.wrong:
        return found.moments, None, f", which compare {found.compared} of {found.ends[-1] + 1} states"
    by_runs = volume_events.Explained(script, runner, shows_all)
    return by_runs.moments, f"{BY_RUNS}\n{found.wrong}", ""


def work() -> int:
    """What the command does."""
    parser = parser_of("explain", __doc__, EXAMPLE)
    parser.add_argument("script", metavar="SCRIPT", help="a script of block requests or of file calls")
    parser.add_argument("--nothing", action="store_true", help="print only the events that did nothing")
    parser.add_argument(
        "--all", action="store_true", help="print also each event of `round` and `back` that did nothing"
    )
    add_jobs(parser)
    add_program(parser)
    asked = parser.parse_args()
    text = text_of(asked.script)
    with Runner(program_of(asked), asked.jobs, "explain") as runner:
        runner.one(text)  # a fault is told by the script's own lines
        moments, wrong, compared = explained(Script(text), runner, asked.all)
    for line in lines_of(joined(moments), asked.nothing):
        print(line)
    print(wrong or f"{runner.done} runs of the program agree with this{compared}.")
    return 1 if wrong else 0


def main() -> NoReturn:
    """The command."""
    run_tool("explain", work)
