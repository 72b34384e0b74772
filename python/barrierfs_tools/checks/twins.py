"""The second program with one rule made wrong, and how many random inputs it takes until that is seen."""
import itertools
import multiprocessing.pool
import pathlib
import sys
import types
from typing import Any

from barrierfs_tools import model
from barrierfs_tools.checks.twin_list import GROUPS, TWINS, Twin
from barrierfs_tools.failed import Failed
from barrierfs_tools.runs import outcome
from barrierfs_tools.runs.progress import Progress
from barrierfs_tools.scripts import cases

# The modules of the second program, each before those that use it.
MODULES = "grammar bodies faults calls places blocks recovery host journal images clean stores widening".split()
PACKAGE = "barrierfs_tools.model"
FIRST_ROUND, LONGEST_ROUND = 8, 256  # inputs that are tried before the list of twins is made shorter
MOST = 5000
KNOWN: dict[str, dict[str, Any]] = {}  # the changed second programs of this process, by name

Job = tuple[str, str, int, list[str]]  # program, kind, seed, and the names of the twins that were not seen
Found = dict[str, int]


def source_of(name: str) -> str:
    """The source of a module of the second program."""
    assert model.__file__ is not None
    return pathlib.Path(model.__file__).with_name(f"{name}.py").read_text(encoding="utf-8")


def changed(twin: Twin) -> str:
    """The source that a twin changes."""
    source = source_of(twin.module)
    if source.count(twin.old) != 1 or twin.old == twin.new:
        raise Failed(f"twin {twin.name}: its old text stands {source.count(twin.old)} times in {twin.module}.py")
    return source.replace(twin.old, twin.new)


def loaded(twin: Twin) -> dict[str, Any]:
    """The modules of the second program with this change, as a package of another name."""
    if twin.name not in KNOWN:
        package = "twin_" + twin.name.replace("-", "_")
        sys.modules[package] = top = types.ModuleType(package)
        top.__path__ = []
        for name in MODULES:
            module = sys.modules[f"{package}.{name}"] = types.ModuleType(f"{package}.{name}")
            setattr(top, name, module)
            source = changed(twin) if name == twin.module else source_of(name)
            code = compile(source.replace(PACKAGE, package), f"{twin.name}: {name}.py", "exec")
            exec(code, module.__dict__)  # pylint: disable=exec-used
        KNOWN[twin.name] = {name: getattr(top, name) for name in MODULES}
    return KNOWN[twin.name]


def said_by(modules: dict[str, Any], kind: str, case: cases.Case) -> str | None:
    """What these modules say of an input."""
    found: str | None
    if kind == "image":
        found = modules["clean" if case.words == ["check"] else "images"].report(case.data)
    elif kind == "widen":
        found = modules["widening"].report(case.data)
    elif kind == "store":
        found = modules["stores"].fault(case.script) or modules["stores"].report(case.script)
    else:
        found = modules[{"blocks": "blocks", "limit": "faults"}.get(kind, "host")].report(case.script)
    return found


def differs(twin: Twin, kind: str, case: cases.Case, printed: str) -> bool:
    """Whether a twin says something else of an input."""
    try:
        wanted = said_by(loaded(twin), kind, case)
        if kind == "limit":
            return cases.limit_fault(printed, wanted) is not None
        return cases.image_fault(case.words, printed, wanted or "") is not None
    except Exception:  # pylint: disable=broad-exception-caught  # what it says then is not the report
        return True


def try_input(job: Job) -> tuple[list[str], str | None]:
    """Those of these twins that differ at this input, and what is wrong with the second program itself."""
    program, kind, seed, names = job
    case = cases.case(kind, seed)
    printed = outcome.printed_of(program, case)
    fault = case.fault(printed)
    if fault:
        return [], f"{kind} script {seed}\n\n{case.script}\nprints\n\n{printed}\n{fault}"
    return [twin.name for twin in TWINS if twin.name in names and differs(twin, kind, case, printed)], None


def run(pool: multiprocessing.pool.Pool, program: str, kind: str, names: list[str], most: int) -> Found:
    """Of each of these twins the number of inputs until it was seen, of those that were."""
    found: Found = {}
    first, count, progress = 0, FIRST_ROUND, Progress(kind)
    while first < most and len(found) < len(names):
        left = [name for name in names if name not in found]
        seeds = range(first, min(first + count, most))
        jobs: list[Job] = [(program, kind, seed, left) for seed in seeds]
        for seed, (seen, fault) in zip(seeds, pool.imap(try_input, jobs)):
            if fault:
                raise Failed(fault)
            for name in seen:
                found.setdefault(name, seed + 1)
        first, count = seeds.stop, min(2 * count, LONGEST_ROUND)
        progress.say(f"{first} scripts, {len(names) - len(found)} twins not seen")
    progress.end()
    return found


def table(twins: list[Twin], found: Found, most: int) -> bool:
    """Prints each twin with its count, and tells whether each is seen by something."""
    good = True
    for group, rows in itertools.groupby(
        sorted(twins, key=lambda twin: GROUPS.index(twin.group)), lambda twin: twin.group
    ):
        listed = list(rows)
        print(f"\n{group}: {sum(twin.name in found for twin in listed)} of {len(listed)} seen")
        for twin in listed:
            count = found.get(twin.name)
            said = f"{count:>6}" if count else "     -"
            print(f"{said}  {twin.kind:8} {twin.name:32} {twin.rule}")
            if not count and twin.row:
                print(f"{'':18}{twin.row}")
            elif not count and most >= MOST:
                good = False
    return good
