"""Writes docs/BELIEVE.md: every definition that the meaning of the headline rests on, with its file and line.

Without a word it writes docs/BELIEVE.md, and the number in README.md.

It begins with the names of ROOTS and follows each name of a definition to the file that the `use` lines say. Lines are
those of definitions alone, without comments and empty lines. What is std's or another crate's of the kit is not
followed.
"""
import pathlib
import re
from collections.abc import Iterator
from typing import NoReturn

from barrierfs_tools.checks.definitions import (
    ROOTS,
    Definition,
    Sources,
    count,
    crate_order,
    lines_of,
    place,
    rests,
    walked,
)
from barrierfs_tools.cli.tool import parser_of, run_tool
from barrierfs_tools.failed import Failed
from barrierfs_tools.paths import root

EXAMPLE = """  tools/believe --check
  tools/believe IsKept"""
GROUPS = {
    "meanings": "What the promises say, in the words of the field: order, trees and calls on them, histories, transactions, "
    "what a call covers, and what survives a power cut. These are to be read first.",
    "machines": "Scheduler, queues, device, volume and host as plain state with steps. The code is proved equal to them, "
    "and the meanings are proved of them. A promise names them where it says what was submitted, what the device "
    "took, and which run a script's is.",
    "formats": "Minix volumes, JBD2 journals, and the grammar of scripts. Laws say that what is written is read back, "
    "and that a text is accepted exactly where it is how a script is spelled.",
    "texts": "How numbers, names, replies and trees are printed.",
}
# The group of a crate's files, and of single files where they are of another group.
CRATES = {
    "blk_base": "meanings",
    "order_model": "meanings",
    "exact_order": "meanings",
    "tree_model": "meanings",
    "crash_laws": "meanings",
    "host_machine/runs": "meanings",
    "call_sessions/power_cuts/calls": "meanings",
    "call_sessions/promises": "meanings",
    "session_core": "meanings",
    "barrierfs_top": "meanings",
    "call_sessions": "meanings",
    "host_answers": "meanings",
    "store_core": "meanings",
    "session_threads": "machines",
    "session_threads/sides": "machines",
    "thread_sides": "machines",
    "number_sets": "machines",
    "device_epochs/queue": "machines",
    "device_epochs": "machines",
    "flog_device": "machines",
    "schedulers/reassign": "machines",
    "schedulers/epochs": "machines",
    "schedulers/elevator": "machines",
    "stack_core": "machines",
    "page_cache": "machines",
    "minix_tables/zones": "machines",
    "volume_model": "machines",
    "volume_steps": "machines",
    "volume_in_use/now": "machines",
    "flush_actor/conflicts": "machines",
    "journal_ring": "machines",
    "journal_ring/running": "machines",
    "flush_actor": "machines",
    "commit_actor": "machines",
    "host_machine": "machines",
    "minix_host": "machines",
    "host_core": "machines",
    "call_sessions/made": "machines",
    "session_core/run/machine": "machines",
    "session_core/run": "machines",
    "session_core/opening": "machines",
    "call_sessions/power_cuts/recovery": "machines",
    "byte_fields": "formats",
    "minix_layout": "formats",
    "minix_tables/inodes": "formats",
    "minix_tables/directories": "formats",
    "volume_ops": "formats",
    "log_model": "formats",
    "journal_blocks": "formats",
    "journal_replay": "formats",
    "mount_make": "formats",
    "script_words": "formats",
    "script_grammar": "formats",
    "line_grammar/calls": "formats",
    "line_grammar/events": "formats",
    "session_grammar": "formats",
    "wal_store": "formats",
    "store_grammar": "formats",
    "byte_text": "texts",
    "session_report/text": "texts",
    "session_report": "texts",
}
FILES = {
    "order_model/Device": "machines",
    "order_model/Received": "machines",
    "order_model/Machine": "machines",
    "order_model/Arrivals": "machines",
    "order_model/Steps": "machines",
    "tree_model/Text": "texts",
    "tree_model/Paths": "formats",
    "barrierfs_top/Text": "texts",
    "order_model/Single": "machines",
    "order_model/Carrying": "meanings",
    "host_machine/runs/Runs": "machines",
    "session_core/Core": "machines",
    "stack_core/Headline": "meanings",
}
# The few to read first, and what each says.
FIRST = {
    "order_model/OrderClosed/IsOrderedBefore": "one request is ordered before another",
    "order_model/OrderClosed/IsKept": "a put is on the medium, or a later one is in its place",
    "order_model/OrderClosed/IsOrderClosed": "a medium keeps the order of what was submitted",
    "order_model/OrderClosed/KeepsFlushed": "it keeps all before a flush that completed",
    "exact_order/Left/IsLeft": "some events and a power cut leave a medium",
    "crash_laws/Found/IsFound": "the transactions whose commit block is on the medium are the first ones, so many",
    "tree_model/Trees/AreAlike": "two trees have the same paths with the same metadata",
    "crash_laws/History/IsLastChange": "the last of these transactions that changed a file's size or block map",
    "call_sessions/power_cuts/calls/CallImages/IsShown": "a tree shows a block of a file in a version that is no older than this, "
    "and in which the file has it",
    "crash_laws/PromiseRules/Covers": "a barrier or sync call covers this write to this block",
    "crash_laws/PromiseRules/CoversEntry": "it covers the metadata of this call",
    "crash_laws/PromiseRules/IsSettled": "a write survived, or a found call removed it",
    "crash_laws/PromiseRules/IsLaterKept": "something that was done after an answer survived",
    "call_sessions/promises/Legal/FollowsTree": "replies are those of the tree",
    "call_sessions/promises/Causes/HaveCauses": "why a call ends as `down`, `read-only` or `session full`",
    "host_machine/runs/Flushes/WaitsForFlush": "a sync call waits for a flush, and no flush serves it yet",
    "session_core/Headline/HeadlineOn": "all promises of a session, a field each",
    "barrierfs_top/Promise/TellsSession": "what they say of the text that is printed",
    "session_threads/Ran/RanInThreads": "a session ran in threads, as these events say, and has ended",
}
NUMBERS = re.compile(r"\[[\d,]+ definitions in [\d,]+ lines\]")


def group_of(definition: Definition) -> str:
    """The group of a definition."""
    crate, file = definition.module
    for key in (f"{crate}/{file}", f"{crate}/{file.split('/')[0]}", crate):
        if key in FILES:
            return FILES[key]
        if key in CRATES:
            return CRATES[key]
    raise Failed(f"tools/believe says of no group for crates/{crate}")


def first_table(sources: Sources) -> Iterator[str]:
    """The table of those to read first."""
    yield "| read first | file and line | what it says |"
    yield "|---|---|---|"
    for key, says in FIRST.items():
        if key not in sources.reached:
            raise Failed(f"the headline does not rest on {key}")
        definition = sources.reached[key]
        yield f"| `{definition.name}` | `{place(definition)}:{definition.line}` | {says} |"


HEAD = """# What is to be believed

A proof says no more than its statement, and a statement no more than the definitions of its words. This page lists
every definition that the headline's meaning rests on: all that can be reached from `HeadlineOn`, `Headline`,
`TellsReplay`, `TellsThreads`, `TellsStore`, `IsOrderClosed`, `IsPlain` and `IsLeft` by the names in their texts. \
It is written by `tools/believe` from the sources;
`tools/believe --check` fails where it is not current.
"""
RULES = (
    "- Lines are those of the definitions, without comments. Proofs, invariants of the code and lemmas are not among them: "
    "the prover checks those.\n"
    "- A name counts wherever the text of a definition has it, also in a part that no promise uses. So the list is rather "
    "too long than too short.\n"
)


def group_table(group: str, definitions: list[Definition], order: list[str]) -> Iterator[str]:
    """The table of a group."""
    yield f"\n## {group.capitalize()}\n"
    yield f"{count(definitions)}. After each name comes its line; those to read first are bold.\n"
    yield "| file | lines | definitions |"
    yield "|---|---|---|"
    for module in sorted({d.module for d in definitions}, key=lambda m: (order.index(m[0]), m[1])):
        here = sorted((d for d in definitions if d.module == module), key=lambda d: d.line)
        names = ", ".join(f"**`{d.name}`** {d.line}" if d.key() in FIRST else f"`{d.name}` {d.line}" for d in here)
        yield f"| `{place(here[0]).removeprefix('crates/')}` | {lines_of(here)} | {names} |"


def type_table(sources: Sources, order: list[str]) -> Iterator[str]:
    """The table of the types that the code declares."""
    yield "\n## Types of the code\n"
    what = f"{len(sources.types)} types and constants that the code declares, and see a type's fields as plain values"
    yield f"Definitions name {what}. After each name comes its line.\n"
    yield "| file | types and constants |"
    yield "|---|---|"
    files: dict[tuple[int, pathlib.Path], list[tuple[int, str]]] = {}
    for (crate, file, name), line in sources.types.items():
        files.setdefault((order.index(crate), file), []).append((line, name))
    for (_, file), names in sorted(files.items()):
        listed = ", ".join(f"`{name}` {line}" for line, name in sorted(names))
        yield f"| `{file.relative_to(root() / 'crates')}` | {listed} |"


def outside(sources: Sources) -> Iterator[str]:
    """What is not followed."""
    yield "\n## What is not followed\n"
    yield "Names of the kit, whose own pages say what they mean:\n"
    for crate in sorted({crate for crate, kind, _ in sources.outside if kind != "proofs"}):
        told = sorted(name for c, kind, name in sources.outside if c == crate and kind != "proofs")
        yield f"- `{crate}`, {len(told)}: " + " ".join(f"`{name}`" for name in told)
    laws = [d.name for d in sources.laws.values()] + [name for _, kind, name in sources.outside if kind == "proofs"]
    listed = ", ".join(f"`{name}`" for name in sorted(laws))
    yield f"\nProofs that definitions carry, of which the prover checks that they prove what they say: {listed}."


def page(sources: Sources) -> Iterator[str]:
    """The lines of docs/BELIEVE.md."""
    reached = sources.reached.values()
    order = crate_order()
    yield HEAD
    yield f"- In all: {count(reached)}."
    for told in ROOTS:
        yield f"- `{told[2]}` alone rests on {rests(told)}."
    yield RULES
    yield "| group | definitions | lines | |"
    yield "|---|---|---|---|"
    groups = {group: [d for d in reached if group_of(d) == group] for group in GROUPS}
    for group, text in GROUPS.items():
        yield f"| [{group}](#{group}) | {len(groups[group])} | {lines_of(groups[group]):,} | {text} |"
    yield ""
    yield from first_table(sources)
    for group in GROUPS:
        yield from group_table(group, groups[group], order)
    yield from type_table(sources, order)
    yield from outside(sources)


def tell(name: str) -> None:
    """Prints what the definitions of this name rest on."""
    crates = root() / "crates"
    found = [(folder.parent.name, file) for folder in crates.glob("*/specs") for file in folder.rglob("*.antt")]
    for crate, file in found:
        path = ".".join(file.relative_to(crates / crate / "specs").with_suffix("").parts)
        sources = Sources()
        module = sources.module(f"Rattle.{crate}.specs.{path}")
        if module and name in module.defined:
            definition = module.defined[name]
            sources.follow(definition)
            size = count(sources.reached.values())
            print(f"{file.relative_to(root())}:{definition.line}  {name} rests on {size}")
            for key in sorted(sources.reached):
                print("   ", key)


def work() -> None:
    """What the command does."""
    parser = parser_of("believe", __doc__, EXAMPLE)
    parser.add_argument(
        "names", nargs="*", metavar="NAME", help="print what the definitions of this name rest on, and write nothing"
    )
    parser.add_argument(
        "--check",
        action="store_true",
        help="write nothing, and end with status 1 where either is not what it would write",
    )
    asked = parser.parse_args()
    if asked.names and asked.check:
        parser.error("--check goes without names")
    for name in asked.names:
        tell(name)
    if asked.names:
        return
    believe, front = root() / "docs" / "BELIEVE.md", root() / "README.md"
    sources = walked()
    text = "\n".join(page(sources)).rstrip("\n") + "\n"
    said = NUMBERS.sub(f"[{count(sources.reached.values())}]", front.read_text(encoding="utf-8"))
    if not asked.check:
        believe.write_text(text, encoding="utf-8")
        front.write_text(said, encoding="utf-8")
    elif not is_text(believe, text) or not is_text(front, said):
        raise Failed("docs/BELIEVE.md or the number in README.md is not current: tools/believe writes both anew")


def is_text(path: pathlib.Path, text: str) -> bool:
    """Whether a file has this text."""
    return path.exists() and path.read_text(encoding="utf-8") == text


def main() -> NoReturn:
    """The command."""
    run_tool("believe", work)
