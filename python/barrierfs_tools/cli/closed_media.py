"""Compares the media that schedules leave of small lists of block requests with those that are order-closed.

Of each list every state of the second program is visited, whatever the order of its events, and the media that a
power cut leaves there are noted. They must be just those that the rule of order allows: with each put that is kept,
all is kept that a flush separates from it, and all that keeps order and that a barrier or a flush separates from it.

By hand. Ends with status 1 where a list has other media.
"""
from typing import NoReturn

from barrierfs_tools.checks.closed_media import Medium, Sizes, compared, lists
from barrierfs_tools.cli.tool import natural, parser_of, positive, run_tool
from barrierfs_tools.model.blocks import HELD_LIMIT
from barrierfs_tools.model.grammar import DEPTH, QUEUE

EXAMPLE = "  examples/outside/closed_media.py 2 2"


def show(name: str, media: set[Medium]) -> None:
    """Prints these media."""
    for it in sorted(media):
        print(f"  {name}: {' '.join(it)}")


def work() -> int:
    """What the command does."""
    parser = parser_of("closed_media.py", __doc__, EXAMPLE)
    add, form = parser.add_argument, "%s (%%(default)s)"
    add("requests", type=natural, nargs="?", default=3, metavar="REQUESTS", help=form % "length of the lists")
    add("blocks", type=positive, nargs="?", default=2, metavar="BLOCKS", help=form % "blocks of the medium")
    text = "commands that may wait in the device"
    add("--depth", type=positive, default=DEPTH, metavar="N", help=form % text)
    add("--queue", type=positive, default=QUEUE, metavar="N", help=form % "items that each queue holds")
    text = "requests that the scheduler holds"
    add("--room", type=positive, default=HELD_LIMIT, metavar="N", help=form % text)
    add("--sample", type=positive, metavar="N", help="N random lists in place of all")
    add("--seed", type=int, default=0, metavar="N", help=form % "of the random lists")
    asked = parser.parse_args()
    sizes = Sizes(asked.requests, asked.blocks, asked.depth, asked.queue, asked.room)
    count, media, differ = 0, 0, 0
    for lines in lists(sizes, asked.sample, asked.seed):
        found, wanted = compared(sizes, lines)
        count, media = count + 1, media + len(wanted)
        if found != wanted:
            differ += 1
            print(", ".join(lines))
            show("left and not order-closed", found - wanted)
            show("order-closed and not left", wanted - found)
    print(f"{count:,} lists with {media:,} order-closed media: {differ:,} lists differ")
    return min(differ, 1)


def main() -> NoReturn:
    """The command."""
    run_tool("closed_media.py", work)
