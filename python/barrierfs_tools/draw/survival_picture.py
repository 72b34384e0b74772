"""Draws the table of examples/survival as an SVG: what is there after a power cut at each device step."""

import itertools
from collections.abc import Iterator

from barrierfs_tools.draw.svg import head, text

Steps = list[dict[str, str]]  # of each step its columns
Session = tuple[str, list[str], Steps]  # name, calls and steps

LEFT, COLUMN, ROW, WIDTH = 172, 18, 24, 920
THIS, NEWER, EMPTY, CALL, GREY, INK = "#1b6ca8", "#a9cde6", "#f3f3f1", "#c8553d", "#777", "#222"
TITLES = {
    "barriers": (
        "Barrier calls: answered before anything is there, and the order holds",
        "A call covers what the rows above write to its file, and fbarrier also the files that they make. In each",
        "column in which anything below a mark is there, all that the call covers is there, or newer bytes in its place.",
    ),
    "syncs": (
        "Sync calls: what was answered is there",
        "There is a mark only where all that the call covers is there: the call waited for that. In each column recovery",
        "is cut off twice before it may go to its end.",
    ),
}
ORDER_TITLE = (
    "One line keeps the order",
    "The record is written first, and then the page. Scheduler and device take the last first wherever they may. The scripts",
    "differ in the line between the two writes. Where it is missing, the page can be there without its record.",
)
ORDERS = {
    "order-kept": "fdatabarrier between: no flush",
    "order-lost": "nothing between",
    "order-synced": "fdatasync between: one flush",
}
ORDER_FROM, ORDER_CALLS = 18, 5
NOTES = {("barriers", "write /g 0 1024 b2"): "no call covers this write, so it may come last"}


def sessions(table: str) -> Iterator[Session]:
    """Of each session its name, its calls, and a dictionary for each step."""
    for session in table.strip().split("\n\nsession "):
        named, rows = session.split("\n\n")
        name, *calls = named.removeprefix("session ").splitlines()
        columns, *lines = [line.split() for line in rows.splitlines()]
        yield name, [call.split(None, 2)[2] for call in calls], [dict(zip(columns, line)) for line in lines]


def spans(calls: list[str], steps: Steps, at: int) -> Iterator[str | None]:
    """For each step 'this', 'newer' or None: whether the effect of a call is there."""
    words = calls[at].split()
    order = [call.split()[4] for call in calls if call.startswith("write %s " % words[1])]
    for row in steps:
        version = row[words[1]]
        if version == "-":
            yield None
        elif words[0] != "write":
            yield "this"
        elif version not in order or order.index(version) < order.index(words[4]):
            yield None
        else:
            yield "this" if version == words[4] else "newer"


def answered_at(steps: Steps, at: int) -> int:
    """The first column in which a call is answered `ok`."""
    return next(step for step, row in enumerate(steps) if int(row["ok"]) > at)


def panel(top: int, name: str, calls: list[str], steps: Steps) -> Iterator[str]:
    """The lines of one session's part of the picture, and the place below it."""
    title, *reading = TITLES[name]
    yield text(16, top + 18, title, font_size=16, font_weight="bold", fill=INK)
    for at, line in enumerate(reading):
        yield text(16, top + 40 + 17 * at, line, fill="#444")
    top += 40 + 17 * len(reading) + 4
    right, bottom = LEFT + COLUMN * len(steps), top + ROW * len(calls)
    marks: list[str] = []
    notes: list[str] = []
    for at, call in enumerate(calls):
        y = top + ROW * at
        words = call.split()
        if words[0] in ("write", "create", "mkdir"):
            label = "write %s %s" % (words[1], words[4]) if words[0] == "write" else call
            yield text(LEFT - 10, y + 16, label, text_anchor="end", fill=INK)
            yield '<rect x="%d" y="%d" width="%d" height="%d" fill="%s"/>' % (LEFT, y + 3, right - LEFT, ROW - 6, EMPTY)
            step = 0
            for kind, run in itertools.groupby(spans(calls, steps, at)):
                wide = len(list(run))
                if kind:
                    yield '<rect x="%d" y="%d" width="%d" height="%d" fill="%s"/>' % (
                        LEFT + COLUMN * step,
                        y + 3,
                        COLUMN * wide,
                        ROW - 6,
                        THIS if kind == "this" else NEWER,
                    )
                step += wide
            if (name, call) in NOTES:
                notes.append(text(LEFT + 8, y + 16, NOTES[name, call], fill=GREY, font_style="italic"))
        else:
            yield text(LEFT - 10, y + 16, call, text_anchor="end", fill=CALL, font_weight="bold")
            step = answered_at(steps, at)
            x, middle = LEFT + COLUMN * step + COLUMN / 2, y + ROW / 2
            marks.append('<path d="M%g %gH%d" stroke="%s" stroke-width="1.5"/>' % (x, middle, right, CALL))
            marks.append('<path d="M%g %gl7 7l-7 7l-7 -7z" fill="%s"/>' % (x, middle - 7, CALL))
    for step in range(len(steps)):
        x = LEFT + COLUMN * step
        yield '<path d="M%d %dV%d" stroke="#fff" stroke-width="1"/>' % (x, top, bottom)
        if step % 5 == 0:
            yield '<path d="M%d %dv5" stroke="%s"/>' % (x + COLUMN / 2, bottom, GREY)
            yield text(x + COLUMN / 2, bottom + 18, str(step), text_anchor="middle", fill=INK)
    yield from marks + notes
    yield text(
        (LEFT + right) / 2,
        bottom + 36,
        "the power goes off after this many steps of the device",
        text_anchor="middle",
        fill="#444",
    )


def part(left: int, top: int, name: str, calls: list[str], steps: Steps) -> Iterator[str]:
    """The lines of one of the three scripts of the last panel."""
    yield text(left, top - 10, ORDERS[name], fill=INK, font_weight="bold")
    steps, start, bottom = steps[ORDER_FROM:], left + 118, top + ROW * 3
    right = start + COLUMN * len(steps)
    rows: dict[str, list[bool]] = {}
    for place, at in enumerate(range(ORDER_CALLS, len(calls))):
        words = calls[at].split()
        # The row between stays empty where the line is missing.
        y = top + ROW * (2 if at == len(calls) - 1 else place)
        if words[0] != "write":
            yield text(start - 8, y + 16, calls[at], text_anchor="end", fill=CALL, font_weight="bold")
            x = start + COLUMN * answered_at(steps, at) + COLUMN / 2
            yield '<path d="M%g %gH%d" stroke="%s" stroke-width="1.5"/>' % (x, y + ROW / 2, right, CALL)
            yield '<path d="M%g %gl7 7l-7 7l-7 -7z" fill="%s"/>' % (x, y + ROW / 2 - 7, CALL)
            continue
        yield text(start - 8, y + 16, "write %s %s" % (words[1], words[4]), text_anchor="end", fill=INK)
        rows[words[1]] = [kind == "this" for kind in spans(calls, steps, at)]
        for step, there in enumerate(rows[words[1]]):
            yield '<rect x="%d" y="%d" width="%d" height="%d" fill="%s"/>' % (
                start + COLUMN * step,
                y + 3,
                COLUMN - 1,
                ROW - 6,
                THIS if there else EMPTY,
            )
    for step, row in enumerate(steps):
        x = start + COLUMN * step
        yield text(x + COLUMN / 2, bottom + 14, row["steps"], text_anchor="middle", fill=INK, font_size=11)
        if rows["/db"][step] and not rows["/log"][step]:
            yield '<rect x="%d" y="%d" width="%d" height="%d" fill="none" stroke="%s" stroke-width="2"/>' % (
                x - 1,
                top,
                COLUMN + 1,
                ROW * 3,
                CALL,
            )
            yield text(x + COLUMN / 2, bottom + 30, "order lost", text_anchor="middle", fill=CALL, font_weight="bold")


def orders(top: int, parts: list[Session]) -> Iterator[str]:
    """The lines of the last panel."""
    title, *reading = ORDER_TITLE
    yield text(16, top + 18, title, font_size=16, font_weight="bold", fill=INK)
    for at, line in enumerate(reading):
        yield text(16, top + 40 + 17 * at, line, fill="#444")
    for at, (name, calls, steps) in enumerate(parts):
        yield from part(24 + 300 * at, top + 40 + 17 * len(reading) + 28, name, calls, steps)


def height_of(calls: list[str]) -> int:
    """The height of a session's part."""
    return 40 + 17 * 2 + 4 + ROW * len(calls) + 60


def picture(table: str) -> str:
    """The picture of a table."""
    parts = list(sessions(table))
    lines, top = list(legend(16)), 46
    for name, calls, steps in parts:
        if name not in ORDERS:
            lines += panel(top, name, calls, steps)
            top += height_of(calls)
    lines += orders(top, [session for session in parts if session[0] in ORDERS])
    top += 40 + 17 * 2 + 28 + ROW * 3 + 44
    ground = f'<rect width="{WIDTH}" height="{top}" fill="white"/>'
    return "\n".join([head(WIDTH, top), ground, *lines, "</svg>"]) + "\n"


def legend(top: int) -> Iterator[str]:
    """What the colours mean."""
    x = 16
    for colour, words, width in (
        (THIS, "there after recovery", 180),
        (NEWER, "newer bytes in its place", 250),
        (EMPTY, "not there", 110),
    ):
        yield '<rect x="%d" y="%d" width="14" height="14" fill="%s" stroke="#bbb" stroke-width="0.5"/>' % (
            x,
            top,
            colour,
        )
        yield text(x + 20, top + 12, words, fill=INK)
        x += width
    yield '<path d="M%d %dl7 7l-7 7l-7 -7z" fill="%s"/>' % (x + 8, top, CALL)
    yield text(x + 22, top + 12, "from this column on the answer was ok", fill=INK)
