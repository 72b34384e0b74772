"""Pictures of what is left after a power cut at each step, as SVG. They have colours for a light and for a dark
page."""

import html
from collections.abc import Iterator, Sequence

from barrierfs_tools.draw import svg

Span = tuple[int, int, str]  # the first cut, the last one, and what stands there
Lane = tuple[str, str, Sequence[Span]]  # its name, `count` or `content`, and its spans

LEFT, WIDTH, LANE = 190, 960, 26
STEPS = (1, 2, 5, 10, 20, 50, 100, 200, 500, 1000, 2000, 5000, 10**4, 10**5, 10**6)  # between numbers of the axis
# Fill and ink of each version of a file, the oldest first, on a light page; then on a dark one.
LIGHT = [
    ("#cfe3f1", "#123"),
    ("#8fbfe0", "#123"),
    ("#3f8dc2", "#fff"),
    ("#1b5f96", "#fff"),
    ("#e9c46a", "#321"),
    ("#d98245", "#fff"),
]
DARK = [
    ("#1f3d54", "#dde"),
    ("#2c6088", "#eef"),
    ("#4f97c6", "#012"),
    ("#9ccbea", "#012"),
    ("#a5842f", "#fff"),
    ("#c8743a", "#fff"),
]
PLAIN = {
    "page": ("#fff", "#16191d"),
    "ink": ("#222", "#e6e6e6"),
    "faint": ("#666", "#a0a4a8"),
    "none": ("#f1f1ef", "#24282d"),
}


def styles() -> str:
    """The colours of both kinds of pages."""
    rules = []
    for at, versions in enumerate((LIGHT, DARK)):
        found = [f".{name}{{fill:{pair[at]}}}" for name, pair in PLAIN.items()]
        found += [f".edge{{stroke:{PLAIN['faint'][at]};fill:none}}"]
        found += [f".v{n}{{fill:{fill}}}.t{n}{{fill:{ink}}}" for n, (fill, ink) in enumerate(versions)]
        rules.append("".join(found))
    return f"<style>{rules[0]}@media(prefers-color-scheme:dark){{{rules[1]}}}</style>"


def words(x: float, y: int, kind: str, text: str, more: str = "") -> str:
    """Words at a place."""
    return f'<text x="{x:g}" y="{y:g}" class="{kind}"{more}>{html.escape(text)}</text>'


def box(x: float, y: int, width: float, height: int, kind: str, title: str = "") -> str:
    """A box, with what is said where the mouse is over it."""
    inner = f"<title>{html.escape(title)}</title>" if title else ""
    return f'<rect x="{x:.2f}" y="{y:g}" width="{max(width, 0.4):.2f}" height="{height}" class="{kind}">{inner}</rect>'


def fitted(text: str, width: float) -> str:
    """As much of the text as fits into so many points."""
    room = int(width / 8)
    return text if len(text) <= room else text[: room - 2] + ".." if room > 6 else ""


def tail(name: str, width: float) -> str:
    """The name of a lane; of one that is too long its end, by which paths differ."""
    room = int(width / 8)
    return name if len(name) <= room else ".." + name[2 - room :]


def counts_lane(spans: Sequence[Span], y: int, column: float) -> Iterator[str]:
    """Where a number begins a tick stands always, and the number itself where there is room."""
    free = 0.0
    for first, _, value in spans:
        x = LEFT + first * column
        yield f'<path d="M{x:.2f} {y + 4}v{LANE - 8}" class="edge" stroke-width="0.7"/>'
        if x >= free and x + 8 * len(value) < WIDTH:
            yield words(x + 3, y + 17, "ink", value)
            free = x + 10 + 9 * len(value)


def content_lane(spans: Sequence[Span], y: int, column: float, known: list[str]) -> Iterator[str]:
    """A colour for each different content, in the order in which they come: `known` has those that came before."""
    for first, last, value in spans:
        x, width = LEFT + first * column, (last - first + 1) * column
        if value in ("-", "00"):
            yield box(x, y + 3, width, LANE - 6, "none", f"{first} to {last}: {value}")
            continue
        if value not in known:
            known.append(value)
        kind = known.index(value) % len(LIGHT)
        yield box(x, y + 3, width, LANE - 6, f"v{kind}", f"{first} to {last}: {value}")
        label = fitted(value, width - 6)
        if label:
            yield words(x + 4, y + 17, f"t{kind}", label)


def axis(y: int, cuts: int, column: float) -> Iterator[str]:
    """The numbers of steps below a panel."""
    every = next((width for width in STEPS if width * column >= 34), STEPS[-1])
    marks = [(cut, str(cut)) for cut in range(0, cuts - 1, every) if (cuts - 1 - cut) * column >= 30]
    marks.append((cuts - 1, "end"))
    for cut, name in marks:
        x = LEFT + (cut + 0.5) * column
        yield f'<path d="M{x:.2f} {y}v5" class="edge"/>'
        yield words(x, y + 18, "ink", name, ' text-anchor="middle"')
    yield words(LEFT, y + 36, "faint", "the power goes off after this many steps of the device")


def panel(top: int, title: str, lanes: list[Lane], known: dict[str, list[str]]) -> Iterator[str]:
    """The lines of one script."""
    cuts = max(last for _, _, spans in lanes for _, last, _ in spans) + 1 if lanes else 1
    column = (WIDTH - LEFT - 16) / cuts
    yield words(16, top + 18, "ink", title, ' font-size="15" font-weight="bold"')
    y = top + 30
    for name, kind, spans in lanes:
        yield words(LEFT - 10, y + 17, "ink", tail(name, LEFT - 24), ' text-anchor="end"')
        if kind == "count":
            yield from counts_lane(spans, y, column)
        else:
            yield from content_lane(spans, y, column, known.setdefault(name, []))
        y += LANE
    yield from axis(y + 2, cuts, column)


def draw(panels: list[tuple[str, list[Lane]]]) -> str:
    """The picture of titles with their lanes: name, `count` or `content`, and spans as first cut, last cut and text."""
    lines: list[str] = []
    known: dict[str, list[str]] = {}
    top = 8
    for title, lanes in panels:
        lines += panel(top, title, lanes, known)
        top += 30 + LANE * len(lanes) + 56
    ground = f'<rect width="{WIDTH}" height="{top}" class="page"/>'
    return "\n".join([svg.head(WIDTH, top), styles(), ground, *lines, "</svg>"]) + "\n"
