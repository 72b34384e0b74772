"""Six moments of the session of examples/out-of-order.script, as an SVG."""

from collections.abc import Iterator

from barrierfs_tools import paths
from barrierfs_tools.draw.svg import head, text
from barrierfs_tools.failed import Failed
from barrierfs_tools.model.blocks import Run, Script, request_of
from barrierfs_tools.runs.program import replay, text_of

Seen = tuple[list[tuple[int, bool]], list[tuple[int, int]], list[int]]  # what waits, the cache, and the medium

# The requests: the file's page, and the log of its transaction. A block of the drawn medium is the request's number.
LABELS = ("page", "S", "D", "2", "3", "4", "5", "C")
BARRIERS = (6, 7)
# Where each frame is: after so many steps of the device, and whether the device has taken its commands by then.
MOMENTS = (
    (
        0,
        False,
        "fbarrier is answered",
        "Eight requests are submitted. C, the commit",
        "block, and the one before it are barriers.",
    ),
    (
        0,
        True,
        "The device has all commands",
        "They left the last first. The flag went with",
        "the page, the last of its epoch to leave.",
    ),
    (
        6,
        True,
        "Six are in the cache",
        "The device takes the last first, too. Page",
        "and C wait for all that came before.",
    ),
    (8, True, "All are in the cache", "C is in an epoch of its own, after the", "barrier that came with the page."),
    (
        14,
        True,
        "Six are on the medium",
        "C may not go: its epoch is not the oldest.",
        "Without barriers it could be there by now.",
    ),
    (16, True, "All are on the medium", "First the page, and then C.", ""),
)
WIDTH, HEIGHT, FRAME, DEEP, CELL = 920, 534, 296, 228, 28
PAGE, LOG, COMMIT, INK, GREY, EMPTY, FLAG = "#1b6ca8", "#8fb8a0", "#c8553d", "#222", "#777", "#f3f3f1", "#c8553d"


def script() -> str:
    """The script, and what is left to do behind it."""
    return text_of(paths.examples() / "out-of-order.script") + "# All is on the medium.\npersist 0 x 2\n"


def frames_of() -> list[Seen]:
    """What waits, what is in the cache and what is on the medium at each moment."""
    whole = script()
    run = Run(Script("blocks 8\nevents\n" + whole[whole.index("accept x 8") :]))
    kinds = ["barrier" if number in BARRIERS else "ordered" for number in range(8)]
    run.submitted = [request_of(number, f"put {number} 00 {kind}") for number, kind in enumerate(kinds)]
    seen: list[Seen] = [([(r.number, r.is_barrier) for r in run.submitted], [], [])]
    events = [(event, pick) for event, pick, times in run.script.events for _ in range(times)]
    wanted = [steps for steps, is_taken, *_ in MOMENTS if is_taken]
    for event, pick in events:
        run.do(event, pick)
        device = run.device
        if device.steps in wanted and not run.submitted and not run.sent and not run.scheduler.held:
            wanted.remove(device.steps)
            waits = [(c.parts[0][2], c.has_flag) for c in device.waiting]
            cache = [(number, epoch) for epoch, _, _, number in device.cache]
            seen.append((waits, cache, [int(origin) for _, origin in device.medium if origin != "-"]))
    return seen


def found(program: str, steps: int) -> str:
    """What the program finds after a power cut at this step."""
    whole = script()
    first, rest = whole[whole.index("volume") :].split("\n", 1)
    tree = replay(program, f"{first}\ncut {steps}\n{rest}").split("\ndir /\n")[1]
    return {"": "nothing", "file /f size 1024 links 1\nblock 0 1024xaa\n": "/f with its page"}[tree]


def cell(x: int, y: int, number: int, has_flag: bool = False) -> Iterator[str]:
    """A request."""
    colour = PAGE if number == 0 else COMMIT if number == 7 else LOG
    yield '<rect x="%g" y="%g" width="%d" height="24" rx="3" fill="%s"/>' % (x, y, CELL - 3, colour)
    yield text(
        x + (CELL - 3) / 2,
        y + 16,
        LABELS[number],
        text_anchor="middle",
        font_size=10 if number == 0 else 12,
        fill="white" if number in (0, 7) else INK,
    )
    if has_flag:
        yield '<path d="M%g %gv-9l9 4l-9 4" fill="%s" stroke="%s"/>' % (x + 10, y - 1, FLAG, FLAG)


def frame(left: int, top: int, at: int, seen: Seen, recovered: str) -> Iterator[str]:
    """The lines of one moment."""
    (_, _, title, *lines), (waits, cache, medium) = MOMENTS[at], seen
    yield '<rect x="%d" y="%d" width="%d" height="%d" rx="6" fill="none" stroke="#ccc"/>' % (left, top, FRAME, DEEP)
    yield text(left + 10, top + 20, "%d. %s" % (at + 1, title), font_weight="bold", fill=INK)
    for line, words in enumerate(lines):
        yield text(left + 10, top + 38 + 15 * line, words, font_size=12, fill="#444")
    x, y = left + 64, top + 76
    for row, name in enumerate(("waits", "cache", "medium")):
        yield text(x - 10, y + 42 * row + 16, name, text_anchor="end", font_size=12, fill=INK)
    for place, (number, has_flag) in enumerate(waits):
        yield from cell(x + CELL * place, y, number, has_flag)
    for place, (number, epoch) in enumerate(cache):
        apart = 8 * (epoch - cache[0][1])
        if apart and cache[place - 1][1] != epoch:
            middle = x + CELL * place + 2
            yield '<path d="M%g %gv28m3 -28v28" stroke="%s" stroke-width="1.5"/>' % (middle, y + 40, FLAG)
        yield from cell(x + CELL * place + apart, y + 42, number)
    for number in range(8):
        place = x + CELL * number + (4 if number else 0)
        yield '<rect x="%g" y="%g" width="%d" height="24" rx="3" fill="%s" stroke="#ddd"/>' % (
            place,
            y + 84,
            CELL - 3,
            EMPTY,
        )
        if number in medium:
            yield from cell(place, y + 84, number)
    yield text(x + CELL / 2 - 2, y + 121, "volume", text_anchor="middle", font_size=10, fill=GREY)
    yield text(x + CELL * 4.5, y + 121, "journal", text_anchor="middle", font_size=10, fill=GREY)
    yield text(
        left + 10,
        top + DEEP - 8,
        "power cut here: recovery finds %s" % recovered,
        font_size=12,
        fill=INK,
        font_style="italic",
    )


def legend() -> Iterator[str]:
    """What the colours mean."""
    x = 16
    for number, words, wide in (
        (0, "page of /f", 106),
        (1, "S journal superblock, D descriptor, 2 to 5 metadata", 376),
        (7, "C commit block", 130),
    ):
        yield '<rect x="%d" y="14" width="14" height="14" rx="3" fill="%s"/>' % (
            x,
            PAGE if number == 0 else COMMIT if number == 7 else LOG,
        )
        yield text(x + 20, 26, words, fill=INK)
        x += wide
    yield '<path d="M%d 26v-11l10 4l-10 4" fill="%s" stroke="%s"/>' % (x, FLAG, FLAG)
    yield text(x + 16, 26, "barrier", fill=INK)
    yield '<path d="M%d 12v18m3 -18v18" stroke="%s" stroke-width="1.5"/>' % (x + 78, FLAG)
    yield text(x + 90, 26, "end of an epoch", fill=INK)


def picture(program: str) -> str:
    """The picture of all moments."""
    lines = list(legend())
    for at, seen in enumerate(frames_of()):
        recovered = found(program, MOMENTS[at][0])
        if (recovered == "nothing") == (len(seen[2]) == 8):
            raise Failed(f"at step {MOMENTS[at][0]} the program finds {recovered}")
        lines += frame(10 + (FRAME + 6) * (at % 3), 44 + (DEEP + 12) * (at // 3), at, seen, recovered)
    ground = f'<rect width="{WIDTH}" height="{HEIGHT}" fill="white"/>'
    return "\n".join([head(WIDTH, HEIGHT), ground, *lines, "</svg>"]) + "\n"
