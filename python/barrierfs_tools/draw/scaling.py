"""Time over size, both by powers of ten, as an SVG."""

import math
from collections.abc import Iterable, Iterator

Row = tuple[str, list[tuple[float, float]]]  # a label, and sizes with their times

COLOURS = ("#1b6ca8", "#c8553d", "#3a7d44", "#7b4b94", "#b8860b")


def decade(value: float) -> float:
    """The power of ten that a value is."""
    return math.log10(value)


class Chart:
    """One chart with powers of ten on both sides."""

    def __init__(self, left: int, top: int, title: str, across: str, rows: Iterable[Row]) -> None:
        self.left, self.top, self.title, self.across, self.rows = left, top, title, across, list(rows)
        sizes = [x for _, points in self.rows for x, _ in points]
        times = [y for _, points in self.rows for _, y in points]
        self.x0, self.x1 = math.floor(decade(min(sizes))), math.ceil(decade(max(sizes)))
        self.y0, self.y1 = math.floor(decade(min(times))), math.ceil(decade(max(times)))
        self.width, self.height = 380, 300

    def place(self, x: float, y: float) -> tuple[float, float]:
        """Where a point stands."""
        across = self.left + self.width * (decade(x) - self.x0) / max(self.x1 - self.x0, 1)
        down = self.top + self.height * (1 - (decade(y) - self.y0) / max(self.y1 - self.y0, 1))
        return across, down

    def lines(self) -> Iterator[str]:
        """The lines of the chart."""
        yield '<text x="%d" y="%d" font-weight="bold">%s</text>' % (self.left, self.top - 14, self.title)
        for k in range(self.x0, self.x1 + 1):
            across, _ = self.place(10**k, 10**self.y0)
            yield '<path d="M%.1f %dV%d" stroke="#ddd"/>' % (across, self.top, self.top + self.height)
            yield '<text x="%.1f" y="%d" text-anchor="middle">%s</text>' % (
                across,
                self.top + self.height + 18,
                "{:,}".format(10**k),
            )
        for k in range(self.y0, self.y1 + 1):
            _, down = self.place(10**self.x0, 10**k)
            yield '<path d="M%d %.1fh%d" stroke="#ddd"/>' % (self.left, down, self.width)
            yield '<text x="%d" y="%.1f" text-anchor="end">%s</text>' % (self.left - 6, down + 4, "%g s" % 10**k)
        yield '<text x="%d" y="%d" text-anchor="middle">%s</text>' % (
            self.left + self.width / 2,
            self.top + self.height + 38,
            self.across,
        )
        for k in range(self.y0, self.y1):
            end = min(self.x1, self.x0 + self.y1 - k)
            (ax, ay), (bx, by) = self.place(10**self.x0, 10**k), self.place(10**end, 10 ** (k + end - self.x0))
            yield '<path d="M%.1f %.1fL%.1f %.1f" stroke="#bbb" stroke-dasharray="4 4"/>' % (ax, ay, bx, by)
        for at, (label, points) in enumerate(self.rows):
            colour = COLOURS[at % len(COLOURS)]
            path = "L".join("%.1f %.1f" % self.place(x, y) for x, y in points)
            yield '<path d="M%s" fill="none" stroke="%s" stroke-width="2"/>' % (path, colour)
            for x, y in points:
                yield '<circle cx="%.1f" cy="%.1f" r="3" fill="%s"/>' % (*self.place(x, y), colour)
            yield '<text x="%d" y="%d" fill="%s">%s</text>' % (self.left + 8, self.top + 18 + 17 * at, colour, label)


def picture(charts: Iterable[Chart]) -> str:
    """The picture of charts."""
    body = "\n".join(line for chart in charts for line in chart.lines())
    size = 'width="960" height="420"'
    head = f'<svg xmlns="http://www.w3.org/2000/svg" {size} font-family="sans-serif" font-size="12">'
    return f'{head}\n<rect {size} fill="white"/>\n{body}\n</svg>\n'
