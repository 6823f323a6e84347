"""Draws cost against rows as an SVG picture: one panel a shape of day, one line a call, both scales by powers."""
import math

WIDTH, HEIGHT = 970, 460
PANEL, LEFT, GAP, TOP, BOTTOM = 300, 70, 50, 50, 400
COLOURS = ("#1b6ca8", "#0b3c5d", "#b3261e", "#5aa469", "#2f6b3a", "#e08e0b", "#8e5aa8", "#5b2a86", "#777777")


class Scale:
    """Where a number lies between two ends of the picture."""

    def __init__(self, low, high, begin, end):
        self.low, self.span = math.log2(low), math.log2(high) - math.log2(low)
        self.begin, self.end = begin, end

    def __call__(self, x):
        return self.begin + (math.log2(x) - self.low) / self.span * (self.end - self.begin)


def text(x, y, words, anchor="middle", size=12, colour="#222"):
    return f'<text x="{x:.1f}" y="{y:.1f}" text-anchor="{anchor}" font-size="{size}" fill="{colour}">{words}</text>'


def line(x1, y1, x2, y2, colour="#ddd", width=1.0):
    return f'<line x1="{x1:.1f}" y1="{y1:.1f}" x2="{x2:.1f}" y2="{y2:.1f}" stroke="{colour}" stroke-width="{width}"/>'


def short(number):
    """A number of the cost axis in few letters."""
    for unit, letter in ((1e6, "M"), (1e3, "k"), (1, ""), (1e-3, "m"), (1e-6, "µ"), (1e-9, "n")):
        if number >= unit:
            return f"{number / unit:g} {letter}".strip()
    return f"{number:g}"


def grid(panel, rows, across, up, ticks):
    parts = []
    begin, end = across.begin, across.end
    for tick in ticks:
        parts.append(line(begin, up(tick), end, up(tick)))
        if panel == 0:
            parts.append(text(begin - 8, up(tick) + 4, short(tick), "end"))
    for count in rows:
        parts.append(line(across(count), TOP, across(count), BOTTOM))
        parts.append(text(across(count), BOTTOM + 18, f"{count:,}"))
    parts.append(text((begin + end) / 2, BOTTOM + 38, "rows"))
    return parts


def curve(points, across, up, colour):
    at = [(across(x), up(y)) for x, y in points]
    path = " ".join(f"{x:.1f},{y:.1f}" for x, y in at)
    dots = [f'<circle cx="{x:.1f}" cy="{y:.1f}" r="2.5" fill="{colour}"/>' for x, y in at]
    return [f'<polyline points="{path}" fill="none" stroke="{colour}" stroke-width="1.8"/>', *dots]


def legend(names, x):
    parts = []
    for place, name in enumerate(names):
        y = TOP + 10 + 22 * place
        parts.append(line(x, y, x + 22, y, COLOURS[place], 2.5))
        parts.append(text(x + 30, y + 4, name, "start"))
    return parts


def powers(costs):
    """The powers of ten around all costs."""
    low, high = math.floor(math.log10(min(costs))), math.ceil(math.log10(max(costs)))
    return [10.0**x for x in range(low, high + 1)]


def picture(panels, names, rows, unit):
    """panels: a title, and for each name its costs by rows."""
    ticks = powers([cost for _, curves in panels for costs in curves for cost in costs])
    up = Scale(ticks[0], ticks[-1], BOTTOM, TOP)
    parts = [text(LEFT, 24, f"{unit} a call against rows, 256 stops", "start", 15)]
    for panel, (title, curves) in enumerate(panels):
        begin = LEFT + panel * (PANEL + GAP)
        across = Scale(rows[0], rows[-1], begin, begin + PANEL)
        parts += grid(panel, rows, across, up, ticks)
        parts.append(text(begin + PANEL / 2, TOP - 8, title, size=13))
        for costs, colour in zip(curves, COLOURS):
            parts += curve(list(zip(rows, costs)), across, up, colour)
    parts += legend(names, LEFT + len(panels) * (PANEL + GAP) - GAP + 20)
    frame = f'<svg xmlns="http://www.w3.org/2000/svg" viewBox="0 0 {WIDTH} {HEIGHT}" font-family="sans-serif">'
    ground = f'<rect width="{WIDTH}" height="{HEIGHT}" fill="white"/>'
    return "\n".join([frame, ground, *parts, "</svg>", ""])
