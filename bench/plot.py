"""A plot of the time of a call over its size, as an SVG. Both axes are logarithmic."""
import math
from xml.sax.saxutils import escape

WIDTH, HEIGHT = 760, 470
LEFT, RIGHT, TOP, BOTTOM = 74, 632, 48, 412
# Whose time it is shows by the colour, reading and skipping by dashes and marks.
LINES = {
    "read theirs": ("Rust, read", "#b5420e", "", "circle"),
    "skip theirs": ("Rust, skipped", "#b5420e", "6 4", "square"),
    "read ours": ("ours, read", "#14509c", "", "circle"),
    "skip ours": ("ours, skipped", "#14509c", "6 4", "square"),
}
UNITS = [(1e9, "s"), (1e6, "ms"), (1e3, "µs"), (1, "ns")]
LETTER = 15  # the height of a line of text


def text(x, y, words, more=""):
    return f'<text x="{x:.1f}" y="{y:.1f}" {more}>{escape(words)}</text>'


def line(x1, y1, x2, y2):
    return f'<line x1="{x1:.1f}" y1="{y1:.1f}" x2="{x2:.1f}" y2="{y2:.1f}" stroke="#d8d8d8"/>'


def mark(kind, x, y, colour):
    if kind == "circle":
        return f'<circle cx="{x:.1f}" cy="{y:.1f}" r="4" fill="{colour}"/>'
    return f'<rect x="{x - 4:.1f}" y="{y - 4:.1f}" width="8" height="8" fill="white" stroke="{colour}" stroke-width="2"/>'


def time_name(nanoseconds):
    size, unit = next((size, unit) for size, unit in UNITS if nanoseconds >= size)
    return f"{nanoseconds / size:.0f} {unit}"


def scale(low, high, start, end):
    """A logarithmic one: where a number stands."""
    return lambda x: start + (end - start) * math.log(x / low) / math.log(high / low)


def decades(times):
    """The powers of ten around all times."""
    return [10**power for power in range(math.floor(math.log10(min(times))), math.ceil(math.log10(max(times))) + 1)]


def apart(places):
    """Where names stand beside the ends of their lines: at these heights, or as far below as it takes."""
    moved, last = {}, -math.inf
    for name, y in sorted(places.items(), key=lambda place: place[1]):
        moved[name] = last = max(y, last + LETTER)
    return moved


def drawn(title, below, points):
    """The SVG. A point has its size, the size's name, and the times in nanoseconds by the names of LINES."""
    sizes = [size for size, _, _ in points]
    ticks = decades([time for _, _, times in points for time in times.values()])
    x, y = scale(min(sizes), max(sizes), LEFT + 14, RIGHT - 14), scale(ticks[0], ticks[-1], BOTTOM, TOP)
    parts = [text((LEFT + RIGHT) / 2, 26, title, 'text-anchor="middle" font-size="16"')]
    for tick in ticks:
        parts += [line(LEFT, y(tick), RIGHT, y(tick)), text(LEFT - 8, y(tick) + 4, time_name(tick), 'text-anchor="end"')]
    for size, name, _ in points:
        parts += [line(x(size), TOP, x(size), BOTTOM), text(x(size), BOTTOM + 19, name, 'text-anchor="middle"')]
    parts.append(text((LEFT + RIGHT) / 2, BOTTOM + 44, below, 'text-anchor="middle"'))
    ends = apart({name: y(points[-1][2][name]) for name in LINES})
    for name, (words, colour, dashes, kind) in LINES.items():
        places = [(x(size), y(times[name])) for size, _, times in points]
        path = " ".join(f"{px:.1f},{py:.1f}" for px, py in places)
        parts.append(f'<polyline points="{path}" fill="none" stroke="{colour}" stroke-width="2" stroke-dasharray="{dashes or "none"}"/>')
        parts += [mark(kind, px, py, colour) for px, py in places]
        parts += [mark(kind, RIGHT + 10, ends[name], colour), text(RIGHT + 20, ends[name] + 4, words, f'fill="{colour}"')]
    head = f'<svg xmlns="http://www.w3.org/2000/svg" width="{WIDTH}" height="{HEIGHT}" viewBox="0 0 {WIDTH} {HEIGHT}" font-family="sans-serif" font-size="12" fill="#222">'
    return "\n".join([head, '<rect width="100%" height="100%" fill="white"/>', *parts, "</svg>", ""])
