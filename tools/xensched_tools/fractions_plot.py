"""Draws fractions of schedulable sets over the utilisation, as SVG: that of the runs with its intervals, and that of each test."""
from xml.sax.saxutils import escape

from .schedulability import NAMES

WIDE, HIGH = 560, 320
LEFT, RIGHT, TOP, BOTTOM = 48, 20, 30, 64
LOOKS = {"simulated": ("#4f7fc4", ""), "gfb": ("#b45f06", "7 3"), "bcl": ("#3f7e5a", "2 3")}
MOST_WORDS = 12             # at the axis


class Axes:
    """Places utilisations and fractions."""

    def __init__(self, rows):
        self.values = [float(row.utilisation) for row in rows]
        self.first, self.span = min(self.values), (max(self.values) - min(self.values)) or 1.0

    def x(self, value):
        return LEFT + (WIDE - LEFT - RIGHT) * (value - self.first) / self.span

    def y(self, part):
        return TOP + (HIGH - TOP - BOTTOM) * (1 - part)


def grid(axes, rows):
    """The lines behind, and their words."""
    for part in (0, 0.25, 0.5, 0.75, 1):
        yield f'<path d="M{LEFT} {axes.y(part):.1f}H{WIDE - RIGHT}" stroke="#ddd"/><text x="{LEFT - 5}" y="{axes.y(part) + 4:.1f}" text-anchor="end">{100 * part:g}%</text>'
    for row in rows[:: -(-len(rows) // MOST_WORDS)]:
        yield f'<text x="{axes.x(float(row.utilisation)):.1f}" y="{HIGH - BOTTOM + 16}" text-anchor="middle">{row.utilisation}</text>'
    yield f'<text x="{WIDE - RIGHT}" y="{HIGH - BOTTOM + 32}" text-anchor="end">utilisation</text>'


def curve(axes, rows, name):
    """The line of a column, with a mark for each row."""
    colour, dashes = LOOKS[name]
    places = [(axes.x(float(row.utilisation)), axes.y(getattr(row, name))) for row in rows]
    yield f'<path d="M{"L".join(f"{x:.1f} {y:.1f}" for x, y in places)}" fill="none" stroke="{colour}" stroke-width="1.8" stroke-dasharray="{dashes}"><title>{escape(NAMES[name])}</title></path>'
    yield from (f'<circle cx="{x:.1f}" cy="{y:.1f}" r="2.6" fill="{colour}"/>' for x, y in places)


def intervals(axes, rows):
    """A bar for each interval of the runs."""
    for row in rows:
        x, low, high = axes.x(float(row.utilisation)), axes.y(row.low), axes.y(row.high)
        yield f'<path d="M{x - 4:.1f} {low:.1f}h8M{x:.1f} {low:.1f}V{high:.1f}M{x - 4:.1f} {high:.1f}h8" stroke="{LOOKS["simulated"][0]}" fill="none"/>'


def legend():
    """The names of the lines."""
    x = LEFT
    for name, (colour, dashes) in LOOKS.items():
        yield f'<path d="M{x} {HIGH - 12}h22" stroke="{colour}" stroke-width="2.2" stroke-dasharray="{dashes}"/><text x="{x + 27}" y="{HIGH - 8}">{escape(NAMES[name])}</text>'
        x += 50 + 6 * len(NAMES[name])


def picture(title, rows):
    """The lines of the picture."""
    axes = Axes(rows)
    yield f'<svg xmlns="http://www.w3.org/2000/svg" width="{WIDE}" height="{HIGH}" font-family="sans-serif" font-size="11"><title>{escape(title)}</title>'
    yield f'<rect width="100%" height="100%" fill="white"/><text x="{LEFT}" y="18" font-size="13">{escape(title)}</text>'
    yield from grid(axes, rows)
    yield from intervals(axes, rows)
    for name in LOOKS:
        yield from curve(axes, rows, name)
    yield from legend()
    yield "</svg>"
