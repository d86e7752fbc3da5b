"""Draws distributions as curves in SVG: for each span, in how many of a hundred cases it was not exceeded."""
import math
from xml.sax.saxutils import escape

from .colours import colour
from .words import milliseconds

DASHES = ["", "6 3", "2 3", "8 3 2 3"]
LEFT, RIGHT, TOP, BOTTOM, LINE = 48, 16, 28, 34, 16
ZERO = 26
CHARACTER = 6.2


class Scale:
    """Places spans on a logarithmic axis, with a place of its own for 0."""

    def __init__(self, least, most, wide):
        self.low, self.high = math.floor(math.log10(least)), math.ceil(math.log10(most) + 1e-9)
        if self.low == self.high:
            self.high += 1
        self.begin, self.wide = LEFT + ZERO, wide - LEFT - RIGHT - ZERO

    def x(self, span):
        if span <= 0:
            return LEFT
        return self.begin + self.wide * max(0.0, (math.log10(span) - self.low) / (self.high - self.low))

    def decades(self):
        """The powers of ten of the axis."""
        step = -(-(self.high - self.low) // 8)
        return [10**k for k in range(self.low, self.high + 1, step)]


def points_of(spans, scale, y):
    """The corners of the steps, without those that lie on one pixel."""
    before, corners = (LEFT, y(0)), [(LEFT, y(0))]
    for span, below in spans.steps():
        here = scale.x(span), y(below / spans.count)
        if here[0] - before[0] >= 0.5 or before[1] - here[1] >= 0.5 or below == spans.count:
            corners += [(here[0], before[1]), here]
            before = here
    return corners


def cumulative(title, curves, wide=560, high=300):
    """The picture of curves, each a name, a Distribution, the number of its colour and that of its dashes; empty ones are left out."""
    curves = [curve for curve in curves if curve[1].count]
    spans = [span for _, it, _, _ in curves for span in it.counts if span > 0]
    scale = Scale(min(spans, default=1_000), max(spans, default=1_000_000), wide)
    legend = list(legend_of(curves, wide, high))
    whole = high + LINE * (max((line for line, *_ in legend), default=0) + 1) + 6

    def y(part):
        return TOP + (high - TOP - BOTTOM) * (1 - part)

    yield f'<svg xmlns="http://www.w3.org/2000/svg" width="{wide}" height="{whole}" font-family="sans-serif" font-size="11"><title>{escape(title)}</title>'
    yield f'<rect width="100%" height="100%" fill="white"/><text x="{LEFT}" y="16" font-size="13">{escape(title)}</text>'
    yield from grid(scale, y, wide, high)
    for name, it, d, dash in curves:
        path = "L".join(f"{px:.1f} {py:.1f}" for px, py in [*points_of(it, scale, y), (wide - RIGHT, y(1))])
        yield f'<path d="M{path}" fill="none" stroke="{colour(d)[0]}" stroke-width="1.8" stroke-dasharray="{DASHES[dash % len(DASHES)]}"><title>{escape(name)}</title></path>'
    for _, x, place, name, d, dash in legend:
        yield f'<path d="M{x:.0f} {place - 4}h18" stroke="{colour(d)[0]}" stroke-width="2.5" stroke-dasharray="{DASHES[dash % len(DASHES)]}"/><text x="{x + 22:.0f}" y="{place}">{escape(name)}</text>'
    yield "</svg>"


def grid(scale, y, wide, high):
    """The axes with their lines and words."""
    for part in (0, 0.25, 0.5, 0.75, 1):
        yield f'<path d="M{LEFT} {y(part):.1f}H{wide - RIGHT}" stroke="#ddd"/><text x="{LEFT - 5}" y="{y(part) + 4:.1f}" text-anchor="end">{100 * part:g}%</text>'
    for span, name in [(0, "0"), *((span, milliseconds(span)) for span in scale.decades())]:
        yield f'<path d="M{scale.x(span):.1f} {TOP}V{high - BOTTOM + 4}" stroke="#ddd"/><text x="{scale.x(span):.1f}" y="{high - BOTTOM + 16}" text-anchor="middle">{name}</text>'
    yield f'<text x="{wide - RIGHT}" y="{high - 4}" text-anchor="end">at most so many ms</text>'


def legend_of(curves, wide, high):
    """The place of each curve's name, in as many lines as they need."""
    line, x = 0, LEFT
    for name, _, d, dash in curves:
        width = 34 + CHARACTER * len(name)
        if x > LEFT and x + width > wide:
            line, x = line + 1, LEFT
        yield line, x, high + 10 + LINE * line, name, d, dash
        x += width
