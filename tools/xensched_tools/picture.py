"""Draws a timeline as text, as a picture in SVG, or as a trace for Perfetto."""
import collections
import itertools
from xml.sax.saxutils import escape

from .colours import HELD_COLOUR, LATE_COLOUR, PAUSED_COLOUR, STRIPES, WAITS_COLOUR, colour, text_colour
from .perfetto import as_trace
from .schedule import HELD, IDLE, PAUSED
from .timeline import MARK_KINDS
from .words import milliseconds

SIGNS = "0123456789abcdefghijklmnopqrstuvwxyzABCDEFGHIJKLMNOPQRSTUVWXYZ+*"
MARK_LINES = 12
CHARACTER = 6.2
# A bar of fewer pixels has no words: all such of a colour are one path.
WORDED = 4


class View:
    """A timeline between two moments."""

    def __init__(self, timeline, begin, end):
        self.timeline, self.begin, self.end = timeline, begin, end
        self.names = [domain.name for domain in timeline.domain_list]
        self.legs, self.waits = self._cut(timeline.legs), self._cut(timeline.waits)
        self.stays, self.stalls, self.housed = self._cut(timeline.stays), self._cut(timeline.stalls), self._cut(timeline.housed)
        self.marks = [mark for mark in timeline.marks if begin <= mark.at <= end]

    def _cut(self, spans):
        begin, end = self.begin, self.end
        return [span._replace(begin=max(span.begin, begin), end=min(span.end, end)) for span in spans if span.begin < end and begin < span.end]

    @property
    def span(self):
        return max(1, self.end - self.begin)

    def waiting_vcpus(self):
        """The vCPUs that have a row of their own: those that wait or run here, in order."""
        seen = {id(span.vcpu) for span in self.waits} | {id(leg.doing) for leg in self.legs}
        return [vcpu for vcpu in self.timeline.vcpus.values() if id(vcpu) in seen]


def shares_by_column(spans, begin, step, sign_of, row_of):
    """For each row and column, how long each sign stands there."""
    cells = collections.defaultdict(collections.Counter)
    for span in spans:
        sign, row = sign_of(span), row_of(span)
        for k in range((span.begin - begin) // step, -(-(span.end - begin) // step)):
            cells[row, k][sign] += min(span.end, begin + (k + 1) * step) - max(span.begin, begin + k * step)
    return cells


def sign_of_leg(leg):
    """The sign of a processor's bar."""
    return {IDLE: ".", HELD: "|"}.get(leg.doing) or SIGNS[leg.doing.domain.index % len(SIGNS)]


def row_of_signs(cells, row, columns):
    """The row: in each column the sign that stands there longest."""
    most = (cells[row, k].most_common(1) for k in range(columns))
    return "".join(found[0][0] if found else " " for found in most).rstrip()


def as_text(view, columns, rows):
    """A row of signs for each processor, and one for each vCPU."""
    label = max([4] + [len(vcpu.domain.name) + len(vcpu.name) + 1 for vcpu in view.waiting_vcpus()]) if "vcpus" in rows else 4
    columns = max(10, columns - label - 1)
    step = -(-view.span // columns)
    used = -(-(view.end - view.begin) // step)
    if "processors" in rows:
        cells = shares_by_column(view.legs, view.begin, step, sign_of_leg, lambda leg: leg.processor)
        for p in range(view.timeline.machine.processors):
            yield f"{f'p{p}':>{label}} {row_of_signs(cells, p, used)}"
    if "vcpus" in rows:
        runs = [leg for leg in view.legs if not isinstance(leg.doing, str)]
        cells = shares_by_column(runs, view.begin, step, lambda leg: "=", lambda leg: leg.doing.name)
        for place, counter in shares_by_column(view.waits, view.begin, step, lambda it: "w" if it.state != PAUSED else "-", lambda it: it.vcpu.name).items():
            cells[place].update(counter)
        for vcpu in view.waiting_vcpus():
            yield f"{vcpu.domain.name + ' ' + vcpu.name:>{label}} {row_of_signs(cells, vcpu.name, used)}"
    yield from (f"{'':{label}} {line}" for line in axis_of_signs(view, step, used))
    yield from (f"{'':{label}} {line}" for line in legend_of_signs(view, step, columns))
    yield from (f"{'':{label}} {milliseconds(mark.at)} ms {mark.text}" for mark in view.marks)


def ticks(begin, end, most):
    """Round moments between two, at most so many: whole multiples of 1, 2 or 5 times a power of ten."""
    least = max(1, (end - begin) / max(1, most))
    step = next(step for power in range(20) for step in (10**power, 2 * 10**power, 5 * 10**power) if step >= least)
    return range(-(-begin // step) * step, end + 1, step)


def axis_of_signs(view, step, columns):
    """Two lines: where the moments are, and their times in milliseconds."""
    marks, names = [" "] * (columns + 1), ""
    for moment in ticks(view.begin, view.end, columns // 12):
        place = (moment - view.begin) // step
        name = milliseconds(moment)
        if len(names) <= place and place + len(name) <= columns + 12:
            marks[min(place, columns)] = "'"
            names = names.ljust(place) + name + " "
    yield "".join(marks).rstrip()
    yield names.rstrip() + " ms"


def legend_of_signs(view, step, columns):
    """What the signs mean, in lines that are not longer than the rows."""
    line = ""
    parts = [f"one column is {milliseconds(step)} ms", ". idles", "| waits for a sibling", "= runs", "w waits", "- is paused"]
    for part in parts + [f"{SIGNS[d % len(SIGNS)]} {name}" for d, name in enumerate(view.names)]:
        if line and len(line) + len(part) + 2 > columns:
            yield line
            line = ""
        line += ("; " if line else "") + part
    yield line


def patterns():
    """The stripes of the colours that come again."""
    for number, path in enumerate(("M0 6L6 0", "M0 0L6 6", "M0 3H6"), 1):
        yield f'<pattern id="stripes{number}" width="6" height="6" patternUnits="userSpaceOnUse"><path d="{path}" stroke="#000" stroke-opacity="0.45" stroke-width="1.2"/></pattern>'


class Picture:
    """An SVG picture of a view, `wide` pixels for its span."""

    LEFT, HIGH, GAP, LOW = 92, 20, 6, 9

    def __init__(self, view, wide, rows):
        self.view, self.wide, self.scale = view, wide, wide / view.span
        self.placed, self.unplaced = self._place_marks()
        lines = max([line for line, _ in self.placed.values()], default=-1) + 1
        self.top = 16 + 13 * lines
        place = self.top
        self.rows, self.vcpu_rows = {}, {}
        siblings = view.timeline.machine.granularity
        if "processors" in rows:
            for p in range(view.timeline.machine.processors):
                self.rows[p] = place
                place += self.HIGH + (self.GAP if (p + 1) % siblings == 0 else 1)
        if "vcpus" in rows:
            place += 8
            for vcpu in view.waiting_vcpus():
                self.vcpu_rows[vcpu] = place
                place += self.LOW + 3
        self.bottom = place

    def x(self, moment):
        return self.LEFT + (moment - self.view.begin) * self.scale

    def _place_marks(self):
        """A line and a side for the words of each mark, so that none lie over each other; and how many found no place."""
        ends, placed, unplaced = [-1.0] * MARK_LINES, {}, 0
        for k, mark in enumerate(self.view.marks):
            at, width = self.x(mark.at), CHARACTER * len(mark.text) + 8
            begin = at if at + width <= self.LEFT + self.wide else at - width
            line = next((n for n, end in enumerate(ends) if end <= begin and begin >= 0), None)
            if line is None:
                unplaced += 1
                continue
            ends[line] = max(at, begin + width)
            placed[k] = line, begin < at
        return placed, unplaced

    def draw(self):
        """The lines of the picture."""
        legend, legend_high = self._legend()
        high = self.bottom + 34 + legend_high
        yield f'<svg xmlns="http://www.w3.org/2000/svg" width="{self.LEFT + self.wide + 20}" height="{high}" font-family="sans-serif" font-size="11">'
        yield f'<rect width="100%" height="100%" fill="white"/><title>{escape("a schedule of " + ", ".join(self.view.names))}</title>'
        yield "<defs>" + "".join(patterns()) + "</defs>"
        yield from self._grounds()
        yield from self._bars(self.view.legs, self.rows, lambda leg: leg.processor, self.HIGH, self._leg)
        yield from self._stalls()
        yield from self._vcpus()
        yield from self._marks()
        yield from self._axis()
        yield from legend
        yield "</svg>"

    def _grounds(self):
        """Under the bars: the name of each row, and the pool that its core is in."""
        for p, y in self.rows.items():
            yield f'<text x="{self.LEFT - 8}" y="{y + 14}" text-anchor="end">p{p}</text><rect x="{self.LEFT}" y="{y}" width="{self.wide}" height="{self.HIGH}" fill="#f3f3f3"/>'
        siblings = self.view.timeline.machine.granularity
        for it in self.view.housed:
            y = self.rows.get(it.core * siblings)
            if y is not None:
                high = (self.HIGH + 1) * siblings - 1
                yield f'<path d="M{self.x(it.begin):.2f} {y}v{high}" stroke="#222" stroke-width="1"/>'
                width = (it.end - it.begin) * self.scale
                if it.begin == self.view.begin or width > CHARACTER * len(it.home) + 6:
                    x, anchor = (4, "start") if it.begin == self.view.begin else (self.x(it.begin) + 3, "start")
                    yield f'<text x="{x:.2f}" y="{y + (14 if x == 4 else -1)}" text-anchor="{anchor}" fill="#555" font-size="{10 if x == 4 else 8}">{escape(it.home[:8] if x == 4 else it.home)}</text>'
        for vcpu, y in self.vcpu_rows.items():
            yield f'<text x="{self.LEFT - 8}" y="{y + 8}" text-anchor="end" font-size="9">{escape(vcpu.domain.name[:10])} {vcpu.name}</text>'

    def _bars(self, spans, rows, row_of, high, drawn):
        """The bars. Narrow ones are boxes of one path a colour, unless they were decided late; those under a pixel are merged: a column of a pixel has
        the colour of the domain that had most of it, as high as all had of it."""
        narrow, small = collections.defaultdict(collections.Counter), collections.defaultdict(list)
        for span in spans:
            y, width = rows.get(row_of(span)), (span.end - span.begin) * self.scale
            if y is None or span.doing is IDLE:
                continue
            what = span.doing if span.doing is HELD else span.doing.domain.index
            if width < 1:
                narrow[y, int(self.x(span.begin))][what] += span.end - span.begin
            elif width < WORDED and not span.late:
                small[fill_of(what)].append((self.x(span.begin), y, width))
            else:
                yield drawn(span, y)
        yield from boxes(small, high)
        columns = []
        for (y, x), counter in sorted(narrow.items()):
            part = min(1.0, sum(counter.values()) * self.scale)
            (what, _), *_ = counter.most_common(1)
            columns.append((fill_of(what), x, y + high, max(1, round(high * part))))
        yield from merged(columns)

    def _leg(self, leg, y):
        """A bar of a processor: the vCPU with its due and its lateness, or the wait for a sibling."""
        width = (leg.end - leg.begin) * self.scale
        box = f'x="{self.x(leg.begin):.2f}" y="{y}" width="{width:.2f}" height="{self.HIGH}"'
        if leg.doing is HELD:
            return f'<rect {box} fill="{HELD_COLOUR}"><title>waits for a sibling, {leg.begin} to {leg.end} ns</title></rect>'
        d, vcpu = leg.doing.domain.index, leg.doing
        fill, stripes = colour(d)
        name = f"{vcpu.domain.name} {vcpu.index}" if len(vcpu.domain.vcpus) > 1 else vcpu.domain.name
        border = ' stroke="white" stroke-width="0.4"' if width > 3 else ""
        over = f'<rect {box} fill="url(#stripes{stripes})"/>' if stripes else ""
        shown = f'<text x="{self.x(leg.begin) + 3:.2f}" y="{y + 14}" fill="{text_colour(d)}">{escape(name)}</text>' if width > 8 + CHARACTER * len(name) else ""
        late = f'<rect x="{self.x(leg.begin):.2f}" y="{y + self.HIGH - 3}" width="{width:.2f}" height="3" fill="{LATE_COLOUR}"/>' if leg.late else ""
        due = f'<path d="M{self.x(leg.due):.2f} {y - 3}v3" stroke="#444"/>' if width > 4 and leg.due is not None and self.view.begin <= leg.due <= self.view.end else ""
        return f"<g><title>{escape(told(leg))}</title><rect {box} fill=\"{fill}\"{border}/>{over}{shown}{late}{due}</g>"

    def _stalls(self):
        """A stalled processor is hatched for as long as its stall lasts."""
        for it in self.view.stalls:
            if it.processor in self.rows:
                y = self.rows[it.processor]
                yield (f'<rect x="{self.x(it.begin):.2f}" y="{y - 2}" width="{max(1, (it.end - it.begin) * self.scale):.2f}" height="{self.HIGH + 4}" fill="none" stroke="#707070" '
                       f'stroke-dasharray="2 2"><title>p{it.processor} is stalled, {it.begin} to {it.end} ns</title></rect>')

    def _vcpus(self):
        """A thin row a vCPU: it runs, it waits for a processor, it is paused, or it sleeps (nothing)."""
        runs = [leg for leg in self.view.legs if not isinstance(leg.doing, str)]
        yield from self._bars(runs, self.vcpu_rows, lambda leg: leg.doing, self.LOW, lambda leg, y: self._thin(leg, y, colour(leg.doing.domain.index)[0], f"{leg.doing.name} runs on p{leg.processor}"))
        narrow, small = collections.Counter(), collections.defaultdict(list)
        for it in self.view.waits:
            y, width = self.vcpu_rows.get(it.vcpu), (it.end - it.begin) * self.scale
            fill, words = (PAUSED_COLOUR, "is paused") if it.state == PAUSED else (WAITS_COLOUR, "waits")
            if y is None:
                continue
            if width < 1:
                narrow[y, int(self.x(it.begin))] += width
            elif width < WORDED:
                small[fill].append((self.x(it.begin), y + 2, width))
            else:
                yield self._thin(it, y + 2, fill, f"{it.vcpu.name} {words}", self.LOW - 4)
        yield from boxes(small, self.LOW - 4)
        yield from merged([(WAITS_COLOUR, x, y + self.LOW - 2, max(1, round((self.LOW - 4) * min(1, part)))) for (y, x), part in sorted(narrow.items())])

    def _thin(self, it, y, fill, text, high=None):
        width = (it.end - it.begin) * self.scale
        return f'<rect x="{self.x(it.begin):.2f}" y="{y}" width="{width:.2f}" height="{high or self.LOW}" fill="{fill}"><title>{escape(text)}, {it.begin} to {it.end} ns</title></rect>'

    def _marks(self):
        for k, mark in enumerate(self.view.marks):
            line, left = self.placed.get(k, (None, False))
            fill, x = MARK_KINDS[mark.kind], self.x(mark.at)
            begin = self.top - 6 if line is None else 14 + 13 * line
            yield f'<path d="M{x:.2f} {begin - 6}V{self.bottom}" stroke="{fill}" stroke-dasharray="3 3" stroke-width="0.7"><title>{escape(mark.text)}</title></path>'
            if line is not None:
                yield f'<text x="{x + (-3 if left else 3):.2f}" y="{begin}" fill="{fill}"{" text-anchor=" + chr(34) + "end" + chr(34) if left else ""}>{escape(mark.text)}</text>'

    def _axis(self):
        unit, sign = next(((n, s) for n, s in ((1_000_000, "ms"), (1_000, "µs")) if self.view.end - self.view.begin >= 4 * n), (1, "ns"))
        for moment in ticks(self.view.begin, self.view.end, self.wide // 90):
            x = self.x(moment)
            anchor = "end" if x > self.LEFT + self.wide - 24 else "middle"
            yield f'<path d="M{x:.2f} {self.bottom}v5" stroke="black"/><text x="{x:.2f}" y="{self.bottom + 17}" text-anchor="{anchor}">{moment / unit:g} {sign}</text>'

    def _legend(self):
        """The legend in as many lines as it needs, and its height."""
        items = [(colour(d), name) for d, name in enumerate(self.view.names)]
        items += [((HELD_COLOUR, 0), "waits for a sibling"), ((WAITS_COLOUR, 0), "a vCPU waits for a processor"), ((PAUSED_COLOUR, 0), "is paused"),
                  ((LATE_COLOUR, -1), "decided late"), ((None, 0), "a tick above a row: due"), ((None, 0), "a dashed frame: stalled")]
        if self.unplaced:
            items.append(((None, 0), f"{self.unplaced} marks stand without their words"))
        lines, x, y = [], self.LEFT, self.bottom + 30
        for (fill, stripes), name in items:
            width = 24 + CHARACTER * len(name) + 8
            if x > self.LEFT and x + width > self.LEFT + self.wide:
                x, y = self.LEFT, y + 17
            lines.append(sample(x, y, fill, stripes) + f'<text x="{x + (16 if fill else 0):.0f}" y="{y + 10}">{escape(name)}</text>')
            x += width
        return lines, y - self.bottom - 10


def sample(x, y, fill, stripes):
    """The box in front of a word of the legend."""
    if fill is None:
        return ""
    if stripes < 0:
        return f'<rect x="{x:.0f}" y="{y + 9}" width="12" height="3" fill="{fill}"/>'
    box = f'<rect x="{x:.0f}" y="{y}" width="12" height="12" fill="{fill}"/>'
    return box + (f'<rect x="{x:.0f}" y="{y}" width="12" height="12" fill="url(#stripes{stripes})"/>' if stripes else "")


def fill_of(what):
    """The colour of a wait for a sibling, or of a domain by its number."""
    return HELD_COLOUR if what is HELD else colour(what)[0]


def boxes(by_fill, high):
    """Boxes of one height, each a place and a width, as one path a colour."""
    for fill, those in by_fill.items():
        path = "".join(f"M{x:.1f} {y}h{width:.1f}v{high}h-{width:.1f}z" for x, y, width in those)
        yield f'<path class="narrow" d="{path}" fill="{fill}"/>'


def merged(columns):
    """Columns of a pixel, each a colour, a place, a foot and a height, as one path a colour; neighbours of a colour are one outline."""
    paths, outline, before = collections.defaultdict(list), None, None
    for fill, x, foot, high in columns:
        if before != (fill, foot, x):
            outline = []
            paths[fill].append((x, foot, outline))
        outline.append(high)
        before = fill, foot, x + 1
    for fill, outlines in paths.items():
        yield f'<path class="merged" d="{"".join(outline_of(*it) for it in outlines)}" fill="{fill}"/>'


def outline_of(x, foot, heights):
    """The outline of columns that stand side by side."""
    path, before = f"M{x} {foot}", 0
    for high, those in itertools.groupby(heights):
        path += f"v{before - high}h{len(list(those))}"
        before = high
    return f"{path}v{before}z"


def told(leg):
    """What a bar says when it is pointed at."""
    due = "" if leg.due is None else f", due {leg.due}"
    return f"{leg.doing.domain.name} {leg.doing.name}, {leg.begin} to {leg.end} ns{due}, late {leg.late}"


def as_svg(view, columns, rows):
    """A picture, ten pixels a column."""
    return Picture(view, 10 * columns, rows).draw()


FORMS = {"text": as_text, "svg": as_svg, "trace": as_trace}
