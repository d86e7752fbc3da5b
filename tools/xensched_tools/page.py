"""Writes studies as one page without network: the timelines, which can be zoomed and moved, the distributions and the tables.

`page.js` draws the timeline from the data that `data_of` packs: bars as numbers of a few bytes each, so that half a million lines
make a few megabytes.
"""
import base64
import dataclasses
import hashlib
import html
import json
import os
import pathlib
import shlex
import subprocess
import sys

from . import making, plots
from .colours import DIM, HELD_COLOUR, LATE_COLOUR, PALETTE, PAUSED_COLOUR, WAITS_COLOUR, colour, dimmed, text_colour, text_on
from .measures import Distribution, Study
from .schedule import HELD, IDLE, PAUSED
from .timeline import MARK_KINDS, Timeline
from .words import milliseconds

HERE = pathlib.Path(__file__).resolve().parent


class DrawnStudy(Timeline, Study):
    """A study that keeps its timeline."""


def packed(numbers):
    """Numbers of any size as text: seven bits a byte, the lowest first, the top bit where more follow; then base 64."""
    out = bytearray()
    for number in numbers:
        while number > 127:
            out.append(number & 127 | 128)
            number >>= 7
        out.append(number)
    return base64.b64encode(out).decode()


def bars_of(study):
    """For each processor its bars: gap since the last one, length, 0 for the wait for a sibling or the vCPU's number from 1, lateness."""
    numbers = {name: k for k, name in enumerate(study.vcpus, 1)}
    rows = [[] for _ in study.processor_list]
    ends = [0] * len(rows)
    for leg in study.legs:
        if leg.doing is IDLE:
            continue
        p = leg.processor
        rows[p] += (leg.begin - ends[p], leg.end - leg.begin, 0 if leg.doing is HELD else numbers[leg.doing.name], leg.late)
        ends[p] = leg.end
    return [packed(row) for row in rows]


def waits_of(study):
    """For each vCPU its waits: gap since the last one, and twice the length, one more where it was paused."""
    rows = {vcpu: [] for vcpu in study.vcpus.values()}
    ends = dict.fromkeys(rows, 0)
    for it in study.waits:
        rows[it.vcpu] += (it.begin - ends[it.vcpu], 2 * (it.end - it.begin) + (it.state == PAUSED))
        ends[it.vcpu] = it.end
    return [packed(row) for row in rows.values()]


def terms_of(study):
    """For each vCPU the periods of its RTDS unit, at the unit's first one: gap since the last release, and from the release to the deadline."""
    rows, before = {vcpu: [] for vcpu in study.vcpus.values()}, {}
    for it in sorted(study.periods, key=lambda it: it.start):
        if it.start < study.end and it.deadline > it.start:
            first = it.unit.domain.vcpus[it.unit.index * study.machine.granularity]
            rows[first] += (it.start - before.get(first, 0), it.deadline - it.start)
            before[first] = it.start
    return [packed(row) for row in rows.values()]


def machine_data(name, study, places):
    """All that the page draws of one machine; `places` has the number of each domain's colour."""
    return {
        "name": name, "siblings": study.machine.granularity, "bars": bars_of(study), "waits": waits_of(study), "terms": terms_of(study),
        "vcpus": [[vcpu.name, places[vcpu.domain.name]] for vcpu in study.vcpus.values()],
        "housed": [[it.core, it.begin, it.end, it.home] for it in study.housed], "stalls": [list(it) for it in study.stalls],
        "marks": [[mark.at, mark.kind, mark.text] for mark in study.marks],
    }


def places_of(studies):
    """The names of all domains, each once, with their numbers: the first machine's own, then what the others have more."""
    return {name: k for k, name in enumerate(dict.fromkeys(domain.name for _, study in studies for domain in study.domain_list))}


def domain_data(d, name):
    """A domain with its colours: of its bars, of the words on them, and of these words where it is dimmed."""
    fill, stripes = colour(d)
    return {"name": name, "colour": fill, "stripes": stripes, "text": text_colour(d), "dimmed": text_on(dimmed(fill))}


def data_of(studies):
    """All that the page draws of machines, each a name and a study."""
    places = places_of(studies)
    return {
        "begin": min(study.begin for _, study in studies), "end": max(study.end for _, study in studies),
        "machines": [machine_data(name, study, places) for name, study in studies], "domains": [domain_data(d, name) for name, d in places.items()],
        "kinds": MARK_KINDS, "dim": DIM, "colours": {"held": HELD_COLOUR, "waits": WAITS_COLOUR, "paused": PAUSED_COLOUR, "late": LATE_COLOUR},
    }


@dataclasses.dataclass
class Origin:
    """What a page was made of: the files with their sums, the program's version (empty where it does not say), and the command line."""

    files: list
    version: str
    command: str


def sum_of(path):
    """The sha256 sum of a file."""
    with open(path, "rb") as file:
        return hashlib.file_digest(file, "sha256").hexdigest()


class Summed:
    """Lines that are read once, and their sha256 sum."""

    def __init__(self, lines):
        self.lines, self.sum = lines, hashlib.sha256()

    def __iter__(self):
        for line in self.lines:
            self.sum.update(line.encode())
            yield line


def version_of_program():
    """The first line of `xensched --version`; empty where the program does not answer with one."""
    try:
        done = subprocess.run([making.PROGRAM, "--version"], capture_output=True, text=True, errors="replace", timeout=60)
    except (OSError, subprocess.TimeoutExpired):
        return ""
    return done.stdout.partition("\n")[0] if done.returncode == 0 else ""


def command_line():
    """The words that called this tool."""
    tool = pathlib.Path(sys.argv[0])
    return shlex.join([f"tools/{tool.name}" if tool.parent.name == "tools" else tool.name, *sys.argv[1:]])


def origin_of(paths, sums=()):
    """What a page is made of these files, and of what was read otherwise: each a name and its sum."""
    files = [(os.fspath(path), sum_of(path)) for path in dict.fromkeys(paths)]
    return Origin([*files, *sums], version_of_program(), command_line())


def spans_by_domain(study, spans_of):
    """For each domain the spans of all its vCPUs together."""
    found = []
    for domain in study.domain_list:
        whole = Distribution()
        for vcpu in domain.vcpus:
            for spans in spans_of(vcpu.tally):
                whole.add_all(spans)
        found.append((domain.name, whole, domain.index, domain.index // len(PALETTE)))
    return found


def plots_of(studies):
    """The distributions of the waits and of the response times."""
    for name, study in studies:
        of = f": {name}" if len(studies) > 1 else ""
        for title, spans_of in (("Waits from wake to leave", lambda tally: [tally.waits]), ("Response times of jobs", lambda tally: tally.jobs)):
            curves = spans_by_domain(study, spans_of)
            if any(it.count for _, it, _, _ in curves):
                yield "".join(plots.cumulative(title + of, curves))


def cell(column, value):
    """A cell; a moment can be followed into the timeline."""
    shown = html.escape(column.shown(value))
    if column.full_key.endswith("_at_ns") and value is not None:
        shown = f'<a href="#timeline" data-at="{value}">{shown}</a>'
    return f'<td{"" if column.form == "text" else " class=n"}>{shown}</td>'


def table_of(table):
    """A table as HTML."""
    yield f"<details open id={table.name}><summary>{html.escape(table.title)}</summary><table><thead><tr>"
    yield "".join(f"<th scope=col>{html.escape(column.head)}</th>" for column in table.columns) + "</tr></thead><tbody>"
    for row in table.rows:
        yield "<tr>" + "".join(cell(column, value) for column, value in zip(table.columns, row)) + "</tr>"
    yield "</tbody></table></details>"


def legend_of(studies):
    """The domains with their colours, and what the other colours mean."""
    for name, d in places_of(studies).items():
        fill, stripes = colour(d)
        yield f'<button type=button data-domain={d} aria-pressed=false><i class="s{stripes}" style="background-color:{fill}"></i>{html.escape(name)}</button>'
    for fill, text in ((HELD_COLOUR, "waits for a sibling"), (WAITS_COLOUR, "waits for a processor"), (PAUSED_COLOUR, "is paused"), (LATE_COLOUR, "decided late")):
        yield f'<span><i style="background-color:{fill}"></i>{text}</span>'
    yield "<span>dashed frame: stalled</span>"
    if any(study.periods for _, study in studies):
        yield "<span>arrow up: RTDS release; down: its deadline</span>"
    for kind, fill in MARK_KINDS.items():
        yield f'<span style="color:{fill}">&#9662; {kind}</span>'


def marks_of(studies):
    """The commands, moves and stalls as tables."""
    for name, study in studies:
        if not study.marks:
            continue
        of = f" of {html.escape(name)}" if len(studies) > 1 else ""
        yield f"<details class=marks><summary>Commands, moves and stalls{of} ({len(study.marks)}); times in ms</summary><table><thead><tr><th scope=col>at</th><th scope=col>what</th></tr></thead><tbody>"
        for mark in study.marks:
            yield f'<tr><td class=n><a href="#timeline" data-at="{mark.at}">{milliseconds(mark.at)}</a></td><td style="color:{MARK_KINDS[mark.kind]}">{html.escape(mark.text)}</td></tr>'
        yield "</tbody></table></details>"


def origin_as_html(origin):
    """The files, the program and the command as a list."""
    told = [*origin.files, *([("program", origin.version)] if origin.version else []), ("command", origin.command)]
    return "<dl>" + "".join(f"<dt>{html.escape(name)}</dt><dd>{html.escape(text)}</dd>" for name, text in told) + "</dl>"


HELP = """<p class=help id=help>Wheel or pinch: zoom. Drag: move. Shift and wheel: rows. Keys: <kbd>+</kbd> <kbd>-</kbd> zoom, arrows move, <kbd>0</kbd> all.
Click: choose a row and a moment; <kbd>[</kbd> <kbd>]</kbd> to the row's event before and behind, <kbd>k</kbd> <kbd>j</kbd> the row above and below.
Shift and click, or <kbd>m</kbd> and <kbd>n</kbd> at the chosen moment: the two markers, and their distance; <kbd>Esc</kbd> forgets them. <kbd>/</kbd> search.
Point at a bar for its words; click a domain to see it alone, and a moment in a table to go there.</p>"""
TIMELINE = """<form role=search><label>Search <input id=search type=search placeholder="web, d0v1, a pool, 5ms"></label> <button>Go</button></form>
<div id=timeline tabindex=0 role=group aria-label="Timeline" aria-describedby=help><div id=spacer><canvas id=canvas role=img aria-label="The timeline"></canvas></div></div>
<div id=printed></div><p id=status role=status aria-live=polite></p><p id=told role=status aria-live=polite></p><div id=tip role=tooltip hidden></div>"""


def page_of(studies, tables, head, origin, title):
    """The parts of the page; `tables` are made as HTML already."""
    shown = html.escape(title)
    yield f"<!DOCTYPE html><html lang=en><head><meta charset=utf-8><meta name=viewport content=\"width=device-width, initial-scale=1\"><meta name=color-scheme content=light><title>{shown}</title>"
    yield f"<style>{(HERE / 'page.css').read_text()}</style></head><body><header><h1>{shown}</h1>"
    yield "".join(f"<p>{html.escape(line)}</p>" for line in head) + origin_as_html(origin) + "</header><main>"
    yield f'<section aria-labelledby=of-time><h2 id=of-time>Timeline</h2>{HELP}<div class=legend>{"".join(legend_of(studies))}</div>{TIMELINE}</section>'
    yield f'<section aria-labelledby=of-spans><h2 id=of-spans>Distributions</h2><div class=plots>{"".join(plots_of(studies))}</div></section>'
    yield "<section aria-labelledby=of-figures><h2 id=of-figures>Figures</h2>"
    yield from marks_of(studies)
    yield from tables
    yield f'</section></main><script type="application/json" id=data>{json.dumps(data_of(studies), separators=(",", ":")).replace("</", "<" + chr(92) + "/")}</script>'
    yield f"<script>{(HERE / 'page.js').read_text()}</script></body></html>\n"


def write_page(path, study, tables, head, origin):
    """Writes the page of a study."""
    title = ", ".join(domain.name for domain in study.domain_list) or "a machine without domains"
    with open(path, "w", encoding="utf-8") as file:
        file.writelines(page_of([("", study)], (part for table in tables for part in table_of(table)), head, origin, title))


def compared_as_html(names, rows):
    """The figures that differ, as lines of text have them."""
    yield "<table><thead><tr>" + "".join(f"<th scope=col>{html.escape(text)}</th>" for text in ("table", "of", "figure", *names)) + "</tr></thead><tbody>"
    for table, of, figure, values, _ in rows:
        cells = [table, of, figure, *("" if value is None else f"{value:g}" if isinstance(value, float) else str(value) for value in values)]
        yield "<tr>" + "".join(f"<td{' class=n' if k > 2 else ''}>{html.escape(text)}</td>" for k, text in enumerate(cells)) + "</tr>"
    yield "</tbody></table>"


def write_compared(path, studies, rows, origin):
    """Writes the page of several machines, each a name and a study: their timelines under one another with one axis, and the figures that differ, times in nanoseconds."""
    names = [name for name, _ in studies]
    head = [f"{name}: {study.entries} entries, the last at {milliseconds(study.last)} ms" for name, study in studies]
    with open(path, "w", encoding="utf-8") as file:
        file.writelines(page_of(studies, compared_as_html(names, rows), [*head, "The figures below are in nanoseconds where they are times."], origin, " beside ".join(names)))
