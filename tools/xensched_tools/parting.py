"""Where two schedules of one machine part: the first entries that differ, and the first processor that does something else."""
import contextlib
import itertools
import sys

from .schedule import HELD, IDLE, Follower
from .words import Refused, milliseconds

EQUAL, PART = 0, 1
# How many entries of the moment at which they part are shown of each.
MOST_SHOWN = 6


class Steps(Follower):
    """A schedule that is followed moment by moment."""

    def __init__(self, machine, work, lines):
        super().__init__(machine, work)
        self.moments, self.at, self.entries_of = self._moments(lines), None, []
        self.step()

    def _moments(self, lines):
        number, line = 0, ""
        try:
            for told, group in itertools.groupby(enumerate(lines, 1), lambda it: it[1].split()[0]):
                found = []
                for number, line in group:
                    found.append(line.rstrip("\n"))
                yield int(told), number, found
        except UnicodeDecodeError:
            raise Refused(f"line {number + 1} or one behind it is no text: this is no schedule") from None
        except (IndexError, ValueError):
            raise Refused(f"line {number + 1} is no line of a schedule") from None

    def step(self):
        """Goes on to the next moment of the schedule, whose lines are read and not carried out yet; `at` is None where there is none."""
        self.at, number, self.entries_of = next(self.moments, (None, self.entries, []))
        self._first = number - len(self.entries_of) + 1

    def carry_out(self):
        """Does what the lines of the moment say."""
        if self.at is None:
            return
        number, line = self._first, ""
        try:
            self._go_to(self.at)
            for number, line in enumerate(self.entries_of, self._first):
                self.entries, parts = number, line.split()
                self._handlers[parts[1]](parts)
        except (IndexError, KeyError, ValueError):
            raise Refused(self._odd_line(number, line)) from None

    def doings(self):
        """What each processor does, as a name."""
        return [processor.doing if processor.doing in (IDLE, HELD, None) else processor.doing.name for processor in self.processor_list]


def says(run, doing):
    """What a processor does, in words."""
    if doing == IDLE:
        return "idles"
    if doing == HELD:
        return "is held, and waits for its siblings or a stall"
    return "has done nothing yet" if doing is None else f"runs {doing} of {run.vcpus[doing].domain.name}"


def span_of(at):
    """A moment in words."""
    return f"{milliseconds(at)} ms"


class Parting:
    """Two schedules side by side, up to where they part."""

    def __init__(self, machine, work, names, files):
        self.names, self.runs = names, [Steps(machine, work, lines) for lines in files]
        self.equal, self.differs, self.parted = 0, None, None
        for name, run in zip(names, self.runs):
            if run.at is None:
                raise Refused(f"{name}: the schedule is empty")
        while self.parted is None and any(run.at is not None for run in self.runs) and not self.cut():
            self._moment()

    def cut(self):
        """The names of the schedules that are over and have no line `finish`."""
        return [name for name, run in zip(self.names, self.runs) if run.at is None and not run.finished]

    def _moment(self):
        """The next moment of either schedule."""
        at = min(run.at for run in self.runs if run.at is not None)
        entries = [run.entries_of if run.at == at else [] for run in self.runs]
        before = self.runs[0].doings()
        if self.differs is None:
            self._compare(at, entries)
        for run in self.runs:
            if run.at == at:
                run.carry_out()
                run.step()
        doings = [run.doings() for run in self.runs]
        apart = [p for p, (one, other) in enumerate(zip(*doings)) if one != other]
        if apart and not self.cut():
            self.parted = at, apart, before, doings, entries

    def _compare(self, at, entries):
        """Counts the entries of the moment that are equal, and keeps the first that are not."""
        for one, other in itertools.zip_longest(*entries):
            if one != other:
                self.differs = self.equal + 1, at, [one, other]
                return
            self.equal += 1

    def ends(self, p):
        """Up to when each schedule goes on with what the processor does now; None where that is to its end."""
        return [self._end(run, p, doings[p]) for run, doings in zip(self.runs, self.parted[3])]

    def _end(self, run, p, doing):
        while run.at is not None:
            run.carry_out()
            if run.doings()[p] != doing:
                return run.at
            run.step()
        return None

    def lines(self):
        """All of it in words."""
        if self.differs is None:
            yield f"The schedules are equal: {self.equal} entries."
            return
        wide = max(map(len, self.names))
        number, at, entries = self.differs
        yield f"Equal at the beginning: {self.equal} {'entry' if self.equal == 1 else 'entries'}. Entry {number} is"
        yield from (f"  {name.ljust(wide)}  {entry or self._no_entry(k, at)}" for k, (name, entry) in enumerate(zip(self.names, entries)))
        if self.parted is None:
            yield f"Up to where {self.cut()[0]} is cut each processor does the same in both." if self.cut() else "Each processor does the same at each moment in both: only the entries differ."
            return
        yield from self._parts(wide)

    def _no_entry(self, k, at):
        return "ends before it" if self.names[k] in self.cut() else f"has none more at {span_of(at)}"

    def _parts(self, wide):
        at, apart, before, doings, entries = self.parted
        p = apart[0]
        yield f"They part at {span_of(at)} on p{p}. Up to then it {says(self.runs[0], before[p])} in both; from then on it"
        for name, run, here, end in zip(self.names, self.runs, doings, self.ends(p)):
            yield f"  {name.ljust(wide)}  {says(run, here[p])}, {'to the end' if end is None else f'up to {span_of(end)}'}"
        if apart[1:]:
            yield f"At this moment they part on {', '.join(f'p{other}' for other in apart[1:])} too."
        for name, mine, others in zip(self.names, entries, reversed(entries)):
            alone = [line for line in mine if line not in others]
            if alone:
                yield f"Of this moment {name} alone has"
                yield from (f"  {line}" for line in alone[:MOST_SHOWN])
                if alone[MOST_SHOWN:]:
                    yield f"  and {len(alone) - MOST_SHOWN} more"


def told(machine, work, paths):
    """What is to be said of two schedules of a machine, as lines, and the status."""
    with contextlib.ExitStack() as stack:
        files = [sys.stdin if path == "-" else stack.enter_context(open(path, encoding="ascii")) for path in paths]
        stems = [path.rpartition("/")[2] for path in paths]
        found = Parting(machine, work, stems if len(set(stems)) == 2 else [f"{path} ({k})" if len(set(paths)) == 1 else path for k, path in enumerate(paths, 1)], files)
        return list(found.lines()), EQUAL if found.differs is None else PART
