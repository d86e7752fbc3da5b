"""Reads what xentrace(8) wrote on a host, its own file or what `xenalyze --dump-all` makes of it: the changes of what vCPUs do, and where records were lost.

The file (public/trace.h and tools/xentrace of Xen): windows, each a record 0x0001f003 without a moment whose two values are a processor and a count of
bytes, and then so many bytes of that processor's records. A record is a word (bits 0-27 the event, 28-30 the count of values, 31 whether a moment follows),
two words with the moment in cycles, the low one first, and the values. Words are little-endian.
"""
import collections
import dataclasses
import re
import struct

from .words import Refused

RUNNING, RUNNABLE, BLOCKED, OFFLINE = range(4)
STATES = ["running", "runnable", "blocked", "offline"]
IDLE = 0x7FFF               # the domain of Xen's idle vCPUs, one for each processor

LOST, WINDOW = 0x0001F001, 0x0001F003
RUNSTATE, CONTINUES = 0x00021001, 0x00021002
WINDOW_HEAD = WINDOW | 2 << 28

# A vCPU goes from one state to another at this moment, as a processor wrote it; `order` parts the records of one moment.
Change = collections.namedtuple("Change", "at order processor domain vcpu old new")


@dataclasses.dataclass
class Trace:
    """The changes in the order of their moments, in nanoseconds from the first record; spans of which records were lost; what is to be told."""

    changes: list
    end: int
    gaps: list = dataclasses.field(default_factory=list)
    lost: int = 0
    told: list = dataclasses.field(default_factory=list)


def read_trace(path, hz=None):
    """The trace of a file, whichever of the two it is; its own file counts cycles, and `hz` says how many a second has."""
    with open(path, "rb") as file:
        head = file.read(4)
        if head == struct.pack("<I", WINDOW_HEAD):
            if hz is None:
                raise Refused(f"{path} counts cycles: give --hz, as `xl info` has it (cpu_mhz), as 2400.012M")
            return read_records(head + file.read(), hz, path)
    return read_dump(path)


# the file of xentrace

def windows(data, path):
    """The round, the processor, the begin and the end of each window. xentrace looks at one processor after the other, round after round.

    Where the file is cut, the last round is not whole: its windows have None for a round.
    """
    place, found, last = 0, [], -1
    while len(data) - place >= 12:
        head, processor, size = struct.unpack_from("<III", data, place)
        if head != WINDOW_HEAD:
            raise Refused(f"{path}: at byte {place} a window of records is to begin, and the word {head:#010x} begins none")
        place += 12
        found.append((found[-1][0] + (processor <= last) if found else 0, processor, place, min(len(data), place + size)))
        place, last = place + size, processor
    if place != len(data) and found:
        # the head of the next window, of which too little is left, may have begun another round
        cut = found[-1][0] if place > len(data) else None
        found = [(None if number == cut else number, *rest) for number, *rest in found]
    return found


def records(data, found, path):
    """The round, the processor, the moment in cycles (None where it has none), the event and the place of the values of each record, one window after the other."""
    word = struct.Struct("<I").unpack_from
    cycles = struct.Struct("<Q").unpack_from
    for number, processor, place, end in found:
        while place < end:
            size = 4
            if place + 4 <= end:
                head, = word(data, place)
                size = 4 + (8 if head >> 31 else 0) + 4 * (head >> 28 & 7)
            if place + size > end:
                if number is not None:
                    raise Refused(f"{path}: the record at byte {place} goes beyond its window")
                break
            timed = head >> 31
            yield number, processor, cycles(data, place + 4)[0] if timed else None, head & 0x0FFFFFFF, place + 4 + 8 * timed
            place += size


def read_records(data, hz, path):
    """The trace of xentrace's own file."""
    trace, found = Trace([], 0), []
    word = struct.Struct("<I").unpack_from
    first = last = cut = None
    for number, processor, cycles, event, place in records(data, windows(data, path), path):
        if cycles is None:
            continue
        first, last = cycles if first is None else min(first, cycles), cycles if last is None else max(last, cycles)
        if number is None:
            cut = cycles if cut is None else min(cut, cycles)
        if event == LOST:
            count, _, low, high = struct.unpack_from("<4I", data, place)
            trace.lost += count
            trace.gaps.append((low | high << 32, cycles))
        elif event & ~0x330 == RUNSTATE:
            who, = word(data, place)
            found.append((cycles, processor, who >> 16, who & 0xFFFF, event >> 8 & 3, event >> 4 & 3))
        elif event == CONTINUES:
            who, = word(data, place)
            found.append((cycles, processor, who >> 16, who & 0xFFFF, RUNNING, RUNNING))
    if not found:
        raise Refused(f"{path} has no change of a vCPU's state: was it made with `xentrace -e 0x21000` or more (TRC_SCHED_MIN)?")
    found.sort(key=lambda it: it[0])        # what is of one cycle keeps its order
    if cut is not None:
        trace.told.append(f"{path} was cut: what other processors did in its last round is not known")
        trace.gaps.append((cut, last + 1))

    def moment(cycles):
        return int((cycles - first) * 1_000_000_000 // hz)

    trace.changes = [Change(moment(it[0]), order, *it[1:]) for order, it in enumerate(found)]
    trace.gaps = joined((max(0, moment(begin)), moment(end)) for begin, end in trace.gaps)
    trace.end = moment(last)
    return trace


def joined(spans):
    """The spans in order, those that meet as one."""
    whole = []
    for begin, end in sorted(spans):
        if whole and begin <= whole[-1][1]:
            whole[-1] = whole[-1][0], max(end, whole[-1][1])
        else:
            whole.append((begin, end))
    return whole


# what xenalyze prints

# The moment is left out at 0. A sign for each processor follows, `x` for the one whose record it is; others may be blanks.
HEAD = r"^ (?: *(\d+)\.(\d{9})| {14}) ([^x]*x[^x]*?) d(?:\d+v\d+|\?v\?) "
CHANGE = re.compile(HEAD + r"runstate_(change|continue) (?:\{[-\d]+,[-\d]+\} )?d(\d+)v(\d+) (\w+)->(\w+)$")
LOST_LINE = re.compile(HEAD + r"lost_records count (\d+) ")


def moment_of(found):
    """The nanoseconds of a line's head."""
    return int(found[1]) * 1_000_000_000 + int(found[2]) if found[1] else 0


def read_dump(path):
    """The trace of what `xenalyze --dump-all` prints."""
    trace, begun, deaf = Trace([], 0), None, 0
    with open(path, encoding="utf-8", errors="replace") as lines:
        for number, line in enumerate(lines, 1):
            if "runstate_c" in line and line.startswith(" "):       # what xenalyze has to remark begins at once
                found = CHANGE.match(line.rstrip("\r\n"))
                if not found or found[7] not in STATES or found[8] not in STATES:
                    raise Refused(f"{path}: line {number} is no change of a state as xenalyze prints it: {line.strip()[:80]!r}")
                at = moment_of(found)
                if begun is not None and not deaf:
                    trace.gaps.append((begun, at))
                    begun = None
                trace.changes.append(Change(at, len(trace.changes), found[3].index("x"), int(found[5]), int(found[6]), STATES.index(found[7]), STATES.index(found[8])))
                trace.end = max(trace.end, at)
            elif "lost_records count" in line and (found := LOST_LINE.match(line)):
                # from the last record on, since xenalyze tells the loss before its moment
                trace.lost += int(found[4])
                begun = min(trace.end, moment_of(found)) if begun is None else begun
                deaf += 1
            elif "lost_records end ---" in line:
                deaf -= 1
    if begun is not None:
        trace.gaps.append((begun, trace.end))
    if not trace.changes:
        raise Refused(f"{path} is no trace: neither xentrace's own file nor what `xenalyze --dump-all` prints, which has lines with runstate_change")
    trace.changes.sort()
    trace.gaps = joined(trace.gaps)
    return trace
