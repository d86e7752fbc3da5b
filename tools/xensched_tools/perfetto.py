"""Writes a timeline as a trace that Perfetto opens, in the trace-event format: tracks of processors, units and vCPUs, flows from wake to run, counters. Times in the file are microseconds."""
import json

from .schedule import HELD, IDLE, PAUSED

PROCESSORS, UNITS, HAPPENS, VCPUS, COUNTERS = range(1, 6)


def head_of(track, name, threads):
    """The names of a group of tracks, and of each track."""
    yield {"ph": "M", "name": "process_name", "pid": track, "args": {"name": name}}
    for tid, text in threads.items():
        yield {"ph": "M", "name": "thread_name", "pid": track, "tid": tid, "args": {"name": text}}


def slice_of(track, tid, name, kind, begin, end, **args):
    """A bar on a track."""
    return {"ph": "X", "cat": kind, "name": name, "pid": track, "tid": tid, "ts": begin / 1000, "dur": (end - begin) / 1000, "args": args}


def processor_slices(view):
    """What each processor does."""
    for leg in view.legs:
        if leg.doing is HELD:
            yield slice_of(PROCESSORS, leg.processor, "waits for a sibling", "held", leg.begin, leg.end)
        elif leg.doing is not IDLE:
            yield slice_of(PROCESSORS, leg.processor, f"{leg.doing.domain.name} {leg.doing.name}", "run", leg.begin, leg.end, due=leg.due, late=leg.late)


def states_of(view):
    """For each vCPU what it does one after the other: begin, end, its words, and the processor where it runs. What is between its runs and waits it sleeps."""
    found = {vcpu: [] for vcpu in view.timeline.vcpus.values()}
    for leg in view.legs:
        if not isinstance(leg.doing, str):
            found[leg.doing].append((leg.begin, leg.end, "runs", leg.processor))
    for it in view.waits:
        found[it.vcpu].append((it.begin, it.end, "is paused" if it.state == PAUSED else "waits", None))
    return {vcpu: list(with_sleeps(sorted(spans, key=lambda span: span[:2]), view.begin, view.end)) for vcpu, spans in found.items()}


def with_sleeps(spans, now, end):
    """The same with sleeps in the gaps."""
    for span in [*spans, (end, end, "", None)]:
        if span[0] > now:
            yield now, span[0], "sleeps", None
        if span[2]:
            yield span
        now = max(now, span[1])


def vcpu_slices(states, numbers):
    """What each vCPU does."""
    for vcpu, spans in states.items():
        for begin, end, words, processor in spans:
            yield slice_of(VCPUS, numbers[vcpu], words if processor is None else f"runs on p{processor}", "state", begin, end)


def flows_of(states, numbers):
    """From each wake to where the vCPU runs first."""
    number = 0
    for vcpu, spans in states.items():
        woke = None
        for begin, end, words, processor in spans:
            if words == "sleeps":
                woke = end
            elif words == "runs" and woke is not None:
                number += 1
                flow = {"cat": "wake", "name": "wake to run", "id": number}
                yield {"ph": "s", **flow, "pid": VCPUS, "tid": numbers[vcpu], "ts": woke / 1000}
                yield {"ph": "f", "bp": "e", **flow, "pid": PROCESSORS, "tid": processor, "ts": begin / 1000}
                woke = None


def counter(name, at, span):
    """The value of a counter from this moment on, in milliseconds."""
    return {"ph": "C", "name": name, "pid": COUNTERS, "ts": at / 1000, "args": {"ms": span / 1_000_000}}


def counters_of(view):
    """Budget and deadline of each RTDS unit, and the budget of each cap, from when the schedule says them."""
    for it in view.timeline.periods:
        if view.begin <= it.at <= view.end:
            name = f"{it.unit.domain.name} {it.unit.name}"
            yield counter(f"{name} budget", it.at, it.budget)
            yield counter(f"{name} deadline", it.at, it.deadline)
    for it in view.timeline.refills:
        if view.begin <= it.at <= view.end:
            yield counter(f"{it.domain.name} cap budget", it.at, it.budget)


def events_of(view):
    """All events of the trace."""
    timeline, states = view.timeline, states_of(view)
    units, vcpus = ({it: k for k, it in enumerate(those.values())} for those in (timeline.units, timeline.vcpus))
    yield from head_of(PROCESSORS, "processors", {p: f"p{p}" for p in range(timeline.machine.processors)})
    yield from head_of(UNITS, "units", {k: f"{unit.domain.name} {unit.name}" for unit, k in units.items()})
    yield from head_of(HAPPENS, "what happens", {0: "stalls, commands, moves"})
    yield from head_of(VCPUS, "vCPUs", {k: f"{vcpu.domain.name} {vcpu.name}" for vcpu, k in vcpus.items()})
    yield from head_of(COUNTERS, "budgets and deadlines", {})
    yield from processor_slices(view)
    for stay in view.stays:
        yield slice_of(UNITS, units[stay.unit], f"core {stay.core}", "stay", stay.begin, stay.end)
    yield from vcpu_slices(states, vcpus)
    yield from flows_of(states, vcpus)
    yield from counters_of(view)
    for mark in view.marks:
        yield {"ph": "i", "name": mark.text, "cat": mark.kind, "pid": HAPPENS, "tid": 0, "ts": mark.at / 1000, "s": "g"}


def as_trace(view, columns, rows):
    """The trace in pieces of text, so that a long one is not held whole."""
    yield '{"displayTimeUnit": "ns", "traceEvents": ['
    before = None
    for event in events_of(view):
        if before is not None:
            yield before + ","
        before = json.dumps(event)
    yield (before or "") + "]}"
