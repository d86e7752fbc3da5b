"""A frame of ARINC 653 that gives each unit its run in each of its periods, all of which begin at the frame's beginning: who has to be done first goes first."""
import dataclasses
import fractions
import math
import re

from .words import Refused, milliseconds, time_of

MOST_WINDOWS = 64
LONGEST = 10**13


@dataclasses.dataclass(frozen=True)
class Wish:
    """A unit that is to have so many nanoseconds in each period."""

    name: str
    domain: int
    unit: int
    run: int
    period: int


def wish_of(machine, pool, text):
    """That of `audio=2ms/10ms` or `audio/1=2ms/10ms`, which is unit 1 of audio."""
    found = re.fullmatch(r"([^=/]+)(?:/(\d+))?=([^/]+)/([^/]+)", text)
    if not found:
        raise Refused(f"{text!r} is not of the form DOMAIN=RUN/PERIOD, as audio=2ms/10ms")
    name, unit, run, period = found[1], int(found[2] or 0), time_of(found[3]), time_of(found[4])
    at = next((d for d, domain in enumerate(machine.domains) if domain.name == name and domain.pool == pool), None)
    if at is None or unit >= machine.units_of(machine.domains[at]):
        raise Refused(f"the pool {pool} has no unit {unit} of a domain {name!r}")
    if not 0 < run <= period:
        raise Refused(f"{text!r}: a run is above 0 and at most its period")
    return Wish(name if found[2] is None else f"{name}/{unit}", at, unit, run, period)


def frame_of(wishes):
    """The major span, and the windows as pairs of a wish and a span. What nobody asked for goes to the window before it, but for the rest at the end."""
    needed = sum(fractions.Fraction(wish.run, wish.period) for wish in wishes)
    if needed > 1:
        raise Refused(f"they ask for {float(100 * needed):.2f}% of the core: no frame has that")
    if len({(wish.domain, wish.unit) for wish in wishes}) < len(wishes):
        raise Refused("each unit is named once")
    major = math.lcm(*(wish.period for wish in wishes))
    if major > LONGEST:
        raise Refused(f"the periods repeat after {milliseconds(major)} ms, and the longest major span is {milliseconds(LONGEST)} ms: take periods that divide each other")
    return major, windows_of(wishes, major)


def windows_of(wishes, major):
    """The windows of one major span."""
    windows, left, now = [], dict.fromkeys(wishes, 0), 0
    while now < major:
        left.update({wish: wish.run for wish in wishes if now % wish.period == 0})
        until = min(now - now % wish.period + wish.period for wish in wishes)
        ready = [wish for wish in wishes if left[wish]]
        wish = min(ready, key=lambda it: now - now % it.period + it.period) if ready else windows[-1][0]
        span = min(left[wish], until - now) if ready else until - now
        left[wish] -= span if ready else 0
        now += span
        if windows and windows[-1][0] is wish and (ready or now < major):
            windows[-1][1] += span
        elif ready:
            windows.append([wish, span])
        if len(windows) > MOST_WINDOWS:
            raise Refused(f"it takes more than {MOST_WINDOWS} windows, which is the most: take periods that divide each other")
    return windows


def lines_of(pool, wishes):
    """What the domain file has for the pool, and what each unit has of it."""
    major, windows = frame_of(wishes)
    given = sum(span for _, span in windows)
    yield f"# the pool {pool}: {len(windows)} windows in {milliseconds(major)} ms, of which {milliseconds(major - given)} ms are nobody's"
    for wish in wishes:
        spans = [span for it, span in windows if it is wish]
        count = f"{len(spans)} {'window' if len(spans) == 1 else 'windows'}"
        yield f"# {wish.name} asks for {milliseconds(wish.run)} of each {milliseconds(wish.period)} ms, and has {milliseconds(sum(spans))} ms in {count}"
    yield f"major_ns = {major}"
    yield f"frame = {[[wish.domain, wish.unit, span] for wish, span in windows]}"
