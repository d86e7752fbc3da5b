"""The rows of the tables: which machines, which changes of Xen's code, and what is expected of each."""
import dataclasses
import random

import machines as made

ALL = ("credit2_runqueue=all", "sched_credit2_max_cpus_runqueue=64")    # one run queue for a pool, whatever its size
BY_RANK = ("by-rank",)
NO_RESISTANCE = ("sched_credit2_migrate_resist=0",)

RTDS = ("rtds-look", "rtds-replenish", "rtds-tie", "rtds-arrival", "rtds-due", "rtds-joins", "rtds-term", "rtds-wake",
        "rtds-remove")
CREDIT2 = ("credit2-look", "credit2-rate", "credit2-most", "credit2-wait", "credit2-other", "credit2-floor", "credit2-reset", "credit2-arrival",
           "credit2-compensation", "credit2-capcut", "credit2-budget", "credit2-refill", "credit2-setcap", "credit2-residual", "credit2-timer", "credit2-leaving")
ONE_CORE = ("credit2-rate", "credit2-wait", "credit2-tolerance", "credit2-floor", "credit2-head")
ARINC = ("arinc-pools", "arinc-set", "arinc-grid", "arinc-look")
NULL = ("null-keep",)
CORE = ("core-sibling", "core-pin", "core-leave", "core-gather", "core-first", "core-begin", "core-wake")
CHECKED = ("core-once", "rtds-each")      # what only the checker sees, since no stay depends on it
EVERY = RTDS + CREDIT2 + ARINC + NULL + CORE

# What Xen as it is has in common with xensched, on every machine of a row; and where Xen's own code stops on some.
EQUAL, BY_VCPU, DIFFERS, STOPS = "equal", "by vCPU", "differs", "stops"


@dataclasses.dataclass(frozen=True)
class Row:
    """Machines of one kind. With the changes and the options behind them Xen is to be equal on each."""
    name: str
    make: object
    lines: tuple = ()
    as_it_is: str = DIFFERS
    changes: tuple = ()
    options: tuple = BY_RANK
    own: tuple = ()             # options of both runs
    with_changes: str = EQUAL   # what Xen with the changes has in common with xensched; where it differs, the page says what is left

    def machine(self, seed):
        """The domain file and the work file of a seed."""
        source = random.Random(seed)
        machine = self.make(source)
        text = made.toml(machine)
        lines = [line for what in self.lines for line in made.Work(source, machine).lines(what).splitlines(True)]
        return text, "".join(sorted(lines, key=lambda line: int(line.split()[0])))


def arinc(name, make=made.arinc, lines=(), as_it_is=DIFFERS):
    return Row("ARINC 653, " + name, make, lines, as_it_is, ARINC + CORE)


def null(name, make=made.null, lines=(), as_it_is=DIFFERS, own=()):
    return Row("null, " + name, make, lines, as_it_is, NULL + CORE, own=own)


def rtds(name, make, lines=(), as_it_is=DIFFERS):
    return Row("RTDS, " + name, make, lines, as_it_is, RTDS + CORE)


def credit2(name, make, lines=()):
    return Row("Credit2, " + name, make, lines, DIFFERS, CREDIT2 + CORE, BY_RANK + NO_RESISTANCE)


def several(name, make, lines=(), as_it_is=DIFFERS):
    return Row("pools, " + name, make, lines, as_it_is, EVERY, BY_RANK + NO_RESISTANCE)


def unsettled(row):
    return dataclasses.replace(row, with_changes=DIFFERS)


def two_credit2(random):
    return made.pools(made.credit2(random, 2, True), made.credit2(random, 2))


def two_rtds(random):
    return made.pools(made.rtds(random, 2), made.rtds(random, 2, None))


def credit2_and_rtds(random):
    return made.pools(made.credit2(random, 2), made.rtds(random, 2))


def two_null(random):
    return made.pools(made.null(random, 2), made.null(random, 2))


OWN_ORDER = Row("Credit2, 1 core, five changes, Xen's own order", made.credit2, (), DIFFERS, ONE_CORE, ())

EQUALITY = [
    arinc("1 core", as_it_is=EQUAL),
    arinc("1 core of two", lambda r: made.of_two(r, made.arinc(r)), as_it_is=EQUAL),
    arinc("pause", lines=("pause",), as_it_is=EQUAL),
    arinc("stalls", lines=("stall",)),
    arinc("frames set", lines=("frame",)),
    arinc("two pools", lambda r: made.pools(made.arinc(r), made.arinc(r))),
    null("vCPUs started one after the other", as_it_is=EQUAL, own=("apart",)),
    null("all started in one moment"),
    null("cores of two, one after the other", lambda r: made.of_two(r, made.null(r)), as_it_is=EQUAL, own=("apart",)),
    null("cores of two", lambda r: made.of_two(r, made.null(r))),
    null("pinned units", lambda r: made.pinned(r, made.null(r, 4))),
    null("pause and stalls", lambda r: made.null(r, 4), ("pause", "stall")),
    null("pins set", lambda r: made.null(r, 4), ("pin",)),
    rtds("1 core, no extra time", made.rtds, as_it_is=EQUAL),
    rtds("4 cores, no extra time", lambda r: made.rtds(r, 4), as_it_is=BY_VCPU),
    rtds("1 core of two", lambda r: made.of_two(r, made.rtds(r)), as_it_is=EQUAL),
    rtds("4 cores of two", lambda r: made.of_two(r, made.rtds(r, 4))),
    rtds("1 core, some extra time", lambda r: made.rtds(r, 1, None)),
    rtds("4 cores, some extra time", lambda r: made.rtds(r, 4, None)),
    rtds("1 core, deadlines that meet", lambda r: made.rtds(r, 1, False, True)),
    rtds("4 cores, deadlines that meet, some extra time", lambda r: made.rtds(r, 4, None, True)),
    rtds("4 cores, pinned units", lambda r: made.pinned(r, made.rtds(r, 4))),
    rtds("1 core, stalls", made.rtds, ("stall",)),
    rtds("1 core, pause", made.rtds, ("pause",), EQUAL),
    rtds("4 cores, pause", lambda r: made.rtds(r, 4), ("pause",), BY_VCPU),
    rtds("4 cores, stalls", lambda r: made.rtds(r, 4), ("stall",)),
    rtds("2 cores of two, stalls", lambda r: made.of_two(r, made.rtds(r, 2)), ("stall",)),
    rtds("4 cores, budgets and periods set", lambda r: made.rtds(r, 4), ("budget", "period")),
    rtds("4 cores, extra time set", lambda r: made.rtds(r, 4), ("extra",)),
    rtds("4 cores, pins set", lambda r: made.rtds(r, 4), ("pin",)),
    rtds("2 cores of two, pause, pins and parameters set", lambda r: made.of_two(r, made.rtds(r, 2)), ("pause", "pin", "budget", "extra")),
    OWN_ORDER,
    credit2("1 core", made.credit2),
    credit2("2 cores", lambda r: made.credit2(r, 2)),
    credit2("4 cores", lambda r: made.credit2(r, 4)),
    credit2("8 cores", lambda r: made.credit2(r, 8)),
    credit2("4 cores, guests that always run", lambda r: made.credit2(r, 4, busy=1.0)),
    credit2("1 core of two", lambda r: made.of_two(r, made.credit2(r))),
    credit2("2 cores of two", lambda r: made.of_two(r, made.credit2(r, 2))),
    credit2("1 core, caps", lambda r: made.credit2(r, 1, True)),
    credit2("4 cores, caps", lambda r: made.credit2(r, 4, True)),
    credit2("4 cores, rate limits", lambda r: made.credit2(r, 4, limits=True)),
    credit2("4 cores, pinned units", lambda r: made.pinned(r, made.credit2(r, 4))),
    credit2("1 core, stalls", made.credit2, ("stall",)),
    credit2("4 cores, stalls, caps", lambda r: made.credit2(r, 4, True), ("stall",)),
    credit2("4 cores, pause", lambda r: made.credit2(r, 4), ("pause",)),
    credit2("4 cores, weights set", lambda r: made.credit2(r, 4, True), ("weight",)),
    credit2("4 cores, caps set", lambda r: made.credit2(r, 4, True), ("cap",)),
    credit2("4 cores, rate limits set", lambda r: made.credit2(r, 4), ("limit",)),
    credit2("4 cores, pins set", lambda r: made.credit2(r, 4, True), ("pin",)),
    credit2("2 cores of two, caps, all of these set", lambda r: made.of_two(r, made.credit2(r, 2, True)), ("pause", "weight", "cap", "limit", "pin")),
    several("one of each scheduler", made.all_schedulers),
    several("one of each scheduler, stalls, pause and parameters set", made.all_schedulers, ("stall", "pause", "weight", "cap", "budget", "extra", "frame")),
    several("two of Credit2, cores moved", two_credit2, ("core",), STOPS),
    several("two of RTDS, cores moved", two_rtds, ("core",), STOPS),
    several("Credit2 and RTDS, cores moved", credit2_and_rtds, ("core",), STOPS),
    several("two of Credit2, domains moved", two_credit2, ("migrate",)),
    several("Credit2 and RTDS, domains moved", credit2_and_rtds, ("migrate",)),
    several("two of null, cores and domains moved", two_null, ("core", "migrate")),
    arinc("1 core of two, stalls", lambda r: made.of_two(r, made.arinc(r)), ("stall",)),
    credit2("2 cores of two, stalls", lambda r: made.of_two(r, made.credit2(r, 2)), ("stall",)),
    several("Credit2 and RTDS, a third made and destroyed", credit2_and_rtds, ("life",), STOPS),
    arinc("1 core of four, stalls", lambda r: made.of_four(r, made.arinc(r)), ("stall",)),
    null("cores of four, pause", lambda r: made.of_four(r, made.null(r, 3)), ("pause",)),
    rtds("2 cores of four, stalls, pins set", lambda r: made.of_four(r, made.rtds(r, 2)), ("stall", "pin")),
    credit2("2 cores of four, caps, stalls, pause", lambda r: made.of_four(r, made.credit2(r, 2, True)), ("stall", "pause")),
    dataclasses.replace(OWN_ORDER, name="Credit2, 1 core, odd weights, five changes, Xen's own order", make=lambda r: made.odd(r, made.credit2(r))),
    credit2("1 core, odd weights", lambda r: made.odd(r, made.credit2(r))),
    credit2("4 cores, odd weights", lambda r: made.odd(r, made.credit2(r, 4))),
    credit2("4 cores, odd weights, caps", lambda r: made.odd(r, made.credit2(r, 4, True))),
    credit2("4 cores, odd weights set", lambda r: made.odd(r, made.credit2(r, 4, True)), ("odd_weight",)),
    credit2("4 cores, caps of 1 to 9", lambda r: made.small_caps(r, made.credit2(r, 4, True, milliseconds=500))),
    credit2("4 cores, one to eight vCPUs a domain, caps", lambda r: made.many(r, made.credit2(r, 4, True, milliseconds=500))),
    credit2("1 core, 20 s", lambda r: made.credit2(r, milliseconds=20000)),
    credit2("16 cores, full", lambda r: made.host(r, 16, 2, milliseconds=200)),
    credit2("32 cores, full, pinned units", lambda r: made.pinned(r, made.host(r, 32, 2, milliseconds=100))),
    credit2("62 cores, full, caps", lambda r: made.host(r, 62, 2, True, milliseconds=20)),
    rtds("1 core, periods of 0.1 to 2 ms, no extra time", lambda r: made.short_terms(r, 1, False)),
    rtds("4 cores, periods of 0.1 to 2 ms, some extra time", lambda r: made.short_terms(r, 4, None)),
    rtds("4 cores, one to eight vCPUs a domain, parameters of one vCPU set", lambda r: made.many(r, made.lasting(made.rtds(r, 4, None), 500)), ("one",)),
    rtds("16 cores, no extra time", lambda r: made.lasting(made.rtds(r, 16), 300), as_it_is=BY_VCPU),
    null("32 cores", lambda r: made.lasting(made.null(r, 32), 300)),
]

# For each change of Xen's code, and for each option that stands for one, the row on which it is tried without it.
WITNESSES = {
    "rtds-look": "RTDS, 4 cores, pinned units", "rtds-replenish": "RTDS, 1 core, some extra time",
    "rtds-tie": "RTDS, 1 core, deadlines that meet", "rtds-arrival": "RTDS, 4 cores, deadlines that meet, some extra time",
    "rtds-due": "RTDS, 4 cores, budgets and periods set", "rtds-term": "RTDS, 4 cores, extra time set",
    "credit2-look": "Credit2, 4 cores", "credit2-rate": "Credit2, 4 cores", "credit2-most": "Credit2, 4 cores, rate limits",
    "credit2-wait": "Credit2, 4 cores", "credit2-other": "Credit2, 4 cores, pinned units", "credit2-floor": "Credit2, 4 cores",
    "credit2-reset": "Credit2, 4 cores, pinned units", "credit2-arrival": "Credit2, 4 cores, caps",
    "credit2-compensation": "Credit2, 4 cores", "sched_credit2_migrate_resist=0": "Credit2, 4 cores", "by-rank": "Credit2, 4 cores",
    "credit2-capcut": "Credit2, 4 cores, caps", "credit2-budget": "Credit2, 4 cores, caps", "credit2-refill": "Credit2, 4 cores, caps",
    "credit2-setcap": "Credit2, 4 cores, caps set", "credit2-residual": "Credit2, 4 cores, odd weights set",
    "credit2-timer": "Credit2, 4 cores, stalls, caps", "credit2-tolerance": "Credit2, 1 core, five changes, Xen's own order",
    "credit2-head": "Credit2, 1 core, five changes, Xen's own order", "core-sibling": "Credit2, 2 cores of two", "core-pin": "Credit2, 4 cores, pins set",
    "arinc-pools": "ARINC 653, two pools", "arinc-set": "ARINC 653, frames set", "arinc-grid": "ARINC 653, stalls",
    "null-keep": "null, all started in one moment", "rtds-joins": "pools, Credit2 and RTDS, domains moved",
    "rtds-wake": "RTDS, 4 cores, stalls", "rtds-remove": "pools, two of RTDS, cores moved", "credit2-leaving": "pools, two of Credit2, cores moved",
    "core-leave": "pools, two of Credit2, cores moved", "arinc-look": "ARINC 653, 1 core of two, stalls",
    "core-gather": "Credit2, 2 cores of two, stalls", "core-first": "ARINC 653, 1 core of two, stalls",
    "core-begin": "Credit2, 2 cores of two, stalls", "core-wake": "ARINC 653, 1 core of four, stalls",
}
