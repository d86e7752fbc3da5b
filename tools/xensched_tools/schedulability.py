"""Task sets made by chance, whether RTDS keeps all their deadlines in a run, and what two tests of the literature say of them.

A task is a domain whose one vCPU always runs, under RTDS without extra time: its unit asks for its whole budget from the beginning of each period on, and
gets no more. So it is a strictly periodic task that begins at 0 and has to be done by the end of its period, and where a term of the table `terms`
is short, a deadline was missed. Periods and budgets are in microseconds.
"""
import dataclasses
import decimal
import fractions
import math
import random

from . import making
from .machine import Domain, Machine, Pool
from .words import Refused, time_of

GRAIN = 10                  # microseconds: the least period and budget of RTDS, and the step of all periods and budgets here
MOST_PERIOD = 10**9
MOST_HORIZON = 10**10
MOST_TRIES = 10_000
MOST_UTILISATIONS = 1000
NORMAL_95 = 1.959963984540054


@dataclasses.dataclass(frozen=True)
class Task:
    """A period, which is the deadline too, and what is to be run in each."""

    period: int
    budget: int

    @property
    def utilisation(self):
        return fractions.Fraction(self.budget, self.period)


# how sets are made

@dataclasses.dataclass(frozen=True)
class Between:
    """Periods between two, their logarithms spread evenly."""

    least: int
    most: int

    def drawn(self, draw):
        period = math.exp(math.log(self.least) + math.log(self.most / self.least) * draw.random())
        return min(max(round(period / GRAIN) * GRAIN, self.least), self.most)


@dataclasses.dataclass(frozen=True)
class OneOf:
    """Periods of a list, each as likely as another."""

    values: tuple

    @property
    def most(self):
        return max(self.values)

    def drawn(self, draw):
        return self.values[int(draw.random() * len(self.values))]


def period_of(text):
    """A period as it is written, in microseconds."""
    period, rest = divmod(time_of(text), 1000)
    if rest or period % GRAIN or not GRAIN <= period <= MOST_PERIOD:
        raise Refused(f"{text} is no period here: whole {GRAIN} us, from {GRAIN} us to {MOST_PERIOD // 10**6} s")
    return period


def periods_of(text):
    """The periods of `10ms:100ms`, or of `10ms,20ms,40ms`."""
    if ":" not in text:
        return OneOf(tuple(period_of(it) for it in text.split(",")))
    ends = [period_of(it) for it in text.split(":")]
    if len(ends) != 2 or ends[0] > ends[1]:
        raise Refused(f"{text!r} are no periods: LEAST:MOST, or P1,P2,..")
    return Between(*ends)


def number_of(text):
    """A decimal number above 0, as exactly as it is written."""
    try:
        value = decimal.Decimal(text)
    except decimal.InvalidOperation:
        value = decimal.Decimal(0)
    if not value.is_finite() or not 0 < value <= 64:
        raise Refused(f"{text!r} is no utilisation: a number above 0, at most 64")
    return value


def utilisations_of(text):
    """The utilisations of `1:4:0.5`, which has both ends, or of `1,1.5,2`."""
    if ":" not in text:
        return [number_of(it) for it in text.split(",")]
    parts = [number_of(it) for it in text.split(":")]
    if len(parts) != 3 or parts[0] > parts[1]:
        raise Refused(f"{text!r} are no utilisations: FROM:TO:STEP, or U1,U2,..")
    first, last, step = parts
    if (last - first) / step >= MOST_UTILISATIONS:
        raise Refused(f"{text!r} are too many utilisations: {MOST_UTILISATIONS} are the most")
    return [first + step * k for k in range(int((last - first) / step) + 1)]


def shown(utilisation):
    """A utilisation without zeros at its end, so that 1 and 1.0 are one."""
    return f"{utilisation.normalize():f}"


def parts_of(draw, count, total):
    """UUniFast: so many parts of the total, each way to part it as likely as another."""
    found, left = [], total
    for others in range(count - 1, 0, -1):
        rest = left * draw.random() ** (1 / others)
        found.append(left - rest)
        left = rest
    return [*found, left]


def shares_of(draw, count, total):
    """UUniFast-discard: the same, made anew until none is above 1."""
    for _ in range(MOST_TRIES):
        found = parts_of(draw, count, total)
        if max(found) <= 1:
            return found
    raise Refused(f"of {MOST_TRIES} ways to part a utilisation of {total:g} among {count} tasks none leaves each at 1 at most: take more tasks, or less utilisation")


def task_of(share, period):
    """The budget is rounded down, so that a set has at most what was asked for; but none is less than RTDS takes."""
    return Task(period, max(GRAIN, int(share * period) // GRAIN * GRAIN))


def set_of(seed, utilisation, number, count, periods):
    """A set, the same in each call: neither other sets nor other utilisations bear on it."""
    draw = random.Random(f"xensched {seed} {shown(utilisation)} {number}")
    return [task_of(share, periods.drawn(draw)) for share in shares_of(draw, count, float(utilisation))]


# what the literature says: global EDF, deadlines at the end of the periods, any phases

def goossens_funk_baruah(tasks, processors):
    """Goossens, Funk and Baruah (2003): the utilisations add up to at most m less m - 1 times the greatest."""
    utilisations = [task.utilisation for task in tasks]
    return sum(utilisations) <= processors - (processors - 1) * max(utilisations)


def work_within(task, span):
    """The most that a task runs within a span that ends with a deadline of its own, if it keeps all before: its whole periods, and what may be left of one."""
    jobs, rest = divmod(span, task.period)
    return jobs * task.budget + min(task.budget, rest)


def bertogna_cirinei_lipari(tasks, processors):
    """Bertogna, Cirinei and Lipari (2005): for each task, what the others can take of its slack, each at most all of it, is less than m times the slack."""
    for k, task in enumerate(tasks):
        slack = task.period - task.budget
        if sum(min(work_within(other, task.period), slack) for i, other in enumerate(tasks) if i != k) >= processors * slack:
            return False
    return True


TESTS = {"gfb": goossens_funk_baruah, "bcl": bertogna_cirinei_lipari}
NAMES = {"simulated": "the run", "gfb": "Goossens, Funk, Baruah", "bcl": "Bertogna, Cirinei, Lipari"}


# what a run says

@dataclasses.dataclass(frozen=True)
class Asked:
    """What each set has: seed, count of tasks, periods, processors, and up to how many of its longest periods it is run."""

    seed: int
    tasks: int
    periods: object
    processors: int
    rounds: int

    def set(self, utilisation, number):
        return set_of(self.seed, utilisation, number, self.tasks, self.periods)


def horizon_of(tasks, rounds):
    """Up to when a set is run, in microseconds, and whether all repeats from there on: the hyperperiod, if it is at most so many of the longest periods, else these."""
    most, whole = rounds * max(task.period for task in tasks), math.lcm(*(task.period for task in tasks))
    return (whole, True) if whole <= most else (most, False)


def machine_of(tasks, processors, horizon):
    """The machine of a set: a domain for each task."""
    domains = [Domain(f"t{k}", "rt", [[]], settings={"period_us": task.period, "budget_us": task.budget, "extratime": False}) for k, task in enumerate(tasks)]
    return Machine(processors, horizon * 1000, [Pool("rt", "rtds", list(range(processors)))], domains)


@dataclasses.dataclass
class Judged:
    """A set: its number, its utilisation, whether its run was a hyperperiod, how many terms were short in it, and which tests it passes."""

    number: int
    utilisation: float
    is_whole: bool
    short: int
    passed: dict

    @property
    def contradicts(self):
        """The tests that it passes though a term was short."""
        return [name for name, is_passed in self.passed.items() if is_passed and self.short]


def judged(asked, utilisation, number):
    """What came of a set."""
    tasks = asked.set(utilisation, number)
    horizon, is_whole = horizon_of(tasks, asked.rounds)
    study = making.run(machine_of(tasks, asked.processors, horizon))
    if not study.finished:
        raise Refused(f"the run of a set has more than {making.MOST_ENTRIES:,} entries: take fewer --rounds, or periods that are less far apart")
    short = sum(unit.tally[1].short for unit in study.units.values())
    return Judged(number, float(sum(task.utilisation for task in tasks)), is_whole, short, {name: test(tasks, asked.processors) for name, test in TESTS.items()})


# rows

@dataclasses.dataclass
class Row:
    """The sets of a utilisation: parts of one, but for the utilisations and the counts. `mean` is that of the sets' utilisations, `whole` how many were run for a hyperperiod."""

    utilisation: str
    mean: float
    sets: int
    whole: int
    simulated: float
    low: float
    high: float
    gfb: float
    bcl: float

    def cells(self):
        return [f"{value:.4f}" if isinstance(value, float) else str(value) for value in dataclasses.astuple(self)]


def wilson(good, count):
    """The interval of Wilson's score that holds the true part in 95 of 100 cases."""
    part, spread = good / count, NORMAL_95**2 / count
    middle, half = part + spread / 2, NORMAL_95 * math.sqrt(part * (1 - part) / count + spread / (4 * count))
    return max(0.0, (middle - half) / (1 + spread)), min(1.0, (middle + half) / (1 + spread))


def row_of(utilisation, sets):
    """The row of the sets of a utilisation."""
    count, good = len(sets), sum(not it.short for it in sets)
    passed = {name: sum(it.passed[name] for it in sets) / count for name in TESTS}
    return Row(shown(utilisation), sum(it.utilisation for it in sets) / count, count, sum(it.is_whole for it in sets), good / count, *wilson(good, count), **passed)


def heads():
    return [field.name for field in dataclasses.fields(Row)]
