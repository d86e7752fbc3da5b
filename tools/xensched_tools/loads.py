"""Loads like those of real guests, as scripts: distributions of runs and sleeps, lists of pairs, and what a script of 32 pairs keeps of either.

The draws are those of Python's random.Random, whose `random()` gives the same numbers for the same seed in each version of Python. Nothing else of it
is used. Each vCPU has a generator of its own, whose seed is a text of the seed, the domain and the vCPU, so that a load of one changes no other.
"""
import dataclasses
import math
import pathlib
import random
import statistics

from .machine import read_work
from .words import Refused, milliseconds, time_of

MOST_PAIRS = 32
MOST_COMMANDS = 4096
LONGEST = 10**13
NORMAL = statistics.NormalDist()
LEAST_PART = 2.0**-60       # a draw may be 0, where the normal distribution has no value


@dataclasses.dataclass(frozen=True)
class Always:
    """Always the same span."""

    mean: float

    def quantile(self, part):
        return self.mean


@dataclasses.dataclass(frozen=True)
class Exponential:
    """As long as what comes at any moment with the same chance."""

    mean: float

    def quantile(self, part):
        return -self.mean * math.log1p(-part)


@dataclasses.dataclass(frozen=True)
class Uniform:
    """Each span between two is as likely as another."""

    least: float
    most: float

    @property
    def mean(self):
        return (self.least + self.most) / 2

    def quantile(self, part):
        return self.least + (self.most - self.least) * part


@dataclasses.dataclass(frozen=True)
class Lognormal:
    """Spans whose logarithms have a normal distribution with this standard deviation: many short ones, few that are very long."""

    mean: float
    sigma: float

    def quantile(self, part):
        return math.exp(math.log(self.mean) - self.sigma**2 / 2 + self.sigma * NORMAL.inv_cdf(max(part, LEAST_PART)))


@dataclasses.dataclass(frozen=True)
class Bimodal:
    """One span, or for this part of all another one."""

    one: float
    other: float
    part: float

    @property
    def mean(self):
        return self.one * (1 - self.part) + self.other * self.part

    def quantile(self, part):
        return self.one if part < 1 - self.part else self.other


@dataclasses.dataclass
class Load:
    """What a vCPU does: runs and sleeps by their distributions, or pairs that were measured."""

    text: str
    run: object = None
    sleep: object = None
    pairs: list | None = None

    def script(self, draw):
        """The script, by this generator."""
        if self.pairs is not None:
            return flat(of_pairs(self.pairs))
        if isinstance(self.run, Always) and isinstance(self.sleep, Always):
            return [round(self.run.mean), round(self.sleep.mean)]
        return flat(list(zip(*(drawn(spans, draw) for spans in (self.run, self.sleep)))))

    def mean_run(self):
        return sum(run for run, _ in self.pairs) / len(self.pairs) if self.pairs else self.run.mean

    def ninety_nine(self):
        """The span that 99 in 100 runs do not exceed."""
        return by_rank([run for run, _ in self.pairs]) if self.pairs else self.run.quantile(0.99)


def flat(pairs):
    """Run, sleep, run, sleep."""
    script = [span for pair in pairs for span in pair]
    if max(script) > LONGEST:
        raise Refused(f"a span of {milliseconds(max(script))} ms is too long: the longest that a script may have is {milliseconds(LONGEST)} ms")
    return script


def by_rank(spans, part=0.99):
    """The least of the spans that this part of all does not exceed."""
    spans = sorted(spans)
    return spans[max(0, math.ceil(round(part * len(spans), 9)) - 1)]


def in_proportion(spans, total):
    """Whole numbers in proportion to the spans, none below 1, that add up to the total; what rounding leaves goes to the greatest."""
    factor = total / sum(spans)
    made = [max(1, int(span * factor)) for span in spans]
    greatest = made.index(max(made))
    made[greatest] = max(1, made[greatest] + total - sum(made))
    return made


def drawn(spans, draw):
    """32 spans of the distribution in some order: one of each 32nd part of it, in proportion, so that their mean is that of the distribution."""
    values = [spans.quantile((part + draw.random()) / MOST_PAIRS) for part in range(MOST_PAIRS)]
    order = sorted((draw.random(), part) for part in range(MOST_PAIRS))
    return in_proportion([values[part] for _, part in order], round(MOST_PAIRS * spans.mean))


def spread_ranks():
    """The numbers 0 to 31, each far from its neighbours: their five binary digits in reverse."""
    return [int(f"{place:05b}"[::-1], 2) for place in range(MOST_PAIRS)]


def of_pairs(pairs):
    """At most 32 pairs that stand for these: all of them where there are no more.

    Else they are parted by time into 32 parts of the same count, and each part gives one pair. From part to part it is one of another rank by its run,
    so that the 32 have short and long runs as all have. Runs and sleeps are in proportion, so that their means are those of all.
    """
    if len(pairs) <= MOST_PAIRS:
        return pairs
    chosen = []
    for place, rank in enumerate(spread_ranks()):
        part = sorted(pairs[len(pairs) * place // MOST_PAIRS : len(pairs) * (place + 1) // MOST_PAIRS])
        chosen.append(part[(2 * rank + 1) * len(part) // (2 * MOST_PAIRS)])
    totals = [round(MOST_PAIRS * sum(pair[it] for pair in pairs) / len(pairs)) for it in (0, 1)]
    return list(zip(*(in_proportion([pair[it] for pair in chosen], totals[it]) for it in (0, 1))))


def change_told(script, mean, ninety_nine, of_what):
    """What a script keeps of the runs that it stands for."""
    runs = script[::2]
    now = by_rank(runs)
    change = (now - ninety_nine) / ninety_nine
    moved = "as" if abs(change) < 0.0005 else f"{abs(change):.1%} {'more' if change > 0 else 'less'} than"
    return (f"{len(runs)} {'pair' if len(runs) == 1 else 'pairs'}, mean run {milliseconds(sum(runs) / len(runs))} ms ({milliseconds(mean)} {of_what}); "
            f"99% of the runs are at most {milliseconds(now)} ms, {moved} {of_what} ({milliseconds(ninety_nine)})")


# what the words say

KINDS = {"exponential": (Exponential, "exponential:MEAN"), "uniform": (Uniform, "uniform:LEAST:MOST"), "lognormal": (Lognormal, "lognormal:MEAN:SIGMA"),
         "bimodal": (Bimodal, "bimodal:ONE:OTHER:PERCENT, PERCENT of them the other")}


def span_of(text, where):
    """A span that a script may have."""
    span = time_of(text)
    if not 1 <= span <= LONGEST:
        raise Refused(f"{where}: {text} is no span of a script: 1 ns to {milliseconds(LONGEST)} ms")
    return span


def number_of(text, least, most, what):
    """A number with decimals within bounds."""
    try:
        value = float(text)
    except ValueError:
        value = math.nan
    if not least < value < most:
        raise Refused(f"{text!r} is no {what}: a number above {least} and below {most}")
    return value


def distribution_of(text, where):
    """`3ms`, or a kind with its values."""
    kind, *values = text.split(":")
    if not values:
        return Always(span_of(text, where))
    if kind not in KINDS:
        raise Refused(f"{where}: {kind!r} is no kind of load: a time, or {', '.join(form for _, form in KINDS.values())}")
    make, form = KINDS[kind]
    if len(values) != form.partition(",")[0].count(":"):
        raise Refused(f"{where}: {text!r} is not of the form {form}")
    if kind == "lognormal":
        return make(span_of(values[0], where), number_of(values[1], 0, 5, "standard deviation of a logarithm"))
    if kind == "bimodal":
        return make(*(span_of(value, where) for value in values[:2]), number_of(values[2].removesuffix("%"), 0, 100, "percentage") / 100)
    made = make(*(span_of(value, where) for value in values))
    if kind == "uniform" and made.least > made.most:
        raise Refused(f"{where}: {values[0]} is more than {values[1]}")
    return made


def read_pairs(path):
    """The pairs of a file: a run and a sleep in each line, as `2ms 3ms`; a number alone counts nanoseconds. Lines that begin with # say nothing."""
    pairs = []
    with open(path, encoding="utf-8", errors="replace") as file:
        for number, line in enumerate(file, 1):
            spans = line.split()
            if not spans or line.startswith("#"):
                continue
            if len(spans) != 2:
                raise Refused(f"{path}: line {number} has {len(spans)} words: a run and a sleep are wanted")
            pairs.append(tuple(span_of(f"{span}ns" if span.isdecimal() else span, f"{path}: line {number}") for span in spans))
    if not pairs:
        raise Refused(f"{path} has no pairs: a run and a sleep in each line, as 2ms 3ms")
    return pairs


def load_of(text):
    """The load of `RUN/SLEEP` or `file:PATH`."""
    if text.startswith("file:"):
        return Load(text, pairs=read_pairs(text.removeprefix("file:")))
    spans = text.split("/")
    if len(spans) != 2:
        raise Refused(f"{text!r} is no load: RUN/SLEEP, as exponential:2ms/exponential:3ms, or file:PATH")
    run, sleep = (distribution_of(span, repr(text)) for span in spans)
    return Load(text, run, sleep)


def parted(text):
    """`NAME=LOAD` or `NAME/V=LOAD`, with `,phase:TIME` or `,phase:random` behind it: the name, the vCPU or None, the text of the load and that of the phase, each None where it is not there."""
    who, equals, rest = text.partition("=")
    load, comma, phase = rest.rpartition(",phase:")
    if not comma and rest.startswith("phase:"):
        load, phase = "", rest.removeprefix("phase:")
    elif not comma:
        load, phase = rest, ""
    if not equals or not (load or phase):
        raise Refused(f"{text!r} is not of the form NAME=LOAD")
    name, slash, vcpu = who.partition("/")
    if slash and not vcpu.isdecimal():
        raise Refused(f"{who!r} is no vCPU: write NAME/V, as web/1")
    if slash and phase:
        raise Refused(f"{text!r}: a whole domain begins at its phase, since it is paused up to then: write {name}=..,phase:{phase}")
    return name, int(vcpu) if slash else None, load or None, phase or None


class Plan:
    """The loads and phases that were asked for, of a machine."""

    def __init__(self, machine, seed):
        self.machine, self.seed = machine, seed
        self.loads, self.phases = {}, {}

    def add(self, text):
        """One of `--load`."""
        name, vcpu, load, phase = parted(text)
        domain = next((it for it in self.machine.domains if it.name == name), None)
        if domain is None:
            raise Refused(f"there is no domain {name!r}; the domains are {', '.join(it.name for it in self.machine.domains) or 'none'}")
        if vcpu is not None and vcpu >= len(domain.guests):
            raise Refused(f"{name} has no vCPU {vcpu}: it has {len(domain.guests)}")
        if load:
            load = load_of(load)
            self.loads.update({(name, v): load for v in (range(len(domain.guests)) if vcpu is None else [vcpu])})
        if phase:
            self.phases[name] = phase

    def draw_of(self, name, what):
        """A generator of its own."""
        return random.Random(f"xensched {self.seed} {name} {what}")

    def set_scripts(self):
        """Gives the vCPUs their scripts, and says what these keep."""
        for domain in self.machine.domains:
            for v in range(len(domain.guests)):
                load = self.loads.get((domain.name, v))
                if load:
                    script = domain.guests[v] = load.script(self.draw_of(domain.name, v))
                    yield f"{domain.name} v{v}, {load.text}: {change_told(script, load.mean_run(), load.ninety_nine(), 'in the file' if load.pairs else 'by the distribution')}"

    def phase_of(self, domain):
        """The moment at which the domain begins: random ones are anywhere in the mean length of a pair, the longest of its vCPUs."""
        text = self.phases[domain.name]
        if text == "random":
            lengths = [2 * sum(script) / len(script) for script in domain.guests if script]
            if not lengths:
                raise Refused(f"{domain.name} never sleeps, so a random phase has no bound: write phase:TIME")
            phase = int(self.draw_of(domain.name, "phase").random() * max(lengths))
        else:
            phase = time_of(text)
        if phase >= self.machine.horizon:
            raise Refused(f"{domain.name} would begin at {milliseconds(phase)} ms, and the run ends at {milliseconds(self.machine.horizon)} ms")
        return phase

    def phase_lines(self):
        """The lines of the work file that make the phases, and what they are, for people."""
        lines, told = [], []
        for domain in self.machine.domains:
            if domain.name in self.phases:
                phase = self.phase_of(domain)
                told.append(f"{domain.name} begins at {milliseconds(phase)} ms")
                if phase:
                    lines += [(0, f"0 xl pause {domain.name}"), (phase, f"{phase} xl unpause {domain.name}")]
        return lines, told


def work_of(path, added, phases):
    """The lines of the work file with those of the phases among them."""
    if path is None:
        kept = []
    else:
        commands = read_work(path)
        for command in commands:
            if command.words[0] in ("pause", "unpause") and command.words[1:2] and command.words[1] in phases:
                raise Refused(f"{path}: line {command.line} pauses {command.words[1]} or lets it go on, and so does its phase")
        if len(commands) + len(added) > MOST_COMMANDS:
            raise Refused(f"{path} has {len(commands)} commands, and the phases {len(added)}: {MOST_COMMANDS} are the most")
        kept = pathlib.Path(path).read_text(encoding="utf-8", errors="surrogateescape").splitlines()
    return merged(kept, added)


def merged(kept, added):
    """The kept lines in their order, each added one before the first kept one of a later moment."""
    lines, left = [], sorted(added)
    for line in kept:
        at = 0 if line.startswith("#") or not line.split() else int(line.split()[0])
        while left and left[0][0] < at:
            lines.append(left.pop(0)[1])
        lines.append(line)
    return lines + [line for _, line in left]


def work_lines(machine, path, plan):
    """The lines of the work file, None for none, with those of the plan's phases among them."""
    added, _ = plan.phase_lines()
    names = [domain.name for domain in machine.domains]
    return work_of(path, added, {it for domain in plan.phases for it in (domain, str(names.index(domain)))})
