"""Which of many configurations meets all that is asked: a grid, a climb from its best, and a trial on fresh seeds."""
import dataclasses
import itertools

from . import making, sweeping
from .machine import DOMAIN_KEYS
from .words import Refused

MOST_ROUNDS = 6             # of the climb


@dataclasses.dataclass
class Answer:
    """A configuration: its values, whether it met all, how much of what is allowed was taken where it was most, what it costs, and how many runs that took."""

    settings: dict
    is_met: bool
    worst: float
    price: tuple
    runs: int

    @property
    def rank(self):
        """The best comes first: one that meets all, by its price; else the nearest."""
        return (0, self.price, self.worst) if self.is_met else (1, self.worst, self.price)


def grid(texts):
    """Each choice of values for the free keys."""
    keys, choices = sweeping.settings_over(texts)
    if not keys:
        raise Refused("nothing is free: name a key and its values by --free KEY=V1,V2")
    return choices


def tried(job, seeds, given):
    """The configuration over these seeds, up to the first that misses something."""
    worst, preempted, runs = 0.0, 0, 0
    for seed in seeds:
        row = sweeping.row_of({**job, "load_seed": seed}, [], given)
        if "fault" in row:
            raise Refused(row["fault"])
        runs, worst, preempted = runs + 1, max(worst, row["worst"]), preempted + row["preempted"]
        if row["missed"]:
            return False, worst, preempted, runs
    return True, worst, preempted // max(runs, 1), runs


def answer_of(job, seeds, given):
    """What came of a configuration."""
    is_met, worst, preempted, runs = tried(job, seeds, given)
    base = making.machine_from(job["machine"])
    return Answer(job["settings"], is_met, worst, sweeping.price_of(base, job, {"preempted": preempted}), runs)


def between(values, value):
    """Whole numbers halfway from a value to its neighbours among the values that were given, and the ends between them."""
    numbers = sorted({int(it) for it in values})
    found = []
    for other in (max((it for it in numbers if it < value), default=None), min((it for it in numbers if it > value), default=None)):
        if other is not None and abs(other - value) > 1:
            found.append((other + value) // 2)
    return found


def neighbours(settings, choices):
    """The configurations that differ in one free key: for a number by half the way to the next value that was given, else by another of its values."""
    for key, values in choices.items():
        if all(it.lstrip("-").isdecimal() for it in values) and key.rpartition(".")[2] not in ("cpus", "pins"):
            others = [str(it) for it in between([*values, settings[key]], int(settings[key]))]
        else:
            others = [it for it in values if it != settings[key]]
        yield from ({**settings, key: it} for it in others)


def choices_of(texts):
    """The values of each free key."""
    return {key: values.split(",") for key, _, values in (text.partition("=") for text in texts)}


def climb(best, choices, search):
    """From an answer to better ones, in steps that become half as long where nothing is better. `search` answers configurations that were not tried yet."""
    for _ in range(MOST_ROUNDS):
        tried_now = list(neighbours(best.settings, choices))
        best = min([best, *search(tried_now)], key=lambda it: it.rank)
        new = [(key, value) for settings in tried_now for key, value in settings.items() if value not in choices[key]]
        for key, value in new:
            choices[key] = [*choices[key], value]
        if not new:
            break
    return best


def xl_commands(base, settings):
    """The xl commands that bring a host from the machine to the configuration, and what needs more than a command."""
    machine = sweeping.varied(base, settings)
    yield from pool_commands(base, machine)
    for old, new in zip(base.domains, machine.domains):
        if old.pool != new.pool:
            yield f"xl cpupool-migrate {new.name} {new.pool}"
        yield from domain_commands(machine.pool(new.pool).sched, old, new)
        if old.pins != new.pins:
            yield from (f"xl vcpu-pin {new.name} {vcpu} {listed(new.pins[vcpu // machine.granularity])}" for vcpu in range(len(new.guests)))
    if machine.granularity != base.granularity:
        yield f"# boot with sched-gran={ {1: 'cpu', 2: 'core', 4: 'socket'}[machine.granularity]}: {machine.granularity} processors to a core"


def listed(cpus):
    """Processors as xl takes them."""
    groups = [[*group] for _, group in itertools.groupby(enumerate(sorted(cpus)), lambda it: it[1] - it[0])]
    return ",".join(f"{group[0][1]}-{group[-1][1]}" if len(group) > 1 else str(group[0][1]) for group in groups)


def pool_commands(base, machine):
    """The commands of pools: removals come before what adds the same processors."""
    for old, new in zip(base.pools, machine.pools):
        if old.sched != new.sched:
            yield f"# the scheduler of {new.name} is that of its creation: make a pool anew with xl cpupool-create, sched=\"{new.sched}\""
        if new.settings.get("ratelimit_us") not in (None, old.settings.get("ratelimit_us")):
            yield f"xl sched-credit2 -s -p {new.name} -r {new.settings['ratelimit_us']}"
    for old, new in zip(base.pools, machine.pools):
        yield from (f"xl cpupool-cpu-remove {new.name} {cpu}" for cpu in old.cpus if cpu not in new.cpus)
    for old, new in zip(base.pools, machine.pools):
        yield from (f"xl cpupool-cpu-add {new.name} {cpu}" for cpu in new.cpus if cpu not in old.cpus)


def domain_commands(sched, old, new):
    """The command that sets a domain's parameters, if one has changed."""
    if old.pool == new.pool and all(old.setting(key) == new.setting(key) for key in DOMAIN_KEYS[sched]):
        return
    if sched == "credit2":
        yield f"xl sched-credit2 -d {new.name} -w {new.setting('weight')} -c {new.setting('cap')}"
    elif sched == "rtds":
        yield f"xl sched-rtds -d {new.name} -p {new.setting('period_us')} -b {new.setting('budget_us')} -e {int(new.setting('extratime'))}"
