"""Where docs/XEN.md says that the answers are not as near to Xen as elsewhere: from which machine on each of its figures applies, and the sentence for it."""
from .machine import options_of

PAGE = "docs/XEN.md"
# Xen's own bound for a run queue (sched_credit2_max_cpus_runqueue), and a light guest's part of the greatest weight.
RUN_QUEUE, LIGHT = 16, 10
# What Xen may make a run queue for (credit2_runqueue), of what the harness of beside-xen has; it boots with the first.
QUEUE_KINDS = ("socket", "core", "all")

FREE = "where nothing is pinned or capped the greatest wait was told up to 1.7 times too small with two of them, and up to 87 times with four"
MANY = f"more than 16 processors under Credit2, which in Xen are several run queues: {FREE}"
QUEUES = "Xen has {} run queues of Credit2 here, and the model has one: " + FREE
PINNED = "with pinned units the greatest wait was told up to 7 times too small with one run queue, and one domain's share was off by 72 percent"
CAPS = "with caps on several cores the mean wait was told up to 1.4 times too small, the 95th percentile 2.2 times and the greatest wait 14 times"
BUSY = "where all guests always run on several cores, one domain's share was off by 28 percent by `run --ordered`; `run` is nearer"
EXTRA = "RTDS with extra time: in Xen a unit had less than its budget in 3,705 of 13,608 periods, here in none"
LIGHT_GUEST = "a weight below a tenth of the greatest: Xen gives such a guest 1 ms in every 21 ms, whatever its weight"
SMALL_CAP = "a cap below 10 percent: Xen runs the domain less often and for longer, at 1 percent after waits of 99 ms where here they are 9.9"
RTDS_PINS = "with pinned units under RTDS 24 of 100 machines ran each vCPU when Xen does"
NULL_PINS = "with pinned units under null 60 of 100 machines ran each vCPU when Xen does"
FRAMES = "several pools of ARINC 653: in Xen they disturb each other, and 1 of 100 machines was equal"


class Asked:
    """What a machine and the commands of its work file have of each pool."""

    def __init__(self, machine, work):
        self.machine, self.commands = machine, [(command.words[0], options_of(command.words)[0]) for command in work or []]

    def domains(self, pool):
        return [domain for domain in self.machine.domains if domain.pool == pool.name]

    def units(self, pool):
        return sum(self.machine.units_of(domain) for domain in self.domains(pool))

    def cores(self, pool):
        return len(cores_of(self.machine, pool.cpus))

    def pinned(self, pool):
        """Whether a unit of the pool may not go to all of its cores, at the start or by a command."""
        own = cores_of(self.machine, pool.cpus)
        pins = [cores_of(self.machine, each) for domain in self.domains(pool) for each in domain.pins or []]
        return any(own - each for each in pins) or (self.cores(pool) > 1 and bool(self.domains(pool)) and any(name == "vcpu-pin" for name, _ in self.commands))

    def caps(self, pool):
        """The caps that domains of the pool have, at the start or by a command."""
        told = [int(given["-c"]) for name, given in self.commands if name == "sched-credit2" and given.get("-c", "").isdecimal()]
        return [cap for cap in [domain.setting("cap") for domain in self.domains(pool)] + told if cap] if self.domains(pool) else []

    def extra(self, pool):
        """Whether a domain of the pool has extra time, which is the default."""
        return any(domain.setting("extratime") for domain in self.domains(pool)) or any(
            name == "sched-rtds" and given.get("-e") == "1" for name, given in self.commands) and bool(self.domains(pool))


def cores_of(machine, cpus):
    return {cpu // machine.granularity for cpu in cpus}


def of_credit2(asked, pool):
    """The figures that apply to a pool of Credit2."""
    several = asked.cores(pool) > 1
    weights = [domain.setting("weight") for domain in asked.domains(pool)]
    caps = asked.caps(pool)
    scripts = [script for domain in asked.domains(pool) for script in domain.guests]
    if len(pool.cpus) > RUN_QUEUE:
        yield MANY
    if asked.pinned(pool):
        yield PINNED
    if several and caps:
        yield CAPS
    if several and asked.units(pool) > asked.cores(pool) and not any(scripts):
        yield BUSY
    if weights and min(weights) * LIGHT < max(weights):
        yield LIGHT_GUEST
    if any(cap < 10 for cap in caps):
        yield SMALL_CAP


def of_rtds(asked, pool):
    """The figures that apply to a pool of RTDS."""
    if asked.extra(pool):
        yield EXTRA
    if asked.pinned(pool):
        yield RTDS_PINS


def of_null(asked, pool):
    if asked.pinned(pool):
        yield NULL_PINS


def of_arinc653(asked, pool):
    if sum(pool.sched == "arinc653" for pool in asked.machine.pools) > 1:
        yield FRAMES


FIGURES = {"credit2": of_credit2, "rtds": of_rtds, "null": of_null, "arinc653": of_arinc653}


def of(machine, work=None, queues=None):
    """A line for each figure that applies, with the pools that it applies to. `queues` has how many run queues Xen has for a pool, where that is known.

    Of a machine whose scripts are not known the schedule is a host's own, and there is nothing to say.
    """
    asked, found = Asked(machine, work), {}
    if any(script is None for domain in machine.domains for script in domain.guests):
        return []
    for pool in machine.pools:
        if not asked.domains(pool):
            continue
        for text in FIGURES[pool.sched](asked, pool):
            if text is MANY and queues and pool.name in queues:
                continue
            found.setdefault(text, []).append(pool.name)
        if pool.sched == "credit2" and queues and queues.get(pool.name, 1) > 1:
            found.setdefault(QUEUES.format(queues[pool.name]), []).append(pool.name)
    return [f"{text} ({', '.join(names)}): {PAGE}" for text, names in found.items()]
