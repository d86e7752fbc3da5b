"""Makes of a trace of a host the scripts of its vCPUs, and the schedule that it was, as lines that study, draw and the page read."""
import collections
import dataclasses

from . import loads
from .machine import Domain, Machine, Pool
from .trace_files import BLOCKED, IDLE, OFFLINE, RUNNABLE, RUNNING, STATES
from .words import Refused, milliseconds, percent

MOST_ODD = 0.01             # of the changes may contradict those before them
MOST_PROCESSORS, MOST_DOMAINS, MOST_VCPUS, MOST_UNITS = 64, 64, 32, 256


# what the records say, one vCPU after the other

@dataclasses.dataclass
class Order:
    """How the records of the processors fit together."""

    mended: int = 0         # pairs of records of two processors that had to change places
    broken: int = 0         # records that do not follow from those before them
    skew: int = 0           # how far apart two were that changed places


def in_gap(gaps, at):
    return any(begin <= at < end for begin, end in gaps)


def in_order(trace):
    """The changes, each of which follows from the one before it of its vCPU, as far as they can be put so; and how many could not.

    Each processor writes by its own clock. Where two records of a vCPU, of two processors, fit the other way round, they change places, and both have the
    later moment. Records within a gap are left out. A change whose `order` is negative follows from nothing: the vCPU begins anew with it.
    """
    order, found = Order(), collections.defaultdict(list)
    changes = [it for it in trace.changes if not in_gap(trace.gaps, it.at)] if trace.gaps else trace.changes
    for it in changes:
        found[it.domain, it.vcpu].append(it)
    kept = []
    for mine in found.values():
        kept += in_order_of(mine, [end for _, end in trace.gaps], order)
    if order.mended + order.broken > MOST_ODD * len(changes):
        raise Refused(f"{order.mended + order.broken} of {len(changes)} records contradict those before them ({percent((order.mended + order.broken) / len(changes))}): "
                      f"the clocks of the processors differ too much, or the file is no trace of one host")
    kept.sort(key=lambda it: (it.at, it.order if it.order >= 0 else -1 - it.order))
    return kept, order


def in_order_of(mine, ends, order):
    """The changes of one vCPU. `ends` are the moments at which gaps end."""
    kept, state, place = [], None, 0
    ends = iter([*ends, float("inf")])
    end = next(ends)
    while place < len(mine):
        it = mine[place]
        while it.at >= end:
            state, end = None, next(ends)
        after = mine[place + 1] if place + 1 < len(mine) else None
        if state is None or it.old == state:
            kept.append(it if state is not None else it._replace(order=-1 - it.order))
            place += 1
        elif after and after.at < end and (after.old, after.new) == (state, it.old) and after.processor != it.processor:
            order.mended += 1
            order.skew = max(order.skew, after.at - it.at)
            kept += [after, it._replace(at=after.at, order=after.order + 0.5)]
            place += 2
        else:
            order.broken += 1
            kept.append(it._replace(order=-1 - it.order))
            place += 1
        state = kept[-1].new
    return kept


# scripts

class Doings:
    """What one vCPU did: its jobs, each the time that it ran between two sleeps, and the sleep behind each."""

    def __init__(self):
        self.state = self.since = self.slept = None
        self.is_whole = self.is_first_unsure = self.blocks = False
        self.ran, self.pairs, self.count, self.begun = 0, [], 0, False

    def take(self, it):
        self.count += 1
        if it.order < 0:
            # what went before is not known; one that was offline up to its first record may have begun here
            self.is_first_unsure = not self.begun and it.old == OFFLINE
            self.is_whole, self.ran, self.slept, self.state = self.is_first_unsure, 0, None, None
            self.begun = True
        elif self.state == RUNNING:
            self.ran += it.at - self.since
        if it.old == BLOCKED and it.new != BLOCKED:
            if self.is_whole and self.slept is not None and self.ran and it.at > self.slept:
                self.pairs.append((self.ran, it.at - self.slept))
            self.ran, self.is_whole = 0, True
        if it.new == BLOCKED and it.old != BLOCKED:
            self.blocks, self.slept = True, it.at
        self.state, self.since = it.new, it.at

    def script(self):
        """A script for it, whether it is the vCPU's own and repeats, and the pairs that it stands for; None where nothing is known."""
        if not self.pairs:
            return (None if self.blocks or not self.count else [], False, [])
        for pairs in [self.pairs, self.pairs[1:]] if self.is_first_unsure else [self.pairs]:
            if length := period_of(pairs):
                return loads.flat(pairs[:length]), True, pairs
        pairs = self.pairs[1:] if self.is_first_unsure and len(self.pairs) > 1 else self.pairs
        return loads.flat(loads.of_pairs(pairs)), False, pairs


def period_of(pairs):
    """After how many pairs they repeat, twice at least, to the nanosecond; None where they do not."""
    for length in range(1, min(loads.MOST_PAIRS, len(pairs) // 2) + 1):
        if all(pair == pairs[place % length] for place, pair in enumerate(pairs)):
            return length
    return None


def doings_of(changes):
    """What each vCPU did, by domain and number."""
    found = collections.defaultdict(Doings)
    for it in changes:
        if it.domain != IDLE:
            found[it.domain, it.vcpu].take(it)
    return found


# the machine

def ids_of(texts):
    """The names of `--id 3=web`, by number."""
    found = {}
    for text in texts:
        number, equals, name = text.partition("=")
        if not equals or not number.isdecimal():
            raise Refused(f"{text!r} is not of the form ID=NAME, as 3=web; `xl list` has both")
        found[int(number)] = name
    return found


def places_of(vcpus, machine, ids):
    """For the number of each domain of the trace its place in the machine."""
    numbers, names = sorted({domain for domain, _ in vcpus}), [domain.name for domain in machine.domains]
    for number, name in ids.items():
        if name not in names:
            raise Refused(f"--id {number}={name}: there is no domain {name!r}; the domains are {', '.join(names)}")
    if not ids and len(numbers) == len(names):
        return {number: place for place, number in enumerate(numbers)}
    missing = [number for number in numbers if number not in ids]
    if missing:
        raise Refused(f"the trace has the domains {', '.join(map(str, numbers))}, and the machine {', '.join(names)}: say which is which by --id {missing[0]}=NAME and so on (`xl list`)")
    if len(set(ids.values())) < len(ids):
        raise Refused("two domains of the trace cannot be one of the machine: look at --id")
    return {number: names.index(ids[number]) for number in numbers}


def check_places(changes, places, machine):
    """Refuses a trace of another machine."""
    for it in changes:
        processor = max(it.processor, it.vcpu) if it.domain == IDLE else it.processor
        if processor >= machine.processors:
            raise Refused(f"the trace has the processor {processor}, and the machine has {machine.processors}")
        if it.domain != IDLE:
            domain = machine.domains[places[it.domain]]
            if it.vcpu >= len(domain.guests):
                raise Refused(f"the trace has a vCPU {it.vcpu} of the domain {it.domain}, and {domain.name} has {len(domain.guests)}")


def machine_of(changes, ids):
    """A machine for a trace of which nothing else is known: one pool of Credit2 with all processors, and default parameters."""
    vcpus = collections.defaultdict(int)
    for it in changes:
        if it.domain != IDLE:
            vcpus[it.domain] = max(vcpus[it.domain], it.vcpu + 1)
    processors = max(max(it.processor, it.vcpu) if it.domain == IDLE else it.processor for it in changes) + 1
    names = {number: ids.get(number, f"dom{number}") for number in sorted(vcpus)}
    if len(set(names.values())) < len(names):
        raise Refused("two domains cannot have one name: look at --id")
    if processors > MOST_PROCESSORS or len(vcpus) > MOST_DOMAINS or max(vcpus.values(), default=0) > MOST_VCPUS or sum(vcpus.values()) > MOST_UNITS:
        raise Refused(f"the trace has {processors} processors, {len(vcpus)} domains and {sum(vcpus.values())} vCPUs, up to {max(vcpus.values())} of a domain; "
                      f"{MOST_PROCESSORS}, {MOST_DOMAINS}, {MOST_UNITS} and {MOST_VCPUS} are the most here")
    asleep = [1, loads.LONGEST]     # of one without a record
    return Machine(processors, 1, [Pool("Pool-0", cpus=list(range(processors)))], [Domain(name, "Pool-0", [asleep] * vcpus[number]) for number, name in names.items()])


def set_scripts(machine, places, found):
    """Gives the vCPUs the scripts of what they did, and says what these are."""
    numbers = {place: number for number, place in places.items()}
    for place, domain in enumerate(machine.domains):
        domain.guests = list(domain.guests)
        for v in range(len(domain.guests)):
            doings = found.get((numbers.get(place), v))
            name = f"{domain.name} v{v}"
            if doings is None:
                yield f"{name}: no record: its script stays as it was"
                continue
            script, repeats, pairs = doings.script()
            if script is None:
                yield f"{name}: no whole job: its script stays as it was"
                continue
            domain.guests[v] = script
            if not script:
                yield f"{name}: never sleeps"
            elif repeats:
                yield f"{name}: {len(pairs)} jobs, which repeat after {len(script) // 2}"
            else:
                runs = [run for run, _ in pairs]
                yield f"{name}: {len(pairs)} jobs; {loads.change_told(script, sum(runs) / len(runs), loads.by_rank(runs), 'on the host')}"


# the schedule

def stretch_of(trace, begin, end):
    """The span of the schedule: what was asked for, or the longest without a gap."""
    edges = [0, *(edge for gap in trace.gaps for edge in gap), trace.end]
    whole = [(edges[n], edges[n + 1]) for n in range(0, len(edges), 2) if edges[n] < edges[n + 1]]
    if begin is None and end is None:
        begin, end = max(whole, key=lambda it: it[1] - it[0], default=(0, 0))
    begin, end = begin or 0, trace.end if end is None else end
    if begin >= end:
        raise Refused(f"from {milliseconds(begin)} to {milliseconds(end)} ms is no span; the trace goes to {milliseconds(trace.end)} ms")
    if any(begin < gap_end and gap_begin < end for gap_begin, gap_end in trace.gaps):
        told = ", ".join(f"{milliseconds(a)} to {milliseconds(b)}" for a, b in whole)
        raise Refused(f"between {milliseconds(begin)} and {milliseconds(end)} ms records were lost; without a loss are {told} ms")
    if end - begin > loads.LONGEST:
        raise Refused(f"{milliseconds(end - begin)} ms are more than a run may have: say --from and --to")
    return begin, end


class Teller:
    """Writes what the vCPUs of a machine did as the lines of a schedule."""

    def __init__(self, machine, places):
        self.machine, self.places, self.size = machine, places, machine.granularity
        self.runs = {}                                      # by processor: the vCPU that runs, None for the idle one
        self.held = set()                                   # processors that no guest has
        self.units, self.states = {}, {}                    # by core the unit that it has; by vCPU its state
        self.lines = []

    def is_capped(self, vcpu):
        """Whether the vCPU's domain has a cap. Then it is offline while its budget is used up, and waits."""
        return bool(self.machine.domains[vcpu[0]].settings.get("cap"))

    def is_awake(self, vcpu, state):
        return state in (RUNNING, RUNNABLE) or state == OFFLINE and self.is_capped(vcpu)

    def processor_of(self, it):
        """The processor of the vCPU. Where a core has several, the one that decides writes for its siblings too."""
        if it.domain == IDLE:
            return it.vcpu
        return it.processor // self.size * self.size + it.vcpu % self.size

    def tell(self, at, text):
        self.lines.append(f"{at} {text}\n")

    def begin(self, it, at=0):
        """What a vCPU does when the schedule begins."""
        if it.domain == IDLE:
            if it.new == RUNNING:
                self.to_idle(at, it.vcpu)
            return
        vcpu = self.places[it.domain], it.vcpu
        self.states[vcpu] = it.new
        if it.new == RUNNING:
            self.to_run(at, self.processor_of(it), vcpu)
        elif self.is_awake(vcpu, it.new):
            self.tell(at, f"wake d{vcpu[0]}v{vcpu[1]}")

    def take(self, it, at):
        """A change of a vCPU."""
        if it.old == it.new:
            return
        processor = self.processor_of(it)
        if it.domain == IDLE:
            if it.new == RUNNING:
                self.to_idle(at, processor)
            return
        vcpu = self.places[it.domain], it.vcpu
        before = self.states.get(vcpu, it.old)
        self.states[vcpu] = it.new
        present = next((p for p, other in self.runs.items() if other == vcpu), None)
        if present is not None:
            self.runs[present] = None
        if self.is_awake(vcpu, before) and not self.is_awake(vcpu, it.new):
            self.tell(at, f"block p{processor if present is None else present} d{vcpu[0]}v{vcpu[1]}")
        elif present is not None:
            self.hold(at, present)
        if not self.is_awake(vcpu, before) and self.is_awake(vcpu, it.new):
            if self.size == 1:
                self.take_back(at, vcpu)
            self.tell(at, f"wake d{vcpu[0]}v{vcpu[1]}")
        if it.new == RUNNING:
            self.to_run(at, self.processor_of(it), vcpu)

    def hold(self, at, processor):
        if processor not in self.held:
            self.held.add(processor)
            self.tell(at, f"arrive p{processor}")

    def to_run(self, at, processor, vcpu):
        self.hold(at, processor)
        unit = vcpu[0], vcpu[1] // self.size
        self.decide(at, processor // self.size, unit)
        self.held.discard(processor)
        self.runs[processor] = vcpu
        self.tell(at, f"leave p{processor} d{vcpu[0]}v{vcpu[1]}")
        self.save(at, processor // self.size)

    def to_idle(self, at, processor):
        core = processor // self.size
        if self.size == 1 or all(self.runs.get(p) is None for p in range(core * self.size, (core + 1) * self.size)):
            self.hold(at, processor)
            self.decide(at, core, None)
        self.held.discard(processor)
        self.runs[processor] = None
        self.tell(at, f"leave p{processor} idle")
        self.save(at, core)

    def decide(self, at, core, unit):
        """The core has this unit from now on."""
        self.left = None
        if self.size > 1 and core in self.units and self.units[core] == unit:
            return
        if unit is not None:
            self.take_back(at, unit, core)
        before = self.units.get(core)
        self.give(at, core, unit)
        if before not in (None, unit):
            self.left = before

    def take_back(self, at, unit, core=None):
        """No core has the unit, but maybe this one: another that has it has not decided yet by its processor's clock."""
        for other, had in self.units.items():
            if had == unit and other != core:
                self.give(at, other, None)

    def give(self, at, core, unit):
        self.units[core] = unit
        self.tell(at, f"decide c{core} {'idle' if unit is None else 'd%du%d' % unit} due none late 0 reset 0")

    def save(self, at, core):
        """The unit that the core had before is put away."""
        if self.left is not None:
            domain, unit = self.left
            could = any(self.states.get((domain, v)) == RUNNABLE for v in range(unit * self.size, (unit + 1) * self.size))
            self.tell(at, f"save c{core} d{domain}u{unit} {'queued' if could else 'off'}")
            self.left = None


def schedule_of(machine, places, changes, gaps, begin, end):
    """The lines of the schedule from one moment to another, which count from the first."""
    first_known = max((gap_end for _, gap_end in gaps if gap_end <= begin), default=0)
    states, later = {}, []
    for it in changes:
        if first_known <= it.at < begin:
            states[it.domain, it.vcpu] = it
        elif begin <= it.at <= end:
            later.append(it)
    for it in later:
        # what it was before its first change
        states.setdefault((it.domain, it.vcpu), it._replace(new=it.old))
    teller = Teller(machine, places)
    for _, it in sorted(states.items()):
        teller.begin(it)
    for it in later:
        teller.take(it, it.at - begin)
    teller.tell(end - begin, "finish")
    return teller.lines


def host_of(machine, span):
    """The machine whose schedule this is: of its guests no script is known, and nothing is known of where in a frame it begins."""
    pools = [dataclasses.replace(pool, settings={} if pool.sched == "arinc653" else pool.settings) for pool in machine.pools]
    domains = [dataclasses.replace(domain, guests=[None] * len(domain.guests)) for domain in machine.domains]
    return dataclasses.replace(machine, horizon=span, pools=pools, domains=domains)


def order_told(order, trace):
    """What is to be told of the records, line by line."""
    if trace.gaps:
        yield (f"{trace.lost} records were lost in {len(trace.gaps)} places, {milliseconds(sum(end - begin for begin, end in trace.gaps))} ms in all: "
               f"no job and no wait goes across them (xentrace -S with more pages loses fewer)")
    if order.mended:
        yield f"the clocks of the processors differ by up to {milliseconds(order.skew)} ms: {order.mended} pairs of records changed places"
    if order.broken:
        yield f"{order.broken} records do not follow from those before them: their vCPUs begin anew there"
