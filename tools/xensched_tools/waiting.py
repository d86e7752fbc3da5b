"""Why a vCPU does not run at a moment: which rule kept it waiting, as far as the schedule and the machine say it."""
from .commands import domain_of, setting
from .machine import DEFAULTS, options_of
from .measures import Study, ran_by
from .schedule import HELD, PAUSED, RUNS, SLEEPS, WAITS, Vcpu
from .words import Refused, milliseconds

# The rules, as they are said of the cores on which they hold.
BY_CREDIT = "less credit than the unit that runs, or as much and later in the queue: by credit, which a schedule does not show"
BY_LIMIT = "the rate limit: the unit that runs was chosen less than {} ms ago"
BY_DEADLINE = "its deadline, {} ms, is later than that of the unit that runs"
BY_EQUAL = "its deadline, {} ms, is that of the unit that runs too, which goes on"
BY_LEVEL = "its budget is used up and it is in extra time, behind the unit that runs"
BY_NULL = "null: the core is kept for another unit"
BY_STALL = "a stall: the core cannot decide"
BY_SIBLINGS = "the core decides, and waits until all of its processors are there"
BY_SAVE = "the core still switches out another unit"
BY_LEAVING = "the core is leaving the pool, and takes no unit"
BY_CUT = "nobody has the core, and the schedule ends before it decides"
UNKNOWN = "by nothing that the schedule shows"


class Pot:
    """What a capped domain has left of its cap until the next refill, and what its running units hold of it (docs/SCHEDULERS.md)."""

    def __init__(self, cap):
        self.cap, self.left, self.held = cap, cap * 100_000, {}

    def give_back(self, unit, now):
        """The unit's core decides: what it did not run of what it held goes back."""
        since, held = self.held.pop(unit, (now, 0))
        self.left += held - (now - since)

    def take(self, unit, now):
        """The unit is chosen, and takes its part."""
        part = min(max(self.cap * 100_000 // len(unit.domain.units), 500_000), self.left)
        self.left -= part
        self.held[unit] = now, part


class Enough(Exception):
    """All that was asked is known."""


class Watch(Study):
    """A schedule that is followed to see what a vCPU does at a moment, and when it runs next."""

    def __init__(self, machine, work, name, at):
        super().__init__(machine, work)
        if name not in self.vcpus:
            raise Refused(f"there is no vCPU {name!r}: write it as d0v1, and the domains are {', '.join(f'd{domain.index} {domain.name}' for domain in self.domain_list)}")
        self.vcpu, self.at, self.lines, self.next = self.vcpus[name], at, None, {}
        self.reason, self.run_from, self.run_over = "the beginning of the run", 0, None
        self.saving, self.leaving, self.moving, self.kept, self.extra = {}, set(), {}, {}, {}
        self.stalled_until, self.chosen_at = dict.fromkeys(self.processor_list, 0), dict.fromkeys(self.core_list, 0)
        self.pins = {unit: self._pins_of(machine, unit) for unit in self.units.values()}
        self.pots = {}
        for domain in self.domain_list:
            self.cap_set(domain)

    def _pins_of(self, machine, unit):
        """The cores that the unit is pinned to, None for all."""
        pins = machine.domains[unit.domain.index].pins
        return None if pins is None else {self.core_list[cpu // machine.granularity] for cpu in pins[unit.index]}

    # what is kept while the schedule is followed

    def decided(self, core, unit):
        super().decided(core, unit)
        before = core.unit
        if before is not None and before.domain in self.pots:
            self.pots[before.domain].give_back(before, self.now)
        if unit is not None and unit.domain in self.pots:
            self.pots[unit.domain].take(unit, self.now)
        if before is not None and unit is not before:
            self.saving[before] = core
        if unit is not None or core in self.leaving:
            self.kept = {other: its for other, its in self.kept.items() if other is not core and its is not unit}
        if unit is not None:
            self.kept[core] = unit
        self.chosen_at[core] = self.now

    def _save(self, words):
        super()._save(words)
        self.saving.pop(self.units[words[3]], None)

    def stalled(self, processor, until):
        super().stalled(processor, until)
        self.stalled_until[processor] = max(self.stalled_until[processor], until)

    def replenished(self, unit, start, deadline, budget, extra):
        super().replenished(unit, start, deadline, budget, extra)
        self.extra[unit] = extra
        self._comes("repl" if unit is self.vcpu.unit else None)

    def _refill(self, words):
        super()._refill(words)
        domain = self.domains[words[2]]
        if domain in self.pots:
            self.pots[domain].left = int(words[6])
        self._comes("refill" if domain is self.vcpu.domain else None)

    def cap_set(self, domain):
        if domain.tally:
            super().cap_set(domain)
        self.pots.pop(domain, None)
        if domain.home.sched == "credit2" and setting(domain, "cap"):
            pot = self.pots[domain] = Pot(setting(domain, "cap"))
            pot.held = {unit: (self.now, 0) for unit in domain.units if unit.core}

    def joined(self, subject, home):
        super().joined(subject, home)
        if subject in self.core_list:
            self.leaving.discard(subject)
            return
        self.moving.pop(subject, None)
        # in another pool nothing is left of what it had
        self.pins.update(dict.fromkeys(subject.units))
        self.kept = {core: unit for core, unit in self.kept.items() if unit.domain is not subject}
        self.cap_set(subject)

    def answered_command(self, number, command, answer):
        super().answered_command(number, command, answer)
        if command is not None and not answer.startswith("refused"):
            self._command_begins(command.words)

    def _command_begins(self, words):
        """A command is about to be carried out."""
        rest = options_of(words)[1]
        try:
            if words[0] == "cpupool-cpu-remove":
                self.leaving.add(self.processors[f"p{int(rest[1])}"].core)
            elif words[0] == "cpupool-migrate":
                self.moving[domain_of(self, rest[0])] = rest[1]
            elif words[0] == "vcpu-pin":
                self._pin(domain_of(self, rest[0]), rest[1], rest[2])
        except (IndexError, KeyError, ValueError):
            # that the command cannot have been done is said where it is carried out
            return

    def _pin(self, domain, vcpu, cpus):
        """`vcpu-pin DOM VCPU CPUS`."""
        spans = [span.partition("-") for span in cpus.split(",")] if cpus != "all" else []
        cores = {self.core_list[cpu // self.machine.granularity] for first, dash, last in spans for cpu in range(int(first), int(last if dash else first) + 1) if cpu < self.machine.processors}
        units = domain.units if vcpu == "all" else [domain.units[int(vcpu) // self.machine.granularity]]
        self.pins.update(dict.fromkeys(units, cores if spans else None))

    def change(self, vcpu, state):
        if vcpu is self.vcpu:
            self._note(vcpu.state, state)
        super().change(vcpu, state)

    def _note(self, before, state):
        """Keeps why the vCPU does what it does now, and what comes behind the moment."""
        if state == RUNS and self.run_over != self.now:
            self.run_from = self.now
        if before == RUNS:
            self.run_over = self.now
        if state == WAITS and before != WAITS:
            self.reason = {SLEEPS: "where it woke", PAUSED: "where its domain went on", RUNS: "where its processor was taken from it"}[before]
        self._comes({RUNS: "runs", WAITS: "waits"}.get(state) if state != before else None)
        if self.lines is not None and "runs" in self.next:
            raise Enough

    def _comes(self, what):
        """Behind the moment something comes for the first time."""
        if what and self.lines is not None:
            self.next.setdefault(what, self.now)

    # the moment

    def moment_comes(self, moment):
        if self.lines is None and moment > self.at:
            self._look()
        super().moment_comes(moment)

    def _close(self):
        if self.at > (self.machine.horizon if self.finished else self.last):
            raise Refused(f"the schedule ends at {milliseconds(self.machine.horizon if self.finished else self.last)} ms")
        if self.lines is None:
            self._look()
        raise Enough

    def _look(self):
        """All entries up to the moment are carried out."""
        self.since, self.lines = self.vcpu.since, list(Answer(self).lines())

    def answer(self, lines):
        """Follows the schedule as far as it has to be, and says all of it."""
        try:
            self.follow(lines)
        except Enough:
            pass
        return [text.format(**self._moments()) for text in self.lines]

    def _moments(self):
        """When what comes behind the moment comes, in words."""
        found = {what: f"at {milliseconds(self.next[what])} ms" if what in self.next else "never in this schedule" for what in ("runs", "waits", "repl", "refill")}
        return {**found, "wait": f", after {milliseconds(self.next['runs'] - self.since)} ms" if "runs" in self.next else ""}


class Answer:
    """What is to be said of the moment, once all entries up to it are carried out."""

    def __init__(self, watch):
        self.watch, self.vcpu, self.unit, self.at = watch, watch.vcpu, watch.vcpu.unit, watch.at
        self.home = watch.vcpu.domain.home

    def lines(self):
        """The lines; what comes later stands in braces."""
        vcpu, watch = self.vcpu, self.watch
        head = f"{vcpu.name} of {vcpu.domain.name} {('runs', 'waits', 'sleeps', 'is paused')[vcpu.state]} at {milliseconds(self.at)} ms"
        since = f"since {milliseconds(vcpu.since)} ms"
        if vcpu.state == RUNS:
            on = next(processor.index for processor in watch.processor_list if processor.doing is vcpu)
            yield f"{head}, on p{on} since {milliseconds(watch.run_from)} ms."
        elif vcpu.state == SLEEPS:
            yield f"{head}, {since}. It wakes {{waits}}, and runs next {{runs}}."
        elif vcpu.state == PAUSED:
            yield f"{head}, {since}. Its domain goes on {{waits}}, and it runs next {{runs}}."
        else:
            yield f"{head}, {since}, {watch.reason}, and runs next {{runs}}{{wait}}."
            yield from self._wait()

    def _wait(self):
        """Where its unit might be, who is there, and the rule."""
        if self.unit.core is not None:
            yield f"The rule: {self._own_core(self.unit.core)}."
            return
        cores = self._allowed()
        yield f"Its unit {self.unit.name} is in the pool {self.home.name} ({self.home.sched or 'its scheduler is not known: no work file'}), and may have"
        rows = [(core, *self._seen(core)) for core in cores]
        yield from (f"  {self._name(core)}  {text}" for core, text, _ in rows)
        yield from self._pinned(cores)
        barred = self._barred(cores)
        if barred:
            yield f"The rule: {barred}."
            return
        for rule in dict.fromkeys(rule for _, _, rule in rows):
            yield f"The rule on {', '.join(self._name(core) for core, _, its in rows if its == rule)}: {rule}."

    def _name(self, core):
        """The core's processors."""
        return " ".join(f"p{processor.index}" for processor in core.processors)

    def _allowed(self):
        """The cores of the pool that the unit may have, in order."""
        pool = sorted(self.home.cores, key=lambda core: core.index)
        pins = self.watch.pins[self.unit]
        return [core for core in pool if pins is None or core in pins] or pool

    def _pinned(self, cores):
        """That the unit may not have all cores of its pool, and who is on the others."""
        others = sorted(self.home.cores - set(cores), key=lambda core: core.index)
        if others:
            yield f"It is pinned, and may not have {', '.join(f'{self._name(core)} ({self._who(core)})' for core in others)}."

    def _who(self, core):
        """What is on the core."""
        if core.unit is None:
            return "idle"
        running = [processor.doing for processor in core.processors if isinstance(processor.doing, Vcpu)]
        return f"{', '.join(vcpu.name for vcpu in running) or core.unit.name} of {core.unit.domain.name}"

    def _own_core(self, core):
        """Why the vCPU waits though its unit has a core."""
        processor = core.processors[self.vcpu.index % self.watch.machine.granularity]
        others = [f"{it.doing.name} on p{it.index}" for it in core.processors if isinstance(it.doing, Vcpu)]
        has = f"its unit {self.unit.name} has {self._name(core)} already" + (f" and runs {', '.join(others)}" if others else "")
        stalls = self._stalls(core)
        if self.watch.stalled_until[processor] > self.at:
            return f"a stall: {has}, and the vCPU's own processor is p{processor.index}; {stalls}"
        if processor.doing is HELD:
            return f"its core decides: {has}, and its own processor p{processor.index} is held until all are there" + (f"; {stalls}" if stalls else "")
        return f"{has}, and {UNKNOWN} its own processor p{processor.index} does not run it"

    def _stalls(self, core):
        """Which processors of the core stall, and until when."""
        return ", ".join(f"p{it.index} stalls up to {milliseconds(self.watch.stalled_until[it])} ms" for it in core.processors if self.watch.stalled_until[it] > self.at)

    def _seen(self, core):
        """Who is on a core since when, and the rule by which it does not take the unit, if the unit may run at all."""
        text, rule = self._found(core)
        stalls = self._stalls(core)
        return text + (f"; {stalls}" if stalls else ""), rule

    def _found(self, core):
        holder = core.unit
        text = "idle" if holder is None else f"{self._who(core)} since {milliseconds(core.since)} ms, chosen last at {milliseconds(self.watch.chosen_at[core])} ms"
        switched = next((unit for unit, where in self.watch.saving.items() if where is core), None)
        if core in self.watch.leaving:
            return f"{text}; it leaves the pool", BY_LEAVING
        if any(processor.doing is HELD for processor in core.processors):
            return f"{text}; it decides", BY_STALL if self._stalls(core) else BY_SIBLINGS
        if switched:
            return f"{text}; {switched.name} is switched out", BY_SAVE
        more, rule = AGAINST.get(self.home.sched, unknown)(self, core, holder)
        if rule == UNKNOWN and holder is None and not self._stalls(core):
            return text, BY_CUT
        return f"{text}{more}", self._or_stall(core, rule)

    def _or_stall(self, core, rule):
        """The rule, or the stall that keeps the core from deciding."""
        if not self._stalls(core):
            return rule
        if rule == UNKNOWN or core.due is not None and core.due <= self.at:
            return BY_STALL
        return f"{BY_STALL}; or {BY_CREDIT}" if rule == BY_CREDIT else rule

    def _barred(self, cores):
        """Why the unit may have no core at all now, if that is so."""
        watch, unit = self.watch, self.unit
        if unit.domain in watch.moving:
            return f"its domain is on its way to the pool {watch.moving[unit.domain]}, and is not runnable"
        if unit in watch.saving:
            core = watch.saving[unit]
            stalls = self._stalls(core)
            return f"it is being switched out on {self._name(core)}, and is queued when a processor of it has left" + (f"; {stalls}" if stalls else "")
        if not cores:
            return "its pool has no processor"
        return BARS.get(self.home.sched, lambda answer: None)(self)


# why a unit may have no core

def cap_bars(answer):
    """Credit2: the budget of the domain's cap."""
    domain = answer.unit.domain
    pot = answer.watch.pots.get(domain)
    if pot is None or pot.left > 0:
        return None
    caps = domain.tally.caps
    had = f", of which the domain ran {milliseconds(ran_by(domain, answer.at) - caps.ran)} ms since {milliseconds(caps.begin)} ms" if caps.begin is not None else ""
    held = sum(max(0, part - (answer.at - since)) for since, part in pot.held.values())
    return f"the cap of {pot.cap}%, {milliseconds(pot.cap * 100_000)} ms in 10{had}" + (f"; its running units hold {milliseconds(held)} ms" if held else " and nothing is left") + "; the next refill comes {refill}"


def used_of(answer, unit):
    """What the unit ran in its term, the term, and whether it has extra time."""
    term = unit.tally[0]
    return (unit.ran_by(answer.at) - term.ran if term else None), term, answer.watch.extra.get(unit, setting(unit.domain, "extratime"))


def budget_bars(answer):
    """RTDS: the unit's budget."""
    used, term, extra = used_of(answer, answer.unit)
    if term is None or extra or used < term.budget:
        return None
    late = " (it is late)" if term.deadline <= answer.at else ""
    return f"its budget of {milliseconds(term.budget)} ms is used up, and it has no extra time; its deadline is {milliseconds(term.deadline)} ms{late}, and the next budget comes {{repl}}"


def window_bars(answer):
    """ARINC 653: the frame."""
    frames = answer.home.tally.frames
    if not frames:
        return "the pool has no frame, so nobody has a window"
    frame = frames[-1]
    begin = answer.at - (answer.at - frame.start) % frame.major
    present, coming = None, None
    # the windows of this frame and of the next one
    for start in (begin, begin + frame.major):
        for window in frame.windows:
            if start <= answer.at < start + window.length:
                present = window.unit, start + window.length
            elif window.unit is answer.unit and start > answer.at and coming is None:
                coming = start
            start += window.length
    if present and present[0] is answer.unit:
        return None
    whose = f"the window of {present[0].name} of {present[0].domain.name}, up to {milliseconds(present[1])} ms" if present else "the rest of the frame, which is nobody's"
    return f"it is not its window: it is {whose}" + ("; it has no window" if coming is None else f"; its next window begins at {milliseconds(coming)} ms")


BARS = {"credit2": cap_bars, "rtds": budget_bars, "arinc653": window_bars}


# why a core keeps what it has, beside a unit that may run

def unknown(answer, core, holder):
    return "", UNKNOWN


def by_credit(answer, core, holder):
    """Credit2: a unit that has run for less than the rate limit goes on; else the credit decides."""
    limit = answer.home.settings.get("ratelimit_us", DEFAULTS["ratelimit_us"]) * 1000
    if holder is None:
        return "", UNKNOWN
    return "", BY_LIMIT.format(milliseconds(limit)) if answer.at - answer.watch.chosen_at[core] < limit else BY_CREDIT


def by_deadline(answer, core, holder):
    """RTDS: the lower level, and then the earlier deadline."""
    if holder is None or holder.tally[0] is None or answer.unit.tally[0] is None:
        return "", UNKNOWN
    (mine, term, extra), (theirs, other, others_extra) = used_of(answer, answer.unit), used_of(answer, holder)
    levels = [used // its.budget if more else 0 for used, its, more in ((mine, term, extra), (theirs, other, others_extra))]
    text = f"; deadline {milliseconds(other.deadline)} ms" + (", in extra time" if levels[1] else "")
    if levels[0] > levels[1]:
        return text, BY_LEVEL
    if levels[0] == levels[1] and term.deadline >= other.deadline:
        return text, (BY_EQUAL if term.deadline == other.deadline else BY_DEADLINE).format(milliseconds(term.deadline))
    return text, UNKNOWN


def by_null(answer, core, holder):
    """Null: each core is kept for one unit."""
    owner = answer.watch.kept.get(core)
    if owner is None or owner is answer.unit:
        return "", UNKNOWN
    return f"; kept for {owner.name} of {owner.domain.name}", BY_NULL


AGAINST = {"credit2": by_credit, "rtds": by_deadline, "null": by_null}
