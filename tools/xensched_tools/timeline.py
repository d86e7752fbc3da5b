"""Keeps what is drawn of a schedule: the bars of the processors and vCPUs, the stays on cores, and the marks."""
import collections

from .schedule import HELD, PAUSED, WAITS, Core, Follower
from .words import milliseconds

# doing: a Vcpu, IDLE or HELD; due: None where the core does not ask again
Leg = collections.namedtuple("Leg", "processor begin end doing due late")
Stay = collections.namedtuple("Stay", "core begin end unit")
Wait = collections.namedtuple("Wait", "vcpu begin end state")  # state: WAITS or PAUSED
Stall = collections.namedtuple("Stall", "processor begin end")
Housed = collections.namedtuple("Housed", "core begin end home")  # home: the pool's name, or "free"
Period = collections.namedtuple("Period", "unit at start deadline budget")  # of an RTDS unit; at: when it was replenished
Refill = collections.namedtuple("Refill", "domain at budget")  # of a cap
Mark = collections.namedtuple("Mark", "at kind text")  # kind: one of MARK_KINDS

MARK_KINDS = {"refused": "#b00020", "done": "#00703c", "moved": "#0050b0", "stall": "#707070"}


class Timeline(Follower):
    """A followed schedule whose bars are kept, in the order of their ends, from the beginning of the part that is counted on; the memory grows with the lines."""

    def __init__(self, *given):
        super().__init__(*given)
        self.legs, self.stays, self.waits, self.stalls, self.housed, self.marks = [], [], [], [], [], []
        self.periods, self.refills = [], []
        self._home_since = dict.fromkeys(self.core_list, (0, "free"))
        for core in self.core_list:
            if core.home is not None:
                self._home_since[core] = 0, core.home.name

    def turn(self, processor, doing):
        before, begin = processor.doing, max(processor.since, self.begin)
        if before is not None and begin < self.now:
            core = processor.core
            self.legs.append(Leg(processor.index, begin, self.now, before, core.due, core.last_late))
        processor.since = self.now
        super().turn(processor, doing)

    def change(self, vcpu, state):
        begin = max(vcpu.since, self.begin)
        if vcpu.state in (WAITS, PAUSED) and begin < self.now:
            self.waits.append(Wait(vcpu, begin, self.now, vcpu.state))
        super().change(vcpu, state)

    def stay_over(self, core):
        begin = max(core.since, self.begin)
        if begin < self.now:
            self.stays.append(Stay(core.index, begin, self.now, core.unit))
        super().stay_over(core)

    def stalled(self, processor, until):
        if until > self.begin:
            self.stalls.append(Stall(processor.index, max(self.now, self.begin), until))
        self._mark("stall", f"p{processor.index} stalls to {milliseconds(until)} ms")
        super().stalled(processor, until)

    def replenished(self, unit, start, deadline, budget, extra):
        if deadline > self.begin:
            self.periods.append(Period(unit, self.now, start, deadline, budget))
        super().replenished(unit, start, deadline, budget, extra)

    def refilled(self, domain, periods, budget):
        if self.now >= self.begin:
            self.refills.append(Refill(domain, self.now, budget))
        super().refilled(domain, periods, budget)

    def answered_command(self, number, command, answer):
        said = " ".join(command.words) if command else f"command {number}"
        self._mark("refused" if answer.startswith("refused") else "done", f"{said}: {answer}")
        super().answered_command(number, command, answer)

    def joined(self, subject, home):
        name = home.name if home else "free"
        if isinstance(subject, Core):
            self._house(subject, name)
            subject_name = f"core {subject.index}"
        else:
            subject_name = subject.name
        self._mark("moved", f"{subject_name} joins {name}" if home else f"{subject_name} is free")
        super().joined(subject, home)

    def _house(self, core, name):
        since, before = self._home_since[core]
        begin = max(since, self.begin)
        if begin < self.now:
            self.housed.append(Housed(core.index, begin, self.now, before))
        self._home_since[core] = self.now, name

    def _mark(self, kind, text):
        if self.now >= self.begin:
            self.marks.append(Mark(self.now, kind, text))

    def _close(self):
        super()._close()
        for core in self.core_list:
            self._house(core, "free")

    def bars(self):
        """The bars of the processors on which something stands: a vCPU, or the wait for a sibling."""
        return [leg for leg in self.legs if leg.doing is HELD or not isinstance(leg.doing, str)]
