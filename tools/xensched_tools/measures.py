"""The measures of a schedule, as docs/MEASURES.md defines them, summed up while it is followed."""
from .commands import domain_of, setting
from .machine import options_of
from .promises import Promises
from .schedule import PAUSED, Domain, Follower

CAP_PERIOD = 10_000_000


class Distribution:
    """Spans: their count, sum and greatest exactly, and how often each came.

    At most EXACT different values are kept as they are. Where there are more, each is rounded down to its BITS leading binary digits, so that
    the memory has a bound; a percentile is then too small by less than one part in 2^(BITS-1).
    """

    EXACT, BITS = 4096, 9
    __slots__ = ("count", "total", "most", "most_at", "counts", "rounded")

    def __init__(self):
        self.count = self.total = self.most = 0
        self.most_at, self.counts, self.rounded = None, {}, False

    def add(self, span, at):
        """A span that ended at this moment."""
        self.count += 1
        self.total += span
        if span > self.most or self.most_at is None:
            self.most, self.most_at = span, at
        if self.rounded:
            span = self._round(span)
        counts = self.counts
        counts[span] = counts.get(span, 0) + 1
        if len(counts) > self.EXACT and not self.rounded:
            self._round_all()

    def _round(self, span):
        shift = span.bit_length() - self.BITS
        return span >> shift << shift if shift > 0 else span

    def _round_all(self):
        self.rounded, counts, self.counts = True, self.counts, {}
        for span, count in counts.items():
            span = self._round(span)
            self.counts[span] = self.counts.get(span, 0) + count

    def add_all(self, other):
        """All spans of another one too."""
        if other.count and (self.most_at is None or other.most > self.most):
            self.most, self.most_at = other.most, other.most_at
        self.count += other.count
        self.total += other.total
        self.rounded = self.rounded or other.rounded
        for span, count in other.counts.items():
            self.counts[span] = self.counts.get(span, 0) + count
        if self.rounded or len(self.counts) > self.EXACT:
            self._round_all()

    @property
    def mean(self):
        """The mean, None where there is no span."""
        return self.total / self.count if self.count else None

    def steps(self):
        """Each span with the count of those that are not greater, in order."""
        below = 0
        for span in sorted(self.counts):
            below += self.counts[span]
            yield span, below

    def percentiles(self, thousandths):
        """For each of these parts of a thousand, in rising order, the least span that is not below so many of all; None where there is none."""
        found, left = [], list(thousandths)
        for span, below in self.steps():
            while left and below * 1000 >= left[0] * self.count:
                found.append(span)
                left.pop(0)
        return found + [None] * len(left)


class Limit:
    """What `--deadline` or `--latency` asks of a vCPU, and how often it was met."""

    def __init__(self, kind, vcpu, span):
        self.kind, self.vcpu, self.span = kind, vcpu, span
        self.forget()

    def forget(self):
        """Counting begins."""
        self.met = self.missed = self.most = 0
        self.first_missed = None

    def judge(self, span, at):
        """A span of this kind ended at this moment."""
        self.most = max(self.most, span)
        if span <= self.span:
            self.met += 1
            return
        self.missed += 1
        if self.first_missed is None:
            self.first_missed = at


class VcpuTally:
    """What is summed up of a vCPU: its waits, its jobs, and how far its releases have drifted."""

    __slots__ = ("waits", "jobs", "due", "delayed", "releases", "drifted", "drift", "deadlines", "latencies", "paused_before")

    def __init__(self, vcpu):
        # of a script that is not known all jobs are of one kind
        self.waits, self.jobs = Distribution(), [Distribution() for _ in ([None] if vcpu.script is None else vcpu.script[::2])]
        self.due = self.delayed = self.drifted = self.drift = self.paused_before = 0
        self.releases, self.deadlines, self.latencies = int(vcpu.job_from is not None), [], []

    def forget(self):
        """Counting begins; what is due and how far it has drifted stays."""
        self.waits, self.jobs = Distribution(), [Distribution() for _ in self.jobs]
        self.delayed = self.releases = self.drifted = 0
        for limit in (*self.deadlines, *self.latencies):
            limit.forget()


class Term:
    """The present term of an RTDS unit."""

    __slots__ = ("begin", "deadline", "budget", "ran", "waited")

    def __init__(self, begin, deadline, budget, unit):
        self.begin, self.deadline, self.budget, self.ran, self.waited = begin, deadline, budget, unit.ran_by(begin), unit.waited_by(begin)


class Terms:
    """All whole terms of an RTDS unit."""

    def __init__(self):
        self.count = self.given = self.had = self.extra = self.missing = self.short = self.most_missing = self.lates = self.most_late = self.skipped = 0
        self.least = self.most_missing_at = self.most_late_at = None

    def add(self, term, had, extra, missing, at):
        """A term that is over at this moment."""
        self.count += 1
        self.given += term.budget
        self.had += had
        self.extra += extra
        self.least = had if self.least is None else min(self.least, had)
        if missing:
            self.missing += missing
            self.short += 1
            if missing > self.most_missing:
                self.most_missing, self.most_missing_at = missing, at

    def add_late(self, late, at, skipped):
        """A replenishment that came so much after it could, and so many whole periods."""
        self.lates += 1
        self.skipped += skipped
        if late > self.most_late:
            self.most_late, self.most_late_at = late, at


class Window:
    """A window of a frame: what its unit had of it, and what it lost."""

    def __init__(self, unit, length):
        self.unit, self.length = unit, length
        self.begin = self.ran = self.waited = None
        self.forget()

    def forget(self):
        """Counting begins; a window that is open stays so."""
        self.count = self.had = self.lost = self.most_lost = 0
        self.most_lost_at = None

    def open(self, at):
        self.begin, self.ran, self.waited = at, self.unit.ran_by(at), self.unit.waited_by(at)

    def close(self, at):
        """The window is over; its unit had and lost so much of it."""
        had, lost = self.unit.ran_by(at) - self.ran, self.unit.waited_by(at) - self.waited
        self.count += 1
        self.had += had
        self.lost += lost
        if lost > self.most_lost:
            self.most_lost, self.most_lost_at = lost, at
        return had, lost

    def pass_whole(self, begin, times):
        """So many whole windows pass while nothing changes; the first one begins here."""
        self.count += times
        if self.unit.core is not None:
            self.had += times * self.length
        if self.unit.waits_from is not None:
            self.lost += times * self.length
            if self.length > self.most_lost:
                self.most_lost, self.most_lost_at = self.length, begin + self.length


class Frame:
    """The frame of an ARINC 653 pool, and the next moment at which one of its windows begins or ends."""

    def __init__(self, home, units, installed):
        self.home, self.start, self.major = home, installed, home.settings["major_ns"]
        self.windows = [Window(units[f"d{d}u{u}"], run) for d, u, run in home.settings["frame"]]
        self.next, self.place, self.present = installed, 0, None

    def step(self):
        """The next moment has come: a window ends, and the next one begins. Answers the window that ended, with what it had and lost."""
        at, ended = self.next, None
        if self.present:
            ended = (self.present, *self.present.close(at))
        self.present = None
        if self.place == len(self.windows):
            self.start += self.major
            self.place, self.next = 0, self.start
        else:
            window = self.windows[self.place]
            if window.unit.domain.home is self.home:
                self.present = window
                window.open(at)
            self.place += 1
            self.next = at + window.length
        return ended

    def begins(self):
        """Whether its next moment is the beginning of a whole frame."""
        return self.place == 0 and self.present is None and self.next == self.start

    def pass_whole(self, times):
        """So many whole frames pass while nothing changes."""
        begin = self.start
        for window in self.windows:
            if window.unit.domain.home is self.home:
                window.pass_whole(begin, times)
            begin += window.length
        self.start += times * self.major
        self.next = self.start


class Caps:
    """The terms of a capped domain, from one refill to the next."""

    def __init__(self):
        self.begin = self.ran = self.cap = None
        self.forget()

    def forget(self):
        """Counting begins; the present term stays."""
        self.count = self.allowed = self.had = self.used_up = self.most_over = 0
        self.most, self.most_at, self.most_over_at = 0, None, None

    def open(self, at, domain, cap):
        self.begin, self.ran, self.cap = at, ran_by(domain, at), cap

    def close(self, at, domain, periods):
        """The term is over: what the domain had, and what the cap allowed, None where no file says it."""
        had = ran_by(domain, at) - self.ran
        allowed = None if self.cap is None else self.cap * (CAP_PERIOD // 100) * periods
        self.count += 1
        self.had += had
        if had > self.most:
            self.most, self.most_at = had, at
        if allowed is not None:
            self.allowed += allowed
            self.used_up += had >= allowed
            if had - allowed > self.most_over:
                self.most_over, self.most_over_at = had - allowed, at
        return had, allowed


class Visit:
    """A domain in a pool, from the moment at which it joined."""

    def __init__(self, domain, home, begin):
        self.domain, self.home, self.name, self.begin, self.end = domain, home, home.name, begin, None
        self.ran, self.waited, self.capacity = ran_by(domain, begin), waited_by(domain, begin), home.tally.capacity
        self.says, self.at_most = 0.0, 0.0
        self.words = ""

    def leave(self, at):
        """It is over: what was counted at its beginning becomes what was counted in it."""
        self.end = at
        self.ran, self.waited = ran_by(self.domain, at) - self.ran, waited_by(self.domain, at) - self.waited
        self.capacity = self.home.tally.capacity - self.capacity
        self.home.tally.ran += self.ran


class DomainTally:
    """Where a domain is, and the terms of its cap."""

    __slots__ = ("visit", "caps")

    def __init__(self, visit):
        self.visit, self.caps = visit, Caps()


class PoolTally:
    """The time of a pool's cores, what its domains ran, and its frames; the last one is in force."""

    __slots__ = ("capacity", "ran", "settled", "frames")

    def __init__(self, begin):
        self.capacity = self.ran = 0
        self.settled, self.frames = begin, []


class Before:
    """What units, vCPUs and cores had before the part that is counted."""

    def __init__(self, study):
        now = study.now
        self.ran = {unit: unit.ran_by(now) for unit in study.units.values()}
        self.waited = {unit: unit.waited_by(now) for unit in study.units.values()}
        self.times = {vcpu: list(vcpu.times) for vcpu in study.vcpus.values()}
        self.busy = {core: busy_by(core, now) for core in study.core_list}


def busy_by(core, moment):
    """The time in which some unit had the core, up to the present moment."""
    return core.ran + (moment - core.since if core.unit else 0)


def since_release(vcpu, at):
    """The time since the vCPU's release, without that in which its domain was paused though it could have run."""
    paused = vcpu.times[PAUSED] + (at - vcpu.since if vcpu.state == PAUSED else 0)
    return at - vcpu.job_from - (paused - vcpu.tally.paused_before)


def ran_by(domain, at):
    """The time of the domain's units on cores."""
    return sum(unit.ran_by(at) for unit in domain.units)


def waited_by(domain, at):
    """The time of the domain's units without a core though they could run."""
    return sum(unit.waited_by(at) for unit in domain.units)


def visits_of(study, domain):
    """The domain's visits, in order."""
    return [visit for visit in study.visits if visit.domain is domain]


def capacity_of(study, domain):
    """The time of all cores of the pools that the domain was in, meanwhile."""
    return sum(visit.capacity for visit in visits_of(study, domain))


def said_of(study, domain):
    """The core time that the parameters promised the domain, None where it is not known."""
    said = [visit.says for visit in visits_of(study, domain)]
    return None if None in said else sum(said)


def promised(home, domain):
    """What the parameters promise the domain and what they allow at most, in cores (None: nothing is known), and both in words. A unit has a core at most."""
    cores, units = len(home.cores), len(domain.units)
    most = min(units, cores)
    if home.sched is None:
        return None, None, "not known: no work file"
    says, at_most, text = PROMISES[home.sched](home, domain, cores, units, most)
    return min(says, most), min(at_most, most), text


def credit2_promise(home, domain, cores, units, most):
    """Each unit has the weight of its domain."""
    weight, cap = setting(domain, "weight"), setting(domain, "cap")
    all_weights = sum(setting(other, "weight") * len(other.units) for other in home.domains)
    text = f"weight {weight}{f' x {units}' if units > 1 else ''} of {all_weights}" + (f", cap {cap}%" if cap else "")
    return cores * weight * units / all_weights, cap / 100 if cap else most, text


def rtds_promise(home, domain, cores, units, most):
    """Each unit has the budget in each period."""
    period, budget, extra = (setting(domain, key) for key in ("period_us", "budget_us", "extratime"))
    text = f"{budget} of {period} us" + (f" x {units}" if units > 1 else "") + (", extra time" if extra else "")
    return units * budget / period, most if extra else units * budget / period, text


def arinc653_promise(home, domain, cores, units, most):
    """The windows, where there is a frame and a core for it."""
    major = home.settings.get("major_ns", 0)
    spans = sum(run for d, _, run in home.settings.get("frame", []) if d == domain.index)
    return (spans / major if spans else 0.0, spans / major if spans else 0.0, f"windows of {spans} of {major} ns" if spans else "no window")


def null_promise(home, domain, cores, units, most):
    """A core for each unit, as far as there are cores."""
    return most, most, f"{units} units, {cores} cores"


PROMISES = {"credit2": credit2_promise, "rtds": rtds_promise, "arinc653": arinc653_promise, "null": null_promise}


class Study(Follower):
    """A followed schedule with its measures. `each` is told each job, term, window and term of a cap when it is over."""

    def __init__(self, machine, work=None, each=None):
        super().__init__(machine, work)
        self.each, self.promises, self._each_of_part = each, None, each
        self.visits, self.frames, self.next_boundary = [], [], None
        for home in self.pools.values():
            home.tally = PoolTally(0)
        for vcpu in self.vcpus.values():
            vcpu.tally = VcpuTally(vcpu)
        for domain in self.domain_list:
            self._enter(domain)
            self._open_cap(domain)
        for home in self.pools.values():
            if home.settings.get("frame"):
                self.frame_set(home)
        self.before = Before(self)

    # the part that is counted

    def count_part(self, begin, until):
        super().count_part(begin, until)
        self.each = self._each_of_part if self.is_begun else None

    def part_begins(self):
        """All counts begin anew; what is under way goes on."""
        self.parameters_change()
        self.before, self.each, self.visits = Before(self), self._each_of_part, []
        for home in self.pools.values():
            home.tally.capacity = home.tally.ran = 0
            for frame in home.tally.frames:
                for window in frame.windows:
                    window.forget()
        for domain in self.domain_list:
            domain.tally.visit = Visit(domain, domain.home, self.now)
            self.visits.append(domain.tally.visit)
            domain.tally.caps.forget()
        for unit in self.units.values():
            unit.picks = unit.moves = unit.preempted = unit.repl = unit.late = 0
            unit.tally[1] = Terms()
        for core in self.core_list:
            core.decides = core.late = core.lates = core.most_late = core.most_late_at = 0
        for vcpu in self.vcpus.values():
            vcpu.tally.forget()

    @property
    def span(self):
        """How long the part is that is counted."""
        return self.end - self.begin

    def ran(self, unit):
        """The unit's time on cores in the part that is counted."""
        return unit.ran_by(self.end) - self.before.ran[unit]

    def waited(self, unit):
        """The unit's time without a core though it could run, in the part that is counted."""
        return unit.waited_by(self.end) - self.before.waited[unit]

    def times(self, vcpu):
        """What the vCPU did with the part that is counted, by state."""
        return [time - before for time, before in zip(vcpu.times, self.before.times[vcpu])]

    def busy(self, core):
        """The time of the core with a unit in the part that is counted."""
        return busy_by(core, self.end) - self.before.busy[core]

    # what the laws promise

    def count_promises(self):
        """Asks for the table `promises`, before the first line."""
        self.promises = Promises(self)

    def decided(self, core, unit):
        if self.promises:
            self.promises.decided(core, unit)

    def stalled(self, processor, until):
        if self.promises:
            self.promises.stalled(processor, until)

    def answered_command(self, number, command, answer):
        if self.promises:
            self.promises.has_commands = True
            if command is not None and not answer.startswith("refused"):
                self._command_promises(command.words)

    def _command_promises(self, words):
        """A command is about to be carried out: it may send a core or a domain elsewhere, or pin one."""
        rest = options_of(words)[1]
        try:
            if words[0] == "cpupool-cpu-remove":
                self.promises.core_leaves(self.processors[f"p{int(rest[1])}"].core)
            elif words[0] == "cpupool-migrate":
                self.promises.domain_moves(domain_of(self, rest[0]))
            elif words[0] == "vcpu-pin":
                self.promises.pins(domain_of(self, rest[0]))
        except (IndexError, KeyError, ValueError):
            # that the command cannot have been done is said where it is carried out
            return

    # pools and what they promise

    def _enter(self, domain):
        visit = Visit(domain, domain.home, self.now)
        self.visits.append(visit)
        if domain.tally is None:
            domain.tally = DomainTally(visit)
        domain.tally.visit = visit
        for unit in domain.units:
            terms = unit.tally[1] if unit.tally else Terms()
            unit.tally = [self._first_term(unit), terms]

    def _first_term(self, unit):
        """A unit that joins an RTDS pool has its budget at once. Where it is not known what the domain does, the schedule begins within a term."""
        domain = unit.domain
        if domain.home.sched != "rtds" or any(vcpu.script is None for vcpu in domain.vcpus):
            return None
        period, budget = (setting(domain, key) * 1000 for key in ("period_us", "budget_us"))
        return Term(self.now, self.now + period, budget, unit)

    def make_pool(self, i, pool):
        super().make_pool(i, pool)
        self.pools[i].tally = PoolTally(self.now)

    def parameters_change(self):
        """What was promised up to now is added up."""
        for home in self.pools.values():
            span = self.now - home.tally.settled
            home.tally.settled = self.now
            home.tally.capacity += span * len(home.cores)
            for domain in home.domains:
                self._add_promise(domain.tally.visit, home, domain, span)

    def _add_promise(self, visit, home, domain, span):
        says, at_most, visit.words = promised(home, domain)
        visit.words += ", changed" if domain.changed else ""
        if not span:
            return
        visit.says = None if says is None or visit.says is None else visit.says + says * span
        visit.at_most = None if at_most is None or visit.at_most is None else visit.at_most + at_most * span

    def joined(self, subject, home):
        if self.promises:
            self.promises.joined(subject)
        if not isinstance(subject, Domain):
            return
        subject.tally.visit.leave(self.now)
        subject.changed = False
        self._enter(subject)
        self._open_cap(subject)

    # waits and jobs

    def began(self, vcpu):
        tally, wait = vcpu.tally, since_release(vcpu, self.now)
        tally.waits.add(wait, self.now)
        for limit in tally.latencies:
            limit.judge(wait, self.now)

    def job_done(self, vcpu):
        script, tally, work, place = vcpu.script, vcpu.tally, None, 0
        if script == []:
            self.fault(f"{vcpu.name} blocks, and its script never does")
            return
        if script:
            place = 2 * vcpu.jobs % len(script)
            work = script[place]
            tally.due += work + script[place + 1]
        if vcpu.job_from is None:
            return
        response = since_release(vcpu, self.now)
        tally.jobs[place // 2].add(response, self.now)
        tally.delayed += work is not None and response > work
        for limit in tally.deadlines:
            limit.judge(response, self.now)
        if self.each:
            self.each("job", vcpu.name, vcpu.job_from, self.now, work, response=response)

    def released(self, vcpu):
        tally = vcpu.tally
        tally.releases += 1
        tally.paused_before = vcpu.times[PAUSED]
        tally.drift = self.now - tally.due - tally.paused_before
        tally.drifted += tally.drift > 0

    # RTDS

    def replenished(self, unit, start, deadline, budget, extra):
        term, terms = unit.tally
        late = 0
        if term is not None:
            could = max(term.deadline, unit.ready_from)
            late = self.now - could
            if late > 0:
                terms.add_late(late, self.now, max(0, start - could) // (deadline - start))
            self._end_term(unit, late)
        unit.tally[0] = Term(self.now, deadline, budget, unit)

    def _end_term(self, unit, late=0):
        """The unit's term is over at the present moment."""
        term, terms = unit.tally
        ran = unit.ran_by(self.now) - term.ran
        had, missing = min(ran, term.budget), 0
        if unit.awake and not unit.domain.paused:
            waited = unit.waited_by(self.now) - max(term.waited, unit.waited_when_ready)
            missing = min(term.budget - had, waited)
        terms.add(term, had, ran - had, missing, self.now)
        if self.promises:
            self.promises.term_over(unit, term, ran, self.now)
        if self.each:
            self.each("term", unit.name, term.begin, self.now, term.budget, had=had, missing=missing, extra=ran - had, late=late)

    # ARINC 653

    def frame_set(self, home):
        home.tally.frames.append(Frame(home, self.units, self.now))
        self.frames = [other.tally.frames[-1] for other in self.pools.values() if other.tally.frames]
        self._pass_boundaries(self.now)

    def moment_comes(self, moment):
        if self.promises:
            self.promises.time_passes(self.now, moment)
        if self.next_boundary is not None and self.next_boundary <= moment:
            self._pass_boundaries(moment)
        if self.promises:
            for frame in self.frames:
                self.promises.window_passes(frame, moment)

    def _pass_boundaries(self, moment):
        for frame in self.frames:
            while frame.next <= moment:
                if frame.begins() and self._pass_frames(frame, moment):
                    continue
                if self.promises:
                    self.promises.window_passes(frame, frame.next)
                at, ended = frame.next, frame.step()
                if ended and self.each:
                    window, had, lost = ended
                    self.each("window", window.unit.name, at - window.length, at, window.length, had=had, missing=lost)
        self.next_boundary = min((frame.next for frame in self.frames), default=None)

    def _pass_frames(self, frame, moment):
        """Passes as many whole frames as lie before the moment, at once; answers whether there were some. Where each window is told, they go one by one."""
        times = 0 if self.each else (moment - frame.start) // frame.major
        if times and self.promises:
            times = self.promises.frames_pass(frame, times)
        if times:
            frame.pass_whole(times)
        return times > 0

    # caps

    def _open_cap(self, domain):
        cap = setting(domain, "cap") if domain.home.sched == "credit2" else 0
        domain.tally.caps.begin = None
        if cap:
            domain.tally.caps.open(self.now, domain, cap)

    def cap_set(self, domain):
        self._open_cap(domain)

    def refilled(self, domain, periods, budget):
        caps = domain.tally.caps
        cap = caps.cap
        if caps.begin is not None:
            begin = caps.begin
            had, allowed = caps.close(self.now, domain, periods)
            if self.each:
                self.each("cap", f"d{domain.index}", begin, self.now, allowed, had=had)
        caps.open(self.now, domain, cap)

    # the end

    def _close(self):
        """The figures that a report has are those of the last entry; all others go to the end. A term is over at its replenishment, or at the end of the run."""
        super()._close()
        self.reported = Reported(self)
        self.parameters_change()
        for domain in self.domain_list:
            domain.tally.visit.leave(self.end)
        for unit in self.units.values():
            if self.end == self.run_end and unit.tally[0] is not None and unit.tally[0].deadline <= self.end:
                self._end_term(unit)


class Reported:
    """What `xensched report` says of the same entries: up to the last one. Of a part, what is up to there."""

    def __init__(self, study):
        self.end = max(study.begin, min(study.last, study.end))
        self.units = {unit.name: (unit.ran_by(self.end) - study.before.ran[unit], unit.picks, unit.repl, unit.late) for unit in study.units.values()}
        self.cores = {}
        for name, core in study.cores.items():
            ran = busy_by(core, self.end) - study.before.busy[core]
            self.cores[name] = (ran, self.end - study.begin - ran, core.decides)
