"""Follows a schedule line by line: what each processor, core, unit, vCPU and domain does, in memory that does not grow with the lines.

`Follower` keeps the present. What is made of it (measures, a timeline) stands in classes that override `change`, `turn`, `released` and
the other methods marked as told. docs/FORMATS.md has the lines.
"""
import itertools
import math

from . import commands
from .machine import Pool
from .words import Refused, milliseconds

RUNS, WAITS, SLEEPS, PAUSED = range(4)
IDLE, HELD = "idle", "held"
MOST_FAULTS = 100


class Vcpu:
    """A vCPU: what it does since when, and its present job. Where its script is not known (None), it sleeps until a line speaks of it."""

    __slots__ = ("name", "domain", "unit", "index", "script", "state", "since", "times", "job_from", "has_run", "jobs", "tally")

    def __init__(self, domain, unit, index, script):
        self.name, self.domain, self.unit, self.index, self.script = f"d{domain.index}v{index}", domain, unit, index, script
        self.state, self.since, self.times = WAITS, 0, [0, 0, 0, 0]
        self.job_from, self.has_run, self.jobs, self.tally = 0, False, 0, None
        if script is None:
            self.state, self.job_from, self.has_run = SLEEPS, None, True

    def may_be_anything(self):
        """Whether no line has said yet what it does."""
        return self.script is None and self.job_from is None and not self.jobs


class Unit:
    """A schedule unit: the core that it is on, its time on cores, and its time without one though it could run."""

    __slots__ = ("name", "domain", "index", "awake", "core", "last_core", "ran", "waits_from", "waited", "ready_from", "waited_when_ready", "picks", "moves", "preempted", "repl", "late", "tally")

    def __init__(self, domain, index):
        self.name, self.domain, self.index = f"d{domain.index}u{index}", domain, index
        self.awake, self.core, self.last_core, self.tally = 0, None, None, None
        self.ran, self.waits_from, self.waited, self.ready_from, self.waited_when_ready = 0, 0, 0, 0, 0
        self.picks = self.moves = self.preempted = self.repl = self.late = 0

    def ran_by(self, moment):
        """Its time on cores up to the present moment."""
        return self.ran + (moment - self.core.since if self.core else 0)

    def waited_by(self, moment):
        """Its time without a core though it could run, up to the present moment."""
        return self.waited + (moment - self.waits_from if self.waits_from is not None else 0)


class Domain:
    """A domain: its home, and the parameters that it has now."""

    __slots__ = ("name", "index", "home", "units", "vcpus", "paused", "settings", "changed", "tally")

    def __init__(self, index, name, settings):
        self.index, self.name, self.settings = index, name, settings
        self.home, self.units, self.vcpus, self.paused, self.changed, self.tally = None, [], [], False, False, None


class Home:
    """A pool: its cores and domains, and the parameters that it has now. `sched` is None where no file says it."""

    __slots__ = ("index", "name", "sched", "settings", "cores", "domains", "tally")

    def __init__(self, index, pool):
        self.index, self.name, self.sched, self.settings = index, pool.name, pool.sched, dict(pool.settings)
        self.cores, self.domains, self.tally = set(), [], None


class Core:
    """A core: the unit that it is given to, since when, and what it decided last."""

    __slots__ = ("index", "home", "unit", "since", "ran", "decides", "late", "lates", "most_late", "most_late_at", "due", "last_late", "processors")

    def __init__(self, index):
        self.index, self.home, self.unit, self.since, self.ran, self.decides = index, None, None, 0, 0, 0
        self.late = self.lates = self.most_late = self.most_late_at = 0
        self.due, self.last_late, self.processors = None, 0, []


class Processor:
    """A processor: what it does (a vCPU, IDLE, HELD, or None before its first line), and since when."""

    __slots__ = ("index", "core", "doing", "since")

    def __init__(self, index, core):
        self.index, self.core, self.doing, self.since = index, core, None, 0


class Follower:
    """The machine as the lines that were read leave it."""

    def __init__(self, machine, work=None):
        self.machine, self.work = machine, work
        self.now = self.end = self.entries = 0
        self.finished, self.faults, self.fault_count = False, [], 0
        self.refused, self.answered, self.unknown_commands = [], 0, 0
        # The part that is counted, the next moment at which it begins or ends, and the entries before it.
        self.begin, self.until, self.is_begun = 0, None, True
        self._edge, self._entries_before = math.inf, 0
        self._make_cores()
        self._make_pools()
        self._make_domains()
        self._handlers = {
            "arrive": self._arrive, "decide": self._decide, "leave": self._leave, "save": self._save, "block": self._block, "wake": self._wake,
            "repl": self._repl, "refill": self._refill, "stall": self._stall, "xl": self._xl, "moved": self._moved, "dom-moved": self._dom_moved,
            "slice": lambda words: None, "end": lambda words: None, "finish": self._finish,
        }

    def _make_cores(self):
        siblings = self.machine.granularity
        self.core_list = [Core(r) for r in range(self.machine.cores)]
        self.processor_list = [Processor(p, self.core_list[p // siblings]) for p in range(self.machine.processors)]
        for processor in self.processor_list:
            processor.core.processors.append(processor)
        self.cores = {f"c{core.index}": core for core in self.core_list}
        self.processors = {f"p{processor.index}": processor for processor in self.processor_list}

    def _make_pools(self):
        self.pools = {}
        for i, pool in enumerate(self.machine.pools):
            home = self.pools[i] = Home(i, pool)
            for cpu in pool.cpus:
                if not 0 <= cpu < self.machine.processors:
                    raise Refused(f"the pool {pool.name} has the processor {cpu}, and the machine has {self.machine.processors}")
                core = self.core_list[cpu // self.machine.granularity]
                core.home = home
                home.cores.add(core)

    def _make_domains(self):
        self.domain_list, self.units, self.vcpus = [], {}, {}
        for d, described in enumerate(self.machine.domains):
            domain = Domain(d, described.name, dict(described.settings))
            domain.home = next(home for home in self.pools.values() if home.name == described.pool)
            domain.home.domains.append(domain)
            domain.units = [Unit(domain, u) for u in range(self.machine.units_of(described))]
            for v, script in enumerate(described.guests):
                unit = domain.units[v // self.machine.granularity]
                unit.awake += script is not None
                domain.vcpus.append(Vcpu(domain, unit, v, script))
            self.domain_list.append(domain)
            self.units.update((unit.name, unit) for unit in domain.units)
            self.vcpus.update((vcpu.name, vcpu) for vcpu in domain.vcpus)
        self.domains = {f"d{domain.index}": domain for domain in self.domain_list}

    # the part that is counted

    def count_part(self, begin, until):
        """Asks for what is between two moments alone, before the first line; None is the end of the run. A line counts where its moment is, and that of
        `until` belongs to the part behind it."""
        horizon = self.machine.horizon
        if until is not None and until > horizon:
            raise Refused(f"the part is to end at {milliseconds(until)} ms, and the horizon is at {milliseconds(horizon)} ms")
        if begin >= (horizon if until is None else until):
            raise Refused(f"there is nothing between {milliseconds(begin)} ms and {milliseconds(horizon if until is None else until)} ms")
        # all lines of the horizon belong to the last part
        self.begin, self.until, self.is_begun = begin, None if until == horizon else until, not begin
        self._edge = self._end_edge() if self.is_begun else begin

    @property
    def is_part(self):
        """Whether not all of the run is counted."""
        return self.begin > 0 or self.until is not None

    def _end_edge(self):
        return math.inf if self.until is None else self.until

    def _pass_edge(self, moment):
        """The part begins or ends up to this moment. Answers whether it ends."""
        if not self.is_begun:
            self._begin_part()
        return moment >= self._edge

    def _begin_part(self):
        self._go_to(self.begin)
        self.is_begun, self._edge, self._entries_before = True, self._end_edge(), self.entries
        for vcpu in self.vcpus.values():
            self.change(vcpu, vcpu.state)
        for processor in self.processor_list:
            self.turn(processor, processor.doing)
        self.part_begins()

    # reading

    def follow(self, lines):
        """Reads the lines to their end, and closes what is open."""
        number, told, is_over = 0, None, False
        handlers, numbered = self._handlers, enumerate(lines, 1)
        try:
            for number, line in numbered:
                words = line.split()
                if words[0] != told:
                    told = words[0]
                    if int(told) >= self._edge and self._pass_edge(int(told)):
                        is_over = True
                        break
                    self._go_to(int(told))
                self.entries = number
                handlers[words[1]](words)
            self.counted = self.entries - self._entries_before if self.is_begun else 0
            if is_over:
                # behind the part only the answers to commands and the last line matter
                for number, line in itertools.chain([(number, line)], numbered):
                    words = line.split()
                    if words[1] == "xl":
                        self.answered = int(words[2])
                self.entries, told, self.finished = number, words[0], words[1] == "finish"
                int(told)
        except UnicodeDecodeError:
            raise Refused(f"line {number + 1} or one behind it is no text: this is no schedule") from None
        except (IndexError, KeyError, ValueError):
            raise Refused(self._odd_line(number, line)) from None
        if not number:
            raise Refused("the schedule is empty")
        self.last = int(told)
        self._close()
        return self

    def _odd_line(self, number, line):
        """Why a line could not be followed."""
        words = line.split()
        if len(words) > 1 and words[0].isdecimal() and words[1] in self._handlers:
            return f"line {number} is none of a run on this machine: {line.strip()!r}; is the domain file that of the run?"
        return f"line {number} is no line of a schedule: {line.strip()[:80]!r}"

    def _go_to(self, moment):
        if moment < self.now:
            raise Refused(f"line {self.entries + 1} goes back from {self.now} to {moment}: this is no schedule")
        self.moment_comes(moment)
        self.now = moment

    def _close(self):
        """The run is over, or cut: what goes on at the last entry goes on to the end."""
        if self.last > self.machine.horizon:
            raise Refused(f"the last entry is at {self.last}, and the horizon is {self.machine.horizon}: is the domain file that of the run?")
        self.run_end = self.machine.horizon if self.finished else self.last
        self.end = self.run_end if self.until is None else min(self.run_end, self.until)
        if self.begin and self.begin >= self.end:
            raise Refused(f"the schedule ends at {milliseconds(self.end)} ms, and the part begins at {milliseconds(self.begin)} ms")
        if not self.is_begun:
            self._begin_part()
        self._go_to(self.end)
        for vcpu in self.vcpus.values():
            self.change(vcpu, vcpu.state)
        for processor in self.processor_list:
            self.turn(processor, processor.doing)
        for core in self.core_list:
            if core.unit is not None:
                self.stay_over(core)

    def fault(self, text):
        """A line contradicts those before it."""
        self.fault_count += 1
        if len(self.faults) < MOST_FAULTS:
            self.faults.append(f"line {self.entries}: {text}")

    # what classes that make something of it override

    def part_begins(self):
        """Told that what is counted begins now."""

    def moment_comes(self, moment):
        """Told before the first line of a later moment: up to it everything stays as it is."""

    def change(self, vcpu, state):
        """Told that the vCPU does this from now on."""
        vcpu.times[vcpu.state] += self.now - vcpu.since
        vcpu.since = self.now
        vcpu.state = state

    def turn(self, processor, doing):
        """Told that the processor does this from now on."""
        processor.doing = doing

    def decided(self, core, unit):
        """Told that the core decides for the unit, or to idle (None); what it had before is still its own."""

    def stay_over(self, core):
        """Told that the core's unit leaves it, or that the run ends."""

    def began(self, vcpu):
        """Told that the vCPU runs for the first time since it was released."""

    def job_done(self, vcpu):
        """Told that the vCPU ends the job that was released at `job_from`, None where no line says when."""

    def released(self, vcpu):
        """Told that a sleep has ended, and a job begins."""

    def replenished(self, unit, start, deadline, budget, extra):
        """Told that the unit has its new period."""

    def refilled(self, domain, periods, budget):
        """Told that the domain's cap was refilled for so many periods, and the budget that it has then."""

    def stalled(self, processor, until):
        """Told that the processor stalls."""

    def answered_command(self, number, command, answer):
        """Told of an answer; the command is None where no work file is known."""

    def joined(self, subject, home):
        """Told that a core or a domain has joined the pool, or is free (None)."""

    def parameters_change(self):
        """Told before pools, domains or their parameters change."""

    def cap_set(self, domain):
        """Told that the domain's cap was set, maybe to what it was: its budget is full."""

    def frame_set(self, home):
        """Told that the pool has a new frame, which begins now."""

    # the lines

    def _make_ready(self, unit):
        """The unit could not run before, and can now."""
        unit.ready_from, unit.waited_when_ready = self.now, unit.waited

    def _settle(self, unit):
        """The unit waits where it could run and has no core."""
        if unit.awake and unit.core is None and not unit.domain.paused:
            if unit.waits_from is None:
                unit.waits_from = self.now
        elif unit.waits_from is not None:
            unit.waited += self.now - unit.waits_from
            unit.waits_from = None

    def _stop(self, processor):
        """The vCPU on the processor, if there is one, no longer runs."""
        vcpu = processor.doing
        if vcpu.__class__ is Vcpu:
            self.change(vcpu, PAUSED if vcpu.domain.paused else WAITS)

    def _run(self, processor, vcpu):
        if vcpu.state == SLEEPS:
            if not vcpu.may_be_anything():
                self.fault(f"{vcpu.name} runs, and no line says that it woke")
            vcpu.job_from, vcpu.has_run = None, True
            vcpu.unit.awake += 1
        elif vcpu.state == RUNS:
            self.fault(f"{vcpu.name} runs already")
        if not vcpu.has_run:
            vcpu.has_run = True
            self.began(vcpu)
        self.change(vcpu, RUNS)
        self.turn(processor, vcpu)

    def _arrive(self, words):
        processor = self.processors[words[2]]
        self._stop(processor)
        self.turn(processor, HELD)

    def _leave(self, words):
        processor = self.processors[words[2]]
        self._stop(processor)
        if words[3] == "idle":
            self.turn(processor, IDLE)
        else:
            self._run(processor, self.vcpus[words[3]])

    def _decide(self, words):
        core = self.cores[words[2]]
        unit = None if words[3] == "idle" else self.units[words[3]]
        before = core.unit
        self.decided(core, unit)
        core.decides += 1
        core.due, core.last_late = None if words[5] == "none" else int(words[5]), int(words[7])
        if core.last_late:
            self._count_late(core, core.last_late)
        if unit is before:
            return
        if before is not None:
            self.stay_over(core)
            core.ran += self.now - core.since
            before.ran += self.now - core.since
            before.core = None
            self._settle(before)
        core.unit, core.since = unit, self.now
        if unit is not None:
            self._give(unit, core)

    def _give(self, unit, core):
        if unit.core is not None:
            self.fault(f"{unit.name} is given to core {core.index}, and is on core {unit.core.index}")
            unit.core.unit = None
        unit.core = core
        unit.picks += 1
        if unit.last_core is not core:
            unit.moves += unit.last_core is not None
            unit.last_core = core
        self._settle(unit)

    def _count_late(self, core, late):
        core.late += late
        core.lates += 1
        if late > core.most_late:
            core.most_late, core.most_late_at = late, self.now
        if core.unit is not None:
            core.unit.late += late

    def _save(self, words):
        if words[4] == "queued":
            self.units[words[3]].preempted += 1

    def _block(self, words):
        processor, vcpu = self.processors[words[2]], self.vcpus[words[3]]
        runs = processor.doing is vcpu
        if not runs and vcpu.script is not None:
            self.fault(f"{vcpu.name} blocks on p{processor.index}, which does not run it")
        if vcpu.state == SLEEPS:
            return
        self.job_done(vcpu)
        vcpu.jobs += 1
        self.change(vcpu, SLEEPS)
        vcpu.unit.awake -= 1
        self._settle(vcpu.unit)
        if runs or vcpu.script is not None:
            self.turn(processor, IDLE)

    def _wake(self, words):
        vcpu = self.vcpus[words[2]]
        if vcpu.state != SLEEPS:
            self.fault(f"{vcpu.name} wakes, and does not sleep")
            return
        unit = vcpu.unit
        vcpu.job_from, vcpu.has_run = self.now, False
        self.released(vcpu)
        self.change(vcpu, PAUSED if vcpu.domain.paused else WAITS)
        if not unit.awake:
            self._make_ready(unit)
        unit.awake += 1
        if unit.core is None:
            self._settle(unit)
        elif vcpu.state == WAITS:
            # no line says so: it runs at once where its unit is on a core and its processor idles
            processor = unit.core.processors[vcpu.index % self.machine.granularity]
            if processor.doing is IDLE:
                self._run(processor, vcpu)

    def _repl(self, words):
        unit = self.units[words[2]]
        unit.repl += 1
        self.replenished(unit, int(words[4]), int(words[6]), int(words[8]), words[10] == "1")

    def _refill(self, words):
        self.refilled(self.domains[words[2]], int(words[4]), int(words[6]))

    def _stall(self, words):
        self.stalled(self.processors[words[2]], int(words[4]))

    def _finish(self, words):
        self.finished = True

    def _xl(self, words):
        number, refused = int(words[2]), words[3] == "refused"
        self.answered = number
        command = self.work[number - 1] if self.work is not None and number <= len(self.work) else None
        self.answered_command(number, command, " ".join(words[3:]))
        if refused:
            self.refused.append((number, command, " ".join(words[5:])))
        elif command is None:
            self.unknown_commands += 1
        else:
            self.parameters_change()
            commands.carry_out(self, command.words)

    def _moved(self, words):
        core = self.cores[words[2]]
        self.parameters_change()
        if core.home is not None:
            core.home.cores.discard(core)
        core.home = None if words[3] == "free" else self.home(int(words[4]))
        if core.home is not None:
            core.home.cores.add(core)
        self.joined(core, core.home)

    def _dom_moved(self, words):
        domain, home = self.domains[words[2]], self.home(int(words[4]))
        self.parameters_change()
        domain.home.domains.remove(domain)
        home.domains.append(domain)
        # its new scheduler gives it the defaults
        domain.home, domain.settings = home, {}
        self.joined(domain, home)

    def home(self, i):
        """The pool with this number; one that a command made, and no work file names, is known by its number alone."""
        if i not in self.pools:
            self.make_pool(i, Pool(f"pool {i}", None))
        return self.pools[i]

    def make_pool(self, i, pool):
        """A pool without cores and domains has this number from now on."""
        self.pools[i] = Home(i, pool)

    def set_paused(self, domain, paused):
        """The domain stands still, or goes on."""
        domain.paused = paused
        for vcpu in domain.vcpus:
            if vcpu.state == (WAITS if paused else PAUSED):
                self.change(vcpu, PAUSED if paused else WAITS)
        for unit in domain.units:
            if unit.awake and not paused:
                self._make_ready(unit)
            self._settle(unit)

    # what never came

    def unreached(self):
        """The commands of the work file that no line answers."""
        return [] if self.work is None else self.work[self.answered :]
