"""One machine, run by xensched and by Xen's code, and what the two runs have in common."""
import collections
import dataclasses
import pathlib
import subprocess
import tempfile
import tomllib

import plan

ENTRIES = "4000000"         # the most that a run of xensched may have
NO_END, BUG = 4, 70         # statuses of the harness: a moment without an end, and an assertion of Xen's that fails
SECONDS = 60


class Fault(Exception):
    """One of the two programs failed, or Xen's own account does not agree with the log."""


class Stops(Fault):
    """Xen's own code stops: a moment without an end, a null pointer, one of its assertions."""


@dataclasses.dataclass
class Run:
    """What a log of either program says."""
    horizon: int
    changes: dict = dataclasses.field(default_factory=lambda: collections.defaultdict(list))    # processor: [(moment, vCPU or None)]
    replenishments: list = dataclasses.field(default_factory=list)
    wakings: list = dataclasses.field(default_factory=list)
    resets: set = dataclasses.field(default_factory=set)
    answers: list = dataclasses.field(default_factory=list)
    accounts: dict = dataclasses.field(default_factory=dict)

    def finish(self):
        """Works out the stays: those of no length are left out."""
        self.by_processor = {p: without_empty(changes) for p, changes in self.changes.items()}
        self.by_vcpu = collections.defaultdict(list)
        for processor, stays in self.by_processor.items():
            for (begin, vcpu), (end, _) in zip(stays, stays[1:] + [(self.horizon, None)]):
                if vcpu:
                    self.by_vcpu[vcpu].append((begin, end, processor))
        for stays in self.by_vcpu.values():
            stays.sort()
        self.time = collections.Counter({vcpu: sum(end - begin for begin, end, _ in stays) for vcpu, stays in self.by_vcpu.items()})
        return self

    def switches(self):
        return sum(map(len, self.by_processor.values()))

    def moves(self):
        return sum(a[2] != b[2] for stays in self.by_vcpu.values() for a, b in zip(stays, stays[1:]))

    def whole_stays(self):
        """When each vCPU runs, on whichever processor."""
        return {vcpu: joined(stays) for vcpu, stays in self.by_vcpu.items()}

    def latencies(self, domain=None):
        """From each waking to the next moment at which the vCPU runs, of all vCPUs or of those of a domain."""
        found = []
        for vcpu, wakings in grouped(self.wakings).items():
            if domain is not None and not vcpu.startswith(f"d{domain}v"):
                continue
            stays = iter(self.by_vcpu[vcpu])
            stay = next(stays, None)
            for moment in wakings:
                while stay and stay[1] <= moment:
                    stay = next(stays, None)
                if stay:
                    found.append(max(0, stay[0] - moment))
        return found


def grouped(wakings):
    groups = collections.defaultdict(list)
    for moment, vcpu in wakings:
        groups[vcpu].append(moment)
    return groups


def without_empty(changes):
    kept = []
    for moment, vcpu in changes:
        if kept and kept[-1][0] == moment:
            kept.pop()
        if (kept[-1][1] if kept else None) != vcpu:
            kept.append((moment, vcpu))
    return kept


def joined(stays):
    whole = []
    for begin, end, _ in stays:
        if whole and whole[-1][1] == begin:
            whole[-1][1] = end
        else:
            whole.append([begin, end])
    return whole


class Reader:
    """Reads a log. xensched tells no line where a vCPU that wakes starts beside its siblings, so what a core runs is kept.

    A vCPU of a domain that is paused or on its way to another pool does not start, so the commands are read too.
    """

    def __init__(self, machine, work):
        self.run, self.size = Run(machine["horizon_ns"]), machine.get("granularity", 1)
        self.commands = plan.Commands(machine, plan.pools_of(machine), self.run.answers)
        self.lines = iter([words for words in map(str.split, work.splitlines()) if words[1:2] == ["xl"]])
        self.homes = [self.commands.pool(domain.get("pool", "0")) for domain in machine.get("domain", [])]
        self.units, self.held, self.still = {}, set(), set()

    def read(self, text):
        for line in text.splitlines():
            words = line.split()
            form = getattr(self, words[1].replace("-", "_"), None) if len(words) > 1 else None
            if form:
                form(int(words[0]), words)
        return self.run.finish()

    def arrive(self, moment, words):
        self.held.add(int(words[2][1:]))

    def decide(self, moment, words):
        if "late" in words:                 # xensched's own
            self.units[int(words[2][1:])] = words[3]
            if words[-1] != "0":
                self.run.resets.add(moment)

    def leave(self, moment, words):
        processor = int(words[2][1:])
        self.held.discard(processor)
        self.run.changes[processor].append((moment, None if words[3] == "idle" else words[3]))

    def block(self, moment, words):
        self.run.changes[int(words[2][1:])].append((moment, None))

    def wake(self, moment, words):
        self.run.wakings.append((moment, words[2]))
        domain, vcpu = words[2][1:].split("v")
        if any(int(domain) == it for it, _ in self.still):
            return
        for core, unit in self.units.items():
            processor = core * self.size + int(vcpu) % self.size
            if unit == f"d{domain}u{int(vcpu) // self.size}" and processor not in self.held:
                self.run.changes[processor].append((moment, words[2]))

    def repl(self, moment, words):
        if moment:                          # at 0 Xen gives each unit its first term
            values = dict(zip(words[3::2], words[4::2]))
            self.run.replenishments.append((moment, words[2], int(values["deadline"]), int(values["budget"])))

    def reset(self, moment, words):
        self.run.resets.add(moment)

    def xl(self, moment, words):
        self.run.answers.append(words[3])
        what, *values = self.commands.line(next(self.lines)).split()[2:]
        if words[3] == "ok":
            self.steer(what, *map(int, values[:2]))

    def steer(self, what, domain, pool=None):
        """The domain stands still from a pause to its end, and from a command that moves it to its coming."""
        if what == "pause" or what == "migrate" and pool != self.homes[domain]:
            self.still.add((domain, what))
        elif what == "unpause":
            self.still.discard((domain, "pause"))

    def dom_moved(self, moment, words):
        domain = int(words[2][1:])
        self.homes[domain] = int(words[4])
        self.still.discard((domain, "migrate"))

    def account(self, moment, words):
        self.run.accounts[words[2]] = int(words[3])


def call(words, text=None, seconds=SECONDS):
    try:
        return subprocess.run([str(word) for word in words], input=text, capture_output=True, text=True, timeout=seconds)
    except subprocess.TimeoutExpired as hung:
        raise Fault(f"{words[0]} has not ended after {seconds} seconds") from hung


class Model:
    """A machine, and what xensched makes of it: the ordered run, or the one that it makes unless that is asked for."""

    def __init__(self, program, domains, work="", seconds=SECONDS, ordered=True):
        self.seconds, self.form = seconds, ["--ordered"] if ordered else []
        self.domains, self.work, self.machine = domains, work, tomllib.loads(domains)
        self.size = self.machine.get("granularity", 1)
        self.text = self.run_program(program)
        self.run = self.read(self.text)

    def read(self, text):
        return Reader(self.machine, self.work).read(text)

    def run_program(self, program):
        with tempfile.TemporaryDirectory() as name:
            folder = pathlib.Path(name)
            (folder / "domains.toml").write_text(self.domains)
            (folder / "work.txt").write_text(self.work)
            done = call([program, "run", *self.form, "--events", ENTRIES, folder / "domains.toml", folder / "work.txt"], None, self.seconds)
        if done.returncode:
            raise Fault(f"{program} ends with {done.returncode}: {done.stderr.strip()}")
        return done.stdout

    def shares(self, run):
        """The part of the horizon that each domain has, in processors."""
        return [sum(run.time[f"d{number}v{vcpu}"] for vcpu in range(len(domain["guests"]))) / self.machine["horizon_ns"]
                for number, domain in enumerate(self.machine["domain"])]


class Both:
    """A machine as xensched has run it, and the same by Xen's code."""

    def __init__(self, model, beside, options=()):
        self.of, self.options = model, tuple(options)
        self.input = plan.input_for(model.domains, model.work, self.options, model.run.answers)
        self.text = self.run_harness(beside)
        self.model, self.xen = model.run, model.read(self.text)
        # Xen counts a vCPU as running from the decision on; a sibling that is late begins later.
        if model.size == 1 or " stall " not in model.work:
            self.check_accounts()

    def run_harness(self, beside):
        done = call([beside, "-"], self.input)
        if done.returncode:
            kind = Stops if done.returncode in (NO_END, BUG) or done.returncode < 0 else Fault
            raise kind(f"{pathlib.Path(beside).name} ends with {done.returncode}: {done.stderr.strip()}")
        return done.stdout

    def check_accounts(self):
        for vcpu, time in self.xen.accounts.items():
            if time != self.xen.time[vcpu]:
                raise Fault(f"Xen counts {time} for {vcpu}, the log {self.xen.time[vcpu]}")

    def is_equal(self):
        """Each processor runs the same vCPU at each moment."""
        one, other = ({p: stays for p, stays in run.by_processor.items() if stays} for run in (self.model, self.xen))
        return one == other

    def is_equal_by_vcpu(self):
        """Each vCPU runs at the same moments, on whichever processor."""
        return self.model.whole_stays() == self.xen.whole_stays()

    def first_difference(self):
        """The first moment at which a vCPU runs for one and not for the other, and which vCPU it is."""
        model, xen = self.model.whole_stays(), self.xen.whole_stays()
        return min(((first_of(model.get(vcpu, []), xen.get(vcpu, [])), vcpu) for vcpu in {*model, *xen}
                    if model.get(vcpu) != xen.get(vcpu)), default=None)

    def keep(self, folder):
        """Writes the machine, the harness's input and the two logs into the folder."""
        folder.mkdir(parents=True, exist_ok=True)
        for name, text in [("domains.toml", self.of.domains), ("work.txt", self.of.work), ("input", self.input),
                           ("xensched.log", self.of.text), ("xen.log", self.text)]:
            (folder / name).write_text(text)


def first_of(one, other):
    """The first moment at which two lists of stays differ."""
    for a, b in zip(one, other):
        if a != b:
            return min(a) if a[0] == b[0] and a[1] == b[1] else min(set(a) ^ set(b))
    longer = one if len(one) > len(other) else other
    return longer[min(len(one), len(other))][0]
