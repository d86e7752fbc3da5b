"""The tables: each prints its rows and gives the faults, that is what is not as docs/XEN.md says."""
import dataclasses
import pathlib
import sys
import time

import build
import compare
import plan
import rows as table_rows
from rows import ALL, BY_VCPU, DIFFERS, EQUAL, STOPS

PAGE = pathlib.Path(__file__).resolve().parent.parent.parent / "docs" / "XEN.md"
TOLD = 20                   # how many machines the rows of figures on that page have


@dataclasses.dataclass
class Setting:
    """What all tables need: the program, the built harnesses, how many machines, where files are kept, the pool of processes."""
    program: str
    builder: build.Builder
    machines: int
    kept: pathlib.Path
    pool: object
    rows: str = ""              # what the names of the rows have to have
    other: build.Builder | None = None      # the harness around another version of Xen, for the table of versions
    names: tuple = ()           # what the two versions are called
    begun: float = dataclasses.field(default_factory=time.monotonic)
    faults: list = dataclasses.field(default_factory=list)

    def seeds(self):
        return range(1, self.machines + 1)

    def tell(self, what):
        print(f"{(time.monotonic() - self.begun) / 60:4.1f} minutes: {what}", file=sys.stderr, flush=True)

    def row(self, *cells):
        """Prints a row of figures. Of as many machines as the page tells of it has to stand there, letter for letter."""
        line = "| " + " | ".join(cells) + " |"
        print(line, flush=True)
        if self.machines == TOLD and line not in PAGE.read_text().splitlines():
            self.fault(f"docs/XEN.md has another row: {line}")

    def fault(self, text, row=None, seed=None, changes=(), options=()):
        """Remembers what is not as expected, and keeps the files of the first machine of which that is known."""
        self.faults.append(text)
        if row and not self.kept.exists():
            keep(self, row, seed, changes, options)


@dataclasses.dataclass(frozen=True)
class Outcome:
    """How far two runs of a machine agree."""
    equal: bool
    by_vcpu: bool
    where: str
    stops: bool = False         # Xen's own code stops


def outcome_of(model, beside, options):
    try:
        both = compare.Both(model, beside, options)
    except compare.Fault as fault:
        return Outcome(False, False, f"failed: {fault}", isinstance(fault, compare.Stops))
    found = both.first_difference()
    answers = both.model.answers == both.xen.answers
    replenished = sorted(both.model.replenishments) == sorted(both.xen.replenishments)
    # A domain that joins a pool has its first deadline told by Xen alone.
    where = (f"differs first at {found[0]}, vCPU {found[1]}" if found else "differs in which core has which vCPU" if answers
             and replenished else "differs in the replenishments" if answers else "differs in the answers to commands")
    alike = answers and (replenished or " cpupool-migrate " in model.work)
    return Outcome(both.is_equal() and alike, both.is_equal_by_vcpu() and alike, where)


def compared(job):
    """One machine of a row, by each of several harnesses."""
    program, texts, harnesses = job
    try:
        model = compare.Model(program, *texts)
    except compare.Fault as fault:
        return [Outcome(False, False, f"failed: {fault}")] * len(harnesses)
    return [outcome_of(model, beside, options) for beside, options in harnesses]


def outcomes(setting, row, seeds, variants):
    """For each variant, which is changes and options of Xen, the outcomes of all machines."""
    harnesses = [(setting.builder.program(changes), (*ALL, *row.own, *options)) for changes, options in variants]
    return zip(*setting.pool.map(compared, [(setting.program, row.machine(seed), harnesses) for seed in seeds]))


def keep(setting, row, seed, changes, options):
    """Writes the machine, the harness's input and the two logs, or what failed."""
    domains, work = row.machine(seed)
    try:
        model = compare.Model(setting.program, domains, work)
        compare.Both(model, setting.builder.program(changes), (*ALL, *row.own, *options)).keep(setting.kept)
    except compare.Fault as fault:
        setting.kept.mkdir(parents=True, exist_ok=True)
        for name, text in [("domains.toml", domains), ("work.txt", work), ("fault", f"{fault}\n")]:
            (setting.kept / name).write_text(text)


def count(found, what):
    return sum(getattr(it, what) for it in found)


def demand(setting, row, seeds, found, expected, changes=(), options=()):
    """A fault for each machine on which the two are not equal in the sense that is expected."""
    side = "with the changes" if changes else "Xen as it is"
    for seed, outcome in zip(seeds, found):
        if not {EQUAL: outcome.equal, BY_VCPU: outcome.by_vcpu, DIFFERS: not outcome.stops, STOPS: True}[expected]:
            setting.fault(f"{row.name}, {side}, machine {seed}: {outcome.where}", row, seed, changes, options)
    if expected == STOPS and len(seeds) >= TOLD and not count(found, "stops"):
        setting.fault(f"{row.name}, {side}: Xen's code stops on no machine, and was to")


def equality(setting):
    """Which machines are equal with Xen as it is, and with the changes."""
    seeds = setting.seeds()
    print(f"## Equality\n\n{len(seeds)} made machines a row. By vCPU: each vCPU runs at the same moments, on whichever core. Stops: Xen's own code does.\n\n"
          "| Machines | Xen as it is: equal | by vCPU | stops | with the changes: equal |\n|---|---|---|---|---|")
    chosen = [row for row in table_rows.EQUALITY if setting.rows in row.name]
    for number, row in enumerate(chosen, 1):
        setting.tell(f"equality, row {number} of {len(chosen)}")
        as_it_is, changed = outcomes(setting, row, seeds, [((), ()), (row.changes, row.options)])
        demand(setting, row, seeds, as_it_is, row.as_it_is)
        demand(setting, row, seeds, changed, row.with_changes, row.changes, row.options)
        print(f"| {row.name} | {count(as_it_is, 'equal')} | {count(as_it_is, 'by_vcpu')} | {count(as_it_is, 'stops')} | {count(changed, 'equal')} |", flush=True)


def differences(setting):
    """What each change is for: how many machines are equal with all changes, and how many without this one."""
    seeds = setting.seeds()
    print(f"\n## Differences\n\nEach change on {len(seeds)} machines on which it counts: how many are equal with all changes, and how many without this one.\n\n"
          "| Change | Machines | with all | without it |\n|---|---|---|---|")
    named = {row.name: row for row in table_rows.EQUALITY}
    chosen = [(change, name) for change, name in table_rows.WITNESSES.items() if setting.rows in name]
    for number, (change, name) in enumerate(chosen, 1):
        setting.tell(f"differences, row {number} of {len(chosen)}")
        row = named[name]
        rest = tuple(tuple(it for it in part if it != change) for part in (row.changes, row.options))
        whole, less = outcomes(setting, row, seeds, [(row.changes, row.options), rest])
        print(f"| {change} | {name} | {count(whole, 'equal')} | {count(less, 'equal')} |", flush=True)


@dataclasses.dataclass(frozen=True)
class Alike:
    """What two versions of Xen make of a machine: the same log, or one that both break off with the same status."""
    same: bool
    stops: bool


def alike(job):
    """One machine of a row, by two versions with the same changes, for each of several changes."""
    program, texts, variants = job
    model, found = compare.Model(program, *texts), []
    for harnesses, options in variants:
        text = plan.input_for(model.domains, model.work, options, model.run.answers)
        one, other = (compare.call([harness, "-"], text) for harness in harnesses)
        found.append(Alike((one.returncode, one.stdout) == (other.returncode, other.stdout), bool(one.returncode)))
    return found


def versions(setting):
    """Whether two versions of Xen decide alike: their logs, byte for byte."""
    seeds = setting.seeds()
    print(f"\n## Versions\n\nXen {setting.names[0]} beside {setting.names[1]}, {len(seeds)} made machines a row: on how many the two logs are the same, byte for byte, and on how many both stop.\n\n"
          "| Machines | as they are: the same | both stop | with the changes: the same | both stop |\n|---|---|---|---|---|")
    chosen = [row for row in table_rows.EQUALITY if setting.rows in row.name]
    for number, row in enumerate(chosen, 1):
        setting.tell(f"versions, row {number} of {len(chosen)}")
        variants = [([builder.program(changes) for builder in (setting.builder, setting.other)], (*ALL, *row.own, *options)) for changes, options in [((), ()), (row.changes, row.options)]]
        as_they_are, changed = zip(*setting.pool.map(alike, [(setting.program, row.machine(seed), variants) for seed in seeds]))
        for kind, found in [("as they are", as_they_are), ("with the changes", changed)]:
            for seed, it in zip(seeds, found):
                if not it.same:
                    setting.fault(f"{row.name}, {kind}, machine {seed}: Xen {' and '.join(setting.names)} differ")
        print(f"| {row.name} | {count(as_they_are, 'same')} | {count(as_they_are, 'stops')} | {count(changed, 'same')} | {count(changed, 'stops')} |", flush=True)
