"""Makes machines and their work files from a seed: of every kind that the formats allow, with values at the ends of their ranges.

docs/FORMATS-domain.md and docs/FORMATS-work.md have the keys, the ranges and the commands.
"""
import dataclasses
import random
from fractions import Fraction

from .machine import DEFAULTS, SCHEDULERS, Domain, Machine, Pool

MOST_SPAN = 10**13
MOST_UNITS = 256
LETTERS = "abcdefghijklmnopqrstuvwxyzABCDEFGHIJKLMNOPQRSTUVWXYZ"
NAME_REST = LETTERS + "0123456789-_"
# Words behind `xl` that are no command, and the place that the answer names.
WRONG_WORDS = {
    "reboot": 0, "pause": 1, "unpause": 1, "cpupool-destroy": 1, "pause a b": 2, "cpupool-cpu-add a": 2, "cpupool-cpu-add a x": 2, "cpupool-list a b": 2,
    "sched-credit2 -d a -d a": 3, "sched-credit2 -d a -w 0512": 4, "sched-credit2 -d a -c": 4, "sched-credit2 -r 500": 3, "cpupool-create sched=rtds": 2,
    "cpupool-create name=rt sched=credit": 2, "vcpu-pin a 0 ^1": 3, "vcpu-pin a all 3-1": 3, "arinc-set 0 10 a:0": 3, "sched-rtds -d a -e 2": 4,
}


@dataclasses.dataclass(frozen=True)
class Profile:
    """What the machines of a kind are like: how often a value stands at an end of its range, the sizes of cores, and the most of each thing."""

    ends: float
    siblings: tuple
    cores: int
    pools: int
    domains: int
    commands: int
    stalls: int


KINDS = {
    "mixed": Profile(0.05, (1, 1, 2, 4), 8, 5, 10, 15, 8),
    "ends": Profile(0.6, (1, 2, 4), 6, 6, 8, 12, 6),
    "commands": Profile(0.1, (1, 1, 2), 6, 4, 6, 80, 4),
    "siblings": Profile(0.1, (2, 4), 8, 4, 12, 12, 12),
    "sixteen pools": Profile(0.1, (1, 1, 2, 4), 24, 16, 24, 24, 8),
    "stalls": Profile(0.2, (1, 1, 2, 4), 6, 4, 8, 4, 60),
    "undisturbed": Profile(0.0, (1, 1, 2, 4), 4, 4, 12, 0, 0),
}
# Periods of RTDS, in microseconds: some divide one another, some have no divisor in common.
PERIODS = ([10, 20, 30, 40, 60, 70, 110], [100, 150, 200, 250, 300, 400], [1000, 1500, 2000, 7000, 9000, 12000], [97, 101, 103, 211, 307])


class Maker(random.Random):
    """The draws of one machine."""

    def __init__(self, seed, kind):
        super().__init__(f"{kind} {seed}")
        self.profile = KINDS[kind]

    def often(self, part):
        return self.random() < part

    def number(self, least, most, low, high):
        """A number of the range from `least` to `most`: at an end of it, or mostly from `low` to `high`."""
        if self.often(self.profile.ends):
            return self.choice([least, most, min(least + 1, most), max(most - 1, least)])
        return self.randint(max(low, least), min(high, most))

    def wrong_or(self, right, *wrong):
        """Mostly the right value, and else a wrong one."""
        return self.choice(wrong) if self.often(0.15) else right

    def name(self, taken):
        """A name that none has, now and then of the greatest length."""
        while True:
            length = 31 if self.often(0.1) else self.randint(0, 6)
            found = self.choice(LETTERS) + "".join(self.choices(NAME_REST, k=length))
            if found not in taken:
                return found

    def span(self):
        """A run, a sleep or another time of a guest."""
        return self.number(1, MOST_SPAN, *self.choice([(1, 2_000), (10_000, 500_000), (100_000, 5_000_000)]))

    # the domain file

    def machine(self):
        """A machine that the domain file may describe."""
        siblings = self.choice(self.profile.siblings)
        cores = self.randint(1, min(self.profile.cores, 64 // siblings))
        pools = self.pools(cores, siblings)
        domains = self.domains(pools, cores * siblings, siblings)
        made = Machine(cores * siblings, self.number(1, MOST_SPAN, 1_000_000, 60_000_000), pools, domains, siblings)
        for pool in pools:
            if pool.sched == "arinc653" and self.often(0.8):
                self.give_frame(made, pool)
        return made

    def pools(self, cores, siblings):
        """Pools with cores that are dealt out, the last ones to nobody now and then. At least one pool has a core."""
        count = self.profile.pools if self.often(0.3) else self.randint(1, self.profile.pools)
        pools = []
        for _ in range(count):
            pools.append(Pool(self.name([pool.name for pool in pools]), self.choice(SCHEDULERS)))
            if pools[-1].sched == "credit2" and self.often(0.5):
                pools[-1].settings["ratelimit_us"] = self.choice([0, self.number(100, 500_000, 100, 3_000)])
        for core in range(cores):
            pool = self.choice(pools)
            if (pool.sched == "arinc653" and pool.cpus) or self.often(0.05):
                continue
            pool.cpus.append(core * siblings + self.randrange(siblings))
        if not any(pool.cpus for pool in pools):
            pools[0].cpus.append(0)
        return pools

    def domains(self, pools, processors, siblings):
        """Domains in pools that have a core."""
        homes, domains, units = [pool for pool in pools if pool.cpus], [], 0
        for _ in range(self.randint(0 if self.often(0.05) else 1, self.profile.domains)):
            vcpus = 32 if self.often(0.03) else self.randint(1, 5)
            units += -(-vcpus // siblings)
            if units > MOST_UNITS:
                break
            pool = self.choice(homes)
            domain = Domain(self.name([it.name for it in domains]), pool.name, [self.script() for _ in range(vcpus)], settings=self.settings(pool.sched))
            if self.often(0.2):
                domain.pins = [[self.randrange(processors) for _ in range(self.randint(1, 4))] for _ in range(-(-vcpus // siblings))]
            domains.append(domain)
        return domains

    def script(self):
        """What a vCPU does: nothing but run, or runs and sleeps."""
        if self.often(0.25):
            return []
        return [self.span() for _ in range(2 * (32 if self.often(0.03) else self.randint(1, 3)))]

    def settings(self, sched):
        """Some of the keys of a domain under this scheduler."""
        drawn = {}
        if sched == "credit2":
            drawn = {"weight": self.number(1, 65535, 64, 1024), "cap": self.number(0, 6400, 5, 200)}
        if sched == "rtds":
            drawn = {"extratime": self.often(0.5)}
        chosen = {key: value for key, value in drawn.items() if self.often(0.6)}
        return {**chosen, **self.term()} if sched == "rtds" else chosen

    def term(self):
        """A period and a budget, or one of them; a budget alone has to fit into the usual period."""
        period = self.number(10, 1_000_000_000, 100, 20_000)
        budget = self.number(10, period, 10, period)
        usual = self.number(10, DEFAULTS["period_us"], 10, DEFAULTS["period_us"])
        return self.choice([{}, {"period_us": period}, {"budget_us": usual}, {"period_us": period, "budget_us": budget}, {"period_us": period, "budget_us": budget}])

    def give_frame(self, machine, pool):
        """A frame for the pool of ARINC 653, of any domains that are there."""
        units = [(d, u) for d, domain in enumerate(machine.domains) for u in range(machine.units_of(domain))]
        if not units:
            return
        frame, left = [], MOST_SPAN
        for _ in range(self.number(1, 64, 1, 5)):
            run = self.number(1, max(1, left // 64), 1_000, 3_000_000)
            frame.append([*self.choice(units), run])
            left -= run
        runs = sum(run for _, _, run in frame)
        pool.settings.update(major_ns=self.choice([runs, self.number(runs, MOST_SPAN, runs, runs + 2_000_000)]), frame=frame)

    # the work file

    def work(self, machine):
        """The lines of a work file, with commands of each kind, right ones and wrong ones, and with lines that say nothing."""
        lines = [f"{{}} stall {self.randrange(machine.processors)} {self.number(1, MOST_SPAN, 1, 3_000_000)}" for _ in range(self.randint(0, self.profile.stalls))]
        names = Names(machine)
        lines += [f"{{}} xl {self.command(machine, names)}" for _ in range(self.randint(0, self.profile.commands))]
        self.shuffle(lines)
        made = [line.format(moment) for line, moment in zip(lines, self.moments(machine.horizon, len(lines)))]
        if self.often(0.3):
            made = [line for line in made if int(line.split()[0]) <= machine.horizon] + [f"{machine.horizon} stall 0 1"]
        return "".join(self.with_silence(line) for line in made)

    def moments(self, horizon, count):
        """Moments that do not fall, several of them the same, a few at the ends and behind the horizon."""
        found = []
        for _ in range(count):
            if found and self.often(0.25):
                found.append(self.choice(found))
            else:
                found.append(self.number(0, MOST_SPAN, 0, min(horizon, 50_000_000)))
        return sorted(found)

    def with_silence(self, line):
        """A line as a file may have it: more spaces, a carriage return, a comment or an empty line before it."""
        before = self.choice(["", "", "", "# a comment\n", "\n"])
        return before + (self.choice([line.replace(" ", "  "), f" {line} ", f"{line}\r"]) if self.often(0.1) else line) + "\n"

    def command(self, machine, names):
        """A command of any kind, mostly with right values."""
        if self.often(0.06):
            return self.choice(sorted(WRONG_WORDS))
        return self.choice(COMMANDS)(self, machine, names)

    def pool_word(self, names, sched=None):
        """A pool's name or number, mostly of a pool with this scheduler."""
        right = [place for place, name in enumerate(names.pools) if names.sched_of.get(name) == sched or self.often(0.2)] or range(len(names.pools))
        place = self.choice(right)
        return self.wrong_or(self.choice([names.pools[place], str(place)]), "nobody", "15", "16", "999999999999999")

    def domain_word(self, names, sched=None):
        """A domain's name or number, mostly of a domain that began under this scheduler."""
        right = [place for place, name in enumerate(names.domains) if names.sched_of_domain.get(name) == sched or self.often(0.2)] or range(len(names.domains))
        place = self.choice(right)
        return self.wrong_or(self.choice([names.domains[place], str(place)]), "nobody", "64")

    def cpu_word(self, machine):
        return self.wrong_or(str(self.randrange(machine.processors)), str(machine.processors), "64", "999999999999999")

    def list_pools(self, machine, names):
        return self.choice(["cpupool-list", f"cpupool-list {self.pool_word(names)}"])

    def create(self, machine, names):
        names.pools.append(self.name(names.pools))
        words = [f"name={self.wrong_or(names.pools[-1], names.pools[0])}"] + ([f"sched={self.choice(SCHEDULERS)}"] if self.often(0.8) else [])
        self.shuffle(words)
        return f"cpupool-create {' '.join(words)}"

    def destroy(self, machine, names):
        return f"cpupool-destroy {self.pool_word(names)}"

    def rename(self, machine, names):
        old = self.pool_word(names)
        names.pools.append(self.name(names.pools))
        return f"cpupool-rename {old} {self.wrong_or(names.pools[-1], names.pools[0])}"

    def add_cpu(self, machine, names):
        return f"cpupool-cpu-add {self.pool_word(names)} {self.cpu_word(machine)}"

    def remove_cpu(self, machine, names):
        return f"cpupool-cpu-remove {self.pool_word(names)} {self.cpu_word(machine)}"

    def migrate(self, machine, names):
        return f"cpupool-migrate {self.domain_word(names)} {self.pool_word(names)}"

    def options(self, *choices):
        """Some of these options with their values, in any order."""
        chosen = [f"{option} {value}" for option, value in choices if self.often(0.6)]
        self.shuffle(chosen)
        return chosen

    def credit2(self, machine, names):
        weight, cap = self.wrong_or(self.number(1, 65535, 64, 1024), 0, 65536), self.wrong_or(self.number(0, 6400, 0, 200), 6401)
        return " ".join(["sched-credit2", f"-d {self.domain_word(names, 'credit2')}", *self.options(("-w", weight), ("-c", cap))])

    def ratelimit(self, machine, names):
        limit = self.wrong_or(self.choice([0, self.number(100, 500_000, 100, 3_000)]), 1, 99, 500_001)
        return " ".join(["sched-credit2 -s", f"-p {self.pool_word(names, 'credit2')}", *self.options(("-r", limit))])

    def rtds(self, machine, names):
        period = self.wrong_or(self.number(10, 1_000_000_000, 100, 20_000), 0, 9, 1_000_000_001)
        budget = self.wrong_or(self.number(10, max(10, period), 10, max(10, period)), 0, 9, period + 1)
        chosen = self.options(("-v", self.choice(["all", "0", "1", "32"])), ("-p", period), ("-b", budget), ("-e", self.randrange(2)))
        return " ".join(["sched-rtds", f"-d {self.domain_word(names, 'rtds')}", *chosen])

    def pause(self, machine, names):
        return f"{self.choice(['pause', 'unpause', 'unpause'])} {self.domain_word(names)}"

    def set_frame(self, machine, names):
        runs = [self.wrong_or(self.number(1, MOST_SPAN // 64, 1_000, 3_000_000), 0, MOST_SPAN + 1) for _ in range(self.number(1, 64, 1, 4))]
        major = self.wrong_or(sum(runs) + self.randrange(1_000_000), 0, max(runs), MOST_SPAN, MOST_SPAN + 1)
        entries = [f"{self.domain_word(names)}:{self.wrong_or(0, 1, 31)}:{run}" for run in runs]
        return f"arinc-set {self.pool_word(names, 'arinc653')} {major} {','.join(entries)}"

    def pin(self, machine, names):
        first, last = sorted(self.randrange(machine.processors) for _ in range(2))
        cpus = self.choice(["all", self.cpu_word(machine), f"{first}-{last}", f"{self.cpu_word(machine)},{first}-{last}"])
        return f"vcpu-pin {self.domain_word(names)} {self.wrong_or(self.choice(['all', '0', '1']), '32')} {cpus}"


COMMANDS = (Maker.list_pools, Maker.create, Maker.destroy, Maker.rename, Maker.add_cpu, Maker.add_cpu, Maker.remove_cpu, Maker.remove_cpu, Maker.migrate, Maker.migrate,
            Maker.credit2, Maker.ratelimit, Maker.rtds, Maker.pause, Maker.set_frame, Maker.pin)


class Names:
    """The names that commands may use: those of the machine, and those that commands before have made."""

    def __init__(self, machine):
        self.pools = [pool.name for pool in machine.pools]
        self.domains = [domain.name for domain in machine.domains] or ["nobody"]
        self.sched_of = {pool.name: pool.sched for pool in machine.pools}
        self.sched_of_domain = {domain.name: self.sched_of[domain.pool] for domain in machine.domains}


class QuietMaker(Maker):
    """Machines to which nothing happens from outside, most pools with one core, reservations that fit it, and guests that mostly never sleep."""

    def pools(self, cores, siblings):
        """Mostly a core for each pool."""
        pools = []
        for core in range(cores):
            if pools and self.often(0.25) and pools[-1].sched != "arinc653":
                pools[-1].cpus.append(core * siblings)
                continue
            pools.append(Pool(self.name([pool.name for pool in pools]), self.choice(["credit2", "rtds", *SCHEDULERS]), [core * siblings]))
            if pools[-1].sched == "credit2" and self.often(0.5):
                pools[-1].settings["ratelimit_us"] = self.choice([0, self.randint(100, 3_000), 20_000])
        return pools

    def domains(self, pools, processors, siblings):
        domains = super().domains(pools, processors, siblings)
        for pool in pools:
            own = [domain for domain in domains if domain.pool == pool.name]
            for domain in own:
                domain.pins = None
                if pool.sched == "credit2" and self.often(0.8):
                    domain.settings.pop("cap", None)
            if self.often(0.7):
                for domain in own:
                    domain.guests = [[] for _ in domain.guests]
            if pool.sched == "rtds":
                gone = self.reserve(own, siblings)
                domains = [domain for domain in domains if domain not in gone]
        return domains

    def reserve(self, domains, siblings):
        """Gives the domains reservations that fit one core together, often exactly. Those for which nothing is left are told."""
        left, periods, gone = Fraction(1), self.choice(PERIODS), []
        for domain in domains:
            units, period = -(-len(domain.guests) // siblings), self.choice(periods)
            most = int(left / units * period)
            if most < 10:
                gone.append(domain)
                continue
            budget = most if self.often(0.35) else self.randint(10, most)
            domain.settings = {"period_us": period, "budget_us": budget, "extratime": self.often(0.4)}
            left -= units * Fraction(budget, period)
        return gone

    def work(self, machine):
        return ""


def made(seed, kind):
    """The domain file and the work file of the seed, and the most entries of its runs."""
    maker = (QuietMaker if kind == "undisturbed" else Maker)(seed, kind)
    machine = maker.machine()
    return machine.text(), maker.work(machine), maker.choice([2_000, 4_000, 4_000, 8_000, maker.randint(1, 300)])
