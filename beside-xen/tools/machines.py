"""Made machines and made commands, from a seed.

A machine is a dictionary as TOML reads it. Spans are odd numbers of nanoseconds, so that few events meet in a moment, but
where a kind is there to have them meet.
"""
MILLISECOND = 1_000_000
PERIODS_US = [5000, 8000, 10000, 20000, 25000, 40000, 50000, 100000]
WEIGHTS = [64, 128, 256, 256, 512, 1024]
ODD_WEIGHTS = [63, 100, 255, 300, 777, 1000]    # most divide no other, so that a charge leaves a residual
RATE_LIMITS_US = [0, 100, 500, 1000, 2000, 5000, 30000]


def value_text(value):
    if isinstance(value, bool):
        return str(value).lower()
    return f'"{value}"' if isinstance(value, str) else str(value)


def toml(machine):
    """The domain file of the machine."""
    lines = [f"{key} = {value_text(value)}" for key, value in machine.items() if key not in ("pool", "domain")]
    for kind in ("pool", "domain"):
        for table in machine.get(kind, []):
            lines += [f"[[{kind}]]", *(f"{key} = {value_text(value)}" for key, value in table.items())]
    return "\n".join(lines) + "\n"


def machine(sched, cores, milliseconds, domains, **pool):
    """A machine of one pool with all cores."""
    named = [{"name": f"g{number}", **domain} for number, domain in enumerate(domains)]
    return {"format": 2, "granularity": 1, "processors": cores, "horizon_ns": milliseconds * MILLISECOND,
            "pool": [{"name": "Pool-0", "sched": sched, "cpus": list(range(cores)), **pool}], "domain": named}


def guests(random, count, busy=0.3):
    """Scripts: some run without end, the others in turns of 0.1 to 5 ms."""
    return [[] if random.random() < busy else [random.randrange(100_000, 5_000_000) for _ in range(2 * random.randrange(1, 4))]
            for _ in range(count)]


def arinc_frame(random, domains):
    entries = []
    for _ in range(random.randrange(1, 9)):
        domain = random.randrange(len(domains))
        entries.append([domain, random.randrange(len(domains[domain]["guests"])), random.randrange(100_000, 5_000_000)])
    rest = random.choice([0, 0, random.randrange(1, 5_000_000)])
    return {"major_ns": sum(entry[2] for entry in entries) + rest, "frame": entries}


def arinc(random):
    domains = [{"guests": guests(random, random.randrange(1, 3))} for _ in range(random.randrange(1, 6))]
    return machine("arinc653", 1, 2000, domains, **arinc_frame(random, domains))


def null(random, cores=None):
    cores = cores or random.randrange(1, 9)
    return machine("null", cores, 1000, [{"guests": guests(random, random.randrange(1, 4))} for _ in range(random.randrange(1, cores + 2))])


def rtds_period(random, number, meeting):
    """In microseconds: one of a few that meet often, or one that hardly ever ends together with another."""
    return random.choice(PERIODS_US) if meeting else random.randrange(5000, 60000) // 32 * 32 + 2 * number + 1


def rtds(random, cores=1, extra=False, meeting=False):
    """With extra = None each domain has extra time or has not."""
    count = random.randrange(2, 3 + 2 * cores)
    domains = []
    for number in range(count):
        period = rtds_period(random, number, meeting)
        budget = random.randrange(1, max(2, int(period / 1000 * 2 * cores / count))) * 1000 + random.choice([0, 250, 500])
        domains.append({"period_us": period, "budget_us": min(budget, period),
                        "extratime": random.random() < 0.5 if extra is None else extra, "guests": guests(random, 1, 0.5)})
    return machine("rtds", cores, 2000, domains)


def short_terms(random, cores, extra):
    """RTDS with periods of 0.1 to 2 ms."""
    count = random.randrange(2, 3 + 2 * cores)
    domains = []
    for number in range(count):
        period = random.randrange(100, 2000) // 32 * 32 + 2 * number + 1
        budget = random.randrange(10, max(11, int(period * 2 * cores / count)))
        domains.append({"period_us": period, "budget_us": max(10, min(budget, period)),
                        "extratime": random.random() < 0.5 if extra is None else extra, "guests": guests(random, 1, 0.5)})
    return machine("rtds", cores, 200, domains)


def reserved(random, extra):
    """One core, guests that always run, and reservations that all fit."""
    parts = [random.random() + 0.2 for _ in range(random.randrange(2, 5))]
    domains = []
    for part in parts:
        period = random.randrange(5, 60) * 1000
        budget = int(period * 0.95 * part / sum(parts)) // 100 * 100
        domains.append({"period_us": period, "budget_us": budget, "extratime": extra, "guests": [[]]})
    return machine("rtds", 1, 5000, domains)


def credit2(random, cores=1, caps=False, busy=0.4, limits=False, milliseconds=2000):
    domains = []
    for _ in range(random.randrange(2, 3 + 2 * cores)):
        domain = {"weight": random.choice(WEIGHTS), "guests": guests(random, random.randrange(1, 3), busy)}
        if caps and random.random() < 0.6:
            domain["cap"] = random.randrange(10, 100 * len(domain["guests"]) + 1)
        domains.append(domain)
    return machine("credit2", cores, milliseconds, domains, **({"ratelimit_us": random.choice(RATE_LIMITS_US)} if limits else {}))


def host(random, cores, filled, caps=False, milliseconds=500):
    """A host of Credit2: domains of one to eight vCPUs and of odd weights, until each core has so many vCPUs in the mean."""
    domains, left = [], int(cores * filled)
    while left > 0:
        own = guests(random, min(left, random.randrange(1, 9)), 0.2)
        cap = {"cap": random.randrange(10, 100 * len(own) + 1)} if caps and random.random() < 0.6 else {}
        domains.append({"weight": random.choice(ODD_WEIGHTS), "guests": own, **cap})
        left -= len(own)
    return machine("credit2", cores, milliseconds, domains)


def lasting(made, milliseconds):
    """The same machine for another span."""
    return made | {"horizon_ns": milliseconds * MILLISECOND}


def odd(random, made):
    """The same machine with odd weights."""
    return made | {"domain": [domain | {"weight": random.choice(ODD_WEIGHTS)} for domain in made["domain"]]}


def small_caps(random, made):
    """The same machine with caps of 1 to 9 percent in place of its own."""
    return made | {"domain": [domain | ({"cap": random.randrange(1, 10)} if "cap" in domain else {}) for domain in made["domain"]]}


def many(random, made):
    """The same machine with one to eight vCPUs in each domain, and caps of at most 100 for each."""
    def filled(domain):
        own = guests(random, random.randrange(1, 9))
        return domain | {"guests": own} | ({"cap": random.randrange(10, 100 * len(own) + 1)} if "cap" in domain else {})
    return made | {"domain": [filled(domain) for domain in made["domain"]]}


def of_two(random, made, size=2):
    """The same pools with cores of two processors, and domains with up to twice the vCPUs, so that some unit has one alone."""
    made = made | {"granularity": size, "processors": size * made["processors"]}
    made["pool"] = [pool | {"cpus": [size * core + place for core in pool["cpus"] for place in range(size)]} for pool in made["pool"]]
    made["domain"] = [domain | {"guests": guests(random, size * len(domain["guests"]) - random.randrange(size))} for domain in made["domain"]]
    return made


def of_four(random, made):
    """The same with cores of four processors."""
    return of_two(random, made, 4)


def pinned(random, made):
    """The same machine with half of its units pinned to one core or two."""
    cores = made["processors"]

    def pins(domain):
        return [random.sample(range(cores), random.randrange(1, 3)) if random.random() < 0.5 else list(range(cores)) for _ in domain["guests"]]
    return made | {"domain": [domain | {"pins": pins(domain)} for domain in made["domain"]]}


def pools(*parts):
    """One machine with the pools of several, side by side."""
    whole = {"format": 2, "granularity": 1, "processors": 0, "horizon_ns": min(part["horizon_ns"] for part in parts), "pool": [], "domain": []}
    for part in parts:
        name, first, domains = f"Pool-{len(whole['pool'])}", whole["processors"], len(whole["domain"])
        for pool in part["pool"]:
            moved = {"name": name, "cpus": [first + cpu for cpu in pool["cpus"]]}
            if "frame" in pool:
                moved["frame"] = [[domains + entry[0], *entry[1:]] for entry in pool["frame"]]
            whole["pool"].append(pool | moved)
        whole["domain"] += [domain | {"name": f"g{domains + number}", "pool": name} for number, domain in enumerate(part["domain"])]
        whole["processors"] += part["processors"]
    return whole


def all_schedulers(random):
    """A pool of each of the four schedulers."""
    return pools(credit2(random, 2), rtds(random, 2), arinc(random), null(random, 2))


class Work:
    """Eight lines of one kind, at odd moments."""

    def __init__(self, random, made):
        self.random, self.made, self.paused, self.lent = random, made, set(), None

    def lines(self, what):
        horizon = self.made["horizon_ns"]
        moments = sorted(self.random.randrange(horizon // 10, horizon) for _ in range(8))
        return "".join(f"{moment} {line}\n" for moment in moments for line in getattr(self, what)(self.random).splitlines())

    def domain(self, sched=None):
        """A domain of a pool with the scheduler: its name and its table."""
        names = [pool["name"] for pool in self.made["pool"] if sched in (None, pool["sched"])]
        chosen = self.random.choice([it for it in self.made["domain"] if it.get("pool", "Pool-0") in names])
        return chosen["name"], chosen

    def stall(self, random):
        return f"stall {random.randrange(self.made['processors'])} {random.randrange(100_000, 3_000_000)}"

    def pause(self, random):
        name, _ = self.domain()
        self.paused ^= {name}
        return f"xl {'pause' if name in self.paused else 'unpause'} {name}"

    def budget(self, random):
        name, domain = self.domain("rtds")
        domain["budget_us"] = min(domain["period_us"], max(100, domain["budget_us"] + random.randrange(-3000, 3000)))
        return f"xl sched-rtds -d {name} -b {domain['budget_us']}"

    def period(self, random):
        name, domain = self.domain("rtds")
        domain["period_us"] = random.randrange(8000, 60000) // 32 * 32 + 2 * self.made["domain"].index(domain) + 1
        domain["budget_us"] = max(10, domain["period_us"] // (2 * len(self.made["domain"])))
        return f"xl sched-rtds -d {name} -p {domain['period_us']} -b {domain['budget_us']}"

    def extra(self, random):
        return f"xl sched-rtds -d {self.domain('rtds')[0]} -e {random.randrange(2)}"

    def one(self, random):
        """The parameters of one vCPU."""
        name, domain = self.domain("rtds")
        period = random.randrange(8000, 60000) // 32 * 32 + 2 * self.made["domain"].index(domain) + 1
        vcpu = random.randrange(len(domain["guests"]))
        return f"xl sched-rtds -d {name} -v {vcpu} -p {period} -b {max(10, period // random.randrange(2, 20))} -e {random.randrange(2)}"

    def weight(self, random):
        return f"xl sched-credit2 -d {self.domain('credit2')[0]} -w {random.choice(WEIGHTS)}"

    def odd_weight(self, random):
        return f"xl sched-credit2 -d {self.domain('credit2')[0]} -w {random.choice(ODD_WEIGHTS)}"

    def cap(self, random):
        name, domain = self.domain("credit2")
        units = -(-len(domain["guests"]) // self.made["granularity"])
        return f"xl sched-credit2 -d {name} -c {random.choice([0, random.randrange(10, 100 * units + 1)])}"

    def limit(self, random):
        return f"xl sched-credit2 -s -p Pool-0 -r {random.choice(RATE_LIMITS_US)}"

    def frame(self, random):
        pool = random.choice([pool for pool in self.made["pool"] if pool["sched"] == "arinc653"])
        own = [number for number, domain in enumerate(self.made["domain"]) if domain.get("pool", "Pool-0") == pool["name"]]
        frame = arinc_frame(random, [self.made["domain"][number] for number in own])
        return f"xl arinc-set {pool['name']} {frame['major_ns']} " + ",".join(f"{own[d]}:{unit}:{run}" for d, unit, run in frame["frame"])

    def may_lose(self, pool, size):
        """The processors that may leave the pool: not the last core, and processor 0 stays in the first pool, as Xen has it."""
        return [cpu for cpu in pool["cpus"] if len(pool["cpus"]) > size and (cpu >= size or pool is not self.made["pool"][0])]

    def core(self, random):
        """A core goes from a pool that has another to one that is not ARINC 653's, which has its one core for good."""
        size = self.made["granularity"]
        source = random.choice([pool for pool in self.made["pool"] if self.may_lose(pool, size)])
        target = random.choice([pool for pool in self.made["pool"] if pool["sched"] != "arinc653"])
        first = random.choice(self.may_lose(source, size)) // size * size
        for cpu in range(first, first + size):
            source["cpus"].remove(cpu)
            target["cpus"].append(cpu)
        return f"xl cpupool-cpu-remove {source['name']} {first}\nxl cpupool-cpu-add {target['name']} {first}"

    def life(self, random):
        """A pool is made, and gets a core and a domain. The next time it gives them back under another name, and is destroyed."""
        if self.lent:
            source, first, name, home = self.lent
            self.lent = None
            return "\n".join(["xl cpupool-destroy New", "xl cpupool-rename New Old", f"xl cpupool-migrate {name} {home}",
                              f"xl cpupool-cpu-remove Old {first}", f"xl cpupool-cpu-add {source} {first}", "xl cpupool-destroy Old"])
        size = self.made["granularity"]
        source = random.choice([pool for pool in self.made["pool"] if self.may_lose(pool, size)])
        first = random.choice(self.may_lose(source, size)) // size * size
        name, domain = self.domain()
        self.lent = source["name"], first, name, domain.get("pool", "Pool-0")
        return "\n".join([f"xl cpupool-create name=New sched={random.choice(['credit2', 'rtds', 'null'])}", "xl cpupool-list New",
                          f"xl cpupool-cpu-remove {source['name']} {first}", f"xl cpupool-cpu-add New {first}", f"xl cpupool-migrate {name} New"])

    def migrate(self, random):
        name, domain = self.domain()
        domain["pool"] = random.choice([pool["name"] for pool in self.made["pool"]])
        return f"xl cpupool-migrate {name} {domain['pool']}"

    def pin(self, random):
        name, domain = self.domain()
        cpus = random.sample(range(self.made["processors"]), random.randrange(1, 3))
        return f"xl vcpu-pin {name} {random.randrange(len(domain['guests']))} {random.choice(['all', ','.join(map(str, cpus))])}"
