"""The harness's input for a domain file and a work file of xensched.

Options are words beside the two files. `NAME=VALUE` is a parameter of Xen's command line, but for eight of the harness's own:
`late=SPAN:SEED` has timers noticed up to SPAN nanoseconds late and processors come in another order, `slop=SPAN` has Xen's own
timers with that `timer_slop`, `apart` starts the vCPUs one after the other, all at 0, `by-rank` takes the events of a moment in the
order of xensched's ordered run, `shuffled=SEED` lets the processors of a moment go on in an order that chance has, `whole` has each
entry of a schedule in the log, and `siblings=N` and `socket=N` say how many processors a core and a socket of the host have: Xen's
run queues are made of them. Unless told a core has those that decide together, and there is one socket.
"""
import tomllib

SCHEDULERS = ["credit2", "rtds", "arinc653", "null"]
ORIGIN = 120_000_000        # Xen's clock at the moment 0: domains are made at 10 ms, and the refills of caps stand on multiples of it
OWN = ("late", "slop", "shuffled", "siblings", "socket")


class NoCounterpart(Exception):
    """A line of the work file that the harness cannot carry."""


def option_lines(options):
    for option in options:
        name, _, value = option.partition("=")
        if name in OWN:
            yield f"{name} " + value.replace(":", " ")
        else:
            yield f"parameter {name} {value}" if value else name


def counted(values):
    values = list(values)
    return " ".join(map(str, [len(values), *values]))


def whole_cores(cpus, size):
    """The processors of all cores that have one of these."""
    return sorted({cpu // size * size + place for cpu in cpus for place in range(size)})


def frame_words(major, entries):
    return f"{major} {len(entries)} " + " ".join(str(value) for entry in entries for value in entry)


def pool_line(pool, size):
    cpus = counted(whole_cores(pool["cpus"], size))
    return f"pool {pool.get('sched', 'credit2')} {pool.get('ratelimit_us', 1000)} {cpus} {frame_words(pool.get('major_ns', 0), pool.get('frame', []))}"


def domain_lines(domain, pools, size):
    pool = [it["name"] for it in pools].index(domain["pool"]) if "pool" in domain else 0
    period = domain.get("period_us", 10000)
    yield (f"domain {pool} {domain.get('weight', 256)} {domain.get('cap', 0)} {period} {domain.get('budget_us', min(4000, period))} "
           f"{int(domain.get('extratime', True))}")
    for guest in domain["guests"]:
        yield "guest " + counted(guest)
    for unit, cpus in enumerate(domain.get("pins", [])):
        yield f"pins {unit} " + counted(whole_cores(cpus, size))


def cpus_of(text, processors):
    if text == "all":
        return range(processors)
    ends = [item.split("-") for item in text.split(",")]
    return [cpu for it in ends for cpu in range(int(it[0]), int(it[-1]) + 1)]


class Commands:
    """Turns the lines of a work file into those of the harness. It keeps the names, which commands that are not refused change."""

    def __init__(self, machine, pools, answers):
        self.size, self.processors = machine.get("granularity", 1), machine["processors"]
        self.domains = {it["name"]: number for number, it in enumerate(machine.get("domain", []))}
        self.pools = {it["name"]: number for number, it in enumerate(pools)}
        self.answers, self.is_ok = iter(answers), True

    def domain(self, word):
        return self.domains[word] if word in self.domains else int(word)

    def pool(self, word):
        return self.pools[word] if word in self.pools else int(word)

    def rename(self, pool, name=None):
        """The pool has this name from now on, and without one it is gone."""
        if self.is_ok:
            self.pools = {it: number for it, number in self.pools.items() if number != pool} | ({name: pool} if name else {})

    def line(self, words):
        if words[1] == "stall":
            return f"at {words[0]} stall {words[2]} {words[3]}"
        command, rest = words[2], words[3:]
        form = getattr(self, command.replace("-", "_"), None)
        if form is None:
            raise NoCounterpart(" ".join(words))
        self.is_ok = next(self.answers, "ok") == "ok"
        return f"at {words[0]} {form(rest)}"

    def sched_credit2(self, rest):
        options = dict(zip(*[iter(word for word in rest if word != "-s")] * 2))
        if "-d" in options:
            return f"credit2 {self.domain(options['-d'])} {options.get('-w', -1)} {options.get('-c', -1)}"
        return f"rate {self.pool(options['-p'])} {options['-r']}"

    def sched_rtds(self, rest):
        options = dict(zip(*[iter(rest)] * 2))
        vcpu = options.get("-v", "all")
        return (f"rtds {self.domain(options['-d'])} {-1 if vcpu == 'all' else vcpu} {options.get('-p', -1)} {options.get('-b', -1)} "
                f"{options.get('-e', -1)}")

    def pause(self, rest):
        return f"pause {self.domain(rest[0])}"

    def unpause(self, rest):
        return f"unpause {self.domain(rest[0])}"

    def arinc_set(self, rest):
        entries = [entry.split(":") for entry in rest[2].split(",")]
        return f"frame {self.pool(rest[0])} " + frame_words(rest[1], [(self.domain(entry[0]), *entry[1:]) for entry in entries])

    def cpupool_create(self, rest):
        options = dict(word.split("=") for word in rest)
        number = next(number for number in range(16) if number not in self.pools.values())
        self.rename(number, options["name"])
        return f"create {number} {SCHEDULERS.index(options.get('sched', 'credit2'))}"

    def cpupool_destroy(self, rest):
        pool = self.pool(rest[0])
        self.rename(pool)
        return f"destroy {pool}"

    def cpupool_rename(self, rest):
        pool = self.pool(rest[0])
        self.rename(pool, rest[1])
        return f"name {pool}"

    def cpupool_list(self, rest):
        return f"name {self.pool(rest[0]) if rest else -1}"

    def cpupool_cpu_add(self, rest):
        return f"add {self.pool(rest[0])} {rest[1]}"

    def cpupool_cpu_remove(self, rest):
        return f"remove {self.pool(rest[0])} {rest[1]}"

    def cpupool_migrate(self, rest):
        return f"migrate {self.domain(rest[0])} {self.pool(rest[1])}"

    def vcpu_pin(self, rest):
        mask = sum(1 << cpu for cpu in whole_cores(cpus_of(rest[2], self.processors), self.size))
        return f"pin {self.domain(rest[0])} {-1 if rest[1] == 'all' else int(rest[1]) // self.size} {mask}"


def pools_of(machine):
    return machine.get("pool", [{"name": "Pool-0", "cpus": range(machine["processors"])}])


def input_for(domains, work="", options=(), answers=()):
    """The answers are those that xensched gives to the commands, in their order."""
    machine = tomllib.loads(domains)
    size = machine.get("granularity", 1)
    pools = pools_of(machine)
    commands = Commands(machine, pools, answers)
    words = [line.split() for line in work.splitlines() if line.strip() and not line.startswith("#")]
    return "\n".join([
        f"core {size}", *option_lines(options), f"processors {machine['processors']}", f"horizon {machine['horizon_ns']}", f"origin {ORIGIN}",
        *(pool_line(pool, size) for pool in pools), *(line for domain in machine.get("domain", []) for line in domain_lines(domain, pools, size)),
        *(commands.line(line) for line in words)]) + "\n"
