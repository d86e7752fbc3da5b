"""The checks of the program on a domain file, as docs/FORMATS-domain.md has them: the first fault of a parsed one, or None."""
import re

SCHEDULERS = ("credit2", "rtds", "arinc653", "null")
POOL_KEYS = {"credit2": ("ratelimit_us",), "rtds": (), "arinc653": ("major_ns", "frame"), "null": ()}
DOMAIN_KEYS = {"credit2": ("weight", "cap"), "rtds": ("period_us", "budget_us", "extratime"), "arinc653": (), "null": ()}
NAME = re.compile(r"[A-Za-z][A-Za-z0-9_-]{0,31}")
MOST_NS = 10**13
MOST_PROCESSORS, MOST_POOLS, MOST_DOMAINS, MOST_UNITS, MOST_VCPUS, MOST_SPANS = 64, 16, 64, 256, 32, 64
RANGES = {"ratelimit_us": (0, 500_000), "major_ns": (1, MOST_NS), "weight": (1, 65535), "cap": (0, 6400), "period_us": (10, 1_000_000_000)}


class Fault(Exception):
    """A fault of a table: its key, its cause, and the number behind `Range`."""

    def __str__(self):
        return " ".join([shown(self.args[0]), *map(str, self.args[1:])])


def shown(key):
    """A key as the program prints it: bytes that are no letters, digits or signs as \\x.., and 64 of them at most."""
    raw = key.encode("utf-8", "surrogatepass")
    return "".join(chr(byte) if 33 <= byte <= 126 and byte != 92 else f"\\x{byte:02x}" for byte in raw[:64]) + (".." if len(raw) > 64 else "")


def number(value, key, low, high):
    """The value as a number in this range."""
    if type(value) is not int:
        raise Fault(key, "Kind")
    if not low <= value <= high:
        raise Fault(key, "Range", value)
    return value


def name(value, key):
    if not isinstance(value, str) or not NAME.fullmatch(value):
        raise Fault(key, "Kind")
    return value


def needed(table, key):
    if key not in table:
        raise Fault(key, "Missing")
    return table[key]


def array(value, key, low, high):
    """The value as an array of so many elements."""
    if not isinstance(value, list):
        raise Fault(key, "Kind")
    if not low <= len(value) <= high:
        raise Fault(key, "Range", len(value))
    return value


def no_other(table, known):
    """The first key that the table may not have, by the order of bytes."""
    for key in sorted(table, key=lambda it: it.encode("utf-8", "surrogatepass")):
        if key not in known:
            raise Fault(key, "Unknown")


class Checked:
    """A parsed domain file on its way through the checks."""

    def __init__(self, found):
        self.found, self.where = found, ("top", 0)
        self.pools, self.cores, self.domain_units = [], set(), []

    def top(self):
        found = self.found
        no_other(found, ("format", "granularity", "processors", "horizon_ns", "pool", "domain"))
        self.format = number(needed(found, "format"), "format", 1, 2)
        self.granularity = number(found.get("granularity", 1), "granularity", 1, 4)
        if self.granularity == 3:
            raise Fault("granularity", "Range", 3)
        self.processors = number(needed(found, "processors"), "processors", 1, MOST_PROCESSORS)
        if self.processors % self.granularity:
            raise Fault("processors", "Range", self.processors)
        number(needed(found, "horizon_ns"), "horizon_ns", 1, MOST_NS)
        for key, low, high in (("pool", 1, MOST_POOLS), ("domain", 0, MOST_DOMAINS)):
            if key in found:
                if not all(isinstance(it, dict) for it in array(found[key], key, low, high)):
                    raise Fault(key, "Kind")

    def pool(self, table):
        own = name(needed(table, "name"), "name")
        if own in [pool[0] for pool in self.pools]:
            raise Fault("name", "Twice")
        sched = table.get("sched", "credit2")
        if not isinstance(sched, str):
            raise Fault("sched", "Kind")
        if sched not in SCHEDULERS:
            raise Fault("sched", "NoSuch")
        cores = self.cores_of(needed(table, "cpus"), sched)
        no_other(table, ("name", "sched", "cpus", *POOL_KEYS[sched]))
        if sched == "credit2" and "ratelimit_us" in table:
            limit = number(table["ratelimit_us"], "ratelimit_us", *RANGES["ratelimit_us"])
            if 0 < limit < 100:
                raise Fault("ratelimit_us", "Range", limit)
        if sched == "arinc653":
            self.frame(table)
        self.pools.append((own, sched, cores))

    def cores_of(self, cpus, sched):
        """The cores of a pool; those of earlier pools are taken."""
        own = set()
        for cpu in array(cpus, "cpus", 0, 64):
            core = number(cpu, "cpus", 0, self.processors - 1) // self.granularity
            if core in self.cores:
                raise Fault("cpus", "Twice")
            own.add(core)
        if sched == "arinc653" and len(own) > 1:
            raise Fault("cpus", "Range", len(own))
        self.cores |= own
        return own

    def frame(self, table):
        if "major_ns" not in table and "frame" not in table:
            return
        major = number(needed(table, "major_ns"), "major_ns", *RANGES["major_ns"])
        needed(table, "frame")
        runs = 0
        for entry in array(table["frame"], "frame", 1, 64):
            for place, part in enumerate(array(entry, "frame", 3, 3)):
                # which domains and units there are is looked at last
                number(part, "frame", 1 if place == 2 else -(2**63), MOST_NS if place == 2 else 2**63 - 1)
            runs += entry[2]
        if runs > major:
            raise Fault("frame", "Range", runs)

    def domain(self, table):
        own = name(needed(table, "name"), "name")
        if own in [domain[0] for domain in self.domain_units]:
            raise Fault("name", "Twice")
        home = self.home_of(table)
        scripts = array(needed(table, "guests"), "guests", 1, MOST_VCPUS)
        for script in scripts:
            self.script(script)
        units = -(-len(scripts) // self.granularity)
        if self.format == 2 and "pins" in table:
            self.pins(table["pins"], units)
        no_other(table, ("name", "pool", "guests", *(["pins"] if self.format == 2 else []), *DOMAIN_KEYS[home[1]]))
        self.parameters(table, home[1])
        self.domain_units.append((own, units))

    def home_of(self, table):
        """The pool of a domain."""
        if "pool" in table:
            wanted = name(table["pool"], "pool")
            home = next((pool for pool in self.pools if pool[0] == wanted), None)
            if home is None:
                raise Fault("pool", "NoSuch")
        else:
            home = self.pools[0]
        if not home[2]:
            raise Fault("pool", "Empty")
        return home

    def script(self, script):
        spans = array(script, "guests", 0, MOST_SPANS)
        if len(spans) % 2:
            raise Fault("guests", "Range", len(spans))
        for span in spans:
            number(span, "guests", 1, MOST_NS)

    def pins(self, pins, units):
        array(pins, "pins", units, units)
        for each in pins:
            for cpu in array(each, "pins", 1, 64):
                number(cpu, "pins", 0, self.processors - 1)

    def parameters(self, table, sched):
        for key in ("weight", "cap") if sched == "credit2" else ("period_us",) if sched == "rtds" else ():
            if key in table:
                number(table[key], key, *RANGES[key])
        if sched == "rtds" and "budget_us" in table:
            number(table["budget_us"], "budget_us", 10, table.get("period_us", 10_000))
        if sched == "rtds" and "extratime" in table and not isinstance(table["extratime"], bool):
            raise Fault("extratime", "Kind")

    def all(self):
        """All checks in their order."""
        self.top()
        for self.where in [("pool", i) for i in range(len(self.found.get("pool", [])))]:
            self.pool(self.found["pool"][self.where[1]])
        if "pool" not in self.found:
            self.pools.append(("Pool-0", "credit2", set(range(self.processors // self.granularity))))
        for self.where in [("domain", d) for d in range(len(self.found.get("domain", [])))]:
            self.domain(self.found["domain"][self.where[1]])
        self.where = "top", 0
        units = sum(it[1] for it in self.domain_units)
        if units > MOST_UNITS:
            raise Fault("domain", "Range", units)
        for self.where in [("pool", i) for i in range(len(self.found.get("pool", [])))]:
            for d, u, _ in self.found["pool"][self.where[1]].get("frame", []):
                if not 0 <= d < len(self.domain_units):
                    raise Fault("frame", "Range", d)
                if not 0 <= u < self.domain_units[d][1]:
                    raise Fault("frame", "Range", u)


def fault_of(found):
    """The fault of a parsed domain file as the program prints it, `TABLE INDEX KEY CAUSE`, or None."""
    checked = Checked(found)
    try:
        checked.all()
    except Fault as fault:
        return f"{checked.where[0]} {checked.where[1]} {fault}"
    return None


def sentence(fault, found):
    """The same as a sentence for the user of a tool."""
    text = f"the program refuses it by `domains: {fault}` (docs/FORMATS-domain.md says what may stand there)"
    granularity = found.get("granularity", 1)
    if re.match(r"domain \d+ pins Range", fault) and granularity != 1:
        text += f"; a unit is {granularity} vCPUs and has one set of processors: `tools/from-xl --granularity {granularity}` writes them so"
    return text
