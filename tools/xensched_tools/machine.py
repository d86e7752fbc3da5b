"""The two files that a run is made from: the domain file and the work file."""
import dataclasses
import json
import tomllib

from . import checking
from .checking import DOMAIN_KEYS, POOL_KEYS, SCHEDULERS
from .words import Refused

UNKNOWN = "unknown"         # in place of a script: the schedule alone says what the vCPU did
DEFAULTS = {"ratelimit_us": 1000, "weight": 256, "cap": 0, "period_us": 10000, "budget_us": 4000, "extratime": True}


@dataclasses.dataclass
class Pool:
    """A cpupool of the domain file; `settings` are the keys of its scheduler that the file has."""

    name: str
    sched: str = "credit2"
    cpus: list = dataclasses.field(default_factory=list)
    settings: dict = dataclasses.field(default_factory=dict)


@dataclasses.dataclass
class Domain:
    """A domain of the domain file; `settings` are the keys of its pool's scheduler that the file has. A script that is not known is None."""

    name: str
    pool: str
    guests: list
    pins: list | None = None
    settings: dict = dataclasses.field(default_factory=dict)

    def setting(self, key):
        """The value of a scheduler's key, the default where the file has none."""
        default = DEFAULTS[key]
        if key == "budget_us":
            default = min(default, self.setting("period_us"))
        return self.settings.get(key, default)


@dataclasses.dataclass
class Machine:
    """A machine as the domain file describes it. docs/FORMATS-domain.md says what the keys mean."""

    processors: int
    horizon: int
    pools: list
    domains: list
    granularity: int = 1

    @property
    def cores(self):
        """How many cores the machine has."""
        return self.processors // self.granularity

    def pool(self, name):
        """The pool of this name, or None."""
        return next((pool for pool in self.pools if pool.name == name), None)

    def units_of(self, domain):
        """How many units the domain has."""
        return -(-len(domain.guests) // self.granularity)

    def text(self):
        """The machine as a domain file."""
        pinned = any(domain.pins is not None for domain in self.domains)
        lines = [f"format = {2 if pinned else 1}"]
        if self.granularity != 1:
            lines.append(f"granularity = {self.granularity}")
        lines += [f"processors = {self.processors}", f"horizon_ns = {self.horizon}"]
        for pool in self.pools:
            lines += table("pool", {"name": pool.name, "sched": pool.sched, "cpus": pool.cpus, **pool.settings})
        for domain in self.domains:
            pins = {} if domain.pins is None else {"pins": domain.pins}
            guests = [UNKNOWN if script is None else script for script in domain.guests]
            lines += table("domain", {"name": domain.name, "pool": domain.pool, **domain.settings, "guests": guests, **pins})
        return "\n".join(lines) + "\n"


def table(kind, keys):
    """The lines of one table. What a domain file holds (names, whole numbers, truth, lists of numbers) JSON and TOML write alike."""
    return [f"[[{kind}]]", *(f"{key} = {json.dumps(value)}" for key, value in keys.items())]


def value_of(found, key, kind, where):
    """The value of a key that has to be there, of this type."""
    if not isinstance(found.get(key), kind) or isinstance(found[key], bool):
        raise Refused(f"{where}: `{key}` is {'not there' if key not in found else 'of another type than it has to be'}")
    return found[key]


def read_pool(found, where):
    """A table `pool`."""
    name, sched = value_of(found, "name", str, where), found.get("sched", "credit2")
    if sched not in SCHEDULERS:
        raise Refused(f"{where}: the scheduler {sched!r} is none of {', '.join(SCHEDULERS)}")
    return Pool(name, sched, value_of(found, "cpus", list, where), {key: found[key] for key in POOL_KEYS[sched] if key in found})


def read_domain(found, pools, where):
    """A table `domain`."""
    name, home = value_of(found, "name", str, where), found.get("pool", pools[0].name)
    pool = next((pool for pool in pools if pool.name == home), None)
    if pool is None:
        raise Refused(f"{where}: there is no pool {home!r}")
    guests = [None if script == UNKNOWN else script for script in value_of(found, "guests", list, where)]
    if not all(script is None or isinstance(script, list) and all(isinstance(span, int) for span in script) for script in guests):
        raise Refused(f"{where}: `guests` is no list of lists of numbers")
    return Domain(name, home, guests, found.get("pins"), {key: found[key] for key in DOMAIN_KEYS[pool.sched] if key in found})


def machine_of(found, name):
    """The machine of a parsed domain file. Its ranges `checking` has; here only what the tools stand on is looked at."""
    processors, horizon = value_of(found, "processors", int, name), value_of(found, "horizon_ns", int, name)
    tables = [value_of(found, key, list, name) if key in found else [] for key in ("pool", "domain")]
    if not all(isinstance(it, dict) for it in tables[0] + tables[1]):
        raise Refused(f"{name}: `pool` and `domain` are tables: [[pool]], [[domain]]")
    pools = [read_pool(it, f"{name}: pool {i}") for i, it in enumerate(tables[0])] or [Pool("Pool-0", cpus=list(range(processors)))]
    domains = [read_domain(it, pools, f"{name}: domain {d}") for d, it in enumerate(tables[1])]
    granularity = found.get("granularity", 1)
    if granularity not in (1, 2, 4) or processors < 1 or processors % granularity:
        raise Refused(f"{name}: {processors} processors in cores of {granularity!r} are no machine")
    return Machine(processors, horizon, pools, domains, granularity)


def read_machine(path):
    """The machine of a domain file; what the program would refuse is refused."""
    with open(path, "rb") as file:
        try:
            found = tomllib.loads(file.read().decode("utf-8-sig"))
        except RecursionError:
            raise Refused(f"{path} is no domain file: its values stand too deep in others") from None
        except ValueError as error:
            raise Refused(f"{path} is no domain file: {error}") from None
    fault = checking.fault_of(with_scripts(found))
    if fault:
        raise Refused(f"{path}: {checking.sentence(fault, found)}")
    return machine_of(found, path)


def with_scripts(found):
    """The same with an empty script in place of each that is not known: such a file the tools read, and the program does not."""
    domains = found.get("domain")
    if not isinstance(domains, list):
        return found
    return {**found, "domain": [with_scripts_in(it) if isinstance(it, dict) and isinstance(it.get("guests"), list) else it for it in domains]}


def with_scripts_in(domain):
    return {**domain, "guests": [[] if script == UNKNOWN else script for script in domain["guests"]]}


@dataclasses.dataclass
class Command:
    """A command of the work file: its number among them from 1, its line, its moment, and its words behind `xl`."""

    number: int
    line: int
    at: int
    words: list

    def __str__(self):
        return f"`{' '.join(self.words)}` (line {self.line}, {self.at} ns)"


def read_work(path):
    """The commands of a work file, in order. The program itself refuses wrong lines."""
    commands = []
    with open(path, encoding="utf-8", errors="replace") as file:
        for number, line in enumerate(file, 1):
            words = line.rstrip("\r\n").split(" ")
            words = [word for word in words if word]
            if not words or line.startswith("#"):
                continue
            if not words[0].isdecimal() or len(words) < 3 or words[1] not in ("stall", "xl"):
                raise Refused(f"{path}: line {number} is no line of a work file: {line.strip()!r}")
            if words[1] == "xl":
                commands.append(Command(len(commands) + 1, number, int(words[0]), words[2:]))
    return commands


def options_of(words):
    """The options of a command with their values, and its other words behind the first."""
    given, rest, left = {}, [], list(words[1:])
    while left:
        word = left.pop(0)
        if word == "-s":
            given[word] = True
        elif word.startswith("-") and left:
            given[word] = left.pop(0)
        elif "=" in word:
            key, _, given[key] = word.partition("=")
        else:
            rest.append(word)
    return given, rest
