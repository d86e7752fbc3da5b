"""Reads what xl prints and what it is configured by: each reader adds what it finds to a `Host`, and tells what it leaves out.

xl prints by fixed formats, which the readers name with the file and the function of its sources (4.17). A name may have blanks and digits, and stands
first; so a row is read from the right, where each field has a form of its own. Where a name or a pool's name touches a number, the row is read as the
format would print it, and by the names that other files have; a row that can still be read in two ways is refused.
"""
import codecs
import dataclasses
import json
import os
import re

from . import xl_config
from .words import Refused

POOL_KEYS = {"name", "sched", "nodes", "cpus"}
GUEST_KEYS = {"name", "vcpus", "maxvcpus", "cpus", "cpu_weight", "cap", "pool", "cpus_soft", "vnuma"}
# What libxl says instead of a name that a dying domain no longer has.
NAMELESS = "(null)"
MOST_NUMBER = 1 << 16


@dataclasses.dataclass
class FoundPool:
    """A pool as the files say it; None is not said. `count` is how many processors it has."""

    name: str
    sched: str | None = None
    cpus: list | None = None
    count: int | None = None
    ratelimit: int | None = None


@dataclasses.dataclass
class FoundGuest:
    """A domain as the files say it; None is not said.

    `online` has the vCPUs that take part, `vcpus` how many there are where no file names them. `pins` has a list of processors for each vCPU that has
    one, `rtds` the period, budget and extra time of each vCPU, or of "all"; `soft` is whether it has a soft affinity, `unsaid` the lists of processors
    that could not be read. `places` has the output and the line of each row that named it.
    """

    name: str
    number: int | None = None
    vcpus: int | None = None
    online: list | None = None
    pool: str | None = None
    weight: int | None = None
    cap: int | None = None
    pins: dict | None = None
    rtds: dict = dataclasses.field(default_factory=dict)
    soft: bool | None = None
    unsaid: list = dataclasses.field(default_factory=list)
    paused: bool = False
    gone: bool = False
    places: set = dataclasses.field(default_factory=set)

    def fill(self, other):
        """Takes what the other one says and this one does not."""
        self.unsaid = self.unsaid if self.pins is not None else other.unsaid
        for field in ("vcpus", "online", "pool", "weight", "cap", "pins", "soft"):
            if getattr(self, field) is None:
                setattr(self, field, getattr(other, field))
        self.rtds = self.rtds or other.rtds
        self.paused, self.places = self.paused or other.paused, self.places | other.places


class Host:
    """All that the files say, and what is to be told: `first` has what bears on the answers, `notes` lists of what is left out or changed, by kind."""

    def __init__(self):
        self.processors, self.threads, self.per_socket, self.nodes, self.version, self.options = None, 1, None, 1, None, {}
        self.topology, self.pools, self.numbered, self.configured = {}, {}, {}, {}
        self.first, self.notes, self.listed_pools, self.printed_pools = [], {}, False, False

    def pool(self, name):
        return self.pools.setdefault(name, FoundPool(name))

    def guest(self, name, number, place):
        """The domain of a row, None where it has no name any more."""
        if name == NAMELESS:
            self.note("gone", f"domain {number}, which has no name any more")
            return None
        guest = self.numbered.setdefault((number, name), FoundGuest(name, number))
        guest.places.add(place)
        return guest

    def tell(self, text):
        """Something that bears on the answers, once."""
        if text not in self.first:
            self.first.append(text)

    def note(self, kind, text):
        """One of a list of things that are said in one line."""
        items = self.notes.setdefault(kind, [])
        if text not in items:
            items.append(text)

    def names(self):
        return {name for _, name in self.numbered}

    def guests(self):
        """The domains by their names, in the order of their numbers; those that only a configuration has come last."""
        found = {}
        for _, guest in sorted(self.numbered.items(), key=lambda it: it[0]):
            if guest.gone:
                self.note("gone", f"{guest.name} (domain {guest.number})")
                continue
            other = found.get(guest.name)
            if other is not None and {file for file, _ in other.places} & {file for file, _ in guest.places}:
                raise Refused(f"two domains are called {guest.name}, the numbers {other.number} and {guest.number}: rename one of them")
            if other is not None:
                # it was started anew between two commands
                guest.fill(other)
            found[guest.name] = guest
        for name, guest in self.configured.items():
            if name in found:
                self.compare(found[name], guest)
                found[name].fill(guest)
            else:
                if self.numbered:
                    self.note("configured", name)
                found[name] = guest
        for guest in found.values():
            for text in guest.unsaid:
                self.note("nodes", text)
            if guest.soft:
                self.note("soft", guest.name)
        return found

    def compare(self, running, written):
        """What a configuration says, and the host has otherwise."""
        for field in ("vcpus", "pool", "weight", "cap"):
            one, other = getattr(running, field), getattr(written, field)
            if None not in (one, other) and one != other:
                self.note("otherwise", f"{running.name}: {field} {other}, and the host has {one}")


# lists of processors

def numbers_of(text):
    """The processors of `0-3,6`, none of `none`, None for all; ValueError where it is no list."""
    text = text.strip()
    if text in ("all", "any cpu"):
        return None
    found = []
    for item in text.split(",") if text not in ("none", "") else []:
        first, dash, last = item.partition("-")
        if not first.isdecimal() or dash and not last.isdecimal() or int(last or first) > MOST_NUMBER:
            raise ValueError(text)
        found += range(int(first), int(last or first) + 1)
    return found


def cpu_list(text, host, where, unsaid):
    """The processors of xl.cfg(5)'s `0-3,node:1,^2`, one item after the other; None for all, or where it cannot be said, and then `unsaid` says why."""
    every = set(host.topology) or set(range(host.processors or 0))
    taken, whole = set(), False
    for item in text.replace(" ", "").split(",") if text.strip() else ["all"]:
        found = re.fullmatch(r"(\^?)(nodes?:)?(\d+)(?:-(\d+))?", item)
        if item in ("all", "node:all", "nodes:all"):
            taken, whole = taken | every, True
            continue
        if not found or int(found[4] or found[3]) > MOST_NUMBER:
            raise Refused(f"{where}: {item!r} is no list of processors")
        named = set(range(int(found[3]), int(found[4] or found[3]) + 1))
        if found[2]:
            named = {cpu for cpu, (_, _, node) in host.topology.items() if node in named}
        if found[2] and not host.topology or found[1] and whole and not every:
            unsaid.append(f"{where}: {item}")
            return None
        taken, whole = (taken - named, whole and not taken & named) if found[1] else (taken | named, whole)
    return None if whole else sorted(taken)


# rows

def blank_runs(row):
    """The places at which a run of blanks begins behind something else."""
    return [at for at in range(1, len(row)) if row[at].isspace() and not row[at - 1].isspace()]


def the_one(found, row, where, printed, *likely):
    """The one way in which a row can be read; each way begins with the name that it gives. Of several ways those are taken that xl prints so, and then those that each test of `likely` takes."""
    ways = list(dict.fromkeys(found))
    for fits in (lambda way: printed(way).rstrip() == row.rstrip(), *likely):
        if len(ways) > 1:
            ways = [way for way in ways if fits(way)] or ways
    if not ways:
        raise Refused(f"{where} is no row of it: {row.strip()[:80]!r}")
    if len(ways) > 1:
        names = " or ".join(repr(way[0]) for way in ways[:3])
        raise Refused(f"{where} can be read in {len(ways)} ways, as that of {names}, and no other file says which: {row.strip()[:100]!r}")
    return ways[0]


def numbered_rows(text, where):
    """The rows under the first line, each with words that name its place."""
    return [(f"{where}, line {number},", line) for number, line in enumerate(text.split("\n"), 1) if number > 1 and line.strip()]


LIST_ROW = re.compile(r"\s+(\d+)\s+(\d+)\s+(\d+)\s+([r-][b-][p-][s-][-rscwS?][d-])\s+(\d+\.\d)")
# What `xl list` prints behind the time, by the words in its first line: -v, -Z, claims, -c, -n.
LIST_MORE = [("UUID", r"\s+[0-9a-f-]{36}\s+(?:[0-9a-f]+|-)"), ("Claimed", r"\s+\d+"), ("Security Label", r"\s+\S+"), ("Cpupool", r"\s*(?P<pool>\S.*?)"), ("NODE Affinity", r"\s+(?:all|none|[\d,-]+)")]


def list_ways(row, more):
    """xl_info.c, list_domains: "%-40s %5d %5lu %5d     %c%c%c%c%c%c  %8.1f", and behind it with -c "%16s" without a blank."""
    for at in blank_runs(row):
        found = LIST_ROW.match(row, at)
        rest = found and re.fullmatch(more + r"\s*", row[found.end() :])
        if rest:
            yield row[:at].strip(), *found.groups(), rest.groupdict().get("pool")


def list_printed(way):
    name, number, memory, vcpus, state, seconds, pool = way
    return f"{name:<40} {number:>5} {memory:>5} {vcpus:>5}     {state}  {seconds:>8}" + (f"{pool:>16}" if pool else "")


def read_list(host, text, where):
    """`xl list`: the domains, how many vCPUs they have online, whether they are paused or going, with `-c` their pools."""
    head = text.split("\n")[0]
    more = "".join(pattern for words, pattern in LIST_MORE if words in head)
    for place, row in numbered_rows(text, where):
        names, pools = host.names(), host.pools
        name, number, _, vcpus, state, _, pool = the_one(list_ways(row, more), row, place, list_printed, lambda way: way[0] in names, lambda way: way[6] in pools)
        guest = host.guest(name, int(number), (where, place))
        if guest is None:
            continue
        guest.vcpus, guest.pool = int(vcpus), pool or guest.pool
        guest.paused, guest.gone = "p" in state[2] and state[3] == "-", state[3] == "s" or state[5] == "d"


VCPU_ROW = re.compile(r"(.*?)\s+(\d+)\s+(\d+)\s+(\d+|-)\s+([r-][b-][p-])\s+(\d+\.\d)\s+(all|any cpu|none|[\d,-]+)(?:\s+/\s+(all|none|[\d,-]+))?\s*")


def steers(soft, hard):
    """Whether a soft affinity says anything beside the hard one (Xen's has_soft_affinity)."""
    return bool(soft) and (hard is None or not set(hard) <= set(soft) and bool(set(soft) & set(hard)))


def read_vcpu_list(host, text, where):
    """`xl vcpu-list` (xl_vcpu.c, print_vcpuinfo: "%-32s %5u %5u", "%5u %3c%c- " or "%5c %3c%cp ", "%9.1f  ", "HARD / SOFT"): the vCPUs that are online, and their affinities."""
    begun = set()
    for place, row in numbered_rows(text, where):
        found = VCPU_ROW.fullmatch(row)
        if not found:
            raise Refused(f"{place} is no row of it: {row.strip()[:80]!r}")
        name, vcpu, soft = found[1].strip(), int(found[3]), found[8]
        guest = host.guest(name, int(found[2]), (where, place))
        if guest is None:
            continue
        if guest.number not in begun:
            begun.add(guest.number)
            guest.online, guest.pins, guest.soft = [], {}, False
        if found[4] == "-":
            host.note("offline", f"{name} {vcpu}")
            continue
        if vcpu in guest.online:
            raise Refused(f"{place} is a second row of {name}'s vCPU {vcpu}")
        guest.online.append(vcpu)
        hard = numbers_of(found[7])
        if hard is not None:
            guest.pins[vcpu] = hard
        guest.soft = bool(guest.soft or soft is not None and steers(numbers_of(soft), hard))


def pool_ways(row):
    """xl_cpupool.c, main_cpupoollist: "%-19s" and "%3d %9s       y       %4d" without a blank between."""
    found = re.fullmatch(r"(.*?)(\d+)\s+([a-z]\w*)\s+y\s+(\d+)\s*", row)
    if found:
        for at in range(len(found[1]), len(found[1]) + len(found[2])):
            name, count = row[:at], row[at : len(found[1]) + len(found[2])]
            if name.strip() and (name[-1].isspace() or len(name) >= 19) and (count == "0" or count[0] != "0"):
                yield name.strip(), count, found[3], found[4]


def read_cpupool_list(host, text, where):
    """`xl cpupool-list`: the pools, how many processors they have, and their schedulers."""
    host.listed_pools = True
    for place, row in numbered_rows(text, where):
        name, count, sched, _ = the_one(pool_ways(row), row, place, lambda way: f"{way[0]:<19}{way[1]:>3} {way[2]:>9}       y       {way[3]:>4}",
                                        lambda way: int(way[1]) <= (host.processors or 0))
        pool = host.pool(name)
        pool.sched, pool.count = sched, int(count)


def cpus_ways(row):
    """xl_cpupool.c, main_cpupoollist: "%-19s" and "%d,%d .." without a blank between."""
    places = {*range(19, len(row) + 1), len(row), *blank_runs(row)} if row[0] != " " else ()
    for at in sorted(places):
        name, cpus = row[:at], row[at:].strip()
        try:
            found = tuple(numbers_of(cpus or "none") or ())
        except ValueError:
            continue
        if name.strip() and (at <= 19 or not name[-1].isspace()) and list(found) == sorted(set(found)) and not re.search(r"(?<!\d)0\d", cpus):
            yield name.strip(), found


def read_cpupool_cpus(host, text, where):
    """`xl cpupool-list -c`: the pools and their processors."""
    known = set(host.pools) if host.listed_pools else set()
    for place, row in numbered_rows(text, where):
        name, cpus = the_one(cpus_ways(row), row, place, lambda way: f"{way[0]:<19}{','.join(map(str, way[1]))}", lambda way: way[0] in known,
                             lambda way: host.pools[way[0]].count == len(way[1]) if way[0] in known else "  " not in way[0] and not way[0].endswith(","))
        host.pool(name).cpus = list(cpus)


# xl_sched.c: sched_credit2_pool_output, sched_credit_pool_output, sched_rtds_pool_output
SECTIONS = [(re.compile(r"Cpupool (.*): ratelimit=(-?\d+)us\s*"), "credit2"), (re.compile(r"Cpupool (.*): tslice=\d+ms ratelimit=(-?\d+)us migration-delay=\d+us\s*"), "credit"),
            (re.compile(r"Cpupool (.*): sched=(RTDS)\s*"), "rtds"), (re.compile(r"Cpupool (.*): (\[sched params unavailable\])\s*"), None)]
# xl_sched.c: "%-33s %4d %6d %4d", "%-33s %4d %4d %9u %9u %10s", "%-33s %4d %9d %9d %10s"; each under its own head
WEIGHTS, EACH_VCPU, EACH_DOMAIN = (re.compile(form) for form in (
    r"(.*?)\s+(\d+)\s+(\d+)\s+(\d+)\s*", r"(.*?)\s+(\d+)\s+(\d+)\s+(\d+)\s+(\d+)\s+(yes|no)\s*", r"(.*?)\s+(\d+)()\s+(\d+)\s+(\d+)\s+(yes|no)\s*"))
HEADS = {"Name ID Weight Cap": WEIGHTS, "Name ID VCPU Period Budget Extratime": EACH_VCPU, "Name ID Period Budget Extratime": EACH_DOMAIN}


def section_of(host, line):
    """The pool that a line of `xl sched-..` names, None where it is no such line."""
    for pattern, sched in SECTIONS:
        found = pattern.fullmatch(line)
        if found:
            pool = host.pool(found[1])
            if sched is None:
                host.tell(f"pool {pool.name}: xl could not read its parameters ([sched params unavailable]): the defaults hold")
            else:
                pool.sched = sched
            if sched in ("credit", "credit2"):
                pool.ratelimit = int(found[2])
            return pool
    return None


def read_sched(host, text, where):
    """`xl sched-credit2`, `xl sched-credit` and `xl sched-rtds`, the latter also with `-v all`: parameters of pools, domains and vCPUs."""
    pool, form = None, None
    for number, line in enumerate(text.split("\n"), 1):
        place = f"{where}, line {number},"
        head = HEADS.get(" ".join(line.split()))
        section = None if head else section_of(host, line)
        if head or section or not line.strip():
            form, pool = head or form, section or pool
            continue
        found = form and form.fullmatch(line)
        if not found:
            raise Refused(f"{place} is no row of it: {line.strip()[:80]!r}")
        guest = host.guest(found[1].strip(), int(found[2]), (where, place))
        if guest is None:
            continue
        guest.pool = pool.name if pool else guest.pool
        if form is WEIGHTS:
            guest.weight, guest.cap = int(found[3]), int(found[4])
        else:
            guest.rtds[int(found[3]) if found[3] else "all"] = int(found[4]), int(found[5]), found[6] == "yes"


def read_info(host, text, where):
    """`xl info` (xl_info.c, print_info): the processors, the siblings and how they are scheduled; with `-n` the core, socket and node of each."""
    said = dict(re.findall(r"^(\w+) *: ?(.*?)\s*$", text, re.M))
    host.processors, host.threads = int(said["nr_cpus"]), int(said.get("threads_per_core", 1))
    if not 1 <= host.processors <= MOST_NUMBER or not 1 <= host.threads <= 64:
        raise ValueError("processors")
    host.per_socket = int(said["cores_per_socket"]) * host.threads if "cores_per_socket" in said else None
    host.nodes, host.version = int(said.get("nr_nodes", 1)), said.get("xen_version")
    host.options = dict(re.findall(r"(?:^|\s)([\w-]+)=(\S*)", said.get("xen_commandline", "")))
    _, head, rest = text.partition("\ncpu:    core    socket     node\n")
    for line in rest.splitlines() if head else []:
        found = re.fullmatch(r"\s*(\d+):\s+(\d+)\s+(\d+)\s+(\d+)\s*", line)
        if not found:
            break
        host.topology[int(found[1])] = int(found[2]), int(found[3]), int(found[4])


def read_long_list(host, text, where):
    """`xl list -l`, which is JSON (xl_info.c, list_domains_details): names, pools, vCPUs and affinities."""
    for found in json.loads(text):
        config, number = found["config"], found["domid"]
        own, built = config["c_info"], config.get("b_info", {})
        guest = host.guest(str(own.get("name") or NAMELESS), number if type(number) is int else -1, (where, str(number)))
        if guest is None:
            continue
        guest.pool = own.get("pool_name") or guest.pool
        online, most = built.get("avail_vcpus"), int(built.get("max_vcpus", 0))
        if online is not None and guest.online is None:
            guest.online = sorted(map(int, online))
            for vcpu in sorted(set(range(most)) - set(guest.online)):
                host.note("offline", f"{guest.name} {vcpu}")
        elif most and guest.vcpus is None and guest.online is None:
            guest.vcpus = most
        hard = built.get("vcpu_hard_affinity")
        if hard is not None and guest.pins is None:
            guest.pins = {vcpu: sorted(map(int, cpus)) for vcpu, cpus in enumerate(hard)}
        if guest.soft is None:
            guest.soft = any(steers(cpus, (guest.pins or {}).get(vcpu)) for vcpu, cpus in enumerate(built.get("vcpu_soft_affinity", [])))
        if built.get("vnuma_nodes"):
            host.note("vnuma", guest.name)
        params = built.get("sched_params", {})
        for field in ("weight", "cap"):
            if field in params and getattr(guest, field) is None:
                setattr(guest, field, int(params[field]))
        if params.get("sched") == "rtds" and not guest.rtds and "period" in params and "budget" in params:
            guest.rtds["all"] = int(params["period"]), int(params["budget"]), bool(params.get("extratime", True))


# configurations

def text_of(found, key, where):
    """The value of a key that is a text."""
    line, value = found[key]
    if not isinstance(value, str) or not value.strip():
        raise Refused(f"{where}: line {line}: `{key}` is to be a text")
    return value


def whole_of(found, key, where, low, high):
    """The value of a key that is a number in this range."""
    line, value = found[key]
    number = xl_config.number_of(value)
    if number is None or not low <= number <= high:
        raise Refused(f"{where}: line {line}: `{key}` is to be a number from {low} to {high}")
    return number


def read_guest(host, found, where):
    """A guest's configuration, xl.cfg(5)."""
    guest = FoundGuest(text_of(found, "name", where))
    if guest.name in host.configured:
        host.note("otherwise", f"{guest.name}: several configurations, of which {where} is taken")
    host.configured[guest.name] = guest
    for key in found:
        if key not in GUEST_KEYS:
            host.note("keys", key)
    guest.vcpus = whole_of(found, "vcpus", where, 1, 512) if "vcpus" in found else 1
    if "maxvcpus" in found and whole_of(found, "maxvcpus", where, 1, 512) > guest.vcpus:
        host.note("offline", f"{guest.name} {guest.vcpus}-{whole_of(found, 'maxvcpus', where, 1, 512) - 1}")
    if "cpu_weight" in found:
        guest.weight = whole_of(found, "cpu_weight", where, 1, 65535)
    if "cap" in found:
        guest.cap = whole_of(found, "cap", where, 0, 65535)
    if "pool" in found:
        guest.pool = text_of(found, "pool", where)
    guest.soft = "cpus_soft" in found
    if "vnuma" in found:
        host.note("vnuma", guest.name)
    if "cpus" in found:
        line, value = found["cpus"]
        each = value if isinstance(value, list) else [value] * guest.vcpus
        if not all(isinstance(item, str) for item in each):
            raise Refused(f"{where}: line {line}: `cpus` is to be a text or a list of texts")
        read = {text: cpu_list(text, host, f"{where}: line {line}", guest.unsaid) for text in dict.fromkeys(each)}
        guest.pins = {vcpu: read[text] for vcpu, text in enumerate(each[: guest.vcpus]) if read[text] is not None}


def read_pool_config(host, found, where, path):
    """A pool's configuration, xlcpupool.cfg(5)."""
    name = text_of(found, "name", where) if "name" in found else os.path.basename(path)
    if host.listed_pools and name not in host.pools:
        host.note("pools", name)
        return
    pool = host.pool(name)
    if "sched" in found and pool.sched is None:
        pool.sched = text_of(found, "sched", where)
    for key in ("cpus", "nodes"):
        if key in found and pool.cpus is None:
            line, value = found[key]
            each = value if isinstance(value, list) else [value]
            if not all(isinstance(item, str) for item in each):
                raise Refused(f"{where}: line {line}: `{key}` is to be a text or a list of texts")
            unsaid = []
            pool.cpus = cpu_list(",".join(f"node:{item}" if key == "nodes" else item for item in each), host, f"{where}: line {line}", unsaid)
            for text in unsaid:
                host.note("nodes", text)


# files

# What a file is, by its first line; the order is that in which the files are read, so that names are known before rows that need them.
KINDS = [
    (r"(?s).*?^nr_cpus\s*:", "xl info", read_info),
    (r"Name\s+CPUs\s+Sched", "xl cpupool-list", read_cpupool_list),
    (r"Cpupool .*: (?:ratelimit=|tslice=|sched=RTDS|\[sched params unavailable\])|Name\s+ID\s+(?:Weight\s+Cap|(?:VCPU\s+)?Period\s+Budget)", "xl sched-credit2, sched-credit or sched-rtds", read_sched),
    (r"Name\s+ID\s+VCPU\s+CPU\s+State", "xl vcpu-list", read_vcpu_list),
    (r"\s*\[\s*(?:\{|\]\s*$)", "xl list -l", read_long_list),
    (r"Name\s+ID\s+Mem\s+VCPUs", "xl list", read_list),
    (r"Name\s+CPU list", "xl cpupool-list -c", read_cpupool_cpus),
]


def decoded(path):
    """The text of a file, whichever mark of byte order it begins with."""
    with open(path, "rb") as file:
        raw = file.read()
    if raw.startswith((codecs.BOM_UTF16_LE, codecs.BOM_UTF16_BE)):
        text = raw.decode("utf-16", "replace")
    else:
        text = raw.decode("utf-8-sig", "replace")
    text = text.replace("\r\n", "\n").replace("\r", "\n")
    if "\0" in text:
        raise Refused(f"{path} is no text")
    return text


def read_output(host, path, text, name, read):
    """Reads the output of a command of xl."""
    try:
        read(host, text, f"{path} ({name})")
    except (LookupError, TypeError, ValueError, AttributeError, RecursionError):
        raise Refused(f"{path} begins like the output of `{name}` and goes on otherwise") from None


def read_configuration(host, path, text):
    """Reads a guest's or a pool's configuration."""
    try:
        found = xl_config.settings_of(text)
    except xl_config.NoSetting as fault:
        raise Refused(f"{path} is none of: a guest's or a pool's configuration (its line {fault} is no setting KEY = VALUE), the output of "
                      f"{', '.join(name for _, name, _ in KINDS)}") from None
    if found.keys() <= POOL_KEYS and found.keys() - {"name"}:
        return read_pool_config(host, found, path, path)
    if "name" in found:
        return read_guest(host, found, path)
    raise Refused(f"{path} is none of: a guest's or a pool's configuration (it has no `name`), the output of {', '.join(name for _, name, _ in KINDS)}")


def read_files(host, paths):
    """Reads files of whichever kind they are: what xl prints first, kind after kind, and then the configurations. Of one kind the later file goes before the earlier one."""
    outputs, others = [], []
    for path in map(str, paths):
        if "*" in path and not os.path.exists(path):
            # what a shell hands over where its pattern fits no file
            host.note("empty", path)
            continue
        text = decoded(path)
        if not text.strip():
            host.note("empty", path)
            continue
        start = text.lstrip("\n")
        kind = next((k for k, (pattern, _, _) in enumerate(KINDS) if re.match(pattern, start, re.M)), None)
        if kind is None:
            others.append((path, text))
        else:
            outputs.append((kind, len(outputs), path, start))
    for kind, _, path, text in sorted(outputs):
        read_output(host, path, text, *KINDS[kind][1:])
    host.printed_pools = bool(host.pools)
    for path, text in others:
        read_configuration(host, path, text)
