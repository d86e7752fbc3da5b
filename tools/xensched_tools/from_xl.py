"""Makes a domain file and a work file of what was found of a host, and tells what they cannot say."""
import fnmatch
import math
import re

from . import checking, premises
from .machine import DEFAULTS, Domain, Machine, Pool
from .words import Refused, time_of

CYCLE = 10_000_000
COMPARED = "4.17"
# What is told in one line each, in this order; first comes what bears on the answers.
BEFORE = [("soft", "soft affinity cannot be said here, so these go wherever they may: {}"), ("vnuma", "vNUMA nodes cannot be said here: {}"),
          ("nodes", "these lists of processors want the nodes that `xl info -n` prints, and are left out: {}")]
AFTER = [("idle", "no word says what these do, so they run without end (--load NAME=RUN/SLEEP or --busy NAME=PERCENT says otherwise): {}"),
         ("configured", "no output of xl has these, and a configuration has: they take part as if they ran: {}"),
         ("otherwise", "the host has it otherwise than a configuration, and the host's is taken: {}"),
         ("pools", "pools that the host has not are left out: {}"), ("gone", "dying and shut down domains are left out: {}"),
         ("offline", "vCPUs that are offline take no part: {}"), ("numbers", "vCPUs have other numbers here, since those between are offline: {}"),
         ("names", "names that cannot be written here: {}"), ("empty", "empty, so there is nothing of that kind: {}"),
         ("keys", "keys of configurations that say nothing of scheduling: {}")]


class Maker:
    """A machine in the making: the host, its domains, and which processor of the host is which here."""

    def __init__(self, host, granularity=None):
        self.host, self.guests, self.asked = host, host.guests(), granularity
        self.leave_out_empty()
        if not self.guests:
            raise Refused("no file speaks of a domain")
        self.granularity = self.granularity_of()
        self.place = self.places()
        self.domain_names = self.plain_names(self.guests)
        self.lines = []

    def leave_out_empty(self):
        """A domain without a vCPU that is online is being built or goes."""
        for name in [name for name, guest in self.guests.items() if not self.vcpus_of(guest)]:
            self.host.note("gone", f"{name}, no vCPU of which is online")
            del self.guests[name]

    def plain_names(self, names):
        """Each name in the form that the domain file has; one that has it stays."""
        taken = {name for name in names if checking.NAME.fullmatch(name)}
        return {name: name if checking.NAME.fullmatch(name) else self.plain_name(name, taken) for name in names}

    def plain_name(self, name, taken):
        """Another name for one with dots or blanks, that begins with a digit, or is too long."""
        made = re.sub(r"[^A-Za-z0-9_-]", "-", name)
        made = (made if made[:1].isalpha() else f"g-{made}")[:32]
        base, count = made, 2
        while made in taken:
            made, count = f"{base[: 31 - len(str(count))]}-{count}", count + 1
        taken.add(made)
        self.host.note("names", f"{name} is {made}")
        return made

    @staticmethod
    def vcpus_of(guest):
        """The numbers of its vCPUs on the host that take part."""
        return sorted(guest.online) if guest.online is not None else list(range(1 if guest.vcpus is None else guest.vcpus))

    # processors

    def granularity_of(self):
        """The processors of a core."""
        host, said = self.host, self.host.options.get("sched-gran", "cpu")
        if self.asked is not None:
            return self.asked
        size = {"cpu": 1, "core": host.threads, "socket": host.per_socket}.get(said)
        if size not in (1, 2, 4):
            host.tell(f"sched-gran={said} with {host.threads} threads a core cannot be said here: each processor is a core")
            return 1
        if size > 1:
            host.tell(f"sched-gran={said}: a core has {size} processors, a unit {size} vCPUs, and a cap is percent of such a core, as in Xen")
        return size

    def numbers(self):
        """The numbers of the host's processors, in order."""
        host = self.host
        named = sorted({cpu for pool in host.pools.values() for cpu in pool.cpus or []} | set(host.topology))
        if host.processors is None:
            if not named:
                raise Refused("no file says how many processors there are: give the output of `xl info` or of `xl cpupool-list -c`")
            host.tell(f"no output of `xl info`: the machine has the {named[-1] + 1} processors that its pools name")
            return list(range(named[-1] + 1))
        if not named or named[-1] < host.processors:
            return list(range(host.processors))
        if len(named) < host.processors:
            host.tell(f"{host.processors - len(named)} processors, which no pool names, are left out")
        return named

    def places(self):
        """Which processor of the host is which here: siblings side by side, and none left out between."""
        numbers, size, host = self.numbers(), self.granularity, self.host
        if size > 1 and host.topology:
            cores = {}
            for cpu in numbers:
                core, socket, _ = host.topology.get(cpu, (None, cpu, None))
                cores.setdefault((socket, core) if host.options.get("sched-gran") != "socket" or self.asked else socket, []).append(cpu)
            sizes = {len(siblings) for siblings in cores.values()}
            if sizes != {size}:
                raise Refused(f"cores of {size} processors cannot be made: `xl info -n` has cores of {' and '.join(map(str, sorted(sizes)))}; --granularity 1 goes without them")
            numbers = [cpu for siblings in cores.values() for cpu in siblings]
        if len(numbers) % size:
            raise Refused(f"{len(numbers)} processors are no whole number of cores of {size}; --granularity 1 goes without them")
        if len(numbers) > checking.MOST_PROCESSORS:
            host.tell(f"the host has {len(numbers)} processors, and 64 are the most here: the others are left out, and the 64 have the load of all")
        numbers = numbers[: checking.MOST_PROCESSORS]
        if numbers != list(range(len(numbers))):
            host.tell(f"processors have other numbers here: in this order they are {ranges(numbers)} of the host")
        return {cpu: here for here, cpu in enumerate(numbers)}

    # pools

    def pools(self):
        """The pools, in the order of the host."""
        host = self.host
        for guest in self.guests.values():
            # a pool that guests are in is one, unless xl lists the pools without it
            if guest.pool is not None and not host.listed_pools:
                host.pool(guest.pool)
        if not host.printed_pools:
            host.pool("Pool-0")
        found = sorted(host.pools.values(), key=lambda pool: pool.name != "Pool-0")
        if len(found) > checking.MOST_POOLS:
            raise Refused(f"the host has {len(found)} pools, and 16 are the most here")
        self.give_processors(found)
        names, made, cores = self.plain_names([pool.name for pool in found]), {}, {}
        for pool in found:
            one = Pool(names[pool.name], self.scheduler(pool), [self.place[cpu] for cpu in pool.cpus if cpu in self.place])
            if one.sched == "arinc653":
                self.one_core(pool, one)
            for core in {cpu // self.granularity for cpu in one.cpus}:
                if cores.setdefault(core, pool.name) != pool.name:
                    raise Refused(f"the pools {cores[core]} and {pool.name} have processors of one core of {self.granularity}: with such cores they cannot be; --granularity 1 goes without them")
            if one.sched == "credit2" and pool.ratelimit not in (None, DEFAULTS["ratelimit_us"]):
                one.settings["ratelimit_us"] = pool.ratelimit
            made[pool.name] = one
        return made

    def give_processors(self, found):
        """Gives processors to the pools of which no file says them: as many as `xl cpupool-list` counts, or all that are left to the first."""
        free = [cpu for cpu in self.place if cpu not in {cpu for pool in found for cpu in pool.cpus or []}]
        for pool in [pool for pool in found if pool.cpus is None]:
            count = len(free) if pool.count is None else pool.count
            if len(free) != count or len(found) > 1:
                self.host.tell(f"pool {pool.name}: no file says which processors it has (`xl cpupool-list -c` does): it has {ranges(free[:count]) or 'none'}")
            pool.cpus, free = free[:count], free[count:]

    def scheduler(self, pool):
        """The pool's scheduler, Credit2 in the place of one that is not modelled."""
        sched = pool.sched or "credit2"
        if sched == "credit":
            self.host.tell(f"pool {pool.name} is one of Credit 1 (`credit`), which is not modelled: Credit2 stands for it, with its weights and caps, and gives other waits and shares")
        elif sched == "arinc653":
            self.host.tell(f"pool {pool.name}: xl prints no frame of ARINC 653, and without one nothing runs: write `major_ns` and `frame` by hand (docs/FORMATS-domain.md)")
        elif sched not in ("credit2", "rtds", "null"):
            self.host.tell(f"pool {pool.name}: the scheduler {sched} is not modelled: Credit2 stands for it")
        return sched if sched in ("credit2", "rtds", "arinc653", "null") else "credit2"

    def one_core(self, pool, one):
        """A pool of ARINC 653 has one core here; in Xen too only one of its cores runs at a time."""
        first = one.cpus[:1]
        own = [cpu for cpu in one.cpus if cpu // self.granularity == first[0] // self.granularity] if first else []
        if own != one.cpus:
            self.host.tell(f"pool {pool.name}: one of ARINC 653 has one core here: it has the first of its {len(one.cpus) // self.granularity}")
        one.cpus = own

    def queues(self):
        """How many run queues Xen makes for each pool of Credit2, by its options and the sockets, cores and nodes."""
        host, found = self.host, {}
        most = host.options.get("sched_credit2_max_cpus_runqueue", "")
        most = int(most) if most.isdecimal() and int(most) else premises.RUN_QUEUE
        for name, pool in self.pools_made.items():
            groups = {}
            for cpu in [cpu for cpu, here in self.place.items() if here in pool.cpus]:
                groups.setdefault(self.queue_of(cpu), []).append(cpu)
            if pool.sched == "credit2" and groups:
                found[pool.name] = sum(-(-len(group) // most) for group in groups.values())
        return found

    def queue_of(self, cpu):
        """What Xen puts a processor into one run queue by."""
        host, kind = self.host, self.host.options.get("credit2_runqueue", "socket")
        core, socket, node = host.topology.get(cpu, (cpu // host.threads, cpu // (host.per_socket or 1 << 30), cpu * host.nodes // (host.processors or 1)))
        return {"cpu": cpu, "core": (socket, core), "node": node, "all": None}.get(kind, socket)

    def boot_words(self):
        """What of the host tools/as-xen has to be told, to run Credit2 as Xen does there."""
        host, processors = self.host, len(self.place)
        given = {"--runqueue": host.options.get("credit2_runqueue"), "--max-cpus-runqueue": host.options.get("sched_credit2_max_cpus_runqueue")}
        words = [f"{name} {value}" for name, value in given.items() if value and (value in premises.QUEUE_KINDS if name == "--runqueue" else value.isdecimal())]
        if host.per_socket and processors % host.per_socket == 0 and processors > host.per_socket:
            words.append(f"--sockets {processors // host.per_socket}")
        if host.threads > self.granularity and processors % host.threads == 0:
            words.append(f"--threads {host.threads}")
        return words

    # domains

    def pool_of(self, guest):
        """The guest's pool; the first that has a processor where no file says it, or it has none."""
        first = next((pool for pool in self.pools_made.values() if pool.cpus), None)
        if first is None:
            raise Refused("no pool has a processor")
        pool = self.pools_made.get(guest.pool)
        if pool is not None and pool.cpus:
            return pool
        if guest.pool is not None or len(self.pools_made) > 1:
            why = "no file says its pool (`xl list -c` does)" if guest.pool is None else f"its pool {guest.pool} {'has no processor' if pool else 'stands in no file'}"
            self.host.tell(f"{guest.name}: {why}: it is in {first.name}")
        return first

    def pins_of(self, guest, vcpus, pool):
        """The processors of each unit, None where all have all."""
        everything, pins = list(range(len(self.place))), []
        for group in self.units_of(vcpus):
            each = [self.pinned(guest, vcpu, pool) for vcpu in group]
            if len({None if it is None else tuple(it) for it in each}) > 1:
                self.host.tell(f"{guest.name}: the vCPUs {ranges(group)} are one unit and have several affinities: the unit may go where one of them may")
            pins.append(everything if None in each else sorted({cpu for it in each for cpu in it}))
        return pins if any(it != everything for it in pins) else None

    def units_of(self, vcpus):
        """The vCPUs of each unit."""
        return [vcpus[first : first + self.granularity] for first in range(0, len(vcpus), self.granularity)]

    def pinned(self, guest, vcpu, pool):
        """The processors of a vCPU, None for all."""
        said = (guest.pins or {}).get(vcpu)
        if said is None:
            return None
        cpus = sorted({self.place[cpu] for cpu in said if cpu in self.place})
        if not {cpu // self.granularity for cpu in cpus} & {cpu // self.granularity for cpu in pool.cpus}:
            self.host.tell(f"{guest.name}: its vCPU {vcpu} may go to no processor of its pool ({ranges(said) or 'none'}): all are allowed")
            return None
        return cpus if len(cpus) < len(self.place) else None

    def domain_of(self, guest, scripts):
        """The domain of the file; the work file gets what that cannot say."""
        vcpus = self.vcpus_of(guest)
        if len(vcpus) > checking.MOST_VCPUS:
            self.host.tell(f"{guest.name} has {len(vcpus)} vCPUs, and 32 are the most here: the others are left out")
            vcpus = vcpus[: checking.MOST_VCPUS]
        elif vcpus != list(range(len(vcpus))):
            self.host.note("numbers", f"{guest.name} {ranges(vcpus)}")
        pool = self.pool_of(guest)
        domain = Domain(self.domain_names[guest.name], pool.name, [scripts[vcpu] for vcpu in vcpus], self.pins_of(guest, vcpus, pool))
        self.set_parameters(domain, guest, pool.sched, vcpus)
        if guest.paused:
            self.lines.append(f"0 xl pause {domain.name}")
            self.host.tell(f"{guest.name} is paused: the work file pauses it at 0")
        return domain

    def set_parameters(self, domain, guest, sched, vcpus):
        """Gives the domain those of the guest's parameters that its pool's scheduler has, and the work file what a domain file cannot have."""
        if sched == "credit2":
            # no more than 64 cores can be had, so a greater cap bounds nothing
            cap = None if guest.cap is None else min(guest.cap, checking.RANGES["cap"][1])
            domain.settings = {key: value for key, value in (("weight", guest.weight), ("cap", cap)) if value not in (None, DEFAULTS[key])}
            return
        if guest.weight not in (None, DEFAULTS["weight"]) or guest.cap:
            self.host.tell(f"{guest.name}: its pool is one of {sched}, which has no weights and caps: left out")
        each = [guest.rtds.get(vcpu, guest.rtds.get("all")) for vcpu in vcpus]
        first = next((it for it in each if it is not None), None)
        if sched != "rtds" or first is None:
            return
        domain.settings = dict(zip(("period_us", "budget_us", "extratime"), first))
        # a unit has the parameters of its first vCPU
        others = {here: it for here, it in enumerate(each) if it not in (None, first) and here % self.granularity == 0}
        if others:
            self.host.tell(f"{guest.name}: a domain file has one period and budget for all vCPUs: the work file sets those of {ranges(list(others))}, which hold from their first replenishment on")
        self.lines += [f"0 xl sched-rtds -d {domain.name} -v {v} -p {period} -b {budget} -e {int(extra)}" for v, (period, budget, extra) in others.items()]

    def kept(self):
        """The domains that a machine here has room for."""
        units, found = 0, []
        for name, guest in self.guests.items():
            units += len(self.units_of(self.vcpus_of(guest)[: checking.MOST_VCPUS]))
            if len(found) == checking.MOST_DOMAINS or units > checking.MOST_UNITS:
                left = list(self.guests)[len(found) :]
                self.host.tell(f"the host has more than 64 domains or 256 units, which are the most here: left out are {', '.join(left)}")
                break
            found.append(guest)
        return found

    def machine(self, loads, busy, horizon):
        """The machine; the lines of the work file are in `lines`."""
        scripts = self.scripts(loads, busy)
        self.pools_made = self.pools()
        domains = [self.domain_of(guest, scripts[guest.name]) for guest in self.kept()]
        return Machine(len(self.place), horizon, list(self.pools_made.values()), domains, self.granularity)

    # what the guests do

    def scripts(self, loads, busy):
        """For each guest what each of its vCPUs does: run and sleep, a share of the time, or no word of it: then it runs without end."""
        found = {name: dict.fromkeys(self.vcpus_of(guest)) for name, guest in self.guests.items()}
        for name, _, part in self.parted(busy, self.share):
            count = len(found[name])
            if part > count:
                raise Refused(f"{name} has {count} vCPU{'s' if count > 1 else ''}, and cannot be busy for {100 * part:g}% of a processor")
            found[name] = dict.fromkeys(found[name], share_script(part / count))
        for name, vcpu, script in self.parted(loads, load_script):
            found[name].update(dict.fromkeys(found[name] if vcpu is None else [vcpu], script))
        for name, scripts in found.items():
            idle = [vcpu for vcpu, script in scripts.items() if script is None]
            if idle:
                self.host.note("idle", name if len(idle) == len(scripts) else f"{name}/{ranges(idle)}")
        return {name: {vcpu: script or [] for vcpu, script in scripts.items()} for name, scripts in found.items()}

    def parted(self, texts, read):
        """Each guest, and the vCPU where one is named, with what is said of it; patterns first, so that a name goes before them."""
        found = []
        for text in texts:
            who, equals, value = text.rpartition("=")
            if not equals:
                raise Refused(f"{text!r} is not of the form NAME=VALUE")
            for name, vcpu, plain in self.who(who, read is load_script):
                found.append((plain, name, vcpu, read(text, value)))
        return [it[1:] for it in sorted(found, key=lambda it: it[0])]

    def who(self, who, vcpus_too):
        """The guests that `web`, `web/1` or `web*` names, each with its vCPU or None, and how exactly."""
        by_plain = {plain: name for name, plain in self.domain_names.items()}
        if who in self.guests or who in by_plain:
            return [(who if who in self.guests else by_plain[who], None, 1)]
        name, slash, vcpu = who.rpartition("/")
        name = by_plain.get(name, name) if name not in self.guests else name
        if vcpus_too and slash and name in self.guests and vcpu.isdecimal():
            if int(vcpu) not in self.vcpus_of(self.guests[name]):
                raise Refused(f"{name} has no vCPU {vcpu} that takes part; it has {ranges(self.vcpus_of(self.guests[name]))}")
            return [(name, int(vcpu), 2)]
        fits = [(it, None, 0) for it in self.guests if fnmatch.fnmatchcase(it, who)]
        if not fits:
            raise Refused(f"no file speaks of the guest {who!r}; there are {', '.join(self.guests)}")
        return fits

    @staticmethod
    def share(text, value):
        """`60%`: of one processor, over all vCPUs, as xentop(1) shows it."""
        try:
            part = float(value.removesuffix("%")) / 100
        except ValueError:
            part = math.nan
        if not 0 <= part < math.inf:
            raise Refused(f"{text!r}: a share is written as web=60%, and is 0% or more")
        return part


def load_script(text, value):
    """`3ms/2ms`, or more such pairs."""
    parts = [time_of(part) for part in value.split("/")]
    if len(parts) % 2 or not all(1 <= part <= checking.MOST_NS for part in parts) or len(parts) > checking.MOST_SPANS:
        raise Refused(f"{text!r}: a load is RUN/SLEEP, or up to 32 such pairs, as web=3ms/2ms, each from 1ns to 10000s")
    return parts


def share_script(part):
    """A script that runs for this part of each 10 ms."""
    run = max(1, round(CYCLE * part))
    return [run, CYCLE - run] if run < CYCLE else []


def ranges(numbers):
    """Numbers as `0-3, 6`, in their order."""
    parts = []
    for number in numbers:
        if parts and parts[-1][1] == number - 1:
            parts[-1][1] = number
        else:
            parts.append([number, number])
    return ", ".join(f"{first}-{last}" if last > first else f"{first}" for first, last in parts)


def machine_of(host, loads, busy, horizon, granularity=None):
    """The machine, the lines of the work file, and the lines to be told."""
    maker = Maker(host, granularity)
    machine = maker.machine(loads, busy, horizon)
    if host.version and not host.version.startswith(f"{COMPARED}."):
        host.tell(f"the host has Xen {host.version}, and {premises.PAGE} compares with {COMPARED}")
    words = maker.boot_words() if any(pool.sched == "credit2" for pool in machine.pools) else []
    told = [*said(host, BEFORE), *premises.of(machine, queues=maker.queues() if host.processors else None), *host.first, *said(host, AFTER),
            *[f"by Xen's own code, as this host boots it: tools/as-xen DOMAINS WORK {' '.join(words)}"] * bool(words)]
    return machine, maker.lines, told


def said(host, kinds):
    """A line for each kind of thing that was left out or changed."""
    return [form.format(", ".join(host.notes[kind])) for kind, form in kinds if host.notes.get(kind)]
