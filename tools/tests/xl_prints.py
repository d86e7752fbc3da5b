"""Random hosts, and what xl would print of them: each function has the formats of the function of Xen's sources (4.17.5, tools/xl) that it names."""
import dataclasses
import json

WORDS = ["web", "db", "mail server", "1wire", "win2019", "build", "a", "Name", "Cpupool x", "x 12 256 0", "ad-dm", "Domain", "all", "r-----", "y", "ü", "node.example.org", "two  blanks", "ID", "(null", "5.0", "0", "7"]
SCHEDULERS = ["credit2", "credit2", "credit2", "rtds", "null", "arinc653", "credit"]


@dataclasses.dataclass
class Vcpu:
    number: int
    online: bool
    hard: set
    soft: set
    rtds: tuple


@dataclasses.dataclass
class Guest:
    number: int
    name: str
    pool: "Pool"
    vcpus: list
    weight: int = 256
    cap: int = 0
    paused: bool = False
    dying: bool = False

    @property
    def online(self):
        return [vcpu for vcpu in self.vcpus if vcpu.online]


@dataclasses.dataclass
class Pool:
    name: str
    sched: str
    cpus: list
    ratelimit: int = 1000


@dataclasses.dataclass
class Host:
    cpus: list
    most: int
    threads: int
    cores: int
    granularity: int
    topology: dict
    pools: list
    guests: list

    @property
    def every(self):
        return set(range(self.most + 1))


def name_of(draw, taken):
    """A name as people and tools give it, at most 60 letters, that no other one has."""
    while True:
        made = draw.choice(["-", " ", ".", ""]).join(draw.choices(WORDS, k=draw.randint(1, 4)))
        if draw.random() < 0.3:
            made = made.ljust(draw.choice([15, 16, 17, 18, 19, 20, 32, 33, 40, 41]), draw.choice("abc19"))
        made = made[:60].strip()
        if made and made not in taken and made != "(null)":
            taken.add(made)
            return made


def host_of(draw):
    """A host of up to 64 processors."""
    threads = draw.choice([1, 1, 2, 2, 4])
    cores = draw.randint(1, 64 // threads)
    apart = threads > 1 and draw.random() < 0.3
    count = cores * threads
    # siblings are neighbours in number, or as many apart as there are cores
    topology = {cpu: (cpu % cores if apart else cpu // threads, 0, 0) for cpu in range(count)}
    sockets = draw.choice([1, 2])
    topology = {cpu: (core % -(-cores // sockets), core // -(-cores // sockets), core // -(-cores // sockets)) for cpu, (core, _, _) in topology.items()}
    granularity = threads if threads > 1 and draw.random() < 0.5 else 1
    cpus, gaps = list(range(count)), 1
    if granularity == 1 and draw.random() < 0.2:
        # every second one is parked, as with smt=off
        gaps = 2
        cpus = [cpu * gaps for cpu in cpus]
        topology = {cpu * gaps: it for cpu, it in topology.items()}
    host = Host(cpus, cpus[-1] + draw.choice([0, gaps - 1, 31]), threads, cores, granularity, topology, [], [])
    add_pools(draw, host)
    add_guests(draw, host)
    return host


def cores_of(host):
    """The processors of each core that is scheduled as one."""
    if host.granularity == 1:
        return [[cpu] for cpu in host.cpus]
    found = {}
    for cpu, (core, socket, _) in host.topology.items():
        found.setdefault((socket, core), []).append(cpu)
    return list(found.values())


def add_pools(draw, host):
    cores, taken = cores_of(host), set()
    for place in range(draw.randint(1, min(4, len(cores)))):
        name = "Pool-0" if place == 0 and draw.random() < 0.7 else name_of(draw, taken)
        taken.add(name)
        host.pools.append(Pool(name, draw.choice(SCHEDULERS), [], draw.choice([0, 500, 1000, 20000])))
    for place, core in enumerate(cores):
        pool = host.pools[place] if place < len(host.pools) else draw.choice(host.pools)
        if pool.sched != "arinc653" or not pool.cpus:
            pool.cpus = sorted(pool.cpus + core)


def add_guests(draw, host):
    taken, number, units = set(), 0, 0
    for place in range(draw.randint(1, 20)):
        pool = draw.choice(host.pools)
        name = "Domain-0" if place == 0 else name_of(draw, taken)
        taken.add(name)
        guest = Guest(number, name, pool, [], draw.choice([256, 1, 512, 65535]), draw.choice([0, 0, 5, 250]), draw.random() < 0.1, place > 0 and draw.random() < 0.1)
        add_vcpus(draw, host, guest)
        units += len(guest.vcpus)
        if units <= 256:
            host.guests.append(guest)
        number += draw.choice([1, 1, 7])


def add_vcpus(draw, host, guest):
    last = draw.randint(1, 8)
    pinned = draw.random() < 0.4
    terms = (10000, 4000, True)
    for vcpu in range(last):
        if vcpu % host.granularity == 0:
            # a unit has one affinity and one period and budget
            hard = set(draw.sample(guest.pool.cpus, draw.randint(1, len(guest.pool.cpus)))) if pinned and draw.random() < 0.7 else host.every
            if hard != host.every and host.granularity > 1:
                hard = {cpu for core in cores_of(host) if hard & set(core) for cpu in core}
            terms = (draw.choice([10000, 5000]), draw.choice([4000, 1000]), draw.random() < 0.5)
        soft = set(draw.sample(host.cpus, draw.randint(1, len(host.cpus)))) if draw.random() < 0.1 else host.every
        # the last of a domain are offline, or some between where a core has one processor
        online = vcpu == 0 or not (host.granularity == 1 and draw.random() < 0.1)
        guest.vcpus.append(Vcpu(vcpu, online, hard, soft, terms))
    for vcpu in guest.vcpus[draw.randint(1, last) if draw.random() < 0.2 else last :]:
        vcpu.online = False


# what xl prints

def bitmap(cpus, length):
    """xl_utils.c, print_bitmap."""
    out, state, first = "", 0, 0
    for i in range(length):
        if state in (0, 2) and i in cpus:
            first, state = i, state + 1
        elif state in (1, 3) and i not in cpus:
            out += ("," if state > 1 else "") + f"{first}" + (f"-{i - 1}" if i - 1 > first else "")
            state = 2
    if state == 0:
        return "none"
    if state == 1 and first == 0:
        return "all"
    if state in (1, 3):
        out += ("," if state > 1 else "") + f"{first}" + (f"-{length - 1}" if length - 1 > first else "")
    return out


def info(host, with_nodes):
    """xl_info.c, print_info: output_nodeinfo, output_physinfo, with -n output_topologyinfo and output_numainfo, output_xeninfo."""
    yield "host                   : %s\n" % "xen"
    yield "release                : %s\n" % "6.1.0-26-amd64"
    yield "machine                : %s\n" % "x86_64"
    yield "nr_cpus                : %d\n" % len(host.cpus)
    yield "max_cpu_id             : %d\n" % host.most
    yield "nr_nodes               : %d\n" % len({node for _, _, node in host.topology.values()})
    yield "cores_per_socket       : %d\n" % -(-host.cores // len({socket for _, socket, _ in host.topology.values()}))
    yield "threads_per_core       : %d\n" % host.threads
    yield "cpu_mhz                : %d.%03d\n" % (2600, 1)
    yield "hw_caps                : %08x:%08x:%08x:%08x:%08x:%08x:%08x:%08x\n" % (1, 2, 3, 4, 5, 6, 7, 8)
    yield "virt_caps              :%s%s\n" % (" pv", " hvm")
    yield "total_memory           : %d\n" % 16291
    yield "free_cpus              : %d\n" % 0
    if with_nodes:
        yield "cpu_topology           :\n"
        yield "cpu:    core    socket     node\n"
        for cpu, (core, socket, node) in host.topology.items():
            yield "%3d:    %4d     %4d     %4d\n" % (cpu, core, socket, node)
        yield "device topology        :\n"
        yield "device           node\n"
        yield "%04x:%02x:%02x.%01x      %d\n" % (0, 0, 31, 2, 0)
        yield "numa_info              :\n"
        yield "node:    memsize    memfree    distances\n"
        yield "%4d:    %6d     %6d      %d\n" % (0, 16384, 7032, 10)
    yield "xen_major              : %d\n" % 4
    yield "xen_version            : %d.%d%s\n" % (4, 17, ".5")
    yield "xen_scheduler          : %s\n" % "credit2"
    yield "xen_commandline        : %s\n" % ("placeholder dom0_mem=4096M,max:4096M" + (" sched-gran=core" if host.granularity > 1 else ""))
    yield "xend_config_format     : 4\n"


def list_domains(host, pools):
    """xl_info.c, list_domains, with and without -c."""
    yield "Name                                        ID   Mem VCPUs\tState\tTime(s)" + ("         Cpupool" if pools else "") + "\n"
    for guest in host.guests:
        name = "(null)" if guest.dying and guest.number % 2 else guest.name
        state = (False, not guest.paused and not guest.dying, guest.paused or guest.dying, guest.dying, False, guest.dying)
        letters = "".join(letter if on else "-" for letter, on in zip("rbps-d", state))
        row = "%-40s %5d %5d %5d     %s  %8.1f" % (name, guest.number, 4096, len(guest.online), letters, 48213.07 * (guest.number + 1))
        yield row + ("%16s" % guest.pool.name if pools else "") + "\n"


def vcpu_list(host):
    """xl_vcpu.c, vcpulist and print_vcpuinfo."""
    yield "%-32s %5s %5s %5s %5s %9s %s\n" % ("Name", "ID", "VCPU", "CPU", "State", "Time(s)", "Affinity (Hard / Soft)")
    for guest in host.guests:
        for vcpu in guest.vcpus:
            yield "%-32s %5d %5d" % ("(null)" if guest.dying and guest.number % 2 else guest.name, guest.number, vcpu.number)
            yield "%5d %3s%s- " % (min(vcpu.hard), "r", "-") if vcpu.online else "%5s %3s%sp " % ("-", "-", "-")
            yield "%9.1f  " % 12053.3
            yield "%s / %s\n" % (bitmap(vcpu.hard, host.most + 1), bitmap(vcpu.soft, host.most + 1))


def cpupool_list(host, cpus):
    """xl_cpupool.c, main_cpupoollist, with and without -c."""
    yield "%-19s" % "Name" + ("CPU list\n" if cpus else "CPUs   Sched     Active   Domain count\n")
    for pool in host.pools:
        yield "%-19s" % pool.name
        if cpus:
            yield ",".join("%d" % cpu for cpu in pool.cpus)
        else:
            yield "%3d %9s       y       %4d" % (len(pool.cpus), pool.sched, sum(guest.pool is pool for guest in host.guests))
        yield "\n"


def sched_credit(host, sched):
    """xl_sched.c, sched_domain_output with sched_credit2_pool_output and sched_credit2_domain_output, or those of Credit 1."""
    for pool in [pool for pool in host.pools if pool.sched == sched]:
        form = "Cpupool %s: ratelimit=%dus\n" if sched == "credit2" else "Cpupool %s: tslice=30ms ratelimit=%dus migration-delay=0us\n"
        yield form % (pool.name, pool.ratelimit)
        yield "%-33s %4s %6s %4s\n" % ("Name", "ID", "Weight", "Cap")
        for guest in [guest for guest in host.guests if guest.pool is pool]:
            yield "%-33s %4d %6d %4d\n" % ("(null)" if guest.dying and guest.number % 2 else guest.name, guest.number, guest.weight, guest.cap)


def sched_rtds(host):
    """xl_sched.c, sched_vcpu_output with sched_rtds_pool_output and sched_rtds_vcpu_output_all."""
    for pool in [pool for pool in host.pools if pool.sched == "rtds"]:
        yield "Cpupool %s: sched=RTDS\n" % pool.name
        yield "%-33s %4s %4s %9s %9s %10s\n" % ("Name", "ID", "VCPU", "Period", "Budget", "Extratime")
        for guest in [guest for guest in host.guests if guest.pool is pool]:
            for vcpu in guest.vcpus:
                yield "%-33s %4d %4d %9d %9d %10s\n" % ("(null)" if guest.dying and guest.number % 2 else guest.name, guest.number, vcpu.number, *vcpu.rtds[:2], "yes" if vcpu.rtds[2] else "no")


def long_list(host):
    """xl_info.c, list_domains_details and printf_info_one_json: libxl's domain_config (libxl_types.idl) of each domain."""
    yield json.dumps([{"domid": guest.number, "config": {
        "c_info": {"type": "pvh", "name": guest.name, "pool_name": guest.pool.name},
        "b_info": {"max_vcpus": len(guest.vcpus), "avail_vcpus": [vcpu.number for vcpu in guest.online], "vcpu_hard_affinity": [sorted(vcpu.hard) for vcpu in guest.vcpus],
                   "vcpu_soft_affinity": [sorted(vcpu.soft) for vcpu in guest.vcpus], "sched_params": {"sched": guest.pool.sched, "weight": guest.weight, "cap": guest.cap}}}}
        for guest in host.guests if not guest.dying], indent=4) + "\n"


def outputs(host, draw):
    """What the commands print, by the names of their files. `xl list` has the states and pools; what else says the same comes now and then."""
    found = {"info": info(host, host.granularity > 1 or draw.random() < 0.5), "list -c": list_domains(host, True), "cpupool-list": cpupool_list(host, False), "cpupool-list -c": cpupool_list(host, True),
             "vcpu-list": vcpu_list(host), "sched-credit2": sched_credit(host, "credit2"), "sched-credit": sched_credit(host, "credit"), "sched-rtds -v all": sched_rtds(host)}
    if draw.random() < 0.3:
        found["list -l"] = long_list(host)
        if draw.random() < 0.5:
            del found["vcpu-list"]
    texts = {name: "".join(parts) for name, parts in found.items()}
    if draw.random() < 0.1:
        texts["list"] = "".join(list_domains(host, False))
    return dict(draw.sample(list(texts.items()), len(texts)))
