"""tools/from-xl on files as xl prints them, against what they have to become; two hosts were worked out by hand, and random ones are read back (XL_HOSTS=10000 takes so many of them)."""
import os
import pathlib
import random
import subprocess
import tempfile
import tomllib
import unittest
import unittest.mock

import xl_prints
from support import PROGRAM, TOP, call, called
from xensched_tools import checking, from_xl, making, premises, xl_files
from xensched_tools.machine import Command, machine_of, read_machine
from xensched_tools.words import Refused

DATA = TOP / "tools" / "tests" / "data"
HOST, HOST32 = DATA / "host", TOP / "examples" / "host32"
HOSTS = int(os.environ.get("XL_HOSTS", "300"))
LOADS32 = ["web01=3ms/2ms", "db.prod.example/0=1ms/4ms"]
BUSY32 = ["*=20%", "batch=160%"]


def host_of(*names):
    host = xl_files.Host()
    xl_files.read_files(host, [HOST / name for name in names])
    return host


def made(host, loads=(), busy=(), horizon=1_000_000_000, granularity=None):
    return from_xl.machine_of(host, loads, busy, horizon, granularity)


def host_from(**texts):
    """A host from texts; the name of each stands for its file."""
    host = xl_files.Host()
    with tempfile.TemporaryDirectory() as folder:
        paths = []
        for name, text in texts.items():
            paths.append(pathlib.Path(folder) / name)
            paths[-1].write_bytes(text if isinstance(text, bytes) else text.encode())
        xl_files.read_files(host, paths)
    return host


INFO = "nr_cpus                : 4\nthreads_per_core       : 1\n"
LIST = "Name                                        ID   Mem VCPUs\tState\tTime(s)         Cpupool\n"
VCPUS = "Name                                ID  VCPU   CPU State   Time(s) Affinity (Hard / Soft)\n"


def list_row(name, number, vcpus, pool, state="-b----"):
    return "%-40s %5d %5d %5d     %s  %8.1f%16s\n" % (name, number, 512, vcpus, state, 77.1, pool)


class Outputs(unittest.TestCase):
    def test_the_whole_host(self):
        host = host_of(*(f"{name}.txt" for name in ("info", "list-c", "cpupool-list", "cpupool-list-c", "vcpu-list", "sched-credit2", "sched-rtds")))
        machine, lines, told = made(host, ["web.example=2ms/3ms", "Domain-0/1=100us/900us"], ["audio=30%"])
        self.assertEqual(machine.text(), (HOST / "expected.toml").read_text())
        self.assertEqual(lines, ["0 xl sched-rtds -d audio -v 1 -p 5000 -b 1000 -e 0"])
        self.assertTrue(any(text.startswith("no word says what these do") and text.endswith(": Domain-0/0, batch") for text in told), told)

    def test_a_host_of_32_processors(self):
        host = xl_files.Host()
        xl_files.read_files(host, [*sorted(HOST32.glob("xl *.txt")), *sorted(HOST32.glob("cfg/*.cfg"))])
        machine, lines, told = made(host, LOADS32, BUSY32)
        self.assertEqual(tomllib.loads(machine.text()), tomllib.loads((HOST32 / "expected.toml").read_text()))
        self.assertEqual(lines, [])
        self.assertLessEqual(len(told), 15)
        self.assertEqual(told[0], "soft affinity cannot be said here, so these go wherever they may: web01")
        for text in ("vCPUs that are offline take no part: web02 4, web02 5, win2019-ad 4-7", "db.prod.example is db-prod-example, build server is build-server", "Xen has 2 run queues"):
            self.assertTrue(any(text in line for line in told), text)

    def test_any_subset(self):
        for name in ("list-c", "vcpu-list", "sched-credit2", "sched-rtds"):
            machine, _, _ = made(host_of("info.txt", f"{name}.txt"))
            self.assertEqual(machine.processors, 8)
            self.assertTrue(machine.domains)
        with self.assertRaisesRegex(Refused, "how many processors"):
            made(host_of("list.txt"))
        with self.assertRaisesRegex(Refused, "speaks of a domain"):
            made(host_of("info.txt"))

    def test_configurations(self):
        machine, _, told = made(host_of("info.txt", "web.cfg", "rt-pool.cfg"), ["web.example=1ms/1ms"])
        self.assertEqual([(pool.name, pool.sched, pool.cpus) for pool in machine.pools], [("Pool-0", "credit2", [0, 1, 2, 3, 4, 7]), ("rt", "rtds", [5, 6])])
        web = machine.domains[0]
        self.assertEqual((web.name, web.pool, web.settings, web.pins), ("web-example", "Pool-0", {"weight": 384, "cap": 80}, [[0, 1, 2, 3], [0, 2, 3]]))
        self.assertIn("keys of configurations that say nothing of scheduling: type, memory, disk, vif", told)
        self.assertIn("names that cannot be written here: web.example is web-example", told)
        self.assertIn("vCPUs that are offline take no part: web.example 2-3", told)

    def test_the_host_goes_before_a_configuration(self):
        machine, _, told = made(host_of("web.cfg", "info.txt", "list-c.txt", "sched-credit2.txt", "rt-pool.cfg", "cpupool-list.txt"))
        self.assertEqual(machine.domains[1].settings, {})
        self.assertTrue(any("web.example: weight 384, and the host has 256" in text for text in told), told)

    def test_a_configuration_of_what_does_not_run(self):
        host = host_from(info=INFO, listed=LIST + list_row("web", 1, 1, "Pool-0"), more="name = 'new'\nvcpus = 2\n", pool="name = 'other'\ncpus = '1'\n")
        host.listed_pools = True
        machine, _, told = made(host)
        self.assertEqual([(it.name, len(it.guests)) for it in machine.domains], [("web", 1), ("new", 2)])
        self.assertIn("no output of xl has these, and a configuration has: they take part as if they ran: new", told)

    def test_siblings(self):
        host = host_of("info.txt", "list-c.txt", "vcpu-list.txt")
        host.options["sched-gran"] = "core"
        machine, _, told = made(host)
        self.assertEqual((machine.granularity, machine.units_of(machine.domains[1])), (2, 1))
        self.assertEqual(machine.domains[1].pins, [[0, 1, 2, 3]])
        self.assertIn("are one unit and have several affinities", "\n".join(told))
        # asked for by a word, where the host does not say it
        machine, _, _ = made(host_of("info.txt", "list-c.txt", "vcpu-list.txt"), granularity=2)
        self.assertEqual(machine.domains[1].pins, [[0, 1, 2, 3]])
        with self.assertRaisesRegex(Refused, "the pools Pool-0 and rt have processors of one core of 2"):
            made(host_of("info.txt", "list-c.txt", "cpupool-list-c.txt"), granularity=2)

    def test_siblings_that_are_no_neighbours(self):
        topology = "cpu_topology           :\ncpu:    core    socket     node\n" + "".join("%3d:    %4d     %4d     %4d\n" % (cpu, cpu % 2, 0, 0) for cpu in range(4))
        host = host_from(info=INFO.replace("core       : 1", "core       : 2") + topology, listed=LIST + list_row("web", 1, 2, "Pool-0"),
                         vcpus=VCPUS + "%-32s %5d %5d%5d %3s%s- %9.1f  %s / all\n" % ("web", 1, 0, 1, "r", "-", 1.0, "1,3"))
        machine, _, told = made(host, granularity=2)
        self.assertEqual(machine.domains[0].pins, [[2, 3]])
        self.assertTrue(any(text.startswith("processors have other numbers here: in this order they are 0, 2, 1, 3 of the host") for text in told), told)

    def test_what_cannot_be_said(self):
        host = host_from(info=INFO, listed=LIST + list_row("web", 1, 1, "old"), pools="%-19sCPUs   Sched     Active   Domain count\n" % "Name" + "%-19s%3d %9s       y       %4d\n" % ("old", 4, "credit", 1),
                         rates="Cpupool old: [sched params unavailable]\n")
        _, _, told = made(host)
        self.assertTrue(any(text.startswith("pool old is one of Credit 1 (`credit`), which is not modelled") for text in told), told)
        self.assertTrue(any(text.startswith("pool old: xl could not read its parameters") for text in told), told)

    def test_no_pool_that_the_host_has_not(self):
        pools = "%-19sCPUs   Sched     Active   Domain count\n" % "Name" + "".join("%-19s%3d %9s       y       %4d\n" % (name, 2, "credit2", 1) for name in ("Pool-node0", "Pool-node1"))
        cpus = "%-19sCPU list\n" % "Name" + "%-19s%s\n%-19s%s\n" % ("Pool-node0", "0,1", "Pool-node1", "2,3")
        machine, _, _ = made(host_from(info=INFO, listed=LIST + list_row("web", 1, 1, "Pool-node1"), pools=pools, cpus=cpus))
        self.assertEqual([(it.name, it.cpus) for it in machine.pools], [("Pool-node0", [0, 1]), ("Pool-node1", [2, 3])])
        self.assertEqual(machine.domains[0].pool, "Pool-node1")

    def test_a_name_that_can_be_written_stays(self):
        machine, _, told = made(host_from(info=INFO, listed=LIST + list_row("a b", 1, 1, "Pool-0") + list_row("a-b", 2, 1, "Pool-0") + list_row("9" * 60, 3, 1, "Pool-0") + list_row("9" * 59, 4, 1, "Pool-0")))
        self.assertEqual([it.name for it in machine.domains], ["a-b-2", "a-b", "g-" + "9" * 30, "g-" + "9" * 28 + "-2"])

    def test_who_goes_and_who_stands_still(self):
        rows = list_row("(null)", 3, 1, "Pool-0", "--ps-d") + list_row("old", 4, 1, "Pool-0", "---s-d") + list_row("web", 5, 1, "Pool-0", "--p---") + list_row("new", 6, 0, "Pool-0", "--p---")
        machine, lines, told = made(host_from(info=INFO, listed=LIST + rows))
        self.assertEqual([it.name for it in machine.domains], ["web"])
        self.assertEqual(lines, ["0 xl pause web"])
        self.assertIn("dying and shut down domains are left out: domain 3, which has no name any more, old (domain 4), new, no vCPU of which is online", told)

    def test_more_than_there_is_room_for(self):
        wide = "nr_cpus                : 96\nthreads_per_core       : 1\n"
        rows = "".join(list_row(f"g{k}", k, 6, "Pool-0") for k in range(70)) + list_row("big", 70, 40, "Pool-0")
        machine, _, told = made(host_from(info=wide, listed=LIST + rows))
        self.assertEqual((machine.processors, len(machine.domains), sum(map(machine.units_of, machine.domains))), (64, 42, 252))
        self.assertIsNone(checking.fault_of(tomllib.loads(machine.text())))
        self.assertTrue(any("96 processors, and 64 are the most" in text for text in told) and any("more than 64 domains or 256 units" in text for text in told), told)
        machine, _, told = made(host_from(info=wide, listed=LIST + list_row("big", 70, 40, "Pool-0")))
        self.assertEqual(len(machine.domains[0].guests), 32)

    def test_marks_and_line_ends(self):
        text = LIST + list_row("web server", 1, 2, "Pool-0")
        for raw in (text.replace("\n", "\r\n").encode("utf-8-sig"), text.encode("utf-16"), text.rstrip("\n").encode()):
            machine, _, _ = made(host_from(info=INFO, listed=raw))
            self.assertEqual([(it.name, len(it.guests)) for it in machine.domains], [("web-server", 2)])

    def test_lists_of_processors(self):
        host = xl_files.Host()
        host.processors = 8
        for text, found in (("0-3,6,^2", [0, 1, 3, 6]), ("all", None), ("^2,0-3", [0, 1, 2, 3]), ("all,^7", [0, 1, 2, 3, 4, 5, 6])):
            self.assertEqual(xl_files.cpu_list(text, host, "", []), found)
        unsaid = []
        self.assertIsNone(xl_files.cpu_list("node:0", host, "x", unsaid))
        self.assertEqual(unsaid, ["x: node:0"])
        host.topology = {cpu: (cpu, 0, cpu // 4) for cpu in range(8)}
        self.assertEqual(xl_files.cpu_list("nodes:0-1,^node:0,1", host, "", []), [1, 4, 5, 6, 7])


class TwoWays(unittest.TestCase):
    """Rows that can be read in two ways."""

    def test_a_name_that_touches_a_list(self):
        cpus = "%-19sCPU list\n" % "Name" + "%-19s%s\n" % ("Pool-realtime-node-7", "1,2")
        with self.assertRaisesRegex(Refused, "line 2, can be read in 2 ways, as that of 'Pool-realtime-node-7' or"):
            host_from(info=INFO, cpus=cpus)
        pools = "%-19sCPUs   Sched     Active   Domain count\n" % "Name" + "%-19s%3d %9s       y       %4d\n" % ("Pool-realtime-node-7", 2, "rtds", 0)
        self.assertEqual(host_from(info=INFO, cpus=cpus, pools=pools).pools["Pool-realtime-node-7"].cpus, [1, 2])

    def test_a_name_that_is_a_row(self):
        name = list_row("a", 7, 1, "Pool-realtime-016").rstrip()
        row = list_row(name, 1, 2, "Pool-0")
        with self.assertRaisesRegex(Refused, "can be read in 2 ways"):
            host_from(info=INFO, listed=LIST + row)
        vcpus = VCPUS + "%-32s %5d %5d%5d %3s%s- %9.1f  all / all\n" % (name, 1, 0, 1, "r", "-", 1.0)
        self.assertEqual([it.vcpus for it in host_from(info=INFO, listed=LIST + row, vcpus=vcpus).guests().values()], [2])

    def test_a_pool_that_touches_the_time(self):
        for name in ("Pool-realtime-01", "5-pool-realtime-1", "a pool of its own"):
            self.assertEqual(host_from(info=INFO, listed=LIST + list_row("audio", 1, 1, name)).guests()["audio"].pool, name)

    def test_one_name_twice(self):
        with self.assertRaisesRegex(Refused, "two domains are called web"):
            made(host_from(info=INFO, listed=LIST + list_row("web", 1, 1, "Pool-0") + list_row("web", 2, 1, "Pool-0")))
        # the one is dying, or was started anew between two commands
        self.assertEqual(len(made(host_from(info=INFO, listed=LIST + list_row("web", 1, 1, "Pool-0", "---s-d") + list_row("web", 2, 1, "Pool-0")))[0].domains), 1)


class Premises(unittest.TestCase):
    """Which figure of docs/XEN.md applies to which machine."""

    def found(self, described, *commands, **more):
        described = {"processors": 4, "horizon_ns": 10**6} | described
        work = [Command(k, k, 0, text.split()) for k, text in enumerate(commands)]
        texts = premises.of(machine_of(described, "m"), work, **more)
        known = {name: value for name, value in vars(premises).items() if isinstance(value, str) and name.isupper()}
        return [name for text in texts for name, value in known.items() if text.startswith(value.split("{")[0]) and name != "PAGE"]

    def test_each(self):
        sleeper = {"name": "a", "guests": [[1, 1], [1, 1]]}
        busy = {"name": "a", "guests": [[]] * 5}
        for described, wanted in (
            ({"domain": [sleeper]}, []),
            ({"processors": 16, "domain": [sleeper]}, []),
            ({"processors": 17, "domain": [sleeper]}, ["MANY"]),
            ({"domain": [sleeper | {"pins": [[0], [0, 1, 2, 3]]}]}, ["PINNED"]),
            ({"domain": [sleeper | {"pins": [[0, 1, 2, 3], [0, 1, 2, 3]]}]}, []),
            ({"domain": [sleeper | {"cap": 50}]}, ["CAPS"]),
            ({"processors": 1, "domain": [sleeper | {"cap": 50}]}, []),
            ({"processors": 1, "domain": [sleeper | {"cap": 9}]}, ["SMALL_CAP"]),
            ({"domain": [busy]}, ["BUSY"]),
            ({"domain": [busy, sleeper | {"name": "b"}]}, []),
            ({"domain": [sleeper, sleeper | {"name": "b", "weight": 25}]}, ["LIGHT_GUEST"]),
            ({"pool": [{"name": "p", "sched": "rtds", "cpus": [0]}], "domain": [sleeper]}, ["EXTRA"]),
            ({"pool": [{"name": "p", "sched": "rtds", "cpus": [0]}], "domain": [sleeper | {"extratime": False}]}, []),
            ({"pool": [{"name": "p", "sched": "null", "cpus": [0, 1]}], "domain": [sleeper | {"pins": [[0], [1]]}]}, ["NULL_PINS"]),
            ({"pool": [{"name": "p", "sched": "rtds", "cpus": [0, 1]}], "domain": [sleeper | {"extratime": False, "pins": [[0], [1]]}]}, ["RTDS_PINS"]),
            ({"pool": [{"name": "p", "sched": "arinc653", "cpus": [0]}, {"name": "q", "sched": "arinc653", "cpus": [1]}], "domain": [sleeper]}, ["FRAMES"]),
        ):
            with self.subTest(described=described):
                self.assertEqual(self.found(described), wanted)

    def test_commands(self):
        sleeper = {"name": "a", "guests": [[1, 1], [1, 1]]}
        self.assertEqual(self.found({"domain": [sleeper]}, "sched-credit2 -d a -c 50", "vcpu-pin a 0 1"), ["PINNED", "CAPS"])
        self.assertEqual(self.found({"pool": [{"name": "p", "sched": "rtds", "cpus": [0]}], "domain": [sleeper | {"extratime": False}]}, "sched-rtds -d a -e 1"), ["EXTRA"])

    def test_run_queues(self):
        sleeper = {"name": "a", "guests": [[1, 1]]}
        self.assertEqual(self.found({"processors": 8, "domain": [sleeper]}, queues={"Pool-0": 2}), ["QUEUES"])
        self.assertEqual(self.found({"processors": 32, "domain": [sleeper]}, queues={"Pool-0": 1}), [])
        for options, sockets, queues in (("", 1, 1), ("", 2, 2), ("credit2_runqueue=all", 2, 1), ("credit2_runqueue=core", 1, 4), ("sched_credit2_max_cpus_runqueue=4", 1, 2)):
            info = f"nr_cpus                : 8\ncores_per_socket       : {4 // sockets}\nthreads_per_core       : 2\nxen_commandline        : placeholder {options}\n"
            maker = from_xl.Maker(host_from(info=info, listed=LIST + list_row("web", 1, 1, "Pool-0")))
            maker.machine([], [], 10**6)
            self.assertEqual(maker.queues(), {"Pool-0": queues}, options)


class RandomHosts(unittest.TestCase):
    """What xl prints of a random host is read back as that host."""

    def test_read_back(self):
        two_ways = 0
        for seed in range(HOSTS):
            draw = random.Random(seed)
            described = xl_prints.host_of(draw)
            texts = xl_prints.outputs(described, draw)
            encoding, ends = draw.choice(["utf-8", "utf-8", "utf-8-sig", "utf-16"]), draw.choice(["\n", "\n", "\r\n"])
            with self.subTest(seed=seed):
                try:
                    host = host_from(**{name: text.replace("\n", ends).encode(encoding) if text else b"" for name, text in texts.items()})
                except Refused as refusal:
                    self.assertIn("can be read in", str(refusal))
                    two_ways += 1
                    continue
                machine, lines, _ = made(host)
                self.check(described, texts, machine, lines)
        self.assertLess(two_ways * 100, max(HOSTS, 300))

    def check(self, host, texts, machine, lines):
        self.assertIsNone(checking.fault_of(tomllib.loads(machine.text())))
        self.assertEqual(machine.granularity, host.granularity)
        place = self.places(host, "cpu_topology" in texts["info"])
        self.assertEqual(machine.processors, len(place))
        self.assertEqual([(pool.sched, pool.cpus, pool.settings) for pool in machine.pools], [self.pool(pool, place) for pool in sorted(host.pools, key=lambda it: it.name != "Pool-0")])
        alive = [guest for guest in host.guests if not guest.dying]
        self.assertEqual(len(machine.domains), len(alive))
        homes = {id(pool): made.name for pool, made in zip(sorted(host.pools, key=lambda it: it.name != "Pool-0"), machine.pools)}
        wanted = []
        for guest, domain in zip(alive, machine.domains):
            if checking.NAME.fullmatch(guest.name):
                self.assertEqual(domain.name, guest.name)
            self.assertEqual((domain.pool, domain.guests), (homes[id(guest.pool)], [[]] * len(guest.online)))
            self.assertEqual(domain.pins, self.pins(host, guest, place), guest)
            settings, more = self.parameters(host, guest, domain.name)
            self.assertEqual(domain.settings, settings)
            wanted += more + ([f"0 xl pause {domain.name}"] if guest.paused else [])
        self.assertEqual(lines, wanted)

    def places(self, host, with_nodes):
        """Which processor of the host has which number here."""
        if host.granularity > 1:
            return {cpu: here for here, cpu in enumerate(cpu for core in xl_prints.cores_of(host) for cpu in core)}
        named = sorted(cpu for pool in host.pools for cpu in pool.cpus)
        known = host.cpus if with_nodes else named
        return {cpu: here for here, cpu in enumerate(known if known[-1] >= len(host.cpus) else range(len(host.cpus)))}

    def pool(self, pool, place):
        credit = pool.sched in ("credit", "credit2")
        return "credit2" if credit else pool.sched, [place[cpu] for cpu in pool.cpus], {"ratelimit_us": pool.ratelimit} if credit and pool.ratelimit != 1000 else {}

    def pins(self, host, guest, place):
        pins = []
        for unit in range(0, len(guest.online), host.granularity):
            cpus = sorted(place[cpu] for cpu in guest.online[unit].hard if cpu in place)
            pins.append(cpus)
        return None if all(len(cpus) == len(place) for cpus in pins) else pins

    def parameters(self, host, guest, name):
        if guest.pool.sched in ("credit", "credit2"):
            return {key: value for key, value, usual in (("weight", guest.weight, 256), ("cap", guest.cap, 0)) if value != usual}, []
        if guest.pool.sched != "rtds":
            return {}, []
        terms = [vcpu.rtds for vcpu in guest.online]
        more = [f"0 xl sched-rtds -d {name} -v {v} -p {period} -b {budget} -e {int(extra)}" for v, (period, budget, extra) in enumerate(terms) if v % host.granularity == 0 and (period, budget, extra) != terms[0]]
        return dict(zip(("period_us", "budget_us", "extratime"), terms[0])), more


class WrongWords(unittest.TestCase):
    """What cannot be done is one sentence and status 2, and nothing is written."""

    WORDS = [["--load", "zed=1ms/2ms"], ["--load", "batch=1ms"], ["--load", "batch"], ["--load", "batch=1ms/0"], ["--load", "batch=-1ms/2ms"], ["--load", "batch=1ms/2parsecs"], ["--load", "batch/7=1ms/2ms"],
             ["--load", "batch/x=1ms/2ms"], ["--load", "batch=1s/99999999s"], ["--load", "batch=" + "/".join(["1ms"] * 66)], ["--load", "x*=1ms/1ms"], ["--load", "=1ms/1ms"],
             ["--busy", "batch=much"], ["--busy", "batch=nan"], ["--busy", "batch=inf%"], ["--busy", "batch=-5%"], ["--busy", "batch=101%"], ["--busy", "batch/0=5%"], ["--busy", "batch="], ["--busy", "zed=5%"],
             ["--horizon", "soon"], ["--horizon", "0"], ["--horizon", "99999s"], [str(HOST / "missing")], [str(HOST)]]
    FILES = [b"\x7fELF\x02\x01\x01\0\0\0", b"#!/bin/sh\necho $1\n", b"libxl: error: libxl.c:1: no right\n", b"name = \n", b"name = 'x\n", b"vcpus = 2\n", b"name = 'x'\nvcpus = 'many'\n", b"name = 'x'\nvcpus = [2]\n",
             b"name = ['x']\n", b"name = 'x'\nvcpus = 1\ncpus = 'some'\n", b"name = 'x'\nvcpus = 1\ncpus = [['0']]\n", b"name = 'x'\ncap = -3\n", b"name = 'x'\ncpu_weight = 70000\n", b"name = 'x'\nvnuma = " + b"[" * 500,
             LIST.encode() + b"web 1 2\n", LIST.encode() + b"web                                          1   512     1     ------  soon\n", VCPUS.encode() + b"web 1 0 0\n", VCPUS.encode() + b"web 1 0 0 r-- 1.0 0-,2 / all\n",
             b"Cpupool Pool-0: ratelimit=1000us\nweb 1 256 0\n", b"Cpupool rt: sched=RTDS\nName ID VCPU Period Budget Extratime\nweb 1 0 soon 4000 yes\n", b"nr_cpus                : many\n", b"nr_cpus                : 0\n",
             b"Name               CPUs   Sched     Active   Domain count\nPool-0 many credit2 y 3\n", b"Name               CPU list\n                   0,1\n", b"[{\"domid\": 1}]\n", b"[{\"domid\": 1, \"config\": 7}]\n", b"[" + b"{" * 3,
             "Name\tID\tKüche\n".encode("latin-1"), b"\xff\xfe\x00", b"[core]\n[[core]]\n"]

    def test_words(self):
        self.assertGreaterEqual(len(self.WORDS), 20)
        for words in self.WORDS:
            self.refused(*words, HOST / "info.txt", HOST / "list-c.txt", HOST / "cpupool-list.txt")

    def test_files(self):
        self.assertGreaterEqual(len(self.FILES), 20)
        for text in self.FILES:
            with tempfile.NamedTemporaryFile() as file:
                file.write(text)
                file.flush()
                self.refused(file.name, *([] if b"nr_cpus" in text else [HOST / "info.txt"]), HOST / "list-c.txt", HOST / "cpupool-list.txt")

    def refused(self, *words):
        with self.subTest(words=words), tempfile.TemporaryDirectory() as folder:
            status, out, err = called("tools/from-xl", "--out", f"{folder}/out", *words)
            self.assertEqual((status, out), (2, ""))
            self.assertRegex(err, r"\Afrom-xl: (?!this is a fault)[^\n]*\n\Z")
            self.assertFalse(pathlib.Path(folder, "out").exists())

    def test_what_the_program_refuses_is_not_written(self):
        with tempfile.TemporaryDirectory() as folder:
            rows = pathlib.Path(folder, "rtds")
            rows.write_text("Cpupool rt: sched=RTDS\n%-33s %4s %9s %9s %10s\n" % ("Name", "ID", "Period", "Budget", "Extratime") + "%-33s %4d %9d %9d %10s\n" % ("audio", 3, 1000, 4000, "yes"))
            self.refused(HOST / "info.txt", rows)
            # by its own word, where its checks say nothing
            program = pathlib.Path(folder, "program")
            program.write_text("#!/bin/sh\necho xensched: domains: top 0 domain Range 7 >&2; exit 4\n")
            program.chmod(0o755)
            with unittest.mock.patch.object(making, "program_here", lambda: program):
                self.refused(HOST / "info.txt", HOST / "list-c.txt")

    def test_a_pattern_that_fits_no_file(self):
        with tempfile.TemporaryDirectory() as folder:
            done = call("tools/from-xl", "--out", folder, HOST / "info.txt", HOST / "list-c.txt", f"{folder}/none/*.cfg")
            self.assertEqual(done.returncode, 0, done.stderr)
            self.assertIn("/none/*.cfg", done.stderr)


class InTheProgram(unittest.TestCase):
    @unittest.skipUnless(PROGRAM.exists(), "the program is not built")
    def test_the_files_run(self):
        outputs = sorted(HOST.glob("*.txt"))
        for files in (outputs, [*outputs, *HOST.glob("*.cfg")], [HOST / "info.txt", HOST / "sched-rtds.txt"], sorted(HOST32.glob("xl *.txt")), [*HOST32.glob("xl *.txt"), *HOST32.glob("cfg/*.cfg")]):
            with tempfile.TemporaryDirectory() as folder:
                done = call("tools/from-xl", "--out", folder, *files)
                self.assertEqual(done.returncode, 0, done.stderr)
                domains, work = (pathlib.Path(folder) / name for name in ("domains.toml", "work.txt"))
                read_machine(domains)
                run = subprocess.run([PROGRAM, "run", "--ordered", domains, work], capture_output=True, text=True)
                self.assertEqual((run.returncode, run.stderr), (0, ""))
                self.assertNotIn("refused", run.stdout)
                self.assertEqual(call("tools/study", domains, "-", "--work", work, text=run.stdout).returncode, 0)


if __name__ == "__main__":
    unittest.main()
