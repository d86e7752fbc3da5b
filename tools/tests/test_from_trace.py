"""tools/from-trace: a trace that Xen's own scheduler code wrote (examples/trace, made by the harness of beside-xen) against the log of the same run, and spoiled ones."""
import collections
import json
import pathlib
import random
import struct
import tempfile
import unittest

from support import PROGRAM, TOP, call
from xensched_tools import from_trace
from xensched_tools.machine import read_machine
from xensched_tools.measures import Study
from xensched_tools.trace_files import IDLE, LOST, RUNNING, STATES, WINDOW_HEAD, Change, Trace, read_trace
from xensched_tools.words import Refused

DATA = TOP / "examples" / "trace"
HZ = 1024 * 10**9           # of these files, by which a nanosecond has 1024 cycles
US, MS = 1000, 1_000_000
FULL = ["--hz", "1024G", "--machine", DATA / "machine.toml"]


def made_by(trace, *words):
    """What the call writes: its end, and its files by name."""
    with tempfile.TemporaryDirectory() as folder:
        done = call("tools/from-trace", trace, "--out", folder, *words)
        return done, {path.name: path.read_text() for path in pathlib.Path(folder).iterdir()}


def stays_of(lines, end):
    """When each vCPU runs, from lines of a schedule: lists of (begin, end, processor), those that meet as one."""
    present, found = {}, collections.defaultdict(list)
    for at, what, *rest in [*map(str.split, lines), *([str(end), "leave", f"p{p}", "idle"] for p in range(64))]:
        if what in ("leave", "block", "arrive"):
            who, begin = present.pop(rest[0], (None, 0))
            if who and begin < int(at):
                mine = found[who]
                if mine and mine[-1][1:] == (begin, rest[0]):
                    begin = mine.pop()[0]
                mine.append((begin, int(at), rest[0]))
            if what == "leave" and rest[1] != "idle":
                present[rest[0]] = rest[1], int(at)
    return {who: sorted(stays) for who, stays in found.items()}


def bytes_of(changes, lost=()):
    """A file as xentrace writes it, of these changes and these losses (processor, count, first, last), in windows of 700 bytes; a moment has 1024 cycles a nanosecond."""
    by_processor, meeting = collections.defaultdict(list), collections.Counter()
    for it in changes:
        event = 0x80000000 | 1 << 28 | (0x21002 if it.old == it.new == RUNNING else 0x21001 | it.old << 8 | it.new << 4)
        cycle = it.at * 1024 + meeting[it.at]
        meeting[it.at] += 1
        by_processor[it.processor].append((cycle, struct.pack("<IQI", event, cycle, it.domain << 16 | it.vcpu)))
    for processor, count, first, last in lost:
        by_processor[processor].append((last * 1024 - 1, struct.pack("<IQIIQ", 0x80000000 | 4 << 28 | LOST, last * 1024 - 1, count, 0x00007FFF, first * 1024)))
    queues = {processor: collections.deque(record for _, record in sorted(mine, key=lambda it: it[0])) for processor, mine in sorted(by_processor.items())}
    out = b""
    while any(queues.values()):
        for processor, queue in queues.items():
            window = b""
            while queue and len(window) < 700:
                window += queue.popleft()
            if window:
                out += struct.pack("<III", WINDOW_HEAD, processor, len(window)) + window
    return out


class Written(unittest.TestCase):
    """Files of the test's own."""

    def setUp(self):
        folder = tempfile.TemporaryDirectory()
        self.addCleanup(folder.cleanup)
        self.folder = pathlib.Path(folder.name)

    def file(self, content, name="trace.bin"):
        path = self.folder / name
        path.write_bytes(content if isinstance(content, bytes) else content.encode())
        return path

    def refused(self, path, *words, text):
        done, files = made_by(path, *words)
        self.assertEqual((done.returncode, files), (2, {}), done.stderr)
        self.assertRegex(done.stderr, r"\Afrom-trace: [^\n]*\n\Z")
        self.assertIn(text, done.stderr)


class Stored(unittest.TestCase):
    """The trace of Xen's code, as its file and as Xen's xenalyze prints it."""

    def test_scripts_are_those_of_the_guests(self):
        for name in ("trace.bin", "trace.txt"):
            done, files = made_by(DATA / name, *FULL)
            self.assertEqual((done.returncode, done.stderr), (0, ""))
            self.assertEqual(files["domains.toml"].replace("39772152", "40000000"), (DATA / "machine.toml").read_text())
            self.assertEqual(files["work.txt"], "# made by tools/from-trace\n")
            self.assertIn("mail v0: 18 jobs, which repeat after 3\n", done.stdout)
            self.assertIn("batch v0: never sleeps\n", done.stdout)

    def test_both_files_are_one_trace(self):
        one, other = read_trace(DATA / "trace.bin", HZ), read_trace(DATA / "trace.txt")
        self.assertEqual([it[:1] + it[2:] for it in one.changes], [it[:1] + it[2:] for it in other.changes])
        self.assertEqual((one.end, one.gaps, one.lost, one.told), (other.end, other.gaps, other.lost, other.told))
        self.assertEqual(len(one.changes), 334)

    def test_stays_are_those_of_the_log(self):
        _, files = made_by(DATA / "trace.bin", *FULL)
        log = (DATA / "log.txt").read_text().splitlines()
        end = 39772152
        mine, theirs = stays_of(files["schedule.txt"].splitlines(), end), stays_of([line for line in log if int(line.split()[0]) < end], end)
        self.assertEqual(mine, theirs)
        self.assertGreater(sum(map(len, mine.values())), 80)
        wakes = [[line for line in lines if " wake " in line and 0 < int(line.split()[0]) <= end] for lines in (files["schedule.txt"].splitlines(), log)]
        self.assertEqual(*wakes)

    def test_the_study_counts_what_xen_counts(self):
        with tempfile.TemporaryDirectory() as folder:
            call("tools/from-trace", DATA / "trace.bin", "--out", folder, "--to", "40ms", *FULL)
            host, schedule, page = (pathlib.Path(folder) / name for name in ("host.toml", "schedule.txt", "page.html"))
            done = call("tools/study", host, schedule, "--json", "--html", page, "--deadline", "web=20ms", "--latency", "mail=20ms")
            self.assertEqual((done.returncode, done.stderr), (0, ""))
            found = json.loads(done.stdout)
            accounts = {words[2]: int(words[3]) for words in map(str.split, (DATA / "log.txt").read_text().splitlines()) if words[1] == "account"}
            self.assertEqual({row["vcpu"]: row["runs_ns"] for row in found["vcpus"]}, accounts)
            # batch is offline while its budget is used up, and waits
            batch = next(row for row in found["vcpus"] if row["name"] == "batch")
            self.assertEqual((batch["runs_ns"] + batch["waits_ns"], batch["sleeps_ns"]), (40 * MS, 0))
            domains = {row["name"]: row["run_ns"] for row in found["domains"]}
            self.assertEqual(domains, {"web": accounts["d0v0"] + accounts["d0v1"], "batch": accounts["d1v0"], "mail": accounts["d2v0"]})
            self.assertEqual({row["work_ns"] for row in found["jobs"]}, {None})
            self.assertEqual(found["releases"], [])
            self.assertIn("<html", page.read_text())
            for words in (["tools/draw", "--form", "svg"], ["tools/draw", "--form", "text"]):
                done = call(*words, host, schedule)
                self.assertEqual((done.returncode, done.stderr), (0, ""))

    def test_a_span_of_it(self):
        done, files = made_by(DATA / "trace.bin", *FULL, "--from", "10ms", "--to", "30ms")
        self.assertEqual((done.returncode, done.stderr), (0, ""))
        whole = stays_of(made_by(DATA / "trace.bin", *FULL)[1]["schedule.txt"].splitlines(), 39772152)
        cut = {who: [(max(0, begin - 10 * MS), min(20 * MS, end - 10 * MS), p) for begin, end, p in stays if begin < 30 * MS and end > 10 * MS] for who, stays in whole.items()}
        self.assertEqual(stays_of(files["schedule.txt"].splitlines(), 20 * MS), {who: stays for who, stays in cut.items() if stays})
        self.assertIn("horizon_ns = 20000000", files["host.toml"])

    def test_without_a_machine(self):
        done, files = made_by(DATA / "trace.bin", "--hz", "1024G", "--id", "2=mail")
        self.assertEqual((done.returncode, done.stderr), (0, ""))
        self.assertIn('name = "dom0"\npool = "Pool-0"\nguests = [[701001, 1203007, 310003, 900001], [512009, 1804001]]', files["domains.toml"])
        self.assertIn('name = "mail"\npool = "Pool-0"\nguests = ["unknown"]', files["host.toml"])

    @unittest.skipUnless(PROGRAM.exists(), "the program is not built")
    def test_beside_the_model(self):
        with tempfile.TemporaryDirectory() as folder:
            call("tools/from-trace", DATA / "trace.bin", "--out", folder, *FULL)
            folder = pathlib.Path(folder)
            (folder / "host.json").write_text(call("tools/study", folder / "host.toml", folder / "schedule.txt", "--json").stdout)
            done = call("tools/compare", folder / "host.json", folder / "domains.toml", "--csv", "--rows", "0")
            self.assertEqual((done.returncode, [line for line in done.stderr.splitlines() if not line.endswith("docs/XEN.md")]), (0, []))
            compared = {line.split(",")[0] for line in done.stdout.splitlines()}
            self.assertLess({"waits", "vcpus", "domains"}, compared)
            # the schedule of a host says nothing of these
            self.assertEqual(compared & {"jobs", "caps", "terms", "windows", "releases"}, set())
            done = call("tools/compare", folder / "host.toml", folder / "domains.toml")
            self.assertEqual((done.returncode, done.stderr.count("\n")), (2, 1))
            self.assertIn("is not known", done.stderr)


class Spoiled(Written):
    """The stored trace with clocks that differ, and with records that are lost."""

    def setUp(self):
        super().setUp()
        self.trace = read_trace(DATA / "trace.bin", HZ)
        self.machine = read_machine(DATA / "machine.toml")
        self.pairs = {(d, v): set(zip(script[::2], script[1::2])) for d, domain in enumerate(self.machine.domains) for v, script in enumerate(domain.guests)}

    def moved(self, by):
        """The trace in which the clock of processor 1 is ahead."""
        return sorted((it._replace(at=max(0, it.at + by)) if it.processor == 1 else it for it in self.trace.changes), key=lambda it: it.at)

    def test_the_writer_of_this_test(self):
        self.assertEqual(read_trace(self.file(bytes_of(self.trace.changes)), HZ).changes, self.trace.changes)

    def test_clocks_that_differ_a_little(self):
        # at three moments a vCPU goes from processor 1 to processor 0, and by the clocks it runs there before it left
        trace = read_trace(self.file(bytes_of(self.moved(400))), HZ)
        changes, order = from_trace.in_order(trace)
        self.assertEqual((order.mended, order.broken, order.skew), (3, 0, 400))
        state = {}
        for it in changes:
            if it.order >= 0:
                self.assertEqual(state[it.domain, it.vcpu], it.old)
            state[it.domain, it.vcpu] = it.new
        done, files = made_by(self.file(bytes_of(self.moved(400))), *FULL)
        self.assertEqual(done.stderr, "from-trace: the clocks of the processors differ by up to 0.0004 ms: 3 pairs of records changed places\n")
        self.assertEqual((self.study(files).returncode, self.study(files).stderr), (0, ""))
        # no job is further off than the clocks
        for who, doings in from_trace.doings_of(changes).items():
            for pair in doings.pairs:
                self.assertTrue(any(all(abs(a - b) <= 400 for a, b in zip(pair, known)) for known in self.pairs[who]), (who, pair))

    def test_clocks_that_differ_too_much(self):
        path = self.file(bytes_of(self.moved(-300 * US)))
        self.refused(path, *FULL, text="contradict those before them")

    def lost(self, first, last, processor):
        """The file from which a processor's records of a span are gone, and where their loss is written."""
        gone = [it for it in self.trace.changes if it.processor == processor and first <= it.at < last]
        kept = [it for it in self.trace.changes if it not in gone]
        return self.file(bytes_of(kept, [(processor, len(gone), gone[0].at, min(it.at for it in kept if it.processor == processor and it.at >= last))])), gone

    def test_lost_records(self):
        path, gone = self.lost(12 * MS, 15 * MS, 0)
        trace = read_trace(path, HZ)
        self.assertEqual((trace.lost, len(trace.gaps)), (len(gone), 1))
        changes, order = from_trace.in_order(trace)
        self.assertEqual((order.mended, order.broken), (0, 0))
        for who, doings in from_trace.doings_of(changes).items():
            # not one job that no guest had; and most of those that it had
            self.assertLessEqual(set(doings.pairs), self.pairs[who])
        self.assertGreater(sum(len(it.pairs) for it in from_trace.doings_of(changes).values()), 40)
        done, files = made_by(path, *FULL)
        self.assertEqual(done.returncode, 0)
        self.assertRegex(done.stderr, rf"\Afrom-trace: {len(gone)} records were lost in 1 places")
        begin, end = from_trace.stretch_of(trace, None, None)
        self.assertEqual((begin, end), (trace.gaps[0][1], trace.end))
        whole = stays_of(made_by(DATA / "trace.bin", *FULL)[1]["schedule.txt"].splitlines(), trace.end)
        cut = {who: [(max(begin, a) - begin, b - begin, p) for a, b, p in stays if b > begin] for who, stays in whole.items()}
        self.assertEqual(stays_of(files["schedule.txt"].splitlines(), end - begin), cut)
        done = self.study(files)
        self.assertEqual((done.returncode, done.stderr), (0, ""))
        self.refused(path, *FULL, "--from", "1ms", "--to", "20ms", text="records were lost; without a loss are 0 to")

    def study(self, files):
        for name, text in files.items():
            (self.folder / name).write_text(text)
        return call("tools/study", self.folder / "host.toml", self.folder / "schedule.txt")

    def test_any_loss(self):
        """Wherever records are lost, no job comes out that no guest had, and the schedule has no contradiction."""
        source, jobs = random.Random(5), 0
        for _ in range(40):
            first = source.randrange(30 * MS)
            span, processor = source.choice([10 * US, 300 * US, 3 * MS, 9 * MS]), source.randrange(2)
            if not any(it.processor == processor and first <= it.at < first + span for it in self.trace.changes):
                continue
            path, _ = self.lost(first, first + span, processor)
            trace = read_trace(path, HZ)
            changes, order = from_trace.in_order(trace)
            self.assertEqual((order.mended, order.broken), (0, 0))
            for who, doings in from_trace.doings_of(changes).items():
                self.assertLessEqual(set(doings.pairs), self.pairs[who], (first, span, processor))
                jobs += len(doings.pairs)
            begin, end = from_trace.stretch_of(trace, None, None)
            host = from_trace.host_of(self.machine, end - begin)
            lines = from_trace.schedule_of(host, {0: 0, 1: 1, 2: 2}, changes, trace.gaps, begin, end)
            self.assertEqual(Study(host).follow(lines).faults, [])
        self.assertGreater(jobs, 500)

    def test_losses_as_xenalyze_tells_them(self):
        lines = (DATA / "trace.txt").read_text().splitlines(keepends=True)
        at = [n for n, line in enumerate(lines) if "runstate_change" in line]
        first, last = at[200], at[240]
        # xenalyze tells a loss behind the last record before it, with the moment of the first one after it, and has remarks
        told = [lines[last].partition(" d")[0] + " d0v0 lost_records count 41 d0v0 (cur d0v0) first_tsc 5\n", "process_lost_records: setting d0v0 to RUNSTATE_LOST\n", *lines[first : first + 3],
                "               x| lost_records end ---\n", "               x| lost_records end d0v0---\n", "runstate_change old_runstate runnable, d0v0 runstate running.  Possible tsc skew.\n"]
        trace = read_trace(self.file("".join(lines[:first] + told + lines[last:]), "trace.txt"))
        moments = [int(lines[n].split()[0].replace(".", "")) for n in (at[199], last)]
        self.assertEqual((trace.lost, trace.gaps), (41, [tuple(moments)]))

    def test_a_file_that_ends_early(self):
        whole = bytes_of(self.trace.changes)
        for count in (1, 5, 15, 16, 30, 31, 600, 720, 1500, 2100):
            path = self.file(whole[:-count])
            done, files = made_by(path, *FULL)
            self.assertEqual(done.returncode, 0, done.stderr)
            self.assertEqual(self.study(files).stderr, "")
            trace = read_trace(path, HZ)
            changes, order = from_trace.in_order(trace)
            self.assertEqual((order.mended, order.broken), (0, 0), count)
            for who, doings in from_trace.doings_of(changes).items():
                self.assertLessEqual(set(doings.pairs), self.pairs[who])
        self.assertIn("was cut", made_by(self.file(whole[:-5]), *FULL)[0].stderr)


class ByHand(Written):
    """Traces of a few records."""

    def changes(self, text):
        """`AT PROCESSOR dDvV OLD NEW`, in microseconds."""
        found = []
        for at, processor, who, old, new in map(str.split, text.strip().splitlines()):
            domain, vcpu = (IDLE, int(processor)) if who == "idle" else map(int, who[1:].split("v"))
            found.append(Change(int(at) * US, len(found), int(processor), domain, vcpu, STATES.index(old), STATES.index(new)))
        return found

    PAUSED = """0 0 d0v0 runnable running
1000 0 d0v0 running blocked
1000 0 idle runnable running
3000 0 d0v0 blocked runnable
3000 0 idle running runnable
3000 0 d0v0 runnable running
4000 0 d0v0 running offline
4000 0 idle runnable running
6000 0 d0v0 offline runnable
6000 0 idle running runnable
6000 0 d0v0 runnable running
7000 0 d0v0 running blocked
7000 0 idle runnable running
9000 0 d0v0 blocked offline
9500 0 d0v0 offline runnable
9600 0 d0v0 runnable running"""

    def test_a_pause_ends_no_job(self):
        doings = from_trace.doings_of(from_trace.in_order(Trace(self.changes(self.PAUSED), 10 * MS))[0])[0, 0]
        # the first job began before the trace; the second has 1 ms before the pause and 1 ms behind it
        self.assertEqual(doings.pairs, [(2 * MS, 2 * MS)])

    def test_a_pause_in_the_schedule(self):
        path = self.file(bytes_of(self.changes(self.PAUSED)))
        done, files = made_by(path, "--hz", "1024G", "--to", "10ms")
        self.assertEqual((done.returncode, done.stderr), (0, ""))
        self.assertEqual([line.split()[:2] for line in files["schedule.txt"].splitlines() if line.split()[1] in ("wake", "block")],
                         [["0", "wake"], ["1000000", "block"], ["3000000", "wake"], ["4000000", "block"], ["6000000", "wake"], ["7000000", "block"], ["9500000", "wake"]])
        for name, text in files.items():
            (self.folder / name).write_text(text)
        found = json.loads(call("tools/study", self.folder / "host.toml", self.folder / "schedule.txt", "--json").stdout)
        self.assertEqual([(row["runs_ns"], row["waits_ns"], row["sleeps_ns"]) for row in found["vcpus"]], [(3400 * US, 100 * US, 6500 * US)])
        self.assertEqual([(row["count"], row["greatest_ns"]) for row in found["waits"]], [(4, 100 * US)])

    def test_a_runnable_vcpu_that_goes_offline(self):
        # no processor runs it when it blocks, and a guest whose script is not known may do that
        path = self.file(bytes_of(self.changes("0 0 d0v0 runnable running\n1000 0 d1v0 blocked runnable\n2000 0 d1v0 runnable offline\n3000 0 d1v0 offline runnable\n4000 0 d0v0 running blocked\n4000 0 d1v0 runnable running")))
        done, files = made_by(path, "--hz", "1024G", "--to", "5ms")
        self.assertEqual(done.returncode, 0, done.stderr)
        for name, text in files.items():
            (self.folder / name).write_text(text)
        done = call("tools/study", self.folder / "host.toml", self.folder / "schedule.txt", "--json")
        self.assertEqual((done.returncode, done.stderr), (0, ""))
        self.assertEqual([(row["runs_ns"], row["waits_ns"]) for row in json.loads(done.stdout)["vcpus"]], [(4 * MS, 0), (MS, 2 * MS)])

    def test_a_vcpu_that_never_changes(self):
        # Xen writes that it goes on; so it ran from the beginning
        path = self.file(bytes_of(self.changes("0 0 d0v0 runnable running\n1000 1 d1v0 running running\n2000 0 d0v0 running blocked\n2000 0 idle runnable running")))
        done, files = made_by(path, "--hz", "1024G", "--to", "4ms")
        self.assertEqual((done.returncode, done.stderr), (0, ""))
        self.assertEqual(stays_of(files["schedule.txt"].splitlines(), 4 * MS), {"d0v0": [(0, 2 * MS, "p0")], "d1v0": [(0, 4 * MS, "p1")]})
        self.assertIn("dom1 v0: never sleeps", done.stdout)
        self.assertIn("dom0 v0: no whole job", done.stdout)

    def test_cycles_of_a_clock(self):
        # 2400.012 MHz: 24,000,120 cycles are 10 ms
        records = [(0, 0, 1, 0), (24_000_120, 0, 0, 2), (48_000_240, 0, 2, 1)]
        body = b"".join(struct.pack("<IQI", 0x80000000 | 1 << 28 | 0x21001 | old << 8 | new << 4, 7_000_000_000 + at, 5 << 16) for at, _, old, new in records)
        trace = read_trace(self.file(struct.pack("<III", WINDOW_HEAD, 0, len(body)) + body), 2400012000)
        self.assertEqual([it.at for it in trace.changes], [0, 10 * MS, 20 * MS])

    def test_many_jobs_become_a_script(self):
        source, at, text = random.Random(2), 0, []
        for _ in range(500):
            run, sleep = source.randrange(100, 900), source.randrange(1000, 3000)
            text += [f"{at} 0 d0v0 blocked runnable", f"{at} 0 d0v0 runnable running", f"{at + run} 0 d0v0 running blocked"]
            at += run + sleep
        changes = from_trace.in_order(Trace(self.changes("\n".join(text)), at * US))[0]
        doings = from_trace.doings_of(changes)[0, 0]
        script, repeats, pairs = doings.script()
        self.assertEqual((len(script), repeats, len(pairs)), (64, False, 499))
        for it in (0, 1):
            self.assertEqual(sum(script[it::2]), round(32 * sum(pair[it] for pair in pairs) / 499))

    def test_refusals(self):
        good = (DATA / "trace.bin").read_bytes()
        path = DATA / "trace.bin"
        self.refused(path, text="counts cycles: give --hz")
        for word in ("fast", "0", "-3G"):
            self.refused(path, f"--hz={word}", text="is no count of cycles")
        self.refused(self.folder / "missing", text="No such file")
        self.refused(self.file(b""), text="is no trace")
        self.refused(self.file(b"\0\1\2" * 99), text="is no trace")
        self.refused(DATA / "machine.toml", text="is no trace")
        self.refused(self.file(good[:12]), "--hz", "1G", text="no change of a vCPU's state")
        self.refused(self.file(good + b"abcdefghijklm"), *FULL, text="begins none")
        self.refused(self.file(struct.pack("<III", WINDOW_HEAD, 0, 6) + good[12:18] + good[:12]), *FULL, text="goes beyond its window")
        self.refused(self.file(" x   0.000000001 d0v0 runstate_change nonsense\n", "t.txt"), text="is no change of a state as xenalyze prints it")
        self.refused(path, *FULL, "--id", "0", text="is not of the form ID=NAME")
        self.refused(path, *FULL, "--id", "0=zed", text="there is no domain 'zed'")
        self.refused(path, *FULL, "--id", "0=web", text="say which is which by --id 1=NAME")
        self.refused(path, *FULL, "--id", "0=web", "--id", "1=web", "--id", "2=mail", text="cannot be one of the machine")
        self.refused(path, *FULL, "--from", "20ms", "--to", "10ms", text="is no span")
        self.refused(path, *FULL, "--from", "soon", text="is no time")
        small = self.file((DATA / "machine.toml").read_text().replace("processors = 2", "processors = 1").replace("[0, 1]", "[0]"), "small.toml")
        self.refused(path, "--hz", "1024G", "--machine", small, text="the trace has the processor 1, and the machine has 1")
        fewer = self.file((DATA / "machine.toml").read_text().replace(", [512009, 1804001]", ""), "fewer.toml")
        self.refused(path, "--hz", "1024G", "--machine", fewer, text="the trace has a vCPU 1 of the domain 0, and web has 1")

    def test_any_bytes(self):
        """A file with any byte spoiled is read or refused in a sentence."""
        source, whole = random.Random(9), bytearray((DATA / "trace.bin").read_bytes())
        read = refused = 0
        for _ in range(300):
            data = bytearray(whole)
            for _ in range(source.randrange(1, 4)):
                data[source.randrange(len(data))] = source.randrange(256)
            try:
                trace = read_trace(self.file(bytes(data)), HZ)
                changes, _ = from_trace.in_order(trace)
                machine = from_trace.machine_of(changes, {})
                places = from_trace.places_of({(it.domain, it.vcpu) for it in changes if it.domain != IDLE}, machine, {})
                from_trace.check_places(changes, places, machine)
                begin, end = from_trace.stretch_of(trace, None, None)
                list(from_trace.set_scripts(machine, places, from_trace.doings_of(changes)))
                from_trace.schedule_of(machine, places, changes, trace.gaps, begin, end)
                read += 1
            except Refused:
                refused += 1
        self.assertGreater(read, 20)
        self.assertGreater(refused, 20)


if __name__ == "__main__":
    unittest.main()
