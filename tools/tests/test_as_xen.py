"""tools/as-xen: Xen's own code on small machines. Most is skipped without gcc or Xen's source, which ~/.cache/beside-xen, or the folder that BESIDE_XEN_FOLDER names, has once tools/as-xen was called."""
import contextlib
import io
import json
import os
import pathlib
import re
import shutil
import subprocess
import sys
import tempfile
import unittest

from support import PROGRAM, TOP, study_of
from xensched_tools import as_xen, tables
from xensched_tools.machine import machine_of, read_machine
from xensched_tools.words import Refused

FOLDER = pathlib.Path(os.environ.get("BESIDE_XEN_FOLDER") or as_xen.Host().folder)
MACHINE = TOP / "examples" / "trace" / "machine.toml"
FAULTS = TOP / "beside-xen" / "faults"
SOURCE = as_xen.fetch.unpacked(FOLDER, as_xen.fetch.TRIED)
HAS_XEN = SOURCE is not None and as_xen.fetch.version_of(SOURCE) == "4.17.5" and shutil.which("gcc") is not None


def called(tool, *words, path=None):
    """A tool's call; `path` stands for the folders of programs."""
    return subprocess.run([sys.executable, TOP / "tools" / tool, *words], capture_output=True, text=True, cwd=TOP, env={**os.environ, **({"PATH": path} if path else {})})


def described(cpus, scheduler="credit2", **guests):
    """A machine with one pool: each guest has one vCPU, which always runs."""
    return machine_of({"processors": cpus, "horizon_ns": 20_000_000, "pool": [{"name": "p", "sched": scheduler, "cpus": list(range(cpus))}],
                       "domain": [{"name": name, "guests": [[]], **keys} for name, keys in guests.items()]}, "a machine")


class Words(unittest.TestCase):
    def refused(self, *words):
        done = called("as-xen", MACHINE, "/dev/null", *words)
        self.assertEqual((done.returncode, done.stdout), (2, ""))
        return done.stderr

    def test_what_cannot_be(self):
        self.assertIn("--sockets 0: a number from 1 on", self.refused("--sockets", "0"))
        self.assertIn("2 processors are not 3 sockets of whole cores of 1", self.refused("--sockets", "3"))
        self.assertIn("2 processors are not 1 sockets of whole cores of 4", self.refused("--threads", "4"))
        self.assertIn("'nothing' is no change of Xen's code", self.refused("--changes", "nothing"))
        self.assertIn("--slop -1: nanoseconds, 0 to 1000000000", self.refused("--slop", "-1"))

    def test_too_many_processors(self):
        with self.assertRaisesRegex(Refused, "64 processors, and Xen's code is run on at most 62"):
            as_xen.schedule(described(64, a={}), "", as_xen.Host(), "test")

    def test_a_line_that_xl_would_refuse(self):
        with self.assertRaisesRegex(Refused, "the line '5 xl sched-credit2 -d nobody -w 5' of the work file cannot be carried"):
            as_xen.schedule(described(1, a={}), "5 xl sched-credit2 -d nobody -w 5\n", as_xen.Host(), "test")

    def test_neither_source_nor_compiler(self):
        with tempfile.TemporaryDirectory() as folder:
            done = called("as-xen", MACHINE, "/dev/null", "--folder", folder, path=folder)
        self.assertEqual((done.returncode, done.stdout), (2, ""))
        self.assertEqual(len(done.stderr.splitlines()), 1)
        self.assertIn("there is no apt-get here", done.stderr)

    def test_a_stop_is_a_sentence(self):
        ended = subprocess.CompletedProcess([], 4, "", "beside: the moment 5 has no end\n")
        self.assertEqual(as_xen.why_stopped("beside", ended), "Xen's code goes round and round: the moment at 5 ns has no end")
        self.assertEqual(as_xen.before(["0 a", "4 b", "5 c", "5 d"], "5"), ["0 a", "4 b"])


@unittest.skipUnless(HAS_XEN, "no gcc, or no source of Xen 4.17.5: tools/as-xen fetches it")
class ByXen(unittest.TestCase):
    def lines(self, machine, work="", **host):
        with contextlib.redirect_stderr(io.StringIO()):
            return as_xen.schedule(machine, work, as_xen.Host(folder=FOLDER, **host), "test")

    def test_the_study_reads_it(self):
        for path in (MACHINE, FAULTS / "arinc-two-pools" / "domains.toml", FAULTS / "rtds-extra-time" / "domains.toml"):
            lines = self.lines(read_machine(path))
            self.assertTrue(lines[-1].endswith(" finish"))
            study = study_of(path, lines)
            self.assertEqual((study.fault_count, study.finished), (0, True))

    def test_arinc_653_is_the_models(self):
        # a pool of ARINC 653 is equal to the nanosecond (docs/XEN.md)
        machine = machine_of({"processors": 1, "horizon_ns": 40_000_000, "pool": [{"name": "p", "sched": "arinc653", "cpus": [0], "major_ns": 10_000_000, "frame": [[0, 0, 3_000_000], [1, 0, 2_000_000]]}],
                              "domain": [{"name": "a", "guests": [[]]}, {"name": "b", "guests": [[]]}]}, "a machine")
        stays = [line for line in self.lines(machine) if " leave " in line]
        self.assertEqual(stays, [f"{at + start} leave p0 {who}" for at in range(0, 40_000_000, 10_000_000) for start, who in ((0, "d0v0"), (3_000_000, "d1v0"), (5_000_000, "idle"))]
                         + ["40000000 leave p0 d0v0"])

    def test_caps_are_told(self):
        study = study_of(MACHINE, self.lines(read_machine(MACHINE)))
        # 60 percent of 40 ms
        self.assertEqual(sum(unit.ran for unit in study.domain_list[1].units) // 1_000_000, 24)
        self.assertTrue(any(" refill d1 periods 1 budget 6000000" in line for line in self.lines(read_machine(MACHINE))))

    def test_run_queues(self):
        # five guests on four processors: with two queues one queue has three of them
        machine = described(4, a={"weight": 1024}, b={}, c={}, d={}, e={})
        one, two = (self.lines(machine, runqueue=kind, sockets=sockets) for kind, sockets in (("all", 1), ("socket", 2)))
        self.assertNotEqual(one, two)
        self.assertEqual(one, self.lines(machine, sockets=1))
        self.assertEqual(two, self.lines(machine, most=2))
        self.assertEqual(two, self.lines(machine, runqueue="core", threads=2))

    def test_slop(self):
        # b is replenished at 13.99 ms, and the clock is set for 50 us later: a runs 4.04 ms of its 4
        machine = described(1, "rtds", a={"period_us": 10_000, "budget_us": 4_000, "extratime": False}, b={"period_us": 13_990, "budget_us": 1_000, "extratime": False})
        exact, late = self.lines(machine), self.lines(machine, slop=50_000)
        self.assertEqual(exact, self.lines(machine, slop=0))
        self.assertIn("14000000 decide c0 d1u0 due 15000000 late 0 reset 0", exact)
        self.assertIn("14040000 decide c0 d1u0 due 15040000 late 40000 reset 0", late)

    def test_answers(self):
        # Xen keeps processor 0 in the first pool; what a later command means hangs on the answer before it
        work = "1000000 xl cpupool-cpu-remove p 0\n2000000 xl cpupool-create name=q sched=credit2\n3000000 xl cpupool-cpu-remove p 1\n4000000 xl cpupool-cpu-add q 1\n"
        lines = [line for line in self.lines(described(2, a={}), work) if " xl " in line]
        self.assertEqual(lines, ["1000000 xl 1 refused 22 EINVAL", "2000000 xl 2 ok", "3000000 xl 3 ok", "4000000 xl 4 ok"])
        # a pool with a core stays, so that its name is known
        work += "5000000 xl cpupool-destroy q\n6000000 xl cpupool-cpu-remove q 1\n"
        lines = [line for line in self.lines(described(2, a={}), work) if " xl " in line]
        self.assertEqual(lines[4:], ["5000000 xl 5 refused 16 EBUSY", "6000000 xl 6 ok"])
        with self.assertRaisesRegex(Refused, "the line '8000000 xl cpupool-cpu-add q 1' "):
            self.lines(described(2, a={}), work + "7000000 xl cpupool-destroy q\n8000000 xl cpupool-cpu-add q 1\n")

    def test_where_xens_code_stops(self):
        for name, cause in (("rtds-core-leaves", r"follows a pointer to nothing at (rt\.c:756, in move_repl_timer|address 0x\w+), at 5000000 ns"), ("credit2-core-leaves", "the moment at 5000000 ns has no end")):
            done = called("as-xen", FAULTS / name / "domains.toml", FAULTS / name / "work.txt", "--folder", FOLDER)
            self.assertEqual(done.returncode, 1)
            self.assertRegex(done.stderr, cause)
            moments = [int(line.split()[0]) for line in done.stdout.splitlines()]
            self.assertTrue(moments and max(moments) < 5_000_000)

    def study_of_fault(self, name, *changes):
        path = FAULTS / name / "domains.toml"
        lines = self.lines(read_machine(path), (FAULTS / name / "work.txt").read_text(), changes=changes)
        self.assertTrue(lines[-1].endswith(" finish"))
        return study_of(path, lines, FAULTS / name / "work.txt")

    def test_the_faults_and_what_mends_them(self):
        # the figures of docs/XEN.md
        for name, change in (("rtds-core-leaves", "rtds-remove"), ("credit2-core-leaves", "credit2-leaving")):
            self.assertTrue(self.study_of_fault(name, change).finished)
        for name, change, table, key, values in (("rtds-extra-time", "rtds-extra", "terms", "short", [4, 0]), ("rtds-late", "rtds-replenish", "terms", "lates", [0, 4]),
                                                 ("arinc-two-pools", "arinc-pools", "windows", "lost", [0, 12_000_000, 0, 0])):
            for changes, wanted in (((), values), ((change,), [0] * len(values))):
                made = tables.TABLES[table](self.study_of_fault(name, *changes))
                place = [column.key for column in made.columns].index(key)
                self.assertEqual([row[place] for row in made.rows], wanted, (name, changes))

    @unittest.skipUnless(PROGRAM.exists(), "the program is not built")
    def test_compare(self):
        done = called("compare", MACHINE, f"{MACHINE}@xen", "--folder", FOLDER, "--json")
        self.assertEqual(done.returncode, 0, done.stderr)
        self.assertIn("compare: Xen 4.17", done.stderr)
        self.assertIn("waits", {row["table"] for row in json.loads(done.stdout)})

    @unittest.skipUnless(PROGRAM.exists(), "the program is not built")
    def test_the_page_of_answers(self):
        page = (TOP / "docs" / "ANSWERS.md").read_text()
        command, wanted = re.search(r"```sh-session\n\$ tools/compare (examples/host32[^\n]*)\n(.*?)```", page, re.S).groups()
        done = called("compare", *command.split(), "--folder", FOLDER)
        self.assertEqual(done.stdout, wanted, done.stderr)


if __name__ == "__main__":
    unittest.main()
