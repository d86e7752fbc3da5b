"""The soak: its machines, its spoiled schedules, how it makes failures small, and that it finds a program that lies."""
import os
import pathlib
import random
import stat
import subprocess
import sys
import tempfile
import unittest

from support import PROGRAM, TOP, call
from xensched_tools import bad_files, calls, faulty, shrinking, spoiling, wild
from xensched_tools.trials import Texts

BUILT = unittest.skipUnless(PROGRAM.exists(), "the program is not built")
LINES = ["0 arrive p0", "0 decide c0 d0u0 due 5 late 0 reset 0", "0 leave p0 d0v0", "0 end 5", "5 slice c0", "5 finish"]
SCHEDULE = spoiling.joined(LINES)


class Made(unittest.TestCase):
    def test_a_seed_makes_the_same_files(self):
        for kind in wild.KINDS:
            self.assertEqual(wild.made(7, kind), wild.made(7, kind))
            self.assertNotEqual(wild.made(7, kind), wild.made(8, kind))

    def test_the_keys_and_commands_all_come(self):
        texts = [wild.made(seed, kind) for kind in wild.KINDS for seed in range(40)]
        domains, work = "".join(it[0] for it in texts), "".join(it[1] for it in texts)
        for word in ("granularity = 2", "granularity = 4", "pins", "cap", "weight", "ratelimit_us", "frame", "major_ns", "period_us", "budget_us", "extratime", *map('sched = "{}"'.format, ("credit2", "rtds", "arinc653", "null"))):
            self.assertIn(word, domains)
        for word in ("stall", "cpupool-list", "cpupool-create", "cpupool-destroy", "cpupool-rename", "cpupool-cpu-add", "cpupool-cpu-remove", "cpupool-migrate", "sched-credit2 -d", "sched-credit2 -s", "sched-rtds", "unpause", "arinc-set", "vcpu-pin"):
            self.assertIn(f" {word} ", work)


class Spoiled(unittest.TestCase):
    def owed(self, way, at):
        return way(LINES, at, random.Random(1))

    def test_what_is_owed(self):
        self.assertEqual(self.owed(spoiling.cut_behind, 4).verdict, "no 5 Unfinished")
        self.assertEqual(self.owed(spoiling.another_moment, 4).verdict, "no 5 Moment 5")
        self.assertEqual(self.owed(spoiling.another_end, 3).verdict, "no 4 End 5")
        self.assertEqual(self.owed(spoiling.another_end, 5).verdict, "no 6 Finish")
        self.assertEqual(self.owed(spoiling.left_out, 3).verdict, "no 4 Moment 0")
        self.assertEqual(self.owed(spoiling.doubled, 3).verdict, "no 5 Moment 5")
        self.assertEqual(self.owed(spoiling.doubled, 5).verdict, "no 7 AfterFinish")
        self.assertEqual(self.owed(spoiling.swapped, 2).verdict, "no 3 NotQuiet")
        self.assertEqual(self.owed(spoiling.another_field, 1)[2:4], ("no 2 Differs", LINES[1]))
        self.assertFalse(self.owed(spoiling.swapped, 0).is_refused)
        self.assertFalse(self.owed(spoiling.left_out, 4).is_refused)

    def test_a_stall_may_stand_in_for_a_leave(self):
        lines = [*LINES[:3], "0 stall p0 until 3", *LINES[3:]]
        self.assertTrue(spoiling.left_out(LINES, 2, None).is_refused)
        self.assertFalse(spoiling.left_out(lines, 2, None).is_refused)

    def test_verdicts_that_are_not_owed(self):
        spoiled = self.owed(spoiling.another_field, 1)
        right = calls.Ended(9, f"no 2 Differs\n{LINES[1]}\n".encode(), b"")
        self.assertIsNone(spoiling.fault_of_verdict(spoiled, right))
        for status, out in ((0, b"yes 6\n"), (9, b"no 3 Differs\n0 end 5\n"), (9, b"no 2 Differs\n0 end 5\n"), (9, b"no 2 NotEnabled\n"), (8, b"")):
            self.assertIsNotNone(spoiling.fault_of_verdict(spoiled, calls.Ended(status, out, b"")))
        self.assertIsNone(spoiling.fault_of_ordered_verdict(SCHEDULE, spoiled, right))
        self.assertIsNotNone(spoiling.fault_of_ordered_verdict(SCHEDULE, spoiled, calls.Ended(9, b"no 3 Cut\n", b"")))


    def test_behind_a_run_that_its_limit_cut_off(self):
        cut = LINES[:3]
        longer = spoiling.doubled(cut, 2, random.Random(1))
        behind = calls.Ended(9, f"no 4 Moment 0\n{LINES[4]}\n".encode(), b"")
        self.assertIsNone(spoiling.fault_of_ordered_verdict(spoiling.joined(cut), longer, behind))
        self.assertIsNotNone(spoiling.fault_of_ordered_verdict(SCHEDULE, longer, behind))
        self.assertIsNotNone(spoiling.fault_of_ordered_verdict(spoiling.joined(cut), longer, calls.Ended(9, b"no 3 Moment 0\n", b"")))


class Small(unittest.TestCase):
    def test_lines_are_taken_away_while_it_fails(self):
        texts = Texts(b"format = 1\n[[pool]]\na\n[[domain]]\nb\nwanted\n[[domain]]\nc\n", b"".join(b"%d\n" % k for k in range(50)), 9)
        small = shrinking.smaller(texts, lambda it: b"wanted\n" in it.domains and b"17\n" in it.work and b"33\n" in it.work)
        self.assertEqual(small, Texts(b"wanted\n", b"17\n33\n", 9))


class Faulty(unittest.TestCase):
    def test_the_line_is_that_of_the_fault(self):
        text, owed = faulty.in_work("# nothing\n5 stall 0 1\n", 1, random.Random(3))
        line = int(owed.split()[3])
        self.assertEqual(len(text.splitlines()), 3)
        self.assertNotIn(text.splitlines()[line - 1], ("# nothing", "5 stall 0 1"))

    def test_pythons_reader(self):
        for text, is_one in ((b"a = 1\n", True), (b"a = 9223372036854775808\n", False), (b"a = 2E999", False), (b"a = -inf", True), (b"a = \n", False), (b"\xff", False), (b"a = [[1, 2], [9223372036854775807]]", True), (b'a = "B\\e"', None), (b'a = "B\\q"', False)):
            self.assertEqual(bad_files.is_toml(text), is_one)


@BUILT
class Runs(unittest.TestCase):
    def soak(self, folder, *said, program=PROGRAM):
        environment = {**os.environ, "XENSCHED_PROGRAM": str(program)}
        return subprocess.run([sys.executable, TOP / "tools/soak", "--keep", folder, *said], capture_output=True, text=True, timeout=300, env=environment)

    def test_a_soak(self):
        with tempfile.TemporaryDirectory() as folder:
            done = self.soak(folder, "--runs", "9", "--seed", "1")
        self.assertEqual((done.returncode, done.stdout.splitlines()[-1]), (0, "0 failures"))

    def test_a_program_that_lies_is_found(self):
        with tempfile.TemporaryDirectory() as folder:
            liar = pathlib.Path(folder) / "liar"
            liar.write_text(f"#!/bin/bash\n[ \"$1\" = run ] || exec {PROGRAM} \"$@\"\n{PROGRAM} \"$@\" | sed '0,/ wake /{{/ wake /p}}'\nexit ${{PIPESTATUS[0]}}\n")
            liar.chmod(liar.stat().st_mode | stat.S_IXUSR)
            done = self.soak(folder, "--runs", "1", "--seed", "499", program=liar)
            kept = [path.name for path in pathlib.Path(folder, "499-1").iterdir()]
        self.assertEqual(done.returncode, 1)
        self.assertIn("seed 499, siblings: check takes the ordered run: ", done.stdout)
        self.assertLessEqual({"note.txt", "small", "domains", "work"}, set(kept))

    def test_no_program(self):
        with tempfile.TemporaryDirectory() as folder:
            done = self.soak(folder, "--runs", "1", program=folder)
        self.assertEqual((done.returncode, done.stderr), (2, f"soak: {pathlib.Path(folder).resolve()} is no program\n"))

    def test_wrong_words(self):
        for said in (["--minutes", "0"], ["--runs", "x"], ["--seed", "-1"], ["more"]):
            self.assertEqual(call("tools/soak", *said).returncode, 2)
        self.assertEqual(call("tools/try_faults", "more").returncode, 2)
