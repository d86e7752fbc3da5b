"""How tools/schedulable makes its sets, what the two tests of the literature say of sets that were worked by hand, its intervals, its words; and a small call where the program is built."""
import contextlib
import csv
import decimal
import io
import itertools
import math
import pathlib
import random
import tempfile
import types
import unittest
import xml.etree.ElementTree

from support import PROGRAM, call, called
from xensched_tools import fractions_plot, making, schedulability
from xensched_tools.schedulability import Asked, Judged, Task, bertogna_cirinei_lipari, goossens_funk_baruah
from xensched_tools.words import Refused

BUILT = unittest.skipUnless(PROGRAM.exists(), "the program is not built")
WORDS = ["tools/schedulable", "--processors", "2", "--tasks", "3", "--periods", "10ms,20ms", "--sets", "2", "--jobs", "1"]
# two light tasks and a heavy one behind them: at 0 the light ones take both processors for 2 ms, and 10 ms are left of 11 for what has 10
DHALL = [Task(10_000, 2_000), Task(10_000, 2_000), Task(11_000, 10_000)]


def halves(count):
    return [Task(2_000, 1_000)] * count


def misses(tasks, processors):
    """Whether global EDF misses a deadline up to the hyperperiod, step by step, where all tasks begin together."""
    left, step = [0] * len(tasks), math.gcd(*(it for task in tasks for it in (task.period, task.budget)))
    for now in range(0, math.lcm(*(task.period for task in tasks)) + 1, step):
        for k, task in enumerate(tasks):
            if now % task.period == 0:
                if left[k]:
                    return True
                left[k] = task.budget
        ready = sorted((now - now % tasks[k].period + tasks[k].period, k) for k in range(len(tasks)) if left[k])
        for _, k in ready[:processors]:
            left[k] -= step
    return False


class Made(unittest.TestCase):
    def test_parts_add_up(self):
        draw = random.Random("some")
        for count, total in itertools.product((1, 2, 8), (0.25, 0.9)):
            with self.subTest(count=count, total=total):
                found = schedulability.parts_of(draw, count, total)
                self.assertEqual(len(found), count)
                self.assertAlmostEqual(sum(found), total)
                self.assertGreaterEqual(min(found), 0)

    def test_each_place_has_the_same_mean(self):
        draw = random.Random("mean")
        sets = [schedulability.parts_of(draw, 4, 1.0) for _ in range(2000)]
        for place in range(4):
            self.assertAlmostEqual(sum(it[place] for it in sets) / len(sets), 0.25, delta=0.02)

    def test_none_is_above_one(self):
        draw = random.Random("some")
        sets = [schedulability.shares_of(draw, 4, 3.0) for _ in range(30)]
        self.assertLessEqual(max(map(max, sets)), 1)
        for found in sets:
            self.assertAlmostEqual(sum(found), 3.0)
        with self.assertRaises(Refused):
            schedulability.shares_of(draw, 4, 3.9999)

    def test_periods(self):
        between, draw = schedulability.periods_of("10ms:100ms"), random.Random("some")
        found = [between.drawn(draw) for _ in range(1000)]
        self.assertTrue(all(10_000 <= it <= 100_000 and it % 10 == 0 for it in found))
        # the middle of the logarithms is 31.6 ms, and half of the periods are below it
        self.assertAlmostEqual(sum(it < 31_623 for it in found) / 1000, 0.5, delta=0.05)
        listed = schedulability.periods_of("10ms,20ms,50us")
        self.assertEqual(({listed.drawn(draw) for _ in range(100)}, listed.most), ({10_000, 20_000, 50}, 20_000))
        for text in ("10ms:5ms", "10ms:20ms:30ms", "15us", "1us", "10", "2000s", "10ms,"):
            with self.subTest(text=text), self.assertRaises(Refused):
                schedulability.periods_of(text)

    def test_utilisations(self):
        for text, wanted in (("1:4:0.5", "1 1.5 2 2.5 3 3.5 4"), ("1.0,2.50", "1 2.5"), ("0.1:0.35:0.1", "0.1 0.2 0.3"), ("10", "10")):
            with self.subTest(text=text):
                self.assertEqual([schedulability.shown(it) for it in schedulability.utilisations_of(text)], wanted.split())
        for text in ("0", "-1", "x", "nan", "65", "2:1:0.5", "1:2", "1:2:0", "0.1:60:0.01"):
            with self.subTest(text=text), self.assertRaises(Refused):
                schedulability.utilisations_of(text)

    def test_a_set_is_that_of_its_seed(self):
        periods = schedulability.periods_of("10ms:100ms")
        made = schedulability.set_of(1, decimal.Decimal("2.5"), 7, 8, periods)
        self.assertEqual(made, schedulability.set_of(1, decimal.Decimal("2.50"), 7, 8, periods))
        others = [(2, "2.5", 7), (1, "2.6", 7), (1, "2.5", 8)]
        self.assertEqual(len({tuple(made), *(tuple(schedulability.set_of(seed, decimal.Decimal(of), number, 8, periods)) for seed, of, number in others)}), 4)
        for task in made:
            self.assertTrue(task.budget % 10 == 0 and 10 <= task.budget <= task.period)
        # each budget is rounded down by less than 10 us of at least 10 ms
        self.assertTrue(2.5 - 8 * 0.001 < sum(task.utilisation for task in made) <= 2.5)
        self.assertEqual(schedulability.task_of(0.0001, 10_000), Task(10_000, 10))


class Tests(unittest.TestCase):
    """Of the literature."""

    def test_worked_by_hand(self):
        # of three halves: 1.5 <= 2 - 0.5; and in the other test two others take 1 ms of a slack of 1 ms each, which is not less than twice 1 ms
        for tasks, processors, gfb, bcl in [
            (halves(3), 2, True, False), (halves(2), 2, True, True), (halves(4), 2, False, False), (DHALL, 2, False, False),
            # 1.4 > 2 - 0.9; but beside one other a task always has a processor
            ([Task(10_000, 9_000), Task(10_000, 5_000)], 2, False, True),
            # on one processor all that counts is that the utilisations add up to 1 at most
            ([Task(4_000, 1_000), Task(4_000, 3_000)], 1, True, False), ([Task(4_000, 2_000), Task(4_000, 3_000)], 1, False, False),
        ]:
            with self.subTest(tasks=tasks, processors=processors):
                self.assertEqual((goossens_funk_baruah(tasks, processors), bertogna_cirinei_lipari(tasks, processors)), (gfb, bcl))

    def test_work_within(self):
        # 3 whole periods of 4 in 14, and 1 of the 2 that are left of another; or all of its budget, if that is less
        for budget, span, wanted in ((1, 14, 4), (3, 14, 11), (3, 3, 3), (3, 2, 2), (2, 12, 6)):
            with self.subTest(budget=budget, span=span):
                self.assertEqual(schedulability.work_within(Task(4, budget), span), wanted)

    def test_no_set_that_passes_misses(self):
        draw, only = random.Random("edf"), {"gfb": 0, "bcl": 0}
        for _ in range(400):
            tasks = [Task(period, draw.randrange(1, 1 + period * 3 // 4)) for period in (draw.choice((4, 5, 6, 8, 10, 12)) for _ in range(draw.randrange(2, 6)))]
            passed = [name for name, test in schedulability.TESTS.items() if test(tasks, 2)]
            if passed:
                self.assertFalse(misses(tasks, 2), tasks)
            if len(passed) == 1:
                only[passed[0]] += 1
        # neither test follows from the other
        self.assertGreater(min(only.values()), 0)
        self.assertTrue(misses(DHALL, 2))

    def test_exact_at_the_border(self):
        # five thirds are just 2 - 1/3, which no rounding may spoil
        self.assertTrue(goossens_funk_baruah([Task(30, 10)] * 5, 2))
        self.assertFalse(goossens_funk_baruah([Task(30, 10)] * 5 + [Task(10**9, 10)], 2))


class Runs(unittest.TestCase):
    def test_horizons(self):
        self.assertEqual(schedulability.horizon_of([Task(10_000, 10), Task(15_000, 10)], 2), (30_000, True))
        self.assertEqual(schedulability.horizon_of([Task(10_000, 10), Task(15_010, 10)], 20), (300_200, False))

    def test_the_machine(self):
        machine = schedulability.machine_of(DHALL, 2, 110_000)
        self.assertEqual((machine.processors, machine.horizon, machine.pools[0].sched, len(machine.domains)), (2, 110_000_000, "rtds", 3))
        self.assertEqual(machine.domains[2].settings, {"period_us": 11_000, "budget_us": 10_000, "extratime": False})
        self.assertEqual([domain.guests for domain in machine.domains], [[[]]] * 3)

    def test_intervals(self):
        # n / (n + z^2) where all of n are good; the middle of the interval of half of them is a half
        low, high = schedulability.wilson(10, 10)
        self.assertAlmostEqual(low, 0.722467, 6)
        self.assertAlmostEqual(high, 1)
        low, high = schedulability.wilson(50, 100)
        self.assertAlmostEqual(low, 0.403832, 5)
        self.assertAlmostEqual(low + high, 1)
        self.assertEqual(schedulability.wilson(0, 10)[0], 0)

    def test_rows_and_picture(self):
        sets = [Judged(1, 1.0, True, 0, {"gfb": True, "bcl": False}), Judged(2, 0.5, False, 3, {"gfb": False, "bcl": False})]
        row = schedulability.row_of(decimal.Decimal("1.50"), sets)
        self.assertEqual(row.cells(), ["1.5", "0.7500", "2", "1", "0.5000", "0.0945", "0.9055", "0.5000", "0.0000"])
        text = "\n".join(fractions_plot.picture("<a title>", [row, schedulability.row_of(decimal.Decimal(2), sets)]))
        self.assertEqual(len(xml.etree.ElementTree.fromstring(text).findall("{http://www.w3.org/2000/svg}circle")), 6)

    def test_what_contradicts_a_test(self):
        # a run that says of each set that a term was short: those that pass a test are told, with a file that the command reads
        def short(machine):
            return types.SimpleNamespace(finished=True, units={"d0u0": types.SimpleNamespace(tally=[None, types.SimpleNamespace(short=1)])})

        kept = making.run, making.get_ready
        making.run, making.get_ready = short, lambda: None
        try:
            with tempfile.TemporaryDirectory() as folder:
                status, out, err = called(*WORDS, "--utilisation", "0.5", "--keep", folder)
                path = pathlib.Path(folder) / "u0.5-set1.toml"
                self.assertEqual((status, out.splitlines()[1].split(",")[4], path.exists()), (1, "0.0000", True), err)
                self.assertIn("set 1 of utilisation 0.5 passes gfb and bcl, and 1 of its terms are short", err)
                self.assertIn(f"./xensched run --ordered {path} /dev/null | tools/study {path} - --table terms", err)
        finally:
            making.run, making.get_ready = kept

    def test_wrong_words(self):
        for words in (["--utilisation", "4"], ["--utilisation", "1", "--processors", "65"], ["--utilisation", "1", "--tasks", "0"], ["--utilisation", "1", "--sets", "0"],
                      ["--utilisation", "1", "--periods", "1"], ["--utilisation", "1", "--periods", "1000s", "--rounds", "11"], ["--utilisation", "x"]):
            with self.subTest(words=words):
                status, out, err = called(*WORDS, *words)
                self.assertEqual((status, out, len(err.splitlines())), (2, "", 1), err)


@BUILT
class Called(unittest.TestCase):
    def test_a_set_that_is_short(self):
        # behind the light ones the heavy task misses, at 0 already
        study = making.run(schedulability.machine_of(DHALL, 2, 22_000))
        self.assertGreater(study.units["d2u0"].tally[1].short, 0)
        self.assertEqual(study.units["d0u0"].tally[1].short, 0)

    def test_a_small_call(self):
        with tempfile.TemporaryDirectory() as folder:
            path = pathlib.Path(folder) / "f.svg"
            done = call(*WORDS, "--utilisation", "1,2.4", "--rounds", "2", "--plot", path, timeout=600)
            self.assertEqual((done.returncode, done.stderr), (0, ""))
            head, low, high = csv.reader(io.StringIO(done.stdout))
            self.assertEqual(head, "utilisation mean sets whole simulated low high gfb bcl".split())
            # half of what is there is always kept by so few; more than there is never
            self.assertEqual((low[0], low[2:5], high[0], high[2:5], high[7:]), ("1", ["2", "2", "1.0000"], "2.4", ["2", "2", "0.0000"], ["0.0000", "0.0000"]))
            self.assertGreaterEqual(float(low[4]), max(map(float, low[7:])))
            self.assertIn("Goossens, Funk, Baruah", path.read_text())


if __name__ == "__main__":
    unittest.main()
