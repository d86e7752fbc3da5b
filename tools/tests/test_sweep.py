"""The keys of a sweep, its targets, its rows of several seeds, and what a configuration costs; and a sweep of one's own machine where the program is built."""
import contextlib
import io
import pathlib
import runpy
import tempfile
import unittest

from support import PROGRAM, TOP, call, follow_stored
from xensched_tools import asking, making, sweeping
from xensched_tools.machine import read_machine
from xensched_tools.words import Refused

BUILT = unittest.skipUnless(PROGRAM.exists(), "the program is not built")
LATENCY = "examples/answers/latency.toml"
TWO = TOP / "examples" / "two-pools" / "domains.toml"


class Telling(unittest.TestCase):
    def test_what_is_left(self):
        progress = runpy.run_path(str(TOP / "tools" / "sweep"))["Progress"](4)
        progress.begun = progress.told = progress.begun - 60
        with contextlib.redirect_stderr(io.StringIO()) as told:
            progress.step()
            progress.step()
        self.assertEqual(told.getvalue(), "sweep: 1 of 4 are done; some 3 minutes are left\n")


class Keys(unittest.TestCase):
    def machine(self, **settings):
        return sweeping.varied(read_machine(TOP / LATENCY), {key.replace("__", "."): value for key, value in settings.items()})

    def test_values(self):
        for path, text, value in (("web.cap", "50", 50), ("a.extratime", "false", False), ("pool.p.sched", "null", "null"), ("web.pool", "rt", "rt"), ("web.pins", "0-2+5", [0, 1, 2, 5]), ("pool.p.cpus", "3", [3])):
            with self.subTest(path=path):
                self.assertEqual(making.value_of(path, text), value)
        for path, text in (("web.cap", "x"), ("web.pins", "0-"), ("web.pins", "64"), ("pool.p.cpus", "a")):
            with self.subTest(path=path, text=text), self.assertRaises(Refused):
                making.value_of(path, text)

    def test_pools_and_pins(self):
        machine = self.machine(audio__pins="1-2", sched="rtds", granularity="1")
        audio = next(domain for domain in machine.domains if domain.name == "audio")
        self.assertEqual((audio.pins, {pool.sched for pool in machine.pools}), ([[1, 2]] * machine.units_of(audio), {"rtds"}))
        for path, value in (("audio.pool", "none"), ("pool.none.cpus", "1"), ("pool.none.sched", "null")):
            with self.subTest(path=path), self.assertRaises(Refused):
                sweeping.varied(read_machine(TOP / LATENCY), {path: value})

    def test_pins_of_larger_units(self):
        machine = self.machine(web__pins="1-2")
        web = next(domain for domain in machine.domains if domain.name == "web")
        web.pins[1] = [0, 2]
        pins = {size: [domain.pins for domain in making.with_granularity(machine, size).domains] for size in (1, 2, 4)}
        self.assertEqual(pins, {1: [None, [[1, 2], [0, 2]], None], 2: [None, [[0, 1, 2]], None], 4: [None, [[0, 1, 2]], None]})
        back = making.with_granularity(making.with_granularity(machine, 2), 1)
        self.assertEqual(back.domains[1].pins, [[0, 1, 2], [0, 1, 2]])
        with self.assertRaises(Refused):
            self.machine(granularity="0")

    def test_processors_go_between_pools(self):
        with tempfile.NamedTemporaryFile("w", suffix=".toml") as file:
            file.write('format = 1\nprocessors = 4\nhorizon_ns = 1000\n[[pool]]\nname = "one"\nsched = "credit2"\ncpus = [0, 1]\n[[pool]]\nname = "two"\nsched = "null"\ncpus = [2, 3]\n'
                       '[[domain]]\nname = "web"\npool = "one"\nweight = 512\nguests = [[]]\n')
            file.flush()
            base = read_machine(file.name)
        machine = sweeping.varied(base, {"pool.two.cpus": "1-2", "web.pool": "two"})
        self.assertEqual([pool.cpus for pool in machine.pools], [[0, 3], [1, 2]])
        self.assertEqual((machine.domains[0].pool, machine.domains[0].settings), ("two", {}))
        self.assertEqual([pool.cpus for pool in base.pools], [[0, 1], [2, 3]])
        row = {"preempted": 7}
        self.assertEqual(sweeping.price_of(base, {"settings": {"pool.two.cpus": "1-3", "web.pool": "two", "web.weight": "512"}}, row), (3, 0, 2, 7))
        # one unit, of 2 in 5 ms
        price = sweeping.price_of(base, {"settings": {"pool.one.sched": "rtds", "web.budget_us": "2000", "web.period_us": "5000"}}, row)
        self.assertEqual((price, sweeping.price_text(price)), ((2, 40, 3, 7), "2 processors, 40% of one reserved, 3 keys"))
        self.assertEqual(sweeping.price_text((1, 0, 1, 0)), "1 processor, 1 key")


class Rows(unittest.TestCase):
    def test_several_seeds(self):
        rows = [{"status": 0, "figures": [1, None, 0.5], "met": 3, "missed": 0, "worst": 0.5, "preempted": 4}, {"status": 7, "figures": [4, None, 0.25], "met": 2, "missed": 1, "worst": 1.25, "preempted": 5}]
        self.assertEqual(sweeping.joined_rows(rows), {"status": 7, "figures": [2.5, 1, 4, None, None, None, 0.375, 0.25, 0.5], "met": 5, "missed": 1, "worst": 1.25, "preempted": 9})

    def test_targets(self):
        # of each 10 ms a has a window of 4 and b one of 3 behind it: b has 30 percent, and waits for 4 ms
        study, targets = follow_stored("two-domains-take-turns", lambda study: asking.Targets(study, [], ["b=7ms"], ["b=60%"]))
        targets.judge()
        self.assertEqual((targets.missed, targets.worst), (1, 2.0))
        self.assertGreater(targets.met, 0)
        study, targets = follow_stored("two-domains-take-turns", lambda study: asking.Targets(study, [], ["b=3500us"], ["b=30%"]))
        self.assertEqual(targets.judge().worst, 4000 / 3500)


@BUILT
class Swept(unittest.TestCase):
    def test_targets_and_resume(self):
        words = ["tools/sweep", "--machine", LATENCY, "--over", "sched=null,credit2", "--column", "preempted", "--latency", "audio=1ms", "--warmup", "20ms"]
        done = call(*words)
        head, null, credit2 = done.stdout.splitlines()
        self.assertEqual(head, "sched,status,preempted,met,missed,worst")
        self.assertEqual((null.split(",")[:3], null.split(",")[4:]), (["null", "0", "0"], ["0", "0.000"]))
        self.assertGreater(float(credit2.split(",")[-1]), 1)
        self.assertIn("sweep: 1 of 2 met all that was asked; the cheapest that was run: sched=null (3 processors, 1 key changed, 0 preemptions)", done.stderr.splitlines())
        with tempfile.TemporaryDirectory() as folder:
            path = pathlib.Path(folder) / "kept.csv"
            # a line that was kept is not run again, so a changed one comes out as it is
            path.write_text(f"{head}\nnull,0,77,1,0,0.000\n")
            again = call(*words, "--resume", path)
            self.assertEqual(again.stdout.splitlines(), [head, "null,0,77,1,0,0.000", credit2])
            path.write_text("another,head\n")
            self.assertEqual(call(*words, "--resume", path).returncode, 2)

    def test_seeds(self):
        words = ["tools/sweep", "--machine", LATENCY, "--over", "horizon_ns=20000000", "--column", "entries"]
        self.assertEqual(call(*words, "--seeds", 2).returncode, 2)
        done = call(*words, "--seeds", 2, "--load", "web=exponential:1ms/1ms")
        head, row = done.stdout.splitlines()
        self.assertEqual(head, "horizon_ns,status,entries.mean,entries.least,entries.greatest")
        mean, least, most = (float(it) for it in row.split(",")[2:])
        self.assertEqual(mean, (least + most) / 2)


if __name__ == "__main__":
    unittest.main()
