"""What tools/plan looks for: the steps of its climb, the order of its answers, the xl commands; and a search on a small machine where the program is built."""
import math
import pathlib
import random
import tempfile
import unittest

from support import PROGRAM, TOP, call, called
from xensched_tools import framing, planning
from xensched_tools.machine import read_machine
from xensched_tools.planning import Answer
from xensched_tools.words import Refused

LATENCY = "examples/answers/latency.toml"
FILE = '''format = 1
processors = 4
horizon_ns = 40000000
[[pool]]
name = "one"
sched = "credit2"
cpus = [0, 1, 2]
[[pool]]
name = "rt"
sched = "rtds"
cpus = [3]
[[domain]]
name = "web"
pool = "one"
weight = 512
guests = [[], []]
[[domain]]
name = "audio"
pool = "one"
guests = [[1000000, 3000000]]
'''


def answer(**given):
    return Answer(**{"settings": {}, "is_met": True, "worst": 0.5, "price": (2, 0, 0, 0), "runs": 1, **given})


class Climbing(unittest.TestCase):
    def test_the_order(self):
        cheap, dear, near, far = answer(), answer(price=(3, 0, 0, 0), worst=0.1), answer(is_met=False, worst=1.1), answer(is_met=False, worst=3.0, price=(1, 0, 0, 0))
        self.assertEqual(sorted([far, dear, near, cheap], key=lambda it: it.rank), [cheap, dear, near, far])

    def test_neighbours(self):
        found = list(planning.neighbours({"a.weight": "1000", "sched": "null"}, {"a.weight": ["200", "1000", "4000"], "sched": ["null", "rtds"]}))
        self.assertEqual(found, [{"a.weight": "600", "sched": "null"}, {"a.weight": "2500", "sched": "null"}, {"a.weight": "1000", "sched": "rtds"}])

    def test_it_ends_where_nothing_is_better(self):
        # the worst is least at 700, and everything above 600 meets all
        def search(choices):
            return [answer(settings=it, is_met=int(it["k"]) > 600, worst=abs(int(it["k"]) - 700) / 100, price=(1, 0, 1, int(it["k"]))) for it in choices]

        best = planning.climb(search([{"k": "1000"}])[0], {"k": ["0", "1000"]}, search)
        self.assertTrue(best.is_met)
        self.assertLess(int(best.settings["k"]), 626)


class Commands(unittest.TestCase):
    def commands(self, **settings):
        with tempfile.NamedTemporaryFile("w", suffix=".toml") as file:
            file.write(FILE)
            file.flush()
            return list(planning.xl_commands(read_machine(file.name), {key.replace("__", "."): value for key, value in settings.items()}))

    def test_each_kind(self):
        self.assertEqual(self.commands(web__cap="50"), ["xl sched-credit2 -d web -w 512 -c 50"])
        self.assertEqual(self.commands(pool__one__ratelimit_us="300"), ["xl sched-credit2 -s -p one -r 300"])
        self.assertEqual(self.commands(web__pins="0+2"), ["xl vcpu-pin web 0 0,2", "xl vcpu-pin web 1 0,2"])
        self.assertEqual(self.commands(audio__pool="rt", audio__budget_us="2000"), ["xl cpupool-migrate audio rt", "xl sched-rtds -d audio -p 10000 -b 2000 -e 1"])
        self.assertEqual(self.commands(pool__rt__cpus="2-3"), ["xl cpupool-cpu-remove one 2", "xl cpupool-cpu-add rt 2"])
        self.assertEqual(self.commands(granularity="2")[-1].split(":")[0], "# boot with sched-gran=core")
        self.assertEqual(self.commands(web__cap="0", web__weight="512"), [])


class Frames(unittest.TestCase):
    def given(self, windows, wish):
        """What the windows give to a wish in each of its periods."""
        found, now = {}, 0
        for it, span in windows:
            for moment in range(now, now + span):
                if it is wish:
                    found[moment // wish.period] = found.get(moment // wish.period, 0) + 1
            now += span
        return found, now

    def test_each_has_its_run_in_each_period(self):
        draw, full = random.Random("frames"), 0
        for _ in range(200):
            wishes = [framing.Wish("w", k, 0, draw.randrange(1, 5), draw.choice((4, 6, 8, 12))) for k in range(draw.randrange(1, 5))]
            needed = sum(24 // wish.period * wish.run for wish in wishes)
            if needed > 24:
                with self.assertRaises(Refused):
                    framing.frame_of(wishes)
                continue
            major, windows = framing.frame_of(wishes)
            full += needed == 24
            self.assertEqual(major, math.lcm(*(wish.period for wish in wishes)))
            for wish in wishes:
                found, end = self.given(windows, wish)
                self.assertLessEqual(end, major)
                self.assertGreaterEqual(min(found.get(k, 0) for k in range(major // wish.period)), wish.run)
        self.assertGreater(full, 0)

    def test_its_lines(self):
        status, out, err = called("tools/plan", "examples/answers/promises.toml", "--frame", "flight", "--window", "control=6ms/20ms", "--window", "radio=2ms/10ms")
        # radio has to be done first, then control; at 10 ms radio again, and what is left behind it is nobody's
        self.assertEqual((status, err, out.splitlines()[-2:]), (0, "", ["major_ns = 20000000", "frame = [[1, 0, 2000000], [0, 0, 8000000], [1, 0, 2000000]]"]))
        self.assertIn("# control asks for 6 of each 20 ms, and has 8 ms in 1 window", out.splitlines())

    def test_wrong_words(self):
        for words in (["--frame", "flight"], ["--window", "control=1ms/2ms"], ["--frame", "rest", "--window", "log=1ms/2ms"], ["--frame", "flight", "--window", "servo=1ms/2ms"],
                      ["--frame", "flight", "--window", "control=3ms/2ms"], ["--frame", "flight", "--window", "control=1ms"], ["--frame", "flight", "--window", "control/1=1ms/2ms"],
                      ["--frame", "flight", "--window", "control=6ms/10ms", "--window", "radio=5ms/10ms"], ["--frame", "flight", "--window", "control=1ms/10ms", "--window", "radio=1ms/9999us"]):
            with self.subTest(words=words):
                status, out, err = called("tools/plan", "examples/answers/promises.toml", *words)
                self.assertEqual((status, out, len(err.splitlines())), (2, "", 1), err)


@unittest.skipUnless(PROGRAM.exists(), "the program is not built")
class Planned(unittest.TestCase):
    def test_a_search(self):
        with tempfile.TemporaryDirectory() as folder:
            path = pathlib.Path(folder) / "m.toml"
            path.write_text(FILE)
            # alone in the pool rt audio never waits; beside web, which always runs, it waits for the rate limit
            words = ["tools/plan", path, "--free", "audio.pool=one,rt", "--free", "pool.one.cpus=0,0-2", "--latency", "audio=10us", "--warmup", "8ms"]
            done = call(*words)
            self.assertEqual(done.returncode, 0, done.stderr)
            self.assertIn("xl cpupool-migrate audio rt", done.stdout)
            self.assertRegex(done.stdout.splitlines()[0], r"^\d+ of \d+ configurations met all that was asked, by \d+ runs$")
            # nothing keeps a latency of a nanosecond in the pool one with one processor
            done = call("tools/plan", path, "--free", "pool.one.cpus=0", "--latency", "audio=1ns", "--warmup", "8ms")
            self.assertEqual(done.returncode, 1)
            self.assertTrue(done.stdout.splitlines()[0].endswith("; the nearest:"))

    def test_wrong_words(self):
        for words in ([LATENCY], [LATENCY, "--latency", "audio=1ms"], [LATENCY, "--free", "zed.cap=1", "--latency", "audio=1ms"], [LATENCY, "--free", "web.cap=1,x", "--latency", "audio=1ms"], ["missing", "--free", "a.cap=1", "--share", "a=1%"]):
            with self.subTest(words=words):
                done = call("tools/plan", *words)
                self.assertEqual(done.returncode, 2, done.stderr)
                self.assertNotIn("Traceback", done.stderr)


if __name__ == "__main__":
    unittest.main()
