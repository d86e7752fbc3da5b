"""The table of promises: by schedules that were made by hand, kept and broken, and by all stored runs."""
import unittest

from support import files_of, part_of, row, stored_runs
from xensched_tools import tables
from xensched_tools.machine import machine_of, read_machine, read_work
from xensched_tools.measures import Study

MS = 1_000_000


def promised(machine, text, work=None):
    """The study of a machine and a schedule, with its promises."""
    study = Study(machine_of(machine, "a machine"), work)
    study.count_promises()
    return study.follow(text.strip().splitlines())


def machine(sched, domains, horizon=20 * MS, processors=1, **pool):
    """A machine of one pool."""
    cpus = list(range(processors))
    return {"format": 1, "processors": processors, "horizon_ns": horizon, "pool": [{"name": "P", "sched": sched, "cpus": cpus, **pool}],
            "domain": [{"name": name, "guests": guests, **settings} for name, guests, settings in domains]}


FRAME = {"major_ns": 10 * MS, "frame": [[0, 0, 4 * MS], [1, 0, 2 * MS]]}
# a has its window from 0 to 4 and from 10 to 14, b from 4 to 6 and from 14 to 16; b sleeps from 5 to 15
WINDOWS = """
0 arrive p0
0 decide c0 d0u0 due 4000000 late 0 reset 0
0 leave p0 d0v0
0 end 4000000
4000000 slice c0
4000000 arrive p0
4000000 decide c0 d1u0 due 6000000 late 0 reset 0
4000000 leave p0 d1v0
4000000 save c0 d0u0 queued
4000000 end 5000000
5000000 block p0 d1v0
5000000 arrive p0
5000000 decide c0 idle due 6000000 late 0 reset 0
5000000 leave p0 idle
5000000 save c0 d1u0 off
5000000 end 6000000
6000000 slice c0
6000000 arrive p0
6000000 decide c0 idle due 10000000 late 0 reset 0
6000000 leave p0 idle
6000000 end 10000000
10000000 slice c0
10000000 arrive p0
10000000 decide c0 d0u0 due 14000000 late 0 reset 0
10000000 leave p0 d0v0
10000000 end 14000000
14000000 slice c0
14000000 arrive p0
14000000 decide c0 idle due 16000000 late 0 reset 0
14000000 leave p0 idle
14000000 save c0 d0u0 queued
14000000 end 15000000
15000000 wake d1v0
15000000 arrive p0
15000000 decide c0 d1u0 due 16000000 late 0 reset 0
15000000 leave p0 d1v0
15000000 end 16000000
16000000 slice c0
16000000 arrive p0
16000000 decide c0 idle due 20000000 late 0 reset 0
16000000 leave p0 idle
16000000 save c0 d1u0 queued
16000000 finish
"""
GUESTS = [("a", [[]], {}), ("b", [[MS, 10 * MS]], {})]


class Windows(unittest.TestCase):
    def test_windows_that_are_kept(self):
        study = promised(machine("arinc653", GUESTS, **FRAME), WINDOWS)
        part_of(self, row(study, "promises", "d0u0"), by="law_windows_kept", claimed_ns=8 * MS, asleep_ns=0, promised_ns=8 * MS, had_ns=8 * MS, above_ns=0, owed_ns=0)
        part_of(self, row(study, "promises", "d1u0"), claimed_ns=4 * MS, asleep_ns=2 * MS, unusable_ns=0, promised_ns=2 * MS, had_ns=2 * MS, owed_ns=0)
        self.assertEqual(list(study.promises.faults()), [])

    def test_a_window_that_is_not_kept(self):
        # b wakes at 15 and is not given the core
        lost = WINDOWS.replace("15000000 decide c0 d1u0", "15000000 decide c0 idle").replace("15000000 leave p0 d1v0", "15000000 leave p0 idle").replace("16000000 save c0 d1u0 queued\n", "")
        study = promised(machine("arinc653", GUESTS, **FRAME), lost)
        part_of(self, row(study, "promises", "d1u0"), promised_ns=2 * MS, had_ns=MS, owed_ns=MS)
        self.assertEqual(list(study.promises.faults()), ["d1u0 had 1000000 ns less than law_windows_kept promises it in P (windows of 2000000 of each 10000000 ns), first at 15000000"])

    def test_a_stall_is_no_fault(self):
        # the processor stands from 11 to 16 and keeps a; b wakes meanwhile, and its window is over when the core may be used
        stalled = WINDOWS[: WINDOWS.index("14000000 slice")].replace("10000000 end 14000000", "10000000 end 11000000\n11000000 stall p0 until 16000000\n11000000 end 15000000") + """15000000 wake d1v0
15000000 end 16000000
16000000 slice c0
16000000 arrive p0
16000000 decide c0 idle due 20000000 late 2000000 reset 0
16000000 leave p0 idle
16000000 save c0 d0u0 queued
16000000 finish"""
        study = promised(machine("arinc653", GUESTS, **FRAME), stalled)
        part_of(self, row(study, "promises", "d0u0"), claimed_ns=8 * MS, unusable_ns=3 * MS, promised_ns=5 * MS, had_ns=8 * MS, above_ns=3 * MS, owed_ns=0)
        part_of(self, row(study, "promises", "d1u0"), claimed_ns=4 * MS, asleep_ns=2 * MS, unusable_ns=MS, promised_ns=MS, had_ns=MS, owed_ns=0)


class ManyFrames(unittest.TestCase):
    """A frame of 3 ns in a run of 9 us: nothing changes from frame to frame but for a stall, and the frames are counted at once."""

    LINES = "0 arrive p0\n0 decide c0 d0u0 due 2 late 0 reset 0\n0 leave p0 d0v0\n0 stall p0 until 3001\n0 end 3001\n"
    FRAME = {"major_ns": 3, "frame": [[0, 0, 2], [1, 0, 1]]}

    def study(self, each=None):
        described = machine("arinc653", [("a", [[]], {}), ("b", [[]], {})], 9_001, **self.FRAME)
        study = Study(machine_of(described, "a machine"), None, each)
        study.count_promises()
        return study.follow((self.LINES + "9001 finish").splitlines())

    def test_frames_at_once(self):
        # a has the core throughout, as if no line had come after the stall; b waits
        study, told = self.study(), []
        part_of(self, row(study, "promises", "d0u0"), claimed_ns=6_001, unusable_ns=2_001, promised_ns=4_000, had_ns=6_001, owed_ns=0)
        part_of(self, row(study, "promises", "d1u0"), claimed_ns=3_000, unusable_ns=1_000, promised_ns=2_000, had_ns=0, owed_ns=2_000)
        one_by_one = self.study(lambda *row, **more: told.append(row))
        for table in ("promises", "windows"):
            self.assertEqual(tables.TABLES[table](one_by_one).rows, tables.TABLES[table](study).rows)
        self.assertEqual(sum(row[0] == "window" for row in told), 6_000)


class Null(unittest.TestCase):
    GIVEN = """
0 arrive p0
0 decide c0 d0u0 due none late 0 reset 0
0 leave p0 d0v0
0 end 1000000
1000000 block p0 d0v0
1000000 arrive p0
1000000 decide c0 idle due none late 0 reset 0
1000000 leave p0 idle
1000000 save c0 d0u0 off
1000000 end 3000000
3000000 wake d0v0
3000000 arrive p0
3000000 decide c0 d0u0 due none late 0 reset 0
3000000 leave p0 d0v0
3000000 end 4000000
"""

    def test_a_core_alone(self):
        study = promised(machine("null", [("a", [[MS, 2 * MS]], {}), ("b", [[]], {})], 4 * MS), self.GIVEN + "4000000 finish")
        part_of(self, row(study, "promises", "d0u0"), promise="core 0 alone", claimed_ns=4 * MS, asleep_ns=2 * MS, promised_ns=2 * MS, had_ns=2 * MS, owed_ns=0)
        part_of(self, row(study, "promises", "d1u0"), promise="none", by="no core was free for it", promised_ns=None)

    def test_a_core_that_another_has(self):
        taken = self.GIVEN.replace("3000000 decide c0 d0u0 due none late 0 reset 0\n3000000 leave p0 d0v0", "3000000 decide c0 idle due none late 0 reset 0\n3000000 leave p0 idle")
        study = promised(machine("null", [("a", [[MS, 2 * MS]], {})], 4 * MS), taken + "4000000 finish")
        self.assertEqual(len(list(study.promises.faults())), 1)


class Reservations(unittest.TestCase):
    TERMS = """
0 arrive p0
0 decide c0 d0u0 due 4000000 late 0 reset 0
0 leave p0 d0v0
0 end 4000000
4000000 slice c0
4000000 arrive p0
4000000 decide c0 d1u0 due 10000000 late 0 reset 0
4000000 leave p0 d1v0
4000000 save c0 d0u0 queued
4000000 end 10000000
10000000 repl d0u0 start 10000000 deadline 20000000 budget 4000000 extra 0
10000000 repl d1u0 start 10000000 deadline 20000000 budget 6000000 extra 0
"""

    def fitting(self, budget=6000, guests=()):
        return machine("rtds", [("a", [[]], {"period_us": 10000, "budget_us": 4000, "extratime": False}), ("b", [list(guests)], {"period_us": 10000, "budget_us": budget, "extratime": False})], 10 * MS)

    def test_budgets_that_fit(self):
        study = promised(self.fitting(), self.TERMS + "10000000 finish")
        part_of(self, row(study, "promises", "d1u0"), by="law_reservations", claimed_ns=6 * MS, promised_ns=6 * MS, had_ns=6 * MS, owed_ns=0)

    def test_a_budget_that_is_not_had(self):
        study = promised(self.fitting(), self.TERMS.replace("4000000", "5000000").replace("budget 5000000", "budget 4000000") + "10000000 finish")
        part_of(self, row(study, "promises", "d1u0"), promised_ns=6 * MS, had_ns=5 * MS, above_ns=-MS, owed_ns=MS)
        self.assertEqual(len(list(study.promises.faults())), 1)

    def test_beside_sleepers_and_on_two_cores(self):
        # b sleeps, and may ask for 1 ms of each 10 at once: 1 - 1/10 of it fits into the tenth of the period that nobody reserved, not so with 2 ms
        for budget, by in [(1000, "law_reservations_beside_sleepers"), (2000, "guests that sleep")]:
            described = self.fitting(budget, [MS, MS])
            described["domain"][0]["budget_us"] = 8000
            study = promised(described, self.TERMS + "10000000 finish")
            part_of(self, row(study, "promises", "d0u0"), by=by)
            part_of(self, row(study, "promises", "d1u0"), by="guests that sleep")
        # two cores: 0.8 and 0.6 and 0.6 is 2, and 2 - 0.8 is 1.2
        units = [(name, [[]], {"period_us": 10000, "budget_us": budget}) for name, budget in [("a", 8000), ("b", 6000), ("c", 6000)]]
        part_of(self, row(promised(machine("rtds", units, processors=2), "0 finish"), "promises", "d0u0"), by="2 cores")
        units = [(name, [[]], {"period_us": 10000, "budget_us": budget}) for name, budget in [("a", 8000), ("b", 2000), ("c", 2000)]]
        part_of(self, row(promised(machine("rtds", units, processors=2), "0 finish"), "promises", "d0u0"), by="no law, never seen to fail")

    def test_why_none_is_promised(self):
        for described, cause in [(self.fitting(7000), "1.1 cores reserved"), (self.fitting(6000, [MS, MS]), "guests that sleep")]:
            study = promised(described, self.TERMS + "10000000 finish")
            part_of(self, row(study, "promises", "d0u0"), by=cause, promised_ns=None, owed_ns=None)
        study = promised(self.fitting(), self.TERMS.replace("0 end 4000000", "0 stall p0 until 1\n0 end 4000000", 1) + "10000000 finish")
        part_of(self, row(study, "promises", "d0u0"), by="stalls")


class Shares(unittest.TestCase):
    def two(self, **settings):
        return machine("credit2", [("a", [[]], settings), ("b", [[]], {})], 100 * MS)

    def test_a_share_and_a_slice(self):
        # a has the core for all 100 ms: b was promised half of what is beyond one slice and a nanosecond
        alone = "0 arrive p0\n0 decide c0 d0u0 due 10000000 late 0 reset 0\n0 leave p0 d0v0\n0 finish"
        study = promised(self.two(), alone)
        part_of(self, row(study, "promises", "d0u0"), by="law_shares", claimed_ns=50 * MS, promised_ns=45 * MS, had_ns=100 * MS, owed_ns=0)
        part_of(self, row(study, "promises", "d1u0"), had_ns=0, owed_ns=45 * MS)
        self.assertEqual(len(list(study.promises.faults())), 1)

    def test_why_none_is_promised(self):
        alone = "0 arrive p0\n0 decide c0 d0u0 due 10000000 late 0 reset 0\n0 leave p0 d0v0\n0 finish"
        part_of(self, row(promised(self.two(cap=50), alone), "promises", "d1u0"), by="caps")
        described = machine("credit2", [("a", [[]], {}), ("b", [[MS, MS]], {})], 100 * MS, 2)
        part_of(self, row(promised(described, alone), "promises", "d0u0"), by="2 cores")
        part_of(self, row(promised(described, alone), "promises", "d1u0"), by="2 cores, it sleeps")


class Stored(unittest.TestCase):
    def test_stored_runs_keep_them(self):
        laws = set()
        for words, lines in stored_runs():
            domains, work = files_of(words)
            with self.subTest(words=words):
                study = Study(read_machine(domains), read_work(work))
                study.count_promises()
                study.follow(lines)
                self.assertEqual(list(study.promises.faults()), [])
                laws.update(record["by"] for record in tables.TABLES["promises"](study).records() if record["promised_ns"] is not None)
        self.assertLessEqual({"law_windows_kept", "law_given_runs"}, laws)

    def test_it_is_made_where_it_is_asked_for_alone(self):
        study = promised(machine("arinc653", GUESTS, **FRAME), WINDOWS)
        self.assertNotIn("promises", [table.name for table in tables.tables_of(study)])


if __name__ == "__main__":
    unittest.main()
