"""tools/why: each rule that keeps a vCPU waiting, on runs that were worked out by hand."""
import pathlib
import tempfile
import unittest

from support import called, stored
from xensched_tools import waiting
from xensched_tools.machine import Command, machine_of, read_machine, read_work
from xensched_tools.waiting import Watch
from xensched_tools.words import time_of

# One domain of three vCPUs on three processors, with a cap of 1 ms in 10: a unit takes half of it at once.
CAPPED = {"format": 1, "processors": 3, "horizon_ns": 9_000_000, "domain": [{"name": "a", "guests": [[], [], []], "cap": 10}]}
TAKEN = """0 arrive p0
0 arrive p1
0 arrive p2
0 decide c0 d0u0 due 500000 late 0 reset 0
0 decide c1 d0u1 due 500000 late 0 reset 0
0 decide c2 idle due none late 0 reset 0
0 leave p0 d0v0
0 leave p1 d0v1
0 leave p2 idle
0 end 500000"""
ONE = {"format": 1, "processors": 1, "horizon_ns": 9_000_000, "domain": [{"name": "a", "guests": [[]]}]}
PAUSED = """0 arrive p0
0 decide c0 d0u0 due 10000000 late 0 reset 0
0 leave p0 d0v0
0 end 1000000
1000000 xl 1 ok
1000000 arrive p0
1000000 decide c0 idle due none late 0 reset 0
1000000 leave p0 idle
1000000 save c0 d0u0 off
1000000 end 3000000
3000000 xl 2 ok
3000000 arrive p0
3000000 decide c0 d0u0 due 13000000 late 0 reset 0
3000000 leave p0 d0v0
3000000 finish"""
# A core of two processors: p0 stalls from 0 to 0.2 ms, and p1, which is held by then, from 0.1 to 0.5.
PAIR = {"format": 1, "granularity": 2, "processors": 2, "horizon_ns": 500_000, "domain": [{"name": "a", "guests": [[], []]}]}
STALLED = """0 stall p0 until 200000
0 arrive p1
0 end 100000
100000 stall p1 until 500000
100000 end 200000
200000 arrive p0
200000 decide c0 d0u0 due 10200000 late 0 reset 0
200000 leave p0 d0v0
200000 end 500000
500000 leave p1 d0v1
500000 finish"""


def asked(name, vcpu, moment, cut=None):
    """What is said of a stored run, or of its first lines."""
    domains, work, lines = stored(name)
    return Watch(read_machine(domains), read_work(work), vcpu, time_of(moment)).answer(lines[:cut])


def asked_of(machine, schedule, vcpu, moment, work=None):
    """What is said of a machine and a schedule that stand here."""
    return Watch(machine_of(machine, "a machine"), work, vcpu, time_of(moment)).answer(schedule.splitlines())


class States(unittest.TestCase):
    def test_it_runs(self):
        self.assertEqual(asked("guest-that-sleeps", "d0v0", "0.5ms"), ["d0v0 of a runs at 0.5 ms, on p0 since 0 ms."])

    def test_it_sleeps(self):
        self.assertEqual(asked("guest-that-sleeps", "d0v0", "2ms"), ["d0v0 of a sleeps at 2 ms, since 1 ms. It wakes at 3 ms, and runs next at 3 ms."])
        self.assertEqual(asked("guest-that-sleeps", "d0v0", "4.5ms"), ["d0v0 of a sleeps at 4.5 ms, since 4 ms. It wakes never in this schedule, and runs next never in this schedule."])

    def test_it_is_paused(self):
        work = [Command(1, 1, 1_000_000, ["pause", "a"]), Command(2, 2, 3_000_000, ["unpause", "a"])]
        self.assertEqual(asked_of(ONE, PAUSED, "d0v0", "2ms", work), ["d0v0 of a is paused at 2 ms, since 1 ms. Its domain goes on at 3 ms, and it runs next at 3 ms."])


class Rules(unittest.TestCase):
    def rule(self, said):
        """The last line, without its head."""
        self.assertTrue(said[-1].startswith("The rule"), said)
        return said[-1].partition(": ")[2].rstrip(".")

    def test_not_its_window(self):
        said = asked("two-domains-take-turns", "d1v0", "2ms")
        self.assertEqual(said, ["d1v0 of b waits at 2 ms, since 0 ms, the beginning of the run, and runs next at 4 ms, after 4 ms.",
                                "Its unit d1u0 is in the pool Pool-0 (arinc653), and may have", "  p0  d0v0 of a since 0 ms, chosen last at 0 ms",
                                "The rule: it is not its window: it is the window of d0u0 of a, up to 4 ms; its next window begins at 4 ms."])
        self.assertEqual(self.rule(asked("two-domains-take-turns", "d1v0", "8ms")), "it is not its window: it is the rest of the frame, which is nobody's; its next window begins at 14 ms")

    def test_budget_spent(self):
        said = asked("rtds-two-periods", "d0v0", "5ms")
        self.assertEqual(said[0], "d0v0 of a waits at 5 ms, since 4 ms, where its processor was taken from it, and runs next at 10 ms, after 6 ms.")
        self.assertEqual(self.rule(said), "its budget of 4 ms is used up, and it has no extra time; its deadline is 10 ms, and the next budget comes at 10 ms")

    def test_a_later_deadline(self):
        said = asked("rtds-two-periods", "d1v0", "2ms")
        self.assertEqual((said[2], self.rule(said)), ("  p0  d0v0 of a since 0 ms, chosen last at 0 ms; deadline 10 ms", waiting.BY_DEADLINE.format(20)))

    def test_extra_time_and_equal_deadlines(self):
        # a has used its 4 ms and goes on one level higher; from 10 ms on both have a new term to 20, and a goes on
        self.assertEqual(self.rule(asked("extra-time-by-levels", "d0v0", "5ms")), waiting.BY_LEVEL)
        self.assertEqual(self.rule(asked("extra-time-by-levels", "d1v0", "11ms")), waiting.BY_EQUAL.format(20))

    def test_cap_spent(self):
        self.assertEqual(self.rule(asked("cap-shared-by-two-units", "d0v0", "5ms")), "the cap of 25%, 2.5 ms in 10, of which the domain ran 2.5 ms since 0 ms and nothing is left; the next refill comes at 10 ms")

    def test_cap_taken_by_others(self):
        self.assertEqual(self.rule(asked_of(CAPPED, TAKEN, "d0v2", "0ms")),
                         "the cap of 10%, 1 ms in 10, of which the domain ran 0 ms since 0 ms; its running units hold 1 ms; the next refill comes never in this schedule")

    def test_rate_limit_and_credit(self):
        self.assertEqual(self.rule(asked("credit2-two-weights", "d1v0", "0.5ms")), waiting.BY_LIMIT.format(1))
        self.assertEqual(self.rule(asked("credit2-two-weights", "d0v0", "5ms")), waiting.BY_CREDIT)

    def test_no_core_is_its_own(self):
        said = asked("null-keeps-cores", "d2v0", "1.5ms")
        self.assertEqual(said[2:], ["  p0  d0v0 of a since 0 ms, chosen last at 0 ms; kept for d0u0 of a", "  p1  idle; kept for d1u0 of b", f"The rule on p0, p1: {waiting.BY_NULL}."])

    def test_pinned(self):
        said = asked("two-units-pinned-to-one-core", "d0v1", "0.5ms")
        self.assertEqual(said[2:], ["  p0  d0v0 of a since 0 ms, chosen last at 0 ms", "It is pinned, and may not have p1 (idle).", f"The rule on p0: {waiting.BY_LIMIT.format(1)}."])

    def test_a_stall_keeps_the_core_from_deciding(self):
        said = asked("stalled-sibling", "d0v2", "1.2ms")
        self.assertEqual(said[2:], ["  p0 p1  d0v1 of a since 0 ms, chosen last at 0 ms; it decides; p1 stalls up to 1.5 ms", f"The rule on p0 p1: {waiting.BY_STALL}."])
        # before that it is the rate limit, stall or no stall
        self.assertEqual(self.rule(asked("stalled-sibling", "d0v2", "0.7ms")), waiting.BY_LIMIT.format(1))

    def test_its_core_decides(self):
        self.assertEqual(self.rule(asked("stalled-sibling", "d0v0", "1.2ms")),
                         "its core decides: its unit d0u0 has p0 p1 already and runs d0v1 on p1, and its own processor p0 is held until all are there; p1 stalls up to 1.5 ms")

    def test_its_own_processor_stalls(self):
        said = asked_of(PAIR, STALLED, "d0v1", "300us")
        self.assertEqual(said, ["d0v1 of a waits at 0.3 ms, since 0 ms, the beginning of the run, and runs next at 0.5 ms, after 0.5 ms.",
                                "The rule: a stall: its unit d0u0 has p0 p1 already and runs d0v0 on p0, and the vCPU's own processor is p1; p1 stalls up to 0.5 ms."])

    def test_saved_at_the_moment(self):
        lines = stored("two-domains-take-turns")[2]
        self.assertEqual(self.rule(asked("two-domains-take-turns", "d0v0", "4ms", lines.index("4000000 save c0 d0u0 queued"))), "it is being switched out on p0, and is queued when a processor of it has left")

    def test_its_domain_moves(self):
        lines = stored("domain-moves-to-another-pool")[2]
        self.assertEqual(self.rule(asked("domain-moves-to-another-pool", "d0v0", "1ms", lines.index("1000000 dom-moved d0 pool 1"))), "its domain is on its way to the pool rt, and is not runnable")

    def test_a_core_that_leaves(self):
        lines = stored("core-moves-to-another-pool")[2]
        said = asked("core-moves-to-another-pool", "d0v1", "1ms", lines.index("1000000 moved c1 free"))
        self.assertEqual(said[3:], ["  p1  idle; it leaves the pool", f"The rule on p0: {waiting.BY_LIMIT.format(1)}.", f"The rule on p1: {waiting.BY_LEAVING}."])


class Words(unittest.TestCase):
    def call(self, vcpu, moment, name="two-domains-take-turns", *more):
        domains, _, lines = stored(name)
        with tempfile.TemporaryDirectory() as folder:
            path = pathlib.Path(folder, "schedule.txt")
            path.write_text("".join(f"{line}\n" for line in lines))
            return called("tools/why", domains, path, vcpu, moment, *more)

    def test_the_tool(self):
        status, out, err = self.call("d1v0", "2ms")
        self.assertEqual((status, out.splitlines(), err), (0, asked("two-domains-take-turns", "d1v0", "2ms"), ""))

    def test_wrong_words(self):
        for vcpu, moment in (("d9v0", "2ms"), ("b", "2ms"), ("d1v0", "2"), ("d1v0", "21ms")):
            status, out, err = self.call(vcpu, moment)
            self.assertEqual((status, out, err.count("\n")), (2, "", 1))

    def test_commands_without_their_file(self):
        status, _, err = self.call("d0v1", "1ms", "core-moves-to-another-pool")
        self.assertEqual((status, err.count("--work WORK")), (0, 1))


if __name__ == "__main__":
    unittest.main()
