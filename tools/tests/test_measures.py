"""The measures against tables that were worked out by hand from the schedules, and the sums against the report's definition."""
import unittest

from support import CASES, PROGRAM, TOP, files_of, part_of, row, stored, stored_runs, studied, study_of, study_of_machine
from xensched_tools import tables
from xensched_tools.machine import machine_of, read_machine
from xensched_tools.measures import Distribution, Study
from xensched_tools.words import Refused

MS = 1_000_000
EXAMPLE = TOP / "examples" / "measures"


def rtds(*domains, horizon=20 * MS):
    """A machine of one processor under RTDS; a domain is its name, period and budget in ms, extra time and scripts."""
    return {"format": 1, "processors": 1, "horizon_ns": horizon, "pool": [{"name": "Pool-0", "sched": "rtds", "cpus": [0]}],
            "domain": [{"name": name, "period_us": period * 1000, "budget_us": budget * 1000, "extratime": extra, "guests": guests} for name, period, budget, extra, guests in domains]}


class Example(unittest.TestCase):
    """docs/MEASURES.md works this one out, line by line."""

    @classmethod
    def setUpClass(cls):
        cls.lines = (EXAMPLE / "schedule.txt").read_text().splitlines()
        cls.study = study_of(EXAMPLE / "domains.toml", cls.lines)

    def test_states(self):
        part_of(self, row(self.study, "vcpus", "d0v0"), runs_ns=7 * MS, waits_ns=1 * MS, sleeps_ns=24 * MS, paused_ns=0)
        part_of(self, row(self.study, "vcpus", "d1v0"), runs_ns=25 * MS, waits_ns=7 * MS, sleeps_ns=0, paused_ns=0)

    def test_waits(self):
        part_of(self, row(self.study, "waits", "d0v0"), count=4, mean_ns=250_000, median_ns=0, p95_ns=MS, greatest_ns=MS, greatest_at_ns=21 * MS, open_ns=None)
        part_of(self, row(self.study, "waits", "d1v0"), count=1, median_ns=2 * MS, greatest_at_ns=2 * MS)

    def test_jobs_and_releases(self):
        part_of(self, row(self.study, "jobs", "d0v0", "a", "0"), work_ns=2 * MS, count=3, mean_ns=2_333_333, median_ns=2 * MS, p95_ns=3 * MS, greatest_ns=3 * MS, greatest_at_ns=23 * MS, open_ns=MS)
        part_of(self, row(self.study, "releases", "d0v0"), releases=4, delayed=1, drifted=1, drift_ns=MS)

    def test_terms(self):
        part_of(self, row(self.study, "terms", "d0u0"), terms=3, budget_ns=9 * MS, had_ns=6 * MS, least_ns=2 * MS, short=0, missing_ns=0, extra_ns=0, lates=0)
        part_of(self, row(self.study, "terms", "d1u0"), terms=2, budget_ns=12 * MS, had_ns=12 * MS, least_ns=6 * MS, short=0, extra_ns=12 * MS, lates=0)

    def test_units_and_shares(self):
        part_of(self, row(self.study, "units", "d0u0"), run_ns=7 * MS, waited_ns=MS, picks=4, preempted=0, moves=0)
        part_of(self, row(self.study, "units", "d1u0"), run_ns=25 * MS, waited_ns=7 * MS, picks=3, preempted=3, moves=0)
        part_of(self, row(self.study, "domains", "d0"), share=7 / 32, says=0.3, at_most=0.3)
        part_of(self, row(self.study, "domains", "d1"), share=25 / 32, says=0.4, at_most=1.0)

    def test_a_wake_left_out_changes_what_it_must(self):
        lines = [line for line in self.lines if line != "20000000 wake d0v0"]
        study = study_of(EXAMPLE / "domains.toml", lines)
        self.assertEqual(study.faults, ["line 44: d0v0 runs, and no line says that it woke"])
        part_of(self, row(study, "waits", "d0v0"), count=3, greatest_ns=0)
        part_of(self, row(study, "jobs", "d0v0"), count=2, greatest_ns=2 * MS)
        part_of(self, row(study, "releases", "d0v0"), releases=3)
        part_of(self, row(study, "vcpus", "d0v0"), runs_ns=7 * MS, waits_ns=0, sleeps_ns=25 * MS)
        part_of(self, row(study, "units", "d0u0"), run_ns=7 * MS, waited_ns=0)


class Stored(unittest.TestCase):
    """Stored runs, worked out by hand."""

    def test_a_stall_takes_windows(self):
        # a has its core from 0 to 25 ms, over the stall; b has from 25 ms what is left to the horizon, in no window of its own
        study = studied("stall-over-two-frames")
        part_of(self, row(study, "windows", "Pool-0", "0"), windows=3, had_ns=12 * MS, lost_ns=0, unused_ns=0)
        part_of(self, row(study, "windows", "Pool-0", "1"), windows=2, had_ns=0, lost_ns=6 * MS, greatest_lost_ns=3 * MS, greatest_lost_at_ns=7 * MS)
        part_of(self, row(study, "cores", "c0"), lates=1, late_ns=21 * MS, greatest_late_at_ns=25 * MS)

    def test_a_guest_that_sleeps_wants_less_than_its_window(self):
        # of the window from 0 to 4 ms a runs the first and the last; that of b, from 4 to 7, is not over at the horizon of 5 ms
        study = studied("guest-that-sleeps")
        part_of(self, row(study, "windows", "Pool-0", "0"), windows=1, had_ns=2 * MS, lost_ns=0, unused_ns=2 * MS)
        part_of(self, row(study, "windows", "Pool-0", "1"), windows=0, had_ns=0, lost_ns=0)
        part_of(self, row(study, "waits", "d0v0"), count=2, greatest_ns=0)
        part_of(self, row(study, "waits", "d1v0"), count=1, greatest_ns=4 * MS, greatest_at_ns=4 * MS)
        part_of(self, row(study, "jobs", "d0v0", "a", "0"), count=2, mean_ns=MS, greatest_ns=MS, open_ns=None)
        part_of(self, row(study, "releases", "d0v0"), releases=2, delayed=0, drifted=0, drift_ns=0)

    def test_a_new_frame(self):
        # at 1 ms the command gives b the first 2 of each 5 ms; the old window of a is cut and not counted
        study = studied("new-frame")
        part_of(self, row(study, "windows", "Pool-0", "0:0"), windows=0)
        part_of(self, row(study, "windows", "Pool-0", "1:0"), unit="d1u0", windows=1, had_ns=2 * MS, lost_ns=0)

    def test_each_unit_has_the_weight_of_its_domain(self):
        # two units of a and one of b on one core, weights alike: two thirds and one
        machine = {"format": 1, "processors": 1, "horizon_ns": 3 * MS, "domain": [{"name": "a", "guests": [[], []]}, {"name": "b", "guests": [[]]}]}
        study = study_of_machine(machine, "0 arrive p0\n0 decide c0 d0u0 due 10000000 late 0 reset 0\n0 leave p0 d0v0\n0 finish")
        part_of(self, row(study, "domains", "d0"), says=round(2 / 3, 9), at_most=1.0)
        part_of(self, row(study, "units", "d1u0"), says=round(1 / 3, 9))

    def test_a_cap_shared_by_two_units(self):
        # 25 % of 10 ms are 2.5 ms, and each of the two units has half
        study = studied("cap-shared-by-two-units")
        part_of(self, row(study, "caps", "d0"), terms=1, allowed_ns=2_500_000, had_ns=2_500_000, used_up=1, greatest_over_ns=0)
        part_of(self, row(study, "domains", "d0"), share=0.125, says=1.0, at_most=0.125)
        part_of(self, row(study, "vcpus", "d0v1"), runs_ns=1_250_000, waits_ns=8_750_000)

    def test_a_late_replenishment(self):
        # the budget of 4 ms is used up at 4 ms; the next one, due at 10 ms, comes at 35 ms, in the period that begins at 30 ms
        study = studied("late-replenishment")
        part_of(self, row(study, "terms", "d0u0"), terms=1, had_ns=4 * MS, missing_ns=0, lates=1, greatest_late_ns=25 * MS, greatest_late_at_ns=35 * MS, skipped=2)

    def test_a_stalled_sibling(self):
        # the slice ends at 1 ms, p0 stops, and p1, which is stalled up to 1.5 ms, comes late
        study = studied("stalled-sibling")
        part_of(self, row(study, "vcpus", "d0v0"), runs_ns=1_000_000, waits_ns=500_000)
        part_of(self, row(study, "vcpus", "d0v1"), runs_ns=1_500_000, waits_ns=0)
        part_of(self, row(study, "units", "d0u0"), run_ns=1_500_000, late_ns=500_000, preempted=1)
        part_of(self, row(study, "waits", "d0v2"), count=1, greatest_ns=1_500_000)

    def test_refused_commands_have_their_words(self):
        study = studied("replies-and-refusals")
        number, command, cause = study.refused[0]
        self.assertEqual((number, command.words, cause), (2, ["cpupool-cpu-remove", "Pool-0", "5"], "NoCpu cpu 5"))

    def test_all_stored_runs_add_up(self):
        for words, lines in stored_runs():
            domains, work = files_of(words)
            with self.subTest(words=words):
                study = study_of(domains, lines, work)
                self.assertEqual(study.faults, [])
                self.check_vcpus(study, [line.split() for line in lines])
                self.check_sums(study)

    def check_vcpus(self, study, entries):
        """Each wake begins a wait and a job, each block ends a job, and the states add up to the time."""
        for vcpu in study.vcpus.values():
            woken = sum(entry[1:3] == ["wake", vcpu.name] for entry in entries)
            blocked = sum(entry[1] == "block" and entry[3] == vcpu.name for entry in entries)
            waits = tables.open_wait(study, vcpu) is not None
            self.assertEqual(vcpu.tally.waits.count + waits, 1 + woken)
            self.assertEqual(sum(spans.count for spans in vcpu.tally.jobs), blocked)
            self.assertEqual((vcpu.tally.releases, sum(vcpu.times)), (1 + woken, study.end))

    def check_sums(self, study):
        """What units, cores, domains and pools ran is the same time."""
        ran = sum(unit.ran_by(study.end) for unit in study.units.values())
        found = {table: sum(record[key] for record in tables.TABLES[table](study).records()) for table, key in (("cores", "run_ns"), ("domains", "run_ns"), ("pools", "run_ns"))}
        self.assertEqual(found, dict.fromkeys(found, ran))


class Small(unittest.TestCase):
    """Schedules that were made for one measure each."""

    def test_missing_budget(self):
        # 6 and 6 of 10 ms on one core: the second has 4, waits 6, and misses 2; nothing says how the third period ends
        study = study_of_machine(rtds(("a", 10, 6, False, [[]]), ("b", 10, 6, False, [[]])), """0 arrive p0
0 decide c0 d0u0 due 6000000 late 0 reset 0
0 leave p0 d0v0
0 end 6000000
6000000 slice c0
6000000 arrive p0
6000000 decide c0 d1u0 due 12000000 late 0 reset 0
6000000 leave p0 d1v0
6000000 save c0 d0u0 queued
6000000 end 10000000
10000000 repl d0u0 start 10000000 deadline 20000000 budget 6000000 extra 0
10000000 repl d1u0 start 10000000 deadline 20000000 budget 6000000 extra 0
10000000 end 12000000""")
        part_of(self, row(study, "terms", "d0u0"), terms=1, had_ns=6 * MS, missing_ns=0)
        part_of(self, row(study, "terms", "d1u0"), terms=1, had_ns=4 * MS, short=1, missing_ns=2 * MS, greatest_missing_ns=2 * MS, greatest_missing_at_ns=10 * MS)
        self.assertEqual((study.finished, study.end), (False, 10 * MS))

    def test_to_the_horizon(self):
        # a guest that never sleeps, alone: the last entry is at 0, and it runs to the horizon
        machine = {"format": 1, "processors": 1, "horizon_ns": 1000 * MS, "pool": [{"name": "P", "sched": "null", "cpus": [0]}], "domain": [{"name": "a", "guests": [[]]}]}
        study = study_of_machine(machine, "0 arrive p0\n0 decide c0 d0u0 due none late 0 reset 0\n0 leave p0 d0v0\n0 finish")
        part_of(self, row(study, "domains", "d0"), run_ns=1000 * MS, share=1.0, says=1.0, at_most=1.0)
        self.assertEqual(study.reported.units["d0u0"], (0, 1, 0, 0))

    def test_a_unit_that_has_no_core_still_waits(self):
        machine = {"format": 1, "processors": 1, "horizon_ns": 5 * MS, "pool": [{"name": "P", "sched": "null", "cpus": [0]}], "domain": [{"name": name, "guests": [[]]} for name in "ab"]}
        study = study_of_machine(machine, "0 arrive p0\n0 decide c0 d0u0 due none late 0 reset 0\n0 leave p0 d0v0\n0 finish")
        part_of(self, row(study, "waits", "d1v0"), count=0, mean_ns=None, greatest_ns=None, open_ns=5 * MS)

    def test_a_sibling_that_wakes_runs_at_once(self):
        machine = {"format": 1, "granularity": 2, "processors": 2, "horizon_ns": 4 * MS, "domain": [{"name": "a", "guests": [[], [MS, MS]]}]}
        study = study_of_machine(machine, """0 arrive p0
0 arrive p1
0 decide c0 d0u0 due 10000000 late 0 reset 0
0 leave p0 d0v0
0 leave p1 d0v1
0 end 1000000
1000000 block p1 d0v1
1000000 end 2000000
2000000 wake d0v1
2000000 end 3000000
3000000 block p1 d0v1
3000000 end 4000000
4000000 wake d0v1
4000000 finish""")
        part_of(self, row(study, "vcpus", "d0v1"), runs_ns=2 * MS, sleeps_ns=2 * MS, waits_ns=0)
        part_of(self, row(study, "waits", "d0v1"), count=3, greatest_ns=0)
        part_of(self, row(study, "jobs", "d0v1"), count=2, greatest_ns=MS)

    def test_what_is_no_schedule_of_the_machine(self):
        machine = machine_of(rtds(("a", 10, 4, False, [[]])), "m")
        for text in ("no schedule", "0 arrive p7", "0 decide c0", "5 end 6\n4 end 5", "30000000 finish", "0 wake d9v9", "unit d0u0 run 0 picks 1 repl 0 late 0"):
            with self.subTest(text=text), self.assertRaises(Refused):
                Study(machine).follow(text.splitlines())


class Spans(unittest.TestCase):
    """Percentiles by rank, and their bound where there are many different spans."""

    def of(self, spans):
        made = Distribution()
        for at, span in enumerate(spans):
            made.add(span, at)
        return made

    def test_percentiles(self):
        self.assertEqual(self.of([3]).percentiles([500, 950, 990, 999]), [3, 3, 3, 3])
        self.assertEqual(self.of([4, 1, 3, 2]).percentiles([250, 500, 510, 750, 999]), [1, 2, 3, 3, 4])
        self.assertEqual(self.of(range(1, 1001)).percentiles([500, 950, 990, 999]), [500, 950, 990, 999])
        self.assertEqual(self.of([]).percentiles([500]), [None])

    def test_many_different_spans(self):
        spans = [7 * k * k + 13 for k in range(20_000)]
        made = self.of(spans)
        self.assertTrue(made.rounded)
        self.assertLess(len(made.counts), Distribution.EXACT * 4)
        self.assertEqual((made.count, made.total, made.most, made.most_at), (20_000, sum(spans), spans[-1], 19_999))
        for thousandth, found in zip((500, 950, 999), made.percentiles((500, 950, 999))):
            exact = spans[20 * thousandth - 1]
            self.assertLessEqual(found, exact)
            self.assertGreater(found, exact * (1 - 1 / 256))

    def test_the_greatest_is_the_first_of_equals(self):
        self.assertEqual(self.of([0, 5, 5]).most_at, 1)
        self.assertEqual(self.of([0, 0]).most_at, 0)

    def test_joined(self):
        one, other = self.of([1, 2]), self.of([3, 4, 5])
        one.add_all(other)
        self.assertEqual((one.count, one.total, one.most, one.percentiles([500])), (5, 15, 5, [3]))


def report_of(machine, lines):
    """The report of these entries, from its definition in docs/FORMATS-report.md alone."""
    found, stays, decisions, repl, end = {}, [], {}, {}, 0
    for line in lines:
        words = line.split()
        end = int(words[0])
        if words[1] == "repl":
            repl[words[2]] = repl.get(words[2], 0) + 1
        if words[1] == "decide":
            decisions.setdefault(words[2], []).append((end, words[3], int(words[7])))
    late = {}
    for core, made in decisions.items():
        before, begin = "idle", 0
        for at, unit, lateness in made:
            late[before] = late.get(before, 0) + lateness
            if unit != before:
                stays.append((core, before, begin, at))
                before, begin = unit, at
        stays.append((core, before, begin, end))
    for d, domain in enumerate(machine.domains):
        for u in range(machine.units_of(domain)):
            name = f"d{d}u{u}"
            mine = [stay for stay in stays if stay[1] == name]
            found[name] = f"unit {name} run {sum(stay[3] - stay[2] for stay in mine)} picks {len(mine)} repl {repl.get(name, 0)} late {late.get(name, 0)}"
    for c in range(machine.cores):
        run = sum(stay[3] - stay[2] for stay in stays if stay[0] == f"c{c}" and stay[1] != "idle")
        found[f"c{c}"] = f"core c{c} run {run} idle {end - run} decides {len(decisions.get(f'c{c}', []))}"
    return [*found.values(), f"entries {len(lines)} end {end}"]


def report_lines(study):
    """The report as the study has it."""
    for name, (run, picks, repl, late) in study.reported.units.items():
        yield f"unit {name} run {run} picks {picks} repl {repl} late {late}"
    for name, (run, idle, decides) in study.reported.cores.items():
        yield f"core {name} run {run} idle {idle} decides {decides}"
    yield f"entries {study.entries} end {study.reported.end}"


class Report(unittest.TestCase):
    """What a study sums up to the last entry is what a report says, on every stored run."""

    def test_by_definition(self):
        count = 0
        for words, lines in stored_runs():
            domains, work = files_of(words)
            with self.subTest(words=words):
                self.assertEqual(list(report_lines(study_of(domains, lines, work))), report_of(read_machine(domains), lines))
            count += 1
        self.assertGreater(count, 70)

    @unittest.skipUnless(PROGRAM.exists(), "the program is not built")
    def test_by_the_program(self):
        import subprocess
        for words, lines in stored_runs():
            domains, work = files_of(words)
            with self.subTest(words=words):
                done = subprocess.run([PROGRAM, "report", *words[1:]], cwd=CASES / "data", capture_output=True, text=True)
                self.assertEqual(list(report_lines(study_of(domains, lines, work))), done.stdout.splitlines())


if __name__ == "__main__":
    unittest.main()
