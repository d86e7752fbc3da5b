"""tools/loads: distributions against their formulas, what 32 pairs keep, the bytes of a seed, phases, and what is refused."""
import math
import pathlib
import random
import subprocess
import tempfile
import unittest

from support import PROGRAM, TOP, call, study_of
from xensched_tools import loads
from xensched_tools.machine import Domain, Machine, Pool
from xensched_tools.measures import Distribution
from xensched_tools.schedule import PAUSED

MS = 1_000_000
DATA = TOP / "tools" / "tests" / "data" / "loads"
KINDS = ["exponential:3ms", "uniform:1ms:5ms", "lognormal:3ms:1.2", "lognormal:3ms:0.3", "bimodal:1ms:20ms:5%", "bimodal:10us:10us:50%"]
WORDS = ["--seed", "7", "--load", "web=exponential:2ms/exponential:3ms,phase:random", "--load", "db=bimodal:1ms:20ms:5%/lognormal:3ms:1.2",
         "--load", "batch/1=uniform:1ms:5ms/2ms", "--load", f"mail=file:{DATA}/pairs.txt,phase:1.5ms"]


def made_by(*words, machine=DATA / "machine.toml"):
    """What the call writes: its end, and the two files."""
    with tempfile.TemporaryDirectory() as folder:
        done = call("tools/loads", machine, "--out", folder, *words)
        files = [pathlib.Path(folder) / name for name in ("domains.toml", "work.txt")]
        return done, *(file.read_text() if file.exists() else None for file in files)


class Distributions(unittest.TestCase):
    def test_means(self):
        for text in KINDS:
            spans = loads.distribution_of(text, text)
            parts = 200_000
            mean = math.fsum(spans.quantile((part + 0.5) / parts) for part in range(parts)) / parts
            self.assertLess(abs(mean / spans.mean - 1), 0.002, text)

    def test_known_points(self):
        def at(text, part):
            return loads.distribution_of(text, text).quantile(part)

        self.assertAlmostEqual(at("exponential:3ms", 1 - math.exp(-2)), 6 * MS, 3)
        self.assertAlmostEqual(at("uniform:1ms:5ms", 0.25), 2 * MS, 3)
        # the median of a lognormal one is its mean over exp(SIGMA^2 / 2), and one standard deviation above it is exp(SIGMA) times as much
        self.assertAlmostEqual(at("lognormal:3ms:1.2", 0.5), 3 * MS / math.exp(0.72), 3)
        self.assertAlmostEqual(at("lognormal:3ms:1.2", 0.8413447460685429) / (3 * MS), math.exp(1.2 - 0.72), 9)
        self.assertEqual((at("bimodal:1ms:20ms:5%", 0.94), at("bimodal:1ms:20ms:5%", 0.951), at("4ms", 0.3)), (MS, 20 * MS, 4 * MS))

    def test_each_part_gives_a_value(self):
        for text in KINDS:
            spans = loads.distribution_of(text, text)
            made = sorted(loads.drawn(spans, random.Random(5)))
            source = random.Random(5)
            draws = [source.random() for _ in range(32)]
            factor = sum(made) / sum(spans.quantile((part + draw) / 32) for part, draw in enumerate(draws))
            for part, value in enumerate(made):
                least, most = spans.quantile(part / 32), spans.quantile(min((part + 1) / 32, 1 - 1e-15))
                self.assertTrue(int(least * factor) - 1 <= value <= most * factor + 32, (text, part, value))

    def test_the_means_are_kept_to_the_nanosecond(self):
        for seed in range(100):
            for text in KINDS:
                spans = loads.distribution_of(text, text)
                made = loads.drawn(spans, random.Random(f"{seed} {text}"))
                self.assertEqual((len(made), sum(made)), (32, round(32 * spans.mean)))
                self.assertGreaterEqual(min(made), 1)

    def test_percentiles_are_those_of_the_study(self):
        source = random.Random(3)
        for count in range(1, 120):
            spans, known = [source.randrange(1, 1000) for _ in range(count)], Distribution()
            for span in spans:
                known.add(span, 0)
            self.assertEqual([loads.by_rank(spans)], known.percentiles([990]))


class Pairs(unittest.TestCase):
    def test_few_stay_as_they_are(self):
        pairs = [(n + 1, 100 - n) for n in range(32)]
        self.assertEqual(loads.of_pairs(pairs), pairs)

    def test_many(self):
        source = random.Random(11)
        for count in (33, 64, 100, 1000, 20_000):
            pairs = [(1 + int(source.expovariate(1 / (2 * MS))), 1 + int(source.lognormvariate(14, 1))) for _ in range(count)]
            made = loads.of_pairs(pairs)
            self.assertEqual(len(made), 32)
            for it in (0, 1):
                self.assertEqual(sum(pair[it] for pair in made), round(32 * sum(pair[it] for pair in pairs) / count))
        # short and long ones as all have: the run that all but one in 32 do not exceed, and the median
        runs, kept = sorted(run for run, _ in pairs), sorted(run for run, _ in made)
        self.assertLess(abs(kept[16] / runs[count // 2] - 1), 0.15)
        self.assertLess(abs(kept[31] / runs[count * 63 // 64] - 1), 0.15)

    def test_the_order_of_time_stays(self):
        # a load that grows: the first half of the script has less than the second
        made = loads.of_pairs([(1000 + n, 5) for n in range(3200)])
        self.assertLess(max(run for run, _ in made[:16]), min(run for run, _ in made[16:]))

    def test_ranks(self):
        self.assertEqual(sorted(loads.spread_ranks()), list(range(32)))
        self.assertEqual(loads.spread_ranks()[:4], [0, 16, 8, 24])


class Files(unittest.TestCase):
    def test_the_bytes_of_a_seed(self):
        done, domains, work = made_by(*WORDS)
        self.assertEqual((done.returncode, done.stderr), (0, ""))
        self.assertEqual(domains, (DATA / "expected.toml").read_text())
        self.assertEqual(work, (DATA / "expected.work").read_text())
        self.assertEqual(done.stdout, (DATA / "expected.told").read_text().replace("DATA", str(DATA)))

    def test_another_seed(self):
        self.assertNotEqual(made_by(*WORDS)[1], made_by("--seed", "8", *WORDS[2:])[1])

    def test_a_load_changes_no_other(self):
        _, domains, work = made_by(*WORDS)
        _, alone, alone_work = made_by(*WORDS[:4])
        lines = [[line for line in text.splitlines() if line.startswith("guests")] for text in (domains, alone)]
        self.assertEqual(lines[0][0], lines[1][0])
        self.assertNotEqual(lines[0][1], lines[1][1])
        self.assertEqual([line for line in work.splitlines() if "web" in line], [line for line in alone_work.splitlines() if "web" in line])

    def test_a_script_of_one_pair(self):
        _, domains, work = made_by("--seed", "1", "--load", "web=3ms/7ms")
        self.assertIn("guests = [[3000000, 7000000], [3000000, 7000000]]", domains)
        self.assertEqual(work, "# made by tools/loads, seed 1\n")

    def test_a_later_load_of_a_vcpu(self):
        _, domains, _ = made_by("--seed", "1", "--load", "web=3ms/7ms", "--load", "web/1=1ms/1ms")
        self.assertIn("guests = [[3000000, 7000000], [1000000, 1000000]]", domains)

    def test_lines_of_a_work_file(self):
        with tempfile.TemporaryDirectory() as folder:
            kept = pathlib.Path(folder) / "kept.txt"
            kept.write_text("# mine\n0 xl cpupool-list\n\n1000000 stall 0 5\n2000000 xl pause batch\n")
            _, _, work = made_by("--seed", "1", "--load", "web=phase:1ms", "--load", "db=phase:2.5ms", "--load", "mail=phase:0ms", "--work", kept)
            self.assertEqual(work.splitlines(), ["# made by tools/loads, seed 1", "# mine", "0 xl cpupool-list", "", "0 xl pause db", "0 xl pause web", "1000000 stall 0 5",
                                                 "1000000 xl unpause web", "2000000 xl pause batch", "2500000 xl unpause db"])
            done, _, _ = made_by("--seed", "1", "--load", "batch=phase:1ms", "--work", kept)
            self.assertEqual((done.returncode, done.stderr.count("\n")), (2, 1))

    def test_random_phases_are_within_a_pair(self):
        machine = Machine(1, 10**9, [Pool("Pool-0", cpus=[0])], [Domain(f"g{n}", "Pool-0", [[2 * MS, 8 * MS]]) for n in range(64)])
        plan = loads.Plan(machine, 3)
        for domain in machine.domains:
            plan.add(f"{domain.name}=phase:random")
        phases = [plan.phase_of(domain) for domain in machine.domains]
        self.assertTrue(all(0 <= phase < 10 * MS for phase in phases))
        self.assertLess(min(phases), MS)
        self.assertGreater(max(phases), 9 * MS)
        self.assertEqual(len(set(phases)), 64)

    def test_wrong_words(self):
        wrong = ["zed=1ms/2ms", "web", "web=", "web=1ms", "web=1ms/2ms/3ms", "web=1ms/0ms", "web=soon/2ms", "web/2=1ms/2ms", "web/x=1ms/2ms", "web/0=1ms/2ms,phase:1ms",
                 "web=poisson:2ms/1ms", "web=exponential/1ms", "web=exponential:2ms:3ms/1ms", "web=uniform:5ms:1ms/1ms", "web=lognormal:1ms:nan/1ms", "web=lognormal:1ms:-1/1ms",
                 "web=bimodal:1ms:2ms:120%/1ms", "web=bimodal:1ms:2ms:few/1ms", "web=99999999s/1ms", "web=lognormal:9000s:4/1ms", "web=file:missing", f"web=file:{DATA}/machine.toml",
                 "web=phase:random", "web=1ms/1ms,phase:9s", "web=1ms/1ms,phase:later", "web=exponential:3s/1ms,phase:999s", "=1ms/1ms", "web=file:/dev/null"]
        for text in wrong:
            done, domains, work = made_by("--seed", "1", "--load", text)
            self.assertEqual((done.returncode, domains, work), (2, None, None), text)
            self.assertRegex(done.stderr, r"\Aloads: [^\n]*\n\Z", text)

    def test_wrong_files(self):
        for machine in ("missing.toml", DATA / "pairs.txt", "tools/loads"):
            done, domains, _ = made_by("--seed", "1", machine=machine)
            self.assertEqual((done.returncode, domains), (2, None))
            self.assertRegex(done.stderr, r"\Aloads: [^\n]*\n\Z")
        done, domains, _ = made_by("--seed", "1", "--work", DATA / "machine.toml")
        self.assertEqual((done.returncode, domains, done.stderr.count("\n")), (2, None, 1))


class Paused(unittest.TestCase):
    """The time of a pause counts neither as a wait nor as a part of a job."""

    DOMAINS = 'format = 1\nprocessors = 1\nhorizon_ns = 40000000\n[[domain]]\nname = "a"\nguests = [[3000000, 7000000]]\n[[domain]]\nname = "b"\nguests = [[]]\n'
    WORK = "0 xl pause a\n5000000 xl unpause a\n8000000 xl pause a\n10000000 xl unpause a\n18000000 xl pause a\n21000000 xl unpause a\n"
    # a goes on at 5 and waits to 6, runs to 8, is paused to 10, runs to 11, sleeps to 18 and is paused to 21, runs at once to 24, sleeps to 31
    SCHEDULE = """0 xl 1 ok
0 arrive p0
0 decide c0 d1u0 due none late 0 reset 0
0 leave p0 d1v0
5000000 xl 2 ok
6000000 arrive p0
6000000 decide c0 d0u0 due none late 0 reset 0
6000000 leave p0 d0v0
8000000 xl 3 ok
8000000 arrive p0
8000000 decide c0 d1u0 due none late 0 reset 0
8000000 leave p0 d1v0
10000000 xl 4 ok
10000000 arrive p0
10000000 decide c0 d0u0 due none late 0 reset 0
10000000 leave p0 d0v0
11000000 block p0 d0v0
11000000 decide c0 d1u0 due none late 0 reset 0
11000000 leave p0 d1v0
18000000 xl 5 ok
18000000 wake d0v0
21000000 xl 6 ok
21000000 arrive p0
21000000 decide c0 d0u0 due none late 0 reset 0
21000000 leave p0 d0v0
24000000 block p0 d0v0
24000000 decide c0 d1u0 due none late 0 reset 0
24000000 leave p0 d1v0
31000000 wake d0v0
40000000 finish
"""

    def study(self, with_work=True):
        with tempfile.TemporaryDirectory() as folder:
            domains, work = pathlib.Path(folder) / "domains.toml", pathlib.Path(folder) / "work.txt"
            domains.write_text(self.DOMAINS)
            work.write_text(self.WORK)
            return study_of(domains, self.SCHEDULE.splitlines(), work if with_work else None)

    def test_waits_jobs_and_releases(self):
        tally = self.study().vcpus["d0v0"].tally
        self.assertEqual((tally.waits.count, tally.waits.total, tally.waits.most), (2, MS, MS))
        # the first job has 1 ms of wait and 3 of work, the second its work alone
        self.assertEqual((tally.jobs[0].count, tally.jobs[0].total, tally.jobs[0].most), (2, 7 * MS, 4 * MS))
        self.assertEqual((tally.delayed, tally.releases, tally.drifted), (1, 3, 2))
        # 31 ms: 20 ms of script, 10 ms of pauses, 1 ms of wait
        self.assertEqual(tally.drift, MS)

    def test_without_the_work_file_a_pause_is_a_wait(self):
        tally = self.study(False).vcpus["d0v0"].tally
        self.assertEqual((tally.waits.count, tally.waits.total, tally.jobs[0].most), (2, 9 * MS, 11 * MS))

    def test_open_waits_and_limits(self):
        with tempfile.TemporaryDirectory() as folder:
            domains, work = pathlib.Path(folder) / "domains.toml", pathlib.Path(folder) / "work.txt"
            domains.write_text(self.DOMAINS)
            work.write_text(self.WORK + "33000000 xl pause a\n")
            schedule = self.SCHEDULE.replace("40000000 finish", "33000000 xl 7 ok\n40000000 finish")
            for limit, status in (("2ms", 0), ("1.9ms", 1)):
                done = call("tools/study", domains, "-", "--work", work, "--latency", f"a={limit}", "--table", "waits", text=schedule)
                self.assertEqual(done.returncode, status, done.stderr)
            self.assertRegex(done.stdout, r"d0v0  a +2 .* 2\n")


class InTheProgram(unittest.TestCase):
    @unittest.skipUnless(PROGRAM.exists(), "the program is not built")
    def test_phases_in_a_run(self):
        with tempfile.TemporaryDirectory() as folder:
            done = call("tools/loads", DATA / "machine.toml", "--out", folder, *WORDS)
            self.assertEqual(done.returncode, 0, done.stderr)
            domains, work = (pathlib.Path(folder) / name for name in ("domains.toml", "work.txt"))
            lines = subprocess.run([PROGRAM, "run", "--ordered", domains, work], capture_output=True, text=True, check=True).stdout.splitlines()
            study, without = study_of(domains, lines, work), study_of(domains, lines)
            self.assertEqual((study.fault_count, study.finished, study.refused), (0, True, []))
            begins = {line.split()[3]: int(line.split()[0]) for line in work.read_text().splitlines() if "unpause" in line}
            self.assertEqual(set(begins), {"web", "mail"})
            for vcpu in study.vcpus.values():
                phase = begins.get(vcpu.domain.name, 0)
                self.assertEqual(vcpu.times[PAUSED], phase)
                self.assertEqual(without.vcpus[vcpu.name].tally.waits.total - vcpu.tally.waits.total, phase)


if __name__ == "__main__":
    unittest.main()
