"""Parts of a run: they add up to the whole, and the words that name one."""
import base64
import collections
import json
import pathlib
import random
import re
import tempfile
import unittest

from support import PROGRAM, TOP, call, files_of, part_of, row, stored_runs
from xensched_tools import asking, comparing
from xensched_tools.machine import read_machine, read_work
from xensched_tools.measures import Study
from xensched_tools.schedule import Follower
from xensched_tools.words import Refused

MS = 1_000_000
EXAMPLE = TOP / "examples" / "measures"
FILES = (f"{EXAMPLE}/domains.toml", f"{EXAMPLE}/schedule.txt")
BUILT = unittest.skipUnless(PROGRAM.exists(), "the program is not built")
# What adds up, of what the greatest is that of the whole, and what a row is known by.
SUMS = {
    "pools": ["capacity_ns", "run_ns"], "domains": ["run_ns", "waited_ns"], "units": ["run_ns", "waited_ns", "picks", "preempted", "moves", "late_ns"],
    "vcpus": ["runs_ns", "waits_ns", "sleeps_ns", "paused_ns"], "waits": ["count"], "jobs": ["count"], "releases": ["releases", "delayed", "drifted"],
    "terms": ["terms", "budget_ns", "had_ns", "short", "missing_ns", "extra_ns", "lates", "skipped"], "windows": ["windows", "had_ns", "lost_ns", "unused_ns"],
    "caps": ["terms", "allowed_ns", "had_ns", "used_up"], "cores": ["run_ns", "idle_ns", "decides", "lates", "late_ns"], "limits": ["met"],
}
GREATEST = {"waits": ["greatest_ns"], "jobs": ["greatest_ns"], "terms": ["greatest_missing_ns", "greatest_late_ns"], "windows": ["greatest_lost_ns"],
            "caps": ["greatest_ns", "greatest_over_ns"], "cores": ["greatest_late_ns"]}
NAMES = {"pools": ["pool"], "domains": ["domain"], "cores": ["core"], "windows": ["pool", "window", "unit"], "jobs": ["vcpu", "job"], "limits": ["vcpu", "kind"], "caps": ["domain"]}


class Counted:
    """The study of a part of a run: its tables, what `--each` wrote of it, and its waits."""

    def __init__(self, files, lines, begin=0, until=None):
        self.each = []
        study = Study(read_machine(files[0]), read_work(files[1]), lambda *row, **more: self.each.append((*row, *more.items())))
        study.count_part(begin, until)
        asked = asking.limits_of(study, [f"{domain.name}=2ms" for domain in study.domain_list if any(vcpu.script for vcpu in domain.vcpus)],
                                 [f"{domain.name}=1ms" for domain in study.domain_list])
        self.study = study.follow(lines)
        asking.judge_open(study, asked)
        self.tables = comparing.records_of(study, asked)
        self.waits = [collections.Counter(vcpu.tally.waits.counts) for vcpu in study.vcpus.values()]

    def rows(self, table, keys, join):
        """Of the rows of one name the figures, joined."""
        found = {}
        for record in self.tables[table]:
            name = tuple(record[key] for key in NAMES.get(table, ["unit" if table in ("units", "terms") else "vcpu"]))
            for key in keys:
                found[name, key] = join(found.get((name, key), 0), record[key] or 0)
        return found


def joined(parts, table, keys, join, names):
    """The same of all parts."""
    found = dict.fromkeys(names, 0)
    for part in parts:
        for name, value in part.rows(table, keys, join).items():
            if name in found:
                found[name] = join(found[name], value)
    return found


def cuts_of(lines, horizon, draw):
    """Two moments within the run: that of some line, or any one."""
    last = int(lines[-1].split()[0])
    end = horizon if lines[-1].endswith(" finish") else last
    moments = {int(draw.choice(lines).split()[0]), draw.randrange(end + 1), draw.randrange(end + 1)}
    return sorted(at for at in moments if 0 < at < end)


class Parts(unittest.TestCase):
    def add_up(self, files, lines, cuts):
        """Holds that the figures of the parts between these moments add up to those of the whole."""
        whole = Counted(files, lines)
        parts = [Counted(files, lines, begin, until) for begin, until in zip([0, *cuts], [*cuts, None])]
        for table, keys in SUMS.items():
            for chosen, join in ((keys, int.__add__), (GREATEST.get(table, []), max)):
                expected = whole.rows(table, chosen, join)
                self.assertEqual(joined(parts, table, chosen, join, expected), expected, table)
        for k, waits in enumerate(whole.waits):
            if not any(vcpu.tally.waits.rounded for vcpu in whole.study.vcpus.values()):
                self.assertEqual(sum((part.waits[k] for part in parts), collections.Counter()), waits)
        self.assertEqual([row for part in parts for row in part.each], whole.each)
        self.assertEqual(sum(part.study.counted for part in parts), whole.study.entries)
        self.assertEqual({part.study.entries for part in parts}, {whole.study.entries})
        self.assertEqual(sum(part.study.span for part in parts), whole.study.span)
        self.assertEqual([part.study.unreached() for part in parts], [whole.study.unreached()] * len(parts))
        missed, of_parts = (sum(it["missed"] for study in studies for it in study.tables["limits"]) for studies in ([whole], parts))
        self.assertGreaterEqual(of_parts, missed)

    def test_the_parts_add_up(self):
        tried = 0
        for words, lines in stored_runs():
            files = files_of(words)
            draw = random.Random(words[-2])
            cuts = cuts_of(lines, read_machine(files[0]).horizon, draw)
            with self.subTest(run=words[-2], cuts=cuts):
                self.add_up(files, lines, cuts)
                tried += len(cuts) > 1
        self.assertGreater(tried, 40)

    def test_the_parts_of_a_host_add_up(self):
        with tempfile.TemporaryDirectory() as folder:
            call("tools/from-trace", "examples/trace/trace.txt", "--out", folder, "--to", "40ms")
            files = [pathlib.Path(folder) / name for name in ("host.toml", "work.txt")]
            lines = (pathlib.Path(folder) / "schedule.txt").read_text().splitlines()
            for cuts in ([10 * MS, 20 * MS], [1, 39 * MS + 5]):
                with self.subTest(cuts=cuts):
                    self.add_up(files, lines, cuts)

    def test_a_part_by_hand(self):
        # docs/MEASURES.md works the whole out; at 10 a wakes and runs, at 20 it wakes, and at 21 it runs, which is behind the part
        part = Counted((EXAMPLE / "domains.toml", EXAMPLE / "work.txt"), (EXAMPLE / "schedule.txt").read_text().splitlines(), 10 * MS, 21 * MS).study
        part_of(self, row(part, "vcpus", "d0v0"), runs_ns=2 * MS, waits_ns=MS, sleeps_ns=8 * MS, share=round(2 / 11, 9))
        part_of(self, row(part, "vcpus", "d1v0"), runs_ns=9 * MS, waits_ns=2 * MS, sleeps_ns=0)
        part_of(self, row(part, "waits", "d0v0"), count=1, greatest_ns=0, greatest_at_ns=10 * MS, open_ns=MS)
        part_of(self, row(part, "waits", "d1v0"), count=0, open_ns=None)
        part_of(self, row(part, "jobs", "d0v0", "a", "0"), count=1, mean_ns=2 * MS, open_ns=MS)
        part_of(self, row(part, "releases", "d0v0"), releases=2, delayed=0, drifted=0)
        part_of(self, row(part, "terms", "d0u0"), terms=2, had_ns=4 * MS)
        part_of(self, row(part, "terms", "d1u0"), terms=1, had_ns=6 * MS, extra_ns=5 * MS)
        part_of(self, row(part, "units", "d1u0"), run_ns=9 * MS, picks=1, preempted=1)
        part_of(self, row(part, "domains", "d0"), from_ns=10 * MS, to_ns=21 * MS, share=round(2 / 11, 9), says=0.3)
        part_of(self, row(part, "cores", "c0"), run_ns=11 * MS, idle_ns=0, share=1.0)
        self.assertEqual((part.finished, part.entries, part.last, part.end), (True, 67, 31 * MS, 21 * MS))

    def test_what_is_no_part(self):
        machine = read_machine(EXAMPLE / "domains.toml")
        for begin, until in ((32 * MS, None), (5 * MS, 5 * MS), (6 * MS, 5 * MS), (0, 33 * MS), (0, 0)):
            with self.subTest(begin=begin, until=until), self.assertRaises(Refused):
                Follower(machine).count_part(begin, until)
        lines = (EXAMPLE / "schedule.txt").read_text().splitlines()[:20]
        study = Study(machine)
        study.count_part(30 * MS, None)
        with self.assertRaisesRegex(Refused, "the schedule ends at"):
            study.follow(lines)


class Words(unittest.TestCase):
    def test_what_is_counted_is_said(self):
        done = call("tools/study", *FILES, "--from", "10ms", "--to", "21ms")
        self.assertEqual(done.stdout.splitlines()[1], "Counted from 10 to 21 ms alone: 26 of these entries.")
        found = json.loads(call("tools/study", *FILES, "--from", "4ms", "--warmup", "6ms", "--to", "21ms", "--json").stdout)
        part_of(self, found["run"], counted_from_ns=10 * MS, counted_to_ns=21 * MS, counted_entries=26, entries=67, finished=True)

    def test_limits_after_a_warmup(self):
        # b waits 2 ms at 0, and a 1 ms at 20
        for words, status in ((["--latency", "b=1ms"], 1), (["--latency", "b=1ms", "--warmup", "3ms"], 0), (["--latency", "a=0.5ms", "--warmup", "3ms"], 1),
                              (["--latency", "a=0.5ms", "--warmup", "22ms"], 0), (["--share", "a=18%", "--from", "10ms", "--to", "21ms"], 0),
                              (["--share", "a=19%", "--from", "10ms", "--to", "21ms"], 1)):
            with self.subTest(words=words):
                self.assertEqual(call("tools/study", *FILES, *words).returncode, status)

    def test_a_wait_that_is_not_over_has_missed_too(self):
        done = call("tools/study", *FILES, "--latency", "a=0.5ms", "--to", "21ms")
        self.assertIn("a d0v0: 1 of 3 missed the latency of 0.5 ms, the first at 21 ms", done.stderr)

    def test_refusals(self):
        for words, said in ((["--from", "1"], "'1' has no unit: write 1ns, 1us, 1ms or 1s"), (["--deadline", "a=2"], "'2' has no unit: write 2ns, 2us, 2ms or 2s"),
                            (["--from", "32ms"], "there is nothing between 32 ms and 32 ms"), (["--to", "33ms"], "the part is to end at 33 ms, and the horizon is at 32 ms"),
                            (["--table", "promises", "--to", "5ms"], "what the laws promise is counted from the beginning of a run to its end: ask for the table promises without --from, --to and --warmup")):
            with self.subTest(words=words):
                done = call("tools/study", *FILES, *words)
                self.assertEqual((done.returncode, done.stdout, done.stderr), (2, "", f"study: {said}\n"))

    def test_the_page_has_the_part_alone(self):
        with tempfile.TemporaryDirectory() as folder:
            page = pathlib.Path(folder) / "page.html"
            call("tools/study", *FILES, "--from", "11ms", "--to", "21ms", "--html", page)
            text = page.read_text()
        self.assertIn("Counted from 11 to 21 ms alone", text)
        data = json.loads(re.search(r'<script type="application/json" id=data>(.*?)</script>', text)[1])
        self.assertEqual((data["begin"], data["end"]), (11 * MS, 21 * MS))
        bars, at = unpacked(data["machines"][0]["bars"][0]), 0
        found = []
        for k in range(0, len(bars), 4):
            begin = at + bars[k]
            at = begin + bars[k + 1]
            found.append((begin, at, bars[k + 2]))
        # a bar ends also where the core decides anew
        self.assertEqual(found, [(11 * MS, 12 * MS, 1), (12 * MS, 16 * MS, 2), (16 * MS, 20 * MS, 2), (20 * MS, 21 * MS, 2)])

    @BUILT
    def test_compare(self):
        words = ("tools/compare", FILES[0], f"{FILES[0]}@null", "--from", "10ms", "--to", "21ms")
        found = {(it["of"], it["figure"]): it["values"] for it in json.loads(call(*words, "--json").stdout)}
        # under null b never has the core
        self.assertEqual(found["d1v0 b", "runs_ns"], [9 * MS, 0])
        self.assertEqual(found["d1v0 b", "open_ns"], [None, 21 * MS])
        with tempfile.TemporaryDirectory() as folder:
            path = pathlib.Path(folder) / "study.json"
            path.write_text(call("tools/study", *FILES, "--json").stdout)
            done = call("tools/compare", path, FILES[0], "--warmup", "1ms")
            self.assertEqual(done.returncode, 2)
            self.assertIn("is a study that was written", done.stderr)

    @BUILT
    def test_sweep(self):
        words = ["tools/sweep", "--machine", FILES[0], "--over", "horizon_ns=32000000,40000000", "--column", "vcpus.a.runs_ns", "--column", "run", "--column", "end", "--column", "entries"]
        done = call(*words, "--warmup", "10ms", "--to", "21ms")
        self.assertEqual(done.stdout, "horizon_ns,status,vcpus.a.runs_ns,run,end,entries\n32000000,0,2000000,11000000,21000000,26\n40000000,0,2000000,11000000,21000000,26\n")
        done = call(*words, "--from", "1")
        self.assertEqual((done.returncode, done.stdout, done.stderr), (2, "", "sweep: '1' has no unit: write 1ns, 1us, 1ms or 1s\n"))


def unpacked(text):
    """The numbers of a packed text: seven bits a byte, the lowest first."""
    numbers, number, shift = [], 0, 0
    for byte in base64.b64decode(text):
        number |= (byte & 127) << shift
        shift += 7
        if not byte & 128:
            numbers.append(number)
            number = shift = 0
    return numbers


if __name__ == "__main__":
    unittest.main()
