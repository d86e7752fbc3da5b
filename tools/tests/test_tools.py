"""The tools as they are called: their forms, their statuses, and what they say of wrong words."""
import concurrent.futures
import csv
import importlib.util
import io
import json
import os
import pathlib
import subprocess
import sys
import tempfile
import unittest

from support import PROGRAM, TOP, call, part_of, row, stored, studied
from xensched_tools import comparing, making, premises, tables
from xensched_tools.machine import machine_of, read_machine
from xensched_tools.words import Refused, milliseconds, time_of

EXAMPLE = "examples/measures"
FILES = (f"{EXAMPLE}/domains.toml", f"{EXAMPLE}/schedule.txt")
MS = 1_000_000
EXTRA = f"study: {premises.EXTRA} (Pool-0): {premises.PAGE}"
BUILT = unittest.skipUnless(PROGRAM.exists(), "the program is not built")


def plain(value):
    """A value as a table has it: the number of a row is text in JSON, and pandas takes it as a number where the whole column is such."""
    return float(value) if isinstance(value, (int, float)) or value is not None and value.isdecimal() else value


class Help(unittest.TestCase):
    # The first two are called by the launcher alone, with its words; the third stands where the program does, and passes its words on.
    OTHERS = ("launch", "installed_launcher", "altered")

    def test_each_tool_says_what_it_is_and_does_nothing_else(self):
        tools = [path for folder in ("tools", "bench", "beside-xen") for path in (TOP / folder).iterdir() if path.is_file() and os.access(path, os.X_OK) and path.name not in self.OTHERS]
        self.assertGreater(len(tools), 30)
        with concurrent.futures.ThreadPoolExecutor() as pool:
            said = pool.map(lambda path: subprocess.run([path, "--help"], capture_output=True, text=True, timeout=20, check=False), tools)
        for path, done in zip(tools, said, strict=True):
            with self.subTest(tool=path.name):
                self.assertEqual((done.returncode, done.stderr), (0, ""))
                self.assertRegex(done.stdout, "[Uu]sage:")


class Forms(unittest.TestCase):
    def test_the_three_forms_agree(self):
        with tempfile.TemporaryDirectory() as folder:
            text, comma, files, found = (call("tools/study", *FILES, *words) for words in ([], ["--csv"], ["--csv", folder], ["--json"]))
            self.assertEqual([(it.returncode, bool(it.stdout)) for it in (text, comma, files, found)], [(0, True), (0, True), (0, False), (0, True)])
            of_files = {path.stem: list(csv.DictReader(path.open())) for path in pathlib.Path(folder).iterdir()}
        self.assertIn("d0v0  a         4  0.25       0    1    1      1         1  21            -", text.stdout)
        read = json.loads(found.stdout)
        self.assertEqual((read["run"]["counted_to_ns"], read["waits"][0]["mean_ns"], read["domains"][0]["share"]), (32 * MS, 250_000, 0.21875))
        # JSON as CSV writes it, row by row
        del read["run"]
        written = {table: [{key: "" if value is None else str(value) for key, value in record.items()} for record in records] for table, records in read.items()}
        self.assertEqual(of_files, written)
        rows = list(csv.DictReader(io.StringIO(comma.stdout)))
        self.assertEqual([{key: row[key] for key in record} for row, record in zip(rows, (record for records in written.values() for record in records), strict=True)],
                         [record for records in written.values() for record in records])
        self.assertEqual([row["table"] for row in rows], [table for table, records in written.items() for _ in records])

    def test_json_has_all_tables(self):
        for words in ([], ["--table", "waits"], ["--deadline", "a=2ms"]):
            found = json.loads(call("tools/study", *FILES, "--json", *words).stdout)
            self.assertEqual([*found], ["run", *tables.USUAL, "limits"])
            self.assertEqual((found["windows"], len(found["limits"])), ([], int("--deadline" in words)))
        self.assertEqual(len(json.loads(call("tools/study", *FILES, "--json", "--table", "promises").stdout)["promises"]), 2)

    def test_a_table_alone(self):
        done = call("tools/study", *FILES, "--table", "releases", "--csv")
        self.assertEqual(done.stdout, "table,vcpu,name,releases,delayed,drifted,drift_ns\nreleases,d0v0,a,4,1,1,1000000\n")
        with tempfile.TemporaryDirectory() as folder:
            call("tools/study", *FILES, "--table", "releases", "--table", "windows", "--csv", f"{folder}/new/one")
            found = {path.name: path.read_text().count("\n") for path in pathlib.Path(folder, "new", "one").iterdir()}
        self.assertEqual(found, {"releases.csv": 2, "windows.csv": 1})

    @unittest.skipUnless(importlib.util.find_spec("pandas"), "pandas is not installed")
    def test_pandas_reads_each(self):
        import pandas
        with tempfile.TemporaryDirectory() as folder:
            call("tools/study", *FILES, "--deadline", "a=2ms", "--csv", folder)
            files = {path.stem: pandas.read_csv(path) for path in pathlib.Path(folder).iterdir()}
        whole = pandas.read_csv(io.StringIO(call("tools/study", *FILES, "--deadline", "a=2ms", "--csv").stdout))
        found = json.loads(call("tools/study", *FILES, "--deadline", "a=2ms", "--json").stdout)
        self.assertEqual(set(files), set(found) - {"run"})
        for name, frame in files.items():
            with self.subTest(table=name):
                own = whole[whole["table"] == name]
                self.assertEqual((len(own), len(pandas.DataFrame(found[name]))), (len(frame), len(frame)))
                for key in frame.columns:
                    expected = [plain(record[key]) for record in found[name]]
                    for column in (frame[key], own[key]):
                        self.assertEqual([None if pandas.isna(value) else plain(value) for value in column], expected)
        self.assertEqual(whole.loc[whole["table"] == "waits", "mean_ns"].tolist(), [250_000, 2 * MS])

    def test_standard_input(self):
        done = call("tools/study", FILES[0], "-", "--table", "terms", "--csv", text=(TOP / FILES[1]).read_text())
        self.assertEqual(len(done.stdout.splitlines()), 3)

    def test_each(self):
        with tempfile.TemporaryDirectory() as folder:
            path = pathlib.Path(folder) / "each.csv"
            call("tools/study", *FILES, "--each", path)
            found = list(csv.DictReader(path.open()))
        jobs = [(it["begin_ns"], it["end_ns"], it["given_ns"], it["response_ns"]) for it in found if it["kind"] == "job"]
        self.assertEqual(jobs, [("0", "2000000", "2000000", "2000000"), ("10000000", "12000000", "2000000", "2000000"), ("20000000", "23000000", "2000000", "3000000")])
        terms = [(it["begin_ns"], it["end_ns"], it["had_ns"], it["extra_ns"]) for it in found if it["kind"] == "term" and it["subject"] == "d1u0"]
        self.assertEqual(terms, [("0", "15000000", "6000000", "5000000"), ("15000000", "30000000", "6000000", "7000000")])

    def test_times(self):
        self.assertEqual([time_of(text) for text in ("2ms", "1.5s", "300us", "40ns", "0", "0.25ms")], [2 * MS, 1500 * MS, 300_000, 40, 0, 250_000])
        self.assertEqual([milliseconds(span) for span in (0, 1, 2 * MS, 1_500_000, -500_000)], ["0", "0.000001", "2", "1.5", "-0.5"])
        for text in ("", "ms", "2 ms", "-1ms", "1", "40", "1.5", "00", "1e3"):
            with self.subTest(text=text), self.assertRaises(Refused):
                time_of(text)


class Limits(unittest.TestCase):
    def test_statuses(self):
        for words, status in ((["--deadline", "a=3ms"], 0), (["--deadline", "d0v0=2.5ms"], 1), (["--deadline", "d0=2ms"], 1), (["--latency", "a=1ms"], 0), (["--latency", "a=999999ns"], 1),
                              (["--latency", "b=2ms"], 0), (["--share", "a=21%"], 0), (["--share", "a=22%"], 1), (["--share", "d1=78"], 0)):
            with self.subTest(words=words):
                self.assertEqual(call("tools/study", *FILES, *words).returncode, status)

    def test_a_job_that_is_not_done(self):
        # the fourth job is 1 ms old at the end
        done = call("tools/study", *FILES, "--deadline", "a=0.5ms")
        self.assertIn("a d0v0: 4 of 4 missed the deadline of 0.5 ms, the first at 2 ms", done.stderr)

    def test_what_cannot_be_asked(self):
        for words in (["--deadline", "b=2ms"], ["--deadline", "zed=2ms"], ["--deadline", "a"], ["--deadline", "a=soon"], ["--share", "a=much"]):
            with self.subTest(words=words):
                done = call("tools/study", *FILES, *words)
                self.assertEqual(done.returncode, 2)
                self.assertRegex(done.stderr, r"\Astudy: .*\n\Z")


class WrongInput(unittest.TestCase):
    """A sentence and a status, and no traceback."""

    def test_files(self):
        for tool in ("tools/study", "tools/draw"):
            for files in (("missing.toml", FILES[1]), (FILES[0], "missing.txt"), ("README.md", FILES[1]), (FILES[0], "README.md"), (FILES[0], FILES[0]), ("examples", FILES[1]),
                          ("examples/two-pools/domains.toml", "crates/xensched_trials/stdout"), (FILES[0], "docs/pictures"),
                          (FILES[0], "/dev/null"), (FILES[0], sys.executable), (sys.executable, FILES[1])):
                with self.subTest(tool=tool, files=files):
                    done = call(tool, *files)
                    self.assertEqual(done.returncode, 2)
                    self.assertRegex(done.stderr, rf"\A{tool.split('/')[1]}: .*\n\Z")

    def test_the_file_of_another_machine(self):
        done = call("tools/study", "examples/two-guests/domains.toml", "-", text="0 arrive p1\n")
        self.assertEqual((done.returncode, done.stderr), (2, "study: line 1 is none of a run on this machine: '0 arrive p1'; is the domain file that of the run?\n"))

    def test_a_contradiction(self):
        lines = (TOP / FILES[1]).read_text().replace("20000000 wake d0v0\n", "")
        done = call("tools/study", FILES[0], "-", text=lines)
        self.assertEqual((done.returncode, done.stderr), (3, f"{EXTRA}\nstudy: line 44: d0v0 runs, and no line says that it woke\n"))

    def test_a_closed_output(self):
        import subprocess, sys
        done = subprocess.run(["bash", "-c", f"{sys.executable} tools/study {' '.join(FILES)} | head -n 1; exit ${{PIPESTATUS[0]}}"], cwd=TOP, capture_output=True, text=True)
        # what it says of the machine comes only where the reader has not gone before
        self.assertEqual(done.returncode, 0)
        self.assertIn(done.stderr, ("", f"{EXTRA}\n"))


class Commands(unittest.TestCase):
    def test_refused_and_unreached_commands_are_named(self):
        with tempfile.TemporaryDirectory() as folder:
            work = pathlib.Path(folder) / "work.txt"
            work.write_text("# nothing\n5000000 xl sched-rtds -d zed -p 5000\n10000000 stall 0 1\n50000000 xl pause a\n")
            lines = (TOP / FILES[1]).read_text().replace("8000000 slice c0\n", "8000000 xl 1 refused 4 NoDomain\n8000000 slice c0\n", 1)
            done = call("tools/study", FILES[0], "-", "--work", work, text=lines)
        self.assertEqual(done.stderr.splitlines(), [EXTRA, "study: command 1 `sched-rtds -d zed -p 5000` (line 2, 5000000 ns) was refused: NoDomain",
                                                    "study: command 2 `pause a` (line 4, 50000000 ns) never came"])
        done = call("tools/study", FILES[0], "-", text=lines)
        self.assertEqual(done.stderr, f"{EXTRA}\nstudy: command 1 was refused: NoDomain\n")

    def test_a_cap_that_a_command_sets(self):
        # in the stored run the command at 600 ms sets a cap of 100 % on batch1
        study = studied("realistic")
        self.assertEqual(row(study, "domains", "d4")["parameters"], "weight 64 of 3456, cap 100%, changed")

    def test_a_pause(self):
        machine = {"format": 1, "processors": 1, "horizon_ns": 3 * MS, "domain": [{"name": "a", "guests": [[]]}]}
        with tempfile.TemporaryDirectory() as folder:
            work, domains = pathlib.Path(folder) / "work.txt", pathlib.Path(folder) / "domains.toml"
            work.write_text("1000000 xl pause a\n2000000 xl unpause a\n")
            domains.write_text(machine_of(machine, "m").text())
            lines = ("0 arrive p0\n0 decide c0 d0u0 due 10000000 late 0 reset 0\n0 leave p0 d0v0\n0 end 1000000\n1000000 xl 1 ok\n1000000 arrive p0\n1000000 decide c0 idle due none late 0 reset 0\n"
                     "1000000 leave p0 idle\n1000000 save c0 d0u0 off\n1000000 end 2000000\n2000000 xl 2 ok\n2000000 arrive p0\n2000000 decide c0 d0u0 due 12000000 late 0 reset 0\n2000000 leave p0 d0v0\n2000000 finish\n")
            done = call("tools/study", domains, "-", "--work", work, "--json", text=lines)
            found = json.loads(done.stdout)
            part_of(self, found["vcpus"][0], runs_ns=2 * MS, waits_ns=0, sleeps_ns=0, paused_ns=MS)
            self.assertEqual(found["units"][0]["waited_ns"], 0)
            done = call("tools/study", domains, "-", "--json", text=lines)
            self.assertEqual(json.loads(done.stdout)["vcpus"][0]["waits_ns"], MS)
            self.assertIn("2 commands were done that no work file names", done.stderr)


class Machines(unittest.TestCase):
    def test_a_domain_file_is_written_as_it_is_read(self):
        for path in sorted(TOP.glob("crates/xensched_trials/data/*/domains.toml")):
            try:
                machine = read_machine(path)
            except (Refused, OSError):
                continue
            with tempfile.NamedTemporaryFile("w", suffix=".toml") as file:
                file.write(machine.text())
                file.flush()
                self.assertEqual(read_machine(file.name), machine)

    def test_other_schedulers(self):
        machine = making.machine_from(f"{FILES[0]}@credit2")
        self.assertEqual([pool.sched for pool in machine.pools], ["credit2"])
        self.assertEqual([domain.settings for domain in machine.domains], [{}, {}])
        for word in (f"{FILES[0]}@zed", f"{FILES[0]}@zed=null", "missing@null"):
            with self.subTest(word=word), self.assertRaises((Refused, OSError)):
                making.machine_from(word)

    def test_other_settings(self):
        machine = making.with_setting(read_machine(TOP / FILES[0]), "a.budget_us", 1000)
        self.assertEqual((machine.domains[0].settings["budget_us"], machine.domains[1].settings["budget_us"]), (1000, 6000))
        for path in ("zed.weight", "a.zed", "weight"):
            with self.subTest(path=path), self.assertRaises(Refused):
                making.with_setting(machine, path, 1)


class Comparing(unittest.TestCase):
    def records(self, name):
        return json.loads(tables.as_json(studied(name), tables.tables_of(studied(name))))

    def test_what_differs(self):
        # a and b of 10 ms windows of 4 and 3, and RTDS with 4 of 10 and 5 of 20: a has 8 ms in both, b 6 and 5 of 20
        rows = comparing.compared([self.records("two-domains-take-turns"), self.records("rtds-two-periods")])
        found = {row[:3]: row[3:] for row in rows}
        self.assertEqual(found["domains", "b", "share"][0], [0.3, 0.25])
        self.assertAlmostEqual(found["domains", "b", "share"][1], 0.05 / 0.4)
        self.assertNotIn(("domains", "a", "share"), found)
        self.assertEqual(comparing.compared([self.records("realistic")] * 2), [])

    def test_the_order(self):
        records = [{"waits": [{"vcpu": "d0v0", "name": "a", "mean_ns": mean, "p99_ns": 5, "greatest_ns": 5, "open_ns": still}], "units": [{"unit": "d0u0", "name": "a", "preempted": count, "moves": 0, "late_ns": 0}]}
                   for mean, still, count in ((1, None, 0), (2, 7, 9))]
        self.assertEqual([row[2] for row in comparing.compared(records)], ["open_ns", "mean_ns", "preempted"])

    def test_written_studies(self):
        with tempfile.TemporaryDirectory() as folder:
            paths = []
            for name in ("two-domains-take-turns", "rtds-two-periods"):
                paths.append(pathlib.Path(folder) / f"{name}.json")
                paths[-1].write_text(json.dumps(self.records(name)))
            done = call("tools/compare", *paths, "--csv")
            self.assertEqual(done.stdout.splitlines()[0], "table,of,figure,two-domains-take-turns,rtds-two-periods,differ")
            for words in ([paths[0]], [*paths, "--deadline", "a=1ms"], [paths[0], "missing.json"], [paths[0], "README.md"]):
                self.assertEqual(call("tools/compare", *words).returncode, 2)

    @BUILT
    def test_one_machine_under_two_schedulers(self):
        file = "examples/answers/latency.toml"
        with tempfile.TemporaryDirectory() as folder:
            done = call("tools/compare", f"{file}@null", f"{file}@credit2", "--json", "--latency", "audio=1ms", "--plot", pathlib.Path(folder) / "plot.svg")
            self.assertTrue((pathlib.Path(folder) / "plot.svg").read_text().startswith("<svg"))
        found = {(row["table"], row["of"], row["figure"]): row["values"] for row in json.loads(done.stdout)}
        # three processors: under null the two vCPUs of batch never run
        self.assertEqual(found["waits", "d2v0 batch", "open_ns"], [1000 * MS, None])
        self.assertEqual(found["limits", "d0v0 audio latency", "missed"][0], 0)
        self.assertGreater(found["limits", "d0v0 audio latency", "missed"][1], 0)

    @BUILT
    def test_how_near_to_xen_is_said_once(self):
        done = call("tools/compare", FILES[0], f"{FILES[0]}@credit2", FILES[0])
        self.assertEqual(done.stderr, f"{EXTRA}\n".replace("study: ", "compare: "))


@BUILT
class Sweeping(unittest.TestCase):
    def test_made_machines(self):
        done = call("tools/sweep", 2, 8, 8, "--column", "entries", "--column", "run", "--column", "late")
        # what README prints of them
        self.assertEqual(done.stdout, "seed,status,entries,run,late\n1,0,6495,538400000,5400000\n2,0,6805,588700000,1300000\n")

    def test_ones_own_machine(self):
        done = call("tools/sweep", "--machine", "examples/answers/cap.toml", "--over", "web.cap=50,100", "--over", "horizon_ns=100000000", "--column", "domains.web.run_ns")
        # half and all of a processor for 100 ms
        self.assertEqual(done.stdout, "web.cap,horizon_ns,status,domains.web.run_ns\n50,100000000,0,50000000\n100,100000000,0,100000000\n")
        self.assertIn(f"sweep: {premises.CAPS} (Pool-0): {premises.PAGE}", done.stderr.splitlines())

    def test_wrong_words(self):
        for words in ([], [2, 65, 8], [2, 8], ["--machine", FILES[0]], ["--machine", FILES[0], "--over", "a"], ["--machine", FILES[0], "--over", "a.budget_us=x"], ["--over", "a.b=1", 1, 1, 1]):
            with self.subTest(words=words):
                done = call("tools/sweep", *words)
                self.assertEqual(done.returncode, 2)
                self.assertNotIn("Traceback", done.stderr)
        for words in (["--machine", "missing.toml", "--over", "a.cap=1"], ["--machine", FILES[0], "--over", "zed.cap=1"]):
            with self.subTest(words=words):
                done = call("tools/sweep", *words)
                self.assertEqual((done.returncode, done.stdout, len(done.stderr.splitlines())), (2, "", 1))
        done = call("tools/sweep", 1, 2, 2, "--column", "zed")
        self.assertEqual((done.returncode, len(done.stdout.splitlines())), (2, 1))
        self.assertNotIn("Traceback", done.stderr)


class Drawing(unittest.TestCase):
    def test_the_text_keeps_to_the_terminal(self):
        done = call("tools/draw", *FILES)
        rows = done.stdout.splitlines()
        self.assertTrue(all(len(line) <= 80 for line in rows))
        # 32 ms in 72 columns: b runs from 2 to 10 ms
        self.assertEqual(rows[0].split()[0], "p0")
        self.assertIn("w", rows[2])

    def test_wrong_moments(self):
        for words in (["--from", "40ms"], ["--from", "5ms", "--to", "5ms"], ["--to", "soon"]):
            done = call("tools/draw", *FILES, *words)
            self.assertEqual(done.returncode, 2)
            self.assertRegex(done.stderr, r"\Adraw: .*\n\Z")

    def test_a_picture_with_many_domains(self):
        domains, work, lines = stored("realistic")
        done = call("tools/draw", "--form", "svg", "--work", work, domains, text="".join(f"{line}\n" for line in lines))
        import xml.dom.minidom
        picture = xml.dom.minidom.parseString(done.stdout)
        wide = float(picture.documentElement.getAttribute("width"))
        texts = picture.getElementsByTagName("text")
        self.assertTrue(all(float(it.getAttribute("x")) <= wide for it in texts))
        legend = {it.firstChild.data for it in texts}
        self.assertLessEqual({"Domain-0", "nav", "a vCPU waits for a processor", "decided late"}, legend)
        self.assertIn("p0 stalls to 203 ms", legend)


class Explaining(unittest.TestCase):
    def explained(self, program, *words):
        return subprocess.run([TOP / "tools" / "explain", *words], capture_output=True, text=True, env={**os.environ, "XENSCHED_PROGRAM": str(program)})

    def test_the_program_is_the_one_that_is_named(self):
        with tempfile.TemporaryDirectory() as folder:
            program = pathlib.Path(folder) / "program"
            program.write_text('#!/bin/sh\necho "named $*"\necho "xensched: usage" >&2\nexit 1\n')
            done = self.explained(program, "run", "one")
            self.assertEqual((done.returncode, done.stdout), (70, ""))
            self.assertRegex(done.stderr, r"\Aexplain: .* does not start: Permission denied\n\Z")
            program.chmod(0o755)
            done = self.explained(program, "run", "one")
            self.assertEqual((done.returncode, done.stdout), (1, "named run one\n"))
            self.assertRegex(done.stderr, r"\Axensched: usage\nexplain: .*run.*\n\Z")

    def test_help_needs_no_program(self):
        for word in ("--help", "-h"):
            done = self.explained("/no/such/program", word)
            self.assertEqual((done.returncode, done.stderr), (0, ""))
            self.assertIn("Usage: tools/explain WORDS", done.stdout)


if __name__ == "__main__":
    unittest.main()
