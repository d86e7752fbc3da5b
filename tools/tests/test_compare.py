"""tools/compare: two schedules of a machine, rows of one name, work files by machine, and several comparisons."""
import csv
import io
import json
import pathlib
import tempfile
import unittest

from support import PROGRAM, TOP, called, stored

BUILT = unittest.skipUnless(PROGRAM.exists(), "the program is not built")
TURNS = "two-domains-take-turns"


class Schedules(unittest.TestCase):
    """One processor: a runs from 0 to 4 ms, b from 4 to 7, none from 7 to 10 ms, in frames of 10 ms up to 20."""

    def part(self, change):
        """What is said of the stored run and of the same with other lines."""
        domains, work, lines = stored(TURNS)
        with tempfile.TemporaryDirectory() as folder:
            paths = [pathlib.Path(folder) / name for name in ("one.txt", "other.txt")]
            for path, its in zip(paths, (lines, change(list(lines)))):
                path.write_text("".join(f"{line}\n" for line in its))
            status, out, err = called("tools/compare", "--schedules", domains, "--work", work, *paths)
        return status, out.splitlines(), err

    def test_equal(self):
        lines = stored(TURNS)[2]
        self.assertEqual(self.part(lambda its: its), (0, [f"The schedules are equal: {len(lines)} entries."], ""))

    def test_the_first_processor_that_does_something_else(self):
        # the window of b goes to nobody in the other one
        changes = {"4000000 decide c0 d1u0 due 7000000 late 0 reset 0": "4000000 decide c0 idle due 7000000 late 0 reset 0", "4000000 leave p0 d1v0": "4000000 leave p0 idle"}
        lines = stored(TURNS)[2]
        status, said, _ = self.part(lambda its: [changes.get(line, line) for line in its])
        at = lines.index("4000000 decide c0 d1u0 due 7000000 late 0 reset 0")
        self.assertEqual(status, 1)
        self.assertEqual(said[:6], [
            f"Equal at the beginning: {at} entries. Entry {at + 1} is",
            "  one.txt    4000000 decide c0 d1u0 due 7000000 late 0 reset 0",
            "  other.txt  4000000 decide c0 idle due 7000000 late 0 reset 0",
            "They part at 4 ms on p0. Up to then it runs d0v0 of a in both; from then on it",
            "  one.txt    runs d1v0 of b, up to 7 ms",
            "  other.txt  idles, up to 10 ms"])

    def test_entries_alone_differ(self):
        status, said, _ = self.part(lambda its: [line.replace("due 7000000", "due 7000001") for line in its])
        self.assertEqual((status, said[3:]), (1, ["Each processor does the same at each moment in both: only the entries differ."]))

    def test_one_is_cut(self):
        status, said, _ = self.part(lambda its: its[:9])
        self.assertEqual((status, said[0], said[2:]), (1, "Equal at the beginning: 9 entries. Entry 10 is", ["  other.txt  ends before it", "Up to where other.txt is cut each processor does the same in both."]))

    def test_wrong_words(self):
        domains, _, lines = stored(TURNS)
        for more in ([domains], [domains, domains, domains], [domains, domains], [domains, domains, "--csv"], ["/dev/null", "/dev/null"]):
            self.assertEqual(called("tools/compare", "--schedules", domains, *more)[0], 2)


class Rows(unittest.TestCase):
    FILES = ("examples/measures/domains.toml", "examples/answers/cap.toml")

    def studies(self, folder):
        """Two written studies: of a machine with two domains on one core, and of the same with less entries counted."""
        for k, part in enumerate(([], ["--from", "10ms"])):
            status, out, _ = called("tools/study", TOP / self.FILES[0], TOP / "examples/measures/schedule.txt", "--json", *part)
            self.assertEqual(status, 0)
            pathlib.Path(folder, f"{'ab'[k]}.json").write_text(out)
        return [f"{folder}/a.json", f"{folder}/b.json"]

    def rows(self, *words):
        with tempfile.TemporaryDirectory() as folder:
            status, out, err = called("tools/compare", *self.studies(folder), "--json", "--rows", "0", *words)
        return json.loads(out) if not status else (status, err)

    def test_of_a_name(self):
        everything = self.rows()
        self.assertEqual(self.rows("--of", "a"), [row for row in everything if row["of"].split(" ")[0] in ("d0v0", "d0u0", "a")])
        self.assertEqual(self.rows("--of", "d0"), self.rows("--of", "a"))
        self.assertEqual({row["of"] for row in self.rows("--of", "d1v0")}, {"d1v0 b"})
        # the only pool has both domains, and the core
        self.assertEqual(self.rows("--of", "Pool-0"), everything)
        self.assertEqual(self.rows("--of", "a", "--of", "b"), [row for row in everything if row["of"] not in ("Pool-0", "c0")])
        self.assertEqual(self.rows("--of", "zed"), (2, "compare: no machine has a domain, vCPU, unit, pool or core 'zed'; the domains are a, b\n"))

    def test_several_comparisons(self):
        with tempfile.TemporaryDirectory() as folder:
            a, b = self.studies(folder)
            text = called("tools/compare", a, b, ",", a, a)[1]
            self.assertEqual(text.split("\n\n")[1], "of  figure  a  a  differ by\n0 figures differ; times in ms\n".replace("a  a", f"{a}  {a}"))
            found = list(csv.DictReader(io.StringIO(called("tools/compare", a, b, ",", b, a, b, "--csv")[1])))
            self.assertEqual({row["compared"] for row in found}, {"a , b", f"{b} , {a} , {b}"})
            self.assertEqual({row["value 3"] == "" for row in found if row["compared"] == "a , b"}, {True})
            for words in ([a, b, ","], [a, ",", b], [",", a, b], [a, b, "--work", "x,y,z"]):
                self.assertEqual(called("tools/compare", *words)[0], 2)

    @BUILT
    def test_a_work_file_for_each_machine(self):
        with tempfile.TemporaryDirectory() as folder:
            machine, work = pathlib.Path(folder, "one.toml"), pathlib.Path(folder, "pause.txt")
            machine.write_text('format = 1\nprocessors = 1\nhorizon_ns = 10000000\n[[domain]]\nname = "a"\nguests = [[]]\n')
            work.write_text("4000000 xl pause a\n")
            status, out, _ = called("tools/compare", machine, machine, machine, "--work", f"{work},,{work}", "--json")
        found = {(row["table"], row["figure"]): row["values"] for row in json.loads(out)}
        self.assertEqual((status, found["vcpus", "runs_ns"]), (0, [4_000_000, 10_000_000, 4_000_000]))


if __name__ == "__main__":
    unittest.main()
