"""A schedule of Xen's own scheduler code before the checker: examples/trace/whole.txt, which the table `checks` of beside-xen/run made of machine.toml."""
import pathlib
import subprocess
import tempfile
import unittest

from support import PROGRAM, TOP, study_of

DATA = TOP / "examples" / "trace"


@unittest.skipUnless(PROGRAM.exists(), "the program is not built")
class Checked(unittest.TestCase):
    def verdict(self, lines, *options):
        with tempfile.TemporaryDirectory() as folder:
            schedule = pathlib.Path(folder) / "schedule.txt"
            schedule.write_text("".join(f"{line}\n" for line in lines))
            done = subprocess.run([PROGRAM, "check", *options, DATA / "machine.toml", "/dev/null", schedule], capture_output=True, text=True)
        return done.stdout.splitlines()

    def setUp(self):
        self.lines = (DATA / "whole.txt").read_text().splitlines()

    def test_it_is_a_run(self):
        self.assertEqual(self.verdict(self.lines), [f"yes {len(self.lines)}"])

    def test_it_is_not_the_ordered_one(self):
        # each processor goes through its whole switch before the next begins
        self.assertEqual(self.verdict(self.lines, "--ordered"), ["no 2 NotFirst", "0 arrive p1"])

    def test_another_line_is_none(self):
        place = next(n for n, line in enumerate(self.lines) if " decide c0 d1u0 due " in line)
        for old, new, cause in (("c0 d1u0", "c0 d0u1", "Differs"), ("late 0", "late 1", "Differs"), ("decide c0", "decide c1", "NotEnabled")):
            changed = [*self.lines[:place], self.lines[place].replace(old, new), *self.lines[place + 1 :]]
            self.assertEqual(self.verdict(changed)[0], f"no {place + 1} {cause}")
        self.assertRegex(self.verdict(self.lines[:place] + self.lines[place + 1 :])[0], rf"no {place + 1} ")

    def test_the_study_reads_it(self):
        with tempfile.TemporaryDirectory() as folder:
            empty = pathlib.Path(folder) / "work.txt"
            empty.touch()
            study = study_of(DATA / "machine.toml", self.lines, empty)
        self.assertEqual((study.fault_count, study.finished), (0, True))


if __name__ == "__main__":
    unittest.main()
