"""The checks of the pages: a fault of each kind is planted in a copy of the repository, and has to be found."""
import pathlib
import re
import shutil
import subprocess
import sys
import tempfile
import unittest

from support import TOP

MAKERS = ("map", "believe", "check_pages")


def copy_to(top):
    """A copy of the repository: its pages and the scripts that check them, and links to all else."""
    def link(path):
        (top / path).symlink_to(TOP / path)

    for name in ("README.md", "CONTRIBUTING.md", "crates.txt"):
        shutil.copy(TOP / name, top)
    for name in ("docs", "beside-xen"):
        shutil.copytree(TOP / name, top / name, ignore=shutil.ignore_patterns("__pycache__"))
    for name in ("xensched", "HANDLES", "bench", "examples", "mutants", ".ci"):
        link(name)
    (top / "tools").mkdir()
    for path in (TOP / "tools").iterdir():
        if path.name in MAKERS:
            shutil.copy(path, top / "tools")
        else:
            link(f"tools/{path.name}")
    (top / "crates").mkdir()
    shutil.copy(TOP / "crates" / "README.md", top / "crates")
    for crate in (TOP / "crates").iterdir():
        if (crate / "src").is_dir():
            (top / "crates" / crate.name).mkdir()
            for path in crate.iterdir():
                if path.name != "README.md":
                    link(path.relative_to(TOP))
            shutil.copy(crate / "README.md", top / "crates" / crate.name)


def edits_of(crate):
    return [it.stem for it in (TOP / "crates" / crate / "must-fail").glob("*.edit")]


def said(top, tool="check_pages", *words):
    """What the copy's script says, line by line, and its status."""
    done = subprocess.run([sys.executable, str(top / "tools" / tool), *words], capture_output=True, text=True)
    return done.stdout.splitlines(), done.returncode


class Pages(unittest.TestCase):
    def setUp(self):
        folder = tempfile.TemporaryDirectory()
        self.addCleanup(folder.cleanup)
        self.top = pathlib.Path(folder.name).resolve()
        copy_to(self.top)

    def change(self, name, old, new):
        """Puts another text for the first such one of a page."""
        text = (self.top / name).read_text()
        self.assertIn(old, text)
        (self.top / name).write_text(text.replace(old, new, 1))

    def add(self, name, *lines):
        (self.top / name).write_text((self.top / name).read_text() + "".join(f"{line}\n" for line in ("", *lines)))

    def test_a_fault_of_each_kind_is_found(self):
        before, _ = said(self.top)
        self.add("README.md", "A `name_that_nobody_has`, `examples/run_anything`, `Engine::step_back`, `rekey` of `due_heap`, `horizon_in_hours`, `--evnts`.")
        self.add("README.md", "A [file](docs/NOWHERE.md), a [head](docs/XL.md#no-such-head), an [own one](#nor-this).")
        self.add("README.md", "- 9,999 stored calls", "- 73 crates", "- 999 mutants", "- 99 worked examples", "- 999 laws", "- 99 stored runs")
        self.add("README.md", "- 9,999 definitions", "- measured with 61 crates")
        self.add("README.md", "```", "pub fn law_headline()", "    ensures whole { (m : Machine) → IsWholeRun m }", "```")
        self.add("README.md", "```", "file: src/rtds.rt", "old: deadline", "new: no deadline", "```")
        self.add("docs/XL.md", "`no_such_word` in a page of docs/.")
        self.add("docs/XL.md", "It is the clause `no_such_clause`; `crates/runq/must-fail/` has `nothing_is_written`.")
        self.change("docs/PROMISES.md", "| `none_kept` |", "| `nothing_kept` |")
        self.change("crates/runq/README.md", "## Proved", "`Gone.antt` has it, and so do `specs/Gone.antt` and `Kept.antt`.\n\n## Proved")
        self.change("crates/runq/README.md", "## Depends on", "The contracts: `Runq::insert`, `judge`.\n\n## Depends on")
        self.change("crates/README.md", "xensched_top", "xensched_bottom")
        self.change("crates/due_heap/README.md", "## Tested only\n", "## Tried\n")
        after, status = said(self.top)
        found = [line for line in after[:-1] if line not in before]
        wanted = {
            "README.md": (
                "no source has the name name_that_nobody_has", "there is no file examples/run_anything",
                "Engine has no step_back", "no source has the name step_back, of `Engine::step_back`",
                "due_heap has no rekey", "no source has the name horizon_in_hours", "no source has the name evnts, of `--evnts`",
                "the link docs/NOWHERE.md leads to no file", "the link docs/XL.md#no-such-head leads to no head of docs/XL.md",
                "the link #nor-this leads to no head of README.md",
                "9,999 stored calls: ", "73 crates: ", "999 mutants: ", "99 worked examples: ", "999 laws: ", "99 stored runs: ", "9,999 definitions: ",
                "no source has the contract pub fn law_headline() ensures ..", "no mutant is as it stands here: file: src/rtds.rt ..",
            ),
            "docs/XL.md": ("no source has the name no_such_word", "no source has the name no_such_clause", "no function has a clause no_such_clause",
                           "crates/runq/must-fail has no edit nothing_is_written", *(f"the edit {it} of crates/runq/must-fail is missing" for it in edits_of("runq"))),
            "docs/PROMISES.md": ("the top call has no clause nothing_kept", "the clause none_kept of the top call is missing"),
            "crates/runq/README.md": ("there is no file Gone.antt", "there is no file specs/Gone.antt", "there is no file Kept.antt", "runq has no judge"),
            "crates/README.md": ("no source has the name xensched_bottom",),
            "crates/due_heap/README.md": ("has no head Tested only",),
        }
        for page, faults in wanted.items():
            mine = [re.sub(rf"^{re.escape(page)}:\d+: ", "", line) for line in found if line.startswith(f"{page}:")]
            for fault in faults:
                with self.subTest(page=page, fault=fault):
                    self.assertEqual(sum(it.startswith(fault) for it in mine), 1, mine)
            self.assertEqual(len(mine), len(faults), mine)
        self.assertEqual(len(found), sum(len(it) for it in wanted.values()), found)
        self.assertRegex(after[-1], r"^\d+ pages, \d+ faults$")
        self.assertEqual(status, 1)

    def test_the_map_is_held_to_crates_txt(self):
        self.assertEqual(said(self.top, "map", "--check"), ([], 0))
        text = (self.top / "crates.txt").read_text()
        line = next(it for it in text.splitlines() if it.startswith("sched_model:"))
        self.change("crates.txt", f"{line}\n", "")
        self.add("crates.txt", "# of no line", "# the definitions, too late", line)
        faults, status = said(self.top, "map", "--check")
        early, stale = "sched_laws comes before sched_model, which it uses", ("crates/README.md:1: is stale", "crates/sched_model/README.md:1: is stale")
        for wanted in (early, "a comment that is of no line", *stale):
            self.assertTrue(any(wanted in it for it in faults), wanted)
        self.assertEqual(status, 1)
        said(self.top, "map")
        self.assertIn("the definitions, too late", (self.top / "crates" / "README.md").read_text())
        self.assertFalse(any("is stale" in it for it in said(self.top, "map", "--check")[0]))

    def test_a_crate_without_a_line_and_a_line_without_a_crate(self):
        text = (self.top / "crates.txt").read_text()
        self.change("crates.txt", next(f"{it}\n" for it in text.splitlines() if it.startswith("sound_laws:")), "lost_laws: sched_base\n")
        faults, _ = said(self.top, "map", "--check")
        self.assertTrue(any("crates/sound_laws has no line" in it for it in faults), faults)
        self.assertTrue(any("there is no crates/lost_laws/src" in it for it in faults), faults)

    def test_what_is_used_by_whom_goes_stale(self):
        self.change("crates/runq/README.md", "## Used by\n\n[credit2_core]", "## Used by\n\n[rtds_core]")
        self.change("crates/due_heap/README.md", " Map: ", " Mop: ")
        faults, _ = said(self.top, "map", "--check")
        self.assertEqual(faults, [f"crates/{it}/README.md:1: is stale: tools/map makes it anew" for it in ("due_heap", "runq")])

    def test_the_fast_side_does_not_use_the_reference(self):
        def faults():
            return [it for it in said(self.top)[0] if "of the fast side" in it]

        self.assertEqual(faults(), [])
        self.change("crates.txt", "\nrunq: ", "\nrunq: plain_pool sched_plain ")
        self.change("crates.txt", "\nsched_check: ", "\nsched_check: plain_pool ")
        self.change("crates.txt", "\nleaf_trials: ", "\nleaf_trials: sched_plain ")
        number = (self.top / "crates.txt").read_text().partition("\nrunq: ")[0].count("\n") + 2
        self.assertEqual(faults(), [f"crates.txt:{number}: crate runq of the fast side uses the reference crate {it}" for it in ("plain_pool", "sched_plain")])
        self.assertEqual(said(self.top)[1], 1)

    @unittest.skipUnless(shutil.which("rt"), "the toolchain is not in PATH")
    def test_what_a_reader_must_believe_goes_stale(self):
        self.change("docs/BELIEVE.md", "`IsWholeRun` ", "`IsAnyRun` ")
        self.assertEqual(said(self.top, "believe", "--check"), (["docs/BELIEVE.md:1: is stale: tools/believe makes it anew"], 1))
        said(self.top, "believe")
        self.assertEqual((self.top / "docs/BELIEVE.md").read_text(), (TOP / "docs/BELIEVE.md").read_text())


if __name__ == "__main__":
    unittest.main()
