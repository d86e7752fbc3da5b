"""What tools/release writes, and when it refuses, in a repository whose gate and soak are two lines of sh."""
import os
import pathlib
import shutil
import subprocess
import tempfile
import unittest

TOP = pathlib.Path(__file__).resolve().parents[2]
GATE = "rt: ok, nothing was proved in this run\nmust-fail edits: 3 refused\n12 passed, 0 failed\n"
SOAK = "made: 8 machines, 74,194 entries, 0 failures\n0 failures\n"


class Release(unittest.TestCase):
    def setUp(self):
        folder = tempfile.TemporaryDirectory()
        self.addCleanup(folder.cleanup)
        self.top = pathlib.Path(folder.name) / "repository"
        for name, text in (("crates.txt", "xensched:\n"), ("crates/xensched/src/main.rt", "fn main() {}\n"), (".gitignore", "out/\n__pycache__/\n"), ("VERSION", "1.2.0\n")):
            (self.top / name).parent.mkdir(parents=True, exist_ok=True)
            (self.top / name).write_text(text)
        (self.top / "tools").mkdir()
        for name in ("release", "built.py"):
            shutil.copy(TOP / "tools" / name, self.top / "tools")
        # as the kit's gate, it makes the folder of what is built anew
        self.script(".ci/run", GATE, before="rm -rf crates/*/out")
        self.script("tools/soak", SOAK)
        self.script("tools/build", "built\n")
        self.script("../bin/rt", "rattle-kit-1 logic 1\n")
        self.git("init", "--quiet")
        self.commit()

    def script(self, name, text, status=0, before=""):
        """A script that writes this text, behind what it does before."""
        path = self.top / name
        path.parent.mkdir(parents=True, exist_ok=True)
        path.write_text(f"#!/bin/sh\n{before}\ncat <<'END'\n{text}END\nexit {status}\n")
        path.chmod(0o755)

    def git(self, *words):
        return subprocess.run(["git", "-c", "user.name=a", "-c", "user.email=a@b", *words], cwd=self.top, capture_output=True, text=True, check=True).stdout

    def commit(self):
        self.git("add", "--all")
        self.git("commit", "--quiet", "--allow-empty", "--message=a")

    def call(self, *words):
        names = {f"GIT_{who}_{what}": "a@b" for who in ("AUTHOR", "COMMITTER") for what in ("NAME", "EMAIL")}
        path = f"{self.top.parent / 'bin'}{os.pathsep}{os.environ['PATH']}"
        return subprocess.run([self.top / "tools" / "release", *words], capture_output=True, text=True, check=False, env={**os.environ, **names, "PATH": path})

    def refused(self, part, *words):
        done = self.call(*words)
        self.assertEqual((done.returncode, done.stdout), (1, ""))
        self.assertIn(part, done.stderr)
        self.assertEqual(self.git("tag"), "")

    def test_page(self):
        done = self.call("1.2.0")
        self.assertEqual(done.returncode, 0, done.stderr)
        lines = done.stdout.splitlines()
        self.assertEqual(lines[0], "xensched 1.2.0")
        for line in (f"commit {self.git('rev-parse', 'HEAD').strip()}", "toolchain rattle-kit-1 logic 1", *GATE.splitlines(), *SOAK.splitlines(), "The soak, tools/soak --minutes 60, 0 minutes:"):
            self.assertIn(line, lines)
        self.assertEqual(self.git("tag"), "")

    def test_tag(self):
        done = self.call("--tag", "--minutes", "5", "1.2.0")
        self.assertEqual(done.returncode, 0, done.stderr)
        self.assertEqual(self.git("tag", "--list", "--format=%(contents)").strip(), done.stdout.strip())
        self.assertEqual(self.call("1.2.0").returncode, 1)

    def test_refusals(self):
        self.refused("no version", "1.2")
        self.refused("the file VERSION says 1.2.0", "1.3.0")
        (self.top / "crates" / "xensched" / "src" / "main.rt").write_text("\n")
        self.refused("not committed", "1.2.0")

    def test_gate_fails(self):
        self.script(".ci/run", "11 passed, 1 failed\n", 1)
        self.commit()
        self.refused("11 passed, 1 failed", "--tag", "1.2.0")

    def test_gate_says_nothing(self):
        self.script(".ci/run", "hello\n")
        self.commit()
        self.refused("did not end with", "--tag", "1.2.0")

    def test_soak_fails(self):
        self.script("tools/soak", "1 failure\n", 1)
        self.commit()
        self.refused("1 failure", "--tag", "1.2.0")


if __name__ == "__main__":
    unittest.main()
