"""Spoiled domain files and schedules through study, draw, compare and sweep: each call ends with a status and sentences, never with a traceback or a fault of the tool.

`tools/tests/test_spoiled.py 10000` makes so many calls, and says what came of them; in tools/try_tools there are a few. What wants the program is left out where it is not built.
"""
import collections
import contextlib
import json
import os
import pathlib
import random
import sys
import tempfile
import tomllib
import unittest

if __name__ == "__main__":
    sys.dont_write_bytecode = True
    sys.path[:0] = [str(pathlib.Path(__file__).resolve().parent.parent), str(pathlib.Path(__file__).resolve().parent)]

from support import PROGRAM, call, called, files_of, stored_runs
from xensched_tools import bad_files, checking, making, words

CALLS = int(os.environ.get("SPOILED", "400"))
MOST_SECONDS, MOST_ENTRIES = 60, 2000
# Values at the ends of what 64 bits and Python hold.
EXTREMES = ["9223372036854775807", "9223372036854775808", "-1", "0", "1000000000", "1" + "0" * 30, "9" * 5000, "1e400", "nan", "true", "''", "[]", "[[]]", "{}", "10000000000000", "1979-05-27"]


def oddity(status, text):
    """What a tool may not end with."""
    if status is None:
        return f"not over after {MOST_SECONDS} s"
    if words.FAULT in text or "Traceback" in text:
        return text[:400]
    if status not in (0, 1, 2, 3):
        return f"status {status}"
    if status == 2 and not text.strip():
        return "status 2 without a sentence"
    return None


def extreme(text, draw):
    """One number of the file is another, at the end of what a type holds."""
    lines = text.split(b"\n")
    keys = [at for at, line in enumerate(lines) if b" = " in line]
    if keys:
        at = draw.choice(keys)
        lines[at] = lines[at].split(b" = ")[0] + b" = " + draw.choice(EXTREMES).encode()
    return b"\n".join(lines)


class Campaign:
    """Calls of the tools on spoiled files of the stored runs."""

    def __init__(self, folder):
        self.folder, self.counts = pathlib.Path(folder), collections.Counter()
        self.runs = [(*map(pathlib.Path.read_bytes, files_of(each)), "\n".join([*lines, ""]).encode()) for each, lines in stored_runs() if len(lines) < 400]
        self.program = making.program_here()
        # long runs show nothing more, and would take minutes
        making.MOST_ENTRIES = MOST_ENTRIES

    def one(self, seed):
        """One spoiled file in one tool; what is wrong with how that ended, or None."""
        draw = random.Random(seed)
        good = dict(zip(("domains", "work", "schedule"), draw.choice(self.runs)))
        spoiled = draw.choice(["domains", "domains", "schedule"])
        ways = bad_files.WAYS[spoiled] | ({"extreme": extreme} if spoiled == "domains" else {})
        way = draw.choice(sorted(ways))
        good[spoiled] = ways[way](good[spoiled], draw)
        for name, text in good.items():
            (self.folder / name).write_bytes(text)
        self.check(good["domains"])
        tool, given = self.words_of(draw, spoiled)
        status, _, text = called(f"tools/{tool}", *given, seconds=MOST_SECONDS)
        self.counts[tool, status] += 1
        wrong = oddity(status, text)
        return wrong and f"seed {seed}, {tool}, {spoiled}, {way}: {wrong}"

    def check(self, text):
        """The checks of a domain file end too."""
        with contextlib.suppress(ValueError, RecursionError):
            checking.fault_of(tomllib.loads(text.decode("utf-8-sig")))

    def words_of(self, draw, spoiled):
        """A tool and its words."""
        domains, work, schedule = (self.folder / name for name in ("domains", "work", "schedule"))
        known = ["--work", work] if draw.random() < 0.5 else []
        kind = draw.choice(["study", "draw", "compare", "sweep"] if self.program and spoiled == "domains" else ["study", "draw"])
        if kind == "study":
            form = draw.choice([[], ["--csv"], ["--json"], ["--html", self.folder / "page.html"], ["--each", self.folder / "each.csv"], ["--deadline", "d0=1ms", "--share", "d0=10%"], ["--csv", self.folder / "tables"]])
            part = draw.choice([[], [], ["--from", "1ms", "--to", "3ms"], ["--warmup", "300us"], ["--to", "2ms"]])
            return kind, [domains, schedule, *known, *part, *form]
        if kind == "draw":
            return kind, ["--form", draw.choice(["text", "svg", "trace"]), *known, domains, schedule]
        if kind == "compare":
            return kind, [f"{domains}@{draw.choice(['credit2', 'null', 'rtds'])}", domains, *known, "--rows", "0"]
        job = {"machine": str(domains), "work": str(work) if known else None, "settings": {"horizon_ns": 1_000_000}}
        return kind, ["--one", json.dumps(job)]


def run(count, first=0):
    """So many calls; what was wrong, and what came of them."""
    with tempfile.TemporaryDirectory() as folder:
        campaign = Campaign(folder)
        wrong = list(filter(None, map(campaign.one, range(first, first + count))))
    return wrong, campaign.counts


class Spoiled(unittest.TestCase):
    def test_calls(self):
        wrong, counts = run(CALLS)
        self.assertEqual(wrong, [])
        self.assertTrue({0, 2} <= {status for _, status in counts})

    def test_the_last_of_64_bits(self):
        """Too many processors are a sentence in each tool, as it is called."""
        with tempfile.TemporaryDirectory() as folder:
            path, schedule = pathlib.Path(folder, "domains.toml"), pathlib.Path(folder, "schedule")
            path.write_text("format = 1\nprocessors = 9223372036854775807\nhorizon_ns = 1\n")
            schedule.write_text("0 finish\n")
            for words_of_tool in (["tools/study", path, schedule], ["tools/draw", path, schedule], ["tools/compare", f"{path}@null", path], ["tools/sweep", "--machine", path, "--over", "horizon_ns=5"]):
                done = call(*words_of_tool)
                self.assertEqual((done.returncode, done.stdout), (2, ""), words_of_tool)
                self.assertRegex(done.stderr, r"\A\w+: [^\n]*(?:processors Range 9223372036854775807|the program|does not run|parallel)[^\n]*\n\Z")

    @unittest.skipUnless(PROGRAM.exists(), "the program is not built")
    def test_the_checks_are_those_of_the_program(self):
        """What `checking` says of a spoiled domain file is what the program says."""
        import subprocess
        draw, compared = random.Random(1), 0
        runs = [files_of(each) for each, _ in stored_runs()]
        with tempfile.TemporaryDirectory() as folder:
            path, work = pathlib.Path(folder, "domains.toml"), pathlib.Path(folder, "work")
            work.touch()
            for _ in range(CALLS):
                text = draw.choice(runs)[0].read_bytes()
                ways = bad_files.WAYS["domains"] | {"extreme": extreme}
                text = ways[draw.choice(sorted(ways))](text, draw)
                try:
                    found = tomllib.loads(text.decode("utf-8-sig"))
                except (ValueError, RecursionError):
                    continue
                path.write_bytes(text)
                done = subprocess.run([PROGRAM, "run", "--ordered", "--events", "1", path, work], capture_output=True)
                if done.returncode == 3:
                    # not TOML to the program: numbers of more than 64 bits, or what TOML 1.1 has
                    continue
                fault = checking.fault_of(found)
                said = done.stderr.decode().strip().removeprefix("xensched: domains: ") if done.returncode == 4 else None
                self.assertEqual(fault, said, text)
                compared += 1
        self.assertGreater(compared * 10, CALLS)


if __name__ == "__main__":
    asked = [int(word) for word in sys.argv[1:]]
    faults, ended = run(*asked)
    print("\n".join(faults))
    print(f"{sum(ended.values())} calls, {len(faults)} faults; " + ", ".join(f"{tool} with status {status}: {count}" for (tool, status), count in sorted(ended.items(), key=str)))
    sys.exit(1 if faults else 0)
