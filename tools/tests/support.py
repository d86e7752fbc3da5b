"""What the tests share: the stored runs, small machines, and calls of the tools."""
import contextlib
import io
import os
import pathlib
import re
import runpy
import signal
import subprocess
import sys

from xensched_tools import tables
from xensched_tools.machine import machine_of, read_machine, read_work
from xensched_tools.measures import Study

TOP = pathlib.Path(__file__).resolve().parent.parent.parent
PROGRAM = pathlib.Path(os.environ.get("XENSCHED_PROGRAM") or TOP / "crates" / "xensched" / "out" / "xensched").resolve()
CASES = TOP / "crates" / "xensched_trials"
END = re.compile(r"^-- (\d+)(?: (.*))?\n", re.M)


def stored_runs():
    """Each stored call of `run --ordered` that wrote a schedule: its words, and the schedule's lines."""
    text, at = (CASES / "stdout").read_text(), 0
    for line in (CASES / "stdin").read_text().splitlines():
        end = END.search(text, at)
        if line.startswith("run --ordered ") and end[1] in "07":
            yield line.split(" "), text[at + len(line) + 4 : end.start()].splitlines()
        at = end.end()


def files_of(words):
    """The domain file and the work file of a stored call."""
    return [CASES / "data" / word for word in words[-2:]]


def stored(name):
    """The first stored run of this folder: its domain file, its work file and the lines of its schedule."""
    return next((*files_of(words), lines) for words, lines in stored_runs() if words[-2].startswith(f"{name}/"))


def study_of(domains, lines, work=None, each=None):
    """The study of these files."""
    return Study(read_machine(domains), read_work(work) if work else None, each).follow(lines)


def studied(name):
    """The study of a stored run."""
    domains, work, lines = stored(name)
    return study_of(domains, lines, work)


def follow_stored(name, prepare):
    """The study of a stored run, and what was made of it before its first line."""
    domains, work, lines = stored(name)
    study = Study(read_machine(domains), read_work(work))
    made = prepare(study)
    return study.follow(lines), made


def study_of_machine(described, text):
    """The study of a machine, as a domain file would describe it, and of a schedule."""
    return Study(machine_of(described, "a machine")).follow(text.splitlines())


def row(study, table, *names):
    """A row of a study's table, by key, in nanoseconds; its first columns have these values."""
    made = tables.TABLES[table](study)
    return next(record for record, values in zip(made.records(), made.rows) if tuple(values[: len(names)]) == names)


def part_of(test, record, **wanted):
    """The record has these values."""
    test.assertEqual({key: record[key] for key in wanted}, wanted)


def call(tool, *words, text="", timeout=120):
    """A call of a tool by its path below the top folder."""
    return subprocess.run([sys.executable, TOP / tool, *map(str, words)], input=text, capture_output=True, text=True, cwd=TOP, timeout=timeout, env={**os.environ, "COLUMNS": "80", "XENSCHED_PROGRAM": str(PROGRAM)})


class Late(BaseException):
    """A call that does not end in time."""


def _late(*_):
    raise Late


def called(tool, *words, seconds=120):
    """A call of a tool within this process, which takes a tenth of the time: its status (None where it is not over in time), what it writes, and what on standard error."""
    out, err = io.StringIO(), io.StringIO()
    argv, handler, status = sys.argv, signal.signal(signal.SIGALRM, _late), 0
    sys.argv = [tool, *map(str, words)]
    signal.alarm(seconds)
    try:
        with contextlib.redirect_stdout(out), contextlib.redirect_stderr(err):
            runpy.run_path(str(TOP / tool), run_name="__main__")
    except SystemExit as end:
        status = end.code or 0
    except Late:
        status = None
    finally:
        signal.alarm(0)
        signal.signal(signal.SIGALRM, handler)
        sys.argv = argv
    return status, out.getvalue(), err.getvalue()
