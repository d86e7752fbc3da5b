"""Calls of the program with a limit of time, and what each may end with: the statuses and the lines of docs/FORMATS.md."""
import os
import re
import subprocess
from typing import NamedTuple

from .words import Refused

# A call that takes longer counts as hung.
SECONDS = 120
STATUSES = {
    "run": {0, 2, 3, 4, 5, 6, 7, 8}, "report": {0, 2, 3, 4, 5, 6, 7, 8}, "watch": {0, 2, 3, 4, 5, 6, 7, 8},
    "load": {0, 3, 4, 5, 6, 7, 8}, "make": {0, 6, 8}, "check": {0, 2, 3, 4, 5, 6, 8, 9},
}
LINES = {
    0: "", 1: "xensched: usage\n", 2: "xensched: cannot read\n", 3: "xensched: not TOML\n",
    4: r"xensched: domains: (?:top|pool|domain) \d+ [^\n]* (?:Missing|Kind|Range -?\d+|Twice|NoSuch|Empty|Unknown)\n",
    5: r"xensched: work: line \d+ (?:Number|Word|Target|Order|Many)\n", 6: "xensched: cannot write\n",
    7: r"xensched: full at \d+ entries\n", 8: "xensched: no memory\n", 9: "xensched: not a run\n",
}
# With these nothing is written: the words or a file were refused.
REFUSALS = range(1, 6)


class Ended(NamedTuple):
    """How a call ended; the status is None where it hung, and negative where a signal ended it."""

    status: int | None
    out: bytes
    err: bytes


def program_of(ask):
    """The program that this function names, `built.proved_program`. Where there is none it ends the process; here that is a refusal, since status 1 says something else."""
    try:
        program = ask()
    except SystemExit as missing:
        raise Refused(missing.code) from None
    if not os.access(program, os.X_OK) or os.path.isdir(program):
        raise Refused(f"{program} is no program")
    return program


def call(program, words, folder, seconds=SECONDS):
    """Makes a call and waits for its end."""
    try:
        done = subprocess.run([program, *map(str, words)], cwd=folder, stdin=subprocess.DEVNULL, capture_output=True, timeout=seconds)
    except subprocess.TimeoutExpired as late:
        return Ended(None, late.stdout or b"", late.stderr or b"")
    return Ended(done.returncode, done.stdout, done.stderr)


def oddity(command, ended):
    """What the pages do not allow of this ending, as a short name, or None."""
    status, out, err = ended
    if status is None:
        return "hung"
    if status < 0:
        return f"ended by signal {-status}"
    if status not in STATUSES[command]:
        return f"status {status} is none of {command}"
    if not re.fullmatch(LINES[status], err.decode("utf-8", "replace")):
        return f"another line on standard error with status {status}"
    if status in REFUSALS and out:
        return f"output with status {status}"
    if status in (0, 7, 9) and not out:
        return f"no output with status {status}"
    return None
