"""What is built of the program, and of which sources.

The launcher's tools share this, and so do the scripts that try the program or time it. The sources of the program are those of its crate
and of all crates below it: their lines of crates.txt, their src/, specs/ and proofs/, and the file HANDLES. Beside a built program stands its
stamp, a file of lines `KEY: VALUE` that the build writes last: the sum of the sources, the sum of the program, the commit, the toolchain, what
proved it, and the date. A program is taken for what its stamp says only where both sums are those of the files.
"""
import contextlib
import functools
import hashlib
import os
import pathlib
import shutil
import subprocess
import sys
import time

TOP = pathlib.Path(__file__).resolve().parent.parent
CRATE = "xensched"
PARTS = ("src", "specs", "proofs")
OUT = TOP / "crates" / CRATE / "out"
PROGRAM = OUT / CRATE
TRIAL = OUT / "trial" / CRATE
# What the launcher ends with where it could not do what it was asked.
FAILED = 70
# The clock of the files may lag behind by a tick.
TICK = 20_000_000


def say(text):
    """Writes a line of the launcher on standard error, where there is one."""
    if sys.stderr is not None:
        with contextlib.suppress(OSError):
            print(f"launcher: {text}", file=sys.stderr, flush=True)


def crates_below(top=TOP, name=CRATE):
    """The crates that this one stands on, lowest first and itself the last: of each its line of crates.txt and the names of those that it uses."""
    lines, found = {}, {}
    for line in (top / "crates.txt").read_text().splitlines():
        line = line.split("#")[0].strip()
        if ":" in line:
            lines[line.split(":")[0].split()[0]] = line

    def visit(crate):
        if crate in lines and crate not in found:
            uses = [it for it in lines[crate].split(":")[1].split() if it in lines]
            for below in uses:
                visit(below)
            found[crate] = lines[crate], uses

    visit(name)
    return found


def files_of(folder):
    """The files of a crate that its proof reads, in order."""
    for part in PARTS:
        for at, folders, files in os.walk(folder / part):
            folders.sort()
            yield from (pathlib.Path(at) / file for file in sorted(files))


def sums(top=TOP):
    """For each crate that the program stands on, itself the last, the sum of its sources and of all below it."""
    handles, found = (top / "HANDLES").read_bytes() if (top / "HANDLES").exists() else b"", {}
    for name, (line, uses) in crates_below(top).items():
        parts = hashlib.sha256(repr((handles, line, [found[it] for it in uses])).encode())
        for path in files_of(top / "crates" / name):
            text = path.read_bytes()
            parts.update(f"\0{path.relative_to(top)}\0{len(text)}\0".encode())
            parts.update(text)
        found[name] = parts.hexdigest()
    return found


def sum_of_sources(top=TOP):
    return sums(top)[CRATE]


def copy(to, *, parts=PARTS, files=(), top=TOP):
    """Makes a repository of the crates that the program stands on, with these parts and files of each, in the folder `to`."""
    crates = crates_below(top)
    for name in crates:
        here, there = top / "crates" / name, to / "crates" / name
        for part in parts:
            if (here / part).is_dir():
                shutil.copytree(here / part, there / part)
        for file in files:
            if (here / file).is_file():
                shutil.copyfile(here / file, there / file)
    (to / "crates.txt").write_text("".join(f"{line}\n" for line, _ in crates.values()))
    if (top / "HANDLES").exists():
        shutil.copyfile(top / "HANDLES", to / "HANDLES")
    # The toolchain takes the folder for the top of a repository.
    (to / ".git").mkdir()


def ending(path):
    """The last lines of a log, as they are shown behind a sentence."""
    lines = path.read_text(errors="replace").splitlines()[-8:]
    return "\n".join(f"  {line[:300]}" for line in lines)


def sum_of_file(path):
    with open(path, "rb") as file:
        return hashlib.file_digest(file, "sha256").hexdigest()


def stamp_of(program):
    return program.with_name("build.stamp")


def read_stamp(program):
    """The stamp of a program by its keys, or None where there is none of that very file."""
    try:
        lines = stamp_of(program).read_text().splitlines()
        stamp = dict(line.split(": ", 1) for line in lines)
        return stamp if os.access(program, os.X_OK) and stamp["program"] == sum_of_file(program) else None
    except (OSError, ValueError, KeyError):
        return None


def put_in_place(program, made, stamp, sources):
    """Puts a program that was made of these sources where it belongs, and then its stamp.

    The stamp is no newer than the last look at the sources, so that whoever asks what is newer than the stamp sees each later change. Where they
    have changed since the build took them, everything is newer than the stamp, and the answer is False.
    """
    program.parent.mkdir(parents=True, exist_ok=True)
    stamp_of(program).unlink(missing_ok=True)
    new = program.with_name(f"{program.name}.new")
    shutil.copyfile(made, new)
    new.chmod(0o755)
    os.replace(new, program)
    time.sleep(3 * TICK / 1e9)
    begun = time.time_ns() - TICK
    said = {"sources": sources, "program": sum_of_file(program), "commit": commit(), **stamp, "date": time.strftime("%Y-%m-%d %H:%M UTC", time.gmtime())}
    is_same = sum_of_sources() == sources
    new.write_text("".join(f"{key}: {value}\n" for key, value in said.items()))
    os.utime(new, ns=(begun, begun) if is_same else (0, 0))
    os.replace(new, stamp_of(program))
    return is_same


def renew(program, begun):
    """Notes that the sources as they were at this moment are those of the program, where the stamp can be written."""
    with contextlib.suppress(OSError):
        os.utime(stamp_of(program), ns=(begun, begun))


def git(*words):
    """What git answers in this checkout, or None where there is no answer."""
    try:
        done = subprocess.run(["git", "-C", TOP, *words], capture_output=True, text=True)
    except OSError:
        return None
    return done.stdout.strip() if done.returncode == 0 and (TOP / ".git").exists() else None


def version():
    """The version that these sources are to be, or become."""
    try:
        return (TOP / "VERSION").read_text().strip()
    except OSError:
        return "of no version"


def commit():
    """The commit of the sources, and whether they differ from it."""
    head, changed = git("rev-parse", "--short=12", "HEAD"), git("status", "--porcelain", "--", "crates", "crates.txt", "HANDLES")
    return "unknown" if head is None else f"{head} with changes" if changed else head


def kit():
    """The one line by which the toolchain names itself, or a sentence that says what is missing; the first is None where it is the second."""
    place = shutil.which("rt")
    if place is None:
        return None, "the toolchain is not there: no `rt` in PATH; README.md says under Set up what is needed"
    try:
        done = subprocess.run(["rt", "version"], capture_output=True, text=True, stdin=subprocess.DEVNULL)
    except OSError as fault:
        return None, f"the toolchain does not start: {place}: {fault.strerror}"
    if not done.stdout.startswith("rattle-kit"):
        return None, f"`rt` in PATH, {place}, is not that of a Rattle toolchain; README.md says under Set up what is needed"
    return done.stdout.strip(), None


@functools.cache
def proved_program():
    """The proved program of these sources, or one that the variable XENSCHED_PROGRAM names. Where there is none this says so and ends."""
    named = os.environ.get("XENSCHED_PROGRAM")
    if named:
        return pathlib.Path(named).resolve()
    stamp = read_stamp(PROGRAM)
    if stamp is None or stamp["sources"] != sum_of_sources():
        sys.exit(f"the proved program of these sources is not there: {TOP / CRATE} --build makes it; XENSCHED_PROGRAM may name another one")
    return PROGRAM
