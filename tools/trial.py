"""The trial build: the program compiled without proof, with the toolchain's run-time checks, and what runs it.

`rt try` compiles a program with checks (indexes, sums, accesses), runs it once and throws it away. So that one build serves many runs, it is called
here from a folder that is the toolchain but for its linker: that links, and puts a copy of the linked program aside. A run of that copy has no limits
of its own. Where no linked program was seen, each run is one by `rt try`, with its limits.
"""
import contextlib
import fcntl
import os
import pathlib
import re
import shlex
import shutil
import signal
import subprocess
import tempfile
import time

import built
import children
from built import say

LOG = built.TRIAL.with_name("build.log")
# How many seconds pass between two lines that say that a trial is being built.
TELL = 30
# A run that ends soon, for the call that builds.
SMALL = ["make", "1", "1", "1", "domains"]
# The status with which a run ends where a check fails. The program has none so high.
CHECK_FAILED = 99
LINKER = """#!/bin/sh
# Links, and puts a copy of the program aside.
{linker} "$@" || exit
while [ $# -gt 1 ]; do
    if [ "$1" = -o ]; then
        cp "$2" {kept}.part && mv {kept}.part {kept}
    fi
    shift
done
"""


class NotBuilt(Exception):
    """There is no trial build, for the reason that this says."""


def link_all(one, other, but):
    """Gives a folder a link to each thing in another, but for some names."""
    other.mkdir()
    for it in one.iterdir():
        if it.name not in but:
            (other / it.name).symlink_to(it)


def watched_kit(to, kept):
    """Makes the toolchain anew in the folder `to`, by links, with a linker that copies what it linked to the file `kept`. Returns its `rt`."""
    guide = subprocess.run(["rt", "doc"], capture_output=True, text=True, stdin=subprocess.DEVNULL).stdout.strip()
    kit = pathlib.Path(guide).parent
    link_all(kit, to, ["bin", "toolchain"])
    # The toolchain's scripts find it by their own place, so they are copied and not linked.
    link_all(kit / "bin", to / "bin", ["rt", "rtlib.py"])
    for it in ("rt", "rtlib.py"):
        if (kit / "bin" / it).exists():
            shutil.copy(kit / "bin" / it, to / "bin" / it)
    link_all(kit / "toolchain", to / "toolchain", ["bin"])
    link_all(kit / "toolchain" / "bin", to / "toolchain" / "bin", ["ld.lld"])
    linker = to / "toolchain" / "bin" / "ld.lld"
    linker.write_text(LINKER.format(linker=shlex.quote(str(kit / "toolchain" / "bin" / "ld.lld")), kept=shlex.quote(str(kept))))
    linker.chmod(0o755)
    return to / "bin" / "rt"


def output_of(process, tell):
    """What the toolchain wrote, when it is over. It compiles all crates as one and says nothing before, so `tell` is told now and then how many seconds have passed."""
    begun = time.monotonic()
    while True:
        try:
            return process.communicate(timeout=TELL)[0]
        except subprocess.TimeoutExpired:
            tell(round(time.monotonic() - begun))


@contextlib.contextmanager
def made(change=lambda repository: None, tell=lambda seconds: None):
    """The sum of the sources and the program that a trial build of them makes, for as long as it is wanted; `change` may edit their copy first, and `tell` is told
    the seconds that have passed. None in place of the program where the toolchain keeps none."""
    with children.room("xensched-trial") as room:
        repository, kept = room / "repository", room / "kept"
        repository.mkdir()
        built.copy(repository)
        sources = built.sum_of_sources(repository)
        change(repository)
        words = [watched_kit(room / "kit", kept), "try", "--steps", "1", "--", *SMALL]
        LOG.parent.mkdir(parents=True, exist_ok=True)
        with open(LOG, "wb") as log:
            process = children.start(words, repository / "crates" / built.CRATE, room, stdout=subprocess.PIPE, stderr=log)
        try:
            wrote = output_of(process, tell)
        finally:
            children.end(process, room)
        if process.returncode or not wrote.startswith(b"format = 1\n"):
            raise NotBuilt(f"the trial build failed; what the toolchain said is in {LOG}, and ends so:\n{built.ending(LOG)}")
        yield sources, kept if kept.exists() else None


def build(kit):
    """Builds the trial of the sources as they are, and puts it where the launcher finds it. Where it cannot be kept, its stamp says so."""
    def tell(seconds):
        say(f"the trial is being built since {seconds} seconds: {len(built.crates_below())} crates, compiled as one")

    with made(tell=tell) as (sources, kept), tempfile.NamedTemporaryFile("w") as none:
        none.write("#!/bin/sh\n# A trial that could not be kept: the launcher runs `rt try` in its place.\nexit 70\n")
        none.flush()
        built.put_in_place(built.TRIAL, kept or none.name, {"kit": kit, "proof": "none", "kept": "yes" if kept else "no"}, sources)


def stamp_of_these(sources):
    """The stamp of the trial build of these sources, or None where there is none."""
    stamp = built.read_stamp(built.TRIAL)
    return stamp if stamp and stamp["sources"] == sources else None


def ready(sources):
    """The stamp of the trial build of these sources, which is built where it is not there. One call builds, and others wait for it."""
    stamp = stamp_of_these(sources)
    if stamp:
        return stamp
    kit, missing = built.kit()
    if missing:
        raise NotBuilt(missing)
    try:
        built.TRIAL.parent.mkdir(parents=True, exist_ok=True)
        with open(built.TRIAL.with_name("build.lock"), "w") as lock:
            try:
                fcntl.flock(lock, fcntl.LOCK_EX | fcntl.LOCK_NB)
            except BlockingIOError:
                say("another call is building a trial of these sources now: waiting for it")
                fcntl.flock(lock, fcntl.LOCK_EX)
            if not stamp_of_these(sources):
                say(f"a trial of these sources, {len(built.crates_below())} crates, is being built now, once: some two minutes")
                build(kit)
    except OSError as fault:
        raise NotBuilt(f"the trial could not be built: {fault}") from fault
    stamp = stamp_of_these(sources)
    if not stamp:
        raise NotBuilt("the sources changed while the trial was built: call again")
    return stamp


def run(words, stamp):
    """Runs the trial build with these words. Returns its status, or, behind a sentence, that of the launcher where it could not do the run."""
    if stamp.get("kept") == "no":
        return run_by_toolchain(words)
    environment = {**os.environ, "ASAN_OPTIONS": f"exitcode={CHECK_FAILED}"}
    try:
        process = subprocess.Popen([built.TRIAL, *words], env=environment, preexec_fn=children.die_with_parent)
    except OSError as fault:
        raise NotBuilt(f"the trial build does not start: {fault.strerror}") from fault
    try:
        return told(process.wait())
    except children.Interrupted as asked:
        process.send_signal(asked.number)
        process.wait()
        raise


def told(status):
    """The status of a run that ended, or, behind a sentence, that of the launcher where the run was cut off."""
    if 0 <= status < 10:
        return status
    if -status in (*children.ENDING, signal.SIGPIPE, signal.SIGQUIT):
        children.end_by(-status)
    if status == CHECK_FAILED:
        say("the trial build stopped at a check, and what was written so far is not a whole output; the lines above say where")
    elif -status == signal.SIGKILL:
        say("the trial build was killed, most likely since memory was short; what was written so far is not a whole output")
    else:
        how = f"by signal {-status}" if status < 0 else f"with status {status}"
        say(f"the trial build ended {how}, which the program never does; it wants address space without a limit (`ulimit -v unlimited`) and a stack of 8 MiB (`ulimit -s 8192`)")
    return built.FAILED


def run_by_toolchain(words):
    """Makes one run by `rt try` itself, which hands over the output of a run of at most 60 seconds that writes at most 1 MiB."""
    say("this toolchain keeps no trial build, so each run builds it anew, and has at most 60 seconds and 1 MiB of output")
    data, given = [], []
    for word in words:
        if os.path.isfile(word):
            name = f"file-{len(given)}"
            data += ["--data", f"{name}={os.path.abspath(word)}"]
            given.append(name)
        else:
            given.append(word)
    with tempfile.TemporaryFile() as output, children.room("xensched-trial") as room:
        how = {"stdin": None, "stdout": output, "stderr": subprocess.PIPE}
        process = children.start(["rt", "try", "--steps", "1", *data, "--", *given], built.TOP / "crates" / built.CRATE, room, **how)
        try:
            said = process.communicate()[1].decode(errors="replace")
        finally:
            children.end(process, room)
        ended = re.search(r"^run=ended status=(\d+) .*proved=no$", said, re.M)
        if not ended:
            say(f"`rt try` gave no output of that run, and ends so:\n" + "\n".join(f"  {it}" for it in said.splitlines()[-4:]))
            return built.FAILED
        output.seek(0)
        return hand_over(output, int(ended[1]), re.findall(r"^xensched: .*$", said, re.M))


def hand_over(output, status, lines):
    """Writes what a run wrote, and its line on standard error."""
    try:
        with open(1, "wb", closefd=False) as to:
            shutil.copyfileobj(output, to)
    except OSError:
        status, lines = 6, ["xensched: cannot write"]
    with contextlib.suppress(OSError), open(2, "w", closefd=False) as to:
        to.writelines(f"{line}\n" for line in lines)
    return status
