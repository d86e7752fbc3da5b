"""Commands of the toolchain that work in a folder of their own, and end with whoever started them."""
import contextlib
import ctypes
import os
import pathlib
import shutil
import signal
import subprocess
import tempfile
import time

ENDING = (signal.SIGINT, signal.SIGTERM, signal.SIGHUP)
# How long a command that is asked to end may take before it is killed.
PATIENCE = 10


class Interrupted(BaseException):
    """This process was asked to end, by a signal."""

    def __init__(self, number):
        super().__init__(number)
        self.number = number


def stop_on_signals():
    """Has the signals that end this process raise Interrupted, so that what it started is ended and its folder is removed."""

    def stop(number, _):
        for it in ENDING:
            signal.signal(it, signal.SIG_IGN)
        raise Interrupted(number)

    for it in ENDING:
        if signal.getsignal(it) != signal.SIG_IGN:
            signal.signal(it, stop)


def end_by(number):
    """Ends this process as the signal would have."""
    signal.signal(number, signal.SIG_DFL)
    os.kill(os.getpid(), number)


def die_with_parent():
    """In a child, before its command begins: the kernel kills it where this process ends."""
    pr_set_pdeathsig = 1
    ctypes.CDLL(None).prctl(pr_set_pdeathsig, signal.SIGKILL)


def working_in(folder):
    """The processes whose folder is this one or lies in it: of each the folder and the name of its command."""
    found = {}
    for name in os.listdir("/proc"):
        if name.isdigit():
            with contextlib.suppress(OSError):
                at = pathlib.Path(os.readlink(f"/proc/{name}/cwd"))
                if at.is_relative_to(folder):
                    found[int(name)] = at, pathlib.Path(f"/proc/{name}/comm").read_text().strip()
    return found


def start(words, folder, room, **how):
    """Starts a command in a session of its own, which keeps its temporary files in the room."""
    environment = {**os.environ, "TMPDIR": str(room / "tmp")}
    how = {"stdin": subprocess.DEVNULL, **how}
    return subprocess.Popen(words, cwd=folder, env=environment, start_new_session=True, preexec_fn=die_with_parent, **how)


def end(process, room):
    """Ends a command, and then all that still work in its room."""
    if process.poll() is None:
        process.terminate()
        with contextlib.suppress(subprocess.TimeoutExpired):
            process.wait(PATIENCE)
    process.kill()
    process.wait()
    while left := working_in(room):
        for it in left:
            with contextlib.suppress(ProcessLookupError):
                os.kill(it, signal.SIGKILL)
        time.sleep(0.05)


@contextlib.contextmanager
def room(name):
    """A temporary folder with a folder tmp/ for the temporary files of commands. Others may pass through, since the toolchain runs programs as nobody."""
    sweep(name)
    at = pathlib.Path(tempfile.mkdtemp(prefix=f"{name}-{os.getpid()}-")).resolve()
    try:
        at.chmod(0o711)
        (at / "tmp").mkdir(0o711)
        yield at
    finally:
        shutil.rmtree(at, ignore_errors=True)


def sweep(name):
    """Removes the rooms of this name whose makers were killed."""
    for it in pathlib.Path(tempfile.gettempdir()).glob(f"{name}-*-*"):
        maker = it.name[len(name) + 1 :].split("-")[0]
        with contextlib.suppress(OSError):
            if maker.isdigit() and not os.path.exists(f"/proc/{maker}") and it.stat().st_uid == os.geteuid():
                shutil.rmtree(it, ignore_errors=True)
