"""The lock of a folder, for runs that share it."""
import contextlib
import fcntl
import sys


@contextlib.contextmanager
def alone_in(folder):
    """Nobody else fetches or builds in the folder meanwhile. Where another run does, this one says so and waits."""
    folder.mkdir(parents=True, exist_ok=True)
    with (folder / "lock").open("w") as lock:
        try:
            fcntl.flock(lock, fcntl.LOCK_EX | fcntl.LOCK_NB)
        except BlockingIOError:
            print(f"another run fetches or builds in {folder}; waiting for it", file=sys.stderr, flush=True)
            fcntl.flock(lock, fcntl.LOCK_EX)
        yield
