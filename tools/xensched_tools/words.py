"""Times as people write them, and how a tool ends: with a sentence and a status, never with a traceback."""
import contextlib
import os
import re
import sys
import traceback

UNITS = {"ns": 1, "us": 1_000, "µs": 1_000, "ms": 1_000_000, "s": 1_000_000_000}
TIME = re.compile(r"(\d+(?:\.\d+)?)(ns|us|µs|ms|s)")
BARE = re.compile(r"\d+(?:\.\d+)?")

WRONG_WORDS, CONTRADICTION, FAILED = 2, 3, 70
# How a line begins that tells of a fault of the tool itself.
FAULT = "this is a fault of the tool, and not of what it was given"


class Refused(Exception):
    """What a tool cannot do, as a sentence for its user."""


def time_of(text):
    """The nanoseconds of `2ms`, `1.5s`, `300us` or `40ns`; only 0 needs no unit."""
    if text == "0":
        return 0
    if BARE.fullmatch(text):
        raise Refused(f"{text!r} has no unit: write {text}ns, {text}us, {text}ms or {text}s")
    found = TIME.fullmatch(text)
    if not found:
        raise Refused(f"{text!r} is no time: write digits and ns, us, ms or s, as 2ms")
    whole, _, part = found[1].partition(".")
    unit = UNITS[found[2]]
    span = int(whole) * unit + (int(part) * unit) // 10 ** len(part) if part else int(whole) * unit
    if part and int(part) * unit % 10 ** len(part):
        raise Refused(f"{text!r} is no whole number of nanoseconds")
    return span


def milliseconds(span):
    """A time in milliseconds, with as many decimals as it has, at most six."""
    whole, part = divmod(abs(round(span)), 1_000_000)
    sign = "-" if round(span) < 0 else ""
    return f"{sign}{whole}" + (f".{part:06}".rstrip("0") if part else "")


def percent(part):
    """A part of one as a percentage with two decimals."""
    return f"{100 * part:.2f}%"


def counted(count, name):
    """So many of what has this name."""
    return f"{count} {name}" if count == 1 else f"{count} {name}s"


def warn(name, text):
    """One line on standard error, behind what was written before it, also where both go to one place."""
    with contextlib.suppress(OSError, ValueError):
        sys.stdout.flush()
    print(f"{name}: {text}", file=sys.stderr)


def end_with(name, main):
    """Runs a tool's main function and ends with its status."""
    try:
        status = main()
        sys.stdout.flush()
    except Refused as refusal:
        warn(name, refusal)
        status = WRONG_WORDS
    except OSError as error:
        if isinstance(error, BrokenPipeError):
            # whoever reads has enough; the interpreter would complain when it flushes
            os.dup2(os.open(os.devnull, os.O_WRONLY), sys.stdout.fileno())
            status = 0
        else:
            warn(name, f"{error.filename or 'the output'}: {error.strerror}")
            status = WRONG_WORDS
    except KeyboardInterrupt:
        status = 130
    except MemoryError:
        warn(name, "there is not enough memory for it")
        status = WRONG_WORDS
    except Exception as fault:
        # a fault of the tool itself: where it is, in one line
        at = traceback.extract_tb(fault.__traceback__)[-1]
        warn(name, f"{FAULT}: {type(fault).__name__} in {os.path.basename(at.filename)}, line {at.lineno}: {fault}".splitlines()[0])
        status = FAILED
    sys.exit(status)
