"""A machine run by Xen's own scheduler code, in the harness of beside-xen: its schedule, in the lines of xensched."""
import collections
import dataclasses
import errno
import itertools
import pathlib
import re
import shutil
import subprocess
import sys
import tomllib

from . import making, premises
from .machine import read_work
from .measures import Study
from .words import Refused, warn

sys.path.append(str(making.TOP / "beside-xen" / "tools"))
import build
import fetch
import lock
import plan
import whole

MOST_PROCESSORS = 62        # the harness has a place for the toolstack besides
SECONDS = 600
MOST_SLOP = 10**9
MOST_ENTRIES = 100_000      # of one moment: more is a switch to and fro in no time
ENDLESS, BUG = 4, 70        # statuses of the harness
ANSWER = re.compile(r"^\d+ xl (\d+) (ok|refused) (-?\d+)$", re.M)
ADDRESS = re.compile(r"no such address, in the code at (\w+), moment (-?\d+)")


class Stopped(Refused):
    """Xen's code has stopped, or would go on for ever in one moment. `lines` are the schedule before that moment."""

    def __init__(self, text, lines):
        super().__init__(text)
        self.lines = lines


@dataclasses.dataclass(frozen=True)
class Host:
    """What Xen finds when it boots: its parameters, the host's sockets and cores; and the changes of its code."""

    runqueue: str = premises.QUEUE_KINDS[0]
    most: int = premises.RUN_QUEUE
    sockets: int = 1
    threads: int | None = None
    changes: tuple = ()
    folder: pathlib.Path = fetch.FOLDER
    seconds: int = SECONDS
    slop: int | None = None     # nanoseconds; without it timers are never late

    def options(self, machine):
        """The words of the harness's input."""
        threads = self.threads or machine.granularity
        if threads % machine.granularity:
            raise Refused(f"--threads {threads}: a core of the machine has {machine.granularity} processors that decide together")
        per_socket, rest = divmod(machine.processors, self.sockets)
        if rest or per_socket % threads:
            raise Refused(f"{machine.processors} processors are not {self.sockets} sockets of whole cores of {threads}")
        return (f"credit2_runqueue={self.runqueue}", f"sched_credit2_max_cpus_runqueue={self.most}", f"siblings={threads}", f"socket={per_socket}", "whole",
                *(() if self.slop is None else (f"slop={self.slop}",)))


def add_words(parser):
    """The words that say what Xen boots on."""
    host = Host()
    parser.add_argument("--runqueue", choices=premises.QUEUE_KINDS, default=host.runqueue, help=f"credit2_runqueue of Xen's command line: Credit2 has a run queue for each ({host.runqueue})")
    parser.add_argument("--max-cpus-runqueue", type=int, default=host.most, metavar="N", help=f"sched_credit2_max_cpus_runqueue: a run queue has at most so many processors ({host.most})")
    parser.add_argument("--sockets", type=int, default=host.sockets, metavar="N", help="the sockets of the host, which have as many processors each (1)")
    parser.add_argument("--threads", type=int, metavar="N", help="the processors of a core of the host, threads_per_core of xl info (the granularity of the machine)")
    parser.add_argument("--slop", type=int, metavar="NS", help="timer_slop: timers are Xen's own, which come up to so many nanoseconds late; 50000 on a host that sets nothing (timers are never late)")
    parser.add_argument("--changes", default="", metavar="NAME,..", help="changes of Xen's code, scripts of beside-xen/changes (none: Xen as it is)")
    parser.add_argument("--folder", type=pathlib.Path, default=host.folder, help="where Xen's source and what is built of it are kept (~/.cache/beside-xen)")
    parser.add_argument("--seconds", type=int, default=host.seconds, metavar="N", help=f"a run that takes longer has no end ({host.seconds})")


def host_of(given):
    """The host of these words."""
    for name, value in (("--max-cpus-runqueue", given.max_cpus_runqueue), ("--sockets", given.sockets), ("--threads", given.threads), ("--seconds", given.seconds)):
        if value is not None and value < 1:
            raise Refused(f"{name} {value}: a number from 1 on")
    if given.slop is not None and not 0 <= given.slop <= MOST_SLOP:
        raise Refused(f"--slop {given.slop}: nanoseconds, 0 to {MOST_SLOP}")
    changes = tuple(name for name in given.changes.split(",") if name)
    known = sorted(path.stem for path in (build.HERE / "changes").glob("*.sed"))
    for name in changes:
        if name not in known:
            raise Refused(f"{name!r} is no change of Xen's code; these are: {', '.join(known)}")
    return Host(given.runqueue, given.max_cpus_runqueue, given.sockets, given.threads, changes, given.folder, given.seconds, given.slop)


def harness(host, tool):
    """Xen's code with the harness around it, and its version. The first time its source is fetched and all is compiled."""
    def tell(text):
        print(f"{tool}: {text}", file=sys.stderr, flush=True)

    def want(name, package):
        if shutil.which(name) is None:
            raise Refused(f"Xen's code has to be {'compiled' if name == 'gcc' else 'fetched'}, and there is no {name} here (Debian's package {package}); beside-xen/README.md says what it wants")

    try:
        if fetch.unpacked(host.folder, fetch.TRIED) is None:
            want("apt-get", "apt")
            want("dpkg-source", "dpkg-dev")
            tell(f"the first time Xen's source is fetched and compiled, which takes a minute or more; it is kept in {host.folder}")
        with lock.alone_in(host.folder):
            xen = fetch.source(host.folder)
        version = fetch.check(xen, False)
        builder = build.Builder(xen, build.place_for(host.folder, xen), tell)
        changes = host.changes if "credit2-refill" in host.changes else (*host.changes, "credit2-tell")
        if not builder.is_built(changes):
            want("gcc", "gcc")
        return builder.program(changes), version
    except (fetch.Refused, build.Failed) as fault:
        raise Refused(" ".join(str(fault).split("\n")[:2])) from None


def carried(machine, lines, answers):
    """How many of the lines of the work file have a counterpart, after these answers: what a command names hangs on those before it."""
    described = tomllib.loads(machine.text())
    commands = plan.Commands(described, plan.pools_of(described), answers)
    for number, line in enumerate(lines):
        try:
            commands.line(line.split())
        except (plan.NoCounterpart, KeyError, ValueError, IndexError, StopIteration):
            return number
    return len(lines)


def refuse(line):
    raise Refused(f"the line {line!r} of the work file cannot be carried to Xen's code: it names nobody, or has a word that `xl` refuses")


def called(program, text, seconds):
    """The ended harness."""
    try:
        return subprocess.run([program, "-"], input=text, capture_output=True, text=True, timeout=seconds)
    except subprocess.TimeoutExpired:
        raise Stopped(f"Xen's code has not ended after {seconds} seconds (--seconds)", []) from None


def why_stopped(program, done):
    """The sentence for a harness that did not end as it should."""
    said = (done.stderr.strip().splitlines() or [""])[-1].removeprefix("beside: ")
    if found := ADDRESS.search(said):
        return f"Xen's code follows a pointer to nothing at {place_of(program, found[1])}, at {found[2]} ns"
    if done.returncode == ENDLESS:
        return f"Xen's code goes round and round: {said.replace('the moment ', 'the moment at ').replace(' has', ' ns has')}"
    if done.returncode == BUG:
        return f"Xen's code stops itself: {said.replace(str(pathlib.Path(program).parent) + '/', '')} ns"
    return f"Xen's code stops: {said or f'status {done.returncode}'}"


def place_of(program, address):
    """The function and line of an address in Xen's own files, where addr2line is there to say it: not that of a small function of a header that is put in."""
    if shutil.which("addr2line") is None:
        return f"address {address}"
    said = subprocess.run(["addr2line", "-f", "-i", "-s", "-e", program, address], capture_output=True, text=True).stdout.split("\n")
    return next((f"{line.split()[0]}, in {function}" for function, line in zip(said[::2], said[1::2]) if ".c:" in line), f"address {address}")


def answered(text):
    """Xen's answers in the order of the commands, and the words for each: of Xen there is a number alone."""
    found = ANSWER.findall(text)
    return [said for _, said, _ in found], {number: (said, f"{number} ok" if said == "ok" else f"{number} refused {-int(code)} {errno.errorcode.get(-int(code), 'unknown')}")
                                            for number, said, code in found}


def schedule(machine, work, host, tool):
    """The lines of the machine's schedule by Xen's code. `work` is the text of the work file."""
    if machine.processors > MOST_PROCESSORS:
        raise Refused(f"the machine has {machine.processors} processors, and Xen's code is run on at most {MOST_PROCESSORS}")
    for domain in machine.domains:
        if None in domain.guests:
            raise Refused(f"what the vCPUs of {domain.name} do is not known, so there is nothing to run")
    options = host.options(machine)
    told = [line for line in work.splitlines() if line.strip() and not line.startswith("#")]
    count = carried(machine, told, ())
    if count < len(told) and not any(" xl " in line for line in told[:count]):
        refuse(told[count])
    program, version = harness(host, tool)
    warn(tool, f"Xen {version}, {'as it is' if not host.changes else 'with ' + ', '.join(host.changes)}; " + ", ".join(options[:2])
         + f", {host.sockets} socket{'s' * (host.sockets > 1)}, cores of {host.threads or machine.granularity}"
         + ("" if host.slop is None else f", timer_slop {host.slop} ns"))
    answers = []
    while True:
        # at least one more answer is right each time, and mostly all are at once
        count = carried(machine, told, answers)
        done = called(program, plan.input_for(machine.text(), "\n".join(told[:count]), options, answers), host.seconds)
        found, words = answered(done.stdout)
        if answers + ["ok"] * (len(found) - len(answers)) == found:
            break
        answers = found
    if count < len(told) and not done.returncode:
        refuse(told[count])
    lines = whole.schedule_of(done.stdout, words, machine.horizon)
    if crowded := next((moment for moment, count in collections.Counter(line.partition(" ")[0] for line in lines).items() if count > MOST_ENTRIES), None):
        raise Stopped(f"Xen's code goes round and round: the moment at {crowded} ns has more than {MOST_ENTRIES} entries", before(lines, crowded))
    if done.returncode:
        raise Stopped(why_stopped(program, done), before(lines, lines[-1].partition(" ")[0]))
    return lines


def before(lines, moment):
    """The schedule before a moment: it has no line `finish`."""
    return list(itertools.takewhile(lambda line: not line.startswith(f"{moment} "), lines))


def studied(machine, work, host, tool, prepare=lambda study: None, kind=Study):
    """The study of the machine's schedule by Xen's code, of this class; `work` is the path of the work file, None for none."""
    study = kind(machine, read_work(work) if work else None)
    prepare(study)
    return study.follow(schedule(machine, pathlib.Path(work).read_text() if work else "", host, tool))
