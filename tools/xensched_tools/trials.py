"""Tries one machine: what several commands of the program say of it has to agree. docs/SOAK.md says what is claimed.

A trial is a function of two texts, the seed and the most entries, but for the order of free runs. So it can be made again, with fewer lines too.
"""
import collections
import pathlib
import random
import re
from typing import NamedTuple

from . import calls, faulty, spoiling
from .machine import read_machine, read_work
from .schedule import Follower
from .measures import Before, Reported, Study
from .promises import is_kept
from .wild import WRONG_WORDS
from .words import Refused

LOOK = re.compile(r"look (\d+) entries (\d+) at (\d+)")
LAST = re.compile(r"entries (\d+) end (\d+)")
# A watched run makes threads in each moment, so it is slow.
MOST_WATCHED = 1_000
SPOILED = 6
# Free runs of each machine; the last one's schedule is spoiled too.
FREE_RUNS = 3


class Failure(NamedTuple):
    """A claim that does not hold, by a name that stays the same where the files are made smaller; what was seen; the last call; the files as they were then."""

    claim: str
    seen: str
    words: tuple
    files: dict


class Texts(NamedTuple):
    """What a trial is made from; `made` are the words of `xensched make` where they made it."""

    domains: bytes
    work: bytes
    limit: int
    made: tuple | None = None


class Followed(Follower):
    """The schedule followed, with what its report has to say, and without the other measures of a study."""

    def __init__(self, *given):
        super().__init__(*given)
        self.before = Before(self)

    def _close(self):
        super()._close()
        self.reported = Reported(self)


def report_text(followed):
    """The report of a schedule, by the sums of the tools."""
    lines = [f"unit {name} run {run} picks {picks} repl {repl} late {late}" for name, (run, picks, repl, late) in followed.reported.units.items()]
    lines += [f"core {name} run {run} idle {idle} decides {decides}" for name, (run, idle, decides) in followed.reported.cores.items()]
    return "\n".join([*lines, f"entries {followed.entries} end {followed.last}", ""]).encode()


class Trial:
    """The calls of one trial in a folder of its own: what was counted, and what does not hold."""

    def __init__(self, program, folder, seed):
        self.program, self.folder, self.draw = program, pathlib.Path(folder), random.Random(f"trial {seed}")
        self.failures, self.counts, self.last_words = [], collections.Counter(), ()

    def claim(self, holds, name, seen=""):
        """Notes where it does not hold, for the first time in this trial."""
        if not holds and name not in [failure.claim for failure in self.failures]:
            self.failures.append(Failure(name, str(seen), self.last_words, {path.name: path.read_bytes() for path in self.folder.iterdir()}))
        return holds

    def call(self, *words):
        """A call, which has to end as the pages say."""
        self.last_words = words
        ended = calls.call(self.program, words, self.folder)
        self.counts["calls"] += 1
        odd = calls.oddity(words[0], ended)
        self.claim(odd is None, f"{words[0]}: {odd}", f"{' '.join(map(str, words))}: status {ended.status}, {ended.err[:300]!r}, {len(ended.out)} bytes of output")
        return ended

    def put(self, name, text):
        (self.folder / name).write_bytes(text)

    # the parts of a trial

    def run(self, texts):
        """All parts, on one machine."""
        self.put("domains", texts.domains)
        self.put("work", texts.work)
        self.limit = ("--events", texts.limit)
        ordered = self.call("run", "--ordered", *self.limit, "domains", "work")
        if not self.claim(ordered.status in (0, 7), f"a good machine is taken: {ordered.err.decode('utf-8', 'replace').strip()}", f"status {ordered.status}"):
            return
        again = self.call("run", "--ordered", *self.limit, "domains", "work")
        self.claim(again == ordered, "two ordered runs are the same")
        if self.judge("ordered", ordered, texts.limit):
            self.spoil("ordered", ordered)
        self.finish("ordered", ordered, texts)
        self.report(ordered)
        self.run_freely(texts, ordered)
        self.watch(min(texts.limit, MOST_WATCHED))
        self.refuse(texts)
        if texts.made:
            self.load(texts)

    def judge(self, name, ended, limit):
        """Whether `check` takes a run, or, of one that was cut, takes all lines and misses the next. The run has to end as its status says."""
        entries = ended.out.count(b"\n")
        self.counts["entries"] += entries
        self.put(name, ended.out)
        is_whole = ended.out.endswith(b" finish\n")
        self.claim(is_whole and entries <= limit if ended.status == 0 else entries == limit, f"{name} run: the entries are those of the status", f"status {ended.status}, {entries} entries")
        self.claim(ended.status == 0 or ended.err == b"xensched: full at %d entries\n" % limit, f"{name} run: the line names the limit", ended.err)
        self.answers(name, ended.out)
        self.promises(name, ended.out)
        owed = (0, b"yes %d\n" % entries) if ended.status == 0 else (9, b"no %d Unfinished\n" % (entries + 1))
        taken = []
        for words in [[], ["--ordered"]] if name == "ordered" else [[]]:
            verdict = self.call("check", *words, "domains", "work", name)
            taken.append(self.claim(verdict[:2] == owed, " ".join(["check", *words, f"takes the {name} run"]), verdict[:2]))
        return all(taken)

    def promises(self, name, out):
        """No unit has less than a law promises it."""
        try:
            study = Study(read_machine(self.folder / "domains"), read_work(self.folder / "work"))
            study.count_promises()
            study.follow(out.decode().splitlines())
        except Refused:
            # that the tools can follow the schedule is claimed of the report
            return
        self.counts.update(f"promises by {law}" for _, _, _, law, claim in study.promises.rows() if is_kept(law) and claim is not None)
        owed = list(study.promises.faults(also_seen=True))
        self.claim(not owed, f"{name} run: no unit has less than it is promised", owed)

    def answers(self, name, out):
        """Words that are no command are answered with the place that the page gives."""
        owed = {command.number: WRONG_WORDS[" ".join(command.words)] for command in read_work(self.folder / "work") if " ".join(command.words) in WRONG_WORDS}
        for number, place in re.findall(rb"^\d+ xl (\d+) refused 1 Syntax place (\d+)$", out, re.M):
            self.claim(owed.pop(int(number), None) in (int(place), None), "a wrong command is answered with its place", f"{name} run, command {int(number)}: place {int(place)}")
        missed = [number for number in owed if re.search(rb"^\d+ xl %d " % number, out, re.M)]
        self.claim(not missed, "a wrong command is refused", f"{name} run, commands {missed}")

    def report(self, ordered):
        """The report of the ordered run has the sums that the tools find in the schedule."""
        said = self.call("report", "--ordered", *self.limit, "domains", "work")
        self.claim((said.status, said.err) == (ordered.status, ordered.err), "run and report end alike", said)
        try:
            followed = Followed(read_machine(self.folder / "domains"), read_work(self.folder / "work")).follow(ordered.out.decode().splitlines())
        except Refused as refusal:
            self.claim(False, "the tools can follow the schedule", refusal)
            return
        self.claim(not followed.fault_count, "no line of the schedule contradicts another", followed.faults)
        self.claim(said.out == report_text(followed), "the report has the sums of the schedule", said.out.decode()[-2000:])

    def run_freely(self, texts, ordered):
        """Free runs are judged, a free report adds up, and a stall at the horizon ends both forms there."""
        for _ in range(FREE_RUNS):
            free = self.call("run", *self.limit, "domains", "work")
            if not self.claim(free.status in (0, 7), "a free run ends as an ordered one may", free):
                return
            is_taken = self.judge("free", free, texts.limit)
            self.finish("free", free, texts)
            self.counts["free runs"] += 1
            self.counts["free runs in another order"] += free.out != ordered.out
        self.add_up(self.call("report", *self.limit, "domains", "work"))
        if is_taken:
            self.spoil("free", free)

    def finish(self, name, ended, texts):
        """A run that was not cut ends by the horizon, and at the horizon where a stall stands there."""
        if ended.status:
            return
        horizon, last = read_machine(self.folder / "domains").horizon, int(ended.out.splitlines()[-1].split()[0])
        is_due = last == horizon if texts.work.endswith(b"\n%d stall 0 1\n" % horizon) else last <= horizon
        self.claim(is_due, f"{name} run: the finish is where it is due", f"finish at {last}, horizon {horizon}")

    def add_up(self, said):
        """A report of a free run, whose schedule nobody sees: the times of units and of cores are the same ones."""
        words = [line.split() for line in said.out.decode().splitlines()]
        if not self.claim(said.status in (0, 7) and len(words) > 1, "a free report ends as a run may", said):
            return
        units, cores, end = [it for it in words if it[0] == "unit"], [it for it in words if it[0] == "core"], int(words[-1][3])
        self.claim(sum(int(it[3]) for it in units) == sum(int(it[3]) for it in cores), "units and cores of a free report have the same time", said.out)
        self.claim(all(int(it[3]) + int(it[5]) == end for it in cores), "a core of a free report runs or idles", said.out)
        self.claim(sum(int(it[5]) for it in units) <= sum(int(it[7]) for it in cores) <= int(words[-1][1]), "picks of a free report are decisions, and these are entries", said.out)

    def spoil(self, name, ended):
        """Spoiled schedules get the verdict that is owed to them."""
        for way in self.draw.sample(spoiling.WAYS, SPOILED):
            spoiled = spoiling.spoil(ended.out, self.draw, way)
            if spoiled is None:
                continue
            self.put("spoiled", spoiled.text)
            verdict = self.call("check", "domains", "work", "spoiled")
            fault = spoiling.fault_of_verdict(spoiled, verdict)
            self.claim(fault is None, f"check on the {name} run with {spoiled.name}", fault)
            self.counts["spoiled schedules"] += 1
            self.counts["spoiled schedules that are runs"] += verdict.status == 0
            if name == "ordered":
                fault = spoiling.fault_of_ordered_verdict(ended.out, spoiled, self.call("check", "--ordered", "domains", "work", "spoiled"))
                self.claim(fault is None, f"check --ordered on the run with {spoiled.name}", fault)

    def watch(self, limit):
        """The looks of a watched run are numbered, do not fall, and are no more than the run."""
        seen = self.call("watch", "--events", limit, "domains", "work")
        lines = seen.out.decode("utf-8", "replace").splitlines()
        looks, last = [LOOK.fullmatch(line) for line in lines[:-1]], LAST.fullmatch(lines[-1]) if lines else None
        if not self.claim(seen.status in (0, 7) and last and looks and all(looks), "a watched run shows looks and an end", seen):
            return
        self.counts["looks"] += len(looks)
        found = [tuple(map(int, look.groups())) for look in looks] + [(len(looks) + 1, int(last[1]), int(last[2]))]
        self.claim([number for number, _, _ in found] == list(range(1, len(found) + 1)), "the looks are numbered from 1", lines)
        self.claim(found[0][1:] == (0, 0), "the first look shows nothing", lines[0])
        pairs = list(zip(found, found[1:]))
        self.claim(all(one[1] <= other[1] and one[2] <= other[2] for one, other in pairs), "no look shows less than the one before it", lines)
        self.claim(all(one[2] == other[2] for one, other in pairs if one[1] == other[1]), "looks of the same total are of the same moment", lines)
        # Look K shows at most the first K - 1 moments, and look K + 2 at least the first K, which are more. The first moment is 0, as is that of an empty look.
        self.claim(all(one[1] < other[1] and (one[2] < other[2] or one[0] == 1) for one, other in zip(found, found[2:])), "a look is at most one moment late", lines)
        self.claim(seen.status == 0 or int(last[1]) == limit, "a watched run that was cut has all entries", lines[-1])

    def refuse(self, texts):
        """A file with one known fault is refused with the line that the page gives."""
        domains, owed = faulty.in_domains(texts.domains.decode(), self.draw)
        self.put("faulty", domains.encode())
        command = self.draw.choice([["run"], ["run", "--ordered"], ["report"], ["watch"], ["check"]])
        schedule = ["ordered"] if command == ["check"] else []
        self.refused(self.call(*command, "faulty", "work", *schedule), 4, owed)
        processors = read_machine(self.folder / "domains").processors
        work, owed = faulty.many(self.draw.choice(["stall", "xl"]), self.draw) if self.draw.random() < 0.05 else faulty.in_work(texts.work.decode(), processors, self.draw)
        self.put("faulty", work.encode())
        self.refused(self.call(*command, "domains", "faulty", *schedule), 5, owed)

    def refused(self, ended, status, owed):
        self.counts["known faults in files"] += 1
        kind = "domain file" if status == 4 else "work file"
        self.claim((ended.status, ended.err.decode("utf-8", "replace")) == (status, owed), f"a fault in a {kind} is told as the page says: {owed.split()[-1] if status == 5 else ' '.join(owed.split()[4:])}",
                   f"status {ended.status}, {ended.err!r}; owed is {owed!r}")

    def load(self, texts):
        """`load` is the report of the ordered run on what `make` writes."""
        said = self.call("load", *texts.made)
        whole = self.call("report", "--ordered", "--events", "4000000", "domains", "work")
        self.claim(said == whole, "load is the report of the made machine", said.out[-300:])
