"""The tables of a study: what each has for columns, and how they are written for people, for spreadsheets and for programs."""
import csv
import dataclasses
import io
import json
import pathlib

from .machine import UNKNOWN
from .measures import Distribution, capacity_of, said_of, since_release
from .promises import is_kept
from .schedule import PAUSED, RUNS, SLEEPS, WAITS
from .words import milliseconds, percent

THOUSANDTHS = {"median": 500, "p95": 950, "p99": 990, "p999": 999}
HEADS = {"median": "median", "p95": "95%", "p99": "99%", "p999": "99.9%"}


@dataclasses.dataclass(frozen=True)
class Column:
    """A column: its key in CSV and JSON, its head for people, and whether it has words, counts, times (in nanoseconds) or parts of one."""

    key: str
    head: str
    form: str = "time"

    @property
    def full_key(self):
        """The key with its unit."""
        return f"{self.key}_ns" if self.form == "time" else self.key

    def shown(self, value):
        """A value for people: times in milliseconds, parts in percent, a hyphen for nothing."""
        if value is None:
            return "-"
        return {"time": milliseconds, "part": percent}.get(self.form, str)(value)

    def exact(self, value):
        """A value for programs: times in whole nanoseconds, parts with nine decimals."""
        if value is None or self.form in ("text", "count"):
            return value
        return round(value) if self.form == "time" else round(value, 9)


@dataclasses.dataclass
class Table:
    """A table: rows of values in the order of the columns. `names` is how many columns in front name the row."""

    name: str
    title: str
    columns: list
    rows: list
    names: int = 2

    def records(self):
        """The rows for programs, each by key."""
        return [{column.full_key: column.exact(value) for column, value in zip(self.columns, row)} for row in self.rows]


def texts(*keys):
    return [Column(key, key, "text") for key in keys]


def spread(prefix):
    """The columns of a distribution."""
    return [Column(f"{prefix}count", "count", "count"), Column(f"{prefix}mean", "mean"), *(Column(prefix + key, HEADS[key]) for key in THOUSANDTHS),
            Column(f"{prefix}greatest", "greatest"), Column(f"{prefix}greatest_at", "at")]


def spread_of(spans):
    """The values of a distribution, in the order of `spread`."""
    if not spans.count:
        return [0] + [None] * (len(THOUSANDTHS) + 3)
    return [spans.count, spans.mean, *spans.percentiles(THOUSANDTHS.values()), spans.most, spans.most_at]


def part(span, whole):
    """A part of a whole, None where there is no whole."""
    return span / whole if whole else None


def pools(study):
    columns = texts("pool", "name", "sched") + [Column("cores", "cores", "count"), Column("capacity", "capacity"), Column("run", "run"), Column("share", "of capacity", "part")]
    rows = [[str(i), home.name, home.sched or "?", len(home.cores), home.tally.capacity, home.tally.ran, part(home.tally.ran, home.tally.capacity)] for i, home in sorted(study.pools.items())]
    return Table("pools", "Pools (cores: at the end)", columns, rows)


def domains(study):
    columns = texts("domain", "name", "pool") + [
        Column("from", "from"), Column("to", "to"), Column("run", "run"), Column("cores", "in cores", "part"), Column("share", "of pool", "part"),
        Column("says", "says", "part"), Column("at_most", "at most", "part"), Column("waited", "waited"), Column("parameters", "by", "text")]
    rows = []
    for visit in study.visits:
        span = visit.end - visit.begin
        rows.append([f"d{visit.domain.index}", visit.domain.name, visit.name, visit.begin, visit.end, visit.ran, part(visit.ran, span), part(visit.ran, visit.capacity),
                     None if visit.says is None else part(visit.says, visit.capacity), None if visit.at_most is None else part(visit.at_most, visit.capacity), visit.waited, visit.words])
    return Table("domains", "Domains: run time and share of the pool, beside what the parameters say", columns, rows, 3)


def units(study):
    columns = texts("unit", "name") + [Column("run", "run"), Column("cores", "in cores", "part"), Column("share", "of pool", "part"), Column("says", "says", "part"), Column("waited", "waited"),
                                       Column("picks", "picks", "count"), Column("preempted", "preempted", "count"), Column("moves", "moves", "count"), Column("late", "late")]
    rows = []
    for domain in study.domain_list:
        capacity, said = capacity_of(study, domain), said_of(study, domain)
        for unit in domain.units:
            ran = study.ran(unit)
            rows.append([unit.name, domain.name, ran, part(ran, study.span), part(ran, capacity), None if said is None else part(said / len(domain.units), capacity),
                         study.waited(unit), unit.picks, unit.preempted, unit.moves, unit.late])
    return Table("units", "Units", columns, rows)


def vcpus(study):
    columns = texts("vcpu", "name") + [Column("runs", "runs"), Column("share", "of pool", "part"), Column("waits", "waits"), Column("sleeps", "sleeps"), Column("paused", "paused")]
    rows = []
    for domain in study.domain_list:
        # a core's time is that of each of its processors
        capacity = capacity_of(study, domain) * study.machine.granularity
        rows += [[vcpu.name, domain.name, times[RUNS], part(times[RUNS], capacity), times[WAITS], times[SLEEPS], times[PAUSED]] for vcpu in domain.vcpus for times in [study.times(vcpu)]]
    return Table("vcpus", "vCPUs: what they did with the time", columns, rows)


def waits(study):
    columns = texts("vcpu", "name") + spread("") + [Column("open", "still waits")]
    rows = [[vcpu.name, vcpu.domain.name, *spread_of(vcpu.tally.waits), open_wait(study, vcpu)] for vcpu in study.vcpus.values()]
    return Table("waits", "Waits from wake to leave", columns, rows)


def open_wait(study, vcpu):
    """How long a vCPU that has not run since its release waits at the end, None where it does not."""
    return since_release(vcpu, study.end) if not vcpu.has_run and vcpu.state != SLEEPS else None


def open_job(study, vcpu):
    """How long the job that is not done is old at the end, None where there is none."""
    return since_release(vcpu, study.end) if vcpu.script != [] and vcpu.state != SLEEPS and vcpu.job_from is not None else None


def jobs(study):
    columns = texts("vcpu", "name", "job") + [Column("work", "work")] + spread("") + [Column("open", "not done")]
    rows = []
    for vcpu in study.vcpus.values():
        for place, spans in enumerate(vcpu.tally.jobs):
            present = not vcpu.script or 2 * vcpu.jobs % len(vcpu.script) // 2 == place
            work = vcpu.script[2 * place] if vcpu.script else None
            rows.append([vcpu.name, vcpu.domain.name, str(place), work, *spread_of(spans), open_job(study, vcpu) if present else None])
    return Table("jobs", "Jobs: from release to block", columns, rows, 3)


def releases(study):
    columns = texts("vcpu", "name") + [Column("releases", "releases", "count"), Column("delayed", "delayed jobs", "count"), Column("drifted", "drifted releases", "count"), Column("drift", "drift of the last")]
    rows = [[vcpu.name, vcpu.domain.name, tally.releases, tally.delayed, tally.drifted, tally.drift] for vcpu in study.vcpus.values() if vcpu.script for tally in [vcpu.tally]]
    return Table("releases", "Releases: a job that was late moves all later ones", columns, rows)


def terms(study):
    columns = texts("unit", "name") + [
        Column("terms", "terms", "count"), Column("budget", "budget"), Column("had", "had"), Column("least", "least had"), Column("short", "short", "count"), Column("missing", "missing"),
        Column("greatest_missing", "greatest"), Column("greatest_missing_at", "at"), Column("extra", "extra"), Column("lates", "late", "count"), Column("greatest_late", "latest"), Column("greatest_late_at", "at"), Column("skipped", "skipped", "count")]
    rows = []
    for unit in study.units.values():
        it = unit.tally[1]
        if it.count:
            rows.append([unit.name, unit.domain.name, it.count, it.given, it.had, it.least, it.short, it.missing, it.most_missing, it.most_missing_at, it.extra, it.lates, it.most_late, it.most_late_at, it.skipped])
    return Table("terms", "RTDS terms: the budget of each, had and missing", columns, rows)


def windows(study):
    columns = texts("pool", "window", "unit", "name") + [
        Column("windows", "windows", "count"), Column("length", "length"), Column("had", "had"), Column("lost", "lost"), Column("unused", "not wanted"), Column("greatest_lost", "most lost"), Column("greatest_lost_at", "at")]
    rows = []
    for home in study.pools.values():
        for f, frame in enumerate(home.tally.frames):
            for w, it in enumerate(frame.windows):
                name = str(w) if len(home.tally.frames) == 1 else f"{f}:{w}"
                rows.append([home.name, name, it.unit.name, it.unit.domain.name, it.count, it.length, it.had, it.lost, it.count * it.length - it.had - it.lost, it.most_lost, it.most_lost_at])
    return Table("windows", "ARINC 653 windows", columns, rows, 4)


def caps(study):
    columns = texts("domain", "name") + [Column("terms", "terms", "count"), Column("allowed", "allowed"), Column("had", "had"), Column("greatest", "greatest"), Column("greatest_at", "at"),
                                         Column("used_up", "used up", "count"), Column("greatest_over", "most over"), Column("greatest_over_at", "at")]
    rows = []
    for domain in study.domain_list:
        it = domain.tally.caps
        if it.count:
            rows.append([f"d{domain.index}", domain.name, it.count, it.allowed or None, it.had, it.most, it.most_at, it.used_up, it.most_over, it.most_over_at])
    return Table("caps", "Caps: terms of 10 ms", columns, rows)


def cores(study):
    columns = texts("core", "pool") + [Column("run", "run"), Column("idle", "idle"), Column("share", "busy", "part"), Column("decides", "decides", "count"), Column("lates", "late", "count"),
                                       Column("late", "in all"), Column("greatest_late", "latest"), Column("greatest_late_at", "at")]
    rows = []
    for name, core in study.cores.items():
        ran = study.busy(core)
        rows.append([name, core.home.name if core.home else "free", ran, study.span - ran, part(ran, study.span), core.decides, core.lates, core.late, core.most_late, core.most_late_at if core.lates else None])
    return Table("cores", "Cores, and the lateness of their decisions", columns, rows)


def promises(study):
    columns = texts("unit", "name", "pool") + [Column("promise", "promise", "text"), Column("by", "by the law, or why none is made", "text"), Column("claimed", "claimed"), Column("asleep", "not runnable"),
                                               Column("unusable", "core not usable"), Column("promised", "promised"), Column("had", "had"), Column("above", "above"), Column("owed", "owed")]
    rows = []
    for unit, visit, promise, law, claim in study.promises.rows() if study.promises else []:
        times = [claim.claimed, claim.asleep, claim.unusable, claim.promised, claim.had, claim.had - claim.promised, claim.owed] if claim and is_kept(law) else [None] * 7
        rows.append([unit.name, unit.domain.name, visit.name, promise, law, *times])
    return Table("promises", "What each unit is promised at least, and what it had", columns, rows, 3)


def limits(study, asked):
    columns = texts("vcpu", "name", "kind") + [Column("limit", "limit"), Column("met", "met", "count"), Column("missed", "missed", "count"), Column("first_missed", "first missed at")]
    rows = [[it.vcpu.name, it.vcpu.domain.name, it.kind, it.span, it.met, it.missed, it.first_missed] for it in asked]
    return Table("limits", "What was asked: jobs within their deadlines, waits within their latencies", columns, rows, 3)


TABLES = {"pools": pools, "domains": domains, "units": units, "vcpus": vcpus, "waits": waits, "jobs": jobs, "releases": releases,
          "terms": terms, "windows": windows, "caps": caps, "cores": cores, "promises": promises}
# Those that are made where nobody asks for others.
USUAL = [name for name in TABLES if name != "promises"]


def tables_of(study, names=USUAL, asked=()):
    """These tables of a study, and what was asked of it."""
    return [*(TABLES[name](study) for name in names), limits(study, asked)]


def with_rows(tables):
    """Those for people: a table without rows is left out."""
    return [table for table in tables if table.rows]


def as_text(table):
    """The lines of a table for people."""
    cells = [[column.head for column in table.columns]] + [[column.shown(value) for column, value in zip(table.columns, row)] for row in table.rows]
    wide = [max(len(row[k]) for row in cells) for k in range(len(table.columns))]
    left = [column.form == "text" for column in table.columns]
    yield f"{table.title}; times in ms" if any(column.form == "time" for column in table.columns) else table.title
    for row in cells:
        yield "  " + "  ".join(cell.ljust(w) if is_left else cell.rjust(w) for cell, w, is_left in zip(row, wide, left)).rstrip()


def csv_text(keys, records):
    """Rows by key as CSV; what a row has no key for is empty."""
    out = io.StringIO()
    writer = csv.DictWriter(out, keys, lineterminator="\n")
    writer.writeheader()
    writer.writerows(records)
    return out.getvalue()


def as_csv(tables):
    """The tables as one of CSV: each row begins with the name of its table, and the columns are those of all."""
    keys = dict.fromkeys(["table", *(column.full_key for table in tables for column in table.columns)])
    return csv_text(keys, ({"table": table.name, **record} for table in tables for record in table.records()))


def write_csv(folder, tables):
    """Writes a file of CSV for each table, also for one without rows."""
    folder = pathlib.Path(folder)
    folder.mkdir(parents=True, exist_ok=True)
    for table in tables:
        with open(folder / f"{table.name}.csv", "w", encoding="utf-8", newline="") as file:
            file.write(csv_text([column.full_key for column in table.columns], table.records()))


def as_json(study, tables):
    """All of a study for programs."""
    run = {"entries": study.entries, "finished": study.finished, "last_entry_ns": study.last, "counted_from_ns": study.begin, "counted_to_ns": study.end,
           "counted_entries": study.counted, "horizon_ns": study.machine.horizon,
           "contradictions": study.fault_count, "refused": [number for number, _, _ in study.refused], "unreached": [command.number for command in study.unreached()]}
    if any(vcpu.script is None for vcpu in study.vcpus.values()):
        run["guests"] = UNKNOWN
    return json.dumps({"run": run, **{table.name: table.records() for table in tables}}, indent=1)


def all_waits(study):
    """The waits of all vCPUs of each domain together, by name."""
    found = {}
    for vcpu in study.vcpus.values():
        found.setdefault(vcpu.domain.name, Distribution()).add_all(vcpu.tally.waits)
    return found
