"""The machines of a sweep, and what a row of it says of one."""
import itertools
import json
import pathlib
import subprocess
import tempfile

from . import asking, loads, making, premises, tables, words
from .machine import DEFAULTS, DOMAIN_KEYS, read_machine, read_work
from .measures import Distribution
from .words import Refused


def joined(study, spans_of):
    """The spans of all vCPUs together."""
    whole = Distribution()
    for vcpu in study.vcpus.values():
        for spans in spans_of(vcpu.tally):
            whole.add_all(spans)
    return whole


def waits(study):
    return joined(study, lambda tally: [tally.waits])


def responses(study):
    return joined(study, lambda tally: tally.jobs)


def in_all(study, subjects, value):
    """A figure added up over the units, cores or vCPUs."""
    return sum(value(subject) for subject in getattr(study, subjects).values())


# The figures of a run, or of the part that is counted. What a report says ends at the last entry; all others are those of docs/MEASURES.md.
WHOLE = {
    "entries": lambda study: study.counted,
    "end": lambda study: study.reported.end,
    "units": lambda study: len(study.units),
    "run": lambda study: sum(it[0] for it in study.reported.units.values()),
    "idle": lambda study: sum(it[1] for it in study.reported.cores.values()),
    "picks": lambda study: sum(it[1] for it in study.reported.units.values()),
    "late": lambda study: sum(it[3] for it in study.reported.units.values()),
    "wait_mean": lambda study: None if waits(study).mean is None else round(waits(study).mean),
    "wait_p99": lambda study: waits(study).percentiles([990])[0],
    "wait_greatest": lambda study: waits(study).most,
    "response_p99": lambda study: responses(study).percentiles([990])[0],
    "response_greatest": lambda study: responses(study).most,
    "preempted": lambda study: in_all(study, "units", lambda unit: unit.preempted),
    "moves": lambda study: in_all(study, "units", lambda unit: unit.moves),
    "drifted": lambda study: in_all(study, "vcpus", lambda vcpu: vcpu.tally.drifted),
    "short": lambda study: in_all(study, "units", lambda unit: unit.tally[1].short),
    "missing": lambda study: in_all(study, "units", lambda unit: unit.tally[1].missing),
}
USUAL = ["entries", "end", "units", "run", "idle", "picks", "late", "wait_mean", "wait_p99", "wait_greatest", "preempted", "moves"]


def figure(study, column):
    """A figure of the run, or TABLE.ROW.KEY: that of a row of a study's table, as domains.web.share."""
    if column in WHOLE:
        return WHOLE[column](study)
    table, _, rest = column.partition(".")
    name, _, key = rest.rpartition(".")
    if table not in tables.USUAL or not name:
        raise Refused(f"{column!r} is no column: it is one of {', '.join(WHOLE)}, or TABLE.ROW.KEY of a study, as domains.web.share")
    made = tables.TABLES[table](study)
    if key not in [it.full_key for it in made.columns]:
        raise Refused(f"the table {table} has no column {key!r}; it has {', '.join(it.full_key for it in made.columns)}")
    return next((record[key] for record, row in zip(made.records(), made.rows) if name in row[: made.names]), None)


def made_files(folder, seed, processors, domains):
    """The files of a made machine."""
    paths = []
    for what, name in (("domains", "domains.toml"), ("work", "work.txt")):
        done = subprocess.run([making.PROGRAM, "make", str(seed), str(processors), str(domains), what], capture_output=True, text=True)
        if done.returncode:
            raise Refused(f"xensched make {seed} {processors} {domains}: {done.stderr.strip()}")
        paths.append(pathlib.Path(folder) / name)
        paths[-1].write_text(done.stdout)
    return paths


def studied(job, prepare=lambda study: None):
    """The study of one machine of the sweep; `prepare` is told it before the run is followed."""
    if "seed" in job:
        with tempfile.TemporaryDirectory(prefix="xensched-") as folder:
            domains, work = made_files(folder, job["seed"], job["processors"], job["domains"])
            return making.run(read_machine(domains), work, prepare)
    machine = varied(making.machine_from(job["machine"]), job["settings"])
    if not job.get("loads"):
        return making.run(machine, job["work"], prepare)
    with tempfile.TemporaryDirectory(prefix="xensched-") as folder:
        work = pathlib.Path(folder) / "work.txt"
        work.write_text("".join(f"{line}\n" for line in loaded(machine, job)))
        return making.run(machine, work, prepare)


def loaded(machine, job):
    """Gives the machine the loads of this job's seed, as tools/loads does, and returns the lines of its work file."""
    plan = loads.Plan(machine, job["load_seed"])
    for text in job["loads"]:
        plan.add(text)
    list(plan.set_scripts())
    return loads.work_lines(machine, job["work"], plan)


def varied(machine, settings):
    """The machine with these values of keys, as they are written. Pools come before the domains that may move to them, and schedulers before their keys."""
    order = sorted(settings, key=lambda path: (path.rpartition(".")[2] not in ("sched", "granularity"), not path.startswith("pool."), not path.endswith(".pool")))
    for path in order:
        machine = making.with_setting(machine, path, making.value_of(path, settings[path]))
    return machine


def premises_of(jobs):
    """What holds of the answers for these machines, each line once. Made machines differ in no pool, so one of them is looked at."""
    if "seed" in jobs[0]:
        with tempfile.TemporaryDirectory(prefix="xensched-") as folder:
            domains, _ = made_files(folder, jobs[0]["seed"], jobs[0]["processors"], jobs[0]["domains"])
            machines, work = [read_machine(domains)], None
    else:
        base, work = making.machine_from(jobs[0]["machine"]), jobs[0]["work"] and read_work(jobs[0]["work"])
        machines = (varied(base, job["settings"]) for job in jobs)
    return list(dict.fromkeys(text for machine in machines for text in premises.of(machine, work)))


def settings_over(texts):
    """Each choice of values, as they are written, for the keys of `web.weight=128,256,512`."""
    keys, choices = [], []
    for text in texts:
        key, equals, values = text.partition("=")
        if not equals:
            raise Refused(f"{text!r} is not of the form KEY=VALUE,VALUE")
        for value in values.split(","):
            making.value_of(key, value)
        keys.append(key)
        choices.append(values.split(","))
    return keys, [dict(zip(keys, chosen)) for chosen in itertools.product(*choices)]


def row_of(job, columns, given):
    """What came of a job: the status of its run, its figures, and how it stood to what was asked. A sentence in place of all where it could not be run."""
    targets = []

    def prepare(study):
        asking.take_part(study, given)
        targets.append(asking.Targets(study, given.deadline, given.latency, given.share))

    try:
        study = studied(job, prepare)
        judged = targets[0].judge()
        # what `xensched run` ends with where the run is longer than the most entries
        return {"status": 0 if study.finished else 7, "figures": [figure(study, column) for column in columns], "met": judged.met, "missed": judged.missed,
                "worst": judged.worst, "preempted": WHOLE["preempted"](study)}
    except Refused as fault:
        return {"fault": str(fault)}


def joined_rows(rows):
    """One row of those of several seeds: of each figure the mean, the least and the greatest; counts are added up, and the worst is the worst of all."""
    figures = []
    for values in zip(*(row["figures"] for row in rows)):
        known = [value for value in values if isinstance(value, (int, float)) and not isinstance(value, bool)]
        figures += [round(sum(known) / len(known), 6), min(known), max(known)] if known else [None] * 3
    return {"status": max(row["status"] for row in rows), "figures": figures, "met": sum(row["met"] for row in rows), "missed": sum(row["missed"] for row in rows),
            "worst": max(row["worst"] for row in rows), "preempted": sum(row["preempted"] for row in rows)}


def in_force(machine):
    """What a machine means, whether a file writes a default or not."""
    pools = [(pool.name, pool.sched, pool.cpus, {**({"ratelimit_us": DEFAULTS["ratelimit_us"]} if pool.sched == "credit2" else {}), **pool.settings}) for pool in machine.pools]
    domains = [(domain.name, domain.pool, domain.pins, {key: domain.setting(key) for key in DOMAIN_KEYS[machine.pool(domain.pool).sched]}) for domain in machine.domains]
    return machine.granularity, machine.horizon, pools, domains


def price_of(base, job, row):
    """What a configuration costs: processors in pools that have a domain, what RTDS reserves of them in percent of one, keys that make it another machine, preemptions."""
    machine = varied(base, job["settings"])
    used = {domain.pool for domain in machine.domains}
    reserved = sum(machine.units_of(domain) * domain.setting("budget_us") / domain.setting("period_us") for domain in machine.domains if machine.pool(domain.pool).sched == "rtds")
    without = [{key: value for key, value in job["settings"].items() if key != path} for path in job["settings"]]
    changed = sum(in_force(varied(base, settings)) != in_force(machine) for settings in without)
    return sum(len(pool.cpus) for pool in machine.pools if pool.name in used), round(100 * machine.granularity * reserved), changed, row["preempted"]


def price_text(price):
    """The first three of what a configuration costs, in words."""
    processors, reserved, changed, _ = price
    return words.counted(processors, "processor") + (f", {reserved}% of one reserved" if reserved else "") + f", {words.counted(changed, 'key')}"


def line_of(job):
    """A job as a line for GNU parallel."""
    return json.dumps(job, separators=(",", ":"))
