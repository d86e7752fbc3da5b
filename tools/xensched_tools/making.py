"""Machines that are made from others, and their runs by the program."""
import dataclasses
import os
import pathlib
import subprocess
import tempfile
import tomllib

from . import checking
from .machine import DOMAIN_KEYS, POOL_KEYS, SCHEDULERS, read_machine, read_work
from .measures import Study
from .words import Refused

TOP = pathlib.Path(__file__).resolve().parent.parent.parent
# The program: the launcher of this folder, or what the environment says.
PROGRAM = os.environ.get("XENSCHED_PROGRAM") or TOP / "xensched"
MOST_ENTRIES = 4_000_000


def with_schedulers(machine, changes):
    """The machine with other schedulers: `changes` has a scheduler for each pool's name, or one for None, which is all pools. Keys that the new one has not go."""
    for name in changes:
        if name is not None and machine.pool(name) is None:
            raise Refused(f"there is no pool {name!r}; the pools are {', '.join(pool.name for pool in machine.pools)}")
    pools, domains, sched_of = [], [], {}
    for pool in machine.pools:
        sched = sched_of[pool.name] = changes.get(pool.name, changes.get(None, pool.sched))
        if sched not in SCHEDULERS:
            raise Refused(f"{sched!r} is no scheduler: {', '.join(SCHEDULERS)}")
        pools.append(dataclasses.replace(pool, sched=sched, settings=kept(pool.settings, POOL_KEYS[sched])))
    for domain in machine.domains:
        domains.append(dataclasses.replace(domain, settings=kept(domain.settings, DOMAIN_KEYS[sched_of[domain.pool]])))
    return dataclasses.replace(machine, pools=pools, domains=domains)


def kept(settings, keys):
    return {key: value for key, value in settings.items() if key in keys}


def with_setting(machine, path, value):
    """The machine with another value of a key: `web.weight`, `web.pool`, `web.pins`, `pool.Pool-0.ratelimit_us`, `pool.Pool-0.sched`, `pool.Pool-0.cpus`, `sched` (of all pools),
    `granularity` or `horizon_ns`. `value` is a whole number, True or False, a name, or a list of processors."""
    subject, _, key = path.rpartition(".")
    if path == "horizon_ns":
        return dataclasses.replace(machine, horizon=value)
    if path == "granularity":
        return with_granularity(machine, value)
    if path == "sched":
        return with_schedulers(machine, {None: value})
    if subject.startswith("pool."):
        return with_pool_setting(machine, subject[5:], key, value)
    if subject not in [domain.name for domain in machine.domains]:
        raise Refused(f"{path!r} names no key: write DOMAIN.KEY, pool.POOL.KEY, sched, granularity or horizon_ns")
    return dataclasses.replace(machine, domains=[domain_with(machine, domain, key, value) if domain.name == subject else domain for domain in machine.domains])


def with_granularity(machine, size):
    """The machine with cores of so many processors. A unit may go where one of its vCPUs may, as tools/from-xl has it."""
    if size not in (1, 2, 4):
        raise Refused(f"{size} is no granularity: 1, 2 or 4")
    return dataclasses.replace(machine, granularity=size, domains=[dataclasses.replace(domain, pins=pins_together(domain, machine.granularity, size)) for domain in machine.domains])


def pins_together(domain, old, new):
    """The pins of a domain whose units had so many vCPUs and have others now."""
    if domain.pins is None:
        return None
    each = [domain.pins[vcpu // old] for vcpu in range(len(domain.guests))]
    return [sorted({cpu for pins in each[first : first + new] for cpu in pins}) for first in range(0, len(each), new)]


def with_pool_setting(machine, name, key, value):
    """The machine with another value of a key of a pool. Processors that a pool gets leave the others, and those that it gives up go to the first other one."""
    if machine.pool(name) is None:
        raise Refused(f"there is no pool {name!r}; the pools are {', '.join(pool.name for pool in machine.pools)}")
    if key == "sched":
        return with_schedulers(machine, {name: value})
    if key != "cpus":
        return dataclasses.replace(machine, pools=[changed(pool, key, value) if pool.name == name else pool for pool in machine.pools])
    given_up = [cpu for cpu in machine.pool(name).cpus if cpu not in value]
    pools = [dataclasses.replace(pool, cpus=value if pool.name == name else [cpu for cpu in pool.cpus if cpu not in value]) for pool in machine.pools]
    first = next((at for at, pool in enumerate(pools) if pool.name != name), None)
    if first is not None:
        pools[first].cpus = sorted([*pools[first].cpus, *given_up])
    return dataclasses.replace(machine, pools=pools)


def domain_with(machine, domain, key, value):
    """The domain with another value of a key; in a pool with another scheduler it keeps the keys that this one has too."""
    if key == "pins":
        return dataclasses.replace(domain, pins=[value] * machine.units_of(domain))
    if key != "pool":
        return changed(domain, key, value)
    if machine.pool(value) is None:
        raise Refused(f"there is no pool {value!r}; the pools are {', '.join(pool.name for pool in machine.pools)}")
    return dataclasses.replace(domain, pool=value, settings=kept(domain.settings, DOMAIN_KEYS[machine.pool(value).sched]))


def value_of(path, text):
    """A value of a key as it is written: a whole number, true or false; a name for a scheduler or a pool; processors as 0-3+8 for `cpus` and `pins`."""
    key = path.rpartition(".")[2]
    if key in ("sched", "pool"):
        return text
    if key in ("cpus", "pins"):
        return processors_of(text)
    if text in ("true", "false"):
        return text == "true"
    try:
        return int(text)
    except ValueError:
        raise Refused(f"{text!r} is no value of {path}: whole numbers, true or false") from None


def processors_of(text):
    """The processors of `0-3+8`."""
    found = []
    for part in text.split("+"):
        first, dash, last = part.partition("-")
        if not first.isdecimal() or dash and not last.isdecimal():
            raise Refused(f"{text!r} are no processors: write them as 0-3+8")
        found += range(int(first), int(last if dash else first) + 1)
    if max(found, default=64) > 63:
        raise Refused(f"{text!r} are no processors: they have numbers from 0 to 63")
    return sorted(set(found))


def changed(subject, key, value):
    """The pool or domain with another value of one of its scheduler's keys."""
    if key not in {key for keys in (*POOL_KEYS.values(), *DOMAIN_KEYS.values()) for key in keys}:
        raise Refused(f"{key!r} is no key of a scheduler")
    return dataclasses.replace(subject, settings={**subject.settings, key: value})


def machine_from(word):
    """The machine of `FILE`, `FILE@SCHED` (all pools under that scheduler) or `FILE@POOL=SCHED` (that pool)."""
    path, at, rest = word.partition("@")
    machine = read_machine(path)
    if not at:
        return machine
    changes = {}
    for item in rest.split(","):
        pool, equals, sched = item.rpartition("=")
        changes[pool if equals else None] = sched
    return with_schedulers(machine, changes)


def get_ready():
    """Makes one short run, so that a program that has to be built is built once and not by many runs side by side."""
    if subprocess.run([PROGRAM, "make", "1", "1", "1", "work"], stdout=subprocess.DEVNULL).returncode:
        raise Refused(f"the program {PROGRAM} does not run")


def run(machine, work_path=None, prepare=lambda study: None, kind=Study):
    """The study of the machine's ordered run with this work file, None for none; `prepare` is told the study before it begins, `kind` is its class."""
    for domain in machine.domains:
        if None in domain.guests:
            raise Refused(f"what the vCPUs of {domain.name} do is not known, so there is nothing to run: its schedule can be studied (tools/study --json)")
    with tempfile.TemporaryDirectory(prefix="xensched-") as folder:
        domains, empty, schedule = (pathlib.Path(folder) / name for name in ("domains.toml", "work.txt", "schedule.txt"))
        domains.write_text(machine.text())
        empty.touch()
        with open(schedule, "wb") as out:
            done = subprocess.run([PROGRAM, "run", "--ordered", "--events", str(MOST_ENTRIES), domains, work_path or empty], stdout=out, stderr=subprocess.PIPE, text=True)
        if done.returncode not in (0, 7):
            raise Refused(f"the program refuses the machine: {done.stderr.strip()}")
        study = kind(machine, read_work(work_path) if work_path else None)
        prepare(study)
        with open(schedule, encoding="ascii") as lines:
            return study.follow(lines)


def program_here():
    """The program where it is built or named, None where it is not: nothing is built for a question that can be answered without it."""
    named = os.environ.get("XENSCHED_PROGRAM")
    known = [pathlib.Path(named)] if named else [TOP / name for name in ("crates/xensched/out/xensched", "crates/xensched/out/trial/xensched", "program/xensched")]
    return next((path.resolve() for path in known if path.is_file() and os.access(path, os.X_OK)), None)


def refuse(domains, work):
    """Refuses texts of a domain file and a work file that the program would refuse: by its checks, and by the program itself where there is one."""
    found = tomllib.loads(domains)
    fault = checking.fault_of(found)
    if fault:
        raise Refused(f"nothing is written, since {checking.sentence(fault, found)}")
    program = program_here()
    if program is None:
        return
    with tempfile.TemporaryDirectory(prefix="xensched-") as folder:
        paths = [pathlib.Path(folder) / name for name in ("domains.toml", "work.txt")]
        for path, text in zip(paths, (domains, work)):
            path.write_text(text)
        done = subprocess.run([program, "run", "--ordered", "--events", "1", *paths], stdout=subprocess.DEVNULL, stderr=subprocess.PIPE, text=True)
    if done.returncode not in (0, 7):
        raise Refused(f"nothing is written, since the program refuses it: {done.stderr.strip()}")
