"""The table of traces: Xen's own records, in files as xentrace writes them, read by Xen's own xenalyze and by tools/from-trace."""
import collections
import os
import pathlib
import re
import subprocess
import sys
import tempfile
import tomllib

import compare
import plan
import rows as table_rows
from rows import ALL

sys.path.insert(0, str(pathlib.Path(__file__).resolve().parent.parent.parent / "tools"))
from xensched_tools import from_trace
from xensched_tools.machine import machine_of
from xensched_tools.trace_files import read_trace

HZ = 1024 * 10**9           # the harness has 1024 cycles in a nanosecond, so that the records of a moment have an order
MOST = 16                   # a moment of a machine with more processors may have more records than that, and its order is lost
COMPLAINTS = re.compile(r"Strange, |FATAL|ERROR|not found|skew|Unknown|Unexpected|> MAX")


def written(program, beside, texts, options, trace):
    """The log of Xen's code on a machine, and its trace in a file; None where it stops. Which commands are refused, xensched says."""
    text = plan.input_for(*texts, options, compare.Model(program, *texts).run.answers if " xl " in texts[1] else ())
    done = subprocess.run([beside, "-"], input=text, capture_output=True, text=True, env={**os.environ, "XENTRACE": str(trace)})
    return done.stdout if done.returncode == 0 else None


def dumped(xenalyze, trace, target):
    """What xenalyze complains of; its lines go into the file."""
    with open(target, "w") as out:
        done = subprocess.run([xenalyze, f"--cpu-hz={HZ // 10**9}G", "--dump-all", trace], stdout=out, stderr=subprocess.PIPE, text=True)
    complaints = [line for line in target.read_text().splitlines() + done.stderr.splitlines() if COMPLAINTS.search(line)]
    return complaints + ([f"status {done.returncode}"] if done.returncode else [])


def stays_and_wakings(lines, end):
    """When each processor has which vCPU, up to a moment, and the moments at which vCPUs wake, after the first."""
    changes, wakings, present = {}, [], {}
    for at, what, *rest in map(str.split, lines):
        at = int(at)
        if what == "wake" and 0 < at <= end:
            wakings.append((at, rest[0]))
        # a vCPU that blocks where it does not run has been taken offline as it waited
        if what in ("leave", "arrive") or what == "block" and present.get(rest[0]) == rest[1]:
            present[rest[0]] = rest[1] if what == "leave" and rest[1] != "idle" else None
            if at < end:
                changes.setdefault(rest[0], []).append((at, present[rest[0]]))
    found = {}
    for processor, mine in changes.items():
        whole = compare.without_empty(mine)
        # what one does before its first vCPU no log says
        found[processor] = whole[1:] if whole and whole[0][1] is None else whole
    return {processor: mine for processor, mine in found.items() if mine}, sorted(wakings)


def read_back(trace, machine, log):
    """Whether the reader gets from the trace what the log says: stays, the times that Xen counts, scripts; and its schedule."""
    changes, order = from_trace.in_order(trace)
    places = {number: number for number in range(len(machine.domains))}
    lines = from_trace.schedule_of(from_trace.host_of(machine, trace.end), places, changes, [], 0, trace.end)
    (read, wakings), (told, told_wakings) = (stays_and_wakings(it, trace.end) for it in (lines, log.splitlines()))
    doings = from_trace.doings_of(changes)
    scripts = [(doings[d, v].script(), guest) for d, domain in enumerate(machine.domains) for v, guest in enumerate(domain.guests) if (d, v) in doings]
    # a moment with more records than a nanosecond has cycles goes on in the next ones
    is_crowded = max(collections.Counter(it.at // 1000 for it in changes).values()) > 1000
    return {"ordered": not (order.mended or order.broken), "crowded": is_crowded, "stays": read == told, "wakings": wakings == told_wakings,
            "found": sum(repeats for (_, repeats, _), _ in scripts), "wrong": [f"{script} for {guest}" for (script, repeats, _), guest in scripts if repeats and script != guest]}


def tried(job):
    """One machine of a row: what its trace gives, None where Xen's code stops."""
    program, beside, xenalyze, texts, options = job
    with tempfile.TemporaryDirectory() as name:
        file, dump = pathlib.Path(name) / "trace.bin", pathlib.Path(name) / "trace.txt"
        log = written(program, beside, texts, options, file)
        if log is None:
            return None
        complaints = dumped(xenalyze, file, dump)
        trace = read_trace(file, HZ)
        found = read_back(trace, machine_of(tomllib.loads(texts[0]), "a row"), log)
        # where xenalyze gives up, its lines end early
        text = None if any(it.startswith("status") for it in complaints) else read_trace(dump)
        return {**found, "bytes": file.stat().st_size, "complaints": complaints, "text": text is not None and [it[2:] for it in text.changes] == [it[2:] for it in trace.changes]
                and [it.at for it in text.changes] == [it.at for it in trace.changes]}


def traces(setting):
    seeds = range(1, max(1, setting.machines // 10) + 1)
    xenalyze = setting.builder.xenalyze()
    print(f"\n## Traces\n\n{len(seeds)} made machines a row, by Xen as it is.\n\n| Machines | traces | stays | wakings | scripts | by xenalyze the same | it complains |\n" + "|---" * 7 + "|")
    beside = setting.builder.program()
    chosen = [row for row in table_rows.EQUALITY if setting.rows in row.name and tomllib.loads(row.machine(1)[0])["processors"] <= MOST]
    for number, row in enumerate(chosen, 1):
        setting.tell(f"traces, row {number} of {len(chosen)}")
        found = list(setting.pool.map(tried, [(setting.program, beside, xenalyze, row.machine(seed), (*ALL, *row.own)) for seed in seeds]))
        known = [it for it in found if it]
        said = sorted({re.sub(r"d\d+v\d+|\d+", "N", line)[:90] for it in known for line in it["complaints"]})
        print(f"| {row.name} | {len(known)} | {sum(it['stays'] for it in known)} | {sum(it['wakings'] for it in known)} | {sum(it['found'] for it in known)} | "
              f"{sum(it['text'] for it in known)} | {'; '.join(said) or 'no'} |", flush=True)
        for seed, it in zip(seeds, found):
            # Xen counts a vCPU as running from the decision of its core on, and a sibling that stalls begins later
            is_late = "granularity = 1" not in row.machine(seed)[0] and " stall " in row.machine(seed)[1]
            if it and not (it["ordered"] and (it["stays"] or is_late or it["crowded"])):
                setting.fault(f"traces, {row.name}, machine {seed}: what is read back is not what the log says", row, seed)
            for wrong in it["wrong"] if it else []:
                setting.fault(f"traces, {row.name}, machine {seed}: the script {wrong}", row, seed)
