"""Xen's own run as a schedule of xensched: whole entries, in Xen's own order within a moment, for the checker."""
import pathlib
import re
import subprocess
import tempfile

import compare
import plan
import rows as table_rows
from rows import ALL

SECONDS = 600               # a trial build takes its time
REPLY = re.compile(r"^\d+ xl (\d+) (ok|refused)")


def replies_of(text):
    """What xensched answers to each command, by its number: its words are those of the toolstack, which Xen has not."""
    return {found[1]: (found[2], line.partition(" xl ")[2]) for line in text.splitlines() if (found := REPLY.match(line))}


def schedule_of(log, replies, horizon):
    """The lines of the schedule: the harness's, with the words of answers where both agree, the ends of moments, and the finish."""
    lines, moment = [], 0
    for line in log.splitlines():
        at, what, *rest = line.split(" ")
        if what in ("account", "finish") or int(at) > horizon:
            continue
        if int(at) != moment:
            lines.append(f"{moment} end {at}")
            moment = int(at)
        if what == "xl":
            said, text = replies.get(rest[0], (None, None))
            line = f"{at} xl {text}" if said == rest[1] else f"{at} xl {rest[0]} {rest[1]}"
        lines.append(line)
    return lines + [f"{moment} finish"]


def checked(program, domains, work, lines):
    """The verdict of `xensched check`: its lines."""
    with tempfile.TemporaryDirectory() as name:
        folder = pathlib.Path(name)
        for file, text in (("domains.toml", domains), ("work.txt", work), ("schedule.txt", "".join(f"{line}\n" for line in lines))):
            (folder / file).write_text(text)
        done = subprocess.run([program, "check", *(folder / file for file in ("domains.toml", "work.txt", "schedule.txt"))], capture_output=True, text=True)
    if done.returncode not in (0, 9):
        raise compare.Fault(f"{program} check ends with {done.returncode}: {done.stderr.strip()}")
    return done.stdout.splitlines()


def tried(program, beside, texts, options):
    """The verdict on Xen's run of a machine, and the schedule."""
    model = compare.Model(program, *texts, SECONDS)
    text = plan.input_for(*texts, (*ALL, *options, "whole"), model.run.answers)
    done = compare.call([beside, "-"], text, SECONDS)
    if done.returncode:
        raise compare.Fault(f"{pathlib.Path(beside).name} ends with {done.returncode}: {done.stderr.strip()}")
    lines = schedule_of(done.stdout, replies_of(model.text), model.machine["horizon_ns"])
    return checked(program, *texts, lines), lines


def outcome(job):
    """The verdict on one machine, and the line at which it is no run; a word where one of the programs fails."""
    program, beside, texts, options = job
    try:
        verdict, lines = tried(program, beside, texts, options)
    except compare.Fault as fault:
        return "failed", str(fault).splitlines()[0]
    if verdict[0].startswith("yes "):
        return "yes", int(verdict[0].split()[1])
    number = int(verdict[0].split()[1])
    return verdict[0].split(" ", 2)[2], f"{lines[number - 1] if number <= len(lines) else 'the end'}; due: {' '.join(verdict[1:]) or 'nothing'}"


# Rules of Xen's that are left in, one at a time: then the checker is to say no on some machine of the row.
PLANTED = ("arinc-grid", "null-keep", "rtds-tie", "rtds-replenish", "credit2-rate", "credit2-capcut", "core-sibling", "core-once", "rtds-each")
PLANTED_ROWS = {"core-once": "Credit2, 2 cores of four, caps, stalls, pause", "rtds-each": "RTDS, 1 core, deadlines that meet"}


def outcomes(setting, row, seeds, changes, order=""):
    """The outcome of each machine, with these changes of Xen's code, in its own order or one that chance has. The written machine starts all vCPUs in one moment, so not `apart`."""
    beside = setting.builder.program(changes)
    options = [option for option in row.options if option not in table_rows.BY_RANK]
    jobs = [(setting.program, beside, row.machine(seed), options + [f"{order}={seed}"] * bool(order)) for seed in seeds]
    return list(setting.pool.map(outcome, jobs))


def checks(setting):
    """Xen with the changes of a row, in its own order: is what it does a run of the written machine?"""
    seeds = range(1, max(1, setting.machines // 10) + 1)
    print(f"\n## Xen before the checker\n\n{len(seeds)} made machines a row. Xen with the changes of the row, in its own order within a moment, and with the processors in an order "
          "that chance has; `xensched check` says whether each entry may come where it stands, with its fields.\n\n"
          "| Machines | made | a run | entries | a run, shuffled |\n|---|---|---|---|---|")
    chosen = [row for row in table_rows.EQUALITY if setting.rows in row.name]
    for number, row in enumerate(chosen, 1):
        setting.tell(f"checks, row {number} of {len(chosen)}")
        changes = (*row.changes, *table_rows.CHECKED)
        found = outcomes(setting, row, seeds, changes)
        # where a processor stalls, one that waits for it may go round and round until it is back, and chance may choose that one for ever
        shuffled = [] if "stall" in row.lines else outcomes(setting, row, seeds, changes, "shuffled")
        runs = [sum(it[0] == "yes" for it in part) for part in (found, shuffled)]
        print(f"| {row.name} | {len(seeds)} | {runs[0]} | {sum(it[1] for it in found if it[0] == 'yes')} | {runs[1] if shuffled else '-'} |", flush=True)
        for seed, (verdict, where) in zip([*seeds, *seeds], found + shuffled):
            if verdict != "yes":
                setting.fault(f"checks, {row.name}, machine {seed}: {verdict}: {where}", row, seed, row.changes, row.options)
    planted(setting, {row.name: row for row in chosen})


def planted(setting, rows):
    """With a rule of Xen's left in the checker says no, and at which line."""
    print("\nThe same with one change left out, up to the first machine that is no run:\n\n| Without | Machines | machine | the line |\n|---|---|---|---|")
    for change in PLANTED:
        row = rows.get(PLANTED_ROWS.get(change) or table_rows.WITNESSES[change])
        if not row:
            continue
        setting.tell(f"checks, without {change}")
        changes = [it for it in (*row.changes, *table_rows.CHECKED) if it != change]
        for seed in range(1, 11):
            (verdict, where), = outcomes(setting, row, [seed], changes)
            if verdict != "yes":
                print(f"| {change} | {row.name} | {seed} | {verdict}: {where} |", flush=True)
                break
        else:
            setting.fault(f"checks, without {change}: the checker says yes to ten machines of {row.name}")
