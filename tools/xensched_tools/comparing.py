"""Puts the figures of several studies side by side, those that differ most first."""
import json

from . import tables
from .words import Refused, milliseconds, percent

# The figures that are compared, by what they mean to who asks: what was promised and not kept; how long it takes and how much there is; the rest.
CLASSES = [
    {"limits": ["missed"], "terms": ["short", "missing", "greatest_missing"], "windows": ["lost", "greatest_lost"], "waits": ["open"]},
    {"waits": ["mean", "p99", "greatest"], "jobs": ["mean", "p99", "greatest"], "vcpus": ["runs"], "domains": ["share"], "caps": ["had"]},
    {"jobs": ["count"], "domains": ["waited"], "units": ["preempted", "moves", "late"], "terms": ["extra", "greatest_late"], "caps": ["greatest_over"], "pools": ["share"], "cores": ["share", "late"]},
]
# A difference below this part of the greatest value comes behind all others.
SMALL = 0.01
# What the tables name a row by; a domain's pool may differ from machine to machine, and so may its number.
NAMES = {"vcpus": ["vcpu", "name"], "limits": ["vcpu", "name", "kind"], "terms": ["unit", "name"], "windows": ["pool", "window", "name"], "waits": ["vcpu", "name"], "jobs": ["vcpu", "name", "job"], "domains": ["name"],
         "units": ["unit", "name"], "caps": ["name"], "pools": ["name"], "cores": ["core"]}
# What the schedule of a host does not say: which job of a script a job is, and when a budget or a window begins.
NOT_OF_A_HOST = ("jobs", "terms", "windows", "caps")


# The columns by which a row is of a domain, a vCPU, a unit, a pool or a core.
SUBJECTS = ("domain", "vcpu", "unit", "pool", "core", "name")


class Chosen:
    """Whose rows are compared: those of the domains, vCPUs, units, pools and cores that are named, or all where none is. A pool means its domains too."""

    def __init__(self, names, all_records):
        found = {record[key] for records in all_records for table in NAMES for record in records.get(table, []) for key in SUBJECTS if key in record}
        domains = [record for records in all_records for record in records.get("domains", [])]
        for name in names:
            if name not in found:
                raise Refused(f"no machine has a domain, vCPU, unit, pool or core {name!r}; the domains are {', '.join(dict.fromkeys(it['name'] for it in domains))}")
        self.names = {*names, *(it["name"] for it in domains if it["domain"] in names or it["pool"] in names)}

    def has(self, record):
        """Whether the row is one of theirs."""
        return not self.names or any(record.get(key) in self.names for key in SUBJECTS)


def figures_of(records, chosen, left_out=()):
    """Each figure by its class, table, row and key, from the tables as JSON has them."""
    found = {}
    for rank, tables_of_class in enumerate(CLASSES):
        for table, keys in tables_of_class.items():
            if table in left_out:
                continue
            for record, name in named(table, records.get(table, [])):
                for key in keys if chosen.has(record) else ():
                    full = key if key in record else f"{key}_ns"
                    found[rank, table, name, full] = record[full]
    return found


def named(table, records):
    """The rows of a table with their names. A domain that was in several pools has its first row by its name, and the others by their pools too."""
    seen = set()
    for record in records:
        name = " ".join(record[key] for key in NAMES[table])
        yield record, f"{name} in {record['pool']}" if name in seen else name
        seen.add(name)


def records_of(study, asked):
    """The tables of a study as JSON has them, and what was asked of it."""
    return json.loads(tables.as_json(study, tables.tables_of(study, asked=asked)))


def shown(key, value):
    """A figure for people."""
    if value is None:
        return "-"
    if key.endswith("_ns"):
        return milliseconds(value)
    return percent(value) if key == "share" else str(value)


def as_text(names, rows):
    """The lines of the comparison: one a figure, its values side by side, and how much they differ."""
    cells = [["of", "figure", *names, "differ by"]]
    for table, name, key, values, part in rows:
        cells.append([name, f"{table} {key.removesuffix('_ns').replace('_', ' ')}", *(shown(key, value) for value in values), f"{100 * part:.0f}"])
    wide = [max(len(row[k]) for row in cells) for k in range(len(cells[0]))]
    for row in cells:
        yield "  ".join(cell.ljust(w) if k < 2 else cell.rjust(w) for k, (cell, w) in enumerate(zip(row, wide))).rstrip()


def compared(all_records, of=()):
    """A row for each figure that differs: table, name, key, the values, and how much they differ, as a part of the greatest value that any row has for that key. The classes come in their order, in each the greatest difference first.
    With `of` the rows of these names alone."""
    of_a_host = any("guests" in records.get("run", {}) for records in all_records)
    chosen, everybody = Chosen(of, all_records), Chosen((), all_records)
    left_out = NOT_OF_A_HOST if of_a_host else ()
    each = [figures_of(records, everybody, left_out) for records in all_records]
    names = dict.fromkeys(name for records in all_records for name in figures_of(records, chosen, left_out))
    greatest = {}
    for figures in each:
        for (_, table, _, key), value in figures.items():
            greatest[table, key] = max(greatest.get((table, key), 0), abs(value or 0))
    rows = []
    for rank, table, name, key in names:
        values = [figures.get((rank, table, name, key)) for figures in each]
        counted = [value or 0 for value in values]
        if max(counted) > min(counted):
            part = (max(counted) - min(counted)) / greatest[table, key]
            rows.append((rank if part >= SMALL else len(CLASSES), (table, name, key, values, part)))
    return [row for _, row in sorted(rows, key=lambda it: (it[0], -it[1][4]))]
