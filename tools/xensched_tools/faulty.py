"""Puts one known fault into a good domain file or work file, and says the line on standard error that it owes.

The domain file is one that has a key a line, as `Machine.text` and `xensched make` write it.
"""
from .wild import MOST_SPAN

TABLE_WORDS = {"[[pool]]": "pool", "[[domain]]": "domain"}


class Place:
    """A table of a domain file: its name and number, and the lines of its keys, from `first` on."""

    def __init__(self, table, index, first):
        self.table, self.index, self.first, self.keys = table, index, first, {}


def places_of(lines):
    """The tables of the file in order, the top table first."""
    places, counts = [Place("top", 0, 0)], {"pool": 0, "domain": 0}
    for number, line in enumerate(lines):
        table = TABLE_WORDS.get(line)
        if table:
            places.append(Place(table, counts[table], number + 1))
            counts[table] += 1
        elif " = " in line:
            places[-1].keys[line.split(" = ")[0]] = number
    return places


# Of each table: a key, the value that it gets (None takes the line away), and the cause.
EDITS = {
    "top": [("format", "3", "Range 3"), ("format", '"1"', "Kind"), ("format", None, "Missing"), ("processors", "65", "Range 65"), ("processors", "0", "Range 0"),
            ("processors", "4.0", "Kind"), ("processors", None, "Missing"), ("horizon_ns", "0", "Range 0"), ("horizon_ns", str(MOST_SPAN + 1), f"Range {MOST_SPAN + 1}"),
            ("horizon_ns", "2026-01-01", "Kind"), ("horizon_ns", None, "Missing"), ("horizon_ns", "true", "Kind"), ("horizon_ns", "-1", "Range -1")],
    "pool": [("name", None, "Missing"), ("name", '"0a"', "Kind"), ("name", '""', "Kind"), ("name", f'"{"a" * 33}"', "Kind"), ("name", "7", "Kind"), ("sched", '"credit"', "NoSuch"),
             ("sched", "1", "Kind"), ("cpus", None, "Missing"), ("cpus", "0", "Kind"), ("cpus", "[64]", "Range 64"), ("cpus", '["0"]', "Kind"), ("cpus", "[-1]", "Range -1"),
             ("ratelimit_us", "99", "Range 99"), ("ratelimit_us", "500001", "Range 500001"), ("major_ns", "0", "Range 0"), ("frame", "[]", "Range 0"), ("frame", "[[0, 0]]", "Range 2"),
             ("major_ns", None, "Missing"), ("frame", None, "Missing")],
    "domain": [("name", None, "Missing"), ("name", '"a b"', "Kind"), ("pool", '"no-such-pool"', "NoSuch"), ("pool", "0", "Kind"), ("guests", None, "Missing"), ("guests", "[]", "Range 0"),
               ("guests", "[[1]]", "Range 1"), ("guests", "[[0, 1]]", "Range 0"), ("guests", f"[[1, {MOST_SPAN + 1}]]", f"Range {MOST_SPAN + 1}"), ("guests", "[7]", "Kind"),
               ("weight", "0", "Range 0"), ("weight", "65536", "Range 65536"), ("cap", "6401", "Range 6401"), ("cap", "-1", "Range -1"), ("period_us", "9", "Range 9"),
               ("period_us", "1000000001", "Range 1000000001"), ("extratime", "1", "Kind"), ("budget_us", "9", "Range 9")],
}


def in_domains(text, draw):
    """A domain file with one fault, and the line on standard error."""
    lines = text.splitlines()
    places = places_of(lines)
    place = draw.choice([places[0], draw.choice(places), draw.choice(places)])
    edits = [edit for edit in EDITS[place.table] if edit[0] in place.keys]
    key, value, cause = draw.choice([*edits, ("zed", "1", "Unknown")])
    if key not in place.keys:
        lines.insert(place.first, f"{key} = {value}")
    elif value is None:
        del lines[place.keys[key]]
    else:
        lines[place.keys[key]] = f"{key} = {value}"
    return "\n".join(lines) + "\n", f"xensched: domains: {place.table} {place.index} {key} {cause}\n"


def moment_before(lines):
    """The moment of the last of these lines that says something, 0 where none does."""
    said = [line.split()[0] for line in lines if line.split() and not line.startswith("#")]
    return int(said[-1]) if said else 0


def in_work(text, processors, draw):
    """A work file with one more line, which is wrong, and the line on standard error."""
    lines = text.split("\n")[:-1]
    at = draw.choice([0, len(lines), draw.randint(0, len(lines))])
    moment = moment_before(lines[:at])
    choices = [("x stall 0 1", "Number"), (f"0{moment} stall 0 1", "Number"), (f"+{moment} stall 0 1", "Number"), (f"{MOST_SPAN + 1} stall 0 1", "Number"), ("\t", "Number"), (" ", "Number"),
               (" # no comment", "Number"), (str(moment), "Word"), (f"{moment} halt 0", "Word"), (f"{moment} stall 0", "Word"), (f"{moment} stall 0 1 1", "Word"), (f"{moment} xl", "Word"),
               (f"{moment} stall x 1", "Number"), (f"{moment} stall 0 0", "Number"), (f"{moment} stall 0 {MOST_SPAN + 1}", "Number"), (f"{moment} stall 0 1ms", "Number"),
               (f"{moment} stall {processors} 1", "Target"), (f"{moment} stall 999999999999999 1", "Target")]
    if moment:
        choices += [(f"{moment - 1} stall 0 1", "Order"), (f"{moment - 1} xl cpupool-list", "Order")]
    line, cause = draw.choice(choices)
    ending = draw.choice(["\n", "\n", "\r\n"]) if cause != "Number" or line.strip() else "\n"
    return "".join(f"{it}\n" for it in lines[:at]) + line + ending + "".join(f"{it}\n" for it in lines[at:]), f"xensched: work: line {at + 1} {cause}\n"


def many(kind, draw):
    """A work file with one line of its kind too many, and the line on standard error."""
    line = {"stall": "0 stall 0 1\n", "xl": "0 xl cpupool-list\n"}[kind]
    silent = draw.randint(0, 3)
    return "\n" * silent + line * 4097, f"xensched: work: line {4097 + silent} Many\n"
