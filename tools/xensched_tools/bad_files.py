"""Spoils domain files, work files and schedules, so that mostly they are none: each call has to end as the pages say, whatever the bytes are."""
import math
import re
import tomllib

from .trials import Trial

MOST_ENTRIES = 500
SPOILED = 20
# What TOML allows, or nearly, and a domain file does not.
FRAGMENTS = [
    b"weight = 1.5", b"weight = inf", b"weight = -nan", b"cap = 1e3", b"horizon_ns = 2026-11-30T12:00:00Z", b"horizon_ns = 12:00:00", b"period_us = 1_0_0", b"period_us = 1__0", b"budget_us = 0xff",
    b"budget_us = 0o17", b"budget_us = 0b101", b"budget_us = 07", b"weight = +5", b"weight = -0", b"weight = 9223372036854775807", b"weight = 9223372036854775808", b"weight = -9223372036854775809",
    b"pool = {}", b"pool = [{}]", b"pool = [{ name = 'a', cpus = [0] },]", b"domain = []", b"domain.name = 'a'", b"pool.x.y = 1", b"[pool]", b"[domain]", b"[[domain]]", b"[[pool]]", b"[[pool.sub]]", b"[a.b.c]",
    b"[[a]]\n[a]", b'"quoted key" = 1', b"'' = 1", b'"" = 1', b'"\\u0041" = 1', b'"\\U0001F600" = 1', b'"\\x" = 1', b'name = "\\u0000"', b"name = 'a\tb'", b'name = """\nmore\nlines"""', b"name = '''x'''", b'name = "\\\n  a"',
    "name = \"é\"".encode(), "é = 1".encode(), b"guests = [[], [[]], [[[]]]]", b"guests = [[1, 2], [3.0, 4]]", b"guests = [[1, 2,], [3, 4,],]", b"guests = [[1 2]]", b"guests = [\n[1, 2], # a comment\n]",
    b"frame = [[0, 0, 1, 1]]", b"frame = [0, 0, 1]", b"pins = [[]]", b"pins = [[0], [0]]", b"cpus = [0, [1]]", b"cpus = [" + b"0, " * 500 + b"]", b"cpus = " + b"[" * 60 + b"]" * 60, b"cpus = " + b"[" * 2000,
    b"x = {a = {b = {c = 1}}}", b"x = {a = 1, a = 2}", b"x = true", b"x = True", b"x =", b"= 1", b"x", b"# only a comment", b"#\x00", b"#\x7f", b"\xef\xbb\xbf", b"\xff\xfe", b"\x00", b"\r", b"\r\n", b"x = 1\r", b"format = 2", b"granularity = 4",
    b"granularity = 3", b"processors = 64", b"x = \"" + b"a" * 5000 + b"\"", b"a" * 5000 + b" = 1", b"a." * 1000 + b"a = 1",
]
WORK_FRAGMENTS = [
    b"0 stall 0 1", b"0 xl pause \xff", b"0 xl " + b"a" * 5000, b"0 xl " + b"a " * 3000, b"0\txl\tpause", b"\xef\xbb\xbf0 stall 0 1", b"0 xl cpupool-create name=\x00", b"10000000000000 stall 0 1", b"-1 stall 0 1", b"0x1 stall 0 1", b"0 stall 0 1\r\r",
    b"\r", b" # x", b"#", b"0 xl arinc-set 0 10 " + b"0:0:1," * 65, b"0 xl vcpu-pin 0 all " + b"0," * 64 + b"0", b"0 xl vcpu-pin 0 all 0-999999999999999", b"1 xl", b"0 xl  ", b"99999999999999999999 stall 0 1", b"0 stall 18446744073709551616 1",
]


def bytes_changed(text, draw):
    """One to four bytes are others."""
    made = bytearray(text or b"x")
    for _ in range(draw.randint(1, 4)):
        made[draw.randrange(len(made))] = draw.choice([draw.randrange(256), draw.choice(b'0123456789[]{}=",.#-_ \n\r\t')])
    return bytes(made)


def byte_more_or_less(text, draw):
    at = draw.randint(0, len(text))
    return text[:at] + bytes([draw.randrange(256)]) + text[at:] if draw.random() < 0.5 else text[:at] + text[at + 1 :]


def cut(text, draw):
    return text[: draw.randint(0, len(text))]


def doubled(text, draw):
    """A part of the text comes twice, or all of it."""
    first, last = sorted(draw.randint(0, len(text)) for _ in range(2)) if draw.random() < 0.8 else (0, len(text))
    return text[:last] + text[first:]


def lines_moved(text, draw):
    """Two lines have changed places."""
    lines = text.split(b"\n")
    one, other = draw.randrange(len(lines)), draw.randrange(len(lines))
    lines[one], lines[other] = lines[other], lines[one]
    return b"\n".join(lines)


def filled(fragments):
    """A way that puts one to three of the fragments in, as lines or in the place of lines."""

    def fill(text, draw):
        lines = text.split(b"\n")
        for _ in range(draw.randint(1, 3)):
            at = draw.randrange(len(lines))
            lines[at : at + draw.randint(0, 1)] = [draw.choice(fragments)]
        return b"\n".join(lines)

    return fill


def another_value(text, draw):
    """A key has the value of a fragment."""
    lines = text.split(b"\n")
    keys = [at for at, line in enumerate(lines) if b" = " in line]
    if keys:
        at = draw.choice(keys)
        lines[at] = lines[at].split(b" = ")[0] + b" = " + draw.choice([it.partition(b" = ")[2] for it in FRAGMENTS if b" = " in it])
    return b"\n".join(lines)


ANY = {"bytes changed": bytes_changed, "a byte more or less": byte_more_or_less, "cut": cut, "doubled": doubled, "lines moved": lines_moved}
WAYS = {"domains": {**ANY, "filled with TOML": filled(FRAGMENTS), "another value": another_value}, "work": {**ANY, "filled": filled(WORK_FRAGMENTS)}, "schedule": ANY}


def integers_fit(value):
    """All numbers have at most 64 bits: TOML lets a reader refuse others."""
    if isinstance(value, dict):
        return all(map(integers_fit, value.values()))
    if isinstance(value, list):
        return all(map(integers_fit, value))
    return not isinstance(value, int) or -(2**63) <= value < 2**63


def float_of(text):
    """A float, or a whole number that is too large, where the text is more than 64 bits hold."""
    value = float(text)
    return 2**64 if math.isinf(value) and "inf" not in text else value


# Escapes that TOML 1.1 has and TOML 1.0 has not.
NEWER_ESCAPE = re.compile(rb"\\[ex]")


def is_toml(text):
    """Whether Python's reader takes the text, or None where it cannot say: it gives up where values stand too deep in others, and knows no escape of TOML 1.1."""
    try:
        return integers_fit(tomllib.loads(text.decode("utf-8"), parse_float=float_of))
    except tomllib.TOMLDecodeError:
        return None if NEWER_ESCAPE.search(text) else False
    except UnicodeDecodeError:
        return False
    except RecursionError:
        return None


class BadFiles(Trial):
    """Spoiled files of one machine, given to each command."""

    def run(self, texts):
        self.limit = ("--events", min(texts.limit, MOST_ENTRIES))
        good = {"domains": texts.domains, "work": texts.work}
        for name, text in good.items():
            self.put(name, text)
        good["schedule"] = self.call("run", *self.limit, "domains", "work").out
        self.put("schedule", good["schedule"])
        for _ in range(SPOILED):
            self.spoil_one(good)

    def spoil_one(self, good):
        """One spoiled file in the place of the good one."""
        name = self.draw.choice(["domains", "domains", "work", "work", "schedule"])
        way = self.draw.choice(sorted(WAYS[name]))
        text = WAYS[name][way](good[name], self.draw)
        self.put("spoiled", text)
        self.counts[f"spoiled files: {name}, {way}"] += 1
        files = ["spoiled" if it == name else it for it in ("domains", "work", "schedule")]
        self.use(name, files, text)

    def use(self, name, files, text):
        """Each command on the files. What the commands say of them is the same, and what is taken makes a run."""
        check = self.call("check", *files)
        self.counts[f"status {check.status} of check"] += 1
        if name == "schedule":
            return
        ordered = self.call("run", "--ordered", *self.limit, *files[:2])
        self.counts[f"status {ordered.status} of run"] += 1
        self.claim(check.status in (0, 9) if ordered.status in (0, 7) else check[::2] == ordered[::2], "run and check say the same of a file", (ordered[::2], check[::2]))
        for words in self.draw.sample([["run"], ["report"], ["report", "--ordered"], ["watch"]], 2):
            other = self.call(*words, *self.limit, *files[:2])
            same = other.status in (0, 7) if ordered.status in (0, 7) else other[::2] == ordered[::2]
            self.claim(same, "the commands say the same of a file", (words, ordered[::2], other[::2]))
        if name == "domains":
            owed = is_toml(text)
            self.claim(owed is None or (ordered.status == 3) != owed, "not TOML is what Python's reader takes for none", f"{ordered[::2]}; Python's reader: {owed}")
        if ordered.status in (0, 7):
            self.judge(files, ordered)

    def judge(self, files, ordered):
        """A spoiled file that is taken makes a run like any other."""
        self.put("ordered", ordered.out)
        entries = ordered.out.count(b"\n")
        verdict = self.call("check", "--ordered", *files[:2], "ordered")
        self.claim(verdict.out == (b"yes %d\n" % entries if ordered.status == 0 else b"no %d Unfinished\n" % (entries + 1)), "check --ordered takes the run of a spoiled file that is taken", verdict.out)
