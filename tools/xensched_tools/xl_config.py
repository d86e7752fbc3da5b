"""The form of xl.cfg(5) and xlcpupool.cfg(5), as xl itself reads it (libxlu_cfg_l.l and libxlu_cfg_y.y of its sources)."""
import re

TOKEN = re.compile(r"""[ \t]+ | (?P<end>\#[^\n]*(?:\n|$)|\n|;) | (?P<string>'(?:[^'\\\n]|\\.)*'|"(?:[^"\\\n]|\\.)*") | (?P<sign>\+=|=|\[|\]|,)
                     | (?P<key>[a-z][._0-9a-z]*) | (?P<number>[0-9][0-9a-fx]*)""", re.X)
MOST_NESTED = 8


class NoSetting(Exception):
    """A line that is no setting; its number."""


class Reader:
    """The tokens of a configuration, each its kind, its text and its line."""

    def __init__(self, text):
        self.tokens, line, at = [], 1, 0
        while at < len(text):
            found = TOKEN.match(text, at)
            if not found:
                raise NoSetting(line)
            if found.lastgroup:
                self.tokens.append((found.lastgroup, found[0], line))
            line += found[0].count("\n")
            at = found.end()
        self.tokens.append(("end", "", line))
        self.at = 0

    @property
    def next(self):
        return self.tokens[min(self.at, len(self.tokens) - 1)]

    def take(self, kind, *texts):
        """The next token, which has to be of this kind, and one of these texts where some are given."""
        found, text, line = self.next
        if found != kind or texts and text not in texts:
            raise NoSetting(line)
        self.at += 1
        return text

    def skip_lines(self):
        while self.at < len(self.tokens) and self.next[0] == "end" and self.next[1] != ";":
            self.at += 1

    def value(self, nested=0):
        """A string, a number (as its text) or a list of values."""
        kind, text, line = self.next
        if kind in ("string", "number"):
            self.at += 1
            return re.sub(r"\\(.)", r"\1", text[1:-1]) if kind == "string" else text
        self.take("sign", "[")
        if nested == MOST_NESTED:
            raise NoSetting(line)
        values = []
        self.skip_lines()
        while self.next[1] != "]":
            values.append(self.value(nested + 1))
            self.skip_lines()
            if self.next[1] != "]":
                self.take("sign", ",")
                self.skip_lines()
        self.take("sign", "]")
        return values

    def settings(self):
        """Each key with its line and its value."""
        found = {}
        while self.at < len(self.tokens):
            if self.next[0] == "end":
                self.at += 1
                continue
            line = self.next[2]
            key, sign, value = self.take("key"), self.take("sign", "=", "+="), self.value()
            if sign == "+=" and key in found and isinstance(found[key][1], type(value)):
                value = found[key][1] + value
            found[key] = line, value
            self.take("end")
        return found


def settings_of(text):
    """The settings of a configuration: for each key its line and its value, which is a text or a list."""
    return Reader(text).settings()


def number_of(text):
    """A number as strtol(3) has it with base 0, None where the text is none."""
    found = re.fullmatch(r"\s*([+-]?)(0[xX][0-9a-fA-F]+|0[0-7]*|[1-9][0-9]*)", text) if isinstance(text, str) else None
    if not found:
        return None
    digits = found[2].lower()
    value = int(digits, 16) if digits.startswith("0x") else int(digits, 8) if digits.startswith("0") else int(digits)
    return -value if found[1] == "-" else value
