"""Reads files of proofs (.antt): the lemmas of a file, and their statements in a form that does not hang on the names of variables."""
import collections
import functools
import re

KEYWORDS = ("pub", "abbrev", "unfoldable", "opaque", "record", "data", "syntax", "inductive")
HEAD = re.compile(r"^ *(?:(?:" + "|".join(KEYWORDS) + r") )*(\S+?)\s*(?:[({].*)?:(?: |$)")
PASSED = ("use ", "pub use ", "mod ", "pub mod ", "unfold")
WORD = re.compile(r"[^\s(){}\[\],;]+")
PART = re.compile(r"[^\s(){}\[\],;]+|[(){}\[\],;]")


def words_of(text):
    """How often each word stands in a text without its comments; the parts of a word with dots, too."""
    found = collections.Counter()
    for word in WORD.findall(re.sub(r"--.*", "", text)):
        found[word] += 1
        parts = word.split(".")
        found.update(it for it in parts if it and len(parts) > 1)
    return found


class Lemma:
    """An item of a file of proofs: a lemma, or what the kind says. `first` is the number of its first line."""

    def __init__(self, path, name, first, line):
        self.path, self.name, self.first, self.lines = path, name, first, [line]
        words = line.split()
        self.is_public = words[0] == "pub" or "pub" in words[: words.index(name) if name in words else 1]
        self.kind = next((it for it in ("abbrev", "record", "data", "syntax", "inductive") if it in words[:3] and it != name), "lemma")

    @property
    def is_inner(self):
        """Whether it stands in a module of its file."""
        return self.lines[0].startswith(" ")

    @property
    def text(self):
        return "\n".join(self.lines)


def indent_of(line):
    return len(line) - len(line.lstrip(" "))


def name_at(line):
    """The first word of a line behind its keywords."""
    words = WORD.findall(line)
    return next((it.rstrip(":") for it in words if it not in KEYWORDS), "")


def lemmas_of(path, lines):
    """The items of a file, those of its modules too."""
    found, depths, current = [], [0], None
    for number, line in enumerate(lines, 1):
        text = line.strip()
        if not text or text.startswith("--"):
            continue
        while len(depths) > 1 and indent_of(line) < depths[-1]:
            depths.pop()
        if indent_of(line) > depths[-1]:
            if current:
                current.lines.append(line)
        elif text.startswith("module "):
            depths.append(indent_of(line) + 2)
            current = None
        elif text.startswith(PASSED):
            current = None
        else:
            head, name = HEAD.match(line), name_at(line)
            if current and not (head and name != current.name):
                current.lines.append(line)
            elif head:
                current = Lemma(path, name, number, line)
                found.append(current)
    return found


def head_of(lemma):
    """The statement as it is written: what stands behind the name's colon, up to the first clause."""
    text = [lemma.lines[0].partition(":")[2]]
    for line in lemma.lines[1:]:
        if indent_of(line) <= indent_of(lemma.lines[0]):
            break
        text.append(line.strip())
    return " ".join(text)


def bound_names(text):
    """The names that a statement binds, each with its number."""
    found = {}
    for names in re.findall(r"[({λ]\s*([^(){}:]+?)\s*:\s", text) + re.findall(r"λ\s+([^.]+)\.", text):
        for name in names.split():
            found.setdefault(name, f"v{len(found)}")
    return found


def numbered(word, bound, name):
    stem, dot, rest = word.partition(".")
    if word in bound or word == name:
        return bound.get(word, "SELF")
    return bound[stem] + dot + rest if dot and stem in bound else word


@functools.lru_cache(maxsize=None)
def statement(lemma, short=False):
    """The statement with numbers for its variables; the short one without the binders of plain variables, and with numbers by first use."""
    text = head_of(lemma)
    bound = bound_names(text)
    full = " ".join(numbered(it, bound, lemma.name) for it in PART.findall(text))
    if not short:
        return full
    full = re.sub(r"\{[^{}]*\}( →)?|\( (?:v\d+ )+: [^()]* \)( →)?", "", full)
    numbers = {}
    full = re.sub(r"\bv\d+\b", lambda it: numbers.setdefault(it[0], f"w{len(numbers)}"), full)
    return re.sub(r"\s+", " ", full).strip("→ ")
