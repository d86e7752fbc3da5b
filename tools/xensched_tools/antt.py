"""Reads files of definitions and proofs (.antt) and the types of Rust files: what each uses, what it defines, and where a name is defined.

It reads text. A word is taken for a name wherever it can be one, but for a variable, a field and what stands behind a dot.
"""
import functools
import pathlib
import re
import shutil

USE = re.compile(r"^(?:unfoldable )?(pub )?use ([\w.]+?)(?:\.\{([^}]*)\}| as (\S+))?\s*$")
HEAD = re.compile(r"^(\s*)((?:(?:abbrev|unfoldable|opaque|pub|record|data) )+)(\S+)")
INFIX = re.compile(r"\s*(?:infixl|infixr|infix)\b")
WORD = re.compile(r'"(?:[^"\\]|\\.)*"|[()\[\]{},;]|[^\s()\[\]{},;]+')
SYMBOLS = " \t\n()[]{},;"
WORDS = set("λ → = : ↦ | ∷ let in elim if then else record do as _ × Type where pub abbrev unfoldable data ∀ ←".split())


def split(text):
    """The words of a text, brackets too."""
    return WORD.findall(text)


def is_comment(line):
    return line.strip().startswith("--")


def indent_of(line):
    return len(line) - len(line.lstrip())


def names_of(listed):
    """The names of a `use` line, each as it is called there and here."""
    for name in listed.split(","):
        there, _, here = (it.strip() for it in name.partition(" as "))
        if there:
            yield there, here or there


class Definition:
    """A definition: its name, its lines with the comment above them, and their numbers."""

    def __init__(self, name):
        self.name, self.kind, self.module, self.lines, self.numbers = name, "", "", [], []

    def add(self, lines):
        for number, line in lines:
            self.numbers.append(number)
            self.lines.append(line)

    @property
    def code(self):
        return sum(not is_comment(line) for line in self.lines)


class RustItem:
    """A type or a trait of a Rust file, with the comment above it."""

    def __init__(self, name, first, lines):
        self.name, self.lines, self.numbers = name, lines, [*range(first, first + len(lines))]

    @property
    def code(self):
        return sum(not line.strip().startswith("//") for line in self.lines)


class SpecFile:
    """A file of definitions: what it uses, and what it defines."""

    def __init__(self, path):
        self.uses, self.folders, self.passed, self.defined = {}, {}, {}, {}
        comments, current, indent, module = [], None, 0, ""
        for number, line in enumerate(path.read_text().split("\n"), 1):
            use, head = USE.match(line), HEAD.match(line)
            if use:
                self.read_use(*use.groups())
                comments, current = [], None
            elif not line.strip():
                comments = []
            elif is_comment(line) or INFIX.match(line) and not head:
                comments.append((number, line))
            elif re.match(r"\s*(module|mutual|abbrev mutual)\b", line):
                comments, current = [], None
                module = line if "module" in line else module
            else:
                module = "" if head and not line.startswith(" ") else module
                is_deeper = current is not None and indent_of(line) > indent
                is_field = head and is_deeper and (head[2].strip() == "pub" or re.match(r"\s*record \S+ \{", line))
                if head and head[3][0] not in "{([" and not is_field and not line.lstrip().startswith("pub mod"):
                    current, indent = self.defined.setdefault(head[3], Definition(head[3])), len(head[1])
                    current.kind, current.module = head[2], module if head[1] else ""
                if current is not None:
                    current.add([*comments, (number, line)])
                    comments = []
        # the constructors of data are names, which lead to their type
        for it in [it for it in self.defined.values() if "data" in it.kind]:
            for line in it.lines:
                constructor = re.match(r"^\s+(?:pub )?(\S+) : ", line)
                if constructor:
                    self.defined.setdefault(constructor[1], it)

    def read_use(self, public, module, names, folder):
        if names is None:
            self.folders[folder or module.split(".")[-1]] = module
        for there, here in names_of(names or ""):
            self.uses[here] = module, there
            if public:
                self.passed[here] = module, there

    @functools.cached_property
    def operators(self):
        return [(it, [part for part in it.split("◌") if part]) for it in [*self.defined, *self.uses] if "◌" in it]


class RustFile:
    """The types and traits of a Rust file, and what it uses."""

    def __init__(self, path):
        self.items, self.uses = {}, {}
        text = path.read_text()
        lines = text.split("\n")
        for where, several, one in re.findall(r"^(?:pub )?use ([\w:]+)::(?:\{([^}]*)\}|(\w+));", text, re.M):
            for name in (several or one).split(","):
                self.uses[name.strip()] = where
        self.ghost = re.findall(r"^\s*ghost use ([\w.]+)\.\{([^}]*)\};", text, re.M)
        at = 0
        while at < len(lines):
            head = re.match(r"^(?:pub(?:\([a-z]+\))? )?(struct|enum|trait|type) (\w+)", lines[at])
            if head:
                first, last = at, self.last_line(lines, at)
                while first > 0 and re.match(r"^(///|#\[)", lines[first - 1]):
                    first -= 1
                self.items[head[2]] = RustItem(head[2], first + 1, lines[first : last + 1])
                at = last
            at += 1

    @staticmethod
    def last_line(lines, at):
        """The line at which the item that begins here ends."""
        depth = 0
        while True:
            code = re.sub(r'//.*|"(?:[^"\\]|\\.)*"', "", lines[at])
            depth += code.count("{") - code.count("}")
            if depth == 0 and re.search(r"[;}]\s*$", code):
                return at
            at += 1


class Sources:
    """The files of our crates and of the toolchain's, read once. A module is named as in `use`: Rattle.CRATE.specs.FILE."""

    def __init__(self, top, kit):
        self.top, self.kit, self.files, self.rust = top, kit, {}, {}

    @functools.lru_cache(maxsize=None)
    def is_own(self, crate):
        return (self.top / "crates" / crate).is_dir()

    def folder_of(self, crate):
        return (self.top / "crates" if self.is_own(crate) else self.kit) / crate

    def file(self, module):
        """The file of definitions of a module, if there is one."""
        if module not in self.files:
            parts = module.split(".")
            self.files[module] = None
            if parts[0] == "Rattle" and len(parts) > 3 and parts[2] in ("specs", "proofs") and parts[3] != "declared":
                path = self.folder_of(parts[1]).joinpath(*parts[2:-1], f"{parts[-1]}.antt")
                self.files[module] = SpecFile(path) if path.is_file() else None
        return self.files[module]

    @functools.lru_cache(maxsize=None)
    def passed_by_std(self, name):
        """The module of a lower crate that `std` passes on under this name."""
        found = re.search(rf"^pub use (Rattle\.\S*\.{re.escape(name)})$", (self.kit / "std" / "specs" / "Lib.antt").read_text(), re.M)
        return found[1] if found else "none"

    @functools.lru_cache(maxsize=None)
    def find(self, module, name, seen=()):
        """Where a name of a module is defined: a spec, a type, a word of the logic, or lost."""
        parts = module.split(".")
        if parts[:3] == ["Rattle", "std", "specs"] and "declared" not in parts and not (self.kit.joinpath(*parts[1:-1]) / f"{parts[-1]}.antt").is_file():
            module = ".".join([self.passed_by_std(parts[3]), *parts[4:]])
            parts = module.split(".")
        if "declared" in parts:
            rest = [it for it in parts if it not in ("TheVariants", "TheViews")]
            if len(rest) < len(parts):
                return "type", ".".join(rest[:-1]), rest[-1]
            return "type", module if rest[-1] != name else ".".join(rest[:-1]), name
        file = self.file(module)
        if file is None:
            return "logic", module, name
        if name in file.defined:
            return "spec", module, file.defined[name].name
        if name in file.passed and (module, name) not in seen:
            return self.find(*file.passed[name], (*seen, (module, name)))
        return "lost", module, name

    def rust_file(self, crate, path):
        """A Rust file of a crate by its path in src/, without its ending; lib.rt where the path is empty."""
        if (crate, path) not in self.rust:
            base = self.folder_of(crate) / "src"
            places = [base / f"{path}.rt", base / path / "mod.rt"] if path else [base / "lib.rt"]
            self.rust[crate, path] = next((RustFile(it) for it in places if it.is_file()), None)
        return self.rust[crate, path]

    def item_of(self, module, name):
        """The crate, the path and the file of a type that a module `declared` names; the root of a crate may pass on what its modules have."""
        parts = module.split(".")
        crate, path = parts[1], "/".join(parts[4:])
        file = self.rust_file(crate, path)
        if file and name in file.items:
            return crate, path or "lib", file
        base = self.folder_of(crate) / "src"
        for found in sorted(base.rglob("*.rt")):
            path = str(found.relative_to(base))[:-3]
            file = self.rust_file(crate, path if path != "lib" else "")
            if file and name in file.items and any(line.startswith("pub") for line in file.items[name].lines):
                return crate, path, file
        return None

    def type_of_word(self, crate, file, word):
        """Where a word of a Rust file, as a type, is declared."""
        if word in file.items or word not in file.uses:
            return None
        parts = file.uses[word].split("::")
        if parts[0] in ("crate", "self", "super"):
            parts[0] = crate
        return None if parts[0] in ("std", "core") else ("type", ".".join(["Rattle", parts[0], "specs", "declared", *parts[1:]]), word)


def bound_by_pattern(clause):
    """The variables on the left of a clause's equals sign."""
    found, is_open = set(), False
    if re.search(r" =\s", clause) and not re.match(r"\s*(abbrev|unfoldable|pub|record|data)", clause):
        for word in split(re.split(r" =\s", clause)[0])[1:]:
            if word not in ")]}," and word not in "([{" and not is_open and not re.match(r'[A-Z\d"]', word):
                found.add(word)
            is_open = word in "([{"
    return found


def variables(clause):
    """The words that a clause binds: by its patterns, lambdas, `let`, branches and binders with a type."""
    bound, words = bound_by_pattern(clause), split(clause)
    for at, word in enumerate(words):
        if word == "λ":
            for name in words[at + 1 :]:
                if name in ("→", "↦", "="):
                    break
                if name not in SYMBOLS:
                    bound.add(name.rstrip("."))
                if name.endswith(".") or name == ":":
                    break
        elif word in ("let", "←") and at + 1 < len(words):
            bound.add(words[at + 1] if word == "let" else words[at - 1])
        elif word == "↦":
            back = at - 1
            while back >= 0 and words[back] not in ("[", "|"):
                if words[back - 1] not in ("[", "|", "(") and not re.match(r"[A-Z()\d]", words[back]):
                    bound.add(words[back])
                back -= 1
        elif word == "(":
            names = []
            for name in words[at + 1 :]:
                if name in "(){}:" or name in WORDS:
                    bound.update(names if name == ":" else [])
                    break
                names.append(name)
    return bound


def clauses(definition):
    """The clauses of a definition, without comments; a clause goes on in the lines that stand further in."""
    out, indent = [], None
    for line in definition.lines:
        if is_comment(line) or INFIX.match(line):
            continue
        if indent is None or indent_of(line) <= indent and line.strip()[0] not in ")]}":
            out.append(line)
            indent = indent_of(line) if indent is None else min(indent, indent_of(line))
        else:
            out[-1] += f"\n{line}"
    return out


def names_in(text, file, is_record):
    """The words of a text that are names which the file knows, each with its folder where it has one."""
    words, found, bound = split(text), set(), variables(text)
    for at, word in enumerate(words):
        after = words[at + 1] if at + 1 < len(words) else ""
        is_field = is_record and after == ":" and (at == 0 or words[at - 1] == "pub") or after == "=" and at > 0 and words[at - 1] in "{;"
        stem, _, rest = word.rstrip(".").partition(".")
        if word[0] == '"' or word in WORDS or is_field:
            continue
        if stem in file.folders:
            found.update({(rest, file.folders[stem])} if rest else ())
        elif stem and stem not in bound and (stem in file.defined or stem in file.uses):
            found.add((stem, None))
    found.update((name, None) for name, parts in file.operators if all(it in text for it in parts))
    return found


def kit_folder():
    """The folder with the sources of the toolchain's crates, or none."""
    place = shutil.which("rt")
    folder = pathlib.Path(place).resolve().parent.parent / "rattle" if place else None
    return folder if folder and folder.is_dir() else None
