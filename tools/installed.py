"""What an installed xensched has, and where: one list for tools/install, the archive and the package.

    bin/                   xensched and the tools, as links
    lib/xensched/          the launcher, VERSION, program/ with its stamp, tools/ with their modules, beside-xen/ for xensched-as-xen
    share/man/man1/        a page for xensched and for each tool
    share/bash-completion/ the completion
    share/doc/xensched/    pages, examples, licences; a link of a page to what is not installed is plain text there

Each path is given relative to the prefix, with what stands there: bytes, or the target of a link, and whether it is a program.
"""
import dataclasses
import gzip
import os
import pathlib
import re
import shutil
import subprocess
import sys

import built

TOP = built.TOP
NAME = "xensched"
LIBRARY, DOC, MAN = pathlib.PurePosixPath("lib/xensched"), pathlib.PurePosixPath("share/doc/xensched"), pathlib.PurePosixPath("share/man/man1")
# What tools/install has put, for whoever takes it away.
LIST = LIBRARY / "installed"
# Tools that answer questions of a user; those that are not there yet are left out.
TOOLS = ("study", "compare", "sweep", "plan", "schedulable", "why", "draw", "explain", "from-xl", "from-trace", "loads", "as-xen")
# What xensched-as-xen builds Xen's code with.
BESIDE = ("harness", "stand-in", "changes", "tools", "README.md")
PAGES = ("README.md", "CHANGELOG.md", "SECURITY.md", "CITATION.cff", "LICENSE-MIT", "LICENSE-APACHE", "docs/*.md", "docs/pictures/*.svg", "beside-xen/README.md")
LINK = re.compile(r"(!?)\[((?:[^\[\]]|\[[^\]]*\])*)\]\(([^()\s]*(?:\([^()\s]*\))?[^()\s]*)\)")


@dataclasses.dataclass
class File:
    """What stands at a path: bytes, or a link to another path."""
    bytes: bytes = b""
    link: str = ""
    is_program: bool = False


def version():
    return (TOP / "VERSION").read_text().strip()


def tools():
    return [name for name in TOOLS if (TOP / "tools" / name).is_file()]


def modules():
    """The modules that the tools need, from one to those that it imports."""
    folder = TOP / "tools" / "xensched_tools"
    todo, found = [(TOP / "tools" / name).read_text() for name in tools()], set()
    while todo:
        text = todo.pop()
        names = [name for listed in re.findall(r"^\s*from (?:xensched_tools|\.) import (.*)$", text, re.M) for name in re.findall(r"\w+", listed)]
        names += re.findall(r"^\s*from (?:xensched_tools)?\.(\w+) import", text, re.M)
        for name in names:
            path = folder / f"{name}.py"
            if name not in found and path.is_file():
                found.add(name)
                todo.append(path.read_text())
    return sorted([folder / "__init__.py", *(folder / f"{name}.py" for name in found), *folder.glob("page.*")])


def pages():
    """The pages and examples by their place below share/doc/xensched, as they stand in the repository."""
    found = {path.relative_to(TOP): path for pattern in PAGES for path in sorted(TOP.glob(pattern))}
    found |= {path.relative_to(TOP): path for path in sorted((TOP / "examples").rglob("*")) if path.is_file() and "__pycache__" not in path.parts}
    return {pathlib.PurePosixPath(str(name)): path for name, path in found.items()}


def without_lost_links(text, name, known):
    """The page's text; a link to what is not installed is its words alone."""
    def put(found):
        target = found[3].partition("#")[0]
        if re.match(r"[a-z]+:", found[3]) or not target:
            return found[0]
        path = os.path.normpath(name.parent / target)
        is_there = path in known or any(it.startswith(f"{path}/") for it in known)
        return found[0] if is_there else found[2]

    return LINK.sub(put, text)


def help_of(tool):
    """What the tool says of itself."""
    done = subprocess.run([sys.executable, TOP / "tools" / tool, "--help"], capture_output=True, text=True, env={**os.environ, "COLUMNS": "100", "PYTHONDONTWRITEBYTECODE": "1"})
    if done.returncode:
        sys.exit(f"tools/{tool} --help ends with {done.returncode}: {done.stderr.strip()}")
    return done.stdout


def of_installed(text):
    """A text in which the tools have the names that they are installed with."""
    return re.sub(r"(?<![\w/])(?:\./)?tools/(" + "|".join(sorted(TOOLS, key=len, reverse=True)) + r")\b", r"xensched-\1", text).replace("./xensched", NAME)


def page_of(tool):
    """The manual page of a tool, from what it says of itself."""
    text = of_installed(help_of(tool))
    usage, _, rest = text.partition("\n\n") if text.startswith("usage:") else ("", "", text)
    first = re.split(r"(?<=[.:])\s", " ".join(rest.split()), maxsplit=1)[0].rstrip(".:")
    def quoted(block):
        return "\n".join(re.sub(r"^([.'])", r"\\&\1", line.replace("\\", "\\e").replace("-", "\\-")) for line in block.strip("\n").splitlines())
    name = f"{NAME}-{tool}"
    synopsis = quoted(re.sub(r"^usage: \S+", name, usage)) if usage else f"{name} \\-\\-help"
    return (f".TH {name.upper()} 1 \"\" \"{NAME} {version()}\"\n.SH NAME\n{name} \\- {quoted(first[:1].lower() + first[1:])}\n.SH SYNOPSIS\n.nf\n{synopsis}\n.fi\n"
            f".SH DESCRIPTION\n.nf\n{quoted(rest)}\n.fi\n.SH SEE ALSO\n.BR {NAME} (1),\nthe pages in /usr/share/doc/{NAME}\n")


def zipped(text):
    return gzip.compress(text.encode(), mtime=0)


def from_file(path, is_program=False):
    return File(path.read_bytes(), is_program=is_program)


def library():
    """What stands in lib/xensched, and the links to it."""
    found = {LIBRARY / NAME: from_file(TOP / "tools" / "installed_launcher", True), LIBRARY / "VERSION": from_file(TOP / "VERSION"),
             LIBRARY / "program" / NAME: from_file(built.PROGRAM, True), LIBRARY / "program" / "build.stamp": from_file(built.stamp_of(built.PROGRAM)),
             pathlib.PurePosixPath("bin") / NAME: File(link=f"../{LIBRARY}/{NAME}")}
    for tool in tools():
        found[LIBRARY / "tools" / tool] = from_file(TOP / "tools" / tool, True)
        found[pathlib.PurePosixPath("bin") / f"{NAME}-{tool}"] = File(link=f"../{LIBRARY}/tools/{tool}")
    for path in modules():
        found[LIBRARY / "tools" / "xensched_tools" / path.name] = from_file(path)
    for part in BESIDE if "as-xen" in tools() else ():
        path = TOP / "beside-xen" / part
        for file in [path] if path.is_file() else sorted(path.rglob("*")):
            if file.is_file() and "__pycache__" not in file.parts:
                found[LIBRARY / "beside-xen" / file.relative_to(TOP / "beside-xen")] = from_file(file)
    return found


def documents(message):
    """The manual pages, the completion, the pages and the examples; `message` is what the gate and the soak said, if they did."""
    found = {MAN / f"{NAME}.1.gz": File(zipped((TOP / "docs" / "xensched.1").read_text())), pathlib.PurePosixPath("share/bash-completion/completions/xensched"): from_file(TOP / "docs" / "xensched.bash"),
             DOC / "copyright": from_file(TOP / "COPYRIGHT"), DOC / "build.stamp": from_file(built.stamp_of(built.PROGRAM))}
    for tool in tools():
        found[MAN / f"{NAME}-{tool}.1.gz"] = File(zipped(page_of(tool)))
    known = {str(it) for it in pages()}
    for name, path in pages().items():
        is_page = path.suffix == ".md"
        found[DOC / name] = File(of_page(path.read_text(), name, known).encode()) if is_page else from_file(path)
    if message:
        found[DOC / "RELEASE"] = File(message.encode())
    return found


def of_page(text, name, known):
    return without_lost_links(text, name, known)


def everything(message=""):
    """All that is installed, by its path below the prefix. It needs the proved program of these sources."""
    stamp = built.read_stamp(built.PROGRAM)
    if stamp is None or stamp["sources"] != built.sum_of_sources():
        sys.exit("the proved program of these sources is not there; ./xensched --build makes it")
    return {**library(), **documents(message)}


def put(found, prefix, is_listed=True):
    """Puts all of it below a folder, and says each path. If it is to be listed, what was put and which folders were made for it stands beside the launcher."""
    made = []
    for name, file in sorted(found.items()):
        path = prefix / name
        made += [it for it in reversed(name.parents) if not (prefix / it).is_dir()]
        path.parent.mkdir(parents=True, exist_ok=True)
        path.unlink(missing_ok=True)
        if file.link:
            path.symlink_to(file.link)
        else:
            path.write_bytes(file.bytes)
            path.chmod(0o755 if file.is_program else 0o644)
        yield path
    if not is_listed:
        return
    (prefix / LIST).write_text("".join(f"{line}\n" for line in [*(f"file {name}" for name in sorted(found)), f"file {LIST}", *(f"folder {name}" for name in made)]))
    yield prefix / LIST


def take_away(prefix):
    """Takes exactly that away, with what Python keeps of the modules, and says each path that was there."""
    try:
        lines = (prefix / LIST).read_text().splitlines()
    except OSError:
        sys.exit(f"nothing is installed in {prefix}: there is no {prefix / LIST}")
    for cache in sorted((prefix / LIBRARY).rglob("__pycache__")):
        shutil.rmtree(cache)
    for line in lines:
        kind, _, name = line.partition(" ")
        if kind == "file" and ((prefix / name).is_symlink() or (prefix / name).is_file()):
            (prefix / name).unlink()
            yield prefix / name
    for line in reversed(lines):
        kind, _, name = line.partition(" ")
        if kind == "folder" and (prefix / name).is_dir() and not any((prefix / name).iterdir()):
            (prefix / name).rmdir()
