"""Compiles Xen's scheduler files with the harness around them, as they are or with changes.

A change is a file `changes/NAME.sed`, whose first line names the file of Xen that it edits, and beside it there may be
`changes/NAME.c`, which is put at the end of the edited file. The source of Xen is only read.
"""
import hashlib
import pathlib
import re
import subprocess

import lock

HERE = pathlib.Path(__file__).resolve().parent.parent
SCHEDULERS = ["null", "arinc653", "rt", "credit2", "core", "cpupool"]
TIMERS = "timer"            # compiled with names of its own
ALWAYS = ("timer-moment",)  # changes that each program has, since the clock stands still while Xen's code runs
COMMON = ["softirq", "bitmap"]
OWN = ["machine", "guests", "commands", "boot", "input", "services", "timers"]
# Headers that Xen's files name and of which they need nothing here.
EMPTY = ["asm/cpufeature.h", "asm/delay.h", "asm/desc.h", "asm/event.h", "asm/flushtlb.h", "asm/guest.h", "asm/init.h", "asm/page.h",
         "asm/percpu.h", "asm/string.h", "asm/trace.h", "xen/hypercall.h", "xen/hypfs.h", "xen/iommu.h", "xen/symbols.h"]
FLAGS = ["-O1", "-g", "-std=gnu99", "-fno-strict-aliasing", "-fno-builtin", "-fno-common", "-nostdinc", "-fno-pie", "-Wall", "-Wno-unused",
         "-Wno-format", "-Werror=implicit-function-declaration"]


class Failed(Exception):
    """A tool that the build calls has failed, or a change fits nowhere."""


def call(*words):
    done = subprocess.run([str(word) for word in words], capture_output=True, text=True)
    if done.returncode:
        raise Failed(f"{words[0]} failed:\n{done.stderr}")
    return done.stdout


def place_for(folder, xen):
    """A folder of its own for each state of the harness and each source, so that no old object is taken."""
    state = hashlib.sha256(str(xen).encode())
    parts = [HERE / "tools" / "build.py", *(path for part in ("harness", "stand-in", "changes") for path in sorted((HERE / part).rglob("*")))]
    for path in parts:
        state.update(path.read_bytes() if path.is_file() else b"")
    place = folder / f"builds-{state.hexdigest()[:12]}"
    place.mkdir(parents=True, exist_ok=True)
    return place


class Builder:
    """Makes programs from one source of Xen in one folder. An object that was made before is taken again. `tell` is told how far a program is."""

    def __init__(self, xen, folder, tell=lambda text: None):
        self.xen, self.folder, self.tell = xen, folder, tell
        for name in EMPTY:
            path = folder / "empty" / name
            path.parent.mkdir(parents=True, exist_ok=True)
            path.touch()
        places = [HERE / "stand-in", folder / "empty", HERE / "harness", xen / "include", xen / "common" / "sched"]
        self.minor = re.search(r"^export XEN_SUBVERSION\s*[:?]?=\s*(\d+)", (xen / "Makefile").read_text(), re.M)[1]
        self.flags = [*FLAGS, f"-DXEN_MINOR={self.minor}", *(f"-I{place}" for place in places), "-D__XEN__", "-include", xen / "include" / "xen" / "config.h"]

    def edited(self, source, change):
        """The file with the change made in it. A change that fits nowhere any more is a fault."""
        script, more = (HERE / "changes" / f"{change}.{kind}" for kind in ("sed", "c"))
        text = call("sed", "-E", "-f", script, source)
        if text == source.read_text():
            raise Failed(f"the change {change} fits nowhere in {source}")
        target = self.folder / f"{source.stem}+{change.split('-')[1]}.c"
        target.write_text(text + (more.read_text() if more.exists() else ""))
        return target

    def made(self, name, *words):
        """What gcc makes with these words. It has its name only once it is whole."""
        target, part = self.folder / name, self.folder / f"{name}.part"
        if not target.exists():
            call("gcc", *words, "-o", part)
            part.rename(target)
        return target

    def compiled(self, source, flags):
        return self.made(f"{source.stem}.o", "-c", *flags, source)

    def path_of(self, changes):
        """Where the program with these changes is, or will be."""
        return self.folder / ("beside-" + hashlib.sha256(" ".join(changes).encode()).hexdigest()[:12] if changes else "beside")

    def is_built(self, changes=()):
        return self.path_of(changes).exists()

    def program(self, changes=()):
        """The program with these changes, which are made in their order."""
        if not self.is_built(changes):
            with lock.alone_in(self.folder):
                self.link(self.path_of(changes).name, changes)
        return self.path_of(changes)

    def xenalyze(self):
        """Xen's own reader of traces, from the same source package."""
        tools, named = self.xen.parent / "tools", self.folder / "public"
        named.mkdir(exist_ok=True)
        if not (named / "xen").exists():
            (named / "xen").symlink_to(self.xen / "include" / "public")
        return self.made("xenalyze", "-O2", "-w", f"-I{named}", f"-I{tools / 'include'}", *(tools / "xentrace" / f"{name}.c" for name in ("xenalyze", "mread")))

    def link(self, name, changes):
        sources = {it: self.xen / "common" / "sched" / f"{it}.c" for it in SCHEDULERS}
        sources[TIMERS] = self.xen / "common" / f"{TIMERS}.c"
        for change in dict.fromkeys((*changes, *ALWAYS)):
            it = file_of(change)
            sources[it] = self.edited(sources[it], change)
        rest = [self.xen / "common" / f"{name}.c" for name in COMMON] + [HERE / "harness" / f"{name}.c" for name in OWN]
        objects = []
        for source in (every := [*sources.values(), *rest]):
            self.tell(f"compiling {source.name}, {len(objects) + 1} of {len(every)} files")
            names = ["-include", HERE / "harness" / "timer_names.h"] if source is sources[TIMERS] else []
            objects.append(self.compiled(source, [*self.flags, *names]))
        objects.append(self.compiled(HERE / "harness" / "host.c", ["-O1", "-g", "-Wall", "-fno-pie"]))
        self.made(name, "-no-pie", *objects, "-T", HERE / "harness" / "sections.ld")


def file_of(change):
    """The file of Xen that the change edits."""
    first = (HERE / "changes" / f"{change}.sed").read_text().splitlines()[0]
    return first.removeprefix("# file: ")
