"""The archive and the package of a release, from what tools/installed.py lists. Each is the same, byte for byte, whenever and wherever it is made of one program."""
import hashlib
import io
import lzma
import os
import pathlib
import re
import subprocess
import tarfile
import tempfile

import built
import installed

CONTROL = """Package: xensched
Version: {version}
Architecture: amd64
Maintainer: The authors of xensched <xensched@localhost>
Installed-Size: {size}
Depends: libc6 (>= {libc}), python3 (>= 3.11)
Recommends: python3-matplotlib, parallel
Suggests: gcc, libc6-dev, dpkg-dev
Section: misc
Priority: optional
Description: schedules of simulated Xen machines, by a proved program
 xensched runs the CPU scheduling part of the Xen hypervisor (Credit2, RTDS,
 ARINC 653 and null, with pools of processors and core scheduling) on a machine
 that a file describes, and prints each step of its schedule. Every function of
 the program is proved to meet its contract. Tools beside it say who waited how
 long, who kept which deadline, and which configuration meets given targets.
"""
# What Python keeps beside the modules goes with the package.
PRERM = f"#!/bin/sh\nset -e\nfind /usr/{installed.LIBRARY} -depth -name __pycache__ -exec rm -rf {{}} +\n"


def moment():
    """The commit's date in seconds, which each file of an archive has."""
    return int(built.git("log", "-1", "--format=%ct") or 0)


def entries(found, prefix):
    """What a tar has: each folder before what stands in it, in order."""
    folders = {parent for name in found for parent in (prefix / name).parents if parent != pathlib.PurePosixPath(".")}
    for name in sorted([*folders, *(prefix / name for name in found)]):
        yield name, found.get(name.relative_to(prefix)) if name.is_relative_to(prefix) else None


def tar(found, prefix):
    """The bytes of a tar of all of it, below this folder."""
    out = io.BytesIO()
    with tarfile.open(fileobj=out, mode="w", format=tarfile.PAX_FORMAT) as archive:
        for name, file in entries(found, pathlib.PurePosixPath(prefix)):
            head = tarfile.TarInfo(str(name))
            head.mtime, head.uname, head.gname = moment(), "root", "root"
            if file is None:
                head.type, head.mode = tarfile.DIRTYPE, 0o755
            elif file.link:
                head.type, head.linkname, head.mode = tarfile.SYMTYPE, file.link, 0o777
            else:
                head.size, head.mode = len(file.bytes), 0o755 if file.is_program else 0o644
            archive.addfile(head, io.BytesIO(file.bytes) if file and not file.link else None)
    return out.getvalue()


def least_libc(program):
    """The oldest C library that the program runs with, from the versions of the symbols that it asks for."""
    found = re.findall(rb"\0GLIBC_(\d+)\.(\d+)", program)
    return ".".join(map(str, max((int(a), int(b)) for a, b in found)))


def package(found, version, path):
    """Makes Debian's package at this path."""
    with tempfile.TemporaryDirectory() as name:
        root = pathlib.Path(name) / "root"
        for _ in installed.put(found, root / "usr", is_listed=False):
            pass
        control = root / "DEBIAN"
        control.mkdir()
        size = sum(len(file.bytes) for file in found.values()) // 1024 + 1
        program = found[installed.LIBRARY / "program" / installed.NAME].bytes
        (control / "control").write_text(CONTROL.format(version=version, size=size, libc=least_libc(program)))
        (control / "md5sums").write_text("".join(f"{hashlib.md5(file.bytes).hexdigest()}  usr/{name}\n" for name, file in sorted(found.items()) if not file.link))
        (control / "prerm").write_text(PRERM)
        (control / "prerm").chmod(0o755)
        for folder in [root, *root.rglob("*")]:
            if folder.is_dir():
                folder.chmod(0o755)
        done = subprocess.run(["dpkg-deb", "--root-owner-group", "-Zxz", "--build", root, path], capture_output=True, text=True,
                              env={**os.environ, "SOURCE_DATE_EPOCH": str(moment())})
        if done.returncode:
            raise OSError(f"dpkg-deb ends with {done.returncode}: {done.stderr.strip()}")


def make(message, folder):
    """Makes the archive, the package and SHA256SUMS in a folder, and returns their paths."""
    found, version = installed.everything(message), installed.version()
    folder.mkdir(parents=True, exist_ok=True)
    name = f"xensched-{version}-linux-x86_64"
    archive, deb, sums = folder / f"{name}.tar.xz", folder / f"xensched_{version}_amd64.deb", folder / "SHA256SUMS"
    archive.write_bytes(lzma.compress(tar(found, name), preset=9))
    package(found, version, deb)
    sums.write_text("".join(f"{hashlib.sha256(path.read_bytes()).hexdigest()}  {path.name}\n" for path in (archive, deb)))
    return archive, deb, sums
