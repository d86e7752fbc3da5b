"""Xen's source, from Debian's source package. Nothing of /etc is changed: apt is given a list of sources and folders of its own."""
import os
import pathlib
import re
import subprocess
import sys
import tarfile

# The major and minor versions that the harness and the changes were tried on, the usual one first, and the suites of Debian that have them.
SUITES = {"4.17": ["debian bookworm", "debian-security bookworm-security"], "4.14": ["debian bullseye", "debian-security bullseye-security"]}
TRIED = next(iter(SUITES))
FOLDER = pathlib.Path(os.environ.get("XDG_CACHE_HOME", pathlib.Path.home() / ".cache")) / "beside-xen"    # where all is kept unless told
KEY = "/usr/share/keyrings/debian-archive-keyring.gpg"


class Refused(Exception):
    """There is no source, or it is of another version than the one tried."""


class Apt:
    """apt with a private list of sources, so that no line deb-src has to be added to the machine's own."""

    def __init__(self, folder, suites):
        self.folder = folder
        for name in ("lists/partial", "cache/archives/partial"):
            (folder / name).mkdir(parents=True, exist_ok=True)
        (folder / "sources.list").write_text("".join(f"deb-src [signed-by={KEY}] http://deb.debian.org/{suite} main\n" for suite in suites))
        self.options = [f"-oDir::Etc::SourceList={folder}/sources.list", "-oDir::Etc::SourceParts=/dev/null", f"-oDir::State::Lists={folder}/lists",
                        f"-oDir::Cache={folder}/cache", "-oAPT::Sandbox::User=root", "-oAPT::Get::List-Cleanup=0"]

    def call(self, *words, where=None):
        return subprocess.run([words[0], *self.options, *words[1:]], cwd=where, capture_output=True, text=True)

    def versions(self):
        """The versions of the source package, the newest first."""
        found = re.findall(r"^Version: (.*)$", self.call("apt-cache", "showsrc", "xen").stdout, re.M)
        return sorted(set(found), key=lambda version: [int(number) for number in re.findall(r"\d+", version)], reverse=True)

    def fetch(self, version, target):
        """Whether the package could be had: the newest of the list may be gone from the mirror. The original archive alone will do, since no patch of
        Debian's touches the scheduler."""
        done = self.call("apt-get", "source", "-qq", f"xen={version}", where=target)
        if done.returncode == 0:
            return True
        print(f"xen {version} could not be had: {cause_of(done.stderr)}", file=sys.stderr)
        done = self.call("apt-get", "source", "-qq", "--tar-only", f"xen={version}", where=target)
        archive = next(iter(sorted(target.glob(f"xen_{version.rsplit('-', 1)[0]}.orig.tar.*"))), None)
        if done.returncode or archive is None:
            return False
        print(f"its original archive could, without Debian's patches: {archive.name}", file=sys.stderr)
        with tarfile.open(archive) as packed:
            packed.extractall(target, filter="data")
        return True


def cause_of(errors):
    """Why a file could not be had, by what apt says: an answer of the mirror, as 404, where there is one."""
    lines = [line.strip() for line in errors.strip().splitlines()]
    answers = [line for line in lines if re.search(r"\b[45]\d\d\b +\w", line)]
    return (answers or lines or ["apt says nothing"])[-1]


def unpacked(folder, minor, version=None):
    """The folder xen/ of a source that was fetched before, of this version where one is given, else the newest of these major and minor numbers."""
    name = f"xen-{version.rsplit('-', 1)[0]}" if version else f"xen-{minor}.*"
    return next((path for path in sorted(folder.glob(f"{name}/xen"), reverse=True) if path.is_dir()), None)


def version_of(xen):
    """Xen's own version, from its makefile."""
    text = (xen / "Makefile").read_text()
    numbers = [re.search(rf"^export {name}\s*[:?]?=\s*\.?(\S*)", text, re.M) for name in ("XEN_VERSION", "XEN_SUBVERSION", "XEN_EXTRAVERSION")]
    return ".".join(number[1].removesuffix("$(XEN_VENDORVERSION)") for number in numbers if number)


def check(xen, any_version):
    """Refuses a source of another version than those tried, unless told."""
    version = version_of(xen)
    if not any(version.startswith(f"{tried}.") for tried in SUITES) and not any_version:
        raise Refused(f"this is Xen {version}, and {' and '.join(SUITES)} were tried; with --any-version it is taken all the same")
    return version


def source(folder, minor=TRIED, version=None):
    """The folder xen/ of Xen's source of these major and minor numbers, which is fetched where it is not there yet."""
    folder.mkdir(parents=True, exist_ok=True)
    if found := unpacked(folder, minor, version):
        return found
    apt = Apt(folder / f"apt-{minor}", SUITES.get(minor, [suite for suites in SUITES.values() for suite in suites]))
    print("fetching the list of Debian's source packages", file=sys.stderr)
    done = apt.call("apt-get", "update", "-qq")
    for wanted in [version] if version else apt.versions():
        print(f"fetching xen {wanted}", file=sys.stderr)
        if apt.fetch(wanted, folder) and (found := unpacked(folder, minor, wanted)):
            return found
    raise Refused(f"no source package of Xen {version or minor} could be had; apt says: {cause_of(done.stderr)}")


if __name__ == "__main__":
    print(source(pathlib.Path(sys.argv[1]), *sys.argv[2:]))
