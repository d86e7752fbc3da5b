"""One trial of a soak: from a seed to what was counted, and a folder for what failed."""
import collections
import pathlib
import random
import shlex
import tempfile
from typing import NamedTuple

from . import calls, shrinking, wild
from .bad_files import BadFiles
from .trials import Texts, Trial
from .words import Refused

MADE, BAD = "made", "bad files"
KINDS = (MADE, *wild.KINDS, BAD)
PROCESSORS = (1, 2, 3, 4, 8, 16, 32, 64)


class Told(NamedTuple):
    """What came of a trial: the failures are pairs of the claim and the folder that keeps its files."""

    seed: int
    kind: str
    counts: collections.Counter
    failures: list


def kind_of(seed, is_bad):
    """The kinds come by turns."""
    return BAD if is_bad else KINDS[seed % len(KINDS)]


def texts_of(program, seed, kind, folder):
    """The files of a trial."""
    draw = random.Random(f"files {seed}")
    if kind == MADE or kind == BAD and draw.random() < 0.2:
        made = (draw.randrange(2**31), draw.choice(PROCESSORS), draw.randint(1, 24))
        domains, work = (calls.call(program, ["make", *made, what], folder).out for what in ("domains", "work"))
        return Texts(domains, work, draw.choice([4_000, 8_000]), made)
    domains, work, limit = wild.made(seed, draw.choice(list(wild.KINDS)) if kind == BAD else kind)
    return Texts(domains.encode(), work.encode(), limit)


def tried(program, texts, seed, kind):
    """A trial of these texts."""
    with tempfile.TemporaryDirectory(prefix="xensched-soak-") as folder:
        trial = (BadFiles if kind == BAD else Trial)(program, folder, seed)
        try:
            trial.run(texts)
        except (Refused, ValueError, LookupError) as odd:
            # what the program wrote has another form than the pages give it, or a file that it takes is none to the tools
            trial.claim(False, f"what the program writes and takes can be read: {type(odd).__name__}", odd)
        return trial


def fails_so(program, seed, kind, claim):
    """A function that tells whether texts fail this claim. The draws are others each time, since other texts are spoiled in other places."""
    goes = iter(range(10**9))
    return lambda texts: claim in [failure.claim for failure in tried(program, texts, f"{seed} {next(goes)}", kind).failures]


def kept(folder, name, program, failure, texts):
    """Writes the files of a failure, those that were made small among them, and a note."""
    place = pathlib.Path(folder) / name
    (place / "small").mkdir(parents=True, exist_ok=True)
    for file, text in failure.files.items():
        (place / file).write_bytes(text)
    (place / "small" / "domains").write_bytes(texts.domains)
    (place / "small" / "work").write_bytes(texts.work)
    (place / "note.txt").write_text(f"claim: {failure.claim}\nseen: {failure.seen}\ncall: {shlex.join(map(str, [program, *failure.words]))}\nentries: {texts.limit}\n", errors="replace")
    return str(place)


def one(program, seed, is_bad, folder, is_shrunk=True):
    """The trial of a seed. Of each claim that fails the files are kept; those of the first one are made small."""
    kind = kind_of(seed, is_bad)
    with tempfile.TemporaryDirectory(prefix="xensched-soak-") as room:
        texts = texts_of(program, seed, kind, room)
    trial = tried(program, texts, seed, kind)
    failures = []
    for number, failure in enumerate(trial.failures):
        small = texts
        if is_shrunk and number == 0:
            small = shrinking.smaller(texts, fails_so(program, seed, kind, failure.claim))
        failures.append((failure.claim, kept(folder, f"{seed}-{number + 1}", program, failure, small)))
    return Told(seed, kind, trial.counts, failures)
