"""Spoils schedules, and says which verdict `xensched check` owes to each.

A run may be spoiled in ways that leave it a run: in free order two lines of a moment may change places, and a core that two causes make pending may
have one of them left out. What is owed is therefore said for each spoiling alone:

- The ordered run is one text. So with --ordered each other text is refused at the first line that differs, and where the verdict names the entry
  that is due, it is that line of the ordered run.
- In free order the cause is known where the spoiled line alone decides it: the moment, the form, the ending, a field that follows from the state.
- A line doubled makes no run, at that line or later; nor does one left out of the kinds in ALWAYS_MISSED, and of those in MOSTLY_MISSED where nothing comes
  behind it in its moment that stops a processor or makes its core pending again, as a stall does.
- Of all else only this: the lines before the spoiled one stay a run, so no line before it is named.
"""
import re
from typing import NamedTuple

# Left out, such a line leaves something undone that has to be done in its moment.
ALWAYS_MISSED = ("end", "finish", "xl", "stall", "wake")
MOSTLY_MISSED = ("decide", "leave", "moved", "dom-moved")
FROM_OUTSIDE = ("xl", "stall", "wake", "repl", "refill")
# Fields behind the subject that follow from the state: a word, and behind it the number.
FIELDS = {"decide": ("late", "reset"), "repl": ("deadline", "budget"), "refill": ("periods", "budget"), "stall": ("until",)}


class Spoiled(NamedTuple):
    """A spoiled schedule and what is owed to it: the first line of the verdict, or no more than that it is refused at `least` or later."""

    name: str
    text: bytes
    verdict: str | None = None
    entry: str | None = None
    least: int = 1
    is_refused: bool = True


def joined(lines):
    return "".join(f"{line}\n" for line in lines).encode()


def put(lines, at, *others):
    """The lines with others in the place of one."""
    return joined([*lines[:at], *others, *lines[at + 1 :]])


def cut_within(lines, at, draw):
    """The text ends within a line."""
    return Spoiled("cut within a line", joined(lines[:at]) + lines[at][: draw.randint(1, len(lines[at]))].encode(), f"no {at + 1} Cut")


def cut_behind(lines, at, draw):
    """The text ends before a line."""
    return Spoiled("cut behind a line", joined(lines[:at]), f"no {at + 1} Unfinished")


def odd_letter(lines, at, draw):
    """A letter that no entry has."""
    place = draw.randint(0, len(lines[at]))
    return Spoiled("a letter put in", put(lines, at, f"{lines[at][:place]}?{lines[at][place:]}"), f"no {at + 1} NotEntry {place}")


def another_moment(lines, at, draw):
    """The moment of a line is one more."""
    moment, _, rest = lines[at].partition(" ")
    return Spoiled("another moment", put(lines, at, f"{int(moment) + 1} {rest}"), f"no {at + 1} Moment {moment}")


def another_end(lines, at, draw):
    """The end of a moment names another one."""
    moment, kind, *rest = lines[at].split()
    if kind == "finish":
        return Spoiled("an end for the finish", put(lines, at, f"{moment} end {int(moment) + 1}"), f"no {at + 1} Finish")
    if kind != "end":
        return None
    other = draw.choice([f"{moment} end {int(rest[0]) + 1}", f"{moment} finish"])
    return Spoiled("another end", put(lines, at, other), f"no {at + 1} End {rest[0]}")


def another_field(lines, at, draw):
    """A number that follows from the state is one more."""
    words = lines[at].split()
    keys = FIELDS.get(words[1], ())
    if words[1] == "save":
        words[-1] = {"queued": "off", "off": "queued"}[words[-1]]
    elif keys:
        place = words.index(draw.choice(keys)) + 1
        words[place] = str(int(words[place]) + 1)
    else:
        return None
    return Spoiled("another field", put(lines, at, " ".join(words)), f"no {at + 1} Differs", lines[at])


def another_command(lines, at, draw):
    """The answer to a command has the next one's number."""
    words = lines[at].split()
    if words[1] != "xl":
        return None
    words[2] = str(int(words[2]) + 1)
    return Spoiled("another command", put(lines, at, " ".join(words)), f"no {at + 1} NotEnabled")


def doubled(lines, at, draw):
    """A line comes twice."""
    moment, kind, *rest = lines[at].split()
    verdict = {"end": f"no {at + 2} Moment {' '.join(rest)}", "finish": f"no {at + 2} AfterFinish"}.get(kind)
    return Spoiled(f"{kind} doubled", put(lines, at, lines[at], lines[at]), verdict, least=at + 2)


def left_out(lines, at, draw):
    """A line is missing."""
    moment, kind, *_ = lines[at].split()
    if at == len(lines) - 1:
        return None
    verdict = f"no {at + 1} Moment {moment}" if kind == "end" else None
    is_missed = kind in ALWAYS_MISSED or kind in MOSTLY_MISSED and not any(it in FROM_OUTSIDE for it in kinds_behind(lines, at))
    return Spoiled(f"{kind} left out", put(lines, at), verdict, least=at + 1, is_refused=is_missed)


def kinds_behind(lines, at):
    """The kinds of the lines behind this one in its moment."""
    moment = lines[at].split()[0]
    for line in lines[at + 1 :]:
        words = line.split()
        if words[0] != moment:
            return
        yield words[1]


def swapped(lines, at, draw):
    """Two lines have changed places."""
    if at == len(lines) - 1 or lines[at] == lines[at + 1]:
        return None
    kind = lines[at + 1].split()[1]
    name = "end brought forward" if kind in ("end", "finish") else "two lines swapped"
    verdict = f"no {at + 1} NotQuiet" if kind in ("end", "finish") and lines[at].split()[1] != "end" else None
    text = joined([*lines[:at], lines[at + 1], lines[at], *lines[at + 2 :]])
    return Spoiled(name, text, verdict, least=at + 1, is_refused=verdict is not None)


def another_subject(lines, at, draw):
    """The first number behind the event's name is another one."""
    found = re.search(r"(?<= [pcd])\d+", lines[at])
    if not found:
        return None
    other = lines[at][: found.start()] + str(int(found[0]) + 1) + lines[at][found.end() :]
    return Spoiled("another subject", put(lines, at, other), least=at + 1, is_refused=False)


WAYS = (cut_within, cut_behind, odd_letter, another_moment, another_end, another_field, another_command, doubled, left_out, swapped, another_subject)


def lines_of(schedule):
    return schedule.decode("ascii").splitlines()


def spoil(schedule, draw, way):
    """The schedule spoiled in this way at a line that the draw gives, or None where none that was drawn can be. The line stands at an end as often as anywhere."""
    lines = lines_of(schedule)
    for _ in range(20):
        at = draw.choice([0, len(lines) - 1, draw.randrange(len(lines)), draw.randrange(len(lines))])
        found = way(lines, at, draw)
        if found and found.text != schedule:
            return found
    return None


def fault_of_verdict(spoiled, ended):
    """Where the verdict is not what is owed to the spoiled schedule: a sentence, or None."""
    said = ended.out.decode("utf-8", "replace").splitlines()
    if ended.status == 0:
        return f"check says yes: {said[0]}" if spoiled.is_refused else None
    if ended.status != 9:
        return f"check ends with status {ended.status}"
    if spoiled.verdict and said[0] != spoiled.verdict:
        return f"check says {said[0]!r}, and {spoiled.verdict!r} is owed"
    if int(said[0].split()[1]) < spoiled.least:
        return f"check says {said[0]!r}, and the lines before {spoiled.least} are a run"
    if spoiled.entry and said[1:] != [spoiled.entry]:
        return f"check names the entry {said[1:]}, and {spoiled.entry!r} is due"
    return None


def fault_of_ordered_verdict(ordered, spoiled, ended):
    """The same for `check --ordered`, where the ordered run says which line is the first that is wrong, and which entry is due there. Behind the last
    line of a run that its limit has cut off it says nothing of that entry."""
    right, given = lines_of(ordered), spoiled.text.decode("ascii").split("\n")[:-1]
    first = next((k for k, (one, other) in enumerate(zip(right, given)) if one != other), min(len(right), len(given)))
    said = ended.out.decode("utf-8", "replace").splitlines()
    if ended.status != 9 or said[0].split()[:2] != ["no", str(first + 1)]:
        return f"check --ordered ends with status {ended.status} and says {said[:1]}, and line {first + 1} is the first that differs"
    is_cut_there = first == len(right) and not right[-1].endswith(" finish")
    if said[1:] and said[1:] != right[first : first + 1] and not is_cut_there:
        return f"check --ordered names the entry {said[1:]}, and that of the ordered run is {right[first : first + 1]}"
    return None
