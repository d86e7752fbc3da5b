"""Makes the files of a failure small: lines are taken away while it still fails the same way."""
import time

# So long, and so many times where a free run may come in another order.
SECONDS = 60
GOES = 3


def parts_of(text):
    """The text in parts that can be taken away as one: the tables of a domain file, or else its lines."""
    parts = [[]]
    for line in text.splitlines(keepends=True):
        if line.startswith(b"[["):
            parts.append([])
        parts[-1].append(line)
    return [b"".join(part) for part in parts]


def taken_away(parts, fails, until):
    """As few of the parts as fail still: halves are tried first, then quarters, and at last each part alone."""
    size = max(1, len(parts) // 2)
    while True:
        at = 0
        while at < len(parts) and time.monotonic() < until:
            fewer = parts[:at] + parts[at + size :]
            if fails(fewer):
                parts = fewer
            else:
                at += size
        if size == 1 or time.monotonic() >= until:
            return parts
        size = max(1, size // 2)


def smaller(texts, fails):
    """The texts with fewer lines; `fails` says of texts whether they fail as the first ones did."""
    until = time.monotonic() + SECONDS
    again = lambda made: any(fails(made) for _ in range(GOES))
    for name in ("work", "domains", "work", "domains"):
        text = getattr(texts, name)
        for divided in ([parts_of(text)] if name == "domains" else []) + [None]:
            # what the first division left is divided again, into lines
            parts = divided if divided is not None else getattr(texts, name).splitlines(keepends=True)
            left = taken_away(parts, lambda made: again(texts._replace(**{name: b"".join(made)})), until)
            texts = texts._replace(**{name: b"".join(left)})
    return texts
