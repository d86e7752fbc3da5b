"""Draws a sweep with matplotlib: a panel for each column, over the first key, a line for each value of the others."""
from .words import Refused

PANELS_IN_A_ROW = 3
TIMES = {"end", "run", "idle", "late", "wait_mean", "wait_p99", "wait_greatest", "response_p99", "response_greatest", "missing"}


def number(text):
    """A value of a sweep as a number, None where it has none."""
    try:
        return float({"True": "1", "False": "0"}.get(text, text))
    except ValueError:
        return None


def draw(path, keys, columns, head, lines):
    """Draws the lines of a sweep, which begin with the values of the keys, into this file."""
    try:
        import matplotlib
        matplotlib.use("svg" if path.endswith(".svg") else "agg")
        from matplotlib import pyplot
    except ImportError:
        raise Refused("the plot wants matplotlib, which this Python does not have: apt-get install python3-matplotlib, and call /usr/bin/python3 tools/sweep ..") from None
    # the same picture from the same lines
    matplotlib.rcParams["svg.hashsalt"] = "xensched"
    wide = min(PANELS_IN_A_ROW, len(columns))
    high = -(-len(columns) // wide)
    figure, axes = pyplot.subplots(high, wide, figsize=(4.2 * wide, 3 * high), squeeze=False)
    for axis, column in zip(axes.flat, columns):
        panel(axis, keys, head.index(column), column, lines)
    for axis in list(axes.flat)[len(columns):]:
        axis.set_visible(False)
    figure.tight_layout()
    figure.savefig(path, metadata={"Date": None} if path.endswith(".svg") else None)


def panel(axis, keys, place, column, lines):
    """A column over the first key, times in milliseconds; seeds have no order, so they are points."""
    groups, scale = {}, 1e-6 if column in TIMES or column.endswith("_ns") else 1
    for line in lines:
        y = number(line[place])
        groups.setdefault(tuple(line[1 : len(keys)]), []).append((number(line[0]), None if y is None else y * scale))
    for others, points in groups.items():
        points = [(x, y) for x, y in points if x is not None and y is not None]
        name = ", ".join(f"{key} {value}" for key, value in zip(keys[1:], others))
        axis.plot([x for x, _ in points], [y for _, y in points], "." if keys == ["seed"] else ".-", label=name or None)
    xs = [x for points in groups.values() for x, _ in points if x]
    if keys != ["seed"] and xs and min(xs) > 0 and max(xs) / min(xs) >= 50:
        axis.set_xscale("symlog", linthresh=min(xs))
    axis.set_xlabel(keys[0])
    axis.set_title(f"{column.removesuffix('_ns')} [ms]" if scale != 1 else column, fontsize=10)
    if len(keys) > 1:
        axis.legend(fontsize=7)
