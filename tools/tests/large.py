#!/usr/bin/env python3
"""Writes the large input of bench/run, 64 processors, 64 domains and 256 units, into a folder: large.toml and large.work.

Usage: tools/tests/large.py FOLDER [HORIZON]      (HORIZON in nanoseconds; 4600000000 makes more than 4,000,000 entries)
"""
import importlib.machinery
import importlib.util
import pathlib
import re
import sys

TOP = pathlib.Path(__file__).resolve().parent.parent.parent


def large_input():
    """The domain file and the work file."""
    loader = importlib.machinery.SourceFileLoader("bench_run", str(TOP / "bench" / "run"))
    module = importlib.util.module_from_spec(importlib.util.spec_from_loader("bench_run", loader))
    loader.exec_module(module)
    return module.large(None)


def write_large(folder, horizon=None):
    """Writes both files; answers their paths."""
    paths = [pathlib.Path(folder) / name for name in ("large.toml", "large.work")]
    for path, text in zip(paths, large_input()):
        path.write_text(re.sub(r"horizon_ns = \d+", f"horizon_ns = {horizon}", text) if horizon else text)
    return paths


if __name__ == "__main__":
    sys.dont_write_bytecode = True
    if not 2 <= len(sys.argv) <= 3 or not all(word.isdecimal() for word in sys.argv[2:]):
        sys.exit(__doc__)
    print(*write_large(*sys.argv[1:]))
