#!/usr/bin/env python3
"""Respells what Rattle calls goals and steps: a name of src/ in them keeps its underscores (was: hyphens).

Run once at the top, behind rename.py, with the crates' names or for all crates.
"""
import glob
import re
import sys

# Words of Rattle's own.
MADE = ["in_ok", "in_err", "in_default", "from_residual", "overflow_add", "overflow_sub", "overflow_mul", "offset_bounds"]

crates = sys.argv[1:] or [p.split("/")[1] for p in glob.glob("crates/*/")]
for crate in crates:
    words = set()
    for path in glob.glob("crates/%s/src/**/*.rt" % crate, recursive=True):
        text = re.sub(r"//.*|ghost use.*", "", open(path, encoding="utf-8").read())
        words |= set(re.findall(r"\b[a-z][a-z0-9]*(?:_[a-z0-9]+)+\b", text))
    words |= set(MADE)
    words = sorted((w for w in words), key=len, reverse=True)
    old = {w.replace("_", "-"): w for w in words}
    if not old:
        continue
    pattern = re.compile(r"(?<![\w])(%s)(?![\w'])" % "|".join(re.escape(o) for o in sorted(old, key=len, reverse=True)))
    for path in glob.glob("crates/%s/proofs/**/*.antt" % crate, recursive=True):
        if not re.search(r"/(Answers|Invariants|Choices)\.antt$", path):
            continue
        lines = open(path, encoding="utf-8").read().split("\n")
        done = "\n".join(l if l.startswith("use ") and "Goals" not in l and "Given" not in l else pattern.sub(lambda m: old[m.group(1)], l) for l in lines)
        open(path, "w", encoding="utf-8").write(done)
