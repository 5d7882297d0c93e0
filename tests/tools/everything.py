#!/usr/bin/env python3
"""Writes crates/guarantees/proofs/Everything.antt: one name that opens every definition of specs/, for proofs by computation.

usage: everything.py [--check]     --check: exit 1 where the committed file is not what would be written
"""
import glob, os, re, sys

ROOT = os.path.dirname(os.path.dirname(os.path.dirname(os.path.abspath(__file__))))
CRATES = "laws plan codec packing shapes bounds rules verifier cells runner lookup".split()
TARGET = os.path.join(ROOT, "crates", "guarantees", "proofs", "Everything.antt")


def text():
    names = []
    for crate in CRATES:
        for path in sorted(glob.glob(os.path.join(ROOT, "crates", crate, "specs", "*.antt"))):
            for name in re.findall(r"^unfoldable pub (\S+) :", open(path).read(), re.M):
                names.append("Rattle.%s.specs.%s.%s" % (crate, os.path.basename(path)[:-5], name))
    return ("-- Written by tests/tools/everything.py: `unfolding everything` opens every definition of specs/, so that examples compute.\n"
            "use Prim.Native.Nat.{ℕ}\n\nunfoldable pub everything : ℕ\nunfolding " + " ".join(names) + "\neverything = 0\n")


if __name__ == "__main__":
    if "--check" in sys.argv[1:]:
        sys.exit(open(TARGET).read() != text() and "%s is not what everything.py writes" % os.path.relpath(TARGET, ROOT))
    open(TARGET, "w").write(text())
