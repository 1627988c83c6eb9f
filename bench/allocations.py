#!/usr/bin/env python3
"""Compares a million DEALLOCATE and ALLOCATE with 10,000 live objects, as f3 runs them, with malloc and free in C: user seconds, the
least of three runs each, and their ratio.

usage: allocations.py      (after bin/f3 has built the program; gcc builds bench/allocations.c)
f3 is crates/f3/out/f3, or what the variable F3 names."""
import os
import resource
import subprocess
import sys
import tempfile

HERE = os.path.dirname(os.path.abspath(__file__))
F3 = os.path.abspath(os.environ.get("F3", f"{HERE}/../crates/f3/out/f3"))


def seconds(words):
    """The user seconds of a command, and what it printed."""
    before = resource.getrusage(resource.RUSAGE_CHILDREN).ru_utime
    ran = subprocess.run(words, capture_output=True, text=True, check=True)
    return resource.getrusage(resource.RUSAGE_CHILDREN).ru_utime - before, ran.stdout.split()


with tempfile.TemporaryDirectory() as folder:
    compiled = f"{folder}/allocations"
    subprocess.run(["gcc", "-O2", "-o", compiled, f"{HERE}/allocations.c"], check=True)
    runs = [[seconds(words) for words in ([F3, "run", f"{HERE}/allocations.f90"], [compiled])] for _ in range(3)]
    if any(f3[1] != c[1] for f3, c in runs):
        sys.exit(f"not alike: {runs}")
    f3, c = [min(run[k][0] for run in runs) for k in range(2)]
    print(f"f3 {f3:.3f}   malloc {c:.3f}   f3 by malloc {f3 / c:.1f}")
