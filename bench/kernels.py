#!/usr/bin/env python3
"""Runs the programs of bench/kernels by f3, by Lua 5.4 and as gfortran -O0 compiles them, in turn, and compares their time.

usage: kernels.py [NAME..]      (after bin/f3 has built the program)
f3 is crates/f3/out/f3, or what the variable F3 names. Each program runs three times by each; the least of the processor's seconds
counts, the start of the program included. What they print must be the same numbers. The last lines are the geometric mean of f3's
seconds in Lua's, and the greatest of them: of the programs without allocatables, of those with such, and of all."""
import math
import os
import resource
import subprocess
import sys
import tempfile

HERE = os.path.dirname(os.path.abspath(__file__))
KERNELS = f"{HERE}/kernels"
F3 = os.path.abspath(os.environ.get("F3", f"{HERE}/../crates/f3/out/f3"))


def seconds(words):
    """The processor's seconds of a command, and the numbers that it printed."""
    before = resource.getrusage(resource.RUSAGE_CHILDREN)
    ran = subprocess.run(words, capture_output=True, text=True)
    after = resource.getrusage(resource.RUSAGE_CHILDREN)
    if ran.returncode:
        sys.exit(f"{' '.join(words)}: status {ran.returncode}: {ran.stderr or ran.stdout}")
    return after.ru_utime - before.ru_utime + after.ru_stime - before.ru_stime, ran.stdout.split()


def compare(name, room):
    source, compiled = f"{KERNELS}/{name}.f90", f"{room}/{name}"
    subprocess.run(["gfortran", "-w", "-O0", "-std=f2008", "-J", room, source, "-o", compiled], check=True)
    commands = [[F3, "run", source], ["lua5.4", f"{KERNELS}/{name}.lua"], [compiled]]
    runs = [[seconds(words) for words in commands] for _ in range(3)]
    printed = [run[1] for run in runs[0]]
    if printed[0] != printed[1] or printed[0] != printed[2]:
        sys.exit(f"{name}: not alike: {printed}")
    return [max(min(run[k][0] for run in runs), 0.0005) for k in range(3)]


def has_allocatables(name):
    return "allocatable" in open(f"{KERNELS}/{name}.f90").read()


def tell(which, ratios):
    if ratios:
        mean = math.exp(sum(math.log(ratio) for ratio in ratios) / len(ratios))
        print(f"{which}: geometric mean {mean:.2f}, greatest {max(ratios):.2f}")


def main():
    names = sys.argv[1:] or sorted(file[:-4] for file in os.listdir(KERNELS) if file.endswith(".f90"))
    names.sort(key=has_allocatables)
    ratios = {}
    with tempfile.TemporaryDirectory() as room:
        for name in names:
            f3, lua, gfortran = compare(name, room)
            ratios[name] = f3 / lua
            print(f"{name:12} f3 {f3:7.3f}   lua {lua:7.3f}   gfortran {gfortran:7.3f}   f3 by lua {f3 / lua:7.2f}", flush=True)
    tell("without allocatables", [ratios[name] for name in names if not has_allocatables(name)])
    tell("with allocatables", [ratios[name] for name in names if has_allocatables(name)])
    tell("all", list(ratios.values()))


main()
