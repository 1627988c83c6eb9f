#!/usr/bin/env python3
"""Prints tables of the speed of `f3 check` on modules of the whole language (bench/whole.py), as Markdown: phases that are
read alone, how time and memory grow, and gfortran's check of the same text in the same run.

usage: check.py [MEGABYTES..]      (1 and 16 where none is named; after bin/f3 has built the program)
f3 is crates/f3/out/f3, or what the variable F3 names. Seconds are of user time, the least of three runs. gfortran reads the
first size alone. Instructions are counted by valgrind, where it is there, on a tenth of a megabyte and on a whole one."""
import math
import os
import re
import shutil
import subprocess
import sys
import tempfile

HERE = os.path.dirname(os.path.abspath(__file__))
F3 = os.path.abspath(os.environ.get("F3", f"{HERE}/../crates/f3/out/f3"))
GFORTRAN = ["gfortran", "-fsyntax-only", "-w"]
ACCEPTED, REFUSED = 0, 1


def spent(words, folder, status):
    """Seconds of user time and megabytes at the peak of a run that ends with the status."""
    ran = subprocess.Popen(words, cwd=folder, stdin=subprocess.DEVNULL, stdout=subprocess.DEVNULL, stderr=subprocess.DEVNULL)
    _, ended, used = os.wait4(ran.pid, 0)
    ran.returncode = os.waitstatus_to_exitcode(ended)
    if ran.returncode != status:
        sys.exit(f"check.py: {' '.join(words)} ended with {ran.returncode}, not {status}")
    return used.ru_utime, used.ru_maxrss / 1024


def least(words, folder, status, times=3):
    runs = [spent(words, folder, status) for _ in range(times)]
    return min(run[0] for run in runs), max(run[1] for run in runs)


def instructions(words, folder):
    """Millions of instructions, those of the programs that it starts among them."""
    counting = ["valgrind", "--tool=cachegrind", "--cache-sim=no", "--cachegrind-out-file=/dev/null", "--trace-children=yes"]
    said = subprocess.run([*counting, *words], cwd=folder, stdin=subprocess.DEVNULL, stdout=subprocess.DEVNULL, stderr=subprocess.PIPE)
    return sum(int(it.replace(b",", b"")) for it in re.findall(rb"I\s+refs:\s+([\d,]+)", said.stderr)) / 1e6


def write(folder, megabytes):
    """Writes the text, and the same without its last line, in which phase 1 alone finds a break, at the end."""
    text = subprocess.run([sys.executable, f"{HERE}/whole.py", str(megabytes)], check=True, stdout=subprocess.PIPE).stdout
    for name, part in (("a.f90", text), ("open.f90", text[: text.rindex(b"end program")])):
        with open(f"{folder}/{name}", "wb") as file:
            file.write(part)


TASKS = [
    ("phase 1: text and grammar", ["check", "open.f90"], REFUSED),
    ("phases 1 to 4: modules and names too (`f3 names`)", ["names", "a.f90"], ACCEPTED),
    ("all phases", ["check", "a.f90"], ACCEPTED),
]


def row(cells):
    print("| " + " | ".join(cells) + " |", flush=True)


def table_of_phases(folder, sizes):
    """Each task at each size; answers what all phases take at the first."""
    row(["f3", *[f"{size:g} MB" for size in sizes], "grows by a power of"])
    row(["---"] * (len(sizes) + 2))
    found = {}
    for size in sizes:
        write(folder, size)
        found[size] = [least([F3, *words], folder, status) for _, words, status in TASKS]
    first, last = sizes[0], sizes[-1]
    for at, (name, _, _) in enumerate(TASKS):
        power = math.log(found[last][at][0] / found[first][at][0]) / math.log(last / first) if last > first else 1
        row([name, *[f"{found[size][at][0]:.2f} s, {found[size][at][1]:.0f} MB" for size in sizes], f"{power:.2f}"])
    return found[first][-1]


def table_beside(folder, size, own):
    """f3 beside gfortran on the same text."""
    other = least([*GFORTRAN, "a.f90"], folder, ACCEPTED, times=1)
    row([f"{size:g} MB", "f3", "gfortran", "ratio"])
    row(["---"] * 4)
    row(["seconds", f"{own[0]:.2f}", f"{other[0]:.2f}", f"{other[0] / own[0]:.1f}"])
    row(["peak memory", f"{own[1]:.0f} MB", f"{other[1]:.0f} MB", f"{other[1] / own[1]:.1f}"])


def table_of_instructions(folder):
    """Millions of instructions of f3 at two sizes, and of gfortran at the smaller."""
    write(folder, 0.1)
    small = [instructions([F3, "check", name], folder) for name in ("open.f90", "a.f90")]
    other = instructions([*GFORTRAN, "a.f90"], folder) if shutil.which(GFORTRAN[0]) else math.nan
    write(folder, 1)
    large = [instructions([F3, "check", name], folder) for name in ("open.f90", "a.f90")]
    row(["millions of instructions", "0.1 MB", "1 MB", "grows by a power of", "gfortran, 0.1 MB", "ratio"])
    row(["---"] * 6)
    for name, few, many, beside in (("phase 1", small[0], large[0], math.nan), ("all phases", small[1], large[1], other)):
        cells = ["", ""] if math.isnan(beside) else [f"{beside:,.0f}", f"{beside / few:.1f}"]
        row([name, f"{few:,.0f}", f"{many:,.0f}", f"{math.log10(many / few):.2f}", *cells])


def main(words):
    sizes = sorted(float(word) for word in words) or [1.0, 16.0]
    with tempfile.TemporaryDirectory() as folder:
        own = table_of_phases(folder, sizes)
        if shutil.which(GFORTRAN[0]):
            print()
            write(folder, sizes[0])
            table_beside(folder, sizes[0], own)
        if shutil.which("valgrind"):
            print()
            table_of_instructions(folder)


if __name__ == "__main__":
    main(sys.argv[1:])
