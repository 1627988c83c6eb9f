#!/usr/bin/env python3
"""Proves a crate from nothing by one job, and prints how many seconds each of its functions took.

usage: proofs.py NAME [--test]      (once the crates below are proved here, by bin/prove or rt lib)
A function's seconds are those between the line before its own and that line, so the first has the loading of the libraries, and
the first function that needs a module of these has the loading of that. Last come rattle's own stages, in seconds."""
import os
import re
import shutil
import subprocess
import sys
import tempfile
import time

sys.dont_write_bytecode = True
from unproved import ROOT, rtlib


def main(name, *flags):
    lib = rtlib()
    crate = next(it for it in lib.crates_below(ROOT) if it.name == name)
    crate.cuts_libraries = True
    words = crate.words(["--jobs", "1", *flags], tests="--test" in flags, keeps=False)
    with tempfile.TemporaryDirectory(prefix="f3-proofs-") as room:
        for part in ("src", "specs", "proofs"):
            if os.path.isdir(f"{crate.folder}/{part}"):
                shutil.copytree(f"{crate.folder}/{part}", f"{room}/{part}")
        command = [lib.RATTLE, "check", *words, "--progress", "--stage-times", f"{room}/stages"]
        took, last = [], time.time()
        ran = subprocess.Popen(command, cwd=room, stdout=subprocess.PIPE, stderr=subprocess.STDOUT, text=True, errors="replace")
        for line in ran.stdout:
            checked = re.match(r"checked (\S+), \d+ of \d+", line)
            if checked:
                took.append((time.time() - last, checked[1]))
                last = time.time()
            elif line.startswith("logic=") or "error" in line:
                print(line.rstrip()[:400])
        ran.wait()
        for seconds, function in sorted(took, reverse=True):
            print(f"{seconds:7.1f} {function}")
        print(open(f"{room}/stages").read(), end="")
    return ran.returncode


if __name__ == "__main__":
    if len(sys.argv) < 2:
        sys.exit(__doc__)
    sys.exit(main(*sys.argv[1:]))
