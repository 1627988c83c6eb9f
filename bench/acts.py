#!/usr/bin/env python3
"""Builds a program that prints the acts by which registers run a Fortran program: for work on plans.

usage: acts.py FILE      then FILE < PROGRAM.f90
A line is an act as in the cases of crates/f3_rows that tell of acts: its number, what it is, its numbers, and behind a bar how many
instructions the stretch has that it ends. FILE is built from the text as it stands, unproved (bench/unproved.py), in some four minutes."""
import os
import shutil
import subprocess
import sys
import tempfile

sys.dont_write_bytecode = True
import terms

TOP = terms.TOP


def main():
    if len(sys.argv) != 2:
        sys.exit(__doc__)
    target = os.path.abspath(sys.argv[1])
    with tempfile.TemporaryDirectory() as folder:
        terms.lay(folder)
        os.makedirs(f"{folder}/bench")
        shutil.copy(f"{TOP}/bench/unproved.py", f"{folder}/bench")
        sys.exit(subprocess.run([sys.executable, f"{folder}/bench/unproved.py", target, "f3_act_lines"], check=False).returncode)


if __name__ == "__main__":
    main()
