#!/usr/bin/env python3
"""Compares the programs of crates/f3_meaning_rows/specs, which are terms with their sources above them, with what f3's own
elaboration gives for these sources, as f3_printed of tools/ prints it.

usage: terms.py [--write]         compares; with --write the printed terms take the place of those that differ
       terms.py --lay FOLDER      lays the crates of f3 and of tools/ out in a new folder, and does no more
No proof is needed: the crates are laid out in a folder that goes again, where `rt try` runs f3_printed on all sources in some
minutes. Terms are compared up to white space, and each that differs is printed. A program that is refused, as the rows that show
what unlawful programs do, has no term to compare, and is told with its refusal. The last line is 'N as printed, M differ'."""
import glob
import os
import re
import shutil
import subprocess
import sys
import tempfile

TOP = os.path.dirname(os.path.dirname(os.path.abspath(__file__)))
SPECS = sorted(glob.glob(f"{TOP}/crates/f3_meaning_rows/specs/*.antt"))
SOURCE = "--     "
# the comments above a definition, its name, and its term
DEFINITION = re.compile(r"((?:^--[^\n]*\n)*)^abbrev pub (\w+) : Global → Program\n\2 h = (.*?)(?=\n\n|\n?\Z)", re.M | re.S)


def lay(folder):
    """Lays the crates of f3 and of tools/ out in a folder."""
    shutil.copytree(f"{TOP}/crates", f"{folder}/crates", ignore=shutil.ignore_patterns("out", ".proving-*"))
    for path in glob.glob(f"{TOP}/tools/*/src/*.rt.txt"):
        place = f"{folder}/crates/{os.path.relpath(path, f'{TOP}/tools')}"
        os.makedirs(os.path.dirname(place), exist_ok=True)
        shutil.copy(path, place.removesuffix(".txt"))
    # acts are planned there as in the cases of f3_rows
    shutil.copy(f"{TOP}/crates/f3_rows/src/planning.rt", f"{folder}/crates/f3_act_lines/src")
    with open(f"{folder}/crates.txt", "w", encoding="utf-8") as lists:
        for name in ("crates.txt", "tools/crates"):
            with open(f"{TOP}/{name}", encoding="utf-8") as file:
                lists.write(file.read())
    shutil.copy(f"{TOP}/HANDLES", folder)


def cases_of(text):
    """The cases for the printer: each program of a file, with the lines of its source."""
    cases = []
    for comments, name, _ in DEFINITION.findall(text):
        lines = [line[len(SOURCE) :] for line in comments.split("\n") if line.startswith(SOURCE)]
        cases += [f"case {name}", *[f"|{line}" for line in lines]]
    return cases


def printed(cases):
    """What the printer says: terms, and refusals, by the names of programs."""
    with tempfile.TemporaryDirectory() as folder:
        lay(folder)
        given = "\n".join([*cases, ""]).encode()
        ran = subprocess.run(["rt", "try"], cwd=f"{folder}/crates/f3_printed", input=given, stdout=subprocess.PIPE, check=False)
    said = ran.stdout.decode()
    if ran.returncode or not said:
        sys.exit(f"terms.py: rt try ended with {ran.returncode}")
    terms = {name: term for _, name, term in DEFINITION.findall(said)}
    return terms, dict(re.findall(r"^-- (\w+): (.*)", said, re.M))


def same(one, other):
    return one.split() == other.split()


def compare(text, terms, refusals):
    """Tells what differs in a file; how many programs are as printed, and how many differ."""
    good = bad = 0
    for _, name, term in DEFINITION.findall(text):
        if name in refusals:
            print(f"{name} is refused: {refusals[name]}")
        elif name in terms and same(term, terms[name]):
            good += 1
        else:
            bad += 1
            print(f"{name} differs; printed is\n{terms.get(name, 'nothing')}")
    return good, bad


def rewritten(text, terms):
    """A file with the printed terms in the place of those that differ."""

    def one(found):
        _, name, term = found.groups()
        if name not in terms or same(term, terms[name]):
            return found.group(0)
        return found.group(0)[: -len(term)] + terms[name]

    return DEFINITION.sub(one, text)


def main(words):
    if len(words) == 2 and words[0] == "--lay":
        return lay(words[1])
    if words not in ([], ["--write"]):
        sys.exit(__doc__)
    texts = {}
    for path in SPECS:
        with open(path, encoding="utf-8") as file:
            texts[path] = file.read()
    terms, refusals = printed([line for text in texts.values() for line in cases_of(text)])
    counts = [compare(text, terms, refusals) for text in texts.values()]
    for path, text in texts.items() if words else ():
        with open(path, "w", encoding="utf-8") as file:
            file.write(rewritten(text, terms))
    print(f"{sum(good for good, _ in counts)} as printed, {sum(bad for _, bad in counts)} differ")


if __name__ == "__main__":
    main(sys.argv[1:])
