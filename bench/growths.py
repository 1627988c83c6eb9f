#!/usr/bin/env python3
"""Runs f3 with each growth of the host's memory refused in turn, and again with all growths from there on refused, on the cases
of crates/f3_rows/stdin with a line `growths`.

usage: growths.py      (after bin/f3 has built the program; gcc builds bench/refuse.c)
f3 is crates/f3/out/f3, or what the variable F3 names. Wanted is `want of memory`, nothing else and status 5 for each growth but
the last, and what the case expects once none is refused. Among the first growths,
for the words of the command line, is one that only asks for room ahead; without it f3 goes on. The last line is 'N cases as expected, M not'."""
import os
import subprocess
import sys
import tempfile

HERE = os.path.dirname(os.path.abspath(__file__))
F3 = os.path.abspath(os.environ.get("F3", f"{HERE}/../crates/f3/out/f3"))
MEMORY = (5, b"", b"want of memory\n")
# a growth for each word and for the buffer, and those of the lists of words
MOST_BEFORE = 8


def cases():
    with open(f"{HERE}/../crates/f3_rows/stdin", "rb") as file:
        texts = file.read().split(b"\ncase ")[1:]
    for text in texts:
        lines = text.split(b"\n")
        if b"growths" in lines:
            yield lines


def read(lines):
    """The name of a case, its words, the text of its only source, and what f3 answers."""
    words, status, part = [], 0, None
    texts = {b"source": b"", b"output": b"", b"errors": b""}
    for line in lines[1:]:
        first = line.split(b" ")[0]
        if line.startswith(b"|"):
            texts[part] += line[1:] + b"\n"
        elif first == b"word":
            words.append(line[len(b"word ") :])
        elif first == b"status":
            status = int(line.split()[1])
        elif first in texts:
            part = first
    return lines[0].decode(), words, texts[b"source"], (status, texts[b"output"], texts[b"errors"])


def answer(words, folder, refuse, growth, all_behind):
    """What f3 answers with this growth refused, and whether it was asked for."""
    met = f"{folder}/met"
    open(met, "wb").close()
    told = {"LD_PRELOAD": refuse, "GROWTH": str(growth), "GROWTH_MET": met, **({"GROWTH_ALL": "1"} if all_behind else {})}
    ran = subprocess.run([F3.encode(), *words], cwd=folder, stdin=subprocess.DEVNULL, capture_output=True, env={**os.environ, **told})
    return (ran.returncode, ran.stdout, ran.stderr), os.path.exists(met)


def unexpected(words, own, folder, refuse, all_behind):
    """The growths whose refusal is not answered as it should be, and how many there are."""
    growth, odd = 0, []
    while True:
        growth += 1
        found, is_met = answer(words, folder, refuse, growth, all_behind)
        if not is_met:
            return odd + ([] if found == own else [(growth, found)]), growth - 1
        if found != MEMORY and (found != own or growth > MOST_BEFORE):
            odd.append((growth, found))


def main():
    failed = passed = 0
    with tempfile.TemporaryDirectory() as folder:
        refuse = f"{folder}/refuse.so"
        subprocess.run(["gcc", "-O2", "-shared", "-fPIC", "-o", refuse, f"{HERE}/refuse.c", "-ldl"], check=True)
        for name, words, source, own in map(read, cases()):
            with open(f"{folder}/a.f90", "wb") as file:
                file.write(source)
            for all_behind in (False, True):
                odd, count = unexpected(words, own, folder, refuse, all_behind)
                failed, passed = failed + bool(odd), passed + (not odd)
                print(f"{name}{', all behind too' if all_behind else ''}: {count} growths, {len(odd)} not as expected {odd[:3] or ''}", flush=True)
    print(f"{passed} cases as expected, {failed} not")
    return 1 if failed or not passed else 0


if __name__ == "__main__":
    sys.exit(main())
