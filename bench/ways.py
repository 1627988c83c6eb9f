#!/usr/bin/env python3
"""Counts the ways down crates.txt, which rt walks one by one, and the files that it reads along them.

usage: ways.py [COUNT]

For each of the COUNT (10) crates with most of them: the ways that lead down from it, and the files that rt reads for one sum of what it
is made from: its own, and those of each crate below it once along each way. Then the same for the COUNT crates that are read most, and
the sums over all crates. docs/GATE.md says what this costs."""
import os
import sys

ROOT = os.path.join(os.path.dirname(os.path.abspath(__file__)), "..")
PARTS = ("src", "specs", "proofs")


def crates():
    """The crates of crates.txt, each with those of the repository that it lists."""
    lines = [line.split("#")[0] for line in open(f"{ROOT}/crates.txt")]
    listed = dict(line.split(":") for line in lines if ":" in line)
    return {name: [it for it in deps.split() if it in listed] for name, deps in listed.items()}


def files_of(name):
    return sum(len(files) for part in PARTS for _, _, files in os.walk(f"{ROOT}/crates/{name}/{part}"))


def main(count):
    below = crates()
    files = {name: files_of(name) for name in below}
    order, ways, reads = [], {}, {}

    def visit(name):
        if name not in ways:
            for it in below[name]:
                visit(it)
            ways[name] = sum(1 + ways[it] for it in below[name])
            reads[name] = files[name] + sum(reads[it] for it in below[name])
            order.append(name)

    for name in below:
        visit(name)
    times = dict.fromkeys(below, 1)
    for name in reversed(order):
        for it in below[name]:
            times[it] += times[name]
    for name in sorted(below, key=lambda name: -reads[name])[:count]:
        print(f"{name}: {ways[name]} ways down, {reads[name]} files")
    print()
    for name in sorted(below, key=lambda name: -files[name] * times[name])[:count]:
        print(f"{name}: {files[name]} files, {times[name]} times")
    print(f"\nall: {sum(ways.values())} ways, {sum(reads.values())} files")


if __name__ == "__main__":
    main(int(sys.argv[1]) if len(sys.argv) > 1 else 10)
