#!/usr/bin/env python3
"""Prints a table of the heap's speed beside malloc's: user seconds, the median of three runs each, as Markdown.

usage: heap.py      (after `rt run` in crates/f3_heap_speed, which builds its program; gcc builds bench/heap.c)"""
import os
import resource
import subprocess
import tempfile

here = os.path.dirname(os.path.abspath(__file__))
heap = os.path.join(here, "../crates/f3_heap_speed/out/f3_heap_speed")
loads = [
    ("1,000 live blocks of 0 to 127 words, 1,000,000 takes and gives", "exchange 1000 127 1000000"),
    ("2,000 live of 0 to 15 words, 1,000,000", "exchange 2000 15 1000000"),
    ("10,000 live of 0 to 15 words, 500,000", "exchange 10000 15 500000"),
    ("100,000 live of 0 to 15 words, 300,000", "exchange 100000 15 300000"),
    ("100,000 live of 0 to 15 words, 1,000,000", "exchange 100000 15 1000000"),
    ("1,000,000 calls (blocks of 20 and 7 words) above no hole", "frames 0 1000000"),
    ("1,000,000 calls above 100 holes of 4 words", "frames 100 1000000"),
    ("1,000,000 calls above 1,000 holes", "frames 1000 1000000"),
    ("1,000,000 calls above 10,000 holes", "frames 10000 1000000"),
    ("1,000,000 calls above 100,000 holes", "frames 100000 1000000"),
]


def seconds(command):
    before = resource.getrusage(resource.RUSAGE_CHILDREN).ru_utime
    subprocess.run(command, check=True, stdout=subprocess.DEVNULL)
    return resource.getrusage(resource.RUSAGE_CHILDREN).ru_utime - before


with tempfile.TemporaryDirectory() as folder:
    malloc = os.path.join(folder, "heap")
    subprocess.run(["gcc", "-O2", "-o", malloc, os.path.join(here, "heap.c")], check=True)
    print("| Load | f3 | malloc |\n|---|---|---|")
    for name, arguments in loads:
        medians = [sorted(seconds([program, *arguments.split()]) for _ in range(3))[1] for program in (heap, malloc)]
        print(f"| {name} | {medians[0]:.3f} | {medians[1]:.3f} |", flush=True)
