#!/usr/bin/env python3
"""Writes modules of a shape to standard output, for measuring `f3 names` and `f3 check`.

usage: names.py many|wide|chain|diamond|only SIZE
many: modules of 40 names, each with renames of the one before it, of about SIZE megabytes in all
wide: one module of SIZE names, and a program that uses it
chain: SIZE modules, each of which uses the one before it by ONLY
diamond: SIZE modules, each of which uses the two before it and hands on the same 100 names
only: one module of 50,000 names, and SIZE modules that each use one name of it by ONLY"""
import sys

shape, size = sys.argv[1], float(sys.argv[2])
out = sys.stdout.write
last, body = "m0", ""
if shape == "many":
    written = unit = 0
    while written < size * 1_000_000:
        use = f"  use m{unit - 1}, only: first_{unit} => value_{unit - 1}_1, second_{unit} => value_{unit - 1}_2\n" if unit else ""
        text = f"module m{unit}\n{use}  private :: value_{unit}_3\n"
        text += "".join(f"  integer, protected :: value_{unit}_{n} = {n}  ! the value number {n} of this module\n" for n in range(40))
        text += f"end module m{unit}\n"
        out(text)
        written += len(text)
        unit += 1
    last = f"m{unit - 1}"
elif shape == "wide":
    out("module m0\n" + "".join(f"  integer :: value_{n}\n" for n in range(int(size))) + "end module m0\n")
elif shape == "chain":
    out("module m0\n  integer :: value_0\nend module m0\n")
    for unit in range(1, int(size)):
        out(f"module m{unit}\n  use m{unit - 1}, only: value_{unit} => value_{unit - 1}\nend module m{unit}\n")
    last = f"m{int(size) - 1}"
elif shape == "diamond":
    names = "".join(f"  integer :: value_{n}\n" for n in range(100))
    out(f"module m0\n{names}end module m0\nmodule m1\n  use m0\nend module m1\n")
    for unit in range(2, int(size)):
        out(f"module m{unit}\n  use m{unit - 1}\n  use m{unit - 2}\nend module m{unit}\n")
    last = f"m{int(size) - 1}"
elif shape == "only":
    out("module m0\n" + "".join(f"  integer :: value_{n}\n" for n in range(50_000)) + "end module m0\n")
    for unit in range(1, int(size) + 1):
        out(f"module m{unit}\n  use m0, only: value_{unit % 50_000}\nend module m{unit}\n")
    last = f"m{int(size)}"
else:
    sys.exit(__doc__)
out(f"program p\n  use {last}\nend program p\n")
