#!/usr/bin/env python3
"""Writes scalar modules of about so many megabytes to standard output, for measuring `f3 check`."""
import sys

size = int(float(sys.argv[1]) * 1_000_000)
written = 0
unit = 0
while written < size:
    lines = [f"module m{unit}"]
    if unit % 10:
        lines.append(f"  use m{unit - 1}")
    for n in range(40):
        lines.append(f"  integer, protected :: value_{unit}_{n} = {n}  ! the value number {n} of this module")
    lines.append(f"end module m{unit}")
    text = "\n".join(lines) + "\n"
    sys.stdout.write(text)
    written += len(text)
    unit += 1
print(f"program p\n  use m{unit - 1}\n  integer :: total\n  total = value_{unit - 1}_1 + value_{unit - 1}_2\n  print *, total\nend program p")
