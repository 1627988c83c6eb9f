#!/usr/bin/env python3
"""Writes a source of one shape to standard output, for measuring the phases of `f3 check` behind names.

usage: shapes.py statements|types|components|cases|terms SIZE
statements: a program of SIZE assignments
types: SIZE derived types, each with an allocatable component of an earlier one
components: a type of SIZE components, and an assignment to each
cases: a SELECT CASE of SIZE values
terms: a sum of SIZE terms, a line each"""
import sys

shape, size = sys.argv[1], int(sys.argv[2])
if shape == "statements":
    text = "program p\n  integer :: n\n" + "  n = n + 1\n" * size + "end program p\n"
elif shape == "types":
    first = "type t0\n  integer :: a\nend type\n"
    more = (f"type t{i}\n  integer :: a\n  type(t{i // 2}), allocatable :: b\nend type\n" for i in range(1, size))
    text = f"module m\n{first}{''.join(more)}end module m\nprogram p\nend program p\n"
elif shape == "components":
    parts = "".join(f"  integer :: c{i}\n" for i in range(size))
    uses = "".join(f"  x%c{i} = {i}\n" for i in range(size))
    text = f"module m\ntype t\n{parts}end type\nend module m\nprogram p\n  use m\n  type(t) :: x\n{uses}end program p\n"
elif shape == "cases":
    blocks = "".join(f"case ({2 * i})\n  n = {i}\n" for i in range(size))
    text = f"program p\n  integer :: n\nselect case (n)\n{blocks}end select\nend program p\n"
else:
    text = "program p\n  integer :: n\n  n = " + " + &\n".join(["1"] * size) + "\nend program p\n"
sys.stdout.write(text)
