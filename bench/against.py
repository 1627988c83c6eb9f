#!/usr/bin/env python3
"""Runs random programs of f3's language by f3 and by gfortran, and compares what they print, number by number.

usage: against.py [COUNT [FIRST]]      (after bin/f3 has built the program; 100 programs, from seed 1 on)
f3 is crates/f3/out/f3, or what the variable F3 names. Half of the programs are of scalars, arrays, sections and control; half are
of derived types with allocatable components, deep copies, MOVE_ALLOC and function results. They have no finalizers, which gfortran
12 does not call everywhere. A program that f3 ends with a run error is passed over and counted: it means nothing to the standard.
The last line is 'N alike, M ended by an error, K not alike'; each that is not alike stays as against-SEED.f90."""
import os
import random
import subprocess
import sys
import tempfile

HERE = os.path.dirname(os.path.abspath(__file__))
F3 = os.path.abspath(os.environ.get("F3", f"{HERE}/../crates/f3/out/f3"))
GFORTRAN = ["gfortran", "-w", "-O0", "-std=f2008", "-ffree-line-length-none", "-fcheck=bounds"]

SCALARS = """module lib
implicit none
type inner
  integer :: n = 4
  integer :: c(3) = [1, 2, 3]
  integer, allocatable :: al(:)
end type
type outer
  type(inner) :: in
  integer, allocatable :: al(:)
end type
contains
pure integer function f(n) result(q)
  integer, intent(in) :: n
  q = mod(n * 7 + 3, 50)
end function
pure integer function folded(v) result(q)
  integer, intent(in) :: v(:)
  integer :: i
  q = 0
  do i = 1, size(v)
    q = mod(q * 2 + v(i), 1000)
  end do
end function
function twice(v) result(q)
  integer, intent(in) :: v(:)
  integer, allocatable :: q(:)
  integer :: i
  allocate(q(size(v)))
  do i = 1, size(v)
    q(i) = mod(v(i) * 2, 700)
  end do
end function
subroutine add(x, by)
  integer, intent(inout) :: x
  integer, intent(in) :: by
  x = mod(x + by, 333)
end subroutine
subroutine turn(v)
  integer, intent(inout) :: v(:)
  integer :: i, h
  do i = 1, size(v) / 2
    h = v(i)
    v(i) = v(size(v) + 1 - i)
    v(size(v) + 1 - i) = h
  end do
end subroutine
end module
program p
use lib
implicit none
integer :: i1 = 3, i2 = -5, i3 = 11, d1, d2, d3, a(6) = [5, -3, 8, 2, 0, 7], b(4) = [9, 1, -6, 3], m(2, 3) = 1
integer(8) :: k1 = 12345678901_8, k2 = 5
logical :: l1 = .true., l2 = .false.
integer, allocatable :: al(:)
type(inner) :: t1
type(outer) :: t2
allocate(al(4), t1%al(2), t2%al(1))
al = [4, 3, 2, 1]
t1%al = 7
t2%al = -2
"""

OBJECTS = """module lib
implicit none
type leaf
  integer :: v = 6
end type
type box
  integer :: k = 1
  integer, allocatable :: d(:)
  integer, allocatable :: one
  type(leaf), allocatable :: ls(:)
end type
contains
integer function total(b) result(t)
  type(box), intent(in) :: b
  integer :: i
  t = b%k
  if (allocated(b%d)) then
    do i = lbound(b%d, 1), ubound(b%d, 1)
      t = mod(t * 3 + b%d(i), 1000)
    end do
  end if
  if (allocated(b%one)) t = mod(t + b%one, 1000)
  if (allocated(b%ls)) t = mod(t + leaves(b%ls), 1000)
end function
integer function leaves(v) result(t)
  type(leaf), intent(in) :: v(:)
  integer :: i
  t = 0
  do i = 1, size(v)
    t = mod(t * 5 + v(i)%v, 1000)
  end do
end function
function make(n) result(b)
  integer, intent(in) :: n
  type(box) :: b
  integer :: i, m
  m = modulo(n, 4)
  b%k = n
  allocate(b%d(m + 1), b%one, b%ls(2))
  do i = 1, m + 1
    b%d(i) = n + i
  end do
  b%one = n * 2
  b%ls(2)%v = n
end function
function grown(a) result(b)
  type(box), intent(in) :: a
  type(box) :: b
  b = a
  b%d = [1, 2, 3, 4]
  b%k = mod(a%k + 1, 60)
end function
function many(n) result(v)
  integer, intent(in) :: n
  type(box), allocatable :: v(:)
  integer :: i
  allocate(v(0:n))
  do i = 0, n
    v(i) = make(i)
  end do
end function
function ints(n) result(v)
  integer, intent(in) :: n
  integer, allocatable :: v(:)
  integer :: i
  allocate(v(n))
  do i = 1, n
    v(i) = i * n
  end do
end function
subroutine bump(b, by)
  type(box), intent(inout) :: b
  integer, intent(in) :: by
  integer :: i
  do i = lbound(b%d, 1), ubound(b%d, 1)
    b%d(i) = mod(b%d(i) + by, 500)
  end do
  b%one = mod(b%one + by, 77)
end subroutine
subroutine fresh(b)
  type(box), intent(out) :: b
  if (allocated(b%d)) b%k = 999
  allocate(b%d(3), b%ls(1))
  b%d = 4
  b%one = b%k + 8
end subroutine
subroutine shift(v)
  type(leaf), intent(inout) :: v(:)
  type(leaf) :: h
  integer :: i
  if (size(v) == 0) return
  h = v(1)
  do i = 2, size(v)
    v(i - 1) = v(i)
  end do
  v(size(v)) = h
end subroutine
recursive subroutine trade(a, b)
  type(box), intent(inout) :: a, b
  type(box) :: h
  h = a
  a = b
  b = h
  if (h%k > 40) then
    h%k = h%k - 40
    call trade(a, h)
  end if
end subroutine
end module
program p
use lib
implicit none
integer :: i = 3, j = 2
type(box) :: p1, q
type(box), allocatable :: ps(:)
type(leaf) :: lf(4)
p1 = make(2)
q = make(5)
ps = many(2)
"""


class Program:
    """Lines of a program, drawn by a seed."""

    def __init__(self, seed):
        self.random = random.Random(seed)
        self.lines = []
        self.open = []

    def one(self, *choices):
        """One of these; a choice that is a function is called."""
        chosen = self.random.choice(choices)
        return chosen() if callable(chosen) else chosen

    def number(self, low, high):
        return self.random.randint(low, high)

    def write(self, *lines):
        self.lines += lines

    def block(self, depth):
        for _ in range(self.number(1, 3)):
            self.statement(depth)

    def branch(self, head, others, last, depth):
        """A construct of blocks: each head begins one."""
        for line in [head, *others]:
            self.write(line)
            self.block(depth - 1)
        self.write(last)


class Scalars(Program):
    """Scalars, arrays, sections and control."""

    before = SCALARS

    def place(self):
        one, number = self.one, self.number
        return one("i1", "i2", "i3", f"a({number(1, 6)})", "b(modulo(i1, 4) + 1)", f"m({number(1, 2)},{number(1, 3)})", "t1%n", "t1%c(2)", "t2%in%n", "t2%in%c(1)")

    def value(self, depth):
        one, number, inner = self.one, self.number, lambda: f"({self.value(depth - 1)})"
        if depth <= 0 or self.random.random() < 0.25:
            return one(f"({number(-9, 9)})", self.place)
        return one(
            lambda: f"mod({inner()} {one('+', '-', '*')} {inner()}, {number(5, 97)})",
            lambda: f"modulo({inner()}, {one(7, -5, 11)})",
            lambda: f"({inner()} / {one(2, 3, '(-4)', 7)})",
            lambda: f"{one('abs', 'f')}({inner()})",
            lambda: f"{one('max', 'min')}({inner()}, {inner()}, {inner()})",
            lambda: f"(-{inner()})",
            lambda: f"mod(mod({inner()}, 9) ** {number(0, 5)}, 1000)",
            lambda: f"a(modulo({inner()}, 6) + 1)",
            lambda: f"{one('size', 'folded')}({self.array(depth - 1)})",
        )

    def truth(self, depth):
        one = self.one
        if depth <= 0 or self.random.random() < 0.2:
            return one(".true.", ".false.", "l1", "l2", "allocated(al)", "allocated(t2%in%al)")
        return one(
            lambda: f"({self.value(depth - 1)} {one('<', '<=', '>', '>=', '==', '/=')} {self.value(depth - 1)})",
            lambda: f"({self.truth(depth - 1)} {one('.and.', '.or.', '.eqv.', '.neqv.')} {self.truth(depth - 1)})",
            lambda: f"(.not. {self.truth(depth - 1)})",
        )

    def array(self, depth):
        if depth <= 0 or self.random.random() < 0.6:
            return self.one("a", "b", "a(2:5)", "a(6:1:-2)", "m(1,:)", "m(:,2)", "t1%c", "b(4:1:-1)", "al", "t2%al", "t2%in%c(2:)")
        return self.one(lambda: self.listed(3), lambda: f"twice({self.array(depth - 1)})")

    def listed(self, count):
        return "[" + ", ".join(self.value(1) for _ in range(count)) + "]"

    def loop(self, depth):
        variable = self.one(*[it for it in ("d1", "d2", "d3") if f"do {it}" not in self.open])
        self.open.append(f"do {variable}")
        self.write(f"do {variable} = {self.number(-2, 3)}, {self.number(0, 5)}{self.one('', ', 2', ', -1')}")
        self.block(depth - 1)
        if self.random.random() < 0.3:
            self.write(f"if ({self.truth(1)}) {self.one('cycle', 'exit')}")
        self.write(f"i1 = mod(i1 + {variable}, 100)", "end do")
        self.open.pop()

    def statement(self, depth):
        one, number = self.one, self.number
        simple = [
            lambda: self.write(f"{self.place()} = mod({self.value(2)}, 1000)"),
            lambda: self.write(f"{one('l1', 'l2')} = {self.truth(2)}"),
            lambda: self.write(f"a = {one('a(6:1:-1)', '[b(1), b(2), 3, i1, b(4), i2]', 'twice(a)', lambda: self.listed(6))}"),
            lambda: self.write(f"{one('a(1:3)', 'b(2:4)', 'a(6:2:-2)', 't1%c', 'm(2,:)')} = {self.listed(3)}"),
            lambda: self.write(f"al = {self.array(2)}"),
            lambda: self.write(one("t1 = t2%in", "t2%in = t1", "t2 = outer(t1, t2%al)", "t2%al = [i1, i2]", "t2%in%al = al")),
            lambda: self.write(f"print *, {self.value(2)}, {self.truth(2)}, {self.array(2)}, k1"),
            lambda: self.write(f"call add({one('i1', 'i2', 'a(3)', 't1%n')}, {self.value(1)})"),
            lambda: self.write(f"call turn({one('a', 'b', 'a(2:5)', 't1%c', 'm(1,:)')})"),
            lambda: self.write(f"k1 = mod(k1 * 31_8 + {self.value(1)}, 1000000007_8)", "k2 = k1 * k1 / 7_8 + abs(k1)"),
        ]
        nested = [
            lambda: self.branch(f"if ({self.truth(2)}) then", one([], ["else"], [f"else if ({self.truth(1)}) then", "else"]), "end if", depth),
            lambda: self.branch(f"select case (modulo({self.value(2)}, 6))\ncase (0)", self.random.sample(["case (1:2)", "case (4:)", "case (3)", "case default"], number(1, 4)), "end select", depth),
            lambda: self.branch(f"associate (x1 => {one('a(3)', 't1%n', 'i2', 'm(1,2)')}, x2 => {self.value(1)})\nx1 = mod(x1 + x2, 500)", [], "end associate", depth),
        ]
        if len(self.open) < 3:
            nested.append(lambda: self.loop(depth))
        one(*simple, *(nested if depth > 0 else []))

    def text(self):
        for _ in range(14):
            self.statement(3)
        self.write("print *, i1, i2, i3, a, b, m, k1, k2, l1, l2, t1%n, t1%c, t2%in%n, t2%in%c")
        for it in ("al", "t1%al", "t2%al", "t2%in%al"):
            self.write(f"if (allocated({it})) print *, {it}, lbound({it}, 1), ubound({it}, 1), size({it})")
        return "\n".join([self.before, *self.lines, "end program", ""])


class Objects(Program):
    """Derived types with allocatable components."""

    before = OBJECTS

    def value(self, depth=2):
        one, number = self.one, self.number
        if depth <= 0 or self.random.random() < 0.35:
            return one(str(number(0, 9)), "i", "j", "p1%k", "q%k", f"lf({number(1, 4)})%v", "size(p1%d)", "size(ps)", "ubound(ps, 1)", "lbound(ps, 1)", "size(q%ls)")
        return one(
            lambda: f"mod(({self.value(depth - 1)}) {one('+', '-', '*')} ({self.value(depth - 1)}), {number(7, 90)})",
            lambda: f"total({self.box()})",
            lambda: f"leaves({one('lf', 'lf(2:3)', 'p1%ls', 'q%ls', 'lf(4:1:-1)')})",
        )

    def box(self):
        return self.one("p1", "q", "ps(lbound(ps, 1))", "ps(ubound(ps, 1))")

    def made(self):
        return self.one(
            self.box,
            lambda: f"make({self.value(1)})",
            "grown(q)",
            lambda: f"box({self.value(1)}, {self.one('p1%d', 'q%d', '[1, 2]')}, {self.one('p1%one', 'q%one')}, {self.one('p1%ls', 'lf', 'lf(1:2)')})",
        )

    def anew(self):
        self.write("deallocate(ps)", f"allocate(ps({self.number(-1, 2)}:{self.number(2, 4)}), stat = i)")
        self.write("do i = lbound(ps, 1), ubound(ps, 1)", "  ps(i) = make(i)", "end do")

    def moved(self):
        source, target = self.one(("p1%d", "q%d"), ("q%d", "p1%d"), ("ps(lbound(ps, 1))%d", "p1%d"))
        self.write(f"call move_alloc({source}, {target})", f"{source} = [{self.number(0, 9)}, 5]")

    def associated(self, depth):
        """An ASSOCIATE, in which nothing is freed or moved: that would be error 9 (own rule) where its names refer to it."""
        self.write(f"associate (u => {self.box()}, t => {self.one('lf(2)', 'q%d(1)')})", "u%k = mod(u%k + 3, 70)", "print *, u%k, size(u%d), total(u)")
        self.open.append("associate")
        self.block(depth - 1)
        self.open.pop()
        self.write("end associate")

    def loop(self):
        self.write(f"do j = 1, {self.number(1, 4)}", f"i = mod(i * 3 + {self.value()}, 97)", f"p1%k = mod(p1%k + {self.value(1)}, 50)")
        self.write(f"if (mod({self.value()}, 3) == 1) {self.one('exit', 'cycle')}", f"q%d(1) = {self.value(1)}", "end do")

    def statement(self, depth):
        one = self.one
        simple = [
            lambda: self.write(f"{self.box()} = {self.made()}"),
            lambda: self.write(f"ps = {one('ps(ubound(ps, 1):lbound(ps, 1):-1)', 'ps', 'many(2)', 'many(1)')}"),
            lambda: self.write(f"{self.box()}%d = {one('p1%d', 'q%d', '[q%d(1)]', 'ints(modulo(i, 4))', lambda: f'[{self.value()}, {self.value()}]')}"),
            lambda: self.write(f"{self.box()}%ls = {one('lf', 'lf(3:1:-1)', 'p1%ls', 'q%ls')}"),
            lambda: self.write(f"{self.box()}%one = {self.value()}"),
            lambda: self.write(one("lf(1:3) = lf(2:4)", "lf(2:4) = lf(1:3)", "lf(1:2) = leaf(7)")),
            lambda: self.write(f"lf({self.number(1, 4)})%v = {self.value()}"),
            lambda: self.write(f"i = mod({self.value()}, 100)"),
            lambda: self.write(f"{self.box()}%k = mod({self.value()}, 100)"),
            lambda: self.write(f"call bump({self.box()}, {self.number(0, 9)})"),
            lambda: self.write(f"call fresh({self.box()})"),
            lambda: self.write(f"call shift({one('lf', 'p1%ls', 'q%ls', 'lf(2:4)', 'lf(4:1:-2)')})"),
            lambda: self.write("call trade(p1, q)"),
            lambda: self.show(self.box()),
            self.moved,
            self.anew,
            self.loop,
        ]
        nested = [
            lambda: self.branch(f"if (mod({self.value()}, 2) == 0) then", one([], ["else"]), "end if", depth),
            lambda: self.associated(depth),
        ]
        one(*(simple[4:10] if self.open else simple), *(nested * 3 if depth > 0 else []))

    def show(self, it):
        self.write(f"print *, {it}%k, {it}%d, {it}%one, lbound({it}%d, 1), size({it}%ls)", f"print *, leaves({it}%ls), total({it})")

    def text(self):
        for _ in range(16):
            self.statement(2)
        self.show("p1")
        self.show("q")
        self.write("print *, i, j, lf(1)%v, lf(2)%v, lf(3)%v, lf(4)%v, lbound(ps, 1), ubound(ps, 1)")
        self.write("do i = lbound(ps, 1), ubound(ps, 1)", "  print *, total(ps(i)), ps(i)%d", "end do")
        return "\n".join([self.before, *self.lines, "end program", ""])


def printed(words, folder):
    ran = subprocess.run(words, cwd=folder, stdin=subprocess.DEVNULL, stdout=subprocess.PIPE, stderr=subprocess.PIPE, timeout=60)
    return ran.returncode, ran.stdout.split(), ran.stderr.decode(errors="replace").strip()


def judged(seed, folder):
    """What becomes of the program of a seed: '' where both print the same, 'error' where f3 ends it, else what is not alike."""
    text = (Objects if seed % 2 else Scalars)(seed).text()
    with open(f"{folder}/p.f90", "w") as file:
        file.write(text)
    status, own, told = printed([F3, "run", "p.f90"], folder)
    if status == 3:
        return text, "error"
    if status != 0:
        return text, f"f3 ended with {status}: {told}"
    status, _, told = printed([*GFORTRAN, "-o", "p", "p.f90"], folder)
    if status != 0:
        return text, f"gfortran: {told}"
    status, other, told = printed([f"{folder}/p"], folder)
    if status != 0:
        return text, f"gfortran's program ended with {status}: {told}"
    return text, "" if own == other else "they print other words"


def main(words):
    count = int(words[0]) if words else 100
    first = int(words[1]) if len(words) > 1 else 1
    alike = ended = other = 0
    with tempfile.TemporaryDirectory() as folder:
        for seed in range(first, first + count):
            text, fault = judged(seed, folder)
            if not fault:
                alike += 1
            elif fault == "error":
                ended += 1
            else:
                other += 1
                print(f"{seed}: {fault}")
                with open(f"against-{seed}.f90", "w") as file:
                    file.write(text)
    print(f"{alike} alike, {ended} ended by an error, {other} not alike")
    return 1 if other else 0


if __name__ == "__main__":
    sys.exit(main(sys.argv[1:]))
