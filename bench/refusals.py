#!/usr/bin/env python3
"""Changes programs at random, and compares which of them f3 and gfortran refuse.

usage: refusals.py [COUNT [SEED]]      (after bin/f3 has built the program; 1,000 programs, by seed 1)
f3 is crates/f3/out/f3, or what the variable F3 names. The programs that are changed are those that both accept of the cases of
crates/f3_rows, of bench/kernels, of examples, and of bench/against.py: a name becomes another one of the program, an attribute comes,
goes or is another, a list of USE is another, a line goes, comes again or changes its place, an operator, a literal or a word is another.
What only one of the two accepts is told by gfortran's words, or by f3's rule, with how many there are, and the first of each stays as
refusals-NUMBER.f90. Most come from f3's own rules (a dummy argument without INTENT, operators on arrays) or from what a program of
constants would do when it is run (a stride of zero); each other one is a fault of f3 or of gfortran, and is to be looked at.
The last line is 'N accepted by both, L refused by both, M accepted by f3 alone, K by gfortran alone'."""
import collections
import glob
import os
import random
import re
import subprocess
import sys
import tempfile

sys.dont_write_bytecode = True
import against

TOP = os.path.dirname(against.HERE)
GFORTRAN = ["gfortran", "-w", "-fsyntax-only", "-std=f2003", "-pedantic-errors", "-ffree-line-length-none"]
TOKEN = re.compile(r"[A-Za-z_]\w*|\d+(?:_\w+)?|'[^'\n]*'|\"[^\"\n]*\"|\.[A-Za-z]+\.|::|=>|==|/=|<=|>=|\*\*|[^\sA-Za-z0-9_]|[ \t]+|\n|.")
WORDS = set(
    "program module end contains use only integer logical type intent in out inout allocatable parameter save public private protected"
    " dimension pure recursive function subroutine result implicit none if then else elseif do while exit cycle select case default call"
    " return stop print allocate deallocate stat final associate allocated size lbound ubound mod modulo abs min max move_alloc".split()
)
ATTRIBUTES = (
    *("private", "public", "protected", "allocatable", "save", "parameter"),
    *("intent(in)", "intent(out)", "intent(inout)", "dimension(:)", "dimension(3)"),
)
LITERALS = ("0", "1", "2", "7", ".true.", ".false.", "5_8", "1_4", "(-1)", "[1, 2]")
OPERATORS = ("+", "-", "*", "/", "==", "<", ".and.", ".or.", ".eqv.", "**")
HEADS = ("pure", "recursive", "public", "private", "protected", "exit", "cycle", "return", "integer", "logical")


def f3_says(text, folder):
    """'' where f3 accepts a program, else its line."""
    with open(f"{folder}/a.f90", "w") as file:
        file.write(text)
    ran = subprocess.run([against.F3, "check", "a.f90"], cwd=folder, capture_output=True, text=True, timeout=60)
    if ran.returncode not in (0, 1):
        sys.exit(f"f3 ended with {ran.returncode} for\n{text}")
    return ran.stderr.strip()


def gfortran_says(text, folder):
    """'' where gfortran accepts it, else its first words."""
    with open(f"{folder}/g.f90", "w") as file:
        file.write(text)
    # modules of the program before
    for name in glob.glob(f"{folder}/*.mod"):
        os.remove(name)
    ran = subprocess.run([*GFORTRAN, "g.f90"], cwd=folder, capture_output=True, text=True, timeout=60)
    found = re.search(r"Error: (.*)", ran.stderr)
    return "" if ran.returncode == 0 else re.sub(r"‘[^’]*’|'[^']*'|\d+", "#", found[1] if found else "some error")


def cases():
    """The sources of the cases of crates/f3_rows, each with its lines one after another."""
    texts = []
    with open(f"{TOP}/crates/f3_rows/stdin", errors="replace") as file:
        for case in file.read().split("\ncase ")[1:]:
            sources, is_source = [], False
            for line in case.split("\n"):
                is_source = line.startswith("source ") or (is_source and line[:1] in ("|", ":"))
                if is_source and line[:1] in ("|", ":"):
                    sources.append(line[1:])
            texts.append("\n".join([*sources, ""]))
    return texts


def programs(folder):
    """The programs that are changed: both accept them."""
    texts = cases()
    for name in glob.glob(f"{TOP}/bench/kernels/*.f90") + glob.glob(f"{TOP}/examples/*.f90"):
        with open(name) as file:
            texts.append(file.read())
    texts += [(against.Objects if seed % 2 else against.Scalars)(seed).text() for seed in range(9001, 9025)]
    few = [text for text in texts if len(text) < 30_000 and text.isascii()]
    return [text for text in dict.fromkeys(few) if not f3_says(text, folder) and not gfortran_says(text, folder)]


class Change:
    """Changes of a program, one by one."""

    def __init__(self, chance):
        self.chance = chance

    def of(self, text):
        """The program with one change."""
        ways = [*[self.name] * 3, self.intent, self.less, self.more, self.lines, *[self.token] * 2, self.use]
        changed = text
        while changed == text:
            changed = self.chance.choice(ways)(text)
        return changed

    def names(self, parts):
        return [at for at, part in enumerate(parts) if re.fullmatch(r"[A-Za-z_]\w*", part) and part.lower() not in WORDS]

    def put(self, text, found, by):
        """The text with another one for one of the matches."""
        if not found:
            return text
        one = self.chance.choice(found)
        return text[: one.start()] + by(one) + text[one.end() :]

    def name(self, text):
        parts = TOKEN.findall(text)
        names = self.names(parts)
        if names:
            parts[self.chance.choice(names)] = parts[self.chance.choice(names)]
        return "".join(parts)

    def intent(self, text):
        found = list(re.finditer(r"\b(in|out|inout)\b(?=\s*\))", text, re.I))
        return self.put(text, found, lambda one: self.chance.choice(("in", "out", "inout")))

    def less(self, text):
        attribute = r",\s*(private|public|protected|allocatable|save|parameter|intent\s*\(\w+\)|dimension\s*\([^()]*\))"
        return self.put(text, list(re.finditer(attribute, text, re.I)), lambda one: "")

    def more(self, text):
        found = list(re.finditer(r"(integer(\(\w+\))?|logical|type\s*\(\w+\))(?=[^:\n]*::)", text, re.I))
        return self.put(text, found, lambda one: f"{one[0]}, {self.chance.choice(ATTRIBUTES)}")

    def lines(self, text):
        lines = text.split("\n")
        one, other = self.chance.randrange(len(lines)), self.chance.randrange(len(lines))
        way = self.chance.randrange(3)
        if way == 0:
            del lines[one]
        elif way == 1:
            lines.insert(other, lines[one])
        else:
            lines[one], lines[other] = lines[other], lines[one]
        return "\n".join(lines)

    def token(self, text):
        kinds = (
            (r"\b\d+\b|\.true\.|\.false\.", LITERALS),
            (r"[-+*/<>]|==|/=|\.\w+\.", OPERATORS),
            (r"\b(" + "|".join(HEADS) + r")\b", (*HEADS, "integer(8)", "stop", "")),
        )
        pattern, others = self.chance.choice(kinds)
        return self.put(text, list(re.finditer(pattern, text, re.I)), lambda one: self.chance.choice(others))

    def use(self, text):
        parts = TOKEN.findall(text)
        names = [parts[at] for at in self.names(parts)]
        if not names:
            return text
        some = [self.chance.choice(names) for _ in range(self.chance.randrange(3))]
        renamed = ", ".join(f"{self.chance.choice(names)} => {name}" for name in some)
        lists = ["", ", only: " + ", ".join(some), ", only: " + renamed, f", {renamed}" if some else ""]
        found = list(re.finditer(r"^(\s*use\s+\w+)[^;\n]*", text, re.I | re.M))
        return self.put(text, found, lambda one: one[1] + self.chance.choice(lists))


def main(words):
    count = int(words[0]) if words else 1000
    change = Change(random.Random(int(words[1]) if len(words) > 1 else 1))
    alike, apart = collections.Counter(), collections.defaultdict(list)
    with tempfile.TemporaryDirectory() as folder:
        texts = programs(folder)
        for _ in range(count):
            text = change.of(change.chance.choice(texts))
            own, other = f3_says(text, folder), gfortran_says(text, folder)
            if bool(own) == bool(other):
                alike["refused" if own else "accepted"] += 1
            else:
                apart[("gfortran", own.split(": ", 1)[-1][:3]) if own else ("f3", other)].append(text)
    for number, ((who, why), found) in enumerate(sorted(apart.items(), key=lambda it: (it[0][0], -len(it[1]), it[0][1])), 1):
        print(f"{len(found):5} accepted by {who} alone: {why} (refusals-{number}.f90)")
        with open(f"refusals-{number}.f90", "w") as file:
            file.write(found[0])
    alone = {who: sum(len(found) for (one, _), found in apart.items() if one == who) for who in ("f3", "gfortran")}
    both = f"{alike['accepted']} accepted by both, {alike['refused']} refused by both"
    print(f"{both}, {alone['f3']} accepted by f3 alone, {alone['gfortran']} by gfortran alone")


if __name__ == "__main__":
    main(sys.argv[1:])
