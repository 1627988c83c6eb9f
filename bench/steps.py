#!/usr/bin/env python3
"""Prints which declarations of a crate's proofs take the most steps, by what rt check has kept in crates/NAME/out/incremental.

usage: steps.py NAME [COUNT]      (behind rt check in a crate that had no out/incremental: what earlier checks did is told of too)
For each of the COUNT dearest (40): its steps, those of its calls of tactics, its name and module, and what antt advises. A processor
does 1 to 1.5 million steps a second. The modules `Lts`, which the borrow checker makes, have no such counts: their sizes tell."""
import json
import os
import re
import sys

ROOT = os.path.dirname(os.path.dirname(os.path.abspath(__file__)))


def declarations(file):
    """The accounts of the declarations in a file of records: texts of JSON between other bytes."""
    text = open(file, "rb").read().decode("utf-8", "replace")
    for begun in re.finditer(r'\{"aux":', text):
        try:
            account, _ = json.JSONDecoder().raw_decode(text, begun.start())
        except ValueError:
            continue
        yield account


def kept(name):
    """All accounts of a crate, each with its module."""
    for at, _, files in os.walk(f"{ROOT}/crates/{name}/out/incremental"):
        for file in files:
            if os.path.basename(at) == "records" and file.endswith(".decls.oantt"):
                module = file[: -len(".decls.oantt")].split("-", 1)[-1]
                for account in declarations(f"{at}/{file}"):
                    yield module, account


def main(name, count="40"):
    of_modules, lines = {}, []
    for module, account in kept(name):
        steps = account["steps"][0]
        of_modules[module] = of_modules.get(module, 0) + steps
        calls = ", ".join(f"{tactic} {taken:,}" for tactic, _, taken in account["calls"])
        advice = "; ".join(sorted({note[1] for note in account["notes"]}))
        lines.append((steps, f"{account['name']} ({module})  {calls}  {advice}"))
    for module, steps in sorted(of_modules.items(), key=lambda it: -it[1])[:10]:
        print(f"{steps:14,} in {module}")
    print()
    for steps, line in sorted(lines, reverse=True)[: int(count)]:
        print(f"{steps:14,} {line}")


if __name__ == "__main__":
    if len(sys.argv) < 2:
        sys.exit(__doc__)
    main(*sys.argv[1:])
