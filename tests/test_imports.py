#!/usr/bin/env python3
"""Whether a crate names nothing of another crate's proofs but its public files of lemmas: proofs/Lemmas.antt, and for a module of
the crate as `place` proofs/OfPlace/Lemmas.antt; and proofs/Crossing.antt, whose lemmas say that a type may go to another thread, as
the standard library names its own. What the toolchain itself makes there of a type of the other crate (`TheLaws`, which has the size
of a value, and `TheSendSync`, that it may go to another thread) may be named too.

    test_imports.py

Prints each name that breaks this, and tests first that the search would find one. The status is 0 only where no name
breaks it.
"""
import glob
import os
import re
import sys
import tempfile

TOP = os.path.dirname(os.path.dirname(os.path.abspath(__file__)))
NAMED = re.compile(r"\bRattle\.(\w+)\.proofs\.(?:Of[A-Z]\w*\.|(?:\w+\.)+(?=(?:TheLaws|TheSendSync)\b))?([\w+-]+)")
ALLOWED = ("Lemmas", "Crossing", "TheLaws", "TheSendSync")


def strays(top):
    """The lines that name a proof of another crate of this repository: the file, the line's number and the name."""
    crates = set(os.listdir(os.path.join(top, "crates")))
    found = []
    for path in sorted(glob.glob(os.path.join(top, "crates", "*", "*", "**"), recursive=True)):
        crate, folder = os.path.relpath(path, os.path.join(top, "crates")).split(os.sep)[:2]
        if folder == "out" or not path.endswith((".rt", ".antt")):
            continue
        with open(path, encoding="utf-8") as file:
            for number, line in enumerate(file, 1):
                found += [
                    (os.path.relpath(path, top), number, it[0])
                    for it in NAMED.finditer(line)
                    if it[1] in crates and it[1] != crate and it[2] not in ALLOWED
                ]
    return found


def finds_strays():
    """Whether the search finds the two stray names of a small repository, and no other name."""
    lines = {
        "low/proofs/Sums.antt": "use Rattle.low.proofs.Lists.{lists}\n",
        "low/proofs/OfParts/Halves.antt": "use Rattle.low.proofs.Lists.{lists}\n",
        "high/proofs/Uses.antt": "use Rattle.low.proofs.Lemmas.{sums}\nuse Rattle.std.proofs.Common.{arith}\n",
        "high/proofs/Cuts.antt": "use Rattle.low.proofs.OfParts.Lemmas.{halves}\n",
        "high/proofs/Sizes.antt": "use Rattle.low.proofs.node.Node.TheLaws.{the_size}\n",
        "high/src/lib.rt": "ghost use Rattle.low.proofs.Sums.{sums};\n",
        "high/src/parts.rt": "ghost use Rattle.low.proofs.OfParts.Halves.{halves};\n",
        "high/out/Kept.antt": "use Rattle.low.proofs.Sums.{sums}\n",
    }
    with tempfile.TemporaryDirectory() as top:
        for name, text in lines.items():
            path = os.path.join(top, "crates", name)
            os.makedirs(os.path.dirname(path), exist_ok=True)
            with open(path, "w", encoding="utf-8") as file:
                file.write(text)
        return strays(top) == [
            ("crates/high/src/lib.rt", 1, "Rattle.low.proofs.Sums"),
            ("crates/high/src/parts.rt", 1, "Rattle.low.proofs.OfParts.Halves"),
        ]


def are_imports_clean():
    """Whether the search works, and finds no stray name; prints each that it finds."""
    if not finds_strays():
        print("the search for names of other crates' proofs does not find what it has to find")
        return False
    found = strays(TOP)
    for path, number, name in found:
        print(f"{path}:{number}: names {name}; of another crate's proofs only Lemmas and Crossing may be named")
    return not found


if __name__ == "__main__":
    sys.exit(0 if are_imports_clean() else 1)
