#!/usr/bin/env python3
"""Whether the built program says the same of maps by an index of their entries and without one, on random maps.

    random_maps.py PROGRAM [--count N] [--start K]

Case number K is always the same: a map of alternatives of 10 entries or more, some of which begin alike, or differ only in the
numbers of pairs that they ask for, whose keys are literals, names of literals and other types, some of them again and again, and
a few maps that are made of these keys. Each is asked twice: by itself, where it is asked about on its tape, or each pair finds
its entries by an index, and in 70 arrays, where the questions are asked by turns, which have neither. Both have to match, or to fail at the same place, with the same part shown there, and the one in arrays takes
as many steps more as they do.

Prints what differs, with the specification and the map in hex, and last 'N passed, M failed'.
"""
import argparse
import os
import random
import re
import subprocess
import sys
import tempfile

from random_orders import deterministic, literal, shuffled, spelled

SECONDS = 60
MOST_SHOWN = 700
# Types 64 questions deep and deeper are asked by turns; each array is two.
ARRAYS = 70
# An array takes a step for itself, and three for its group, the sequence in that and the entry in this.
STEPS_OF_AN_ARRAY = 4
END = re.compile(rb"failed: 0 items, offset 0: mismatch at \$((?:\[0\])*)(.*)$")

# Numbers, and strings of the same bytes in other forms.
KEYS = (
    *(("uint", it) for it in (0, 1, 2, 10, 49, 97, 500)), *(("nint", it) for it in (0, 1, 48, 500)),
    *(("bytes", it) for it in (b"", b"a", b"1", b"ab")), *(("text", it) for it in (b"", b"a", b"1", b"ab", b"a longer name")),
    ("simple", 20), ("simple", 22),
)
LONG_KEY = ("text", b"x" * 1024)
KEY_OF_PARTS = ("array", (("uint", 1),))
OTHER_KEYS = ("uint", "int", "tstr", "bstr", "any", "0..10", '1 / "a"', "bool", "tstr .size 1", "[1]")
VALUES = (("uint", 0), ("uint", 1), ("uint", 3), ("uint", 12), ("text", b"x"), ("simple", 20), ("array", ()))
VALUE_TYPES = ("int", "0", "1", "tstr", "bool", "any", "any", "[]", "int / tstr", "uint .bits b")
BITS = "b = &(x: 0, y: 1, z: 2)"
TIMES = ("? ", "? ", "? ", "* ", "* ", "0*2 ")


class Names:
    """Names for literals, each with its rule."""

    def __init__(self):
        self.rules = []

    def of(self, text):
        name = f"k{len(self.rules)}"
        self.rules.append(f"{name} = {text}")
        return name


def key_type(chance, names):
    if chance.random() < 0.12:
        return f"({chance.choice(OTHER_KEYS)})"
    text = literal(chance.choice(KEYS))
    for _ in range(chance.choice([0, 0, 0, 1, 2])):
        text = names.of(text)
    return text


def entry(chance, names):
    times = chance.choice([*TIMES, "+ " if chance.random() < 0.1 else "* "])
    cut = chance.choice([" =>", " =>", " ^ =>"])
    return f"{times}{key_type(chance, names)}{cut} ({chance.choice(VALUE_TYPES)})"


def other_times(chance, entries):
    """The same entries, some of which ask for other numbers of pairs: one of them for one at least, as a group with + has it."""
    changed = [f"{chance.choice(TIMES)}{it.split(' ', 1)[1]}" if chance.random() < 0.3 else it for it in entries]
    if changed and chance.random() < 0.5:
        at = chance.randrange(len(changed))
        changed[at] = f"+ {changed[at].split(' ', 1)[1]}"
    return changed


def specification(chance):
    """The rules after the root, of which the first is the map."""
    names = Names()
    ways = []
    for _ in range(chance.choice([1, 1, 2, 3, 5, 13])):
        entries = [entry(chance, names) for _ in range(chance.choice([10, 12, 13, 15, 16, 17, 20, 40]))]
        if ways and chance.random() < 0.3:
            entries = other_times(chance, ways[-1])
        elif ways and chance.random() < 0.7:
            # alternatives that begin alike, and have few or many entries after those
            front = ways[-1][: chance.choice([len(ways[-1]) // 2, len(ways[-1]) - 2, len(ways[-1])])]
            entries = front + entries[: chance.choice([0, 1, 2, 5, 11, 12, 40])]
        if chance.random() < 0.03:
            # an alternative with so long a key has no index
            entries.insert(chance.randrange(len(entries) + 1), f"? {literal(LONG_KEY)} => (int)")
        ways.append(entries)
    body = " // ".join(", ".join(it) for it in ways)
    return "\n".join([f"m = {{ {body} }}", *names.rules, BITS, ""])


def random_map(chance):
    count = chance.choice([0, 1, 2, 3, 5, 8, 20])
    keys = list(chance.sample((*KEYS, LONG_KEY) if chance.random() < 0.1 else KEYS, min(count, len(KEYS))))
    keys += [("uint", 1000 + it) for it in range(count - len(keys))]
    keys += [KEY_OF_PARTS] * (chance.random() < 0.1)
    return "map", tuple((key, chance.choice(VALUES)) for key in keys)


def told(program, spec, steps, stream, folder):
    """The status, and the end of the stream, of which the path is cut off where the arrays lead to."""
    words = [program, "validate", "--quiet", "--steps", str(steps), spec]
    run = subprocess.run(words, cwd=folder, input=stream, capture_output=True, timeout=SECONDS)
    found = END.match(run.stdout.rstrip(b"\n"))
    if found:
        return run.returncode, b"mismatch", len(found[1]) // 3, found[2], run.stderr
    return run.returncode, run.stdout.split(b":")[0] if run.returncode == 0 else run.stdout, 0, b"", run.stderr


def least_steps(program, spec, stream, folder):
    """The least number of steps with which the answer is the one of many steps."""
    wanted, least, most = told(program, spec, 1 << 20, stream, folder), 1, 1 << 20
    while least < most:
        middle = (least + most) // 2
        if told(program, spec, middle, stream, folder) == wanted:
            most = middle
        else:
            least = middle + 1
    return wanted, least


def wrong_maps(program, number, folder):
    """What is wrong with a case, a line each, and how many of its maps match."""
    chance = random.Random(number)
    text = specification(chance)
    for name, root in (("NEAR", "r = m"), ("DEEP", f"r = {'[' * ARRAYS}m{']' * ARRAYS}")):
        with open(os.path.join(folder, name), "w", encoding="utf-8") as file:
            file.write(f"{root}\n{text}")
    wrong, matching = [], 0
    for at in range(4):
        item = shuffled(chance, random_map(chance))
        stream = spelled(chance, item)
        deep = b"\x81" * ARRAYS + stream
        near, far = told(program, "NEAR", 1 << 20, stream, folder), told(program, "DEEP", 1 << 20, deep, folder)
        matching += near[0] == 0
        shown = (far[0], far[1], far[2] - ARRAYS if far[1] == b"mismatch" else 0, *far[3:])
        if near != shown or near[0] not in (0, 1):
            wrong.append(f"{near} and {far}: {deterministic(item).hex()} of {text}")
        elif at == 0 and number % 10 == 0:
            steps, more = least_steps(program, "NEAR", stream, folder)[1], least_steps(program, "DEEP", deep, folder)[1]
            if more - steps != STEPS_OF_AN_ARRAY * ARRAYS:
                wrong.append(f"{steps} and {more} steps: {deterministic(item).hex()} of {text}")
    return wrong, matching


def compare(program, count=200, start=0):
    """Runs the program on so many cases, prints what differs, and returns how many passed and failed."""
    failed, matching = 0, 0
    with tempfile.TemporaryDirectory() as folder:
        for number in range(start, start + count):
            wrong, more = wrong_maps(program, number, folder)
            failed, matching = failed + bool(wrong), matching + more
            for it in wrong:
                print(f"FAILED case {number}: {it[:MOST_SHOWN]}")
    print(f"{matching} of {4 * count} maps match")
    return count - failed, failed


def main():
    words = argparse.ArgumentParser(description="Compares what the program says of random maps with and without an index.")
    words.add_argument("program")
    words.add_argument("--count", type=int, default=200, help="so many cases")
    words.add_argument("--start", type=int, default=0, help="the number of the first one")
    given = words.parse_args()
    passed, failed = compare(os.path.abspath(given.program), given.count, given.start)
    print(f"{passed} passed, {failed} failed")
    return 1 if failed else 0


if __name__ == "__main__":
    sys.exit(main())
