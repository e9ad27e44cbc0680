#!/usr/bin/env python3
"""Whether the built program sees the order of pairs in maps, on random items.

    random_orders.py PROGRAM [--count N] [--start K]

Case number K is always the same: some items and a specification that is made after them, which some of them match. They are
written twice, with the pairs of each map in one order and in another, at every depth, and each time in any spelling that there
is: with longer heads than are needed, with lengths or up to a break. These have to hold:

  - 'rewrite --deterministic' writes the same bytes of both, and those are what this script finds by sorting;
  - it writes these bytes of themselves, and so does 'rewrite';
  - 'validate' takes as many items of both, and both are clean or both end by a mismatch;
  - where a pair is put in whose key is one that the map has, in any order and spelling, 'show' tells of the repeated key, at
    the least place.

Prints what differs, with the streams in hex, and last 'N passed, M failed'.
"""
import argparse
import os
import random
import re
import subprocess
import sys
import tempfile

SECONDS = 60
MOST_SHOWN = 400
ANY = b"a = any\n"
END = re.compile(rb"(clean|failed): (\d+) items, (?:\d+ bytes|offset \d+: (mismatch) .*)$")

# An item is a tuple: its kind, and what it is. A map has a tuple of pairs.
LEAVES = (
    ("uint", 0), ("uint", 1), ("uint", 24), ("uint", 300), ("nint", 0), ("nint", 255), ("bytes", b""), ("bytes", b"\x01\x02"),
    ("text", b"a"), ("text", b"b"), ("text", b"aa"), ("text", b"longer than any of the others"), ("simple", 20), ("simple", 22),
    ("simple", 32), ("float", b"\x3c\x00"), ("float", b"\x3f\x80\x00\x00"),
)
MAJORS = {"uint": 0, "nint": 1, "bytes": 2, "text": 3, "array": 4, "map": 5, "tag": 6}


def head(major, argument, size=0):
    """A head whose argument has at least so many bytes behind the first one."""
    size = next(it for it in (0, 1, 2, 4, 8) if it >= size and argument < (24 if it == 0 else 1 << 8 * it))
    if size == 0:
        return bytes([major << 5 | argument])
    return bytes([major << 5 | 23 + size.bit_length()]) + argument.to_bytes(size, "big")


def deterministic(item):
    """The bytes of RFC 8949, section 4.2.1."""
    kind, is_of = item[0], item[1]
    if kind in ("uint", "nint"):
        return head(MAJORS[kind], is_of)
    if kind in ("bytes", "text"):
        return head(MAJORS[kind], len(is_of)) + is_of
    if kind == "array":
        return head(4, len(is_of)) + b"".join(map(deterministic, is_of))
    if kind == "map":
        return head(5, len(is_of)) + b"".join(map(b"".join, sorted((deterministic(k), deterministic(v)) for k, v in is_of)))
    if kind == "tag":
        return head(6, is_of) + deterministic(item[2])
    if kind == "simple":
        return head(7, is_of, 0 if is_of < 24 else 1)
    return bytes([0xf8 + len(is_of).bit_length() - 1]) + is_of


def spelled(chance, item):
    """Any bytes of the item, its pairs in the order that they have."""
    kind, is_of = item[0], item[1]
    size = chance.choice([1, 2, 4, 8]) if chance.random() < 0.2 else 0
    is_open = chance.random() < 0.2
    if kind in ("simple", "float"):
        return deterministic(item)
    if kind in ("uint", "nint"):
        return head(MAJORS[kind], is_of, size)
    if kind == "tag":
        return head(6, is_of, size) + spelled(chance, item[2])
    major = MAJORS[kind]
    if kind in ("bytes", "text"):
        cut = chance.randrange(len(is_of) + 1)
        chunks = [it for it in (is_of[:cut], is_of[cut:]) if it] if is_open else [is_of]
        parts = b"".join(head(major, len(it), size) + it for it in chunks)
        return bytes([major << 5 | 31]) + parts + b"\xff" if is_open else parts
    parts = b"".join(spelled(chance, it) for it in (is_of if kind == "array" else [part for pair in is_of for part in pair]))
    return bytes([major << 5 | 31]) + parts + b"\xff" if is_open else head(major, len(is_of), size) + parts


def shuffled(chance, item):
    """The item, with the pairs of each map in any order."""
    if item[0] == "array":
        return "array", tuple(shuffled(chance, it) for it in item[1])
    if item[0] == "tag":
        return "tag", item[1], shuffled(chance, item[2])
    if item[0] == "map":
        pairs = [(shuffled(chance, k), shuffled(chance, v)) for k, v in item[1]]
        chance.shuffle(pairs)
        return "map", tuple(pairs)
    return item


def random_item(chance, deep=0):
    if deep > 3 or chance.random() < 0.2 * deep:
        return chance.choice(LEAVES)
    kind = chance.choice(["array", "tag", "map", "map", "map"])
    if kind == "tag":
        return "tag", chance.choice([1, 40]), random_item(chance, deep + 1)
    count = chance.choice([0, 1, 2, 2, 3, 5])
    if kind == "array":
        return "array", tuple(random_item(chance, deep + 1) for _ in range(count))
    pairs = {}
    for _ in range(count):
        key = random_item(chance, deep + chance.choice([1, 2, 4]))
        pairs[deterministic(key)] = key, random_item(chance, deep + 1)
    return "map", tuple(pairs.values())


def changed(chance, item):
    """The item with another one somewhere in it, or without a pair."""
    if item[0] == "tag":
        return "tag", item[1], changed(chance, item[2])
    if item[0] not in ("array", "map") or not item[1]:
        return chance.choice(LEAVES)
    at = chance.randrange(len(item[1]))
    if item[0] == "array":
        return "array", (*item[1][:at], changed(chance, item[1][at]), *item[1][at + 1:])
    pairs = list(item[1])
    key, value = pairs.pop(at)
    if chance.random() < 0.7:
        pairs.insert(at, (key, changed(chance, value)))
    return "map", tuple(pairs)


def literal(item):
    """The CDDL of a number, a string or a simple value."""
    kind, is_of = item[0], item[1]
    if kind == "uint":
        return str(is_of)
    if kind == "nint":
        return str(-1 - is_of)
    if kind == "bytes":
        return f"h'{is_of.hex()}'"
    if kind == "text":
        return f'"{is_of.decode()}"'
    return f"#7.{is_of}" if kind == "simple" else "float"


def pattern(chance, item, loose=0.5):
    """A type that the item matches, most times; the looser, the more others match it."""
    kind, is_of = item[0], item[1]
    if chance.random() < 0.04:
        return chance.choice(["any", "any", "int", "tstr / any", "{ * any => any }", "[* any] / { * any => int }"])
    if kind == "array":
        return f"[{', '.join(pattern_in(chance, it, loose) for it in is_of)}]"
    if kind == "tag":
        return f"#6.{is_of}({pattern(chance, item[2], loose)})"
    if kind != "map":
        return chance.choice(["any", "uint / nint / tstr / bstr / #7"]) if chance.random() < loose else literal(item)
    entries = [entry(chance, key, value) for key, value in is_of]
    entries += chance.choice([[], [], [], ["? 7 => any"], ["* any => any"], ["* tstr => int", "* any => any"]])
    chance.shuffle(entries)
    if chance.random() < 0.2:
        return f"{{ {', '.join(entries[1:])} // {', '.join(entries)} }}"
    return f"{{ {', '.join(entries)} }}"


def pattern_in(chance, item, loose):
    """The same in the place of an entry, where a choice needs parentheses."""
    return f"({pattern(chance, item, loose)})"


def entry(chance, key, value):
    times, cut = chance.choice(["", "", "", "? ", "* ", "+ "]), chance.choice([" =>", " =>", " ^ =>"])
    return f"{times}{pattern_in(chance, key, 0.1)}{cut} {pattern_in(chance, value, 0.5)}"


def with_repeat(chance, item):
    """The item with a pair put in somewhere whose key its map has; None where that is not to be."""
    if item[0] == "tag":
        inner = with_repeat(chance, item[2])
        return inner and ("tag", item[1], inner)
    if item[0] not in ("array", "map") or not item[1]:
        return None
    if item[0] == "map" and chance.random() < 0.5:
        pairs = list(item[1])
        pairs.insert(chance.randrange(len(pairs) + 1), (shuffled(chance, chance.choice(pairs)[0]), chance.choice(LEAVES)))
        return "map", tuple(pairs)
    at = chance.randrange(len(item[1]))
    if item[0] == "array":
        inner = with_repeat(chance, item[1][at])
        return inner and ("array", (*item[1][:at], inner, *item[1][at + 1:]))
    key, value = item[1][at]
    inner = with_repeat(chance, value)
    return inner and ("map", (*item[1][:at], (key, inner), *item[1][at + 1:]))


def repeats(item, place=0):
    """The places of the keys that repeat one of their map, and the place behind the item."""
    found, seen, parts = [], set(), []
    if item[0] == "tag":
        parts = [item[2]]
    elif item[0] == "array":
        parts = item[1]
    elif item[0] == "map":
        parts = [part for pair in item[1] for part in pair]
    place += 1
    for number, part in enumerate(parts):
        if item[0] == "map" and number % 2 == 0:
            key = deterministic(part)
            if key in seen:
                found.append(place)
            seen.add(key)
        below, place = repeats(part, place)
        found += below
    return found, place


def ran(program, words, stream, folder):
    run = subprocess.run([program, *words], cwd=folder, input=stream, capture_output=True, timeout=SECONDS)
    return run.returncode, run.stdout, run.stderr


def written(program, words, stream, folder):
    """The bytes of a stream that is clean."""
    status, out, err = ran(program, ["rewrite", *words, "ANY"], stream, folder)
    return out if status == 0 else err


def verdict(program, stream, folder):
    """How many items match, and whether the end is clean or a mismatch."""
    status, out, err = ran(program, ["validate", "SPEC"], stream, folder)
    told = END.match(out.splitlines()[-1]) if out else None
    return (status, *told.groups()) if told and not err else (status, out, err)


def wrong_orders(program, number, folder):
    """What is wrong with a case, a line each, and the verdict of its items."""
    chance = random.Random(number)
    first = random_item(chance)
    items = [first] + [chance.choice([first, changed(chance, first), random_item(chance)]) for _ in range(chance.randrange(4))]
    with open(os.path.join(folder, "SPEC"), "w", encoding="utf-8") as file:
        file.write(f"r = {pattern(chance, first)}\n")
    streams = [b"".join(spelled(chance, shuffled(chance, it)) for it in items) for _ in range(2)]
    sorted_bytes, wrong = b"".join(map(deterministic, items)), []
    for stream in streams:
        if written(program, ["--deterministic"], stream, folder) != sorted_bytes:
            wrong.append(f"other deterministic bytes of {stream.hex()}")
    for words in ["--deterministic"], []:
        if written(program, words, sorted_bytes, folder) != sorted_bytes:
            wrong.append(f"deterministic bytes do not stay what they are, {words}: {sorted_bytes.hex()}")
    verdicts = [verdict(program, it, folder) for it in streams]
    if verdicts[0] != verdicts[1] or verdicts[0][0] not in (0, 1):
        wrong.append(f"verdicts {verdicts}: {' and '.join(it.hex() for it in streams)}")
    wrong += wrong_repeats(program, chance, items, folder)
    return wrong, verdicts[0]


def wrong_repeats(program, chance, items, folder):
    repeated = next(filter(None, (with_repeat(chance, it) for it in items * 3)), None)
    if repeated is None:
        return []
    stream, place = spelled(chance, repeated), min(repeats(repeated)[0])
    wanted = f"failed: 0 items, offset 0: duplicate key at place {place}\n".encode()
    if ran(program, ["show"], stream, folder) != (1, wanted, b""):
        return [f"no repeated key at place {place}: {stream.hex()}"]
    return []


def compare(program, count=300, start=0):
    """Runs the program on so many cases, prints what differs, and returns how many passed and failed."""
    failed, clean = 0, 0
    with tempfile.TemporaryDirectory() as folder:
        with open(os.path.join(folder, "ANY"), "wb") as file:
            file.write(ANY)
        for number in range(start, start + count):
            wrong, told = wrong_orders(program, number, folder)
            failed, clean = failed + bool(wrong), clean + (told[1] == b"clean")
            for it in wrong:
                print(f"FAILED case {number}: {it[:MOST_SHOWN]}")
    print(f"{clean} of {count} specifications match all of their items")
    return count - failed, failed


def main():
    words = argparse.ArgumentParser(description="Compares what the program tells of random items whose pairs are reordered.")
    words.add_argument("program")
    words.add_argument("--count", type=int, default=300, help="so many cases")
    words.add_argument("--start", type=int, default=0, help="the number of the first one")
    given = words.parse_args()
    passed, failed = compare(os.path.abspath(given.program), given.count, given.start)
    print(f"{passed} passed, {failed} failed")
    return 1 if failed else 0


if __name__ == "__main__":
    sys.exit(main())
