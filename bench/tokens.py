#!/usr/bin/env python3
"""Measures the scanner and the parser of CDDL on sources of two sizes, one twice the other, and prints a table.

    tokens.py PROGRAM     PROGRAM counts the tokens and the rules of what is behind the first byte of its standard input

The two sizes and an empty source take turns, many times, and the least time of each counts, since other work on the machine
only adds to a time; what the empty source costs is taken off. Where the growth is out of bounds they are run again, and the
least of all counts, since a processor may be slow for seconds. The columns: the speed on the larger source, in MiB/s of processor time, and the
growth of the processor time from the smaller source to the larger, which is 2 where the cost grows with the size alone.
The status is 1 where a growth is outside 1.4 to 2.8.
"""
import argparse
import contextlib
import os
import resource
import subprocess
import sys
import tempfile

KIB = 1 << 10
# What is before a text that the program only counts.
COUNTED = b"\xff"
# What only the scanner takes time for, and what the parser does too: the sizes, and how many runs.
SCANNED = (512 * KIB, 1024 * KIB), 40
PARSED = (256 * KIB, 512 * KIB), 8
LEAST, MOST = 1.4, 2.8
# How often a growth is measured.
MOST_ROUNDS = 5


def padded(front, unit, back, size):
    count = (size - len(front) - len(back)) // len(unit)
    return front + unit * count + back


TEXTS = [
    ("one comment", b";", b"x", b""),
    ("one text", b'"', b"x", b'"'),
    ("a text of backslashes", b'"', b"\\\\", b'"'),
    ("a text that is not closed", b'"', b"x", b""),
    ("a name of dots and dashes", b"a", b".-", b"a"),
    ("dots and dashes with no end", b"a", b"-.", b""),
    ("a byte string in hex", b"h'", b"0f", b"'"),
    ("a byte string in base64", b"b64'", b"AQID", b"'"),
    ("a number of many digits", b"", b"9", b""),
    ("short names", b"", b"ab ", b""),
    ("signs", b"", b"=>", b""),
    ("blank lines", b"", b"\r\n", b""),
]

SPECIFICATIONS = [
    ("a refusal at the last token", b"a=[", b"b,", b""),
    ("short rules", b"", b"a=b ", b""),
    ("rules with parameters", b"", b"a<b,c>=d<b,c> ", b""),
    ("a wide choice", b"a=b", b"/b", b""),
    ("a wide choice of groups", b"a=[b", b"//b", b"]"),
    ("a wide array", b"a=[", b"b,", b"]"),
    ("a wide array without commas", b"a=[", b"b ", b"]"),
    ("a wide map", b"a={", b"b:c,", b"}"),
    ("a wide list of arguments", b"a=b<c", b",c", b">"),
    ("deep arrays", b"a=b", b"/" + b"[" * 128 + b"]" * 128, b""),
    ("deep parentheses", b"a=b", b"/" + b"(" * 128 + b"c" + b")" * 128, b""),
    ("deep groups", b"a=[b", b"," + b"(" * 127 + b"c,d" + b")" * 127, b"]"),
    ("deep arguments", b"a=b", b"/" + b"c<" * 128 + b"c" + b">" * 128, b""),
    ("deep keys", b"a=b", b"/" + b"[" * 128 + b"c" + b"=>d]" * 128, b""),
    ("deep tags", b"a=b", b"/" + b"#6.1(" * 128 + b"c" + b")" * 128, b""),
]


def seconds(program, sources, runs):
    """The least processor time of so many runs on each of these sources, by turns."""
    spent = [float("inf")] * len(sources)
    with contextlib.ExitStack() as stack:
        files = [stack.enter_context(tempfile.TemporaryFile()) for _ in sources]
        for file, source in zip(files, sources):
            file.write(COUNTED + source)
        for _ in range(runs):
            for i, file in enumerate(files):
                file.seek(0)
                before = resource.getrusage(resource.RUSAGE_CHILDREN)
                subprocess.run([program], stdin=file, stdout=subprocess.DEVNULL, check=True)
                after = resource.getrusage(resource.RUSAGE_CHILDREN)
                taken = (after.ru_utime - before.ru_utime) + (after.ru_stime - before.ru_stime)
                spent[i] = min(spent[i], taken)
    return spent


def main():
    words = argparse.ArgumentParser(description="Measures the scanner and the parser of CDDL.")
    words.add_argument("program")
    program = os.path.abspath(words.parse_args().program)
    bad = False
    print(f"{'source':30} {'MiB/s':>8} {'growth':>7}")
    for texts, (sizes, runs) in ((TEXTS, SCANNED), (SPECIFICATIONS, PARSED)):
        for name, front, unit, back in texts:
            sources = [b"", *(padded(front, unit, back, size) for size in sizes)]
            least = [float("inf")] * len(sources)
            for _ in range(MOST_ROUNDS):
                least = list(map(min, least, seconds(program, sources, runs)))
                small, large = (max(time - least[0], 1e-6) for time in least[1:])
                if LEAST <= (growth := large / small) <= MOST:
                    break
            bad = bad or not LEAST <= growth <= MOST
            print(f"{name:30} {sizes[1] / (1 << 20) / large:8.1f} {growth:7.2f}", flush=True)
    return 1 if bad else 0


if __name__ == "__main__":
    sys.exit(main())
