#!/usr/bin/env python3
"""Measures the built program near its limits, at two sizes each, one twice the other or four times it.

    limits.py PROGRAM

'PROGRAM check' reads chains of 2,048 and of 4,096 rules, each naming the next; the sizes and an empty specification take
turns, and what the empty one costs is taken off. 'PROGRAM validate --quiet' reads one byte string of 16 MiB and one of 64
MiB; and byte strings of which every bit is set against '.bits', of 1 MiB and of 2 MiB with as many steps as that takes, and
of 8 MiB and of 16 MiB with the steps that it has unless told otherwise, which are too few. The columns: the processor time
for the larger one, its growth from the smaller one, and the peak memory for each byte of the larger.

The status is 1 where an answer is not as expected, where a time grows by more than 1.4 times the size, or where the item of
64 MiB takes over 1.2 times as much memory a byte as that of 16 MiB.
"""
import argparse
import os
import subprocess
import sys
import tempfile

from specifications import written
from streams import head

MIB = 1 << 20
PIECE = 1 << 16
RUNS = 5
MOST_GROWTH, MOST_ROOM = 1.4, 1.2


def chain(rules):
    return "".join(f"a{n} = [a{n + 1}]\n" for n in range(rules - 1)) + f"a{rules - 1} = 1\n"


def spent(words, answer):
    """The processor time of a run, and its most memory in bytes."""
    with tempfile.TemporaryFile("w+") as out:
        running = subprocess.Popen(words, stdout=out, stderr=subprocess.STDOUT, stdin=subprocess.DEVNULL)
        _, status, used = os.wait4(running.pid, 0)
        running.returncode = os.waitstatus_to_exitcode(status)
        out.seek(0)
        told = out.read(200)
    if told != answer:
        raise SystemExit(f"{' '.join(words)}: {told!r} where {answer!r} was expected")
    return used.ru_utime + used.ru_stime, used.ru_maxrss * 1024


def measured(name, ratio, small, large, size, empty=None):
    """Prints a row of two runs, each given by its words and its answer, and returns whether the time grows too much, and
    both peaks."""
    runs = [small, large] + ([empty] if empty else [])
    times, peaks = [float("inf")] * len(runs), [0] * len(runs)
    for _ in range(RUNS):
        for k, run in enumerate(runs):
            taken, room = spent(*run)
            times[k], peaks[k] = min(times[k], taken), max(peaks[k], room)
    less = times[2] if empty else 0
    growth = max(times[1] - less, 1e-6) / max(times[0] - less, 1e-6)
    print(f"{name:56} {times[1]:8.3f} {growth:7.2f} {peaks[1] / size:8.1f}", flush=True)
    return growth > MOST_GROWTH * ratio, peaks


def chains(program, folder):
    check = lambda name, text: ([program, "check", written(folder, name, text)], "accepted\n")
    texts = [chain(rules) for rules in (2048, 4096)]
    small, large = (check(f"chain{k}.cddl", text) for k, text in enumerate(texts))
    return measured("chains of 2,048 and 4,096 rules", 2, small, large, len(texts[1]), check("empty.cddl", "r = int\n"))[0]


def string(folder, name, byte, length):
    """The path of a new file with a byte string. It is written in pieces: what this script holds counts for the programs that it
    starts."""
    path = os.path.join(folder, name)
    with open(path, "wb") as file:
        file.write(head(2, length))
        for at in range(0, length, PIECE):
            file.write(bytes([byte]) * min(PIECE, length - at))
    return path


def long_items(program, folder):
    specification = written(folder, "string.cddl", "r = bstr\n")
    runs = []
    for size in (16 * MIB, 64 * MIB):
        path = string(folder, f"string{size}.cborseq", 0, size - 5)
        words = [program, "validate", "--quiet", "--item-bytes", str(64 * MIB), specification, path]
        runs.append((words, f"clean: 1 items, {size} bytes\n"))
    bad, (small, large) = measured("a byte string of 16 and of 64 MiB", 4, *runs, 64 * MIB)
    return bad or large / 64 > MOST_ROOM * small / 16


def bits(program, folder, name, sizes, steps, answer):
    specification = written(folder, "bits.cddl", f"r = bstr .bits (0..{8 * sizes[1]})\n")
    runs = []
    for size in sizes:
        path = string(folder, f"bits{size}.cborseq", 255, size - 5)
        runs.append(([program, "validate", "--quiet", *steps, specification, path], answer(size)))
    return measured(name, 2, *runs, sizes[1])[0]


def main():
    words = argparse.ArgumentParser(description="Measures the program near its limits.")
    words.add_argument("program")
    program = os.path.abspath(words.parse_args().program)
    print(f"{'near the limits':56} {'seconds':>8} {'growth':>7} {'a byte':>8}")
    with tempfile.TemporaryDirectory() as folder:
        bad = [chains(program, folder), long_items(program, folder)]
        bad.append(bits(program, folder, "1 and 2 MiB of bits that are all set, .bits", (MIB, 2 * MIB), ["--steps", "20000000"],
                        lambda size: f"clean: 1 items, {size} bytes\n"))
        bad.append(bits(program, folder, "8 and 16 MiB of them, too many for the steps", (8 * MIB, 16 * MIB), [],
                        lambda size: "failed: 0 items, offset 0: step limit reached\n"))
    return 1 if any(bad) else 0


if __name__ == "__main__":
    sys.exit(main())
