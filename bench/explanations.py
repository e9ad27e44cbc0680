#!/usr/bin/env python3
"""Measures what '--explain' costs the built program.

    explanations.py PROGRAM

Where there is nothing to explain, a command with '--explain' and the same one without it take turns, and the ratio of the
least processor times is printed: what explanations are made from is made only when one is asked for. So is the difference of
the peak memory of 'validate' while it waits after the last byte of a stream. Then come mismatches and faults in
specifications of two sizes, one twice the other. The columns: the processor time with '--explain' for the larger one, how many
times as long that is as without, and the growth from the smaller one, which is 2 where the cost grows with the size alone.

The status is 1 where a command does not end as expected, where a ratio with nothing to explain is over 1.2 or the peaks are
more than 256 KiB apart, or where a growth is over 3.4: what a long specification takes is more than the processor's caches hold.
"""
import argparse
import os
import subprocess
import sys
import tempfile

from run import peak
from specifications import COSE, KIB, MESSAGES, RUNS, filled, longer, signed_message, written
from streams import encoded, head

SIZES = 48 * KIB, 96 * KIB
TIMES = 5
MOST_RATIO, MOST_APART, MOST_GROWTH = 1.2, 256 * KIB, 3.4
ONE_TEXT = head(4, 1) + encoded("x")

# What the specification is filled from (see filled), an item, and the status.
TO_EXPLAIN = [
    ("a mismatch behind many rules", "r = [a0]\n", "aN = aM ; a rule that is nothing but the name of the next one\n", "aN = int\n", ONE_TEXT, 1),
    ("a mismatch of a wide choice", "r = [int", " / N", "]\n", ONE_TEXT, 1),
    ("a mismatch in a wide map", "r = {a: int", ', ? "the key with the number N" => N', "}\n", encoded({"a": "x"}), 1),
    ("a mismatch in a group with arguments", "r = [g<int>]\ng<t> = (t, tstr", ", t", ")\n", ONE_TEXT, 1),
    ("many undefined names", "r = [int", ", uN", "]\n", b"", 2),
]


def spent(words, status):
    """The processor time of a run that has to end so."""
    running = subprocess.Popen(words, stdout=subprocess.DEVNULL, stderr=subprocess.DEVNULL, stdin=subprocess.DEVNULL)
    _, ended, used = os.wait4(running.pid, 0)
    running.returncode = os.waitstatus_to_exitcode(ended)
    if running.returncode != status:
        raise SystemExit(f"{' '.join(words)} ended with status {running.returncode}")
    return used.ru_utime + used.ru_stime


def least_times(program, words, status, runs):
    """The least time of so many runs without the option, and with it, in turns."""
    command, specification, *stream = words
    found = [float("inf")] * 2
    for run in range(runs):
        for k, option in enumerate(([], ["--explain"])):
            it = [program, command, *option, specification, *(longer(path, 5 * run) for path in stream)]
            found[k] = min(found[k], spent(it, status))
    return found


def nothing_to_explain(program, folder):
    stream = written(folder, "signed.cborseq", b"".join(map(signed_message, range(MESSAGES))) * TIMES)
    rules = written(folder, "rules.cddl", filled("r = int\n", "aN = [aN, ? tstr]\n", "", 2 * SIZES[1]))
    bad = False
    print(f"{'nothing to explain':44} {'to without':>10}")
    for name, words in (
        ("check of many rules", ["check", rules]),
        (f"validate of {TIMES * MESSAGES} signed messages", ["validate", COSE, stream]),
        (f"rewrite of {TIMES * MESSAGES} signed messages", ["rewrite", COSE, stream]),
    ):
        without, explained = least_times(program, words, 0, 4 * RUNS)
        print(f"{name:44} {explained / without:10.2f}", flush=True)
        bad = bad or explained / without > MOST_RATIO
    apart = peak(stream, [program, "validate", "--explain", COSE]) - peak(stream, [program, "validate", COSE])
    print(f"the peaks of 'validate' are {apart // KIB} KiB apart")
    return bad or abs(apart) > MOST_APART


def something_to_explain(program, folder):
    bad = False
    print(f"\n{'something to explain':44} {'ms':>10} {'to without':>10} {'growth':>7}")
    for name, front, unit, back, item, status in TO_EXPLAIN:
        stream = written(folder, "stream.cborseq", item)
        paths = [written(folder, f"s{k}.cddl", filled(front, unit, back, size)) for k, size in enumerate(SIZES)]
        (_, small), (without, large) = (least_times(program, ["validate", path, stream], status, 4 * RUNS) for path in paths)
        print(f"{name:44} {1000 * large:10.0f} {large / without:10.2f} {large / small:7.2f}", flush=True)
        bad = bad or large / small > MOST_GROWTH
    return bad


def main():
    words = argparse.ArgumentParser(description="Measures what --explain costs.")
    words.add_argument("program")
    program = os.path.abspath(words.parse_args().program)
    with tempfile.TemporaryDirectory() as folder:
        bad = [it(program, folder) for it in (nothing_to_explain, something_to_explain)]
    return 1 if any(bad) else 0


if __name__ == "__main__":
    sys.exit(main())
