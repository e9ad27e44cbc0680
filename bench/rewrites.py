#!/usr/bin/env python3
"""Measures 'rewrite --deterministic' beside 'rewrite', and prints a table.

    rewrites.py PROGRAM [--pairs N]

Each stream comes in two sizes, one twice as long as the other. Both commands read it from a file and write to /dev/null;
they and the sizes take turns, and the best processor time of each counts. The columns:

  MiB/s     of the stream, for 'rewrite' and for 'rewrite --deterministic'
  ratio     the processor time of the second over that of the first
  growth    the time of 'rewrite --deterministic' for the second size over that for the first; 2 where the cost grows with
            the size alone

N is the number of pairs of the smaller maps, 50,000 if left out. The streams are made in bench/data. The status is 1 where
a ratio is above 1.3 on maps whose keys rise, or above 2.5 on maps whose pairs come in no order; where a growth is above
2.2; or where an item of 4 MB in 250 maps, each the first of two keys of the next, or each a value of the next, takes more
than 5 s. Where one of these is out of bounds the streams are read again, and the least of all times counts, since a processor
may be slow for seconds.
"""
import argparse
import os
import random
import resource
import subprocess
import sys

from streams import DATA, MIB, encoded, head

RUNS = 5
MOST_ROUNDS = 5
MOST_RISING, MOST_SHUFFLED, MOST_GROWTH, MOST_SECONDS = 1.3, 2.5, 2.2, 5
DEPTH, LONG = 250, 4_000_000


def map_of(keys, is_rising):
    """A map whose keys have these bytes, in their order or in none."""
    keys = sorted(keys)
    if not is_rising:
        random.Random(len(keys)).shuffle(keys)
    return head(5, len(keys)) + b"".join(key + head(0, i % 24) for i, key in enumerate(keys))


def numbers(count, is_rising):
    return map_of([encoded(number) for number in range(1 << 20, (1 << 20) + count)], is_rising)


def texts(count, is_rising):
    return map_of([encoded(f"sensor {number}") for number in range(1 << 20, (1 << 20) + count)], is_rising)


def messages(count, is_rising):
    """Maps of ten pairs."""
    keys = [encoded(key) for key in (1, 2, 3, 4, 5, 6, 7, 24, "sensor", "time")]
    return map_of(keys, is_rising) * (count // 10)


def deep_keys():
    item = encoded(bytes(LONG))
    for _ in range(DEPTH):
        item = b"\xa2" + item + b"\x00\xa0\x00"
    return item


def deep_values():
    item = encoded(bytes(LONG))
    for _ in range(DEPTH):
        item = b"\xa2\x01" + item + b"\x00\x00"
    return item


STREAMS = [("numbers as keys", numbers), ("texts as keys", texts), ("maps of ten pairs", messages)]


def path_of(name, stream):
    path = os.path.join(DATA, f"rewrite-{name}.cborseq")
    with open(path, "wb") as file:
        file.write(stream)
    return path


def seconds(command, path):
    """The processor time that the command takes for the file."""
    before = resource.getrusage(resource.RUSAGE_CHILDREN)
    with open(path, "rb") as file:
        subprocess.run(command, stdin=file, stdout=subprocess.DEVNULL, stderr=subprocess.DEVNULL, check=True)
    after = resource.getrusage(resource.RUSAGE_CHILDREN)
    return after.ru_utime + after.ru_stime - before.ru_utime - before.ru_stime


def main():
    words = argparse.ArgumentParser(description="Measures 'rewrite --deterministic'.")
    words.add_argument("program")
    words.add_argument("--pairs", type=int, default=50_000, metavar="N", help="pairs of the smaller maps")
    given = words.parse_args()
    os.makedirs(DATA, exist_ok=True)
    spec = os.path.join(DATA, "any.cddl")
    with open(spec, "w", encoding="ascii") as file:
        file.write("item = any\n")
    plain = [os.path.abspath(given.program), "rewrite", spec]
    ordered = [os.path.abspath(given.program), "rewrite", "--deterministic", spec]
    bad = []
    print(f"{'stream':32}{'MiB':>7}{'rewrite MiB/s':>15}{'determ. MiB/s':>15}{'ratio':>8}{'growth':>8}")
    for name, make in STREAMS:
        for is_rising in (True, False):
            title = f"{name}, {'rising' if is_rising else 'in no order'}"
            paths = [path_of(f"{make.__name__}-{is_rising}-{turn}", make(given.pairs * turn, is_rising)) for turn in (1, 2)]
            runs, most = [], MOST_RISING if is_rising else MOST_SHUFFLED
            for _ in range(MOST_ROUNDS):
                runs += [[(seconds(plain, path), seconds(ordered, path)) for path in paths] for _ in range(RUNS)]
                best = [tuple(min(run[size][it] for run in runs) for it in (0, 1)) for size in (0, 1)]
                growth = best[1][1] / best[0][1]
                if growth <= MOST_GROWTH and best[1][1] <= most * best[1][0]:
                    break
            for size, (one, other) in enumerate(best):
                mib = os.path.getsize(paths[size]) / MIB
                print(f"{title if size == 0 else '':32}{mib:7.1f}{mib / one:15.1f}{mib / other:15.1f}{other / one:8.2f}"
                      + (f"{growth:8.2f}" if size else ""), flush=True)
            if best[1][1] / best[1][0] > most:
                bad.append(f"the ratio for {title}")
            if growth > MOST_GROWTH:
                bad.append(f"the growth for {title}")
    for title, make in (("4 MB in 250 keys", deep_keys), ("4 MB in 250 values", deep_values)):
        taken = seconds(ordered, path_of(make.__name__, make()))
        print(f"{title:32}{taken:.2f} s", flush=True)
        if taken > MOST_SECONDS:
            bad.append(f"the time for {title}")
    print(f"out of bounds: {', '.join(bad)}" if bad else "all within bounds")
    return 1 if bad else 0


if __name__ == "__main__":
    sys.exit(main())
