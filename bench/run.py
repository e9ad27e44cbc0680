#!/usr/bin/env python3
"""Measures the built program on streams of two sizes, and prints a table.

    run.py PROGRAM [--mib N] [--only TEXT]

Each stream goes through a pipe into 'PROGRAM validate SPEC', whose report goes to /dev/null, into 'cat', and where its
items have many parts into two stock readers. All of these and the two sizes take turns, three times at least and up to
fifteen times where the runs are short; the best time of each counts. The columns:

  MiB/s     of the stream, for the program and for cat
  ratio     the program's time over cat's
  to cbor2  the program's time over that of Python's cbor2 (Debian's python3-cbor2), which decodes the same stream
  to json   the program's time over that of Python's json, which decodes the same data as lines of JSON
  growth    the program's processor time for the second size over that for the first, which other work on the machine
            disturbs less: 2 where the cost grows with the size alone
  peak      the most memory that lay in RAM for the program (VmHWM), in a run of its own that is looked at while the
            program waits after the last byte
  per byte  the peak over the bytes of an item, where an item has 64 KiB at least

The stock readers only decode, each item into Python's objects, and print nothing. What they take for an empty stream,
which is Python's start, is taken off their times. 'short': less than a tenth of that start is left; 'absent': there is
no such reader; 'fails': it doesn't get through; '-': it isn't asked, as where JSON has no such data.

What writes into the pipe is 'cat FILE', and for pieces of one byte 'dd bs=1', at a sixteenth of the sizes: a writer
that hands on one byte at a time is what takes the time there, for cat as for the program. The report has a line for
each item, so small numbers make some 25 bytes of output from each byte of input.

--mib is the first size of the streams of strings and of single numbers, 16 if left out; the second is twice that. The
other streams' sizes change with it; since an item may have 16 MiB, N is at most 128. --only takes the streams whose
name has TEXT. The streams are made in bench/data. The status is 1 where a growth is below 1.5 or above 2.6. It is 1, too,
where a stream takes more than 3 times the processor time of the one beside it: a map of many keys more than an array of
its keys and values, which is where its keys are written for a set of them; and an array that is the innermost of many
keys more than the array alone, which would be a hundred times if each key's bytes were written for each map that it is a
key of.
"""
import argparse
import os
import subprocess
import sys
import time

from streams import DATA, MIB, STREAMS

RUNS, MOST_RUNS, SECONDS = 3, 15, 5
LEAST = 1.5
MOST_BESIDE = 3
LONG_ITEM = 1 << 16
SHORT = 0.1

# for each stock reader what it reads, and how: a script for this Python, or else for that of the system's packages
READERS = {
    "cbor2": ("cbor", """
import cbor2, sys
decoder = cbor2.CBORDecoder(sys.stdin.buffer)
try:
    while True:
        decoder.decode()
except EOFError:
    pass
"""),
    "json": ("json", """
import json, sys
for line in sys.stdin.buffer:
    json.loads(line)
"""),
}


def seconds(writer, path, reader):
    """How long the reader takes for the file, from its start to its end, and its processor time."""
    with open(path, "rb") as file:
        start = time.perf_counter()
        writing = subprocess.Popen(writer, stdin=file, stdout=subprocess.PIPE)
        reading = subprocess.Popen(reader, stdin=writing.stdout, stdout=subprocess.DEVNULL)
        writing.stdout.close()
        _, status, used = os.wait4(reading.pid, 0)
        taken = time.perf_counter() - start
        reading.returncode = os.waitstatus_to_exitcode(status)
        writing.wait()
    if status:
        raise SystemExit(f"{' '.join(reader)} ended with status {reading.returncode} on {path}")
    return taken, used.ru_utime + used.ru_stime


def is_waiting(process):
    """Whether the process sleeps, as it does while it waits for input."""
    with open(f"/proc/{process.pid}/stat", encoding="ascii", errors="replace") as file:
        return file.read().rpartition(") ")[2].startswith("S")


def peak(path, reader):
    """The most bytes of RAM that the reader had up to the stream's end."""
    reading = subprocess.Popen(reader, stdin=subprocess.PIPE, stdout=subprocess.DEVNULL)
    with open(path, "rb") as file:
        while piece := file.read(1 << 16):
            reading.stdin.write(piece)
    reading.stdin.flush()
    calm = 0
    while calm < 20:
        time.sleep(0.005)
        calm = calm + 1 if is_waiting(reading) else 0
    with open(f"/proc/{reading.pid}/status", encoding="ascii") as file:
        line = next(it for it in file if it.startswith("VmHWM:"))
    reading.stdin.close()
    if reading.wait():
        raise SystemExit(f"{' '.join(reader)} failed on {path}")
    return int(line.split()[1]) * 1024


def least(pairs):
    return tuple(map(min, zip(*pairs)))


def best_times(sizes):
    """For each size and each of its jobs, which is a writer, a path and a reader, the best time and processor time."""
    runs, start = [], time.monotonic()
    while len(runs) < RUNS or (len(runs) < MOST_RUNS and time.monotonic() - start < SECONDS):
        runs.append([{name: seconds(*job) for name, job in jobs.items()} for jobs in sizes])
    return [{name: least(it[name] for it in of_size) for name in of_size[0]} for of_size in zip(*runs)]


def gets_through(path, reader):
    with open(path, "rb") as file:
        reading = subprocess.run(reader, stdin=file, stdout=subprocess.DEVNULL, stderr=subprocess.DEVNULL)
    return reading.returncode == 0


def readers_there():
    """For each stock reader that is there its command, and its time for an empty stream."""
    there = {}
    for name, (_, script) in READERS.items():
        for python in (sys.executable, "/usr/bin/python3"):
            command = [python, "-c", script]
            if name not in there and os.path.exists(python) and gets_through(os.devnull, command):
                there[name] = command, min(seconds(["cat"], os.devnull, command)[0] for _ in range(MOST_RUNS))
    return there


def jobs_of(stream, files, program, there):
    """What takes turns on a stream of one size, by name: the program, cat, and the stock readers that get through."""
    jobs = {name: (stream.writer, files["cbor"], reader) for name, reader in (("program", program), ("cat", ["cat"]))}
    for name in stream.readers:
        path = files[READERS[name][0]]
        if name in there and gets_through(path, there[name][0]):
            jobs[name] = stream.writer, path, there[name][0]
    return jobs


def ratio_to(name, stream, times, there):
    """What the table shows for a stock reader."""
    if name not in stream.readers:
        return "-"
    if name not in there:
        return "absent"
    if name not in times:
        return "fails"
    start = there[name][1]
    decoding = times[name][0] - start
    return "short" if decoding < SHORT * start else f"{times['program'][0] / decoding:.2f}"


def measured(program, stream, part, there):
    """Prints a line for each size, and returns the growth and the processor time of the larger."""
    spec = os.path.join(DATA, f"{stream.kind}.cddl")
    with open(spec, "w", encoding="ascii") as file:
        file.write(f"item = {stream.kind}\n")
    reader = [program, "validate", spec]
    written = [stream.written(int(stream.first * part) * turn) for turn in (1, 2)]
    times = best_times([jobs_of(stream, files, reader, there) for files, _ in written])
    growth = times[1]["program"][1] / times[0]["program"][1]
    for (files, item), of_size, shown in zip(written, times, ("", f"{growth:.2f}")):
        mib, most = os.path.getsize(files["cbor"]) / MIB, peak(files["cbor"], reader)
        taken, of_cat = of_size["program"][0], of_size["cat"][0]
        ratios = [ratio_to(name, stream, of_size, there) for name in READERS]
        per_byte = f"{most / item:.1f}" if item >= LONG_ITEM else "-"
        print(f"{stream.name:32}{mib:7.1f}{mib / taken:9.1f}{mib / of_cat:11.1f}{taken / of_cat:8.1f}"
              + "".join(f"{cell:>10}" for cell in (*ratios, shown, f"{most / MIB:.1f}", per_byte)), flush=True)
    return growth, times[1]["program"][1]


def main():
    words = argparse.ArgumentParser(description="Measures the built program.")
    words.add_argument("program")
    words.add_argument("--mib", type=int, default=16, help="the first size in MiB")
    words.add_argument("--only", default="", metavar="TEXT", help="only the streams whose name has this text")
    given = words.parse_args()
    streams = [it for it in STREAMS if given.only in it.name]
    if not streams:
        words.error(f"no stream's name has {given.only!r}")
    os.makedirs(DATA, exist_ok=True)
    there = readers_there()
    print(f"{'stream':32}{'MiB':>7}{'MiB/s':>9}{'cat MiB/s':>11}{'ratio':>8}"
          + "".join(f"{f'to {name}':>10}" for name in READERS) + f"{'growth':>10}{'peak MiB':>10}{'per byte':>10}")
    found = {it.name: measured(os.path.abspath(given.program), it, given.mib / 16, there) for it in streams}
    uneven = [it.name for it in streams if not LEAST <= found[it.name][0] <= it.most]
    slow = [it.name for it in streams if it.beside in found and found[it.name][1] > MOST_BESIDE * found[it.beside][1]]
    print(f"the growth is out of bounds: {', '.join(uneven)}" if uneven else "each growth is within its bounds")
    if slow:
        print(f"more than {MOST_BESIDE} times the time of the stream beside it: {', '.join(slow)}")
    return 1 if uneven or slow else 0


if __name__ == "__main__":
    sys.exit(main())
