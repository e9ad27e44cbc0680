#!/usr/bin/env python3
"""Measures the built program beside decoders that only decode, and prints a table.

    decoders.py PROGRAM [--mib N] [--only TEXT]

The program validates each stream against a specification that all of its items match, and writes its report to
/dev/null. The decoders build each item in memory, drop it, and print how many there were: serde_cbor (a Rust crate,
from Debian's librust-serde-cbor-dev, built by cargo), libcbor (a C library, libcbor-dev, built by cc) and cbor2 (for
Python, python3-cbor2). One that is not there, or cannot be built, is shown as 'absent', and nothing fails for it; one
that doesn't get through a stream 'fails'. All take turns on a stream in the same run, five times, and the least
processor time (user and system) of each counts, less that for an empty file, which is its start.

The columns are MiB of the stream a second for each, and 'to serde' is the program's speed over that of serde_cbor: above
1 the program is faster. 'wanted' is what it is to come to.

Then one map of 100,000, 200,000 and 400,000 keys in no order, with the growth at each doubling; and two items of 16 MiB that
are made to be dear, maps that are keys in each other, 254 deep, and arrays 255 deep, with the processor time and the peak
memory for each byte.

The status is 1 where a growth or one of the dear items is out of the bounds stated here. The ratios have no bound: they say
how far the program is.
"""
import argparse
import os
import shutil
import subprocess
import sys
import tempfile

from run import peak
from specifications import signed_message
from streams import MIB, Made, encoded, head, long_strings, map_of_numbers, short_strings, small_numbers

HERE = os.path.dirname(os.path.abspath(__file__))
DECODERS = os.path.join(HERE, "decoders")
EXAMPLES = os.path.join(os.path.dirname(HERE), "examples")
RUNS = 5
MOST_GROWTH = 2.6
MOST_SECONDS = 5
MOST_BYTES = 64
CARGO = ["--release", "--offline", "--quiet", "--config", 'source.crates-io.replace-with="debian"',
         "--config", 'source.debian.directory="/usr/share/cargo/registry"']


def mixed_numbers(size):
    """Integers whose heads have 1, 2, 3, 5 and 9 bytes."""
    return Made(b"".join(encoded(it + number) for number in range(20) for it in (0, 100, 1000, 1 << 20, 1 << 40)), size // 400)


def signed_messages(size):
    return Made(b"".join(map(signed_message, range(256))), size // 101 // 256)


def record(number):
    """A record of SenML (RFC 8428): base name and time, name, unit, time and value."""
    pairs = encoded(-2) + encoded("urn:dev:ow:10e2073a0108006:") + encoded(-3) + encoded(1_276_020_076 + number)
    return head(4, 2) + head(5, 4) + pairs + encoded(0) + encoded("voltage") + encoded(1) + encoded("V") + head(5, 3) + (
        encoded(0) + encoded("current") + encoded(6) + encoded(number) + encoded(2) + encoded(number * 7))


def records(size):
    return Made(b"".join(map(record, range(256))), size // 85 // 256)


def maps_of_keys(size):
    return Made(map_of_numbers(50_000).unit, max(1, size // 300_000))


def nested_arrays(size):
    return Made(b"\x81" * 99 + b"\x80", size // 100)


# Of each stream its name, a specification or a file of examples/ that has one, and what its ratio is to come to.
STREAMS = [
    ("integers of mixed widths", "r = uint\n", mixed_numbers, 0.9),
    ("integers below 24", "r = uint\n", small_numbers, 1.0),
    ("signed messages, any", "r = any\n", signed_messages, 2.0),
    ("signed messages, COSE", "cose_sign1.cddl", signed_messages, 1.0),
    ("records, any", "r = any\n", records, 3.0),
    ("records, SenML", "senml.cddl", records, 1.0),
    ("maps of 50,000 integer keys", "r = { * uint => uint }\n", maps_of_keys, 4.0),
    ("strings of 16 bytes", "r = bstr\n", short_strings, 1.5),
    ("strings of 1 MiB", "r = bstr\n", long_strings, 1.2),
    ("arrays, 100 deep", "r = any\n", nested_arrays, 4.0),
]


def built(folder):
    """The command of each decoder that is there, by its name."""
    there = {}
    rust = os.path.join(folder, "serde_cbor")
    shutil.copytree(os.path.join(DECODERS, "serde_cbor"), rust)
    if succeeds(["cargo", "build", *CARGO], rust):
        there["serde_cbor"] = [os.path.join(rust, "target", "release", "decode")]
    plain = os.path.join(folder, "libcbor")
    if succeeds(["cc", "-O2", os.path.join(DECODERS, "libcbor.c"), "-o", plain, "-lcbor"], folder):
        there["libcbor"] = [plain]
    for python in (sys.executable, "/usr/bin/python3"):
        if "cbor2" not in there and succeeds([python, "-c", "import cbor2"], folder):
            there["cbor2"] = [python, os.path.join(DECODERS, "cbor2_items.py")]
    return there


def succeeds(command, folder):
    try:
        return subprocess.run(command, cwd=folder, stdout=subprocess.DEVNULL, stderr=subprocess.DEVNULL).returncode == 0
    except OSError:
        return False


def seconds(command):
    """The processor time of a run whose output goes nowhere."""
    running = subprocess.Popen(command, stdin=subprocess.DEVNULL, stdout=subprocess.DEVNULL)
    _, status, used = os.wait4(running.pid, 0)
    running.returncode = os.waitstatus_to_exitcode(status)
    if running.returncode:
        raise SystemExit(f"{' '.join(command)} ended with status {running.returncode}")
    return used.ru_utime + used.ru_stime


def times_of(commands, path):
    """For each command the least of several times on the file, in turns, or none where it fails on it."""
    there = {name: command for name, command in commands.items() if succeeds([*command, path], HERE)}
    found = dict.fromkeys(there, float("inf"))
    for _ in range(RUNS):
        for name, command in there.items():
            found[name] = min(found[name], seconds([*command, path]))
    return found


def validating(program, folder, text):
    if text.endswith(".cddl"):
        return [program, "validate", os.path.join(EXAMPLES, text)]
    specification = os.path.join(folder, "specification.cddl")
    with open(specification, "w", encoding="ascii") as file:
        file.write(text)
    return [program, "validate", specification]


def write(path, made):
    with open(path, "wb") as file:
        for _ in range(made.times):
            file.write(made.unit)


def compare(program, folder, decoders, mib, only):
    names = ("serde_cbor", "libcbor", "cbor2")
    empty, path = os.path.join(folder, "empty"), os.path.join(folder, "stream")
    write(empty, Made(b""))
    print(f"{'stream':30}{'cddlseq':>10}" + "".join(f"{it:>12}" for it in names) + f"{'to serde':>10}{'wanted':>8}")
    for name, text, make, wanted in STREAMS:
        if only not in name:
            continue
        commands = {"cddlseq": validating(program, folder, text), **decoders}
        write(path, make(mib * MIB))
        starts, times = times_of(commands, empty), times_of(commands, path)
        if "cddlseq" not in times:
            raise SystemExit(f"the program does not get through: {name}")
        size = os.path.getsize(path) / MIB
        speeds = {it: size / max(times[it] - starts[it], 1e-6) for it in times}
        cells = [f"{speeds[it]:.0f}" if it in speeds else "fails" if it in decoders else "absent" for it in names]
        ratio = f"{speeds['cddlseq'] / speeds['serde_cbor']:.2f}" if "serde_cbor" in speeds else "-"
        print(f"{name:30}{speeds['cddlseq']:10.0f}" + "".join(f"{it:>12}" for it in cells) + f"{ratio:>10}{wanted:8.1f}",
              flush=True)


def growing_map(program, folder):
    command, path, before, bad = validating(program, folder, "r = any\n"), os.path.join(folder, "stream"), None, False
    print(f"\n{'one map of so many keys':30}{'seconds':>10}{'growth':>12}")
    for count in (100_000, 200_000, 400_000):
        write(path, map_of_numbers(count))
        taken = times_of({"cddlseq": command}, path)["cddlseq"]
        growth = taken / before if before else None
        print(f"{count:<30}{taken:10.2f}" + (f"{growth:12.2f}" if growth else ""), flush=True)
        bad, before = bad or (growth or 0) > MOST_GROWTH, taken
    return bad


def dear_items(program, folder):
    command, path, bad = validating(program, folder, "r = any\n"), os.path.join(folder, "stream"), False
    print(f"\n{'one item of 16 MiB':30}{'seconds':>10}{'a byte':>12}")
    count = (16 * MIB - 8) // 508
    keys = head(4, count) + (b"\xa1" * 253 + b"\xa0" + b"\x00" * 253) * count
    deep = (16 * MIB - 8) // 255
    for name, item in (
        ("maps as keys, 254 deep", keys),
        ("arrays, 255 deep", head(4, deep) + (b"\x81" * 254 + b"\x80") * deep),
    ):
        write(path, Made(item))
        taken = times_of({"cddlseq": command}, path)["cddlseq"]
        room = peak(path, command) / len(item)
        print(f"{name:30}{taken:10.2f}{room:12.0f}", flush=True)
        bad = bad or taken > MOST_SECONDS or room > MOST_BYTES
    return bad


def main():
    words = argparse.ArgumentParser(description="Measures the built program beside decoders that only decode.")
    words.add_argument("program")
    words.add_argument("--mib", type=int, default=8, help="the size of the streams in MiB")
    words.add_argument("--only", default="", metavar="TEXT", help="only the streams whose name has this text")
    given = words.parse_args()
    program = os.path.abspath(given.program)
    with tempfile.TemporaryDirectory() as folder:
        compare(program, folder, built(folder), given.mib, given.only)
        bad = [] if given.only else [it(program, folder) for it in (growing_map, dear_items)]
    return 1 if any(bad) else 0


if __name__ == "__main__":
    sys.exit(main())
