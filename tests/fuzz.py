#!/usr/bin/env python3
"""Gives the library and the program texts and streams that libFuzzer makes, and compares what they answer (tests/fuzz.c).

    fuzz.py PROGRAM FOLDER [--minutes N] [--kept FOLDER]

FOLDER has the libraries that scripts/library.py makes. It needs clang with libFuzzer, and is no part of the gate. The inputs begin with
those of rows.json, and what is found further is kept in the folder --kept, if one is named. It runs on one core, nicely. The last line
says how many inputs were tried, and the status is 0 only where all answers were the same.
"""
import argparse
import json
import os
import re
import subprocess
import sys
import tempfile

from run_rows import TOP, spec_of, stream_of

LONGEST = 2048
WORDS = (
    "uint nint int tstr bstr text bytes any bool null nil float16 float32 float64 undefined .size .cbor .cborseq .within .and .lt .le .gt "
    ".ge .eq .ne .default .cat .det .plus .bits .b32 = => /= //= // / * + ? ~ & ^ .. ... #6 #7 #6.1( h' b64' [ ] { } ( ) < > : ; , $ $$").split()


def write_seeds(folder):
    """The texts and streams of the rows, those that are short."""
    with open(os.path.join(TOP, "tests", "rows.json"), encoding="utf-8") as file:
        rows = json.load(file)
    for number, row in enumerate(rows):
        spec, stream = spec_of(row), stream_of(row) or b""
        if spec is not None and b"\0" not in spec and len(spec) + len(stream) < LONGEST:
            with open(os.path.join(folder, f"row{number}"), "wb") as file:
                file.write(spec + b"\0" + stream)


def write_words(path):
    """The words of CDDL that libFuzzer puts in."""
    with open(path, "w", encoding="utf-8") as file:
        for word in WORDS:
            file.write("\"%s\"\n" % word.replace("\\", "\\\\").replace('"', '\\"'))


def main():
    words = argparse.ArgumentParser(description="Compares the library with the program on what libFuzzer makes.")
    words.add_argument("program")
    words.add_argument("folder")
    words.add_argument("--minutes", type=float, default=60)
    words.add_argument("--kept", help="a folder for inputs that lead further")
    words = words.parse_args()
    with tempfile.TemporaryDirectory(dir="/dev/shm" if os.path.isdir("/dev/shm") else None) as work:
        kept = words.kept or os.path.join(work, "kept")
        seeds, fuzzer, dictionary = (os.path.join(work, it) for it in ("seeds", "fuzz", "words"))
        for it in (kept, seeds):
            os.makedirs(it, exist_ok=True)
        write_seeds(seeds)
        write_words(dictionary)
        made = ["clang", "-g", "-O1", "-Wall", "-Wextra", "-fsanitize=fuzzer,address,undefined", f"-I{TOP}/include", "-o", fuzzer]
        subprocess.run([*made, f"{TOP}/tests/fuzz.c", os.path.join(words.folder, "libcddlseq.a")], check=True)
        env = {**os.environ, "CDDLSEQ_PROGRAM": os.path.abspath(words.program), "CDDLSEQ_WORK": work}
        options = [f"-max_total_time={words.minutes * 60:.0f}", f"-max_len={LONGEST}", f"-dict={dictionary}", "-timeout=60",
                   "-print_final_stats=1", f"-artifact_prefix={kept}/", "-rss_limit_mb=0"]
        ran = subprocess.run(["nice", "-n", "19", fuzzer, *options, kept, seeds], env=env, stderr=subprocess.PIPE, text=True, errors="replace")
    tried = re.search(r"number_of_executed_units: (\d+)", ran.stderr)
    if ran.returncode or not tried:
        print(ran.stderr[-4000:])
    print(f"{tried[1] if tried else 0} inputs were tried: {'all answers are the same' if not ran.returncode and tried else 'FAILED'}")
    return ran.returncode or not tried


if __name__ == "__main__":
    sys.exit(main())
