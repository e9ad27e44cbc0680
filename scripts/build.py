#!/usr/bin/env python3
"""Proves a program and every crate below it, and leaves it where it is wanted.

    build.py [--rt COMMAND] NAME TO

'rt ci' does it, in a copy that holds these crates alone and neither their wrong bodies nor the tests: it has as many checks
side by side as this machine has cores and memory for, those with the longest chain of crates above them first. The library of
each crate is kept in build/proved as soon as it is proved (scripts/kit_rt.py), so a run that was broken off goes on from there,
and so does one after a change of some crates. A kit that keeps what it proves on the machine does so in place of this.

There is a line for each crate that is done, with the time so far. The status is 0 only where all are proved.
"""
import argparse
import fcntl
import os
import re
import shlex
import shutil
import signal
import subprocess
import sys
import tempfile
import time
from contextlib import contextmanager, suppress

TOP = os.path.dirname(os.path.dirname(os.path.abspath(__file__)))
# What 'rt ci' has proved here from nothing, crate by crate.
KEPT = os.path.join(TOP, "build", "proved")
# The kit's command rt, with what is kept.
KIT_RT = [sys.executable, "-B", os.path.join(os.path.dirname(os.path.abspath(__file__)), "kit_rt.py")]
# What in the folder of a crate its proofs do not read.
LEFT_OUT = {"out", "must-fail", "wrong", "README.md"}
ROW = re.compile(r"(\w+)[^:#]*:(.*)")
# What 'rt ci' says of a crate that it took, and of one that is done.
TAKEN = "kept: "
DONE = re.compile(r"rt: (\w+) (proved|is kept: .*)")


def rows_of_crates():
    """The lines of crates.txt by the names of their crates, and the crates that each names."""
    with open(os.path.join(TOP, "crates.txt"), encoding="utf-8") as file:
        rows = {found[1]: (line, found[2].split()) for line, found in ((it, ROW.match(it)) for it in file) if found}
    return {name: (line, [it for it in below if it in rows]) for name, (line, below) in rows.items()}


def with_those_below(names, rows):
    """These crates and all that they stand on."""
    found, left = set(), set(names)
    while left:
        found |= left
        left = {below for it in left for below in rows[it][1]} - found
    return sorted(found)


def copy_crate(name, folder):
    """Copies what the proofs of a crate read."""
    crate = os.path.join(TOP, "crates", name)
    shutil.copytree(crate, os.path.join(folder, "crates", name), ignore=lambda it, _: LEFT_OUT if it == crate else ())


@contextmanager
def copy_of(names):
    """A folder with a copy of these crates and of those below them, with nothing that was made of them, and their names."""
    rows = rows_of_crates()
    names = with_those_below(names, rows)
    # (checks that a signal has just ended may still write into it)
    with tempfile.TemporaryDirectory(prefix="cddlseq-", ignore_cleanup_errors=True) as folder:
        shutil.copy(os.path.join(TOP, "HANDLES"), folder)
        with open(os.path.join(folder, "crates.txt"), "w", encoding="utf-8") as file:
            file.writelines(rows[it][0] for it in names)
        for name in names:
            copy_crate(name, folder)
        yield folder, names


def folder_of_kit(rt):
    """The toolchain's folder: 'rt doc' names a page in it."""
    page = subprocess.run([*shlex.split(rt), "doc"], stdout=subprocess.PIPE, text=True, check=True).stdout.strip()
    return os.path.dirname(page)


@contextmanager
def run_of_ci(rt, folder, kept, **how):
    """'rt ci' at work in the folder, over what earlier runs kept; one at a time, since each takes the memory that is free. It
    ends with this process, however that ends, since it does so with its input."""
    os.makedirs(kept, exist_ok=True)
    with open(f"{kept}.lock", "w", encoding="ascii") as lock:
        try:
            fcntl.flock(lock, fcntl.LOCK_EX | fcntl.LOCK_NB)
        except BlockingIOError:
            print("waiting for another run in this checkout to end", flush=True)
            fcntl.flock(lock, fcntl.LOCK_EX)
        command = [*KIT_RT, folder_of_kit(rt), "--kept", kept, "ci"]
        how = {"stdin": subprocess.PIPE, "stdout": subprocess.PIPE, "text": True, "errors": "replace", **how}
        run = subprocess.Popen(command, cwd=folder, **how)
        try:
            yield run
        finally:
            run.kill()
            run.communicate()


def prove(rt, folder, number):
    """Has 'rt ci' prove the crates in the folder, and tells each that is done; what it says besides is shown where one is not
    proved. Returns whether all are."""
    began, done, said, is_kept = time.monotonic(), 0, [], False
    with run_of_ci(rt, folder, KEPT, stderr=subprocess.STDOUT) as run:
        for line in run.stdout:
            said.append(line)
            is_kept = is_kept or line.startswith(TAKEN)
            if found := DONE.match(line):
                done += 1
                minutes, seconds = divmod(int(time.monotonic() - began), 60)
                kept = ", by an earlier run" if is_kept or found[2] != "proved" else ""
                print(f"{done} of {number} crates, {minutes} min {seconds:02} s: {found[1]} is proved{kept}", flush=True)
                is_kept = False
        status = run.wait()
    if status:
        print("".join(said).replace(folder, TOP), end="")
    return status == 0


def told_if_broken_off(main):
    """The status of a whole run. Where a signal breaks it off, a line says what becomes of it."""
    for it in (signal.SIGTERM, signal.SIGHUP):
        if signal.getsignal(it) is signal.SIG_DFL:
            signal.signal(it, signal.default_int_handler)
    try:
        return main()
    except KeyboardInterrupt:
        with suppress(OSError):
            print("broken off: the next run goes on from the crates that are proved", flush=True)
        return 130


def main():
    words = argparse.ArgumentParser(description="Proves a program and the crates below it.")
    words.add_argument("--rt", default="rt", help="the command of the Rattle toolchain")
    words.add_argument("name", metavar="NAME", help="the program's crate")
    words.add_argument("to", metavar="TO", help="where the program is to be put")
    words = words.parse_args()
    with copy_of([words.name]) as (folder, names):
        if not prove(words.rt, folder, len(names)):
            return 1
        os.makedirs(os.path.dirname(os.path.abspath(words.to)), exist_ok=True)
        shutil.copy(os.path.join(folder, "crates", words.name, "out", words.name), words.to)
    print(f"{words.name} is at {words.to}")
    return 0


if __name__ == "__main__":
    sys.exit(told_if_broken_off(main))
