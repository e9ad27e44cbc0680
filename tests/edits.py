#!/usr/bin/env python3
"""Tries the wrong bodies of crates/*/wrong, over libraries that 'rt ci' proved: the prover must refuse each.

    edits.py [--rt COMMAND] [--anew] [--inner] [NAME..]

First the libraries below are proved, or taken from what 'make test' left in this checkout or 'rt ci' kept on this machine; then
come the tests of the script that tries edits, tests/wrong_edits.py, whose words these are, and the edits of the crates that are
named, or of all. After each part comes a line with the processor time that it took. The last line is 'N passed, M failed', and
the status is 0 only where none failed.
"""
import argparse
import glob
import os
import shutil
import sys
import time

from processor_time import time_of_processes, told
from run_rows import TOP
from test_wrong_edits import run_tests
from wrong_edits import run_wrong

sys.path.insert(0, os.path.join(TOP, "scripts"))
from build import copy_of, folder_of_kit, prove, told_if_broken_off
from proved import are_proved


def crates_with_edits(names):
    """The crates among these, or among all, that have edits in wrong/."""
    found = {it.split(os.sep)[-3] for it in glob.glob(os.path.join(TOP, "crates", "*", "wrong", "*"))}
    return sorted(found & set(names) if names else found)


def proved_libraries(rt, names):
    """Puts the libraries of these crates and of those below them, as 'rt ci' proves them, into crates/*/out/rlib, and returns
    whether all are proved. Where 'make test' has left all of them there, they stay. Else none that an earlier check left there
    stays, since the two do not fit each other."""
    if are_proved(folder_of_kit(rt), names):
        print("the libraries are those that 'make test' proved")
        return True
    for left in glob.glob(os.path.join(TOP, "crates", "*", "out", "rlib")):
        shutil.rmtree(left)
    with copy_of(names) as (folder, names):
        if not prove(rt, folder, len(names)):
            return False
        for name in names:
            made = os.path.join("crates", name, "out", "rlib")
            if os.path.isdir(os.path.join(folder, made)):
                os.makedirs(os.path.dirname(os.path.join(TOP, made)), exist_ok=True)
                shutil.move(os.path.join(folder, made), os.path.join(TOP, made))
    return True


def main():
    words = argparse.ArgumentParser(description="Tries the wrong bodies of crates/*/wrong.")
    words.add_argument("--rt", default="rt", help="the command of the Rattle toolchain")
    words.add_argument("--anew", action="store_true", help="try those too that an earlier run on this machine saw refused")
    words.add_argument("--inner", action="store_true", help="try those of wrong/inner/ too")
    words.add_argument("names", nargs="*", metavar="NAME", help="a crate; all, where none is named")
    words, began = words.parse_args(), time.monotonic()
    counts = [(0, 1)]
    if told("libraries", lambda: proved_libraries(words.rt, crates_with_edits(words.names))):
        counts = [
            told("tests of tests/wrong_edits.py", lambda: run_tests(words.rt)),
            told("wrong bodies", lambda: run_wrong(words.rt, words.names, words.anew, words.inner, is_built=True)),
        ]
    passed, failed = (sum(it) for it in zip(*counts))
    print(f"all parts: {time_of_processes():.0f} processor seconds, {(time.monotonic() - began) / 60:.0f} minutes")
    print(f"{passed} passed, {failed} failed")
    return 1 if failed else 0


if __name__ == "__main__":
    sys.exit(told_if_broken_off(main))
