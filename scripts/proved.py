"""Which libraries 'rt ci' has proved in this checkout, so that 'make edits' after 'make test' does not prove them again.

A library that was proved here has a file beside it with the sum of all that it was made from: its sources, those of the crates
below, and the toolchain. Other commands of the toolchain write a library anew with all that is in its folder, so the file
goes with the library that it tells of.
"""
import functools
import importlib
import os
import sys

from build import TOP, with_those_below, rows_of_crates

# It lies in the folder of the library, out/rlib.
MARK = "by-rt-ci"


def libraries(kit):
    """The folder and the sum of each library of this checkout, by its crate."""
    sys.path.insert(0, os.path.join(kit, "bin"))
    rtlib = importlib.import_module("rtlib")
    # A sum asks for those of the crates below, again on each way that leads to them.
    rtlib.Crate.stamp = functools.lru_cache(maxsize=None)(rtlib.Crate.stamp)
    crates = [it for it in rtlib.crates_below(TOP) if not it.is_program and not it.is_static]
    return {it.name: (os.path.dirname(it.rlib), it.stamp()) for it in crates}


def note(kit):
    """Notes that each library that is there was proved by a run of 'rt ci' that has just passed."""
    for folder, stamp in libraries(kit).values():
        if os.path.isdir(folder):
            with open(os.path.join(folder, MARK), "w", encoding="utf-8") as file:
                file.write(stamp)


def are_proved(kit, names):
    """Whether the libraries of these crates and of those below them are there as a run of 'rt ci' proved them."""
    found = libraries(kit)
    return all(it not in found or is_noted(*found[it]) for it in with_those_below(names, rows_of_crates()))


def is_noted(folder, stamp):
    try:
        with open(os.path.join(folder, MARK), encoding="utf-8") as file:
            return file.read() == stamp
    except OSError:
        return False
