#!/usr/bin/env python3
"""Proves the calls for programs in C with every crate below them, and makes the libraries of them.

    library.py [--rt COMMAND] FOLDER

Into the folder come libcddlseq.a, libcddlseq.so.1 and libcddlseq.so, which leads to it: a line for the linker, since 'rt ci' takes no
link in a folder. Both have what the Rattle toolchain made and its few functions over malloc, realloc and free, linked by the system's C
compiler, and show nothing but the calls.

'rt ci' proves the crates below, as scripts/build.py says. What it proves of a static library it does not build, so 'rt lib' proves
and builds the calls themselves.
"""
import argparse
import functools
import importlib
import os
import shutil
import subprocess
import sys
import tempfile

from build import KIT_RT, TOP, copy_crate, copy_of, folder_of_kit, prove, rows_of_crates, told_if_broken_off

CRATE = "cddlseq_c"
CALLS = "cddlseq_*"
SONAME = "libcddlseq.so.1"
# Nothing is resolved late, and nothing can be written to once it is.
SHARED = ("-shared", f"-Wl,-soname,{SONAME}", "-Wl,-z,defs", "-Wl,-z,now", "-Wl,-z,relro", "-Wl,--gc-sections")


def stamps_of(kit, top):
    """The stamp of each library below the calls, by its file."""
    sys.path.insert(0, os.path.join(kit, "bin"))
    rtlib = importlib.import_module("rtlib")
    # A stamp asks for those of the crates below, again on each way that leads to them.
    rtlib.Crate.stamp = functools.lru_cache(maxsize=None)(rtlib.Crate.stamp)
    folder = os.path.join(top, "crates", CRATE)
    crate = rtlib.Crate(folder, rtlib.root_above(folder) or folder, {})
    return {os.path.join(os.path.dirname(it.rlib), "stamp"): it.stamp() for it in crate.below()}


def build(rt, top):
    """Has 'rt lib' prove and build the calls over the libraries that 'rt ci' left in the crates of this folder, and returns the
    archive, or None. It takes libraries with a stamp alone, which 'rt ci' may not write. Those that are written here are taken away
    again, since what other commands build does not fit these libraries."""
    kit = folder_of_kit(rt)
    stamps = {path: stamp for path, stamp in stamps_of(kit, top).items() if not os.path.exists(path)}
    folder = os.path.join(top, "crates", CRATE)
    try:
        for path, stamp in stamps.items():
            with open(path, "w", encoding="utf-8") as file:
                file.write(stamp)
        ran = subprocess.run([*KIT_RT, kit, "lib"], cwd=folder, stdout=subprocess.PIPE, stderr=subprocess.STDOUT, text=True)
    finally:
        for path in stamps:
            os.remove(path)
    if ran.returncode:
        print(ran.stdout, end="")
        return None
    return archive_in(top)


def archive_in(top):
    return os.path.join(top, "crates", CRATE, "out", f"lib{CRATE}.a")


def prove_and_build(rt, top):
    """Proves the crates below the calls in a copy that holds these alone, then the calls, and returns the archive, or None."""
    line, below = rows_of_crates()[CRATE]
    with copy_of(below) as (folder, names):
        if not prove(rt, folder, len(names)):
            return None
        copy_crate(CRATE, folder)
        with open(os.path.join(folder, "crates.txt"), "a", encoding="utf-8") as file:
            file.write(line)
        archive = build(rt, folder)
        return archive and shutil.copy(archive, top)


def link(rt, archive, folder):
    """Makes the libraries of an archive that was proved."""
    compiler = shutil.which("cc") or shutil.which("clang") or "cc"
    os.makedirs(folder, exist_ok=True)
    static, shared = os.path.join(folder, "libcddlseq.a"), os.path.join(folder, SONAME)
    leading = os.path.join(folder, "libcddlseq.so")
    with tempfile.TemporaryDirectory(prefix="cddlseq-") as work:
        whole, shown = os.path.join(work, "cddlseq.o"), os.path.join(work, "shown")
        with open(shown, "w", encoding="ascii") as file:
            file.write(f"{{ global: {CALLS}; local: *; }};\n")
        memory = os.path.join(folder_of_kit(rt), "c", "liblibc_c.a")
        every = ("-Wl,--whole-archive", archive, "-Wl,--no-whole-archive", memory)
        subprocess.run([compiler, "-r", "-nostdlib", "-o", whole, *every], check=True)
        subprocess.run(["objcopy", "--wildcard", f"--keep-global-symbol={CALLS}", whole], check=True)
        for made in (static, shared, leading):
            if os.path.lexists(made):
                os.remove(made)
        subprocess.run(["ar", "rcsD", static, whole], check=True)
        subprocess.run([compiler, *SHARED, f"-Wl,--version-script={shown}", "-o", shared, whole], check=True)
        with open(leading, "w", encoding="ascii") as file:
            file.write(f"INPUT(-l:{SONAME})\n")
    print(f"libcddlseq.a and libcddlseq.so are in {folder}")


def main():
    words = argparse.ArgumentParser(description="Proves the calls for programs in C, and makes libraries of them.")
    words.add_argument("--rt", default="rt", help="the command of the Rattle toolchain")
    words.add_argument("folder", metavar="FOLDER", help="where the libraries are to be put")
    words = words.parse_args()
    with tempfile.TemporaryDirectory(prefix="cddlseq-") as work:
        archive = prove_and_build(words.rt, work)
        if archive:
            link(words.rt, archive, words.folder)
    return 0 if archive else 1


if __name__ == "__main__":
    sys.exit(told_if_broken_off(main))
