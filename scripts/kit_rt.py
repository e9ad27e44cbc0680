#!/usr/bin/env python3
"""The kit's command rt, as the scripts here run it.

    kit_rt.py KIT [--kept FOLDER] WORD..

Of each crate it makes the list of those below once, and the stamp. By itself rt makes such a list again on every way that leads to
the crate, at every step, which takes some 25 s at the start of 'rt ci' here.

With --kept, 'rt ci' puts the library of each crate that it has proved into the folder at once. It takes a library from there, in
place of proving the crate again, where all that it was made of is the same: the kit, HANDLES, the line in crates.txt, the
crate's files, and each library below it, byte by byte. It has as many checks side by side as the free memory holds by two thirds of what the kit reckons for each, and by all of it for a
static library. A kit that keeps what it proves does so by itself, and reckons by itself. Such a run ends with its standard input,
and all its checks with it. A kit whose 'rt ci' is another one than these runs as it is.
"""
import functools
import hashlib
import importlib.machinery
import importlib.util
import inspect
import os
import shutil
import signal
import sys
import threading
import zipfile

# How much a check takes of what the kit reckons, but for a static library (docs/GATE.md).
SHARE = 2 / 3
# What tells one kit from another: its libraries and its compiler, its name, and what is run of it here.
OF_KIT = ("WHAT", "KIT-ID", "bin/rt", "bin/rtlib.py")


def load(kit):
    """The kit's command as a module."""
    path = os.path.join(kit, "bin", "rt")
    loader = importlib.machinery.SourceFileLoader("rt", path)
    rt = importlib.util.module_from_spec(importlib.util.spec_from_loader("rt", loader))
    sys.modules["rt"] = rt
    loader.exec_module(rt)
    return rt


def make_once(crates, *calls):
    for each in calls:
        setattr(crates, each, functools.lru_cache(maxsize=None)(getattr(crates, each)))


def can_keep(rt):
    """Whether 'rt ci' proves a crate by the call that is known here, and keeps nothing by itself."""
    call = getattr(getattr(rt, "Crate", None), "ci", None)
    is_known = call and hasattr(rt, "need") and list(inspect.signature(call).parameters) == ["self", "flags", "tests"]
    return bool(is_known) and not hasattr(rt, "Kept")


class Kept:
    """Libraries that 'rt ci' has proved from nothing, each as an archive with a mark beside it: a sum of what it was made of, and
    one of the archive. The mark is written last, so it never tells of an archive that was not written to its end."""

    def __init__(self, rt, kit, folder):
        self.rt, self.folder = rt, os.path.abspath(folder)
        self.tools = [rt.rtlib.sum_of(it) for it in (*(os.path.join(kit, it) for it in OF_KIT), os.path.abspath(__file__))]
        # of each crate whose library is in the folder as this run uses it
        self.marks = {}

    def path(self, crate, ending):
        return os.path.join(self.folder, crate.name + ending)

    def made_of(self, crate):
        """A sum of all that the crate's library is made of, or None where a library below it is not in the folder."""
        files = [(os.path.relpath(it, crate.folder), self.rt.rtlib.sum_of(it)) for it in self.rt.rtlib.files_of(crate.folder)]
        below = [(it.name, self.marks.get(it.name)) for it in crate.below()]
        whole = repr((self.tools, crate.allowed, crate.said, files, below))
        return None if None in dict(below).values() else hashlib.sha256(whole.encode()).hexdigest()

    def mark(self, crate, made_of):
        return f"{made_of}\n{self.rt.rtlib.sum_of(self.path(crate, '.zip'))}\n"

    def take(self, crate, made_of):
        """Puts the crate's library where 'rt ci' makes it, and returns whether it is there and whole."""
        try:
            with open(self.path(crate, ".mark"), encoding="utf-8") as file:
                mark = file.read()
            if made_of is None or mark != self.mark(crate, made_of):
                return False
            shutil.rmtree(os.path.dirname(crate.rlib), ignore_errors=True)
            with zipfile.ZipFile(self.path(crate, ".zip")) as archive:
                archive.extractall(os.path.dirname(crate.rlib))
        except (OSError, ValueError, zipfile.BadZipFile):
            return False
        self.marks[crate.name] = mark
        return True

    def put(self, crate, made_of):
        """Keeps the crate's library, which was proved just now. Where there is no room for it, it is not kept."""
        if made_of is None:
            return
        try:
            with open(self.path(crate, ".part"), "wb") as part:
                pack(os.path.dirname(crate.rlib), part)
            os.replace(self.path(crate, ".part"), self.path(crate, ".zip"))
            mark = self.mark(crate, made_of)
            with open(self.path(crate, ".part"), "w", encoding="utf-8") as part:
                part.write(mark)
            os.replace(self.path(crate, ".part"), self.path(crate, ".mark"))
            self.marks[crate.name] = mark
        except OSError as error:
            print(f"{crate.name} is not kept: {error}", file=crate.out, flush=True)

    def prove(self, prove, crate, flags, tests):
        """What 'rt ci' does for a crate by 'prove', unless an earlier run has done it and kept the library."""
        if tests or not crate.makes_rlib():
            return prove(crate, flags, tests)
        made_of = self.made_of(crate)
        if self.take(crate, made_of):
            print(f"kept: {crate.name}", file=crate.out, flush=True)
            return 0
        status = prove(crate, flags, tests)
        if not status and made_of == self.made_of(crate):
            self.put(crate, made_of)
        return status


def pack(folder, file):
    """Writes an archive of the folder: of the same files always the same bytes."""
    with zipfile.ZipFile(file, "w") as archive:
        for at, folders, names in os.walk(folder):
            folders.sort()
            inside = os.path.relpath(at, folder)
            archive.writestr(zipfile.ZipInfo(f"{inside}/"), b"")
            for name in sorted(names):
                with open(os.path.join(at, name), "rb") as it:
                    archive.writestr(zipfile.ZipInfo(f"{inside}/{name}"), it.read(), zipfile.ZIP_DEFLATED, 1)


def keep(rt, kept):
    """Has 'rt ci' take from what is kept, and put there what it proves."""
    prove, need = rt.Crate.ci, rt.need
    rt.need = lambda crate: need(crate) * (1 if crate.is_static else SHARE)
    rt.Crate.ci = lambda crate, flags, tests: kept.prove(prove, crate, flags, tests)


def end_with_input():
    os.read(0, 1)
    os._exit(1)


def main(words):
    kit, words = words[0], words[1:]
    folder, words = (words[1], words[2:]) if words[:1] == ["--kept"] else (None, words)
    rt = load(kit)
    if folder is None:
        make_once(rt.rtlib.Crate, "below", "stamp")
        return rt.main(words)
    if can_keep(rt):
        make_once(rt.rtlib.Crate, "below", "stamp")
        keep(rt, Kept(rt, kit, folder))
    elif hasattr(rt, "Kept"):
        # (it makes stamps once by itself)
        make_once(rt.rtlib.Crate, "below")
    else:
        command = os.path.join(kit, "bin", "rt")
        os.execv(command, [command, *words])
    # The kit's own guard ends the checks where this process ends; it has to begin before any thread does.
    rt.rtlib.guarded()
    signal.signal(signal.SIGINT, signal.SIG_DFL)
    threading.Thread(target=end_with_input, daemon=True).start()
    return rt.main(words)


if __name__ == "__main__":
    sys.exit(main(sys.argv[1:]))
