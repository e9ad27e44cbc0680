#!/usr/bin/env python3
"""Compiles the program and runs one command of it, by 'rt try', which proves nothing: for a first look.

    try.py [--rt COMMAND] WORD..

The words are the command's: files are named as they are seen from this folder, and standard input is passed on. What the
program prints, and its status, are as they would be. A last line on standard error says that nothing was proved.

'rt try' runs the program in a folder of its own, with copies of the files that the words name, and shows what it wrote at its
end. So it can't pass on a terminal, a pipe that is silent for 2 seconds, more than 64 MiB of standard input, or a folder; it
gives up after 120 seconds, or 1 MiB on standard output; and a file outside of this folder has another name there.
"""
import os
import re
import shlex
import subprocess
import sys

TOP = os.path.dirname(os.path.dirname(os.path.abspath(__file__)))
CRATE = os.path.join(TOP, "crates", "cddlseq")
# Names that 'rt try' keeps for itself in the folder that the program runs in.
TAKEN = ("", "..", "program", "stdin", "stdout", "stderr", "case")
# What 'rt try' adds to the program's standard error, at its end.
OWN_LINES = re.compile(r"((?:checked|races|rt): .*\n)*(run=(\w+)(?: status=(\d+))?.*)\n\Z", re.M)


def as_data(words):
    """The words of 'rt try' that pass on the files which these name, and the words by which the program finds them."""
    passed, named = [], []
    for number, word in enumerate(words):
        if os.path.isfile(word):
            name = os.path.normpath(word)
            if name.split(os.sep)[0] in TAKEN or "=" in name:
                name = f"file{number}"
            passed += ["--data", f"{name}={os.path.abspath(word)}"]
            word = name
        named.append(word)
    return passed, named


def main(words):
    rt = "rt"
    if words[:1] == ["--rt"]:
        rt, words = words[1], words[2:]
    passed, named = as_data(words)
    ran = subprocess.run([*shlex.split(rt), "try", *passed, "--", *named], cwd=CRATE, stderr=subprocess.PIPE, text=True, errors="replace")
    found = OWN_LINES.search(ran.stderr)
    if not found or found[3] != "ended" or found[4] is None:
        print(f"{ran.stderr}the program could not be run to its end", file=sys.stderr)
        return 3
    print(f"{ran.stderr[: found.start()]}(nothing was proved here: 'make build' proves the program and all that it stands on)", file=sys.stderr)
    return int(found[4])


if __name__ == "__main__":
    sys.exit(main(sys.argv[1:]))
