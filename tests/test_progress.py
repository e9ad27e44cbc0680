#!/usr/bin/env python3
"""Whether the program shows on a terminal how far it is, and takes that away again.

    test_progress.py PROGRAM

Each row is run with standard error, standard output or both at a pseudo-terminal. The stream comes slowly, or the output is
taken slowly, so that more than a second goes by. Prints each row that failed, with what came, and last 'N passed, M
failed'. The status is 0 only where nothing failed.
"""
import argparse
import array
import fcntl
import os
import pty
import re
import subprocess
import sys
import tempfile
import termios
import time
from concurrent.futures import ThreadPoolExecutor

from run_rows import wait_until_taken

SPEC = "a = 0..9\n"
# What is given at once, and how long it is waited before that, once all before was taken.
SLOW = (("00", 0), ("0102", 1.2), ("03", 0))
FAILING = (("00", 0), ("0102", 1.2), ("0a", 0))
REPORT = "item 1 at 0: 0\nitem 2 at 1: 1\nitem 3 at 2: 2\nitem 4 at 3: 3\nclean: 4 items, 4 bytes\n"
CLEAN = "clean: 4 items, 4 bytes\n"
REWRITTEN = "\0\1\2\3"
# Behind the second piece a line is due. On a machine that stands still for a while one may be due behind the third too.
SHOWN = r"\r3 items, 3 bytes\x1b\[K(\r4 items, 4 bytes\x1b\[K)?\r\x1b\[K"
FAILED = r"failed: 3 items, offset 3: mismatch [^\n]*\n"
# The words, the stream, which of standard output and standard error are a terminal, what standard output is to get, and what
# standard error, or the terminal where both are one, as a pattern.
ROWS = {
    "a line shows, and is taken away": (["validate", "SPEC"], SLOW, "error", REPORT, SHOWN),
    "with --quiet": (["validate", "SPEC", "--quiet"], SLOW, "error", CLEAN, SHOWN),
    "of standard input by a dash": (["validate", "SPEC", "-"], SLOW, "error", REPORT, SHOWN),
    "before the line of the end": (["rewrite", "SPEC"], SLOW, "error", REWRITTEN, SHOWN + CLEAN),
    "in deterministic encoding": (["rewrite", "SPEC", "--deterministic"], SLOW, "error", REWRITTEN, SHOWN + CLEAN),
    "before the line of a failure": (["rewrite", "SPEC"], FAILING, "error", REWRITTEN[:3], SHOWN + FAILED),
    "none with --no-progress": (["validate", "SPEC", "--no-progress"], SLOW, "error", REPORT, ""),
    "none of rewrite with --no-progress": (["rewrite", "--no-progress", "SPEC"], SLOW, "error", REWRITTEN, CLEAN),
    "none where standard output is a terminal too": (["validate", "SPEC"], SLOW, "both", "", re.escape(REPORT)),
    "none where standard output alone is a terminal": (["validate", "SPEC"], SLOW, "output", REPORT, ""),
    "none where there is no terminal": (["validate", "SPEC"], SLOW, "none", REPORT, ""),
    "none of rewrite where there is no terminal": (["rewrite", "SPEC"], SLOW, "none", REWRITTEN, CLEAN),
    "none of show": (["show"], SLOW, "error", REPORT, ""),
    "none before a second has gone by": (["validate", "SPEC"], (("00010203", 0),), "error", REPORT, ""),
}
# A file so large that what is told of it does not go into a pipe at once.
LARGE = 200_000
SHARE = re.compile(r"\r(\d+) items, (\d+) bytes, (\d+) %\x1b\[K")
SECONDS = 60


class Terminal:
    """A pseudo-terminal that changes nothing of what is written to it."""

    def __init__(self):
        self.mine, self.theirs = pty.openpty()
        set_to = termios.tcgetattr(self.theirs)
        set_to[1] &= ~termios.OPOST
        termios.tcsetattr(self.theirs, termios.TCSANOW, set_to)

    def text(self):
        """What was written, once nobody has it open any more."""
        os.close(self.theirs)
        found = b""
        try:
            while piece := os.read(self.mine, 65536):
                found += piece
        except OSError:
            # so Linux tells that there is nothing more
            pass
        os.close(self.mine)
        return found.decode()


def give(stream, end, run):
    for data, pause in stream:
        time.sleep(pause)
        os.write(end, bytes.fromhex(data))
        wait_until_taken(end, run)
    os.close(end)


def ran(program, row, folder):
    """What standard output got, and standard error, or the terminal where both are one."""
    words, stream, terminals, _, _ = row
    words = [os.path.join(folder, "spec") if it == "SPEC" else it for it in words]
    terminal = Terminal()
    with tempfile.TemporaryFile(dir=folder) as out, tempfile.TemporaryFile(dir=folder) as error:
        output = terminal.theirs if terminals in ("both", "output") else out
        errors = terminal.theirs if terminals in ("both", "error") else error
        theirs, mine = os.pipe()
        if len(stream) == 1:
            # all is there before the program begins
            os.write(mine, bytes.fromhex(stream[0][0]))
            os.close(mine)
        run = subprocess.Popen([program, *words], stdin=theirs, stdout=output, stderr=errors, close_fds=True)
        os.close(theirs)
        if len(stream) > 1:
            give(stream, mine, run)
        run.wait(SECONDS)
        shown = terminal.text()
        out.seek(0)
        error.seek(0)
        told, said = out.read().decode(), error.read().decode()
    return (shown if terminals == "output" else told), (shown if terminals in ("both", "error") else said)


def is_row_right(program, name, folder):
    told, said = ran(program, ROWS[name], folder)
    _, _, _, wanted, pattern = ROWS[name]
    is_right = told == wanted and re.fullmatch(pattern, said) is not None
    if not is_right:
        print(f"progress, {name}: standard output got {told!r}, and standard error {said!r}")
    return is_right


def wait_until_full(end):
    """Waits until a pipe that is read at this end has about as much as it takes."""
    until, there = time.monotonic() + SECONDS, array.array("i", [0])
    while there[0] < 60_000 and time.monotonic() < until:
        time.sleep(0.01)
        fcntl.ioctl(end, termios.FIONREAD, there)


def is_share_right(program, folder):
    """Whether the share of a file is shown, where the report of a file is not read for more than a second."""
    stream = os.path.join(folder, "large")
    with open(stream, "wb") as file:
        file.write(bytes(LARGE))
    terminal = Terminal()
    run = subprocess.Popen(
        [program, "validate", os.path.join(folder, "spec"), stream],
        stdin=subprocess.DEVNULL, stdout=subprocess.PIPE, stderr=terminal.theirs,
    )
    wait_until_full(run.stdout.fileno())
    time.sleep(1.2)
    lines = run.stdout.read().count(b"\n")
    run.stdout.close()
    run.wait(SECONDS)
    said = terminal.text()
    shares = [tuple(map(int, it)) for it in SHARE.findall(said)]
    is_right = bool(shares) and lines == LARGE + 1 and SHARE.sub("", said) == "\r\x1b[K"
    is_right = is_right and all(items == size and share == size * 100 // LARGE for items, size, share in shares)
    if not is_right:
        print(f"progress, the share of a file: {lines} lines came, and standard error got {said!r}")
    return is_right


def run_progress(program):
    """Runs all rows, and returns how many passed and failed."""
    program = os.path.abspath(program)
    with tempfile.TemporaryDirectory() as folder, ThreadPoolExecutor(8) as pool:
        with open(os.path.join(folder, "spec"), "w", encoding="utf-8") as file:
            file.write(SPEC)
        answers = [pool.submit(is_row_right, program, it, folder) for it in ROWS]
        answers.append(pool.submit(is_share_right, program, folder))
        right = [it.result() for it in answers]
    return right.count(True), right.count(False)


def main():
    words = argparse.ArgumentParser(description="Tells whether progress is shown on a terminal.")
    words.add_argument("program")
    passed, failed = run_progress(words.parse_args().program)
    print(f"{passed} passed, {failed} failed")
    return 1 if failed else 0


if __name__ == "__main__":
    sys.exit(main())
