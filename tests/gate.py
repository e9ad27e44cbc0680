#!/usr/bin/env python3
"""Every proof, test and row: what crates name of one another's proofs, every proof and test from nothing by 'rt ci', and the
rows on the programs that were built. The wrong bodies of crates/*/wrong are tried by tests/edits.py.

    gate.py [--rt COMMAND] [--quick]

With --quick, for work in progress: what changed is proved over what earlier checks kept, then come the tests and the
rows; no verdict follows from it.

After each part comes a line with the processor time that it took, and at the end one for all of them. The last line is
'N passed, M failed', all counted together. The status is 0 only where all was run and nothing failed.
"""
import argparse
import glob
import io
import multiprocessing
import os
import re
import shlex
import shutil
import subprocess
import sys
import time
import traceback
from concurrent.futures import ThreadPoolExecutor
from contextlib import redirect_stdout

import random_cuts
import random_maps
import random_orders
import recognizer
from processor_time import time_of_processes, told
from run_calls import programs, run_calls
from run_grammar import run_grammar
from run_library import run_library
from run_memory import run_memory
from run_rows import TOP, run_rows
from run_small import run_small
from test_build import run_tests as run_builds
from test_completions import are_completions_right
from test_explain import are_explanations_right
from test_imports import are_imports_clean
from test_man import is_page_right
from test_progress import run_progress

sys.path.insert(0, os.path.join(TOP, "scripts"))
from build import KEPT, folder_of_kit, run_of_ci, told_if_broken_off
from library import archive_in, build, link
from proved import note

PROVED = os.path.join(TOP, "crates", "cddlseq", "out", "cddlseq")
OUTLINE = os.path.join(TOP, "crates", "cddl_outline", "out", "cddl_outline")
ANSWERS = programs()
CALLS = archive_in(TOP)
PROGRAM = os.path.join(TOP, "build", "cddlseq")
# What a run of the gate that was broken off has proved, which the next one goes on from.
UNFINISHED = os.path.join(TOP, "build", "unfinished")
# What a check may take, in KiB: that of cddlseq_c takes 7.8 GB for a while, and that of stream_calls, which comes next, 4.6 GB.
MEMORY_OF_THE_LARGEST = 8 << 20
MEMORY_OF_A_CHECK = 5 << 20
# Of four side by side on four cores each takes a sixth more processor time.
CHECKS_AT_ONCE = 3
COUNT = re.compile(r"(\d+) passed, (\d+) failed")


def checks_at_once():
    """How many checks of any crates may run side by side: at most one a processor, where there is memory for them, the largest
    among them."""
    with open("/proc/meminfo", encoding="utf-8") as file:
        free = int(re.search(r"MemAvailable: *(\d+) kB", file.read())[1])
    beside = max(0, free - MEMORY_OF_THE_LARGEST) // MEMORY_OF_A_CHECK
    return min(most_at_once(), 1 + beside)


def most_at_once():
    return min(CHECKS_AT_ONCE, len(os.sched_getaffinity(0)))


def proofs(rt):
    """Runs 'rt ci', passes its lines on, and returns how many passed and failed; a run without a count is a failure. Where there is
    memory for it each check is one process: 'rt ci' by itself splits a check where a processor is free, which takes a fifth more
    of its time. Else it goes by what each crate takes. Libraries are taken from a run of the gate that was broken off, and from
    no other."""
    last, most = "", most_at_once()
    env = {"RT_JOBS": str(most), **os.environ} if checks_at_once() == most else None
    for kept in glob.glob(f"{TOP}/crates/*/out/rlib"):
        # what an earlier check built would be put back in place of what this run proves
        shutil.rmtree(kept)
    try:
        with run_of_ci(rt, TOP, UNFINISHED, env=env) as run:
            for line in run.stdout:
                print(line, end="", flush=True)
                last = line.strip() or last
            status = run.wait()
    except OSError as error:
        print(f"cannot run {rt}: {error}")
        return 0, 1
    count = COUNT.fullmatch(last)
    passed, failed = (int(it) for it in count.groups()) if count else (0, 0)
    return passed, failed or (1 if status or not count else 0)


def finish():
    """Leaves what this run has proved to 'make build' and the like, so that the next one begins from nothing again."""
    os.makedirs(KEPT, exist_ok=True)
    for name in os.listdir(UNFINISHED):
        os.replace(os.path.join(UNFINISHED, name), os.path.join(KEPT, name))


def crates_with(text):
    """The folders of the crates whose sources have this text."""
    found = set()
    for path in glob.glob(os.path.join(TOP, "crates", "*", "src", "**", "*.rt"), recursive=True):
        with open(path, encoding="utf-8") as file:
            if text in file.read():
                found.add(path.split(f"{os.sep}src{os.sep}")[0])
    return sorted(found)


def step(name, command, folder):
    """Runs one step, tells its time, and what it printed where it failed. Returns whether it passed."""
    began = time.monotonic()
    ran = subprocess.run(
        command, cwd=folder, stdin=subprocess.DEVNULL, stdout=subprocess.PIPE, stderr=subprocess.STDOUT, text=True, errors="replace"
    )
    said = "passed" if ran.returncode == 0 else f"FAILED\n{ran.stdout}"
    print(f"{name}: {time.monotonic() - began:.0f} s, {said}", flush=True)
    return ran.returncode == 0


def kept_proofs(rt):
    """Proves what changed since earlier checks, runs the tests and builds the programs of the rows; returns how many
    steps passed and failed."""
    rt = shlex.split(rt)
    if not step("proofs", [*rt, "all", "check"], TOP):
        return 0, 1
    steps = [(f"tests of {os.path.basename(it)}", [*rt, "test", "--jobs", "1"], it) for it in crates_with("#[test]")]
    steps += [(f"program {os.path.basename(it)}", [*rt, "run", "--", "--help"], crate_of(it)) for it in (PROVED, OUTLINE, *ANSWERS)]
    steps += [("library for C", [*rt, "lib"], crate_of(CALLS))]
    with ThreadPoolExecutor(checks_at_once()) as pool:
        passed = list(pool.map(lambda it: step(*it), steps))
    return 1 + sum(passed), passed.count(False)


def crate_of(program):
    return os.path.dirname(os.path.dirname(program))


# What is run on the programs: parts that have nothing to do with one another, the longest first; and those that wait for a second
# to go by, or send signals, which are run when nothing else is.
PARTS = (
    ("commands and calls with each request for memory refused", lambda: run_memory(PROGRAM)),
    ("calls for C, and the rows through them and through Python", lambda: run_library(os.path.dirname(PROGRAM))),
    ("random streams as a file and in pieces", lambda: random_cuts.compare(PROGRAM)),
    ("hostile inputs in a small stack and in little memory", lambda: run_small(PROGRAM)),
    ("rows on the built program", lambda: run_rows(PROGRAM)),
    ("rows of public calls", run_calls),
    ("random items whose pairs are in two orders", lambda: random_orders.compare(PROGRAM)),
    ("random maps with an index of their entries and without", lambda: random_maps.compare(PROGRAM)),
    ("rows of the grammar", lambda: run_grammar(OUTLINE)),
    ("comparisons with a plain recognizer", lambda: recognizer.compare(OUTLINE)),
    ("comparisons of the man page with the program's help", lambda: (1, 0) if is_page_right(PROGRAM) else (0, 1)),
    ("comparisons of the completions with the program's help", lambda: (1, 0) if are_completions_right(PROGRAM) else (0, 1)),
    ("comparisons of explanations with the documents", lambda: (1, 0) if are_explanations_right(PROGRAM) else (0, 1)),
)
LAST = (
    ("progress on a terminal", lambda: run_progress(PROGRAM)),
    ("builds that are broken off and begun again", run_builds),
)


def answer_of(number):
    """What a part answers, in a process of its own, and what it printed. A part that cannot end has failed."""
    began, said = time.monotonic(), io.StringIO()
    with redirect_stdout(said):
        try:
            passed, failed = PARTS[number][1]()
        except Exception:
            traceback.print_exc(file=said)
            passed, failed = 0, 1
    return passed, failed, said.getvalue(), time.monotonic() - began


def counted(name, passed, failed, seconds):
    print(f"{name}: {passed} passed, {failed} failed, {seconds:.0f} s", flush=True)
    return passed, failed


def rows(rt):
    """Runs all that is run on the programs and the library that were proved just now, as many parts side by side as there are
    processors, and returns how many passed and failed."""
    os.makedirs(os.path.dirname(PROGRAM), exist_ok=True)
    shutil.copy(PROVED, PROGRAM)
    link(rt, CALLS, os.path.dirname(PROGRAM))
    counts = []
    with multiprocessing.get_context("fork").Pool(len(os.sched_getaffinity(0))) as pool:
        for (name, _), (passed, failed, said, seconds) in zip(PARTS, pool.imap(answer_of, range(len(PARTS)), 1)):
            print(f"== {name}\n{said}", end="", flush=True)
            counts.append(counted(name, passed, failed, seconds))
        pool.close()
        pool.join()
    for name, run in LAST:
        print(f"== {name}", flush=True)
        began = time.monotonic()
        counts.append(counted(name, *run(), time.monotonic() - began))
    return tuple(sum(it) for it in zip(*counts))


def main():
    words = argparse.ArgumentParser(description="Runs every proof, test and row.")
    words.add_argument("--rt", default="rt", help="the command of the Rattle toolchain")
    words.add_argument("--quick", action="store_true", help="over what earlier checks kept")
    words, began = words.parse_args(), time.monotonic()
    clean = are_imports_clean()
    print(f"names of other crates' proofs: {'passed' if clean else 'FAILED'}", flush=True)
    passed, failed = told("proofs and tests", lambda: kept_proofs(words.rt) if words.quick else proofs(words.rt))
    is_counted = passed > 0 and not words.quick
    if not failed and not words.quick:
        note(folder_of_kit(words.rt))
        # 'rt ci' proves a static library, and builds none
        is_built = told("library for C", lambda: bool(build(words.rt, TOP)))
        passed, failed = passed + is_built, failed + (not is_built)
    # 'rt ci' set aside what earlier runs built, so these are the programs and the library that were proved just now
    if failed or not all(os.path.isfile(it) for it in (PROVED, OUTLINE, *ANSWERS, CALLS)):
        print("the rows on the built programs are not run: there is no proved program, or no library")
        failed = max(failed, 1)
    else:
        more, bad = told("rows", lambda: rows(words.rt))
        passed, failed = passed + more, failed + bad
    passed, failed = passed + clean, failed + (not clean)
    print(f"all parts: {time_of_processes():.0f} processor seconds, {(time.monotonic() - began) / 60:.0f} minutes")
    print(f"{passed} passed, {failed} failed")
    if is_counted:
        finish()
    return 1 if failed else 0


if __name__ == "__main__":
    sys.exit(told_if_broken_off(main))
