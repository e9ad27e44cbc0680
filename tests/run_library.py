#!/usr/bin/env python3
"""Tests the calls for programs in C, the Python package and the Rust crate over them, and the examples.

    run_library.py FOLDER [--only TEXT] [--strict] [-v]

FOLDER has the libraries that scripts/library.py makes. The shared one has to ask the system for memory alone. tests/calls.c is linked
with the static one and run, with each request for memory refused in turn; with gcc's or clang's sanitizers, and with theirs of threads;
and under valgrind where that is installed. Then come the rows of rows.json: on tests/caller.c, but for those about the program's own
text, on the same with sanitizers, and one of twenty under valgrind; all of them on 'python3 -m cddlseq' over the shared one, with tests
of the package (tests/package.py); and on the example of the crate in rust, where cargo is found, but for those about that text and about
devices. The examples examples/gateway.c and examples/cose_bench.py are run last. With --strict all rows are run under valgrind, which
takes half an hour of processor time. The last line is 'N passed, M failed', and the status is 0 only where none failed.
"""
import argparse
import os
import re
import shutil
import socket
import stat
import subprocess
import sys
import tempfile
from concurrent.futures import ThreadPoolExecutor

from rows_of_library import needs_devices, rows_for_caller, rows_for_crate, rows_for_package
from run_rows import TOP, faults_of

AT_ONCE = 3
COUNT = re.compile(r"(\d+) passed, (\d+) failed")
# Under valgrind one of so many requests for memory is refused, and one of so many rows is run.
STEP, ROWS_STEP = "60", 20
# How long a row may take there: one asks ten million questions.
STRICT_SECONDS = 1800
STRICT = ("valgrind", "-q", "--error-exitcode=9", "--leak-check=full", "--show-leak-kinds=all", "--errors-for-leak-kinds=all")
SANITIZERS = ("-g", "-fsanitize=address,undefined", "-fno-sanitize-recover=all")
# This one takes stack of its own.
OF_THREADS = ("-g", "-fsanitize=thread", "-DSTACK=1048576")
MEMORY = {"malloc", "realloc", "free", "memcpy", "memmove", "memset", "memcmp", "bcmp"}
HEADER = os.path.join(TOP, "include", "cddlseq.h")
PACKAGE = os.path.join(TOP, "python")


def compiled(name, folder, work, *more, into=None):
    """A program of tests/NAME.c, or of examples/NAME.c, with the static library."""
    made = os.path.join(work, into or name)
    compiler = shutil.which("cc") or shutil.which("clang") or "cc"
    source = next(it for it in (f"{TOP}/tests/{name}.c", f"{TOP}/examples/{name}.c") if os.path.exists(it))
    words = ["-O1", "-Wall", "-Wextra", "-Werror", f"-I{TOP}/include", "-o", made, source, f"{folder}/libcddlseq.a"]
    subprocess.run([compiler, *words, *more], check=True)
    return made


def has_sanitizers(work, sanitizers):
    """Whether a program with these sanitizers is made here, and runs."""
    source, made = os.path.join(work, "none.c"), os.path.join(work, "none")
    with open(source, "w", encoding="ascii") as file:
        file.write("int main(void) { return 0; }\n")
    compiler = shutil.which("cc") or shutil.which("clang") or "cc"
    ran = subprocess.run([compiler, *sanitizers, "-o", made, source], stdout=subprocess.DEVNULL, stderr=subprocess.DEVNULL)
    return ran.returncode == 0 and subprocess.run([made], stderr=subprocess.DEVNULL).returncode == 0


def scripted(name, work, line):
    """A program that is this line of a shell."""
    made = os.path.join(work, name)
    with open(made, "w", encoding="utf-8") as file:
        file.write(f"#!/bin/sh\n{line} \"$@\"\n")
    os.chmod(made, os.stat(made).st_mode | stat.S_IXUSR)
    return made


def counted(words, **how):
    """Runs a program whose last line is 'N passed, M failed', passes its lines on, and returns these numbers."""
    ran = subprocess.run(words, stdout=subprocess.PIPE, text=True, **how)
    print(ran.stdout, end="")
    found = COUNT.search(ran.stdout)
    passed, failed = (int(it) for it in found.groups()) if found else (0, 0)
    return passed, failed or int(ran.returncode != 0 or not found)


def asks_for_memory_alone(folder):
    """Whether nothing of the system is called by the library but what gives memory, copies it and compares it: nothing that prints, or
    ends the process."""
    words = ["nm", "-D", "--undefined-only", "--format=posix", os.path.join(folder, "libcddlseq.so.1")]
    ran = subprocess.run(words, stdout=subprocess.PIPE, text=True, check=True)
    asked = {line.split()[0].split("@")[0] for line in ran.stdout.splitlines() if line.split()[1] == "U"}
    print(f"the library asks for {', '.join(sorted(asked))}: {'passed' if asked <= MEMORY else 'FAILED'}", flush=True)
    return (1, 0) if asked <= MEMORY else (0, 1)


def run_calls(folder, work, is_sanitized):
    """Tests of the calls, with memory refused, with sanitizers, with that of threads, and under valgrind."""
    refusing = "-pthread", "-Wl,--wrap=malloc,--wrap=realloc"
    calls = compiled("calls", folder, work, "-g", *refusing)
    passed, failed = counted([calls])
    runs = {}
    if is_sanitized:
        runs["with sanitizers"] = [compiled("calls", folder, work, *refusing, *SANITIZERS, into="sanitized_calls"), STEP]
    if has_sanitizers(work, OF_THREADS):
        runs["with the sanitizer of threads"] = [compiled("calls", folder, work, *refusing, *OF_THREADS, into="threaded_calls"), STEP]
    if shutil.which("valgrind"):
        runs["under valgrind"] = [*STRICT, calls, STEP]
    for how in ("with sanitizers", "with the sanitizer of threads", "under valgrind"):
        if how in runs:
            clean = subprocess.run(runs[how], stdout=subprocess.DEVNULL).returncode == 0
            print(f"calls {how}: {'passed' if clean else 'FAILED'}", flush=True)
            passed, failed = passed + clean, failed + (not clean)
        else:
            print(f"calls {how}: not run, since that is not installed", flush=True)
    return passed, failed


def run_callers(folder, work, rows, is_sanitized, is_strict, is_verbose):
    """The rows through C: as they are, with sanitizers, and under valgrind."""
    caller = compiled("caller", folder, work, "-g")
    counts = [run_rows("through C", caller, rows, is_verbose)]
    # Sanitizers and valgrind take memory of their own.
    rows = [{**it, "each_write_fails": False} for it in rows if "memory" not in it]
    if is_sanitized:
        sanitized = compiled("caller", folder, work, *SANITIZERS, into="sanitized_caller")
        counts.append(run_rows("through C with sanitizers", sanitized, rows, is_verbose))
    if shutil.which("valgrind"):
        strict = scripted("strict_caller", work, f"exec {' '.join(STRICT)} '{caller}'")
        picked = [{**it, "seconds": STRICT_SECONDS} for it in (rows if is_strict else rows[::ROWS_STEP])]
        counts.append(run_rows("through C under valgrind", strict, picked, is_verbose))
    return summed(counts)


def run_rows(what, program, rows, is_verbose):
    """Runs the rows on a program, prints those that failed, and returns how many passed and failed."""
    with ThreadPoolExecutor(AT_ONCE) as pool:
        told = list(pool.map(lambda row: faults_of(program, row), rows))
    for row, wrong in zip(rows, told):
        if wrong or is_verbose:
            print("\n    ".join([f"{'FAILED' if wrong else 'ok'} {row['name']}", *wrong[:6]]))
    failed = sum(1 for it in told if it)
    print(f"rows {what}: {len(rows) - failed} passed, {failed} failed", flush=True)
    return len(rows) - failed, failed


def environment(folder):
    """What the package is found by, and its library."""
    return {**os.environ, "CDDLSEQ_LIBRARY": os.path.abspath(f"{folder}/libcddlseq.so.1"), "PYTHONPATH": PACKAGE}


def python_of(folder, work):
    """A program that runs the package as 'python3 -m cddlseq'."""
    library = os.path.abspath(f"{folder}/libcddlseq.so.1")
    given = f"CDDLSEQ_LIBRARY='{library}' PYTHONPATH='{PACKAGE}'"
    return scripted("cddlseq", work, f"{given} exec '{sys.executable}' -B -m cddlseq")


def run_package(folder, only, is_verbose):
    """Tests of the package, and its rows but for those about devices."""
    words = [f"{TOP}/tests/package.py", HEADER, "--only", only, *(["-v"] if is_verbose else [])]
    return counted([sys.executable, "-B", *words], env=environment(folder))


def run_crate(folder, work, rows, is_verbose):
    """The tests of the crate in rust, and the rows on its example, where cargo is found."""
    cargo = shutil.which("cargo")
    if not cargo:
        print("the crate in rust: not tried, since cargo is not on PATH", flush=True)
        return 0, 0
    env = {**os.environ, "CDDLSEQ_LIB": os.path.abspath(folder), "CARGO_TARGET_DIR": os.path.join(work, "target")}
    for words in (["test", "--offline"], ["build", "--offline", "--release", "--example", "cddlseq"]):
        how = {"cwd": f"{TOP}/rust", "env": env, "stdout": subprocess.PIPE, "stderr": subprocess.STDOUT, "text": True}
        ran = subprocess.run([cargo, "--quiet", *words], **how)
        if ran.returncode:
            print(f"cargo {' '.join(words)}: FAILED\n{ran.stdout}", flush=True)
            return 0, 1
    print("tests of the crate in rust: passed", flush=True)
    passed, failed = run_rows("through Rust", os.path.join(work, "target", "release", "examples", "cddlseq"), rows, is_verbose)
    return passed + 1, failed


def run_examples(folder, work):
    """The gateway in C, over a socket, and the test bench in Python."""
    holds = {
        "the gateway": gateway_passes(compiled("gateway", folder, work)),
        "the test bench": bench_tells(environment(folder)),
    }
    for name, is_right in holds.items():
        print(f"{name}: {'passed' if is_right else 'FAILED'}", flush=True)
    return list(holds.values()).count(True), list(holds.values()).count(False)


def frame(item):
    return len(item).to_bytes(2, "big") + item


def gateway_passes(program):
    """Whether the gateway passes on the frames that match, and says of the others why not."""
    good = [bytes.fromhex("83 c1 01 61 61 00"), bytes.fromhex("84 c1 02 61 62 00 82 01 00")]
    bad, cut = bytes.fromhex("84 c1 01 61 61 09 00"), bytes.fromhex("84 c1 01")
    frames = [good[0], bad, good[1], cut, b""]
    said = ("frame 2 dropped: failed: 0 items, offset 0: mismatch at $[2]: 9\n"
            "frame 4 dropped: failed: 0 items, offset 0: truncated at byte 3\n"
            "frame 5 dropped: it is empty\n")
    mine, theirs = socket.socketpair()
    with mine, theirs, tempfile.TemporaryFile() as errors:
        ran = subprocess.Popen([program, f"{TOP}/examples/gateway.cddl"], stdin=theirs, stdout=theirs, stderr=errors)
        theirs.close()
        for byte in b"".join(frame(it) for it in frames):
            mine.sendall(bytes([byte]))
        mine.shutdown(socket.SHUT_WR)
        passed_on = b"".join(iter(lambda: mine.recv(4096), b""))
        status = ran.wait()
        errors.seek(0)
        return (passed_on, errors.read().decode(), status) == (b"".join(frame(it) for it in good), said, 0)


def bench_tells(env):
    """Whether the test bench says of the messages of examples/cose_sign1*.cborseq what they are."""
    told = {
        "cose_sign1": "message 1 at 0: right\nmessage 2 at 98: right\nmessage 3 at 273: no algorithm is signed\n2 messages are right\n",
        "cose_sign1_broken": 'message 1 at 0: right\nmessage 2 at 98: MISMATCH at $()[1]{4}: "AsymmetricECDSA256"\n1 messages are right\n',
    }
    for name, wanted in told.items():
        words = [sys.executable, "-B", f"{TOP}/examples/cose_bench.py", "cat", f"{TOP}/examples/{name}.cborseq"]
        ran = subprocess.run(words, env=env, stdout=subprocess.PIPE, text=True)
        if (ran.stdout, ran.returncode) != (wanted, 1):
            print(ran.stdout)
            return False
    return True


def summed(counts):
    return tuple(sum(it) for it in zip(*counts))


def run_library(folder, only="", is_strict=False, is_verbose=False):
    """Runs all of it, and returns how many passed and failed."""
    # A row about a directory as standard input is among those of the package.
    for_package = [it for it in rows_for_package(only) if needs_devices(it) and it.get("after_stream") != "directory"]
    with tempfile.TemporaryDirectory() as work:
        is_sanitized = has_sanitizers(work, SANITIZERS)
        return summed([
            asks_for_memory_alone(folder),
            run_calls(folder, work, is_sanitized),
            run_callers(folder, work, rows_for_caller(only), is_sanitized, is_strict, is_verbose),
            run_package(folder, only, is_verbose),
            run_rows("about devices through Python", python_of(folder, work), for_package, is_verbose),
            run_crate(folder, work, rows_for_crate(only), is_verbose),
            run_examples(folder, work),
        ])


def main():
    words = argparse.ArgumentParser(description="Tests the calls for C, the Python package, the Rust crate and the examples.")
    words.add_argument("folder")
    words.add_argument("--only", default="", help="only the rows whose name has this text")
    words.add_argument("--strict", action="store_true", help="all rows under valgrind")
    words.add_argument("-v", action="store_true", help="print each row that passed too")
    given = words.parse_args()
    passed, failed = run_library(given.folder, given.only, given.strict, given.v)
    print(f"{passed} passed, {failed} failed")
    return 1 if failed or not passed else 0


if __name__ == "__main__":
    sys.exit(main())
