#!/usr/bin/env python3
"""Measures the Python package on 100,000 messages of 100 bytes, beside the program and a stock decoder, and prints a table.

    package.py PROGRAM FOLDER

FOLDER has the libraries that scripts/library.py makes. These take turns, and the best processor time of each counts:

  program        PROGRAM validate --quiet, on a file with all messages
  validate       one call of Specification.validate, on the bytes of all messages
  validate_many  one call of Specification.validate_many, on a list of the messages
  items          Specification.items, which gives each message
  cbor2          Python's cbor2 (Debian's python3-cbor2), which decodes the messages into Python's objects and checks nothing; 'absent',
                 where there is none

What Python takes to begin and to read the file is taken off. The status is 1 where 'validate' takes more than 1.2 times the program's
time.
"""
import os
import resource
import subprocess
import sys

from streams import DATA, encoded

MESSAGES, LENGTH, RUNS, MOST = 100_000, 100, 5, 1.2
SPEC = 'message = {"id": uint, "device": tstr, "event": [uint, int], "data": bstr}\n'
TOP = os.path.dirname(os.path.dirname(os.path.abspath(__file__)))

# What is measured, in a process of its own, which prints its processor time for it.
SCRIPT = """
import sys, time
text, stream, count = open(sys.argv[1]).read(), open(sys.argv[2], "rb").read(), int(sys.argv[3])
{0}
began = time.process_time()
{1}
print(time.process_time() - began)
"""
PACKAGE = "from cddlseq import Specification; s = Specification(text); parts = [stream[at:at + 100] for at in range(0, len(stream), 100)]"
CALLS = {
    "validate": (PACKAGE, "assert s.validate(stream).items == count"),
    "validate_many": (PACKAGE, "assert all(it.items == 1 for it in s.validate_many(parts))"),
    "items": (PACKAGE, "assert sum(1 for it in s.items(stream)) == count"),
    "cbor2": ("import cbor2; parts = [stream[at:at + 100] for at in range(0, len(stream), 100)]", "for it in parts: cbor2.loads(it)"),
}


def message(number):
    """A message of 100 bytes."""
    parts = {"id": (1 << 32) + number, "device": f"sensor {number % 100:02}"}
    front = b"\xa4" + b"".join(encoded(key) + encoded(value) for key, value in parts.items())
    front += encoded("event") + b"\x82" + encoded(300 + number % 1000) + encoded(-1 - number % 20)
    front += encoded("data")
    return front + encoded(bytes(LENGTH - len(front) - 2))


def time_of_program(program, spec, path):
    before = resource.getrusage(resource.RUSAGE_CHILDREN)
    subprocess.run([program, "validate", "--quiet", spec, path], stdout=subprocess.DEVNULL, check=True)
    after = resource.getrusage(resource.RUSAGE_CHILDREN)
    return after.ru_utime + after.ru_stime - before.ru_utime - before.ru_stime


def time_of_call(python, name, spec, path, folder):
    """The time of a call, or None where this Python has no such package."""
    env = {**os.environ, "PYTHONPATH": os.path.join(TOP, "python"), "CDDLSEQ_LIBRARY": os.path.join(os.path.abspath(folder), "libcddlseq.so.1")}
    command = [python, "-B", "-c", SCRIPT.format(*CALLS[name]), spec, path, str(MESSAGES)]
    ran = subprocess.run(command, env=env, stdout=subprocess.PIPE, stderr=subprocess.PIPE, text=True)
    if ran.returncode and name != "cbor2":
        raise SystemExit(ran.stderr)
    return None if ran.returncode else float(ran.stdout)


def main():
    program, folder = sys.argv[1:]
    os.makedirs(DATA, exist_ok=True)
    spec, path = os.path.join(DATA, "messages.cddl"), os.path.join(DATA, "messages.cborseq")
    parts = [message(number) for number in range(MESSAGES)]
    assert all(len(it) == LENGTH for it in parts)
    with open(spec, "w", encoding="ascii") as file:
        file.write(SPEC)
    with open(path, "wb") as file:
        file.write(b"".join(parts))
    # Debian's package is for the system's Python.
    pythons = {name: sys.executable for name in CALLS}
    if time_of_call(sys.executable, "cbor2", spec, path, folder) is None:
        pythons["cbor2"] = "/usr/bin/python3"
    times = {}
    for _ in range(RUNS):
        for name in ("program", *CALLS):
            taken = time_of_program(program, spec, path) if name == "program" else time_of_call(pythons[name], name, spec, path, folder)
            if taken is not None:
                times[name] = min(taken, times.get(name, taken))
    for name in ("program", *CALLS):
        told = f"{times[name]:.3f} s  {times[name] / times['program']:.2f}" if name in times else "absent"
        print(f"{name:14} {told}")
    return times["validate"] > MOST * times["program"]


if __name__ == "__main__":
    sys.exit(main())
