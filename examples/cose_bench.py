#!/usr/bin/env python3
"""A test bench for a device that sends messages with one signature (RFC 9052), each as a CBOR item, one after the other.

    cose_bench.py COMMAND..

COMMAND is run, and stands for the device: what it writes to standard output is read as it comes. Each message has to match
cose_sign1.cddl, to be spelled in preferred encoding (RFC 8949, section 4.1), and to name an algorithm in its protected headers. There is
a line for each message, and the status is 0 only where all are right. The package cddlseq of the folder 'python' does the work.
"""
import os
import subprocess
import sys

from cddlseq import Failed, Specification

FOLDER = os.path.dirname(os.path.abspath(__file__))
# Messages with any headers, and the same with an algorithm under signature: a map with the label 1, in a byte string.
NAMES_ALGORITHM = """
signed = #6.18(parts) / parts
parts = [bstr .cbor {1 => int / tstr, * (int / tstr) => any}, {* any => any}, bstr / nil, bstr]
"""


def faults_of(message, named):
    """What is wrong with a message that matches."""
    if named.validate(message).cause:
        yield "no algorithm is signed"
    if named.rewrite(message).data not in (message, b""):
        yield "not in preferred encoding"


def run(command):
    """Reads the messages of the device, and answers how many are right, and whether all are."""
    with open(os.path.join(FOLDER, "cose_sign1.cddl"), encoding="utf-8") as file:
        specification = Specification(file.read())
    named, right, all_right = Specification(NAMES_ALGORITHM), 0, True
    with subprocess.Popen(command, stdout=subprocess.PIPE) as device:
        try:
            for number, message in enumerate(specification.items(device.stdout), 1):
                faults = list(faults_of(message.data, named))
                print(f"message {number} at {message.offset}: {', '.join(faults) or 'right'}")
                right += not faults
                all_right &= not faults
        except Failed as failed:
            end = failed.end
            at = f" at {end.path}: {end.notation}" if end.path else ""
            print(f"message {end.items + 1} at {end.offset}: {end.cause.name}{at}")
            all_right = False
    return right, all_right and device.returncode == 0


def main():
    if len(sys.argv) < 2:
        sys.exit(__doc__)
    right, all_right = run(sys.argv[1:])
    print(f"{right} messages are right")
    return 0 if all_right else 1


if __name__ == "__main__":
    sys.exit(main())
