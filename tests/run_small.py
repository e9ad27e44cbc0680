#!/usr/bin/env python3
"""Runs the program on hostile specifications and items in little room: with a stack of 128 KiB ('ulimit -s 128'), and with an
address space from 4 MiB up ('ulimit -v 4096' and more), in steps of 32 KiB until it ends four times as with ample room.

    run_small.py [--least] PROGRAM

A run has to end as the one with ample room does; or with status 3 and the one line 'out of memory' on standard error, where what
it printed before is a beginning of what it prints with ample room. A signal is never right. There is a line for each input whose
runs are not all right. The last line is 'N passed, M failed', and the status is 0 only where none failed.

With --least there is a line for each input with the least stack with which no command on it ends by a signal, and nothing else.
"""
import argparse
import os
import subprocess
import sys
import tempfile
from concurrent.futures import ThreadPoolExecutor

AT_ONCE = 3
STACK = 128
LEAST_ROOM, STEP, MOST_ROOM = 4096, 32, 65536
# With so much address space in a row a run ends as with ample room before no more is tried.
ENOUGH = 4
LONG_STRING = b"\x5a\x00\x02\x49\xf0" + bytes(150000)


def held(content):
    """The byte string with this content."""
    return b"\x59" + len(content).to_bytes(2, "big") + content


def nested(before, count, inside, after=b""):
    return before * count + inside + after * count


def held_again(count, inside):
    """So many byte strings, each in an array in the one round it."""
    for _ in range(count):
        inside = held(b"\x81" + inside)
    return inside


ARRAYS = nested(b"\x81", 256, b"\1")
KEYS = nested(b"\xa1", 256, b"\1", b"\1")
KEYS_TO_BREAKS = nested(b"\xbf", 256, b"\1", b"\1\xff")
# maps that are values, and maps that are keys, with pairs that are not in the order of their keys
FALLING = nested(b"\xa2\2", 256, b"\1", b"\1\0")
FALLING_KEYS = nested(b"\xa2", 256, b"\1", b"\0\0\0")
# maps that are keys, whose other key is not surely another one
APART = nested(b"\xa2", 256, b"\1", b"\1\xf5\1")
# maps that are keys, with two keys that are the same in the innermost
REPEATED = nested(b"\xa1", 255, b"\xa2\1\1\1\1", b"\1")

ITEMS = {
    "arrays": ARRAYS,
    "arrays to breaks": nested(b"\x9f", 256, b"\1", b"\xff"),
    "tags": nested(b"\xc1", 256, b"\1"),
    "maps that are values": nested(b"\xa1\1", 256, b"\1"),
    "maps that are values, as many as are asked about on a tape": nested(b"\xa1\1", 60, b"\1"),
    "maps that are keys": KEYS,
    "maps to breaks that are keys": KEYS_TO_BREAKS,
    "maps whose keys fall": FALLING,
    "maps that are keys, whose keys fall": FALLING_KEYS,
    "maps that are keys beside others": APART,
    "a repeated key in arrays": nested(b"\x81", 255, b"\xa2\1\1\1\1"),
    "a repeated key in keys": REPEATED,
    "a repeated key in a key in values": b"\xa1" + nested(b"\xa1\1", 254, b"\xa2\1\1\1\1") + b"\1",
    "a repeated key in keys in values": nested(b"\xa1\1", 100, nested(b"\xa1", 155, b"\xa2\1\1\1\1", b"\1")),
    "a repeated key in values": nested(b"\xa1\1", 255, b"\xa2\1\1\1\1"),
    "arrays, one too many": nested(b"\x81", 257, b"\1"),
    "arrays that do not end": b"\x81" * 256,
    "a text in arrays that is none": nested(b"\x81", 256, b"\x61\xff"),
    "a byte in arrays that begins nothing": nested(b"\x81", 256, b"\xfc"),
    "arrays that end in a simple value": nested(b"\x81", 256, b"\xf4"),
    "maps that are values beside a long string": b"\x82" + LONG_STRING + nested(b"\xa1\1", 254, b"\1"),
    "maps that are keys beside a long string": b"\x82" + LONG_STRING + nested(b"\xa1", 254, b"\1", b"\1"),
    "strings in arrays in strings": held_again(200, b"\1"),
    # more than may be read in their strings, which ends as want of memory
    "too many strings in arrays in strings": held_again(1200, b"\1"),
    "these beside arrays": b"\x82" + nested(b"\x81", 250, b"\1") + held_again(1200, b"\1"),
    "maps that are keys in 16 strings": held_again(16, held(nested(b"\xa1", 240, b"\1", b"\1"))),
    "a repeated key in keys in 16 strings": held_again(16, held(nested(b"\xa1", 240, b"\xa2\1\1\1\1", b"\1"))),
}
HELD = {"arrays": ARRAYS, "keys": KEYS, "keys to breaks": KEYS_TO_BREAKS, "falling pairs": FALLING, "keys beside others": APART, "a repeated key": REPEATED}
for name, content in HELD.items():
    ITEMS[f"{name} in a string in arrays"] = nested(b"\x81", 90, held(content))
    ITEMS[f"{name} in a string in maps"] = nested(b"\xa1\1", 90, held(content))

ANY = "r = any\n"
# An item in itself as a member, as a key and as a value, and in byte strings, where the matcher goes as deep as it does.
ITSELF = "r = [* r] / {* (r => r)} / #6.1(r) / bstr .cbor r / bool / int\n"
GROUPS = "r = [(r // int, r)] / {? (r => r), * int => int} / bstr .cbor h / #6.1(r) / int\nh = {* h => h} / [* h] / bool / int\n"
CONTROLS = "r = [a] / {1 => a}\na = (r .and any) / bstr .cbor c / bstr .cborseq [* c] / int\nc = [* c] / {* c => c} / (any .and d)\nd = any\n"
# Alternatives of many entries, of which a map keeps to which each pair belongs.
ENTRIES = ", ".join(f"? {it} => r" for it in range(1, 13))
ALTERNATIVES = f"r = {{{ENTRIES}, ? 20 => int // {ENTRIES}, ? 21 => int}} / int\n"
# A mismatch in the innermost place, whose path is told.
TEXTS = "r = [* r] / {* r => r} / {* any => r} / #6.1(r) / text\n"


def all_open(before, after="", inside="int", count=128):
    """A specification with so many brackets in each other: as many as may be."""
    return f"r = {before * count}{inside}{after * count}\nb = any\nf<x> = x\n"


SPECIFICATIONS = {
    "arrays": all_open("[", "]"),
    "maps": all_open("{1 => ", "}"),
    "parentheses": all_open("(", ")"),
    "parentheses in an array": "r = [" + "(" * 127 + "int" + ")" * 127 + "]\n",
    "groups": "r = [" + "(b // " * 127 + "int" + ")" * 127 + "]\nb = 1\n",
    "groups in a rule of a group": "r = [g]\ng = " + "(b // 1: b // " * 127 + "(int // b)" + ")" * 127 + "\nb = 1\n",
    "tags": all_open("#6.1(", ")"),
    "numbers of tags": all_open("#6.<", ">(0)", "0"),
    "simple values": all_open("#7.<", ">", "0"),
    "choices of groups": all_open("&(", ")", "1"),
    "choices of alternatives": all_open("b / &(b // b: ", ")", "1"),
    "controls in parentheses": all_open("(", " .and b)", "b"),
    "ranges": all_open("(0..", ")", "1"),
    "controls of arrays": all_open("[b .and ", "]", "b"),
    "controls of arrays in alternatives": all_open("[b // b / b .and ", "]", "b"),
    "arrays that do not end": all_open("["),
    "alternatives that do not end": all_open("[b // b / "),
    "maps that do not end": all_open("{1 => "),
    "arrays, one too many": all_open("[", "]", count=129),
    "alternatives": all_open("[b // b / ", "]"),
    "values of maps": all_open("{1: b // 1 => b / ", "}"),
    "keys of maps": all_open("{", " => 1}", "1"),
    "keys of maps in alternatives": all_open("{b // b / b // ", " => 1}", "1"),
    "choices": all_open("b / (", ")"),
    "arguments": all_open("f<", ">"),
    "an undefined name": all_open("[b // b / ", "]", "no_such_name"),
    "alternatives, and a bracket too many": all_open("[b // b / ", "]").replace("\nb =", "]\nb =", 1),
    "values of maps in a map whose next key has no type": "r = {" + "{1: b // 1 => b / " * 127 + "int" + "}" * 127 + " : }\nb = any\n",
}


def inputs():
    """The name of each input, and the commands on it: their words, in which bytes stand for a file of these."""
    for name, text in SPECIFICATIONS.items():
        yield f"specification: {name}", [["check", text.encode()], ["validate", text.encode(), b"\1"]]
    for name, item in ITEMS.items():
        commands = [["show", item], ["rewrite", ANY.encode(), item], ["rewrite", "--deterministic", ANY.encode(), item]]
        yield f"item: {name}", commands + [["validate", spec.encode(), item] for spec in (ITSELF, GROUPS, CONTROLS, ALTERNATIVES, TEXTS)]


def run(limit, words):
    """The status of a run within a limit of 'ulimit', and what it printed. Its environment is empty, which takes room on the stack."""
    ran = subprocess.run(["/bin/sh", "-c", f'{limit}exec "$@"', "", *words], env={}, stdin=subprocess.DEVNULL, capture_output=True)
    return ran.returncode, ran.stdout, ran.stderr


def is_right(ample, told):
    status, out, err = told
    return told == ample or (status == 3 and err == b"out of memory\n" and ample[1].startswith(out))


def is_ended(told):
    """Whether a run ended by itself: of one that a signal ends the status is below 0."""
    return told[0] >= 0


def wrong_runs(words):
    """The limits with which a command does not end as it has to."""
    ample = run("", words)
    if not is_ended(ample):
        return ["none"]
    limit = f"ulimit -s {STACK}; "
    wrong = [] if is_right(ample, run(limit, words)) else [limit]
    room, in_a_row = LEAST_ROOM, 0
    while room <= MOST_ROOM and in_a_row < ENOUGH:
        limit = f"ulimit -v {room}; "
        told = run(limit, words)
        if not is_right(ample, told):
            wrong.append(limit)
        in_a_row = in_a_row + 1 if told == ample else 0
        room += STEP
    return wrong


def least_stack(words):
    """The least stack in KiB with which a command ends by itself."""
    low, high = 16, 1024
    while high - low > 1:
        middle = (low + high) // 2
        if is_ended(run(f"ulimit -s {middle}; ", words)):
            high = middle
        else:
            low = middle
    return high


def with_files(program, commands, folder, number):
    """The words of each command, with a file for bytes."""
    found = []
    for place, command in enumerate(commands):
        words = [os.path.abspath(program)]
        for word in command:
            if isinstance(word, bytes):
                path = f"{folder}/{number}.{place}.{len(words)}"
                with open(path, "wb") as file:
                    file.write(word)
                word = path
            words.append(word)
        found.append(words)
    return found


def of_each_input(program, ask):
    """What is asked of each command, for each input."""
    with tempfile.TemporaryDirectory() as folder, ThreadPoolExecutor(AT_ONCE) as pool:
        for number, (name, commands) in enumerate(inputs()):
            files = with_files(program, commands, folder, number)
            yield name, [command[0] for command in commands], list(pool.map(ask, files))


def run_small(program):
    """Runs all commands on all inputs, and returns how many passed and failed."""
    passed = failed = 0
    for name, commands, wrong in of_each_input(program, wrong_runs):
        for command, limits in zip(commands, wrong):
            passed, failed = passed + (not limits), failed + bool(limits)
            if limits:
                print(f"{name}: {command} FAILED with {len(limits)} limits: {''.join(limits[:3])}", flush=True)
    return passed, failed


def main():
    words = argparse.ArgumentParser(description="Runs the program in little room.")
    words.add_argument("--least", action="store_true", help="say how much stack each input takes")
    words.add_argument("program")
    words = words.parse_args()
    if words.least:
        for name, commands, least in of_each_input(words.program, least_stack):
            print(f"{name}: {max(least)} KiB ({commands[least.index(max(least))]})", flush=True)
        return 0
    passed, failed = run_small(words.program)
    print(f"{passed} passed, {failed} failed")
    return 1 if failed else 0


if __name__ == "__main__":
    sys.exit(main())
