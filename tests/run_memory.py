#!/usr/bin/env python3
"""Runs the program, and the programs that answer calls, with each request for memory refused in turn, by tests/refuse.c.

    run_memory.py PROGRAM

A run of the program whose request was refused has to end as the run with ample memory does; or with status 3 and the one line
'out of memory' on standard error, where what it printed before is a beginning of what it prints with ample memory. The built
programs that answer calls read those rows of tests/calls that are for this (tests/run_calls.py): each answer has to be that with
ample memory, or to say 'no memory', and a reader of items that had none answers so from then on; or the program ends with status
3 and that line. There is a line for each command and each program of calls with its number of requests. The last line is 'N
passed, M failed', and the status is 0 only where none failed.
"""
import argparse
import os
import re
import shutil
import subprocess
import sys
import tempfile
from concurrent.futures import ThreadPoolExecutor

from run_calls import ACTED, parts_of_refusals, programs, written_of

HERE = os.path.dirname(os.path.abspath(__file__))
TOP = os.path.dirname(HERE)
AT_ONCE = 3
GATEWAY, BROKEN, COSE, COSE_BROKEN = (
    os.path.join(TOP, "examples", name)
    for name in ("gateway.cddl", "broken.cborseq", "cose_sign1.cddl", "cose_sign1_broken.cborseq"))
# Words of a command, in which a text with a line feed stands for a file with this text, whose characters are one byte each.
COMMANDS = [
    ["check", GATEWAY],
    ["validate", GATEWAY, BROKEN],
    ["show", BROKEN],
    ["rewrite", GATEWAY, BROKEN],
    ["rewrite", "--deterministic", GATEWAY, BROKEN],
    ["rewrite", "--deterministic", COSE, COSE_BROKEN],
    ["show", "no such\tfile"],
    ["show", "--depth", "\x1b0"],
    ["validate", COSE, COSE_BROKEN],
    ["check", "a = [b, c<int>, ~d, &(x: 1)]\nb = (int // tstr)\nc<t> = [* t]\nd = #6.1(any)\n"],
    ["check", "a = [b]\nb = (int // c)\n"],
    ["check", "a = [~b]\nb = int\n"],
    ["check", "--explain", "a = [b]\n\tb = (int //\tc)\n"],
    ["check", "--explain", "--root", "\x1b s", "r = int\n"],
    ["check", "--explain", "a = [,\n"],
    ["check", "--explain", "a = [b<int>]\nb<s, t> = [s, t]\n"],
    ["check", "--explain", "a = [x..y]\n"],
    ["check", "--explain", "a = (int, tstr)\nb = [a]\n"],
    ["validate", "--explain", "r = [tstr / b, int]\nb = { c: 1..5, d: #6.1(tstr) }\n", "\x82ax\x00\x82\x00\x00\n"],
    ["validate", "--explain", "r = { b: [int, c], * tstr => c }\nc = bytes .cbor tstr\n", "\xa2ab\x82\x01A`axA\n"],
    ["validate", "--explain", "a = [? int, int]\n", "\x81\n"],
    ["validate", "--explain", "m = { uint => any, * uint => any }\n", "\xa2\x00\n\x01\n"],
    ["validate", "--explain", "--root", "tstr", "a = int\n", "\n"],
    # entries behind ~ and in groups with arguments, and types of a rule with arguments
    ["validate", "--explain", "m = { ~r, ~s<int> }\nr = q\nq = { a: tstr }\ns<t> = { b: t }\n", "\xa2aaaxab`\n"],
    ["validate", "--explain", "r = m<int>\nm<t> = { a: t, * g<t> }\ng<s> = ( tstr => s )\n", "\xa1aaax\n"],
    ["validate", "--explain", "a = [~b, g<int>]\nb = [tstr, c]\nc = uint\ng<t> = (t, t)\n", "\x84ax\x01\x01ay\n"],
    ["rewrite", "--explain", "r = [int, tstr]\n", "\x82\x01ax\x81\n"],
    ["check", "--explain", "a = [~b, 0..tstr, {int, * (c: int, d: int)}, a .eq uint]\nb = int\n"],
    ["check", "r = [a]\na = [g]\ng = (? int, g)\n"],
    ["check", "r = [a]\na = [5..tstr, 3*2 int]\n"],
    ["check", "r = (a: 1, b: [c])\nc = (d //\n"],
    ["check", "a /= 1 / 'x' / h'00' / b64'AA' / \"\\u{1F600}\" / -1 / 0x13 / #7.20 / #6.<b>(c)\nb = 1..2\nc = any\n$s /= 3\nd = [* $$g, $s]\n"],
    ["check", "m = {a: int, ? 1 ^ => m, k => [* m], (b: 1 // c: 2), ? (d: 1), * $$e, + p<5>, ~n, 2*3 #6.<7>({int => any}) => any}\n"
     "k = 1 / 'x'\n$$e //= (? 6 => tstr // * 7 => bool)\np<t> = (t => t)\nn = {e: 1}\n"],
    ["check", "m = {a: int, g}\ng = (b: int, [* m])\n"],
    ["check", "m = {* (a: int // b: int, c: int)}\n"],
    ["check", "m = {g}\ng = (a: int, ? h)\nh = (b: int, ? g)\n"],
    ["check", "m = {f, f, k}\nf = (k, k, k, k, k)\nk = (a: 1 // b: 1)\n"],
    ["check", "--root", "s", "r = int\ns = [* ~t]\nt = [+ r]\n"],
    # literals that are computed, and sizes: "xyz", 3, a byte string of 2 bytes, and one of 3
    ["validate", "a = b / c / bstr .size s\nb = \"x\" .cat d\nc = 1 .plus 2\nd = \"y\" .det '  z'\ns = 2 / t\nt = 4..5\n", "cxyz\x03B\n\x01C\n\x01\x01"],
    ["check", "a = [b, c]\nb = \"x\" .cat 1\nc = \"\" .cat h'ff'\n"],
    ["check", "a = [b, c]\nb = \"\" .cat h'ff'\nc = # .size (1 / 'x')\n"],
    # maps whose keys fall: one by itself, one as a key and as a value, and one that is a key that another one repeats
    ["rewrite", "--deterministic", "a = any\n", "\xa2\x02\n\x01\n\xa1\xa2\x02\n\x01\n\xa2\x02\n\x01\n\xa2\xa2\x01\n\x02\n\x00\xa2\x02\n\x01\n\x00"],
    # byte strings that hold 10, 1 and 2; 10 in a byte string; and 10 and then an item that ends inside
    ["validate", "r = bstr .cborseq [* t]\nt = uint / bstr .cbor t\n", "C\n\x01\x02BA\nB\n\x18"],
]


def run(words, shim, given=b"", **how):
    """The status of a run, and what it printed on standard output and on standard error."""
    env = {**os.environ, **how, "LD_PRELOAD": shim}
    ran = subprocess.run(words, env=env, input=given, stdout=subprocess.PIPE, stderr=subprocess.PIPE)
    return ran.returncode, ran.stdout, ran.stderr


def is_right(ample, told):
    status, out, err = told
    return told == ample or (status == 3 and err == b"out of memory\n" and ample[1].startswith(out))


def lines_in(out):
    return out.decode(errors="replace").split("\n")[:-1]


def is_lost_session(want, it):
    """Whether a session answers as it should up to want of memory, keeps to that, and has taken the items that it handed out."""
    lost = next((at for at, (a, b) in enumerate(zip(want, it)) if a != b), None)
    if lost is None or len(want) != len(it) or not it[lost].endswith("no memory"):
        return False
    if not want[lost].startswith(it[lost].removesuffix("no memory")):
        return False
    if len(it) == 1:
        return True
    *parts, rejected, count = it
    handed_out = sum(part.count("; ") for part in parts)
    return rejected == "none" and all(part == "no memory" for part in parts[lost + 1:]) and count.startswith(f"taken {handed_out}, ")


def is_lost_run(want, it):
    """Whether a run wrote just what the items before want of memory have, or all but the line of the end was made again."""
    items = re.match(r"no memory after (\d+);", it[0])
    if items and not want[1].startswith("item "):
        return want[1].startswith(it[1].replace("none", ""))
    if items:
        return it[1:] == (want[1:int(items[1]) + 1] or ["none"])
    return it[0].startswith("no memory for a line;") and it[1:] == want[1:]


def is_lost_act(want, it):
    """Whether the program told want of memory, after a beginning of what it is to write; or did not come to act."""
    wanted, got = ACTED.fullmatch(want), ACTED.fullmatch(it)
    if not got:
        return it == "no options"
    return got[1] == "3" and got[2] == '"out of memory\\n"' and written_of(wanted[3]).startswith(written_of(got[3]))


def wants_memory(call, want, it):
    """Whether this is an answer that says so, where the call may. A machine says so only where it lacks room at its
    beginning, or has no room for one more question."""
    if call.startswith("session."):
        return is_lost_session(want.split(" | "), it.split(" | "))
    if call.startswith("tool.act "):
        return is_lost_act(want, it)
    if call.startswith(("tool.", "validate.")):
        return "no memory" in it or "out of memory" in it
    if call.startswith("run."):
        return is_lost_run(want.split(" / "), it.split(" / "))
    if call.startswith(("text.", "root.")):
        return it == "no answer"
    open_at_most = re.search(r"at most (\d+) open", want)
    if open_at_most:
        return it == "no room" or "no memory" in it and int(open_at_most[1]) > int(call.split(" ")[3])
    return "no memory" in it


def are_answers(calls, ample, told):
    """Whether a run of calls answers each as with ample memory, or with want of it; a reader of items keeps to that."""
    wanted, got = lines_in(ample[1]), lines_in(told[1])
    is_lost = False
    for call, want, it in zip(calls, wanted, got):
        name = call.split(" ")[0]
        is_lost = is_lost and name != "read.new"
        if is_lost and name in ("read.feed", "read.feed_all", "read.at_end"):
            want = "no memory"
        if it != want and not wants_memory(call, want, it) and not (is_lost and it == "none"):
            return False
        is_lost = is_lost or name in ("read.feed", "read.feed_all") and re.search(r"(^|; )no memory$", it) is not None
    is_whole = len(got) == len(wanted) == len(calls) and told[0] == 0 and not told[2]
    return is_whole or told[0] == 3 and told[2] == b"out of memory\n" and len(got) <= len(wanted)


def run_command(words, shim, folder, pool, is_right=is_right, given=b""):
    """Whether each run of a command is right, and how many requests for memory it makes."""
    count = f"{folder}/count"
    ample = run(words, shim, given, COUNT=count)
    with open(count, encoding="ascii") as file:
        made = int(file.read())
    told = pool.map(lambda number: (number, run(words, shim, given, REFUSE=str(number))), range(1, made + 1))
    wrong = [(number, it) for number, it in told if not is_right(ample, it)]
    for number, it in wrong[:3]:
        print(f"with request {number} refused: status {it[0]}, {it[1][-200:]!r}, {it[2]!r}")
    return not wrong, made


def run_lines(calls, shim, folder, pool):
    """The same of the lines that are asked of a program of calls, part by part."""
    is_good, requests = True, 0
    for lines in parts_of_refusals(calls):
        given = "".join(f"{it}\n" for it in lines).encode()
        good, made = run_command([calls], shim, folder, pool, lambda ample, told, it=lines: are_answers(it, ample, told), given)
        is_good, requests = is_good and good, requests + made
    return is_good, requests


def run_memory(program):
    """Runs all commands and the calls, and returns how many passed and failed."""
    passed = failed = 0
    with tempfile.TemporaryDirectory() as folder, ThreadPoolExecutor(AT_ONCE) as pool:
        shim = f"{folder}/refuse.so"
        compiler = shutil.which("cc") or shutil.which("clang") or "cc"
        subprocess.run([compiler, "-O1", "-shared", "-fPIC", "-o", shim, f"{HERE}/refuse.c"], check=True)
        for place, command in enumerate(COMMANDS):
            words = [os.path.abspath(program)]
            for word in command:
                if "\n" in word:
                    path = f"{folder}/{place}.{len(words)}"
                    with open(path, "w", encoding="latin-1") as file:
                        file.write(word)
                    word = path
                words.append(word)
            good, made = run_command(words, shim, folder, pool)
            passed, failed = passed + good, failed + (not good)
            told = command[0] + (" a text" if "\n" in "".join(command) else " an example")
            print(f"{told}: {made} requests, {'passed' if good else 'FAILED'}", flush=True)
        for calls in programs():
            good, made = run_lines(calls, shim, folder, pool)
            passed, failed = passed + good, failed + (not good)
            print(f"{os.path.basename(calls)}: {made} requests, {'passed' if good else 'FAILED'}", flush=True)
    return passed, failed


def main():
    words = argparse.ArgumentParser(description="Refuses each request of a program for memory in turn.")
    words.add_argument("program")
    given = words.parse_args()
    passed, failed = run_memory(given.program)
    print(f"{passed} passed, {failed} failed")
    return 1 if failed else 0


if __name__ == "__main__":
    sys.exit(main())
