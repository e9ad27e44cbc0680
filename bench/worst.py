#!/usr/bin/env python3
"""Measures the built program on the worst specifications and items that are known, at two sizes each, one about twice the other.

    worst.py [--only TEXT] [--make FOLDER] PROGRAM

Each run may have 60 seconds of processor time, and 8,000,000 KiB of address space ('ulimit -v 8000000'), and of those that take
under 2 seconds the least of three counts. The columns: the bytes of the larger input, the processor time on it in seconds and its
growth from the smaller one, the peak memory on it in MiB and its growth, the bytes of memory for each byte of the larger input,
and what the program answered. What an empty input takes is in all of them: 1 ms and 2 MiB. Nothing fails here: it is a table of
what is bounded and of what is not, and no part of 'make bench'. With --make the inputs are left in a folder, and nothing is run.
It needs bash and GNU time.
"""
import argparse
import os
import subprocess
import sys
import tempfile

from specifications import KIB, generic, held_strings
from streams import encoded, head, MIB

SECONDS, ROOM = 60, 8_000_000
RUNS, SHORT = 3, 2
MOST_SHOWN = 40


def rows(count, row, between=", "):
    """So many rows, each with its number in the place of N and the next one in that of M."""
    return between.join(row.replace("N", str(it)).replace("M", str(it + 1)) for it in range(count))


def arguments(size):
    """So many calls of a rule, each with its own argument; the body has eight parts for each call."""
    return f"r = [{rows(size, 'm<N>')}]\nm<t> = [{rows(8 * size, 't', ' / ')}]\n"


def maps_of_a_group(size):
    """So many maps, each with an entry of its own and a group that has four entries for each map."""
    return f"r = [{rows(size, '{N: a, g}')}]\na = int\ng = ({rows(4 * size, '? N => a')})\n"


def maps_of_alternatives(size):
    """So many maps, each with an entry of its own and one of the same 512 alternatives."""
    return f"r = [{rows(size, '{N: 1, q}')}]\nq = ({rows(512, '9000N: 1', ' // ')})\n"


def sizes(size):
    """So many sizes, each of which has one member more than the same list, of twice as many."""
    return f"r = [{rows(size, 'bstr .size (s / 9000N)')}]\ns = {rows(2 * size, 'N', ' / ')}\n"


def joins(size):
    """A text of 32 KiB, joined with so many short ones."""
    return f"r = [{rows(size, 's .cat %N%')}]\ns = %{'i' * 32 * KIB}%\n".replace("%", '"')


def strings(count, inside=b"\0", before=b""):
    """So many byte strings in each other, with something before each string that one holds; and the same before all."""
    heads, length = [], len(inside)
    for _ in range(count):
        front = head(2, length)
        heads.append(before + front)
        length += len(front) + len(before)
    return b"".join(reversed(heads)) + inside


def long_literals(size):
    """A choice of so many arrays, each of texts that are the same long one, and of a number at its end."""
    return f"r = {rows(size, '[* t, N]', ' / ')}\nt = %{'a' * 200 * size}%\n".replace("%", '"')


def literal_keys(size):
    return f"r = {{{rows(size, '? N => int')}, * int => int}}\n"


def other_keys(size):
    return head(5, size) + b"".join(encoded(100_000 + it) + b"\0" for it in range(size))


def optional_entries(size):
    return f"r = [* {{{rows(size, '? N => int')}}}]\n"


def alike_bodies(size):
    """So many calls of a rule with two parameters, of which the body has the first one alone, eight times for each call."""
    return f"r = [{rows(size, 'm<int, N>')}]\nm<t, u> = [{rows(8 * size, 't', ' / ')}]\n"


def chain_of_names(size):
    return f"t = a0\n{rows(size, 'aN = aM', chr(10))}\na{size} = int / bstr .cbor t\n"


def numbers(size):
    return head(4, size) + bytes(size)


def tags(size):
    """An array of numbers, each in 200 tags: so many bytes of them."""
    return head(4, size // 201) + (b"\xc1" * 200 + b"\0") * (size // 201)


def deep(choices, further=""):
    """A specification of these alternatives, in any number of arrays; and 70 arrays for an item."""
    return f"r = a\na = [a] / x\nx = {choices}\n{further}", b"\x81" * 70


def deep_strings_of_tags(size):
    """One string of tags, which 40 alternatives read."""
    spec, front = deep(rows(40, "bstr .cbor [N, * any]", " / "))
    return spec, front + encoded_string(tags(size))


def deep_short_strings(size, content=b"\0"):
    """So many strings of a number, which 60 alternatives read one by one."""
    spec, front = deep(rows(60, "[* s, 2N]", " / "), "s = bstr .cborseq [* int]\n")
    return spec, front + head(4, size) + encoded_string(content) * size


def nested(size, opening, closing):
    """So many rules, each of 120 of these in each other."""
    return rows(size, f"tN = {opening * 120}int{closing * 120} / tM", chr(10)) + f"\nt{size} = 1\n"


def levels_of_tags(size):
    """20 strings in each other, each beside an array of tags, of which each is read twice by the one round it."""
    item = b"\0"
    for _ in range(20):
        item = b"\x82" + tags(size // 20) + encoded_string(item)
    return "t = [any, bstr .cbor t, any] / [any, bstr .cbor t] / int\n", item


def encoded_string(content):
    return head(2, len(content)) + content


def kept_and_waiting(size):
    """A string of tags that 15 alternatives read, beside strings in each other that are asked about by 2,000 names."""
    spec, front = deep("[k, t]", f"k = {rows(15, 'bstr .cbor [N, * any]', ' / ')} / any\n{chain_of_names(2000)}")
    return spec, front + b"\x82" + encoded_string(tags(size // 2)) + strings(size // 10)


CHECKS = [
    ("calls with other arguments, and a long body", arguments, 500, 1000),
    ("a call of itself with a longer argument", lambda size: f"r = [b<int>]\nb<t> = [t, ? b<[{rows(size, 't')}]>]\n", 400, 800),
    ("calls with other arguments, and bodies that are alike", alike_bodies, 500, 1000),
    ("maps that share a group of many entries", maps_of_a_group, 2000, 4000),
    ("maps that share a group of many empty groups", lambda size: f"r = [{rows(size, '{N: 1, g}')}]\ng = ({rows(4 * size, '()')})\n", 2000, 4000),
    ("maps that share a group of 512 alternatives", maps_of_alternatives, 2000, 4000),
    ("sizes that extend one list", sizes, 2000, 4000),
    ("joins of a text of 32 KiB", joins, 1000, 2000),
    ("a rule of many parameters", lambda size: generic(size, 1, ""), 256 * KIB, 512 * KIB),
    ("the same, not reached", lambda size: generic(size, 0, ""), 256 * KIB, 512 * KIB),
    ("rules of 120 choices of groups in each other", lambda size: nested(size, "&(", ")"), 128, 256),
    ("the same, with a parameter in each", lambda size: f"r = [{rows(size, 'tN<int>')}]\n" + rows(size, f"tN<a> = {'&(' * 120}a{')' * 120}", chr(10)), 64, 128),
    ("rules of 120 maps in each other", lambda size: nested(size, "{1:", "}"), 128, 256),
    ("a list in 120 parentheses", lambda size: f"r = [{'(' * 120}{rows(size, 'N')}{')' * 120}]\n", 10_000, 20_000),
]
SUIT = os.path.join(os.path.dirname(os.path.dirname(os.path.abspath(__file__))), "examples", "suit.cddl")
HELD, TWICE = "t = int / bstr .cbor t\n", "t = int / bstr .cbor t / bstr .cbor t\n"
# The words between 'validate' and the files, the specification and the item at a size, and two sizes.
ITEMS = [
    ("strings in each other, .cbor", [], lambda size: (HELD, strings(size)), 20_000, 40_000),
    ("1,000 strings in chunks, each in the next one", [], lambda size: (HELD, held_strings(size)[0]), 32 * KIB, 64 * KIB),
    ("strings in arrays in strings", [], lambda size: ("t = int / [bstr .cbor t]\n", strings(size, before=b"\x81")), 8000, 16_000),
    ("run-sequence of SUIT in itself", ["--root", "SUIT_Command_Sequence"],
     lambda size: (None, strings(size, b"\x82\x03\x0f", b"\x82\x18\x20")), 10_000, 20_000),
    ("7 and 8 strings round 1 MiB, asked about twice", [], lambda size: (TWICE, strings(size, numbers(MIB))), 7, 8),
    ("texts of up to 500 KB, compared 16 times by each array", [],
     lambda size: (long_literals(size), head(4, 16) + 16 * encoded("a" * 200 * size)), 1250, 2500),
    ("a long array, taken by so many arrays with a number", [],
     lambda size: (f"r = {rows(size, '[any, N]', ' / ')}\n", head(4, 2) + numbers(200 * size) + encoded(size)), 1250, 2500),
    ("names in a chain, and as many strings in each other", [], lambda size: (chain_of_names(size), strings(size)), 1000, 2000),
    ("many strings in each other, and 2,000 names", [], lambda size: (chain_of_names(2000), strings(size)), 100_000, 200_000),
    ("a string of tags, read by 40 alternatives, 70 arrays deep", [], deep_strings_of_tags, 512 * KIB, MIB),
    ("a string of tags, read by 15, beside strings for 2,000 names", [], kept_and_waiting, 512 * KIB, MIB),
    ("strings of a number, read by 60, 70 arrays deep", [], deep_short_strings, 8 * KIB, 16 * KIB),
    ("empty strings, read by 60, 70 arrays deep", [], lambda size: deep_short_strings(size, b""), 8 * KIB, 16 * KIB),
    ("tags beside 20 strings in each other, read twice", [], levels_of_tags, 512 * KIB, MIB),
    ("empty maps, and so many entries that may be absent", [],
     lambda size: (optional_entries(size), head(4, size) + b"\xa0" * size), 8000, 16_000),
    ("other keys than so many literal ones", [], lambda size: (literal_keys(size), other_keys(size)), 8000, 16_000),
]


def shapes(program):
    """The name of each shape, what makes the words of a run on it of a size, where bytes stand for a file, and both sizes."""
    for name, make, *both in CHECKS:
        yield name, lambda size, make=make: [program, "check", make(size).encode()], both
    for name, options, make, *both in ITEMS:
        def words(size, options=options, make=make):
            spec, item = make(size)
            return [program, "validate", "--quiet", *options, SUIT if spec is None else spec.encode(), item]
        yield name, words, both


def with_files(words, folder):
    """The words, with files for bytes, and how many bytes these are."""
    found, size = [], 0
    for number, word in enumerate(words):
        if isinstance(word, bytes):
            path = os.path.join(folder, f"input{number}")
            with open(path, "wb") as file:
                size += file.write(word)
            word = path
        found.append(word)
    return found, size


def run(words):
    """The processor time, the peak memory in bytes, and the answer. The shell starts the program: what a process has when it starts
    another one counts for that."""
    limits = f'ulimit -v {ROOM}; ulimit -t {SECONDS}; "$@" 2>&1 | head -c 200; exit ${{PIPESTATUS[0]}}'
    ran = subprocess.run(["/usr/bin/time", "-q", "-f", "%U %S %M", "bash", "-c", limits, "", *words], capture_output=True, text=True, errors="replace")
    user, system, kib = ran.stderr.split()[-3:]
    return float(user) + float(system), int(kib) * KIB, ran.stdout.strip().split("\n")[-1][:MOST_SHOWN] or f"status {ran.returncode}"


def measured(make, size):
    """The bytes of the input, the processor time, the peak memory and the answer."""
    with tempfile.TemporaryDirectory() as folder:
        words, length = with_files(make(size), folder)
        told = [run(words)]
        while told[0][0] < SHORT and len(told) < RUNS:
            told.append(run(words))
    return length, min(it[0] for it in told), max(it[1] for it in told), told[0][2]


def main():
    words = argparse.ArgumentParser(description="Measures the program on the worst inputs that are known.")
    words.add_argument("--only", default="", help="only the shapes whose name has this text")
    words.add_argument("--make", metavar="FOLDER", help="leave the inputs there")
    words.add_argument("program")
    words = words.parse_args()
    print(f"{'worst inputs':56} {'bytes':>9} {'seconds':>8} {'growth':>6} {'MiB':>7} {'growth':>6} {'a byte':>7}  answer")
    for name, make, both in shapes(os.path.abspath(words.program)):
        if words.only not in name:
            continue
        if words.make:
            for size in both:
                folder = os.path.join(words.make, f"{name.replace(' ', '_')}.{size}")
                os.makedirs(folder, exist_ok=True)
                print(" ".join(with_files(make(size), folder)[0]))
            continue
        (_, *small), (length, *large) = (measured(make, size) for size in both)
        print(f"{name:56} {length:9} {large[0]:8.2f} {large[0] / max(small[0], 0.01):6.2f} {large[1] / MIB:7.0f} {large[1] / small[1]:6.2f} "
              f"{large[1] / length:7.0f}  {large[2]}", flush=True)
    return 0


if __name__ == "__main__":
    sys.exit(main())
