#!/usr/bin/env python3
"""Whether the built program tells the same of a stream however it is cut, on random streams.

    random_cuts.py PROGRAM [--count N] [--start K]

Stream number K is always the same. Its items are written in any way that there is: with longer heads than are needed, with
lengths or up to a break, with repeated keys. In two of three streams a byte is changed, left out or put in, or the end is cut
off. Some begin with a string that is nearly as long as what the program reads at once, so that items lie on both sides of
that. Each stream is given once as a file and once through a pipe at random cuts, each piece only when the program has taken
the one before; output and status have to be the same. An item that is whole in its piece is read in another way than one that
comes in pieces, so this compares the two. Prints each stream that differs, in hex, and last 'N passed, M failed'.
"""
import argparse
import os
import random
import subprocess
import sys
import tempfile

from run_rows import feed, pipe

SECONDS = 60
# what is asked of each stream
COMMANDS = (["show"], ["show", "--depth", "3", "--item-bytes", "64"], ["rewrite", "SPEC"], ["validate", "--quiet", "SPEC"], ["validate", "KINDS"])
SPECIFICATION = b"item = int / tstr / bstr / [* item] / { * any => item } / #6(item) / float / nil\n"
# of items of which the major type tells that they match, of some that do and of some that do not
KINDS = b"item = int / tstr / #4 / #6(int) / float\n"


def head(chance, major, argument):
    """A head that is as short as it can be, or longer."""
    least = next(it for it in (0, 1, 2, 4, 8) if argument < (24 if it == 0 else 1 << 8 * it))
    size = chance.choice([it for it in (0, 1, 2, 4, 8) if it >= least]) if chance.random() < 0.2 else least
    if size == 0:
        return bytes([major << 5 | argument])
    return bytes([major << 5 | 23 + size.bit_length()]) + argument.to_bytes(size, "big")


def number(chance):
    return chance.choice([chance.randrange(24), chance.randrange(300), chance.getrandbits(32), chance.getrandbits(64)])


def string(chance, major):
    """A string in one part, or in chunks up to a break."""
    def part():
        size = chance.choice([0, 1, 2, 5, 30])
        text = "".join(chance.choice("ab\"\\\n\u00fc\u20ac\U0001f600") for _ in range(size)).encode()
        content = text if major == 3 else chance.randbytes(size)
        return head(chance, major, len(content)) + content
    if chance.random() < 0.8:
        return part()
    return bytes([major << 5 | 31]) + b"".join(part() for _ in range(chance.randrange(4))) + b"\xff"


def container(chance, deep, major):
    """An array or a map, with its length or up to a break."""
    count = chance.choice([0, 1, 1, 2, 3, 5, 40 if deep > 2 else 4])
    parts = b"".join(item(chance, deep + 1) for _ in range(count * (major - 3)))
    if chance.random() < 0.7:
        return head(chance, major, count) + parts
    return bytes([major << 5 | 31]) + parts + b"\xff"


def item(chance, deep=0):
    kind = chance.randrange(10 if deep < 5 else 6)
    if kind < 2:
        return head(chance, kind, number(chance))
    if kind < 4:
        return string(chance, kind)
    if kind == 4:
        return chance.choice([b"\xf4", b"\xf6", b"\xe3", b"\xf8\xff", b"\xf8\x20"])
    if kind == 5:
        size = chance.choice([2, 4, 8])
        return bytes([0xf8 + size.bit_length() - 1]) + chance.randbytes(size)
    if kind == 6:
        return head(chance, 6, number(chance)) + item(chance, deep + 1)
    return container(chance, deep, chance.choice([4, 5]))


def stream_of(number):
    chance = random.Random(number)
    stream = bytearray()
    if chance.random() < 0.2:
        stream += b"\x59" + (4080).to_bytes(2, "big") + bytes(4080)
    for _ in range(chance.randrange(1, 12)):
        stream += item(chance)
    at = chance.randrange(len(stream))
    change = chance.randrange(6)
    if change == 0:
        stream[at] = chance.randrange(256)
    elif change == 1:
        del stream[at]
    elif change == 2:
        stream.insert(at, chance.randrange(256))
    elif change == 3:
        del stream[at:]
    return bytes(stream)


def cut(number, stream):
    """The stream in pieces: a few, or many around one place."""
    chance = random.Random(f"cuts of {number}")
    if chance.random() < 0.5:
        at = chance.randrange(len(stream) + 1)
        cuts = range(max(0, at - 20), min(len(stream), at + 20))
    else:
        cuts = sorted(chance.randrange(len(stream) + 1) for _ in range(8))
    ends = [*cuts, len(stream)]
    return [stream[start:end] for start, end in zip([0, *ends], ends) if start < end]


def as_file(program, words, stream, folder):
    with open(os.path.join(folder, "STREAM"), "wb") as file:
        file.write(stream)
    ran = subprocess.run([program, *words, "STREAM"], cwd=folder, stdin=subprocess.DEVNULL, capture_output=True, timeout=SECONDS)
    return ran.returncode, ran.stdout, ran.stderr


def in_pieces(program, words, pieces, folder):
    taken, given = pipe()
    with taken, given, tempfile.TemporaryFile() as output:
        run = subprocess.Popen([program, *words], cwd=folder, stdin=taken.fileno(), stdout=output, stderr=subprocess.PIPE)
        taken.close()
        feed(given, pieces, run, True)
        given.close()
        errors = run.communicate(timeout=SECONDS)[1]
        output.seek(0)
        return run.returncode, output.read(), errors


def compare(program, count=400, start=0):
    """Runs the program on so many streams, prints those that differ, and returns how many passed and failed."""
    failed = 0
    with tempfile.TemporaryDirectory() as folder:
        for name, text in (("SPEC", SPECIFICATION), ("KINDS", KINDS)):
            with open(os.path.join(folder, name), "wb") as file:
                file.write(text)
        for number in range(start, start + count):
            words, stream = COMMANDS[number % len(COMMANDS)], stream_of(number)
            pieces = cut(number, stream)
            if as_file(program, words, stream, folder) != in_pieces(program, words, pieces, folder):
                failed += 1
                print(f"FAILED stream {number}, {' '.join(words)}: {' '.join(it.hex() for it in pieces)}")
    return count - failed, failed


def main():
    words = argparse.ArgumentParser(description="Compares what the program tells of random streams as a file and in pieces.")
    words.add_argument("program")
    words.add_argument("--count", type=int, default=400, help="so many streams")
    words.add_argument("--start", type=int, default=0, help="the number of the first one")
    given = words.parse_args()
    passed, failed = compare(os.path.abspath(given.program), given.count, given.start)
    print(f"{passed} passed, {failed} failed")
    return 1 if failed else 0


if __name__ == "__main__":
    sys.exit(main())
