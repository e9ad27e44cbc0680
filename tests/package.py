#!/usr/bin/env python3
"""Tests the Python package: the examples of its documentation, its numbers against those of the header, its calls, and the rows
of rows.json, but for those that need devices of their own.

    package.py HEADER [--only TEXT] [-v]

The package and its library are found by PYTHONPATH and CDDLSEQ_LIBRARY. Each row is run in a process that is forked off, since
Python takes longer to begin than most rows do, and does not begin where its standard input is a directory. The memory that a row gives
a program it has there besides what it has as it is forked off. The last line is 'N passed, M failed'.
"""
import argparse
import doctest
import io
import os
import pickle
import re
import resource
import signal
import sys
import tempfile
from concurrent.futures import ThreadPoolExecutor

import cddlseq
from cddlseq import Cause, Failed, Item, Refused, Specification, _library, explain
from cddlseq.__main__ import main as command
from run_rows import cases_of, differences, spec_of
from rows_of_library import needs_devices, rows_for_package


def spelled(name):
    """A name as the header spells it: words in capitals, with low lines between them."""
    return re.sub(r"(?<=[a-z0-9])(?=[A-Z])|(?<=[A-Z])(?=[A-Z][a-z])", "_", name).upper()


def numbers_of(header):
    with open(header, encoding="utf-8") as file:
        return {name: int(number) for name, number in re.findall(r"CDDLSEQ_(\w+) = (\d+)", file.read())}


def names_are_right(header):
    """Whether the numbers of the package are the header's."""
    numbers = numbers_of(header)
    codes = {f"{code}_{spelled(name)}": number for number, (code, name) in enumerate(_library.CODES, 1)}
    causes = {it.name: it.value for it in Cause}
    named = [it for it in dir(_library) if it.isupper() and isinstance(getattr(_library, it), int)]
    others = {it: getattr(_library, it) for it in named}
    return numbers == {"NOT_REFUSED": 0, "CLEAN": 0, **codes, **causes, **others}


def refusal_of(text, root=None):
    try:
        Specification(text, root)
    except Refused as refused:
        return refused.code, refused.name, refused.offset, refused.line, refused.column
    return None


def explained_of(text, root, file):
    try:
        Specification(text, root)
    except Refused as refused:
        return pickle.loads(pickle.dumps(refused)).explained(file)
    return None


def is_value_error(call):
    try:
        call()
    except ValueError:
        return True
    return False


def streams_are_alike():
    """Whether a stream ends the same as bytes, as a file, in pieces and among many."""
    specification = Specification("a = [* uint] / tstr\n")
    stream = bytes.fromhex("810161628200f5")
    ends = [
        specification.validate(stream),
        specification.validate(bytearray(stream)),
        specification.validate(io.BytesIO(stream)),
        specification.validate(stream[at:at + 1] for at in range(len(stream))),
        *specification.validate_many([stream, stream]),
    ]
    return all((it.items, it.offset, it.cause, it.place, it.path, it.notation) == (2, 4, Cause.MISMATCH, 2, "$[1]", "true") for it in ends)


def fed(session, stream, size):
    """The items of a stream that comes in pieces of this size, and its end."""
    items = [it for at in range(0, len(stream), size) for it in session.feed(stream[at:at + size])]
    return items, session.finish()


def items_are_alike():
    """Whether a session gives the same items, with their bytes, and the same end for pieces of each size, also after another stream."""
    session = Specification("a = [* uint] / tstr\n").session()
    stream, wanted = bytes.fromhex("8101616282190100026163" + "8200f5"), [(0, 2), (2, 4), (4, 9), (9, 11)]
    for size in range(1, len(stream) + 1):
        items, end = fed(session, stream, size)
        if [(it.offset, it.end) for it in items] != wanted or b"".join(it.data for it in items) != stream[:11]:
            return False
        if (end.items, end.offset, end.cause, end.path, end.notation, session.end) != (4, 11, Cause.MISMATCH, "$[1]", "true", end):
            return False
        session.restart()
    return session.items == session.offset == 0 and session.end is None


def sessions_share():
    """Whether sessions of one specification, fed by turns, know nothing of each other, and outlive it."""
    specification = Specification("a = [* uint] / tstr\n", depth=2)
    streams = bytes.fromhex("820102"), bytes.fromhex("626162"), bytes.fromhex("818181")
    sessions = [specification.session() for _ in streams]
    del specification
    for bytes_now in zip(*streams):
        for session, byte in zip(sessions, bytes_now):
            session.feed(bytes([byte]))
    ends = [session.finish() for session in sessions]
    sessions[0].restart()
    told = [(it.items, it.offset, it.cause, it.place) for it in ends]
    return told == [(1, 3, None, 0), (1, 3, None, 0), (0, 0, Cause.TOO_DEEP, 2)] and len(sessions[0].feed(b"\x80\x81")) == 1


def session_in_thread():
    """Whether a thread may begin a session by a specification that another one made."""
    specification = Specification("a = uint\n")
    with ThreadPoolExecutor(1) as pool:
        return pool.submit(lambda: [it.offset for it in specification.session().feed(b"\x01\x02")]).result() == [0, 1]


def items_of(stream):
    """What a specification of numbers says of a stream, item by item, and the end that it raises."""
    found = []
    try:
        for item in Specification("a = uint\n").items(stream):
            found.append(item)
    except Failed as failed:
        return found, str(failed)
    return found, None


def threads_are_alike():
    """Whether many threads may use a specification at once."""
    specification = Specification("a = [* uint]\n")
    streams = [bytes([0x80 + it % 20]) + bytes(it % 20) for it in range(200)]
    with ThreadPoolExecutor(4) as pool:
        return all(it.is_clean and it.items == 1 for it in pool.map(specification.validate, streams))


def threads_share_a_session():
    """Whether two threads may feed a session by turns, and a third one end it and drop it."""
    session = Specification("a = [* uint]\n").session()
    with ThreadPoolExecutor(1) as one, ThreadPoolExecutor(1) as two:
        found = [it for at in range(100) for it in (one, two)[at % 2].submit(session.feed, b"\x81\x18\x20"[at % 3:at % 3 + 1]).result()]
        end = two.submit(session.finish).result()
        one.submit(session.restart).result()
        begun = [two.submit(lambda: Specification("a = uint\n").session()).result() for _ in range(3)]
        one.submit(begun.clear).result()
    return [it.offset for it in found] == list(range(0, 99, 3)) and (end.items, end.offset, end.cause) == (33, 99, Cause.TRUNCATED)


def many_are_told(streams):
    """Whether each of many streams has its end, by its number and in order."""
    ends = Specification("a = uint\n").validate_many([*streams, b"\x01\x20"])
    told = [it.items for it in ends]
    return told == [*range(len(streams)), 1] and len(ends) == len(told) and (ends[7].items, ends[-1].path, [it.place for it in ends[-1:]]) == (
        7, "$", [0])


def encodings_are_right():
    """Whether items have their bytes in each encoding, also where the session has gone on since."""
    stream = bytes.fromhex("bf61621801616102ffa0")
    items = list(Specification("m = {* tstr => uint}\n").items([stream[:3], stream[3:]]))
    return [(it.data, it.preferred.hex(), it.deterministic.hex()) for it in items] == [
        (stream[:9], "a2616201616102", "a2616102616201"), (b"\xa0", "a0", "a0")]


def checks_of(header):
    """What is tested, and whether it holds."""
    specification = Specification("m = {* tstr => uint}\n")
    clean = specification.validate(b"")
    stream = bytes.fromhex("a2616201616102a0")
    many = [bytes([it % 24]) * it for it in range(300)]
    bad_limits = ({"depth": 0}, {"depth": 257}, {"item_bytes": 0}, {"steps": 2**64})
    return {
        "the examples of the documentation": doctest.testmod(cddlseq).failed == 0,
        "the numbers of the header": names_are_right(header),
        "a refusal": refusal_of("a = b\n") == ("C3", "Undefined", 4, 1, 5),
        "a refusal in a later line": refusal_of('a = "\u00e9" / int\r\n;\u20ac\n\U0001f600') == ("S2", "BadCharacter", 21, 3, 1),
        "a column in characters": refusal_of('a = "\u00e9\u20ac\U0001f600" / b\n') == ("C3", "Undefined", 18, 1, 13),
        "a text that is no UTF-8": refusal_of(b"a = int\n;\xc3\xa9\x80\n") == ("S1", "NotUtf8", 11, 2, 3),
        "a text that is too long": refusal_of("a = int\n" + " " * 2**20) == ("S9", "SourceTooLong", 2**20, 2, 2**20 - 7),
        "a refusal that is explained": explained_of("a = int\n", "b", "it.cddl") == (
            "refused: C5 NoRoot at byte 0\nit.cddl:1:1: NoRoot\na = int\n^\n`b`, which --root asks for, is no rule and none of the prelude\n"),
        "a refusal of an empty text that is explained": explained_of(b"", None, "\x1b") == (
            "refused: C5 NoRoot at byte 0\n\\u001b:1:1: NoRoot\n\n^\nthe text has no rule that could be the root, and --root names none\n"),
        "a word that is explained": explain("Mismatch").startswith("mismatch: the item does not match the root") and explain("c3").endswith("\n"),
        "words that name nothing": all(is_value_error(lambda: explain(it)) for it in ("", "C19", "C3\n", "\udc80")),
        "a refusal for its root": refusal_of("a = int\n", "b")[0] == "C5",
        "a root of no letters": refusal_of("a = int\n", "")[0] == "C5",
        "a root": refusal_of("a = int\nb = uint\n", "b") is None,
        "limits": all(is_value_error(lambda: Specification("a = int\n", **it)) for it in bad_limits),
        "an end without a cause": clean.is_clean and clean.cause is None and clean.path is None and clean.notation is None,
        "a stream in each form": streams_are_alike(),
        "items in pieces": items_are_alike(),
        "sessions of one specification": sessions_share(),
        "a session in another thread": session_in_thread(),
        "items of a file": items_of(io.BytesIO(b"\x01\x18\x20")) == ([Item(0, 1, b"\x01"), Item(1, 3, b"\x18\x20")], None),
        "items, and one that fails": items_of(b"\x01\x20\x01") == ([Item(0, 1, b"\x01")], "item 2 at 1 fails: MISMATCH at $: -1"),
        "items, and one that is cut": items_of([b"\x01\x19", b"\x01"]) == ([Item(0, 1, b"\x01")], "item 2 at 1 fails: TRUNCATED"),
        "items in each encoding": encodings_are_right(),
        "threads": threads_are_alike(),
        "threads over one session": threads_share_a_session(),
        "no streams": list(specification.validate_many([])) == [],
        "many streams": many_are_told(many),
        "preferred bytes": specification.rewrite(stream).data == stream,
        "deterministic bytes": specification.rewrite(stream, deterministic=True).data == bytes.fromhex("a2616102616201a0"),
        "a long report": Specification("a = uint\n").report(b"\x00" * 5000).count("\n") == 5001,
    }


def memory_now():
    """How many bytes of address space this process has."""
    with open("/proc/self/statm", encoding="ascii") as file:
        return int(file.read().split()[0]) * resource.getpagesize()


def limit(row, size):
    """Has this process have the memory of a row, and write files of so many bytes at most."""
    if "memory" in row:
        most = memory_now() + row["memory"]
        resource.setrlimit(resource.RLIMIT_AS, (most, most))
    if size is not None:
        signal.signal(signal.SIGXFSZ, signal.SIG_IGN)
        resource.setrlimit(resource.RLIMIT_FSIZE, (size, size))


def run_command(words, folder, files, row, size):
    """Runs the command in a folder with these files, which end this process."""
    os.chdir(folder)
    for number, file in enumerate(files):
        os.dup2(file if isinstance(file, int) else file.fileno(), number)
    sys.argv[1:] = words
    limit(row, size)
    os._exit(command())


def told_by(row, stream, folder, size):
    """What the command writes to standard output and error in a folder, and its status."""
    reading, writing = os.pipe()
    with tempfile.TemporaryFile() as given, tempfile.TemporaryFile() as out, open(reading, "rb") as errors:
        given.write(stream)
        given.seek(0)
        child = os.fork()
        if child == 0:
            is_directory = row.get("after_stream") == "directory"
            run_command(row["words"], folder, (os.open(folder, os.O_RDONLY) if is_directory else given, out, writing), row, size)
        # What is told on standard error fits the pipe, and is no file, whose size is limited.
        os.close(writing)
        said = errors.read()
        status = os.waitstatus_to_exitcode(os.waitpid(child, 0)[1])
        out.seek(0)
        return out.read(), said, status


def faults_of(row):
    """What is wrong with what the command says of a row, a line each."""
    wrong = []
    with tempfile.TemporaryDirectory() as folder:
        spec = spec_of(row)
        if spec is not None:
            with open(os.path.join(folder, "SPEC"), "wb") as file:
                file.write(spec)
        for label, _, stream, size, output, errors, status in cases_of(row):
            got = told_by(row, stream or b"", folder, size)
            wrong += [f"{label}: {it}" for it in differences(got, output, errors, status)]
    return wrong


def run_rows(only, is_verbose):
    """Runs the rows, prints those that failed, and returns how many passed and failed."""
    rows = [it for it in rows_for_package(only) if not needs_devices(it) or it.get("after_stream") == "directory"]
    failed = 0
    for row in rows:
        wrong = faults_of(row)
        failed += bool(wrong)
        if wrong or is_verbose:
            print("\n    ".join([f"{'FAILED' if wrong else 'ok'} {row['name']}", *wrong]))
    return len(rows) - failed, failed


def main():
    words = argparse.ArgumentParser(description="Tests the Python package.")
    words.add_argument("header")
    words.add_argument("--only", default="", help="only the rows whose name has this text")
    words.add_argument("-v", action="store_true", help="print each row that passed too")
    words = words.parse_args()
    checks = checks_of(words.header)
    for name, holds in checks.items():
        if not holds:
            print(f"FAILED {name}")
    passed, failed = run_rows(words.only, words.v)
    wrong = list(checks.values()).count(False)
    print(f"{passed + len(checks) - wrong} passed, {failed + wrong} failed")
    return 1 if failed or wrong else 0


if __name__ == "__main__":
    sys.exit(main())
