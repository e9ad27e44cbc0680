#!/usr/bin/env python3
"""Runs the rows of rows.json on the built program: what it prints, on which stream, and its status.

    run_rows.py PROGRAM [--only TEXT] [-v]

Prints each row that failed, with what came, and last 'N passed, M failed'. --only takes the rows whose name has TEXT.

A row is one case, with these fields. Whatever it expects comes from the rules that the program is written to, never
from what the program printed.

  name                  what the row shows, in words
  words                 the words after the program's name. The program runs in an empty folder; SPEC names a file there
                        with the row's specification
  spec, spec_hex        the specification: a text, or bytes in hex. Without either there is no such file
  spec_parts            the same, as a list of [text, count]
  spec_numbered         the same, as [text, count, rest]: the text for each number n from 0 to count - 1, with n in the place
                        of {n} and n + 1 in that of {next}, and then the rest
  spec_file             the same, as a file of this repository
  stdin, stdin_parts    the stream: bytes in hex, or a list of [hex, count], each taken count times. Without either the
                        program is run once, with empty standard input
  stdin_file            the same, as a file of this repository
  stdout, stderr        what has to come: a text, a list of lines, or null for some text that isn't fixed, but not none.
                        Left out, it is nothing at all
  stdout_hex            the same, as bytes in hex, or a list of [hex, count]
  stdout_parts          the same, as a list of [text, count]
  stdout_file           the same, as a file of this repository
  items, end            the same, for long reports: a list of [notation, bytes, count] for the accepted items, and the end
                        line, if there is one. The notation is a text or a list of [text, count]
  stderr_one_of         the texts that may come, where the system decides
  status                the exit status; 0 if left out

A row with a stream is run in three ways, and has to come out the same: 'whole', through a pipe in one piece; 'pieces',
through a pipe byte by byte, each given only once the program has taken the one before (of a stream over 4,096 bytes
pieces of 1,021 bytes); 'file', as a file that is named as the last word. These fields add to that:

  ways                  the ways to take in place of these three
  tells_at_once         true: also 'open', where the pipe is left open after the stream; the program has to end by itself
  each_write_fails      true: also with a standard output that takes only its first k bytes, for each k below the
                        length of what has to come: exactly these k bytes come, and 'write failed after k bytes'
  each_beginning        true: the stream is one item, and each beginning of it is run too: of no bytes it is clean, and of k
                        bytes it is 'truncated at byte k'
  after_stream          'reset': standard input is a socket, whose read fails once the stream is taken
                        'directory': standard input is a directory, whose first read fails
  stdout_to, stderr_to  'full': a device that takes nothing; 'broken': a pipe that nobody reads; 'closed': no open file
  memory                the bytes of address space that the program may have
"""
import argparse
import array
import contextlib
import fcntl
import json
import os
import resource
import signal
import socket
import subprocess
import sys
import tempfile
import termios
import time

TOP = os.path.dirname(os.path.dirname(os.path.abspath(__file__)))
SECONDS = 30
SHORT = 4096
PIECE = 1021


def joined(parts):
    return b"".join(bytes.fromhex(digits) * count for digits, count in parts)


def spelled(text):
    """A text, a list of lines, or a list of [text, count], as bytes."""
    if isinstance(text, str):
        return text.encode()
    return b"".join(f"{it}\n".encode() if isinstance(it, str) else it[0].encode() * it[1] for it in text)


def file_of(name):
    with open(os.path.join(TOP, name), "rb") as file:
        return file.read()


def spec_of(row):
    if "spec_file" in row:
        return file_of(row["spec_file"])
    if "spec_hex" in row:
        return bytes.fromhex(row["spec_hex"])
    if "spec_parts" in row:
        return spelled(row["spec_parts"])
    if "spec_numbered" in row:
        text, count, rest = row["spec_numbered"]
        return ("".join(text.format(n=it, next=it + 1) for it in range(count)) + rest).encode()
    return row["spec"].encode() if "spec" in row else None


def stream_of(row):
    if "stdin_file" in row:
        return file_of(row["stdin_file"])
    if "stdin_parts" in row:
        return joined(row["stdin_parts"])
    return bytes.fromhex(row["stdin"]) if "stdin" in row else None


def report_of(items, end):
    lines, number, offset = [], 0, 0
    for notation, length, count in items:
        text = spelled(notation)
        for _ in range(count):
            number += 1
            lines.append(b"item %d at %d: %s\n" % (number, offset, text))
            offset += length
    return b"".join(lines) + (f"{end}\n".encode() if end else b"")


def output_of(row):
    """What has to come on standard output; None: something, but no fixed text."""
    if "stdout_file" in row:
        return file_of(row["stdout_file"])
    if "stdout_hex" in row:
        return joined(row["stdout_hex"] if isinstance(row["stdout_hex"], list) else [[row["stdout_hex"], 1]])
    if "items" in row or "end" in row:
        return report_of(row.get("items", []), row.get("end"))
    text = row.get("stdout_parts", row.get("stdout", ""))
    return None if text is None else spelled(text)


def errors_of(row):
    """What may come on standard error, as a list; None: something, but no fixed text."""
    if "stderr_one_of" in row:
        return [spelled(it) for it in row["stderr_one_of"]]
    text = row.get("stderr", "")
    return None if text is None else [spelled(text)]


class Handle:
    """An open file of the system's, closed at most once."""

    def __init__(self, number):
        self.number = number

    def fileno(self):
        return self.number

    def close(self):
        if self.number is not None:
            os.close(self.number)
        self.number = None

    def __enter__(self):
        return self

    def __exit__(self, *_):
        self.close()


def pipe():
    return [Handle(it) for it in os.pipe()]


def input_of(row, folder):
    """Standard input for the program, and the end that feeds it, if there is one."""
    kind = row.get("after_stream")
    if kind == "directory":
        return Handle(os.open(folder, os.O_RDONLY)), None
    if kind == "reset":
        theirs, ours = socket.socketpair()
        # once our end is closed over what it never read, their read fails
        theirs.send(b"never read")
        return Handle(theirs.detach()), Handle(ours.detach())
    return pipe()


def device(kind, keep, otherwise):
    """What the program gets as standard output or error."""
    if kind == "full":
        return keep(Handle(os.open("/dev/full", os.O_WRONLY)))
    if kind == "broken":
        reading, writing = pipe()
        reading.close()
        return keep(writing)
    return otherwise


def wait_until_taken(end, run):
    """Waits until nothing that was given at this end is left untaken, or the program has ended."""
    until, pause, left = time.monotonic() + SECONDS, 0.00001, array.array("i", [1])
    while left[0] and run.poll() is None:
        if time.monotonic() > until:
            raise subprocess.TimeoutExpired(run.args, SECONDS)
        fcntl.ioctl(end, termios.FIONREAD, left)
        time.sleep(pause if left[0] else 0)
        pause = min(2 * pause, 0.01)


def feed(given, pieces, run, is_slow):
    """Writes the pieces. A program that has ended takes no more, which is no fault by itself."""
    try:
        for piece in pieces:
            while piece:
                piece = piece[os.write(given.fileno(), piece):]
            if is_slow:
                wait_until_taken(given, run)
    except BrokenPipeError:
        pass


def pieces_of(way, stream):
    if way == "file":
        return []
    size = len(stream) or 1
    if way == "pieces":
        size = 1 if len(stream) <= SHORT else PIECE
    return [stream[at:at + size] for at in range(0, len(stream), size)]


def limits_of(row, size):
    """What holds for the program's process from its first moment on."""
    def limit():
        # a write past the limit then fails, in place of ending the process
        signal.signal(signal.SIGXFSZ, signal.SIG_IGN)
        if size is not None:
            resource.setrlimit(resource.RLIMIT_FSIZE, (size, size))
        if "memory" in row:
            resource.setrlimit(resource.RLIMIT_AS, (row["memory"], row["memory"]))
        for number, key in (1, "stdout_to"), (2, "stderr_to"):
            if row.get(key) == "closed":
                os.close(number)
    return limit


def run_of(program, row, way, stream, folder, size):
    """Runs the program once, and returns what came on standard output and error, and the status."""
    words = [program, *row["words"]]
    if way == "file":
        with open(os.path.join(folder, "FILE"), "wb") as file:
            file.write(stream)
        words.append("FILE")
    with contextlib.ExitStack() as stack:
        keep = stack.enter_context
        source, given = [keep(it or contextlib.nullcontext()) for it in input_of(row, folder)]
        out = keep(tempfile.TemporaryFile())
        # (a file in place of this pipe would fall under the limit on a file's size; what comes fits the pipe)
        reading, writing = [keep(it) for it in pipe()]
        run = subprocess.Popen(
            words, cwd=folder, stdin=source, stdout=device(row.get("stdout_to"), keep, out),
            stderr=device(row.get("stderr_to"), keep, writing), preexec_fn=limits_of(row, size))
        stack.callback(lambda: run.poll() is None and (run.kill(), run.wait()))
        writing.close()
        if row.get("after_stream") == "reset":
            feed(given, pieces_of(way, stream), run, False)
            wait_until_taken(source, run)
            source.close()
        elif given:
            source.close()
            feed(given, pieces_of(way, stream), run, way == "pieces")
        seconds = row.get("seconds", SECONDS)
        if way == "open":
            run.wait(seconds)
        if given:
            given.close()
        run.wait(seconds)
        out.seek(0)
        with open(reading.fileno(), "rb", closefd=False) as errors:
            return out.read(), errors.read(), run.returncode


def shown(text):
    return f"{text[:160]!r}" + (f".. ({len(text)} bytes)" if len(text) > 160 else "")


def differences(got, output, errors, status):
    """Where what came isn't what has to come."""
    wrong = []
    if got[0] != output if output is not None else not got[0]:
        at = next((i for i, (a, b) in enumerate(zip(got[0], output or b"")) if a != b), 0) if len(got[0]) > 160 else 0
        at = max(0, at - 40)
        wanted = "some text" if output is None else shown(output[at:])
        wrong.append(f"standard output {shown(got[0][at:])}, wanted {wanted}" + (f", from byte {at}" if at else ""))
    if got[1] not in errors if errors is not None else not got[1]:
        wanted = "some text" if errors is None else " or ".join(shown(it) for it in errors)
        wrong.append(f"standard error {shown(got[1])}, wanted {wanted}")
    if got[2] != status:
        wrong.append(f"status {got[2]}, wanted {status}")
    return wrong


def ways_of(row, stream):
    ways = row.get("ways", ["none"] if stream is None else ["whole", "pieces", "file"])
    return ways + (["open"] if row.get("tells_at_once") else [])


def cases_of(row):
    """What is run for a row: how it is called, the way, the stream, how many bytes may go out (None: all), and what has to come."""
    stream, output, errors, status = stream_of(row), output_of(row), errors_of(row), row.get("status", 0)
    cases = [(way, way, stream, None, output, errors, status) for way in ways_of(row, stream)]
    if row.get("each_write_fails"):
        for size in range(len(output)):
            text = f"write failed after {size} bytes\n".encode()
            cases.append((f"whole, {size} bytes may go out", "whole", stream, size, output[:size], [text], 3))
    if row.get("each_beginning"):
        for size in range(len(stream)):
            end = f"failed: 0 items, offset 0: truncated at byte {size}\n" if size else "clean: 0 items, 0 bytes\n"
            told = (b"", [end.encode()]) if row["words"][0] == "rewrite" else (end.encode(), [b""])
            cases.append((f"its first {size} bytes", "whole", stream[:size], None, *told, 1 if size else 0))
    return cases


def faults_of(program, row):
    """Runs the row in each of its ways, and returns what was wrong, a line each."""
    wrong = []
    for label, way, stream, size, output, errors, status in cases_of(row):
        with tempfile.TemporaryDirectory() as folder:
            spec = spec_of(row)
            if spec is not None:
                with open(os.path.join(folder, "SPEC"), "wb") as file:
                    file.write(spec)
            try:
                got = run_of(program, row, way, stream or b"", folder, size)
            except subprocess.TimeoutExpired as expired:
                wrong.append(f"{label}: no end in {expired.timeout} seconds")
                continue
        wrong += [f"{label}: {it}" for it in differences(got, output, errors, status)]
    return wrong


def run_rows(program, only="", is_verbose=False):
    """Runs the rows, prints those that failed, and returns how many passed and failed."""
    with open(os.path.join(TOP, "tests", "rows.json"), encoding="utf-8") as file:
        rows = json.load(file)
    names = [row["name"] for row in rows]
    twice = sorted({it for it in names if names.count(it) > 1})
    if twice:
        raise SystemExit(f"rows.json has two rows of one name: {', '.join(twice)}")
    passed = failed = 0
    for row in rows:
        if only not in row["name"]:
            continue
        try:
            wrong = faults_of(program, row)
        except OSError as error:
            wrong = [f"cannot run the program: {error}"]
        if wrong:
            failed += 1
            print(f"FAILED {row['name']}")
            for it in wrong[:6]:
                print(f"    {it}")
            if len(wrong) > 6:
                print(f"    and {len(wrong) - 6} more")
        else:
            passed += 1
            if is_verbose:
                print(f"ok {row['name']}")
    return passed, failed


def main():
    words = argparse.ArgumentParser(description="Runs the rows of rows.json on the built program.")
    words.add_argument("program")
    words.add_argument("--only", default="", help="only the rows whose name has this text")
    words.add_argument("-v", action="store_true", help="print each row that passed too")
    given = words.parse_args()
    passed, failed = run_rows(os.path.abspath(given.program), given.only, given.v)
    print(f"{passed} passed, {failed} failed")
    return 1 if failed or not passed else 0


if __name__ == "__main__":
    sys.exit(main())
