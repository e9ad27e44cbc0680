"""The commands of the program cddlseq, over the library.

    python3 -m cddlseq check SPEC
    python3 -m cddlseq validate SPEC [FILE]
    python3 -m cddlseq rewrite SPEC [FILE]
    python3 -m cddlseq show [FILE]
    python3 -m cddlseq explain CODE
    python3 -m cddlseq --help | --version

It prints what the program prints, but for help and for tips on wrong words, and takes the program's options: for validate, rewrite and show --depth N and
--item-bytes N; for check, validate and rewrite --root NAME and --explain; for validate and rewrite --steps N; for validate --quiet, for
rewrite --deterministic. It reads a stream whole before it writes. The status is 0 where the stream is clean, 1 where it failed, 2 where
the specification is refused, and 3 where the words are wrong, a file or a device failed, or memory was refused.
"""
from __future__ import annotations

import os
import re
import sys
from typing import Iterable, Iterator, NoReturn

from . import Cause, End, Refused, Specification, __version__, explain

BROKEN = 3
# One byte more is read of a longer text, which tells that it is too long.
LONGEST_TEXT = 1_048_576
COMMANDS = {
    "check": {"--root", "--explain"},
    "validate": {"--root", "--explain", "--depth", "--item-bytes", "--steps", "--quiet"},
    "rewrite": {"--root", "--explain", "--depth", "--item-bytes", "--steps", "--deterministic"},
    "show": {"--depth", "--item-bytes"},
    "explain": set(),
}
# How many names a command takes, and which.
NAMES = {
    "check": (1, 1, "<SPEC>"), "validate": (1, 2, "<SPEC> [FILE]"), "rewrite": (1, 2, "<SPEC> [FILE]"), "show": (0, 1, "[FILE]"),
    "explain": (1, 1, "<CODE>"),
}
# The specification that show reads.
ANY = b"a = any"
FLAGS = {"--explain", "--quiet", "--deterministic"}
MOST = {"--depth": 256, "--item-bytes": 67_108_864, "--steps": 2**64 - 1}
VALUES = {"--root": "<NAME>", **dict.fromkeys(MOST, "<N>")}


class Stop(Exception):
    """The program ends with this status, and this on standard error."""

    def __init__(self, text: str, status: int = BROKEN):
        super().__init__(text)
        self.text, self.status = text, status


def misuse(what: str, usage: str | None = None, tip: str | None = None) -> NoReturn:
    """Tells what is wrong with the words, and what they are to be."""
    parts = [f"error: {what}", tip and f"  tip: {tip}", usage and f"Usage: cddlseq {usage}", "For more information, try '--help'.\n"]
    raise Stop("\n\n".join(it for it in parts if it))


def named(option: str) -> str:
    return f"{option} {VALUES[option]}" if option in VALUES else option


def usage_of(command: str, options: Iterable[str] | None = None) -> str:
    """How a command is used, with these options, or with any."""
    some = ["[OPTIONS]"] if COMMANDS[command] else []
    return " ".join([command, *(some if options is None else map(named, options)), NAMES[command][2]])


def shown(name: str) -> str:
    """A name with its control characters, and those that reorder what is shown (U+202A to U+202E, U+2066 to U+2069), as their numbers."""
    return re.sub(r"[\x00-\x1f\x7f-\x9f\u202a-\u202e\u2066-\u2069]", lambda it: f"\\u{ord(it[0]):04x}", name)


def number_of(option: str, text: str) -> int:
    digits = re.fullmatch("([+-]?)0*([0-9]+)", text, re.ASCII)
    number = int(digits[2]) if digits and len(digits[2]) <= 20 else 2**64
    if digits and digits[1] != "-" and 0 < number <= MOST[option]:
        return number
    why = "invalid digit found in string" if text else "cannot parse integer from empty string"
    if digits:
        bounds = "1..18446744073709551615" if option == "--steps" else f"1..={MOST[option]}"
        why = "number too large to fit in target type" if number >= 2**64 else f"{digits[1].strip('+')}{number} is not in {bounds}"
    misuse(f"invalid value '{shown(text)}' for '{named(option)}': {why}")


def option_of(command: str, word: str, left: Iterator[str], options: dict[str, str], names: list[str]) -> tuple[str, str]:
    """An option, with its value: after an equals sign, or the next of the words that are left."""
    option, equals, value = word.partition("=")
    if option not in COMMANDS[command]:
        wrong = shown(option if option.startswith("--") else option[:2])
        usage = usage_of(command, options if options or names else None)
        misuse(f"unexpected argument '{wrong}' found", usage, f"to pass '{wrong}' as a value, use '-- {wrong}'")
    if option in options:
        misuse(f"the argument '{named(option)}' cannot be used multiple times", usage_of(command))
    if option in FLAGS and equals:
        usage = usage_of(command, [*options, option])
        misuse(f"unexpected value '{shown(value)}' for '{option}' found; no more were expected", usage)
    if option not in FLAGS and not equals:
        value = next(left, "--")
        if value.partition("=")[0] in COMMANDS[command] | {"--"}:
            misuse(f"a value is required for '{named(option)}' but none was supplied")
        if value.startswith("-") and value != "-":
            option_of(command, value, left, options, names)
    return option, value


def options_of(command: str, words: list[str]) -> tuple[dict[str, str], list[str]]:
    """The options among the words, with their values, and the names of files."""
    options: dict[str, str] = {}
    names, left = [], iter(words)
    for word in left:
        if word == "--":
            names += left
        elif word == "-" or not word.startswith("-"):
            names.append(word)
        else:
            option, value = option_of(command, word, left, options, names)
            options[option] = value
    least, most, needed = NAMES[command]
    if len(names) < least:
        misuse(f"the following required arguments were not provided:\n  {needed.split()[0]}", usage_of(command, options))
    if len(names) > most:
        misuse(f"unexpected argument '{shown(names[most])}' found", usage_of(command))
    return options, names


def read(device: int, most: int | None = None) -> tuple[bytes, OSError | None]:
    """The bytes of a device, at most so many, and why there are no more, if that is a failure."""
    parts, length = [], 0
    try:
        while most is None or length < most:
            part = os.read(device, 65536 if most is None else min(65536, most - length))
            if not part:
                break
            parts.append(part)
            length += len(part)
    except OSError as error:
        return b"".join(parts), error
    return b"".join(parts), None


def opened(name: str) -> int:
    try:
        return os.open(name, os.O_RDONLY | os.O_CLOEXEC)
    except (OSError, ValueError):
        raise Stop(f"cannot open {shown(name)}\n") from None


def text_of(name: str) -> bytes:
    device = opened(name)
    text, error = read(device, LONGEST_TEXT + 1)
    os.close(device)
    if error:
        raise Stop(f"cannot read {shown(name)}\n")
    return text


def stream_of(name: str) -> tuple[bytes, OSError | None]:
    if name == "-":
        return read(0)
    device = opened(name)
    told = read(device)
    os.close(device)
    return told


def write(data: bytes) -> None:
    """Writes all of it to standard output."""
    written = 0
    while written < len(data):
        try:
            taken = os.write(1, data[written:])
        except OSError:
            taken = 0
        if not taken:
            raise Stop(f"write failed after {written} bytes\n")
        written += taken


def say(text: str) -> None:
    """Writes a line to standard error. A failed write is passed over."""
    try:
        os.write(2, text.encode())
    except OSError:
        pass


def is_undecided(end: End, length: int) -> bool:
    """Whether more bytes could change this end of a stream of that length."""
    return end.is_clean or (end.cause in (Cause.TRUNCATED, Cause.TOO_LONG) and end.place == length)


def act(command: str, specification: Specification, options: dict[str, str], name: str) -> int:
    """Validates or rewrites the stream, and answers the status."""
    stream, error = stream_of(name)
    end = specification.validate(stream)
    # Where a read failed the end is known only if no byte that could have come decides it.
    is_cut = error is not None and is_undecided(end, len(stream))
    if command == "rewrite":
        write(specification.rewrite(stream, "--deterministic" in options).data)
    elif "--quiet" not in options:
        report = specification.report(stream)
        write((report[:report[:-1].rfind("\n") + 1] if is_cut else report).encode())
    elif not is_cut:
        write(specification.end_line(stream).encode())
    if is_cut:
        raise Stop(f"read failed after {end.items} items\n")
    if command == "rewrite":
        say(specification.end_line(stream))
    return 0 if end.is_clean else 1


def explained(word: str) -> bytes:
    try:
        return explain(word).encode()
    except ValueError:
        raise Stop(f"no such code or cause (cddlseq explain --help lists them): {shown(word)}\n") from None


def told_of_itself(words: list[str]) -> str | None:
    """The help or the version, if the words ask for it."""
    if words[:1] in (["--version"], ["-V"]):
        return f"cddlseq {__version__}\n"
    asks = words[1:] if words and words[0] in COMMANDS else words[:1]
    options = asks[: asks.index("--")] if "--" in asks else asks
    return __doc__ if {"-h", "--help"} & set(options) or asks == ["help"] else None


def program(words: list[str]) -> int:
    for number, word in enumerate(words, 1):
        try:
            word.encode()
        except UnicodeEncodeError:
            raise Stop(f"argument {number} is not UTF-8\n") from None
    told = told_of_itself(words)
    if told:
        write(told.encode())
        return 0
    if not words:
        misuse(f"'cddlseq' requires a subcommand but one was not provided\n  [subcommands: {', '.join(COMMANDS)}, help]", "<COMMAND>")
    if words[0] not in COMMANDS:
        what = "unexpected argument" if words[0].startswith("-") else "unrecognized subcommand"
        misuse(f"{what} '{shown(words[0])}'{' found' if words[0].startswith('-') else ''}", "<COMMAND>")
    command = words[0]
    options, names = options_of(command, words[1:])
    limits = {it[2:].replace("-", "_"): number_of(it, options[it]) for it in MOST if it in options}
    return perform(command, options, limits, names)


def perform(command: str, options: dict[str, str], limits: dict[str, int], names: list[str]) -> int:
    if command == "explain":
        write(explained(names[0]))
        return 0
    if command == "show":
        return act(command, Specification(ANY, **limits), options, names[0] if names else "-")
    try:
        specification = Specification(text_of(names[0]), options.get("--root"), **limits)
    except Refused as refused:
        raise Stop(refused.explained(names[0]) if "--explain" in options else f"{refused}\n", 2) from None
    if command == "check":
        write(b"accepted\n")
        return 0
    return act(command, specification, options, names[1] if len(names) > 1 else "-")


def main() -> int:
    try:
        return program(sys.argv[1:])
    except MemoryError:
        stop = Stop("out of memory\n")
    except Stop as told:
        stop = told
    say(stop.text)
    return stop.status


if __name__ == "__main__":
    sys.exit(main())
