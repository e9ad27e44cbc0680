"""Which rows of rows.json are run on the library, and through which of its callers."""
import json
import os
import re

from run_rows import TOP

COMMANDS = ("check", "validate", "rewrite", "show", "explain")
DEVICES = ("after_stream", "stdout_to", "stderr_to", "stderr_one_of")
PLACE = re.compile(r"\S+:\d+:\d+: [A-Z]\w*")
OF_ITSELF = {"--help", "-h", "--version", "-V"}


def rows_for_package(only=""):
    """The rows whose name has the text, each in one way: the library's callers read a stream whole before they write. So a row is left out
    that wants items from before memory is short, or that is told more than the first fault of a specification, or why an item does not
    match. They show no progress, and have no option for it."""
    with open(os.path.join(TOP, "tests", "rows.json"), encoding="utf-8") as file:
        rows = [it for it in json.load(file) if only in it["name"] and not ("memory" in it and "items" in it) and "--no-progress" not in it["words"] and not tells_further_faults(it) and not tells_reasons(it)]
    return [{**it, "ways": it.get("ways", ["whole"])[:1], "tells_at_once": False} for it in rows]


def rows_for_caller(only=""):
    """Those that ask the library: the others are about the program's own text."""
    return [it for it in rows_for_package(only) if not is_of_program(it)]


def rows_for_crate(only=""):
    """Those of these that the example of the crate in rust is made for."""
    rows = [it for it in rows_for_caller(only) if not needs_devices(it) and "memory" not in it]
    return [{**it, "each_write_fails": False} for it in rows]


def tells_further_faults(row):
    """Whether more faults of a specification are told than the first: the library tells that alone."""
    said = row.get("stderr", "")
    return isinstance(said, list) and sum(1 for it in said if PLACE.fullmatch(it)) > 1


def tells_reasons(row):
    """Whether it is told why an item does not match, or would be if standard error took it: the library does not tell that. 'rewrite' has
    the line of the end there too."""
    told = len(row.get("stderr") or []) > ("rewrite" in row["words"]) or "stderr_to" in row
    return "--explain" in row["words"] and row.get("status") == 1 and told


def needs_devices(row):
    """Whether a row is about what devices do."""
    return any(it in row for it in DEVICES)


def is_of_words(row):
    """Whether what is told on standard error is the program's own text on wrong words."""
    said = row.get("stderr", "")
    return ("".join(said) if isinstance(said, list) else said or "").startswith("error: ")


def is_of_program(row):
    """Whether what is told is the program's own text: its help or its version, or what is wrong with its words."""
    words = row["words"]
    has_no_command = not words or words[0] not in COMMANDS
    options = words[: words.index("--")] if "--" in words else words
    return has_no_command or is_of_words(row) or None in (row.get("stdout", ""), row.get("stderr", "")) or not OF_ITSELF.isdisjoint(options)
