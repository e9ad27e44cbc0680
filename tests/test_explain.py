#!/usr/bin/env python3
"""Whether the program explains codes and causes in the words of the documents.

    test_explain.py PROGRAM

Prints each code or cause of which it does not. The status is 0 only where there is none.
"""
import argparse
import os
import re
import sys

from test_man import TOP, printed

CODE = re.compile(r"\| ([SC]\d+) \| (\w+) \| (.*) \|$")


def lines_of(name):
    with open(os.path.join(TOP, "docs", name), encoding="utf-8") as file:
        return file.read().splitlines()


def example_of(cell):
    """The text of an example: a line for each rule, or words where it cannot be printed."""
    if re.fullmatch(r"`[^`]+`(, `[^`]+`)*", cell):
        return "\n".join(re.findall(r"`([^`]+)`", cell))
    return cell.replace("`", "")


def codes():
    """The words that name each code, and what is to be printed of it, from LANGUAGE.md."""
    for line in lines_of("LANGUAGE.md"):
        row = CODE.match(line)
        if row:
            wrong, place, example, at = row[3].split(" | ")
            told = f"{row[1]} {row[2]}: {wrong}\nTold at: {place}\n".replace("`", "")
            yield (row[1], row[2]), f"{told}Example, refused at byte {at}:\n\n{example_of(example)}\n"


def causes():
    """The words of each cause, and what is to be printed of it, from ITEMS.md."""
    rows = "\n".join(lines_of("ITEMS.md")).split("## Causes\n", 1)[1].split("\n## ", 1)[0].splitlines()
    for line in rows:
        if line.startswith("| `"):
            words, wrong, spec, data, told = (it.strip("`") for it in line.strip("| ").split(" | "))
            text = f"{words}: {wrong}\nExample, by the specification {spec} and the bytes {data}:\n\n"
            yield (words,), f"{text}failed: 0 items, offset 0: {told}\n"


def are_explanations_right(program):
    """Whether each explanation is that of the documents; prints those that are not."""
    subjects = [*codes(), *causes()]
    wrong = [word for words, text in subjects for word in {*words, *(it.lower() for it in words)}
             if printed(program, "explain", word) != text]
    if len(subjects) != 41:
        wrong.append(f"the documents have {len(subjects)} codes and causes")
    for it in wrong:
        print(f"explain: {it}")
    return not wrong


def main():
    words = argparse.ArgumentParser(description="Compares what the program explains with the documents.")
    words.add_argument("program")
    given = words.parse_args()
    return 0 if are_explanations_right(os.path.abspath(given.program)) else 1


if __name__ == "__main__":
    sys.exit(main())
