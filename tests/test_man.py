#!/usr/bin/env python3
"""Whether the man page tells the options and the commands that the program's help does, no others, and its version.

    test_man.py PROGRAM

Prints what one has and the other has not. The status is 0 only where there is nothing.
"""
import argparse
import os
import re
import subprocess
import sys

TOP = os.path.dirname(os.path.dirname(os.path.abspath(__file__)))
PAGE = os.path.join(TOP, "man", "cddlseq.1")
OPTION = re.compile(r"(?<![\w-])--?[A-Za-z][\w-]*")


def printed(program, *words):
    """What the program prints on standard output, where it ends with status 0."""
    ran = subprocess.run([program, *words], stdin=subprocess.DEVNULL, stdout=subprocess.PIPE, text=True, check=True)
    return ran.stdout


def commands_of(text):
    """The commands that a help lists."""
    lines = text.split("Commands:\n", 1)[1].split("\n\n", 1)[0].splitlines()
    return {line.split()[0] for line in lines if re.match(r"  \S", line)}


def options_of(text):
    """The options that a help lists, each before its text."""
    found = set()
    for line in text.splitlines():
        if re.match(r" {2,}-", line):
            found.update(OPTION.findall(re.split(r"\s{2,}", line.strip())[0]))
    return found


def section_of(page, name):
    return page.split(f".SH {name}\n", 1)[1].split("\n.SH ", 1)[0]


def tagged(text):
    """The first words of the paragraphs that have a tag."""
    return [it.replace("\\-", "-") for it in re.findall(r"^\.TP\n(.*)$", text, re.MULTILINE)]


def differences(program, page):
    """What the page or the program lacks."""
    top = printed(program, "--help")
    commands = commands_of(top)
    helps = [top] + [printed(program, it, "--help") for it in sorted(commands - {"help"})]
    options = set().union(*(options_of(it) for it in helps))
    told_commands = {it.split()[1] for it in tagged(section_of(page, "COMMANDS"))}
    told_options = {it for tag in tagged(section_of(page, "OPTIONS")) for it in OPTION.findall(tag)}
    version = printed(program, "--version").strip()
    wrong = [f"the page does not tell {it}" for it in sorted((options - told_options) | (commands - told_commands))]
    wrong += [f"the program does not know {it}" for it in sorted((told_options - options) | (told_commands - commands))]
    if f'"{version}"' not in page:
        wrong.append(f"the page is not that of {version}")
    return wrong


def is_page_right(program):
    """Whether the page and the program's help tell the same; prints where they do not."""
    with open(PAGE, encoding="utf-8") as file:
        wrong = differences(program, file.read())
    for it in wrong:
        print(f"man page: {it}")
    return not wrong


def main():
    words = argparse.ArgumentParser(description="Compares the man page with the program's help.")
    words.add_argument("program")
    given = words.parse_args()
    return 0 if is_page_right(os.path.abspath(given.program)) else 1


if __name__ == "__main__":
    sys.exit(main())
