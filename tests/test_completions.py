#!/usr/bin/env python3
"""Whether the completions for bash and zsh offer what the program's help tells, and nothing else.

    test_completions.py PROGRAM

The completion for bash is run, and that for zsh too where zsh is installed, with its helpers replaced by ones that print what
they are given; elsewhere its options are only looked up in its text. Prints what one has and the other has not. The status
is 0 only where there is nothing.
"""
import argparse
import os
import re
import shutil
import subprocess
import sys

from test_man import TOP, commands_of, options_of, printed

BASH = os.path.join(TOP, "completions", "cddlseq.bash")
ZSH = os.path.join(TOP, "completions", "_cddlseq")
# Options with a value, behind which no option is offered.
VALUED = {"--root", "--depth", "--item-bytes", "--steps"}
# Where names of files are offered, and where none are any more.
FILES = {
    ("check", ""): True, ("check", "a", ""): False, ("validate", "a", ""): True, ("validate", "a", "b", ""): False,
    ("rewrite", "--root", "a", "b", ""): True, ("rewrite", "--root=a", "b", "c", ""): False, ("show", ""): True,
    ("rewrite", "--deterministic", "a", ""): True, ("rewrite", "a", "--deterministic", "b", ""): False,
    ("show", "a", ""): False, ("show", "--", ""): True, ("show", "--depth", ""): False, ("help", ""): False, ("explain", ""): False,
}

IN_BASH = r"""
compopt() { :; }
source "$1"; shift
COMP_WORDS=(cddlseq "$@"); COMP_CWORD=$#
_cddlseq
printf '%s\n' "${COMPREPLY[@]}"
"""

# '_arguments' with '-C' is asked first: before a command it offers what it is given, and behind one it says that there is one.
IN_ZSH = r"""
_describe() { print -rl -- "${(@)${(P)2}%%:*}" }
_arguments() {
    if [[ $1 == -C ]] && (( $#words > 2 )); then
        state=argument
        shift words
    else
        [[ $1 == -C ]] && state=command && shift
        print -rl -- "$@"
    fi
}
file=$1; shift
words=(cddlseq "$@")
source $file
"""


def ran(words, folder=TOP):
    return subprocess.run(words, cwd=folder, stdin=subprocess.DEVNULL, stdout=subprocess.PIPE, text=True, check=True).stdout


def in_bash(*words):
    """What bash offers in the place of the last word."""
    return set(ran(["bash", "--norc", "-c", IN_BASH, "bash", BASH, *words]).split())


def in_zsh(*words):
    """The options and the commands that zsh is given where the last word is to be completed."""
    told = ran(["zsh", "-f", "-c", IN_ZSH, "zsh", ZSH, *words])
    return {it for line in told.splitlines() for it in zsh_words(line)}


def zsh_words(line):
    """The option that a specification of '_arguments' is of, or the command that a line is."""
    option = re.match(r"(?:\([^)]*\))?(--?[A-Za-z][\w-]*)", line)
    return [option[1]] if option else re.findall(r"^[a-z]+$", line)


def compared(shell, place, offered, told):
    wrong = [f"{shell} offers no {it} {place}" for it in sorted(told - offered)]
    return wrong + [f"{shell} offers {it} {place}" for it in sorted(offered - told)]


def differences(program):
    """What a completion or the program lacks."""
    top = printed(program, "--help")
    commands = commands_of(top)
    has_zsh = shutil.which("zsh") is not None
    wrong = compared("bash", "first", in_bash(""), commands | options_of(top))
    wrong += compared("bash", "after help", in_bash("help", ""), commands)
    told = options_of(top)
    for command in sorted(commands - {"help"}):
        options = options_of(printed(program, command, "--help"))
        told |= options
        wrong += compared("bash", f"after {command}", in_bash(command, "--") | in_bash(command, "-h"), options)
        for option in sorted(options & VALUED):
            wrong += compared("bash", f"after {option}", in_bash(command, option, ""), set())
        if has_zsh:
            wrong += compared("zsh", f"after {command}", in_zsh(command, ""), options)
    for words, offers in FILES.items():
        if ("Makefile" in in_bash(*words)) != offers:
            wrong.append(f"bash offers {'no ' if offers else ''}names of files after {' '.join(words)}")
    if has_zsh:
        wrong += compared("zsh", "first", in_zsh(""), commands | options_of(top))
        wrong += compared("zsh", "after help", in_zsh("help", ""), commands)
    with open(ZSH, encoding="utf-8") as file:
        named = set(re.findall(r"(?<=['{,])--?[A-Za-z][\w-]*", file.read()))
    return wrong + compared("zsh", "at all", named, told)


def are_completions_right(program):
    """Whether the completions offer what the program's help tells; prints where they do not."""
    wrong = differences(program)
    for it in wrong:
        print(f"completions: {it}")
    return not wrong


def main():
    words = argparse.ArgumentParser(description="Compares the completions with the program's help.")
    words.add_argument("program")
    given = words.parse_args()
    return 0 if are_completions_right(os.path.abspath(given.program)) else 1


if __name__ == "__main__":
    sys.exit(main())
