#!/usr/bin/env python3
"""Compares the built cddl_outline with a plain recognizer of the grammar.

    recognizer.py PROGRAM
    recognizer.py --texts FOLDER
    recognizer.py --answers FOLDER

The recognizer (Earley's) reads the table below, which is the grammar of docs/LANGUAGE.md. They are compared on all
lists of tokens of some kinds up to a small length, and on texts of grammar_rows.json: is it a specification, and if
not, where does the first token stand with which nothing can go on? Each line of COMPARISONS counts as one; those that
failed are printed, with the first texts that they differ on. The last line is 'N passed, M failed'. --texts runs
nothing, and writes what the program would read: a file for each run. --answers compares what it printed for them:
files of the same names.
"""
import argparse
import os
import re
import sys

from run_grammar import TREE, is_alone, lines_of, printed, read_answers, selected, shown, text_of, write_texts

BYTES_PER_RUN = 30000
UNEXPECTED = "S10 Unexpected"

# A line for each way in which a part is spelled. Parts are small words; what begins with a capital is a kind of token.
GRAMMAR = """
cddl      = rules End
rules     =
rules     = rules rule
rule      = name Assign type
rule      = name TypeAssign type
rule      = name Assign grpent
rule      = name GroupAssign grpent
name      = Name
name      = NameOpen names AngleClose
names     = Name
names     = names Comma Name
ref       = Name
ref       = NameOpen arguments AngleClose
arguments = type1
arguments = arguments Comma type1
type      = type1
type      = type Slash type1
type1     = type2
type1     = type2 Range type2
type1     = type2 RangeBelow type2
type1     = type2 Control type2
type2     = value
type2     = ref
type2     = ParenOpen type ParenClose
type2     = BraceOpen group BraceClose
type2     = BracketOpen group BracketClose
type2     = Tilde ref
type2     = Ampersand ParenOpen group ParenClose
type2     = Ampersand ref
type2     = TagOpen type ParenClose
type2     = TagHeadOpen type AngleClose ParenOpen type ParenClose
type2     = SimpleHeadOpen type AngleClose
type2     = Hash
value     = Number
value     = Text
value     = Bytes
group     = grpchoice
group     = group DoubleSlash grpchoice
grpchoice =
grpchoice = grpchoice grpent
grpchoice = grpchoice grpent Comma
grpent    = member
grpent    = Occur member
member    = type
member    = memberkey type
member    = ParenOpen group ParenClose
memberkey = type1 Arrow
memberkey = type1 Cut Arrow
memberkey = Name Colon
memberkey = value Colon
"""
SPELLINGS = [(part.strip(), tuple(symbols.split()))
             for part, symbols in (line.split("=") for line in GRAMMAR.strip().splitlines())]
WAYS = {part: [way for way, (it, _) in enumerate(SPELLINGS) if it == part] for part, _ in SPELLINGS}
# The parts that may have no token.
EMPTY = {"rules", "group", "grpchoice"}

# Every kind of token but the end, and a text of that kind.
KINDS = {
    "Name": "a", "NameOpen": "a<", "Control": ".size", "Number": "1", "Occur": "*", "Text": '""', "Bytes": "''",
    "Hash": "#", "TagOpen": "#6.1(", "TagHeadOpen": "#6.<", "SimpleHeadOpen": "#7.<", "Assign": "=",
    "TypeAssign": "/=", "GroupAssign": "//=", "Slash": "/", "DoubleSlash": "//", "Range": "..", "RangeBelow": "...",
    "Arrow": "=>", "Cut": "^", "Colon": ":", "Comma": ",", "ParenOpen": "(", "ParenClose": ")", "BracketOpen": "[",
    "BracketClose": "]", "BraceOpen": "{", "BraceClose": "}", "AngleClose": ">", "Tilde": "~", "Ampersand": "&",
}
# Kinds of one rule's body and of what is between rules; kinds that open and close; and kinds of entries with keys.
FLAT = ["Name", "Assign", "Slash", "Comma", "ParenOpen", "ParenClose", "Arrow", "Colon", "Occur"]
NESTED = ["Name", "NameOpen", "AngleClose", "TagHeadOpen", "ParenOpen", "ParenClose", "BracketOpen", "BracketClose",
          "Ampersand", "DoubleSlash", "Comma", "Arrow"]
KEYED = ["Name", "Number", "Occur", "Slash", "Range", "Comma", "Colon", "Cut", "Arrow", "ParenOpen", "ParenClose",
         "BracketClose"]

# What the texts of a kind look like, where there are several; and gaps.
UINT = r"(?:0[xX][0-9a-fA-F]+|0[bB][01]+|0|[1-9][0-9]*)"
ID = r"[A-Za-z@_$](?:[-.]*[A-Za-z0-9@_$])*"
VARYING = {
    "Name": ID, "NameOpen": ID + "<", "Control": r"\." + ID, "Number": "-?" + UINT,
    "Occur": rf"(?:{UINT})?\*(?:{UINT})?|\+|\?", "Text": r'"(?:[^"\\]|\\.)*"',
    "Bytes": r"(?:[hH]|[bB]64)?'(?:[^'\\]|\\.)*'", "Hash": rf"#(?:[0-9](?:\.{UINT})?)?",
    "TagOpen": rf"#6(?:\.{UINT})?\(", "gap": r"(?:[ \t\r\n]|;[^\n]*)+",
}
PATTERNS = [(kind, re.compile(VARYING.get(kind) or re.escape(KINDS[kind]), re.S)) for kind in [*KINDS, "gap"]]


def tokens_of(text):
    """The tokens of a text that has any, the longest at each place: the kind and the offset of each."""
    found, at = [], 0
    while at < len(text):
        matches = [(kind, pattern.match(text, at)) for kind, pattern in PATTERNS]
        end, kind = max((it.end(), kind) for kind, it in matches if it)
        if kind != "gap":
            found.append((kind, at))
        at = end
    return found + [("End", at)]


# An item is a spelling, how many of its symbols are read, and before which token it began. A column is the items that
# stand before a token, by the symbol that each awaits. There is a column for each token read, and one more.


def follow(columns, column, item):
    """What follows from an item of the column after these."""
    way, read, began = item
    part, symbols = SPELLINGS[way]
    if read == len(symbols):
        # a part without tokens was passed over where it is awaited
        return [(w, r + 1, b) for w, r, b in columns[began].get(part, ())] if began < len(columns) else []
    awaited = symbols[read]
    found = [(way, read + 1, began)] if awaited in EMPTY else []
    if awaited not in column:
        found += [(w, 0, len(columns)) for w in WAYS.get(awaited, ())]
    column.setdefault(awaited, []).append(item)
    return found


def close(columns, items):
    """The columns with one more: of these items, and all that follows from them."""
    column, seen, waiting = {}, set(items), list(items)
    while waiting:
        for item in follow(columns, column, waiting.pop()):
            if item not in seen:
                seen.add(item)
                waiting.append(item)
    return columns + (column,)


def after(columns, kind):
    """The columns with one more, after a token of this kind; None where nothing can go on with it."""
    items = [(way, read + 1, began) for way, read, began in columns[-1].get(kind, ())]
    return close(columns, items) if items else None


BEGINNING = close((), [(way, 0, 0) for way in WAYS["cddl"]])


def first_wrong(kinds):
    """The place of the first token with which nothing can go on; None where there is none."""
    columns = BEGINNING
    for at, kind in enumerate(kinds):
        columns = after(columns, kind)
        if columns is None:
            return at
    return None


# A front is a list of kinds without the end, the columns, and the place of the first wrong token. With one there are
# no columns. A case is a text, and the offset of its first wrong token; None where it is a specification.


def case_of(front):
    kinds, columns, wrong = front
    text = " ".join(KINDS[it] for it in kinds)
    if columns:
        return text, None if "End" in columns[-1] else len(text)
    return text, sum(len(KINDS[it]) + 1 for it in kinds[:wrong])


def longer(front, kind):
    kinds, columns, wrong = front
    more = after(columns, kind) if columns else None
    return kinds + (kind,), more, wrong if more or not columns else len(kinds)


def up_to(alphabet, length, start=(), is_any=False):
    """All lists of up to so many kinds after a start; those with any wrong token, or those with none but the last."""
    front = (), BEGINNING, None
    for kind in start:
        front = longer(front, kind)
    yield case_of(front)
    fronts = [front]
    for _ in range(length):
        found = [longer(front, kind) for front in fronts for kind in alphabet]
        yield from (case_of(it) for it in found)
        fronts = [it for it in found if it[1] or is_any]


def along(texts):
    """The beginnings of texts, each with any one token after it."""
    seen = set()
    for text in texts:
        front = (), BEGINNING, None
        for kind, _ in tokens_of(text):
            if front[1] and front[0] not in seen:
                seen.add(front[0])
                yield from (case_of(longer(front, it)) for it in KINDS)
            front = longer(front, kind)


def texts_of_rows():
    """The texts of the rows that the grammar decides."""
    rows = [row for row in selected("") if not is_alone(row)]
    return [text_of(row).decode() for row in rows if row.get("code", UNEXPECTED) == UNEXPECTED]


def whole(texts):
    """The cases of texts as they stand."""
    for text in texts:
        found = tokens_of(text)
        wrong = first_wrong(kind for kind, _ in found)
        yield text, None if wrong is None else len(text[:found[wrong][1]].encode())


COMPARISONS = {
    "short lists, with any wrong tokens": lambda: up_to(FLAT, 5, is_any=True),
    "rules": lambda: up_to(FLAT, 10),
    "brackets in a rule": lambda: up_to(NESTED, 6, ("Name", "Assign")),
    "entries of an array": lambda: up_to(KEYED, 6, ("Name", "Assign", "BracketOpen")),
    "all kinds of tokens": lambda: up_to(KINDS, 6),
    "beginnings of short rows, and one token": lambda: along(it for it in texts_of_rows() if len(it) <= 40),
    "rows": lambda: whole(texts_of_rows()),
}


def parts_of(cases):
    """The cases of each run of the program."""
    part, size = [], 0
    for text, wrong in cases:
        part.append((text, wrong))
        size += len(text) + 1
        if size >= BYTES_PER_RUN:
            yield part
            part, size = [], 0
    if part:
        yield part


def runs():
    """The runs of the program: for each its input, and the comparison and the cases that it is for."""
    for name, cases in COMPARISONS.items():
        for part in parts_of(cases()):
            yield b"".join(text.encode() + b"\0" for text, _ in part), (name, part)


def faults_of(cases, output, wrong):
    """What is wrong with what came for these cases, a line each."""
    lines = lines_of(output)
    if wrong or len(lines) != len(cases):
        return [wrong or f"{len(lines)} lines for {len(cases)} texts"]
    faults = []
    for (text, at), line in zip(cases, lines):
        want = TREE if at is None else f"refused: {UNEXPECTED} at byte {at}"
        if line != want and not (at is None and line.startswith(want)):
            faults.append(f"{shown(text)!r}: {line[:80]}, wanted {'a tree' if at is None else want}")
    return faults


def judge(outputs):
    """Prints the comparisons that failed, and returns how many passed and failed."""
    faults = {name: [] for name in COMPARISONS}
    for (_, (name, cases)), (output, wrong) in outputs(runs()):
        faults[name] += faults_of(cases, output, wrong)
    for name, found in faults.items():
        if found:
            print(f"FAILED comparison: {name}: {len(found)} differences")
        for it in found[:6]:
            print(f"    {it}")
    failed = sum(1 for it in faults.values() if it)
    return len(faults) - failed, failed


def compare(program):
    """Makes the comparisons, prints those that failed, and returns how many passed and failed."""
    return judge(lambda these: ((run, printed(program, run[0])) for run in these))


def main():
    words = argparse.ArgumentParser(description="Compares the built cddl_outline with a plain recognizer.")
    words.add_argument("program", nargs="?")
    words.add_argument("--texts", metavar="FOLDER", help="write what the program would read, a file for each run")
    words.add_argument("--answers", metavar="FOLDER", help="compare what it printed for these files")
    given = words.parse_args()
    if sum(it is not None for it in (given.program, given.texts, given.answers)) != 1:
        words.error("give one of PROGRAM, --texts and --answers")
    if given.texts:
        write_texts(given.texts, (it for it, _ in runs()))
        return 0
    passed, failed = compare(os.path.abspath(given.program)) if given.program else judge(read_answers(given.answers))
    print(f"{passed} passed, {failed} failed")
    return 1 if failed or not passed else 0


if __name__ == "__main__":
    sys.exit(main())
