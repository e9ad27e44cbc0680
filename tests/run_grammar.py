#!/usr/bin/env python3
"""Runs the rows of grammar_rows.json on the built cddl_outline: the tree of each text, or why it has none.

    run_grammar.py PROGRAM [--only TEXT] [-v]
    run_grammar.py --texts FOLDER [--only TEXT]
    run_grammar.py --answers FOLDER [--only TEXT] [-v]

Prints each row that failed, with what came, and last 'N passed, M failed'. --only takes the rows whose name has TEXT.
--texts runs nothing, and writes what the program would read: a file for each run. --answers judges what it printed
for them: files of the same names.

A row is one case, with these fields. Whatever it expects comes from the grammar (docs/LANGUAGE.md), never from what
the program printed.

  name          what the row shows
  text          the specification: a text, or a list of lines
  text_parts    the same, as a list of [text, count], each taken count times
  text_hex      the same, as bytes in hex
  tree          the sketch of its tree
  tree_parts    the same, as a list of [text, count]
  rules         for a long specification in place of its sketch: how many rules it has
  code, at      in place of a tree: why it has none, and the offset where that shows
  input         in place of one text: the whole standard input of a run for this row alone
  answers       for that: a list of what comes, each the sketch of a tree or the line of a refusal
  counts        in place of a tree: the line that comes where the text is only counted, in a run for this row alone

A sketch is the tokens of a tree, with words that tell apart what is spelled alike: 'type' and 'group' before a rule
and before parentheses, by what they hold; 'op(..)' round two operands; 'key', 'bareword' and 'value' before a key. '|'
parts the entries of an alternative, and ';' rules. Besides, the tokens that the program prints in a tree have to be
those of the text, all of them and in order.
"""
import argparse
import json
import os
import re
import subprocess
import sys

TOP = os.path.dirname(os.path.dirname(os.path.abspath(__file__)))
SECONDS = 60
TEXTS_PER_RUN = 50

TREE = "tree: "
# What is before a text that is only counted.
COUNTED = b"\xff"
# The kind of token that each node of one token holds.
LEAVES = {
    "Plain": "Name", "Name": "Name", "Hash": "Hash", "Number": "Number", "Text": "Text", "Bytes": "Bytes",
    "Range": "Range", "RangeBelow": "RangeBelow", "Control": "Control",
    "TypeIs": "Assign", "TypeOr": "TypeAssign", "GroupIs": "Assign", "GroupOr": "GroupAssign",
}
# A token in a line that the program prints: its node, where it is all of one; its kind, start, end and text.
TOKEN = re.compile(r'\{(\w*) (\w+) (\d+) (\d+) "((?:[^"\\]|\\.)*)"\}')
ESCAPE = re.compile(r"\\(?:u\{([0-9a-f]+)\}|(.))")
GAP = re.compile(rb"(?:[ \t\n]|\r\n|;[^\n]*(?:\n|$))*")


def unescaped(text):
    """What is between the quotes of a text that is printed by {:?}."""
    letters = {"n": "\n", "r": "\r", "t": "\t", "0": "\0"}
    return ESCAPE.sub(lambda it: chr(int(it[1], 16)) if it[1] else letters.get(it[2], it[2]), text)


def sketch_of(line):
    """The sketch in a line: its tokens stand there as they are spelled."""
    return TOKEN.sub(lambda it: unescaped(it[5]), line[len(TREE):])


def rules_in(line):
    """How many rules the tree of a line has."""
    words = TOKEN.sub("", line[len(TREE):])
    return words.count(";") + 1 if words else 0


def is_printed_by(line, text):
    """Whether a text is just the tokens of a line, with gaps between them."""
    at, kind = 0, ""
    for _, kind, start, end, token in TOKEN.findall(line):
        start, end = int(start), int(end)
        if not GAP.fullmatch(text, at, start) or text[start:end] != unescaped(token).encode():
            return False
        at = end
    return kind == "End" and at == len(text)


def has_its_kinds(line):
    """Whether the nodes of one token hold tokens of the right kinds."""
    return all(LEAVES.get(node) == kind for node, kind, *_ in TOKEN.findall(line) if node)


def is_alone(row):
    """Whether a row has a run of its own."""
    return "input" in row or "counts" in row


def joined(parts):
    return "".join(text * count for text, count in parts)


def text_of(row):
    """The specification of a row; for a row with a run of its own all that it reads."""
    if "text_hex" in row:
        return bytes.fromhex(row["text_hex"])
    if "text_parts" in row:
        return joined(row["text_parts"]).encode()
    text = row.get("input", row.get("text"))
    text = (text if isinstance(text, str) else "".join(f"{it}\n" for it in text)).encode()
    return COUNTED + text if "counts" in row else text


def answer_of(row):
    """The answer to a row's text: a sketch, the line of a refusal, or a number of rules."""
    if "code" in row:
        return f"refused: {row['code']} at byte {row['at']}"
    if "counts" in row:
        return row["counts"]
    if "rules" in row:
        return row["rules"]
    return joined(row["tree_parts"]) if "tree_parts" in row else row["tree"]


def cases_of(row):
    """The texts of a row, with their answers."""
    if "input" not in row:
        return [(text_of(row), answer_of(row))]
    texts = text_of(row).split(b"\0")
    if not texts[-1]:
        texts.pop()
    if len(texts) != len(row["answers"]):
        raise SystemExit(f"grammar_rows.json: {row['name']}: {len(texts)} texts, {len(row['answers'])} answers")
    return list(zip(texts, row["answers"]))


def shown(text):
    return text if len(text) <= 160 else f"{text[:160]}.. ({len(text)} characters)"


def fault_of(text, answer, line):
    """What is wrong with the line that came for a text; None where nothing is."""
    if line is None:
        return "no line came"
    if not line.startswith(TREE):
        is_wanted = line == answer and line.startswith(("refused: ", "tokens: "))
        return None if is_wanted else f"{shown(line)!r}, wanted {shown(str(answer))!r}"
    got = rules_in(line) if isinstance(answer, int) else sketch_of(line)
    if got != answer:
        return f"{shown(str(got))!r}, wanted {shown(str(answer))!r}"
    if not has_its_kinds(line):
        return f"a node holds a token of another kind: {shown(line)}"
    return None if is_printed_by(line, text) else f"these tokens aren't those of the text: {shown(line)}"


def runs_of(rows):
    """The runs of the program: for each its input, and the rows that it is for."""
    together = [row for row in rows if not is_alone(row)]
    runs = []
    for at in range(0, len(together), TEXTS_PER_RUN):
        part = together[at:at + TEXTS_PER_RUN]
        runs.append((b"\0".join(text_of(row) for row in part) + b"\0", part))
    return runs + [(text_of(row), [row]) for row in rows if is_alone(row)]


def printed(program, given):
    """What the program prints for an input, and what is wrong with the run itself, if anything."""
    try:
        run = subprocess.run([program], input=given, stdout=subprocess.PIPE, stderr=subprocess.PIPE, timeout=SECONDS)
    except subprocess.TimeoutExpired:
        return b"", f"no end in {SECONDS} seconds"
    except OSError as error:
        return b"", f"cannot run the program: {error}"
    if run.returncode or run.stderr:
        return run.stdout, f"status {run.returncode}, standard error {run.stderr[:160]!r}"
    return run.stdout, None


def lines_of(output):
    return output.decode(errors="replace").split("\n")[:-1]


def judged(rows, output, wrong):
    """The rows of a run, each with its faults."""
    lines = lines_of(output)
    for row in rows:
        came = [(text, answer, lines.pop(0) if lines else None) for text, answer in cases_of(row)]
        faults = [wrong] if wrong else [it for it in (fault_of(*case) for case in came) if it]
        if row is rows[-1] and lines:
            faults.append(f"{len(lines)} lines too many")
        yield row, faults


def selected(only):
    with open(os.path.join(TOP, "tests", "grammar_rows.json"), encoding="utf-8") as file:
        rows = json.load(file)
    names = [row["name"] for row in rows]
    twice = sorted({it for it in names if names.count(it) > 1})
    if twice:
        raise SystemExit(f"grammar_rows.json has two rows of one name: {', '.join(twice)}")
    return [row for row in rows if only in row["name"]]


def judge(outputs, only="", is_verbose=False):
    """Judges what each run printed, prints the rows that failed, and returns how many passed and failed."""
    passed = failed = 0
    for (given, rows), (output, wrong) in outputs(runs_of(selected(only))):
        for row, faults in judged(rows, output, wrong):
            passed, failed = (passed, failed + 1) if faults else (passed + 1, failed)
            if faults:
                print(f"FAILED {row['name']}")
            elif is_verbose:
                print(f"ok {row['name']}")
            for it in faults[:6]:
                print(f"    {it}")
    return passed, failed


def run_grammar(program, only="", is_verbose=False):
    """Runs the rows, prints those that failed, and returns how many passed and failed."""
    return judge(lambda runs: ((run, printed(program, run[0])) for run in runs), only, is_verbose)


def read_answers(folder):
    """What the program printed for each run, from files."""
    def outputs(runs):
        for number, run in enumerate(runs, 1):
            try:
                with open(os.path.join(folder, str(number)), "rb") as file:
                    yield run, (file.read(), None)
            except OSError as error:
                yield run, (b"", f"cannot read what it printed: {error}")
    return outputs


def write_texts(folder, inputs):
    os.makedirs(folder, exist_ok=True)
    for number, given in enumerate(inputs, 1):
        with open(os.path.join(folder, str(number)), "wb") as file:
            file.write(given)


def main():
    words = argparse.ArgumentParser(description="Runs the rows of grammar_rows.json on the built cddl_outline.")
    words.add_argument("program", nargs="?")
    words.add_argument("--texts", metavar="FOLDER", help="write what the program would read, a file for each run")
    words.add_argument("--answers", metavar="FOLDER", help="judge what it printed for these files")
    words.add_argument("--only", default="", help="only the rows whose name has this text")
    words.add_argument("-v", action="store_true", help="print each row that passed too")
    given = words.parse_args()
    if sum(it is not None for it in (given.program, given.texts, given.answers)) != 1:
        words.error("give one of PROGRAM, --texts and --answers")
    if given.texts:
        write_texts(given.texts, (it for it, _ in runs_of(selected(given.only))))
        return 0
    if given.program:
        passed, failed = run_grammar(os.path.abspath(given.program), given.only, given.v)
    else:
        passed, failed = judge(read_answers(given.answers), given.only, given.v)
    print(f"{passed} passed, {failed} failed")
    return 1 if failed or not passed else 0


if __name__ == "__main__":
    sys.exit(main())
