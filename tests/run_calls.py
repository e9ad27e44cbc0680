#!/usr/bin/env python3
"""Runs the rows of tests/calls/NAME/*.txt on the built program NAME: what public calls answer.

    run_calls.py [PROGRAM ..] [--only TEXT] [-v]
    run_calls.py --count

With no PROGRAM the rows of all programs are run, on those that are built in crates/. Prints each row that failed, with what came,
and last 'N passed, M failed'. --only takes the rows whose line, or whose file's name, has TEXT. --count runs nothing, and prints
how many rows each file has. A row that stands for many counts as many.

A row is one line, 'CALL WORD.. -> ANSWER'. The program reads the line up to the arrow, and the line that it prints is to be
the answer. Lines that begin with '# ' say what the rows after them show. With '## ' these, up to an empty line, are asked with
each request for memory refused in turn, too (tests/run_memory.py). What a row expects comes from an RFC or from docs/, never from
what the program printed. A call is named 'ROOM.NAME', mostly by the name of the function:

  stream_calls  item and device of cbor_item, read of cbor_read, form of read_items; match of table_nodes and cddl_match, session
                and run of seq_run
  tool_calls    tool of command_line and cddl_tool; validate of cddl
  spec_calls    literal of cddl_literal, token of cddl_token, terms and texts of check_terms, value of check_literals::values and
                cddl_literal::operators, names of check_names, prelude of check_reading, graph of graphs, parts of alternatives;
                text and root: what the rooms of cddl_check tell of a text, and of what its root leads to; lesser and too_many;
                spec of cddl_check, and table and ranks of cddl_table

These are the words:

  8101+00*3     bytes in hex; parts with '+' between them are one after the other, and '*' says how often a part is there
  "a = \\x01"    the same bytes as text, with the escapes \\" \\\\ \\n \\r \\t \\0, \\u{e9} for a character, and \\xe9 for a byte
  uint:1        builds an item and puts it on a stack, and so do nint:0 (which is -1), bytes:61, text:a, simple:20, f16:0, f32:0,
                f64:0 and 8101 (the item that these bytes spell); array:2 and map:1 take the last 2 items, or the last pair,
                from the stack, and tag:7 its content. A call has what is on top of it
  WORD{256}     the word 256 times
  <1..9: a#>    what is after the colon for each of these numbers, with its first character, here a space, between them; '#+' is
                the next number. An answer may have it too, and <61*9> for 61 so many times

A table of match.types, match.groups and match.ranks is made of words, whose numbers name other words of the same list:

  any, major:0, is:5, is:n5 (-6), text:a, bytes:61, closed:1:5 (1..5), open:1:5 (1...5), ref:2, choice:1,2, array:GROUP, tag:NUMBER:CONTENT, simple:1, both:1:2,
  one:1:2 and sequence:1:2 (.cbor and .cborseq), such:1:TEST with ne:5, lt:n5 (-6), le, gt, ge, size:1..2,4..4 or
  bits:0,2..3;
  map:ALTERNATIVE/.., each '-' or entries with commas, as 0*any:1=2, or 1*1:1^2 where the key cuts; and groups entry:TYPE,
  ref:2, seq:1,2, alt:1,2, 0*any:1. Ranks are of types, then of groups, and then 1 for each group that may take no item

Answers are the names of the variants in the code, and items in diagnostic notation (docs/ITEMS.md); 'none' is an answer that
has nothing in it. A refusal is the name of its kind, with 'at' its place. Readers go on with the next row:

  read.new DEPTH BYTES         a reader with these limits; read.feed, read.feed_all (until a piece is used up), read.take_small
                               and read.at_end are its calls, and answer 'USED: ITEM', 'USED: KIND at PLACE' or 'More'
  read.read_fronts DEPTH BYTES OFFSET HEX
                               the same of all items at once, by the plain reader; read.read_front of the first one
  form.new, form.read DEPTH HEX
  device.CALL ROOM END ..      a device that takes or gives one byte a call, so many in all, and then 'fails' or 'stops':
                               what the call answers, how often the device failed, and what it took

  match.verdict ROOT STEPS HEX what the type says of an item; match.turns ROOT STEPS ROOM HEX says so by turns
  match.reasons ROOT STEPS MOST HEX
                               where a no shows, and why: of each reason the types that are open and the place, behind those of
                               the byte strings in whose content it is, each with ':'; and how many more there are
  match.held one HEX           what a byte string of these bytes holds, as one item; match.held sequence HEX as the array of the
                               items of a sequence
  session.feed ROOT STEPS DEPTH BYTES PIECE..
                               what a session answers to each piece with its items, its end, the item that it rejected, and how
                               many items and bytes it has taken, with '|' between them; session.feed_one takes items one by
                               one, session.validate_pieces all at once, and answers no more than the items and the end; a piece
                               '-' is empty. session.owned_feed and session.owned_feed_one are those of a session that owns its
                               table, and session.owned_again is its second stream, behind one of the same pieces
  run.report ROOT STEPS DEPTH BYTES SIZE HEX
                               the line of the end, or why there is none; how many bytes were read of a device that gives at most
                               SIZE at once, and how many were asked for at once; and what was written, each line after ' / '.
                               So do run.end_line, run.rewrite and run.deterministic
  validate.report SOURCE SINK NAME STEPS DEPTH BYTES SPEC HEX
                               the line of the end, or why there is none, and what was written; so do the other three. NAME is
                               that of the root, or '-'
  terms.ask WORD..             calls of one new table of terms, each with its answer: add:FORM, add_node:FORM:TEXT:FIRST:SECOND,
                               fill:BODY:PARAMETERS:ARGUMENTS and others; '=3' is the number that the third word answered

  tool.act SOURCE SINK SPEC STREAM WORD..
                               the status of a command, standard error and the output, as text in quotes or in hex. A source
                               cut:2 gives two pieces, and Other:2 fails so after two bytes; a sink has room for so many bytes,
                               and then 'fails' or 'stops'

A row whose call begins with '@' stands for many:

  @form DEPTH HEX              the form of these bytes, cut in two at each byte, and byte by byte with empty pieces between
  @stream DEPTH BYTES HEX      all items and the end of this stream, by the plain reader, and by pieces cut in these ways
  @written HEX                 an item's notation, and its preferred bytes on a device that fails or stops at each of them
  @deterministic HEX           its deterministic bytes, on a device that fails or stops at each of them
  @apart                       of the items of all rows @written before it, two are the same only where they are one row's
  @keys KIND PLACES            maps with keys of this kind, in three orders and of several lengths, of which one repeats an
                               earlier one; each key has so many places
  @keys_inside COUNT           a map that repeats a key, as the last value of a map with so many keys
  @thousand LAST               a map with the keys 0 to 999, and this one
  @made SEED COUNT LENGTH DEPTH BYTES
                               streams that look like chance: the plain reader and the reader by pieces say the same
  @assigns HEX                 how many '=' are among the tokens of a source
  @judge ROOT HEX              what a type says of an item, by calls and by turns, with few questions open
  @steps ROOT HEX              in how many steps it says so: in one fewer it does not
  @choices SEED COUNT          what random choices of literals say, in exactly so many steps as there are members up to the answer
  @open ROOT STEPS ROOM HEX N  what it says by turns, with more than N questions open
  @run ROOT SIZES HEX KNOWN    the items, the end in short and its line, in pieces of these or of all sizes, by all calls of
                               sessions and by a run; the end is known after so many bytes, or at the end
  @report ROOT TIMES           the report of many small numbers
  @cuts SPEC STREAM WORD..     tool.act for a stream in two pieces cut at each byte
  @rooms SPEC STREAM WORD..    the same for a device that fails or stops at each byte of this output
  @reads CALLS SPEC STREAM ENDS WORD..
                               the output, and its beginnings where the read of a byte fails: where each of so many reads does;
                               the items of the output end at these bytes, and '-' says that it has none
  @said ROOM TEXT NAME         what a device takes of what is said, however often it is asked
  @fill PARAMETERS ARGUMENTS   what '[t, ~u, ]' is with these names as arguments
  @shared TIMES                how many rows are added where a body that has 't' in 2 to so many places is filled
  @strings ROOT N              what it says of 1 in so many byte strings, each in the next one
  @arrays ROOT N               what it says of 0 in so many byte strings, each in an array in the next one, by calls and by turns
"""
import argparse
import glob
import os
import re
import subprocess
import sys

TOP = os.path.dirname(os.path.dirname(os.path.abspath(__file__)))
SECONDS = 120
ARROW = " -> "
# A word in quotes, and one that is repeated.
QUOTED = re.compile(r'"((?:[^"\\]|\\.)*)"')
REPEATED = re.compile(r"(\S+)\{(\d+)\}")
RANGE = re.compile(r"<(\d+)\.\.(\d+):(.)([^>]*)>")
TIMES = re.compile(r"<([^<>]+)\*(\d+)>")
ESCAPE = re.compile(r"\\(?:u\{([0-9a-fA-F]+)\}|x([0-9a-f]{2})|(.))", re.S)
LETTERS = {"n": b"\n", "r": b"\r", "t": b"\t", "0": b"\0"}


class Case:
    """Lines that are asked one after the other, and what is wrong with their answers: a function of their list."""

    def __init__(self, row, lines, fault):
        self.row, self.lines, self.fault = row, lines, fault
        # the part of its file whose lines are asked with each request for memory refused in turn, too
        self.refused = None


def unescaped(text):
    """The bytes of what is between quotes."""
    out, at = b"", 0
    for it in ESCAPE.finditer(text):
        out += text[at:it.start()].encode()
        out += chr(int(it[1], 16)).encode() if it[1] else bytes.fromhex(it[2]) if it[2] else LETTERS.get(it[3], it[3].encode())
        at = it.end()
    return out + text[at:].encode()


def ranged(found):
    """A text for each number of a range, in its order."""
    first, last = int(found[1]), int(found[2])
    step = 1 if first <= last else -1
    return found[3].join(found[4].replace("#+", str(it + 1)).replace("#", str(it)) for it in range(first, last + step, step))


def asked(words):
    """The line that the program reads."""
    words = QUOTED.sub(lambda it: unescaped(it[1]).hex(), words)
    words = RANGE.sub(ranged, words)
    return REPEATED.sub(lambda it: " ".join([it[1]] * int(it[2])), words)


def bytes_of(word):
    """The bytes of a word in hex."""
    parts = (part.partition("*") for part in word.split("+"))
    return b"".join(bytes.fromhex(digits) * int(times or 1) for digits, _, times in parts)


def shown(text):
    text = str(text)
    return text if len(text) <= 200 else f"{text[:200]}.. ({len(text)} characters)"


def unlike(got, wanted, of=""):
    """What is wrong where an answer is not the one that is wanted."""
    return None if got == wanted else f"{of}{shown(got)!r}, wanted {shown(wanted)!r}"


def first_fault(faults):
    return next((it for it in faults if it), None)


# Pieces

def cuts_of(stream):
    """The stream cut in two at each byte, and byte by byte with empty pieces between."""
    cuts = [[stream[:at], stream[at:]] for at in range(len(stream) + 1)]
    return cuts + [[it for at in range(len(stream)) for it in (b"", stream[at:at + 1])]]


def form_case(row, words, answer):
    depth, word = words[0], words[1] if len(words) > 1 else ""
    cuts, lines = cuts_of(bytes_of(word)), []
    for pieces in cuts:
        lines += ["form.new", *(f"form.read {depth} {it.hex()}" for it in pieces)]

    def fault(answers):
        answers, faults = iter(answers), []
        for pieces in cuts:
            next(answers)
            told = form_of(pieces, [next(answers) for _ in pieces])
            faults.append(unlike(told, answer, f"cut at {len(pieces[0]) if pieces else 0}: "))
        return first_fault(faults)
    return Case(row, lines, fault)


def form_of(pieces, answers):
    """Where the pieces lead together: 'used' counts from the beginning of the first one."""
    before = 0
    for piece, answer in zip(pieces, answers):
        if answer != "More":
            return re.sub(r"used: (\d+)", lambda it: f"used: {int(it[1]) + before}", answer)
        before += len(piece)
    return "More"


def feeds(limits, pieces):
    return [f"read.new {limits}", *(f"read.feed_all {it.hex()}" for it in pieces), "read.at_end"]


def log_of(pieces, answers):
    """What the answers to feeds tell of a stream: its items, each with its offset, and the end."""
    log, offset, seen = "", 0, 0
    for piece, answer in zip(pieces, answers[1:]):
        at = seen
        for part in answer.split("; "):
            used, _, told = part.partition(": ")
            if part == "More":
                break
            if is_fault(told):
                return log + told
            at += int(used)
            log, offset = f"{log}{offset}: {told}; ", at
        seen += len(piece)
    return log + (f"clean at {seen}" if answers[-1] == "clean" else answers[-1])


def log_of_fronts(answer):
    """The same of the answer of the plain reader."""
    log, offset = "", 0
    *items, end = answer.split("; ")
    for part in items:
        length, _, told = part.partition(": ")
        log, offset = f"{log}{offset}: {told}; ", offset + int(length)
    return log + (f"clean at {offset}" if end == "Nothing" else end)


def is_fault(told):
    return re.fullmatch(r"[A-Z]\w+ at \d+", told) is not None


def stream_case(row, limits, stream, cuts, wanted=None):
    """The plain reader and the reader by pieces say the same of a stream, and what is wanted."""
    lines = [f"read.read_fronts {limits} 0 {stream.hex()}"]
    for pieces in cuts:
        lines += feeds(limits, pieces)

    def fault(answers):
        answers = iter(answers)
        log = log_of_fronts(next(answers))
        faults = [wanted is not None and unlike(log, wanted, "by fronts: ")]
        for pieces in cuts:
            part = [next(answers) for _ in range(len(pieces) + 2)]
            faults.append(unlike(log_of(pieces, part), log, f"in pieces {[it.hex() for it in pieces][:4]}: "))
        return first_fault(faults)
    return Case(row, lines, fault)


# Streams that look like chance

HEADS = bytes.fromhex("001820415f617f80829fa0a1a2bfc1d8f4f8f9ffff1c")


class Chance:
    """A fixed sequence of numbers."""

    def __init__(self, seed):
        self.state = seed

    def draw(self):
        self.state = (self.state * 6364136223846793005 + 1442695040888963407) % 2**64
        return self.state >> 33

    def byte(self):
        number = self.draw()
        return (0, ord("a"), number // 4 % 256, HEADS[number // 4 % len(HEADS)])[number % 4]

    def stream(self, length):
        return bytes(self.byte() for _ in range(length))

    def pieces(self, stream):
        """The stream in pieces of up to seven bytes, some of them empty."""
        pieces, rest = [], stream
        for _ in range(2 * len(stream)):
            size = min(self.draw() % 8, len(rest))
            pieces.append(rest[:size])
            rest = rest[size:]
        return pieces + [rest]


def made_cases(row, words):
    """With limits the streams are cut anywhere, and without limits at each byte, with limits that go round."""
    seed, count, longest, *limits = (int(it) for it in words)
    chance = Chance(seed)
    for number in range(count):
        stream = chance.stream(number % longest)
        if limits:
            yield stream_case(row, f"{limits[0]} {limits[1]}", stream, [chance.pieces(stream)])
        else:
            yield stream_case(row, f"{1 + number % 3} {1 + number % 12}", stream, cuts_of(stream))


# Items

def device_lines(call, word, length):
    return [f"device.{call} {room} {end} {word}" for room in range(length + 1) for end in ("fails", "stops")]


def device_faults(answers, written):
    """A device with room for so many bytes takes these, and the call tells how many where that are not all."""
    for at, answer in enumerate(answers):
        room = at // 2
        told = "all; failures: 0" if room == len(written) else f"written: {room}; failures: 1"
        yield unlike(answer, f"{told}; took: {written[:room].hex() or 'none'}", f"room for {room}: ")


def written_case(row, word, answer):
    item = bytes_of(word)
    lines = [f"item.diag {word}", *device_lines("write_item", word, len(item))]

    def fault(answers):
        return unlike(answers[0], answer) or first_fault(device_faults(answers[1:], item))
    return Case(row, lines, fault)


def deterministic_case(row, word, answer):
    written = bytes_of(answer)
    return Case(row, device_lines("write_det", word, len(written)), lambda answers: first_fault(device_faults(answers, written)))


def apart_cases(row, items):
    for one in items:
        lines = [f"item.is_same {one} {other}" for other in items]
        wanted = ["yes" if other == one else "no" for other in items]
        yield Case(f"{row} {one}", lines, lambda got, wanted=wanted: None if got == wanted else "another one is the same")


KEYS = {
    "integer": lambda n: [f"nint:{n // 2}" if n % 2 else f"uint:{n // 2}"],
    "text": lambda n: [f"text:key{n}"],
    "string": lambda n: [f"text:key{n // 2}" if n % 2 else f"bytes:{f'key{n // 2}'.encode().hex()}"],
    "mixed": lambda n: [f"text:key{n // 2}" if n % 2 else f"uint:{n // 2}"],
    "float": lambda n: [f"f64:{n}"],
    "array": lambda n: [f"uint:{n}", "array:1"],
}


def map_words(keys, last=("uint:0",)):
    """A map with these keys, whose last value is built by these words."""
    words = []
    for at, key in enumerate(keys):
        words += [*key, *(last if at == len(keys) - 1 else ["uint:0"])]
    return " ".join([*words, f"map:{len(keys)}"])


def keys_of(kind, step, count, at=0, like=0):
    """So many keys in the order that the step gives: 1 lets them rise, 22 fall. The key at 'at' is the one at 'like'."""
    return [KEYS[kind]((like if i == at else i) * step % 23) for i in range(count)]


def judged(row, words, wanted):
    """An item is unsound for this reason, or sound."""
    def fault(answers):
        return None if wanted == "sound" and answers[0].startswith("sound ") else unlike(answers[0], wanted)
    return Case(row, [f"item.try_new {words}"], fault)


def keys_cases(row, kind, places):
    for step in (1, 11, 22):
        for count in (0, 1, 2, 7, 8, 9, 20):
            yield judged(row, map_words(keys_of(kind, step, count)), "sound")
            for at in range(1, count):
                for like in (0, at - 1):
                    wanted = f"Duplicate({1 + at * (int(places) + 1)})"
                    yield judged(row, map_words(keys_of(kind, step, count, at, like)), wanted)


def keys_inside(row, count, answer):
    inner = map_words(keys_of("integer", 1, 2, 1, 0))
    return judged(row, map_words(keys_of("integer", 11, count), inner.split()), answer)


def thousand(row, last, answer):
    return judged(row, map_words([[f"uint:{it}"] for it in [*range(1000), last]]), answer)


# Tokens and tables

def assigns_case(row, word, answer):
    def fault(answers):
        return unlike(str(answers[0].split(" ").count("Assign")), answer)
    return Case(row, [f"token.tokens {word}"], fault)


TURNS = re.compile(r"(.*), at most (\d+) open, steps (\d+)")


def few_open(ranks, word):
    """How many questions may be open at most of an item: by the ranks of the table and the item's bytes."""
    return (int(ranks) + 1) * (len(bytes_of(word)) + 1)


def judge_case(row, root, word, answer):
    lines = [f"match.verdict {root} 1000 {word}", f"match.turns {root} 1000 16 {word}", f"match.ranks_of {root}"]

    def fault(answers):
        told = TURNS.fullmatch(answers[1])
        if not told or unlike(answers[0], answer):
            return unlike(answers[0], answer) or f"by turns {answers[1]!r}"
        is_few = int(told[2]) <= few_open(answers[2], word) and int(told[3]) <= 1000
        return unlike(told[1], answer, "by turns: ") or (None if is_few else answers[1])
    return Case(row, lines, fault)


def steps_case(row, root, word, answer):
    lines = [f"match.{call} {word}" for steps in (int(answer), int(answer) - 1)
             for call in (f"verdict {root} {steps}", f"turns {root} {steps} 16")]

    def fault(answers):
        enough, enough_by_turns, fewer, fewer_by_turns = answers
        same = enough_by_turns.startswith(f"{enough}, ") and fewer_by_turns.startswith("Spent, ")
        return None if same and enough != "Spent" and fewer == "Spent" else " ".join(answers)
    return Case(row, lines, fault)


# The literals of random choices, each with its item: numbers, and texts and byte strings of the same bytes; and what is no
# literal, with the first bytes of the items to which that says yes.
LITERALS = ([(f"is:{n}", f"{n:02x}") for n in range(20)] + [(f"is:n{n}", f"{32 + n:02x}") for n in range(20)]
            + [(f"text:{chr(n)}", f"61{n:02x}") for n in range(97, 112)] + [(f"bytes:{n:02x}", f"41{n:02x}") for n in range(97, 112)])
OTHERS = [("major:0", range(0, 32)), ("major:3", range(0x60, 0x80)), ("closed:3:5", range(3, 6)), ("major:7", range(0xe0, 0x100))]


def choices_cases(row, seed, count):
    """What random choices of literals and of a few other tests say of random items, and in how many steps: one, and one for
    each member that is asked in order."""
    chance = Chance(int(seed))
    for _ in range(int(count)):
        members = [chance.draw() % (len(LITERALS) + chance.draw() % 2 * len(OTHERS)) for _ in range(chance.draw() % 60)]
        words = [(LITERALS + OTHERS)[member] for member in members]
        item = (LITERALS + [("", "f4"), ("", "80"), ("", "617a")])[chance.draw() % (len(LITERALS) + 3)][1]
        says = [held == item if isinstance(held, str) else int(item[:2], 16) in held for _, held in words]
        steps = 1 + (1 + says.index(True) if any(says) else len(says))
        types = " ".join([f"choice:{','.join(str(n + 1) for n in range(len(words)))}"] + [word for word, _ in words])
        yield choice_case(row, types, len(words), item, "Yes" if any(says) else "No at 0", steps)


def choice_case(row, types, count, item, answer, steps):
    lines = [f"match.types {types}", "match.groups ", f"match.ranks {','.join(['1'] + ['0'] * count)} - -"]
    lines += [f"match.{call} {item}" for allowed in (steps, steps - 1)
              for call in (f"verdict 0 {allowed}", f"turns 0 {allowed} 16")]

    def fault(answers):
        said, by_turns, fewer, fewer_by_turns = answers[3:]
        told = TURNS.fullmatch(by_turns)
        same = said == answer and told and told[1] == answer and int(told[3]) == steps
        return None if same and fewer == "Spent" and fewer_by_turns.startswith("Spent, ") else f"{types}: {item}: {answers[3:]}"
    return Case(row, lines, fault)


def open_case(row, words, answer):
    def fault(answers):
        told = TURNS.fullmatch(answers[0])
        if not told or told[1] != answer or int(told[3]) > int(words[1]):
            return shown(answers[0])
        return None if int(words[4]) < int(told[2]) <= few_open(answers[1], words[3]) else shown(answers[0])
    return Case(row, [f"match.turns {' '.join(words[:4])}", f"match.ranks_of {words[0]}"], fault)


def strings_case(row, root, count, answer):
    held = b"\x01"
    for _ in range(int(count)):
        held = b"\x59" + len(held).to_bytes(2, "big") + held
    return Case(row, [f"match.verdict {root} 100000 {held.hex()}"], lambda answers: unlike(answers[0], answer))


def arrays_case(row, root, count, answer):
    """The number 0 in so many byte strings, each in an array in the one before it: by calls, and by turns."""
    held = b"\0"
    for _ in range(int(count)):
        held = b"\x81\x59" + len(held).to_bytes(2, "big") + held
    lines = [f"match.{call} {held.hex()}" for call in (f"verdict {root} 100000", f"turns {root} 100000 16")]

    def fault(answers):
        told = TURNS.fullmatch(answers[1])
        return unlike(answers[0], answer) or unlike(told[1] if told else answers[1], answer, "by turns: ")
    return Case(row, lines, fault)


# Terms

class Words:
    """Words of terms.ask, each of which names the words before it whose numbers it takes."""

    def __init__(self):
        self.words = []

    def add(self, word):
        self.words.append(word)
        return f"={len(self.words)}"

    def node(self, form, text="", first="", second=""):
        return self.add(f"add_node:{form}:{text}:{first}:{second}")

    def name(self, form, text):
        return self.node(form, "", self.node("Call", text, self.node("NoTerms")))

    def pair(self, one, form, other):
        """'[one, other, ]', where the other may have a '~'."""
        entries = self.node("NoEntries")
        for value in (self.name("Named", one), self.name(form, other)):
            entries = self.node("EntriesComma", "", entries, self.node("Typed", "", value))
        return self.node("ArrayOf", "", self.node("Sole", "", entries))


def fill_case(row, parameters, arguments, answer):
    """'[t, ~u, ]' with these parameters and these names as arguments is the answer, which is built after it."""
    words = Words()
    body = words.pair("t", "Unwrapped", "u")
    texts = [words.add(f"add_text:{it}") for it in parameters.split(",")]
    names = [words.name("Named", it) for it in arguments.split(",")]
    filled = int(words.add(f"fill:{body}:{','.join(texts)}:{','.join(names)}")[1:])
    one, other = answer.split(" ")
    words.pair(one, "Unwrapped" if other.startswith("~") else "Named", other.lstrip("~"))

    def fault(answers):
        numbers = answers[0].split(" ")
        return None if numbers[filled - 1] == numbers[-1] and numbers[-1].isdigit() else answers[0]
    return Case(row, [f"terms.ask {' '.join(words.words)}"], fault)


def shared_case(row, times, answer):
    """A name in 2 to so many places is filled, and so many rows are added."""
    def doubled(name):
        value = words.name("Named", name)
        for _ in range(int(times)):
            value = words.node("Or", "", value, value)
        return value
    words = Words()
    body, text = doubled("t"), words.add("add_text:t")
    words.add("len")
    before, name = len(words.words), words.name("Named", "int")
    filled = int(words.add(f"fill:{body}:{text}:{name}")[1:])
    words.add("len")
    doubled("int")

    def fault(answers):
        numbers = answers[0].split(" ")
        same = numbers[filled - 1] == numbers[-1]
        return unlike(str(int(numbers[filled]) - int(numbers[before - 1])), answer) if same else "another term"
    return Case(row, [f"terms.ask {' '.join(words.words)}"], fault)


# Sessions and runs

SHORT_ENDS = [
    (re.compile(r"Clean { items: (\d+), bytes: (\d+) }"), r"clean \1 \2"),
    (re.compile(r"Failed { items: (\d+), offset: (\d+), cause: Mismatch\((\d+)\) }"), r"mismatch \1 \2 \3"),
    (re.compile(r"Failed { items: (\d+), offset: (\d+), cause: Fault\(Fault { kind: \w+, at: (\d+) }\) }"), r"fault \1 \2 \3"),
    (re.compile(r"Failed { items: (\d+), offset: (\d+), cause: Spent }"), r"spent \1 \2"),
]


def end_of(told):
    """An end in short: how it ends, after how many items, and its numbers."""
    return next((it.sub(short, told) for it, short in SHORT_ENDS if it.fullmatch(told)), told)


def count_of(end):
    """What a session says that it has taken, by its end in short: so many items, and the bytes before the next one."""
    return "taken {1}, {2}".format(*end.split())


def fed_fault(pieces, answer, items, end, given):
    """What is wrong with the answer of a session that was fed these pieces; the end is known after so many bytes."""
    *parts, last, _, count = answer.split(" | ")
    if count != count_of(end):
        return f"{count}, wanted {count_of(end)}"
    came, at = [], 0
    for number, (piece, part) in enumerate(zip(pieces, parts)):
        *more, state = part.split("; ")
        came, at = came + more, at + len(piece)
        if state != "Open":
            same = all(it == state for it in parts[number + 1:]) and end_of(state) == end
            return None if same and at == given and came == items and end_of(last) == end else f"{shown(answer)}, known at {at}"
    return None if came == items and end_of(last) == end and at == given else shown(answer)


def taken_fault(pieces, answer, items, end):
    """The same of a session whose items were taken one by one."""
    *parts, last, _, count = answer.split(" | ")
    if count != count_of(end):
        return f"{count}, wanted {count_of(end)}"
    came, taken, following = [], 0, 0
    for piece, part in zip(pieces, parts):
        *more, state = part.split("; ")
        before = taken
        for it in more:
            head, _, notation = it.partition(": ")
            number, offset, used = (int(word) for word in re.fullmatch(r"(\d+) at (\d+) used (\d+)", head).groups())
            if number != len(came) + 1 or offset != following:
                return f"item {it}, wanted number {len(came) + 1} at {following}"
            came.append(notation)
            taken += used
            following = taken
        if state != "More":
            break
        taken = before + len(piece)
    return None if came == items and end_of(last) == end else shown(answer)


def validated_fault(answer, items, end):
    *came, last = answer.split("; ")
    return None if came == items and end_of(last) == end else shown(answer)


def run_cases(row, root, sizes, word, known, answer):
    """A case for each call, over all sizes: pieces of a size have an empty one before each."""
    stream = bytes_of(word) if word != "-" else b""
    items, end, line = answer.split(" | ")
    items = [] if items == "none" else items.split("; ")
    sizes = range(1, len(stream) + 2) if sizes == "all" else [int(it) for it in sizes.split(",")]
    cuts = [[it for at in range(0, len(stream), size) for it in (b"", stream[at:at + size])] for size in sizes]
    given = [len(stream) if known == "end" else min(len(stream), -(-int(known) // size) * size) for size in sizes]
    words = [" ".join(it.hex() or "-" for it in pieces) or "-" for pieces in cuts]

    def case(lines, fault_of):
        return Case(row, lines, lambda answers: first_fault(map(fault_of, answers, cuts, given)))
    for call in ("feed", "owned_feed", "owned_again"):
        yield case([f"session.{call} {root} 1000 64 8192 {it}" for it in words],
                   lambda answer, pieces, known: fed_fault(pieces, answer, items, end, known))
    for call in ("feed_one", "owned_feed_one"):
        yield case([f"session.{call} {root} 1000 64 8192 {it}" for it in words],
                   lambda answer, pieces, _: taken_fault(pieces, answer, items, end))
    yield case([f"session.validate_pieces {root} 1000 64 8192 {it}" for it in words],
               lambda answer, *_: validated_fault(answer, items, end))
    yield case([f"run.end_line {root} 1000 64 8192 {size} {stream.hex()}" for size in sizes],
               lambda answer, _, known: unlike(answer, f"{line}; given {known}, at once 4096 / {line}"))


def report_case(row, root, times):
    """Each number below 24 so often, and each third time one of two bytes: the report has a line for each."""
    stream, report, count = b"", [], 0
    for time in range(int(times)):
        for item, notation in [(bytes([n]), n) for n in range(24)] + ([(b"\x18\xc8", 200)] if time % 3 == 0 else []):
            count += 1
            report.append(f"item {count} at {len(stream)}: {notation}")
            stream += item
    report.append(f"clean: {count} items, {len(stream)} bytes")
    lines = [f"run.report {root} 1000 64 8192 {size} {stream.hex()}" for size in (1, 7, 4096)]
    return Case(row, lines, lambda answers: first_fault(unlike(it.split(" / ")[1:], report) for it in answers))


# The program

def cuts_case(row, spec, stream, words, answer):
    """The stream as a whole, and cut in two at each byte."""
    given = "" if stream == "-" else stream
    length = max(len(bytes_of(given)), 1)
    lines = [f"tool.act cut:{cut} 1000:fails {spec} {given} {words}" for cut in range(1, length + 1)]
    return Case(row, lines, lambda answers: first_fault(unlike(it, answer) for it in answers))


ACTED = re.compile(r'(\d) ("(?:[^"\\]|\\.)*") (.*)')


def written_of(shown):
    """The bytes that an answer shows, as text in quotes or in hex."""
    return unescaped(shown[1:-1]) if shown.startswith('"') else bytes.fromhex(shown.replace("none", ""))


def cut_fault(answer, written, failed=None):
    """What is wrong with the answer where this had been written when a device failed."""
    told, line = ACTED.fullmatch(answer), f'"{failed or f"write failed after {len(written)} bytes"}\\n"'
    return None if told and told[1] == "3" and told[2] == line and written_of(told[3]) == written else shown(answer)


def rooms_case(row, spec, stream, words, answer):
    """A device that has room for all but some bytes of the output."""
    written = written_of(ACTED.fullmatch(answer)[3])
    taken = [written[:room] for room in range(len(written)) for _ in ("fails", "stops")]
    lines = [f"tool.act cut:1 {room}:{end} {spec} {stream} {words}" for room in range(len(written)) for end in ("fails", "stops")]
    return Case(row, lines, lambda answers: first_fault(map(cut_fault, answers, taken)))


def reads_case(row, calls, spec, stream, ends, words, answer):
    """A device that gives one byte a read and fails at one of its reads, and then one that never fails."""
    lines = [f"tool.act Other:{read} 1000:fails {spec} {stream} {words}" for read in range(int(calls) + 1)]
    report = written_of(ACTED.fullmatch(answer)[3]).splitlines(True)
    counts = [sum(int(end) <= read for end in ends.split(",") if end != "-") for read in range(int(calls))]
    faults = [(b"".join(report[:count]), f"read failed after {count} items") for count in counts]
    return Case(row, lines, lambda answers: first_fault([*map(cut_fault, answers, *zip(*faults)), unlike(answers[-1], answer)]))


def said_case(row, words, answer):
    """What a device takes, however often it is asked."""
    return Case(row, [f"tool.say {words}"], lambda answers: unlike(re.sub(r", writes \d+", "", answers[0]), answer))


# Rows

def stream_of_row(row, words, answer):
    stream = bytes_of(words[2] if len(words) > 2 else "")
    return stream_case(row, " ".join(words[:2]), stream, cuts_of(stream), answer)


# The cases of a row that stands for many, by its call: of the row, its words, its answer, and the items before it.
FAMILIES = {
    "@form": lambda row, words, answer, before: [form_case(row, words, answer)],
    "@stream": lambda row, words, answer, before: [stream_of_row(row, words, answer)],
    "@made": lambda row, words, answer, before: made_cases(row, words),
    "@written": lambda row, words, answer, before: [written_case(row, words[0], answer)],
    "@deterministic": lambda row, words, answer, before: [deterministic_case(row, words[0], answer)],
    "@apart": lambda row, words, answer, before: apart_cases(row, before),
    "@keys": lambda row, words, answer, before: keys_cases(row, *words),
    "@keys_inside": lambda row, words, answer, before: [keys_inside(row, int(words[0]), answer)],
    "@thousand": lambda row, words, answer, before: [thousand(row, int(words[0]), answer)],
    "@assigns": lambda row, words, answer, before: [assigns_case(row, words[0], answer)],
    "@judge": lambda row, words, answer, before: [judge_case(row, *words, answer)],
    "@steps": lambda row, words, answer, before: [steps_case(row, *words, answer)],
    "@choices": lambda row, words, answer, before: choices_cases(row, *words),
    "@open": lambda row, words, answer, before: [open_case(row, words, answer)],
    "@run": lambda row, words, answer, before: run_cases(row, *words, answer),
    "@report": lambda row, words, answer, before: [report_case(row, *words)],
    "@cuts": lambda row, words, answer, before: [cuts_case(row, *words[:2], " ".join(words[2:]), answer)],
    "@rooms": lambda row, words, answer, before: [rooms_case(row, *words[:2], " ".join(words[2:]), answer)],
    "@reads": lambda row, words, answer, before: [reads_case(row, *words[:4], " ".join(words[4:]), answer)],
    "@said": lambda row, words, answer, before: [said_case(row, " ".join(words), answer)],
    "@fill": lambda row, words, answer, before: [fill_case(row, *words, answer)],
    "@shared": lambda row, words, answer, before: [shared_case(row, *words, answer)],
    "@strings": lambda row, words, answer, before: [strings_case(row, *words, answer)],
    "@arrays": lambda row, words, answer, before: [arrays_case(row, *words, answer)],
}


def cases_of(path):
    """The cases of a file, in its order."""
    cases, before, refused = [], [], None
    with open(path, encoding="utf-8") as file:
        lines = file.read().split("\n")
    for line in lines:
        if not line or line.startswith("## "):
            refused = (path, len(cases)) if line else None
        elif not line.startswith("# "):
            for case in cases_of_row(path, line, before):
                case.refused = refused
                cases.append(case)
    return cases


def cases_of_row(path, line, before):
    words, arrow, answer = line.rpartition(ARROW)
    if not arrow and not line.startswith("@"):
        raise SystemExit(f"{path}: no arrow in {shown(line)!r}")
    words, answer = asked(words if arrow else line), TIMES.sub(lambda it: it[1] * int(it[2]), RANGE.sub(ranged, answer))
    call, *others = words.split(" ")
    if call == "@written":
        before.append(others[0])
    if call.startswith("@"):
        return FAMILIES[call](line, others, answer, before)
    return [Case(line, [words], lambda got: unlike(got[0], answer))]


def programs():
    """The programs that have rows, as they are built."""
    names = sorted(os.listdir(os.path.join(TOP, "tests", "calls")))
    return [os.path.join(TOP, "crates", it, "out", it) for it in names]


def files(program):
    """The files of rows of a program."""
    return sorted(glob.glob(os.path.join(TOP, "tests", "calls", os.path.basename(program), "*.txt")))


def selected(program, only=""):
    """All cases of a program, each with whether it is one that is wanted: the others may make what it is asked of."""
    return [(it, only in it.row or only in os.path.basename(path)) for path in files(program) for it in cases_of(path)]


def parts_of_refusals(program):
    """The lines that are asked with each request for memory refused in turn, too, by the parts of the files that they are in."""
    parts = {}
    for case, _ in selected(program):
        if case.refused:
            parts.setdefault(case.refused, []).extend(case.lines)
    return list(parts.values())


def answers_of(program, lines):
    """The line that the program prints for each, and what is wrong with the run, if anything."""
    given = "".join(f"{it}\n" for it in lines).encode()
    try:
        run = subprocess.run([program], input=given, stdout=subprocess.PIPE, stderr=subprocess.PIPE, timeout=SECONDS)
    except subprocess.TimeoutExpired:
        return [], f"no end in {SECONDS} seconds"
    except OSError as error:
        return [], f"cannot run the program: {error}"
    answers = run.stdout.decode(errors="replace").split("\n")[:-1]
    if run.returncode or run.stderr or len(answers) != len(lines):
        told = f"status {run.returncode}, {len(answers)} answers for {len(lines)} lines"
        return answers, f"{told}, standard error {run.stderr[:160]!r}"
    return answers, None


def run_calls(only="", is_verbose=False, chosen=()):
    """Runs the rows of all programs or of those that are chosen, prints those that failed, and returns how many passed and
    failed."""
    counts = [run_program(program, only, is_verbose) for program in chosen or programs()]
    return sum(passed for passed, _ in counts), sum(failed for _, failed in counts)


def run_program(program, only="", is_verbose=False):
    cases = selected(program, only)
    answers, wrong = answers_of(program, [line for case, _ in cases for line in case.lines])
    if wrong:
        print(f"FAILED {wrong}")
        return 0, max(len(cases), 1)
    passed = failed = at = 0
    for case, is_wanted in cases:
        mine, at = answers[at:at + len(case.lines)], at + len(case.lines)
        if not is_wanted:
            continue
        fault = case.fault(mine)
        passed, failed = (passed, failed + 1) if fault else (passed + 1, failed)
        if fault:
            print(f"FAILED {shown(case.row)}\n    {fault}")
        elif is_verbose:
            print(f"ok {shown(case.row)}")
    return passed, failed


def main():
    words = argparse.ArgumentParser(description="Runs the rows of tests/calls on the programs that answer calls.")
    words.add_argument("programs", nargs="*")
    words.add_argument("--count", action="store_true", help="print how many rows each file has")
    words.add_argument("--only", default="", help="only the rows whose line or whose file's name has this text")
    words.add_argument("-v", action="store_true", help="print each row that passed too")
    given = words.parse_args()
    if given.count:
        for program in programs():
            for path in files(program):
                print(f"{os.path.basename(path)}: {len(cases_of(path))}")
        return 0
    passed, failed = run_calls(given.only, given.v, [os.path.abspath(it) for it in given.programs])
    print(f"{passed} passed, {failed} failed")
    return 1 if failed or not passed else 0


if __name__ == "__main__":
    sys.exit(main())
