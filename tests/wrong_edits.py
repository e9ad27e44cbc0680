#!/usr/bin/env python3
"""Tries the wrong bodies of crates/NAME/wrong/*.edit, many in one check: the prover must refuse each. See docs/GATE.md.

    wrong_edits.py [--rt COMMAND] [--anew] [--inner] [NAME..]

With --inner the edits of wrong/inner/ are tried too, of which the gate only sees that they apply. An edit has the format of the
kit's must-fail edits. The last line is 'N passed, M failed', and the status is 0 only where none failed. The crates below are taken
from crates/*/out/rlib where that is newer than their sources, as 'rt ci' leaves it, and are proved here where it is not.

What was refused is kept, by a sum of the kit, of this script, of the crate and those below it, and of the edit: on this machine,
beside what 'rt ci' keeps, or where the kit keeps nothing in build/refused. A later run takes it from there, so one that was broken
off goes on, and with --anew tries all.
"""
import argparse
import collections
import dataclasses
import difflib
import functools
import importlib.machinery
import importlib.util
import os
import re
import shlex
import shutil
import sys
import tempfile
from concurrent.futures import ThreadPoolExecutor, as_completed
from contextlib import contextmanager

from bare_lemmas import bare_lemmas
from functions import CYCLE, HEAD, functions_of
from law_copies import Laws
from recursion import without_recursion
from refused import results_of
from together import Answer, Question, answered, in_groups, run, went_through, write_texts
from unreached import IMPORT, shorter_imports, unreached

TOP = os.path.dirname(os.path.dirname(os.path.abspath(__file__)))
ONE_JOB = ["--jobs", "1"]
MOST_AT_ONCE = 3
# What one check is to weigh at most, of what each crate, body and law in it weighs: about the processor seconds that it takes. The
# more, the less all of them cost, and the more memory each takes.
MOST_IN_ONE, WEIGHT_OF_CRATE, WEIGHT_OF_BODY, WEIGHT_OF_LAW = 300, 3, 2.5, 0.8
# The memory that one check is reckoned to take.
MEMORY_OF_ONE = 4_000_000_000
NAME = re.compile(r"[A-Za-z0-9_-][A-Za-z0-9_.-]*\.edit")
NAMING = "its name is of letters, digits, _, - and . and ends in .edit"
# What the line of an edit ends with that costs a check with all bodies, for itself or with others.
OVER_WHOLE, ALONE = "(over whole functions)", "(alone)"
# The folder in wrong/ with edits that the gate does not try.
INNER = "inner"
LINE = re.compile(r"fn (\S+): (.*)")
# A body and a proof that say nothing, for a function that is only called: its contract is all that counts then.
BARE_BODY = "loop {}"
BARE_PROOF = """\
use Rattle.{crate}.proofs.{path}.Statement.{{statement}}

nothing : ⊥
nothing = ?

pub {name}_spec : {{M : Type 1}} → statement M
{name}_spec = absurd nothing
"""
# The file of a proof by hand.
BY_HAND = "Proof.antt"
WITH_HOLES = ["--allow-holes"]
# What is added to the answers of a function that is asked for. Where goals have no answer the prover runs once more, to offer
# what could be written there, but not where a file of answers has an error. So this is one, of a name that is no goal's.
NO_OFFERS = """
pub no_offers : NothingOfThisName
no_offers = no_offers
"""
IS_NO_OFFERS = ": error: `no_offers`: "
# An error of a proof that only names what the edit, or the name of a copy, took away: it says nothing of the contract. Behind a
# long name the message goes on in the next line.
IS_OF_NAMES = re.compile(r".*(has no field|is not in scope|has no `|was not admitted|which was rejected)")
GOES_ON_OF_NAMES = re.compile(r"\s+(has no field|is not in scope|has no `)")
PLACE = re.compile(r"(?:\./)?(src/\S+\.rt):(\d+):\d+: error")
LAW = re.compile(r"^law: (.*)$", re.MULTILINE)
NOTE = re.compile(r"note: \S+:\d+:\d+: ")
# What a check says of a function that it refuses for itself, and what of one that rests on a refused one.
IS_REFUSED = re.compile(r"no proof: expected |not proved(?!.*\bit (?:calls|passes) )")
STANDS_ON = re.compile(r"not proved; it stands on `([^`]*)`")
RESTS = re.compile(r"(?:no proof: |not proved; )(?:in .*: )?it (?:calls|passes) ")


def load_kit(command):
    """The module of the command rt: what is tried alone is tried just as its own must-fail edits are."""
    path = os.path.realpath(shutil.which(shlex.split(command)[0]) or command)
    loader = importlib.machinery.SourceFileLoader("rt", path)
    made = importlib.util.module_from_spec(importlib.util.spec_from_loader("rt", loader))
    loader.exec_module(made)
    return made


def is_refusal(kit, said):
    """Whether the kit's answer on an edit is that it is refused: some kits answer a truth value, others one of their words."""
    return said if isinstance(said, bool) else said in (kit.REFUSED, kit.AT_LIMIT)


def hunks(old, new):
    """The lines that differ: the first of the old text's, the one after the last, and the new lines."""
    a, b = old.split("\n"), new.split("\n")
    found = difflib.SequenceMatcher(None, a, b, autojunk=False).get_opcodes()
    return [(i, j, b[k:m]) for tag, i, j, k, m in found if tag != "equal"]


def with_hunks(lines, found):
    """The lines with these changes, no two of which are of one line."""
    made = list(lines)
    for first, after, new in sorted(found, key=lambda it: it[0], reverse=True):
        made[first:after] = new
    return made


def together(edits, sources):
    """The texts of the files with all of these edits."""
    parts = collections.defaultdict(list)
    for edit in edits:
        for file, found in edit.hunks.items():
            parts[file] += found
    return {file: "\n".join(with_hunks(sources[file].split("\n"), found)) for file, found in parts.items()}


def words_in(lines):
    return set(re.findall(r"\w+", " ".join(lines)))


class Edit:
    """An edit, the law that it names, if any, and the one function in whose body all of it lies, or None."""

    def __init__(self, trial, path):
        self.path = path
        with open(path, encoding="utf-8", errors="replace") as it:
            self.law = next(iter(LAW.findall(it.read())), "")
        texts, why = trial.kit.read_edit(path, trial.crate.folder)
        self.texts, self.why = texts or {}, why
        is_code = not why and not self.law and all(it in trial.sources for it in texts)
        self.hunks = {it: hunks(trial.sources[it], text) for it, text in texts.items()} if is_code else {}
        touched = {it for it in trial.functions for file in self.hunks for hunk in self.hunks[file] if it.holds(file, hunk)}
        places = sum(len(it) for it in self.hunks.values())
        one = touched.pop() if len(touched) == 1 else None
        is_whole = one and places == sum(one.holds(file, it) for file in self.hunks for it in self.hunks[file])
        self.function = one if is_whole and trial.tells_of(one) else None
        new = [line for found in self.hunks.values() for _, _, lines in found for line in lines]
        self.words = words_in(new) | trial.words.get(one, set())


class Trial:
    """The edits of one crate, tried over what the checks before kept in a folder of this run."""

    def __init__(self, kit, crate, results, with_inner=False, is_proved=False):
        self.kit, self.crate, self.results, self.with_inner = kit, crate, results, with_inner
        self.is_proved = is_proved or is_fresh(kit, crate)
        self.sources = texts_below(crate.folder, "src", ".rt")
        self.proofs = texts_below(crate.folder, "proofs", ".antt")
        self.specs = texts_below(crate.folder, "specs", ".antt")
        self.of_laws = Laws(crate.name, self.sources, self.specs, self.proofs)
        self.functions = functions_of(self.sources)
        paths = [it.path for it in self.functions]
        self.doubles = {it for it in paths if paths.count(it) > 1}
        self.words = {it: words_in(self.sources[it.file].split("\n")[it.opens : it.last + 1]) for it in self.functions}
        self.broken, self.over_whole = set(), set()
        # the files of lemmas without the proofs in them, as far as checks can read them so
        self.bare = {file: text for file, text in bare_lemmas(self.proofs).items() if text != self.proofs[file]}
        self.is_ill = False
        # whether checks over bare functions do without those that nothing names, and the crates that are not this one
        self.is_short, self.others = True, {"std", "core", "alloc", *crate.of_kit, *(it.name for it in crate.deps)}

    def tells_of(self, function):
        """Whether the lines of a check tell what becomes of this function's body, whatever becomes of other bodies."""
        is_alone = bool(function.path) and function.path not in self.doubles and not function.is_const
        return is_alone and not any(
            re.search(rf"\bproofs\.{re.escape(function.proof())}\.", text)
            for file, text in self.proofs.items()
            if not file.startswith(f"proofs/{function.proof().replace('.', '/')}/")
        )

    def run(self):
        """The lines on each edit, with whether it is refused. It yields what it asks, a question to a check of many crates or a
        call that makes a check by itself, and goes on with what is answered."""
        good, bad = edits_of(self.crate)
        told = [(False, f"{self.label(it)}: BAD EDIT: an edit is in wrong/ or wrong/inner/, and {NAMING}") for it in bad]
        inner = [it for it in good if os.path.basename(os.path.dirname(it)) == INNER]
        if not self.with_inner:
            good = [it for it in good if it not in inner]
            why = {it: self.kit.read_edit(it, self.crate.folder)[1] for it in inner}
            told += [(False, f"{self.label(it)}: BAD EDIT: {why[it]}") for it in inner if why[it]]
        known = {it: self.results.of(self.crate, it) for it in good}
        told += [(True, f"{text} (by an earlier run)") for text in known.values() if text]
        edits = [Edit(self, it) for it in good if not known[it]]
        return told + (yield from self.tried(edits)) if edits else told

    def tried(self, edits):
        """The lines on these edits, with whether each is refused."""
        told = []
        refused = yield from self.try_many([it for it in edits if it.function], [it for it in edits if it.law])
        by_law = yield from self.try_laws([it for it in edits if it.law and not refused.get(it)])
        alone = yield from self.try_alone([it for it in edits if not it.law and not refused.get(it)])
        for edit in edits:
            way = f" {OVER_WHOLE}" if edit in self.over_whole else ""
            said = by_law.get(edit) or f"refused, as it must be: {refused.get(edit, '')[:160]}{way}"
            told.append(alone.get(edit) or (said.startswith("refused"), f"{self.label(edit.path)}: {said}"))
        self.results.keep(self.crate, {edit.path: text for edit, (is_refused, text) in zip(edits, told) if is_refused})
        return told

    def try_laws(self, edits):
        """What is to be told of each edit that names a law, after a check of this law alone with the edit. Where it is not known
        that the crate is proved, its laws are checked without an edit first."""
        laws = {"::".join(it.path): it for it in self.functions if any(it.is_named(edit.law) for edit in edits)}
        if laws and not self.is_proved:
            found = (yield from self.check({}, dict.fromkeys(laws.values()), is_silent=False))[1]
            laws = {path: it for path, it in laws.items() if (it, "proved") in [(of, said) for of, said, _ in found]}
        return dict(zip(edits, (yield from at_once([self.said_of(it, laws.get(it.law)) for it in edits]))))

    def said_of(self, edit, law):
        """What is to be told of one such edit: a law tells nothing where it is not proved without the edit."""
        if edit.why or not law:
            return f"BAD EDIT: {edit.why or 'no law of this path is proved without it'}"
        is_whole, found = yield from self.check(edit.texts, {law: edit}, is_silent=False)
        why = [why for of, said, why in found if of == law and IS_REFUSED.match(said)]
        if not is_whole:
            return "BAD EDIT: it does not compile or read"
        return f"refused, as it must be: {why[0][:160]}" if why else "NOT REFUSED: its law is proved even so"

    def try_many(self, edits, by_law):
        """What checks of many edits say of each that they refuse: over bare functions, and then of what is left with all
        bodies. Where a callee is refused, not all goals of its callers are tried. So an edit is made in its function where no
        other edited one calls it, and else in a copy of the function beside it. Those by a law are made in copies of the laws, in
        the first turn. What calls itself is edited in a copy that does not, and in the function where that copy is not refused."""
        copied = self.of_laws.copies({it: law for it in by_law for law in self.functions if law.is_named(it.law)})
        refused = yield from self.try_in_turns(edits, copied)
        left = [it for it in edits if not refused.get(it) and it not in self.broken and self.is_recursive(it.function)]
        refused.update((yield from self.try_in_turns(left, are_in_place=True)))
        whole = yield from self.try_over_whole([it for it in edits if it not in refused and it not in self.broken])
        self.over_whole.update(whole)
        return {**refused, **whole}

    def try_in_turns(self, edits, by_law=(), are_in_place=False):
        """What checks over bare functions say of each edit that they refuse, as many as can tell them apart, asked at once."""
        turns, left = [], edits
        while left or by_law:
            placed, beside = self.turn_of(left, are_in_place)
            turns.append(self.try_over_bare(placed, beside, by_law))
            left, by_law = [it for it in left if it not in placed and it not in beside], ()
        found = yield from at_once(turns)
        return {edit: why for each in found for edit, why in each.items()}

    def turn_of(self, left, are_in_place):
        """Those of the edits that one check over bare functions can tell apart: made in place, and made beside."""
        recursive = [it for it in left if self.is_recursive(it.function)]
        copied = [it for it in left if self.can_stand_beside(it.function) and not (are_in_place and it in recursive)]
        others = [it for it in copied if it not in recursive]
        firsts = apart([*[it for it in left if it not in copied], *others], lambda it, other: False)
        tried = list(dict.fromkeys([*firsts, *copied]))
        placed = [it for it in firsts if not any(self.calls(other, it) for other in tried)]
        groups = {it.function.group() for it in placed if it.function.cycle}
        beside = [it for it in copied if it not in placed and it.function.group() not in groups]
        return (placed, beside) if placed or beside else (left[:1], [])

    def calls(self, edit, other):
        """Whether the one edit's function calls one of those that share the other's proof, which is another, as far as their
        names tell."""
        of_group = {it.name for it in self.functions if it.group() == other.function.group()}
        return edit.function.group() != other.function.group() and not of_group.isdisjoint(edit.words)

    def try_over_bare(self, placed, beside, by_law):
        """What one check says of each edit that it refuses, where the functions that have none have neither a body nor a proof,
        with these copies of laws beside them."""
        copies, edited = self.copies(beside), {it.function.group() for it in placed}
        bare = [it for it in self.functions if it.group() not in edited and self.can_be_bare(it)]
        gone = self.unreached(bare, copies, placed, by_law) if self.is_short else []
        texts = self.of_laws.with_copies(by_law, {**self.bare, **self.with_copies(copies, placed, bare, gone)})
        copies += [(it.edit, it.law, it.function()) for it in by_law]
        tried = {**{it.function: it for it in placed}, **{copy: edit for edit, _, copy in copies}}
        is_whole, found = yield from self.check(texts, tried, WITH_HOLES)
        if self.is_ill:
            print(f"{self.crate.name} is checked again, with its lemmas whole: one has an error without its proof", flush=True)
            self.bare, self.is_ill = {}, False
            return (yield from self.try_over_bare(placed, beside, by_law))
        if not is_whole and gone:
            print(f"{self.crate.name} is checked again, with all of its functions: it does not compile without some", flush=True)
            self.is_short, self.broken = False, self.broken - set(tried.values())
            return (yield from self.try_over_bare(placed, beside, by_law))
        if not is_whole:
            left = [[it for it in each if it not in self.broken] for each in (placed, beside)]
            is_again = bool(by_law) or left != [placed, beside]
            return (yield from self.try_over_bare(*left, [])) if any(left) and is_again else {}
        found = [(of, "not proved" if of and self.is_refused_itself(of, words) else "proved", why) for of, words, why in found]
        beside_them = {copy for _, _, copy in copies}
        whys = {of.group(): why for of, words, why in found if words != "proved" and of not in beside_them}
        in_place = {it: whys[it.function.group()] for it in placed if it.function.group() in whys}
        return {**in_place, **refused_beside(copies, found)}

    def unreached(self, bare, copies, placed, by_law):
        """Those of the bare functions that nothing names which is asked of: neither an edited function, nor a law or a lemma."""
        laws, copied = [it.law for it in by_law], [of for _, of, _ in copies]
        texts = [own_text(it, self.sources) for it in [*laws, *copied, *(it.function for it in placed)]]
        texts += [found[0] for it in laws for found in IMPORT.finditer(self.sources[it.file])]
        texts += [name for it in laws for _, name in self.of_laws.beside(it)]
        texts += [word for it in [*placed, *(edit for edit, _, _ in copies if edit)] for word in it.words]
        replaced = {file for it in bare for file in self.proofs_of(it)}
        cited = [text for file, text in self.proofs.items() if file not in replaced] + list(self.specs.values())
        # a copy has the files of the proof with another name for its own, and that of a law another for its contract too
        for it in copied:
            own = rf"proofs\.(?:{re.escape(it.proof())}|{re.escape(it.proof_of_calls())})\."
            cited += [re.sub(own, "", self.proofs[file]) for file in self.files_gone_with(it)]
        for it in laws:
            own = rf"(?:proofs|contracts)\.{re.escape(it.proof())}\b"
            cited += [re.sub(own, "", self.proofs[file]) for file in self.proofs_of(it)]
        return unreached(self.sources, bare, texts, cited)

    def can_be_bare(self, function):
        """Whether the function can do without its body and its proof where it is only called."""
        return all(
            bool(it.path) and it.path not in self.doubles and not (it.is_const or it.is_of_trait)
            for it in self.functions
            if it.group() == function.group()
        )

    def is_refused_itself(self, function, words):
        """Whether a check over bare functions refuses the function for itself, and not for what it rests on."""
        return bool(IS_REFUSED.match(words)) or self.stands_on_itself(function, words)

    def stands_on_itself(self, function, words):
        """Whether the function is said to stand on an answer of its own proof."""
        stands_on = STANDS_ON.match(words)
        own = tuple(f"Rattle.{self.crate.name}.proofs.{it}." for it in (function.proof(), function.proof_of_calls()))
        return bool(stands_on) and stands_on[1].startswith(own)

    def try_over_whole(self, edits):
        """What checks of many edits say of each that they refuse, with the bodies of the functions that have none."""
        placed = [it for it in apart(edits, lambda it, other: False) if not any(self.leads(other, it) for other in edits)]
        beside = [it for it in edits if it not in placed and self.can_stand_beside(it.function)]
        refused = yield from self.try_at_once(placed, beside)
        left = [it for it in edits if it not in refused and it not in self.broken]
        while left:
            turn = apart(left, self.reaches)
            refused.update((yield from self.try_together(turn)))
            left = [it for it in left if it not in turn]
        return refused

    def reaches(self, edit, other):
        """Whether the one edit's function calls the other's, itself or through others, as far as their names tell."""
        return other.function.name in self.words_below(edit.words)

    def leads(self, edit, other):
        """Whether the one edit's function calls the other's, which has another proof."""
        return edit.function.group() != other.function.group() and self.reaches(edit, other)

    def try_at_once(self, placed, beside):
        """What one check says of each edit that it refuses: of those made in their functions, and of those made beside."""
        copies = self.copies(beside)
        tried = {**{it.function: it for it in placed}, **{copy: edit for edit, _, copy in copies}}
        is_whole, found = (yield from self.check(self.with_copies(copies, placed), tried)) if tried else (True, [])
        groups, beside_them = {it.function.group() for it in placed}, {copy for _, _, copy in copies}
        others = [words for of, words, _ in found if of not in beside_them and not (of and of.group() in groups)]
        if not is_whole or not all(it == "proved" or RESTS.match(it) for it in others):
            left = [[it for it in each if it not in self.broken] for each in (placed, beside)]
            if left != [placed, beside]:
                return (yield from self.try_at_once(*left))
            in_place = yield from self.try_together(placed)
            return {**in_place, **(yield from self.try_beside(beside))}
        whys = {of.group(): why for of, words, why in found if of and of not in beside_them and IS_REFUSED.match(words)}
        in_place = {it: whys[it.function.group()] for it in placed if it.function.group() in whys}
        return {**in_place, **refused_beside(copies, found)}

    def can_stand_beside(self, function):
        """Whether a copy under another name has the same goals: a method of a trait does not."""
        return not (function.is_of_trait or self.crate.is_program)

    def is_recursive(self, function):
        """Whether the function calls itself, or is in a cycle of calls: a copy of it does not."""
        return bool(function.cycle) or self.calls_itself(function)

    def calls_itself(self, function):
        """Whether the function, of this name or the copy that it is, calls itself, as far as its text tells."""
        body = "\n".join(self.sources[function.file].split("\n")[function.opens + 1 : function.last])
        return bool(re.search(rf"(?:(?<![\w.:])|\b[Ss]elf(?:\.|::)){function.name}\(", body))

    def proofs_of(self, function):
        """The files of the function's proof, which name its path."""
        return [it for it in self.proofs if it.startswith(f"proofs/{function.proof().replace('.', '/')}/")]

    def try_beside(self, edits):
        """What one check says of each edit, made in a copy of its function beside it, under another name: an
        empty text where that is proved. A function whose proof has files gets a copy without an edit too, since the files
        are changed with the name; an edit is left out where that copy is not proved."""
        if not edits:
            return {}
        copies = self.copies(edits)
        is_whole, found = yield from self.check(self.with_copies(copies), {copy: edit for edit, _, copy in copies})
        beside_them = {copy for _, _, copy in copies}
        if not is_whole or not all(words == "proved" for of, words, _ in found if of not in beside_them):
            return (yield from self.in_parts(self.try_beside, edits))
        return refused_beside(copies, found)

    def copies(self, edits):
        """The copies of the edited functions, one with each edit and where it is needed one without: the edit, the function
        and the copy. It is needed where the proof names the function's contract, which is another one than the copy's, or is
        written anew for the copy."""
        found = []
        for of in dict.fromkeys(it.function for it in edits):
            is_named = any(f"contracts.{of.proof()}" in self.proofs[it] for it in self.proofs_of(of))
            own = [None][: is_named or self.is_written_anew(of)] + [it for it in edits if it.function == of]
            found += [(edit, of, of.called(f"{of.name}_tried_{at}")) for at, edit in enumerate(own)]
        return found

    def is_written_anew(self, function):
        """Whether a copy of the function has an answer or an invariant that is written otherwise than the function's."""
        files = self.files_gone_with(function) if self.is_recursive(function) else []
        return any(": goal." in self.proof_of_copy(it, function, function.called(function.name)) for it in files)

    def with_copies(self, copies, placed=(), bare=(), gone=()):
        """The texts of the files with these copies, with these edits in place and with these functions bare, some of them gone, and
        of the proofs of the copies and of what is bare, or None for a file that has to go."""
        parts, texts = collections.defaultdict(list), {}
        left = {it.name for it in self.functions if it not in gone}
        names = {it.name for it in gone} - left
        for file, text in self.sources.items() if gone else ():
            parts[file] += shorter_imports(text, names, self.others)
        for it in gone:
            parts[it.file].append((it.first, it.last + 1, []))
            texts.update(dict.fromkeys(self.files_gone_with(it)))
        for it in (it for it in bare if it not in gone):
            lines = self.sources[it.file].split("\n")
            parts[it.file].append((it.opens, it.last + 1, without_body(lines, it)))
            parts[it.file] += [(at, at + 1, []) for at in range(it.first, it.head) if CYCLE.match(lines[at])]
            texts.update(self.bare_proof(it))
        for edit in placed:
            for file, found in edit.hunks.items():
                parts[file] += found
        for edit, of, copy in copies:
            old = self.sources[of.file].split("\n")
            new = with_hunks(old, edit.hunks[of.file]) if edit else old
            item = new[of.first : of.last + 1 + len(new) - len(old)]
            item[of.head - of.first] = re.sub(rf"\bfn {of.name}\b", f"fn {copy.name}", item[of.head - of.first], count=1)
            # at the end of its file, if it is no method: a function whose lines move is checked anew
            at = of.last + 1 if item[of.head - of.first].startswith(" ") else len(old) - 1
            parts[of.file].append((at, at, ["", *(it for it in item if not CYCLE.match(it))]))
            for file in self.files_gone_with(of) if self.is_recursive(of) else self.proofs_of(of):
                to = f"proofs/{copy.proof().replace('.', '/')}/{os.path.basename(file)}"
                texts[to] = self.proof_of_copy(file, of, copy)
        return {**texts, **{file: "\n".join(with_hunks(self.sources[file].split("\n"), it)) for file, it in parts.items()}}

    def proof_of_copy(self, file, of, copy):
        """The text of a file of the function's proof for its copy. A proof by hand names the contract, and itself by the function's
        name."""
        text = self.proofs[file].replace(f"proofs.{of.proof()}.", f"proofs.{copy.proof()}.")
        if self.is_recursive(of):
            text = text.replace(f"proofs.{of.proof_of_calls()}.", f"proofs.{copy.proof()}.")
            text = without_recursion(text, of.name, [it.name for it in self.functions if of.cycle and it.group() == of.group()])
        if os.path.basename(file) != BY_HAND:
            return text
        text = re.sub(rf"\bcontracts\.{re.escape(of.proof())}\b", f"contracts.{copy.proof()}", text)
        return re.sub(rf"\b{of.name}_spec\b", f"{copy.name}_spec", text)

    def bare_proof(self, function):
        """The files of a proof of the function that says nothing, and None for each that it has."""
        alone = dataclasses.replace(function, cycle="")
        names = {"crate": self.crate.name, "path": alone.proof(), "name": function.name}
        file = f"proofs/{alone.proof().replace('.', '/')}/{BY_HAND}"
        return {**dict.fromkeys(self.files_gone_with(function)), file: BARE_PROOF.format(**names)}

    def files_gone_with(self, function):
        """The files of the function's proof, in all places that it may have."""
        of_calls = f"proofs/{function.proof_of_calls().replace('.', '/')}/"
        alone = self.proofs_of(dataclasses.replace(function, cycle=""))
        return [*self.proofs_of(function), *alone, *[it for it in self.proofs if it.startswith(of_calls)]]

    def label(self, path):
        return f"wrong {self.crate.name}/{os.path.basename(path)}"

    def try_together(self, edits):
        """What the check says of each edit that it refuses by the edited function, with all of these edits made."""
        if not edits:
            return {}
        is_whole, found = yield from self.check(together(edits, self.sources), {it.function: it for it in edits})
        groups = {it.function.group() for it in edits}
        found = [(of and of.group(), said, why) for of, said, why in found]
        # what has no edit is never refused for itself: else one edit reaches into another's function
        is_clear = is_whole and all(of in groups or said == "proved" or RESTS.match(said) for of, said, _ in found)
        if not is_clear and len(edits) > 1:
            return (yield from self.in_parts(self.try_together, edits))
        whys = {of: why for of, said, why in found if IS_REFUSED.match(said)}
        return {it: whys[it.function.group()] for it in edits if it.function.group() in whys}

    def in_parts(self, way, edits):
        """Tries the edits again without those that do not compile, or where none is known to be so in halves."""
        left = [it for it in edits if it not in self.broken]
        if len(left) < len(edits):
            return (yield from way(left))
        half = len(edits) // 2
        first = (yield from way(edits[:half])) if half else {}
        return {**first, **(yield from way(edits[half:]))} if half else {}

    def check(self, texts, functions, more=(), is_silent=True):
        """Asks of these functions, each with its edit. Returns whether the check went through, and of each line on a function the
        function, what is said, and why: the note above, or an error in its proof."""
        silent = {it.proof(): self.without_offers(it, texts) for it in functions if is_silent and self.can_be_silent(it, texts)}
        added = {file: text for each in silent.values() for file, text in each.items()}
        weight = WEIGHT_OF_CRATE + sum(WEIGHT_OF_LAW if self.is_copy_of_law(it) else WEIGHT_OF_BODY for it in functions)
        asked = Question(self.crate, {**texts, **added}, [it.path for it in functions], (*ONE_JOB, *more), weight)
        said = (yield [asked])[asked]
        lines = said.lines
        self.is_ill = any(it.removeprefix("./").split(":")[0] in self.bare and ": error: " in it for it in lines)
        is_whole = said.went_through and not any(self.kit.unread(it, ()) for it in lines)
        if not is_whole:
            self.broken |= {functions.get(it) for it in at_fault(lines, texts, functions)} - {None}
        found, note = [], ""
        for line in lines:
            line_of = LINE.match(line)
            if line_of:
                name = line_of[1].removeprefix(f"{self.crate.name}::")
                one = next((it for it in [*functions, *self.functions] if it.is_named(name)), None)
                why, words = note or (self.error_of(one, lines) if one else ""), line_of[2]
                if one and one.proof() in silent:
                    words = self.said_itself(one, words, why)
                elif one in functions and why and self.is_by_hand(one, texts):
                    # what it calls may be refused too, but an error in a proof by hand is of the function itself
                    words = "not proved"
                found.append((one, words, why or line_of[2]))
            note = "" if line_of else note or (line if NOTE.match(line) else "")
        return is_whole, found

    def error_of(self, function, lines):
        """The first error in the function's proof that says more than that a name is not there, or an empty text. With an edit
        of definitions names are there as before, but for those of what is refused."""
        inside = f"proofs/{function.proof().replace('.', '/')}/"
        for line, after in zip(lines, [*lines[1:], ""]):
            is_error = line.removeprefix("./").startswith(inside) and ": error: " in line and IS_NO_OFFERS not in line
            is_of_names = IS_OF_NAMES.match(line) or GOES_ON_OF_NAMES.match(after)
            if is_error and (self.is_copy_of_law(function) or not is_of_names):
                return line
        return ""

    def said_itself(self, function, words, why):
        """What a check says of a function without the answer that was added to its own: what else is wrong has a note, or an
        error in one of its files."""
        is_by_it = words.startswith("not proved") and (not STANDS_ON.match(words) or self.stands_on_itself(function, words))
        return ("not proved" if why else "proved") if is_by_it else words

    def can_be_silent(self, function, texts):
        """Whether the function's proof, if it has files, is of answers, so that one that is no goal's can be added."""
        has_another_place = not (self.is_copy_of_law(function) or function.cycle) and self.calls_itself(function)
        return not (has_another_place or self.is_by_hand(function, texts))

    def is_by_hand(self, function, texts):
        """Whether the function's proof is by hand, and not of answers."""
        return f"proofs/{function.proof().replace('.', '/')}/{BY_HAND}" in {**self.proofs, **texts}

    def is_copy_of_law(self, function):
        return function.file not in self.sources

    def without_offers(self, function, texts):
        """The function's file of answers with one more, of a name that is no goal's."""
        file = f"proofs/{function.proof().replace('.', '/')}/Answers.antt"
        return {file: (texts.get(file) or self.proofs.get(file, "")) + NO_OFFERS}

    def try_alone(self, edits):
        """What the kit says of each edit, tried by itself as its own are."""
        found = {}
        for edit in edits:
            call = functools.partial(self.kit.must_fail, self.crate, edit.path, ONE_JOB)
            said, text = (yield [call])[call]
            found[edit] = is_refusal(self.kit, said), f"{text.replace('must-fail ', 'wrong ', 1)} {ALONE}"
        return found

    def words_below(self, words):
        """These words, and those of the functions that they name, and so on."""
        found, left = set(), set(words)
        while left:
            found |= left
            left = {word for it in self.functions if it.name in left for word in self.words[it]} - found
        return found


def checked(kit, crate, texts, flags, kept=None):
    """Checks a copy of the crate by itself with these texts, as the kit does, and notes the processor time."""
    with tempfile.TemporaryDirectory(prefix="wrong-crate-") as room:
        for part in kit.rtlib.PARTS:
            if os.path.isdir(f"{crate.folder}/{part}"):
                shutil.copytree(f"{crate.folder}/{part}", f"{room}/{part}")
        write_texts(room, texts)
        ran = run(kit, crate.words(flags, keeps=False), room)
    print(f"a check of {crate.name} by itself: {ran.seconds:.0f} processor seconds", flush=True)
    return ran


def answers_by_itself(kit, question):
    """The answer of a check of the crate by itself, where it cannot be checked beside others."""
    only = [word for path in question.paths for word in ("--only", "::".join([question.crate.name, *path]))]
    ran = checked(kit, question.crate, question.texts, [*question.flags, *only])
    lines = ran.stdout.rstrip("\n").split("\n")
    return {question: Answer(lines, went_through(ran.returncode, lines))}


def texts_below(folder, part, ending):
    """The texts of the files of a part of the crate, by their paths in it."""
    found = {}
    for at, _, names in os.walk(f"{folder}/{part}"):
        for name in sorted(it for it in names if it.endswith(ending)):
            with open(f"{at}/{name}", encoding="utf-8") as it:
                found[os.path.relpath(f"{at}/{name}", folder)] = it.read()
    return found


def own_text(function, sources):
    """The text of the function, without its name at its head."""
    lines = sources[function.file].split("\n")
    lines[function.head] = re.sub(rf"\bfn {function.name}\b", "fn", lines[function.head], count=1)
    return "\n".join(lines[function.first : function.last + 1])


def without_body(lines, function):
    """The lines of the function's body, its braces among them, with nothing between these."""
    indent, opens = re.match(" *", lines[function.head])[0], lines[function.opens].rstrip()
    if function.opens == function.last:
        opens = opens[: opens.index("{}") + 1] if opens.endswith("{}") else opens
    return [opens, f"{indent}    {BARE_BODY}", f"{indent}}}"] if opens.endswith("{") else lines[function.opens : function.last + 1]


def refused_beside(copies, found):
    """What a check says of each edit in a copy: an empty text where that is proved. It says nothing where the copy without
    an edit is not proved."""
    said = {copy: [(words, why) for of, words, why in found if of == copy] for _, _, copy in copies}
    lost = {of for edit, of, copy in copies if not said[copy] or not edit and any(it != "proved" for it, _ in said[copy])}
    why = {edit: next((why for it, why in said[copy] if IS_REFUSED.match(it)), "") for edit, of, copy in copies if of not in lost}
    return {edit: it for edit, it in why.items() if edit}


def at_fault(lines, texts, functions):
    """Those of the functions in which the check finds errors of the language: the head nearest above each is theirs."""
    found = set()
    for place in filter(None, map(PLACE.match, lines)):
        above = texts.get(place[1], "").split("\n")[: int(place[2])]
        name = next((it[3] for it in map(HEAD.match, reversed(above)) if it), "")
        found |= {it for it in functions if (it.file, it.name) == (place[1], name)}
    return found


def edits_of(crate):
    """The edits of the crate's wrong/, and what else is there and is not only to be read."""
    good, bad, top = [], [], f"{crate.folder}/wrong"
    for at, _, names in os.walk(top):
        for name in sorted(names):
            is_edit = at in (top, f"{top}/{INNER}") and NAME.fullmatch(name)
            if is_edit or not name.endswith(".md"):
                (good if is_edit else bad).append(f"{at}/{name}")
    return good, bad


def apart(edits, reaches):
    """As many of the edits as one check can tell apart: one of each function and cycle, and none that reaches another."""
    chosen = []
    for edit in edits:
        groups = {it.function.group() for it in chosen}
        if edit.function.group() not in groups and not any(reaches(edit, it) or reaches(it, edit) for it in chosen):
            chosen.append(edit)
    return chosen


def is_fresh(kit, crate):
    """Whether the crate's library was built after the last change of its sources and of those below."""
    files = [it for each in [crate, *crate.below()] for it in kit.rtlib.files_of(each.folder)]
    made = f"{crate.rlib}/format"
    return os.path.isfile(made) and all(os.path.getmtime(it) < os.path.getmtime(made) for it in files)


def build_below(kit, crates):
    """Has the libraries below these crates at hand, and returns whether they are."""
    below = list(dict.fromkeys(it for crate in crates for it in crate.below()))
    # those with a stamp are of other checks than those without, and do not fit them
    stamps = {os.path.isfile(f"{os.path.dirname(it.rlib)}/stamp") for it in below}
    if len(stamps) < 2 and all(is_fresh(kit, it) for it in below):
        return True
    return not any(it.build_rlib(ONE_JOB, anew=False) for it in below)


def run_wrong(rt, names=(), anew=False, with_inner=False, is_built=False):
    """Tries the edits of these crates, or of all, prints a line for each, and returns how many passed and failed. The
    libraries below are looked after, unless they were built just now."""
    kit = load_kit(rt)
    kit.rtlib.guarded()
    kit.checked = functools.partial(checked, kit)
    # (else it is made again on every way that leads to a crate)
    kit.rtlib.Crate.below = functools.lru_cache(maxsize=None)(kit.rtlib.Crate.below)
    every = kit.rtlib.crates_below(TOP)
    results = results_of(kit, every, anew)
    crates = [it for it in every if any(edits_of(it)) and (not names or it.name in names)]
    if not is_built and not build_below(kit, crates):
        print("the crates below are not proved, so no edit is tried")
        return 0, 1
    lanes = min(MOST_AT_ONCE, kit.processors(), int(0.85 * kit.free() / MEMORY_OF_ONE))
    runs = Runs([Trial(kit, it, results, with_inner, is_built).run() for it in crates])
    with ThreadPoolExecutor(max(lanes, 1)) as pool, folder_of_run():
        while asked := runs.asked():
            for done in as_completed([pool.submit(it) for it in checks_for(kit, asked)]):
                runs.take(done.result())
    return runs.passed, runs.failed


class Runs:
    """The trials that wait for answers, each with what it asks and the answers so far, and how many edits passed and failed."""

    def __init__(self, trials):
        self.waiting, self.passed, self.failed = {}, 0, 0
        for it in trials:
            self.go_on(it)

    def asked(self):
        return [it for asked, _ in self.waiting.values() for it in asked]

    def take(self, answers):
        """Takes these answers, and gives each trial that has all of its own these."""
        for trial, (asked, known) in list(self.waiting.items()):
            known.update((it, answers[it]) for it in asked if it in answers)
            if len(known) == len(asked):
                self.go_on(trial, known)

    def go_on(self, trial, answers=None):
        """Gives the trial its answers, and takes its next questions, or prints what it tells at its end."""
        self.waiting.pop(trial, None)
        try:
            self.waiting[trial] = trial.send(answers), {}
        except StopIteration as end:
            for is_refused, text in end.value:
                print(text, flush=True)
                self.passed, self.failed = self.passed + is_refused, self.failed + (not is_refused)


def at_once(ways):
    """What each of these ways returns, in a list, where what they ask is asked at once, as far as they ask."""
    answers, returned = dict.fromkeys(ways), {}
    while answers:
        asked = {}
        for way, given in answers.items():
            try:
                asked[way] = way.send(given)
            except StopIteration as end:
                returned[way] = end.value
        given = (yield [it for each in asked.values() for it in each]) if asked else {}
        answers = dict.fromkeys(asked, given)
    return [returned[it] for it in ways]


def checks_for(kit, asked):
    """Calls that answer all that is asked: a check for many questions, one for each that goes alone, and what is a call."""
    questions = [it for it in asked if isinstance(it, Question)]
    groups = in_groups(questions, MOST_IN_ONE)
    beside = [functools.partial(answered, kit, it, it[0].flags) for it in groups if it[0].goes_beside_others()]
    by_itself = [functools.partial(answers_by_itself, kit, it[0]) for it in groups if not it[0].goes_beside_others()]
    return [*by_itself, *beside, *(functools.partial(answer_of_call, it) for it in asked if it not in questions)]


def answer_of_call(call):
    return {call: call()}


@contextmanager
def folder_of_run():
    """Has all that this run makes for a while in one folder, so that a signal can break it off at once: the pool would wait for all
    checks, which the kit's guard ends with this process."""
    with tempfile.TemporaryDirectory(prefix="wrong-edits-") as room:
        tempfile.tempdir, before = room, tempfile.tempdir
        try:
            yield
        except KeyboardInterrupt:
            shutil.rmtree(room, ignore_errors=True)
            print("broken off: the next run goes on from the crates whose edits were told", flush=True)
            os._exit(130)
        finally:
            tempfile.tempdir = before


def main():
    words = argparse.ArgumentParser(description="Tries the edits of crates/*/wrong, many in one check.")
    words.add_argument("--rt", default="rt", help="the command of the Rattle toolchain")
    words.add_argument("--anew", action="store_true", help="try those too that an earlier run on this machine saw refused")
    words.add_argument("--inner", action="store_true", help="try those of wrong/inner/ too")
    words.add_argument("names", nargs="*", metavar="NAME", help="a crate; all, where none is named")
    given = words.parse_args()
    passed, failed = run_wrong(given.rt, given.names, given.anew, given.inner)
    print(f"{passed} passed, {failed} failed")
    return 1 if failed else 0


if __name__ == "__main__":
    sys.exit(main())
