#!/usr/bin/env python3
"""Tests of wrong_edits.py: of functions.py and bare_lemmas.py on texts, and of whole runs on a small repository that is made for it.

    test_wrong_edits.py [--rt COMMAND]

The last line is 'N passed, M failed', and the status is 0 only where none failed.
"""
import argparse
import os
import shutil
import subprocess
import sys
import tempfile
import types

from bare_lemmas import bare_lemmas, reached_from
from functions import functions_of
from recursion import without_recursion
from refused import SCRIPT
from together import in_groups, told_apart
from unreached import shorter_imports, unreached
from wrong_edits import is_refusal

HERE = os.path.dirname(os.path.abspath(__file__))
SOURCES = {
    "src/lib.rt": """\
// Small functions, to be edited.
#![tactic(auto)]

pub mod cycle;
pub mod left;
pub mod right;

ghost use Rattle.std.specs.Prelude.{◌≡◌, ◌<◌};
ghost use Rattle.sample.specs.Bounds.{least, greatest};
ghost use Rattle.sample.specs.More.{more};
ghost use Rattle.sample.specs.Sums.{sum};

/// A way of some steps.
#[derive(Drop)]
pub struct Near {
    steps: u32,
}

/// A way of some paces.
#[derive(Drop)]
pub struct Far {
    paces: u32,
}

impl Near {
    /// How long it is.
    pub fn length(&self) -> u32
        ensures { result ≡ self.now.steps }
    {
        self.steps
    }
}

impl From<u32> for Near {
    fn from(steps: u32) -> Near
        ensures { result.steps ≡ steps }
    {
        Near { steps }
    }
}

impl Far {
    /// How long it is.
    pub fn length(&self) -> u32
        ensures { result ≡ self.now.paces }
    {
        self.paces
    }
}

/// The least number is below the greatest.
pub fn least_is_below()
    ensures { least < greatest }
{}

/// A number above the least is below the greatest.
pub fn more_is_below()
    ensures { more < greatest }
{
    least_is_below();
}

/// The number 1.
pub fn one() -> u32
    ensures { result ≡ 1 }
{
    1
}

/// The number 2.
pub fn two() -> u32
    ensures { result ≡ 2 }
{
    one() + 1
}

/// The number 0, by as many calls.
pub fn down(count: u32) -> u32
    ensures { result ≡ 0 }
{
    if count == 0 {
        return 0;
    }
    down(count - 1)
}

/// The number 3.
pub fn three() -> u32
    ensures { result ≡ 3 }
{
    two() + one() + down(2)
}

/// The sum of two numbers.
pub fn nine() -> u32
    ensures { result ≡ sum }
{
    9
}
""",
    "proofs/nine/Answers.antt": """\
use Rattle.sample.proofs.Sums.{sum_is_nine}
use Rattle.sample.proofs.nine.Goals as goal

pub returns : goal.returns
returns c = sum_is_nine
""",
    "proofs/Lib.antt": "pub mod Sums\n",
    "proofs/Sums.antt": """\
-- What the sum is.
use Rattle.std.proofs.Common.{◌≡◌, refl}
use Rattle.sample.specs.Sums.{sum}

pub sum_is_nine : 9 ≡ sum
unfolding sum
sum_is_nine = refl
""",
    "proofs/+down/Invariants.antt": """\
use Rattle.sample.proofs.+down.Given as goal

abbrev pub decreases-down : goal.decreases-down
decreases-down l = l.count
""",
    "specs/Lib.antt": "pub mod Bounds\npub mod More\npub mod Sums\n",
    "specs/Bounds.antt": """\
-- Two numbers.
use Rattle.std.specs.Prelude.{ℕ}

abbrev pub least : ℕ
least = 1

abbrev pub greatest : ℕ
greatest = 9
""",
    "specs/More.antt": """\
-- A number above the least.
use Rattle.std.specs.Prelude.{ℕ, ◌+◌}
use Rattle.sample.specs.Bounds.{least}

abbrev pub more : ℕ
more = least + 4
""",
    "specs/Sums.antt": """\
-- A sum, of which a lemma says what it is.
use Rattle.std.specs.Prelude.{ℕ, ◌+◌}

unfoldable pub sum : ℕ
sum = 4 + 5
""",
    "src/cycle.rt": """\
//! Two functions that call each other.

ghost use Rattle.std.specs.Prelude.{◌≡◌};

/// The number 0, by as many calls.
#[cycle(turns)]
pub fn left_down(count: u32) -> u32
    ensures { result ≡ 0 }
{
    if count == 0 {
        return count;
    }
    right_down(count - 1)
}

/// The same.
#[cycle(turns)]
pub fn right_down(count: u32) -> u32
    ensures { result ≡ 0 }
{
    if count == 0 {
        return 0;
    }
    left_down(count - 1)
}
""",
    "proofs/cycle/+turns/Invariants.antt": """\
use Rattle.sample.proofs.cycle.+turns.Given as goal

abbrev pub decreases-left_down : goal.decreases-left_down
decreases-left_down l = l.count

abbrev pub decreases-right_down : goal.decreases-right_down
decreases-right_down l = l.count
""",
    "proofs/cycle/+turns/Answers.antt": """\
use Rattle.std.proofs.Common.{rules}
use Rattle.sample.proofs.cycle.+turns.Goals as goal

pub left_down-returns-then-count-eq0 : goal.left_down-returns-then-count-eq0
left_down-returns-then-count-eq0 t c = search rules
""",
    "src/left.rt": """\
//! One side.

ghost use Rattle.std.specs.Prelude.{◌≡◌};

/// The number of this side.
pub fn side() -> u32
    ensures { result ≡ 1 }
{
    1
}
""",
    "src/right.rt": """\
//! The other side.

ghost use Rattle.std.specs.Prelude.{◌≡◌};

/// The number of this side.
pub fn side() -> u32
    ensures { result ≡ 2 }
{
    2
}
""",
}
# A crate above it, which is checked beside it: it stands on the library that was built of it, not on what is edited there.
ABOVE = {
    "src/lib.rt": """\
// A small function over another crate.
#![tactic(auto)]

ghost use Rattle.std.specs.Prelude.{◌≡◌};

/// The number 1, by a function of the same name.
pub fn one() -> u32
    ensures { result ≡ 1 }
{
    sample::one()
}
""",
}
CRATES = {"sample": SOURCES, "above": ABOVE}
# Each edit by its crate and name: the file, the old and the new text, what is to be said of it, and the law that it names, if any.
EDITS = {
    "above/one_is_two": ("src/lib.rt", "sample::one()", "sample::two()", "refused, as it must be"),
    "above/one_stays": ("src/lib.rt", "sample::one()", "sample::one() + 0", "NOT REFUSED"),
    "sample/near_is_halved": ("src/lib.rt", "self.steps", "self.steps / 2", "refused, as it must be"),
    # a method of a trait, which is edited in place
    "sample/from_is_halved": ("src/lib.rt", "Near { steps }", "Near { steps: steps / 2 }", "refused, as it must be"),
    # the method of another type has the same name
    "sample/far_stays": ("src/lib.rt", "self.paces", "0 + self.paces", "NOT REFUSED"),
    "sample/one_is_nought": ("src/lib.rt", "    1", "    0", "refused, as it must be"),
    # it calls what is refused beside it
    "sample/two_stays": ("src/lib.rt", "one() + 1", "1 + one()", "NOT REFUSED"),
    # two edits of a function that calls itself, and one of a function that calls it
    "sample/down_is_one": ("src/lib.rt", "return 0", "return 1", "refused, as it must be"),
    "sample/down_is_two": ("src/lib.rt", "return 0", "return 2", "refused, as it must be"),
    "sample/three_is_two": ("src/lib.rt", "two() + one()", "two()", "refused, as it must be"),
    # two edits of a function in a cycle of calls, the first of which is right, and one of the other function, which has no answer
    "sample/left_down_stays": ("src/cycle.rt", "return count", "return 0 * count", "NOT REFUSED"),
    "sample/left_down_is_one": ("src/cycle.rt", "return count", "return count + 1", "refused, as it must be"),
    "sample/right_down_is_one": ("src/cycle.rt", "return 0", "return 1", "refused, as it must be"),
    # and one whose calls do not end, which a copy says nothing of
    "sample/right_down_goes_on": ("src/cycle.rt", "left_down(count - 1)", "left_down(count)", "refused, as it must be"),
    # two edits of one function, whose name another module has too
    "sample/left_is_two": ("src/left.rt", "    1", "    2", "refused, as it must be"),
    "sample/left_is_nought": ("src/left.rt", "    1", "    0", "refused, as it must be"),
    # the first is made in the function, which is right with it, and the second in a copy of it
    "sample/right_as_it_was": ("src/right.rt", "    2", "    1 + 1", "NOT REFUSED"),
    "sample/right_is_five": ("src/right.rt", "    2", "    5", "refused, as it must be"),
    # of a function whose proof cites a lemma, which has none then: the first is right
    "sample/nine_by_two": ("src/lib.rt", "    9", "    8 + 1", "NOT REFUSED"),
    "sample/nine_is_eight": ("src/lib.rt", "    9", "    8", "refused, as it must be"),
    # of definitions, in copies of their laws
    "sample/least_is_nine": ("specs/Bounds.antt", "least = 1", "least = 9", "refused, as it must be", "least_is_below"),
    "sample/least_stays_below": ("specs/Bounds.antt", "least = 1", "least = 8", "NOT REFUSED", "least_is_below"),
    "sample/least_is_five": ("specs/Bounds.antt", "least = 1", "least = 5", "refused, as it must be", "more_is_below"),
}
# Those of which a check says nothing, since they do not apply, compile or read, or name no law.
BAD_EDITS = {
    # and one that is tried beside them, and is judged all the same
    "above/one_is_two": EDITS["above/one_is_two"],
    "sample/near_has_no_paces": ("src/lib.rt", "self.steps", "self.paces", "BAD EDIT"),
    "sample/right_is_not_three": ("src/right.rt", "    3", "    2", "BAD EDIT"),
    "sample/least_is_no_name": ("specs/Bounds.antt", "least = 1", "least = one", "BAD EDIT", "least_is_below"),
    "sample/least_of_no_law": ("specs/Bounds.antt", "least = 1", "least = 9", "BAD EDIT", "least_is_above"),
}
SHAPES = """\
pub fn law()
    ensures { ⊤ }
{}

const fn four() -> u8 {
    4
}

#[cycle(ring)]
pub(crate) fn long(
    first: u8,
) -> u8
    requires { first ≤ 3 }
{
    first
}

impl<T: Ord> From<Vec<T>> for Pile<T> {
    fn from(of: Vec<T>) -> Pile<T> {
        Pile { of }
    }
}

trait Tall {
    fn height(&self) -> u8;

    fn twice(&self) -> u8 {
        self.height()
    }
}

mod inner {
    pub fn long() -> u8 {
        5
    }
}
"""

LEMMAS = """\
-- Sums.
use Rattle.std.proofs.Common.{◌≡◌, ℕ, ◌+◌}

abbrev pub twice : ℕ → ℕ
twice n = n + n

pub one_more {ℓ} : (n : ℕ) →
    n + 1 ≡ n + 1
unfolding halved
one_more zero = refl
-- and behind it
one_more (suc n) = by n
  where
    by : (n : ℕ) → n ≡ n
    by n = refl

module _ (n : ℕ)
    (m : ℕ) where
  record Both : Type 0 where
    one : ℕ

  both : Both
  both = record {
    one = n;
  }

  mutual
    even : ℕ → ℕ
    even n = odd n

    odd : ℕ → ℕ
    odd n = n

halved : ℕ → ℕ
halved n = n
"""
BARE_LEMMAS = """\
-- Sums.
use Rattle.std.proofs.Common.{◌≡◌, ℕ, ◌+◌}

nothing_is_proved_here : ⊥
nothing_is_proved_here = ?

abbrev pub twice : ℕ → ℕ
twice n = n + n

pub one_more {ℓ} : (n : ℕ) →
    n + 1 ≡ n + 1
one_more = absurd nothing_is_proved_here

-- and behind it
module _ (n : ℕ)
    (m : ℕ) where
  record Both : Type 0 where
    one : ℕ

  both : Both
  both = absurd nothing_is_proved_here

  even : ℕ → ℕ
  even = absurd nothing_is_proved_here

  odd : ℕ → ℕ
  odd = absurd nothing_is_proved_here

halved : ℕ → ℕ
halved n = n
"""


ANSWERS_OF_CYCLE = """\
use Rattle.std.proofs.Common.{◌-◌, refl}
use Rattle.sample.proofs.+ways.Goals as goal

-- The first.
pub up-returns-then-n : goal.up-returns-then-n
up-returns-then-n g t c =
    let rest = c.args.n - 1 in
    c.in_ok-up-2.is rest

pub up_on-up-requires : goal.up_on-up-requires
unfolding least
up_on-up-requires t c = refl

pub up-up_on-requires : goal.up-up_on-requires
up-up_on-requires t c = refl
"""
ANSWERS_OF_ONE = """\
use Rattle.std.proofs.Common.{◌-◌, refl}
use Rattle.sample.proofs.+ways.Goals as goal

-- The first.
nothing_is_proved_here : ⊥
nothing_is_proved_here = ?

pub returns-then-n : goal.returns-then-n
returns-then-n g c =
    let rest = c.args.n - 1 in
    c.in_ok-up-2.is rest

pub up_on-requires : goal.up_on-requires
up_on-requires = absurd nothing_is_proved_here
"""
INVARIANTS_OF_CYCLE = """\
abbrev pub invariant-up-loop-n : goal.invariant-up-loop-n
invariant-up-loop-n l = l.n

abbrev pub decreases-up : goal.decreases-up
decreases-up l = l.n

abbrev pub decreases-up-loop-n : goal.decreases-up-loop-n
decreases-up-loop-n l = l.n

abbrev pub decreases-up_on-loop-n : goal.decreases-up_on-loop-n
decreases-up_on-loop-n l = l.n
"""
INVARIANTS_OF_ONE = """\
abbrev pub invariant-loop-n : goal.invariant-loop-n
invariant-loop-n l = l.n

abbrev pub decreases-loop-n : goal.decreases-loop-n
decreases-loop-n l = l.n
"""
SOURCE_OF_CALLS = """\
use crate::other::lone;
pub use crate::other::{
    cited, gone, kept as lone,
};
use lists::{gone};

/// It calls one, and names_none in a remark; named_in_a_remark is not called.
pub fn edited() {
    called();
}

pub fn called() {}

pub fn named_in_a_remark() {}

const fn constant() -> u8 {
    by_a_constant()
}

pub fn by_a_constant() {}
"""


def run_on_functions():
    """Whether the functions of a text have their names, their lines and their cycles."""
    texts = {"src/deep/shape.rt": SHAPES, "src/pile.rt": "pub struct Pile<T> {\n    of: Vec<T>,\n}\n"}
    # two types of one name, each with a method
    heap = "struct Heap;\n\nimpl Heap {\n    fn top() {}\n}\n"
    texts |= {"src/left.rt": heap, "src/right.rt": heap}
    found = {(it.path, it.first, it.opens, it.last, it.cycle, it.is_of_trait) for it in functions_of(texts)}
    wanted = {
        (("deep", "shape", "law"), 0, 2, 2, "", False),
        (("deep", "shape", "four"), 4, 4, 6, "", False),
        (("deep", "shape", "long"), 8, 13, 15, "ring", False),
        (("pile", "PileFromVec", "from"), 18, 18, 20, "", True),
        ((), 26, 26, 28, "", True),
        (("deep", "shape", "inner", "long"), 32, 32, 34, "", False),
        (("left", "Heap", "top"), 3, 3, 3, "", False),
        (("right", "Heap", "top"), 3, 3, 3, "", False),
    }
    for it in found ^ wanted:
        print(f"a function is {'not ' if it in wanted else ''}found: {it}")
    names = {it.path: it for it in functions_of(texts)}
    closure = "pile::fn::PileFromVec::from::map+FnMut::call_mut"
    return found == wanted and [it for it in names if it and names[it].is_named(closure)] == [("pile", "PileFromVec", "from")]


def run_on_answers():
    """Whether the answers of kits are told apart, of those that answer a truth value and of those that answer a word."""
    plain, worded = types.SimpleNamespace(), types.SimpleNamespace(REFUSED="refused", AT_LIMIT="at a limit")
    answers = [(plain, True), (plain, False), (worded, "refused"), (worded, "at a limit"), (worded, "not refused")]
    told = [is_refusal(*it) for it in answers]
    if told != [True, False, True, True, False]:
        print(f"answers of kits are told as {told}")
    return told == [True, False, True, True, False]


def run_on_lemmas():
    """Whether lemmas have no proof of their own in the place of their clauses, and what others open keeps them."""
    told = bare_lemmas({"proofs/OfSides/Sums.antt": LEMMAS, "proofs/side/Answers.antt": LEMMAS})
    if told != {"proofs/OfSides/Sums.antt": BARE_LEMMAS}:
        print(f"lemmas without their proofs are:\n{''.join(told.values())}", end="")
    return told == {"proofs/OfSides/Sums.antt": BARE_LEMMAS}


def run_on_reached_lemmas():
    """Whether the lemmas are found that a proof comes to, by the names that an import gives them too."""
    other = "use Rattle.sample.proofs.Sums.{halved as later}\n\nalone : ℕ\nalone = zero\n"
    texts, names = [LEMMAS.replace("by n = refl", "by n = later n"), other], {"one_more", "halved", "even", "odd", "alone"}
    told = {it: sorted(reached_from({it}, texts) & names) for it in ("one_more", "even", "alone")}
    # (what is named by a type or a module is always reached, as here by the abbreviation and the record)
    wanted = {"one_more": ["halved", "one_more"], "even": ["even", "odd"], "alone": ["alone"]}
    if told != wanted:
        print(f"lemmas are reached as {told}")
    return told == wanted


def run_on_recursion():
    """Whether a member of a cycle of calls has its own answers and invariants alone, by the names that it has in none."""
    told = [without_recursion(text, "up", ["up", "up_on"]) for text in (ANSWERS_OF_CYCLE, INVARIANTS_OF_CYCLE)]
    if told != [ANSWERS_OF_ONE, INVARIANTS_OF_ONE]:
        print(f"answers of one function are:\n{'---'.join(told)}", end="")
    return told == [ANSWERS_OF_ONE, INVARIANTS_OF_ONE]


def run_on_unreached():
    """Whether functions that nothing names are found, and are left out of imports."""
    texts = {"src/lib.rt": SOURCE_OF_CALLS, "src/other.rt": "pub fn lone() {}\n\npub fn cited() {}\n"}
    bare = [it for it in functions_of(texts) if it.name not in ("edited", "constant")]
    told = [it.name for it in unreached(texts, bare, ["called()"], ["use Rattle.sample.proofs.other.cited.Met.{met}"])]
    imports = shorter_imports(SOURCE_OF_CALLS, {"lone", "gone"}, {"lists"})
    wanted = [(0, 1, []), (1, 4, ["pub use crate::other::{cited, kept as lone};"])]
    if (told, imports) != (["named_in_a_remark", "lone"], wanted):
        print(f"unreached are {told}, and imports are {imports}")
    return (told, imports) == (["named_in_a_remark", "lone"], wanted)


def run_on_lines():
    """Whether what a check of many crates says is told apart, with each crate's own names. One crate may be there twice."""
    said = """\
tried_0_one/src/lib.rt:3:1: error[mismatched-types] one
  and behind it
./tried_1_two_of/proofs/f/Answers.antt:2:1: error: `Rattle.tried_1_two_of.proofs.f.g`
note: tried_0_one/src/lib.rt:9:1: it is not proved
note: a goal may be false
fn tried_0_one::f: not proved; it calls `tried_0_one::g`
fn tried_2_one::f_tried_0: proved
fn tried_1_two_of::f: proved
only=3 proved=2"""
    wanted = {
        "tried_0_one": [
            "src/lib.rt:3:1: error[mismatched-types] one",
            "  and behind it",
            "note: src/lib.rt:9:1: it is not proved",
            "note: a goal may be false",
            "fn one::f: not proved; it calls `one::g`",
        ],
        "tried_1_two_of": [
            "./proofs/f/Answers.antt:2:1: error: `Rattle.two_of.proofs.f.g`",
            "fn two_of::f: proved",
            "only=3 proved=2",
        ],
        "tried_2_one": ["fn one::f_tried_0: proved"],
    }
    told = told_apart(said.split("\n"), {"tried_0_one": "one", "tried_1_two_of": "two_of", "tried_2_one": "one"})
    if told != wanted:
        print(f"lines are told apart as {dict(told)}")
    return told == wanted


def run_on_groups():
    """Whether questions are put into groups of about the same weight, each of those beside one another and of its flags."""
    questions = [Asked(weight, flags) for weight, flags in ((7, "a"), (1, "a"), (6, "a"), (3, "b"), (2, "a"))]
    told = [[it.weight for it in group] for group in in_groups(questions, 8)]
    if told != [[7, 1], [6, 2], [3]]:
        print(f"groups are {told}")
    return told == [[7, 1], [6, 2], [3]]


class Asked:
    def __init__(self, weight, flags):
        self.weight, self.flags = weight, flags

    def goes_beside_others(self):
        return True


def write(folder, edits):
    """Writes a repository with the crates and these of their edits. What is there already stays, with the library that was built."""
    for crate in CRATES:
        shutil.rmtree(f"{folder}/crates/{crate}/wrong", ignore_errors=True)
    texts = {f"crates/{crate}/{file}": text for crate, files in CRATES.items() for file, text in files.items()}
    for edit in edits:
        file, old, new, _, *law = {**EDITS, **BAD_EDITS}[edit]
        text = "".join([f"file: {file}\nold: {old}\nnew: {new}\n", *(f"law: {it}\n" for it in law)])
        texts[f"crates/{edit.replace('/', '/wrong/')}.edit"] = text
    texts["crates.txt"] = "sample:\nabove: sample\n"
    for file, text in texts.items():
        if os.path.exists(f"{folder}/{file}"):
            continue
        os.makedirs(os.path.dirname(f"{folder}/{file}"), exist_ok=True)
        with open(f"{folder}/{file}", "w", encoding="utf-8") as it:
            it.write(text)
    os.makedirs(f"{folder}/tests", exist_ok=True)
    for name in SCRIPT:
        shutil.copy(f"{HERE}/{name}", f"{folder}/tests/{name}")


def run(rt, folder, edits, anew=True):
    """Runs these edits, all anew or with what an earlier run was told, and returns whether each line, the count and the
    status are as they are to be."""
    write(folder, edits)
    words = [sys.executable, "-B", f"{folder}/tests/wrong_edits.py", "--rt", rt, *["--anew"][:anew]]
    ran = subprocess.run(words, stdin=subprocess.DEVNULL, stdout=subprocess.PIPE, stderr=subprocess.STDOUT, text=True)
    wanted = {**EDITS, **BAD_EDITS}
    good = sum(wanted[it][3].startswith("refused") for it in edits)
    lines = {it.split(":")[0]: it for it in ran.stdout.split("\n") if it.startswith("wrong ")}
    is_right = {it: lines.get(f"wrong {it}.edit", "").startswith(f"wrong {it}.edit: {wanted[it][3]}") for it in edits}
    is_right["count"] = ran.stdout.split("\n")[-2:] == [f"{good} passed, {len(edits) - good} failed", ""]
    known = sum(it.endswith("(by an earlier run)") for it in lines.values())
    is_right["known"] = known == (0 if anew else good)
    is_right["status"] = ran.returncode == (1 if good < len(edits) else 0)
    wrong = [it for it in is_right if not is_right[it]]
    if wrong:
        print(f"not as it is to be: {', '.join(wrong)}\n{ran.stdout}", end="")
    return not wrong


def run_tests(rt):
    """Runs all tests, and returns how many passed and failed."""
    with tempfile.TemporaryDirectory(prefix="wrong-test-") as folder:
        os.makedirs(f"{folder}/.git")
        done = [run_on_functions(), run_on_answers(), run_on_lemmas(), run_on_lines(), run_on_groups()]
        done += [run_on_reached_lemmas(), run_on_recursion(), run_on_unreached()]
        done += [run(rt, folder, list(EDITS)), run(rt, folder, list(BAD_EDITS))]
        done.append(run(rt, folder, []))
        done.append(run(rt, folder, ["sample/near_is_halved", "sample/least_is_nine"], anew=False))
    return sum(done), len(done) - sum(done)


def main():
    words = argparse.ArgumentParser(description="Tests wrong_edits.py.")
    words.add_argument("--rt", default="rt", help="the command of the Rattle toolchain")
    passed, failed = run_tests(words.parse_args().rt)
    print(f"{passed} passed, {failed} failed")
    return 1 if failed else 0


if __name__ == "__main__":
    sys.exit(main())
