"""Lemmas without their proofs, for checks that say something of functions which cite them.

A lemma follows from a fact that cannot be, which has a hole: with a hole of its own the prover would print what each lemma says.

The clauses of a definition are shut to all others, those of its own file among them, but for an `abbrev`, an `unfoldable` one, and
what a line `unfolding` names. So a check with `--allow-holes` says the same of who cites a lemma where such a proof stands in the
place of its clauses.
"""
import re

# A file of lemmas: right in proofs/, or in the folder of a module of the crate.
LEMMAS = re.compile(r"proofs/(?:[A-Z]\w*/)*[A-Z]\w*\.antt")
SIGNATURE = re.compile(r"(?:pub )?([^\s◌]+)(?: \{[^}]*\})? :(?: |$)")
MODULE = re.compile(r"(?:pub )?module ")
# What cannot be, and is not proved.
NOTHING = "nothing_is_proved_here"
HOLE = [f"{NOTHING} : ⊥", f"{NOTHING} = ?", ""]
# The clause of what follows from it, behind its name.
FOLLOWS = f" = absurd {NOTHING}"
IS_HEAD = re.compile(r"use |pub use |--|$|[)}]")
IS_TYPE = re.compile(r"(?:pub )?(?:data|record) ")
IMPORT = re.compile(r"(?:pub )?use ")
GIVEN = re.compile(r"([^\s{},.]+) as ([^\s{},.]+)")
OPENING = re.compile(r"^( *)unfolding (.*(?:\n\1 +\S.*)*)|\bunfold ([^=]*?) in\b", re.MULTILINE)


def bare_lemmas(proofs):
    """The files of lemmas among these, by their paths, with no proof of a lemma that no text opens."""
    opened = opened_in(proofs)
    return {file: without_proofs(text, opened) for file, text in proofs.items() if LEMMAS.fullmatch(file)}


def opened_in(proofs):
    """The names that some text opens."""
    lines = [f"{line} {term}" for text in proofs.values() for _, line, term in OPENING.findall(text)]
    return {part for it in lines for name in it.split() for part in (name, name.split(".")[-1])}


def reached_from(words, texts):
    """The names of the lemmas in these texts of files that these words, or what is no lemma there, name, and those that the proofs of
    these name, and so on."""
    found = {}
    for text in texts:
        add_words(text.split("\n"), found)
    names, left = set(), words | found.pop("", set())
    while left:
        names |= left
        left = {word for it in left for word in found.get(it, ())} - names
    return names


def add_words(lines, found):
    """Adds the words of a file or of a block: of a lemma under its name, of what is none under an empty one. An import counts for the
    names that it gives to others."""
    name = ""
    for item in items_in(lines):
        first, inner = item[0].strip(), inner_at(item)
        signature = SIGNATURE.match(first)
        if first.startswith("--"):
            continue
        if IMPORT.match(first):
            for of, given in GIVEN.findall("\n".join(item)):
                found.setdefault(given, set()).add(of)
            continue
        if inner:
            add_words(item[inner:], found)
            item = item[:inner]
        if signature and not inner:
            name = signature[1]
        elif first.split(" ")[0] != name and not first.startswith("unfolding "):
            name = first.split(" ")[0] if first.split(" ")[0] in found else ""
        found.setdefault(name, set()).update(words_of("\n".join(item)))


def words_of(text):
    return set(re.split(r"[\s(){}.,;]+", text))


def without_proofs(text, opened):
    """The text of a file, with no proof of a lemma that stays shut."""
    made = bare(text.split("\n"), opened)
    return with_hole(made) if any(line.endswith(FOLLOWS) for line in made) else text


def with_hole(lines):
    """The text of these lines, with what cannot be behind the imports."""
    items = items_in(lines)
    head = next((at for at, item in enumerate(items) if not IS_HEAD.match(item[0])), 0)
    return "\n".join([*(line for item in items[:head] for line in item), *HOLE, *(line for item in items[head:] for line in item)])


def bare(lines, opened):
    """The lines of a file or of a block, with one clause for those of each definition that stays shut. Those of a mutual block stand
    outside of it: the prover takes none in it that does not recurse."""
    made, shut, is_after = [], set(), False
    for item in items_in(lines):
        first, indent, inner = item[0].strip(), indent_of(item[0]), inner_at(item)
        signature = SIGNATURE.match(first)
        if first == "mutual" and not is_opened(item, opened):
            made += bare(outside(item), opened)
        elif inner and first != "mutual":
            made += [*item[:inner], *bare(item[inner:], opened)]
        elif signature and signature[1] not in opened:
            shut.add(signature[1])
            made += [*item, f"{indent}{signature[1]}{FOLLOWS}", ""]
        elif not (first.split(" ")[0] in shut or is_after and first.startswith("unfolding ")):
            made += item
        is_after = bool(signature) and signature[1] in shut
    return made


def outside(block):
    """The lines in a mutual block, as they stand where the block does."""
    more = min((len(indent_of(it)) for it in block[1:] if it.strip()), default=0) - len(indent_of(block[0]))
    return [it[more:] if it.strip() else it for it in block[1:]]


def inner_at(item):
    """Where the items of a block begin that this item is, or 0 where it is none."""
    if item[0].strip() == "mutual":
        return 1
    heads = (at for at, line in enumerate(item, 1) if line.rstrip().endswith(" where"))
    return next(heads, 0) if MODULE.match(item[0].strip()) else 0


def items_in(lines):
    """The items of a file or of a block: a line with the least indentation, with those below it that have more or close it."""
    least = min((len(indent_of(it)) for it in lines if it.strip()), default=0)
    found = []
    for line in lines:
        if found and (not line.strip() or len(indent_of(line)) > least or line.strip()[0] in ")]}|"):
            found[-1].append(line)
        else:
            found.append([line])
    return found


def is_opened(item, opened):
    """Whether a line `unfolding` names a function of this block, which opens all of it, or the block is of types."""
    names = (SIGNATURE.match(it.strip()) for it in item[1:])
    return any(found and found[1] in opened for found in names) or any(IS_TYPE.match(it.strip()) for it in item[1:])


def indent_of(line):
    return line[: len(line) - len(line.lstrip())]
