"""Copies of laws, each over definitions of its own, so that many edits of definitions can be tried in one check.

A law is a function that is there for its contract. It rests on modules of its crate: files of definitions in specs/, and of
lemmas in proofs/, each right there or in the folder of a module of the crate. A copy of it stands in a source file of its own. Of
those modules that an edit reaches it has copies, with the edit, under other names. In these a lemma has its proof only where the
law's proof comes to it. What no edit reaches is the same for all.
"""
import os
import re
from collections import defaultdict
from dataclasses import dataclass, replace

from bare_lemmas import LEMMAS, opened_in, reached_from, without_proofs, words_of
from functions import module_of

MODULE = re.compile(r"(?:specs|proofs)/(?:[A-Z]\w*/)?[A-Z]\w*\.antt")
DECLARATIONS = re.compile(r"(?:\s|--[^\n]*\n|(?:pub )?mod \w+\n)*")
IMPORT = re.compile(r"^(?:ghost )?use [^;]*;$", re.MULTILINE)
NAMES = re.compile(r"(ghost use [\w.+]+\.)\{([^}]*)\};")
ALIAS = re.compile(r"ghost use [\w.+]+ as (\w+);")
ITEM = re.compile(r"^(pub(?:\([^)]*\))? )?(?:const |unsafe )*(?:fn|struct|enum|const|static|type|trait) (\w+)", re.MULTILINE)


@dataclass(frozen=True)
class Copy:
    """A copy of a law with an edit, or with none. It is in a source file of this name, and the modules that are copied for it
    have this mark behind their names. In these the lemmas of these names, and what is opened, have their proofs."""

    law: object
    edit: object
    name: str
    mark: str
    copied: frozenset
    whole: frozenset

    def function(self):
        return replace(self.law, file=f"src/{self.name}.rt", path=(self.name, self.law.name))

    def edited(self, file, text):
        """The file's text with the edit."""
        return self.edit.texts.get(file, text) if self.edit else text


class Laws:
    """The laws of a crate, and the modules that they rest on."""

    def __init__(self, crate, sources, specs, proofs):
        self.own, self.proofs, self.texts = f"Rattle.{crate}", proofs, {**specs, **proofs, **sources}
        self.opened = opened_in(proofs)
        files = [it for it, text in self.texts.items() if MODULE.fullmatch(it) and not DECLARATIONS.fullmatch(text)]
        self.files = {it.removesuffix(".antt").replace("/", "."): it for it in files}
        own = "|".join(map(re.escape, sorted(self.files, key=len, reverse=True)))
        self.names = re.compile(rf"\bRattle\.{crate}\.({own or '(?!)'})(?!\w)")
        self.uses = {it: self.named_in(self.texts[file]) for it, file in self.files.items()}

    def named_in(self, text):
        """The modules that a text names."""
        return set(self.names.findall(text))

    def below(self, modules):
        """These modules, and those that they rest on."""
        found, left = set(), set(modules)
        while left:
            found |= left
            left = set().union(*(self.uses[it] for it in left)) - found
        return found

    def can_be_copied(self, edit, law):
        """Whether the law can stand in another file, and the edit is of modules or of the law's file alone. The law has no
        parameter: what its type says may rest on a module that is copied."""
        is_free = law.depth() == 1 and re.search(rf"\bfn {law.name}(<[^()]*>)?\(\)", text_of(law, self.texts[law.file]))
        is_seen = all(is_public or module_of(law.file) == () for is_public, _ in self.beside(law))
        is_of_modules = all(it == law.file or it in self.files.values() for it in edit.texts)
        return bool(is_free) and is_seen and is_of_modules and not edit.why

    def beside(self, law):
        """The items of the law's file that it names: whether each is public, and its name."""
        text = self.texts[law.file]
        found = [it for it in ITEM.findall(text) if it[1] != law.name and is_word_of(it[1], text_of(law, text))]
        return [(bool(public), name) for public, name in found]

    def copies(self, law_of):
        """A copy of each edit's law with the edit, as far as it can be copied, and one of each of these laws with none."""
        law_of = {edit: law for edit, law in law_of.items() if self.can_be_copied(edit, law)}
        below = {law: self.below(self.named_by(law)) for law in law_of.values()}
        changed = {edit: {it for it, file in self.files.items() if file in edit.texts} for edit in law_of}
        whole = {law: self.lemmas_of(law, below[law]) for law in below}
        plain = self.reached(set().union(*below.values()), set().union(*changed.values()))
        of_all = frozenset().union(*whole.values())
        found = [Copy(law, None, f"plain_{at}", "Plain", plain, of_all) for at, law in enumerate(below)]
        for at, (edit, law) in enumerate(law_of.items()):
            found.append(Copy(law, edit, f"tried_{at}", f"Tried{at}", self.reached(below[law], changed[edit]), whole[law]))
        return found

    def lemmas_of(self, law, modules):
        """The names of the lemmas that the law's proof reaches in these modules, and those that are opened."""
        texts = [self.texts[self.files[it]] for it in modules if LEMMAS.fullmatch(self.files[it])]
        own = [text_of(law, self.texts[law.file]), *(self.proofs[it] for it in self.files_of(law))]
        return frozenset(reached_from(words_of("\n".join(own)), texts) | self.opened)

    def reached(self, modules, changed):
        """Those of the modules that rest on a changed one, or are one."""
        return frozenset(it for it in modules if self.below([it]) & changed)

    def named_by(self, law):
        """The modules that the law and its proof name."""
        own = [self.proofs[it] for it in self.files_of(law)]
        return self.named_in("\n".join([self.alone(law, self.texts[law.file]), *own]))

    def files_of(self, law):
        """The files of the law's proof."""
        return [it for it in self.proofs if it.startswith(folder_of(law))]

    def alone(self, law, text):
        """A file with the law of this one alone, and with the imports that it needs."""
        item = text_of(law, text)
        imports = [needed(it, item) for it in IMPORT.findall(text)]
        imports += [f"use {'::'.join(['crate', *module_of(law.file), name])};" for _, name in self.beside(law)]
        return "\n".join([*filter(None, imports), "", item, ""])

    def with_copies(self, copies, others):
        """These texts of other files, with those of the copies and of the files that declare them."""
        made, added = dict(others), defaultdict(list)
        for copy in copies:
            for module in copy.copied:
                file = self.files[module]
                folder, name = os.path.split(file.removesuffix(".antt"))
                text = copy.edited(file, self.texts[file])
                text = without_proofs(text, copy.whole) if LEMMAS.fullmatch(file) else text
                made[f"{folder}/{name}{copy.mark}.antt"] = self.over_copies(copy, text)
                added[declaring(folder)].append(f"pub mod {name}{copy.mark}")
            made.update(self.law_and_proof(copy))
            added["src/lib.rt"].append(f"pub mod {copy.name};")
        for file in added:
            lines = made.get(file, self.texts.get(file, "")).rstrip("\n").split("\n")
            made[file] = "\n".join([*lines, *dict.fromkeys(added[file]), ""])
        return made

    def law_and_proof(self, copy):
        """The files of a copy of a law and of its proof."""
        law, function = copy.law, copy.function()
        old = rf"\b({re.escape(self.own)}\.(?:proofs|specs\.contracts))\.{re.escape(law.proof())}\b"
        proofs = {it: re.sub(old, rf"\1.{function.proof()}", self.proofs[it]) for it in self.files_of(law)}
        texts = {folder_of(function) + os.path.basename(it): text for it, text in proofs.items()}
        texts[function.file] = self.alone(law, copy.edited(law.file, self.texts[law.file]))
        return {file: self.over_copies(copy, text) for file, text in texts.items()}

    def over_copies(self, copy, text):
        """The text, which names modules, over those that are copied for a law."""
        return self.names.sub(lambda it: it[0] + (copy.mark if it[1] in copy.copied else ""), text)


def declaring(folder):
    """The file that declares the modules in this folder, as 'specs' or 'specs/Machine'."""
    return f"{folder}.antt" if "/" in folder else f"{folder}/Lib.antt"


def folder_of(function):
    """The folder of the function's proof."""
    return f"proofs/{function.proof().replace('.', '/')}/"


def text_of(function, text):
    """The function in the text of its file."""
    return "\n".join(text.split("\n")[function.first : function.last + 1])


def needed(line, item):
    """An import as far as the item needs it, or an empty text."""
    names, alias = NAMES.fullmatch(line), ALIAS.fullmatch(line)
    if names:
        kept = [it for it in names[2].split(", ") if "◌" in it or is_word_of(it.split()[-1], item)]
        return f"{names[1]}{{{', '.join(kept)}}};" if kept else ""
    return "" if alias and not re.search(rf"\b{alias[1]}\.", item) else line


def is_word_of(name, text):
    return bool(re.search(rf"(?<!\w){re.escape(name)}(?!\w)", text))
