"""What is known of edits that are refused, from earlier runs and for later ones: by a sum of all that a refusal rests on."""
import hashlib
import os

TOP = os.path.dirname(os.path.dirname(os.path.abspath(__file__)))
# The files of the script that tries edits.
SCRIPT = ("bare_lemmas.py", "functions.py", "law_copies.py", "recursion.py", "refused.py", "together.py", "unreached.py", "wrong_edits.py")
# What tells one kit from another.
OF_KIT = ("WHAT", "KIT-ID", "bin/rt", "bin/rtlib.py")
# What was refused, where the kit keeps nothing.
REFUSED_HERE = f"{TOP}/build/refused"


def sum_of_script():
    return [hashlib.sha256(open(f"{TOP}/tests/{it}", "rb").read()).hexdigest() for it in SCRIPT]


class ResultsOfKit:
    """What earlier runs on this machine were told of edits that are refused, in a kit that keeps such results."""

    def __init__(self, kit, crates, anew):
        self.kit, self.stamps, self.script = kit, {}, sum_of_script()
        self.kept = kit.Kept(crates, anew)

    def name(self, crate, path):
        sum = hashlib.sha256(repr((self.script, self.kit.stamp_of(crate, self.stamps))).encode()).hexdigest()
        return self.kept.of_edit(path, sum)

    def of(self, crate, path):
        """What an earlier run was told of this edit, or None."""
        found = self.kept.tried(self.name(crate, path))
        return found[1] if found and found[0] == self.kit.REFUSED else None

    def keep(self, crate, told):
        """Keeps what was told of each of these edits, which are refused, unless a file that they rest on was changed meanwhile."""
        if all(map(self.kept.is_untouched, [crate, *crate.below()])):
            for path, text in told.items():
                self.kept.keep_tried(self.name(crate, path), self.kit.REFUSED, text)


class ResultsHere:
    """The same in a folder of this checkout, for a kit that keeps none: of each edit a file with what was told of it."""

    def __init__(self, kit, crates, anew):
        self.lib, self.anew, self.files = kit.rtlib, anew, {}
        self.rest = sum_of_script(), [self.lib.sum_of(f"{self.lib.KIT}/{it}") for it in OF_KIT]
        self.made_of = {it.name: self.files_of(it) for it in crates}

    def files_of(self, crate):
        return crate.said, [(it, self.lib.sum_of(it)) for it in self.lib.files_of(crate.folder)]

    def of(self, crate, path):
        with open(path, "rb") as edit:
            whole = self.rest, [self.made_of[it.name] for it in [*crate.below(), crate]], path, edit.read()
        self.files[path] = f"{REFUSED_HERE}/{hashlib.sha256(repr(whole).encode()).hexdigest()}"
        return None if self.anew else self.lib.text_of(self.files[path])

    def keep(self, crate, told):
        if any(self.made_of[it.name] != self.files_of(it) for it in [*crate.below(), crate]):
            return
        os.makedirs(REFUSED_HERE, exist_ok=True)
        for path, text in told.items():
            with open(f"{self.files[path]}.part", "w", encoding="utf-8") as file:
                file.write(text)
            os.replace(f"{self.files[path]}.part", self.files[path])


def results_of(kit, crates, anew):
    """What is known of edits that are refused, from earlier runs and for later ones."""
    keeps = all(hasattr(kit, it) for it in ("Kept", "stamp_of", "REFUSED"))
    return ResultsOfKit(kit, crates, anew) if keeps else ResultsHere(kit, crates, anew)
