"""One check of many crates, so that what each check begins with is done once for all of them.

Each of the crates is given to the prover as a library in source, under another name. So it can stand beside the library of its own
name that was built of it, which another of them may name. What the check says is told apart again, crate by crate, as if each had
been checked by itself.
"""
import collections
import os
import re
import shutil
import subprocess
import tempfile
from dataclasses import dataclass

# The crate that is checked, which has nothing of its own, and what comes before the names of the others.
ROOT, BEFORE = "together", "tried_"
IS_TEXT = (".rt", ".antt")
# An error of the language, with which no proof is tried.
STOPS = re.compile(r"(?:\./)?src/\S+\.rt:\d+:\d+: error")
# What the last line begins with where a check went through.
WENT_THROUGH = "only="


@dataclass(eq=False)
class Question:
    """What is asked of a crate: with these texts, where they are other than its files' and None is for a file that goes, what
    becomes of the functions of these paths. The weight tells about how many processor seconds that takes."""

    crate: object
    texts: dict
    paths: list
    flags: tuple
    weight: float = 0

    def goes_beside_others(self):
        return not (self.crate.is_program or self.crate.is_static)


@dataclass
class Answer:
    """What a check says of a crate, and whether it went through."""

    lines: list
    went_through: bool


def went_through(status, lines):
    return status in (0, 1) and bool(lines) and lines[-1].startswith(WENT_THROUGH)


def answered(kit, questions, flags):
    """The answer to each of these questions, which have the same flags. Where one's crate has an error that stops the check, the
    others are asked again without it, and where none is known to have one, in halves."""
    if not questions:
        return {}
    named = {f"{BEFORE}{at}_{it.crate.name}": it for at, it in enumerate(questions)}
    status, lines = check(kit, named, flags)
    is_whole, told = went_through(status, lines), told_apart(lines, {name: it.crate.name for name, it in named.items()})
    if is_whole or len(questions) == 1:
        return {it: Answer([*told[name], lines[-1]], is_whole) for name, it in named.items()}
    stopped = {it: Answer(told[name], False) for name, it in named.items() if any(map(STOPS.match, told[name]))}
    left = [it for it in questions if it not in stopped]
    if stopped and left:
        return {**stopped, **answered(kit, left, flags)}
    half = len(questions) // 2
    return {**answered(kit, questions[:half], flags), **answered(kit, questions[half:], flags)}


def check(kit, named, flags):
    """Checks the crates of these questions under these names, and returns the status and the lines of what is said."""
    with tempfile.TemporaryDirectory(prefix="wrong-together-") as room:
        os.makedirs(f"{room}/src")
        with open(f"{room}/src/lib.rt", "w", encoding="utf-8") as root:
            root.write("#![tactic(auto)]\n")
        for name, it in named.items():
            write(kit, it, name, f"{room}/{name}")
        ran = run(kit, [*words_for(kit, named, room), *flags, *paths_of(named)], room)
    names = ", ".join(dict.fromkeys(it.crate.name for it in named.values()))
    count = sum(len(it.paths) for it in named.values())
    print(f"a check of {count} bodies and laws of {names}: {ran.seconds:.0f} processor seconds", flush=True)
    return ran.returncode, ran.stdout.replace(f"{room}/", "").rstrip("\n").split("\n")


def write(kit, question, name, folder):
    """Writes the crate with the texts of the question, and with this name where it names itself."""
    for part in kit.rtlib.PARTS:
        if os.path.isdir(f"{question.crate.folder}/{part}"):
            shutil.copytree(f"{question.crate.folder}/{part}", f"{folder}/{part}")
    write_texts(folder, question.texts)
    own = re.compile(rf"\bRattle\.{question.crate.name}\b")
    for at, _, files in os.walk(folder):
        for file in (it for it in files if it.endswith(IS_TEXT)):
            with open(f"{at}/{file}", encoding="utf-8") as it:
                text = it.read()
            if own.search(text):
                with open(f"{at}/{file}", "w", encoding="utf-8") as it:
                    it.write(own.sub(f"Rattle.{name}", text))


def write_texts(folder, texts):
    """Writes these texts. A text's folder may be new, and a file with None for a text goes."""
    for path, text in texts.items():
        os.makedirs(os.path.dirname(f"{folder}/{path}"), exist_ok=True)
        if text is None:
            os.remove(f"{folder}/{path}")
            continue
        with open(f"{folder}/{path}", "w", encoding="utf-8") as it:
            it.write(text)


def words_for(kit, named, room):
    """The words of a check of these questions' crates under these names, with the libraries that any of them stands on."""
    lib, crates = kit.rtlib.KIT, list(dict.fromkeys(it.crate for it in named.values()))
    of_kit = sorted({it for crate in crates for it in crate.of_kit})
    built = {it: f"{lib}/rlibs/{it}.rlib" for it in of_kit} | {dep.name: dep.rlib for crate in crates for dep in crate.deps}
    below = dict.fromkeys(os.path.dirname(it.rlib) for crate in crates for it in crate.below())
    words = ["--crate-name", ROOT, "src/lib.rt"]
    words += [word for name, made in built.items() for word in ("--extern", f"{name}={made}")]
    words += [word for it in (f"{lib}/rlibs", *below) for word in ("-L", f"dependency={it}")]
    for name, it in named.items():
        uses = dict.fromkeys([*it.crate.of_kit, *(dep.name for dep in it.crate.deps)])
        words += ["--lib", f"{name}:{','.join(uses)}={room}/{name}/src/lib.rt"]
    return [*words, "--antt-project", f"{lib}/rattle/logic/antt-project.json", "--logic-built", f"{lib}/logic_built"]


def paths_of(named):
    return [word for name, it in named.items() for path in it.paths for word in ("--only", "::".join([name, *path]))]


def run(kit, words, folder):
    """Runs the prover's check in a folder: what it says, its status and the processor time that it took."""
    with tempfile.TemporaryFile("w+", errors="replace") as said:
        whole = [*kit.rtlib.guarded(), kit.rtlib.RATTLE, "check", *words]
        ran = subprocess.Popen(whole, cwd=folder, stdin=subprocess.DEVNULL, stdout=said, stderr=said)
        _, status, used = os.wait4(ran.pid, 0)
        ran.returncode = os.waitstatus_to_exitcode(status)
        said.seek(0)
        made = subprocess.CompletedProcess(words, ran.returncode, said.read())
        made.seconds = used.ru_utime + used.ru_stime
        return made


def told_apart(lines, crates):
    """The lines that are of each of these crates, by its name in the check, with the name that it has else in them. A line that names
    none goes with the one above."""
    found, now = collections.defaultdict(list), None
    either = "|".join(sorted(crates, key=len, reverse=True))
    own, place = re.compile(rf"\b({either})\b"), re.compile(rf"(?:\w+: )?(?:\./)?(({either})/)(?:src|specs|proofs)/")
    line_of = re.compile(rf"fn ({either})::")
    for line in lines:
        of_place, of_line = place.match(line), line_of.match(line)
        now = of_place[2] if of_place else of_line[1] if of_line else now
        rest = line[: of_place.start(1)] + line[of_place.end(1) :] if of_place else line
        found[now].append(own.sub(lambda it: crates[it[1]], rest))
    return found


def in_groups(questions, most):
    """The questions in as few groups as weigh this at most, more or less, each of some that stand beside one another: those know the
    same crates. Those of one group have the same flags."""
    groups = []
    for flags in dict.fromkeys(it.flags for it in questions):
        beside = [it for it in questions if it.flags == flags and it.goes_beside_others()]
        weight, total = 0, sum(it.weight for it in beside)
        made = [[] for _ in range(max(1, -int(-total // most)))]
        for it in beside:
            made[min(int((weight + it.weight / 2) * len(made) / (total or 1)), len(made) - 1)].append(it)
            weight += it.weight
        groups += [*filter(None, made), *([it] for it in questions if it.flags == flags and not it.goes_beside_others())]
    return groups
