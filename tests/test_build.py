#!/usr/bin/env python3
"""Tests of what is kept of runs that are broken off and begun again: scripts/build.py, and the proofs of gate.py, over a kit that
proves nothing and tells what it was asked to prove.

    test_build.py

The last line is 'N passed, M failed', and the status is 0 only where none failed.
"""
import os
import re
import shutil
import signal
import subprocess
import sys
import tempfile
import time

from run_rows import TOP

# A stand-in for the kit's bin/rt: it 'proves' the crates of crates.txt in their order, and writes each one's name into the file
# 'asked'. At the crate whose name the file 'stops' has it waits. A library is made of the crate's own text and of those below.
RT = '''\
#!/usr/bin/env python3
import hashlib, os, shutil, sys, time, types
HERE = os.path.dirname(os.path.dirname(os.path.realpath(__file__)))

def text_of(path):
    if not os.path.isfile(path):
        return ""
    with open(path, "rb") as file:
        return file.read().decode("latin-1")

class Crate:
    allowed = ()
    out = sys.stdout

    def __init__(self, row, known):
        self.name, uses = row.split(":")
        self.said, self.folder = {"deps": uses.split()}, os.path.abspath(f"crates/{self.name}")
        self.deps = [known[it] for it in uses.split()]
        self.rlib = f"{self.folder}/out/rlib/{self.name}.rlib"

    def makes_rlib(self):
        return self.name != "top"

    def below(self):
        return list(dict.fromkeys(it for dep in self.deps for it in [*dep.below(), dep]))

    def stamp(self):
        return ""

    def ci(self, flags, tests):
        with open(f"{HERE}/asked", "a") as file:
            file.write(f"{self.name}\\n")
        if text_of(f"{HERE}/stops") == self.name:
            with open(f"{HERE}/waits", "w") as file:
                file.write(str(os.getpid()))
            time.sleep(60)
        made = self.rlib if self.makes_rlib() else f"{self.folder}/out"
        os.makedirs(made)
        with open(f"{made}/{'lib' if self.makes_rlib() else 'top'}", "w") as file:
            file.write(text_of(f"{self.folder}/src/lib.rt") + "".join(text_of(f"{it.rlib}/lib") for it in self.deps))
        return 0

rtlib = types.SimpleNamespace(Crate=Crate, guarded=list, sum_of=lambda it: hashlib.sha256(text_of(it).encode()).hexdigest())
rtlib.files_of = lambda folder: [f"{folder}/src/lib.rt"]

def need(crate):
    return 1

def main(words):
    if words == ["doc"]:
        print(f"{HERE}/START-HERE.md")
        return 0
    known = {}
    for row in open("crates.txt"):
        crate = Crate(row, known)
        known[crate.name] = crate
        shutil.rmtree(f"{crate.folder}/out", ignore_errors=True)
        crate.ci([], False)
        print(f"rt: {crate.name} proved", flush=True)
    print(f"{len(known)} passed, 0 failed")
    return 0

if __name__ == "__main__":
    sys.exit(main(sys.argv[1:]))
'''
# The gate's part that proves, without its rows.
PROOFS_OF_GATE = """\
import sys
sys.path.insert(0, "tests")
import gate
def main():
    passed, failed = gate.proofs(sys.argv[1])
    gate.finish()
    return failed
sys.exit(gate.told_if_broken_off(main))
"""
ROWS = "low:\nmiddle: low\nother:\ntop: low middle other\n"


class Tree:
    """A repository of four crates in a folder, and the kit."""

    def __init__(self, folder):
        self.top, self.kit = os.path.join(folder, "top"), os.path.join(folder, "kit")
        self.write("top/crates.txt", ROWS)
        self.write("top/HANDLES", "Handles allowed: none.\n")
        for name in ("low", "middle", "other", "top"):
            self.write(f"top/crates/{name}/src/lib.rt", f"// {name}\n")
        for name in ("scripts", "tests"):
            shutil.copytree(os.path.join(TOP, name), self.path(f"top/{name}"))
        for name, text in (("WHAT", "kit"), ("KIT-ID", "kit"), ("bin/rtlib.py", ""), ("bin/rt", RT)):
            self.write(f"kit/{name}", text)
        os.chmod(os.path.join(self.kit, "bin", "rt"), 0o755)

    def path(self, name):
        return os.path.join(os.path.dirname(self.top), name)

    def write(self, name, text):
        os.makedirs(os.path.dirname(self.path(name)), exist_ok=True)
        with open(self.path(name), "w", encoding="utf-8") as file:
            file.write(text)

    def read(self, name):
        with open(self.path(name), encoding="utf-8") as file:
            return file.read()

    def start(self, script, *words):
        """Starts a script over the kit, after what earlier runs told and made is gone."""
        for name in ("kit/asked", "kit/waits", "top/build/top"):
            if os.path.exists(self.path(name)):
                os.remove(self.path(name))
        command = [sys.executable, "-B", *script, os.path.join(self.kit, "bin", "rt"), *words]
        how = {"stdout": subprocess.PIPE, "stderr": subprocess.STDOUT, "text": True, "start_new_session": True}
        # (a run that is killed leaves its copy behind)
        # (where this test runs in the background, Ctrl-C is ignored, by what it starts too)
        how["preexec_fn"] = lambda: signal.signal(signal.SIGINT, signal.SIG_DFL)
        return subprocess.Popen(command, cwd=self.top, env={**os.environ, "TMPDIR": os.path.dirname(self.top)}, **how)

    def build(self):
        return self.start((self.path("top/scripts/build.py"), "--rt"), "top", self.path("top/build/top"))

    def gate(self):
        return self.start(("-c", PROOFS_OF_GATE))

    def broken_off(self, start, at, by):
        """Breaks a run off while it proves this crate. Returns what was asked for, its status, and whether the kit's command has
        ended."""
        self.write("kit/stops", at)
        with start() as run:
            wait_for(lambda: os.path.exists(self.path("kit/waits")) and self.read("kit/waits"))
            run.send_signal(by)
            run.communicate()
        self.write("kit/stops", "")
        has_ended = wait_for(lambda: not os.path.exists(f"/proc/{self.read('kit/waits')}"))
        return self.read("kit/asked").split(), run.returncode, has_ended

    def counted(self):
        """Lets the proofs of the gate come to their end. Returns which crates were proved in it."""
        with self.gate() as run:
            said = run.communicate()[0]
        if run.returncode or "4 passed, 0 failed" not in said:
            print(said, end="")
            return None
        return self.read("kit/asked").split()

    def whole(self):
        """Lets a run come to its end. Returns which crates were proved in it, and which by an earlier one."""
        with self.build() as run:
            said = run.communicate()[0]
        earlier = re.findall(r"^\d of 4 crates, \d+ min \d\d s: (\w+) is proved, by an earlier run$", said, re.M)
        if run.returncode or not os.path.exists(self.path("top/build/top")):
            print(said, end="")
            return None, None
        return self.read("kit/asked").split(), earlier


def wait_for(holds):
    """Whether this holds within 20 seconds."""
    end = time.monotonic() + 20
    while not holds() and time.monotonic() < end:
        time.sleep(0.02)
    return bool(holds())


def run_tests():
    """Runs all tests, and returns how many passed and failed."""
    passed = failed = 0

    def wants(name, found, wanted):
        nonlocal passed, failed
        passed, failed = passed + (found == wanted), failed + (found != wanted)
        if found != wanted:
            print(f"{name}: {found}, and not {wanted}")

    with tempfile.TemporaryDirectory(prefix="build-test-") as folder:
        tree = Tree(folder)
        kept = lambda name: f"top/build/proved/{name}"
        wants("broken off by Ctrl-C", tree.broken_off(tree.build, "middle", signal.SIGINT), (["low", "middle"], 130, True))
        wants("begun again", tree.whole(), (["middle", "other", "top"], ["low"]))
        wants("with nothing changed", tree.whole(), (["top"], ["low", "middle", "other"]))
        shutil.rmtree(tree.path("top/build"))
        wants("broken off by force", tree.broken_off(tree.build, "other", signal.SIGKILL), (["low", "middle", "other"], -9, True))
        wants("begun again after that", tree.whole(), (["other", "top"], ["low", "middle"]))
        tree.write("top/crates/low/src/lib.rt", "// lower\n")
        wants("a crate that was edited", tree.whole(), (["low", "middle", "top"], ["other"]))
        tree.write("top/crates.txt", ROWS.replace("other:", "other: low"))
        wants("a crate with another line", tree.whole(), (["other", "top"], ["low", "middle"]))
        os.truncate(tree.path(kept("low.zip")), 40)
        wants("a library that is cut off", tree.whole(), (["low", "top"], ["middle", "other"]))
        os.remove(tree.path(kept("middle.zip")))
        wants("a mark with no library", tree.whole(), (["middle", "top"], ["low", "other"]))
        os.remove(tree.path(kept("other.mark")))
        wants("a library with no mark", tree.whole(), (["other", "top"], ["low", "middle"]))
        shutil.copy(tree.path(kept("low.zip")), tree.path(kept("middle.zip")))
        wants("the library of another crate", tree.whole(), (["middle", "top"], ["low", "other"]))
        wants("the gate, which takes nothing of a build", tree.counted(), ["low", "middle", "other", "top"])
        wants("a build after the gate", tree.whole(), (["top"], ["low", "middle", "other"]))
        wants("the gate, broken off", tree.broken_off(tree.gate, "other", signal.SIGTERM), (["low", "middle", "other"], 130, True))
        wants("the gate, begun again", tree.counted(), ["other", "top"])
        wants("the gate after its count", tree.counted(), ["low", "middle", "other", "top"])
        tree.write("kit/WHAT", "another")
        wants("another kit", tree.whole(), (["low", "middle", "other", "top"], []))
        tree.write("kit/bin/rt", RT.replace("class Crate:", "Kept = True\n\nclass Crate:"))
        wants("a kit that keeps by itself", tree.whole(), (["low", "middle", "other", "top"], []))
        wants("the same, broken off by force", tree.broken_off(tree.build, "other", signal.SIGKILL), (["low", "middle", "other"], -9, True))
    return passed, failed


def main():
    passed, failed = run_tests()
    print(f"{passed} passed, {failed} failed")
    return 1 if failed else 0


if __name__ == "__main__":
    sys.exit(main())
