#!/usr/bin/env python3
"""Looks for the specifications and items that take the program the most time or memory for each byte, by mutation.

    worst.py PROGRAM [--minutes N] [--seed S] [--specifications | --items] [--kept FOLDER]

A candidate is a tree, whose parts stand once or as often as the scale says, in a row or in each other; so it is written at any size.
A candidate is rated at up to 4 KiB: 'check' reads a specification, and 'validate' or 'rewrite --deterministic' an item, with few steps.
Where it is near the worst, or by chance, it is rated at twice or eight times the scale too. There are four sorts of the worst: by the
processor time and by the memory for each byte, over what an empty input takes, and by the growth of both at twice the bytes. Those that
are kept are changed again. The same seed makes the same candidates as long as the same are kept, but times differ from run to run.
(Instructions would not, but valgrind takes a second to count those of a run of 5 ms.)

A signal is told at once, and its input is left in the folder --kept. At the end the worst of each sort are made as small as they get,
left there, and told: as a text and an item in hex at a small scale, with what they take at the larger of 64 and 128 KiB, and the
growth between these. A growth of over 2.3 is more than that of n log n. It needs a C compiler (tests/worst.c), runs nicely on one
core, and is no part of the gate. The status is 1 where a signal ended a run.
"""
import argparse
import dataclasses
import json
import math
import os
import random
import resource
import signal
import struct
import subprocess
import sys
import tempfile
import time

from run_rows import TOP, spec_of
from worst_inputs import (
    ITEM, ITEMS, SPECIFICATION, SPECIFICATIONS, Node, changed, is_scaled, items_of, leaves_of, nodes_of, parts_at, text_of, tree_of, without_each)

KIB, MIB = 1 << 10, 1 << 20
SMALL, SHOWN_SIZES = 4 * KIB, (64 * KIB, 128 * KIB)
# What a run may take while it searches, and when it tells; and how long it is tried to make a candidate smaller.
SECONDS, SHOWN_SECONDS, ROOM, SHRINKING = 1, 10, 4096 * MIB, 10
# The larger scale: so many times the small one, and less where that took so many microseconds.
LARGER, LONG, LARGER_OF_LONG = 8, 40_000, 2
STEPS = "20000"
COMMANDS = {
    "check": ["check", "SPEC"],
    "validate": ["validate", "--steps", STEPS, "SPEC", "ITEM"],
    "rewrite": ["rewrite", "--deterministic", "--steps", STEPS, "SPEC", "ITEM"],
}
ANSWERS = {0: "taken", 1: "failed", 2: "refused", 3: "out of memory", -signal.SIGXCPU: "no answer"}
SORTS = ("time", "memory", "growth of time", "growth of memory")
MOST_GROWTH = 2.3
# Times in microseconds and memory below these are too little for a growth to be told from what is by chance.
LEAST_TIME, LEAST_ROOM = 300, 256 * KIB
# So many bytes are counted for a candidate beside its own: what is small is not the worst for what any run takes.
OWN_BYTES = 2 * KIB
KEPT, ALIKE, SHOWN, LONGEST_SEED = 24, 2, 6, 2 * KIB
# What candidates have in common that are alike: which of these are in them.
MARKS = {".size", ".bits", ".cbor", ".cborseq", ".and", ".within", ".cat", ".det", ".plus", ".default", ".ne", "//", "=>", "&", "~", "*", "?", "long"}


class Server:
    """The program with these words, run again and again by tests/worst.c."""

    def __init__(self, program, words, shim, folder, seconds):
        asked, self.asked = os.pipe()
        self.told, told = os.pipe()
        env = {"LD_PRELOAD": shim, "CDDLSEQ_ASKED": str(asked), "CDDLSEQ_TOLD": str(told), "CDDLSEQ_SECONDS": str(seconds)}
        self.process = subprocess.Popen(
            [program, *words], cwd=folder, env=env, pass_fds=(asked, told), stdin=subprocess.DEVNULL, stdout=subprocess.DEVNULL,
            stderr=subprocess.DEVNULL, preexec_fn=lambda: resource.setrlimit(resource.RLIMIT_AS, (ROOM, ROOM)))
        os.close(asked)
        os.close(told)

    def run(self):
        """Its status, or a signal below 0, its microseconds, and its most bytes of memory."""
        os.write(self.asked, b"x")
        status, micros, kib = struct.unpack("3Q", os.read(self.told, 24))
        return os.waitstatus_to_exitcode(status), micros, kib * KIB


@dataclasses.dataclass
class Candidate:
    command: str
    spec: Node
    item: Node | None
    scale: int = 1
    status: int = 0
    rates: dict = dataclasses.field(default_factory=dict)

    def trees(self):
        return [self.spec] + ([self.item] if self.item else [])

    def written(self, scale):
        return text_of(self.spec, scale).encode(), b"".join(items_of(self.item, scale)) if self.item else b""

    def is_within(self, scale, size):
        return sum(parts_at(it, scale) for it in self.trees()) <= size and sum(map(len, self.written(scale))) <= size

    def scale_within(self, size):
        """The greatest scale of 1, 2, 4, .. at which it has at most so many bytes; 0 where there is none."""
        found, scale = 0, 1
        while scale <= size and self.is_within(scale, size):
            found, scale = scale, 2 * scale
            if not any(map(is_scaled, self.trees())):
                break
        return found

    def marks(self):
        kinds = frozenset((it.kind, it.is_nested) for tree in self.trees() for it in nodes_of(tree) if it.times)
        return self.command, self.status, kinds, frozenset(it for tree in self.trees() for it in leaves_of(tree) if it in MARKS)

    def smaller(self):
        """What it is with one part less, for each of its parts."""
        for tree in without_each(self.spec):
            yield dataclasses.replace(self, spec=tree)
        for tree in without_each(self.item) if self.item else ():
            yield dataclasses.replace(self, item=tree)


class Search:
    def __init__(self, program, chance, folder, kept):
        self.program, self.folder, self.kept, self.chance = program, folder, kept, chance
        self.tried, self.signals, self.best = 0, 0, {it: [] for it in SORTS}
        self.shim = os.path.join(folder, "worst.so")
        subprocess.run(["cc", "-O1", "-shared", "-fPIC", "-o", self.shim, os.path.join(TOP, "tests", "worst.c")], check=True)
        self.start(SECONDS)
        self.floor = {name: (0, 0) for name in COMMANDS}
        for name in COMMANDS:
            empty = Candidate(name, tree_of("r = int"), Node("words", ["0"]))
            self.floor[name] = self.taken(empty, 1, 20)[1:]

    def start(self, seconds):
        self.servers = {name: Server(self.program, words, self.shim, self.folder, seconds) for name, words in COMMANDS.items()}

    def run(self, candidate, scale):
        """The bytes that it has at this scale, and the microseconds and the bytes of memory that it takes."""
        written = candidate.written(scale)
        for name, content in zip(("SPEC", "ITEM"), written):
            with open(os.path.join(self.folder, name), "wb") as file:
                file.write(content)
        candidate.status, micros, room = self.servers[candidate.command].run()
        size = sum(map(len, written))
        if candidate.status not in ANSWERS:
            self.signals += 1
            self.save(candidate, scale, f"signal{self.signals}")
            print(f"signal {-candidate.status} of {candidate.command}, {size} bytes: signal{self.signals}", flush=True)
        return size, micros, room

    def taken(self, candidate, scale, runs):
        """The bytes, and over what an empty input takes the least time of some runs and their least memory."""
        told = [self.run(candidate, scale) for _ in range(runs)]
        size, micros, room = map(min, zip(*told))
        return size, max(1, micros - self.floor[candidate.command][0]), max(1, room - self.floor[candidate.command][1])

    def rate(self, candidate, runs):
        """Fills in what it takes for each byte at a small size."""
        size, micros, room = taken = self.taken(candidate, candidate.scale, runs)
        candidate.rates = {"time": micros / (size + OWN_BYTES), "memory": room / (size + OWN_BYTES)}
        return taken

    def rate_growth(self, candidate, size, micros, room):
        """Fills in how that grows at twice the bytes, where it has more at a larger scale."""
        scale = candidate.scale * (LARGER if micros < LONG else LARGER_OF_LONG)
        if not candidate.is_within(scale, 2 * LARGER * SMALL):
            return
        larger, more_micros, more_room = self.taken(candidate, scale, 1)
        if larger > 1.5 * size:
            twice = math.log2(larger / size)
            if more_micros > LARGER * LEAST_TIME:
                candidate.rates["growth of time"] = (more_micros / max(micros, LEAST_TIME)) ** (1 / twice)
            if more_room > LARGER * LEAST_ROOM:
                candidate.rates["growth of memory"] = (more_room / max(room, LEAST_ROOM)) ** (1 / twice)

    def is_near(self, candidate, sort):
        return len(self.best[sort]) < KEPT or candidate.rates[sort] > 0.7 * self.best[sort][-1].rates[sort]

    def try_it(self, candidate):
        """Rates a candidate, and keeps it where it is among the worst of a sort, with few that are like it."""
        candidate.scale = candidate.scale_within(SMALL)
        if not candidate.scale:
            return
        self.tried += 1
        self.rate(candidate, 1)
        if any(self.is_near(candidate, it) for it in ("time", "memory")) or self.chance.random() < 0.2:
            self.rate_growth(candidate, *self.rate(candidate, 2))
        if candidate.item and ANSWERS.get(candidate.status) == "refused":
            return
        for sort, rate in candidate.rates.items():
            alike = [it for it in self.best[sort] if it.marks() == candidate.marks()]
            if len(alike) < ALIKE or rate > alike[-1].rates[sort]:
                others = [it for it in self.best[sort] if len(alike) < ALIKE or it is not alike[-1]]
                self.best[sort] = sorted([*others, candidate], key=lambda it: -it.rates[sort])[:KEPT]

    def step(self, seeds):
        """Changes one of those that were kept, or a seed."""
        chance = self.chance
        lists = [it for it in self.best.values() if it]
        parent = chance.choice(chance.choice(lists) if lists and chance.random() < 0.9 else seeds)
        other = chance.choice(chance.choice([*lists, seeds]))
        child = dataclasses.replace(parent, rates={})
        if child.item and chance.random() < 0.7:
            child.item = changed(chance, child.item, ITEM, other.item)
            child.command = chance.choice(("validate", "validate", "rewrite"))
        else:
            child.spec = changed(chance, child.spec, SPECIFICATION, other.spec)
        self.try_it(child)

    def least(self, candidate, sort):
        """What is nearly as bad with as few parts as it takes."""
        most, until, is_less = candidate.rates[sort], time.monotonic() + SHRINKING, True
        while is_less and time.monotonic() < until:
            is_less = False
            for less in candidate.smaller():
                less.scale = less.scale_within(SMALL)
                if less.scale and time.monotonic() < until:
                    taken = self.rate(less, 2)
                    if sort.startswith("growth"):
                        self.rate_growth(less, *taken)
                    if less.rates.get(sort, 0) > 0.85 * most and (not less.item or less.status != 2):
                        candidate, is_less = less, True
                        break
        return candidate

    def save(self, candidate, scale, name):
        os.makedirs(self.kept, exist_ok=True)
        for content, ending in zip(candidate.written(scale), ("cddl", "cborseq")):
            if content:
                with open(os.path.join(self.kept, f"{name}.{ending}"), "wb") as file:
                    file.write(content)

    def tell(self, candidate, sort, name):
        """Prints what it is and what it takes at two sizes, and returns whether a growth is too much."""
        self.save(candidate, candidate.scale, name)
        told = [self.taken(candidate, candidate.scale_within(size) or candidate.scale, 2) for size in SHOWN_SIZES]
        (small, time_1, room_1), (large, time_2, room_2) = told
        twice = math.log2(large / small)
        growth, growth_of_room = ((time_2 / time_1) ** (1 / twice), (room_2 / room_1) ** (1 / twice)) if twice > 0.5 else (0, 0)
        spec, item = candidate.written(3)
        print(f"{name} ({sort} {candidate.rates[sort]:.2f}), {candidate.command}, {ANSWERS.get(candidate.status, 'a signal')}: {large} bytes, "
              f"{time_2 / 1e6:.3f} s, growth {growth:.2f}; {room_2 / MIB:.1f} MiB, growth {growth_of_room:.2f}, {room_2 / large:.0f} a byte\n"
              f"    {spec.decode()[:300]!r}" + (f" {item.hex()[:120]}" if item else ""), flush=True)
        return growth > MOST_GROWTH and time_2 > 50_000 or growth_of_room > MOST_GROWTH and room_2 > 8 * MIB


def seeds_of(kind):
    """The candidates to begin with: shapes that are known to be bad, and for specifications also those of the rows."""
    if kind == "items":
        return [Candidate("validate", spec, item) for spec, item in ITEMS]
    with open(os.path.join(TOP, "tests", "rows.json"), encoding="utf-8") as file:
        texts = [spec_of(row) for row in json.load(file)]
    found = {it.decode() for it in texts if it and len(it) <= LONGEST_SEED and it.isascii()}
    return [Candidate("check", it, None) for it in SPECIFICATIONS + [tree_of(it) for it in sorted(found)]]


def searched(search, kind, minutes):
    """Searches for so long, and tells every five minutes how far it is."""
    seeds = seeds_of(kind)
    began = told = time.monotonic()
    for seed in seeds:
        search.try_it(seed)
    while time.monotonic() < began + 60 * minutes:
        search.step(seeds)
        if time.monotonic() > told + 300:
            told = time.monotonic()
            worst = ", ".join(f"{sort} {best[0].rates[sort]:.2f}" for sort, best in search.best.items() if best)
            print(f"{kind}: {search.tried} tried, {worst}", flush=True)


def tell_worst(search, kind):
    """Tells the worst of each sort, and returns how many grow by too much."""
    print(f"{kind}: {search.tried} tried", flush=True)
    worst = [(sort, number, search.least(it, sort)) for sort, best in search.best.items() for number, it in enumerate(best[:SHOWN])]
    search.start(SHOWN_SECONDS)
    return sum(search.tell(it, sort, f"{kind}-{sort.replace(' ', '-')}-{number + 1}") for sort, number, it in worst)


def main():
    words = argparse.ArgumentParser(description="Looks for the inputs that take the most for each byte.")
    words.add_argument("program")
    words.add_argument("--minutes", type=float, default=60, help="how long it searches, before what it found is made small and told")
    words.add_argument("--seed", type=int, default=0)
    words.add_argument("--specifications", action="store_true", help="only these")
    words.add_argument("--items", action="store_true", help="only these")
    words.add_argument("--kept", default="build/worst", metavar="FOLDER", help="where the inputs that were found are left")
    words = words.parse_args()
    os.nice(15)
    kinds = [it for it in ("specifications", "items") if getattr(words, it)] or ["specifications", "items"]
    signals = growing = 0
    with tempfile.TemporaryDirectory(dir="/dev/shm" if os.path.isdir("/dev/shm") else None) as folder:
        for kind in kinds:
            search = Search(os.path.abspath(words.program), random.Random(f"{kind} {words.seed}"), folder, words.kept)
            searched(search, kind, words.minutes / len(kinds))
            growing += tell_worst(search, kind)
            signals += search.signals
    print(f"{signals} signals, and {growing} of those told grow by over {MOST_GROWTH}")
    return 1 if signals else 0


if __name__ == "__main__":
    sys.exit(main())
