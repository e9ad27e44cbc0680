#!/usr/bin/env python3
"""Measures the built program on specifications of two sizes, one twice the other, on a stream of small arrays, on large
maps, and on byte strings that hold items.

    specifications.py PROGRAM

'PROGRAM check' reads each specification a few times, the two sizes and an empty one taking turns, and the least processor
time of each counts; what the empty one costs is taken off. Where the growth is out of bounds they are read again, and the
least of all counts, since a processor may be slow for seconds. The columns: the speed on the larger specification, in MiB/s,
the growth of the processor time from the smaller one to the larger, which is 2 where the cost grows with the size
alone, and the peak memory on the larger one for each of its bytes. Then 'PROGRAM validate' reads a stream of arrays
of some 100 bytes against a specification that asks about each item in them, and against 'any', by turns; the ratio of
the least processor time of the one to that of the other is printed. So is that for byte strings against 20,000 sizes
that none of them has to that against two. Then it reads streams of maps with 100,000 and with 200,000 pairs in the same
way as the arrays. The columns: that ratio for the larger maps, the growth of the processor time, and the peak memory for
each pair of a map, with the specification and with 'any'. Maps whose keys are literals of the specification are read so,
too, by 1,000 pairs against 1,000 keys, and by 10,000 and 20,000 pairs against 16,383. Numbers and texts, each one of a choice
of 1,000, are read against that, and as many that are all the same against this one.

A stream of messages with one signature, whose protected headers are in a byte string, is read against the
specification in examples/cose_sign1.cddl and against 'any', as the arrays are. The last streams are byte strings of two
sizes: one with a large array in it, one with a sequence of many items, and 60, since one takes no longer than the program's
start, with a string in a string and so on, 64 levels of them. The columns: the ratio of the processor time for the larger one
to that for a stream of what is read in it, against 'any'; the growth of the processor time; and the peak memory for each byte
of the item.

The status is 1 where a specification is not answered as expected, where its growth or that for a byte string is
outside 1.4 to 2.8, where the ratio for arrays is over 1.3 or one for sizes, maps or messages over 2, where the growth for
maps is outside 1.4 to 3.4 (more keys than the processor's caches hold take longer each), or where the specification
takes over 64 bytes for a pair more than 'any'. So it is where the ratio for literal keys is over 3, or their growth over 3.4; and where
that for a choice of literals is over 2.
"""
import argparse
import os
import subprocess
import sys
import tempfile

from run import peak
from streams import encoded, head, map_of_numbers, map_of_texts

KIB = 1 << 10
SIZES = 256 * KIB, 512 * KIB
RUNS, MOST_ROUNDS = 3, 5
LEAST, MOST = 1.4, 2.8
MOST_RATIO = 1.3
MESSAGES = 40_000
PAIRS = 100_000, 200_000
MAPS_AT_A_TIME = 4
MOST_MAP_RATIO, MOST_MAP_GROWTH, MOST_BYTES_A_PAIR = 2, 3.4, 64
KEYS, MAPS_OF_KEYS, MOST_KEYS_RATIO = 1000, 1000, 3
MOST_KEYS, PAIRS_OF_KEYS = 16_383, (10_000, 20_000)
LITERALS, LISTS_OF_LITERALS, MOST_LITERALS_RATIO = 1000, 1000, 2
COSE = os.path.join(os.path.dirname(os.path.dirname(os.path.abspath(__file__))), "examples", "cose_sign1.cddl")
MOST_COSE_RATIO = 2
LEVELS = 64
STRINGS, MEMBERS, MOST_SIZES_RATIO = 2_000_000, 20_000, 2
ACCEPTED = "accepted\n"


def filled(front, unit, back, size):
    """A text of about this size: the unit with the numbers from 0 on in the place of N, and M for the number after; behind
    them N is the next number."""
    parts, length, count = [front], len(front) + len(back), 0
    while length < size:
        part = unit.replace("M", str(count + 1)).replace("N", str(count))
        parts.append(part)
        length += len(part)
        count += 1
    return "".join(parts) + back.replace("N", str(count))


def doubling(size):
    """A chain of generics whose arguments double at each step, as many as a size stands for."""
    steps = 500 * size // SIZES[0]
    rules = [f"a{n}<t> = [? a{n + 1}<[t, t]>]" for n in range(steps)]
    return "r = a0<int>\n" + "\n".join(rules) + f"\na{steps}<t> = [* int]\n"


GROUP = "g = (" + ", ".join(f"? key{n}: int" for n in range(20)) + ")\n"

SPECIFICATIONS = [
    ("rules that each refer to the next", "r = [a0]\n", "aN = [aM]\n", "aN = int\n", "refused: C10 TooManyInstances at byte 0\n"),
    ("rules that the root does not reach", "r = int\n", "aN = [aN, ? tstr]\n", "", ACCEPTED),
    ("a wide choice", "r = int", " / N", "\n", ACCEPTED),
    ("a wide array", "r = [int", ", N", "]\n", ACCEPTED),
    ("a wide choice of groups", "r = [int", " // N, int", "]\n", ACCEPTED),
    ("many rules of one name by /=", "r = int\n", "r /= [N]\n", "", ACCEPTED),
    ("many rules of one group by //=", "r = [* $$g]\n", "$$g //= (N)\n", "", ACCEPTED),
    ("as many arguments as may be", "r = [int", None, "]\np<t> = [t]\n", ACCEPTED),
    ("more arguments than may be", "r = [int", ", p<N>", "]\np<t> = [t]\n", "refused: C10 TooManyInstances at byte 0\n"),
    ("parentheses, 128 deep", "r = int", " / " + "(" * 128 + "N" + ")" * 128, "\n", ACCEPTED),
    ("arrays, 128 deep", "r = int", " / " + "[" * 128 + "N" + "]" * 128, "\n", ACCEPTED),
    ("names that are undefined", "r = [int", ", uN", "]\n", "refused: C3 Undefined at byte 10\n"),
    ("ranges and occurrences", "r = [int", ", N*M 1..M", "]\n", ACCEPTED),
    ("a choice by & from many entries", "r = &(x: int", ", kN: N", ")\n", ACCEPTED),
    ("a wide map", "r = {a: int", ', ? "the key with the number N" => N', "}\n", ACCEPTED),
    ("a map with too many entries", "r = {a: int", ", N: N", "}\n", "refused: C18 TooManyAlternatives at byte 4\n"),
    ("an entry without a key in a map", "r = {int", ", N: N", "}\n", "refused: C16 NoKey at byte 5\n"),
    ("groups that occur as they may not", "r = {a: 1", ", * (N: 1, b: 1)", "}\n", "refused: C17 MapShape at byte 11\n"),
    ("parentheses in a map, 120 deep", "r = {a: int", ", " + "(" * 120 + "N: 1" + ")" * 120, "}\n", ACCEPTED),
    ("many small maps", "r = [int", ", {a: N, ? b: tstr}", "]\n", ACCEPTED),
    ("maps, 128 deep", "r = int", " / " + "{a: " * 128 + "N" + "}" * 128, "\n", ACCEPTED),
    ("many maps with one group", "r = [int", ", {g, N: N}", f"]\n{GROUP}", ACCEPTED),
    ("many maps with a group that comes back", "r = [s]\ng = (a: 1, ? h)\nh = (b: 1, ? g)\ns = [int", ", {g, N: N}", "]\n",
     "refused: C17 MapShape at byte 19\n"),
    ("maps of 20 groups of two alternatives", "r = [int", ", {" + ", ".join(["(N: 1 // M: 1)"] * 20) + "}", "]\n",
     "refused: C18 TooManyAlternatives at byte 10\n"),
    ("sums", "r = [int", ", N .plus M", "]\n", ACCEPTED),
    ("joins", "r = [int", ', "key N" .cat "of M"', "]\n", ACCEPTED),
    ("joins that are no texts", "r = [int", ", \"N\" .cat h'ff'", "]\n", "refused: C15 BadController at byte 19\n"),
    ("sides that are no literals", "r = [int", ", N .plus tstr", "]\n", "refused: C13 NotLiteral at byte 18\n"),
    ("many members of one size", "r = bstr .size (0", " / N", ")\n", ACCEPTED),
    ("many sizes", "r = [int", ", bstr .size (N / M)", "]\n", ACCEPTED),
    ("many controls by one long controller", "r = int\ns = 0\n", "r /= (bstr / N) .size s\ns /= M0\n", "", ACCEPTED),
]


def texts():
    """Each specification's name, its answer, and its text for a size."""
    for name, front, unit, back, answer in SPECIFICATIONS:
        if unit is None:
            yield name, answer, repeated
        else:
            yield name, answer, lambda size, parts=(front, unit, back): filled(*parts, size)
    yield "arguments that double", ACCEPTED, doubling
    yield "a rule of many parameters", ACCEPTED, lambda size: generic(size, 1, "")
    yield "many parameters, not reached", ACCEPTED, lambda size: generic(size, 0, "")
    yield "sizes by parameters, eight times", ACCEPTED, lambda size: generic(size, 8, "bstr .size ")


def repeated(size):
    """1,000 different arguments, again and again."""
    uses = ", ".join(f"p<{n}>" for n in range(1000))
    return "r = [" + ", ".join([uses] * (size // len(uses))) + "]\np<t> = [t]\n"


def generic(size, calls, use):
    """A rule with as many parameters as a size stands for, each of them used once, and so many different calls of it."""
    count = size // (16 + len(use) + 3 * calls)
    parameters = [f"a{n}" for n in range(count)]
    given = "".join(f", p<{call}{', 0' * (count - 1)}>" for call in range(calls))
    return f"r = [int{given}]\np<{', '.join(parameters)}> = [{', '.join(use + name for name in parameters)}]\n"


def spent(words, answer=None):
    """The processor time of a run, and its most memory in bytes. Without an answer the stream has to be clean."""
    with tempfile.TemporaryFile("w+") as out:
        running = subprocess.Popen(words, stdout=out, stderr=subprocess.STDOUT, stdin=subprocess.DEVNULL)
        _, status, used = os.wait4(running.pid, 0)
        running.returncode = os.waitstatus_to_exitcode(status)
        out.seek(0)
        told = out.read(200)
    if told != answer if answer is not None else running.returncode:
        raise SystemExit(f"{' '.join(words)}: {told!r} where {answer or 'a clean stream'!r} was expected")
    return used.ru_utime + used.ru_stime, used.ru_maxrss * 1024


def check_all(program, folder):
    bad = False
    print(f"{'specification':36} {'MiB/s':>8} {'growth':>7} {'per byte':>9}")
    for name, answer, make in texts():
        paths = []
        for k, size in enumerate((None, *SIZES)):
            path = os.path.join(folder, f"s{k}.cddl")
            with open(path, "w", encoding="ascii") as file:
                file.write("r = int\n" if size is None else make(size))
            paths.append(path)
        times, peak = [float("inf")] * 3, 0
        for _ in range(MOST_ROUNDS):
            for k, path in [*enumerate(paths)] * RUNS:
                taken, memory = spent([program, "check", path], answer if k else ACCEPTED)
                times[k], peak = min(times[k], taken), max(peak, memory)
            small, large = (max(time - times[0], 1e-6) for time in times[1:])
            if LEAST <= (growth := large / small) <= MOST:
                break
        length, bad = os.path.getsize(paths[2]), bad or not LEAST <= growth <= MOST
        print(f"{name:36} {length / (1 << 20) / large:8.2f} {growth:7.2f} {peak / length:9.0f}", flush=True)
    return bad


def sizes(program, folder):
    """Strings of one byte against a list of even numbers, none of which is 1, and then against strings of any size."""
    path = written(folder, "strings.cborseq", b"\x41\0" * STRINGS)
    specifications = {}
    for count in (2, MEMBERS):
        members = " / ".join(str(2 * number) for number in range(1, count + 1))
        specifications[count] = written(folder, f"sizes{count}.cddl", f"r = bstr .size ({members}) / bstr\n")
    times, = least_times(program, specifications, [path])
    ratio = times[MEMBERS] / times[2]
    print(f"\n{STRINGS} strings against {MEMBERS} sizes: {ratio:.2f} times as long as against 2 sizes")
    return ratio > MOST_SIZES_RATIO


def message(number):
    """A record of a measurement, as an array of some 100 bytes."""
    samples = b"".join(encoded(number * 37 % 1009 + k) for k in range(24))
    return head(4, 28) + encoded(f"urn:dev:ow:10e2073a{number % 4096:08x}") + encoded("Cel") + encoded(number) + encoded(
        1_790_000_000 + number) + samples


def written(folder, name, content):
    """The path of a new file with this text or these bytes."""
    path = os.path.join(folder, name)
    with open(path, "wb") as file:
        file.write(content if isinstance(content, bytes) else content.encode())
    return path


def longer(path, parts):
    """The same file by a path with so many parts more."""
    folder, name = os.path.split(path)
    return os.path.join(folder, *["."] * parts, name)


def least_times(program, specifications, paths):
    """For each stream and each specification the least processor time of several runs, in turns: other work on the machine only
    adds to a time, so the least is the nearest. Each run names the stream by a longer path, since it lies with the length of what
    the program keeps first whether the C library gives its heap back to the system behind each item, and takes it anew."""
    times = [dict.fromkeys(specifications, float("inf")) for _ in paths]
    for run in range(4 * RUNS):
        for path, found in zip(paths, times):
            for name, specification in specifications.items():
                taken, _ = spent([program, "validate", specification, longer(path, 8 * run)])
                found[name] = min(found[name], taken)
    return times


def times_of_two(program, specifications, paths, name, most):
    """The same for two streams, measured again where the growth for this specification is out of bounds."""
    times = [dict.fromkeys(specifications, float("inf")) for _ in paths]
    for _ in range(MOST_ROUNDS):
        for found, again in zip(times, least_times(program, specifications, paths)):
            found.update({key: min(found[key], taken) for key, taken in again.items()})
        if LEAST <= times[1][name] / times[0][name] <= most:
            break
    return times


def arrays(program, folder):
    path = written(folder, "messages.cborseq", b"".join(map(message, range(MESSAGES))))
    specifications = {"any": written(folder, "any.cddl", "r = any\n"), "arrays": written(folder, "arrays.cddl", (
        "r = [name: tstr, unit: unit, number: uint, time: uint, * sample<uint>]\n"
        'unit = "Cel" / "%RH" / tstr\nsample<v> = (value: v)\n'))}
    times, = least_times(program, specifications, [path])
    ratio = times["arrays"] / times["any"]
    print(f"\n{MESSAGES} arrays of {os.path.getsize(path) // MESSAGES} bytes, each item asked about: {ratio:.2f} times 'any'")
    return ratio > MOST_RATIO


def maps(program, folder):
    # the least of the keys that the numbers are, so each of these entries has a pair
    literals = ", ".join(f"? {(1 << 20) + n} => uint" for n in range(20))
    any_item = written(folder, "any.cddl", "r = any\n")
    bad = False
    print(f"\n{'maps':44} {'to any':>7} {'growth':>7} {'a pair':>7} {'of any':>7}")
    for name, make, text in (
        ("texts against * tstr => any", map_of_texts, "r = { * tstr => any }\n"),
        ("numbers against * int => any", map_of_numbers, "r = { * int => any }\n"),
        ("numbers against 20 keys and * int => any", map_of_numbers, f"r = {{ {literals}, * int => any }}\n"),
    ):
        specifications = {"any": any_item, "map": written(folder, "map.cddl", text)}
        paths = [written(folder, f"{count}.cborseq", make(count).unit * MAPS_AT_A_TIME) for count in PAIRS]
        small, large = times_of_two(program, specifications, paths, "map", MOST_MAP_GROWTH)
        ratio, growth = large["map"] / large["any"], large["map"] / small["map"]
        room = {key: peak(paths[1], [program, "validate", path]) / PAIRS[1] for key, path in specifications.items()}
        print(f"{name:44} {ratio:7.2f} {growth:7.2f} {room['map']:7.0f} {room['any']:7.0f}", flush=True)
        more = room["map"] - room["any"]
        bad = bad or ratio > MOST_MAP_RATIO or not LEAST <= growth <= MOST_MAP_GROWTH or more > MOST_BYTES_A_PAIR
    return bad


def literal_keys(program, folder):
    # the keys of the pairs from the last to the first, so that neither is in the order of the other
    item = encoded({n: n for n in reversed(range(KEYS))})
    path = written(folder, "keys.cborseq", item * MAPS_OF_KEYS)
    text = "r = { " + ", ".join(f"? {n} => uint" for n in range(KEYS)) + " }\n"
    specifications = {"any": written(folder, "any.cddl", "r = any\n"), "keys": written(folder, "keys.cddl", text)}
    times, = least_times(program, specifications, [path])
    ratio = times["keys"] / times["any"]
    text = "r = { " + ", ".join(f"? {n} => uint" for n in range(MOST_KEYS)) + ", * uint => uint }\n"
    many = {"keys": written(folder, "many.cddl", text)}
    paths = [written(folder, f"keys{count}.cborseq", encoded({n: n for n in reversed(range(count))}) * MAPS_AT_A_TIME)
             for count in PAIRS_OF_KEYS]
    small, large = least_times(program, many, paths)
    growth = large["keys"] / small["keys"]
    print(f"\n{KEYS} pairs against {KEYS} literal keys: {ratio:.2f} times 'any'; {PAIRS_OF_KEYS[1]} pairs against {MOST_KEYS}: "
          f"growth {growth:.2f}, {1000 * large['keys'] / MAPS_AT_A_TIME:.1f} ms a map")
    return ratio > MOST_KEYS_RATIO or growth > MOST_MAP_GROWTH


def literals(program, folder):
    """Each of 1,000 literals in an array, in no order, against a choice of them; and one of them as often, against that one."""
    bad = False
    for kind, literal, written_as in (("numbers", lambda n: 1000 + n, str), ("texts", "name{:03}".format, '"{}"'.format)):
        members = [literal(n) for n in range(LITERALS)]
        times = {}
        for count, chosen in ((LITERALS, members), (1, members[LITERALS // 2:][:1])):
            array = b"".join(encoded(chosen[617 * n % count]) for n in range(LITERALS))
            path = written(folder, f"{kind}{count}.cborseq", (head(4, LITERALS) + array) * LISTS_OF_LITERALS)
            text = "r = [* m]\nm = " + " / ".join(map(written_as, chosen)) + "\n"
            found, = least_times(program, {count: written(folder, f"{kind}{count}.cddl", text)}, [path])
            times.update(found)
        ratio = times[LITERALS] / times[1]
        print(f"\n{kind} against a choice of {LITERALS}: {ratio:.2f} times one literal")
        bad = bad or ratio > MOST_LITERALS_RATIO
    return bad


def signed_message(number):
    """A COSE_Sign1 with its tag: protected headers, a key identifier, a payload of 20 bytes, and any signature."""
    signature = bytes((number + k) % 256 for k in range(64))
    return head(6, 18) + head(4, 4) + encoded(encoded({1: -7})) + encoded({4: b"key %d" % (number % 100)}) + encoded(
        b"measurement %08d" % number) + encoded(signature)


def signed_messages(program, folder):
    path = written(folder, "signed.cborseq", b"".join(map(signed_message, range(MESSAGES))))
    specifications = {"any": written(folder, "any.cddl", "r = any\n"), "signed": COSE}
    times, = least_times(program, specifications, [path])
    ratio = times["signed"] / times["any"]
    print(f"\n{MESSAGES} signed messages of {os.path.getsize(path) // MESSAGES} bytes with headers in a byte string: "
          f"{ratio:.2f} times 'any'")
    return ratio > MOST_COSE_RATIO


def small_numbers(count):
    return (bytes(range(24)) * (count // 24 + 1))[:count]


def held_array(size):
    """An item of this size that is a byte string with an array of small numbers in it, and the array."""
    count = size - 10
    array = head(4, count) + small_numbers(count)
    return encoded(array), array


def held_sequence(count):
    """A byte string with so many small numbers, and an array of them, since a sequence is asked about as one."""
    numbers = small_numbers(count)
    return encoded(numbers), head(4, count) + numbers


def held_strings(size):
    """A string in a string and so on, 64 levels round a number; and all of the strings, one after the other. Each is
    a chunk behind empty ones, as many as it takes for each level to add the same number of bytes."""
    empty = size // LEVELS - 11
    levels = [b"\0"]
    for _ in range(LEVELS):
        chunk = b"\x5b" + len(levels[-1]).to_bytes(8, "big") + levels[-1]
        levels.append(b"\x5f" + b"\x40" * empty + chunk + b"\xff")
    return levels[-1], b"".join(levels)


def byte_strings(program, folder):
    any_item = written(folder, "any.cddl", "r = any\n")
    bad = False
    print(f"\n{'byte strings':44} {'to any':>7} {'growth':>7} {'a byte':>7}")
    for name, make, sizes, items, text in (
        ("an array of 16 MiB by .cbor", held_array, (8 << 20, 16 << 20), 1, "r = bstr .cbor any\n"),
        ("a million numbers by .cborseq", held_sequence, (500_000, 1_000_000), 1, "r = bstr .cborseq [* uint]\n"),
        (f"{LEVELS} strings in each other, of 64 KiB", held_strings, (32 * KIB, 64 * KIB), 60, "t = int / bstr .cbor t\n"),
    ):
        specification = written(folder, "held.cddl", text)
        made = [make(size) for size in sizes]
        paths = [written(folder, f"held{k}.cborseq", item * items) for k, (item, _) in enumerate(made)]
        plain = written(folder, "plain.cborseq", made[1][1] * items)
        small, large = (it["held"] for it in times_of_two(program, {"held": specification}, paths, "held", MOST))
        times, = least_times(program, {"any": any_item}, [plain])
        growth, room = large / small, peak(paths[1], [program, "validate", specification]) / len(made[1][0])
        print(f"{name:44} {large / times['any']:7.2f} {growth:7.2f} {room:7.0f}", flush=True)
        bad = bad or not LEAST <= growth <= MOST
    return bad


def main():
    words = argparse.ArgumentParser(description="Measures the checker of specifications, and the matcher.")
    words.add_argument("program")
    program = os.path.abspath(words.parse_args().program)
    with tempfile.TemporaryDirectory() as folder:
        bad = [it(program, folder) for it in (check_all, arrays, sizes, maps, literal_keys, literals, signed_messages, byte_strings)]
    return 1 if any(bad) else 0


if __name__ == "__main__":
    sys.exit(main())
