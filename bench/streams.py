"""The streams that run.py measures the program on, and the same data as JSON where JSON has it."""
import dataclasses
import json
import os
import random

DATA = os.path.join(os.path.dirname(os.path.abspath(__file__)), "data")
MIB = 1 << 20
DEPTH = 256
MESSAGES = 256


@dataclasses.dataclass
class Made:
    """A stream: a unit of some items, so many times; and the unit's JSON, a line for each item, where there is some."""
    unit: bytes
    times: int = 1
    items: int = 1
    json: str = ""


@dataclasses.dataclass
class Stream:
    """How a stream is made and read: the type asked for, and what 'make' is given for the first size."""
    name: str
    kind: str
    make: object
    first: int
    readers: tuple = ()
    writer: tuple = ("cat",)
    most: float = 2.6  # the greatest growth that is taken for 2 within noise
    beside: str = ""  # the name of a stream with items of the same sizes, whose time bounds this one's

    def written(self, count):
        """The files of the stream and of its JSON by the names of what reads them, and the bytes of an item."""
        made = self.make(count)
        path = os.path.join(DATA, f"{self.make.__name__}-{count}")
        files = {"cbor": f"{path}.cborseq", "json": f"{path}.json"}
        for file_path, unit in zip(files.values(), (made.unit, made.json.encode())):
            with open(file_path, "wb") as file:
                for _ in range(made.times):
                    file.write(unit)
        return files, len(made.unit) // made.items


def head(major, argument):
    """The shortest head of this major type with this argument."""
    if argument < 24:
        return bytes([major << 5 | argument])
    width = next(it for it in (1, 2, 4, 8) if argument < 1 << 8 * it)
    return bytes([major << 5 | 23 + width.bit_length()]) + argument.to_bytes(width, "big")


def encoded(value):
    """A number, a byte string, a text, or a map of them."""
    if isinstance(value, int):
        return head(0, value) if value >= 0 else head(1, -1 - value)
    if isinstance(value, bytes):
        return head(2, len(value)) + value
    if isinstance(value, str):
        return head(3, len(value.encode())) + value.encode()
    return head(5, len(value)) + b"".join(encoded(key) + encoded(it) for key, it in value.items())


def json_line(value):
    """A line of JSON: byte strings are texts in hex, and numbers as keys are texts."""
    return json.dumps(value, separators=(",", ":"), default=bytes.hex) + "\n"


def text_of_one_mib():
    text = "aé€" * (MIB // 6)
    return (text + "a" * (MIB - len(text.encode()))).encode()


def small_numbers(size):
    return Made(bytes(range(24)), size // 24, items=24)


def short_strings(size):
    return Made(b"\x50" + bytes(range(0xa0, 0xb0)), size // 16)


def long_strings(size):
    return Made(head(2, MIB) + bytes(range(256)) * (MIB // 256), size // MIB)


def long_texts(size):
    return Made(head(3, MIB) + text_of_one_mib(), size // MIB)


def message(number):
    """A map of ten pairs in 100 bytes, with the keys of a CBOR Web Token (RFC 8392) and some beside."""
    return {
        1: "coap://as.example",
        2: f"device-{number:05}",
        3: "coap://light",
        4: 1_700_000_000 + number,
        5: 1_690_000_000,
        6: 1_690_000_000 + number,
        7: number.to_bytes(8, "big"),
        8: bytes(range(number, number + 12)),
        -1: number % 24,
        -2: "sensor",
    }


def messages(count):
    units = [message(number % 240) for number in range(MESSAGES)]
    return Made(b"".join(map(encoded, units)), count // MESSAGES, MESSAGES, "".join(map(json_line, units)))


def array_of_numbers(count):
    numbers = [i % 24 for i in range(count)]
    return Made(head(4, count) + bytes(numbers), json=json_line(numbers))


def shuffled(count):
    """Numbers in no order, each once, whose heads have 5 bytes."""
    return random.Random(count).sample(range(1 << 20, (1 << 20) + count), count)


def numbered(count):
    return {key: i % 24 for i, key in enumerate(shuffled(count))}


def named(count):
    return {f"sensor {key}": i % 24 for i, key in enumerate(shuffled(count))}


def map_of_numbers(count):
    return Made(encoded(numbered(count)), json=json_line(numbered(count)))


def map_of_texts(count):
    return Made(encoded(named(count)), json=json_line(named(count)))


def array_of_parts(pairs):
    """An array of a map's keys and values, one after the other."""
    return Made(head(4, 2 * len(pairs)) + b"".join(encoded(key) + encoded(it) for key, it in pairs.items()))


def array_of_keys_and_numbers(count):
    return array_of_parts(numbered(count))


def array_of_texts_and_numbers(count):
    return array_of_parts(named(count))


def deep_arrays(count):
    return Made(b"\x81" * (DEPTH - 1) + b"\x80", count, json="[" * DEPTH + "]" * DEPTH + "\n")


def deep_mixed(count):
    """Five kinds of containers in each other: an array, a map and a tag, and an array and a map up to a break."""
    front, back, rounds = b"\x81\xa1\x00\xc6\x9f\xbf\x00", b"\xff\xff", (DEPTH - 1) // 5
    return Made(front * rounds + b"\x80" + back * rounds, count)


def deep_in_one(count):
    member, line = b"\x81" * (DEPTH - 2) + b"\x80", "[" * (DEPTH - 1) + "]" * (DEPTH - 1)
    return Made(head(4, count) + member * count, json="[" + ",".join([line] * count) + "]\n")


def deep_keys(count):
    """Maps that are keys in each other."""
    return Made(b"\xa1" * (DEPTH - 1) + b"\xa0" + b"\x00" * (DEPTH - 1), count)


def deep_key_of_bytes(size):
    return Made(b"\xa1" * DEPTH + encoded(bytes(size)) + b"\x00" * DEPTH)


def array_of_empty_strings(count):
    return Made(head(4, count) + b"\x40" * count)


def deep_key_of_empty_strings(count):
    """The array as the key of a map that is the key of another, and so on."""
    return Made(b"\xa1" * (DEPTH - 2) + array_of_empty_strings(count).unit + b"\x02" * (DEPTH - 2))


def nested_members(count):
    return Made(b"\x9f" + b"\x81\x80" * count + b"\xff", json="[" + ",".join(["[[]]"] * count) + "]\n")


def chunks_of_bytes(count):
    return Made(b"\x5f" + b"".join(bytes([0x41, i % 256]) for i in range(count)) + b"\xff")


def chunks_of_text(count):
    return Made(b"\x7f" + b"".join(bytes([0x61, 0x61 + i % 26]) for i in range(count)) + b"\xff")


def array_of_arrays(size):
    """Arrays of numbers, of 4 KiB each, in an array."""
    member = head(4, 4093) + bytes(i % 24 for i in range(4093))
    return Made(head(4, size // 4096) + member * (size // 4096))


def array_of_short_strings(size):
    return Made(head(4, size // 17) + (b"\x50" + bytes(range(0xa0, 0xb0))) * (size // 17))


def one_byte_string(size):
    return Made(head(2, size) + bytes(range(256)) * (size // 256))


BOTH, CBOR = ("cbor2", "json"), ("cbor2",)
PIECES = ("dd", "bs=4096", "status=none")
MOST = 16 * MIB - 4096  # so that an item of twice half as much has room for its head

STREAMS = [
    Stream("numbers from 0 to 23", "uint", small_numbers, 16 * MIB),
    Stream("byte strings of 16 bytes", "bstr", short_strings, 16 * MIB),
    Stream("byte strings of 1 MiB", "bstr", long_strings, 16 * MIB),
    Stream("texts of 1 MiB", "tstr", long_texts, 16 * MIB),
    Stream("numbers, in pieces of one byte", "uint", small_numbers, MIB, writer=("dd", "bs=1", "status=none")),
    Stream("maps of ten pairs in 100 bytes", "any", messages, 80 * MESSAGES, BOTH),
    Stream("an array of numbers", "any", array_of_numbers, 1_000_000, BOTH),
    Stream("a map with numbers as keys", "any", map_of_numbers, 100_000, BOTH, beside="its keys and values in an array"),
    Stream("its keys and values in an array", "any", array_of_keys_and_numbers, 100_000, CBOR),
    Stream("a map with texts as keys", "any", map_of_texts, 100_000, BOTH, beside="its texts and values in an array"),
    Stream("its texts and values in an array", "any", array_of_texts_and_numbers, 100_000, CBOR),
    Stream("arrays, 256 deep", "any", deep_arrays, 4096, BOTH),
    Stream("mixed containers, 256 deep", "any", deep_mixed, 2048, CBOR),
    Stream("one item of arrays, 256 deep", "any", deep_in_one, 4096, BOTH),
    Stream("maps as keys, 256 deep", "any", deep_keys, 256, CBOR),
    Stream("the same round a byte string", "any", deep_key_of_bytes, 1_000_000, CBOR),
    Stream("an array of empty strings", "any", array_of_empty_strings, 1_000_000, CBOR),
    Stream("the empty strings in 254 keys", "any", deep_key_of_empty_strings, 1_000_000, CBOR, beside="an array of empty strings"),
    Stream("[_ [[]], [[]], ..]", "any", nested_members, 100_000, BOTH),
    Stream("a byte string of 1-byte chunks", "any", chunks_of_bytes, 500_000, CBOR),
    Stream("a text of 1-byte chunks", "any", chunks_of_text, 500_000, CBOR),
    Stream("an item of arrays of numbers", "any", array_of_arrays, MOST // 2, CBOR, PIECES),
    Stream("an item of 16-byte strings", "any", array_of_short_strings, MOST // 2, CBOR, PIECES),
    Stream("an item that is a byte string", "any", one_byte_string, MOST // 2, CBOR, PIECES),
]
