"""Items as bytes and as text, for the scripts beside this one, which make CBOR Sequences and their reports."""
import os
import struct

FOLDER = os.path.dirname(os.path.abspath(__file__))
SIMPLE = {False: (b"\xf4", "false"), True: (b"\xf5", "true"), None: (b"\xf6", "null")}


class Tag:
    def __init__(self, number, content):
        self.number, self.content = number, content


def head(major, number):
    """The shortest head (RFC 8949, sections 3 and 4.1)."""
    if number < 24:
        return bytes([major << 5 | number])
    for info, width in (24, 1), (25, 2), (26, 4), (27, 8):
        if number < 1 << 8 * width:
            return bytes([major << 5 | info]) + number.to_bytes(width, "big")
    raise ValueError(number)


def encoded(item):
    if item is None or isinstance(item, bool):
        return SIMPLE[item][0]
    if isinstance(item, int):
        return head(0, item) if item >= 0 else head(1, -1 - item)
    if isinstance(item, float):
        return b"\xfb" + struct.pack(">d", item)
    if isinstance(item, bytes):
        return head(2, len(item)) + item
    if isinstance(item, str):
        return head(3, len(item.encode())) + item.encode()
    if isinstance(item, Tag):
        return head(6, item.number) + encoded(item.content)
    if isinstance(item, dict):
        return head(5, len(item)) + b"".join(encoded(key) + encoded(value) for key, value in item.items())
    return head(4, len(item)) + b"".join(map(encoded, item))


def notation(item):
    """The item in diagnostic notation (RFC 8949, section 8), floats by their bits."""
    if item is None or isinstance(item, bool):
        return SIMPLE[item][1]
    if isinstance(item, int):
        return str(item)
    if isinstance(item, float):
        return f"f64'{struct.pack('>d', item).hex()}'"
    if isinstance(item, bytes):
        return f"h'{item.hex()}'"
    if isinstance(item, str):
        return f'"{item}"'
    if isinstance(item, Tag):
        return f"{item.number}({notation(item.content)})"
    if isinstance(item, dict):
        return f"{{{', '.join(f'{notation(key)}: {notation(value)}' for key, value in item.items())}}}"
    return f"[{', '.join(map(notation, item))}]"


def spelled(item, digits):
    """The item, whose bytes are these."""
    assert encoded(item) == bytes.fromhex(digits), encoded(item).hex()
    return item


def write(stem, items, wrong=None, told="", change=None):
    """Writes the stream of the items and its report. 'wrong' is the number, from 0 on, of the item that does not match,
    and 'told' the place and the notation that are told of it. The change is an offset in its bytes, the byte there, and
    the byte that stands there instead."""
    stream, report = b"", ""
    for number, item in enumerate(items):
        if number == wrong:
            report += f"failed: {number} items, offset {len(stream)}: mismatch at {told}\n"
        elif wrong is None or number < wrong:
            report += f"item {number + 1} at {len(stream)}: {notation(item)}\n"
        spelling = bytearray(encoded(item))
        if number == wrong and change:
            at, old, new = change
            assert spelling[at] == old
            spelling[at] = new
        stream += spelling
    if wrong is None:
        report += f"clean: {len(items)} items, {len(stream)} bytes\n"
    with open(os.path.join(FOLDER, stem + ".cborseq"), "wb") as file:
        file.write(stream)
    with open(os.path.join(FOLDER, stem + ".report"), "w", newline="\n") as file:
        file.write(report)
