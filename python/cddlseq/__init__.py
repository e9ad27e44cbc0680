"""Validates sequences of CBOR items (RFC 8742) against specifications in CDDL (RFC 8610).

    >>> from cddlseq import Refused, Specification
    >>> specification = Specification("reading = [time: uint, value: int]")
    >>> end = specification.validate(bytes.fromhex("820103 82020a 820260"))
    >>> end.items, end.offset, end.cause.name, end.path, end.notation
    (2, 6, 'MISMATCH', '$[1]', '""')
    >>> specification.rewrite(bytes.fromhex("9f1801 03ff")).data.hex()
    '820103'
    >>> pieces = [bytes.fromhex("8201"), bytes.fromhex("038202"), bytes.fromhex("0a")]
    >>> [(item.offset, item.end, item.data.hex()) for item in specification.items(pieces)]
    [(0, 3, '820103'), (3, 6, '82020a')]
    >>> [item.preferred.hex() for item in specification.items(bytes.fromhex("9f180103ff"))]
    ['820103']
    >>> try:
    ...     Specification("a = b")
    ... except Refused as refused:
    ...     print(refused)
    ...     refused.line, refused.column
    ...     print(refused.explained("it.cddl"), end="")
    refused: C3 Undefined at byte 4
    (1, 5)
    refused: C3 Undefined at byte 4
    it.cddl:1:5: Undefined
    a = b
        ^
    `b` is no rule, no parameter, none of the prelude and no socket
    >>> print(explain("step limit reached").splitlines()[0])
    step limit reached: to tell whether the item matches takes more questions than --steps allows, which are 10000000 unless it is given

The library libcddlseq does the work. It is the one that the environment's CDDLSEQ_LIBRARY names, or the one that the system finds.
Many threads may use one specification at once. A session is for one thread at a time: a call waits for another one to end.
"""
from __future__ import annotations

import ctypes
import enum
import itertools
import threading
from array import array
from collections.abc import Iterable, Sequence
from typing import BinaryIO, Callable, Iterator, NamedTuple, Union

from . import _library
from ._library import CODES, library, passed

__all__ = ["Cause", "End", "Ends", "Failed", "Item", "Refused", "Rewritten", "Session", "Specification", "explain"]
__version__ = "0.1.0"

# How many bytes of a file are read at once.
PIECE = 65536

Stream = Union[bytes, bytearray, memoryview, BinaryIO, Iterable[bytes]]


class Cause(enum.IntEnum):
    """Why a stream has failed: a fault of its bytes, a mismatch, or too few steps."""

    RESERVED_INFO = 1
    BAD_INDEFINITE = 2
    BAD_BREAK = 3
    BAD_CHUNK = 4
    BAD_SIMPLE = 5
    TOO_DEEP = 6
    TOO_LONG = 7
    TRUNCATED = 8
    BAD_TEXT = 9
    DUPLICATE_KEY = 10
    MISMATCH = 11
    STEP_LIMIT = 12


MISMATCH = Cause.MISMATCH.value


class Refused(ValueError):
    """A text is no specification: what is wrong, by its code (as 'C3') and name (as 'Undefined'), and where it shows: the byte, from 0,
    and the line and the column, from 1. A line ends with a line feed, and a column is a character."""

    def __init__(self, code: str, name: str, offset: int, line: int, column: int, text: bytes = b"", root: bytes = b""):
        super().__init__(code, name, offset, line, column)
        self.code, self.name, self.offset, self.line, self.column = code, name, offset, line, column
        self._text, self._root = text, root

    def __str__(self) -> str:
        return f"refused: {self.code} {self.name} at byte {self.offset}"

    def explained(self, file: str = "-") -> str:
        """The same, and in further lines the file of this name, the line and the column; the line of the text, with a mark under the place;
        and what is wrong, as the program 'cddlseq check --explain' prints it."""
        told = _library.Refusal(CODES.index((self.code, self.name)) + 1, self.offset, self.line, self.column)
        named = file.encode()
        return _written(
            lambda buffer, room, needed: _stop(
                library.cddlseq_explain(*passed(self._text), *passed(self._root), *passed(named), told, buffer, room, needed)),
            512).decode()


def explain(word: str) -> str:
    """What the code of a refusal means, by its number or its name, as 'C3' or 'Undefined', or why a stream fails, by the words of its line,
    as 'mismatch', in any case of their letters, as the program 'cddlseq explain' prints it. Raises ValueError where the word names none."""
    named = word.encode()

    def call(buffer: ctypes.Array, room: int, needed: ctypes.c_size_t) -> int:
        status = library.cddlseq_explain_word(*passed(named), buffer, room, needed)
        if status == _library.BAD_WORD:
            raise ValueError(f"no such code or cause: {word}")
        return _stop(status)

    return _written(call, 512).decode()


class End:
    """How a stream ends."""

    __slots__ = ("_told", "_shown")

    def __init__(self, told: tuple[int, int, int, int], shown: Callable[[int], bytes] | None = None):
        self._told = told
        self._shown = shown

    @property
    def items(self) -> int:
        """How many items match."""
        return self._told[0]

    @property
    def offset(self) -> int:
        """How many bytes these have: the offset of the item that fails, if one does."""
        return self._told[1]

    @property
    def cause(self) -> Cause | None:
        """Why it fails; None where the stream is clean."""
        return Cause(self._told[2]) if self._told[2] else None

    @property
    def place(self) -> int:
        """The byte of the stream where a fault shows; of a mismatch, and of a key that is there twice, the place in the item: it and all
        in it are numbered from 0 as they begin, a key before its value."""
        return self._told[3]

    @property
    def is_clean(self) -> bool:
        """Whether all bytes of the stream are items that match."""
        return not self._told[2]

    @property
    def path(self) -> str | None:
        """The path of the place of a mismatch, as '$[1]'; None for another end."""
        return self._show(_library.PATH)

    @property
    def notation(self) -> str | None:
        """What is at the place of a mismatch, in diagnostic notation; None for another end."""
        return self._show(_library.NOTATION)

    def _show(self, wanted: int) -> str | None:
        return self._shown(wanted).decode() if self._shown else None

    def __repr__(self) -> str:
        cause = "None" if self.cause is None else f"Cause.{self.cause.name}"
        return f"End(items={self.items}, offset={self.offset}, cause={cause}, place={self.place})"


class Ends(Sequence[End]):
    """The ends of many streams, in order. Each End is made as it is asked for."""

    def __init__(self, specification: Specification, streams: list[bytes], told: ctypes.Array):
        self._specification, self._streams, self._told = specification, streams, told

    def __len__(self) -> int:
        return len(self._streams)

    def __getitem__(self, at: int | slice) -> End | list[End]:
        if isinstance(at, slice):
            return [self[it] for it in range(len(self))[at]]
        told = _library.END.unpack_from(self._told, range(len(self))[at] * _library.END.size)
        return self._specification._end(told, self._streams[at])

    def __iter__(self) -> Iterator[End]:
        end = self._specification._end
        for told, stream in zip(_library.END.iter_unpack(self._told), self._streams):
            yield end(told, stream) if told[2] == MISMATCH else End(told)


class Failed(ValueError):
    """A stream has failed, and this is its end."""

    def __init__(self, end: End):
        super().__init__(end)
        self.end = end

    def __str__(self) -> str:
        at = "" if self.end.path is None else f" at {self.end.path}: {self.end.notation}"
        return f"item {self.end.items + 1} at {self.end.offset} fails: {self.end.cause.name}{at}"


class _Item(NamedTuple):
    offset: int
    end: int
    data: bytes


class Item(_Item):
    """An item that matches: the offset in the stream of its first byte, and of the byte after its last; and its bytes."""

    _specification: Specification

    @property
    def preferred(self) -> bytes:
        """The item in preferred encoding (RFC 8949, section 4.1)."""
        return self._specification.rewrite(self.data).data

    @property
    def deterministic(self) -> bytes:
        """The item in deterministic encoding (RFC 8949, section 4.2.1)."""
        return self._specification.rewrite(self.data, deterministic=True).data


class Rewritten(NamedTuple):
    """The items of a stream that match, in another encoding, and how the stream ends."""

    data: bytes
    end: End


class _Held:
    """A handle of the library, for one call at a time."""

    def __init__(self, made: _library.Handle, free: Callable[[_library.Handle], None]):
        self.handle, self.free = made, free

    def __del__(self) -> None:
        self.free(self.handle)


class Specification:
    """A specification: a text in CDDL, the name of its root, or None for the first rule, and what an item may have.

    depth        how many containers may be round a place of an item, from 1 to 256
    item_bytes   how many bytes an item may have, from 1 to 67,108,864
    steps        how many questions may be asked about an item
    """

    def __init__(
        self, text: str | bytes, root: str | None = None, *, depth: int = 256, item_bytes: int = 16_777_216, steps: int = 10_000_000,
    ):
        """Raises Refused where the text is no specification, and ValueError where the root or a limit is none."""
        for limit, most in (depth, 256), (item_bytes, 67_108_864), (steps, 2**64 - 1):
            if not 0 < limit <= most:
                raise ValueError(f"a limit of {limit} is not from 1 to {most}")
        self._text = text.encode() if isinstance(text, str) else bytes(text)
        # The library takes no bytes for no root. No rule has a name of no letters, nor one of a space.
        self._root = b"" if root is None else root.encode() or b" "
        self._limits = _library.Limits(depth, item_bytes, steps)
        self._held = _Held(self._opened(), library.cddlseq_close)
        self._turn, self._of_thread = threading.Lock(), threading.local()

    def validate(self, stream: Stream) -> End:
        """Says how a stream ends: bytes, a binary file, or pieces of any size. Of a file, and of pieces, no more is read than shows
        the end."""
        if isinstance(stream, (bytes, bytearray, memoryview)):
            return self._validate(bytes(stream))
        session = self.session()
        for piece in _pieces(stream):
            end = session.feed_all(piece)
            if end:
                return end
        return session.finish()

    def validate_many(self, streams: Iterable[bytes]) -> Ends:
        """Says how each of many streams ends, by one call."""
        parts = [bytes(it) for it in streams]
        bounds = array("Q", [0, *itertools.accumulate(map(len, parts))])
        offsets, ends = (ctypes.c_size_t * len(bounds)).from_buffer(bounds), (_library.End * len(parts))()
        refusal, done = _library.Refusal(), ctypes.c_size_t()
        status = library.cddlseq_validate_many(
            *passed(self._text), *passed(self._root), *passed(b"".join(parts)), offsets, len(bounds), self._limits, refusal, ends,
            len(parts), done)
        self._stop(status, refusal)
        return Ends(self, parts, ends)

    def session(self) -> Session:
        """Begins a stream that comes in pieces."""
        return Session(self)

    def items(self, stream: Stream) -> Iterator[Item]:
        """The items of a stream that match, each as soon as its last byte is there. Where the stream fails it raises Failed after
        them."""
        pieces = [stream] if isinstance(stream, (bytes, bytearray, memoryview)) else _pieces(stream)
        session = self.session()
        for piece in pieces:
            yield from session.feed(piece)
            if session.end:
                break
        end = session.finish()
        if not end.is_clean:
            raise Failed(end)

    def rewrite(self, stream: Stream, deterministic: bool = False) -> Rewritten:
        """The items that match, up to the first that does not, in preferred encoding (RFC 8949, section 4.1), or in deterministic
        encoding (section 4.2.1). A file is read whole before."""
        return Rewritten(*self._write(_bytes_of(stream), _library.DETERMINISTIC if deterministic else _library.PREFERRED))

    def report(self, stream: Stream) -> str:
        """A line for each item that matches, and one for the end, as the program 'cddlseq validate' prints them."""
        return self._write(_bytes_of(stream), _library.REPORT)[0].decode()

    def end_line(self, stream: Stream) -> str:
        """The line for the end alone."""
        return self._write(_bytes_of(stream), _library.END_LINE)[0].decode()

    def _opened(self) -> _library.Handle:
        """The handle that is made of the text."""
        handle, refusal = _library.Handle(), _library.Refusal()
        self._stop(library.cddlseq_open(*passed(self._text), *passed(self._root), self._limits, refusal, handle), refusal)
        return handle

    @property
    def _handle(self) -> _library.Handle:
        """The handle of this thread, which shares the specification with those of others."""
        held = getattr(self._of_thread, "held", None)
        if held is None:
            shared = _library.Handle()
            with self._turn:
                _stop(library.cddlseq_share(self._held.handle, shared))
            held = self._of_thread.held = _Held(shared, library.cddlseq_close)
        return held.handle

    def _begun(self) -> _library.Handle:
        """The handle of a session."""
        handle, begun = self._handle, _library.Handle()
        _stop(library.cddlseq_begin_by(handle, begun))
        return begun

    def _stop(self, status: int, refusal: _library.Refusal) -> int:
        """Raises what a status says, as _stop does, or of the text."""
        if status == _library.REFUSED:
            raise Refused(*CODES[refusal.code - 1], refusal.offset, refusal.line, refusal.column, self._text, self._root)
        return _stop(status)

    def _validate(self, stream: bytes) -> End:
        end, handle = _library.End(), self._handle
        _stop(library.cddlseq_validate_by(handle, *passed(stream), end))
        return self._end(_library.END.unpack(end), stream)

    def _write(self, stream: bytes, wanted: int) -> tuple[bytes, End]:
        """What is wanted of the stream, and its end."""
        end, handle = _library.End(), self._handle
        data = _written(
            lambda buffer, room, needed: _stop(
                library.cddlseq_write_by(handle, *passed(stream), wanted, end, buffer, room, needed)), len(stream) + 256)
        return data, self._end(_library.END.unpack(end), stream)

    def _end(self, told: tuple[int, int, int, int], stream: bytes) -> End:
        if told[2] != MISMATCH:
            return End(told)
        # The item that fails, with what may come after it.
        rest = stream[told[1]:told[1] + self._limits.item_bytes]
        return End(told, lambda wanted: self._write(rest, wanted)[0])


class Session:
    """A stream that comes in pieces, by a specification. A call waits where another thread is in one.

    end   how the stream ends, once that is known
    """

    def __init__(self, specification: Specification):
        self._specification = specification
        self._told = _library.End()
        self._used = ctypes.c_size_t()
        self._pending = bytearray()
        self.end: End | None = None
        self._turn = threading.Lock()
        self._held = _Held(specification._begun(), library.cddlseq_discard)
        self._handle = self._held.handle

    @property
    def items(self) -> int:
        """How many items match so far."""
        return self._told.items

    @property
    def offset(self) -> int:
        """How many bytes these have in the stream."""
        return self._told.offset

    def feed(self, piece: bytes | bytearray | memoryview) -> list[Item]:
        """Takes the next piece, and answers the items that match and that it completes. Once one fails 'end' says so, and what follows
        it is not looked at."""
        with self._turn:
            return self._fed(bytes(piece))

    def _fed(self, data: bytes) -> list[Item]:
        found, start = [], ctypes.cast(ctypes.c_char_p(data), ctypes.c_void_p).value or 0
        at, handle, told, used = 0, self._handle, self._told, self._used
        while at < len(data) and not self.end:
            before = told.offset
            status = _stop(library.cddlseq_feed(handle, start + at, len(data) - at, used, told))
            if status == _library.ITEM:
                item = Item(before, told.offset, bytes(self._pending) + data[at:at + used.value])
                item._specification = self._specification
                found.append(item)
                self._pending.clear()
            elif status == _library.OK:
                self._pending += data[at:]
            else:
                self._ended()
            at += used.value
        return found

    def feed_all(self, piece: bytes | bytearray | memoryview) -> End | None:
        """Takes the next piece, and answers how the stream ends, if that is known now. It keeps no items."""
        data = bytes(piece)
        with self._turn:
            if not self.end and data:
                status = _stop(library.cddlseq_feed_all(self._handle, *passed(data), self._told))
                if status != _library.OK:
                    self._ended()
            return self.end

    def finish(self) -> End:
        """Ends the stream, and says how it ends."""
        with self._turn:
            if not self.end:
                _stop(library.cddlseq_finish(self._handle, self._told))
                self._ended()
            return self.end

    def restart(self) -> None:
        """Begins another stream by the same specification, whatever has come of the one before."""
        with self._turn:
            library.cddlseq_restart(self._handle)
            self._told, self._pending, self.end = _library.End(), bytearray(), None

    def _ended(self) -> None:
        shown = None
        if self._told.cause == MISMATCH:
            shown = {wanted: self._show(wanted) for wanted in (_library.PATH, _library.NOTATION)}.__getitem__
        self.end = End(_library.END.unpack(self._told), shown)

    def _show(self, wanted: int) -> bytes:
        return _written(
            lambda buffer, room, needed: _stop(
                library.cddlseq_show(self._handle, wanted, buffer, room, needed)), 256)


def _written(call: Callable[..., int], room: int) -> bytes:
    """What a call writes, in a buffer that is made larger where it has to be."""
    needed = ctypes.c_size_t(room)
    status = _library.NO_ROOM
    while status == _library.NO_ROOM:
        room = needed.value
        buffer = ctypes.create_string_buffer(room)
        status = call(buffer, room, needed)
    return buffer.raw[:needed.value]


_BAD = (
    _library.BAD_ROOT, _library.BAD_LIMITS, _library.BAD_WANTED, _library.BAD_OFFSETS, _library.CLOSED, _library.BAD_REFUSAL,
    _library.BAD_FILE)


def _stop(status: int) -> int:
    """Raises what a status says of memory, or of what was passed, and passes others on."""
    if status == _library.NO_MEMORY:
        raise MemoryError("libcddlseq was refused memory")
    if status in _BAD:
        raise ValueError(f"libcddlseq answers {status}")
    return status


def _bytes_of(stream: Stream) -> bytes:
    """The bytes of a stream."""
    if isinstance(stream, (bytes, bytearray, memoryview)):
        return bytes(stream)
    return stream.read() if hasattr(stream, "read") else b"".join(stream)


def _pieces(stream: BinaryIO | Iterable[bytes]) -> Iterable[bytes]:
    """The pieces of a file, each as soon as it is there, or of a stream that comes in pieces."""
    read = getattr(stream, "read1", None) or getattr(stream, "read", None)
    return iter(lambda: read(PIECE), b"") if read else stream
