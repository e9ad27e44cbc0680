"""The calls of libcddlseq, as include/cddlseq.h declares them."""
from __future__ import annotations

import ctypes
import os
import struct
from ctypes import POINTER, c_char_p, c_size_t, c_uint32, c_uint64, c_void_p

OK, FAILED, REFUSED, NO_MEMORY, BAD_ROOT, BAD_LIMITS, BAD_WANTED, BAD_OFFSETS, NO_ROOM, ITEM, ENDED, CLOSED, BAD_REFUSAL, BAD_FILE, BAD_WORD = range(15)
REPORT, END_LINE, PREFERRED, DETERMINISTIC, PATH, NOTATION = range(6)

# The codes of what is wrong with a text, with their names. The number of each is its place, from 1.
CODES = (
    ("S1", "NotUtf8"), ("S2", "BadCharacter"), ("S3", "Unclosed"), ("S4", "BadEscape"), ("S5", "BadNumber"),
    ("S6", "FloatLiteral"), ("S7", "NumberTooLarge"), ("S8", "BadBytes"), ("S9", "SourceTooLong"), ("S10", "Unexpected"),
    ("S11", "TooNested"), ("C1", "Duplicate"), ("C2", "KindClash"), ("C3", "Undefined"), ("C4", "Arity"), ("C5", "NoRoot"),
    ("C6", "BadRoot"), ("C7", "GroupAsType"), ("C8", "HashForm"), ("C9", "UnknownControl"), ("C10", "TooManyInstances"),
    ("C11", "NotUnwrappable"), ("C12", "Recursion"), ("C13", "NotLiteral"), ("C14", "BadRange"), ("C15", "BadController"),
    ("C16", "NoKey"), ("C17", "MapShape"), ("C18", "TooManyAlternatives"),
)


class Refusal(ctypes.Structure):
    _fields_ = [("code", c_uint32), ("offset", c_size_t), ("line", c_size_t), ("column", c_size_t)]


class End(ctypes.Structure):
    _fields_ = [("items", c_uint64), ("offset", c_uint64), ("cause", c_uint32), ("place", c_uint64)]


# The fields of an End.
END = struct.Struct("@QQIQ")


class Limits(ctypes.Structure):
    _fields_ = [("depth", c_uint32), ("item_bytes", c_uint32), ("steps", c_uint64)]


class Handle(ctypes.Structure):
    """A handle of a specification, or of a stream that comes in pieces; or of nothing, as it is made."""

    _fields_ = [("at", c_void_p)]


_BYTES = (c_char_p, c_size_t)
_HANDLE = POINTER(Handle)
_CALLS = {
    "cddlseq_validate_many": (
        *_BYTES, *_BYTES, *_BYTES, POINTER(c_size_t), c_size_t, POINTER(Limits), POINTER(Refusal), POINTER(End), c_size_t,
        POINTER(c_size_t)),
    "cddlseq_explain": (*_BYTES, *_BYTES, *_BYTES, POINTER(Refusal), *_BYTES, POINTER(c_size_t)),
    "cddlseq_explain_word": (*_BYTES, *_BYTES, POINTER(c_size_t)),
    "cddlseq_open": (*_BYTES, *_BYTES, POINTER(Limits), POINTER(Refusal), _HANDLE),
    "cddlseq_validate_by": (_HANDLE, *_BYTES, POINTER(End)),
    "cddlseq_write_by": (_HANDLE, *_BYTES, c_uint32, POINTER(End), *_BYTES, POINTER(c_size_t)),
    "cddlseq_close": (_HANDLE,),
    "cddlseq_share": (_HANDLE, _HANDLE),
    "cddlseq_begin_by": (_HANDLE, _HANDLE),
    # A piece is told by its address, so that what comes after an item in it is passed on without a copy.
    "cddlseq_feed": (_HANDLE, c_void_p, c_size_t, POINTER(c_size_t), POINTER(End)),
    "cddlseq_feed_all": (_HANDLE, *_BYTES, POINTER(End)),
    "cddlseq_finish": (_HANDLE, POINTER(End)),
    "cddlseq_show": (_HANDLE, c_uint32, *_BYTES, POINTER(c_size_t)),
    "cddlseq_restart": (_HANDLE,),
    "cddlseq_discard": (_HANDLE,),
}
_TELL_NOTHING = ("cddlseq_close", "cddlseq_restart", "cddlseq_discard")


def _load() -> ctypes.CDLL:
    """The library: the one that CDDLSEQ_LIBRARY names, or the one that the system finds."""
    library = ctypes.CDLL(os.environ.get("CDDLSEQ_LIBRARY", "libcddlseq.so.1"))
    for name, kinds in _CALLS.items():
        call = getattr(library, name)
        call.argtypes, call.restype = kinds, None if name in _TELL_NOTHING else c_uint32
    return library


library = _load()


def passed(data: bytes) -> tuple[bytes, int]:
    """Bytes as a pointer and a length."""
    return data, len(data)
