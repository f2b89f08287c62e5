"""Formats justfiles by the shared library.

    format = justfile.load("libjustfile.so")
    status, text, place = format("a:=b")
"""
import ctypes
from typing import NamedTuple


class Place(NamedTuple):
    """Where the token of an error is. All count bytes, and from 0; all are 0 if no token is told."""

    offset: int
    width: int
    line: int
    column: int


class Told(NamedTuple):
    """What became of a text: the status and the answer's bytes, as justfile.h says, and the place of the error."""

    status: int
    text: bytes
    place: Place


class Answer(ctypes.Structure):
    """`struct justfile_answer` of justfile.h."""

    _fields_ = [
        ("status", ctypes.c_uint32),
        ("fits", ctypes.c_uint32),
        ("length", ctypes.c_size_t),
        ("offset", ctypes.c_size_t),
        ("width", ctypes.c_size_t),
        ("line", ctypes.c_size_t),
        ("column", ctypes.c_size_t),
    ]


def load(path):
    """The formatter of the library at this path: a function from a text, as str or bytes, to what is told of it."""
    call = ctypes.CDLL(path).justfile_format
    call.argtypes = [
        ctypes.c_char_p,
        ctypes.c_size_t,
        ctypes.c_char_p,
        ctypes.c_size_t,
        ctypes.POINTER(Answer),
    ]
    call.restype = None

    def format(text):
        text = text.encode() if isinstance(text, str) else text
        size, answer = 2 * len(text) + 1024, Answer()
        while True:
            room = ctypes.create_string_buffer(size)
            call(text, len(text), room, size, answer)
            if answer.fits:
                place = Place(answer.offset, answer.width, answer.line, answer.column)
                return Told(answer.status, ctypes.string_at(room, answer.length), place)
            size = answer.length

    return format
