"""Selectors for backups: parses a line of query text, rewrites it, and picks records of a catalogue.

The work is done by libgorbihesh.so, whose calls are proved to meet their contracts; this module is plain Python over
it. The library is the file that the variable GORBIHESH_LIBRARY names, else the one that `make archive` puts into
target/lib of the repository that this file stands in, else the one that is installed.

Text may be str or bytes. A call that refuses raises Refused, and nothing is kept from one call to the next, so that any
number of threads may call at once.
"""

from __future__ import annotations

import ctypes
import os
import struct
from collections.abc import Mapping
from dataclasses import dataclass, field as _field
from enum import IntEnum
from pathlib import Path
from typing import NamedTuple, Union

__version__ = "2.0.0"

# Limits, as in gorbihesh.h.
TEXT_MOST = 1024
FIELD_MOST = 32
ENTRIES_MOST = 8
REWRITE_QUERY_MOST = 32768
REWRITE_DEPTH_MOST = 64
SELECT_QUERY_MOST = 65535
SELECT_DEPTH_MOST = 192
LIST_MOST = 65536

Text = Union[str, bytes]


class Operator(IntEnum):
    """What joins two clauses with nothing between them."""

    OR = 0
    AND = 1


class Analyzer(IntEnum):
    """How a field's text is cut into words."""

    WHITESPACE = 1  # cuts at blanks
    SIMPLE = 2  # runs of letters, in lower case
    KEYWORD = 3  # the text whole
    WORDS = 4  # words as UAX #29 cuts them, in lower case
    ENGLISH = 5  # the same without 33 stop words, whose positions stay empty


class Refusal(IntEnum):
    """Why a call did nothing; `words` says it to a technician."""

    LONG_TEXT = 1
    NOT_ASCII = 2
    BAD_SETUP = 3
    OPEN_QUOTE = 4
    NOTHING_ESCAPED = 5
    RANGE_BRACKET = 6
    WILDCARD = 7
    FUZZY_TERM = 8
    SLOPPY_PHRASE = 9
    UNEXPECTED_END = 10
    UNEXPECTED_TOKEN = 11
    OPEN_BRACKET = 12
    BAD_NUMERAL = 13
    NO_NUMERAL = 14
    LONG_FIELD = 15
    MANY_BRACKETS = 16
    LONG_NUMERAL = 17
    LONG_ANSWER = 18
    LONG_QUERY = 19
    MALFORMED_QUERY = 20
    DEEP_QUERY = 21
    LONG_LIST = 22
    MALFORMED_LIST = 23
    SHORT_ROOM = 32


class Refused(ValueError):
    """A call refused. `number` is a Refusal, or a plain number that this release does not know. `place` is where in a
    selector the fault of a refusal from 4 to 17 is, by the bytes before it; else 0."""

    number: int
    place: int

    def __init__(self, number: int, place: int = 0) -> None:
        super().__init__(number, place)
        self.place = place
        try:
            self.number = Refusal(number)
        except ValueError:
            self.number = number

    def __str__(self) -> str:
        return words(self.number)


class Unfit(ValueError):
    """An entry that no record can hold."""


class FullList(Exception):
    """The list has no space left for the record: start the next list."""


# ---- the library's own layout

_Buffer = ctypes.Array  # of bytes that a call writes to


class _Answer(ctypes.Structure):
    _fields_ = [(name, ctypes.c_uint32) for name in ("refusal", "length", "count", "rounds", "place")]

    refusal: int
    length: int
    count: int
    rounds: int
    place: int


def _find() -> str:
    named = os.environ.get("GORBIHESH_LIBRARY")
    beside = Path(__file__).resolve().parent / "../../target/lib/libgorbihesh.so"
    installed = f"libgorbihesh.so.{_major(__version__)}"
    return named or (str(beside) if beside.is_file() else installed)


def _major(version: str) -> str:
    return version.split(".")[0]


def _spelled(number: int) -> str:
    return f"{number // 1_000_000}.{number // 1_000 % 1_000}.{number % 1_000}"


def _load() -> ctypes.CDLL:
    library = ctypes.CDLL(_find())
    linked = _spelled(library.gorbihesh_version())
    if _major(linked) != _major(__version__):
        raise ImportError(f"libgorbihesh is of version {linked}, and gorbihesh.py of {__version__}")

    lent = [ctypes.c_char_p, ctypes.c_size_t]  # bytes that a call only reads
    written = [ctypes.c_void_p, ctypes.c_size_t]
    byte = ctypes.c_uint8
    for name, result, arguments in (
        ("version", ctypes.c_uint32, []),
        ("words", ctypes.c_char_p, [ctypes.c_uint32]),
        ("parse_room", ctypes.c_size_t, []),
        ("rewrite_room", ctypes.c_size_t, []),
        ("rewrite_strict_room", ctypes.c_size_t, []),
        ("select_room", ctypes.c_size_t, []),
        ("parse", _Answer, [byte, byte, *lent, *lent, *lent, *written, *written]),
        ("rewrite", _Answer, [*lent, *written, *written]),
        ("rewrite_strict", _Answer, [*lent, *written, *written]),
        ("select", _Answer, [*lent, *lent, *written, *written]),
    ):
        call = getattr(library, f"gorbihesh_{name}")
        call.restype, call.argtypes = result, arguments
    return library


_library = _load()


def _lend(data: bytes) -> tuple[bytes, int]:
    return data, len(data)


def _lend_buffer(length: int) -> _Buffer[ctypes.c_uint8]:
    return (ctypes.c_uint8 * length)()


def _answer(answer: _Answer) -> _Answer:
    if answer.refusal != 0:
        raise Refused(answer.refusal, answer.place)
    return answer


def _written(buffer: _Buffer[ctypes.c_uint8], answer: _Answer) -> bytes:
    return ctypes.string_at(buffer, answer.length)


def _bytes(text: Text) -> bytes:
    """Characters outside ASCII become bytes outside ASCII, which the library refuses."""
    return text if isinstance(text, bytes) else text.encode("utf-8", "surrogatepass")


# ---- the calls


def version() -> str:
    """The version of the library that was loaded, as 2.0.0."""
    return _spelled(_library.gorbihesh_version())


def words(refusal: int) -> str:
    """A refusal in a technician's words: one line, no full stop."""
    said: bytes = _library.gorbihesh_words(refusal)
    return said.decode("ascii")


@dataclass(frozen=True)
class Setup:
    """How a selector is read: the field of clauses that name none, the analyzer of each field that `fields` does not
    name, fields with an analyzer of their own, and what joins two clauses with nothing between them."""

    field: Text
    analyzer: Analyzer
    fields: Mapping[Text, Analyzer] = _field(default_factory=dict)
    operator: Operator = Operator.OR

    def _entries(self) -> bytes:
        """A length that has no byte is told as 255, which is over the limit too, and so refused."""
        names = ((_bytes(name), analyzer) for name, analyzer in self.fields.items())
        return b"".join(bytes([analyzer, min(len(name), 255)]) + name for name, analyzer in names)


def parse(text: Text, setup: Setup) -> bytes:
    """The stored query that a selector's text means. A text with no words in it means "match nothing"."""
    out = _lend_buffer(REWRITE_QUERY_MOST)
    room = _lend_buffer(_library.gorbihesh_parse_room())
    answer = _library.gorbihesh_parse(
        setup.operator,
        setup.analyzer,
        *_lend(_bytes(setup.field)),
        *_lend(setup._entries()),
        *_lend(_bytes(text)),
        out,
        len(out),
        room,
        len(room),
    )
    return _written(out, _answer(answer))


class Rewritten(NamedTuple):
    """A stored query that asks the same, made simpler; and the rounds made, the last unchanged one included."""

    query: bytes
    rounds: int


def rewrite(query: bytes) -> Rewritten:
    """Rewrites a stored query until a round changes nothing. What parse() made picks the same records afterwards."""
    return _rewrite("rewrite", query)


def rewrite_strict(query: bytes) -> Rewritten:
    """The same, but that Should clauses are never dropped as duplicates while the minimum is above 1: every query picks the
    same records afterwards."""
    return _rewrite("rewrite_strict", query)


def _rewrite(call: str, query: bytes) -> Rewritten:
    out = _lend_buffer(SELECT_QUERY_MOST)
    room = _lend_buffer(getattr(_library, f"gorbihesh_{call}_room")())
    answer = _answer(getattr(_library, f"gorbihesh_{call}")(*_lend(query), out, len(out), room, len(room)))
    return Rewritten(_written(out, answer), answer.rounds)


def select(query: bytes, records: List | bytes) -> list[int]:
    """The numbers of the list's records that a stored query picks, from 0 and rising."""
    data = bytes(records)
    rows = _lend_buffer(min(len(data), LIST_MOST) // _HEADER * 4)  # no record is shorter than its header
    room = _lend_buffer(_library.gorbihesh_select_room())
    answer = _answer(_library.gorbihesh_select(*_lend(query), *_lend(data), rows, len(rows), room, len(room)))
    return [number for (number,) in struct.iter_unpack(">I", _written(rows, answer))]


# ---- catalogue lists

_HEADER = 3  # the bytes of a part's header: its tag, and the length of its body in two bytes


class _Tag(IntEnum):
    FIELD = 0x10
    WORD = 0x12
    VALUE = 0x14
    RECORD = 0x40
    PLACE = 0x41
    WHOLE = 0x44
    FLOAT = 0x45


def _part(tag: _Tag, body: bytes) -> bytes:
    return bytes([tag]) + len(body).to_bytes(2, "big") + body


class Record:
    """One file, or whatever else is selected: words, whole numbers and floats, each in a field."""

    def __init__(self) -> None:
        self._entries = b""

    def add_word(self, field: Text, place: int, word: Text) -> Record:
        """A word of a field, with its place among the field's words, by which phrases are found."""
        body = _bytes(word)
        if not body.isascii():
            raise Unfit("a word has a character outside plain ASCII")
        return self._add(_Tag.PLACE, field, _Tag.WORD, place.to_bytes(4, "big") + body)

    def add_whole(self, field: Text, value: int) -> Record:
        """A whole number of a field, of 64 bits with its sign."""
        return self._add(_Tag.WHOLE, field, _Tag.VALUE, value.to_bytes(8, "big", signed=True))

    def add_float(self, field: Text, value: float) -> Record:
        """A float of a field."""
        return self._add(_Tag.FLOAT, field, _Tag.VALUE, struct.pack(">d", value))

    def _add(self, tag: _Tag, field: Text, of: _Tag, body: bytes) -> Record:
        name = _bytes(field)
        if len(name) > FIELD_MOST or not name.isascii():
            raise Unfit(f"a field name is longer than {FIELD_MOST} characters, or not plain ASCII")
        if len(self._entries) + 4 * _HEADER + len(name) + len(body) > LIST_MOST:
            raise Unfit("the record is too long for any list")
        self._entries += _part(tag, _part(_Tag.FIELD, name) + _part(of, body))
        return self


class List:
    """A list of records; bytes() of it is what select() takes."""

    def __init__(self) -> None:
        self._bytes = bytearray()
        self._count = 0

    def add(self, record: Record) -> int:
        """Puts a record at the end and gives its number. Raises FullList, and is then as it was."""
        if len(self._bytes) + _HEADER + len(record._entries) > LIST_MOST:
            raise FullList("the list is full")
        self._bytes += _part(_Tag.RECORD, record._entries)
        self._count += 1
        return self._count - 1

    def __len__(self) -> int:
        return self._count

    def __bytes__(self) -> bytes:
        return bytes(self._bytes)
