"""The calls of the shared object, whose header is crsdesk.h: bytes in, bytes out, refusals raised.

The lock of the interpreter is released during each call. A call's answers go to places that are kept for the next one:
a list of them, since threads call at once, and since a signal's handler may call between a call and its answer.

A call's arguments are texts, which ctypes passes as they are, and what from_param and byref make, once where it can be:
then nothing is converted in a call, which saves more than half of the way through ctypes.
"""

from __future__ import annotations

import ctypes
import functools
import os
import pathlib
from typing import Any, Callable, Dict, List, Optional, Tuple

from ._refused import Refused, Told

# The variable that names another shared object than the package's own.
LIBRARY = "CRSDESK_LIBRARY"
OK, REFUSED, SECOND_REFUSED, NO_MEMORY, NO_LEVEL, NO_ROOM = range(6)
KINDS = {1: "geodetic", 2: "geographic", 3: "projected", 4: "vertical", 5: "compound"}
# The room that is kept for answers; a longer text is given its own.
KEPT_ROOM = 1 << 16
# The number of pieces for which room is kept.
KEPT_PIECES = 256
# The lengths that are kept as they are passed; a longer one is made for its call.
KEPT_SIZES = 4096


class RefusalPlace(ctypes.Structure):
    """struct crsdesk_refusal."""

    _fields_ = [("place", ctypes.c_size_t), ("number", ctypes.c_uint32)]


class Explained(ctypes.Structure):
    """struct crsdesk_explained."""

    _fields_ = [
        ("refusal", RefusalPlace),
        ("line", ctypes.c_size_t),
        ("column", ctypes.c_size_t),
        ("node", ctypes.c_size_t),
    ]


class RulesRoom(ctypes.Structure):
    """struct crsdesk_rules."""

    _fields_ = [("hidden", ctypes.c_uint64 * 64)]


class RulesStanding(ctypes.Structure):
    """struct crsdesk_rules_standing."""

    _fields_ = [
        ("line", ctypes.c_size_t),
        ("place", ctypes.c_size_t),
        ("number", ctypes.c_uint32),
        ("code", ctypes.c_uint32),
    ]


class Form(ctypes.Structure):
    """struct crsdesk_form."""

    _fields_ = [("length", ctypes.c_size_t), ("refusal", RefusalPlace), ("code", ctypes.c_uint32)]


class Piece(ctypes.Structure):
    """struct crsdesk_piece."""

    _fields_ = [("bytes", ctypes.c_ubyte * 240), ("length", ctypes.c_size_t), ("code", ctypes.c_uint32)]


class Places:
    """Where the answers of one call go."""

    __slots__ = (
        "count",
        "ends",
        "length",
        "number",
        "out",
        "refusal",
        "to_count",
        "to_length",
        "to_number",
        "to_out",
        "to_refusal",
    )

    def __init__(self) -> None:
        self.out: Any = ctypes.create_string_buffer(KEPT_ROOM)
        self.to_out = ctypes.byref(self.out)
        self.ends: Any = (ctypes.c_size_t * KEPT_PIECES)()
        self.length = ctypes.c_size_t()
        self.count = ctypes.c_size_t()
        self.number = ctypes.c_uint32()
        self.refusal = RefusalPlace()
        self.to_length = ctypes.byref(self.length)
        self.to_count = ctypes.byref(self.count)
        self.to_number = ctypes.byref(self.number)
        self.to_refusal = ctypes.byref(self.refusal)


def load() -> ctypes.CDLL:
    """The shared object; an ImportError if it isn't there, or has not all calls, as an older one."""
    path = os.environ.get(LIBRARY) or str(pathlib.Path(__file__).resolve().parent / "libcrsdesk.so")
    try:
        library = ctypes.CDLL(path)
    except OSError as error:
        raise ImportError(f"crsdesk needs its shared object, beside it or where {LIBRARY} says: {error}") from None
    text, size = ctypes.c_char_p, ctypes.c_size_t
    # What is converted: nothing of most calls.
    arguments: Dict[str, List[Any]] = {
        "check": [],
        "canon": [],
        "same": [],
        "first_part": [],
        "canon_each": [],
        "difference_pieces": [text, size, text, size],
        "refusal_pieces": [text, size],
        "refusal_name": [ctypes.c_uint32],
        "version": [],
    }
    room = ctypes.POINTER(RulesRoom)
    arguments["rules_new"] = arguments["rules_free"] = [room]
    arguments["rules_add"] = [room, text, size]
    arguments["rules_form"] = [room, ctypes.c_uint32, text, size]
    arguments["rules_piece"] = [room, size]
    answers: Dict[str, Any] = {
        "rules_new": None,
        "rules_free": None,
        "rules_add": RulesStanding,
        "rules_form": Form,
        "rules_piece": Piece,
    }
    for name, types in arguments.items():
        try:
            function = getattr(library, f"crsdesk_{name}")
        except AttributeError as error:
            raise ImportError(f"crsdesk needs the shared object of its own version: {error}") from None
        function.restype = answers.get(name, ctypes.c_uint32)
        if types:
            function.argtypes = types
    return library


LOADED = load()
_check = LOADED.crsdesk_check
_canon = LOADED.crsdesk_canon
_same = LOADED.crsdesk_same
_first_part = LOADED.crsdesk_first_part
_difference_pieces = LOADED.crsdesk_difference_pieces
_refusal_pieces = LOADED.crsdesk_refusal_pieces
# A level by its number, a length, and the room of what is kept, as they are passed.
_LEVELS = ctypes.c_uint32.from_param(0), ctypes.c_uint32.from_param(1)
_size = ctypes.c_size_t.from_param
_SIZES = tuple(map(_size, range(KEPT_SIZES)))
_ROOM = _size(KEPT_ROOM)
_kept: List[Places] = []


def places() -> Places:
    try:
        return _kept.pop()
    except IndexError:
        return Places()


def fault(code: int, found: Places, first: bytes, second: Optional[bytes] = None) -> Exception:
    """What to raise for a code that isn't OK; the places are kept for another call."""
    number, place = found.refusal.number, found.refusal.place
    _kept.append(found)
    if code not in (REFUSED, SECOND_REFUSED):
        return unanswered(code)
    if second is None:
        return Refused(first, number, refusal_name(number), place)
    which, text = ("first", first) if code == REFUSED else ("second", second)
    return Refused(text, number, refusal_name(number), place, which)


def unanswered(code: int) -> Exception:
    """What to raise for a code that is neither OK nor a refusal."""
    if code == NO_MEMORY:
        return MemoryError("crsdesk: memory was refused; the same call may be made again")
    return RuntimeError(f"crsdesk: the library answered with the unknown code {code}")


class HeldRules:
    """Rules in memory of their own, for one call at a time."""

    __slots__ = ("_room",)

    def __init__(self) -> None:
        self._room = RulesRoom()
        LOADED.crsdesk_rules_new(self._room)

    def __del__(self, free: Callable[[RulesRoom], None] = LOADED.crsdesk_rules_free) -> None:
        free(self._room)

    def add(self, file: bytes) -> Optional[Tuple[int, int, int]]:
        """Adds the rules of a file. The answer is None, or its first refused line, the refusal's number and its place
        in the line; then the rules are as before."""
        told = LOADED.crsdesk_rules_add(self._room, file, len(file))
        if told.code not in (OK, REFUSED):
            raise unanswered(told.code)
        return (told.line, told.number, told.place) if told.code else None

    def form(self, text: bytes, level: int) -> bytes:
        """The form of a text, piece by piece."""
        told = LOADED.crsdesk_rules_form(self._room, level, text, len(text))
        if told.code == REFUSED:
            number, place = told.refusal.number, told.refusal.place
            raise Refused(text, number, refusal_name(number), place)
        if told.code:
            raise unanswered(told.code)
        pieces: List[bytes] = []
        start = 0
        while start < told.length:
            piece = LOADED.crsdesk_rules_piece(self._room, start)
            pieces.append(bytes(piece)[: piece.length])
            start += piece.length
        return b"".join(pieces)


def check(text: bytes) -> str:
    length = len(text)
    size = _SIZES[length] if length < KEPT_SIZES else _size(length)
    found = places()
    code = _check(text, size, found.to_number, found.to_refusal)
    if code:
        raise fault(code, found, text)
    kind = KINDS[found.number.value]
    _kept.append(found)
    return kind


def canon_bytes(text: bytes, level: int) -> bytes:
    length = len(text)
    if length > KEPT_ROOM // 2:
        return long_canon(text, level)
    try:
        found = _kept.pop()
    except IndexError:
        found = Places()
    size = _SIZES[length] if length < KEPT_SIZES else _size(length)
    code = _canon(text, size, _LEVELS[level], found.to_out, _ROOM, found.to_length, found.to_refusal)
    if code:
        if code == NO_ROOM:
            _kept.append(found)
            return long_canon(text, level)
        raise fault(code, found, text)
    answer: bytes = found.out[: found.length.value]
    _kept.append(found)
    return answer


def long_canon(text: bytes, level: int) -> bytes:
    """The same of a text whose answer may need more room than is kept."""
    found = places()
    given = text, _size(len(text)), _LEVELS[level]
    code, answer = in_room(found, lambda *room: _canon(*given, *room, found.to_refusal), len(text) + len(text) // 8)
    if code:
        raise fault(code, found, text)
    _kept.append(found)
    return answer


def same(first: bytes, second: bytes, level: int) -> bool:
    found = places()
    given = first, _size(len(first)), second, _size(len(second)), _LEVELS[level]
    code = _same(*given, found.to_number, found.to_refusal)
    if code:
        raise fault(code, found, first, second)
    answer = found.number.value == 1
    _kept.append(found)
    return answer


def first_part(first: bytes, second: bytes, level: int) -> str:
    found = places()
    given = first, _size(len(first)), second, _size(len(second)), _LEVELS[level]
    code = _first_part(*given, found.to_out, _ROOM, found.to_length, found.to_refusal)
    if code:
        raise fault(code, found, first, second)
    answer: str = found.out[: found.length.value].decode()
    _kept.append(found)
    return answer


def in_room(found: Places, call: Callable[[Any, Any, Any], Any], room: int = KEPT_ROOM) -> Tuple[int, bytes]:
    """The code of a call that writes an answer of any length, and the answer. It is given a buffer, its room, and where
    its length goes; another buffer is made where it needs more room."""
    out = found.out if room <= KEPT_ROOM else ctypes.create_string_buffer(room)
    code = call(ctypes.byref(out), ctypes.c_size_t(len(out)), found.to_length)
    while code == NO_ROOM:
        out = ctypes.create_string_buffer(found.length.value)
        code = call(ctypes.byref(out), ctypes.c_size_t(len(out)), found.to_length)
    return code, out[: found.length.value] if code == OK else b""


def pieces_from(found: Places, call: Callable[..., Any]) -> Tuple[int, List[str]]:
    """The code of a call that answers pieces, and those that its buffers have. It is given a buffer, its room, where its
    length goes, an array, its room, and where its count goes; others are made where one needs more room."""
    out, ends = found.out, found.ends
    found.count.value = 0
    while True:
        rooms = ctypes.c_size_t(len(out)), ctypes.c_size_t(len(ends))
        code = call(ctypes.byref(out), rooms[0], found.to_length, ctypes.byref(ends), rooms[1], found.to_count)
        if code != NO_ROOM:
            break
        if found.length.value > len(out):
            out = ctypes.create_string_buffer(found.length.value)
        if found.count.value > len(ends):
            ends = (ctypes.c_size_t * found.count.value)()
    marks: List[int] = ends[: found.count.value]
    whole = out[: marks[-1]] if marks else b""
    return code, [whole[begin:end].decode("utf-8", "replace") for begin, end in zip([0, *marks], marks)]


def difference_pieces(first: bytes, second: bytes, level: int) -> List[str]:
    """Path, first and second of each part that differs, one after the other."""
    found = places()
    given = first, len(first), second, len(second), _LEVELS[level]
    code, pieces = pieces_from(found, lambda *rooms: _difference_pieces(*given, *rooms, found.to_refusal))
    if code:
        raise fault(code, found, first, second)
    _kept.append(found)
    return pieces


def explained(text: bytes, number: int, place: int) -> Optional[Told]:
    """The explanation of this refusal of a text; None if the text isn't refused so."""
    found, where = places(), Explained()
    code, pieces = pieces_from(found, lambda *rooms: _refusal_pieces(text, len(text), *rooms, ctypes.byref(where)))
    _kept.append(found)
    if code not in (OK, REFUSED):
        raise unanswered(code)
    if code == OK or (where.refusal.number, where.refusal.place) != (number, place):
        return None
    piece, line, _, at_place, *sentences = pieces[:7]
    shown = piece.rstrip("\n"), line.rstrip("\n"), tuple(pieces[7:])
    return Told(where.line, where.column, *shown, at_place, *sentences)


@functools.lru_cache(maxsize=None)
def refusal_name(number: int) -> str:
    found = places()
    code = LOADED.crsdesk_refusal_name(number, found.to_out, _ROOM, found.to_length)
    name: bytes = b"" if code else found.out[: found.length.value]
    _kept.append(found)
    return name.decode("ascii")


def version() -> str:
    found = places()
    LOADED.crsdesk_version(found.to_out, _ROOM, found.to_length)
    name: bytes = found.out[: found.length.value]
    _kept.append(found)
    return name.decode("ascii")
