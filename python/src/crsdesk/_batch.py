"""The canonical texts of many texts in few calls of the shared object (crsdesk_canon_each)."""

from __future__ import annotations

import ctypes
from typing import Any, Iterable, Iterator, List, Sequence, Union

import numpy

from ._library import LOADED, NO_ROOM, OK, refusal_name, unanswered
from ._refused import Refused

# struct crsdesk_entry.
ENTRY = numpy.dtype(
    [
        ("begin", "u8"),
        ("end", "u8"),
        ("written_end", "u8"),
        ("place", "u8"),
        ("number", "u4"),
        ("code", "u4"),
    ]
)
# The most bytes of texts that are read in one call.
MOST_BYTES = 1 << 22
# The room that is given for canonical texts, by the bytes of the texts; where it doesn't do, the rest has another.
ROOM_BY_TEXTS = 2
LEAST_ROOM = 1000
_canon_each = LOADED.crsdesk_canon_each
_size = ctypes.c_size_t


def spellings(texts: Iterable[bytes], level: int) -> Iterator[Union[bytes, Refused]]:
    """The canonical text of each text at a level, by the level's number, or its refusal, which doesn't keep the text."""
    return (found for run in runs_of(texts) for found in spellings_of(run, level))


def runs_of(texts: Iterable[bytes]) -> Iterator[List[bytes]]:
    """Texts that follow each other, of at most MOST_BYTES together, unless it is one that is longer."""
    run: List[bytes] = []
    length = 0
    for text in texts:
        if run and length + len(text) > MOST_BYTES:
            yield run
            run, length = [], 0
        run.append(text)
        length += len(text)
    yield run


def spellings_of(texts: Sequence[bytes], level: int) -> List[Union[bytes, Refused]]:
    """The same of texts that are read in one call, or in another where the room doesn't do."""
    entries = numpy.zeros(len(texts), dtype=ENTRY)
    lengths = numpy.fromiter(map(len, texts), dtype="u8", count=len(texts))
    entries["end"] = numpy.cumsum(lengths)
    entries["begin"] = entries["end"] - lengths
    whole = b"".join(texts)
    found: List[Union[bytes, Refused]] = []
    room = ROOM_BY_TEXTS * len(whole) + LEAST_ROOM
    code = NO_ROOM
    while code == NO_ROOM:
        left = entries[len(found) :]
        out = ctypes.create_string_buffer(room)
        done = _size()
        given = whole, _size(len(whole)), ctypes.c_void_p(left.ctypes.data), _size(len(left)), ctypes.c_uint32(level)
        code = _canon_each(*given, out, _size(room), ctypes.byref(done))
        if code not in (OK, NO_ROOM):
            raise unanswered(code)
        if not done.value:
            room *= 2
        found += answers_of(left[: done.value], out)
    return found


def answers_of(entries: Any, out: Any) -> List[Union[bytes, Refused]]:
    """The answer to each entry."""
    ends = entries["written_end"].tolist()
    whole = out[: ends[-1]] if ends else b""
    found: List[Union[bytes, Refused]] = [whole[begin:end] for begin, end in zip([0, *ends], ends)]
    for index in numpy.flatnonzero(entries["code"]).tolist():
        number = int(entries["number"][index])
        found[index] = Refused(None, number, refusal_name(number), int(entries["place"][index]))
    return found
