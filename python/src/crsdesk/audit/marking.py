"""Where two values differ: the characters that only one of them has."""

from __future__ import annotations

import difflib
import re
from typing import List, NamedTuple, Optional, Tuple

# Of longer values only the ends are compared.
MOST_WORDS = 2000
WORD = re.compile(r"\w+|\s|[^\w\s]")


class Piece(NamedTuple):
    """A piece of a value, and whether the other value has something else there."""

    text: str
    differs: bool


Pieces = List[Piece]


def pieces_of(first: Optional[str], second: Optional[str]) -> Tuple[Pieces, Pieces]:
    """Two values in pieces. A value beside none is in one piece."""
    if first is None or second is None:
        return whole(first), whole(second)
    words = WORD.findall(first), WORD.findall(second)
    if max(map(len, words)) > MOST_WORDS:
        return between_ends(first, second)
    sides: Tuple[Pieces, Pieces] = ([], [])
    for what, begin, end, other_begin, other_end in difflib.SequenceMatcher(None, *words, False).get_opcodes():
        texts = "".join(words[0][begin:end]), "".join(words[1][other_begin:other_end])
        found = (whole(texts[0]), whole(texts[1])) if what == "equal" else between_ends(*texts)
        for side, pieces in zip(sides, found):
            side += pieces
    return sides


def whole(value: Optional[str]) -> Pieces:
    return [Piece(value, False)] if value else []


def between_ends(first: str, second: str) -> Tuple[Pieces, Pieces]:
    """What lies between the ends that two values have in common differs."""
    front = common_front(first, second)
    back = common_front(first[front:][::-1], second[front:][::-1])
    sides: Tuple[Pieces, Pieces] = ([], [])
    for side, text in zip(sides, (first, second)):
        end = len(text) - back
        around = Piece(text[:front], False), Piece(text[front:end], True), Piece(text[end:], False)
        side += [piece for piece in around if piece.text]
    return sides


def common_front(first: str, second: str) -> int:
    """How many characters two texts have in common at their front."""
    for index, (one, other) in enumerate(zip(first, second)):
        if one != other:
            return index
    return min(len(first), len(second))
