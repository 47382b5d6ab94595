#!/usr/bin/env python3
"""Writes a large catalogue to standard output, of the texts of examples/catalogue.txt that spell a CRS.

    big_catalogue.py CRSS SPELLINGS

It has CRSS CRSs, each with a name of its own, and each of them is spelled SPELLINGS times, one to 16: white space
and delimiters differ. The spellings of a CRS are CRSS lines apart. So `crsdesk group` finds CRSS groups of SPELLINGS
lines.
"""
import os
import sys
from typing import Iterator, Tuple

ROOT = os.path.dirname(os.path.dirname(os.path.abspath(__file__)))
HEADS = (
    b"GEOGCRS",
    b"GEODCRS",
    b"GEODETICCRS",
    b"GEOGRAPHICCRS",
    b"PROJCRS",
    b"PROJECTEDCRS",
    b"VERTCRS",
    b"VERTICALCRS",
    b"COMPOUNDCRS",
)
# Lines of the catalogue that begin as a CRS does and are refused, counted from 1.
REFUSED = (59, 78)


def respelled(text: bytes, spelling: int) -> bytes:
    """The text with `spelling % 8` spaces after each comma, and round delimiters from 8 on."""
    out = bytearray()
    quoted = False
    for byte in text:
        char = bytes([byte])
        quoted ^= char == b'"'
        if not quoted and char in b" \t":
            continue
        if not quoted and spelling >= 8:
            char = {b"[": b"(", b"]": b")"}.get(char, char)
        out += char
        if not quoted and char == b",":
            out += b" " * (spelling % 8)
    return bytes(out)


def texts() -> Iterator[Tuple[bytes, bytes]]:
    """Each text, as what comes before the end of its name and what comes after."""
    with open(os.path.join(ROOT, "examples/catalogue.txt"), "rb") as file:
        for number, line in enumerate(file.read().splitlines(), 1):
            if line.upper().startswith(HEADS) and number not in REFUSED:
                end = line.index(b'"', line.index(b'"') + 1)
                yield line[:end], line[end + 1 :]


def main(crss: int, spellings: int) -> None:
    out = sys.stdout.buffer
    parts = [[(respelled(front, n), respelled(rest, n)) for front, rest in texts()] for n in range(spellings)]
    for spelling in parts:
        for number in range(crss):
            front, rest = spelling[number % len(spelling)]
            out.write(b'%s %d"%s\n' % (front, number, rest))


if __name__ == "__main__":
    main(int(sys.argv[1]), int(sys.argv[2]))
