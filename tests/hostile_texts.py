#!/usr/bin/env python3
"""Writes hostile texts of a mebibyte, or of so many bytes, to standard output, as a catalogue:
hostile_texts.py KIND [BYTES].

Of most kinds it is one text. Those that begin with "pair-" are two texts whose sets are hard to compare, and
"colliding-lines" is as many texts as have room. Those that begin with "rules-" are rules files; their last line, before
the line end, decides. Without a word it prints the kinds.
"""
import itertools
import string
import sys
from typing import Callable, Dict, List, Optional

SIZE = int(sys.argv[2]) if len(sys.argv) == 3 else 1 << 20


def filled(front: bytes, part: bytes, back: bytes) -> bytes:
    """`part` as often as there is room between `front` and `back`."""
    return front + part * ((SIZE - len(front) - len(back)) // len(part)) + back


def nested(arguments: int) -> bytes:
    """Twelve open nodes, each of so many arguments, the next node being the last of them."""
    text = b""
    for _ in range(12):
        text = b"a[" + b"1," * (arguments - 1) + (text or b"1") + b"]"
    return text


SYSTEM = b'CS[vertical,1],AXIS["h",up],LENGTHUNIT["metre",1]'
HEIGHT = b'VERTCRS["H",VDATUM["D"],' + SYSTEM


def height(*parts: bytes) -> bytes:
    """A vertical CRS with these parts after its unit."""
    return HEIGHT + b"".join(b"," + part for part in parts) + b"]"


def many(part: Callable[[int], bytes], length: int = SIZE - 200) -> List[bytes]:
    """`part(n)` for n = 0, 1, .., as many as have room in so many bytes."""
    parts, left = list[bytes](), length
    while (left := left - len(part(len(parts))) - 1) >= 0:
        parts.append(part(len(parts)))
    return parts


def reversed_pair(part: Callable[[int], bytes]) -> bytes:
    """Two sets of many members, in opposite orders."""
    parts = many(part)
    return height(*parts) + b"\n" + height(*reversed(parts))


def identifier(number: int) -> bytes:
    return b'ID["",%d]' % number


def usage(number: int, *identifiers: bytes) -> bytes:
    unit = b'LENGTHUNIT["m",1' + b"".join(b"," + it for it in identifiers) + b"]"
    return b"USAGE[VERTICALEXTENT[0,%d,%s]]" % (number, unit)


def repeated_pair(small: bytes, big: bytes, others: int) -> bytes:
    """Two sets that are the same: one has a short member many times, the other once, in a long spelling."""
    front = [usage(number) for number in range(1, others)]
    return height(*front, *many(lambda _: small, SIZE - 4000)) + b"\n" + height(big, *front)


def nested_pair(count: int) -> bytes:
    """Two sets of so many usages, whose units have all identifiers but one each, the second in opposite orders."""
    size = (SIZE - 200) // count
    identifiers = many(identifier, size - 60)
    usages = [[it for it in identifiers if it != left] for left in identifiers[-count:]]
    first = height(*(usage(0, *it) for it in usages))
    return first + b"\n" + height(*(usage(0, *reversed(it)) for it in reversed(usages)))


def lacking_pair() -> bytes:
    """Two sets of usages that differ in one: its unit has one identifier many times, those of the others have it and one
    more."""
    front = many(lambda number: usage(0, identifier(0), identifier(number + 2)), SIZE // 2)
    repeated = usage(0, *many(lambda _: identifier(0), SIZE // 2 - 500))
    return height(*front, repeated) + b"\n" + height(*front, usage(0, identifier(1)))


def shared_last_pair() -> bytes:
    """Two sets that are the same: a long member, and a short one, in one set many times, which has its last identifier."""
    last = identifier(1_000_000_000)
    long, short = usage(0, *many(identifier, SIZE // 2 - 500), last), usage(0, last)
    return height(long, *many(lambda _: short, SIZE // 2)) + b"\n" + height(long, short)


# The hasher of the map of groups: its state at first, and what it multiplies by.
FOLD_STATE, FOLD_MULTIPLIER, WORD = 0x243F6A8885A308D3, 0x9E3779B97F4A7C15, (1 << 64) - 1


def folded(first: int, second: int) -> int:
    """The state after two words, each of which had its part of the state put in by xor."""
    product = first * second
    return (product & WORD) ^ (product >> 64)


def colliding_lines() -> bytes:
    """Canonical texts whose bytes leave the hasher of the map in one state: it multiplies, and a word of the name is
    what the state is there, so that the product is 0 whatever word comes next."""
    back = b'",VDATUM["D"],' + b'CS[vertical,1],AXIS["h",up,ORDER[1],LENGTHUNIT["metre",1]]]'
    length = 9 + 7 + 8 + 8 + len(back)
    for name in itertools.product(string.ascii_lowercase.encode(), repeat=7):
        front = b'VERTCRS["' + bytes(name)
        low, high = (int.from_bytes(front[at : at + 8], "little") for at in (0, 8))
        word = folded(low ^ FOLD_STATE + length, high ^ FOLD_MULTIPLIER).to_bytes(8, "little")
        if all(32 <= byte < 127 and byte != ord('"') for byte in word):
            break
    return b"\n".join(front + word + b"%08d" % number + back for number in range(SIZE // (length + 1)))


KINDS = {
    "doubled-quotes": filled(b'VERTCRS["', b'""', b'"]'),
    "empty-texts": filled(b"VERTCRS[", b'"",', b'""]'),
    "open-quote": filled(b'VERTCRS["', b"x", b""),
    "letters-beyond-ascii": filled(b'VERTCRS["', "é".encode(), b'"]'),
    "zeros": filled(b"VERTCRS[", b"0", b"1]"),
    "nines": filled(b"VERTCRS[", b"9", b"]"),
    "long-numbers": filled(b"VERTCRS[", b"0.017453292519943295,", b"1]"),
    "short-numbers": filled(b"VERTCRS[", b"1,", b"1]"),
    "one-word": filled(b"", b"a", b""),
    "words": filled(b"VERTCRS[", b"a,", b"a]"),
    "opening": filled(b"", b"[", b""),
    "nodes": filled(b"VERTCRS[", b"a[1],", b"a[1]]"),
    "white-space": filled(b"VERTCRS", b" ", b"[1]"),
    "commas": filled(b"VERTCRS[1", b",", b"]"),
    "identifiers": filled(HEIGHT, b',ID["X",1]', b"]"),
    "dynamic-parts": filled(b'VERTCRS["H"', b",DYNAMIC[FRAMEEPOCH[1]]", b"]"),
    "model-identifiers": filled(
        b'VERTCRS["H",DYNAMIC[FRAMEEPOCH[2010],VELOCITYGRID["g"', b',ID["X",1]', b']],VDATUM["D"],' + SYSTEM + b"]"
    ),
    "anchor-epochs": filled(b'VERTCRS["H",VDATUM["D"', b",ANCHOREPOCH[2010.0]", b"]," + SYSTEM + b"]"),
    "twelve-open-nodes": nested(10_000),
    "twelve-open-nodes-of-a-mebibyte": nested(SIZE // 24 - 1),
}
MANY = {
    "colliding-lines": colliding_lines,
    "pair-identifiers": lambda: reversed_pair(identifier),
    "pair-usages": lambda: reversed_pair(usage),
    "pair-repeated-member": lambda: repeated_pair(
        usage(0, identifier(1)), usage(0, *[identifier(1)] * ((SIZE - 4000) // 10)), 40
    ),
    "pair-unlike-repeated-member": lambda: repeated_pair(
        usage(0, identifier(1)), usage(0, *many(identifier, SIZE - 4000)), 40
    ),
    "pair-lacking-member": lacking_pair,
    "pair-shared-last": shared_last_pair,
    "pair-40-nested": lambda: nested_pair(40),
    "pair-280-nested": lambda: nested_pair(280),
}


def lines(line: Callable[[int], bytes], last: bytes = b"") -> bytes:
    """`line(n)` for n = 0, 1, .., each a line, as many as have room, and the last line."""
    return b"".join(it + b"\n" for it in many(line, SIZE - len(last))) + last


def one_set(node: Callable[[int], bytes], last: bytes) -> bytes:
    """A set of `node(n)` for n = 0, 1, .., as many as have room, and the last node."""
    return b"SAME[" + b",".join([*many(node, SIZE - 6 - len(last)), last]) + b"]"


def frame(number: int) -> bytes:
    return b'DATUM["%d"]' % number


def pair_of_frames(number: int) -> bytes:
    return b'SAME[DATUM["a%d"],DATUM["b%d"]]' % (number, number)


def kind_of_parameter(number: int) -> bytes:
    return b'KIND[LENGTHUNIT,PARAMETER["a%d"]]' % number


# Files, by what their last line is: read, or refused.
RULES: Dict[str, Callable[[], bytes]] = {
    "rules-sets": lambda: lines(pair_of_frames),
    "rules-sets-and-a-repeated-node": lambda: lines(pair_of_frames, b'SAME[DATUM["c"],TRF["b0"]]'),
    "rules-one-set": lambda: one_set(frame, b'DATUM["last"]'),
    "rules-one-set-and-a-repeated-node": lambda: one_set(frame, frame(0)),
    "rules-units-of-one-name": lambda: one_set(
        lambda number: b'LENGTHUNIT["m",%d]' % (number + 1), b'LENGTHUNIT["m",0.5]'
    ),
    "rules-words": lambda: filled(b"UNCOUNTED[", b"anchor,", b"anchor]"),
    "rules-words-and-none": lambda: filled(b"UNCOUNTED[", b"anchor,", b"colour]"),
    "rules-kinds": lambda: lines(kind_of_parameter),
    "rules-kinds-and-a-repeated-name": lambda: lines(kind_of_parameter, b'KIND[ANGLEUNIT,PARAMETER["a0"]]'),
    "rules-blank-lines": lambda: filled(b"", b"\n", b"EQUAL[1]"),
    "rules-comments": lambda: filled(b"", b"#\xFF\n", b"EQUAL[1]"),
    "rules-long-name": lambda: filled(b'SAME[DATUM["', b"x", b'"],DATUM["D"]]'),
    "rules-ill-formed": lambda: filled(b'SAME[DATUM["', b"x", b'\xFF"]]'),
    "rules-twelve-open-nodes": lambda: lines(lambda _: b"#" * 999, b"SAME[" * 12 + b"1" + b"]" * 12),
    "rules-thirteen-open-nodes": lambda: lines(lambda _: b"#" * 999, b"SAME[" * 13 + b"1" + b"]" * 13),
    "rules-one-open-statement": lambda: filled(b"SAME[", b"SAME,", b"SAME"),
}


def main(words: List[str]) -> None:
    if not words:
        print("\n".join([*KINDS, *MANY, *RULES]))
    else:
        made: Optional[Callable[[], bytes]] = {**MANY, **RULES}.get(words[0])
        sys.stdout.buffer.write((made() if made else KINDS[words[0]]) + b"\n")


if __name__ == "__main__":
    main(sys.argv[1:])
