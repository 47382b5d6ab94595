"""What a canonical text says of its CRS at its beginning and its end, and its areas of use. Only what is asked for is read:
a name from the front, identifiers from the end backwards, boxes where there are any."""

from __future__ import annotations

import re
from typing import List, Tuple

NAME = re.compile(r'[A-Z]+\["([^"]*(?:""[^"]*)*)"')
# The end of a canonical text, backwards: after its last bracket a remark, and then identifiers. A quoted text is one
# backwards too, as each quote in it is doubled.
REMARK_BACKWARDS = re.compile(r'\]"[^"]*(?:""[^"]*)*"\[KRAMER,')
ID_BACKWARDS = re.compile(
    r'\](?:\]"[^"]*(?:""[^"]*)*"\[(?:IRU|NOITATIC),){0,2}((?:"[^"]*(?:""[^"]*)*"|[^"\[\],]+)(?:,(?:"[^"]*(?:""[^"]*)*"|[^"\[\],]+)){1,2})\[DI,'
)
VALUE = re.compile(r'"([^"]*(?:""[^"]*)*)"|([^",]+)')
BOX = "BBOX["

Degrees = Tuple[float, float, float, float]


def name_of(canonical: str) -> str:
    """The CRS's name."""
    match = NAME.match(canonical)
    return match[1].replace('""', '"') if match else ""


def identifiers_of(canonical: str) -> Tuple[str, ...]:
    """The CRS's own identifiers, each as ``EPSG:4326``, in the text's order."""
    backwards = canonical[::-1]
    remark = REMARK_BACKWARDS.match(backwards, 1)
    at = remark.end() if remark else 1
    found: List[str] = []
    while True:
        match = ID_BACKWARDS.match(backwards, at)
        if match is None:
            return tuple(reversed(found))
        values = [quoted.replace('""', '"') if quoted else bare for quoted, bare in VALUE.findall(match[1][::-1])]
        found.append(":".join(values[:2]))
        at = match.end()


def boxes_of(canonical: str) -> Tuple[Degrees, ...]:
    """All areas of use of the CRS and its parts, each once: south, west, north and east."""
    found: List[Degrees] = []
    quotes = begin = 0
    at = canonical.find(BOX)
    while at >= 0:
        # Outside quotes an even number of them is before it.
        quotes += canonical.count('"', begin, at)
        if quotes % 2 == 0:
            numbers = canonical[at + len(BOX) : canonical.index("]", at)].split(",")
            south, west, north, east = map(float, numbers)
            found.append((south, west, north, east))
        begin, at = at, canonical.find(BOX, at + 1)
    return tuple(dict.fromkeys(found))
