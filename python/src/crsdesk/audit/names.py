"""Names and texts as a report shows them: each character is visible, and none has an effect."""

from __future__ import annotations

import re

from .._shown import CONTROL, escape
from .report import Place

# What a name has that isn't shown as it is: control characters, bytes that aren't UTF-8 as Python has them, and what isn't
# seen at all, such as a space without width.
UNSHOWN = re.compile(
    f"{CONTROL.pattern[:-1]}\ud800-\udfff\u00ad\u034f\u115f\u1160\u17b4\u17b5\u180b-\u180f\u200b-\u200d\u2060-\u2064\u206a-\u206f"
    "\u2800\u3164\ufe00-\ufe0f\ufeff\uffa0\ufff0-\ufffb\U000e0000-\U000e0fff]"
)
# And white space that looks like a space.
UNSEEN = re.compile(f"{UNSHOWN.pattern[:-1]}\u00a0\u1680\u2000-\u200a\u202f\u205f\u3000]")


def character_shown(match: re.Match[str]) -> str:
    code = ord(match[0])
    if code > 0xFFFF:
        return f"\\U{code:08X}"
    return f"\\x{code - 0xDC00:02X}" if 0xDC80 <= code <= 0xDCFF else escape(match[0])


def readable(name: str) -> str:
    """A file's name as it is; one with control characters, with such as aren't seen, or with bytes that aren't UTF-8 as
    ``$'a\\xFF'``, which shells read back."""
    if not UNSHOWN.search(name):
        return name
    return "$'" + UNSHOWN.sub(character_shown, name.replace("\\", "\\\\").replace("'", "\\'")) + "'"


def visible(text: str) -> str:
    """A text with its control characters, and such as aren't seen, escaped."""
    return UNSHOWN.sub(character_shown, text)


def distinct(text: str) -> str:
    """A text in which every character differs visibly from any other: ``visible``, with spaces other than the space
    escaped."""
    return UNSEEN.sub(character_shown, text)


def place_shown(place: Place) -> str:
    """A place in a line: ``a.wkt``, ``a.txt:3``, ``a.gpkg (roads)``."""
    line = f":{place.line}" if place.line else ""
    layer = f" ({readable(place.layer)})" if place.layer else ""
    return f"{readable(place.file)}{line}{layer}"


def counted(number: int, one: str, several: str = "") -> str:
    """A number and what it counts: ``1 text``, ``1,013 texts``."""
    return f"{number:,} {one if number == 1 else several or one + 's'}"
