"""Names and values, each as one line can show it."""

from __future__ import annotations

import re
import shlex

# Control characters, ends of lines and paragraphs, what reverses the direction of a text, what shows as a blank or as
# nothing, and marks that compose with the character before them.
CONTROL = re.compile(
    "[\x00-\x1f\x7f-\xa0\xad\u0300-\u036f\u061c\u2000-\u200f\u2028-\u202f\u205f-\u206f\u3000\u3099\u309a\ufe00-\ufe0f\ufeff]"
)
ESCAPES = {"\0": "\\0", "\t": "\\t", "\n": "\\n", "\r": "\\r", "\\": "\\\\"}


def escape(character: str) -> str:
    """The escape of a character, as the library writes it: ``\\n``, ``\\x1B``, ``\\u2028``."""
    known = ESCAPES.get(character)
    return known or (f"\\x{ord(character):02X}" if ord(character) < 0x80 else f"\\u{ord(character):04X}")


def escaped(value: str) -> str:
    """A value with its control characters and backslashes escaped."""
    return CONTROL.sub(lambda match: escape(match[0]), value.replace("\\", "\\\\"))


def code_points(first: str, second: str) -> str:
    """The code points of the first characters in which two values differ, such as `` (U+0410 | U+0041)``; nothing if
    both are ASCII, or a value ends there."""
    pair = next((it for it in zip(first, second) if it[0] != it[1]), ("", ""))
    if "".join(pair).isascii() or '"' in pair:
        return ""
    return " ({} | {})".format(*(f"U+{ord(it):04X}" for it in pair))


def named(name: str) -> str:
    """A file's name as it is; one with control characters as ``$'a\\nb'``, which shells read back."""
    if not CONTROL.search(name):
        return name
    return "$'" + escaped(name).replace("'", "\\'") + "'"


def quoted(name: str) -> str:
    """A file's name as a word that shells read back."""
    return named(name) if CONTROL.search(name) else shlex.quote(name)
