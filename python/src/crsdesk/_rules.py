"""Rules: what counts as the same beyond the level, and what doesn't count (docs/RULES.md)."""

from __future__ import annotations

import os
import pathlib
import shutil
import sys
from typing import List, Optional, Tuple, Union

from . import _library

Path = Union[str, bytes, "os.PathLike[str]", "os.PathLike[bytes]"]
# What a statement is refused for. The numbers 1 to 8 have the names of refused texts.
MEANINGS = {
    41: "neither SAME, UNCOUNTED nor KIND",
    42: "no node or word that may stand here",
    43: "a node of another kind than the first of its set",
    44: "a node that stood in such a statement before",
}


def shipped(name: str) -> str:
    """The path of a rules file by its name: the file that is so called, or else one among the sources, below Python's
    prefix or beside the program ``crsdesk``, with the end ``.rules`` or without it."""
    if os.path.exists(name) or os.path.basename(name) != name:
        return name
    program = os.path.realpath(shutil.which("crsdesk") or "")
    prefixes = (sys.prefix, os.path.dirname(os.path.dirname(program)))
    sources = pathlib.Path(__file__).resolve().parents[3] / "rules"
    for folder in (sources, *(pathlib.Path(it, "share", "crsdesk", "rules") for it in prefixes)):
        for path in (folder / name, folder / f"{name}.rules"):
            if path.is_file():
                return str(path)
    return name


class RulesRefused(ValueError):
    """A rules file is refused.

    - ``line``: its first refused line, counted from 1
    - ``number``: 1 to 8 as of a text, 41 to 44 of a statement (docs/RULES.md, "What is refused")
    - ``place``: where in that line, in bytes from 0
    - ``piece``: the line
    - ``path``: the file, as the caller named it; None for a text
    """

    def __init__(self, line: int, number: int, place: int, piece: bytes = b"", path: Optional[Path] = None) -> None:
        super().__init__(line, number, place, piece, path)
        self.line = line
        self.number = number
        self.place = place
        self.piece = piece
        self.path = path

    @property
    def meaning(self) -> str:
        """What the number means, in a few words."""
        return MEANINGS.get(self.number) or _library.refusal_name(self.number)

    def __str__(self) -> str:
        file = f"{os.fsdecode(self.path)}: " if self.path is not None else ""
        before = self.piece[: self.place].decode("utf-8", "replace")
        shown = self.piece.decode("utf-8", "replace").rstrip("\r")
        return (
            f"{file}line {self.line}: refused {self.number} at {self.place}: {self.meaning}\n"
            f"{shown}\n{' ' * len(before)}^"
        )


class Rules:
    """The rules that rules files spell, from the bytes of each; the statements of several count together.

    They don't change. Two are equal, and hash alike, where they were read from the same files in the same order.
    Threads may use them at once. ``RulesRefused`` where a file is refused, ``TypeError`` for what is no text.
    """

    __slots__ = ("_held", "_texts")

    def __init__(self, *texts: Union[str, bytes]) -> None:
        self._texts: Tuple[bytes, ...] = tuple(map(file_bytes, texts))
        # What the library made of the texts: as many as threads made forms at once.
        self._held: List[_library.HeldRules] = [self._read()]

    @classmethod
    def from_file(cls, *paths: Path) -> Rules:
        """The rules that files spell. ``OSError`` if one can't be read; else raises as ``Rules`` does."""
        texts: List[bytes] = []
        for path in paths:
            with open(os.fspath(path), "rb") as file:
                texts.append(file.read())
        return cls._of(tuple(texts), paths)

    @classmethod
    def _of(cls, texts: Tuple[bytes, ...], paths: Tuple[Path, ...]) -> Rules:
        rules = cls.__new__(cls)
        rules._texts = texts
        rules._held = [rules._read(paths)]
        return rules

    @property
    def texts(self) -> Tuple[bytes, ...]:
        """The bytes of the files that they were read from."""
        return self._texts

    def _read(self, paths: Tuple[Path, ...] = ()) -> _library.HeldRules:
        """What the library makes of the texts."""
        held = _library.HeldRules()
        for index, text in enumerate(self._texts):
            told = held.add(text)
            if told:
                line, number, place = told
                piece = text.split(b"\n")[line - 1]
                raise RulesRefused(line, number, place, piece, paths[index] if paths else None)
        return held

    def _form(self, text: bytes, level: int) -> str:
        """The form of a text, at the level of this number of the library's."""
        try:
            held = self._held.pop()
        except IndexError:
            held = self._read()
        try:
            return held.form(text, level).decode()
        finally:
            self._held.append(held)

    def __eq__(self, other: object) -> bool:
        if not isinstance(other, Rules):
            return NotImplemented
        return self._texts == other._texts

    def __hash__(self) -> int:
        return hash(self._texts)

    def __repr__(self) -> str:
        count = len(self._texts)
        return f"<Rules of {count} file{'s'[: count != 1]}>"

    def __reduce__(self) -> Tuple[object, ...]:
        """By the bytes of the files, which are read again."""
        return type(self), self._texts

    def __dask_tokenize__(self) -> Tuple[bytes, ...]:
        """By what Dask names tasks."""
        return self._texts


def file_bytes(text: Union[str, bytes]) -> bytes:
    """The bytes of a rules file; a str is encoded in UTF-8."""
    if isinstance(text, str):
        return text.encode()
    if isinstance(text, (bytes, bytearray, memoryview)):
        return bytes(text)
    advice = "; Rules.from_file reads a file" if hasattr(text, "__fspath__") else ""
    raise TypeError(f"rules are read from str or bytes, not {type(text).__name__}{advice}")
