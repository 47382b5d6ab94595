"""The refusal of a text, explained so that a person can repair it. The words are the library's."""

from __future__ import annotations

from typing import List, NamedTuple, Optional, Tuple

FROM_USER = "In Python, Crs.from_user has PROJ read it, where osgeo or pyproj is installed."


class Told(NamedTuple):
    """What the library explains of a refusal (crsdesk_refusal_pieces); a refusal made by hand has line 0."""

    line: int
    column: int
    piece: str
    expected_line: str
    expected: Tuple[str, ...]
    found: str
    open_or_meant: str
    meaning: str
    hints: str


NOTHING = Told(0, 0, "", "", (), "", "", "", "")


class Refused(ValueError):
    """A text spells no CRS.

    - ``number``: 1 to 8 of the text, 11 to 13 of its shape, 21 to 29 of its values (docs/REFUSALS.md)
    - ``name``: the number's name, such as ``UnexpectedEnd``
    - ``place``: the byte from which the text can't be one that spells a CRS, counted from 0; at most the length of the
      text in UTF-8
    - ``line``: the line of that byte, counted from 1; lines end at line feeds
    - ``column``: the character of that line, counted from 1
    - ``expected``: what could stand at the place, such as ``("PRIMEM", "CS")``; empty if that isn't known
    - ``text``: the text, as bytes; None if it isn't kept, such as by a ``Catalogue``
    - ``which``: ``"first"`` or ``"second"`` if two texts are compared, else None
    - ``proj``: why PROJ's reading isn't taken, in a line, if PROJ was asked (``Crs.from_user``), else None

    The mistake is often before the place. ``str`` of a refusal has the piece of the text with a caret under the place,
    what is expected there, what the number means, and hints if the text shows what it is.
    """

    __slots__ = ("_told", "is_of_crs", "name", "number", "place", "proj", "text", "which")

    def __init__(
        self,
        text: Optional[bytes],
        number: int,
        name: str,
        place: int,
        which: Optional[str] = None,
        told: Optional[Told] = None,
        proj: Optional[str] = None,
    ) -> None:
        # The text isn't an argument of the exception, so that it is freed where it isn't kept.
        super().__init__(number, name, place, which)
        self.text = text
        self.number = number
        self.name = name
        self.place = place
        self.which = which
        self.proj = proj
        self._told = told
        # Raised by Crs(text), beside which there is Crs.from_user.
        self.is_of_crs = False

    @property
    def told(self) -> str:
        """The library's explanation, some lines."""
        return "\n".join(self._lines())

    @property
    def _parts(self) -> Told:
        """The library's explanation; asked for once, when it is first needed."""
        if self._told is None and self.text is not None:
            # The library's module raises refusals, so it is imported after this one.
            from ._library import explained

            self._told = explained(self.text, self.number, self.place)
        return self._told or NOTHING

    def kept(self, with_text: bool = False) -> Refused:
        """The same refusal to keep: without the calls that it was raised in, and without the text unless asked."""
        text, told = (self.text, self._told) if with_text else (None, self._parts)
        again = Refused(text, self.number, self.name, self.place, self.which, told, self.proj)
        again.is_of_crs = self.is_of_crs
        return again

    @property
    def line(self) -> int:
        """The line of the place, counted from 1."""
        return self._parts.line

    @property
    def column(self) -> int:
        """The character of the line at the place, counted from 1; a byte that is no character counts as one."""
        return self._parts.column

    @property
    def expected(self) -> Tuple[str, ...]:
        """What could stand at the place: for 11 to 13 keywords, ``a number``, ``a text in quotes``, ``a word``, and ``its
        closing delimiter`` where the node may end; for 21 the words that are known; for 25 the dimension. Else empty.
        """
        return self._parts.expected

    @property
    def keyword(self) -> str:
        """The keyword at the place, in capitals, where no CRS that is read has a node of this name there, such as
        ``BOUNDCRS``; nothing if it is misspelt, and where the number isn't 11."""
        return self._parts.found if self.number == 11 and not self._parts.open_or_meant else ""

    @property
    def meaning(self) -> str:
        """What the number means, in a sentence."""
        return self._parts.meaning

    @property
    def hint(self) -> Optional[str]:
        """What is open, which name was meant, which units are asked for, what the text is and what to do with it, in a
        line or two; None if none of it is known."""
        return "\n".join(self.hints_of_file()) or None

    @property
    def summary(self) -> str:
        """The line that the command ``crsdesk check`` prints, such as ``refused 7 UnexpectedEnd at 11``."""
        return f"refused {self.number} {self.name} at {self.place}"

    def piece(self) -> str:
        """The piece of the line at the place, and below it a caret under the place, without a line end."""
        return self._parts.piece

    def told_of_file(self, line: int = 0) -> str:
        """What ``str`` has, for a command line that names a file with the text, or with the text in a line."""
        return "\n".join([*self._lines(line), *filter(None, [self.proj])])

    def hints_of_file(self, line: int = 0) -> List[str]:
        """The lines of ``hint``, for such a command line."""
        return [it for it in (self._parts.open_or_meant, self._hints(line)) if it]

    def _lines(self, line: int = 0) -> List[str]:
        """The lines of the library's explanation, without the number of the line in a text that is one."""
        told = self._parts
        if not told.line:
            return [self.summary]
        head = (
            f"{self.summary}, column {told.column}"
            if line
            else f"{self.summary}, line {told.line}, column {told.column}"
        )
        said = [head, told.piece, told.expected_line, told.open_or_meant, told.meaning, self._hints(line)]
        return [it for it in said if it]

    def _hints(self, line: int) -> str:
        hints = self._parts.hints
        return hints.replace("@FILE", f'"$(sed -n {line}p FILE)"') if line else hints

    def __str__(self) -> str:
        told = "\n".join([*self._lines(), *filter(None, [self.proj, self._advice()])])
        return f"the {self.which} text: {told}" if self.which else told

    def _advice(self) -> str:
        """That another call reads the text, where it is in a form that PROJ is asked for."""
        if not self.is_of_crs or self.text is None:
            return ""
        from ._foreign import is_foreign

        return FROM_USER if is_foreign(self.text) else ""

    def __repr__(self) -> str:
        return f"Refused(number={self.number}, name={self.name!r}, place={self.place})"

    def __reduce__(self) -> Tuple[object, ...]:
        arguments = self.text, self.number, self.name, self.place, self.which, self._told, self.proj
        return Refused, arguments, {"is_of_crs": self.is_of_crs}
