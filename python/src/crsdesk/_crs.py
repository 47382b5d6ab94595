"""What the package offers over the calls of the shared object."""

from __future__ import annotations

import functools
import hashlib
import os
import threading
from typing import (
    TYPE_CHECKING,
    Any,
    Callable,
    Dict,
    Iterator,
    List,
    Literal,
    NamedTuple,
    Optional,
    Tuple,
    Type,
    Union,
    cast,
)

from . import _facts, _library
from ._difference import Difference, differences_of
from ._library import canon_bytes
from ._refused import Refused
from ._rules import Rules

if TYPE_CHECKING:
    from typing_extensions import Self

Text = Union[str, bytes, bytearray, memoryview, "Crs"]
Bound = Tuple[Tuple[int, str], ...]
Level = Literal["full", "definition"]
LEVELS: Dict[str, int] = {"full": 0, "definition": 1}
BLANK = b" \t\r\n"
# The call that has a package's object write WKT2:2019.
TO_WKT = {
    "fiona": 'to_wkt(version="WKT2_2019")',
    "osgeo": 'ExportToWkt(["FORMAT=WKT2_2019"])',
    "pyproj": "to_wkt()",
    "rasterio": 'to_wkt(version="WKT2_2019")',
}
# The names of the version that a Crs writes, as other packages call it.
WKT2_2019 = ("WKT2_2019", "WKT2:2019", "WKT2")
# The parts of a CRS that may be bound by a transformation, by their numbers in ``Foreign.bound``.
BOUND_PARTS = ("transformation", "horizontal/transformation", "vertical/transformation")
MOST_SHOWN = 3


def bytes_of(text: Text) -> bytes:
    """The bytes of a text: a str in UTF-8, bytes as they are, those that a Crs was read from. TypeError and ValueError
    for what is no text."""
    if isinstance(text, bytes):
        return text
    if isinstance(text, str):
        try:
            return text.encode()
        except UnicodeEncodeError as error:
            what = f"U+{ord(text[error.start]):04X} at character {error.start}"
            raise ValueError(f"a lone surrogate, {what}, which UTF-8 doesn't have; hand over bytes") from None
    if isinstance(text, Crs):
        return text.text
    if isinstance(text, (bytearray, memoryview)):
        return bytes(text)
    raise TypeError(f"a text is str, bytes or Crs, not {type(text).__name__}{advice_on(text)}")


def advice_on(found: object) -> str:
    """What to pass instead of what is no text, after a semicolon; nothing if that isn't known."""
    package = type(found).__module__.partition(".")[0]
    # A table of geometries has a CRS, and a to_wkt that writes those.
    if hasattr(found, "crs"):
        return "; hand over its .crs to Crs.from_user"
    if hasattr(found, "to_wkt") or hasattr(found, "ExportToWkt"):
        return f"; hand over its {TO_WKT.get(package, 'to_wkt()')}, in WKT2:2019 (Crs.from_user does)"
    if hasattr(found, "__fspath__") or hasattr(found, "read"):
        return "; read the file, and hand over its bytes (Crs.from_file does)"
    return ""


def text_of_user(found: object) -> Text:
    """The text in WKT2:2019 that another package's CRS writes of itself. TypeError for what writes none."""
    asked: Any = found
    if hasattr(found, "ExportToWkt"):
        text = asked.ExportToWkt(["FORMAT=WKT2_2019"])
    elif hasattr(found, "to_wkt") and not hasattr(found, "crs"):
        try:
            text = asked.to_wkt(version="WKT2_2019")
        except TypeError:  # a CRS of a package that writes only one version
            text = asked.to_wkt()
    else:
        advice = "; Crs.from_file reads a file" if hasattr(found, "__fspath__") else advice_on(found)
        if type(found) is int:
            advice = f'; a code is a text with its authority: "EPSG:{found}"'
        raise TypeError(f"a CRS is a text or another package's object with to_wkt, not {type(found).__name__}{advice}")
    if not isinstance(text, (str, bytes)):
        raise TypeError(f"the to_wkt of {type(found).__name__} answers {type(text).__name__}, and no text")
    return text


def number_of(level: str) -> int:
    """The library's number of a level. TypeError and ValueError for what is no level."""
    if not isinstance(level, str):
        raise TypeError(f"a level is a str, 'full' or 'definition', not {type(level).__name__}")
    try:
        return LEVELS[level]
    except KeyError:
        raise ValueError(f"no such level: {level!r}; there are 'full' and 'definition'") from None


def check(text: Text) -> str:
    """The kind of CRS that a text spells: ``geodetic``, ``geographic``, ``projected``, ``vertical`` or ``compound``.

    Raises ``Refused`` if it spells none, ``MemoryError`` if memory is refused, and ``TypeError`` or
    ``ValueError`` for what is no text: ``None``, a number, a str with a lone surrogate. So do the other calls.
    docs/REFUSALS.md and docs/GRAMMAR.md have the rules.
    """
    return _library.check(bytes_of(text))


def canon(text: Text, level: Level = "full", rules: Optional[Rules] = None) -> str:
    """The canonical text of the CRS that a text spells, at a level (docs/CANONICAL.md).

    ``full`` keeps everything that the text says; ``definition`` leaves identifiers, usages and remarks out. Two texts
    have equal canonical texts exactly if their CRSs are the same at the level. ``ValueError`` for another level.

    Under rules it is the form: two texts have equal forms exactly if they are the same under the rules
    (docs/RULES.md). ``ValueError`` for a ``Crs`` under other rules.
    """
    if rules is not None:
        return form_of(text, level, rules)
    try:
        number = LEVELS[level]
    except (KeyError, TypeError):
        number = number_of(level)
    if type(text) is bytes:
        return canon_bytes(text, number).decode()
    if isinstance(text, Crs):
        return text.canonical(level)
    return canon_bytes(bytes_of(text), number).decode()


def digest(text: Text, level: Level = "full", rules: Optional[Rules] = None) -> str:
    """A short key: the SHA-256 of the canonical text, or of the form under rules, in hexadecimal, 64 characters.

    The same CRS has the same digest; another CRS has another, except for a collision of SHA-256; none is known. It
    stays the same from version to version, like canonical texts, and is what the command ``crsdesk digest`` writes.
    Raises like ``canon``.
    """
    return hashlib.sha256(canon(text, level, rules).encode()).hexdigest()


def form_of(text: Text, level: Level, rules: Rules) -> str:
    """The form of a text under rules, which are the ``Crs``'s own if the text is one under rules."""
    asked = rules_of(rules, text)
    assert asked is not None
    if not isinstance(text, Crs):
        return asked._form(bytes_of(text), number_of(level))
    if text.rules is not None:
        return text.canonical(level)
    return text._with_bound(asked._form(text.text, number_of(level)))


def rules_of(rules: Optional[Rules], *texts: Text) -> Optional[Rules]:
    """The rules by which texts are compared: the rules that are asked for, and the rules of each ``Crs``.
    ``ValueError`` if they aren't the same ones, ``TypeError`` for what are no rules."""
    if rules is not None and not isinstance(rules, Rules):
        raise TypeError(f"rules are crsdesk.Rules, not {type(rules).__name__}")
    for text in texts:
        if isinstance(text, Crs) and text.rules is not None:
            if rules is not None and rules != text.rules:
                raise ValueError("a Crs is compared only under its own rules; pass its text, or Crs(crs.text)")
            rules = text.rules
    return rules


def each_of(form: Callable[[Text], str], first: Text, second: Text) -> Tuple[str, str]:
    """The forms of two texts; the refusal of one says which."""
    forms: List[str] = []
    for which, text in (("first", first), ("second", second)):
        try:
            forms.append(form(text))
        except Refused as refused:
            raise Refused(refused.text, refused.number, refused.name, refused.place, which) from None
    return forms[0], forms[1]


def same(first: Text, second: Text, level: Level = "full", rules: Optional[Rules] = None) -> bool:
    """Whether two texts spell the same CRS at a level (docs/SAMENESS.md), or are the same under rules (docs/RULES.md).

    ``Refused`` has in ``which`` the text that spells none; where the first does, the second isn't judged. A ``Crs``
    under rules brings its rules; ``ValueError`` if others are asked for.
    """
    number = number_of(level)
    asked = rules_of(rules, first, second)
    if asked is not None:
        under = asked
        one, other = each_of(lambda text: form_of(text, level, under), first, second)
        return one == other
    return _library.same(bytes_of(first), bytes_of(second), number) and not bound_parts(first, second)


def difference(first: Text, second: Text, level: Level = "full", rules: Optional[Rules] = None) -> Optional[str]:
    """The path of the first part in which the CRSs of two texts differ, such as ``datum/ellipsoid/flattening``; None if
    they are the same (docs/SAMENESS.md, "The parts that differ"). Under rules the forms are compared. Raises like
    ``same``."""
    number = number_of(level)
    path = _library.first_part(*compared(first, second, number, rules), number)
    if not path:
        for part in bound_parts(first, second):
            return part.path
    return path or None


def differences(first: Text, second: Text, level: Level = "full", rules: Optional[Rules] = None) -> List[Difference]:
    """All parts in which the CRSs of two texts differ, in their order; none if they are the same. Under rules the forms
    are compared.

    The path of the first begins with the path that ``difference`` returns, which a parameter's name may follow. Raises
    like ``same``.
    """
    number = number_of(level)
    pieces = _library.difference_pieces(*compared(first, second, number, rules), number)
    return differences_of(pieces) + bound_parts(first, second)


def compared(first: Text, second: Text, level: int, rules: Optional[Rules]) -> Tuple[bytes, bytes]:
    """The texts whose parts are compared: under rules the forms."""
    asked = rules_of(rules, first, second)
    if asked is None:
        return bytes_of(first), bytes_of(second)
    under = asked
    one, other = each_of(lambda text: under._form(bytes_of(text), level), first, second)
    return one.encode(), other.encode()


def bound_parts(first: Text, second: Text) -> List[Difference]:
    """The transformations in which two CRSs differ: a text has none, a ``Crs`` may."""
    bound = [dict(it._bound) if isinstance(it, Crs) else {} for it in (first, second)]
    pairs = (
        [(path, bound[0].get(part), bound[1].get(part)) for part, path in enumerate(BOUND_PARTS)] if any(bound) else []
    )
    return [Difference(path, one, other) for path, one, other in pairs if one != other]


@functools.total_ordering
class Crs:
    """A CRS, from a text that spells it. It doesn't change, and goes wherever a text goes.

    Two are equal, and hash alike, exactly if they are the same with everything that their texts say: so the keys of
    a ``dict`` and the members of a ``set`` are CRSs. ``str`` of it is the canonical text; by that they are sorted.

    With ``rules`` the form under them replaces the canonical text in all this (docs/RULES.md): it is the key. CRSs
    under different rules are unequal; to sort or compare them raises ``ValueError``.

    Raises as ``check`` does.
    """

    __slots__ = ("__weakref__", "_bound", "_definition", "_full", "_kind", "_read_by", "_rules", "_text")

    def __init__(self, text: Text, *, rules: Optional[Rules] = None) -> None:
        is_plain = rules is None and not isinstance(text, Crs)
        self._rules: Optional[Rules] = None if is_plain else rules_of(rules, text)
        self._definition: Optional[str] = None
        self._kind: Optional[str] = None
        self._bound: Bound = text._bound if isinstance(text, Crs) else ()
        self._read_by: Optional[str] = text._read_by if isinstance(text, Crs) else None
        self._text: bytes = text if type(text) is bytes else bytes_of(text)
        try:
            if isinstance(text, Crs) and text._rules == self._rules:
                self._full: str = text._full
            else:
                self._full = self._with_bound(self._form_at(0))
        except Refused as refused:
            refused.is_of_crs = True
            raise

    @classmethod
    def from_file(
        cls, path: Union[str, bytes, os.PathLike[str], os.PathLike[bytes]], *, rules: Optional[Rules] = None
    ) -> Self:
        """The CRS that a file's bytes spell. ``OSError`` if it can't be read, ``TypeError`` for what is no path, as
        the number of an open file; else raises as ``check`` does."""
        with open(os.fspath(path), "rb") as file:
            return cls._made(file.read(), rules)

    @classmethod
    def _made(cls, text: Text, rules: Optional[Rules]) -> Self:
        """By the ``__init__`` of a subclass too, which may not take rules."""
        return cls(text) if rules is None else cls(text, rules=rules)

    @classmethod
    def from_user(cls, found: object, *, rules: Optional[Rules] = None) -> Self:
        """The CRS of another package's object, of pyproj, rasterio, fiona or osgeo, or of what else has ``to_wkt``,
        which is asked for WKT2:2019; or of a text in any form that PROJ reads.

        A text in WKT2 is read as ``Crs(text)`` does. One in another form (WKT1 of GDAL or Esri, a BOUNDCRS, a PROJ
        string, PROJJSON, ``EPSG:4326``, a URN) is read by PROJ, if osgeo or pyproj is installed: ``read_by`` says
        which, ``text`` is what PROJ wrote, and ``transformation`` is a bound CRS's, which counts. What PROJ warns of,
        repairs or passes over is ``Refused``, with its words in ``proj``. ``TypeError`` for an object that is neither;
        else raises as ``check`` does.
        """
        if isinstance(found, cls) and rules_of(rules, found) == found.rules:
            return found
        if not isinstance(found, (str, bytes, bytearray, memoryview, Crs)):
            found = text_of_user(found)
        try:
            return cls._made(found, rules)
        except Refused as refused:
            refused.is_of_crs = False
            return cls._read_by_proj(refused, rules)

    @classmethod
    def _read_by_proj(cls, refused: Refused, rules: Optional[Rules]) -> Self:
        """The CRS that PROJ reads in a refused text of another form; the refusal where it isn't taken."""
        from . import _foreign

        text = refused.text or b""
        if not _foreign.is_foreign(text):
            raise refused
        try:
            found = _foreign.read(text)
        except _foreign.NotRead as error:
            refused.proj = f"PROJ doesn't read it either: {error}"
            raise refused from None
        try:
            crs = cls._made(found.text, rules)
        except Refused as again:
            again.is_of_crs, again.proj = False, f"{found.reader} wrote this text of {found.form}"
            raise again from None
        crs._bind(found.bound, found.reader)
        return crs

    def _bind(self, bound: Bound, read_by: Optional[str]) -> None:
        """Says by what it was read, and adds transformations to what counts."""
        self._read_by = read_by
        self._bound = bound
        self._full = self._with_bound(self._full)

    def _with_bound(self, canonical: str) -> str:
        if not self._bound:
            return canonical
        from . import _foreign

        return _foreign.bound_text(canonical, self._bound)

    def _form_at(self, level: int) -> str:
        """Its form without rules, or under them, without transformations."""
        if self._rules is not None:
            return self._rules._form(self._text, level)
        return canon_bytes(self._text, level).decode()

    @property
    def rules(self) -> Optional[Rules]:
        """The rules under which it is compared; None if everything counts."""
        return self._rules

    @property
    def text(self) -> bytes:
        """The text that it was read from; if PROJ read it, what PROJ wrote, without transformations."""
        return self._text

    @property
    def name(self) -> str:
        """Its name."""
        return _facts.name_of(self._plain)

    @property
    def identifiers(self) -> Tuple[str, ...]:
        """Its own identifiers, such as ``("EPSG:4326",)``: authority and code of each, in the order of the canonical
        text."""
        return _facts.identifiers_of(self._plain)

    @property
    def read_by(self) -> Optional[str]:
        """Which PROJ read a text in another form, such as ``PROJ 9.1.1, EPSG v10.076`` (``from_user``); None if the
        library itself read it."""
        return self._read_by

    @property
    def transformation(self) -> Optional[str]:
        """Target and transformation of a bound CRS, and of bound members of a compound CRS, as PROJ writes them; None
        if there is none. They count at both levels."""
        return ",".join(text for _, text in self._bound) or None

    @property
    def _plain(self) -> str:
        """The canonical text without transformations and without rules."""
        plain = self._bound or self._rules is not None
        return canon_bytes(self._text, 0).decode() if plain else self._full

    @property
    def kind(self) -> str:
        """``geodetic``, ``geographic``, ``projected``, ``vertical`` or ``compound``."""
        if self._kind is None:
            self._kind = _library.check(self._text)
        return self._kind

    def canonical(self, level: Level = "full") -> str:
        """The canonical text, or the form under its rules, which ``canon`` writes; for a bound CRS, inside the text of
        a ``BOUNDCRS``. ``ValueError`` for a level that isn't there."""
        if number_of(level) == 0:
            return self._full
        if self._definition is None:
            self._definition = self._with_bound(self._form_at(1))
        return self._definition

    def digest(self, level: Level = "full") -> str:
        """The SHA-256 of ``canonical`` in hexadecimal: a key of 64 characters, which ``digest`` returns."""
        return hashlib.sha256(self.canonical(level).encode()).hexdigest()

    def to_wkt(self, version: str = "WKT2_2019") -> str:
        """The canonical text, with transformations and without rules: what pyproj, geopandas, rasterio and fiona ask a
        CRS for. ``ValueError`` for another version than WKT2:2019."""
        if getattr(version, "value", version) not in WKT2_2019:
            raise ValueError(
                f"a Crs writes WKT2:2019, not {version!r}; hand it over to pyproj.CRS, which writes others"
            )
        return self._with_bound(self._plain)

    def same(self, other: Text, level: Level = "full") -> bool:
        """Whether another CRS, or the one that another text spells, is the same at a level; ``==`` counts everything.

        It compares the canonical texts, or the forms under its rules, which are equal exactly if the CRSs are the
        same.
        """
        rules = rules_of(self._rules, crs_of(other))
        if rules is not None:
            return form_of(self, level, rules) == form_of(crs_of(other), level, rules)
        return self.canonical(level) == crs_of(other).canonical(level)

    def difference(self, other: Text, level: Level = "full") -> Optional[str]:
        """The path of the first part that differs, which ``difference`` returns; None if the two are the same."""
        return difference(self, other, level)

    def differences(self, other: Text, level: Level = "full") -> List[Difference]:
        """All parts that differ, which ``differences`` returns."""
        return differences(self, other, level)

    def __eq__(self, other: object) -> bool:
        if isinstance(other, Crs):
            return self._full == other._full and self._rules == other._rules
        if hasattr(other, "to_wkt") or hasattr(other, "ExportToWkt"):
            # Another package's CRS has its own hash, and would compare a Crs as one of its own.
            return False
        return NotImplemented

    def __hash__(self) -> int:
        return hash(self._full)

    def __lt__(self, other: Crs) -> bool:
        if not isinstance(other, Crs) or self._rules != other._rules:
            return NotImplemented
        return self._full < other._full

    def __str__(self) -> str:
        return self._full

    def __format__(self, form: str) -> str:
        """``full`` or ``definition``: the canonical text at that level; else as of that text."""
        return self.canonical(cast(Level, form)) if form in LEVELS else format(self._full, form)

    def __repr__(self) -> str:
        identifiers = self.identifiers
        shown = [repr(self.name), *identifiers[:MOST_SHOWN], *["..."][: len(identifiers) > MOST_SHOWN]]
        words = [
            self.kind,
            *["bound"][: bool(self._bound)],
            *filter(None, [self._read_by and f"read by {self._read_by}"]),
            *["under rules"][: self._rules is not None],
        ]
        return f"<{type(self).__name__} {' '.join(shown)} ({', '.join(words)})>"

    def __reduce_ex__(self, protocol: Any) -> Tuple[Any, ...]:
        """By its text, which is read again; what a subclass adds goes along."""
        state: Any = object.__reduce_ex__(self, 2)[2]
        if getattr(type(self), "__getstate__", None) is getattr(object, "__getstate__", None):
            added = {name: value for name, value in (state[1] or {}).items() if name not in Crs.__slots__}
            state = (state[0], added) if state[0] or added else None
        return restored, (type(self), self._text, self._bound, self._read_by, self._rules), state


def restored(kind: Type[Crs], text: bytes, bound: Bound, read_by: Optional[str], rules: Optional[Rules] = None) -> Crs:
    """A CRS of a class that may have its own ``__init__``."""
    crs = kind.__new__(kind)
    Crs.__init__(crs, text, rules=rules)
    crs._bind(bound, read_by)
    return crs


def crs_of(other: Text) -> Crs:
    return other if isinstance(other, Crs) else Crs(other)


def is_blank(text: Text) -> bool:
    """Whether a text is only white space, or empty."""
    return not isinstance(text, Crs) and not bytes_of(text).strip(BLANK)


class Group(NamedTuple):
    """The texts of a catalogue that spell one CRS.

    - ``number``: the group's, counted from 1 by the first text of each
    - ``text``: the canonical text that each text of the group has
    - ``names``: the names under which they were added, in that order
    """

    number: int
    text: str
    names: List[Any]


class Catalogue:
    """Texts by the CRS that they spell, at a level: the same CRS, the same group (docs/CATALOGUES.md).

    Groups are found by canonical texts, which are equal exactly if the CRSs are the same. A catalogue may be used by
    several threads. For a text that spells no CRS it keeps what is needed to say why, and with ``keep_texts`` the text.
    ``ValueError`` for a level that isn't there. With ``rules`` texts are in one group if they are the same under them
    (docs/RULES.md), and a group's text is their form.
    """

    def __init__(self, level: Level = "full", *, keep_texts: bool = False, rules: Optional[Rules] = None) -> None:
        number_of(level)
        self._level = level
        self._rules = rules_of(rules)
        self._keeps_texts = keep_texts
        self._lock = threading.Lock()
        self._count = 0
        self._groups: List[Group] = []
        self._numbers: Dict[str, int] = {}
        self._refused: List[Tuple[Any, Refused]] = []

    def add(self, text: Text, name: object = None) -> Optional[int]:
        """Adds a text under a name of any kind; without one it is the text's number, counted from 1.

        The answer is the number of its group, a new one if no text before spells the same CRS; None if the text is
        blank (only white space, or empty). ``Refused`` if it spells no CRS: then it is listed in ``refused``, and the
        catalogue goes on. If memory is refused to the library, it is as before.
        """
        try:
            spelling = "" if is_blank(text) else self._spelling_of(text)
        except Refused as refused:
            kept = refused.kept(self._keeps_texts)
            with self._lock:
                self._refused.append((self._name(name), kept))
            raise
        return self._add_canonical(spelling, name)

    def _spelling_of(self, text: Text) -> str:
        """By what a text is grouped."""
        return canon(text, self._level, self._rules)

    def _add_canonical(self, spelling: str, name: object = None) -> Optional[int]:
        """Adds what ``canon`` wrote of a text at the catalogue's level; nothing for a blank one."""
        with self._lock:
            named = self._name(name)
            if not spelling:
                return None
            number = self._numbers.setdefault(spelling, len(self._groups) + 1)
            if number > len(self._groups):
                self._groups.append(Group(number, spelling, []))
            self._groups[number - 1].names.append(named)
            return number

    def _name(self, name: object) -> object:
        """Counts a text, and answers the name under which it is added."""
        self._count += 1
        return self._count if name is None else name

    def __contains__(self, text: Text) -> bool:
        """Whether a group has the CRS that a text spells. A text that spells none is in no group, a blank one either.
        ``TypeError`` and ``ValueError`` for what is no text."""
        try:
            return not is_blank(text) and self._spelling_of(text) in self._numbers
        except Refused:
            return False

    def __len__(self) -> int:
        """How many groups there are."""
        return len(self._groups)

    def group(self, number: int) -> Group:
        """A group by its number, counted from 1. ``IndexError`` if there is none."""
        if not 1 <= number <= len(self._groups):
            raise IndexError(f"no such group: {number}")
        with self._lock:
            found = self._groups[number - 1]
            return found._replace(names=list(found.names))

    def __iter__(self) -> Iterator[Group]:
        """The groups, by their numbers; a group that comes while they are taken is among them."""
        number = 1
        while number <= len(self):
            yield self.group(number)
            number += 1

    @property
    def refused(self) -> List[Tuple[Any, Refused]]:
        """The texts that spell no CRS: name and refusal of each, in the order in which they were added. A refusal here
        has no ``text``, unless ``keep_texts`` asks for it."""
        with self._lock:
            return list(self._refused)
