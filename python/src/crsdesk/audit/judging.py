"""What a file's texts spell: the library is asked, and its answers are kept as data that goes between processes."""

from __future__ import annotations

import dataclasses
import functools
import hashlib
from dataclasses import dataclass, field
from typing import Dict, FrozenSet, List, NamedTuple, Optional, Tuple, Union

from .. import Crs, Difference, Level, Refused, Rules, canon
from .._facts import boxes_of
from .._foreign import form_of
from .converting import converted
from .datasets import filled_by
from .kinds import NO_AXES, NOTHING, TRANSFORMATION, Kind, with_whole_sets
from .looks import kind_of_text
from .reading import File, Skipped, Text, Unread, Way, Without, read


class Box(NamedTuple):
    """An area of use in degrees, as a text states it; it crosses the meridian of 180 degrees where west is above east."""

    south: float
    west: float
    north: float
    east: float


@dataclass(frozen=True)
class Spelled:
    """A CRS that a text spells.

    ``full``         its canonical text with everything, ``definition`` the one without identifiers, usages and remarks
    ``form``         the text by which it is grouped: at level ``definition`` under rules; without rules ``definition``
    ``identifiers``  its own, such as ``EPSG:4326``
    ``boxes``        its areas of use, and the areas of its parts
    ``transformation``  a bound CRS's, which makes it another one than its source CRS; else nothing
    """

    full: str
    definition: str
    form: str
    kind: str
    name: str
    identifiers: Tuple[str, ...]
    boxes: Tuple[Box, ...]
    transformation: str = ""


@dataclass(frozen=True)
class Refusal:
    """Why a text is refused, in the words of ``Refused``: ``place`` is its byte, ``piece`` the line with a caret below,
    ``expected`` what could stand there, ``hint`` what the text most likely is and what to do, or nothing, ``doubts``
    why PROJ's reading of the text isn't taken, if that was tried. ``form`` is the form of a text that PROJ is asked
    for, such as ``WKT1``, damaged or not; else nothing. ``keyword`` is one that is nowhere read there, such as
    ``TIMECRS``. Nothing is quoted of a text that doesn't look like a CRS's: ``instead`` says what it is, ``length`` how
    many bytes it has.
    """

    number: int
    name: str
    place: int
    line: int
    column: int
    piece: str
    expected: Tuple[str, ...]
    meaning: str
    hint: str
    doubts: Tuple[str, ...] = ()
    form: str = ""
    keyword: str = ""
    instead: str = ""
    length: int = 0


class Judged(NamedTuple):
    """A text's answer: the CRS by its place in the list of its file, or the refusal; equal texts have equal digests.
    ``read_by`` is the version of PROJ that has read it, if that was asked and the library refuses it; ``filled`` has
    the kinds of parts that a reader filled in: PROJ the axes that WKT1 mostly has none of, GDAL what a format lacks.
    """

    layer: str
    line: int
    digest: bytes
    crs: int
    refusal: Optional[Refusal]
    read_by: str = ""
    filled: FrozenSet[Kind] = NOTHING


@dataclass
class Told:
    """What a file states, and what couldn't be read in it."""

    spelled: List[Spelled] = field(default_factory=list)
    texts: List[Judged] = field(default_factory=list)
    without: List[Without] = field(default_factory=list)
    unread: List[Unread] = field(default_factory=list)
    skipped: List[Skipped] = field(default_factory=list)


@functools.lru_cache(maxsize=1)
def rules_of(texts: Tuple[bytes, ...]) -> Optional[Rules]:
    """The rules of rules files, by their bytes; None of none. A process reads them once."""
    return Rules(*texts) if texts else None


def told_of(file: File, converts: bool = False, ruling: Tuple[bytes, ...] = ()) -> Told:
    """What a file states. Each of its CRSs is in the list once. Layers of a database are in the order of their names.
    Where that is asked PROJ converts what the library refuses; ``ruling`` has the bytes of rules files."""
    told = Told()
    known: Known = {}
    rules = rules_of(ruling)
    last: Optional[bytes] = None
    for found in read(file):
        if isinstance(found, Text):
            if found.text is last:
                # Layers of one entry, one after the other.
                told.texts.append(told.texts[-1]._replace(layer=found.layer))
                continue
            try:
                its = judged(found, told.spelled, known, converts, rules)
                told.texts.append(its._replace(filled=its.filled | filled_by(file.path, found.layer)))
                last = found.text
            except MemoryError:
                told.unread.append(Unread("out of memory", found.layer, found.line))
        elif isinstance(found, Without):
            told.without.append(found)
        elif isinstance(found, Unread):
            told.unread.append(found)
        else:
            told.skipped.append(found)
    if file.way not in (Way.GDAL, Way.ZIP):
        told.texts.sort(key=by_layer)
        told.without.sort(key=by_layer)
        told.unread.sort(key=by_layer)
    return told


def by_layer(it: Union[Judged, Without, Unread]) -> bytes:
    return it.layer.encode("utf-8", "surrogateescape")


# The CRSs of a file, by canonical text and transformation, with their places in its list.
Known = Dict[Tuple[str, str], int]


def judged(found: Text, spelled: List[Spelled], known: Known, converts: bool, rules: Optional[Rules] = None) -> Judged:
    """A text's answer. A CRS that isn't known yet is added."""
    digest = hashlib.blake2b(found.text, digest_size=16).digest()
    transformation = read_by = ""
    try:
        crs = Crs(found.text)
    except Refused as refused:
        refusal = refusal_of(refused, found)
        conversion = converted(found.text) if converts else None
        if conversion is None:
            return Judged(found.layer, found.line, digest, -1, refusal)
        doubts: Tuple[str, ...] = conversion.warnings
        if not doubts:
            transformation, read_by = conversion.transformation, conversion.producer
            try:
                crs = Crs(conversion.text)
            except Refused as its:
                doubts = (f"{conversion.producer} writes a text that is refused: {its.summary}",)
        if doubts:
            refusal = dataclasses.replace(refusal, doubts=() if refusal.instead else doubts)
            return Judged(found.layer, found.line, digest, -1, refusal)
    key = str(crs), transformation
    if key not in known:
        # Where memory is refused nothing is added.
        added = spelled_by(crs, transformation, rules)
        known[key] = len(spelled)
        spelled.append(added)
    filled = NO_AXES if read_by and b"AXIS" not in found.text.upper() else NOTHING
    return Judged(found.layer, found.line, digest, known[key], None, read_by, filled)


def spelled_by(crs: Crs, transformation: str, rules: Optional[Rules]) -> Spelled:
    boxes = tuple(Box(*it) for it in boxes_of(str(crs)))
    definition = crs.canonical("definition")
    form = definition if rules is None else canon(definition, "definition", rules)
    return Spelled(str(crs), definition, form, crs.kind, crs.name, crs.identifiers, boxes, transformation)


def refusal_of(refused: Refused, found: Text) -> Refusal:
    """A refusal's words, for files."""
    instead = kind_of_text(found.text)
    return Refusal(
        refused.number,
        refused.name,
        refused.place,
        refused.line,
        refused.column,
        "" if instead else refused.piece(),
        refused.expected,
        refused.meaning,
        "" if instead else "; ".join([*refused.hints_of_file(found.line), *filter(None, [refused.proj])]),
        form="" if instead else form_of(found.text.decode("utf-8", "replace")) or "",
        keyword="" if instead else refused.keyword,
        instead=instead,
        length=len(found.text),
    )


class Two(NamedTuple):
    """Two CRSs to compare at a level, by their canonical texts and their transformations."""

    first: str
    second: str
    level: Level
    transformations: Tuple[str, str] = ("", "")


def parts_of(two: Two) -> List[Difference]:
    """The parts in which two CRSs differ; their transformations are the last one."""
    texts = [canon(text, two.level) for text in (two.first, two.second)]
    parts = with_whole_sets(Crs(two.first).differences(two.second, two.level), *texts)
    first, second = two.transformations
    if first != second:
        parts.append(Difference(TRANSFORMATION, first or None, second or None))
    return parts
