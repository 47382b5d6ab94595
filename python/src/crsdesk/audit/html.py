"""The report as one page that needs no network and no scripts.

Everything that comes from files goes through the templates, which escape it. The page's policy allows only its own
style and script. Its length is bounded: if a part of the report has no room on it, the page says how much more the data
has.
"""

from __future__ import annotations

import base64
import hashlib
import pathlib
from typing import Any, Callable, Dict, Iterator, List, NamedTuple, Optional, Sequence, TextIO, Tuple, TypeVar

import jinja2
from markupsafe import Markup, escape

from .. import Difference, __version__
from .datasets import belongs_to
from .judging import Box
from .kinds import Kind, rows_of
from .looks import told_of_text
from .marking import Pieces, pieces_of
from .names import counted, distinct, place_shown, readable, visible
from .report import (
    DataSet,
    Definition,
    NearMiss,
    Place,
    RefusedText,
    Report,
    RulesFile,
    Untold,
    bearing,
    cause_of,
    findings_of,
    stating,
    verdict_told,
)
from .terminal import summary_rows

TEMPLATES = pathlib.Path(__file__).resolve().parent / "templates"
# The room of each part of the page, in bytes.
ROOM_OF_RULES = 200_000
ROOM_OF_TEXTS = 1_000_000
ROOM_OF_ROWS = 2_500_000
ROOM_OF_MISSES = 500_000
ROOM_OF_FINDINGS = 300_000
ROOM_OF_REFUSED = 600_000
ROOM_OF_UNTOLD = 300_000
MOST_PLACES = 200
MOST_PAIRS = 50
MOST_AREAS = 1500
MOST_BARS = 15
MOST_CHARACTERS = 20_000
# How much is shown of values that are compared, and of one beside none; and the least width and height of a box that
# is faint, since it is most of the world.
MOST_OF_VALUE = 2000
MOST_ALONE = 200
WORLD = 300, 120
Item = TypeVar("Item")


class Part(NamedTuple):
    """A part of the page: what is shown, and how many more there are."""

    blocks: List[Markup]
    more: int


class Bar(NamedTuple):
    """A bar of the chart, of a width from 0 to 1."""

    definition: Definition
    width: float


class Line(NamedTuple):
    """A part that differs, as a row of a table: both values as they are shown, with what differs in them marked."""

    path: str
    kind: str
    first: Optional[Markup]
    second: Optional[Markup]


class ToDo(NamedTuple):
    """What is to be looked at: how many of what, and where they are on the page."""

    number: int
    what: str
    link: str


class Shape(NamedTuple):
    """A rectangle of the map, in degrees from its upper left corner."""

    x: float
    y: float
    width: float
    height: float


def write_html(report: Report, file: TextIO) -> None:
    """Writes the page."""
    environment = environment_of()
    blocks: Any = environment.get_template("blocks.html.jinja").module
    style, script = (Markup((TEMPLATES / name).read_text(encoding="utf-8")) for name in ("page.css", "page.js"))
    page = environment.get_template("page.html.jinja")
    definitions, rows = definitions_of(blocks, report.definitions)
    # The largest boxes lie below the others.
    drawn = sorted(
        (area for area in report.areas[:MOST_AREAS] if is_drawn(area.box)), key=lambda it: not is_world(it.box)
    )
    first_misses = [it for it in report.near_misses if it.kind is not Kind.NAMES]
    stream = page.stream(
        report=report,
        to_do=list(to_do(report)),
        version=__version__,
        style=style,
        style_hash=hash_of(style),
        script=script,
        script_hash=hash_of(script),
        summary=list(summary_rows(report)),
        rules=filled(report.rules, blocks.rules, ROOM_OF_RULES),
        bars=bars_of(report.definitions),
        areas=drawn[:MOST_AREAS],
        more_areas=len(drawn) - MOST_AREAS,
        undrawn=len(report.areas) - len(drawn),
        blocks=blocks,
        definitions=definitions,
        rows=rows,
        data_sets=filled(
            [it for it in report.data_sets if it.disagrees],
            lambda it: blocks.data_set(it, report.definitions),
            ROOM_OF_FINDINGS,
        ),
        all_data_sets=filled(report.data_sets, blocks.data_set_row, ROOM_OF_FINDINGS),
        findings=filled(findings_of(report), lambda it: blocks.finding(*it), ROOM_OF_FINDINGS),
        misses=misses_of(blocks, report, first_misses),
        other_misses=misses_of(blocks, report, report.near_misses[len(first_misses) :]),
        refused=refused_of(blocks, report.refused),
        untold={
            "Without a CRS": untold_of(blocks, report.without),
            "Not read": untold_of(blocks, report.unread),
            "Skipped, since something isn't installed": untold_of(blocks, report.skipped),
            "Passed over": untold_of(blocks, report.passed),
        },
    )
    stream.enable_buffering(100)
    for piece in stream:
        file.write(piece)


def environment_of() -> jinja2.Environment:
    environment = jinja2.Environment(
        loader=jinja2.FileSystemLoader(TEMPLATES),
        autoescape=True,
        undefined=jinja2.StrictUndefined,
        trim_blocks=True,
        lstrip_blocks=True,
    )
    environment.filters.update(
        bearing=bearing,
        cause=cause_of,
        counted=counted,
        lines=lines_of,
        statements=statements_of,
        place=place_shown,
        places=places_shown,
        readable=readable,
        shapes=shapes_of,
        short=short,
        stating=stating,
        suffix=suffix_shown,
        told=told_of_text,
        verdict=verdict_told,
        visible=visible,
        world=is_world,
    )
    return environment


def hash_of(text: str) -> str:
    """The hash by which the page's policy knows its own style and script."""
    return "sha256-" + base64.b64encode(hashlib.sha256(text.encode()).digest()).decode("ascii")


def short(text: str, most: int = MOST_CHARACTERS) -> str:
    """A text's front, where it is long."""
    return text if len(text) <= most else f"{text[:most]}.. ({len(text):,} characters; --json has all)"


def statements_of(rules: RulesFile) -> str:
    """The lines of a rules file."""
    lines = rules.text.decode("utf-8", "replace").split("\n")
    return short("\n".join(visible(line.rstrip("\r")) for line in lines))


def to_do(report: Report) -> Iterator[ToDo]:
    """What is to be looked at, in the order of the page; what there is none of is left out."""
    kinds = [it.kind for it in report.near_misses]
    found = (
        ToDo(len(report.unread), "can't be read", "untold"),
        ToDo(report.summary.disagreeing, "data sets whose texts disagree", "data-sets"),
        ToDo(len(findings_of(report)), "CRSs that aren't as registered", "registry"),
        *(
            ToDo(
                kinds.count(it),
                f"near misses, CRSs of one name or identifier, that differ in {it.label}",
                "near-misses",
            )
            for it in Kind
            if it is not Kind.NAMES
        ),
        ToDo(report.summary.refused, "texts that are refused", "refused"),
    )
    return (it for it in found if it.number)


def misses_of(blocks: Any, report: Report, misses: Sequence[NearMiss]) -> Part:
    return filled(misses, lambda it: blocks.miss(it, report.definitions, MOST_PAIRS), ROOM_OF_MISSES)


def lines_of(parts: Sequence[Difference]) -> List[Line]:
    """Parts that differ, with the kinds to look at first before the others."""
    rows = sorted(rows_of(parts), key=lambda it: it.kind)
    return [Line(row.path, row.kind.label, *values_of(row.first, row.second)) for row in rows]


def values_of(first: Optional[str], second: Optional[str]) -> Tuple[Optional[Markup], Optional[Markup]]:
    most = MOST_ALONE if first is None or second is None else MOST_OF_VALUE
    pieces = pieces_of(*(None if it is None else short(it, most) for it in (first, second)))
    return tuple(None if it is None else written(its) for it, its in zip((first, second), pieces))  # type: ignore[return-value]


def written(pieces: Pieces) -> Markup:
    """A value with what differs in it marked."""
    return Markup("").join(
        Markup("<mark>{}</mark>").format(distinct(it.text)) if it.differs else escape(distinct(it.text))
        for it in pieces
    )


def places_shown(places: Sequence[Place]) -> List[str]:
    """Places, with the version of PROJ that has read them; one row for the places of one data set."""
    rows: Dict[object, List[Place]] = {}
    for place in places:
        belongs = belongs_to(place.file, place.layer)
        rows.setdefault((belongs.archive, belongs.path, place.read_by) if belongs else place, []).append(place)
    return [row_shown(row) for row in rows.values()]


def row_shown(places: Sequence[Place]) -> str:
    """The places of a data set: the first, and the suffixes of the others."""
    suffixes = [belongs.suffix for it in places[1:] if (belongs := belongs_to(it.file, it.layer))]
    read_by = f" (read by {places[0].read_by})" if places[0].read_by else ""
    return ", ".join([place_shown(places[0]), *suffixes]) + read_by


def suffix_shown(place: Place) -> str:
    """The suffix of a place's file in its data set."""
    belongs = belongs_to(place.file, place.layer)
    return belongs.suffix if belongs else ""


def filled(items: Sequence[Item], block_of: Callable[[Item], Any], room: int) -> Part:
    """The blocks of items before the first that there is no room for, and how many more items there are."""
    shown: List[Markup] = []
    for item in items:
        block = block_of(item)
        room -= len(block.encode())
        if room < 0:
            break
        shown.append(block)
    return Part(shown, len(items) - len(shown))


def definitions_of(blocks: Any, definitions: Sequence[Definition]) -> Tuple[Part, Part]:
    """The groups: the largest with their texts, and the others in a row each."""
    shown = filled(definitions, lambda it: blocks.definition(it, MOST_PLACES), ROOM_OF_TEXTS)
    return shown, filled(definitions[len(shown.blocks) :], blocks.row, ROOM_OF_ROWS)


class Refusals(NamedTuple):
    """Texts that are refused for one cause, by what to do with them, largest first; and the width of their bar, from 0
    to 1."""

    cause: str
    texts: int
    width: float
    by_hint: Dict[Tuple[str, str], Part]


def refused_of(blocks: Any, refused: Sequence[RefusedText]) -> List[Refusals]:
    by_cause: Dict[str, List[RefusedText]] = {}
    for text in refused:
        by_cause.setdefault(cause_of(text.refusal), []).append(text)
    room = ROOM_OF_REFUSED // max(1, len(by_cause))
    its = sorted(by_cause.items(), key=lambda it: (-len(it[1]), it[0]))
    most = max(map(len, by_cause.values()), default=1)
    return [Refusals(cause, len(texts), len(texts) / most, by_hint_of(blocks, texts, room)) for cause, texts in its]


def by_hint_of(blocks: Any, texts: Sequence[RefusedText], room: int) -> Dict[Tuple[str, str], Part]:
    """Texts by what their refusal means, and by the hint."""
    by_hint: Dict[Tuple[str, str], List[RefusedText]] = {}
    for text in texts:
        by_hint.setdefault((text.refusal.meaning, text.refusal.hint), []).append(text)
    parts: Dict[Tuple[str, str], Part] = {}
    for hint, its in sorted(by_hint.items(), key=lambda it: -len(it[1])):
        parts[hint] = filled(its, blocks.refused, room)
        room -= sum(map(len, parts[hint].blocks)) + sum(map(len, hint))
    return parts


def untold_of(blocks: Any, untold: Sequence[Untold]) -> Part:
    return filled(untold, blocks.untold, ROOM_OF_UNTOLD)


def bars_of(definitions: Sequence[Definition]) -> List[Bar]:
    """The bars of the largest groups."""
    most = definitions[0].texts if definitions else 1
    return [Bar(it, it.texts / most) for it in definitions[:MOST_BARS]]


def is_drawn(box: Box) -> bool:
    """Whether a box lies on the globe."""
    return -90 <= box.south <= box.north <= 90 and all(-180 <= it <= 180 for it in (box.west, box.east))


def is_world(box: Box) -> bool:
    """Whether a box is most of the world."""
    width = box.east - box.west + (360 if box.west > box.east else 0)
    return width >= WORLD[0] and box.north - box.south >= WORLD[1]


def shapes_of(box: Box) -> List[Shape]:
    """The rectangles of a box on the map, whose y goes down: two where it crosses the meridian of 180 degrees."""
    spans: List[Tuple[float, float]] = [(box.west, box.east)]
    if box.west > box.east:
        spans = [(box.west, 180.0), (-180.0, box.east)]
    return [Shape(west, -box.north, east - west, box.north - box.south) for west, east in spans]
