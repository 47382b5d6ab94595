"""The Python package crsdesk: the rows of the .rows files asked of its calls, and its own promises: how a refusal is
explained, hints, what no text is, hashing, threads, long texts. test_commands.py has its commands over files, and
test_foreign.py texts in other forms, and packages beside it."""
from __future__ import annotations

import contextlib
import copy
import doctest
import hashlib
import io
import os
import functools
import pathlib
import pickle
import random
import re
import shlex
import sqlite3
import sys
import threading
import time
import traceback
import tracemalloc
from concurrent.futures import ThreadPoolExecutor
from typing import Any, Callable, Dict, Iterator, List, Optional, Tuple, Type

import documents
import pytest
import rows
import sql_rows
from rows import Case
from support import CANONICAL_HEIGHT, EXAMPLES, HEIGHT, HERE, NOTED, ROOT, run, succeed

import crsdesk
from crsdesk import (
    Catalogue,
    Crs,
    Difference,
    Refused,
    Rules,
    RulesRefused,
    _foreign,
    canon,
    check,
    difference,
    differences,
    digest,
    same,
)
from crsdesk.__main__ import lines_of

LONG = 100_000_000
LEVELS: List[Any] = ["full", "definition"]


@pytest.fixture(autouse=True)
def without_proj(monkeypatch: pytest.MonkeyPatch) -> None:
    """As where no package has PROJ."""
    monkeypatch.setattr(_foreign, "loaded", lambda: None)


# The rows.


def is_asked(case: Case) -> bool:
    """Whether a case asks for an answer that a call of the package gives."""
    counts = {b"canon": 1, b"check": 1, b"group": 1, b"same": 3}
    return case.asks and len(case.level[1]) == counts.get(case.level[1][0])


def level_of(case: Case) -> Tuple[Any, List[bytes]]:
    named, words = case.level
    return named or "full", words


def answer(case: Case) -> bytes:
    """What the command prints for a case, made of the package's answers."""
    level, words = level_of(case)
    try:
        if words[0] == b"canon":
            return canon(case.input, level).encode() + b"\n"
        if words[0] == b"check":
            return f"accepted {check(case.input)}\n".encode()
        if words[0] == b"same":
            path = difference(words[1], words[2], level)
            return f"different {path}\n".encode() if path else b"same\n"
    except Refused as refused:
        return f"{refused.which + ' ' if refused.which else ''}{refused.summary}\n".encode()
    return grouped(case.input, level)


def grouped(text: bytes, level: Any) -> bytes:
    catalogue = Catalogue(level)
    for line in lines_of(io.BytesIO(text)):
        try:
            catalogue.add(line)
        except Refused:
            pass
    told = [f"group {group.number}: {' '.join(map(str, group.names))}\n" for group in catalogue]
    told += [f"line {line}: {refused.summary}\n" for line, refused in catalogue.refused]
    return "".join(told).encode()


ASKED = [case for case in rows.all_cases() if is_asked(case)]


@pytest.mark.parametrize("case", ASKED, ids=str)
def test_row(case: Case) -> None:
    got = answer(case)
    assert got == case.output
    level, words = level_of(case)
    if words[0] == b"same" and b"refused" not in got:
        hold_pair(words[1], words[2], level)
    if words[0] == b"canon" and not got.startswith(b"refused"):
        hold_canon(case.input, level)


def hold_pair(first: bytes, second: bytes, level: Any) -> None:
    """Two accepted texts: all calls on them agree."""
    path = difference(first, second, level)
    parts = differences(first, second, level)
    assert (parts[0].path.partition("[")[0] if parts else None) == path
    assert all(part.first != part.second for part in parts) and len({part.path for part in parts}) == len(parts)
    one, other = Crs(first), Crs(second)
    for answered in (same(first, second, level), one.same(other, level), one.same(second, level)):
        assert answered == (path is None)
    assert (one.difference(other, level), one.differences(other, level)) == (path, parts)
    if level == "full":
        assert (one == other) == (path is None) and len({one, other}) == 1 + (path is not None)


def hold_canon(text: bytes, level: Any) -> None:
    """An accepted text: what a canonical text promises."""
    written = canon(text, level)
    crs = Crs(text)
    assert canon(written, level) == written == crs.canonical(level)
    assert same(text, written, level) and not crs.differences(written, level)


# The package's own promises.


def refusal_of(text: object, call: Callable[..., object] = check) -> Refused:
    try:
        call(text)
    except Refused as refused:
        return refused
    raise AssertionError(f"not refused: {text!r}")


def error_of(call: Callable[[], object]) -> ValueError:
    try:
        call()
    except ValueError as error:
        return error
    raise AssertionError("no error")


def wants(error: Type[Exception], part: str, call: Callable[..., object], *words: object) -> None:
    """A call raises an error, not a refusal, whose text has a part."""
    try:
        call(*words)
    except error as found:
        assert part in str(found) and not isinstance(found, Refused), found
    else:
        raise AssertionError(f"no {error.__name__}: {words!r}")


def test_refusal_is_told() -> None:
    refused = refusal_of('VERTCRS["H",\n  VDATUM["Dé"] #]')
    assert isinstance(refused, ValueError)
    assert (refused.number, refused.name, refused.place, refused.line, refused.column) == (1, "BadCharacter", 29, 2, 16)
    lines = str(refused).split("\n")
    assert lines[0] == "refused 1 BadCharacter at 29, line 2, column 16"
    assert lines[1].index("#") == lines[2].index("^") and lines[2].strip() == "^"
    assert refused.summary == "refused 1 BadCharacter at 29" and refused.which is None
    assert repr(refused) == "Refused(number=1, name='BadCharacter', place=29)"
    texts = 'TIMECRS["T"]', 'VERTCSR["H"]', HEIGHT[:-1], f"{HEIGHT[:-1]},FOO[1]]"
    keywords = [refusal_of(text).keyword for text in texts]
    assert keywords == ["TIMECRS", "", "", "FOO"], "a keyword that is nowhere read there"


def test_caret_is_under_the_place() -> None:
    front = 'VERTCRS["' + "é" * 60 + '"\t'
    for text in (front + "#" + " " * 90, front + "#", front + '"open'):
        shown, caret = str(refusal_of(text)).split("\n")[1:3]
        assert len(shown) <= 80 and shown[caret.index("^")] in '#"', shown
    shown, caret = str(refusal_of('VERTCRS["高さ" #]')).split("\n")[1:3]
    assert caret.index("^") == shown.index("#") + 2, "two characters of double width"
    shown, caret = str(refusal_of('VERTCRS["H"')).split("\n")[1:3]
    assert caret.index("^") == len(shown), "at the end"
    assert "\0" not in str(refusal_of("VERTCRS[\0\x1b[31m]"))


def test_refusal_of_two_texts() -> None:
    for call in (same, difference, differences):
        second = refusal_of("x", functools.partial(call, HEIGHT))
        assert second.which == "second" and str(second).startswith("the second text: refused 7 ")
        first = refusal_of("x[", lambda text, call=call: call(text, "y"))
        assert first.which == "first" and first.text == b"x["


def test_refusal_goes_to_another_process() -> None:
    refused = refusal_of("x[")
    again = pickle.loads(pickle.dumps(refused))
    assert (str(again), again.text) == (str(refused), b"x[")
    for kept in (refused.kept(), pickle.loads(pickle.dumps(refused.kept())), copy.copy(refused.kept())):
        assert (str(kept), kept.text, kept.hint) == (str(refused), None, refused.hint)
        assert kept.__traceback__ is None and b"x[" not in kept.args
    advised = refusal_of('GEOGCS["A"]', Crs)
    for again in (pickle.loads(pickle.dumps(advised)), copy.copy(advised), advised.kept(with_text=True)):
        assert str(again) == str(advised) and "Crs.from_user has PROJ read it" in str(again)


def test_public_names_are_told() -> None:
    public = [it for it in vars(crsdesk).values() if isinstance(it, type) and it.__name__ in crsdesk.__all__]
    assert len(public) == 7 and {it.__module__ for it in public} == {"crsdesk"}
    calls: List[Callable[[], object]] = [lambda: check("x"), lambda: Rules("x")]
    for call in calls:
        refused = error_of(call)
        assert re.match(r"crsdesk\.(Rules)?Refused: ", traceback.format_exception_only(type(refused), refused)[0])
    assert pickle.loads(pickle.dumps(Crs)) is Crs


def test_every_number_has_a_meaning() -> None:
    seen = set()
    for case in ASKED:
        if case.words == [b"check"] and (case.output or b"").startswith(b"refused"):
            refused = refusal_of(case.input)
            seen.add(refused.number)
            assert refused.meaning.endswith(".") and refused.meaning in str(refused)
    assert seen == {*range(1, 9), *range(11, 14), *range(21, 30)}, seen


def are_all_parts(refused: Refused) -> bool:
    """Whether the lines of a refusal are those of its parts, and no others."""
    head, *lines = refused.told_of_file().split("\n")
    expected = [line for line in lines[2:3] if refused.expected]
    listed = expected[0].partition(", expected ")[2] if expected else ""
    names = [*refused.expected[:-2], " or ".join(refused.expected[-2:])]
    hints = (refused.hint or "").split("\n") if refused.hint else []
    return (
        head == f"{refused.summary}, line {refused.line}, column {refused.column}"
        and "\n".join(lines[:2]) == refused.piece()
        and listed == ", ".join(names)
        and bool(expected) == (refused.number in {11, 12, 13, 21, 25})
        and sorted(lines[2 + len(expected) :]) == sorted([refused.meaning, *hints])
    )


# What the rows of explain.rows have between the piece and the end, by their cases: what is expected, and the hints.
EXPECTED = {
    "system-left-out": ("PRIMEM", "CS"),
    "axes-left-out": ("AXIS",),
    "frame-of-another-kind": ("DYNAMIC", "VDATUM", "ENSEMBLE"),
    "name-without-quotes": ("a text in quotes",),
    "number-in-quotes": ("a number",),
    "direction-in-quotes": ("a word",),
    "decimal-comma": ("LENGTHUNIT", "ID", "its closing delimiter"),
    "type-misspelt": ("Cartesian", "ellipsoidal", "spherical", "vertical"),
    "axes-of-a-part-too-many": ("1",),
    "unit-of-another-kind": (),
    "comma-missing": (),
}
HINT = {
    "closing-delimiter-left-out-at-the-end": "GEOGCRS[ at 0 is still open",
    "round-for-square": "VDATUM[ at 12 is still open\nVDATUM[ at 12 is closed by ], not by ).",
    "keyword-misspelt": "Did you mean ELLIPSOID?",
    "system-left-out": None,
    "semicolon-for-comma": "Arguments are separated by commas.",
    "direction-nearest": "Did you mean south?",
    "direction-not-near": None,
    "unit-of-another-kind": "found LENGTHUNIT in AXIS at 66, expected ANGLEUNIT",
}


def test_rows_of_explain() -> None:
    """Each row's refusal has in Python what the command writes of it."""
    cases = [case for case in rows.cases_of(rows.HERE / "explain.rows") if case.words == [b"explain"]]
    assert len(cases) > 50 and {*EXPECTED, *HINT} <= {case.name for case in cases}
    meanings: Dict[int, str] = {}
    for case in cases:
        refused = refusal_of(case.input)
        assert f"{refused}\n".encode() == case.output, (case.name, str(refused))
        assert are_all_parts(refused), (case.name, refused.expected, refused.hint)
        assert meanings.setdefault(refused.number, refused.meaning) == refused.meaning != "", case.name
        assert refused.expected == EXPECTED.get(case.name, refused.expected), (case.name, refused.expected)
        assert refused.hint == HINT.get(case.name, refused.hint), (case.name, refused.hint)


def test_rows_of_explain_of_two() -> None:
    """Each row's differences of two texts, or the refusal of one, are in Python what the command writes."""
    for case in rows.cases_of(rows.HERE / "explain_two.rows"):
        words = case.words[1:]
        level: Any = "definition" if words[:2] == [b"--level", b"definition"] else "full"
        first, second = words[-2:]
        try:
            found = "".join(f"{part}\n" for part in differences(first, second, level)) or "same\n"
        except Refused as refused:
            found = f"{refused.which} {refused.told_of_file()}\n"
        assert found.encode() == case.output, (case.name, found)


def test_refusals_made_by_hand() -> None:
    """A refusal that isn't the text's own tells what it was given, and no more."""
    for refused in (Refused(None, 7, "UnexpectedEnd", 3), Refused(HEIGHT.encode(), 7, "UnexpectedEnd", 3)):
        assert str(refused) == refused.summary == refused.told_of_file() == "refused 7 UnexpectedEnd at 3"
        assert (refused.line, refused.expected, refused.meaning, refused.hint) == (0, (), "", None)


HINTS = [
    ('GEOGCS["WGS 84",DATUM["WGS_1984"]]', "WKT1"),
    ("\n PROJCS[", "WKT1"),
    ("COMPD_CS[", "WKT1"),
    ("+proj=utm +zone=31 +type=crs", "PROJ string"),
    ("proj=utm zone=31", "PROJ string"),
    ("+init=epsg:4326", "PROJ string"),
    ("+proj=longlat +ellps=bessel +towgs84=1,2,3", "With +towgs84 it becomes a BOUNDCRS"),
    ("+proj=longlat +ellps=bessel +nadgrids=a.gsb", "With +nadgrids it becomes a BOUNDCRS"),
    ('GEOGCS["A",DATUM["D",SPHEROID["E",6378137,0],TOWGS84[1,2,3]]]', "With TOWGS84 it becomes a BOUNDCRS"),
    (400 * " " + 'GEOGCS["A"]', "WKT1"),
    ("EPSG:4326", "code"),
    ("epsg:28992+5709\n", "code"),
    ("4326", "code"),
    ("OGC:CRS84", "-o WKT2:2019 OGC:CRS84)"),
    ("https://a/b;rm", "This is a web address"),
    ("urn:ogc:def:crs:EPSG::4326", "code"),
    ("http://www.opengis.net/def/crs/EPSG/0/4326", "code"),
    ('{"type":"GeographicCRS"}', "JSON"),
    ("<gml:GeodeticCRS>", "XML"),
    (HEIGHT.encode("utf-16"), "UTF-16"),
    (HEIGHT.encode("utf-16-le"), "UTF-16"),
    (HEIGHT.encode("utf-16-be"), "UTF-16"),
    (b"\x00\x00\x27\x0a" + 20 * b"\0" + b"\0\0\0\x64\xe8\x03\0\0", "This is a shapefile, and no text"),
    (b"SQLite format 3\0\x10\0\x01\x01", "This is a GeoPackage"),
    (b"II*\0\x08\0\0\0", "a GeoTIFF"),
    (b"MM\0*\0\0\0\x08", "a GeoTIFF"),
    (b"II+\0\x08\0\0\0", "a GeoTIFF"),
    (b"PK\x03\x04\x14\0", "a zip archive, and no text: unpack it"),
    (b"\x1f\x8b\x08", "a gzip archive"),
    (b"\x89HDF\r\n\x1a\n", "netCDF or HDF5"),
    (b"\x03_\x07\x1a", "A control character is here, 0x03"),
    ("VERTCRS[\0", "0x00"),
    ("SRID=28992;" + HEIGHT, "SRID=28992; is before the text"),
    ("polygon ((0 0, 1 0, 1 1, 0 0))", "a geometry, POLYGON"),
    ("/data/a.prj", "the name of a file"),
    ("./a.wkt", "the name of a file"),
    ("C:\\data\\a.prj", "the name of a file"),
    ("wgs84.prj", "the name of a file"),
    ("my tiles/tile_01.tif", "the name of a file"),
    ("BOUNDCRS[SOURCECRS[", "BOUNDCRS isn't read"),
    ('BOUNDCRS["A"]', "loses the transformation: keep the transformation as part of a key"),
    ('COMPOUNDCRS["C",BOUNDCRS["A"]]', "BOUNDCRS isn't read"),
    ('COORDINATEMETADATA["A"]', "loses the epoch of the coordinates: keep that as part of a key"),
    ('EngCRS["A"]', "Engineering CRSs aren't read"),
    ('DERIVEDPROJCRS["A"]', "Derived CRSs aren't read"),
    ('TIMECRS["A"]', "Temporal CRSs aren't read"),
    ('DATUM["D"]', "part of a CRS"),
    ('"VERTCRS[""H""]"', "quotes"),
    (" \n", "There is nothing here"),
    ('GEOGCRS["A",BASEGEOGCRS["B"]]', "Derived CRSs aren't read"),
    ('VERTCRS["H",VDATUM["D"],CS[vertical,1],AXIS["h",up,UNIT["metre",1]],AUTHORITY["E","1"]]', "AUTHORITY is WKT1's"),
    (HEIGHT.replace("up,", "up,TOWGS84[1,2,3],"), "keep the transformation as part of a key"),
    ("VERTCRS[“H”]", "typographic"),
    ("GEOGCS[&quot;A&quot;]", "&quot;"),
    ("VERTCRS['H']", "double quotes"),
    ('VERTCRS["H";', "commas"),
    (b'VERTCRS["H\xe9"]', "Latin-1"),
    (HEIGHT + "\n" + HEIGHT, "A second text begins here"),
    (HEIGHT + "," + HEIGHT, "A second text begins here"),
    (HEIGHT + ";", "cut off what follows it"),
    (HEIGHT + " x", "cut off what follows it"),
    (HEIGHT[:-1], "VERTCRS[ at 0 is still open"),
    ('VERTCRS ("H",VDATUM["D"', "Still open at the end: VERTCRS( at 0, VDATUM[ at 13."),
    (HEIGHT.replace('"D"]', '"D"'), "CS[ at 23 is inside VDATUM[ at 12"),
    (HEIGHT.replace('"D"]', '"D"') + "]", "CS[ at 23 is inside VDATUM[ at 12"),
    (HEIGHT.replace('"H"', 'H"'), "the quoted text that is opened at 9"),
    (HEIGHT[:-1] + ',REMARK["r]]', "this quoted text, VERTCRS[ at 0, REMARK[ at 74."),
    ('GEOGCS["A"', "GEOGCS[ at 0 is still open"),
    (HEIGHT.replace('"metre",1', '"metre",1,0'), "a comma stands for a decimal point"),
    ('GEOGCRS["A",DATUM["D",ELLIPSOID["E",6377397,155,299,1528128]]]', "a comma stands for a decimal point"),
    (HEIGHT.replace('"metre",1', '"metre",1m'), "a unit is a node of its own"),
    ('VERTCRS["H",DYNAMIC[FRAMEEPOCH[2010-01-01]]]', "an epoch is a year"),
]


def test_hints_are_given() -> None:
    for text, part in HINTS:
        refused = refusal_of(text)
        assert part in (refused.hint or ""), (text, refused.hint)


# What the hints say at a command line, which has files.
FILE_HINTS: List[Tuple[Any, str]] = [
    ('GEOGCS["A"]', "-o WKT2:2019 @FILE 2>&1 | sed 1d)"),
    (HEIGHT.encode("utf-16"), "iconv -f UTF-16 -t UTF-8 FILE"),
    ("\ufeff" + HEIGHT, "sed '1s/^\\xEF\\xBB\\xBF//' FILE"),
    (b'VERTCRS["H\xe9"]', "iconv -f ISO-8859-1 -t UTF-8 FILE"),
    (HEIGHT.replace('"', "&quot;"), "sed 's/&quot;/\"/g' FILE"),
    (HEIGHT.replace('"', '\\"'), "sed 's/\\\\\"/\"/g' FILE"),
    ("./a.wkt", "the text in that file"),
    (HEIGHT + "\n" + HEIGHT, "a file has one text"),
]


def test_hints_of_files() -> None:
    for text, part in FILE_HINTS:
        told = refusal_of(text).told_of_file()
        assert part in told and not re.search(r"\bstr\b", told), told
    assert '"$(sed -n 3p FILE)"' in refusal_of('GEOGCS["A"]').told_of_file(3)
    for text, _ in HINTS:
        told = refusal_of(text).told_of_file()
        assert not re.search(r"\bstr\b|hand over|TEXT", told), told


@pytest.mark.needs("iconv")
def test_what_the_hints_of_files_do(tmp_path: pathlib.Path) -> None:
    """The commands in the hints, run over a file, make a text that is read."""
    for text, part in FILE_HINTS[1:6]:
        command = re.search(r"\(((?:iconv|sed) .* FILE)\)", refusal_of(text).told_of_file())
        assert command, part
        path = tmp_path / "a.wkt"
        path.write_bytes(text.encode() if isinstance(text, str) else text)
        done = run(["sh", "-c", command[1].replace("FILE", shlex.quote(str(path)))], text=False)
        assert is_accepted(done.stdout) or b"\xc3\xa9" in done.stdout, (part, done.stdout)


def test_hints_take_little_time() -> None:
    """No hint reads more of a long text than is bounded."""
    node = b'ID["E",1],'
    for text in (
        b"VERTCRS[" + b"(" * LONG,
        b'VERTCRS["H",' + node * (LONG // 50) + b"]",
        b'VERTCRS["H' + b",ID[" * (LONG // 50),
        b"GEOGCS[" + b"x" * LONG,
        b"\0" * LONG,
        b"\\" * LONG,
        b"VERTCRS[" + b"x " * (LONG // 50),
    ):
        refused = refusal_of(text)
        began = time.process_time()
        str(refused)
        assert time.process_time() - began < 60, (text[:20], time.process_time() - began)


def test_any_bytes_are_told() -> None:
    """Texts with bytes changed, cut or put in by chance: each is accepted, or refused in words."""
    chance = random.Random(30)
    texts = [path.read_bytes() for path in sorted(EXAMPLES.glob("*.wkt"))]
    refused_ones = 0
    for _ in range(4000):
        text = bytearray(chance.choice(texts))
        for _ in range(chance.randint(1, 3)):
            place = chance.randrange(len(text) + 1)
            text[place : place + chance.randrange(3)] = chance.choice(PIECES)
        try:
            check(text[: chance.choice((len(text), place))])
        except Refused as refused:
            refused_ones += 1
            assert 0 <= refused.place <= len(text) and refused.line >= 1 and refused.column >= 1
            lines = str(refused).split("\n")
            assert str(refused) == refused.told_of_file() and are_all_parts(refused), lines
            assert len(lines) in range(4, 7) and lines[2].strip() == "^" and lines[1].isprintable(), lines
    assert refused_ones > 2000


PIECES = [b"", b"\0", b"\t", b"\r\n", b"\xff", b"\xe9", b"\x1b[31m", b"\xef\xbb\xbf", b"\xcc\x81", b"\xf0\x9f\x98\x80"]
PIECES += 'é高 “ " [ ] ( ) , 1E - x 7 ID[ GEOGCS[ AUTHORITY['.encode().split()


def test_no_hint_is_given_where_nothing_can_be_told() -> None:
    for text in (
        "x",
        'VERTCRS["H",1E]',
        'VERTCRS["H",VDATUM["D"],CS[vertical,1]]',
        'VERTCRS["H",VDATUM["D"],CS[vertical,2],AXIS["h",up,LENGTHUNIT["metre",1]]]',
    ):
        assert refusal_of(text).hint is None, text


def test_what_is_no_text() -> None:
    calls: List[Callable[..., object]] = [check, canon, Crs, Catalogue().add]
    calls += [lambda it: same(it, HEIGHT), lambda it: same(HEIGHT, it)]
    for call in calls:
        wants(TypeError, "a text is str, bytes or Crs, not NoneType", call, None)
        wants(TypeError, "not int", call, 4326)
        wants(TypeError, "not float", call, 1.5)
        wants(TypeError, "not list", call, [HEIGHT])
        wants(TypeError, "read the file", call, EXAMPLES / "wgs84.wkt")
        wants(ValueError, "U+D800 at character 1", call, "a\ud800")
        for package, advice in TO_WKT.items():
            wants(TypeError, f"not CRS; hand over its {advice}, in WKT2:2019", call, stand_in(package))
    with (EXAMPLES / "wgs84.wkt").open("rb") as file:
        wants(TypeError, "read the file", check, file)


# The call that each package's object is refused with.
TO_WKT = {
    "fiona.crs": 'to_wkt(version="WKT2_2019")',
    "osgeo.osr": 'ExportToWkt(["FORMAT=WKT2_2019"])',
    "pyproj.crs.crs": "to_wkt()",
    "rasterio.crs": 'to_wkt(version="WKT2_2019")',
    "others": "to_wkt()",
}


def stand_in(package: str) -> object:
    """An object as a CRS of another package is, which needn't be there."""
    name = "ExportToWkt" if package == "osgeo.osr" else "to_wkt"
    made = type("CRS", (), {name: lambda self, *options: HEIGHT})
    made.__module__ = package
    return made()


def test_a_crs_goes_where_a_text_goes() -> None:
    crs, other = Crs(HEIGHT), Crs(HEIGHT.replace('"H"', '"K"'))
    noted = Crs(HEIGHT[:-1] + ',REMARK["r"]]')
    assert check(crs) == "vertical" and canon(crs) == str(crs) and canon(noted, "definition") == CANONICAL_HEIGHT
    assert same(crs, Crs(crs)) and not same(crs, other) and same(HEIGHT, crs) and same(crs, noted, "definition")
    assert difference(crs, other) == "name" == crs.difference(other) == crs.difference(other.text)
    assert [part.path for part in differences(crs, noted)] == ["remark"] == [it.path for it in crs.differences(noted)]
    assert Crs(crs) == crs and Crs(crs).text == HEIGHT.encode()
    assert crs != noted and crs.same(noted, "definition")
    catalogue = Catalogue("definition")
    given: List[Any] = [crs, HEIGHT, noted, other]
    assert [catalogue.add(it) for it in given] == [1, 1, 1, 2]
    refused = refusal_of(crs, lambda it: same(it, "x"))
    assert refused.which == "second"


def test_a_crs_of_another_package() -> None:
    """It is asked for WKT2:2019, and its text is kept; the error of a wrong call names the right one."""
    for package in TO_WKT:
        crs = Crs.from_user(stand_in(package))
        assert crs == Crs(HEIGHT) and crs.text == HEIGHT.encode()
    asked: List[object] = []

    def noting(options: object) -> str:
        asked.append(options)
        return HEIGHT

    versions = type("CRS", (), {"to_wkt": lambda self, version: noting(version)})
    osgeo = type("CRS", (), {"ExportToWkt": lambda self, options: noting(options)})
    assert Crs.from_user(versions()) == Crs.from_user(osgeo()) == Crs(HEIGHT)
    assert asked == ["WKT2_2019", ["FORMAT=WKT2_2019"]]
    assert Crs.from_user(crs) is crs
    refused = refusal_of(type("CRS", (), {"to_wkt": lambda self: 'BOUNDCRS["A"]'})(), Crs.from_user)
    assert refused.text == b'BOUNDCRS["A"]' and "BOUNDCRS isn't read" in str(refused)
    assert Crs.from_user(HEIGHT) == Crs.from_user(HEIGHT.encode()) == crs and Crs.from_user(HEIGHT).read_by is None
    wants(TypeError, "Crs.from_file reads a file", Crs.from_user, EXAMPLES / "wgs84.wkt")
    wants(TypeError, 'not int; a code is a text with its authority: "EPSG:4326"', Crs.from_user, 4326)
    for other in map(stand_in, TO_WKT):
        assert crs != other and other != crs and crs not in [other], "each has its own hash"
    wants(TypeError, "answers NoneType, and no text", Crs.from_user, type("CRS", (), {"to_wkt": lambda self: None})())
    # A table of geometries has a to_wkt too, which writes those.
    without: Dict[str, Any] = {}
    for more in (without, {"to_wkt": lambda self, **options: self}):
        frame = type("GeoDataFrame", (), {"crs": crs, **more})()
        for call in (Crs, Crs.from_user, Catalogue().add):
            wants(TypeError, "hand over its .crs to Crs.from_user", call, frame)
    wants(TypeError, "(Crs.from_user does)", Crs, stand_in("pyproj.crs.crs"))
    wants(TypeError, "(Crs.from_file does)", Crs, EXAMPLES / "wgs84.wkt")
    for text in ("EPSG:4326", "+proj=longlat", 'GEOGCS["A"]', "{}", 'BOUNDCRS["A"]'):
        assert "Crs.from_user has PROJ read it" in str(refusal_of(text, Crs)), text
        assert "Crs.from_user" not in str(refusal_of(text, check)) + str(refusal_of(text, Crs.from_user)), text
    assert "Crs.from_user" not in str(refusal_of("WGS 84", Crs)) + str(refusal_of(HEIGHT[:-1], Crs))


def test_texts_of_all_lengths() -> None:
    """At the lengths up to which something is kept for a call, and beyond."""
    bare = len(CANONICAL_HEIGHT) - 1
    for kept in (1 << 12, 1 << 15, 1 << 16, 1 << 17):
        for length in range(kept - 2, kept + 3):
            text = CANONICAL_HEIGHT.replace('"H"', f'"{"x" * (length - bare)}"').encode()
            assert len(text) == length and check(text) == "vertical" and canon(text) == text.decode(), length
            other = text.replace(b"up", b"down")
            assert same(text, text) and not same(text, other) and difference(text, other) == "system/axis1/direction"
            assert Crs(text).canonical("definition") == text.decode() and refusal_of(text[:-1]).place == length - 1


def test_a_crs_of_a_file() -> None:
    paths: List[Any] = [EXAMPLES / "wgs84.wkt", str(EXAMPLES / "wgs84.wkt"), os.fsencode(EXAMPLES / "wgs84.wkt")]
    for path in paths:
        assert Crs.from_file(path) == Crs((EXAMPLES / "wgs84.wkt").read_bytes())
    wants(FileNotFoundError, "none.wkt", Crs.from_file, "none.wkt")
    assert refusal_of(EXAMPLES / "exports" / "wgs84_esri.prj", Crs.from_file).number == 11
    # An open file isn't a path: open() would read it, and close it.
    for found in (0, True):
        wants(TypeError, "expected str, bytes or os.PathLike object", Crs.from_file, found)
    assert os.fstat(0)


def facts_of(canonical: str) -> Tuple[str, List[str], List[List[float]]]:
    """Name, own identifiers and boxes, by a walk over all tokens."""
    name, identifiers, boxes = "", [], []
    nodes: List[Tuple[str, List[str]]] = [("", [])]
    word = ""
    for token in re.findall(r'"(?:[^"]|"")*"|[\[\],]|[^\[\],"]+', canonical):
        if token == "[":
            nodes[-1][1].pop()
            nodes.append((word, []))
        elif token == "]":
            keyword, values = nodes.pop()
            if len(nodes) == 1:
                name = values[0]
            elif len(nodes) == 2 and keyword == "ID":
                identifiers.append(":".join(values[:2]))
            elif keyword == "BBOX":
                boxes.append([float(value) for value in values])
        elif token != ",":
            word = token
            nodes[-1][1].append(token[1:-1].replace('""', '"') if token[0] == '"' else token)
    return name, identifiers, boxes


def test_name_and_identifiers() -> None:
    """They are those of a walk over all tokens, of all examples and of texts that have what delimits them in quotes."""
    from crsdesk import _facts

    odd = ['a],ID[""X"",1]', '"",""', "]", "[", ',REMARK[""x""]', "BBOX[1,2,3,4]", '""', "é", "ID[", "x" * 100_000]
    texts = [HEIGHT.replace('"H"', f'"{name}"') for name in odd]
    ids = [f'ID["{name}","{other}"{more}]' for name in odd for other in odd[:8] for more in ("", ",2", f',"{name}"')]
    more = [f',CITATION["{name}"]' for name in odd] + [f',URI["{name}"]' for name in odd] + [',CITATION["]"],URI["["]']
    ids += [f'ID["E",1{it}]' for it in more] + [f'ID["E",{number},"8.1"{more[-1]}]' for number in (1, 7, "007")]
    texts += [HEIGHT[:-1] + "," + it + "]" for it in ids] + [HEIGHT[:-1] + "," + ",".join(ids) + "]"]
    texts += [HEIGHT[:-1] + "," + ids[0] + f',REMARK["{name}"]]' for name in odd]
    texts += [HEIGHT[:-1] + f',USAGE[SCOPE["{name}"],AREA["{name}"],BBOX[1,-2,3.5,4]],BBOX[1,2,3,4]]' for name in odd]
    texts += RICH
    data = [text.encode() for text in texts]
    data += [path.read_bytes() for path in [*EXAMPLES.glob("*.wkt"), *(EXAMPLES / "exports").glob("*.wkt")]]
    data += (EXAMPLES / "catalogue.txt").read_bytes().split(b"\n")
    crss = [Crs(text) for text in data if is_accepted(text)]
    assert len(crss) > 400, len(crss)
    for crs in crss:
        name, identifiers, boxes = facts_of(str(crs))
        assert (crs.name, crs.identifiers) == (name, tuple(identifiers)), crs.text[:500]
        assert [list(it) for it in _facts.boxes_of(str(crs))] == [
            it for n, it in enumerate(boxes) if it not in boxes[:n]
        ]
    noted = Crs(HEIGHT[:-1] + ',ID["A",1],ID["B","x y"],REMARK["r"]]')
    assert (noted.name, noted.identifiers) == ("H", ("A:1", "B:x y"))
    assert repr(noted) == "<Crs 'H' A:1 B:x y (vertical)>"
    many = Crs(HEIGHT[:-1] + ',ID["A",1],ID["A",2],ID["A",3],ID["A",4]]')
    assert repr(many) == "<Crs 'H' A:1 A:2 A:3 ... (vertical)>"
    # They take little time of a long text, and of one that has no end of one.
    began = time.process_time()
    for text in (
        HEIGHT[:-1] + "".join(f',ID["A",{n}]' for n in range(50_000)) + "]",
        HEIGHT.replace('"H"', '"' + '""' * 400_000 + '"'),
    ):
        assert Crs(text).name and len(Crs(text).identifiers) in (0, 50_000)
    assert time.process_time() - began < 60


def test_what_a_crs_writes() -> None:
    crs = Crs(HEIGHT[:-1] + ',ID["A",1]]')
    assert crs.to_wkt() == crs.to_wkt("WKT2_2019") == crs.to_wkt(version="WKT2:2019") == str(crs)
    wants(ValueError, "a Crs writes WKT2:2019, not 'WKT1_GDAL'", crs.to_wkt, "WKT1_GDAL")
    assert f"{crs}" == f"{crs:full}" == str(crs) and f"{crs:definition}" == CANONICAL_HEIGHT
    assert f"{crs:.7}" == "VERTCRS" and f"{crs:>400}" == str(crs).rjust(400)
    wants(ValueError, "nvalid format specifier", format, crs, "full.")


class Noted(Crs):
    """A CRS with a note."""

    def __init__(self, text: crsdesk.Text, note: str) -> None:
        super().__init__(text)
        self.note = note


class Slotted(Crs):
    __slots__ = ("note",)


class Stated(Crs):
    """It has its own state."""

    def __getstate__(self) -> Tuple[int, int]:
        return (1, 2)

    def __setstate__(self, state: Tuple[int, int]) -> None:
        self.state = state


def test_subclasses_are_pickled_as_themselves() -> None:
    noted, slotted, empty = Noted(HEIGHT, "n"), Slotted(HEIGHT), Slotted(HEIGHT)
    setattr(slotted, "note", "s")
    for protocol in range(pickle.HIGHEST_PROTOCOL + 1):
        for crs in (noted, slotted, empty, Stated(HEIGHT), Crs(HEIGHT)):
            for twin in (pickle.loads(pickle.dumps(crs, protocol)), copy.copy(crs), copy.deepcopy(crs)):
                assert type(twin) is type(crs) and twin == crs and twin.text == crs.text
                assert getattr(twin, "note", None) == getattr(crs, "note", None)
    assert pickle.loads(pickle.dumps(Stated(HEIGHT))).state == (1, 2)
    for made in (Slotted.from_user(Crs(HEIGHT)), Slotted.from_file(EXAMPLES / "wgs84.wkt")):
        assert type(made) is Slotted
    assert noted == Crs(HEIGHT) and hash(noted) == hash(Crs(HEIGHT)) and repr(noted) == "<Noted 'H' (vertical)>"


def test_a_crs_is_sorted_by_its_canonical_text() -> None:
    names = ["b", "é", "a", "a b", "Z", "高"]
    texts = [HEIGHT.replace('"H"', f'"{name}"') for name in names]
    crss = [Crs(text) for text in texts]
    assert list(map(str, sorted(crss))) == sorted(map(str, crss))
    assert [str(it).encode() for it in sorted(crss)] == sorted(str(it).encode() for it in crss)
    first, second = Crs(texts[2]), Crs(texts[0])
    assert first < second and first <= second and second > first and second >= first
    assert first <= Crs(texts[2]) and not first < Crs(texts[2])
    wants(TypeError, "not supported between instances of 'Crs' and 'str'", lambda: crss[0] < texts[0])  # type: ignore[operator]


def test_what_is_no_level() -> None:
    calls: List[Callable[..., object]] = [
        lambda level: canon(HEIGHT, level),
        lambda level: same(HEIGHT, HEIGHT, level),
        lambda level: difference(HEIGHT, HEIGHT, level),
        lambda level: differences(HEIGHT, HEIGHT, level),
        lambda level: Crs(HEIGHT).canonical(level),
        lambda level: Crs(HEIGHT).same(HEIGHT, level),
        Catalogue,
    ]
    for call in calls:
        wants(ValueError, "no such level: 'Full'", call, "Full")
        wants(TypeError, "a level is a str", call, 1)
    wants(ValueError, "no such level", canon, "x", "")


def test_bytes_of_any_kind() -> None:
    texts: List[crsdesk.Text] = [HEIGHT, HEIGHT.encode(), bytearray(HEIGHT.encode()), memoryview(HEIGHT.encode())]
    for text in texts:
        assert canon(text) == CANONICAL_HEIGHT and Crs(text).text == HEIGHT.encode()


def test_a_crs_is_a_key() -> None:
    crs, again = Crs(HEIGHT), Crs(CANONICAL_HEIGHT)
    other = Crs(HEIGHT.replace('"H"', '"K"'))
    assert crs == again and hash(crs) == hash(again) and crs != other
    assert {crs: 1}[again] == 1 and {crs, again, other} == {again, other}
    assert crs != CANONICAL_HEIGHT and crs != None  # noqa: E711
    assert str(crs) == crs.canonical() == CANONICAL_HEIGHT and crs.kind == "vertical"
    assert repr(crs) == "<Crs 'H' (vertical)>"
    for twin in (pickle.loads(pickle.dumps(crs)), copy.copy(crs), copy.deepcopy(crs)):
        assert twin == crs and twin.text == crs.text
    assert not hasattr(crs, "__dict__")


def test_digests() -> None:
    for level in LEVELS:
        for text in (HEIGHT, NOTED):
            wanted = hashlib.sha256(canon(text, level).encode()).hexdigest()
            assert digest(text, level) == Crs(text).digest(level) == digest(Crs(text), level) == wanted
    assert digest(CANONICAL_HEIGHT) == digest(HEIGHT) != digest(HEIGHT.replace('"H"', '"K"'))
    rules = Rules('SAME[VDATUM["D"],VDATUM["E"]]')
    other = HEIGHT.replace('"D"', '"E"')
    assert digest(other, "full", rules) == Crs(other, rules=rules).digest() == digest(HEIGHT)
    assert refusal_of("x", digest).number == 7
    wants(ValueError, "no such level", digest, HEIGHT, "half")


@pytest.mark.parametrize("case", [it for it in rows.all_cases() if it.words[:1] == [b"digest"] and it.asks], ids=str)
def test_digests_of_rows(case: Case) -> None:
    level, words = level_of(case)
    if words == [b"digest"] and case.status == 0:
        assert digest(case.input, level).encode() + b"\n" == case.output


def test_levels() -> None:
    first = Crs(HEIGHT[:-1] + ',ID["A",1],REMARK["r"]]')
    second = Crs(HEIGHT[:-1] + ',USAGE[SCOPE["s"]]]')
    assert first.canonical("definition") == second.canonical("definition") == CANONICAL_HEIGHT
    assert not first.same(second) and first.same(second, "definition") and first != second
    assert first.difference(second) == "usage" and first.difference(second, "definition") is None
    assert [part.path for part in first.differences(second)] == ["usage", "id", "remark"]
    assert first.differences(second, "definition") == []
    catalogue = Catalogue("definition")
    assert [catalogue.add(crs.text) for crs in (first, second)] == [1, 1]
    assert catalogue.group(1).text == CANONICAL_HEIGHT and HEIGHT in catalogue and second in catalogue


def test_all_parts() -> None:
    ensemble = HEIGHT.replace('VDATUM["D"]', 'ENSEMBLE["D",MEMBER["m"],MEMBER["n"],ENSEMBLEACCURACY[2]]')
    assert list(map(str, differences(ensemble, HEIGHT))) == ["datum/kind: ENSEMBLE | VDATUM"]
    other = ensemble.replace('MEMBER["n"]', 'MEMBER["o"]').replace("2.0", "2")
    assert differences(ensemble, other) == [Difference("datum/members", 'MEMBER["n"]', 'MEMBER["o"]')]
    dynamic = HEIGHT.replace("VDATUM", 'DYNAMIC[FRAMEEPOCH[2010],MODEL["g"]],VDATUM')
    wanted = ["dynamic/epoch: none | 2010", 'dynamic/model: none | MODEL["g"]']
    assert list(map(str, differences(HEIGHT, dynamic))) == wanted
    odd = HEIGHT.replace('"H"', '"a],""b"""').replace("up", "down").replace("metre", "[,")
    assert [(part.path, part.second) for part in differences(HEIGHT, odd)] == [
        ("name", '"a],""b"""'),
        ("system/axis1/direction", "down"),
        ("system/axis1/unit", 'LENGTHUNIT["[,",1]'),
    ]


def test_parameters_by_their_names() -> None:
    """Up to 64 on a side are told by their names, more as a set."""

    def projected(count: int, value: int) -> str:
        parameters = [f'PARAMETER["p{it}",{value if it == 1 else 0}]' for it in range(count)]
        conversion = f'CONVERSION["c",METHOD["m"],{",".join(parameters)}]'
        system = 'CS[Cartesian,2],AXIS["(E)",east],AXIS["(N)",north],LENGTHUNIT["metre",1]'
        return f'PROJCRS["U",BASEGEOGCRS["B",DATUM["D",ELLIPSOID["E",1,0]]],{conversion},{system}]'

    few, many = ((projected(count, 1), projected(count, 2)) for count in (64, 65))
    assert differences(*few) == [Difference('conversion/parameters["p1"]', "1", "2")]
    assert differences(*many) == [Difference("conversion/parameters", 'PARAMETER["p1",1]', 'PARAMETER["p1",2]')]
    assert difference(*few) == difference(*many) == "conversion/parameters"


def test_all_parts_of_all_pairs() -> None:
    """The first of all parts in which a pair of examples or exports differs is the library's."""
    names = [*EXAMPLES.glob("*.wkt"), *(EXAMPLES / "exports").glob("*")]
    texts = [path.read_bytes() for path in sorted(names)]
    texts = [text for text in texts if is_accepted(text)]
    assert len(texts) > 30
    for level in ("full", "definition"):
        for first in texts:
            for second in texts:
                hold_pair(first, second, level)


# Each part that a CRS can have is in one of these.
RICH = [
    'COMPOUNDCRS["C",PROJCRS["P",BASEGEOGCRS["B",DYNAMIC[FRAMEEPOCH[2010],MODEL["g",ID["X",1]]],DATUM["D",ELLIPSOID["E",'
    '6378137,298.25,LENGTHUNIT["metre",1,ID["X",2]],ID["X",3]],ANCHOR["a"],ANCHOREPOCH[2011],ID["X",4]],PRIMEM["Paris",'
    '2.5,ANGLEUNIT["grad",0.0157],ID["X",5]],ANGLEUNIT["degree",0.0174],ID["X",6]],CONVERSION["V",METHOD["M",ID["X",7]],'
    'PARAMETER["k",1,SCALEUNIT["unity",1],ID["X",8]],PARAMETER["a",2],ID["X",9]],CS[Cartesian,2,ID["X",10]],AXIS["(E)",'
    'north,MERIDIAN[10,ANGLEUNIT["degree",0.0174]],LENGTHUNIT["metre",1],ID["X",11]],AXIS["(N)",south,LENGTHUNIT["metre"'
    ',1]],USAGE[SCOPE["s"],AREA["r"],BBOX[1,2,3,4],VERTICALEXTENT[5,6]],ID["X",12],REMARK["q"]],VERTCRS["H",DYNAMIC['
    'FRAMEEPOCH[2012]],VDATUM["W",ANCHOR["b"],ANCHOREPOCH[2013],ID["X",13]],CS[vertical,1],AXIS["h",up,LENGTHUNIT['
    '"metre",1]],GEOIDMODEL["g",ID["X",14]],USAGE[SCOPE["t"]],ID["X",15],REMARK["r"]],USAGE[AREA["u"]],ID["X",16],'
    'REMARK["s"]]',
    'GEODCRS["A",ENSEMBLE["N",MEMBER["m",ID["X",1]],MEMBER["n"],ELLIPSOID["E",6378137,298.25],ENSEMBLEACCURACY[2],ID["X"'
    ',2]],PRIMEM["Paris",2.5,ANGLEUNIT["grad",0.0157],ID["X",3]],CS[ellipsoidal,3,ID["X",4]],AXIS["lat",north,ANGLEUNIT['
    '"degree",0.0174]],AXIS["lon",east,ANGLEUNIT["degree",0.0174],ID["X",5]],AXIS["h",up,LENGTHUNIT["metre",1]],SCOPE["s'
    '"],ID["X",6],REMARK["r"]]',
    'GEODCRS["A",DYNAMIC[FRAMEEPOCH[2010],MODEL["g"]],DATUM["D",ELLIPSOID["E",6378137,298.25],ANCHOR["a"]],CS[Cartesian,'
    '3],AXIS["x",geocentricX],AXIS["y",geocentricY],AXIS["z",geocentricZ],LENGTHUNIT["metre",1]]',
    'VERTCRS["H",ENSEMBLE["N",MEMBER["m"],MEMBER["n",ID["X",1]],ENSEMBLEACCURACY[2],ID["X",2]],CS[vertical,1,ID["X",3]],'
    'AXIS["h",down,LENGTHUNIT["metre",1],ID["X",4]],GEOIDMODEL["g"],GEOIDMODEL["h"],ID["X",5]]',
]
VALUE = re.compile(r'"[^"]*"|[0-9.]+|north|south|up|down')
NODE = re.compile(r",[A-Z]+\[[^][]*(\[[^][]*\][^][]*)*\]")


def changed(text: str) -> Iterator[str]:
    """The text, and each that has one value changed, or one node left out, and is accepted."""
    yield text
    for match in VALUE.finditer(text):
        front, value, rest = text[: match.start()], match[0], text[match.end() :]
        other = {"north": "south", "south": "north", "up": "down", "down": "up"}.get(value)
        yield front + (other or (value[:-1] + 'x"' if value[0] == '"' else value + "1")) + rest
    for match in NODE.finditer(text):
        yield text[: match.start()] + text[match.end() :]


def test_all_parts_of_changed_texts() -> None:
    """The first of all parts is the library's for a text with each part, for each that differs from it in one, and for
    each that differs from that in another."""
    seen = set()
    for text in RICH:
        texts = [it.encode() for it in changed(text) if is_accepted(it.encode())]
        assert len(texts) > 10
        for index, first in enumerate(texts):
            for second in (texts[0], texts[index - 1], texts[index // 2], texts[(index + 17) % len(texts)]):
                for level in LEVELS:
                    hold_pair(first, second, level)
                    seen.add(difference(first, second, level))
    assert len(seen) == 80, len(seen)


def is_accepted(text: bytes) -> bool:
    try:
        check(text)
    except Refused:
        return False
    return True


def test_catalogue_of_names() -> None:
    catalogue = Catalogue()
    assert len(catalogue) == 0 and list(catalogue) == [] and catalogue.refused == []
    assert catalogue.add(HEIGHT, "a.wkt") == 1
    assert catalogue.add(" \n", "blank.wkt") is None
    refused = refusal_of("x", lambda text: catalogue.add(text, "b.wkt"))
    assert catalogue.add(CANONICAL_HEIGHT, ("c", 2)) == 1
    assert catalogue.add(HEIGHT.replace('"H"', '"K"')) == 5 - 3
    assert [tuple(group) for group in catalogue] == [
        (1, CANONICAL_HEIGHT, ["a.wkt", ("c", 2)]),
        (2, CANONICAL_HEIGHT.replace('"H"', '"K"'), [5]),
    ]
    assert [(name, it.text, str(it)) for name, it in catalogue.refused] == [("b.wkt", None, str(refused))]
    assert refused.text == b"x"
    keeping = Catalogue(keep_texts=True)
    refusal_of("x", keeping.add)
    assert [(name, it.text) for name, it in keeping.refused] == [(1, b"x")]
    wants(TypeError, "not NoneType", catalogue.add, None)
    assert HEIGHT in catalogue and CANONICAL_HEIGHT.encode() in catalogue and Crs(HEIGHT) in catalogue
    for text in (HEIGHT.replace('"H"', '"L"'), "x", "", " ", HEIGHT[:-1] + ',REMARK["r"]]'):
        assert text not in catalogue, text
    wants(TypeError, "not NoneType", lambda: None in catalogue)  # type: ignore[operator]
    for number in (0, 3, -1):
        wants(IndexError, "no such group", catalogue.group, number)
    long = HEIGHT[:-1] + ',REMARK["' + "r" * 200_000 + '"]]'
    assert len(catalogue.group(catalogue.add(long) or 0).text) > 200_000


def test_many_lines_of_one_group() -> None:
    catalogue = Catalogue()
    for _ in range(3000):
        catalogue.add(HEIGHT)
    assert catalogue.group(1).names == list(range(1, 3001))


def test_texts_that_come_again() -> None:
    """More texts than a catalogue remembers, several with one canonical text, some of them at once again."""
    texts = [HEIGHT.replace('"H"', f'"H{number}"') for number in range(300)]
    texts += [text[:-1] + f',ID["X",{number % 3}]]' for number, text in enumerate(texts)]
    texts += [text + " " for text in texts]
    levels: List[Any] = ["full", "definition"]
    for level in levels:
        catalogue = Catalogue(level)
        groups: Dict[str, int] = {}
        for number in range(2000):
            for step in (0, 1, 1, 7):
                text = texts[number * step % len(texts)]
                assert catalogue.add(text) == groups.setdefault(canon(text, level), len(groups) + 1)


def test_refused_texts_are_not_kept() -> None:
    """A catalogue takes little for a refused text, however long that is, and keeps no frame that has it."""
    catalogue, keeping = Catalogue(), Catalogue(keep_texts=True)
    text = b"GEOGCS[" + b"x" * 100_000
    used = []
    for kept in (catalogue, keeping):
        tracemalloc.start()
        for number in range(200):
            refusal_of(text + b"%d" % number, kept.add)
        used.append(tracemalloc.get_traced_memory()[0])
        tracemalloc.stop()
    assert used[0] < 1500 * 200 and used[1] > 100_000 * 200, used
    assert all(it.__traceback__ is None and it.__context__ is None for _, it in catalogue.refused + keeping.refused)


def test_values_are_written_escaped() -> None:
    noted = HEIGHT[:-1] + ',REMARK["a\n\tb\\\x1b[31m\x85\u2028\u202e"]]'
    assert str(differences(HEIGHT, noted)[0]) == 'remark: none | "a\\n\\tb\\\\\\x1B[31m\\u0085\\u2028\\u202E"'
    assert differences(HEIGHT, noted)[0].second == '"a\n\tb\\\x1b[31m\x85\u2028\u202e"'


def test_values_of_any_characters() -> None:
    """What separates the values of a line, and what escapes them, may be in them."""
    values = [*sql_rows.VALUES, 'a" | "b', "\\n", "\n", "\u2028 | \u202e", "\0", "x" * 100_000]
    names = [value.replace('"', '""') for value in values]
    for first in names:
        for second in names:
            one, other = (HEIGHT[:-1] + f',REMARK["{name}"]]' for name in (first, second))
            wanted = [] if first == second else [Difference("remark", f'"{first}"', f'"{second}"')]
            assert differences(one, other) == wanted, (first, second)
        assert differences(HEIGHT, HEIGHT[:-1] + f',REMARK["{first}"]]') == [Difference("remark", None, f'"{first}"')]


def test_nul_bytes() -> None:
    assert canon(HEIGHT.replace('"H"', '"a\0b"')) == CANONICAL_HEIGHT.replace('"H"', '"a\0b"')
    refused = refusal_of(HEIGHT + "\0")
    assert (refused.number, refused.place) == (1, len(HEIGHT))
    assert not same(HEIGHT.replace('"H"', '"H\0"'), HEIGHT)


def test_empty_texts() -> None:
    for text in ("", b"", " \n"):
        refused = refusal_of(text)
        assert (refused.number, refused.name, refused.place) == (7, "UnexpectedEnd", len(text))
        assert "There is nothing here" in str(refused)


def test_long_texts() -> None:
    text = HEIGHT[:-1].encode() + b',REMARK["' + b"r" * LONG + b'"]]'
    assert check(text) == "vertical"
    assert len(canon(text)) == len(CANONICAL_HEIGHT) + len(',REMARK[""]') + LONG
    assert same(text, text) and canon(text, "definition") == CANONICAL_HEIGHT
    for long, number, place in ((b"\n" * LONG, 7, LONG), (b"x" * LONG, 7, LONG), (b'a["' + b"x" * LONG, 5, 2)):
        refused = refusal_of(long)
        assert (refused.number, refused.place) == (number, place) and len(str(refused)) < 1000
    assert refusal_of(b"\n" * LONG).line == LONG + 1
    # The canonical text is longer than the room that it is first given.
    boxes = HEIGHT[:-1] + ",USAGE[BBOX[1E40,-1E40,1E-40,0]]" + "]"
    many = HEIGHT[:-1] + "".join(f",USAGE[BBOX[1E40,-1E40,1E-40,{n}]]" for n in range(3000)) + "]"
    assert len(canon(boxes)) > len(boxes) and len(canon(many)) > 3 * len(many)


SCARCE = """
import resource, sys
from crsdesk import canon, check
text = b'VERTCRS["H",' + b"1," * 20_000_000 + b"1]"
with open("/proc/self/statm") as file:
    used = int(file.read().split()[0]) * resource.getpagesize()
resource.setrlimit(resource.RLIMIT_AS, (used + 50_000_000, resource.RLIM_INFINITY))
for call in (check, canon):
    try:
        call(text)
    except MemoryError as error:
        print(error)
print(check(sys.argv[1]))
"""


def test_out_of_memory() -> None:
    """A call to which memory is refused says so, and the next call is answered."""
    done = run([sys.executable, "-c", SCARCE, HEIGHT])
    told = "crsdesk: memory was refused; the same call may be made again\n"
    assert (done.stdout, done.stderr) == (2 * told + "vertical\n", ""), (done.stdout, done.stderr)


def turns_beside(work: Callable[[], object]) -> int:
    """How often this thread had a turn while another one was at work."""
    worker = threading.Thread(target=work)
    worker.start()
    turns = 0
    while worker.is_alive():
        time.sleep(0.001)
        turns += 1
    return turns


def test_lock_is_released() -> None:
    # A thread that waits for the interpreter's lock has a turn between two calls at most. A busy machine may give it
    # few turns besides, so that one good attempt of some is enough.
    text = HEIGHT[:-1].encode() + b',REMARK["' + b"r" * LONG + b'"]]'
    attempts = (turns_beside(lambda: [check(text) for _ in range(5)]) for _ in range(100))
    most = next((turns for turns in attempts if turns > 15), None)
    assert most is not None, "a call keeps the interpreter's lock"


def test_four_threads() -> None:
    cases = rows.all_cases()
    cases = [case for case in cases if is_asked(case) and len(case.input) < 100_000]
    wanted = [case.output for case in cases]
    with ThreadPoolExecutor(4) as pool:
        for got in pool.map(lambda _: [answer(case) for case in cases], range(8)):
            assert got == wanted


def test_four_threads_on_one_catalogue() -> None:
    catalogue = Catalogue()
    texts = [HEIGHT.replace('"H"', f'"{number % 50}"') for number in range(2000)]
    with ThreadPoolExecutor(4) as pool:
        groups = list(pool.map(catalogue.add, texts, range(2000)))
    assert len(catalogue) == 50
    assert all(groups[name] == group.number for group in catalogue for name in group.names)
    assert sorted(name for group in catalogue for name in group.names) == list(range(2000))


def test_examples_of_the_docstrings() -> None:
    found = doctest.testmod(crsdesk)
    assert found.attempted >= 4 and found.failed == 0


def hold_examples(needs: str = "") -> None:
    """The blocks of docs/PYTHON.md that begin with ```pycon, and need nothing, or a package or program."""
    asked = ["pycon", f"pycon needs={needs}"] if needs else ["pycon"]
    blocks = documents.blocks_of(ROOT / "docs" / "PYTHON.md")
    documents.hold_session((it for it in blocks if it.head in asked), 31 if needs == "pyproj" else 11)


def test_examples_of_the_document() -> None:
    hold_examples()


# Rules.

NAMES = 'SAME[VDATUM["D"],VDATUM["E"]]\n# names\n\nUNCOUNTED[crsName]\n'
OTHER_HEIGHT = HEIGHT.replace('"H"', '"G"').replace('"D"', '"E"')
FORM = CANONICAL_HEIGHT.replace('"H"', '""')


def raised(kind: Type[Exception], call: Callable[[], object]) -> str:
    """What is said where a call raises what it must."""
    try:
        call()
    except kind as error:
        return str(error)
    raise AssertionError(f"{kind.__name__} wasn't raised")


def test_texts_under_rules() -> None:
    rules = Rules(NAMES)
    texts: List[Any] = [HEIGHT, OTHER_HEIGHT, OTHER_HEIGHT.encode(), Crs(OTHER_HEIGHT), FORM]
    for text in texts:
        assert canon(text, rules=rules) == FORM and canon(text, "definition", rules) == FORM
    assert same(HEIGHT, OTHER_HEIGHT, rules=rules) and not same(HEIGHT, OTHER_HEIGHT)
    found = difference(HEIGHT, OTHER_HEIGHT, rules=rules), differences(HEIGHT, OTHER_HEIGHT, rules=rules)
    assert found == (None, [])
    feet = OTHER_HEIGHT.replace('"metre",1', '"foot",0.3048')
    assert not same(HEIGHT, feet, rules=rules) and difference(HEIGHT, feet, rules=rules) == "system/axis1/unit"
    wanted = 'system/axis1/unit: LENGTHUNIT["metre",1] | LENGTHUNIT["foot",0.3048]'
    assert list(map(str, differences(HEIGHT, feet, rules=rules))) == [wanted]
    # Without rules all is as it was.
    for text in (HEIGHT, OTHER_HEIGHT):
        assert canon(text, rules=Rules()) == canon(text, rules=Rules("\n", b"# nothing")) == canon(text)
    long_name = HEIGHT.replace('"H"', '"' + "N" * 100_000 + '"')
    assert canon(long_name, rules=Rules()) == canon(long_name) and canon(long_name, rules=rules) == FORM
    with_nul = HEIGHT.replace('"H"', '"H\0"')
    assert canon(with_nul, rules=Rules()) == canon(with_nul)
    for call in (lambda: same(HEIGHT, "GEOGCRS[", rules=rules), lambda: differences(HEIGHT, "GEOGCRS[", rules=rules)):
        assert raised(Refused, call).startswith("the second text: refused 7 UnexpectedEnd at 8")
    raised(TypeError, lambda: canon(HEIGHT, rules=NAMES))  # type: ignore[arg-type]
    raised(ValueError, lambda: canon(HEIGHT, "ful", rules))  # type: ignore[arg-type]


def test_rules_of_files(tmp_path: pathlib.Path) -> None:
    one, two = (tmp_path / "one.rules"), (tmp_path / "two.rules")
    one.write_text(NAMES, encoding="utf-8")
    two.write_bytes(b'SAME[LENGTHUNIT["metre",1],LENGTHUNIT["meter",1.0]]\r\n')
    rules = Rules.from_file(one, str(two))
    assert rules.texts == (NAMES.encode(), two.read_bytes()) and rules == Rules(*rules.texts) != Rules(NAMES)
    assert hash(rules) == hash(Rules(*rules.texts)) and repr(rules) == "<Rules of 2 files>"
    assert canon(OTHER_HEIGHT.replace("metre", "meter"), rules=rules) == FORM
    two.write_text('# again\nSAME[VDATUM["é"],VDATUM["E"]]', encoding="utf-8")
    said = raised(RulesRefused, lambda: Rules.from_file(one, two))
    assert said.split("\n") == [
        f"{two}: line 2: refused 44 at 18: a node that stood in such a statement before",
        'SAME[VDATUM["é"],VDATUM["E"]]',
        " " * 17 + "^",
    ]
    raised(OSError, lambda: Rules.from_file((tmp_path / "none")))


def test_refused_rules() -> None:
    for text, line, number, place in (
        ("UNCOUNTED[anchor]\n\nUNCOUNTED[colour]", 3, 42, 10),
        ('EQUAL[DATUM["a"]]', 1, 41, 0),
        ('SAME[DATUM["a"],VDATUM["b"]]', 1, 43, 16),
        ('SAME[DATUM["a"]', 1, 7, 15),
    ):
        try:
            Rules("UNCOUNTED[dynamic]", text)
        except RulesRefused as refused:
            assert (refused.line, refused.number, refused.place, refused.path) == (line, number, place, None)
            again = pickle.loads(pickle.dumps(refused))
            assert str(again) == str(refused) and f"line {line}: refused {number} at {place}: " in str(refused)
        else:
            raise AssertionError(f"{text} is read")
    for other in (None, 5, pathlib.Path("x")):
        raised(TypeError, lambda: Rules(other))  # type: ignore[arg-type]


# Hostile rules files, by their kinds: None where one is read, or the refusal's number, and what stands at its place in the
# last line, from there on; None of a place is the line's end.
HOSTILE_RULES: Dict[str, Optional[Tuple[int, Optional[bytes]]]] = {
    "rules-sets": None,
    "rules-sets-and-a-repeated-node": (44, b'TRF["b0"]]'),
    "rules-one-set": None,
    "rules-one-set-and-a-repeated-node": (44, b'DATUM["0"]]'),
    "rules-units-of-one-name": None,
    "rules-words": None,
    "rules-words-and-none": (42, b"colour]"),
    "rules-kinds": None,
    "rules-kinds-and-a-repeated-name": (44, b'PARAMETER["a0"]]'),
    "rules-blank-lines": (41, b"EQUAL[1]"),
    "rules-comments": (41, b"EQUAL[1]"),
    "rules-long-name": None,
    "rules-ill-formed": (4, b'\xff"]]'),
    "rules-twelve-open-nodes": (42, b"SAME[" * 11 + b"1" + b"]" * 12),
    "rules-thirteen-open-nodes": (8, b"[1" + b"]" * 13),
    "rules-one-open-statement": (7, None),
}


def hostile_rules(kind: str, size: int) -> bytes:
    done = run([sys.executable, HERE / "hostile_texts.py", kind, size], text=False)
    assert done.returncode == 0, done.stderr
    return bytes(done.stdout)


def rules_or_refusal(text: bytes) -> Optional[Tuple[int, Optional[bytes]]]:
    """What is told of a file whose last line decides, as in HOSTILE_RULES."""
    try:
        Rules(text)
    except RulesRefused as refused:
        last = text.removesuffix(b"\n").split(b"\n")[-1]
        assert refused.line == text.count(b"\n") and refused.piece == last, refused.line
        return refused.number, last[refused.place :] or None
    return None


def seconds_of(call: Callable[[], object], tries: int = 3) -> float:
    """The processor time of a call, the shortest of some."""
    taken = []
    for _ in range(tries):
        began = time.process_time()
        call()
        taken.append(time.process_time() - began)
    return min(taken)


def test_hostile_rules_files() -> None:
    for kind, wanted in HOSTILE_RULES.items():
        small, large = hostile_rules(kind, 1 << 17), hostile_rules(kind, 1 << 20)
        assert rules_or_refusal(large) == wanted == rules_or_refusal(small), (kind, rules_or_refusal(large))
        # Of eight times the bytes, at most some eight times the time.
        least, most = (seconds_of(lambda: rules_or_refusal(text)) for text in (small, large))
        assert most <= 20 * least + 0.02, f"{kind}: {least} s, of eight times the bytes {most} s"


def test_many_rules_cost_a_text_no_more() -> None:
    few, many = Rules('SAME[DATUM["a0"],DATUM["b0"]]'), Rules(hostile_rules("rules-sets", 1 << 20))
    units = Rules(hostile_rules("rules-units-of-one-name", 1 << 20))
    text = (
        'GEOGCRS["G",DATUM["b0",ELLIPSOID["E",6378137,298.25]],CS[ellipsoidal,2],AXIS["lat",north],AXIS["lon",east],'
        'ANGLEUNIT["degree",0.017]]'
    )
    other = text.replace('"b0"', '"b1"')
    assert canon(text, rules=few) == canon(text, rules=many) == canon(text.replace('"b0"', '"a0"'))
    assert canon(other, rules=few) == canon(other) and canon(other, rules=many) == canon(text.replace('"b0"', '"a1"'))
    feet = HEIGHT.replace('"metre",1', '"m",77')
    assert canon(feet, rules=units) == canon(feet.replace("77", "1"))
    for rules in (many, units):
        texts = (text, other, feet) * 200
        least, most = (seconds_of(lambda: [canon(it, rules=asked) for it in texts]) for asked in (few, rules))
        assert most <= 2 * least + 0.02, f"under few rules {least} s, under many {most} s"


def test_a_crs_under_rules() -> None:
    rules = Rules(NAMES)
    one, other, plain = Crs(HEIGHT, rules=rules), Crs(OTHER_HEIGHT, rules=rules), Crs(HEIGHT)
    assert one == other and hash(one) == hash(other) and {one: 1}[other] == 1 and one.rules == rules
    assert one != plain and plain.rules is None and len({one, other, plain}) == 2
    assert str(one) == one.canonical() == canon(one) == f"{one:definition}" == FORM
    # What a CRS is called, and what it writes for others, is that of its text.
    assert (one.name, other.name, one.kind) == ("H", "G", "vertical")
    assert one.to_wkt() == CANONICAL_HEIGHT and one.text == HEIGHT.encode()
    assert one.same(OTHER_HEIGHT) and one.difference(other) is None and one.differences(Crs(OTHER_HEIGHT)) == []
    assert same(one, OTHER_HEIGHT) and same(HEIGHT, other, "definition") and plain.same(other)
    assert Crs(one) == one and Crs(plain, rules=rules) == one and Crs(one.text) == plain
    assert Crs.from_user(one) is one and Crs.from_user(plain, rules=rules) == one
    assert pickle.loads(pickle.dumps(one)) == copy.deepcopy(one) == one
    assert sorted([other, one]) == [one, other]
    for call in (
        lambda: one.same(Crs(HEIGHT, rules=Rules())),
        lambda: same(one, HEIGHT, rules=Rules()),
        lambda: canon(one, rules=Rules()),
        lambda: Crs(one, rules=Rules()),
    ):
        assert "under its own rules" in raised(ValueError, call)
    raised(TypeError, lambda: one < plain)


def test_groups_under_rules() -> None:
    catalogue = Catalogue(rules=Rules(NAMES))
    texts = HEIGHT, OTHER_HEIGHT, "", HEIGHT.replace("metre", "meter")
    assert list(map(catalogue.add, texts)) == [1, 1, None, 2]
    assert catalogue.group(1).text == FORM and catalogue.group(1).names == [1, 2] and OTHER_HEIGHT in catalogue
    raised(Refused, lambda: catalogue.add("GEOGCRS["))
    assert [name for name, _ in catalogue.refused] == [5]


def test_rules_go_to_threads_and_processes() -> None:
    rules = pickle.loads(pickle.dumps(Rules(NAMES)))
    assert rules == Rules(NAMES)
    with ThreadPoolExecutor(8) as pool:
        assert set(pool.map(lambda _: canon(OTHER_HEIGHT, rules=rules), range(2000))) == {FORM}


def test_rules_are_read_once_beside_refusals(monkeypatch: pytest.MonkeyPatch) -> None:
    rules = Rules(NAMES)
    monkeypatch.setattr(Rules, "_read", None)
    for text in ("GEOGCRS[", HEIGHT, "x", OTHER_HEIGHT):
        with contextlib.suppress(Refused):
            assert canon(text, rules=rules) == FORM


# Two texts, whether they are the same by definition, under rules/producers.rules, and under any-order.rules too. A name is
# that of a file of examples/exports; else a text is the first one, with one piece replaced by another.
PAIRS: List[Tuple[str, Tuple[str, ...], Tuple[bool, bool, bool]]] = [
    ("wgs84_projinfo_2019", ("wgs84_projinfo_2015",), (False, True, True)),
    ("wgs84_projinfo_2019", ("wgs84_gpkg",), (False, True, True)),
    ("wgs84_projinfo_2019", ("wgs84_shapefile",), (False, True, True)),
    ("wgs84_projinfo_2019", ("wgs84_prj",), (False, False, True)),
    ("wgs84_projinfo_2019", ("wgs84_wkt1",), (False, True, True)),
    ("utm31_projinfo_2019", ("utm31_geotiff",), (False, True, True)),
    ("utm31_projinfo_2019", ("utm31_proj4",), (False, True, True)),
    ("rd_projinfo_2019", ("rd_prj",), (False, True, True)),
    ("rd_projinfo_2019", ("rd_wkt1",), (False, True, True)),
    ("rd_projinfo_2019", ("rd_projinfo_2019_simplified",), (False, False, False)),
    ("rdnap_projinfo_2019", ("rdnap_geotiff",), (False, True, True)),
    ("itrf2014_projinfo_2019", ("itrf2014_projinfo_2015",), (False, True, True)),
    ("wgs84_projinfo_2015", ("0.0174532925199433", "0.017453292519943295"), (False, True, True)),
    ("wgs84_projinfo_2015", ("0.0174532925199433", "0.0174532925199434"), (False, False, False)),
    ("wgs84_projinfo_2015", ('"World Geodetic System 1984"', '"D_WGS_1984"'), (False, True, True)),
    ("wgs84_projinfo_2015", ('"World Geodetic System 1984"', '"World Geodetic System 1972"'), (False, False, False)),
    ("wgs84_projinfo_2015", ("298.257223563", "298.257222101"), (False, False, False)),
    ("wgs84_projinfo_2015", ('"Greenwich",0', '"Greenwich",1'), (False, False, False)),
    ("rd_projinfo_2019", ("0.9999079", "0.9999078"), (False, False, False)),
    ("rd_projinfo_2019", ('"Oblique Stereographic"', '"Stereographic"'), (False, False, False)),
    ("navd88_projinfo_2019", ('"metre",1', '"Meter",1'), (False, True, True)),
    ("navd88_projinfo_2019", ('"metre",1', '"foot",0.3048'), (False, False, False)),
]


def test_rules_that_ship() -> None:
    producers, any_order = (ROOT / "rules" / f"{name}.rules" for name in ("producers", "any-order"))
    some, all_of_them = Rules.from_file(producers), Rules.from_file(producers, any_order)
    assert Rules.from_file(any_order, producers) != all_of_them
    for name, how, wanted in PAIRS:
        first = (EXAMPLES / "exports" / f"{name}.wkt").read_text(encoding="utf-8")
        if len(how) == 1:
            second = (EXAMPLES / "exports" / f"{how[0]}.wkt").read_text(encoding="utf-8")
        else:
            old, new = how
            second = first.replace(old, new)
            assert second != first, (name, how)
        got = tuple(same(first, second, "definition", rules=rules) for rules in (None, some, all_of_them))
        assert got == wanted, (name, how, got)
        for rules in (some, all_of_them):
            form = canon(second, "definition", rules)
            assert canon(form, "definition", rules) == form


# A parameter's name, and what is before those that the registry hasn't in rules/omitted-units.rules.
PARAMETER, OTHERS = re.compile(r'PARAMETER\["([^"]*)"'), "# Parameters of methods"
# Two texts of examples/exports, or a text and the one in which a piece was replaced by another, and whether they are the
# same by definition under rules/omitted-units.rules.
OMITTED: List[Tuple[str, Tuple[str, ...], bool]] = [
    ("rd_projinfo_2019", ("rd_projinfo_2019_simplified",), True),
    ("rd_projinfo_2019", ("rd_projinfo_2015_simplified",), True),
    ("rd_projinfo_2019", ('SCALEUNIT["unity",1]', 'SCALEUNIT["ppm",1]'), False),
    ("rd_projinfo_2019_simplified", ("155000", '155000,LENGTHUNIT["metre",1]'), True),
    ("rd_projinfo_2019_simplified", ("155000", '155000,LENGTHUNIT["foot",0.3048]'), False),
    ("rd_projinfo_2019_simplified", ("155000", '155000,UNIT["metre",1]'), False),
    ("rd_projinfo_2019_simplified", ("False easting", "Easting"), False),
]


def test_omitted_units() -> None:
    rules = Rules.from_file(ROOT / "rules" / "omitted-units.rules")
    for name, how, wanted in OMITTED:
        first = (EXAMPLES / "exports" / f"{name}.wkt").read_text(encoding="utf-8")
        if len(how) == 1:
            second = (EXAMPLES / "exports" / f"{how[0]}.wkt").read_text(encoding="utf-8")
        else:
            second = first.replace(how[0], how[1])
            assert second != first, (name, how)
        assert not same(first, second, "definition") and same(first, second, "definition", rules=rules) == wanted, (
            name,
            how,
        )
        form = canon(second, "definition", rules)
        assert canon(form, "definition", rules) == form


@pytest.mark.needs("projinfo")
def test_omitted_units_are_those_of_the_registry() -> None:
    """The file is what the tool makes of PROJ's database, and has each parameter of EPSG's conversions, with its kind."""
    program, path = ROOT / "tools" / "make_rules.py", ROOT / "rules" / "omitted-units.rules"
    text = path.read_text(encoding="utf-8")
    made = run([sys.executable, program, "--omitted-units"]).stdout
    if made.split("\n")[0] != text.split("\n")[0]:
        pytest.skip("PROJ's database has another version of the registry")
    assert made == text
    told = {
        name: kind
        for kind, names in re.findall(r"^KIND\[(\w+)UNIT,(PARAMETER.*)\]$", text.partition(OTHERS)[0], re.M)
        for name in PARAMETER.findall(names)
    }
    with contextlib.closing(sqlite3.connect("file:/usr/share/proj/proj.db?mode=ro", uri=True)) as database:
        names = database.execute("SELECT name FROM conversion_param WHERE auth_name = 'EPSG'").fetchall()
    assert sorted(told) == sorted(name for name, in names)
    for name, kind in told.items():
        length = re.search(r"asting|orthing|eight|Geocentric", name)
        assert kind == ("LENGTH" if length else "SCALE" if "cal" in name and "Spherical" not in name else "ANGLE"), name


@pytest.mark.needs("projinfo")
def test_omitted_units_of_other_parameters() -> None:
    """Those that the registry hasn't."""
    path, names = ROOT / "rules" / "omitted-units.rules", set()
    rules = Rules.from_file(path)
    for code in (53025, 54098, 102299, 102497):
        first, second = (
            succeed(["projinfo", "-q", "--single-line", "-o", f"WKT2:2019{it}", f"ESRI:{code}"]).strip()
            for it in ("", "_SIMPLIFIED")
        )
        assert not same(first, second, "definition") and same(first, second, "definition", rules=rules), code
        names |= {*PARAMETER.findall(first)}
    assert {*PARAMETER.findall(path.read_text(encoding="utf-8").partition(OTHERS)[2])} < names


# A small database of PROJ's form: two datums with an alias in common, one that is another's name, and an ensemble.
DATABASE = """
CREATE TABLE metadata (key, value);
CREATE TABLE alias_name (table_name, auth_name, code, alt_name, source);
CREATE TABLE vertical_datum (auth_name, code, name);
CREATE TABLE ellipsoid (auth_name, code, name);
CREATE TABLE prime_meridian (auth_name, code, name);
CREATE TABLE geodetic_datum (auth_name, code, name);
INSERT INTO geodetic_datum VALUES ('X', 1, 'Frame "1"'), ('X', 2, 'B ensemble'), ('X', 3, 'C'), ('X', 4, 'D_C');
INSERT INTO alias_name VALUES ('geodetic_datum', 'X', 1, 'both', 'Y'), ('geodetic_datum', 'X', 2, 'both', 'Y'),
    ('geodetic_datum', 'X', 2, 'D_B', 'Y'), ('geodetic_datum', 'X', 3, 'D_C', 'Y'), ('geodetic_datum', 'X', 4, 'c', 'Y');
"""


def test_rules_of_a_database(tmp_path: pathlib.Path) -> None:
    program = ROOT / "tools" / "make_rules.py"
    database = tmp_path / "proj.db"
    with contextlib.closing(sqlite3.connect(database)) as connection:
        connection.executescript(DATABASE)
    for more, wanted in (
        ((), ['DATUM["B"],DATUM["D_B"]', 'DATUM["D_C"],DATUM["c"]']),
        (("--join",), ['DATUM["B"],DATUM["D_B"]', 'DATUM["C"],DATUM["D_C"],DATUM["c"]']),
    ):
        done = run([sys.executable, program, "--database", database, *more])
        rest = [line for line in done.stdout.split("\n") if line and not line.startswith("#")]
        wanted.append('DATUM["Frame ""1"""],DATUM["Frame_1"]')
        assert rest == [f"SAME[{it}]" for it in wanted], rest
        Rules(done.stdout)
    done = run([sys.executable, program, "--database", tmp_path / "missing"])
    assert done.returncode == 2 and "Traceback" not in done.stderr, done.stderr
