"""What GDAL and PROJ warn of while they read a CRS, and what GDAL repairs or replaces without a word.

Each function answers in GDAL's words, or in a few of its own, why a data set's CRS isn't taken; nothing if it is.
"""

from __future__ import annotations

import contextlib
import json
import re
from typing import Any, Dict, Iterator, List

from .looks import kind_of_text, told_of_text

# What a warning of the CRS has, among those that come as a data set is opened.
OF_CRS = re.compile(
    r"PROJ|CRS|SRS|EPSG|WKT|geo ?key|GTIF|projection|datum|ellipsoid|spheroid|coordinate system|spatial ref", re.I
)
# How much of a file is looked at together, and the most bytes of a CRS in GeoJSON.
PIECE = 1 << 20
MOST_OF_MEMBER = 1 << 16
MEMBER = re.compile(rb'"crs"\s*:\s*')
# The kinds of CRSs in GeoJSON, and the property that names one of the kind.
NAMES = {"name": "name", "epsg": "code", "ogc": "urn"}
LINKS = ("link", "url")


# OGR's errors of a CRS.
ERRORS = {5: "corrupt data", 7: "unsupported CRS"}


def words_of(code: object) -> str:
    """An error of OGR: the bindings return its number or raise its words."""
    return ERRORS.get(code, f"OGR error {code}") if isinstance(code, int) else str(code)


def one_line(words: object) -> str:
    return " ".join(str(words).split())


@contextlib.contextmanager
def warnings_of(gdal: Any) -> Iterator[List[str]]:
    """What GDAL warns of, and its errors, in a ``with``."""
    words: List[str] = []

    def keep(kind: int, _: int, message: str) -> None:
        if kind >= gdal.CE_Warning and one_line(message) not in words:
            words.append(one_line(message))

    gdal.PushErrorHandler(keep)
    try:
        yield words
    finally:
        gdal.PopErrorHandler()


def invalid(reference: Any) -> List[str]:
    """What is wrong with a reference by GDAL's own test: what PROJ repaired as it read the text too."""
    try:
        code = reference.Validate()
    except RuntimeError as error:
        return [one_line(error)]
    return [words_of(code)] if code else []


def strange_beside(gdal: Any, path: str) -> List[str]:
    """That the .prj by which a data set has its CRS is no text of a CRS: GDAL's words would quote some of it."""
    front = path.rpartition(".")[0]
    content = content_of(gdal, f"{front}.prj") or content_of(gdal, f"{front}.PRJ")
    kind = kind_of_text(content) if content.strip() else ""
    return [f"its .prj isn't read: {told_of_text(kind, len(content))}"] if kind else []


def damage_beside(gdal: Any, data_set: Any, reference: Any) -> List[str]:
    """What is wrong in a text beside a data set (.prj) by which GDAL has its CRS: that it is damaged, or that GDAL took
    a CRS with another ellipsoid for it."""
    names = [name for name in data_set.GetFileList() or [] if name.lower().endswith(".prj")]
    return [word for name in names[:1] for word in damage_in(gdal, content_of(gdal, name), reference)]


def damage_in(gdal: Any, content: bytes, reference: Any) -> List[str]:
    from osgeo import osr

    lines = content.decode("utf-8", "replace").splitlines()
    if not any(line.strip() for line in lines):
        return []
    own = osr.SpatialReference()
    with warnings_of(gdal) as words:
        try:
            code: object = own.ImportFromESRI(lines)
        except RuntimeError as error:
            code = one_line(error)
    if code:
        return [] if reference else [*words, f"its .prj isn't read: {words_of(code)}"]
    found = words + [f"its .prj isn't sound: {it}" for it in invalid(own)]
    if reference and not found and not are_near(ellipsoid_of(own), ellipsoid_of(reference)):
        found.append(f"it takes its .prj for {reference.GetName()}, which has another ellipsoid")
    return found


def ellipsoid_of(reference: Any) -> List[float]:
    return [reference.GetSemiMajor(), reference.GetInvFlattening()]


def are_near(first: List[float], second: List[float]) -> bool:
    return all(abs(one - other) <= 1e-9 * abs(one) for one, other in zip(first, second))


def content_of(gdal: Any, path: str) -> bytes:
    """The front of a file, as GDAL opens it: as much as a text can have."""
    file = gdal.VSIFOpenL(path, "rb")
    if file is None:
        return b""
    try:
        return bytes(gdal.VSIFReadL(1, PIECE, file) or b"")
    finally:
        gdal.VSIFCloseL(file)


def entities_in(gdal: Any, path: str) -> List[str]:
    """That an XML file declares entities: GDAL resolves none that leads to another file, and says nothing of it."""
    has_some = b"<!ENTITY" in content_of(gdal, path).replace(b"\0", b"")
    return ["its XML has entities (<!ENTITY ..>), which aren't resolved"] if has_some else []


# GeoJSON: where a file names a CRS that GDAL doesn't know, it answers WGS 84.


def unknown_in_geojson(gdal: Any, path: str) -> List[str]:
    """What is wrong with the CRS that a GeoJSON file names."""
    return [word for crs in members_of(gdal, path) for word in unknown(crs)][:1]


def unknown(crs: Dict[str, Any]) -> List[str]:
    from osgeo import osr

    kind, properties = str(crs.get("type")).lower(), crs.get("properties")
    if kind in LINKS:
        return ["its CRS is a link, which isn't followed"]
    name = properties.get(NAMES.get(kind, "")) if isinstance(properties, dict) else None
    if kind == "epsg" and isinstance(name, (int, str)):
        name = f"EPSG:{name}"
    if not isinstance(name, str):
        return [f"its CRS isn't known: {json.dumps(crs)[:200]}"]
    try:
        code = osr.SpatialReference().SetFromUserInput(name)
    except RuntimeError as error:
        code = one_line(error)
    return [f"its CRS isn't known: {json.dumps(name)[:200]}"] if code else []


def members_of(gdal: Any, path: str) -> Iterator[Dict[str, Any]]:
    """The CRSs that a GeoJSON file has as members, and what could be one among the members of features."""
    file = gdal.VSIFOpenL(path, "rb")
    if file is None:
        return
    try:
        content, is_end = b"", False
        while not is_end:
            piece = bytes(gdal.VSIFReadL(1, PIECE, file) or b"")
            content, is_end = content + piece, len(piece) < PIECE
            # A member whose end may lie in the next piece waits for it.
            kept = len(content) if is_end else max(0, len(content) - MOST_OF_MEMBER)
            for match in MEMBER.finditer(content):
                if match.end() > kept:
                    kept = min(kept, match.start())
                    break
                yield from crs_at(content[match.end() : match.end() + MOST_OF_MEMBER])
            content = content[kept:]
    finally:
        gdal.VSIFCloseL(file)


def crs_at(content: bytes) -> Iterator[Dict[str, Any]]:
    with contextlib.suppress(ValueError, RecursionError):
        value, _ = json.JSONDecoder().raw_decode(content.decode("utf-8", "replace"))
        if isinstance(value, dict) and (str(value.get("type")).lower() in (*NAMES, *LINKS) or "properties" in value):
            yield value
