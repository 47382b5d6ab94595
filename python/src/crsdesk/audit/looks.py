"""Whether a text looks like a CRS's: a report quotes nothing of another, but has its kind and its length."""

from __future__ import annotations

import re

from .._foreign import CODE_FORM, WKT1_HEADS

# First words that no other text has, and such as another may have, so that a bracket must follow.
HEADS = WKT1_HEADS | frozenset(
    (
        "GEODCRS GEODETICCRS GEOGCRS GEOGRAPHICCRS PROJCRS PROJECTEDCRS VERTCRS VERTICALCRS COMPOUNDCRS BOUNDCRS ENGCRS "
        "ENGINEERINGCRS PARAMETRICCRS TIMECRS IMAGECRS DERIVEDPROJCRS BASEGEODCRS BASEGEOGCRS GEOGTRAN VERTTRAN "
        "COORDINATEMETADATA COORDINATEOPERATION CONCATENATEDOPERATION POINTMOTIONOPERATION ANGLEUNIT LENGTHUNIT SCALEUNIT "
        "GEODETICDATUM VERTICALDATUM VERT_DATUM VDATUM SPHEROID ELLIPSOID PRIMEM PRIMEMERIDIAN TOWGS84"
    ).split()
)
NODES = frozenset(
    "AUTHORITY AXIS CONVERSION CS DATUM DYNAMIC ENSEMBLE ID METHOD PARAMETER PROJECTION TRF UNIT VRF".split()
)
WORD = re.compile(r"([A-Za-z_0-9]+)\s*([\[(]?)")
STRING_WORD = re.compile(r"\+[a-zA-Z_][a-zA-Z_0-9]*(?:[=\s]|$)|(?:proj|init)=")
PROJJSON = re.compile(r'\{\s*"(?:\$schema"\s*:\s*"https?://proj\.org/|type"\s*:\s*"\w*CRS")')
AUTHORITIES = ("epsg:", "esri:", "ignf:", "ogc:", "nkg:", "iau_2015:", "urn:ogc:", "http://", "https://")
BOM = "\ufeff"
UTF_16 = (b"\xff\xfe", b"\xfe\xff")
# As much of a text as shows what it is.
FRONT = 4096


def looks_like_crs(text: bytes) -> bool:
    """Whether a text begins as one of WKT, of PROJ or of PROJJSON does, or is a code of a well-known authority."""
    front = text[:FRONT].decode("utf-8", "replace").lstrip(BOM).lstrip()
    match = WORD.match(front)
    if match and (match[1].upper() in HEADS or match[2] and match[1].upper() in NODES):
        return True
    if CODE_FORM.fullmatch(front.rstrip()):
        return front.lower().startswith(AUTHORITIES)
    return any(it.match(front) for it in (STRING_WORD, PROJJSON))


def kind_of_text(text: bytes) -> str:
    """What a text is that isn't quoted; nothing for one that looks like a CRS's."""
    if looks_like_crs(text):
        return ""
    front = text[:FRONT]
    if front.startswith(UTF_16) or 0 < len(front) < 3 * front.count(b"\0"):
        return "UTF-16"
    if b"\0" in front:
        return "binary data"
    begin = front.lstrip(b"\xef\xbb\xbf \t\r\n").lower()
    if begin.startswith((b"<!doctype html", b"<html")):
        return "HTML"
    if begin.startswith(b"<"):
        return "XML"
    return "JSON" if begin.startswith((b"{", b"[")) else "no text of a CRS"


def told_of_text(kind: str, length: int) -> str:
    """A text that isn't quoted: ``HTML, 1,234 bytes``."""
    return f"{kind}, {length:,} bytes"
