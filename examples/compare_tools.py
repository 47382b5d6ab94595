#!/usr/bin/env python3
"""Says of pairs of texts what each tool answers: whether they are the same CRS.

    compare_tools.py

The columns are crsdesk at its two levels; pyproj's ==, whether the hashes are equal, is_exact_same, and equals with
ignore_axis_order; GDAL's IsSame, and IsSame with CRITERION=STRICT. pyproj's == is PROJ's criterion EQUIVALENT,
is_exact_same is STRICT, and ignore_axis_order is EQUIVALENT_EXCEPT_AXIS_ORDER_GEOGCRS. It takes the packages crsdesk,
pyproj and osgeo, and the texts of examples/.
"""
import pathlib
from typing import Callable, Dict, List, Tuple

import crsdesk
import pyproj
from osgeo import osr

EXAMPLES = pathlib.Path(__file__).resolve().parent
osr.UseExceptions()


def text_of(name: str) -> str:
    return (EXAMPLES / name).read_text(encoding="utf-8")


POLAND = text_of("poland.wkt")
WGS84 = text_of("exports/wgs84_projinfo_2019.wkt")
ITRF = text_of("exports/itrf2014_projinfo_2019.wkt")


def edited(text: str, old: str, new: str) -> str:
    """A text with one thing changed, wherever it is."""
    assert old in text, old
    return text.replace(old, new)


def reordered(text: str) -> str:
    """A text with its first two parameters in the other order."""
    head, first, second, rest = text.split("PARAMETER[", 3)
    return f"{head}PARAMETER[{second}PARAMETER[{first}PARAMETER[{rest}"


ROWS: List[Tuple[str, str, str]] = [
    ("keywords of 2015 and white space", POLAND, edited(" ".join(POLAND.split()), "BASEGEOGCRS", "BASEGEODCRS")),
    ("order of parameters", POLAND, reordered(POLAND)),
    ("a CRS's identifier left out", POLAND, edited(POLAND, ',\n    ID["EPSG",3120]', "")),
    ("another identifier", POLAND, edited(POLAND, 'ID["EPSG",3120]', 'ID["EPSG",3121]')),
    ("a remark", POLAND, edited(POLAND, 'ID["EPSG",3120]', 'ID["EPSG",3120],REMARK["draft"]')),
    ("the box", POLAND, edited(POLAND, "BBOX[49,18,", "BBOX[49,19,")),
    ("two layouts of one registered CRS", POLAND, text_of("poland_gdal_2015.wkt")),
    ("the CRS's name", POLAND, edited(POLAND, 'PROJCRS["Pulkovo', 'PROJCRS["Old Pulkovo')),
    ("the ellipsoid's name", POLAND, edited(POLAND, "Krassowsky 1940", "Mine")),
    ("the frame's name", POLAND, edited(POLAND, 'DATUM["Pulkovo', 'DATUM["Old Pulkovo')),
    ("the conversion's name", POLAND, edited(POLAND, 'CONVERSION["Poland', 'CONVERSION["My')),
    ("an axis's name", POLAND, edited(POLAND, "northing (X)", "northing (N)")),
    ("0.1 mm of a false easting", POLAND, edited(POLAND, "4637000", "4637000.0001")),
    ("a degree with more digits", POLAND, edited(POLAND, "0.0174532925199433", "0.017453292519943295")),
    ("two digits exchanged", POLAND, text_of("poland_2171.wkt")),
    ("an ensemble's flattening", WGS84, edited(WGS84, "298.257223563", "150")),
    ("an ensemble's member", WGS84, edited(WGS84, ',MEMBER["World Geodetic System 1984 (G730)"]', "")),
    ("a frame for an ensemble", WGS84, text_of("wgs84.wkt")),
    ("longitude first", WGS84, text_of("exports/wgs84_prj.wkt")),
    ("the epoch of a frame", ITRF, edited(ITRF, "FRAMEEPOCH[2010]", "FRAMEEPOCH[2015]")),
]


def spatial(text: str) -> osr.SpatialReference:
    found = osr.SpatialReference()
    found.ImportFromWkt(text)
    return found


TOOLS: Dict[str, Callable[[str, str], object]] = {
    "full": lambda a, b: crsdesk.same(a, b),
    "definition": lambda a, b: crsdesk.same(a, b, "definition"),
    "==": lambda a, b: pyproj.CRS(a) == pyproj.CRS(b),
    "hash": lambda a, b: hash(pyproj.CRS(a)) == hash(pyproj.CRS(b)),
    "exact": lambda a, b: pyproj.CRS(a).is_exact_same(pyproj.CRS(b)),
    "no axis": lambda a, b: pyproj.CRS(a).equals(pyproj.CRS(b), ignore_axis_order=True),
    "IsSame": lambda a, b: spatial(a).IsSame(spatial(b)),
    "strict": lambda a, b: spatial(a).IsSame(spatial(b), ["CRITERION=STRICT"]),
}


def main() -> None:
    print(f"{'what differs':36}{''.join(f'{name:12}' for name in TOOLS)}".rstrip())
    for name, first, second in ROWS:
        answers = ["yes" if same(first, second) else "no" for same in TOOLS.values()]
        print(f"{name:36}{''.join(f'{answer:12}' for answer in answers)}".rstrip())


if __name__ == "__main__":
    main()
