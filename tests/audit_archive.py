#!/usr/bin/env python3
"""Makes an archive for `python -m crsdesk audit`, and the answer that is wanted of it.

    audit_archive.py FOLDER

The folder gets a thousand files: texts (.wkt, .wkt2, .prj, .qpj), catalogues (.txt), GeoPackages, SpatiaLite databases
and zip archives, and, where osgeo is there, GeoTIFFs, shapefiles, NetCDF files and FlatGeobufs. What each text spells is
known as it is made: its CRS, by definition and with everything, or its refusal. Each format of data that GDAL writes has
one CRS of its own. Standard output has the answer as JSON. Equal runs make equal texts.
"""
from __future__ import annotations

import json
import os
import pathlib
import random
import sqlite3
import sys
import zipfile
from typing import Any, Dict, Iterator, List, NamedTuple, Optional, Set, Tuple

sys.dont_write_bytecode = True
from big_catalogue import respelled
from gdal_data import make_raster, make_vector, reference_of

FILES = 1000
ZONES = 40
# What GDAL writes: the driver and the code of the CRS, by the file's suffix.
BY_GDAL = {
    "tif": ("GTiff", 32631),
    "nc": ("netCDF", 3035),
    "fgb": ("FlatGeobuf", 2154),
    "shp": ("ESRI Shapefile", 28992),
}
CATALOGUES = 25


class Known(NamedTuple):
    """A text, and what is known of it: its definition, its CRS with everything; or the refusal's number and byte."""

    text: str
    definition: str = ""
    crs: str = ""
    number: int = 0
    place: int = 0


def geographic(name: str, flattening: str = "298.257222101", latitude_first: bool = True, rest: str = "") -> str:
    axes = ['AXIS["latitude",north,ORDER[{}]]', 'AXIS["longitude",east,ORDER[{}]]']
    axes = axes if latitude_first else axes[::-1]
    written = ",".join(axis.format(number) for number, axis in enumerate(axes, 1))
    return (
        f'GEOGCRS["{name}",DATUM["Survey 1990",ELLIPSOID["GRS 1980",6378137,{flattening},LENGTHUNIT["metre",1]]],'
        f'CS[ellipsoidal,2],{written},ANGLEUNIT["degree",0.0174532925199433]{rest}]'
    )


def projected(
    zone: int, name: str = "", flattening: str = "298.257222101", easting: int = 500000, rest: str = ""
) -> str:
    west = -180 + 9 * (zone - 1)
    return (
        f'PROJCRS["{name or f"Survey zone {zone}"}",BASEGEOGCRS["Survey",DATUM["Survey 1990",ELLIPSOID["GRS 1980",6378137,'
        f'{flattening},LENGTHUNIT["metre",1]]]],CONVERSION["Zone {zone}",METHOD["Transverse Mercator"],'
        f'PARAMETER["Latitude of natural origin",0,ANGLEUNIT["degree",0.0174532925199433]],'
        f'PARAMETER["Longitude of natural origin",{west + 4.5},ANGLEUNIT["degree",0.0174532925199433]],'
        f'PARAMETER["Scale factor at natural origin",0.9996,SCALEUNIT["unity",1]],'
        f'PARAMETER["False easting",{easting},LENGTHUNIT["metre",1]],PARAMETER["False northing",0,LENGTHUNIT["metre",1]]],'
        f'CS[Cartesian,2],AXIS["easting",east],AXIS["northing",north],LENGTHUNIT["metre",1],'
        f'USAGE[SCOPE["Survey."],AREA["Zone {zone}."],BBOX[{-40 + zone},{west},{zone},{west + 9}]]{rest}]'
    )


def vertical(name: str, rest: str = "") -> str:
    return f'VERTCRS["{name}",VDATUM["Sea {name}"],CS[vertical,1],AXIS["height",up],LENGTHUNIT["metre",1]{rest}]'


def crss() -> List[Known]:
    """The CRSs, the most used first."""
    found: List[Known] = []
    for zone in range(1, ZONES + 1):
        identity = f',ID["SURVEY",{1000 + zone}]'
        found.append(Known(projected(zone, rest=identity), f"zone {zone}", f"zone {zone} with ID"))
        if zone % 4 == 0:
            found.append(Known(projected(zone), f"zone {zone}", f"zone {zone}"))
        if zone % 8 == 0:
            found.append(
                Known(projected(zone, rest=identity + ',REMARK["old"]'), f"zone {zone}", f"zone {zone} with remark")
            )
    found.append(Known(geographic("Survey"), "survey", "survey"))
    for number in range(5):
        found.append(Known(vertical(f"H{number}"), f"H{number}", f"H{number}"))
    # Near misses: one name and one identifier, one name, and one identifier alone.
    found.append(Known(projected(7, flattening="298.25", rest=',ID["SURVEY",1007]'), "zone 7 flat", "zone 7 flat"))
    found.append(Known(projected(9, easting=0), "zone 9 origin", "zone 9 origin"))
    found.append(Known(geographic("Survey", latitude_first=False), "survey axes", "survey axes"))
    found.append(Known(projected(11, "Zone 11 (old)", rest=',ID["SURVEY",1011]'), "zone 11 old", "zone 11 old"))
    found.append(
        Known(
            vertical('<b onclick="alert(1)">&amp;</b><script>alert(2)</script>'.replace('"', '""')), "markup", "markup"
        )
    )
    return found


# The near misses that are wanted: what both have, and in which parts the two differ.
NEAR_MISSES = [
    ("name", "Survey zone 7", ["zone 7", "zone 7 flat"], ["base/datum/ellipsoid/flattening"]),
    ("name", "Survey zone 9", ["zone 9", "zone 9 origin"], ["conversion/parameters/False easting"]),
    ("name", "Survey", ["survey", "survey axes"], [
        "system/axis1/name", "system/axis1/direction", "system/axis2/name", "system/axis2/direction",
    ]),
    ("identifier", "SURVEY:1011", ["zone 11", "zone 11 old"], ["name"]),
]  # fmt: skip


def refusals() -> List[Known]:
    whole = vertical("R")
    cut = projected(3)[:400]
    return [
        Known('GEOGCS["WGS 84",DATUM["WGS_1984",SPHEROID["WGS 84",6378137,298.257223563]]]', number=11, place=0),
        Known(cut, number=7, place=len(cut)),
        Known("EPSG:4326", number=1, place=4),
        Known("+proj=utm +zone=31 +type=crs", number=2, place=0),
        Known(whole.replace("vertical,1", "vertical,2"), number=23, place=whole.index("CS[")),
        Known(whole.replace("up]", "up"), number=7, place=len(whole) - 1),
        Known(whole.replace("[vertical", "(vertical"), number=6, place=whole.index("vertical,1") + len("vertical,1")),
        Known(whole + "]", number=6, place=len(whole)),
    ]


class Archive:
    """The archive as it is made, and its answer: places by CRSs, and refusals."""

    def __init__(self, folder: pathlib.Path) -> None:
        self.folder = folder
        self.chance = random.Random(1990)
        self.crss, self.refusals = crss(), refusals()
        self.files = self.others = 0
        self.spelled: Dict[str, Dict[str, List[List[Any]]]] = {}
        self.refused: List[List[Any]] = []
        self.without: List[List[Any]] = []
        self.texts = 0
        self.accepted: Set[str] = set()

    def path(self, name: str) -> pathlib.Path:
        """Where a file of this name goes: one of some folders below the archive."""
        folder = self.folder / f"part {self.files % 7}" / f"{self.files % 3}"
        folder.mkdir(parents=True, exist_ok=True)
        self.files += 1
        return folder / name

    def choose(self) -> Known:
        """A text by chance: a spelling of a CRS, the first ones most often, or at times one that is refused."""
        if self.chance.random() < 0.08:
            return self.chance.choice(self.refusals)
        index = min(int(self.chance.expovariate(0.08)), 10**6) % len(self.crss)
        return self.spelled_anew(self.crss[index])

    def spelled_anew(self, known: Known) -> Known:
        return known._replace(text=respelled(known.text.encode(), self.chance.randrange(16)).decode())

    def state(self, known: Optional[Known], path: pathlib.Path, layer: str = "", line: int = 0) -> None:
        """Writes down what is in a place; None where nothing is."""
        place = [str(path), layer, line]
        if known is None:
            self.without.append(place)
        elif known.number:
            self.refused.append([*place, known.number, known.place])
        else:
            self.spelled.setdefault(known.definition, {}).setdefault(known.crs, []).append(place)
        if known is not None:
            self.texts += 1
            if not known.number:
                self.accepted.add(known.text)

    def add_text(self, suffix: str, known: Optional[Known] = None) -> None:
        known = known or self.choose()
        path = self.path(f"text {self.files}{suffix}")
        path.write_text(known.text, encoding="utf-8")
        self.state(known, path)

    def add_catalogue(self) -> None:
        path = self.path(f"lines{self.files}.txt")
        lines = [self.choose() if number % 5 else None for number in range(1, 13)]
        path.write_text("".join((it.text if it else "") + "\n" for it in lines), encoding="utf-8")
        for number, known in enumerate(lines, 1):
            self.state(known, path, "", number)

    def add_database(self, suffix: str) -> None:
        """A GeoPackage, whose entries have texts in WKT1 and, but for the last layer, in WKT2; or a SpatiaLite one."""
        path = self.path(f"layers{self.files}{suffix}")
        old = self.refusals[0]
        layers = [(f"layer {number}", self.choose()) for number in range(self.chance.randint(1, 3))]
        with sqlite3.connect(path) as base:
            if suffix == ".gpkg":
                base.execute(
                    "CREATE TABLE gpkg_spatial_ref_sys (srs_name TEXT, srs_id INTEGER PRIMARY KEY, organization TEXT, "
                    "organization_coordsys_id INTEGER, definition TEXT, description TEXT, definition_12_063 TEXT)"
                )
                base.execute("CREATE TABLE gpkg_contents (table_name TEXT PRIMARY KEY, data_type TEXT, srs_id INTEGER)")
                entry = "INSERT INTO gpkg_spatial_ref_sys VALUES ('', ?, '', 0, ?, '', ?)"
                base.execute(entry, (0, "undefined", "undefined"))
                base.execute("INSERT INTO gpkg_contents VALUES ('z none', 'features', 0)")
                for number, (name, known) in enumerate(layers, 1):
                    base.execute(entry, (number, old.text, known.text))
                    base.execute("INSERT INTO gpkg_contents VALUES (?, 'features', ?)", (name, number))
                base.execute(entry, (99, old.text, "undefined"))
                base.execute("INSERT INTO gpkg_contents VALUES ('y old', 'features', 99)")
            else:
                base.execute("CREATE TABLE spatial_ref_sys (srid INTEGER PRIMARY KEY, auth_name TEXT, srtext TEXT)")
                base.execute("CREATE TABLE geometry_columns (f_table_name TEXT, f_geometry_column TEXT, srid INTEGER)")
                for number, (name, known) in enumerate(layers, 1):
                    base.execute("INSERT INTO spatial_ref_sys VALUES (?, 'none', ?)", (number, known.text))
                    base.execute("INSERT INTO geometry_columns VALUES (?, 'geometry', ?)", (name, number))
        base.close()
        for name, known in layers:
            self.state(known, path, name)
        if suffix == ".gpkg":
            self.state(old, path, "y old")
            self.state(None, path, "z none")

    def add_zip(self) -> None:
        path = self.path(f"packed{self.files}.zip")
        with zipfile.ZipFile(path, "w", zipfile.ZIP_DEFLATED) as archive:
            for name in ("a/one.wkt", "b/two.prj"):
                known = self.choose()
                archive.writestr(name, known.text)
                self.state(known, path, name)
            archive.writestr("readme.md", "none")

    def add_by_gdal(self, kind: str) -> None:
        """A data set of one of GDAL's formats, each with its own CRS."""
        from osgeo import gdal

        driver, code = BY_GDAL[kind]
        path = self.path(f"data{self.files}.{kind}")
        if kind in ("tif", "nc"):
            make_raster(path, driver, reference_of(code))
        else:
            make_vector(path, driver, reference_of(code))
        name = f"data of .{kind}"
        text = text_of(gdal.OpenEx(str(path)))
        self.state(Known(text, name, name), path, "" if kind in ("tif", "nc") else path.stem)
        if kind == "shp":
            # What is beside the shapefile: a text in WKT1, and two files that aren't read by themselves.
            old = path.with_suffix(".prj")
            self.state(Known(old.read_text(encoding="utf-8"), number=11, place=0), old)
            self.files += 3
            self.others += 2

    def answer(self) -> Dict[str, Any]:
        return {
            "files": self.files - self.others,
            "others": self.others,
            "texts": self.texts,
            "distinct_accepted": len(self.accepted),
            "spelled": self.spelled,
            "refused": self.refused,
            "without": self.without,
            "near_misses": NEAR_MISSES,
        }


def text_of(data_set: Any) -> str:
    reference = data_set.GetLayer(0).GetSpatialRef() if data_set.GetLayerCount() else data_set.GetSpatialRef()
    return str(reference.ExportToWkt(["FORMAT=WKT2_2019", "MULTILINE=NO"]))


def kinds(archive: Archive, has_gdal: bool) -> Iterator[Tuple[int, Any]]:
    """How many files of each kind are made, and by what."""
    yield 130, lambda: archive.add_text(".wkt2")
    yield 100, lambda: archive.add_text(".prj")
    yield 60, lambda: archive.add_text(".QPJ")
    yield CATALOGUES, archive.add_catalogue
    yield 40, lambda: archive.add_database(".gpkg")
    yield 25, lambda: archive.add_database(".sqlite")
    yield 30, archive.add_zip
    for kind in BY_GDAL if has_gdal else ():
        yield 20, lambda kind=kind: archive.add_by_gdal(kind)


def make(folder: pathlib.Path) -> Dict[str, Any]:
    """Makes the archive in a folder, and answers what is wanted of it."""
    try:
        from osgeo import gdal

        gdal.UseExceptions()
        has_gdal = True
    except ImportError:
        has_gdal = False
    archive = Archive(folder)
    for known in archive.crss + archive.refusals:
        archive.add_text(".wkt", known)
    for count, add in kinds(archive, has_gdal):
        for _ in range(count):
            add()
    while archive.files < FILES:
        archive.add_text(".wkt")
    return archive.answer()


if __name__ == "__main__":
    if len(sys.argv) != 2:
        sys.exit(__doc__)
    print(json.dumps(make(pathlib.Path(os.path.abspath(sys.argv[1])))))
