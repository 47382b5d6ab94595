#!/usr/bin/env python3
"""An archive as archives are, and how many of its pairs and planted mistakes an audit finds.

    test_audit_trial.py [--make FOLDER | --list | --equal]

The archive has 53 registered CRSs in ten forms: shapefiles with Esri's .prj, some with a .qpj, GeoTIFFs, GeoPackages,
GeoJSON, NetCDF, texts in WKT2:2019, WKT2:2015 and WKT1, zips; and bound CRSs, damaged texts and planted mistakes, which
--list prints. Of each text it is known which CRS it is meant to be. It is audited as it is, with conversion and the
registry, and under the rules that ship too. --make makes the archive alone. Without words the figures are printed, which
pytest holds against those that were reached. --equal prints those of another archive, in which each CRS is in each of 15
forms once, with simplified texts, .img, .tab, TOWGS84, BOUNDCRS and a table's srtext: which pairs of texts
are found, those that aren't by form and part, and each pair that is wrong.
"""
from __future__ import annotations

import collections
import contextlib
import importlib
import itertools
import json
import os
import pathlib
import random
import re
import sqlite3
import sys
import tempfile
import zipfile
from typing import Any, Callable, Counter, Dict, Iterable, Iterator, List, NamedTuple, Tuple

import pytest
from gdal_data import make_raster, make_vector, reference_of
from support import package, succeed

GEOGRAPHIC = (4326, 4258, 4269, 4267, 4289, 4314, 4230, 4283, 4167, 4807)
PROJECTED = (
    32631, 32632, 32633, 32718, 32756, 25831, 25832, 25833, 23031, 26910, 26917, 28355, 28992, 28991, 27700, 2154, 27572,
    31467, 31466, 31370, 3812, 2056, 21781, 3035, 3034, 2193, 27200, 3857, 3395, 5514, 2180, 3006, 3067, 2100, 2326, 3763,
    31287, 5070, 2263, 3879,
)  # fmt: skip
VERTICAL, COMPOUND = (5703, 5773), (7415,)
CODES = (*GEOGRAPHIC, *PROJECTED, *VERTICAL, *COMPOUND)
TEXTS = 974
# The CRSs that GDAL doesn't write to NetCDF, or doesn't read back.
NOT_IN_NETCDF = (2056, 21781, 5514, 27572)
RULES = pathlib.Path(__file__).resolve().parent.parent / "rules"
SHIPPED = ("producers.rules", "any-order.rules")
# The mistakes that the shipped rules take away: under them the order of axes doesn't count.
TAKEN_AWAY = ("easting before northing", "longitude before latitude")
Place = Tuple[str, str]


class Mistake(NamedTuple):
    """A planted mistake: the code of the CRS that is meant, the form of its text, and what is changed in that."""

    name: str
    code: int
    form: str
    change: Callable[[str], str]


def replaced(old: str, new: str) -> Callable[[str], str]:
    def change(text: str) -> str:
        assert old in text, (old, text)
        return text.replace(old, new)

    return change


def swapped(text: str) -> str:
    """The axes of a text in WKT2 in the other order."""
    match = re.search(r'(AXIS\["[^"]*",\w+),ORDER\[1\](.*)(AXIS\["[^"]*",\w+),ORDER\[2\]', text)
    assert match, text
    return f"{text[: match.start()]}{match[3]},ORDER[1]{match[2]}{match[1]},ORDER[2]{text[match.end() :]}"


def without_id(change: Callable[[str], str]) -> Callable[[str], str]:
    """A change of a text whose own identifier is left out too."""
    return lambda text: re.sub(r',ID\["EPSG",\d+\]\]$', "]", change(text))


MISTAKES = (
    Mistake("the flattening of GRS 1980", 4326, "WKT2_2019", replaced("298.257223563", "298.257222101")),
    Mistake("a false easting of one metre more", 28992, "WKT2_2019", replaced("155000", "155001")),
    Mistake("a false northing without its sign, and no identifier", 27700, "WKT2_2019", without_id(replaced("-100000", "100000"))),
    Mistake("longitude before latitude", 4258, "WKT2_2019", swapped),
    Mistake("easting before northing", 31467, "WKT2_2019", swapped),
    Mistake("zone 31 by the name of zone 32", 32631, "WKT2_2019", without_id(replaced("UTM zone 31N", "UTM zone 32N"))),
    Mistake("the name of ETRS89 over the datum of ED50", 25832, "WKT2_2015", replaced('DATUM["European Terrestrial Reference System 1989"', 'DATUM["European Datum 1950"')),
    Mistake("the ellipsoid of WGS 84", 28991, "WKT2_2019", replaced('"Bessel 1841",6377397.155,299.1528128', '"WGS 84",6378137,298.257223563')),
    Mistake("the international foot for that of US surveys", 2263, "WKT2_2019", replaced("0.304800609601219", "0.3048")),
    Mistake("a latitude whose minutes are read as a fraction", 31370, "WKT1_ESRI", replaced("51.1666672333333", "51.1000002303333")),
    Mistake("the code of ETRS89 on WGS 84", 4326, "WKT2_2015", replaced(',ID["EPSG",4326]]', ',ID["EPSG",4258]]')),
    Mistake("a scale factor of 1", 32633, "WKT1_ESRI", replaced("0.9996", "1.0")),
    Mistake("Greenwich for Paris", 27572, "WKT2_2019", replaced('PRIMEM["Paris",2.5969213', 'PRIMEM["Greenwich",0')),
)  # fmt: skip

DAMAGES: Tuple[Tuple[str, int, Callable[[str], str]], ...] = (
    ("comma", 28992, replaced("6377397.155", "6377397,155")),
    ("cut", 27700, lambda text: text[:-60]),
    ("open", 2154, lambda text: text[:-1]),
    ("closed", 3035, lambda text: text + "]"),
    ("scale", 28991, lambda text: re.sub(r'PARAMETER\["Scale_Factor",[^]]*\],', "", text)),
    ("quote", 32632, replaced('"Meter"', '"Meter')),
)


def text_of(code: int, form: str) -> str:
    if form.endswith("SIMPLIFIED"):
        # GDAL doesn't write it.
        return succeed(["projinfo", "-q", "--single-line", "-o", "WKT2:2019_SIMPLIFIED", f"EPSG:{code}"]).strip()
    return str(reference_of(code).ExportToWkt([f"FORMAT={form}", "MULTILINE=NO"]))


class Archive:
    """The archive as it is made, and which CRS each of its texts is meant to be; planted mistakes and damages by name."""

    def __init__(self, folder: pathlib.Path) -> None:
        self.folder = folder
        self.chance = random.Random(1990)
        self.meant: Dict[Place, str] = {}
        self.planted: Dict[Place, Mistake] = {}
        self.damaged: List[Place] = []
        self.files = 0

    def path(self, name: str) -> pathlib.Path:
        folder = self.folder / f"part {self.files % 9}"
        folder.mkdir(parents=True, exist_ok=True)
        self.files += 1
        return folder / name

    def state(self, path: pathlib.Path, layer: str, meant: str) -> None:
        self.meant[str(path), layer] = meant

    def add_text(self, code: int, form: str, suffix: str) -> None:
        path = self.path(f"{code} {self.files}{suffix}")
        path.write_text(text_of(code, form), encoding="utf-8")
        self.state(path, "", str(code))

    def add_shapefile(self, code: int, with_qpj: bool) -> pathlib.Path:
        path = self.path(f"{code}_{self.files}.shp")
        make_vector(path, "ESRI Shapefile", reference_of(code))
        self.state(path, path.stem, str(code))
        path.with_suffix(".prj").write_text(text_of(code, "WKT1_ESRI"))
        self.state(path.with_suffix(".prj"), "", str(code))
        if with_qpj:
            path.with_suffix(".qpj").write_text(text_of(code, "WKT1_GDAL") + "\n")
            self.state(path.with_suffix(".qpj"), "", str(code))
        return path

    def add_raster(self, code: int, suffix: str) -> pathlib.Path:
        suffix = "tif" if code in NOT_IN_NETCDF else suffix
        path = self.path(f"{code} {self.files}.{suffix}")
        driver = {"tif": "GTiff", "nc": "netCDF"}[suffix]
        make_raster(path, driver, reference_of(code), (1, 0.1, 0, 2, 0, -0.1))
        self.state(path, "", str(code))
        return path

    def add_layer(self, code: int, suffix: str) -> None:
        path = self.path(f"{code} {self.files}.{suffix}")
        driver = {"gpkg": "GPKG", "geojson": "GeoJSON"}[suffix]
        make_vector(path, driver, reference_of(code), "roads", has_points=True)
        self.state(path, "roads", str(code))

    def add_zip(self, code: int) -> None:
        path = self.path(f"{code} {self.files}.zip")
        raster = self.folder / "raster.tif"
        with zipfile.ZipFile(path, "w") as archive:
            archive.writestr("old.prj", text_of(code, "WKT1_ESRI"))
            self.state(path, "old.prj", str(code))
            if code not in (*VERTICAL, *COMPOUND):
                made = self.add_raster(code, "tif")
                del self.meant[str(made), ""]
                made.rename(raster)
                archive.write(raster, "in/raster.tif")
                raster.unlink()
                self.state(path, "in/raster.tif", str(code))

    def add_bound(self, code: int, shift: str) -> None:
        text = text_of(code, "WKT1_GDAL")
        match = re.search(r"SPHEROID\[[^\[\]]*AUTHORITY\[[^\]]*\]\]", text)
        assert match, text
        path = self.path(f"bound {self.files}.wkt")
        path.write_text(f"{text[: match.end()]},TOWGS84[{shift}]{text[match.end():]}")
        self.state(path, "", f"{code} by {shift}")

    def add_mistake(self, mistake: Mistake) -> None:
        text = text_of(mistake.code, mistake.form)
        changed = mistake.change(text)
        assert changed != text, mistake.name
        path = self.path(f"old {self.files}{'.prj' if mistake.form == 'WKT1_ESRI' else '.wkt'}")
        path.write_text(changed)
        self.state(path, "", mistake.name)
        self.planted[str(path), ""] = mistake

    def add_damage(self, name: str, code: int, change: Callable[[str], str]) -> None:
        """A shapefile with a damaged .prj."""
        path = self.add_shapefile(code, False)
        text = path.with_suffix(".prj").read_text()
        assert change(text) != text, name
        path.with_suffix(".prj").write_text(change(text))
        for place in ((str(path), path.stem), (str(path.with_suffix(".prj")), "")):
            del self.meant[place]
            self.damaged.append(place)


def make(folder: pathlib.Path) -> Archive:
    """Makes the archive. Equal runs make equal texts."""
    from osgeo import gdal

    gdal.UseExceptions()
    gdal.SetConfigOption("CPL_LOG", os.devnull)
    gdal.PushErrorHandler("CPLQuietErrorHandler")
    archive = Archive(folder)
    for code, shift in itertools.product(
        (31467, 28992), ("598.1,73.7,418.2,0.202,0.045,-2.455,6.7", "612.4,77,440.2,-0.054,0.057,-2.797,2.55")
    ):
        for _ in range(2):
            archive.add_bound(code, shift)
    for mistake in MISTAKES:
        archive.add_mistake(mistake)
    for damage in DAMAGES:
        archive.add_damage(*damage)
    forms = list(forms_of(archive))
    for code in (*VERTICAL, *COMPOUND):
        for form, suffix in (("WKT2_2019", ".wkt"), ("WKT2_2015", ".wkt2"), ("WKT1_GDAL", ".wkt")):
            archive.add_text(code, form, suffix)
            archive.add_text(code, form, suffix)
    # Each form of each CRS once, then any, the first ones more often.
    for code in (*GEOGRAPHIC, *PROJECTED):
        for add in forms:
            add(code)
    while len(archive.meant) + len(archive.damaged) < TEXTS:
        code = (*PROJECTED, *GEOGRAPHIC)[min(int(archive.chance.expovariate(0.07)), 49)]
        archive.chance.choice(forms)(code)
    gdal.PopErrorHandler()
    return archive


def forms_of(archive: Archive) -> Iterator[Callable[[int], Any]]:
    yield lambda code: archive.add_shapefile(code, False)
    yield lambda code: archive.add_shapefile(code, True)
    yield lambda code: archive.add_raster(code, "tif")
    yield lambda code: archive.add_layer(code, "gpkg")
    yield lambda code: archive.add_layer(code, "geojson")
    yield lambda code: archive.add_raster(code, "nc")
    yield lambda code: archive.add_text(code, "WKT2_2019", ".wkt")
    yield lambda code: archive.add_text(code, "WKT2_2015", ".wkt2")
    yield lambda code: archive.add_text(code, "WKT1_GDAL", ".wkt")
    yield archive.add_zip


# Each CRS in each form, once.

TEXT_FORMS = {
    "WKT2_2019": "wkt2",
    "WKT2_2019_SIMPLIFIED": "wkt2",
    "WKT2_2015": "wkt2",
    "WKT1_GDAL": "wkt",
    "WKT1_ESRI": "prj",
}
SHIFT = "598.1,73.7,418.2,0.202,0.045,-2.455,6.7"
DATA_FORMS = {"shp": "ESRI Shapefile", "tab": "MapInfo File", "gpkg": "GPKG", "geojson": "GeoJSON"}
RASTERS = {"tif": "GTiff", "img": "HFA", "nc": "netCDF"}


def make_equal(folder: pathlib.Path) -> Archive:
    """Makes the archive of equal parts. GDAL writes no NetCDF of some CRSs."""
    from osgeo import gdal

    gdal.UseExceptions()
    gdal.PushErrorHandler("CPLQuietErrorHandler")
    archive = Archive(folder)
    for code in CODES:
        has_files = code not in (*VERTICAL, *COMPOUND)
        for form, suffix in TEXT_FORMS.items():
            # A shapefile has Esri's text beside it.
            if form != "WKT1_ESRI" or not has_files:
                add_form(archive, code, form, suffix, text_of(code, form))
        old = text_of(code, "WKT1_GDAL")
        add_srtext(archive, code, old)
        if has_files:
            bound = re.sub(
                r"(SPHEROID\[[^\[\]]*AUTHORITY\[[^\]]*\]\])(?:,TOWGS84\[[^\]]*\])?", rf"\1,TOWGS84[{SHIFT}]", old
            )
            add_form(archive, code, "TOWGS84", "wkt", bound)
            add_form(archive, code, "BOUNDCRS", "wkt", wkt2_of(bound))
            for suffix, driver in {**DATA_FORMS, **RASTERS}.items():
                add_data(archive, code, suffix, driver)
    gdal.PopErrorHandler()
    return archive


def wkt2_of(text: str) -> str:
    from osgeo import osr

    reference = osr.SpatialReference()
    reference.ImportFromWkt(text)
    return str(reference.ExportToWkt(["FORMAT=WKT2_2019", "MULTILINE=NO"]))


def path_of_form(archive: Archive, code: int, form: str, suffix: str) -> pathlib.Path:
    (archive.folder / form).mkdir(parents=True, exist_ok=True)
    return archive.folder / form / f"{code}.{suffix}"


def add_form(archive: Archive, code: int, form: str, suffix: str, text: str) -> None:
    path = path_of_form(archive, code, form, suffix)
    path.write_text(text, encoding="utf-8")
    archive.state(path, "", str(code))


def add_data(archive: Archive, code: int, suffix: str, driver: str) -> None:
    if suffix == "nc" and code in NOT_IN_NETCDF:
        return
    path = path_of_form(archive, code, suffix, suffix)
    layer = ""
    if suffix in RASTERS:
        make_raster(path, driver, reference_of(code), (1, 0.1, 0, 2, 0, -0.1))
    else:
        layer = path.stem
        make_vector(path, driver, reference_of(code), layer, has_points=True, has_field=True)
    if suffix == "shp":
        archive.state(path.with_suffix(".prj"), "", str(code))
    archive.state(path, layer, str(code))


def add_srtext(archive: Archive, code: int, text: str) -> None:
    """The WKT1 of a table, as SpatiaLite and PostGIS have it."""
    path = path_of_form(archive, code, "srtext", "sqlite")
    with contextlib.closing(sqlite3.connect(path)) as base, base:
        base.execute("CREATE TABLE spatial_ref_sys (srid INTEGER PRIMARY KEY, srtext TEXT)")
        base.execute("CREATE TABLE geometry_columns (f_table_name TEXT, srid INTEGER)")
        base.execute("INSERT INTO spatial_ref_sys VALUES (?, ?)", (code, text))
        base.execute("INSERT INTO geometry_columns VALUES ('roads', ?)", (code,))
    archive.state(path, "roads", str(code))


# What an audit finds.


def audited(folder: pathlib.Path, *words: str) -> Dict[str, Any]:
    with tempfile.TemporaryDirectory() as place:
        out = pathlib.Path(place, "out.json")
        _, _, error = package("audit", "--json", out, *words, folder)
        assert out.exists(), error[-2000:]
        return dict(json.loads(out.read_text(encoding="utf-8")))


def key_of(place: Dict[str, Any]) -> Place:
    return place["file"], place.get("layer", "")


def pairs_of(classes: Iterable[Iterable[Any]]) -> int:
    return sum(count * (count - 1) // 2 for count in map(len, map(list, classes)))


class Pairs(NamedTuple):
    """Pairs of texts that are meant to be one CRS, how many of them an audit has in one group, and how many pairs of
    others it has there."""

    all: int
    found: int
    wrong: int

    def __str__(self) -> str:
        share, precision = self.found / self.all, self.found / max(1, self.found + self.wrong)
        return f"{self.found:,} of {self.all:,} pairs ({share:.1%}), precision {precision:.2%}"


def pairs_in(groups: Iterable[List[Place]], archive: Archive) -> Pairs:
    by_meaning: Dict[str, List[Place]] = collections.defaultdict(list)
    for place, meant in archive.meant.items():
        by_meaning[meant].append(place)
    found = wrong = 0
    for group in groups:
        counts = collections.Counter(archive.meant.get(place, f"damaged {place}") for place in group)
        right = sum(count * (count - 1) // 2 for count in counts.values())
        found += right
        wrong += pairs_of([group]) - right
    return Pairs(pairs_of(by_meaning.values()), found, wrong)


def groups_of(data: Dict[str, Any]) -> List[List[Place]]:
    return [[key_of(it) for variant in one["variants"] for it in variant["places"]] for one in data["definitions"]]


def registered_groups(data: Dict[str, Any]) -> List[List[Place]]:
    """The texts that are the registry's CRS of one code but for names and digits; the others by definition."""
    groups: Dict[object, List[Place]] = collections.defaultdict(list)
    for definition in data["definitions"]:
        for variant in definition["variants"]:
            found = variant["registered"]
            is_of_code = found["verdict"] in ("as registered", "names and digits", "axes that the text doesn't state")
            key = (found["identifier"], definition["transformation"]) if is_of_code else definition["number"]
            groups[key] += map(key_of, variant["places"])
    return list(groups.values())


def found_in_near_misses(data: Dict[str, Any], archive: Archive, most: int) -> List[str]:
    """The planted mistakes to which one of the first near misses points, by a kind other than names."""
    found = set()
    for miss in data["near_misses"][:most]:
        for pair in miss["pairs"]:
            if pair["kind"] != "names and digits":
                for number in (pair["first"], pair["second"]):
                    found |= mistakes_in(data["definitions"][number - 1], miss, pair["kind"], archive)
    return sorted(found)


def mistakes_in(definition: Dict[str, Any], miss: Dict[str, Any], kind: str, archive: Archive) -> set[str]:
    """The planted mistakes of a definition that is in a near miss. Where sound texts are in it too, as rules may have it,
    those alone to whose name or identifier the near miss is due, or that state the axes in which it differs."""
    sound, planted = [], []
    for variant in definition["variants"]:
        places = [key_of(it) for it in variant["places"] if kind not in it.get("filled", ())]
        mistakes = {archive.planted[it].name for it in places if it in archive.planted}
        planted.append((bears(variant, miss), mistakes))
        sound += [bears(variant, miss) for it in places if it not in archive.planted]
    return {name for bears_it, names in planted for name in names if not sound or bears_it and not any(sound)}


def bears(variant: Dict[str, Any], miss: Dict[str, Any]) -> bool:
    """Whether a CRS has the name or the identifier of a near miss."""
    if miss["by"] == "identifier":
        return miss["value"] in variant["identifiers"]
    match = re.match(r'\w+\["((?:[^"]|"")*)"', variant["text"])
    assert match
    return re.sub(r"\W|_", "", match[1]).casefold() == re.sub(r"\W|_", "", miss["value"]).casefold()


FINDINGS = ("bears another code's name", "datum", "numbers", "axes", "code isn't in the registry")


def found_in_registry(data: Dict[str, Any], archive: Archive) -> Tuple[List[str], int]:
    """The planted mistakes that aren't as registered, and how many other texts aren't."""
    found, others = set(), 0
    for definition in data["definitions"]:
        for variant in definition["variants"]:
            if variant["registered"]["verdict"] in FINDINGS:
                places = [key_of(it) for it in variant["places"]]
                found |= {archive.planted[it].name for it in places if it in archive.planted}
                others += sum(it not in archive.planted for it in places)
    return sorted(found), others


def accepted_damages(data: Dict[str, Any], archive: Archive) -> List[Place]:
    accepted = {place for group in groups_of(data) for place in group}
    return [place for place in archive.damaged if place in accepted]


def tell(archive: Archive) -> Iterator[Tuple[str, bool]]:
    """Prints the figures, and answers what is tested of them."""
    plain = audited(archive.folder)
    with_all = audited(archive.folder, "--convert", "--registry")
    rules = [word for name in SHIPPED for word in ("--rules", str(RULES / name))]
    ruled = audited(archive.folder, "--convert", "--registry", *rules)
    by_file = [audited(archive.folder, "--convert", "--rules", str(RULES / name)) for name in SHIPPED]
    summary, converted = plain["summary"], with_all["summary"]
    print(f"{summary['texts']} texts, of which {summary['refused']} are refused: {causes(summary)}")
    print(f"with conversion {converted['refused']} are refused: {causes(converted)}")
    unstated = set(archive.meant) - {place for group in groups_of(with_all) for place in group}
    print(f"of the sound texts {len(unstated)} have no CRS in the audit with conversion: {sorted(unstated)[:5]}")
    by_definition, with_conversion, under_rules = (pairs_in(groups_of(it), archive) for it in (plain, with_all, ruled))
    print(f"by definition: {by_definition}\nwith conversion: {with_conversion}")
    print(f"with conversion and {' and '.join(SHIPPED)}: {under_rules}")
    for told in apart(ruled, archive):
        print(f"apart under the rules: {told}")
    by_registry = pairs_in(registered_groups(with_all), archive)
    print(f"with conversion, by the registry but for names and digits: {by_registry}")
    for name, data in (("registry", with_all), ("registry under the rules", ruled)):
        print(f"{name}: " + "; ".join(f"{it} {texts}" for it, texts in data["summary"]["registry"].items()))
    left, taken = len(MISTAKES) - len(TAKEN_AWAY), sorted(TAKEN_AWAY)
    in_first = []
    for name, data, most in (
        ("", plain, len(MISTAKES)),
        (" with conversion", with_all, len(MISTAKES)),
        (f" with conversion and {SHIPPED[0]}", by_file[0], len(MISTAKES)),
        (f" with conversion and {SHIPPED[1]}", by_file[1], left),
        (" with conversion and both", ruled, left),
    ):
        first, all_of_them = (found_in_near_misses(data, archive, it) for it in (most, 10**9))
        told = f"{len(first)} of {len(MISTAKES)} mistakes in the first {most}, {len(all_of_them)} in all"
        print(f"near misses{name}: {len(data['near_misses'])}, {told}; others than {others_than(first)}")
        in_first.append(others_than(first))
    (in_registry, others), (under, others_under) = (found_in_registry(it, archive) for it in (with_all, ruled))
    print(f"registry: {len(in_registry)} of {len(MISTAKES)} mistakes; {others} other texts aren't as registered")
    print(f"under the rules: {len(under)} of {len(MISTAKES)}; {others_under} other texts aren't as registered")
    print(f"not found there: {others_than(in_registry)}; under the rules {others_than(under)}")
    yield f"{TEXTS} texts are made", len(archive.meant) + len(archive.damaged) == TEXTS
    accepted = [accepted_damages(it, archive) for it in (plain, with_all, ruled)]
    yield "no damaged text is accepted", accepted == 3 * [[]]
    yield "conversion finds more pairs", with_conversion.found > by_definition.found
    yield "precision with conversion is 99 %", with_conversion.found >= 99 * with_conversion.wrong
    yield "precision by definition is 99 %", by_definition.found >= 99 * by_definition.wrong
    yield "under the rules 90 % of the pairs are found", under_rules.found >= 0.9 * under_rules.all
    yield "precision under the rules is 99 %", under_rules.found >= 99 * under_rules.wrong
    yield "the mistakes are the first near misses, by each rules file too", in_first[1:] == [[], [], taken, taken]
    yield "the registry has 11 mistakes", len(in_registry) >= 11
    yield "it has 11 under the rules, and no other text", (len(under), others_under) == (11, 0)
    yield "texts that PROJ has read say so", has_marks(with_all) and has_marks(ruled)
    yield "bound CRSs of other transformations are others", are_apart(with_all, archive) and are_apart(ruled, archive)
    yield "no sound data set disagrees", converted["disagreeing"] == ruled["summary"]["disagreeing"] == 0
    yield "the report names the rules", [pathlib.Path(it["file"]).name for it in ruled["rules"]] == list(SHIPPED)


def tell_equal(archive: Archive) -> Iterator[Tuple[str, bool]]:
    """Prints the figures of the archive of equal parts, and answers what is tested of them."""
    rules = [word for name in SHIPPED for word in ("--rules", str(RULES / name))]
    forms = collections.Counter(pathlib.Path(path).parent.name for path, _ in archive.meant)
    print(f"{len(archive.meant)} texts: {', '.join(f'{form} {count}' for form, count in forms.items())}")
    pairs, data = None, None
    steps: List[Tuple[str, List[str]]] = [
        ("--convert", []),
        (f"and {SHIPPED[0]}", rules[:2]),
        (f"and {SHIPPED[1]}", rules),
        ("and --source-of-bound", [*rules, "--source-of-bound"]),
    ]
    for name, words in steps:
        data = audited(archive.folder, "--convert", *words)
        pairs = pairs_in(groups_of(data), archive)
        print(f"{name}: {pairs}; {len(data['definitions'])} groups, {data['summary']['refused']} refused")
    assert pairs and data
    for (form, parts), count in causes_apart(data, archive).most_common():
        print(f"apart: {count:5} {form}: {parts}")
    wrong = wrong_groups(data, archive)
    for told in wrong:
        print(f"together: {told}")
    for it in data["refused"]:
        print(f"refused: {it['place']['file']}: {it['cause']} {it['doubts']}")
    yield "of the pairs 80 % are found", pairs.found >= 0.8 * pairs.all
    yield "precision is 99 %", pairs.found >= 99 * pairs.wrong


def causes_apart(data: Dict[str, Any], archive: Archive) -> Counter[Tuple[str, str]]:
    """The pairs that aren't found, by the form of the text that is in the smaller group, and by the parts that differ."""
    texts = {key_of(it): one for one in data["definitions"] for variant in one["variants"] for it in variant["places"]}
    by_meaning: Dict[str, List[Place]] = collections.defaultdict(list)
    for place, meant in archive.meant.items():
        by_meaning[meant].append(place)
    found: Counter[Tuple[str, str]] = collections.Counter()
    for places in by_meaning.values():
        sizes = collections.Counter(texts[it]["number"] if it in texts else 0 for it in places)
        for pair in itertools.combinations(places, 2):
            first, second = (texts.get(it) for it in pair)
            numbers = [it["number"] if it else 0 for it in (first, second)]
            if numbers[0] == numbers[1] != 0:
                continue
            smaller = min((0, 1), key=lambda it: (numbers[it] != 0, sizes[numbers[it]]))
            form = pathlib.Path(pair[smaller][0]).parent.name
            found[form, parts_told(first, second) if first and second else "refused"] += 1
    return found


def parts_told(first: Dict[str, Any], second: Dict[str, Any]) -> str:
    """The parts in which two groups differ, in a few words."""
    import crsdesk

    parts = [it.path for it in crsdesk.differences(first["text"], second["text"], "definition")]
    if first["transformation"] != second["transformation"]:
        parts.append("transformation")
    steps = (re.sub(r'\["[^"]*"\]', "", it).removeprefix("base/").removeprefix("horizontal/") for it in parts)
    return ", ".join(sorted(set(steps)))


def wrong_groups(data: Dict[str, Any], archive: Archive) -> List[str]:
    """The groups that have texts of several CRSs: which, and in which forms those of the fewest are."""
    found = []
    for group in groups_of(data):
        forms: Dict[str, List[str]] = collections.defaultdict(list)
        for place in group:
            forms[archive.meant.get(place, "none")].append(pathlib.Path(place[0]).parent.name)
        (first, its), *others = sorted(forms.items(), key=lambda it: -len(it[1]))
        if others:
            told = "; ".join(f"{code} as {' '.join(sorted(its))}" for code, its in others)
            found.append(f"{first}, {len(its)} texts, with {told}")
    return found


def others_than(found: List[str]) -> List[str]:
    """The planted mistakes that aren't found."""
    return sorted(it.name for it in MISTAKES if it.name not in found)


def apart(data: Dict[str, Any], archive: Archive) -> Iterator[str]:
    """The CRSs whose texts are in several groups: how many in each, and a file of each but the largest."""
    numbers: Dict[str, Dict[int, List[str]]] = {}
    for number, group in enumerate(groups_of(data), 1):
        for place in group:
            if place in archive.meant:
                its = numbers.setdefault(archive.meant[place], {})
                layer = f" ({place[1]})" if place[1] else ""
                its.setdefault(number, []).append(f"{os.path.basename(place[0])}{layer}")
    for meant, groups in numbers.items():
        files = sorted(groups.values(), key=len, reverse=True)
        if len(files) > 1:
            yield f"{meant} {' + '.join(str(len(it)) for it in files)} texts, first {', '.join(it[0] for it in files[1:])}"


def causes(summary: Dict[str, Any]) -> str:
    return "; ".join(f"{it['name']} {it['texts']}" for it in summary["causes"])


def has_marks(data: Dict[str, Any]) -> bool:
    places = [it for one in data["definitions"] for variant in one["variants"] for it in variant["places"]]
    marks = [it["read_by"] for it in places if "read_by" in it]
    return len(marks) == data["summary"]["converted"] > 300 and all(it.startswith("PROJ ") for it in marks)


def are_apart(data: Dict[str, Any], archive: Archive) -> bool:
    bound = {place: meant for place, meant in archive.meant.items() if re.match(r"\d+ by ", meant)}
    groups = [{bound[place] for place in group if place in bound} for group in groups_of(data)]
    return [len(it) for it in groups if it] == 4 * [1]


@pytest.mark.needs("python3:osgeo", "python3:jinja2")
def test_figures(tmp_path: pathlib.Path, library: pathlib.Path) -> None:
    assert [name for name, is_so in tell(make(tmp_path)) if not is_so] == []


@pytest.mark.needs("python3:osgeo", "python3:jinja2", "projinfo")
def test_figures_of_equal_parts(tmp_path: pathlib.Path, library: pathlib.Path) -> None:
    assert [name for name, is_so in tell_equal(make_equal(tmp_path)) if not is_so] == []


def main(words: List[str]) -> None:
    # It sets where the package is.
    importlib.import_module("conftest")
    if words == ["--list"]:
        for mistake in MISTAKES:
            print(f"EPSG:{mistake.code} {mistake.form}: {mistake.name}")
    elif len(words) == 2 and words[0] == "--make":
        make(pathlib.Path(os.path.abspath(words[1])))
    elif words not in ([], ["--equal"]):
        sys.exit(__doc__)
    else:
        with tempfile.TemporaryDirectory() as folder:
            list(tell_equal(make_equal(pathlib.Path(folder))) if words else tell(make(pathlib.Path(folder))))


if __name__ == "__main__":
    main(sys.argv[1:])
