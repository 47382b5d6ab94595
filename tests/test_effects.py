"""What is read must have counted: texts in other forms with parts that PROJ passes over, and texts of many tools that have
none. As a program it counts the WKT1 texts of PROJ's database that are refused, by cause: python3 tests/test_effects.py [STEP].
"""
from __future__ import annotations

import collections
import pathlib
import re
import sys
from typing import Callable, Counter, Dict, Iterator, Tuple

import pytest
from support import EXAMPLES, need
from test_foreign import GEOGRAPHIC, HEIGHTS, OLD, TM, alone, name_of

from crsdesk import _effects, _foreign

GREENWICH = 'PRIMEM["Greenwich",0.0],UNIT["Degree",0.0174532925199433]]'
ESRI_WGS84 = f'GEOGCS["GCS_WGS_1984",DATUM["D_WGS_1984",SPHEROID["WGS_1984",6378137.0,298.257223563]],{GREENWICH}'
ESRI_FALSE = 'PARAMETER["False_Easting",155000.0],PARAMETER["False_Northing",463000.0]'
WGS84 = (
    'GEOGCS["WGS 84",DATUM["WGS_1984",SPHEROID["WGS 84",6378137,298.257223563,AUTHORITY["EPSG","7030"]],AUTHORITY["EPSG",'
    '"6326"]],PRIMEM["Greenwich",0,AUTHORITY["EPSG","8901"]],UNIT["degree",0.0174532925199433,AUTHORITY["EPSG","9122"]],'
    'AUTHORITY["EPSG","4326"]]'
)
# EPSG:3857 as GDAL writes it.
WEB = (
    f'PROJCS["WGS 84 / Pseudo-Mercator",{WGS84},PROJECTION["Mercator_1SP"],PARAMETER["central_meridian",0],PARAMETER['
    '"scale_factor",1],PARAMETER["false_easting",0],PARAMETER["false_northing",0],UNIT["metre",1,AUTHORITY["EPSG","9001"]],'
    'AXIS["X",EAST],AXIS["Y",NORTH],EXTENSION["PROJ4","+proj=merc +a=6378137 +b=6378137 +lat_ts=0.0 +lon_0=0.0 +x_0=0.0 '
    '+y_0=0 +k=1.0 +units=m +nadgrids=@null +wktext  +no_defs"],AUTHORITY["EPSG","3857"]]'
)
ESRI_WEB = (
    f'PROJCS["WGS_1984_Web_Mercator_Auxiliary_Sphere",{ESRI_WGS84},PROJECTION["Mercator_Auxiliary_Sphere"],PARAMETER['
    '"False_Easting",0.0],PARAMETER["False_Northing",0.0],PARAMETER["Central_Meridian",0.0],PARAMETER["Standard_Parallel_1",'
    '0.0],PARAMETER["Auxiliary_Sphere_Type",0.0],UNIT["Meter",1.0]]'
)
ESRI_RD = (
    'PROJCS["RD_New",GEOGCS["GCS_Amersfoort",DATUM["D_Amersfoort",SPHEROID["Bessel_1841",6377397.155,299.1528128]],'
    f'{GREENWICH},PROJECTION["Double_Stereographic"],{ESRI_FALSE},PARAMETER["Central_Meridian",5.38763888888889],PARAMETER['
    '"Scale_Factor",0.9999079],PARAMETER["Latitude_Of_Origin",52.1561605555556],UNIT["Meter",1.0]]'
)
ESRI_POLE = (
    f'PROJCS["P",{ESRI_WGS84},PROJECTION["Stereographic_South_Pole"],PARAMETER["False_Easting",0.0],PARAMETER['
    '"False_Northing",0.0],PARAMETER["Central_Meridian",0.0],PARAMETER["Standard_Parallel_1",-71.0],UNIT["Meter",1.0]]'
)
ESRI_HEIGHT = 'VERTCS["H",VDATUM["V"],PARAMETER["Vertical_Shift",0.0],PARAMETER["Direction",1.0],UNIT["Meter",1.0]]'
PARIS = (
    'PROJCS["NTF (Paris) / Lambert zone II",GEOGCS["NTF (Paris)",DATUM["Nouvelle_Triangulation_Francaise_Paris",SPHEROID['
    '"Clarke 1880 (IGN)",6378249.2,293.4660212936269],TOWGS84[-168,-60,320,0,0,0,0],AUTHORITY["EPSG","6807"]],PRIMEM["Paris",'
    '2.33722917,AUTHORITY["EPSG","8903"]],UNIT["grad",0.01570796326794897,AUTHORITY["EPSG","9105"]]],PROJECTION['
    '"Lambert_Conformal_Conic_1SP"],PARAMETER["latitude_of_origin",52],PARAMETER["central_meridian",0],PARAMETER['
    '"scale_factor",0.99987742],PARAMETER["false_easting",600000],PARAMETER["false_northing",2200000],UNIT["metre",1]]'
)
# By its name of old, which the registry has as an alias.
KROVAK = (
    'PROJCS["S-JTSK / Krovak East North",GEOGCS["S-JTSK",DATUM["System_Jednotne_Trigonometricke_Site_Katastralni",SPHEROID['
    '"Bessel 1841",6377397.155,299.1528128],TOWGS84[589,76,480,0,0,0,0.7],AUTHORITY["EPSG","6156"]],PRIMEM["Greenwich",0],UNIT'
    '["degree",0.0174532925199433]],PROJECTION["Krovak"],PARAMETER["latitude_of_center",49.5],PARAMETER["longitude_of_center"'
    ',24.83333333333333],PARAMETER["azimuth",30.28813972222222],PARAMETER["pseudo_standard_parallel_1",78.5],PARAMETER['
    '"scale_factor",0.9999],PARAMETER["false_easting",0],PARAMETER["false_northing",0],UNIT["metre",1],AXIS["X",EAST],AXIS['
    '"Y",NORTH],AUTHORITY["EPSG","5514"]]'
)
# As GeoTools writes them: with axes of the base CRS, an identifier of the method, 17 digits, and a scale factor of 1.
GEOTOOLS = (
    'PROJCS["RGF93 / Lambert-93", \n  GEOGCS["RGF93", \n    DATUM["Reseau Geodesique Francais 1993", \n      SPHEROID["GRS '
    '1980", 6378137.0, 298.257222101, AUTHORITY["EPSG","7019"]], \n      TOWGS84[0.0, 0.0, 0.0, 0.1, 0.0, 0.0, 4.0812], '
    'AUTHORITY["EPSG","6171"]], \n    PRIMEM["Greenwich", 0.0], \n    UNIT["degree", 0.017453292519943295], AXIS["Geodetic '
    'longitude", EAST], AXIS["Geodetic latitude", NORTH]], \n  PROJECTION["Lambert_Conformal_Conic_2SP", AUTHORITY["EPSG",'
    '"9802"]], \n  PARAMETER["central_meridian", 3.0], \n  PARAMETER["latitude_of_origin", 46.5], \n  PARAMETER['
    '"standard_parallel_1", 49.0], \n  PARAMETER["false_easting", 700000.0], \n  PARAMETER["false_northing", 6600000.0], \n  '
    'PARAMETER["scale_factor", 1.0], \n  PARAMETER["standard_parallel_2", 44.0], \n  UNIT["m", 1.0], AXIS["Easting", EAST], '
    'AXIS["Northing", NORTH], AUTHORITY["EPSG","2154"]]'
)
SATELLITE = (
    'PROJCS["unnamed",GEOGCS["unknown",DATUM["unknown",SPHEROID["GRS 1980",6378137,298.257222096042]],PRIMEM["Greenwich",0],'
    'UNIT["degree",0.0174532925199433]],PROJECTION["Geostationary_Satellite"],PARAMETER["central_meridian",-75],PARAMETER['
    '"satellite_height",35786023],PARAMETER["false_easting",0],PARAMETER["false_northing",0],UNIT["metre",1],EXTENSION["PROJ4",'
    '"+proj=geos +sweep=x +lon_0=-75 +h=35786023 +x_0=0 +y_0=0 +ellps=GRS80 +units=m +no_defs "]]'
)
BOUND = (EXAMPLES / "exports" / "dhdn_boundcrs.wkt").read_text(encoding="utf-8")
# PROJ's strings of EPSG:3139, 3993 and 6266.
STRINGS = [
    "+proj=cass +hyperbolic +lat_0=-16.25 +lon_0=179.3333 +x_0=251727.9 +y_0=334519.9 +a=6378306.3696 +b=6356571.996 +units=link",
    "+proj=aeqd +guam +lat_0=13.4724663527778 +lon_0=144.748750705556 +x_0=50000 +y_0=50000 +ellps=clrk66",
    "+proj=col_urban +lat_0=5.69424766111111 +lon_0=-76.6507538583333 +x_0=1047273.617 +y_0=1121443.09 +h_0=44 +ellps=GRS80",
]
# Texts of several tools, all of whose parts count.
WHOLE = [
    *(WEB, ESRI_WEB, ESRI_RD, ESRI_POLE, ESRI_HEIGHT, f"{ESRI_RD},{ESRI_HEIGHT}", PARIS, KROVAK, GEOTOOLS, SATELLITE),
    *STRINGS,
]
ALTERED = [WEB, f"{ESRI_RD},{ESRI_HEIGHT}", PARIS]
# What is put where in a text, and the part that has no effect then.
PASSED_OVER = {
    (WEB, '"false_easting",0', '"false_easting",500000'): '500000 in PARAMETER "false_easting"',
    (WEB, '"central_meridian",0', '"central_meridian",12'): '12 in PARAMETER "central_meridian"',
    (WEB, '"scale_factor",1', '"scale_factor",0.9996'): '0.9996 in PARAMETER "scale_factor"',
    (WEB, "+lon_0=0.0", "+lon_0=12"): "+lon_0=12 in EXTENSION PROJ4",
    (WEB, "+units=m", "+units=us-ft"): "+units=us-ft in EXTENSION PROJ4",
    (WEB, "+wktext", "+wktext +foo"): "+foo in EXTENSION PROJ4",
    (ESRI_WEB, 'Type",0.0', 'Type",3.0'): "PROJ: Unknown method Mercator_Auxiliary_Sphere",
    (ESRI_RD, ESRI_FALSE, f'PARAMETER["False_Easting",1.5],{ESRI_FALSE}'): '1.5 in PARAMETER "False_Easting"',
    (ESRI_RD, ESRI_FALSE, f'{ESRI_FALSE},PARAMETER["Azimuth",30.5]'): '30.5 in PARAMETER "Azimuth"',
    (ESRI_RD, ESRI_FALSE, f'{ESRI_FALSE},PARAMETER["Azimuth",0.0]'): '0.0 in PARAMETER "Azimuth"',
    (ESRI_POLE, ',UNIT["Meter"', ',PARAMETER["Foo",2.5],UNIT["Meter"'): '2.5 in PARAMETER "Foo"',
    (ESRI_HEIGHT, 'Shift",0.0', 'Shift",5.0'): '5.0 in PARAMETER "Vertical_Shift"',
    (ESRI_HEIGHT, "VDATUM[", 'DATUM["D",SPHEROID["S",6378137.0,298.25]],VDATUM['): "PROJ: ",
    (ESRI_HEIGHT, 'VDATUM["V"', 'DATUM["V",SPHEROID["S",6378137.0,298.25]'): '"S" in SPHEROID',
    (HEIGHTS, "2005", "2002"): '"Up" in AXIS',
    (HEIGHTS.replace('"Up"', '"Ellipsoidal height"'), "2005", "2002"): "2002 in VERT_DATUM",
    (GEOTOOLS, "Reseau Geodesique Francais 1993", "Foo_Bar"): '"Foo_Bar" in DATUM',
    (PARIS, "2.33722917", "2.33722918"): '2.33722918 in PRIMEM "Paris"',
    (GEOGRAPHIC, "0.0174532925199433", "0.0174532925199"): '0.0174532925199 in UNIT "degree"',
    (GEOGRAPHIC, "0.0174532925199433", "0.01745329252"): '0.01745329252 in UNIT "degree"',
    (BOUND, "0.0174532925199433", "0.01745329252"): '0.01745329252 in ANGLEUNIT "degree"',
    **{
        (f"+proj=longlat {words}", "", ""): part
        for words, part in {
            "+a=6378137 +b=6356752 +rf=300": "+b=6356752",
            "+a=6378137 +rf=300 +ellps=bessel": "+ellps=bessel",
            "+R=6371000 +ellps=bessel": "+ellps=bessel",
            "+R=6371000 +a=6378137 +rf=300": "+a=6378137",
            "+datum=WGS84 +rf=300": "+datum=WGS84",
            "+datum=WGS84 +ellps=GRS80": "+ellps=GRS80",
            "+ellps=bessel +towgs84=1,2,3 +nadgrids=a.gsb": "+towgs84=1,2,3",
            "+datum=WGS84 +geoidgrids=a.gtx +vunits=us-ft +vto_meter=1": "+vto_meter=1",
            "+ellps=bessel +units=us-ft": "+units=us-ft",
        }.items()
    },
}
# PROJ strings that say one thing twice.
TWICE = [
    "+proj=longlat +a=6377397.155 +rf=299.1528128 +ellps=bessel",
    "+proj=longlat +a=6371000 +b=6371000 +R=6371000",
    "+proj=longlat +datum=WGS84 +ellps=WGS84",
    "+proj=omerc +lat_0=4 +lonc=102.25 +alpha=323 +gamma=323 +k=0.99984 +x_0=1 +y_0=2 +ellps=bessel",
]


def told(text: str) -> Tuple[object, str]:
    """What PROJ reads of a text, or why that isn't taken."""
    try:
        found = _foreign.read(text)
        return (found.text, found.bound), ""
    except _foreign.NotRead as error:
        return None, str(error)


def parts_without_effect() -> None:
    """Each is told with its place, which is one in the text as it is given."""
    for (text, old, new), part in PASSED_OVER.items():
        changed = text.replace(old, new) if old else text
        answer, why = told(f"\n {changed}\n")
        assert answer is None and part in why, (part, why, changed)
        place = re.search(r"at character (\d+) has no effect", why)
        shown = part.partition(" in ")[0]
        assert place is None or f"\n {changed}"[int(place[1]) :].startswith(shown), (part, why)
        assert place or part.startswith("PROJ: ")
    for text in TWICE:
        assert told(text)[0], text


def all_parts_count() -> None:
    """Texts of many tools are read; and some of them with another value of each of their parts are refused, or are another
    CRS."""
    for text in [*WHOLE, *OLD]:
        answer, why = told(text)
        assert answer, (why, text)
    tried = 0
    for text in ALTERED:
        answer, root = told(text)[0], _effects.part_of(text)
        assert root
        for leaf in _effects.unsaid(root, None):
            changed = (
                text[: leaf.place] + _effects.others_than(leaf.written)[0] + text[leaf.place + len(leaf.written) :]
            )
            tried += 1
            assert told(changed)[0] != answer, leaf
    assert tried > 80, tried


def hostile_numbers() -> None:
    """Whatever a number is, the text is judged, in little time."""
    for number in ("1e999999999999999999999", "-1e-400", "1" * 10_000, "1_0", "nan", "0x10", "1e98", "-0", "3."):
        told(ESRI_RD.replace("155000.0", number))
        told(f"+proj=utm +zone=31 +x_0={number} +lat_1={number}")
    many = "".join(f'PARAMETER["False_Easting",{number}.0],' for number in range(300))
    answer, why = told(ESRI_RD.replace(ESRI_FALSE, many + ESRI_FALSE))
    assert answer is None and "too many to try each" in why, why[:300]
    assert told(b'GEOGCS["\xe9'.decode("latin-1"))[0] is None


# PROJ's database, in both forms of WKT1.

# Why a text that PROJ wrote is refused though each of its parts has counted, or PROJ can't read it.
CAUSES = {
    "PROJ doesn't read the method": "PROJ: Unknown method",
    "the ellipsoid of a height has no effect": " in SPHEROID",
    "the type of a vertical datum has no effect": "2002 in VERT_DATUM",
}


def texts_of_database(step: int) -> Iterator[Tuple[str, str]]:
    """Each CRS that PROJ writes in WKT1, as its code and form, and the text."""
    from pyproj import CRS
    from pyproj.database import query_crs_info
    from pyproj.exceptions import CRSError

    codes = sorted((it.auth_name, it.code) for it in query_crs_info(allow_deprecated=True))
    for authority, code in codes[::step]:
        for form in ("WKT1_GDAL", "WKT1_ESRI"):
            try:
                text = CRS.from_authority(authority, code).to_wkt(form)
            except CRSError:
                continue
            if text:
                yield f"{authority}:{code} {form}", text


def refused_of_database(step: int) -> Tuple[int, Dict[str, str]]:
    """How many texts were tried, and why some are refused."""
    tried, refused = 0, {}
    for name, text in texts_of_database(step):
        tried += 1
        answer, why = told(text)
        if answer is None:
            refused[name] = why
    return tried, refused


def registered_texts_are_read() -> None:
    tried, refused = refused_of_database(97)
    others = {name: why for name, why in refused.items() if not any(it in why for it in CAUSES.values())}
    assert tried > 200 and len(others) <= 0.005 * tried, others


@pytest.mark.parametrize("package, other", [("osgeo", "pyproj"), ("pyproj", "osgeo")])
@pytest.mark.parametrize("function", [parts_without_effect, all_parts_count, hostile_numbers], ids=name_of)
def test_effects(function: Callable[[], None], package: str, other: str, tmp_path: pathlib.Path) -> None:
    need(f"python3:{package}")
    alone(function, tmp_path, other)


@pytest.mark.needs("python3:pyproj")
def test_registered_texts_are_read(tmp_path: pathlib.Path) -> None:
    alone(registered_texts_are_read, tmp_path, "osgeo")


def main(step: int) -> None:
    tried, refused = refused_of_database(step)
    causes: Counter[str] = collections.Counter()
    for name, why in refused.items():
        cause = next((cause for cause, part in CAUSES.items() if part in why), "")
        causes[cause or "another"] += 1
        if not cause:
            print(f"{name}: {why}")
    print(f"{tried:,} texts, {len(refused):,} refused ({len(refused) / tried:.2%})")
    for cause, count in causes.most_common():
        print(f"{count:6,} {cause}")


if __name__ == "__main__":
    main(int(sys.argv[1]) if len(sys.argv) > 1 else 1)
