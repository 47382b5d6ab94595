"""What `python -m crsdesk audit` does with old forms (--convert), with a registry (--registry), and with texts that belong to
one data set; and of what kind differences are."""
from __future__ import annotations

import importlib.util
import os
import pathlib
import random
import re
from typing import Any, Dict, List, Optional, Tuple

import pytest
from gdal_data import make_raster, make_vector, reference_of
from support import HEIGHT, ROOT, need
from test_audit import audit, audited_data, folder, written
from test_audit_hostile import server

from crsdesk import Crs, Difference, canon, differences
from crsdesk.audit import converting, kinds, marking, names, registry
from crsdesk.audit.datasets import belongs_to

HAS_PROJ = any(importlib.util.find_spec(package) for package in ("osgeo", "pyproj"))
by_proj = pytest.mark.skipif(not HAS_PROJ, reason="neither osgeo nor pyproj is there")
EXAMPLES = ROOT / "examples" / "exports"
SHIFT = "598.1,73.7,418.2,0.202,0.045,-2.455,6.7"
RD = (
    "+proj=sterea +lat_0=52.1561605555556 +lon_0=5.38763888888889 +k=0.9999079 +x_0=155000 +y_0=463000 +ellps=bessel "
    "+units=m +no_defs"
)


def text_of(name: str) -> str:
    return (EXAMPLES / name).read_text(encoding="utf-8").strip()


def data_of(place: pathlib.Path, *words: object) -> Tuple[int, str, Any]:
    """The status of an audit of a folder, what it writes, and its data."""
    status, output, _, data = audited_data(*words, place)
    return status, output, data


def by_file(data: Any) -> Dict[str, Tuple[int, str, Optional[str]]]:
    """The definition of each file, what read it, and the definition's transformation."""
    return {
        os.path.basename(place["file"]): (it["number"], place.get("read_by", ""), it["transformation"])
        for it in data["definitions"]
        for variant in it["variants"]
        for place in variant["places"]
    }


# Old forms.


def forms() -> Dict[str, str]:
    return {
        "esri.prj": text_of("wgs84_esri.prj"),
        "bound.prj": text_of("dhdn_towgs84.prj"),
        "bound.wkt": text_of("dhdn_boundcrs.wkt"),
        "other.prj": text_of("dhdn_towgs84.prj").replace("598.1", "598.2"),
        "string.wkt": RD,
        "spaces.wkt": RD.replace(" +units=m", "\n  +units=m"),
        "code.wkt": "EPSG:28992\n",
        "urn.wkt": "urn:ogc:def:crs:EPSG::28992",
        "address.wkt": "http://www.opengis.net/def/crs/EPSG/0/28992",
        "itself.wkt": text_of("rd_projinfo_2019.wkt"),
    }


@by_proj
def test_old_forms_are_read_where_that_is_asked() -> None:
    place = written("forms", forms())
    status, _, data = data_of(place)
    assert status == 1 and [*by_file(data)] == ["itself.wkt"] and len(data["refused"]) == 9
    assert data["summary"]["converted"] == 0 and {tuple(it["doubts"]) for it in data["refused"]} == {()}
    status, output, data = data_of(place, "--convert")
    found = by_file(data)
    assert status == 0 and found.keys() == forms().keys(), found.keys() ^ forms().keys()
    marks = {mark for name, (_, mark, _) in found.items() if name != "itself.wkt"}
    assert len(marks) == 1 and re.fullmatch(r"PROJ \d+\.\d+\.\d+.*", min(marks)) and found["itself.wkt"][1] == ""
    assert data["summary"]["converted"] == 9 and f"converted    9 texts by {marks.pop()}\n" in output
    same = {found[name][0] for name in ("code.wkt", "urn.wkt", "address.wkt", "itself.wkt")}
    assert len(same) == 1 and found["string.wkt"][0] == found["spaces.wkt"][0] not in same
    # A bound CRS is another one by another transformation, and other than its source CRS.
    assert found["bound.prj"][0] == found["bound.wkt"][0] != found["other.prj"][0], found
    ways = [found[name][2] or "" for name in ("bound.prj", "other.prj")]
    assert (
        "X-axis translation 598.1" in ways[0] and "X-axis translation 598.2" in ways[1] and found["esri.prj"][2] is None
    )
    (miss,) = [it for it in data["near_misses"] if it["pairs"][0]["parts"][-1]["path"] == "transformation"]
    assert miss["kind"] == "transformation" and [it["path"] for it in miss["pairs"][0]["parts"]] == ["transformation"]


@by_proj
def test_a_bound_crs_is_in_the_group_of_its_source() -> None:
    """Where that is asked: it is told with its transformation, and is no near miss of another one."""
    bound = text_of("dhdn_towgs84.prj")
    plain = bound.replace(",TOWGS84[598.1,73.7,418.2,0.202,0.045,-2.455,6.7]", "")
    assert plain != bound
    texts = {"bound.prj": bound, "other.prj": bound.replace("598.1", "598.2"), "plain.prj": plain}
    page = folder() / "source.html"
    place = written("source", texts)
    _, output, data = data_of(place, "--convert", "--source-of-bound", "--html", page)
    (group,) = data["definitions"]
    ways = {os.path.basename(it["places"][0]["file"]): it["transformation"] for it in group["variants"]}
    assert ways["plain.prj"] is None and "598.1" in ways["bound.prj"] and "598.2" in ways["other.prj"], ways
    assert group["transformation"] is None and data["near_misses"] == [] and data["summary"]["bound"] == 2
    assert [[it["path"] for it in variant["parts"]] for variant in group["variants"]] == [[], *2 * [["transformation"]]]
    assert "bound        2 texts with a transformation, in the groups of their source CRSs\n" in output, output
    assert page.read_text(encoding="utf-8").count("With its transformation: ") == 2
    _, output, data = data_of(place, "--convert")
    assert len(data["definitions"]) == 3 and "bound        2 texts with a transformation\n" in output


@by_proj
def test_the_order_of_conversions_changes_nothing() -> None:
    place = written("shuffled", forms())
    paths = [str(place / name) for name in forms()]
    reports = []
    for number, jobs in enumerate((1, 1, 4)):
        order = random.Random(number).sample(paths, len(paths))
        status, _, error, data = audited_data("--convert", "--registry", "--jobs", jobs, *order)
        assert (status, error) == (0, ""), error
        variants = [(one["transformation"], it) for one in data["definitions"] for it in one["variants"]]
        reports.append({it["file"]: (way, v["text"], v["registered"]) for way, v in variants for it in v["places"]})
    assert reports[0] == reports[1] == reports[2]


@by_proj
def test_what_is_repaired_is_refused() -> None:
    """With PROJ's words, or with what it passes over."""
    esri = text_of("wgs84_esri.prj")
    wanted = {
        "comma.prj": (esri.replace("6378137.0", "6378137,0"), "Parsing error"),
        "cut.prj": (esri[:-20], "missing"),
        "open.prj": (esri[:-1], "missing ]"),
        "closed.prj": (esri + "]", "more follows"),
        "unknown.wkt": ("EPSG:99999", "crs not found"),
        "key.wkt": (RD + " +foo=1", "+foo isn't known"),
        "twice.wkt": (RD + " +k=0.9", "+k is there twice"),
        "effect.wkt": ("+proj=utm +zone=31 +lat_0=5", "+lat_0=5 at character 19 has no effect"),
        "no.wkt": ("+proj=nothing", ""),
    }
    place = written("repaired", {name: text for name, (text, _) in wanted.items()})
    status, output, data = data_of(place, "--convert")
    assert status == 1 and data["definitions"] == [], by_file(data)
    told = {os.path.basename(it["place"]["file"]): "; ".join(it["doubts"]) for it in data["refused"]}
    assert told.keys() == wanted.keys()
    for name, (_, words) in wanted.items():
        assert words in told[name] and told[name], (name, told[name])
    assert "damaged or not known to PROJ" in output
    # What has no form that PROJ is asked for stays as it was: a name, a text in WKT2.
    place = written("left", {"name.wkt": "WGS 84", "wkt2.wkt": HEIGHT[:-1]})
    status, _, data = data_of(place, "--convert")
    assert status == 1 and [it["doubts"] for it in data["refused"]] == [[], []]


@by_proj
def test_common_strings_are_read() -> None:
    """Strings as tools write them, whose parameters say some things twice."""
    for text in (
        "+proj=utm +zone=33 +ellps=WGS84 +datum=WGS84 +units=m +no_defs",
        "+proj=longlat +datum=NAD83 +ellps=GRS80 +towgs84=0,0,0 +no_defs",
        "+proj=laea +lat_0=90 +lon_0=0 +x_0=0 +y_0=0 +a=6371228 +b=6371228 +units=m +no_defs",
        "+proj=merc +a=6378137 +b=6378137 +lat_ts=0 +lon_0=0 +x_0=0 +y_0=0 +k=1 +units=m +nadgrids=@null +wktext +no_defs",
        "+proj=lcc +lat_1=49 +lat_2=44 +lat_0=46.5 +lon_0=3 +x_0=700000 +y_0=6600000 +ellps=GRS80 +units=m +no_defs",
        "+proj=tmerc +lat_0=49 +lon_0=-2 +k=0.9996012717 +x_0=400000 +y_0=-100000 +ellps=airy +units=m +no_defs +type=crs",
        "+proj=stere +lat_0=90 +lat_ts=70 +lon_0=-45 +k=1 +x_0=0 +y_0=0 +datum=WGS84 +units=m +no_defs",
        "+proj=longlat +ellps=bessel +pm=paris +no_defs",
        "proj=utm zone=31 ellps=intl units=m",
        "+proj=lcc +lat_1=46.8 +lat_0=46.8 +lon_0=0 +k_0=0.99987742 +x_0=600000 +y_0=2200000 +a=6378249.2 +b=6356515 "
        "+towgs84=-168,-60,320,0,0,0,0 +pm=paris +units=m +no_defs",
        "+proj=geos +h=35785831 +lon_0=0 +sweep=y +ellps=GRS80 +units=m +no_defs",
    ):
        found = converting.converted(text.encode())
        assert found and found.text and not found.warnings, (text, found)
    for text in (
        "+proj=utm +zone=33 +datum=WGS84 +ellps=bessel",
        "+proj=utm +zone=33 +k=0.5",
        "+proj=longlat +lat_1=4",
    ):
        found = converting.converted(text.encode())
        assert found and found.warnings and not found.text, (text, found)


@by_proj
def test_a_conversion_fetches_nothing() -> None:
    with server() as (address, asked):
        texts = [
            f"{address}/a",
            f"url={address}/b",
            f"EPSG:{address}",
            f"urn:ogc:def:crs:{address}",
            f"+init={address}/c:1",
        ]
        strings = [f"{RD} +nadgrids={address}/grid.tif", f"{RD} +nadgrids=@{address}/grid.tif"]
        place = written("addresses", {f"{number}.wkt": text for number, text in enumerate(texts + strings)})
        data_of(place, "--convert", "--registry")
        # Where a process couldn't leave the network too.
        for text in texts + strings:
            converting.converted(text.encode())
        assert asked == [], asked


def test_what_isnt_there_is_told() -> None:
    absent = dict.fromkeys(("osgeo/__init__.py", "pyproj/__init__.py"), "raise ImportError\n")
    place = written("without", {**absent, "a.wkt": HEIGHT})
    path = f"{place}{os.pathsep}{os.environ.get('PYTHONPATH', '')}"
    for option in ("--convert", "--registry"):
        status, output, error = audit(option, "a.wkt", cwd=place, PYTHONPATH=path)
        assert (status, output) == (2, "") and error.startswith(f"crsdesk: {option} takes PROJ, which "), error
    assert audit("a.wkt", cwd=place, PYTHONPATH=path)[::2] == (0, "")


# Data sets.


@by_proj
def test_texts_of_one_data_set_are_compared() -> None:
    """A shapefile, its .prj, and a .qpj that says another zone; one that is sound; and texts that stand alone."""
    need("python3:osgeo")
    from osgeo import gdal

    gdal.UseExceptions()
    place = folder() / "sets"
    place.mkdir()
    for name, code in (("sound", 32631), ("odd", 32632)):
        make_vector(place / f"{name}.shp", "ESRI Shapefile", reference_of(32631))
        (place / f"{name}.qpj").write_text(reference_of(code).ExportToWkt(["FORMAT=WKT1_GDAL"]))
    (place / "alone.prj").write_text(reference_of(32631).ExportToWkt(["FORMAT=WKT1_ESRI"]))
    status, output, data = data_of(place, "--convert")
    assert status == 0 and data["summary"]["data_sets"] == 2 and data["summary"]["disagreeing"] == 1
    odd, sound = data["data_sets"]
    assert odd["path"].endswith("/odd") and sound["path"].endswith("/sound") and sound["kind"] == "names and digits"
    assert odd["kind"] == "numbers", odd["kind"]
    files = [os.path.basename(it["place"]["file"]) for it in odd["texts"]]
    assert files == ["odd.shp", "odd.prj", "odd.qpj"], files
    numbers = [part for pair in odd["pairs"] for part in pair["parts"] if part["kind"] == "numbers"]
    assert [it["path"] for it in numbers] == ["conversion/parameters/Longitude of natural origin"], numbers
    assert "data sets    2 of several texts, of which 1 disagree\n" in output
    assert f"the texts of {odd['path']} disagree\n" in output
    # Without conversion the texts beside are refused, and nothing is there to disagree.
    _, _, data = data_of(place)
    assert data["summary"]["disagreeing"] == 0 and [it["kind"] for it in data["data_sets"]] == [None, None]


def make_sound_sets(place: pathlib.Path) -> None:
    """Data sets of registered CRSs by several formats, with the texts of several tools beside them, and no mistake."""
    from osgeo import gdal

    gdal.UseExceptions()
    gdal.PushErrorHandler("CPLQuietErrorHandler")
    for code in (4326, 4258, 4807, 31467, 2193, 3035, 27700, 28355, 5514, 3857, 2056):
        texts = [text_of_code(code, form) for form in ("WKT1_ESRI", "WKT1_GDAL", "WKT2_2019")]
        texts.append(re.sub(r',AXIS\["[^"]*",\w+\]', "", texts[1]))
        # What is beside each: .prj, and perhaps .qpj.
        for number, (prj, *qpj) in enumerate(((0,), (0, 1), (0, 2), (0, 3))):
            make_vector(place / f"{code}_{number}.shp", "ESRI Shapefile", reference_of(code))
            for suffix, text in zip((".prj", ".qpj"), (prj, *qpj)):
                (place / f"{code}_{number}{suffix}").write_text(texts[text])
        for suffix, driver in (("tif", "GTiff"), ("img", "HFA"), ("tab", "MapInfo File")):
            path = place / f"{code}_{suffix}.{suffix}"
            if suffix == "tab":
                make_vector(path, driver, reference_of(code), has_points=True, has_field=True)
            else:
                make_raster(path, driver, reference_of(code), (1, 0.1, 0, 2, 0, -0.1))
            path.with_suffix(".prj").write_text(texts[0])
    gdal.PopErrorHandler()


def text_of_code(code: int, form: str) -> str:
    return str(reference_of(code).ExportToWkt([f"FORMAT={form}", "MULTILINE=NO"]))


@pytest.mark.needs("python3:osgeo")
def test_a_geotiff_has_the_flattening_of_its_code() -> None:
    """GDAL reckons it anew, in another last digit. Another flattening beside the code stays as it is, or GDAL warns of it."""
    from osgeo import osr

    place = written("flattening", {"dhdn.wkt": text_of_code(4314, "WKT2_2019")})
    make_raster(place / "dhdn.tif", "GTiff", reference_of(4314), (1, 0.1, 0, 2, 0, -0.1))
    for name, number in (("near", "299.15281281"), ("far", "299.15")):
        other = osr.SpatialReference()
        other.ImportFromWkt(text_of_code(4314, "WKT2_2019").replace("299.1528128", number))
        make_raster(place / f"{name}.tif", "GTiff", other, (1, 0.1, 0, 2, 0, -0.1))
    _, _, data = data_of(place)
    groups = [sorted(os.path.basename(place["file"]) for place in places_of(it)) for it in data["definitions"]]
    numbers = [re.findall(r'ELLIPSOID\["[^"]*",[^,]*,([0-9.]*)', it["text"]) for it in data["definitions"]]
    assert groups == [["dhdn.tif", "dhdn.wkt"], ["near.tif"]] and numbers[0] == ["299.1528128"], (groups, numbers)
    assert numbers[1][0].startswith("299.1528128") and float(numbers[1][0]) > 299.152812809, numbers
    (unread,) = data["unread"]
    assert unread["place"]["file"].endswith("far.tif") and "EPSG:4314" in unread["why"], unread


def places_of(definition: Any) -> List[Any]:
    return [place for variant in definition["variants"] for place in variant["places"]]


@by_proj
def test_no_sound_data_set_disagrees() -> None:
    """With and without rules, but for what MapInfo's format can't say: units of degrees, false eastings, a scale."""
    need("python3:osgeo")
    place = folder() / "sound"
    place.mkdir()
    make_sound_sets(place)
    shipped = [("--rules", ROOT / "rules" / f"{name}.rules") for name in ("producers", "any-order")]
    for words in ((), *shipped, (*shipped[0], *shipped[1])):
        _, output, data = data_of(place, "--convert", *words)
        assert data["summary"]["data_sets"] == 11 * 7, data["summary"]
        told = {
            os.path.basename(it["path"]): it["kind"] for it in data["data_sets"] if it["kind"] != "names and digits"
        }
        told = {name: kind for name, kind in told.items() if kind is not None}
        assert told == dict.fromkeys(("31467_tab", "3035_tab", "4807_tab", "5514_tab"), "numbers"), (words, told)
        assert data["summary"]["disagreeing"] == 4 and output.count(" disagree\n") == 5
        # No CRS is one of another name's or code's by numbers, axes or datum, but in what MapInfo wrote.
        kinds_of = [it["kind"] for it in data["near_misses"]]
        assert "axes" not in kinds_of and "datum" not in kinds_of, (words, kinds_of)


@by_proj
def test_disagreement_is_of_one_data_set_alone() -> None:
    """Axes that a text states count against another's own, and nothing that other files say."""
    wgs84 = text_of("wgs84_projinfo_2019.wkt")
    axes = re.findall(r'AXIS\["[^"]*",\w+', wgs84)
    turned = wgs84.replace(axes[0], "FIRST").replace(axes[1], axes[0]).replace("FIRST", axes[1])
    esri = text_of("wgs84_esri.prj")
    shift = text_of("dhdn_towgs84.prj")
    texts = {
        "filled.prj": esri, "filled.qpj": wgs84, "filled2.prj": esri, "filled2.qpj": turned,
        "stated.prj": turned, "stated.qpj": wgs84,
        "left out.prj": shift, "left out.qpj": re.sub(r",TOWGS84\[[^]]*\]", "", shift),
        "shifts.prj": shift, "shifts.qpj": shift.replace("598.1", "598.2"),
    }  # fmt: skip
    others = {"other.wkt": turned, "another.wkt": wgs84, "same.wkt": esri}
    for files in (texts, {**texts, **others}):
        place = written("own axes", files)
        _, _, data = data_of(place, "--convert")
        told = {os.path.basename(it["path"]): it["kind"] for it in data["data_sets"]}
        assert (told["stated"], told["shifts"]) == ("axes", "transformation"), told
        assert {told[name] for name in ("filled", "filled2", "left out")} <= {None, "names and digits"}, told
        assert data["summary"]["disagreeing"] == 2, told


@by_proj
def test_a_near_miss_tells_whose_axes_differ() -> None:
    """Where a text that states its axes is in one group with such as have none."""
    wgs84 = text_of("wgs84_projinfo_2019.wkt")
    axes = re.findall(r'AXIS\["[^"]*",\w+', wgs84)
    turned = wgs84.replace(axes[0], "FIRST").replace(axes[1], axes[0]).replace("FIRST", axes[1])
    esri = text_of("wgs84_esri.prj")
    place = written("whose axes", {**dict.fromkeys("abc", wgs84), "d.prj": esri, "e.wkt": turned})
    for name in "abc":
        (place / name).rename(place / f"{name}.wkt")
    page = folder() / "whose.html"
    words = ("--convert", "--html", page, "--rules", ROOT / "rules" / "producers.rules")
    _, output, data = data_of(place, *words)
    assert [(it["kind"], len(it["pairs"])) for it in data["near_misses"]] == [("axes", 1)], output
    told = f"first {place / 'e.wkt'}"
    assert f"    with axes of its own 1 text, {told}\n" in output, output
    assert f"<strong>with axes of its own</strong> <span>1 text, {told}</span>" in page.read_text(encoding="utf-8")
    places = [place for it in data["definitions"] for variant in it["variants"] for place in variant["places"]]
    filled = {os.path.basename(it["file"]): it["filled"] for it in places if "filled" in it}
    assert filled == {"d.prj": ["axes"]}, filled
    # Where no text of the largest group has axes of its own those that have are compared with each other.
    place = written("more axes", {**{f"{name}.prj": esri for name in "abc"}, "d.wkt": wgs84, "e.wkt": turned})
    _, output, data = data_of(place, "--convert")
    (miss,) = data["near_misses"]
    pairs = [(it["first"], it["second"], it["kind"]) for it in miss["pairs"]]
    assert pairs == [(2, 3, "axes"), (1, 2, "names and digits"), (1, 3, "names and digits")], pairs
    assert "3 CRSs of the name WGS 84: axes\n  2 EPSG:4326: 1 text" in output, output


def test_what_belongs_together() -> None:
    together = [("a/b.shp", "b"), ("a/b.PRJ", ""), ("a/b.qpj", "")]
    keys = {(it.archive, it.path) for it in (belongs_to(*place) for place in together) if it}
    assert keys == {("", "a/b")}
    zipped = [belongs_to("z.zip", layer) for layer in ("in/b.shp:b", "in/b.prj", "in/b.c:d")]
    assert zipped[0] and zipped[1] and zipped[0][:2] == zipped[1][:2] == ("z.zip", "in/b") and zipped[2] is None
    assert belongs_to("a/b.gpkg", "roads") is None and belongs_to("a/b.txt", "") is None


# The registry.


@by_proj
def test_verdicts_of_the_registry() -> None:
    rd = text_of("rd_projinfo_2019.wkt")
    bare = re.sub(r",USAGE\[.*", "]", rd)
    zone = re.sub(r",USAGE\[.*", "]", text_of("utm31_projinfo_2019.wkt"))
    Verdict = registry.Verdict
    for text, verdict, identifier in (
        (rd, Verdict.SAME, "EPSG:28992"),
        (bare, Verdict.SAME, "EPSG:28992"),
        (rd.replace('"RD New"', '"new"'), Verdict.NAMES, "EPSG:28992"),
        (rd.replace("0.9999079", "0.99990790000001"), Verdict.NAMES, "EPSG:28992"),
        (rd.replace("155000", "155001"), Verdict.NUMBERS, "EPSG:28992"),
        (bare.replace("155000", "155001"), Verdict.NUMBERS, "EPSG:28992"),
        (rd.replace('DATUM["Amersfoort"', 'DATUM["Potsdam"'), Verdict.DATUM, "EPSG:28992"),
        (rd.replace('northing (Y)",north', 'northing (Y)",south'), Verdict.AXES, "EPSG:28992"),
        (rd.replace("RD New", "RD Old"), Verdict.OTHER_NAME, "EPSG:28992"),
        (zone.replace("zone 31N", "zone 32N"), Verdict.OTHER_NAME, "EPSG:32631"),
        (rd.replace("28992", "99999"), Verdict.UNKNOWN_CODE, "EPSG:99999"),
        (rd.replace('ID["EPSG",28992]', 'ID["OURS",7]'), Verdict.SAME, "EPSG:28992"),
        (HEIGHT, Verdict.UNIDENTIFIED, ""),
    ):
        crs = Crs(text)
        found = registry.registered(registry.Asked(str(crs), crs.name, crs.identifiers))
        assert (found.verdict, found.identifier) == (verdict, identifier), (found, text)
        assert found.is_own == any(it.startswith("EPSG:") for it in crs.identifiers)
        if not found.is_own and found.identifier:
            assert found.confidence > 0 and found.identifier in [it.identifier for it in found.guesses]
        if verdict is Verdict.OTHER_NAME:
            assert found.other in ("EPSG:28991", "EPSG:32632"), found.other


@by_proj
def test_registry_is_no_part_of_sameness() -> None:
    """Groups and near misses are those without it."""
    place = written("sameness", {**forms(), "odd.wkt": text_of("rd_projinfo_2019.wkt").replace("155000", "155001")})
    status, output, data = data_of(place, "--convert", "--registry")
    _, _, plain = data_of(place, "--convert")
    for one in data["definitions"]:
        for variant in one["variants"]:
            assert variant["registered"]["verdict"]
            variant["registered"] = None
    assert data["definitions"] == plain["definitions"] and data["near_misses"] == plain["near_misses"]
    assert "not as EPSG:28992: numbers\n" in output and "numbers: 1 text" in output
    assert sum(data["summary"]["registry"].values()) == data["summary"]["accepted"]
    assert plain["summary"]["registry"] == {} and "registry" not in audit(place)[1]
    # What PROJ fills in where WKT1 has no axes is no finding.
    assert data["summary"]["registry"]["axes that the text doesn't state"] >= 1


# Kinds of differences.


def test_kinds_of_differences() -> None:
    kind = kinds.Kind
    degree, other = 'ANGLEUNIT["degree",0.0174532925199433]', 'ANGLEUNIT["Degree",0.017453292519943295]'
    cases: List[Tuple[List[Tuple[str, Optional[str], Optional[str]]], kinds.Kind]] = [
        ([("name", '"A"', '"B"')], kind.NAMES),
        ([("datum/name", '"D_WGS_1984"', '"WGS 1984 ensemble"'), ("datum/kind", "DATUM", "ENSEMBLE")], kind.NAMES),
        ([("base/datum/name", '"European Datum 1950"', '"Amersfoort"')], kind.DATUM),
        ([("datum/ellipsoid/flattening", "298.257223563", "298.257222101")], kind.NUMBERS),
        ([("datum/ellipsoid/flattening", "294.978698213898", "294.9786982")], kind.NAMES),
        ([("meridian/longitude", "2.5969213", "2.33722917"), ("meridian/unit", 'ANGLEUNIT["grad",0.015707963267949]', degree)], kind.NAMES),
        ([("meridian/longitude", "2.5969213", "0")], kind.NUMBERS),
        ([("system/axis1/direction", "north", "east"), ("system/axis1/name", '"a"', '"b"')], kind.AXES),
        ([("system/axis1/unit", degree, other)], kind.NAMES),
        ([("system/axis1/unit", 'LENGTHUNIT["metre",1]', 'LENGTHUNIT["foot",0.3048]')], kind.NUMBERS),
        ([("system/axis3/name", '"h"', None)], kind.AXES),
        ([("kind", "geographic", "projected")], kind.DATUM),
        ([("dynamic/epoch", "2010", "2015")], kind.DATUM),
        ([("dynamic/epoch", "2010", None)], kind.NAMES),
        ([("transformation", "a", None)], kind.SHIFT),
        ([("transformation", "a", "b"), ("datum/name", '"A"', '"B"')], kind.DATUM),
        ([("datum/name", '"A"', '"B"'), ("system/axis1/direction", "north", "east")], kind.AXES),
        ([("system/axis1/direction", "north", "east"), ("datum/ellipsoid/flattening", "298", "299")], kind.NUMBERS),
        ([("conversion/method/name", '"Mercator (variant A)"', '"Mercator (variant B)"')], kind.NAMES),
        ([("conversion/method/name", '"Mercator (variant A)"', '"Mercator (variant B)"'), ("conversion/parameters", 'PARAMETER["Scale factor at natural origin",0.99]', None)], kind.NUMBERS),
        ([("conversion/method/name", '"Lambert"', '"Albers"')], kind.NUMBERS),
        ([("conversion/parameters", f'PARAMETER["a",1,{degree}]', f'PARAMETER["A",1,{other}]')], kind.NAMES),
        ([("conversion/parameters", f'PARAMETER["a",1,{degree}]', 'PARAMETER["a",1.0]')], kind.NAMES),
        ([("conversion/parameters", 'PARAMETER["a",1],PARAMETER["b",2]', 'PARAMETER["a",1.0],PARAMETER["b",3]')], kind.NUMBERS),
        ([("conversion/parameters", 'PARAMETER["a",0]', None)], kind.NAMES),
        ([("conversion/parameters", 'PARAMETER["a",7]', None)], kind.NUMBERS),
    ]  # fmt: skip
    for parts, wanted in cases:
        found = kinds.kind_of([Difference(*part) for part in parts])
        assert found is wanted, (parts, found)
    rows = kinds.rows_of([Difference("conversion/parameters", 'PARAMETER["a",1],PARAMETER["b",2]', 'PARAMETER["b",3]')])
    assert [(it.path, it.first, it.second) for it in rows] == [
        ("conversion/parameters/a", 'PARAMETER["a",1]', None),
        ("conversion/parameters/b", 'PARAMETER["b",2]', 'PARAMETER["b",3]'),
    ]


def test_sets_of_parameters_are_whole() -> None:
    """The number of a parameter is judged in its unit, though the library tells each by itself."""
    units = ('LENGTHUNIT["metre",1]', 'LENGTHUNIT["foot",0.3048]')
    begun = 'PROJCRS["U",BASEGEOGCRS["B",DATUM["D",ELLIPSOID["E",1,0]]],CONVERSION["c",METHOD["m"]'
    grid = 'CS[Cartesian,2],AXIS["(E)",east],AXIS["(N)",north],LENGTHUNIT["metre",1]]'
    for numbers, wanted in (((0, 0), kinds.Kind.NAMES), ((1, 1), kinds.Kind.NUMBERS), ((0.3048, 1), kinds.Kind.NAMES)):
        texts = [f'{begun},PARAMETER["a",{number},{unit}]],{grid}' for number, unit in zip(numbers, units)]
        first, second = (canon(it) for it in texts)
        found = kinds.with_whole_sets(differences(first, second), first, second)
        assert [it.path for it in found] == ["conversion/parameters"] and kinds.kind_of(found) is wanted, found


def test_differing_characters_are_marked() -> None:
    def told(first: Optional[str], second: Optional[str]) -> List[str]:
        return [
            "".join(f"<{it.text}>" if it.differs else it.text for it in side)
            for side in marking.pieces_of(first, second)
        ]

    assert told('"degree"', '"Degree"') == ['"<d>egree"', '"<D>egree"']
    assert told("155000", "155001") == ["15500<0>", "15500<1>"]
    assert told("a b", "a\u00a0b") == ["a< >b", "a<\u00a0>b"] and names.distinct("a\u00a0b\u200b") == "a\\u00A0b\\u200B"
    assert told("a", None) == ["a", ""] and told("same", "same") == ["same", "same"]
    assert told("x" * 3000 + " " * 3000 + "a", "x" * 3000 + " " * 3000 + "b")[0].endswith(" <a>")
    assert told("ab", "") == ["<ab>", ""] and told("aXb aYb", "aZb aYb") == ["a<X>b aYb", "a<Z>b aYb"]
