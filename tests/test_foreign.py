"""The Python package and PROJ: texts in other forms, as PROJ reads them, the commands that hints tell, and the use of the
package beside others that have CRSs. What depends on the PROJ of a package runs in a process of its own, in which the other
packages aren't there."""
from __future__ import annotations

import copy
import os
import pathlib
import pickle
import random
import re
import sys
import tempfile
from concurrent.futures import ThreadPoolExecutor
from typing import Any, Callable, List

import pytest
from support import CANONICAL_HEIGHT, EXAMPLES, HEIGHT, HERE, need, run, succeed
from test_commands import Files
from test_python import hold_examples, is_accepted, refusal_of, wants

from crsdesk import Catalogue, Crs, Refused, _foreign, canon, check, difference, differences, same


# The commands that the hints and the document tell.


@pytest.mark.needs("projinfo")
def test_what_projinfo_does_with_a_hint(tmp_path: pathlib.Path) -> None:
    """The command of a hint makes a text that is read, and of a damaged one a text that is refused."""
    hold_examples("projinfo")
    hint = refusal_of('GEOGCS["A"]').told_of_file()
    command = re.search(r"\((projinfo .* sed 1d)\)", hint)
    assert command
    old = (EXAMPLES / "exports" / "wgs84_esri.prj").read_text(encoding="utf-8")
    for text, is_damaged in ((old, False), (old.replace("6378137.0", "6378137,0"), True)):
        (tmp_path / "FILE").write_text(text, encoding="utf-8")
        done = run(["sh", "-c", command[1]], cwd=tmp_path, text=False)
        assert not done.stderr and is_accepted(done.stdout) != is_damaged, done.stdout
    code = re.search(r"\((projinfo .*)\)", refusal_of("EPSG:28992").hint or "")
    assert code
    assert check(run(["sh", "-c", code[1]], text=False).stdout) == "projected"


@pytest.mark.needs("gdalsrsinfo", "gdal_create")
def test_what_gdalsrsinfo_does_with_a_hint(tmp_path: pathlib.Path) -> None:
    words = "gdal_create -q -of GTiff -outsize 2 2 -bands 1 -a_srs EPSG:32631 -a_ullr 3 50 4 49 FILE".split()
    succeed(words, cwd=tmp_path)
    hint = refusal_of((tmp_path / "FILE").read_bytes()).hint or ""
    command = re.search(r"\((gdalsrsinfo .*)\)", hint)
    assert command, hint
    assert check(run(["sh", "-c", command[1]], cwd=tmp_path, text=False).stdout) == "projected"


# Other forms, as PROJ reads them.

TM = (
    'PROJECTION["Transverse_Mercator"],PARAMETER["latitude_of_origin",0.5],PARAMETER["central_meridian",9.5],PARAMETER['
    '"scale_factor",0.9996],PARAMETER["false_easting",500000.5],PARAMETER["false_northing",0.5]'
)
BESSEL = (
    'GEOGCS["G",DATUM["D",SPHEROID["S",6377397.155,299.1528128]{}],PRIMEM["Greenwich",0.5],UNIT["degree",0.0174532925199433'
    "]]"
)
GEOGRAPHIC = BESSEL.format("")
SHIFTED = BESSEL.format(",TOWGS84[598.1,73.7,418.2,0.202,0.045,-2.455,6.7]")
PROJECTED = f'PROJCS["P",{GEOGRAPHIC},{TM},UNIT["metre",1.0]]'
HEIGHTS = 'VERT_CS["H",VERT_DATUM["V",2005],UNIT["metre",1.0],AXIS["Up",UP]]'
# WKT1 texts, with the kind of each, and whether it is bound.
OLD = {
    GEOGRAPHIC: ("geographic", False),
    SHIFTED: ("geographic", True),
    PROJECTED: ("projected", False),
    f'PROJCS["P",{SHIFTED},{TM},UNIT["metre",1.0]]': ("projected", True),
    HEIGHTS: ("vertical", False),
    f'COMPD_CS["C",{PROJECTED},{HEIGHTS}]': ("compound", False),
    f'COMPD_CS["C",PROJCS["P",{SHIFTED},{TM},UNIT["metre",1.0]],{HEIGHTS}]': ("compound", True),
}
# Texts in other forms, likewise.
FOREIGN = {
    "EPSG:28992": ("projected", False),
    "epsg:28992": ("projected", False),
    "EPSG:28992+5709": ("compound", False),
    " EPSG:4326\n": ("geographic", False),
    "OGC:CRS84": ("geographic", False),
    "ESRI:102100": ("projected", False),
    "urn:ogc:def:crs:EPSG::4978": ("geodetic", False),
    "urn:ogc:def:crs,crs:EPSG::27700,crs:EPSG::5701": ("compound", False),
    "http://www.opengis.net/def/crs/EPSG/0/5773": ("vertical", False),
    "+proj=utm +zone=31": ("projected", False),
    "proj=utm zone=31 type=crs": ("projected", False),
    "+proj=longlat +ellps=bessel +towgs84=1,2,3 +no_defs": ("geographic", True),
    "+proj=longlat +ellps=bessel +nadgrids=a.gsb": ("geographic", True),
    "+proj=omerc +lat_0=4 +lonc=102.25 +alpha=323.0257 +k=0.99984 +x_0=804671 +y_0=0 +gamma=323.13 +a=6377304.063 "
    "+b=6356103.03899315 +no_uoff": ("projected", False),
    "+proj=stere +lat_0=-90 +lat_ts=-71 +lon_0=0 +k=1 +x_0=0 +y_0=0 +datum=WGS84 +units=m": ("projected", False),
    "+proj=merc +lon_0=0 +k=1 +x_0=0 +y_0=0 +a=6378137 +b=6378137 +nadgrids=@null +no_defs": ("projected", False),
    "+proj=utm +zone=31 +ellps=bessel +towgs84=1,2,3 +geoidgrids=egm96.gtx +vunits=m": ("compound", True),
    "+proj=laea +lat_0=52 +lon_0=10 +x_0=4321000 +y_0=3210000 +ellps=GRS80 +towgs84=0,0,0,0,0,0,0 +units=m +no_defs": (
        "projected",
        True,
    ),
    # Words that say what another one says too.
    "+proj=utm +zone=33 +ellps=WGS84 +datum=WGS84 +units=m +no_defs": ("projected", False),
    "+proj=geos +h=35785831 +lon_0=0 +sweep=y +ellps=GRS80": ("projected", False),
    **dict.fromkeys(
        [
            "+proj=lcc +lat_1=46.8 +lat_0=46.8 +lon_0=0 +k_0=0.99987742 +x_0=600000 +y_0=2200000 +ellps=clrk80ign +pm=paris",
            "+proj=tmerc +lat_0=52d9'22.17\"N +lon_0=5d23E +k=0.9999079 +x_0=155000 +y_0=463000 +ellps=bessel",
            "+proj=lcc +lat_1=49 +lat_2=44 +lat_0=46.5 +lon_0=3 +x_0=700000 +y_0=6600000 +ellps=GRS80 +units=m",
        ],
        ("projected", False),
    ),
}
# Texts that PROJ reads, or repairs, and a part of why its reading isn't taken.
NOT_TAKEN = {
    GEOGRAPHIC.replace("6377397.155", "6377397,155"): "syntax error, unexpected number",
    GEOGRAPHIC.replace("0.0174532925199433", "0.01745329252"): "0.01745329252 in UNIT",
    GEOGRAPHIC.replace('PRIMEM["Greenwich",0.5],', ""): "PRIMEM",
    GEOGRAPHIC + "x": f"more follows at character {len(GEOGRAPHIC)}",
    GEOGRAPHIC + "\xe9": f"more follows at character {len(GEOGRAPHIC)}",
    GEOGRAPHIC + GEOGRAPHIC: "more follows at character",
    GEOGRAPHIC[:-1] + ")": f"')' is at character {len(GEOGRAPHIC) - 1}, where nothing closes so",
    GEOGRAPHIC + '"': "more follows at character",
    GEOGRAPHIC[:-1] + '"': "where nothing closes so",
    GEOGRAPHIC.replace(",PRIMEM", ",\xe9PRIMEM"): "where nothing closes so",
    GEOGRAPHIC[:-1]: "PROJ: ",
    GEOGRAPHIC.replace("SPHEROID", "SPEROID"): "PROJ: ",
    GEOGRAPHIC.replace("UNIT", "UNT"): "PROJ: ",
    "GEOGCS[\0]": "a NUL byte is in it",
    'GEOGCS["' + "x" * 1_048_576: "more than 1,048,576 characters",
    "+proj=utm +zone=31 +elps=GRS80": "+elps isn't known: PROJ would pass it over",
    "+proj=utm +zone=31 +zone=32": "+zone is there twice",
    "+proj=utm +zone=31 +lat_ts=45": "+lat_ts=45 at character 19 has no effect: PROJ would pass it over",
    # PROJ keeps the whole string in a remark of what it writes of this one.
    "+proj=utm +zone=31 +lat_0=5": "+lat_0=5 at character 19 has no effect: PROJ would pass it over",
    "+proj=longlat +zone=31 +ellps=bessel": "+zone=31 at character 14 has no effect",
    "+proj=utm +zone=33 +datum=WGS84 +ellps=bessel": "+ellps=bessel at character 32 has no effect",
    "+proj=utm +zone=31 +over": "+over at character 19 has no effect",
    "+init=epsg:4326": "+init isn't known",
    "+proj=pipeline +step +proj=utm +zone=31": "+step isn't known",
    "+proj=utm +zone=99": "Invalid value for zone",
    "+proj=merc +x_0=1,5": "invalid value for x_0",
    "+proj=frob": "Unknown projection",
    "EPSG:0": "crs not found",
    "EPSG:7030": "crs not found",
    "FROB:1": "crs not found",
    "urn:ogc:def:crs:EPSG::0": "crs not found",
    '{"type":"GeographicCRS"}': "PROJ: ",
    "{": "JSON: Expecting property name",
    '{"a":' * 100_000: "JSON: ",
}
# Texts of which PROJ isn't asked: it would look names up, open files, or repair WKT2.
NOT_ASKED = ["WGS 84", "4326", "", "https://example.org/crs", "/etc/passwd", "@a.wkt", "EPSG: 4326", "EPSG:WGS 84"]
NOT_ASKED += [HEIGHT[:-1], HEIGHT.replace('"metre",1', '"metre",1,0')]
NOT_ASKED += ['GEOGCRS["A",DATUM["D",ELLIPSOID["E",6377397,155,299]]]']


def without_proj() -> None:
    """Where no package has PROJ, a text in another form is refused as ever, with that; where one has, nothing else."""
    assert _foreign.reader() is None
    for text in [*OLD, *FOREIGN]:
        refused = refusal_of(text, Crs.from_user)
        told = "PROJ doesn't read it either: it isn't there; osgeo (GDAL's Python) and pyproj have it"
        assert refused.proj == told and str(refused).endswith(f"\n{told}"), refused
        again = pickle.loads(pickle.dumps(refused))
        assert str(again) == str(refused) and str(refused.kept()) == str(refused)
        assert (refused.number, refused.place) == (refusal_of(text).number, refusal_of(text).place)
    with tempfile.TemporaryDirectory() as folder:
        for command in (["check"], ["canon"], ["group"], ["same", "height.wkt"]):
            status, output, error = Files(pathlib.Path(folder)).run(*command, "--convert", "old.prj")
            assert (status, output) == (2, "") and error.startswith("crsdesk: --convert takes PROJ"), error


def other_forms() -> None:
    """With PROJ: what is taken of it, and what isn't, with its words; and what isn't asked of it."""
    read_by = _foreign.reader() or ""
    assert re.fullmatch(r"PROJ \d+\.\d+\.\d+, EPSG v[\d.]+", read_by), read_by
    for text, (kind, is_bound) in [*OLD.items(), *FOREIGN.items()]:
        crs = Crs.from_user(text)
        assert (crs.kind, crs.transformation is not None, crs.read_by) == (kind, is_bound, read_by), text
        assert crs == Crs.from_user(text.encode()) and check(crs.text) == kind
        for twin in (pickle.loads(pickle.dumps(crs)), copy.deepcopy(crs), Crs(crs), Crs.from_user(crs)):
            told = [
                (it.text, it.read_by, it.transformation, it.canonical("definition"), hash(it)) for it in (twin, crs)
            ]
            assert twin == crs and told[0] == told[1], text
        assert is_accepted(str(crs).encode()) != is_bound and str(crs) == crs.canonical() == crs.to_wkt()
        assert ("bound" in repr(crs)) == is_bound and f"read by {read_by})>" in repr(crs)
        # What it writes is read again as the same CRS, with the same transformation.
        again = Crs.from_user(str(crs))
        assert again.transformation == crs.transformation and (is_bound or again == crs), text
    for text, part in NOT_TAKEN.items():
        refused = refusal_of(text, Crs.from_user)
        assert refused.proj and part in refused.proj and str(refused).endswith(refused.proj), (text[:99], refused)
        plain = refusal_of(text)
        assert "\n" not in refused.proj and (refused.number, refused.place) == (plain.number, plain.place)
    for text in NOT_ASKED:
        assert refusal_of(text, Crs.from_user).proj is None, text
    latin = GEOGRAPHIC.replace('"G"', '"\xe9"').encode("latin-1")
    assert refusal_of(latin, Crs.from_user).proj == "PROJ doesn't read it either: byte 0xe9 at 8 isn't UTF-8"
    # The library judges what PROJ writes.
    axes = [
        f'{{"name":"{name}","abbreviation":"","direction":"{to}","unit":"metre"}}'
        for name, to in (("X", "east"), ("Y", "north"))
    ]
    system = f'"coordinate_system":{{"subtype":"Cartesian","axis":[{",".join(axes)}]}}'
    refused = refusal_of(f'{{"type":"EngineeringCRS","name":"L","datum":{{"name":"D"}},{system}}}', Crs.from_user)
    assert refused.proj == f"{read_by} wrote this text of PROJJSON" and refused.text and refused.text[:7] == b"ENGCRS["
    assert Crs.from_user("EPSG:28992") == Crs.from_file(EXAMPLES / "exports" / "rd_projinfo_2019.wkt")


def damaged_numbers_are_refused() -> None:
    """A decimal comma for each decimal point of each WKT1 text, and a bracket or a comma left out."""
    tried = 0
    for text in OLD:
        for place, character in enumerate(text):
            cut = text[:place] + text[place + 1 :]
            damaged = [text[:place] + "," + text[place + 1 :]] if character == "." else []
            damaged += [cut] if character in '[],"' else []
            for it in damaged:
                tried += 1
                refusal_of(it, Crs.from_user)
    assert tried > 500, tried


def transformations_count() -> None:
    one, other = (Crs.from_user(SHIFTED.replace("598.1", number)) for number in ("598.1", "598.2"))
    plain = Crs.from_user(GEOGRAPHIC)
    assert len({one, other, plain}) == 3 and one.text == other.text == plain.text and one.name == plain.name == "G"
    levels: Any = ("full", "definition")
    for level in levels:
        assert len({crs.canonical(level) for crs in (one, other, plain)}) == 3 and one == Crs.from_user(SHIFTED)
        assert not one.same(other, level) and not same(one, other, level) and not same(plain, one, level)
        assert same(one, Crs.from_user(SHIFTED), level) and differences(one, one, level) == []
        assert difference(one, other, level) == one.difference(plain, level) == "transformation"
        parts = differences(one, plain, level)
        assert [(it.path, it.first, it.second) for it in parts] == [("transformation", one.transformation, None)]
        catalogue = Catalogue(level)
        assert [catalogue.add(it) for it in (one, other, plain, one)] == [1, 2, 3, 1] and one in catalogue
        assert catalogue.group(1).text == one.canonical(level)
    renamed = Crs.from_user(SHIFTED.replace('"G"', '"K"').replace("598.1", "598.2"))
    assert one.difference(renamed) == "name" and [it.path for it in one.differences(renamed)][-1] == "transformation"
    # The members of a compound CRS are bound.
    texts = [text for text, (kind, is_bound) in OLD.items() if kind == "compound" and is_bound]
    texts += [text for text, (kind, is_bound) in FOREIGN.items() if kind == "compound" and is_bound]
    paths = []
    for text in texts:
        crs, shifted = Crs.from_user(text), Crs.from_user(text.replace("598.1", "598.2").replace("egm96", "egm08"))
        paths.append(crs.differences(shifted)[-1].path)
        assert str(crs).startswith("COMPOUNDCRS[") and "BOUNDCRS[SOURCECRS[PROJCRS[" in str(crs)
    assert paths == ["horizontal/transformation", "vertical/transformation"], paths


def readings_depend_on_nothing_else() -> None:
    """Whatever was read before, in whichever thread, a text is read alike."""
    texts = [*OLD, *FOREIGN, *(path.read_text("utf-8") for path in (EXAMPLES / "exports").glob("*.prj"))]
    texts += [f"EPSG:{code}" for code in (2154, 3035, 3857, 4258, 4979, 5514, 7415, 25832, 27700, 31370, 31467, 32631)]
    texts += [NOT for NOT in NOT_TAKEN if len(NOT) < 1000]
    chance = random.Random(58)

    def told(text: str) -> str:
        try:
            return str(Crs.from_user(text))
        except Refused as refused:
            return str(refused)

    wanted = {text: told(text) for text in texts}
    for _ in range(3):
        chance.shuffle(texts)
        assert {text: told(text) for text in texts} == wanted
    with ThreadPoolExecutor(4) as pool:
        assert dict(zip(texts * 2, pool.map(told, texts * 2))) == wanted


def json_is_read_whole() -> None:
    """PROJJSON of PROJ's own is read, and refused where a member has another name, or a number more digits."""
    string = "+proj=utm +zone=31 +ellps=bessel +towgs84=1,2,3"
    for code in ("EPSG:4326", "EPSG:28992", "EPSG:7415", "EPSG:5773", string):
        words = ["projinfo", "-q", "-o", "PROJJSON", code + (" +type=crs" if code[0] == "+" else "")]
        text = succeed(words)
        crs = Crs.from_user(text)
        assert crs == Crs.from_user(code) and crs.read_by, code
        names = [match for match in re.finditer(r'"(\w+)": ', text) if match[1] != "type"]
        for match in names:
            changed = f'{text[: match.start()]}"{match[1]}_x": {text[match.end() :]}'
            assert refusal_of(changed, Crs.from_user).proj, changed
            doubled = f"{text[: match.start()]}{match[0]}0, {text[match.start() :]}"
            assert refusal_of(doubled, Crs.from_user).proj, doubled
    assert len(names) > 30


def command_convert() -> None:
    with tempfile.TemporaryDirectory() as folder:
        files = Files(pathlib.Path(folder))
        files.write("old.prj", GEOGRAPHIC)
        files.write("bound.prj", SHIFTED)
        files.write("damaged.prj", GEOGRAPHIC.replace("6377397.155", "6377397,155"))
        files.write("codes.txt", f"EPSG:28992\n\nWGS 84\n{HEIGHT}\nEPSG:28992 \n")
        by = Crs.from_user(GEOGRAPHIC).read_by
        status, output, error = files.run("check", "--convert", "old.prj", "bound.prj", "height.wkt", "damaged.prj")
        assert output == (
            f"old.prj: accepted geographic, read by {by}\nbound.prj: accepted geographic, bound, read by {by}\n"
            "height.wkt: accepted vertical\ndamaged.prj: refused 11 UnknownKeyword at 0\n"
        )
        assert status == 1 and "WKT1" in error and "\nPROJ doesn't read it either: PROJ: " in error
        status, output, error = files.run("canon", "--convert", "old.prj", "bound.prj", "--level=definition")
        wanted = [Crs.from_user(text).canonical("definition") for text in (GEOGRAPHIC, SHIFTED)]
        assert (status, output) == (0, "".join(f"{text}\n" for text in wanted))
        assert error == f"old.prj: read by {by}\nbound.prj: bound, read by {by}\n"
        assert files.run("same", "--convert", "old.prj", "old.prj")[:2] == (0, "same\n")
        assert files.run("same", "--convert", "old.prj", "bound.prj")[:2] == (1, "different transformation\n")
        status, output, _ = files.run("same", "--convert", "--all", "bound.prj", "old.prj")
        assert status == 1 and output.startswith("transformation: TARGETCRS[") and output.endswith(" | none\n")
        damaged = files.run("same", "--convert", "old.prj", "damaged.prj")
        assert damaged[:2] == (1, "second refused 11 UnknownKeyword at 0\n")
        status, output, error = files.run("group", "--convert", "--lines", "codes.txt")
        assert (status, output) == (1, "group 1: 1 5\ngroup 2: 4\nline 3: refused 6 Unexpected at 4\n"), output
        assert f"codes.txt:1: read by {by}\n" in error
        assert files.run("group", "--convert", "old.prj", "bound.prj", "height.wkt")[1] == (
            "group 1: old.prj\ngroup 2: bound.prj\ngroup 3: height.wkt\n"
        )
        assert files.run("check", "old.prj")[1] == "refused 11 UnknownKeyword at 0\n"


# Beside other packages.


def is_refused_with_the_call(crs: object, call: str) -> None:
    """A package's CRS is refused with the call that makes a text of it that is read."""
    wants(TypeError, f"; hand over its {call}, in WKT2:2019", Crs, crs)
    assert Crs(eval(f"crs.{call}", {"crs": crs})).kind == "projected"


def with_pandas() -> None:
    import pandas

    hold_examples("pandas")
    texts = [HEIGHT.replace('"H"', f'"{name}"') for name in "bab"] + [CANONICAL_HEIGHT.replace('"H"', '"a"')]
    frame = pandas.DataFrame({"crs": [Crs(text) for text in texts], "number": range(4)})
    groups = frame.groupby("crs")["number"].agg(list)
    assert groups.tolist() == [[1, 3], [0, 2]] and list(groups.index) == sorted(set(frame["crs"]))
    assert frame["crs"].nunique() == 2 and len(frame.drop_duplicates("crs")) == 2
    assert frame.sort_values("crs", kind="stable")["number"].tolist() == [1, 3, 0, 2]
    assert frame["crs"].value_counts()[Crs(texts[0])] == 2 and len(frame.merge(frame, on="crs")) == 8


def with_pyproj() -> None:
    import pyproj

    hold_examples("pyproj")
    is_refused_with_the_call(pyproj.CRS.from_epsg(28992), "to_wkt()")
    for crs in (pyproj.CRS.from_epsg(28992), pyproj.CRS.from_epsg(7415)):
        own = Crs.from_user(crs)
        assert own.text == crs.to_wkt().encode() and own.read_by is None
        assert pyproj.CRS(own) == pyproj.CRS.from_user_input(own) == crs
        assert own != crs and not own == crs and own == Crs.from_user(crs)
        assert pyproj.Transformer.from_crs(own, own).source_crs == crs
    bound = Crs.from_user(SHIFTED)
    assert pyproj.CRS(bound).is_bound and Crs.from_user(pyproj.CRS(bound)).transformation == bound.transformation
    # PROJ reads each canonical text, as the CRS that it reads in the text itself, where it reads that.
    texts = [path.read_bytes() for path in sorted([*EXAMPLES.glob("*.wkt"), *(EXAMPLES / "exports").glob("*.wkt")])]
    texts += (EXAMPLES / "catalogue.txt").read_bytes().split(b"\n")
    texts = [text for text in texts if is_accepted(text)]
    read = 0
    for text in texts:
        crs = pyproj.CRS(str(Crs(text)))
        try:
            other = pyproj.CRS(text.decode())
        except pyproj.exceptions.CRSError:
            continue
        read += 1
        assert crs == other, text
    assert len(texts) > 150 and read > 80, (len(texts), read)


def with_rasterio() -> None:
    import rasterio.crs

    is_refused_with_the_call(rasterio.crs.CRS.from_epsg(28992), 'to_wkt(version="WKT2_2019")')
    own = Crs.from_user(rasterio.crs.CRS.from_epsg(28992))
    assert own.kind == "projected" and rasterio.crs.CRS.from_user_input(own) == rasterio.crs.CRS.from_epsg(28992)


def with_geopandas() -> None:
    """A table of geometries takes a Crs wherever it takes a CRS; its own is read by way of .crs alone."""
    import geopandas

    hold_examples("geopandas")
    points = geopandas.points_from_xy([5.3876388889], [52.1561605556])
    amersfoort = Crs.from_file(EXAMPLES / "exports" / "rd_projinfo_2019.wkt")
    wgs84 = Crs.from_user("EPSG:4326")
    table = geopandas.GeoDataFrame({"name": ["tower"]}, geometry=points, crs=wgs84)
    for made in (table, table.geometry, table.to_crs(amersfoort), table.geometry.to_crs(amersfoort)):
        own = Crs.from_user(made.crs)
        assert own.text == made.crs.to_wkt().encode() and own.read_by is None
        calls: List[Callable[..., object]] = [Crs, Crs.from_user, check, canon]
        for call in calls:
            wants(TypeError, f"not {type(made).__name__}; hand over its .crs to Crs.from_user", call, made)
    moved = table.to_crs(amersfoort)
    assert moved.crs == table.to_crs("EPSG:28992").crs and Crs.from_user(moved.crs) == amersfoort
    (place,) = moved.geometry
    assert abs(place.x - 155000) < 200 and abs(place.y - 463000) < 200, place
    assert Crs.from_user(table.set_crs(amersfoort, allow_override=True).crs) == amersfoort
    bound = Crs.from_user(SHIFTED)
    assert Crs.from_user(table.to_crs(bound).crs).transformation == bound.transformation


def with_osgeo() -> None:
    from osgeo import osr

    crs = osr.SpatialReference()
    crs.ImportFromEPSG(28992)
    is_refused_with_the_call(crs, 'ExportToWkt(["FORMAT=WKT2_2019"])')
    assert Crs.from_user(crs).text == crs.ExportToWkt(["FORMAT=WKT2_2019"]).encode()


# Each in a process of its own.


def alone(function: Callable[[], None], folder: pathlib.Path, *hidden: str) -> None:
    """Calls a function of a file of tests in another process, in which some packages can't be imported."""
    for package in hidden:
        (folder / f"{package}.py").write_text("raise ImportError(__name__)\n", encoding="utf-8")
    path = os.pathsep.join([str(folder), str(HERE), os.environ["PYTHONPATH"]])
    call = f"import {function.__module__} as it; it.{function.__name__}()"
    succeed([sys.executable, "-c", call], env={**os.environ, "PYTHONPATH": path})


def name_of(function: Callable[[], None]) -> str:
    return function.__name__


def test_without_proj(tmp_path: pathlib.Path) -> None:
    alone(without_proj, tmp_path, "osgeo", "pyproj")


@pytest.mark.parametrize("package, other", [("osgeo", "pyproj"), ("pyproj", "osgeo")])
@pytest.mark.parametrize(
    "function",
    [
        other_forms,
        damaged_numbers_are_refused,
        transformations_count,
        readings_depend_on_nothing_else,
        json_is_read_whole,
        command_convert,
    ],
    ids=name_of,
)
def test_converted(function: Callable[[], None], package: str, other: str, tmp_path: pathlib.Path) -> None:
    need(f"python3:{package}")
    if function is json_is_read_whole:
        need("projinfo")
    alone(function, tmp_path, other)


@pytest.mark.parametrize("function", [with_pandas, with_pyproj, with_rasterio, with_geopandas, with_osgeo], ids=name_of)
def test_beside(function: Callable[[], None], tmp_path: pathlib.Path) -> None:
    package = function.__name__.partition("_")[2]
    need(f"python3:{package}")
    alone(function, tmp_path, *{"pyproj": ["osgeo"], "osgeo": ["pyproj"]}.get(package, []))
