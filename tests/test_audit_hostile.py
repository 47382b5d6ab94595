"""`python -m crsdesk audit` on data sets that mean ill: what they name isn't fetched, and what they swell to isn't written."""
from __future__ import annotations

import contextlib
import http.server
import importlib.util
import json
import os
import pathlib
import random
import re
import shutil
import sqlite3
import sys
import threading
import urllib.request
import zipfile
from typing import Any, Dict, Iterator, List, Tuple

from gdal_data import make_raster, make_vector, reference_of
from support import HEIGHT, NOBODY, ROOT, need, run
from test_audit import audit, audited_data, folder

HAS_GDAL = importlib.util.find_spec("osgeo") is not None
POINT = {"type": "Feature", "properties": {}, "geometry": {"type": "Point", "coordinates": [1, 2]}}


# Nothing is fetched.


@contextlib.contextmanager
def server() -> Iterator[Tuple[str, List[str]]]:
    """The address of a server on this machine, and what it has been asked for."""
    asked: List[str] = []

    class Handler(http.server.BaseHTTPRequestHandler):
        def do_GET(self) -> None:
            asked.append(self.path)
            self.send_error(404)

        do_HEAD = do_GET

        def log_message(self, *_: object) -> None:
            pass

    with http.server.ThreadingHTTPServer(("127.0.0.1", 0), Handler) as it:
        threading.Thread(target=it.serve_forever, daemon=True).start()
        yield f"http://127.0.0.1:{it.server_port}", asked
        it.shutdown()


def make_geojson(path: pathlib.Path, crs: Dict[str, Any]) -> None:
    path.write_text(json.dumps({"type": "FeatureCollection", "crs": crs, "features": [POINT]}))


def make_linked_texts(place: pathlib.Path, address: str) -> None:
    """GeoJSON, GML and KML, with each kind of link that they have, and with each kind of address."""
    links = {
        "link": ("link", {"href": f"{address}/link"}),
        "of ogc": ("link", {"href": f"{address}/?http://opengis.net/def/crs/EPSG/0/4326"}),
        "url": ("url", {"url": f"{address}/url"}),
        "name": ("name", {"name": f"{address}/name"}),
        "curl": ("name", {"name": f"/vsicurl/{address}/curl"}),
        "none": ("name", {"name": f"/vsicurl/{address}/a.none"}),
        "urn": ("OGC", {"urn": f"{address}/urn"}),
    }
    for name, (kind, properties) in links.items():
        make_geojson(place / f"{name}.geojson", {"type": kind, "properties": properties})
    (place / "a.gml").write_text(
        '<o:FeatureCollection xmlns:o="http://ogr.maptools.org/" xmlns:gml="http://www.opengis.net/gml" '
        'xmlns:xlink="http://www.w3.org/1999/xlink" xmlns:xsi="http://www.w3.org/2001/XMLSchema-instance" '
        f'xsi:schemaLocation="http://ogr.maptools.org/ {address}/a.xsd">'
        f'<gml:boundedBy><gml:Envelope srsName="{address}/envelope"><gml:lowerCorner>1 2</gml:lowerCorner>'
        "<gml:upperCorner>1 2</gml:upperCorner></gml:Envelope></gml:boundedBy>"
        f'<gml:featureMember><o:one gml:id="one.0"><o:geometryProperty xlink:href="{address}/xlink">'
        f'<gml:Point srsName="{address}/point"><gml:pos>1 2</gml:pos></gml:Point></o:geometryProperty></o:one>'
        "</gml:featureMember></o:FeatureCollection>"
    )
    (place / "a.kml").write_text(
        '<?xml version="1.0"?><kml xmlns="http://www.opengis.net/kml/2.2"><Document><NetworkLink><name>n</name><Link>'
        f"<href>{address}/network.kml</href></Link></NetworkLink><Folder><name>f</name><Placemark><styleUrl>{address}/s#s"
        f'</styleUrl><ExtendedData><SchemaData schemaUrl="{address}/schema#x"/></ExtendedData><Point><coordinates>1,2'
        "</coordinates></Point></Placemark></Folder></Document></kml>"
    )


RASTERS = {"tif": "GTiff", "img": "HFA", "nc": "netCDF", "jp2": "JP2OpenJPEG", "asc": "AAIGrid", "grb": "GRIB",
           "bag": "BAG", "hdf": "HDF4Image"}  # fmt: skip
VECTORS = {"shp": "ESRI Shapefile", "fgb": "FlatGeobuf", "tab": "MapInfo File", "gpkg": "GPKG", "dxf": "DXF",
           "parquet": "Parquet"}  # fmt: skip


def make_linked_rasters(place: pathlib.Path, address: str) -> int:
    """A raster of each driver that writes one, with a file beside it that names an address as its CRS; how many."""
    from osgeo import gdal

    made = 0
    for suffix, name in RASTERS.items():
        driver = gdal.GetDriverByName(name)
        if driver is None or not (driver.GetMetadataItem("DCAP_CREATECOPY") or driver.GetMetadataItem("DCAP_CREATE")):
            continue
        raster = gdal.GetDriverByName("MEM").Create(
            "", 20, 20, 1, gdal.GDT_Float32 if suffix in ("bag", "grb", "asc") else gdal.GDT_Byte
        )
        raster.SetGeoTransform((0, 1, 0, 0, 0, -1))
        if suffix in ("bag", "grb"):
            raster.SetSpatialRef(reference_of(32631))
        driver.CreateCopy(str(place / f"raster.{suffix}"), raster)
        (place / f"raster.{suffix}.aux.xml").write_text(f"<PAMDataset><SRS>{address}/{suffix}</SRS></PAMDataset>")
        made += 1
    return made


def make_linked_vectors(place: pathlib.Path, address: str) -> None:
    """Data sets of layers whose text of the CRS is an address, where that can be written."""
    from osgeo import gdal, ogr

    for suffix, name in VECTORS.items():
        driver = gdal.GetDriverByName(name)
        if driver is None:
            continue
        path = place / f"vector.{suffix}"
        data_set = driver.Create(str(path), 0, 0, 0, gdal.GDT_Unknown)
        layer = data_set.CreateLayer("vector", None if suffix == "dxf" else reference_of(32631), ogr.wkbPoint)
        if suffix == "tab":
            layer.CreateField(ogr.FieldDefn("n", ogr.OFTInteger))
        data_set = layer = None
        if suffix == "gpkg":
            with contextlib.closing(sqlite3.connect(path)) as base:
                base.execute(
                    "UPDATE gpkg_spatial_ref_sys SET definition = ?, organization = 'NONE' WHERE srs_id = 32631",
                    (f"{address}/gpkg",),
                )
                base.commit()
        content = path.read_bytes()
        if suffix == "fgb" and (begin := content.find(b"PROJCS")) >= 0:
            link = f"{address}/fgb".encode()
            path.write_bytes(content[:begin] + link + b" " * 40 + content[begin + len(link) + 40 :])
    (place / "vector.prj").write_text(f"{address}/prj")


def test_nothing_is_fetched() -> None:
    """By the command, whose processes have no network where the system lets them leave it; and where they couldn't."""
    place = folder() / "links"
    place.mkdir()
    with server() as (address, asked):
        make_linked_texts(place, address)
        if HAS_GDAL:
            assert make_linked_rasters(place, address) >= 3
            make_linked_vectors(place, address)
        with zipfile.ZipFile(folder() / "links.zip", "w") as archive:
            for path in sorted(place.iterdir()):
                archive.write(path, f"in/{path.name}")
        (folder() / "links.zip").rename(place / "links.zip")
        files = sum(1 for _ in place.iterdir())
        status, output, error = audit("--jobs", "2", place, no_proxy="*", NO_PROXY="*")
        assert asked == [], asked
        assert status == 2 and "Traceback" not in error and "reading" not in error, error
        program = (
            "import sys; from crsdesk.audit import collecting, judging\n"
            "for file in collecting.listing_of(sys.argv[1:], False, False).files: judging.told_of(file); print(file.path)"
        )
        command = [sys.executable, "-c", program, str(place)]
        environment = {**os.environ, "no_proxy": "*", "NO_PROXY": "*", "PROJ_NETWORK": "ON"}
        done = run(command, env=environment)
        assert done.returncode == 0 and 10 < len(done.stdout.splitlines()) < files, done
        assert asked == [], asked
        # It is there to be asked.
        with contextlib.suppress(OSError):
            urllib.request.urlopen(f"{address}/it")
        assert asked == ["/it"], asked


def test_a_process_leaves_the_network() -> None:
    """Where the system lets it; and so that it stays the same user, who may read and write as before."""
    program = (
        "import os, socket, sys; from crsdesk.audit import offline\n"
        "before = os.getuid(), os.getgid(); left = offline.leave_network()\n"
        "assert before == (os.getuid(), os.getgid())\n"
        "open(sys.argv[1], 'w').close()\n"
        "code = socket.socket().connect_ex(('127.0.0.1', int(sys.argv[2]))); print(left, code == 0)"
    )
    with server() as (address, _):
        users: List[Dict[str, Any]] = [{}, NOBODY]
        for number, user in enumerate(users):
            place = folder() / f"leaves{number}"
            place.mkdir(mode=0o777)
            place.chmod(0o777)
            folder().chmod(0o755)
            command = [sys.executable, "-c", program, str(place / "a"), address.rpartition(":")[2]]
            done = run(command, **user)
            if user and ("ModuleNotFoundError" in done.stderr or "PermissionError" in done.stderr):
                continue  # another user has no Python here
            assert done.stdout in ("True False\n", "False True\n"), done
            assert (place / "a").exists()


# One report whatever the order.


def test_the_order_changes_nothing() -> None:
    """Data sets of several CRSs that share parts, by several drivers: each text is the one that its file has alone, in
    any order, and by 1, 2 and 4 processes."""
    need("python3:osgeo")
    place = folder() / "order"
    place.mkdir()
    paths = make_alike(place)
    reports = []
    # The rasters come last at first, and then first: they leave the most behind. Then any order.
    orders = [(paths, 1), (paths[::-1], 1)]
    for number, jobs in ((1, 1), (2, 2), (3, 4)):
        orders.append((random.Random(number).sample(paths, len(paths)), jobs))
    for order, jobs in orders:
        status, _, error, data = audited_data("--jobs", jobs, *order)
        assert status in (0, 1) and error == "", (status, error)
        variants = [variant for it in data["definitions"] for variant in it["variants"]]
        refused = {it["place"]["file"]: it["piece"] for it in data["refused"]}
        reports.append({**{place["file"]: it["text"] for it in variants for place in it["places"]}, **refused})
    assert len(reports[0]) > 30, len(reports[0])
    for report in reports[1:]:
        odd = sorted(os.path.basename(it) for it in paths if report.get(it) != reports[0].get(it))
        assert not odd, f"{len(odd)} of {len(paths)} texts differ: {odd[:5]}"


def make_alike(place: pathlib.Path) -> List[str]:
    """Layers, and then rasters, whose CRSs have parts in common."""
    from osgeo import gdal

    gdal.UseExceptions()
    layers, rasters = [], []
    for code in (4326, 4979, 32631, 3857, 28992, 4258, 25832, 3035):
        for suffix, name in (("gml", "GML"), ("geojson", "GeoJSON"), ("fgb", "FlatGeobuf")):
            layers.append(place / f"{code}.{suffix}")
            make_vector(layers[-1], name, reference_of(code), "one", has_points=True)
        for suffix, name in (("img", "HFA"), ("tif", "GTiff")):
            rasters.append(place / f"{code}.{suffix}")
            make_raster(rasters[-1], name, reference_of(code))
    return list(map(str, layers + rasters))


# Damage isn't repaired.


def test_damage_is_told() -> None:
    """Shapefiles whose .prj is damaged, and GeoJSON that names what isn't known: none is accepted, in a zip neither."""
    need("python3:osgeo")
    place = folder() / "damage"
    place.mkdir()
    wanted = make_damaged_shapefiles(place) | make_unknown(place)
    with zipfile.ZipFile(folder() / "damage.zip", "w") as archive:
        for path in sorted(place.iterdir()):
            archive.write(path, path.name)
    (folder() / "damage.zip").rename(place / "all.zip")
    status, _, _, data = audited_data(place)
    assert status == 2
    unread = {}
    for it in data["unread"]:
        file, layer = it["place"]["file"], it["place"]["layer"]
        unread[layer.partition(":")[0] if file.endswith(".zip") else os.path.basename(file)] = it["why"]
        assert it["why"].startswith("GDAL: "), it
    assert unread.keys() == wanted.keys(), unread.keys() ^ wanted.keys()
    for name, why in wanted.items():
        assert why in unread[name], (name, unread[name])
    assert len(data["unread"]) == 2 * len(wanted)
    accepted = {
        it.get("layer", it["file"]).partition(":")[0]
        for definition in data["definitions"]
        for variant in definition["variants"]
        for it in variant["places"]
    }
    assert accepted == {"sound", "sound.shp", "known", "known.geojson", "late", "late.geojson"}, accepted


def make_damaged_shapefiles(place: pathlib.Path) -> Dict[str, str]:
    """A sound shapefile, and copies with a damaged .prj; what is told of these."""
    make_vector(place / "sound.shp", "ESRI Shapefile", reference_of(28992))
    sound = (place / "sound.prj").read_text()
    damaged = {
        "comma": (sound.replace("6377397.155", "6377397,155"), "corrupt data"),
        "cut": (sound[:-60], "missing"),
        "open": (sound[:-1], "missing ]"),
        "closed": (sound + "]", "corrupt data"),
        "scale": (re.sub(r'PARAMETER\["Scale_Factor",[^]]*\],', "", sound), "unsupported CRS"),
        "round": (sound.replace("299.1528128", "0"), "another ellipsoid"),
    }
    for name, (text, _) in damaged.items():
        assert text != sound, name
        for suffix in ("shp", "shx", "dbf"):
            shutil.copyfile(place / f"sound.{suffix}", place / f"{name}.{suffix}")
        (place / f"{name}.prj").write_text(text)
    return {f"{name}.shp": why for name, (_, why) in damaged.items()}


def make_unknown(place: pathlib.Path) -> Dict[str, str]:
    unknown: Dict[str, Dict[str, Any]] = {
        "code": {"type": "name", "properties": {"name": "EPSG:99999"}},
        "urn": {"type": "name", "properties": {"name": "urn:ogc:def:crs:EPSG::99999"}},
        "words": {"type": "name", "properties": {"name": "the old one"}},
        "number": {"type": "name", "properties": {"name": 28992}},
        "old": {"type": "EPSG", "properties": {"code": 99999}},
        "ogc": {"type": "OGC", "properties": {"urn": "urn:ogc:def:crs:EPSG::99999"}},
        "kind": {"type": "other", "properties": {"name": "EPSG:28992"}},
        "nothing": {"type": "name"},
        "link": {"type": "link", "properties": {"href": "http://127.0.0.1:1/"}},
    }
    for name, crs in unknown.items():
        make_geojson(place / f"{name}.geojson", crs)
    # At the end of a long file too.
    features = ",".join(2000 * [json.dumps({**POINT, "properties": {"crs": "EPSG:99999", "of": 900 * "x"}})])
    end = '{{"type": "FeatureCollection", "features": [{}], "crs": {{"type": "name", "properties": {{"name": "EPSG:{}"}}}}}}'
    (place / "late.geojson").write_text(end.format(features, 28992))
    (place / "far.geojson").write_text(end.format(features, 99999))
    make_geojson(place / "known.geojson", {"type": "name", "properties": {"name": "urn:ogc:def:crs:OGC:1.3:CRS84"}})
    why = {"link": "its CRS is a link, which isn't followed"}
    return {f"{name}.geojson": why.get(name, "its CRS isn't known: ") for name in (*unknown, "far")}


def test_latin_1_is_refused_with_its_byte() -> None:
    """Of a .prj, and of what GDAL writes of the shapefile beside it."""
    need("python3:osgeo")
    place = folder() / "latin"
    place.mkdir()
    make_vector(place / "a.shp", "ESRI Shapefile", reference_of(28992))
    sound = (place / "a.prj").read_text()
    (place / "a.prj").write_bytes(sound.replace("RD_New", "RD_N\xe9w").encode("latin-1"))
    status, _, _, data = audited_data("--convert", place)
    found = {os.path.basename(it["place"]["file"]): it for it in data["refused"]}
    assert status == 1 and found.keys() == {"a.shp", "a.prj"}, data
    assert (found["a.shp"]["number"], found["a.shp"]["byte"]) == (4, len('PROJCRS["RD_N')), found
    assert found["a.prj"]["doubts"] == ["byte 0xe9 at 12 isn't UTF-8"], found


# The disk isn't filled.


MOST_WRITTEN = 30_000_000


def audit_writing_little(*words: object) -> Tuple[int, str, str, Any]:
    """The command where no file may get more than some bytes, which it has no right to need; and its data."""
    out = folder() / "little.json"
    program = (
        "import resource, sys; from crsdesk.__main__ import main\n"
        f"resource.setrlimit(resource.RLIMIT_FSIZE, ({MOST_WRITTEN}, {MOST_WRITTEN}))\n"
        "sys.exit(main(sys.argv[1:]))"
    )
    command = [sys.executable, "-c", program, "audit", "--jobs", "1", "--json", str(out), *map(str, words)]
    done = run(command)
    return done.returncode, done.stdout, done.stderr, json.loads(out.read_text()) if out.exists() else None


def make_geopackage(path: pathlib.Path, definition: str, layers: int) -> None:
    """A GeoPackage whose layers all have one entry."""
    with contextlib.closing(sqlite3.connect(path)) as base:
        base.execute("CREATE TABLE gpkg_spatial_ref_sys (srs_id INTEGER PRIMARY KEY, definition TEXT)")
        base.execute("CREATE TABLE gpkg_contents (table_name TEXT, data_type TEXT, srs_id INTEGER)")
        base.execute("INSERT INTO gpkg_spatial_ref_sys VALUES (7, ?)", (definition,))
        rows = ((f"layer {number:05}", "features", 7) for number in range(layers - 1, -1, -1))
        base.executemany("INSERT INTO gpkg_contents VALUES (?, ?, ?)", rows)
        base.commit()


def test_a_definition_is_fetched_once() -> None:
    """30,000 layers of one definition: one that is too long, and one that is read. Their order is by name."""
    layers = 30_000
    for length, wanted in ((3_000_000, "unread"), (1_000_000, "accepted")):
        path = folder() / f"{wanted}.gpkg"
        make_geopackage(path, f'{HEIGHT[:-1]},REMARK["{"r" * length}"]]', layers)
        assert path.stat().st_size < 5_000_000
        status, output, error, data = audit_writing_little(path)
        if wanted == "unread":
            found = [it["place"]["layer"] for it in data["unread"]]
            why = "text too long (more than 1,048,576 bytes)"
            assert status == 2 and {it["why"] for it in data["unread"]} == {why}, (status, error[-300:])
        else:
            assert (status, error) == (0, ""), (status, error[-300:])
            (variant,) = data["definitions"][0]["variants"]
            found = [it["layer"] for it in variant["places"]]
        assert found == [f"layer {number:05}" for number in range(layers)], (len(found), found[:3])


def test_what_a_view_sorts_isnt_written() -> None:
    """A view that sorts gigabytes, and one that takes forever to find nothing."""
    place = folder() / "views"
    place.mkdir()
    numbers = "WITH RECURSIVE n(i) AS (SELECT 1 UNION ALL SELECT i + 1 FROM n LIMIT {}) SELECT "
    views = {
        "sorts": numbers.format(100_000) + "i || hex(zeroblob(500000)) AS f_table_name, 1 AS srid FROM n ORDER BY 1",
        "waits": numbers.format(-1) + "i AS f_table_name, 1 AS srid FROM n WHERE i < 0",
    }
    for name, view in views.items():
        with contextlib.closing(sqlite3.connect(place / f"{name}.sqlite")) as base:
            base.execute("CREATE TABLE spatial_ref_sys (srid INTEGER PRIMARY KEY, srtext TEXT)")
            base.execute(f"CREATE VIEW geometry_columns AS {view}")
            base.commit()
    status, _, error, data = audit_writing_little(place)
    told = {pathlib.Path(it["place"]["file"]).stem: it["why"] for it in data["unread"]}
    assert (status, told) == (2, {"sorts": "out of memory", "waits": "SQLite: interrupted"}), (status, error)


# Links lead to what is named alone.


SECRET = "hunter2 is the password"


def make_links(place: pathlib.Path) -> None:
    """A folder with a text, and links to itself, to it, out of it, and into what a system tells of itself."""
    (place / "in" / "below").mkdir(parents=True)
    (place / "out" / "deep").mkdir(parents=True)
    (place / "secret.txt").write_text(SECRET)
    for name in ("in/a.wkt", "in/below/b.wkt", "out/c.wkt", "out/deep/d.wkt", "in/text.dat"):
        (place / name).write_text(HEIGHT)
    links = {
        "root": "/",
        "secret.prj": "../secret.txt",
        "secret.tif": "../secret.txt",
        "proc": "/proc/self",
        "up": "..",
        "other": "../out",
        "other.wkt": "../out/c.wkt",
        "no suffix": "../secret.txt",
        "twin.wkt": "below/b.wkt",
        "named.wkt": "text.dat",
        "again": "below",
        "itself": "itself",
        "itself.prj": "itself.prj",
        "to and fro": "fro and to",
        "fro and to": "to and fro",
    }
    for name, target in links.items():
        (place / "in" / name).symlink_to(target)


def told_unread(data: Any) -> Dict[str, str]:
    return {it["place"]["file"]: it["why"] for it in data["unread"]}


def accepted(data: Any) -> List[str]:
    """The files that spell CRSs."""
    places = (place for it in data["definitions"] for variant in it["variants"] for place in variant["places"])
    return sorted(place["file"] for place in places)


def test_links_lead_to_what_is_named_alone() -> None:
    place = folder() / "linked"
    make_links(place)
    page = place / "page.html"
    status, output, error, data = audited_data("--html", page, "in", cwd=place)
    out, loop = "a link that leads out of what was named (--follow follows it)", "Too many levels of symbolic links"
    wanted = dict.fromkeys(("in/root", "in/secret.prj", "in/secret.tif", "in/up", "in/other", "in/other.wkt"), out)
    wanted |= dict.fromkeys(("in/itself", "in/itself.prj", "in/to and fro", "in/fro and to"), loop)
    wanted["in/proc"] = "it lies in /proc, /sys or /dev"
    assert status == 2 and told_unread(data) == wanted, data["unread"]
    assert accepted(data) == ["in/a.wkt", "in/below/b.wkt", "in/named.wkt", "in/twin.wkt"]
    assert [(it["place"]["file"], it["why"]) for it in data["passed"]] == [
        ("in/again", "a folder that is listed already")
    ]
    assert data["summary"]["others"] == {"": 1, ".dat": 1}
    for text in (output, error, page.read_text(encoding="utf-8"), json.dumps(data)):
        assert "hunter2" not in text
    # A link that is named itself is the user's word, and so is a folder to which one leads.
    assert accepted(audited_data("in/other.wkt", cwd=place)[3]) == ["in/other.wkt"]
    assert accepted(audited_data("in/other", cwd=place)[3]) == ["in/other/c.wkt", "in/other/deep/d.wkt"]
    _, _, _, data = audited_data("out", "in", cwd=place)
    assert "in/other.wkt" in accepted(data) and "in/other" not in told_unread(data)
    for name in ("in/itself", "in/itself.prj"):
        assert audit(name, cwd=place)[::2] == (2, f"crsdesk: {name}: {loop}\n")


def test_links_are_followed_where_that_is_asked() -> None:
    place = folder() / "followed"
    make_links(place)
    for name in ("root", "up"):
        (place / "in" / name).unlink()
    (place / "out" / "back").symlink_to("../in")
    _, output, _, data = audited_data("--follow", "in", cwd=place)
    files = ["in/a.wkt", "in/below/b.wkt", "in/named.wkt", "in/other.wkt", "in/other/c.wkt", "in/other/deep/d.wkt"]
    assert (
        accepted(data) == [*files, "in/twin.wkt"] and told_unread(data)["in/proc"] == "it lies in /proc, /sys or /dev"
    )
    # What a link leads to isn't quoted all the same.
    assert [it["cause"] for it in data["refused"]] == ["no text of a CRS"] and "hunter2" not in json.dumps(
        data
    ) + output
    # The system's folders aren't gone into from above either.
    from crsdesk.audit import collecting

    walk = collecting.Walk(["/"], False, False, True)
    assert [walk.holds(it) for it in ("/", "/etc", "/proc", "/proc/1", "/sys", "/dev/shm/a", "/process")] == [
        True, True, False, False, False, False, True
    ]  # fmt: skip
    assert collecting.Walk(["/dev/shm/a"], False, False, False).holds("/dev/shm/a/b")


def test_a_data_set_leads_nowhere_else() -> None:
    """GDAL and SQLite would follow a link beside a data set, or in it."""
    need("python3:osgeo")
    place = folder() / "linked sets"
    (place / "in" / "c.gdb").mkdir(parents=True)
    (place / "secret.prj").write_text(f'PROJCS["{SECRET}"')
    make_vector(place / "in" / "a.shp", "ESRI Shapefile", reference_of(28992))
    make_vector(place / "in" / "b.shp", "ESRI Shapefile", reference_of(28992))
    (place / "in" / "a.prj").unlink()
    (place / "in" / "A.PRJ").symlink_to("../secret.prj")
    (place / "in" / "c.gdb" / "a00000001.gdbtable").symlink_to("../../secret.prj")
    with contextlib.closing(sqlite3.connect(place / "in" / "d.sqlite")) as base:
        base.execute("CREATE TABLE spatial_ref_sys (srid INTEGER PRIMARY KEY, srtext TEXT)")
    (place / "in" / "d.sqlite-wal").symlink_to("../secret.prj")
    for words in (("in",), ("in/a.shp", "in/b.shp", "in/c.gdb", "in/d.sqlite")):
        status, _, _, data = audited_data(*words, cwd=place)
        told = told_unread(data)
        out = "is a link that leads out of what was named (--follow follows it)"
        assert (
            status == 2
            and told["in/a.shp"] == f"its A.PRJ {out}"
            and told["in/c.gdb"] == f"its a00000001.gdbtable {out}"
        )
        assert told["in/d.sqlite"] == "SQLite: its log is a link, which isn't followed"
        assert accepted(data) == ["in/b.shp"] and "hunter2" not in json.dumps(data)


# A text that isn't one of a CRS isn't quoted.


def test_what_is_no_text_of_a_crs_isnt_quoted() -> None:
    esri = (ROOT / "examples" / "exports" / "wgs84_esri.prj").read_text()
    texts = {
        "words.wkt": (SECRET.encode(), "no text of a CRS"),
        "pair.wkt": (b"admin:hunter2", "no text of a CRS"),
        "id.wkt": (b"ID = hunter2", "no text of a CRS"),
        "html.prj": (b"\n<!doctype HTML><p>hunter2", "HTML"),
        "xml.prj": (b"\xef\xbb\xbf<?xml version='1.0'?><a>hunter2</a>", "XML"),
        "json.wkt": (b'{"type": "service_account", "key": "hunter2"}', "JSON"),
        "utf16.prj": (esri.replace("WGS", "hunter2").encode("utf-16"), "UTF-16"),
        "utf16le.prj": (esri.replace("WGS", "hunter2").encode("utf-16-le"), "UTF-16"),
        "binary.prj": (b"\x7fELF\x02\0hunter2" + b"a" * 100, "binary data"),
    }
    quoted = {
        "cut.prj": (esri[:40], "GEOGCS"),
        "code.wkt": ("EPSG:4326", "EPSG:4326"),
        "string.wkt": ("+proj=utm +zone=31", "+proj=utm"),
        "json2.wkt": ('{"$schema": "https://proj.org/schemas/v0.5/projjson.schema.json", "type": ', "$schema"),
        "lower.wkt": ('geogcrs ["x"', "geogcrs"),
        "datum.wkt": ('DATUM["D"]', "DATUM"),
        "latin.prj": ('PROJCS["Syst\xe8me"', "PROJCS"),
    }
    place = folder() / "unquoted"
    place.mkdir()
    for name, (content, _) in texts.items():
        (place / name).write_bytes(content)
    for name, (text, _) in quoted.items():
        (place / name).write_bytes(text.encode("latin-1"))
    page = folder() / "unquoted.html"
    options = ("--convert",) if any(importlib.util.find_spec(it) for it in ("osgeo", "pyproj")) else ()
    for words in ((), options):
        status, output, error, data = audited_data(*words, "--html", page, ".", cwd=place)
        refused = {os.path.basename(it["place"]["file"]): it for it in data["refused"]}
        text = page.read_text(encoding="utf-8")
        for name, (content, cause) in texts.items():
            its = refused[name]
            assert (its["cause"], its["length"], its["piece"], its["hint"]) == (cause, len(content), None, None), its
            assert its["doubts"] == [] and f"Not quoted: {cause}, {len(content):,} bytes" in text, its
        assert all("hunter2" not in it for it in (text, output, error, json.dumps(data)))
        for name, (_, piece) in quoted.items():
            assert name not in refused or piece in refused[name]["piece"], refused[name]
    assert {"cut.prj", "latin.prj", "lower.wkt"} <= refused.keys()


def test_what_a_data_set_has_instead_is_named() -> None:
    """In the line of the data set: a .prj in UTF-16 or HTML, entities of XML, and members with a password."""
    need("python3:osgeo")
    place = folder() / "instead"
    place.mkdir()
    make_vector(place / "sound.shp", "ESRI Shapefile", reference_of(28992))
    text = (place / "sound.prj").read_text()
    beside = {"utf16": text.encode("utf-16"), "html": b"<html>hunter2</html>", "words": b"hunter2\n"}
    for name, content in beside.items():
        for suffix in ("shp", "shx", "dbf"):
            shutil.copyfile(place / f"sound.{suffix}", place / f"{name}.{suffix}")
        (place / f"{name}.prj").write_bytes(content)
    entity = '<?xml version="1.0"{}?><!DOCTYPE a [<!ENTITY b SYSTEM "file:///etc/hostname">]>'
    make_linked_texts(place, "http://127.0.0.1:1")
    for path in (*place.glob("*.geojson"), place / "a.kml"):
        path.unlink()
    gml = (place / "a.gml").read_text().replace("http://127.0.0.1:1/point", "&b;")
    (place / "a.gml").write_text(entity.format("") + gml)
    (place / "b.gml").write_bytes((entity.format(' encoding="UTF-16"') + gml).encode("utf-16"))
    _, output, error, data = audited_data(place)
    told = {os.path.basename(it["place"]["file"]): it["why"] for it in data["unread"]}
    assert told == {
        "utf16.shp": f"its .prj isn't read: UTF-16, {len(beside['utf16']):,} bytes",
        "html.shp": "its .prj isn't read: HTML, 20 bytes",
        "words.shp": "its .prj isn't read: no text of a CRS, 8 bytes",
        **dict.fromkeys(("a.gml", "b.gml"), "its XML has entities (<!ENTITY ..>), which aren't resolved"),
    }
    assert "hunter2" not in output + error + json.dumps(data)


def test_members_with_a_password_are_told() -> None:
    """By the flag of each, as Python writes no such member; and data sets beside which there is one."""
    path = folder() / "closed.zip"
    with zipfile.ZipFile(path, "w") as archive:
        for name in ("a.wkt", "b.shp", "c.shp", "c.prj", "d.wkt"):
            archive.writestr(name, HEIGHT)
    content = bytearray(path.read_bytes())
    for member in (b"a.wkt", b"b.shp", b"c.prj"):
        content[content.index(member) - 24] |= 1
        content[content.rindex(member) - 38] |= 1
    path.write_bytes(content)
    status, _, error, data = audited_data(path)
    told = {it["place"]["layer"]: it["why"] for it in data["unread"]}
    closed = dict.fromkeys(("a.wkt", "b.shp", "c.prj"), "zip: encrypted")
    assert status == 2 and told == {**closed, "c.shp": "zip: its c.prj is encrypted"}, told
    assert [it["layer"] for it in data["definitions"][0]["variants"][0]["places"]] == ["d.wkt"]
