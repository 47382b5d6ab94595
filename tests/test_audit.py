"""`python -m crsdesk audit`: audit_archive.py makes an archive whose groups, near misses and refusals are known; each form
of the report is held against them. Then come files that can't be read, signals, and what isn't installed."""
from __future__ import annotations

import collections
import contextlib
import csv
import functools
import html.parser
import importlib.util
import json
import os
import pathlib
import re
import shutil
import signal
import sqlite3
import stat
import subprocess
import sys
import tempfile
import time
import zipfile
from typing import Any, Dict, FrozenSet, Iterator, List, Optional, Tuple

import audit_archive
import big_catalogue
import pytest
from audit_archive import projected
from gdal_data import make_raster, make_vector, reference_of
from support import HEIGHT, NOBODY, NOTED, ROOT, need, package, run, terminal

pytest.importorskip("jinja2")
pytest.importorskip("rich")

import crsdesk
from crsdesk import Crs, Difference
from crsdesk.audit import collecting, judging, kinds, names, report

SCHEMA = ROOT / "docs" / "audit.schema.json"
Places = FrozenSet[Tuple[str, str, int]]
Partition = FrozenSet[FrozenSet[Places]]


audit = functools.partial(package, "audit")


def audited_data(*words: object, cwd: Optional[pathlib.Path] = None) -> Tuple[int, str, str, Any]:
    """The status of an audit, what it writes to output and error, and its data."""
    out = folder() / "data.json"
    out.unlink(missing_ok=True)
    status, output, error = audit("--json", out, *words, cwd=cwd)
    assert "Traceback" not in error, error
    return status, output, error, json.loads(out.read_text(encoding="utf-8"))


@functools.lru_cache(maxsize=None)
def folder() -> pathlib.Path:
    """A folder for all of this run."""
    made = tempfile.TemporaryDirectory()
    KEPT.append(made)
    return pathlib.Path(made.name)


KEPT: List[Any] = []


def written(name: str, texts: Dict[str, str]) -> pathlib.Path:
    """A folder with these files."""
    place = folder() / name
    for file, text in texts.items():
        (place / file).parent.mkdir(parents=True, exist_ok=True)
        (place / file).write_bytes(text.encode("utf-8"))
    return place


def reports(name: str) -> Tuple[Dict[str, pathlib.Path], List[object]]:
    """The files of a report's forms by their kinds, and the words that ask for them."""
    files = {kind: folder() / f"{name}.{kind}" for kind in ("html", "json", "csv")}
    return files, [word for kind, path in files.items() for word in (f"--{kind}", path)]


class Audited:
    """The archive, what is wanted of it, and what the command writes of it with a number of jobs."""

    def __init__(self) -> None:
        self.archive = folder() / "archive"
        self.archive.mkdir()
        self.wanted = audit_archive.make(self.archive)
        self.runs = {jobs: self.run(jobs) for jobs in (1, 4)}
        self.data = json.loads(self.runs[4]["json"])

    def run(self, jobs: int) -> Dict[str, str]:
        files, words = reports(f"report{jobs}")
        before = everything_below(self.archive)
        status, output, error = audit("--lines", "--jobs", jobs, *words, self.archive)
        assert (status, error) == (1, ""), (status, error[-2000:])
        assert everything_below(self.archive) == before, "an audit changes the archive"
        return {"terminal": output, **{kind: path.read_bytes().decode() for kind, path in files.items()}}


@functools.lru_cache(maxsize=None)
def audited() -> Audited:
    return Audited()


def everything_below(path: pathlib.Path) -> List[Tuple[str, int, float]]:
    return [(str(it), it.lstat().st_size, it.lstat().st_mtime) for it in sorted(path.rglob("*"))]


def place_of(place: List[Any]) -> Tuple[str, str, int]:
    """A place as JSON has it: its file, its layer and its line."""
    file, layer, line = place
    return file, layer, line


def wanted_partition() -> Partition:
    """The places of each CRS with everything, of each definition."""
    groups = audited().wanted["spelled"].values()
    return frozenset(frozenset(frozenset(map(place_of, places)) for places in crss.values()) for crss in groups)


def key_of(place: Dict[str, Any]) -> Tuple[str, str, int]:
    return place["file"], place.get("layer", ""), place.get("line", 0)


# The forms of the report.


def test_result_is_one_for_all_jobs() -> None:
    assert audited().runs[1] == audited().runs[4]


def test_data_has_the_groups() -> None:
    definitions = audited().data["definitions"]
    groups = [[frozenset(map(key_of, it["places"])) for it in group["variants"]] for group in definitions]
    assert frozenset(frozenset(it) for it in groups) == wanted_partition()
    assert [it["number"] for it in definitions] == list(range(1, len(definitions) + 1))
    texts = [it["texts"] for it in definitions]
    assert texts == sorted(texts, reverse=True) and texts == [sum(map(len, group)) for group in groups]
    for definition in definitions:
        assert Crs(definition["text"]).canonical() == definition["text"]
        for number, variant in enumerate(definition["variants"], 1):
            crs = Crs(variant["text"])
            assert variant["number"] == number and crs.canonical("definition") == definition["text"]
            first = Crs(definition["variants"][0]["text"])
            parts = [tuple(it.values()) for it in variant["parts"]]
            assert parts == [(it.path, it.first, it.second) for it in first.differences(crs)]
            assert crs.kind == definition["kind"]


def test_data_has_names_and_identifiers() -> None:
    by_name = {it["name"]: it for it in audited().data["definitions"]}
    zone = by_name["Survey zone 8"]
    assert zone["identifiers"] == ["SURVEY:1008"] and zone["kind"] == "projected"
    assert sorted(str(it["identifiers"]) for it in zone["variants"]) == ["['SURVEY:1008']", "['SURVEY:1008']", "[]"]
    assert by_name["H1"]["kind"] == "vertical" and by_name["H1"]["identifiers"] == []
    assert '<b onclick="alert(1)">&amp;</b><script>alert(2)</script>' in by_name


def wanted_near_misses() -> List[Tuple[str, str, FrozenSet[str], List[str]]]:
    return sorted((by, value, frozenset(both), parts) for by, value, both, parts in audited().wanted["near_misses"])


def numbers_of_definitions() -> Dict[str, int]:
    """The number in the report of each definition that is wanted."""
    numbers = {
        key_of(it): group["number"]
        for group in audited().data["definitions"]
        for v in group["variants"]
        for it in v["places"]
    }
    return {
        name: numbers[place_of(places[0])]
        for name, crss in audited().wanted["spelled"].items()
        for places in crss.values()
    }


def test_data_has_the_near_misses() -> None:
    data = audited().data
    names_of = {number: name for name, number in numbers_of_definitions().items()}
    found = []
    for miss in data["near_misses"]:
        assert len(miss["pairs"]) == 1
        (pair,) = miss["pairs"]
        paths = [it["path"] for it in pair["parts"]]
        found.append((miss["by"], miss["value"], frozenset((names_of[pair["first"]], names_of[pair["second"]])), paths))
        texts = [data["definitions"][pair[which] - 1] for which in ("first", "second")]
        assert texts[0]["texts"] >= texts[1]["texts"]
        first, second = (it["text"] for it in texts)
        wanted = kinds.with_whole_sets(Crs(first).differences(second, "definition"), first, second)
        parts = [(it["path"], it["first"], it["second"]) for it in pair["parts"]]
        assert parts == [(it.path, it.first, it.second) for it in kinds.rows_of(wanted)]
        assert {path.partition("/parameters")[0] for path, _, _ in parts} == {
            it.path.partition("/parameters")[0] for it in wanted
        }
    assert sorted(found) == wanted_near_misses()
    told = [(it["kind"], bool(it["pairs"][0]["identifiers"])) for it in data["near_misses"]]
    assert told == [("numbers", True), ("numbers", False), ("axes", False), ("names and digits", True)], told


def test_data_has_the_refusals() -> None:
    found = [[*key_of(it["place"]), it["number"], it["byte"]] for it in audited().data["refused"]]
    assert sorted(found) == sorted(audited().wanted["refused"])
    assert sorted(key_of(it["place"]) for it in audited().data["without"]) == sorted(
        map(tuple, audited().wanted["without"])
    )
    for refused in audited().data["refused"]:
        piece = refused["piece"].split("\n")
        assert len(piece) == 2 and piece[1].strip() == "^" and refused["meaning"].endswith(".")
        assert bool(refused["expected"]) == (11 <= refused["number"] <= 13)
        assert refused["meaning"] not in (refused["hint"] or "") and ": found " not in (refused["hint"] or "")
    hints = {it["number"]: it["hint"] for it in audited().data["refused"]}
    causes = {(it["number"], it["byte"]): it["cause"] for it in audited().data["refused"]}
    assert (causes[11, 0], causes[1, 4], causes[2, 0]) == ("WKT1", "code", "PROJ string")
    assert sum(it["texts"] for it in audited().data["summary"]["causes"]) == len(audited().data["refused"])
    assert "WKT1" in hints[11] and "PROJ string" in hints[2] and "code" in hints[1] and hints[23] is None


def test_data_has_the_summary() -> None:
    summary, wanted = audited().data["summary"], audited().wanted
    accepted = wanted["texts"] - len(wanted["refused"])
    crss = sum(map(len, wanted["spelled"].values()))
    several = [len(it) for it in wanted["spelled"].values() if len(it) > 1]
    assert summary["files"] == wanted["files"] and sum(summary["others"].values()) == wanted["others"]
    assert (summary["texts"], summary["accepted"]) == (wanted["texts"], accepted)
    assert (summary["crss"], summary["definitions"]) == (crss, len(wanted["spelled"]))
    assert (summary["alone"], summary["alone_definitions"]) == (sum(several), len(several))
    assert summary["copies"] == accepted - wanted["distinct_accepted"]
    assert summary["respellings"] == wanted["distinct_accepted"] - crss
    numbers = collections.Counter(it[3] for it in wanted["refused"])
    assert {it["number"]: it["texts"] for it in summary["refused_by_number"]} == numbers


def test_data_has_the_areas() -> None:
    areas = audited().data["areas"]
    zone = numbers_of_definitions()["zone 5"]
    (area,) = [it for it in areas if zone in it["definitions"]]
    places = [place for it in audited().wanted["spelled"]["zone 5"].values() for place in it]
    assert [area[it] for it in ("south", "west", "north", "east", "texts")] == [-35, -144, 5, -135, len(places)]


def test_data_fits_the_schema() -> None:
    need("python3:jsonschema")
    import jsonschema

    schema = json.loads(SCHEMA.read_text(encoding="utf-8"))
    jsonschema.Draft202012Validator.check_schema(schema)
    for data in (audited().data, odd_data()):
        errors = list(jsonschema.Draft202012Validator(schema).iter_errors(data))
        assert not errors, [(list(it.path), it.message[:300]) for it in errors[:3]]
    broken = json.loads(json.dumps(audited().data))
    del broken["refused"][0]["piece"]
    assert not jsonschema.Draft202012Validator(schema).is_valid(broken)


def test_table_has_a_row_a_text() -> None:
    rows = list(csv.DictReader(audited().runs[4]["csv"].splitlines()))
    assert len(rows) == audited().wanted["texts"]
    groups: Dict[str, Dict[str, set[Tuple[str, str, int]]]] = {}
    refused = []
    for row in rows:
        place = (row["file"], row["layer"], int(row["line"] or 0))
        if row["refusal"]:
            number, byte = re.fullmatch(r"(\d+) \w+ at (\d+)", row["refusal"]).groups()  # type: ignore[union-attr]
            refused.append([*place, int(number), int(byte)])
            assert row["definition"] == row["crs"] == row["kind"] == row["name"] == ""
        else:
            groups.setdefault(row["definition"], {}).setdefault(row["crs"], set()).add(place)
            assert row["crs"].startswith(row["definition"] + ".")
            definition = audited().data["definitions"][int(row["definition"]) - 1]
            assert (row["kind"], row["name"]) == (definition["kind"], definition["name"])
    assert (
        frozenset(frozenset(frozenset(places) for places in it.values()) for it in groups.values())
        == wanted_partition()
    )
    assert sorted(refused) == sorted(audited().wanted["refused"])


def test_terminal_has_the_summary_and_the_near_misses() -> None:
    output, wanted = audited().runs[4]["terminal"], audited().wanted
    head, *misses = output.split("\n\n")
    accepted = wanted["texts"] - len(wanted["refused"])
    assert f"texts        {wanted['texts']:,}: {accepted:,} accepted, {len(wanted['refused'])} refused\n" in head
    assert f", of which {len(wanted['spelled'])} differ in more than identifiers, usages and remarks\n" in head
    assert "near misses  4 (numbers 2, axes 1, names and digits 1)\n" in head
    # Each refusal is counted once, in plain words.
    causes = audited().data["summary"]["causes"]
    assert f"causes       {'; '.join('{name}: {texts}'.format(**it) for it in causes)}\n" in head + "\n", head
    assert "cut off, or a bracket is open" in head and "\nrefused" not in head
    numbers = {number: name for name, number in numbers_of_definitions().items()}
    found = []
    for miss in misses:
        first, *lines = miss.rstrip("\n").split("\n")
        match = re.fullmatch(r"2 CRSs of the (name|identifier) (.*): (numbers|axes|names and digits)", first)
        both = frozenset(numbers[int(it[1])] for it in map(re.compile(r"  (\d+)[ :]").match, lines) if it)
        assert match
        paths = [line.strip().partition(":")[0] for line in lines if line.startswith("    ")]
        found.append((match[1], match[2], both, sorted(paths)))
    assert sorted(found) == with_sorted_paths(wanted_near_misses())


def test_terminal_shows_all_likely_mistakes() -> None:
    """However many they are, and before those of names."""
    texts = {}
    for zone in range(1, 31):
        texts[f"{zone}.wkt"] = projected(zone, rest=f',ID["S",{zone}]')
        texts[f"{zone} odd.wkt"] = projected(zone, flattening="298.25")
        texts[f"{zone} old.wkt"] = projected(zone, f"old {zone}", rest=f',ID["S",{zone}]')
    status, output, _ = audit(written("likely", texts))
    heads = re.findall(r"^2 CRSs of the (?:name|identifier) (.*)$", output, re.MULTILINE)
    assert status == 0 and "near misses  60 (numbers 30, names and digits 30)\n" in output
    assert len(heads) == 30 and all(it.endswith(": numbers") for it in heads), heads
    assert output.endswith("30 more near misses: --html and --json have all\n")


def with_sorted_paths(misses: List[Tuple[str, str, FrozenSet[str], List[str]]]) -> List[Tuple[Any, ...]]:
    return [(by, value, both, sorted(paths)) for by, value, both, paths in misses]


class Element:
    """An element of a page."""

    def __init__(self, tag: str, attributes: Dict[str, Optional[str]]) -> None:
        self.tag, self.attributes = tag, attributes
        self.children: List[Element] = []
        self.pieces: List[Any] = []

    @property
    def text(self) -> str:
        return "".join(it if isinstance(it, str) else it.text for it in self.pieces)

    def all(self, tag: str, of_class: str = "") -> Iterator[Element]:
        """The elements below it, of a tag and a class."""
        for child in self.children:
            classes = (child.attributes.get("class") or "").split()
            if child.tag == tag and (not of_class or of_class in classes):
                yield child
            yield from child.all(tag, of_class)


class Page(html.parser.HTMLParser):
    """A page as elements; tags that don't fit each other are an error."""

    VOID = ("meta", "input")

    def __init__(self, text: str) -> None:
        super().__init__()
        self.open = [Element("", {})]
        self.feed(text)
        self.close()
        assert len(self.open) == 1, [it.tag for it in self.open]

    def handle_starttag(self, tag: str, attributes: List[Tuple[str, Optional[str]]]) -> None:
        element = Element(tag, dict(attributes))
        self.open[-1].children.append(element)
        self.open[-1].pieces.append(element)
        if tag not in self.VOID:
            self.open.append(element)

    def handle_startendtag(self, tag: str, attributes: List[Tuple[str, Optional[str]]]) -> None:
        self.handle_starttag(tag, attributes)
        self.handle_endtag(tag)

    def handle_endtag(self, tag: str) -> None:
        assert self.open.pop().tag == tag, (tag, self.getpos())

    def handle_data(self, data: str) -> None:
        self.open[-1].pieces.append(data)


def test_page_has_the_groups() -> None:
    page = Page(audited().runs[4]["html"]).open[0]
    groups = []
    for definition in audited().data["definitions"]:
        (found,) = [it for it in page.all("details", "item") if it.attributes["id"] == f"d{definition['number']}"]
        lists = [frozenset(it.text for it in places.all("li")) for places in found.all("ul")]
        lists += [frozenset((it.text,)) for it in found.all("p", "at")]
        groups.append(frozenset(lists))
        (summary,) = found.all("summary")
        assert definition["name"] in summary.text and all(it in summary.text for it in definition["identifiers"])
        texts = [it.text for it in found.all("pre")]
        assert texts == [definition["text"] if len(lists) > 1 else definition["variants"][0]["text"]]
        paths = [it.text for it in found.all("th") if it.attributes["scope"] == "row"]
        assert paths == [part["path"] for variant in definition["variants"] for part in variant["parts"]]
    wanted = [[frozenset(map(shown, places)) for places in group] for group in wanted_partition()]
    assert frozenset(groups) == frozenset(frozenset(it) for it in wanted)


def shown(place: Tuple[str, str, int]) -> str:
    return place[0] + (f":{place[2]}" if place[2] else "") + (f" ({place[1]})" if place[1] else "")


def test_page_has_the_near_misses_and_refusals() -> None:
    page = Page(audited().runs[4]["html"]).open[0]
    numbers = {number: name for name, number in numbers_of_definitions().items()}
    misses = []
    for miss in page.all("div", "item"):
        head = next(miss.all("h3"), None)
        if head is None:
            continue
        match = re.fullmatch(r"2 CRSs of the (name|identifier) “(.*)” (numbers|axes|names and digits)", head.text)
        both = frozenset(numbers[int(it.text.split(".")[0])] for it in miss.all("a"))
        paths = [it.text for it in miss.all("th") if it.attributes["scope"] == "row"]
        assert match
        misses.append((match[1], match[2], both, sorted(path.partition(f" {match[3]}")[0] for path in paths)))
    assert sorted(misses) == with_sorted_paths(wanted_near_misses())
    refused = []
    for group in page.all("details", "group"):
        for refusal in group.all("div", "item"):
            if next(refusal.all("h3"), None):
                continue  # a near miss
            (head,), (piece,) = refusal.all("p"), refusal.all("pre")
            number = int(re.search(r", column \d+: (\d+) ", head.text)[1])  # type: ignore[index]
            refused.append((number, head.text.rpartition(", line ")[0]))
            assert ("; expected: " in head.text) == (11 <= number <= 13), head.text
            assert piece.text.split("\n")[1].strip() == "^"
    wanted = [(number, shown((file, layer, line))) for file, layer, line, number, _ in audited().wanted["refused"]]
    assert sorted(refused) == sorted(wanted)


def test_page_is_whole_and_asks_for_nothing() -> None:
    text = audited().runs[4]["html"]
    page = Page(text).open[0]
    assert not re.search(r"(src|href)=\"(?!#)", text) and "@import" not in text and "url(" not in text
    assert len(list(page.all("script"))) == 1 and "&lt;script&gt;alert(2)&lt;/script&gt;" in text
    names_of_all = [it.attributes["id"] for it in page.all("details") if "id" in it.attributes]
    assert len(set(names_of_all)) == len(names_of_all)
    policy = next(it for it in page.all("meta") if it.attributes.get("http-equiv") == "Content-Security-Policy")
    assert (policy.attributes["content"] or "").startswith("default-src 'none'; ")


# Files that are odd.


@functools.lru_cache(maxsize=None)
def odd_folder() -> pathlib.Path:
    lines = f"{HEIGHT}\r\n\n{HEIGHT[:-1]},REMARK[\"{'r' * 2_000_000}\"]]\n{HEIGHT}"
    texts = {"empty.wkt": "", "blank.wkt": " \n", "lines.txt": lines, "other.xyz": ""}
    odd = written("odd", {**texts, **dict.fromkeys(("na\udcefme.wkt", "<img src=x onerror=alert(1)>\n.wkt"), HEIGHT)})
    with open(odd / "huge.wkt", "wb") as file:
        file.truncate(100_000_000)
    (odd / "broken.wkt").symlink_to("missing")
    (odd / "round.wkt").symlink_to("round.wkt")
    (odd / "again").symlink_to(".")
    (odd / "below").mkdir()
    (odd / "below" / "up").symlink_to("..")
    os.mkfifo(odd / "pipe.wkt")
    (odd / "no database.gpkg").write_bytes(b"SQLite format 3\0" + bytes(range(256)) * 20)
    (odd / "no.gpkg").write_bytes(b"no database, but long enough to be one" * 10)
    make_damaged_database(odd / "damaged.gpkg")
    make_endless_database(odd / "endless.sqlite")
    with zipfile.ZipFile(odd / "cut.zip", "w") as archive:
        archive.writestr("a.wkt", HEIGHT)
    whole = (odd / "cut.zip").read_bytes()
    (odd / "cut.zip").write_bytes(whole[:-30])
    (odd / "damaged.zip").write_bytes(whole.replace(b"VDATUM", b"XDATUM"))
    (odd / "damaged.tif").write_bytes(b"II*\0\x08\0\0\0\xff\xff" + b"\xff" * 500)
    (odd / "damaged.nc").write_bytes(b"CDF\x01" + b"\xff" * 500)
    return odd


def make_damaged_database(path: pathlib.Path) -> None:
    with contextlib.closing(sqlite3.connect(path)) as base:
        base.execute("CREATE TABLE gpkg_spatial_ref_sys (srs_id INTEGER PRIMARY KEY, definition TEXT)")
        base.execute("CREATE TABLE gpkg_contents (table_name TEXT PRIMARY KEY, data_type TEXT, srs_id INTEGER)")
        for number in range(1, 300):
            base.execute("INSERT INTO gpkg_spatial_ref_sys VALUES (?, ?)", (number, HEIGHT + " " * 500))
            base.execute("INSERT INTO gpkg_contents VALUES (?, '', ?)", (f"{number:04}", number))
        base.commit()
    content = bytearray(path.read_bytes())
    content[len(content) // 2 :] = b"\xa5" * (len(content) - len(content) // 2)
    path.write_bytes(content)


def make_logged_database(path: pathlib.Path) -> None:
    """A database whose layer is in its log alone, as a program that ended too soon leaves it."""
    path.parent.mkdir()
    with tempfile.TemporaryDirectory() as name, contextlib.closing(sqlite3.connect(f"{name}/a")) as base:
        base.execute("PRAGMA journal_mode = WAL")
        base.execute("CREATE TABLE spatial_ref_sys (srid INTEGER PRIMARY KEY, srtext TEXT)")
        base.execute("CREATE TABLE geometry_columns (f_table_name TEXT, srid INTEGER)")
        base.execute("INSERT INTO spatial_ref_sys VALUES (7, ?)", (HEIGHT,))
        base.execute("INSERT INTO geometry_columns VALUES ('roads', 7), ('lost', 8), ('none', NULL)")
        base.commit()
        for end in ("", "-wal"):
            path.with_name(path.name + end).write_bytes(pathlib.Path(f"{name}/a{end}").read_bytes())


def test_a_log_is_read_and_nothing_is_made() -> None:
    path = folder() / "logged" / "a.sqlite"
    make_logged_database(path)
    before = everything_below(path.parent)
    status, _, error, data = audited_data(path)
    assert status == 2 and error == f"crsdesk: {path} (lost): there is no entry 8 for the layer\n", error
    assert data["definitions"][0]["variants"][0]["places"] == [{"file": str(path), "layer": "roads"}]
    assert [(it["place"]["layer"], it["why"]) for it in data["without"]] == [("none", "the layer has no CRS")]
    assert everything_below(path.parent) == before


def test_what_gdal_reads() -> None:
    """Layers, subdatasets, archives and folders that are data sets; no file is made beside them."""
    need("python3:osgeo")
    from osgeo import gdal

    gdal.UseExceptions()
    place = folder() / "gdal"
    (place / "in").mkdir(parents=True)
    for name, driver in (("two.gml", "GML"), ("two.gdb", "OpenFileGDB"), ("two.gpkg", "GPKG"), ("two.kml", "KML")):
        make_vector(place / "in" / name, driver, reference_of(4326), "one", "other", has_points=True)
    for path in (place / "in").glob("*.xsd"):
        path.unlink()
    make_raster(place / "a.tif", "GTiff", reference_of(32631))
    make_raster(place / "in" / "none.TIF", "GTiff", None)
    with zipfile.ZipFile(place / "in" / "packed}.zip", "w") as archive:
        archive.write(place / "a.tif", "below/a.tif")
        archive.write(place / "in" / "two.gpkg", "two.gpkg")
    before = everything_below(place / "in")
    _, _, error, data = audited_data("in", cwd=place)
    assert everything_below(place / "in") == before, set(everything_below(place / "in")) ^ set(before)
    assert error == "", error
    places = {(it["file"], it.get("layer")) for d in data["definitions"] for v in d["variants"] for it in v["places"]}
    places |= {(it["place"]["file"], it["place"].get("layer")) for it in data["refused"]}
    wanted = {(f"in/two.{suffix}", layer) for suffix in ("gml", "gdb", "gpkg", "kml") for layer in ("one", "other")}
    wanted |= {("in/packed}.zip", name) for name in ("below/a.tif", "two.gpkg:one", "two.gpkg:other")}
    assert places == wanted, places ^ wanted
    assert [(it["place"]["file"], it["why"]) for it in data["without"]] == [("in/none.TIF", "no CRS")]


def make_endless_database(path: pathlib.Path) -> None:
    with contextlib.closing(sqlite3.connect(path)) as base:
        base.execute("CREATE TABLE spatial_ref_sys (srid INTEGER PRIMARY KEY, srtext TEXT)")
        base.execute(
            "CREATE VIEW geometry_columns AS WITH RECURSIVE n(i) AS (SELECT 1 UNION ALL SELECT i + 1 FROM n) "
            "SELECT i AS f_table_name, 1 AS srid FROM n"
        )
        base.commit()


@functools.lru_cache(maxsize=None)
def odd_run() -> Tuple[int, str, str, Dict[str, str]]:
    files, words = reports("odd")
    status, output, error = audit("--lines", *words, ".", "missing.prj", "missing.tif", cwd=odd_folder())
    return status, output, error, {kind: path.read_bytes().decode() for kind, path in files.items()}


def odd_data() -> Any:
    return json.loads(odd_run()[3]["json"])


def test_what_cant_be_read_is_told() -> None:
    status, output, error, _ = odd_run()
    assert status == 2 and "Traceback" not in error, error
    told = dict(line[len("crsdesk: ") :].split(": ", 1) for line in error.splitlines())
    wanted = {
        "./broken.wkt": "No such file or directory",
        "./round.wkt": "Too many levels of symbolic links",
        "./huge.wkt": "text too long (more than 1,048,576 bytes)",
        "./lines.txt:3": "text too long (more than 1,048,576 bytes)",
        "./pipe.wkt": "Not a regular file",
        "./no.gpkg": "SQLite: file is not a database",
        "./no database.gpkg": "SQLite: ",
        "./damaged.gpkg": "SQLite: database disk image is malformed",
        "./endless.sqlite": "SQLite: more than 100,000 layers",
        "./cut.zip": "zip: File is not a zip file",
        "./damaged.zip (a.wkt)": "zip: Bad CRC-32",
        "missing.prj": "No such file or directory",
        "missing.tif": "No such file or directory",
    }
    has_gdal = importlib.util.find_spec("osgeo") is not None
    if has_gdal:
        wanted |= {"./damaged.tif": "GDAL: ", "./damaged.nc": "GDAL: "}
    assert told.keys() == wanted.keys(), told.keys() ^ wanted.keys()
    for place, why in wanted.items():
        assert told[place].startswith(why), (place, told[place])
    data = odd_data()
    assert len(data["unread"]) == len(wanted) and data["summary"]["others"] == {".xyz": 1}
    assert [(it["place"]["file"], it["why"]) for it in data["passed"]] == [
        ("./again", "a folder that is listed already"),
        ("./below/up", "a folder that is listed already"),
    ], data["passed"]
    without = {(it["place"]["file"], it["place"].get("line"), it["why"]) for it in data["without"]}
    assert without == {("./empty.wkt", None, "empty"), ("./blank.wkt", None, "blank"), ("./lines.txt", 2, "empty")}


def test_what_may_not_be_read_is_told() -> None:
    """What another user has closed: a text, a database, a folder. Root may read all, so that nobody reads there."""
    place = written("closed", dict.fromkeys(("in/a.wkt", "in/b.wkt", "in/c.gpkg", "in/shut/d.wkt"), HEIGHT))
    (place / "out").mkdir()
    (place / "out").chmod(0o777)
    for name in ("b.wkt", "c.gpkg", "shut"):
        (place / "in" / name).chmod(0)
    package = pathlib.Path(crsdesk.__file__).resolve().parent
    shutil.copytree(package, place / "package" / "crsdesk")
    library = os.environ.get("CRSDESK_LIBRARY") or package / "libcrsdesk.so"
    shutil.copyfile(library, place / "package" / "crsdesk" / "libcrsdesk.so")
    environment = {"PATH": os.environ["PATH"], "PYTHONPATH": str(place / "package"), "PYTHONDONTWRITEBYTECODE": "1"}
    folder().chmod(0o755)

    def by_another(*words: str) -> "subprocess.CompletedProcess[str]":
        return run([sys.executable, *words], cwd=place, env=environment, **NOBODY)

    try:
        is_able = by_another("-c", "import crsdesk, jinja2, rich").returncode == 0
    except OSError:
        is_able = False
    if not is_able:
        pytest.skip("another user has no Python here")
    done = by_another("-m", "crsdesk", "audit", "--json", "out/a.json", "in")
    (place / "in" / "shut").chmod(0o700)
    closed = {f"crsdesk: in/{name}: Permission denied" for name in ("b.wkt", "c.gpkg", "shut")}
    assert (done.returncode, set(done.stderr.splitlines())) == (2, closed), done.stderr
    data = json.loads((place / "out" / "a.json").read_text())
    assert data["summary"]["accepted"] == 1 and len(data["unread"]) == 3, data


def test_the_rest_goes_on() -> None:
    """What comes before and after odd files and lines is read."""
    data = odd_data()
    places = [(it["file"], it.get("line")) for it in data["definitions"][0]["variants"][0]["places"]]
    assert ("./lines.txt", 1) in places and ("./lines.txt", 4) in places, places
    (odd_name,) = [it for it in data["definitions"][0]["variants"][0]["places"] if "file_bytes" in it]
    assert bytes.fromhex(odd_name["file_bytes"]) == b"./na\xefme.wkt" and odd_name["file"] == "./na\ufffdme.wkt"


def test_names_are_shown_as_text() -> None:
    _, _, _, files = odd_run()
    line_end = r"$'./<img src=x onerror=alert(1)>\n.wkt'"
    assert r"$'./na\xEFme.wkt'" in files["csv"] and line_end in files["csv"]
    assert "<img" not in files["html"] and r"$&#39;./na\xEFme.wkt&#39;" in files["html"]
    assert names.readable("a b.wkt") == "a b.wkt" and names.readable("a'\udcff") == r"$'a\'\xFF'"
    assert names.visible("a\u202eb\0") == "a\\u202Eb\\0"
    # What isn't seen, or looks like a space, is written by its code.
    unseen = {"a\u200bb": r"a\u200Bb", "a\ufeff": r"a\uFEFF", "\u00ad": r"\u00AD", "\U000e0041": r"\U000E0041"}
    for text, wanted in unseen.items():
        assert names.visible(text) == wanted and names.readable(text) == f"$'{wanted}'"
    assert names.visible("a\u00a0b") == names.distinct("a\u00a0b") == r"a\u00A0b"
    place = written("unseen", {"zone\u200b31.wkt": HEIGHT.replace('"H"', '"H\u200b"'), "zone31.wkt": HEIGHT})
    paths, words = reports("unseen")
    status, output, _ = audit(*words, place)
    assert status == 0 and r"\u200B" in output and "\u200b" not in output
    for kind in ("html", "csv"):
        text = paths[kind].read_text(encoding="utf-8")
        assert "\u200b" not in text and r"zone\u200B31.wkt" in text and r"H\u200B" in text, kind


class Alone:
    """What a report asks, answered in this process."""

    def compare(self, pairs: Any) -> List[List[Difference]]:
        return [judging.parts_of(it) for it in pairs]

    def register(self, asked: Any) -> List[Any]:
        return []


def test_a_file_vanishes() -> None:
    """Between the listing and the reading, and a folder between its listing and that of those in it."""
    path = written("vanishes", dict.fromkeys(("a.wkt", "b.wkt", "c.gpkg", "d.zip"), HEIGHT))
    listing = collecting.listing_of([str(path)], False, False)
    for name in ("b.wkt", "c.gpkg", "d.zip"):
        (path / name).unlink()
    told = [judging.told_of(file) for file in listing.files]
    made = report.report_of([str(path)], listing, told, Alone())
    assert made.summary.accepted == 1 and [it.why for it in made.unread] == 3 * ["No such file or directory"]


def test_a_process_ends_in_the_middle() -> None:
    """Each item that ends its process is lost, and no other."""
    items = [0, 0, signal.SIGKILL, 0, signal.SIGSEGV, signal.SIGSEGV, *(100 * [0]), signal.SIGABRT]
    with collecting.Workers(3) as workers:
        # raise_signal answers None of a signal that is none.
        answers = dict(workers.answers(signal.raise_signal, items, lambda how: how))
    wanted = {index: f"signal {signal.Signals(item).name}" if item else None for index, item in enumerate(items)}
    assert answers == wanted, {key: it for key, it in answers.items() if it != wanted[key]}


# The order of what is named.


def test_the_order_of_paths_changes_nothing() -> None:
    """Files and folders in any order, one of them twice, and one in another."""
    texts = {f"{folder}/{name}.wkt": HEIGHT.replace('"H"', f'"{folder} {name}"') for folder in "ab" for name in "xy"}
    place = written("reversed", {**texts, "b/in/z.wkt": NOTED, "c.wkt": HEIGHT, "d.wkt": "x"})
    words = ["c.wkt", "b", "d.wkt", "b/in", "a", "c.wkt"]
    found = [audited_data(*order, cwd=place) for order in (words, words[::-1])]
    for _, _, _, data in found:
        assert sorted(data.pop("paths")) == sorted(words) and len(data["definitions"]) == 5
    assert found[0] == found[1]


# Cells that programs would take for formulas.


def test_cells_are_no_formulas() -> None:
    begins = ["=1+2", "+1", "-1", "@SUM(A1)", "\t=1", "\r=1", "＝1", "'1"]
    texts = {f"{begin}.wkt": HEIGHT.replace('"H"', f'"{begin}"') for begin in begins}
    place = written("formulas", {**texts, "plain.wkt": HEIGHT})
    out = folder() / "formulas.csv"
    assert audit("--csv", out, *sorted(texts), "plain.wkt", cwd=place)[0] == 2, "options begin with -"
    assert audit("--csv", out, "--", *sorted(texts), "plain.wkt", cwd=place)[0] == 0
    rows = list(csv.reader(out.read_bytes().decode().splitlines()))[1:]
    assert len(rows) == len(begins) + 1
    for row in rows:
        assert not any(cell.startswith(tuple("=+-@\t\r＝")) for cell in row), row
    names = {row[7] for row in rows}
    assert names == {"'=1+2", "'+1", "'-1", "'@SUM(A1)", "\\t=1", "\\r=1", "'＝1", "''1", "H"}, names
    assert {row[0] for row in rows} >= {"'=1+2.wkt", "'-1.wkt", "$'\\t=1.wkt'", "plain.wkt"}


# Signals.


def processes_of(session: int) -> List[int]:
    found = []
    for path in pathlib.Path("/proc").glob("[0-9]*/stat"):
        with contextlib.suppress(OSError):
            words = path.read_text(errors="replace").rpartition(")")[2].split()
            if int(words[3]) == session and words[0] != "Z":
                found.append(int(path.parent.name))
    return found


def test_a_signal_leaves_nothing() -> None:
    many = folder() / "many"
    many.mkdir()
    for number in range(30_000):
        os.link(folder() / "height.wkt", many / f"{number}.wkt") if number else (folder() / "height.wkt").write_text(
            HEIGHT
        )
    for number in (signal.SIGINT, signal.SIGTERM, signal.SIGKILL):
        out, temporary = folder() / f"out{number}", folder() / f"temporary{number}"
        out.mkdir()
        temporary.mkdir()
        (out / "old.html").write_text("old")
        words = ["--html", out / "old.html", "--json", out / "new.json", "--jobs", "2", many]
        command = [sys.executable, "-m", "crsdesk", "audit", *map(str, words)]
        with subprocess.Popen(
            command,
            env={**os.environ, "TMPDIR": str(temporary)},
            stdout=subprocess.PIPE,
            stderr=subprocess.PIPE,
            start_new_session=True,
        ) as run:
            while not any(it.name.startswith(".crsdesk-") for it in out.iterdir()):
                time.sleep(0.01)
            while len(processes_of(run.pid)) < 4:
                time.sleep(0.01)
            time.sleep(0.1)
            assert run.poll() is None
            os.kill(run.pid, number) if number == signal.SIGKILL else os.killpg(run.pid, number)
            output, error = run.communicate(timeout=300)
        assert run.returncode == -number and b"Traceback" not in error and output == b"", (run.returncode, error)
        assert (out / "old.html").read_text() == "old" and not (out / "new.json").exists()
        if number != signal.SIGKILL:
            assert [it.name for it in out.iterdir()] == ["old.html"], list(out.iterdir())
            assert list(temporary.iterdir()) == [], list(temporary.iterdir())
        for _ in range(3000):
            if not processes_of(run.pid):
                break
            time.sleep(0.1)
        assert not processes_of(run.pid), "a process outlives the run"


# What is written, and where.


def test_a_bar_is_shown_on_a_terminal() -> None:
    ours, its_own = terminal()
    command = [sys.executable, "-m", "crsdesk", "audit", str(audited().archive)]
    environment = {**os.environ, "TERM": "xterm", "COLUMNS": "100"}
    with subprocess.Popen(command, env=environment, stdout=subprocess.PIPE, stderr=its_own) as run:
        os.close(its_own)
        output = b""
        with contextlib.suppress(OSError):
            while piece := os.read(ours, 4096):
                output += piece
        assert run.stdout
        standard = run.stdout.read()
    os.close(ours)
    assert (
        b"reading files" in output and f"/{audited().wanted['files'] - audit_archive.CATALOGUES}".encode() in output
    ), output[-2000:]
    assert standard.startswith(b"files ") and b"reading" not in standard


def test_files_are_written_whole() -> None:
    place = written("written", {"a.wkt": HEIGHT, "real.json": "old"})
    (place / "link.json").symlink_to("real.json")
    (place / "real.json").chmod(0o640)
    status, output, error = audit("--json", "link.json", "--csv", "new.csv", "a.wkt", cwd=place)
    assert (status, error) == (0, "") and (place / "link.json").is_symlink()
    assert json.loads((place / "real.json").read_text())["summary"]["texts"] == 1
    assert stat.S_IMODE((place / "real.json").stat().st_mode) == 0o640
    mask = os.umask(0)
    os.umask(mask)
    assert stat.S_IMODE((place / "new.csv").stat().st_mode) == 0o666 & ~mask
    status, output, error = audit("--html", "none/a.html", "--json", "other.json", "a.wkt", cwd=place)
    assert (status, output) == (2, "") and error == "crsdesk: none/a.html: No such file or directory\n", error
    for name in ("/dev/stdout", "-"):
        status, output, error = audit("--csv", name, "a.wkt", cwd=place)
        assert status == 0 and output.startswith("file,layer,line,") and error == ""
    # What is written to standard output is the report alone.
    status, output, error = audit("--html", "-", "a.wkt", cwd=place)
    assert (status, error) == (0, "") and output.startswith("<!DOCTYPE html>") and output.endswith("</html>"), output
    assert audit("--html", "-", "--json", "-", "a.wkt", cwd=place)[::2] == (
        2, "crsdesk: -: two of the reports are to be written to it\n"
    )  # fmt: skip
    assert audit("--csv", "/dev/full", "a.wkt", cwd=place)[::2] == (2, "crsdesk: /dev/full: No space left on device\n")
    assert audit("--csv", ".", "a.wkt", cwd=place)[::2] == (2, "crsdesk: .: Is a directory\n")
    assert sorted(it.name for it in place.iterdir()) == ["a.wkt", "link.json", "new.csv", "real.json"]


def test_outputs_that_are_inputs_are_refused() -> None:
    """By any name, and before anything is read or written; so are two reports in one file, but on a device."""
    place = written("clashes", {"in/a.wkt": HEIGHT, "in/b.wkt": HEIGHT})
    (place / "link").symlink_to("in/a.wkt")
    os.link(place / "in" / "b.wkt", place / "hard")
    before = everything_below(place)
    read = "it is to be written, and to be read (in/{}.wkt)"
    for words, wanted in (
        (("--json", "in/a.wkt", "in"), f"in/a.wkt: {read.format('a')}"),
        (("--csv", "./in/../in/a.wkt", "in/a.wkt"), f"./in/../in/a.wkt: {read.format('a')}"),
        (("--html", "link", "in"), f"link: {read.format('a')}"),
        (("--html", "hard", "in"), f"hard: {read.format('b')}"),
        (("--json", "x", "--html", "x", "in"), "x: two of the reports are to be written to it"),
        (("--json", "x", "--csv", "./x", "in"), "./x: two of the reports are to be written to it"),
    ):
        assert audit(*words, cwd=place) == (2, "", f"crsdesk: {wanted}\n"), words
        assert everything_below(place) == before
    assert audit("--json", "/dev/null", "--csv", "/dev/null", "in", cwd=place)[::2] == (0, "")
    # A report of an earlier run in the folder, of a suffix that isn't read, is none of its files.
    assert audit("--json", "in/a.json", "in", cwd=place)[0] == audit("--json", "in/a.json", "in", cwd=place)[0] == 0


def test_statuses() -> None:
    place = written("statuses", {"a.wkt": HEIGHT, "b.txt": "x[", "c.other": HEIGHT})
    assert audit(".", cwd=place)[::2] == (0, "")
    status, output, error = audit("--txt", ".", cwd=place)
    assert (status, error) == (1, "") and "causes       no text of a CRS: 1\n" in output
    assert audit("missing", cwd=place)[::2] == (2, "crsdesk: missing: No such file or directory\n")
    assert "texts        1: 1 accepted" in audit("c.other", cwd=place)[1]
    assert "files        1; 2 others aren't read (.other 1, .txt 1)\n" in audit(".", cwd=place)[1]
    assert audit(".", "--jobs", "0", cwd=place)[0] == 2 and audit(cwd=place)[0] == 2
    assert "texts        1:" in audit("a.wkt", "a.wkt", cwd=place)[1]
    # A text a line is what a .txt file has, or one of another suffix that is named itself.
    (place / "d.wkt").write_text(HEIGHT.replace(",", ",\n"))
    (place / "c.other").write_text(f"{HEIGHT}\n{HEIGHT}\n")
    (place / "b.txt").write_text(f"{HEIGHT}\n{HEIGHT}\n")
    assert "texts        6: 6 accepted" in audit("--lines", "a.wkt", "b.txt", "c.other", "d.wkt", cwd=place)[1]
    assert "texts        4: 4 accepted" in audit("--lines", ".", cwd=place)[1]
    assert "texts        2: 2 accepted" in audit(".", cwd=place)[1]


# What isn't installed.


def test_what_isnt_installed_is_told() -> None:
    absent = {"osgeo/__init__.py": "raise ImportError\n", "jinja2/__init__.py": "raise ImportError\n"}
    place = written("lacking", {**absent, "a.tif": "II*\0", "b.wkt": HEIGHT})
    program = (
        "import sys; sys.modules['jinja2'] = None; from crsdesk.__main__ import main; sys.exit(main(sys.argv[1:]))"
    )
    done = run([sys.executable, "-c", program, "audit", "x"])
    assert (done.returncode, done.stdout) == (2, "")
    assert done.stderr == "crsdesk: audit needs jinja2: pip install jinja2 (or crsdesk[audit])\n", done.stderr
    shutil.rmtree(place / "jinja2")
    with zipfile.ZipFile(place / "c.zip", "w") as archive:
        archive.writestr("a.wkt", HEIGHT)
        archive.writestr("b.shp", b"")
    path = f"{place}{os.pathsep}{os.environ.get('PYTHONPATH', '')}"
    status, output, error = audit("--json", place / "out.json", ".", cwd=place, PYTHONPATH=path)
    assert (status, error) == (0, "") and "skipped      osgeo isn't there: 2 files\n" in output, (output, error)
    skipped = json.loads((place / "out.json").read_text())["skipped"]
    assert [(it["place"], it["why"]) for it in skipped] == [
        ({"file": "./a.tif"}, "osgeo"),
        ({"file": "./c.zip", "layer": "b.shp"}, "osgeo"),
    ]


def test_importing_the_package_imports_nothing_of_it() -> None:
    program = "import sys, crsdesk; print([it for it in sys.modules if it.split('.')[0] in ('jinja2', 'rich', 'sqlite3', 'multiprocessing') or 'audit' in it])"
    done = run([sys.executable, "-c", program])
    assert done.stdout == "[]\n", done


# Many texts.


def test_many_texts_make_a_page_of_less_than_ten_megabytes() -> None:
    """13,000 texts of CRSs each with its own name; a twentieth of them refused, and all boxes and parts."""
    path = folder() / "thirteen.txt"
    parts = list(big_catalogue.texts())
    with open(path, "wb") as file:
        for number in range(13_000):
            front, rest = parts[number % len(parts)]
            file.write(b'%s %d"%s\n' % (front, number // 2, rest[:-1] if number % 20 == 0 else rest))
    out = folder() / "thirteen.html"
    status, output, error = audit("--lines", "--html", out, path)
    assert (status, error) == (1, "") and "texts        13,000: 12,350 accepted, 650 refused\n" in output, output
    assert out.stat().st_size < 10_000_000, out.stat().st_size
    page = Page(out.read_text(encoding="utf-8")).open[0]
    assert all("--json" in it.text for it in page.all("p", "more"))
