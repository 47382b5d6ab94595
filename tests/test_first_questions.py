"""The first questions of README, as a newcomer asks them: what its table says to type, over files as other tools write
them, which are a folder of .prj files, a GeoPackage in it, and two files that should be one CRS."""
from __future__ import annotations

import csv
import pathlib
import re
import shlex
from typing import Dict, List

import pytest
from support import EXAMPLES, ROOT, package, run, succeed

pytestmark = pytest.mark.needs("projinfo", "ogr2ogr", "python3:osgeo", "python3:jinja2", "python3:rich")
README = (ROOT / "README.md").read_text(encoding="utf-8")
EXPORTS = EXAMPLES / "exports"
# What is written of each CRS in two layouts.
CODES = (28992, 32631, 3857, 31467)


def typed(question: str) -> List[str]:
    """The command that README has for a question."""
    (row,) = [it for it in README.splitlines() if it.startswith(f"| {question}")]
    return shlex.split(re.findall(r"`([^`]*)`", row.split(" | ")[1])[0])


@pytest.fixture
def folder(tmp_path: pathlib.Path) -> pathlib.Path:
    made = tmp_path / "data"
    made.mkdir()
    for code in CODES:
        for tool in ("ESRI", "GDAL"):
            text = succeed(["projinfo", "-q", "--single-line", "-o", f"WKT1:{tool}", f"EPSG:{code}"])
            (made / f"{tool} {code}.prj").write_text(text, encoding="utf-8")
    damaged = (made / "ESRI 3857.prj").read_text(encoding="utf-8").replace("6378137.0", "6378137,0")
    (made / "damaged.prj").write_text(damaged, encoding="utf-8")
    succeed(["sh", EXAMPLES / "layers.sh", made / "layers.gpkg", "wkt1"])
    return made


def test_which_files_of_a_folder(folder: pathlib.Path, tmp_path: pathlib.Path) -> None:
    words = typed("Which files of a folder")
    assert words[0] == "crsdesk-py" and words[-3:] == ["--html", "report.html", "FOLDER"]
    page, table = tmp_path / "report.html", tmp_path / "report.csv"
    status, _, error = package(*words[1:-3], "--html", page, "--csv", table, folder, cwd=ROOT)
    assert status == 1, error
    groups: Dict[str, str] = {}
    with open(table, encoding="utf-8", newline="") as file:
        for row in csv.DictReader(file):
            name = pathlib.Path(row["file"]).name
            groups[row["layer"] or name] = row["definition"]
            assert name in page.read_text(encoding="utf-8")
    assert groups["damaged.prj"] == ""
    for code in CODES:
        assert groups[f"ESRI {code}.prj"] == groups[f"GDAL {code}.prj"] != ""
    assert groups["ESRI 28992.prj"] == groups["wells"]
    assert groups["ESRI 32631.prj"] == groups["roads"] == groups["tiles"] == groups["parcels"]
    assert len(set(groups.values()) - {""}) == len(CODES)


def test_which_of_these_files(folder: pathlib.Path) -> None:
    """Without rules texts of one tool are grouped; with them those of both."""
    files = [folder / f"{tool} {code}.prj" for code in CODES for tool in ("ESRI", "GDAL")]
    assert "`crsdesk-py group --convert FILES`" in README
    status, output, _ = package("group", "--convert", *files, folder / "damaged.prj")
    assert status == 1 and output.count("group ") == len(files)
    rules = ("--level", "definition", "--rules", ROOT / "rules" / "producers.rules")
    status, output, _ = package("group", "--convert", *rules, *files)
    assert status == 0 and output.count("group ") == len(CODES)


def test_two_files_that_should_be_one(program: pathlib.Path) -> None:
    pair = [EXPORTS / "utm31_projinfo_2019.wkt", EXPORTS / "utm31_shapefile.wkt"]
    asked = [program, *typed("Are two files the same CRS?")[1:-2], *pair]
    done = run(asked)
    assert done.returncode == 1 and done.stdout.startswith("different ")
    explained = run([program, *typed("Where do they differ?")[1:-2], *pair]).stdout
    assert "base/datum/kind: ENSEMBLE | DATUM\n" in explained
    # FAQ, to which the table leads, has the remedy for each.
    faq = (ROOT / "docs" / "FAQ.md").read_text(encoding="utf-8")
    assert "| `kind` of a datum, names, the last digits of a degree | `--rules rules/producers.rules` |" in faq
    rules = ["--level", "definition", "--rules", ROOT / "rules" / "producers.rules"]
    assert succeed([*asked[:-2], *rules, *pair]) == "same\n"
