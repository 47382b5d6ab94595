#!/usr/bin/env python3
"""Fills the column definition_12_063 of a GeoPackage with WKT2, in the layout of 2015, by PROJ's program projinfo.

    fill_wkt2.py FILE.gpkg

The column belongs to the GeoPackage extension for WKT2 (gpkg_crs_wkt), and is made if the file lacks it. An entry that
has WKT2 keeps it. For any other PROJ rewrites the WKT1 of the column definition; if that is undefined, PROJ looks up
the entry's organization and code. PROJ repairs a damaged text and warns about it: such an entry stays undefined, and so
does one that PROJ can't read. A line is printed for each entry: its srs_id, and definition, the code, or undefined;
PROJ's message on one that stays undefined goes to standard error.

The status is 0 if only entries with neither definition nor code stay undefined, else 1; 2 for a fault, with a line on
standard error and the file unchanged.
"""
import os
import sqlite3
import subprocess
import sys
import urllib.parse
from typing import List, Optional, Tuple

UNDEFINED = "undefined"
EXTENSION = (
    "gpkg_spatial_ref_sys",
    "definition_12_063",
    "gpkg_crs_wkt",
    "http://www.geopackage.org/spec120/#extension_crs_wkt",
    "read-write",
)
TABLE_OF_EXTENSIONS = """
    CREATE TABLE IF NOT EXISTS gpkg_extensions (table_name TEXT, column_name TEXT, extension_name TEXT NOT NULL,
        definition TEXT NOT NULL, scope TEXT NOT NULL, UNIQUE (table_name, column_name, extension_name))
"""


def asked(text: str) -> Tuple[Optional[str], str]:
    """PROJ's WKT2 of a text or code, and its warnings; None if it can't read it, or repaired it."""
    words = ["projinfo", "--single-line", "-o", "WKT2:2015", text]
    done = subprocess.run(words, stdout=subprocess.PIPE, stderr=subprocess.PIPE, check=False)
    lines, warnings = done.stdout.decode().split("\n"), done.stderr.decode().strip()
    if done.returncode != 0 or warnings or "WKT2:2015 string:" not in lines:
        return None, warnings
    return "\n".join(lines[lines.index("WKT2:2015 string:") + 1 :]).strip(), ""


def make_column(file: sqlite3.Connection) -> None:
    columns = [row[1] for row in file.execute("PRAGMA table_info(gpkg_spatial_ref_sys)")]
    if not columns:
        raise sqlite3.DatabaseError("no table gpkg_spatial_ref_sys: this is no GeoPackage")
    if "definition_12_063" in columns:
        return
    file.execute(f"ALTER TABLE gpkg_spatial_ref_sys ADD COLUMN definition_12_063 TEXT NOT NULL DEFAULT '{UNDEFINED}'")
    file.execute(TABLE_OF_EXTENSIONS)
    file.execute("INSERT INTO gpkg_extensions VALUES (?, ?, ?, ?, ?)", EXTENSION)


def fill(file: sqlite3.Connection) -> bool:
    """Whether each entry that has a definition or a code has WKT2 then."""
    is_full = True
    rows = file.execute(
        "SELECT srs_id, definition, organization, organization_coordsys_id FROM gpkg_spatial_ref_sys "
        "WHERE definition_12_063 = ? ORDER BY srs_id",
        (UNDEFINED,),
    ).fetchall()
    for srs_id, definition, organization, code in rows:
        if "[" in definition:
            source, (wkt2, warnings) = "definition", asked(definition)
        elif organization.upper() != "NONE":
            source, (wkt2, warnings) = f"{organization}:{code}", asked(f"{organization}:{code}")
        else:
            print(f"{srs_id}: {UNDEFINED}")
            continue
        if wkt2 is None:
            is_full = False
            print(f"{srs_id}: {UNDEFINED}")
            print(f"{srs_id}: {warnings}", file=sys.stderr)
            continue
        print(f"{srs_id}: {source}")
        file.execute("UPDATE gpkg_spatial_ref_sys SET definition_12_063 = ? WHERE srs_id = ?", (wkt2, srs_id))
    return is_full


def main(words: List[str]) -> int:
    if len(words) != 1 or words[0].startswith("-"):
        print(__doc__, file=sys.stderr)
        return 2
    try:
        place = urllib.parse.quote(os.path.abspath(words[0]))
        file = sqlite3.connect(f"file:{place}?mode=rw", uri=True, isolation_level=None)
        file.execute("BEGIN IMMEDIATE")
        make_column(file)
        is_full = fill(file)
        file.execute("COMMIT")
    except (sqlite3.Error, OSError, UnicodeError) as error:
        print(f"fill_wkt2.py: {words[0]}: {error}", file=sys.stderr)
        return 2
    return 0 if is_full else 1


if __name__ == "__main__":
    sys.exit(main(sys.argv[1:]))
