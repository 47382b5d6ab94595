#!/usr/bin/env python3
"""Writes a rules file with the other names of datums, ellipsoids and prime meridians that your PROJ database has.

    make_rules.py [--database FILE] [--beside FILE].. [--only REGISTRY].. [--join] > aliases.rules
    make_rules.py [--database FILE] --omitted-units > omitted-units.rules

The database is proj.db of PROJ (pyproj.datadir.get_data_dir() says where; by default it is looked for in PROJ_DATA,
/usr/share/proj and /usr/local/share/proj). Its names of geodetic and vertical datums, of ellipsoids and of prime meridians
come first, each without a trailing ' ensemble', and then their aliases in its table alias_name, and the name as PROJ writes
it in WKT1, with underscores. With --only the aliases of the registry ESRI (or EPSG, PROJ) alone are taken.

So that nothing chains, an alias of two names is left out, and an alias that is a name itself. With --join such a name and
its aliases go to the one name whose alias it is: then two datums of the registries count as one, such as Esri's
D_Costa_Rica_2005 and EPSG's "Costa Rica 2005", as PROJ takes them where it reads WKT1. Left out too is what stands in the files
given by --beside, since no name may stand in two sets; they are rules/producers.rules where none is given. How many sets
there are, and how many aliases were left out, goes to standard error. The file says of two datums that they are one where
the database says that they have one name: look at it before you rely on it.

With --omitted-units the file says instead of which kind the parameters of all conversions are, so that a text may leave out
their units: that of the units in the database's conversions, the more frequent one where there are two. The status is 0, or
2 with a line on standard error.
"""
from __future__ import annotations

import argparse
import os
import pathlib
import re
import sqlite3
import sys
import urllib.parse
from collections import Counter, defaultdict
from typing import Dict, List, Set

ROOT = pathlib.Path(__file__).resolve().parent.parent
PLACES = ("/usr/share/proj", "/usr/local/share/proj")
# The table of a kind of node, by the node's keyword.
TABLES = {
    "DATUM": "geodetic_datum",
    "VDATUM": "vertical_datum",
    "ELLIPSOID": "ellipsoid",
    "PRIMEM": "prime_meridian",
}
# What --omitted-units writes before the kinds of parameters.
OMITTED = """\
# The units that a simplified text leaves out (PROJ's WKT2:2019_SIMPLIFIED, and many written by hand), by tools/make_rules.py
# from the EPSG registry in PROJ's database. A parameter without a unit gets, as an angle, that of the base CRS; as a length,
# that of the axes; as a scale, unity. A unit that is written stays. Use it at level definition, without identifiers.
# The longitude of a prime meridian is in the unit of the base CRS, or of the axes.
KIND[ANGLEUNIT,PRIMEM]
# Then a base's unit says nothing more.
UNCOUNTED[baseUnit]"""
# And after them: parameters of Esri's and PROJ's methods, which the registry hasn't.
OTHERS = """\
# Parameters of methods of Esri and PROJ, in the texts that PROJ writes of Esri's registry.
KIND[ANGLEUNIT,PARAMETER["Azimuth"],PARAMETER["Central_Meridian"],PARAMETER["Latitude of 1st point"],PARAMETER["Latitude of 2nd point"],PARAMETER["Latitude_Of_Center"],PARAMETER["Latitude_Of_Origin"],PARAMETER["Longitude of 1st point"],PARAMETER["Longitude of 2nd point"],PARAMETER["Longitude_Of_Center"],PARAMETER["XY_Plane_Rotation"]]
KIND[LENGTHUNIT,PARAMETER["False_Easting"],PARAMETER["False_Northing"],PARAMETER["Satellite Height"]]
KIND[SCALEUNIT,PARAMETER["Scale_Factor"]]"""
NODE = re.compile(r'\b([A-Z]+)\["((?:[^"]|"")*)"')


def database_path() -> str:
    """Where the database is looked for; the first place if it is in none."""
    folders = [*os.environ.get("PROJ_DATA", os.environ.get("PROJ_LIB", "")).split(os.pathsep), *PLACES]
    paths = [f"{it}/proj.db" for it in folders if it]
    return next((it for it in paths if os.path.exists(it)), paths[0])


def beside(paths: List[str]) -> Dict[str, Set[str]]:
    """The names that stand in rules files, by their nodes' keywords."""
    found: Dict[str, Set[str]] = defaultdict(set)
    for path in paths:
        for line in pathlib.Path(path).read_text(encoding="utf-8").split("\n"):
            if not line.lstrip().startswith("#"):
                for keyword, name in NODE.findall(line):
                    found[keyword].add(name.replace('""', '"'))
    return found


def as_in_wkt1(name: str) -> str:
    """A name as PROJ and GDAL write it in WKT1: what is no letter, digit or sign becomes one underscore."""
    return re.sub(r"[^A-Za-z0-9+-]+", "_", name).strip("_")


def frame_name(name: str) -> str:
    """The name that an ensemble has where ensembles don't count."""
    return name[: -len(" ensemble")] if name.endswith(" ensemble") else name


def sets_of(database: sqlite3.Connection, table: str, only: List[str]) -> Dict[str, Set[str]]:
    """The aliases of each name of a table."""
    found: Dict[str, Set[str]] = defaultdict(set)
    asked = f"SELECT auth_name, code, name FROM {table}"
    names = {(registry, str(code)): frame_name(name) for registry, code, name in database.execute(asked)}
    for first in names.values():
        found[first].add(as_in_wkt1(first))
    asked = "SELECT auth_name, code, alt_name, source FROM alias_name WHERE table_name = ?"
    for registry, code, alias, source in database.execute(asked, (table,)):
        name = names.get((registry, str(code)))
        if name is not None and (not only or source in only):
            found[name].add(frame_name(alias))
    return found


def add_heights(found: Dict[str, Set[str]], frames: Dict[str, Set[str]]) -> None:
    """Adds to vertical datums that are named as a geodetic one's alias, for heights above its ellipsoid, that one's name,
    by which PROJ reads them."""
    of_alias: Dict[str, Set[str]] = defaultdict(set)
    for name, aliases in frames.items():
        for alias in aliases - {name}:
            of_alias[alias].add(name)
    for name, names in found.items():
        if len(of_alias[name]) == 1:
            names |= of_alias[name]


def join(found: Dict[str, Set[str]]) -> int:
    """Puts each name that is an alias of one other name, which is an alias of none, into that one's set; how many."""
    heads: Dict[str, Set[str]] = defaultdict(set)
    for name, aliases in found.items():
        for alias in (aliases & found.keys()) - {name}:
            heads[alias].add(name)
    joined = [alias for alias, names in heads.items() if len(names) == 1 and not names & heads.keys()]
    for alias in joined:
        (head,) = heads[alias]
        found[head] |= found.pop(alias)
    return len(joined)


def statement(keyword: str, names: List[str], begin: str = "SAME[") -> str:
    nodes = (f'{keyword}["{name.replace(chr(34), chr(34) * 2)}"]' for name in names)
    return f"{begin}{','.join(nodes)}]"


def kinds_of(database: sqlite3.Connection) -> Dict[str, List[str]]:
    """The names of parameters of conversions, by the kind of their units."""
    counts: Dict[str, Counter[str]] = defaultdict(Counter)
    for number in range(1, 8):
        asked = f"""SELECT p.name, u.type FROM conversion_table
            JOIN conversion_param p ON p.auth_name = param{number}_auth_name AND p.code = param{number}_code
            JOIN unit_of_measure u ON u.auth_name = param{number}_uom_auth_name AND u.code = param{number}_uom_code"""
        for name, kind in database.execute(asked):
            counts[name][kind] += 1
    found: Dict[str, List[str]] = defaultdict(list)
    for name, kinds in sorted(counts.items()):
        found[kinds.most_common(1)[0][0]].append(name)
    return found


def write_omitted_units(database: sqlite3.Connection) -> None:
    ((version,),) = database.execute("SELECT value FROM metadata WHERE key = 'EPSG.VERSION'")
    print(f"# EPSG {version}\n{OMITTED}")
    for kind, names in sorted(kinds_of(database).items()):
        print(statement("PARAMETER", names, f"KIND[{kind.upper()}UNIT,"))
    print(OTHERS)


def main(words: List[str]) -> int:
    parser = argparse.ArgumentParser(
        usage="make_rules.py [--database FILE] [--beside FILE].. [--only REGISTRY].. [--join] | --omitted-units"
    )
    parser.add_argument("--database", default=database_path())
    parser.add_argument("--beside", action="append")
    parser.add_argument("--only", action="append", default=[])
    parser.add_argument("--join", action="store_true")
    parser.add_argument("--omitted-units", action="store_true")
    asked = parser.parse_args(words)
    try:
        taken = beside(asked.beside if asked.beside is not None else [str(ROOT / "rules" / "producers.rules")])
        address = f"file:{urllib.parse.quote(os.path.abspath(asked.database))}?mode=ro"
        database = sqlite3.connect(address, uri=True)
        if asked.omitted_units:
            write_omitted_units(database)
            return 0
        print(f"# Other names of datums, ellipsoids and prime meridians, by tools/make_rules.py from {asked.database}")
        for key, value in database.execute("SELECT key, value FROM metadata WHERE key LIKE '%.VERSION' ORDER BY key"):
            print(f"# {key} {value}")
        for keyword, table in TABLES.items():
            found = sets_of(database, table, asked.only)
            if keyword == "VDATUM":
                add_heights(found, sets_of(database, "geodetic_datum", asked.only))
            joined = join(found) if asked.join else 0
            known = defaultdict(set)
            for name, aliases in found.items():
                for alias in aliases:
                    known[alias].add(name)
            counts = {"of two names": 0, "that are names": 0, "that stand beside": 0}
            sets = 0
            for name, aliases in sorted(found.items()):
                kept = []
                for alias in sorted(aliases - {name, ""}):
                    if alias in found:
                        counts["that are names"] += 1
                    elif len(known[alias]) > 1:
                        counts["of two names"] += 1
                    elif alias in taken[keyword] or name in taken[keyword]:
                        counts["that stand beside"] += 1
                    else:
                        kept.append(alias)
                if kept:
                    sets += 1
                    print(statement(keyword, [name, *kept]))
            told = ", ".join(f"{count} {why}" for why, count in counts.items())
            print(f"{keyword}: {sets} sets, {joined} names joined; left out: aliases {told}", file=sys.stderr)
        sys.stdout.flush()
    except (OSError, UnicodeError, sqlite3.Error) as error:
        print(f"make_rules.py: {asked.database}: {error}", file=sys.stderr)
        return 2
    return 0


if __name__ == "__main__":
    sys.exit(main(sys.argv[1:]))
