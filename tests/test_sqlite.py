"""The extension for SQLite, built anew under all warnings.

The rows of the .rows files are asked of its functions by the program sqlite3, as TEXT and as BLOB; then come what no text
is, levels, indexes, other encodings and long texts; all of it again under checks of memory; threads; and a GeoPackage.
"""
from __future__ import annotations

import contextlib
import ctypes
import ctypes.util
import os
import pathlib
import re
import resource
import sqlite3
import subprocess
import sys
from concurrent.futures import ThreadPoolExecutor
from typing import Iterator, List, NamedTuple

import build
import build_sqlite
import pytest
import rows
import sql_rows
from sql_rows import Statement
from support import CANONICAL_HEIGHT, HEIGHT, NOTED, ROOT, TWIN, run, succeed

pytestmark = [pytest.mark.needs("sqlite3"), pytest.mark.xdist_group("sqlite")]
SECONDS = 600
# More growths than the program sqlite3 makes here.
MOST_GROWTHS = 2000


def literal(text: bytes, is_blob: bool) -> str:
    """A text in SQL."""
    blob = f"X'{text.hex()}'"
    return blob if is_blob else f"CAST({blob} AS TEXT)"


SQLITE = sql_rows.Dialect(
    literal=literal,
    hex=lambda call: f"hex(coalesce({call}, ''))",
    number=lambda condition: condition,
    zeros=lambda length: f"hex(zeroblob({length // 2}))",
    part=lambda call, key, index: f"json_extract({call}, '$[{index}].{key}')",
    is_none=lambda call: f"json_array_length({call}) = 0",
    said=lambda lines: lines,
    limit="crs_max_text_length()",
    set_limit=lambda limit: f"SELECT 1 WHERE crs_max_text_length({limit}) <> {limit};",
)


def promises() -> Iterator[Statement]:
    """What the rows don't ask."""
    yield from sql_rows.promises(SQLITE)
    yield "a wrong level", "SELECT crs_canon('x', 1);", f"Error: no such level: '1'; {sql_rows.LEVELS}"
    yield "a number", "SELECT crs_kind(4326), crs_refusal(4326), crs_refusal(1.5);", "|refused 6 Unexpected at 0|refused 6 Unexpected at 0"
    for behind in ("", "x"):
        level = literal(f"full\0{behind}".encode(), False)
        yield "a level with a NUL byte", f"SELECT crs_canon('x', {level});", f"Error: no such level: 'full' and a NUL byte; {sql_rows.LEVELS}"
    yield "a long level", f"SELECT crs_canon('x', '{'é' * 50}');", f"Error: no such level: '{'é' * 40}'; {sql_rows.LEVELS}"
    nul = literal(HEIGHT.replace('"H"', '"a\0b"').encode(), False)
    wanted = CANONICAL_HEIGHT.replace('"H"', '"a\0b"').encode().hex().upper()
    yield "a NUL byte", f"SELECT hex(crs_canon({nul}));", wanted
    yield "a NUL byte", f"SELECT crs_refusal({literal(HEIGHT.encode() + bytes(1), False)});", f"refused 1 BadCharacter at {len(HEIGHT)}"
    yield "too few", "SELECT crs_canon();", "Error: wrong number of arguments to function crs_canon()"
    yield "too many", "SELECT crs_version(1);", "Error: wrong number of arguments to function crs_version()"
    other, wanted = HEIGHT.replace('"H"', '"a\0b"'), '[{"path":"name","first":"\\"H\\"","second":"\\"a\\u0000b\\""}]'
    parts = f"crs_differences('{HEIGHT}', {literal(other.encode(), False)})"
    yield "a NUL byte", f"SELECT {parts}, json_valid({parts}), typeof({parts});", f"{wanted}|1|text"
    yield "the same", f"SELECT crs_differences('{HEIGHT}', '{TWIN}');", "[]"
    other = HEIGHT.replace('VDATUM["D"]', 'ENSEMBLE["D",MEMBER["m"],ENSEMBLEACCURACY[2]]').replace("up", "down")
    parts = f"crs_differences('{HEIGHT}', '{other}')"
    asked = f"SELECT json_valid({parts}), group_concat(json_extract(value, '$.path')) FROM json_each({parts});"
    yield "the parts", asked, "1|datum/kind,system/axis1/direction"
    yield "types", f"SELECT typeof(crs_canon('{HEIGHT}')), typeof(crs_same('{HEIGHT}', '{HEIGHT}'));", "text|integer"
    yield from of_indexes()
    yield from of_rules()
    yield from of_limits()
    yield from sql_rows.of_long_texts(SQLITE)


def of_indexes() -> Iterator[Statement]:
    yield "a table", "PRAGMA trusted_schema = OFF;", ""
    yield "a check", "CREATE TABLE t (n INTEGER PRIMARY KEY, wkt TEXT CHECK (crs_refusal(wkt) IS NULL), kind AS (crs_kind(wkt)));", ""
    yield "an index", "CREATE INDEX t_by_crs ON t (crs_canon(wkt));", ""
    yield "rows", f"INSERT INTO t (wkt) VALUES ('{HEIGHT}'), ('{NOTED}'), ('{TWIN}'), (NULL);", ""
    yield "a check", "INSERT INTO t (wkt) VALUES ('EPSG:4326');", "Error: CHECK constraint failed: crs_refusal(wkt) IS NULL"
    asked = f"SELECT group_concat(n) FROM t WHERE crs_canon(wkt) = crs_canon('{CANONICAL_HEIGHT}');"
    yield "the index answers", asked, "1,3"
    yield "the index is used", f"SELECT detail LIKE 'SEARCH t USING %INDEX t_by_crs%' FROM (SELECT 1 AS detail) WHERE 0; EXPLAIN QUERY PLAN {asked}", PLAN
    yield "a generated column", "SELECT DISTINCT kind FROM t WHERE kind IS NOT NULL;", "vertical"
    yield "groups", "SELECT count(*) FROM t GROUP BY crs_canon(wkt, 'definition') ORDER BY 1;", "1\n3"
    yield "a view", "CREATE VIEW v AS SELECT n, crs_canon(wkt) AS canon FROM t; SELECT count(DISTINCT canon) FROM v;", "2"


def of_rules() -> Iterator[Statement]:
    """Rules as bytes, and in a schema."""
    other, rules = sql_rows.OTHER, sql_rows.RULES
    blob = literal(rules.encode(), True)
    yield "rules as bytes", f"SELECT crs_canon('{other}', 'full', {blob}), crs_canon('{HEIGHT}', 'full', X'');", f"{sql_rows.FORM}|{CANONICAL_HEIGHT}"
    yield "types", f"SELECT typeof(crs_canon('{HEIGHT}', 'full', '')), typeof(crs_same('{HEIGHT}', '{HEIGHT}', 'full', ''));", "text|integer"
    yield "a NUL byte", f"SELECT crs_canon('{HEIGHT}', 'full', {literal(rules.encode() + bytes(1), False)});", "Error: rules: line 5: refused 1 at 0: BadCharacter"
    yield "a table", "CREATE TABLE r (n INTEGER PRIMARY KEY, wkt TEXT);", ""
    yield "an index", f"CREATE UNIQUE INDEX r_by_crs ON r (crs_canon(wkt, 'full', '{rules}'));", ""
    yield "rows", f"INSERT INTO r (wkt) VALUES ('{HEIGHT}'), ('x'), (NULL);", ""
    wanted = "Error: UNIQUE constraint failed: index 'r_by_crs'"
    yield "each CRS once under rules", f"INSERT INTO r (wkt) VALUES ('{other}');", wanted
    yield "each CRS once under rules", f"INSERT INTO r (wkt) VALUES ('{NOTED}'); SELECT count(*) FROM r;", "4"


def of_limits() -> Iterator[Statement]:
    limit = sql_rows.LIMIT
    yield "the limit", "SELECT crs_max_text_length(), typeof(crs_max_text_length());", f"{limit}|integer"
    wrong = "Error: crs_max_text_length takes a number of bytes from 1 to 2147483647"
    for given in ("0", "-1", "2147483648", "1.5", "'1000'", "''"):
        yield "a wrong limit", f"SELECT crs_max_text_length({given});", wrong
    yield "NULL gives NULL", "SELECT crs_max_text_length(NULL) IS NULL, crs_max_text_length();", f"1|{limit}"
    yield "another limit", "SELECT crs_max_text_length(2147483647); SELECT crs_max_text_length(5), crs_max_text_length();", "2147483647\n5|5"
    yield "zeros that aren't written out", "SELECT crs_kind(zeroblob(1000000000));", sql_rows.too_long(
        1_000_000_000, 5, SQLITE
    )
    yield "the usual limit", f"SELECT crs_max_text_length({limit});", f"{limit}"
    yield "no limit in a schema", "CREATE VIEW limits AS SELECT crs_max_text_length(9); SELECT * FROM limits;", "Error: unsafe use of crs_max_text_length()"
    yield "no limit in a schema", "DROP VIEW limits;", ""


PLAN = "QUERY PLAN\n`--SEARCH t USING INDEX t_by_crs (<expr>=?)"


def printed(extension: pathlib.Path, statements: List[Statement], first: str, preloaded: str) -> List[str]:
    """What the program sqlite3 prints for each statement, and after all of them."""
    script = [f"{first}\n.load {extension}\n"]
    for index, (_, statement, _) in enumerate(statements):
        script.append(f"{statement}\n.print -- {index}\n")
    done = subprocess.run(
        ["sqlite3", "-batch", ":memory:"],
        input="".join(script).encode(),
        stdout=subprocess.PIPE,
        stderr=subprocess.STDOUT,
        env={**os.environ, "LD_PRELOAD": preloaded, "ASAN_OPTIONS": "detect_leaks=1"},
        timeout=SECONDS,
        check=False,
    )
    return sql_rows.answers_of(statements, done.stdout)


def plain_error(text: str) -> str:
    """An error without the place that sqlite3 puts before it and the piece that it puts after it."""
    line = text.split("\n")[0]
    for front in ("Runtime error near line ", "Parse error near line ", "Error: near line "):
        if line.startswith(front):
            return "Error: " + line.partition(": ")[2].rsplit(" (", 1)[0]
    return text


class Loaded(NamedTuple):
    """An extension, and what is preloaded with it."""

    extension: pathlib.Path
    preloaded: str


@pytest.fixture
def extension(sqlite_extension: pathlib.Path) -> pathlib.Path:
    if not sqlite_extension.exists():
        pytest.skip("sqlite3ext.h isn't there")
    return sqlite_extension


@pytest.fixture(scope="module")
def sanitized(prefix: pathlib.Path, tmp_path_factory: pytest.TempPathFactory) -> Loaded:
    """The extension with checks of memory and of undefined behaviour, and a search for leaks."""
    found = [succeed(["cc", f"-print-file-name={it}"]).strip() for it in ("libasan.so", "libubsan.so")]
    if not all("/" in it for it in found):
        pytest.skip("libasan or libubsan isn't there")
    made = tmp_path_factory.mktemp("sanitized") / "crsdesk_sqlite.so"
    build_sqlite.build(prefix, made, ["-g", "-fsanitize=address,undefined", "-fno-sanitize-recover=all"])
    return Loaded(made, " ".join(found))


def of_encoding() -> List[Statement]:
    """Those of the promises that are asked in another encoding too."""
    names = "a level,a wrong level,under rules,rules of rows,refused rules,long rules,a limit,the usual limit"
    return [it for it in promises() if it[0] in [*names.split(","), "a refused text", "nothing", "types"]]


STATEMENTS = {
    "rows": (list(sql_rows.all_rows(SQLITE)), ""),
    "promises": (list(promises()), ""),
    "UTF-16": (of_encoding(), "PRAGMA encoding='UTF-16';"),
}


def hold_statements(name: str, loaded: Loaded) -> None:
    statements, first = STATEMENTS[name]
    *answers, rest = printed(loaded.extension, statements, first, loaded.preloaded)
    sql_rows.hold(statements, map(plain_error, answers))
    assert rest == ""


def hold_loading(loaded: Loaded) -> None:
    """A second time in one connection: the limit is the usual one again."""
    twice = f"SELECT crs_max_text_length(5);\n.load {loaded.extension}\nSELECT crs_max_text_length();"
    coded = f"SELECT crs_kind({sql_rows.text_of(sql_rows.LIMIT + 1, SQLITE)});"
    first, error, rest = printed(loaded.extension, [("", twice, ""), ("", coded, "")], "", loaded.preloaded)
    assert first == f"5\n{sql_rows.LIMIT}" and rest == ""
    assert error.endswith(" (18)"), "the error is SQLITE_TOOBIG"


@pytest.mark.parametrize("name", STATEMENTS)
def test_statements(name: str, extension: pathlib.Path) -> None:
    hold_statements(name, Loaded(extension, ""))


@pytest.mark.parametrize("name", STATEMENTS)
def test_statements_sanitized(name: str, sanitized: Loaded) -> None:
    hold_statements(name, sanitized)


def test_loading(extension: pathlib.Path) -> None:
    hold_loading(Loaded(extension, ""))


def test_loading_sanitized(sanitized: Loaded) -> None:
    hold_loading(sanitized)


# A long rules file, and rows of which each spells the same CRS in another text.
LARGE = "".join(f'SAME[DATUM["a{n}"],DATUM["b{n}"]]\n' for n in range(2000))
ROWS = "WITH RECURSIVE n (n) AS (SELECT 1 UNION ALL SELECT n + 1 FROM n WHERE n < 500)"


def test_rules_are_read_once(extension: pathlib.Path, tmp_path: pathlib.Path) -> None:
    """Rules are read once a statement, those of a constant and those that a function answers for each row: that takes a
    fraction of the processor's time of rules that change from row to row."""
    file = tmp_path / "large.rules"
    file.write_text(LARGE, encoding="utf-8")
    seconds = {}
    for name, rules in {
        "a constant": f"'{LARGE}'",
        "a function": f"readfile('{file}')",
        "changing": f"'{LARGE}#' || n",
    }.items():
        asked = f"{ROWS} SELECT count(crs_canon('{HEIGHT}' || printf('%*s', n, ''), 'full', {rules})) FROM n;"
        begin = resource.getrusage(resource.RUSAGE_CHILDREN)
        found = printed(extension, [("rules", asked, "")], "", "")
        end = resource.getrusage(resource.RUSAGE_CHILDREN)
        seconds[name] = end.ru_utime + end.ru_stime - begin.ru_utime - begin.ru_stime
        assert found == ["500", ""], f"rules of {name}"
    for name in ("a constant", "a function"):
        assert 4 * seconds[name] < seconds["changing"], seconds


def test_growths_refused(extension: pathlib.Path, refusing: pathlib.Path) -> None:
    """Each growth of memory refused to the program sqlite3 in turn: an extension that isn't loaded leaves nothing behind,
    and after a call that has no memory the next answers."""
    asked = f"SELECT crs_canon('{sql_rows.OTHER}', 'full', '{sql_rows.RULES}');"
    script = f".load {extension}\n{asked}\n.print answered\n{asked}\n"
    unloaded = refused = 0
    for number in range(1, MOST_GROWTHS):
        more = {"LD_PRELOAD": str(refusing), "REFUSE": str(number)}
        done = run(["sqlite3", "-batch", ":memory:"], input=script, env={**os.environ, **more})
        if "refused 0" in done.stderr:
            break
        if "error during initialization" in done.stderr:
            unloaded += 1
            assert (done.returncode, done.stdout) == (1, "answered\n"), f"growth {number} refused to its loading"
        elif "Runtime error near line 2: out of memory" in done.stderr:
            refused += 1
            assert done.stdout == f"answered\n{sql_rows.FORM}\n", f"growth {number} refused"
    assert unloaded > 10 and refused > 10


def test_symbols(extension: pathlib.Path) -> None:
    """It shows one name, and needs the C library alone."""
    shown = succeed(["nm", "-D", "--defined-only", extension]).split()
    assert shown[2::3] == ["sqlite3_crsdesksqlite_init"], "its names"
    assert re.findall(r"\(NEEDED\).*\[(.*)\]", succeed(["readelf", "-d", extension])) == ["libc.so.6"], "what it needs"


def test_room(extension: pathlib.Path) -> None:
    """The differences of ordinary texts have the room that is asked for first (room_for_differences), so that they are
    compared once: their JSON is longer than their pieces."""
    lines = (ROOT / "examples" / "catalogue.txt").read_bytes().split(b"\n")
    values = ",".join(f"(CAST({literal(line, True)} AS TEXT))" for line in lines)
    statement = (
        f"CREATE TABLE ordinary AS SELECT column1 AS wkt FROM (VALUES {values}) WHERE crs_kind(column1) IS NOT NULL; "
        "SELECT count(*) > 1000, max(length(parts)) > 1000, max(length(parts) - 4 * both) < 1000 FROM (SELECT "
        "CAST(crs_differences(a.wkt, b.wkt) AS BLOB) AS parts, length(CAST(a.wkt || b.wkt AS BLOB)) AS both "
        "FROM ordinary AS a CROSS JOIN ordinary AS b);"
    )
    found = printed(extension, [("the room", statement, "")], "", "")
    assert found == ["1|1|1", ""], "room for differences"


def test_version(extension: pathlib.Path) -> None:
    """It answers the version of the library that it holds."""
    found = printed(extension, [("the version", "SELECT crs_version(), typeof(crs_version());", "")], "", "")
    assert found == [f"{build.version()}|text", ""], "crs_version"


class Connection:
    """A connection by SQLite's own library, with the extension loaded; calls of it leave the interpreter's lock."""

    def __init__(self, library: str, extension: pathlib.Path) -> None:
        self.calls = ctypes.CDLL(library)
        self.calls.sqlite3_column_text.restype = ctypes.c_char_p
        self.db, error = ctypes.c_void_p(), ctypes.c_char_p()
        self.must(self.calls.sqlite3_open(b":memory:", ctypes.byref(self.db)))
        self.must(self.calls.sqlite3_enable_load_extension(self.db, 1))
        code = self.calls.sqlite3_load_extension(self.db, os.fsencode(extension), None, ctypes.byref(error))
        self.must(code, error.value)

    def must(self, code: int, error: object = None) -> None:
        if code not in (0, 100):
            raise RuntimeError(f"SQLite answers {code} {error}")

    def answers(self, texts: List[bytes]) -> List[bytes]:
        """The canonical text or the refusal of each text."""
        statement, found = ctypes.c_void_p(), []
        asked = b"SELECT coalesce(crs_canon(?1), crs_refusal(?1))"
        self.must(self.calls.sqlite3_prepare_v2(self.db, asked, -1, ctypes.byref(statement), None))
        for text in texts:
            self.must(self.calls.sqlite3_bind_blob(statement, 1, text, len(text), None))
            self.must(self.calls.sqlite3_step(statement))
            found.append(bytes(self.calls.sqlite3_column_text(statement, 0)))
            self.must(self.calls.sqlite3_reset(statement))
        self.calls.sqlite3_finalize(statement)
        self.calls.sqlite3_close(self.db)
        return found


def test_threads(extension: pathlib.Path) -> None:
    """Four threads at once, each with a connection of its own, in one process."""
    library = ctypes.util.find_library("sqlite3")
    if library is None:
        pytest.skip("libsqlite3 isn't there")
    cases = [it for it in rows.all_cases() if it.words == [b"canon"] and it.output and it.error is None]
    texts = [it.input for it in cases] * 5
    with ThreadPoolExecutor(4) as pool:
        wanted = [(it.output or b"")[:-1] for it in cases] * 5
        calls = [pool.submit(lambda name: Connection(name, extension).answers(texts), library) for _ in range(8)]
        for call in calls:
            assert call.result() == wanted, "four threads"


@pytest.mark.needs("ogr2ogr")
def test_geopackage(extension: pathlib.Path, tmp_path: pathlib.Path) -> None:
    file = tmp_path / "layers.gpkg"
    succeed(["sh", ROOT / "examples" / "layers.sh", file])
    for level, wanted in (
        ("definition", "heights\nwells\ntiles roads parcels"),
        ("full", "heights\nparcels\nwells\ntiles roads"),
    ):
        statement = (
            "SELECT group_concat(table_name, ' ') FROM gpkg_contents JOIN gpkg_spatial_ref_sys USING (srs_id) "
            f"GROUP BY coalesce(crs_canon(definition_12_063, '{level}'), srs_id)"
        )
        told = succeed(["sqlite3", file, "-cmd", f".load {extension}", statement])
        assert sorted(told.split("\n")) == sorted([*wanted.split("\n"), ""]), f"a GeoPackage at {level}"


# Entries of a GeoPackage as examples/fill_wkt2.py meets them: srs_id, organization, code, definition, WKT2 before, and
# what it prints. The first has a definition that PROJ would repair, and the fifth one that it can't read.
WKT1 = 'GEOGCS["g",DATUM["d",SPHEROID["s",6377397.155,299.15]],PRIMEM["Greenwich",0],UNIT["degree",0.0174532925199433]]'
ENTRIES = [
    (1, "EPSG", 4326, WKT1.replace("397.155", "397,155"), "undefined", "1: undefined"),
    (2, "EPSG", 4326, WKT1, "undefined", "2: definition"),
    (3, "epsg", 4326, "undefined", "undefined", "3: epsg:4326"),
    (4, "EPSG", 4326, WKT1, "kept", ""),
    (5, "OWN", 5, "GEOGCS[", "undefined", "5: undefined"),
    (6, "none", 0, "undefined", "undefined", "6: undefined"),
]


@pytest.mark.needs("projinfo")
def test_filling(tmp_path: pathlib.Path) -> None:
    """Whether examples/fill_wkt2.py fills what it says, with and without the column, and takes no repaired text."""
    script = [sys.executable, ROOT / "examples" / "fill_wkt2.py"]
    for has_column in (False, True):
        file = tmp_path / f"{has_column}.gpkg"
        with contextlib.closing(sqlite3.connect(file)) as table:
            table.execute(
                "CREATE TABLE gpkg_spatial_ref_sys (srs_name TEXT, srs_id INTEGER PRIMARY KEY, organization TEXT, "
                f"organization_coordsys_id INTEGER, definition TEXT{', definition_12_063 TEXT' * has_column})"
            )
            entries = [it for it in ENTRIES if has_column or it[0] != 4]
            for srs_id, organization, code, definition, before, _ in entries:
                row = ["", srs_id, organization, code, definition] + [before] * has_column
                table.execute(f"INSERT INTO gpkg_spatial_ref_sys VALUES ({', '.join('?' * len(row))})", row)
            table.commit()
        done = run([*script, file])
        wanted = " ".join(it[5] for it in entries).split()
        assert (done.returncode, done.stdout.split()) == (1, wanted), "what is filled"
        told = [line.split(": ")[0] for line in done.stderr.split("\n") if line[:2] in ("1:", "5:")]
        assert (told, "syntax error" in done.stderr) == (["1", "5"], True), "what PROJ says is told"
        with contextlib.closing(sqlite3.connect(file)) as table:
            asked = "SELECT definition_12_063 FROM gpkg_spatial_ref_sys ORDER BY srs_id"
            found = [row[0] for row in table.execute(asked)]
            extensions = table.execute("SELECT count(*) FROM sqlite_master WHERE name = 'gpkg_extensions'").fetchone()
        fronts = [it[: it.find("[") + 1] or it for it in found]
        wanted = ["undefined", "GEODCRS[", "GEODCRS[", *["kept"] * has_column, "undefined", "undefined"]
        assert (fronts, extensions) == (wanted, (int(not has_column),)), "the column"
    other = tmp_path / "other.db"
    with contextlib.closing(sqlite3.connect(other)) as table:
        table.execute("CREATE TABLE t (a)")
    before_it = other.read_bytes()
    for name in (other, ROOT / "README.md", tmp_path / "missing"):
        done = run([*script, name])
        is_told = (done.returncode, done.stdout) == (2, "") and "Traceback" not in done.stderr
        assert is_told, f"no GeoPackage: {name.name}"
    assert (other.read_bytes(), (tmp_path / "missing").exists()) == (before_it, False), "it is as before"
