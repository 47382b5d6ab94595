"""The extension for PostgreSQL, built under all warnings, in a server of its own (postgresql_server.py).

The rows of the .rows files are asked of the functions, as text and as bytea, in databases of three encodings; then come
what no text is, levels, constraints, indexes, generated columns, a parallel plan over a million rows, a cancelled query,
the limit on a text's length, dump and restore, an update from each older version, entries of a GeoPackage, the commands
that docs/SQL.md shows, and each growth of memory refused in turn.
"""
from __future__ import annotations

import contextlib
import os
import pathlib
import re
import sqlite3
import subprocess
import tempfile
from typing import Dict, Iterator, Optional

import build
import build_postgresql
import documents
import pytest
import sql_rows
from postgresql_server import Server, below
from sql_rows import Statement
from support import CANONICAL_HEIGHT, HEIGHT, HERE, NOTED, ROOT, TWIN, need, run, succeed

pytestmark = pytest.mark.xdist_group("postgresql")
SECONDS = 600
# Python's names of the encodings of the databases; of SQL_ASCII a text is any bytes but NUL.
ENCODINGS: Dict[str, Optional[str]] = {"UTF8": "utf-8", "LATIN1": "latin-1", "SQL_ASCII": None}
# The variable of the environment by which docs/SQL.md asks for a server: its folder of sockets.
SERVER = "$CRSDESK_POSTGRESQL"
# The variable by which it asks for a server that has PostGIS too, and the file by which that is there.
POSTGIS, POSTGIS_FILE = "$CRSDESK_POSTGIS", "extension/postgis.control"
# More growths than any call here makes.
MOST_GROWTHS = 250
CONTROL = (build_postgresql.SOURCES / "crsdesk.control").read_text(encoding="utf-8")
VERSION = CONTROL.partition("default_version = '")[2].partition("'")[0]
# The versions that scripts make, or update to another; of them the first that can be made.
SCRIPTS = sorted(path.stem for path in build_postgresql.SOURCES.glob("crsdesk--*.sql"))
VERSIONS = {version for name in SCRIPTS for version in name.split("--")[1:]}
OLDEST = "0.3.0"


def dialect_of(encoding: str) -> sql_rows.Dialect:
    """How a database of an encoding spells what is asked."""

    codec = ENCODINGS[encoding] or "utf-8"

    def literal(text: bytes, is_blob: bool) -> Optional[str]:
        blob = f"'\\x{text.hex()}'::bytea"
        if is_blob:
            return blob
        is_any = ENCODINGS[encoding] is None
        try:
            if not is_any:
                text.decode().encode(codec)
        except UnicodeError:
            return None
        return None if b"\0" in text else f"convert_from({blob}, '{encoding if is_any else 'UTF8'}')"

    return sql_rows.Dialect(
        literal=literal,
        hex=lambda call: f"upper(encode(convert_to({call}, 'UTF8'), 'hex'))",
        number=lambda condition: f"({condition})::int",
        zeros=lambda length: f"repeat('0', {length})",
        part=lambda call, key, index: f"({call})->{index}->>'{key}'",
        is_none=lambda call: f"jsonb_array_length({call}) = 0",
        said=lambda lines: lines.decode().encode(codec, "replace").decode(codec).encode(),
        limit="crsdesk.max_text_length",
        set_limit=lambda limit: f"SET crsdesk.max_text_length = {limit};",
    )


@pytest.fixture(scope="module")
def stage(prefix: pathlib.Path) -> Iterator[pathlib.Path]:
    """The folder below which the extension was put; other users may read it."""
    lack = build_postgresql.lacking()
    if lack or not (build_postgresql.folder_of("bindir") / "postgres").exists():
        pytest.skip(lack or "no server of PostgreSQL")
    with tempfile.TemporaryDirectory() as name:
        folder = pathlib.Path(name)
        folder.chmod(0o755)
        build_postgresql.build(prefix, folder / "stage", "-Werror")
        yield folder / "stage"


@contextlib.contextmanager
def running(stage: pathlib.Path, name: str, **more: str) -> Iterator[Server]:
    """A server with a database of each encoding that has the extension."""
    folder = stage.with_name(name)
    folder.mkdir()
    server = Server(folder, stage)
    with server.running(**more):
        for database, encoding in [("postgres", ""), *((it.lower(), it) for it in ENCODINGS)]:
            if encoding:
                server.make(database, encoding)
            server.hold([], database, "CREATE EXTENSION crsdesk;")
        yield server


@pytest.fixture(scope="module")
def server(stage: pathlib.Path) -> Iterator[Server]:
    with running(stage, "server") as it:
        yield it


@pytest.fixture(scope="module")
def million(server: Server) -> Server:
    """The server with a table of a million rows in its database utf8."""
    server.hold([], "utf8", MILLION)
    return server


@pytest.fixture(scope="module")
def refusing_server(stage: pathlib.Path) -> Iterator[Server]:
    """A server that refuses growths of memory where it is asked to."""
    module = stage.with_name("refuse.so")
    include = build_postgresql.folder_of("includedir-server")
    words = ["cc", "-Wall", "-Wextra", "-Werror", "-O2", "-fPIC", "-shared", "-isystem", include]
    succeed([*words, "-o", module, HERE / "postgresql" / "refuse.c"])
    declared = [
        f"CREATE FUNCTION {it} RETURNS int AS '{module}' LANGUAGE C;"
        for it in ("refuse_growth(n int)", "refused_growths()", "counted_growths()")
    ]
    with running(stage, "refusing", LD_PRELOAD=str(module)) as it:
        it.hold([], "utf8", "\n".join(declared))
        yield it


def test_symbols(stage: pathlib.Path) -> None:
    """It shows the functions that SQL declares, and needs the C library alone."""
    module = below(stage, build_postgresql.folder_of("pkglibdir")) / "crsdesk.so"
    scripts = "".join((build_postgresql.SOURCES / f"{name}.sql").read_text(encoding="utf-8") for name in SCRIPTS)
    shown = succeed(["nm", "-D", "--defined-only", module])
    declared = re.findall(r"'MODULE_PATHNAME', '(\w+)'", scripts)
    wanted = {"Pg_magic_func", "_PG_init", *declared, *(f"pg_finfo_{name}" for name in declared)}
    assert set(shown.split()[2::3]) == wanted, "its names"
    assert re.findall(r"\(NEEDED\).*\[(.*)\]", succeed(["readelf", "-d", module])) == ["libc.so.6"]


def test_version(server: Server) -> None:
    """crs_version is the library's that the extension holds; the extension's own version is that of its scripts."""
    asked = "SELECT crs_version(), extversion FROM pg_extension WHERE extname = 'crsdesk';"
    server.hold([("the version", asked, f"{build.version()}|{VERSION}")])


# All functions of the extension as they are declared.
DECLARED = """SELECT p.oid::regprocedure, p.prorettype::regtype, p.provolatile, p.proisstrict, p.proparallel, p.procost,
p.prosrc, p.probin, pg_get_function_arguments(p.oid) FROM pg_depend d JOIN pg_proc p ON d.objid = p.oid
JOIN pg_extension e ON d.refobjid = e.oid WHERE e.extname = 'crsdesk' AND d.deptype = 'e' ORDER BY p.oid::regprocedure::text;"""


# The parts in which HEIGHT and NOTED differ, and those of HEIGHT and TWIN.
ALL_PARTS = """[{"path": "remark", "first": null, "second": "\\"r\\""}]|[]"""


def promises() -> Iterator[Statement]:
    """What PostgreSQL's functions promise beside what all extensions do."""
    nul = HEIGHT.replace('"H"', '"a\0b"').encode()
    blob = f"'\\x{nul.hex()}'::bytea"
    script = (build_postgresql.SOURCES / f"crsdesk--{VERSION}.sql").read_text(encoding="utf-8")
    is_pure = "provolatile = 'i' AND proisstrict AND proparallel = 's'"
    count = f"SELECT count(*) FROM ({DECLARED[:-1]}) AS t WHERE {is_pure};"
    yield "functions", count, str(script.count("CREATE FUNCTION"))
    yield "a NUL byte", f"SELECT crs_kind({blob}), crs_same({blob}, {blob}), crs_difference({blob}, '{HEIGHT}');", "vertical|t|name"
    yield "a NUL byte", f"SELECT crs_canon({blob});", "Error: the canonical text has a NUL byte, which a text of PostgreSQL can't have"
    parts = f"crs_differences({blob}, '{HEIGHT}')"
    yield "a NUL byte", f"SELECT {parts};", "Error: a part that differs has a NUL byte, which a text of PostgreSQL can't have"
    nul_like = HEIGHT.replace('"H"', '"a\\x00"')
    yield "no NUL byte", f"SELECT crs_differences('{nul_like}', '{HEIGHT}')->0->>'first';", '"a\\x00"'
    yield "a long level", f"SELECT crs_canon('x', '{'é' * 30}');", f"Error: no such level: '{'é' * 20}'; {sql_rows.LEVELS}"
    yield "an empty level", "SELECT crs_canon('x', '');", f"Error: no such level: ''; {sql_rows.LEVELS}"
    yield "types", f"SELECT pg_typeof(crs_canon('{HEIGHT}')), pg_typeof(crs_same('{HEIGHT}', '{HEIGHT}')), pg_typeof(crs_differences('{HEIGHT}', '{HEIGHT}'));", "text|boolean|jsonb"
    yield "all parts", f"SELECT crs_differences('{HEIGHT}', '{NOTED}'), crs_differences('{HEIGHT}', '{TWIN}');", ALL_PARTS
    yield "all parts", f"SELECT crs_differences('{HEIGHT}', 'x'), crs_differences('x', '{HEIGHT}', 'definition');", "|"
    kinds = {
        "text": f"'{HEIGHT}'::text",
        "bytea": f"'\\x{TWIN.encode().hex()}'::bytea",
        "varchar": f"'{TWIN}'::varchar",
    }
    for first in kinds.values():
        yield "all types of text", f"SELECT crs_kind({first}), crs_canon({first}), crs_canon({first}, level => 'definition');", f"vertical|{CANONICAL_HEIGHT}|{CANONICAL_HEIGHT}"
        for second in [*kinds.values(), f"'{TWIN}'"]:
            yield "two types of text", f"SELECT crs_same({first}, {second}), crs_difference({first}, {second}, 'full'), crs_differences({first}, {second}, level => 'full');", "t|same|[]"
    yield "a NUL argument", f"SELECT crs_same({kinds['bytea']}, NULL) IS NULL, crs_difference(NULL::bytea, 'x') IS NULL;", "t|t"
    yield from of_rules()
    yield from of_tables()
    yield from of_long_keys()
    yield from of_limits()
    yield from sql_rows.of_long_texts(dialect_of("UTF8"))


def of_rules() -> Iterator[Statement]:
    """Rules beside all types of text, and in indexes."""
    other, rules, form = sql_rows.OTHER, sql_rows.RULES, sql_rows.FORM
    nul = f"'\\x{HEIGHT.replace(chr(34) + 'H', chr(34) + chr(0)).encode().hex()}'::bytea"
    yield "a NUL byte", f"SELECT crs_canon({nul}, 'full', '');", "Error: the canonical text has a NUL byte, which a text of PostgreSQL can't have"
    yield "a NUL byte", f"SELECT crs_same({nul}, {nul}, 'full', ''), crs_difference({nul}, '{HEIGHT}', 'full', '');", "t|name"
    kinds = [f"'{HEIGHT}'::text", f"'\\x{other.encode().hex()}'::bytea", f"'{other}'::varchar"]
    for first in kinds:
        yield "all types of text", f"SELECT crs_canon({first}, 'full', rules => '{rules}');", form
        for second in kinds:
            given = f"{first}, {second}, 'full', '{rules}'"
            yield "two types of text", f"SELECT crs_same({given}), crs_difference({given}), crs_differences({given});", "t|same|[]"
    given = f"'{HEIGHT}', '{HEIGHT}', 'full', ''"
    yield "types", f"SELECT pg_typeof(crs_canon('{HEIGHT}', 'full', '')), pg_typeof(crs_same({given})), pg_typeof(crs_differences({given}));", "text|boolean|jsonb"
    yield "the error's code", "\\set VERBOSITY sqlstate\nSELECT crs_canon('x', 'full', 'x');\n\\set VERBOSITY terse", "Error: 22023"
    yield "each CRS once under rules", f"CREATE TABLE ruled (wkt text, EXCLUDE USING hash (crs_canon(wkt, 'full', '{rules}') WITH =));", ""
    yield "each CRS once under rules", f"INSERT INTO ruled VALUES ('{HEIGHT}'), ('{NOTED}'), ('x'), (NULL);", ""
    wanted = 'Error: conflicting key value violates exclusion constraint "ruled_crs_canon_excl"'
    yield "each CRS once under rules", f"INSERT INTO ruled VALUES ('{other}');", wanted
    kept = "CREATE FUNCTION ruled(wkt text, rules text) RETURNS text LANGUAGE plpgsql AS $$BEGIN RETURN crs_canon(wkt, 'full', rules); END$$;"
    yield "rules of a function", kept, ""
    asked = f"SELECT ruled('{other}', it) FROM unnest(ARRAY['', '{rules}', '', 'x', '{rules}']) AS it;"
    yield "rules of a function", asked, "Error: rules: line 1: refused 7 at 1: UnexpectedEnd"
    asked = f"SELECT bool_and(ruled('{other}', it) = crs_canon('{other}', 'full', it)) FROM unnest(ARRAY['', '{rules}', '']) AS it;"
    yield "rules of a function", asked, "t"


def of_tables() -> Iterator[Statement]:
    yield "a table", "CREATE TABLE t (n serial PRIMARY KEY, wkt text CHECK (crs_kind(wkt) IS NOT NULL), kind text GENERATED ALWAYS AS (crs_kind(wkt)) STORED);", ""
    yield "an index", "CREATE INDEX t_by_crs ON t (crs_canon(wkt)); SET enable_seqscan = off;", ""
    yield "rows", f"INSERT INTO t (wkt) VALUES ('{HEIGHT}'), ('{NOTED}'), ('{TWIN}');", ""
    wanted = 'Error: new row for relation "t" violates check constraint "t_wkt_check"'
    yield "a check", "INSERT INTO t (wkt) VALUES ('EPSG:4326');", wanted
    yield "a check of NULL", "INSERT INTO t (wkt) VALUES (NULL);", wanted
    asked = f"SELECT string_agg(n::text, ',' ORDER BY n) FROM t WHERE crs_canon(wkt) = crs_canon('{CANONICAL_HEIGHT}');"
    yield "the index answers", asked, "1,3"
    plan = f"""Aggregate
  ->  Index Scan using t_by_crs on t
        Index Cond: (crs_canon(wkt, 'full'::text) = '{CANONICAL_HEIGHT}'::text)"""
    yield "the index is used", f"SET enable_bitmapscan = off; EXPLAIN (COSTS OFF) {asked}", plan
    yield "a generated column", "SELECT DISTINCT kind FROM t;", "vertical"
    yield "groups", "SELECT count(*) FROM t GROUP BY crs_canon(wkt, 'definition') ORDER BY 1; RESET enable_seqscan;", "3"
    yield "groups", "SELECT count(*) FROM t GROUP BY crs_canon(wkt) ORDER BY 1;", "1\n2"
    yield "a view", "CREATE VIEW v AS SELECT n, crs_canon(wkt) AS canon FROM t; SELECT count(DISTINCT canon) FROM v;", "2"
    yield "each CRS once", "CREATE TABLE once (wkt text, EXCLUDE USING hash (crs_canon(wkt) WITH =));", ""
    yield "each CRS once", f"INSERT INTO once VALUES ('{HEIGHT}'), ('{NOTED}'), (NULL), (NULL);", ""
    yield "each CRS once", f"INSERT INTO once VALUES ('{TWIN}');", 'Error: conflicting key value violates exclusion constraint "once_crs_canon_excl"'


# A collation by which upper and lower case are equal, which a result takes from its argument.
LOOSE = "CREATE COLLATION loose (provider = icu, locale = 'und-u-ks-level2', deterministic = false);"


def of_long_keys() -> Iterator[Statement]:
    """Canonical texts that are too long for a B-tree's key, and a collation of its own."""
    remark = "(SELECT string_agg(md5(n::text), '') FROM generate_series(1, 1000) AS n)"
    long = f"'{HEIGHT[:-1]},REMARK[\"' || {remark} || '\"]]'"
    yield "a long key", f"INSERT INTO once SELECT {long};", ""
    yield "a long key again", f"INSERT INTO once SELECT {long} || ' ';", 'Error: conflicting key value violates exclusion constraint "once_crs_canon_excl"'
    yield "a long key of a hash index", "CREATE TABLE h (n int, wkt text); CREATE INDEX h_by_crs ON h USING hash (crs_canon(wkt));", ""
    yield "a long key of a hash index", f"INSERT INTO h SELECT 1, {long}; INSERT INTO h SELECT 2, {long} || ' '; INSERT INTO h VALUES (3, '{HEIGHT}');", ""
    found = f"SELECT string_agg(n::text, ',' ORDER BY n) FROM h WHERE crs_canon(wkt) = crs_canon({long});"
    yield "a long key of a hash index", f"SET enable_seqscan = off; {found} RESET enable_seqscan;", "1,2"
    yield "a long key of a B-tree", f"INSERT INTO t (wkt) SELECT {long};", "Error: index row requires 32112 bytes, maximum size is 8191"
    yield "a loose collation", LOOSE, ""
    lower = HEIGHT.replace('"H"', '"h"')
    yield "a loose collation", f"CREATE TABLE c (wkt text COLLATE loose); INSERT INTO c VALUES ('{HEIGHT}'), ('{lower}');", ""
    yield "a loose collation", 'SELECT count(DISTINCT crs_canon(wkt)), count(DISTINCT crs_canon(wkt) COLLATE "C") FROM c;', "1|2"


def of_limits() -> Iterator[Statement]:
    """The setting, as PostgreSQL has settings."""
    limit = sql_rows.LIMIT
    yield "the limit", "SHOW crsdesk.max_text_length;", "1MB"
    for given in ("0", "-1", "1073741820"):
        wanted = (
            f'Error: {given} B is outside the valid range for parameter "crsdesk.max_text_length" (1 .. 1073741819)'
        )
        yield "a wrong limit", f"SET crsdesk.max_text_length = {given};", wanted
    yield "no other setting", "SET crsdesk.most = 1;", 'Error: invalid configuration parameter name "crsdesk.most"'
    yield "a long text in a table", "CREATE TABLE longer AS SELECT repeat('0', 100000000) AS wkt;", ""
    yield "a long text in a table", "SELECT crs_kind(wkt) FROM longer;", sql_rows.too_long(
        100_000_000, limit, dialect_of("UTF8")
    )
    coded = "\\set VERBOSITY sqlstate\nSELECT crs_kind(wkt) FROM longer;\n\\set VERBOSITY terse"
    yield "the error's code", coded, "Error: 54000"
    yield "a transaction's limit", "BEGIN; SET LOCAL crsdesk.max_text_length = '96MB'; SELECT crs_refusal(wkt) FROM longer; COMMIT;", "refused 3 NumberRange at 0"
    yield "after it", "SHOW crsdesk.max_text_length; DROP TABLE longer;", "1MB"


@pytest.mark.parametrize("encoding", ENCODINGS)
def test_rows(encoding: str, server: Server) -> None:
    asked = list(sql_rows.all_rows(dialect_of(encoding)))
    assert sum("convert_from" in statement for _, statement, _ in asked) > 500, "too few as text"
    server.hold(asked, encoding.lower())


@pytest.mark.parametrize("encoding", ENCODINGS)
def test_promises(encoding: str, server: Server) -> None:
    server.hold(list(sql_rows.promises(dialect_of(encoding))), encoding.lower())


def test_own_promises(server: Server) -> None:
    server.hold(list(promises()), "utf8")


def of_encodings() -> Iterator[Statement]:
    """Answers are those of the characters, whatever bytes the server keeps of them."""
    accented = HEIGHT.replace('"H"', '"é"')
    euro = f"'\\x{HEIGHT.replace(chr(34) + 'H', chr(34) + '€').encode().hex()}'::bytea"
    yield "bytes of a text", f"SELECT octet_length('{accented}') - char_length('{accented}');", "0"
    asked = f"SELECT crs_canon('{HEIGHT}', 'full', 'SAME[VDATUM[\"é\"],VDATUM[\"D\"]]');"
    yield "rules", asked, CANONICAL_HEIGHT.replace('"D"', '"é"')
    yield "a text", f"SELECT crs_canon('{accented}');", CANONICAL_HEIGHT.replace('"H"', '"é"')
    yield "a place", f"SELECT crs_refusal('{accented}x');", f"refused 6 Unexpected at {len(HEIGHT) + 1}"
    yield "text and bytes", f"SELECT crs_same('{accented}', '\\x{accented.encode().hex()}'::bytea);", "t"
    yield "its own bytes", f"SELECT crs_refusal(convert_to('{accented}', 'LATIN1'));", "refused 4 NotUtf8 at 9"
    yield "what it can't say", f"SELECT crs_kind({euro});", "vertical"
    wanted = (
        'Error: character with byte sequence 0xe2 0x82 0xac in encoding "UTF8" has no equivalent in encoding "LATIN1"'
    )
    yield "what it can't say", f"SELECT crs_canon({euro});", wanted


def test_encodings(server: Server) -> None:
    server.hold(list(of_encodings()), "latin1")


PARALLEL = """SELECT count(*), count(crs_canon(wkt)), count(crs_refusal(wkt)),
sum(hashtextextended(crs_canon(wkt, 'definition'), 0)), min(crs_canon(wkt, 'full', 'UNCOUNTED[crsName]')),
max(crs_canon(wkt, 'full', 'UNCOUNTED[crsName]')) FROM million"""
MILLION = """CREATE UNLOGGED TABLE million AS SELECT CASE n % 10 WHEN 0 THEN NULL WHEN 1 THEN 'EPSG:' || n
ELSE format('VERTCRS["H %s",VDATUM["D"],CS[vertical,1],AXIS["h",up,LENGTHUNIT["metre",1]]]', n / 20) END AS wkt
FROM generate_series(1, 1000000) AS n; ANALYZE million;"""


def test_parallel(million: Server) -> None:
    """A plan of several workers has the answers of a plan of one."""
    workers = "SET max_parallel_workers_per_gather = "
    plans = [f"{workers}{count}; EXPLAIN (COSTS OFF) {PARALLEL};" for count in (2, 0)]
    asked = [("", it, "") for plan in plans for it in (plan, f"{PARALLEL};")]
    found = million.printed(asked, "utf8")
    plan, answers, plan_of_one, answers_of_one, rest = found
    assert "Gather" in plan and "Parallel Seq Scan on million" in plan and "Gather" not in plan_of_one
    assert answers == answers_of_one and rest == ""
    assert answers.split("|")[:3] == ["1000000", "800000", "100000"], "what they count"
    assert answers.split("|")[4:] == [CANONICAL_HEIGHT.replace('"H"', '""')] * 2, "what they say under rules"
    # A setting before the first call of a session, and in each worker.
    padded = "SELECT count(crs_kind(rpad(wkt, 200))) FROM million;"
    explained = f"EXPLAIN (COSTS OFF) {padded}"
    limits = (
        f"SET crsdesk.max_text_length = 199; {workers}2; {explained}",
        padded,
        f"SET crsdesk.max_text_length = '200B'; {padded}",
    )
    *found, rest = million.printed([("", it, "") for it in limits], "utf8")
    assert "Gather" in found[0]
    wanted = [sql_rows.too_long(200, 199, dialect_of("UTF8")), "800000", ""]
    assert [*found[1:], rest] == wanted, "a limit in workers"


# Either query takes an hour; a server that doesn't cancel it is given up after SECONDS.
LIMITED, UNLIMITED = "SET statement_timeout = 200;", "SET statement_timeout = 0;"


def of_cancelled() -> Iterator[Statement]:
    """A query ends between two texts, and the connection goes on."""
    for name, workers, call in (
        ("a cancelled query", 0, "crs_canon(a.wkt)"),
        ("a cancelled query of workers", 2, "crs_canon(a.wkt)"),
        ("a cancelled query under rules", 0, f"crs_canon(a.wkt, 'full', '{sql_rows.RULES}')"),
    ):
        yield name, f"{UNLIMITED} SET max_parallel_workers_per_gather = {workers};", ""
        asked = f"{LIMITED} SELECT count({call}) FROM million AS a, generate_series(1, 1000);"
        yield name, asked, "Error: canceling statement due to statement timeout"
    yield "after it", f"{UNLIMITED} SELECT crs_kind('{HEIGHT}');", "vertical"


def test_cancel(million: Server) -> None:
    million.hold(list(of_cancelled()), "utf8")


# The bytes of memory that a backend has for itself.
KEPT = "SELECT (regexp_match(pg_read_file('/proc/' || pg_backend_pid() || '/status'), 'RssAnon:\\s+(\\d+) kB'))[1]::int * 1024;"


def test_leaks(million: Server) -> None:
    """The memory of a backend doesn't grow with the calls that it made."""
    asked = "SELECT count(crs_canon(wkt)), count(crs_refusal(wkt)) FROM million WHERE wkt IS NOT NULL;"
    words = ["psql", "-X", "-q", "-A", "-t", "-d", "utf8"]
    client = subprocess.Popen(words, env=million.environment, stdin=subprocess.PIPE, stdout=subprocess.PIPE, text=True)
    assert client.stdin is not None and client.stdout is not None
    kept = []
    try:
        for statement in ("SET max_parallel_workers_per_gather = 0; SELECT pg_backend_pid();", asked, asked):
            client.stdin.write(f"{statement}\n")
            client.stdin.flush()
            line = client.stdout.readline().strip()
            kept.append(line)
            status = pathlib.Path("/proc", kept[0], "status").read_text(encoding="utf-8")
            match = re.search(r"RssAnon:\s+(\d+) kB", status)
            kept.append(match[1] if match else "0")
    finally:
        client.stdin.close()
        client.wait(SECONDS)
    grown = int(kept[5]) - int(kept[3])
    assert grown < 8000, f"grew by {grown} kB in two million calls"


def test_leaks_of_rules(server: Server) -> None:
    """Nor does it grow with the rules that were read, or refused."""
    names = "".join(f'SAME[DATUM["a{n}"],DATUM["b{n}"]]\n' for n in range(100))
    read = f"DO $$BEGIN FOR n IN 1..2000 LOOP PERFORM crs_canon('{HEIGHT}', 'full', '{names}# ' || n % 2); END LOOP; END$$;"
    rows = f"SELECT count(crs_canon('{HEIGHT}', 'full', '{names}# ' || n)) FROM generate_series(1, 2000) AS n;"
    refused = f"DO $$BEGIN FOR n IN 1..2000 LOOP BEGIN PERFORM crs_canon('x', 'full', '{names}x' || n); EXCEPTION WHEN invalid_parameter_value THEN NULL; END; END LOOP; END$$;"
    asked = [("", f"{it} {KEPT}", "") for it in (f"{read} {refused}", read, refused, f"CREATE TEMP TABLE n AS {rows}")]
    before, *found = map(int, server.printed(asked, "utf8")[:-1])
    grown = max(found) - before
    assert grown < 4_000_000, f"grew by {grown} bytes: {before}, {found}"


KEPT_TABLE = """CREATE EXTENSION crsdesk;
CREATE TABLE kept (wkt text CHECK (crs_kind(wkt) IS NOT NULL), crs text GENERATED ALWAYS AS (crs_canon(wkt, 'definition')) STORED);
CREATE INDEX kept_by_crs ON kept (crs_canon(wkt));
CREATE INDEX kept_hashed ON kept USING hash (crs_canon(wkt));"""


def test_dump(server: Server, tmp_path: pathlib.Path) -> None:
    """A table with an index, a check and a generated column goes through a dump into another database."""
    server.make("before")
    server.make("after")
    rows = ", ".join(f"('{text}')" for text in (HEIGHT, NOTED, TWIN))
    server.hold([], "before", f"{KEPT_TABLE}\nINSERT INTO kept (wkt) VALUES {rows};")
    file = tmp_path / "dump.sql"
    with file.open("w", encoding="utf-8") as out:
        done = subprocess.run(["pg_dump", "before"], env=server.environment, stdout=out, check=False, timeout=SECONDS)
    words = ["psql", "-X", "-q", "-o", os.devnull, "-v", "ON_ERROR_STOP=1", "-d", "after", "-f", file]
    back = run(words, env=server.environment)
    assert (done.returncode, back.returncode, back.stdout) == (0, 0, ""), "dump and restore"
    same = [
        "SELECT wkt, crs FROM kept ORDER BY ctid;",
        "SELECT pg_get_indexdef(indexrelid) FROM pg_index WHERE indrelid = 'kept'::regclass ORDER BY 1;",
        "SELECT pg_get_constraintdef(oid) FROM pg_constraint WHERE conrelid = 'kept'::regclass;",
        "SELECT pg_get_expr(adbin, adrelid) FROM pg_attrdef WHERE adrelid = 'kept'::regclass;",
    ]
    asked = [("", it, "") for it in same]
    assert server.printed(asked, "after") == server.printed(asked, "before"), "what was restored"
    wanted = 'Error: new row for relation "kept" violates check constraint "kept_wkt_check"'
    asked_index = f"SET enable_seqscan = off; SELECT count(*) FROM kept WHERE crs_canon(wkt) = '{CANONICAL_HEIGHT}';"
    server.hold(
        [("the check", "INSERT INTO kept VALUES ('x');", wanted), ("the index", asked_index, "2")],
        "after",
    )


TABLE = f"CREATE TABLE t (wkt text); CREATE INDEX ON t (crs_canon(wkt)); INSERT INTO t VALUES ('{HEIGHT}');"
BY_INDEX = f"SET enable_seqscan = off; SELECT count(*) FROM t WHERE crs_canon(wkt) = crs_canon('{TWIN}');"
MADE = "SELECT extversion FROM pg_extension WHERE extname = 'crsdesk';"


def of_dropped() -> Iterator[Statement]:
    """An index keeps the extension; without what depends on it, it goes, and can be made in another schema."""
    yield "its version", f"CREATE EXTENSION crsdesk; {MADE}", VERSION
    yield "a table", TABLE, ""
    yield "an update to what it is", f"ALTER EXTENSION crsdesk UPDATE; {MADE}", VERSION
    yield "the index", BY_INDEX, "1"
    wanted = "Error: cannot drop extension crsdesk because other objects depend on it"
    yield "what depends on it", "DROP EXTENSION crsdesk;", wanted
    gone = "DROP TABLE t; DROP EXTENSION crsdesk; SELECT count(*) FROM pg_proc WHERE proname LIKE 'crs%';"
    yield "without what depends", gone, "0"
    moved = "CREATE SCHEMA maps; CREATE EXTENSION crsdesk SCHEMA maps; ALTER EXTENSION crsdesk SET SCHEMA public;"
    yield "another schema", f"{moved} {MADE}", VERSION
    yield "another schema", f"SELECT crs_kind('{HEIGHT}');", "vertical"


def test_dropped(server: Server) -> None:
    server.make("dropped")
    server.hold(list(of_dropped()), "dropped")


def test_update(server: Server) -> None:
    """ALTER EXTENSION .. UPDATE from each older version makes what CREATE EXTENSION makes, and keeps what depends on it."""
    assert {OLDEST, VERSION} <= VERSIONS
    asked = [("", DECLARED, "")]
    for version in sorted(VERSIONS - {VERSION}):
        database = f"from {version}"
        server.make(database)
        steps = [
            ("an older version", f"CREATE EXTENSION crsdesk VERSION '{version}';", ""),
            ("a table", TABLE, ""),
            ("an update", f"ALTER EXTENSION crsdesk UPDATE; {MADE}", VERSION),
            ("its index", BY_INDEX, "1"),
            ("without it", "DROP TABLE t;", ""),
        ]
        server.hold(steps, database)
        assert server.printed(asked, database) == server.printed(asked, "utf8"), f"what an update from {version} makes"


def test_rights(server: Server) -> None:
    """A user who may create in a database may create the extension there."""
    server.make("owned")
    first = "CREATE ROLE owner LOGIN; GRANT CREATE ON DATABASE owned TO owner; GRANT CREATE ON SCHEMA public TO owner;"
    asked = f"SET ROLE owner; CREATE EXTENSION crsdesk; SELECT crs_kind('{HEIGHT}'), rolsuper FROM pg_roles WHERE rolname = current_user;"
    setting = "SET ROLE owner; SET crsdesk.max_text_length = '2MB'; SHOW crsdesk.max_text_length;"
    lasting = "ALTER DATABASE owned SET crsdesk.max_text_length = '3MB'; \\c -\nSHOW crsdesk.max_text_length;"
    statements = [
        ("a user", asked, "vertical|f"),
        ("a user's limit", setting, "2MB"),
        ("a database's limit", f"RESET ROLE; {lasting}", "3MB"),
        ("a database's limit", f"SELECT crs_kind({sql_rows.text_of(3_145_728, dialect_of('UTF8'))});", "vertical"),
    ]
    server.hold(statements, "owned", first)


@pytest.mark.needs("ogr2ogr")
def test_geopackage(server: Server, tmp_path: pathlib.Path) -> None:
    """The queries of docs/SQL.md over a GeoPackage's entries, as far as they apply, over a copy of them."""
    file = tmp_path / "layers.gpkg"
    succeed(["sh", ROOT / "examples" / "layers.sh", file])
    tables = {
        "gpkg_spatial_ref_sys": "srs_id, organization, organization_coordsys_id, definition, definition_12_063",
        "gpkg_contents": "table_name, srs_id",
    }
    first = []
    with contextlib.closing(sqlite3.connect(file)) as package:
        for table, columns in tables.items():
            first.append(f"CREATE TABLE {table} ({columns.replace(',', ' text,')} text);")
            for row in package.execute(f"SELECT {columns} FROM {table}"):
                values = ", ".join("NULL" if it is None else "'" + str(it).replace("'", "''") + "'" for it in row)
                first.append(f"INSERT INTO {table} VALUES ({values});")
    groups = """SELECT string_agg(table_name, ' ' ORDER BY table_name) FROM gpkg_contents
        JOIN gpkg_spatial_ref_sys USING (srs_id) GROUP BY coalesce(crs_canon(definition_12_063, '{}'),
        upper(organization) || ':' || organization_coordsys_id) ORDER BY 1;"""
    pairs = """SELECT a.srs_id, b.srs_id, crs_difference(a.definition_12_063, b.definition_12_063)
        FROM gpkg_spatial_ref_sys AS a JOIN gpkg_spatial_ref_sys AS b ON a.srs_id::int < b.srs_id::int
        WHERE crs_same(a.definition_12_063, b.definition_12_063, 'definition');"""
    refused = """SELECT srs_id, crs_refusal(definition_12_063) FROM gpkg_spatial_ref_sys
        WHERE crs_refusal(definition_12_063) IS NOT NULL ORDER BY 1;"""
    statements = [
        (
            "WKT1",
            "SELECT DISTINCT crs_refusal(definition) FROM gpkg_spatial_ref_sys WHERE definition <> 'undefined';",
            "refused 11 UnknownKeyword at 0",
        ),
        ("by definition", groups.format("definition"), "heights\nparcels roads tiles\nwells"),
        ("with everything", groups.format("full"), "heights\nparcels\nroads tiles\nwells"),
        ("pairs", pairs, "31|32631|id"),
        ("refused", refused, "-1|refused 7 UnexpectedEnd at 9\n0|refused 7 UnexpectedEnd at 9"),
    ]
    server.hold(statements, "utf8", "\n".join(first))


@pytest.mark.parametrize("asked", [SERVER, POSTGIS])
def test_documents(asked: str, server: Server) -> None:
    """The commands of docs/SQL.md that ask for a server, or for one that has PostGIS, in a database of their own."""
    if asked == POSTGIS and not (build_postgresql.folder_of("sharedir") / POSTGIS_FILE).exists():
        pytest.skip("PostGIS isn't there")
    database = asked.lower().lstrip("$")
    server.make(database)
    if asked == POSTGIS:
        server.hold([], database, "CREATE EXTENSION crsdesk;")
    environment = {**server.environment, "PGDATABASE": database, asked[1:]: str(server.folder)}
    blocks = [it for it in documents.blocks_of(ROOT / "docs" / "SQL.md") if asked in it.needs]
    others = [[tool for tool in block.needs if tool != asked] for block in blocks]
    assert blocks
    for block, tools in zip(blocks, others):
        for command in documents.commands_of(block) if all(map(documents.is_there, tools)) else []:
            assert documents.printed(command, **environment) == command.wanted, command.words
    need(*(tool for tools in others for tool in tools))


# Long enough that a canonical text has no room at first.
MANY = "".join(f",USAGE[BBOX[1E40,-1E40,1E-40,{n}]]" for n in range(30))
CALLS = {
    f"crs_canon('{HEIGHT[:-1]}{MANY}]') IS NULL": "f",
    f"crs_kind('{HEIGHT}')": "vertical",
    f"crs_same('{HEIGHT}', '{NOTED}')": "f",
    f"crs_difference('{HEIGHT}', '{NOTED}')": "remark",
    f"crs_differences('{HEIGHT}', '{NOTED}')->0->>'path'": "remark",
    f"crs_refusal('{HEIGHT}x')": f"refused 6 Unexpected at {len(HEIGHT)}",
    f"left(crs_explain('{HEIGHT}x'), 9)": "refused 6",
    f"crs_canon('{sql_rows.OTHER}', 'full', '{sql_rows.RULES}')": sql_rows.FORM,
    f"crs_same('{HEIGHT}', '{sql_rows.OTHER}', 'full', '{sql_rows.RULES}')": "t",
}


@pytest.mark.parametrize("call", CALLS, ids=[f"{number}-{it.partition('(')[0]}" for number, it in enumerate(CALLS)])
def test_growths_refused(call: str, refusing_server: Server) -> None:
    """Each growth of memory refused in turn: out of memory, by its code; the same call answers then."""
    wanted, statements = CALLS[call], []
    for number in range(1, MOST_GROWTHS + 1):
        statements.append(("", f"SELECT refuse_growth({number});", ""))
        statements.append(("", f"\\set VERBOSITY sqlstate\nSELECT {call};", ""))
        statements.append(("", "SELECT refused_growths();", ""))
    found = refusing_server.printed(statements, "utf8")[:-1]
    trials = list(zip(found[1::3], found[2::3]))
    refused = [answer for answer, count in trials if count == "1"]
    answered = [answer for answer, count in trials if count == "0"]
    # The library does without some memory that it asks for: then it answers as ever.
    assert set(refused) - {wanted} == {"Error: 53200"} and set(answered) == {wanted}
    assert [count for _, count in trials] == ["1"] * len(refused) + ["0"] * len(answered)


def test_rules_are_read_once(refusing_server: Server) -> None:
    """Rules are read once a statement: it takes the growths of memory of one reading, where rules that change from row to
    row take those of one for each row."""
    names = "".join(f'SAME[DATUM["a{n}"],DATUM["b{n}"]]\n' for n in range(100))
    statements = []
    for rules in (f"'{names}'", f"'{names}# ' || n"):
        asked = (
            f"SELECT count(crs_canon('{HEIGHT}' || repeat(' ', n), 'full', {rules})) FROM generate_series(1, 50) AS n;"
        )
        statements += [
            ("", f"SELECT refuse_growth({2**30});", ""),
            ("", asked, ""),
            ("", "SELECT counted_growths();", ""),
        ]
    found = refusing_server.printed(statements, "utf8")
    constant, changing = int(found[2]), int(found[5])
    assert [found[1], found[4]] == ["50", "50"], "rules over rows"
    assert 4 * constant < changing
