#!/usr/bin/env python3
"""Times the functions of SQL over a table, beside the same calls from C.

    bench_sql.py [PREFIX [ROWS]]

PREFIX has the header and the static library, as tools/build.py makes them (out/prefix where none is
given). The table has ROWS rows (100,000), the lines of examples/catalogue.txt that spell a CRS again and again. A line
is printed for each statement: its nanoseconds of the processor a row, the least of nine runs of the program sqlite3, by
turns with the same call from C; and of reading the rows alone. Results are written to /dev/null, or counted. It judges
nothing.
"""
import pathlib
import subprocess
import sys
import tempfile
from typing import List

# The import of the file beside this one leaves nothing in the repository.
sys.dont_write_bytecode = True
from bench_python import FromC

ROOT = pathlib.Path(__file__).resolve().parent.parent
RUNS = 9


def seconds(words: List[str], script: str) -> float:
    """The processor's time that the program sqlite3 takes for the last statement of a script, as it reports it."""
    done = subprocess.run(words, input=script.encode(), stdout=subprocess.PIPE, check=True).stdout.decode()
    times = [line for line in done.split("\n") if line.startswith("Run Time:")]
    _, _, _, _, _, user, _, system = times[-1].split()
    return float(user) + float(system)


def make_table(folder: str, rows: int) -> List[bytes]:
    """Makes the table in FOLDER/table.db, and answers its texts, which have no line ends."""
    lines = (ROOT / "examples" / "catalogue.txt").read_bytes().replace(b"\r", b" ").split(b"\n")
    values = ",".join(f"(CAST(X'{line.hex()}' AS TEXT))" for line in lines)
    script = f"""
        .load {folder}/crsdesk_sqlite
        CREATE TABLE texts (definition_12_063 TEXT NOT NULL);
        WITH RECURSIVE n(i) AS (SELECT 1 UNION ALL SELECT i + 1 FROM n WHERE i < {rows}), found(wkt) AS (VALUES {values})
        INSERT INTO texts SELECT wkt FROM n CROSS JOIN found WHERE crs_kind(wkt) IS NOT NULL LIMIT {rows};
        SELECT definition_12_063 FROM texts;
    """
    words = ["sqlite3", f"{folder}/table.db"]
    script = script.replace("        ", "")
    return subprocess.run(words, input=script.encode(), stdout=subprocess.PIPE, check=True).stdout.splitlines()


def main(words: List[str]) -> int:
    if len(words) > 2 or words and words[0].startswith("-"):
        sys.exit(__doc__)
    prefix = pathlib.Path(words[0]).resolve() if words else ROOT / "out" / "prefix"
    rows = int(words[1]) if len(words) > 1 else 100_000
    statements = {
        "reading": "SELECT count(definition_12_063 || '') FROM texts;",
        "crs_canon": "SELECT crs_canon(definition_12_063) FROM texts;",
        "crs_canon, counted": "SELECT count(crs_canon(definition_12_063)) FROM texts;",
        "crs_kind, counted": "SELECT count(crs_kind(definition_12_063)) FROM texts;",
        "crs_same, counted": "SELECT count(crs_same(definition_12_063, definition_12_063)) FROM texts;",
    }
    least = {name: float("inf") for name in statements}
    with tempfile.TemporaryDirectory() as folder:
        build = [sys.executable, str(ROOT / "tools" / "build_sqlite.py"), str(prefix), f"{folder}/crsdesk_sqlite.so"]
        subprocess.run(build, check=True)
        texts = make_table(folder, rows)
        base = FromC(prefix, folder, texts)
        for _ in range(RUNS):
            base.run(1)
            for name, statement in statements.items():
                script = f".load {folder}/crsdesk_sqlite\n.output /dev/null\n.timer on\n{statement}\n"
                took = seconds(["sqlite3", f"{folder}/table.db"], script) * 1e9 / rows
                least[name] = min(least[name], took)
    print(f"{len(texts)} rows, {sum(map(len, texts)) // len(texts)} bytes on average")
    same_calls = {"crs_canon": base.least["canon"], "crs_kind": base.least["check"]}
    for name, took in least.items():
        from_c = same_calls.get(name.split(",")[0])
        print(f"{name}: {took:.0f} ns a row" + (f", from C {from_c:.0f}: {took / from_c:.2f} times" if from_c else ""))
    return 0


if __name__ == "__main__":
    sys.exit(main(sys.argv[1:]))
