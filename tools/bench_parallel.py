#!/usr/bin/env python3
"""Times what reads a catalogue by several processes: Dask with 1, 2 and 4 workers, PostgreSQL with and without parallel
workers.

    bench_parallel.py [PREFIX [LINES]]

PREFIX has the header and the libraries, as tools/build.py makes them (out/prefix where none is given). The catalogue
has LINES lines (100,000) by tests/big_catalogue.py, four spellings of each CRS. A line is printed for each: the seconds
and the lines a second of the best of three runs, and the machine's load average before it. By Dask a bag of the file's
lines in eight blocks a worker is grouped, and the processor time of all workers is told, and how long it takes to gather
the answers; by PostgreSQL crs_canon is called for each row. It judges nothing. It takes a
Python that has dask, and a server of PostgreSQL; what isn't there is reported as skipped.
"""
from __future__ import annotations

import os
import pathlib
import subprocess
import sys
import tempfile
import time
from typing import Callable, List

ROOT = pathlib.Path(__file__).resolve().parent.parent
RUNS = 3

# The imports of the repository's own files leave nothing in it.
sys.dont_write_bytecode = True
sys.path.append(str(ROOT / "tests"))


def tell(name: str, lines: int, call: Callable[[], object]) -> None:
    load = os.getloadavg()[0]
    least = float("inf")
    for _ in range(RUNS):
        begin = time.perf_counter()
        call()
        least = min(least, time.perf_counter() - begin)
    print(f"{name}: {least:.2f} s, {lines / least:,.0f} lines a second; load average {load:.1f}", flush=True)


def time_dask(path: pathlib.Path, lines: int) -> None:
    from crsdesk import Catalogue, dask as own
    from dask.distributed import Client, LocalCluster, wait

    def by_one() -> None:
        catalogue = Catalogue()
        for line in path.read_bytes().split(b"\n")[:-1]:
            catalogue.add(line)

    tell("Catalogue, in one process", lines, by_one)
    for workers in (1, 2, 4):
        with LocalCluster(n_workers=workers, threads_per_worker=1, dashboard_address=None) as cluster:
            with Client(cluster) as client:
                client.run(own.lines_of, b"")
                bag = own.lines(str(path), blocksize=path.stat().st_size // (8 * workers) + 1)
                before = sum(client.run(time.process_time).values())
                # What comes back is a number a partition: the answers stay with the workers.
                tell(f"Dask, {workers} workers", lines, lambda: own.groups(bag).map_partitions(len_of).compute())
                used = sum(client.run(time.process_time).values()) - before
                print(f"  {used / RUNS / lines * 1e6:.1f} us of the processor a line, of all workers")
                answer = own.groups(bag).persist()
                wait(answer)
                begin = time.perf_counter()
                answer.compute()
                print(f"  gathered in {time.perf_counter() - begin:.2f} s")


def len_of(part: List[object]) -> List[int]:
    return [len(part)]


def time_postgresql(prefix: pathlib.Path, path: pathlib.Path, lines: int, folder: pathlib.Path) -> None:
    import build_postgresql
    import postgresql_server

    lack = build_postgresql.lacking()
    if lack:
        print(f"skipped: {lack}: PostgreSQL")
        return
    (folder / "server").mkdir()
    build_postgresql.build(prefix, folder / "stage", "")
    server = postgresql_server.Server(folder / "server", folder / "stage")
    os.environ["PATH"] = server.environment["PATH"]
    with server.running():
        server.printed([], "postgres", "CREATE EXTENSION crsdesk; CREATE TABLE texts (wkt text);")
        server.printed([], "postgres", f"\\copy texts FROM '{path}'\nVACUUM ANALYZE texts;")
        found = server.printed([("", "SELECT count(*), count(crs_canon(wkt)) FROM texts;", "")])
        print(f"PostgreSQL: rows and canonical texts {found[0]}")
        for workers in (0, 1, 2, 3):
            first = f"SET max_parallel_workers_per_gather = {workers}; SET min_parallel_table_scan_size = 0;"
            for name, statement in (
                ("count(crs_canon(wkt))", "SELECT count(crs_canon(wkt)) FROM texts;"),
                ("GROUP BY crs_canon(wkt)", "SELECT count(*) FROM (SELECT crs_canon(wkt) FROM texts GROUP BY 1) AS t;"),
                ("reading alone", "SELECT count(length(wkt)) FROM texts;"),
            ):
                tell(
                    f"PostgreSQL, {workers} parallel workers, {name}",
                    lines,
                    lambda: server.printed([("", statement, "")], "postgres", first),
                )


def main(words: List[str]) -> int:
    if len(words) > 2 or words and words[0].startswith("-"):
        sys.exit(__doc__)
    prefix = pathlib.Path(words[0]).resolve() if words else ROOT / "out" / "prefix"
    lines = int(words[1]) if len(words) > 1 else 100_000
    os.environ["CRSDESK_LIBRARY"] = str(prefix / "lib" / "libcrsdesk.so")
    os.environ["PYTHONPATH"] = os.pathsep.join([str(ROOT / "python" / "src"), str(ROOT / "tools")])
    sys.path.append(str(ROOT / "python" / "src"))
    with tempfile.TemporaryDirectory() as name:
        folder = pathlib.Path(name)
        folder.chmod(0o755)
        path = folder / "catalogue.txt"
        with path.open("wb") as out:
            made = [sys.executable, ROOT / "tests" / "big_catalogue.py", lines // 4, 4]
            subprocess.run([str(it) for it in made], stdout=out, check=True)
        try:
            import distributed  # noqa: F401
        except ImportError:
            print("skipped: dask isn't there: Dask")
        else:
            time_dask(path, lines)
        time_postgresql(prefix, path, lines, folder)
    return 0


if __name__ == "__main__":
    sys.exit(main(sys.argv[1:]))
