#!/usr/bin/env python3
"""Makes the extension for PostgreSQL, from the files of sql/postgresql and the static library, by PGXS.

    build_postgresql.py [PREFIX [STAGE]]

PREFIX has the header and the library, as tools/build.py makes them (out/prefix where none is given).
Below the folder STAGE, sql/out/postgresql where none is given, its files are then under the paths at which the server
looks for them; what was in that folder before is gone. The server is that of the program that the environment variable
PG_CONFIG names, else of pg_config. It takes a C compiler, make, and the server's headers (Debian:
postgresql-server-dev-15).

The status is 0 where they are there, 3 where pg_config, make or the headers aren't there, else 2, with a line on
standard error.
"""
import os
import pathlib
import shutil
import subprocess
import sys
import tempfile
from typing import List, Optional

ROOT = pathlib.Path(__file__).resolve().parent.parent
SOURCES = ROOT / "sql" / "postgresql"
NO_HEADER = 3


def folder_of(kind: str) -> pathlib.Path:
    """A folder that pg_config names, such as pkglibdir. OSError or CalledProcessError where it names none."""
    words = [os.environ.get("PG_CONFIG", "pg_config"), f"--{kind}"]
    return pathlib.Path(subprocess.run(words, capture_output=True, text=True, check=True).stdout.strip())


def lacking() -> Optional[str]:
    """What isn't there of what the build takes, with the package that has it; None where all is."""
    if shutil.which("make") is None:
        return "no make"
    try:
        is_there = folder_of("pgxs").exists() and (folder_of("includedir-server") / "postgres.h").exists()
    except (OSError, subprocess.CalledProcessError):
        return "no pg_config (Debian: apt-get install postgresql-server-dev-15)"
    return None if is_there else "no headers of PostgreSQL's server (Debian: apt-get install postgresql-server-dev-15)"


def build(prefix: pathlib.Path, stage: pathlib.Path, flags: str) -> None:
    """Compiles, links and puts in place below a folder; CalledProcessError where the compiler refuses."""
    shutil.rmtree(stage, ignore_errors=True)
    stage.mkdir(parents=True)
    with tempfile.TemporaryDirectory() as scratch:
        for file in [*SOURCES.iterdir(), SOURCES.parent / "differences.h", SOURCES.parent / "rules.h"]:
            shutil.copy(file, scratch)
        words = ["make", "-s", "install", f"CRSDESK={prefix.resolve()}", f"DESTDIR={stage.resolve()}", f"COPT={flags}"]
        words.append(f"PG_CONFIG={os.environ.get('PG_CONFIG', 'pg_config')}")
        # The environment's variables for make are meant for other builds.
        environment = {
            key: value for key, value in os.environ.items() if key not in ("MAKEFLAGS", "MFLAGS", "MAKELEVEL")
        }
        subprocess.run(words, cwd=scratch, env=environment, stdout=sys.stderr, check=True)


def main(words: List[str]) -> int:
    if len(words) > 2 or words and words[0].startswith("-"):
        sys.exit(__doc__)
    prefix = pathlib.Path(words[0]) if words else ROOT / "out" / "prefix"
    stage = pathlib.Path(words[1]) if len(words) > 1 else ROOT / "sql" / "out" / "postgresql"
    try:
        lack = lacking()
        if lack:
            print(f"crsdesk: {lack}", file=sys.stderr)
            return NO_HEADER
        build(prefix, stage, "")
    except (OSError, subprocess.CalledProcessError) as error:
        print(f"crsdesk: the extension was not built: {error}", file=sys.stderr)
        return 2
    return 0


if __name__ == "__main__":
    sys.exit(main(sys.argv[1:]))
