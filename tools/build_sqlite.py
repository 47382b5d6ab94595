#!/usr/bin/env python3
"""Makes the extension for SQLite, from sql/crsdesk_sqlite.c and the static library.

    build_sqlite.py [PREFIX [FILE]]

PREFIX has the header and the library, as tools/build.py makes them (out/prefix where none is given).
FILE, sql/out/crsdesk_sqlite.so where none is given, then needs the C library and nothing else. It
takes a C compiler, cc, and SQLite's header sqlite3ext.h (Debian: libsqlite3-dev). The environment variables CPPFLAGS,
CFLAGS and LDFLAGS have more words for the compiler and the linker.

The status is 0 where it is there, 3 where the compiler or the header isn't, else 2, with a line on standard error.
"""
import os
import pathlib
import shlex
import shutil
import subprocess
import sys
from typing import List

ROOT = pathlib.Path(__file__).resolve().parent.parent
SOURCES = ROOT / "sql"
FLAGS = ["-std=c99", "-O2", "-fPIC", "-Wall", "-Wextra", "-pedantic"]
NO_HEADER = 3


def asked(variable: str) -> List[str]:
    """The words that a variable of the environment has."""
    return shlex.split(os.environ.get(variable, ""))


def has_header() -> bool:
    """Whether there is a compiler, and it finds SQLite's header."""
    if not shutil.which("cc"):
        return False
    words = ["cc", *asked("CPPFLAGS"), "-E", "-x", "c", "-o", "/dev/null", "-"]
    done = subprocess.run(words, input=b"#include <sqlite3ext.h>\n", capture_output=True, check=False)
    return done.returncode == 0


def build(prefix: pathlib.Path, file: pathlib.Path, more: List[str]) -> None:
    """Compiles and links; CalledProcessError where the compiler refuses."""
    file.parent.mkdir(parents=True, exist_ok=True)
    linker = [f"-Wl,--version-script={SOURCES / 'symbols.map'}", "-Wl,-z,defs", "-Wl,--gc-sections", *asked("LDFLAGS")]
    more = [*asked("CPPFLAGS"), *asked("CFLAGS"), *more]
    words = ["cc", *FLAGS, *more, "-shared", "-I", prefix / "include", "-o", file, SOURCES / "crsdesk_sqlite.c"]
    subprocess.run([*map(str, words), *linker, str(prefix / "lib" / "libcrsdesk.a")], check=True)


def main(words: List[str]) -> int:
    if len(words) > 2 or words and words[0].startswith("-"):
        sys.exit(__doc__)
    prefix = pathlib.Path(words[0]) if words else ROOT / "out" / "prefix"
    file = pathlib.Path(words[1]) if len(words) > 1 else SOURCES / "out" / "crsdesk_sqlite.so"
    try:
        if not has_header():
            print(
                "crsdesk: no cc, or no header sqlite3ext.h (Debian: apt-get install gcc libsqlite3-dev)",
                file=sys.stderr,
            )
            return NO_HEADER
        build(prefix, file, [])
    except (OSError, subprocess.CalledProcessError) as error:
        print(f"crsdesk: the extension was not built: {error}", file=sys.stderr)
        return 2
    return 0


if __name__ == "__main__":
    sys.exit(main(sys.argv[1:]))
