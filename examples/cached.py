#!/usr/bin/env python3
"""A cache by CRS that survives a restart, in a file of SQLite.

    cached.py CACHE FILE...

For each file it prints the answer of the CRS that its text spells, and whether that was made now or kept from before.
It needs the package crsdesk.
"""
import sqlite3
import sys
import time
from typing import Callable, List, Tuple

import crsdesk

TABLE = "CREATE TABLE IF NOT EXISTS answers (version, level, crs, answer, PRIMARY KEY (version, level, crs))"


class Cache:
    """Answers by CRS, at a level."""

    def __init__(self, path: str, level: crsdesk.Level = "full") -> None:
        self.level: crsdesk.Level = level
        self.connection = sqlite3.connect(path)
        self.connection.execute(TABLE)

    def answer(self, text: bytes, make: Callable[[bytes], str]) -> Tuple[str, bool]:
        """The answer of the CRS that a text spells, and whether it was made now. Refused if it spells none."""
        key = crsdesk.__version__, self.level, crsdesk.canon(text, self.level)
        select = "SELECT answer FROM answers WHERE version = ? AND level = ? AND crs = ?"
        row = self.connection.execute(select, key).fetchone()
        if row:
            return row[0], False
        made = make(text)
        with self.connection:
            self.connection.execute("INSERT OR IGNORE INTO answers VALUES (?, ?, ?, ?)", (*key, made))
        return made, True


def costly(text: bytes) -> str:
    """What takes long, and depends only on the CRS."""
    time.sleep(0.5)
    return f"a grid for a {crsdesk.check(text)} CRS"


def main(names: List[str]) -> int:
    if len(names) < 2:
        sys.exit(__doc__)
    cache = Cache(names[0], "definition")
    status = 0
    for name in names[1:]:
        with open(name, "rb") as file:
            text = file.read()
        try:
            answer, is_new = cache.answer(text, costly)
            print(f"{name}: {answer}, {'made' if is_new else 'kept'}")
        except crsdesk.Refused as refused:
            print(f"{name}: {refused.summary}")
            status = 1
    return status


if __name__ == "__main__":
    sys.exit(main(sys.argv[1:]))
