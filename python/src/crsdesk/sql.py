"""Tables for SQL, which has no conversion: texts in other forms as texts in WKT2, read by PROJ (docs/SQL.md).

Rows are lines of PostgreSQL's COPY in its text form: columns between tabs, ``\\N`` for NULL, and tabs, ends of lines and
backslashes of values escaped.
"""

from __future__ import annotations

import re
from typing import List, Optional

from . import Crs

NULL = b"\\N"
ESCAPES = {b"\\": b"\\\\", b"\b": b"\\b", b"\f": b"\\f", b"\n": b"\\n", b"\r": b"\\r", b"\t": b"\\t", b"\v": b"\\v"}
PLAIN = {escape[1:]: value for value, escape in ESCAPES.items()}
ESCAPE, ESCAPED = re.compile(rb"\\(.)"), re.compile(b"[\\\\\b\f\n\r\t\v]")


def columns_of(row: bytes) -> List[bytes]:
    """A key and a text, as they are written; ``ValueError`` if there are more or fewer columns."""
    columns = row.split(b"\t")
    if len(columns) != 2:
        raise ValueError("not two columns, a key and a text")
    return columns


def filled(key: bytes, written: bytes) -> Optional[bytes]:
    """The row of a key and a text in any form that ``Crs.from_user`` reads: the key, the text in WKT2, and the
    transformation of a bound CRS, whose source CRS the text is. None for a blank text and for NULL; raises as
    ``Crs.from_user`` does."""
    text = b"" if written == NULL else ESCAPE.sub(lambda it: PLAIN.get(it[1], it[1]), written)
    if not text.strip():
        return None
    crs = Crs.from_user(text)
    transformation = crs.transformation
    return b"\t".join([key, escaped(crs.text), NULL if transformation is None else escaped(transformation.encode())])


def escaped(value: bytes) -> bytes:
    return ESCAPED.sub(lambda it: ESCAPES[it[0]], value)
