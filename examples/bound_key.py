#!/usr/bin/env python3
"""A key for a cache of transformers, for each text that PROJ reads.

    bound_key.py FILE...

A BOUNDCRS is a CRS with a transformation to another, which PROJ makes of TOWGS84, +towgs84 and +nadgrids. crsdesk
doesn't read it. Its key is the canonical text of its source CRS and its transformation; for any other CRS it is only
the canonical text. A text that crsdesk doesn't read is kept as pyproj writes it. So texts with equal keys have the same
CRS and the same transformation; one transformation in two spellings may have two keys. Two lines are printed for each
file, the parts of its key; the second is empty if there is no transformation.

It needs the packages crsdesk and pyproj, and PROJ's program projinfo. PROJ repairs a damaged text: a text about which
projinfo warns is an error here, since pyproj wouldn't say.
"""
import subprocess
import sys
from typing import List, Tuple

import crsdesk
import pyproj
from pyproj.exceptions import CRSError


def canonical(text: str) -> str:
    """The canonical text; the text itself if crsdesk doesn't read it."""
    try:
        return crsdesk.canon(text)
    except crsdesk.Refused:
        return text


def rewritten(text: str) -> str:
    """What PROJ writes of a text in WKT2. ValueError if it warns, or reads nothing."""
    words = ["projinfo", "--single-line", "-o", "WKT2:2019", text]
    done = subprocess.run(words, capture_output=True, text=True, check=False)
    heading, _, found = done.stdout.partition("\n")
    if done.returncode or done.stderr or not heading.startswith("WKT2:2019"):
        raise ValueError(done.stderr.strip() or heading)
    return found.strip()


def key(text: str) -> Tuple[str, str]:
    """The canonical text of the CRS, and the transformation of a BOUNDCRS."""
    try:
        return crsdesk.canon(text), ""
    except crsdesk.Refused:
        crs = pyproj.CRS(rewritten(text))
    source, transformation = crs.source_crs, crs.coordinate_operation
    if crs.is_bound and source is not None and transformation is not None:
        return canonical(source.to_wkt()), transformation.to_wkt()
    return canonical(crs.to_wkt()), ""


def main(names: List[str]) -> int:
    status = 0
    for name in names:
        try:
            with open(name, encoding="utf-8") as file:
                print("\n".join(key(file.read())))
        except (ValueError, OSError, CRSError) as error:
            print(f"{name}: {error}", file=sys.stderr)
            status = 1
    return status


if __name__ == "__main__":
    sys.exit(main(sys.argv[1:]))
