"""Files that belong to one data set: a shapefile and the texts beside it, a raster and the text beside it."""

from __future__ import annotations

import re
from typing import FrozenSet, NamedTuple, Optional

from .kinds import NO_AXES, NOTHING, Kind

# The texts beside a data set, and what they may lie beside.
BESIDE = (".prj", ".qpj")
MAIN = (".shp", ".tif", ".tiff", ".jp2", ".img", ".asc", ".tab", ".mif", ".dxf")
MAPINFO = (".tab", ".mif")
SUFFIX = "|".join(re.escape(suffix) for suffix in (*BESIDE, *MAIN))
FILE = re.compile(rf"(.*)({SUFFIX})", re.DOTALL | re.I)
# In an archive a member is before the layer.
MEMBER = re.compile(rf"(.*?)({SUFFIX})(:.*)?", re.DOTALL | re.I)


class Belongs(NamedTuple):
    """The data set that a text may belong to: the archive that it is in, if any, its path without the suffix; and the
    suffix of the text's file."""

    archive: str
    path: str
    suffix: str

    @property
    def is_beside(self) -> bool:
        return self.suffix in BESIDE


def belongs_to(file: str, layer: str) -> Optional[Belongs]:
    """Where a text of a file belongs; None if it is by itself."""
    is_member = bool(layer) and file.lower().endswith(".zip")
    match = MEMBER.fullmatch(layer) if is_member else FILE.fullmatch(file)
    return Belongs(file if is_member else "", match[1], match[2].lower()) if match else None


def filled_by(file: str, layer: str) -> FrozenSet[Kind]:
    """What GDAL fills in if a text is what it writes of a data set. None of the formats beside which texts lie has
    axes, and MapInfo's have a datum's number, for which GDAL has names of its own."""
    belongs = belongs_to(file, layer)
    if belongs is None or belongs.is_beside:
        return NOTHING
    return NO_AXES | {Kind.DATUM} if belongs.suffix in MAPINFO else NO_AXES
