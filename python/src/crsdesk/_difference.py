"""A part in which two CRSs differ."""

from __future__ import annotations

from dataclasses import dataclass
from typing import List, Optional, Sequence

from ._shown import code_points, escaped

NOTHING = "none"


@dataclass(frozen=True)
class Difference:
    """A part in which two CRSs differ.

    - ``path``: its steps, such as ``datum/ellipsoid/flattening``; docs/SAMENESS.md lists the words. The number of a
      parameter is at ``conversion/parameters["False easting"]``, its unit and identifiers are at ``/unit``
      and ``/id`` behind that; the name is as the text has it, a quote in it doubled
    - ``first``: its value in the first CRS as the canonical text writes it; for a set the members that the second CRS's
      lacks, joined by commas; None if the first has nothing there
    - ``second``: the same of the second CRS

    ``str`` of it is a line such as ``datum/kind: ENSEMBLE | DATUM``; a missing value is ``none``, control characters
    and backslashes are escaped, such as ``\\n`` and ``\\x1B``, and code points follow values that may print alike.
    """

    path: str
    first: Optional[str]
    second: Optional[str]

    def __str__(self) -> str:
        points = code_points(self.first or "", self.second or "")
        return f"{escaped(self.path)}: {escaped(self.first or NOTHING)} | {escaped(self.second or NOTHING)}{points}"


def differences_of(pieces: Sequence[str]) -> List[Difference]:
    """The parts of the library's pieces (crsdesk_difference_pieces): path, first and second of each, one after the
    other, with an empty piece for a missing value."""
    parts = zip(pieces[::3], pieces[1::3], pieces[2::3])
    return [Difference(path, first or None, second or None) for path, first, second in parts]
