"""Texts in other forms, as PROJ writes them in WKT2:2019: ``Crs.from_user`` of the package, as the audit needs it.

Whatever PROJ warns of, repairs, fills in or passes over refuses the text. A bound CRS is split: its source CRS is the
text, and its transformation is beside it.
"""

from __future__ import annotations

import functools
from typing import Dict, NamedTuple, Optional, Tuple

from .. import _foreign
from .._tree import nodes_in, number_shown


class Conversion(NamedTuple):
    """A text that PROJ has read.

    ``text``            in WKT2:2019; for a bound CRS, its source CRS
    ``producer``        the reader's name and version: ``PROJ 9.1.1, EPSG v10.076``
    ``warnings``        why it isn't taken, in PROJ's words if it has any; then there is no text
    ``transformation``  a bound CRS's in one line, its part of a key; nothing if there is none
    """

    text: str
    producer: str
    warnings: Tuple[str, ...] = ()
    transformation: str = ""


@functools.lru_cache(maxsize=1024)
def converted(text: bytes) -> Optional[Conversion]:
    """What PROJ reads a text as. None if the text has no form that PROJ is asked for. An archive has many copies."""
    if not _foreign.is_foreign(text):
        return None
    try:
        found = _foreign.read(text)
        return Conversion(found.text, found.reader, (), "; ".join(told_of(rest) for _, rest in found.bound))
    except _foreign.NotRead as error:
        return Conversion("", _foreign.reader() or "", (str(error),))


def told_of(written: str) -> str:
    """A transformation in a line: its method and parameters, their numbers in one spelling, and where it leads to."""
    nodes = {node.keyword: node for node in nodes_in(written)}
    target, way = nodes["TARGETCRS"].nodes[0], nodes["ABRIDGEDTRANSFORMATION"]
    method = way.child("METHOD")
    values: Dict[str, str] = {}
    for it in way.nodes:
        if it.keyword == "PARAMETER":
            factor = next((node.values[1] for node in it.nodes if node.keyword.endswith("UNIT")), "1")
            unit = "" if number_shown(factor) == "1" else f" * {number_shown(factor)}"
            values[it.name] = f"{number_shown(it.values[1])}{unit}"
        elif it.keyword == "PARAMETERFILE":
            values[it.name] = it.values[1]
    told = ", ".join(f"{name} {value}" for name, value in values.items())
    return f"{method.name if method else way.name} to {target.name}: {told}"
