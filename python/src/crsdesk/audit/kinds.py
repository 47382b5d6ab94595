"""What kind of difference the parts are in which two CRSs differ: numbers, the axes, the datum, the transformation, or names
and digits.

Differences are the library's. A kind says which to look at first, and is no part of sameness.
"""

from __future__ import annotations

import enum
import re
import unicodedata
from decimal import Decimal, InvalidOperation
from typing import Dict, FrozenSet, Iterator, List, NamedTuple, Optional, Sequence, Tuple

from .. import Difference
from .._tree import Node, nodes_in, text_of_node, tree_of, unquoted


class Kind(enum.IntEnum):
    """The kinds, in the order to look at them.

    ``NUMBERS``  numbers that differ in more than their last digits; another method
    ``AXES``     directions or order of the axes, or how many there are
    ``DATUM``    another reference frame, epoch or geoid, or a CRS of another kind
    ``SHIFT``    another transformation, such as a ``TOWGS84``, or one beside none
    ``NAMES``    names, identifiers, usages, and numbers in their last digits
    """

    NUMBERS = 0
    AXES = 1
    DATUM = 2
    SHIFT = 3
    NAMES = 4

    @property
    def label(self) -> str:
        return LABELS[self]


LABELS = {
    Kind.NUMBERS: "numbers",
    Kind.AXES: "axes",
    Kind.DATUM: "datum",
    Kind.SHIFT: "transformation",
    Kind.NAMES: "names and digits",
}
# The kinds of parts that a reader fills in where a text, or a format, has no place for them.
NOTHING: FrozenSet[Kind] = frozenset()
NO_AXES = frozenset((Kind.AXES,))
# Numbers that differ by less than this part of the larger one differ only in digits. It is less than the difference of
# the flattenings of WGS 84 and GRS 1980, which is 5 parts in 10^9.
NEAR = 1e-9
NEAR_ZERO = 1e-10
TRANSFORMATION = "transformation"
WITHOUT_NUMBERS = frozenset(("usage", "id", "remark", "members", "accuracy", "anchor", "anchorepoch", "model"))
# The path to a set of parameters, and then perhaps the name of one.
PARAMETERS = re.compile(r'((?:[a-z0-9]+/)*parameters)(?:$|\[")')
# Names that tools write where they know none.
PLACEHOLDERS = frozenset(("", "unknown", "unnamed", "undefined", "unknown crs", "custom", "user defined"))


class Row(NamedTuple):
    """A part that differs, or a parameter or member of one, and its kind."""

    path: str
    first: Optional[str]
    second: Optional[str]
    kind: Kind


def kind_of(parts: Sequence[Difference], filled: FrozenSet[Kind] = NOTHING) -> Kind:
    """The kind of a pair of CRSs: the first of its parts' kinds, except kinds that a reader filled in on a side."""
    return min((row.kind for row in rows_of(parts) if row.kind not in filled), default=Kind.NAMES)


def rows_of(parts: Sequence[Difference]) -> List[Row]:
    """The parts, a row each; a set of parameters or members has a row for each member."""
    by_path = {part.path: part for part in parts}
    rows: List[Row] = []
    for part in parts:
        last = part.path.rpartition("/")[2]
        if last == "parameters" or last == "members" and part.first and part.second:
            rows += rows_of_set(part, last == "parameters")
        else:
            rows.append(Row(part.path, part.first, part.second, kind_of_part(part, by_path)))
    return rows


def kind_of_part(part: Difference, by_path: Dict[str, Difference]) -> Kind:
    steps = [step for step in part.path.split("/") if step not in ("horizontal", "vertical", "base")]
    first, last = (steps or [""])[0], (steps or [""])[-1]
    if last in WITHOUT_NUMBERS:
        return Kind.NAMES
    if last == "unit":
        front = part.path.rpartition("/")[0]
        # Numbers that differ are compared in their units.
        is_of_number = any(f"{front}/{name}" in by_path for name in ("longitude", "semimajor"))
        return Kind.NAMES if is_of_number else kind_of_units(part)
    if first in ("datum", "meridian"):
        return kind_of_frame(part, last, by_path)
    if first == "system":
        is_name = last == "name" and part.first is not None and part.second is not None
        return Kind.NAMES if is_name else Kind.AXES
    if first == "kind":
        return Kind.AXES if {part.first, part.second} == {"geodetic", "geographic"} else Kind.DATUM
    if first in ("dynamic", "geoid"):
        return Kind.DATUM if part.first is not None and part.second is not None else Kind.NAMES
    if first == TRANSFORMATION:
        return Kind.SHIFT
    return kind_of_methods(part, by_path) if part.path.endswith("method/name") else Kind.NAMES


def kind_of_methods(part: Difference, by_path: Dict[str, Difference]) -> Kind:
    """Methods of one name differ in names. So do variants of one, as Mercator's A and B, where no parameter differs but
    those that do nothing."""
    if folded(part.first) == folded(part.second):
        return Kind.NAMES
    fronts = {folded((name or "").partition("(")[0]) for name in (part.first, part.second)}
    parameters = by_path.get(part.path.replace("method/name", "parameters"))
    rows = list(rows_of_set(parameters, True)) if parameters else []
    return Kind.NAMES if len(fronts) == 1 and all(row.kind is Kind.NAMES for row in rows) else Kind.NUMBERS


def kind_of_frame(part: Difference, last: str, by_path: Dict[str, Difference]) -> Kind:
    """The kind of a part of a datum or of a prime meridian."""
    if last in ("semimajor", "flattening", "longitude"):
        units = by_path.get(f"{part.path.rpartition('/')[0]}/unit")
        factors = [factor_of(units.first), factor_of(units.second)] if units and last != "flattening" else [None, None]
        numbers = [number_of(value) for value in (part.first, part.second)]
        return Kind.NAMES if are_near(*map(product, numbers, factors)) else Kind.NUMBERS
    if last == "name" and "ellipsoid" not in part.path and "meridian" not in part.path:
        return Kind.NAMES if datum_folded(part.first) == datum_folded(part.second) else Kind.DATUM
    return Kind.NAMES


def kind_of_units(part: Difference) -> Kind:
    """Units of one size differ in names; a unit beside none is one that is stated elsewhere."""
    factors = factor_of(part.first), factor_of(part.second)
    return Kind.NAMES if None in factors or are_near(*factors) else Kind.NUMBERS


# Sets.


def with_whole_sets(parts: Sequence[Difference], first: str, second: str) -> List[Difference]:
    """The parts in which the CRSs of two canonical texts differ, with the set of parameters as one part: the number of a
    parameter is judged in its unit, whichever of them differs."""
    found: Dict[str, Difference] = {}
    for part in parts:
        of_set = PARAMETERS.match(part.path)
        whole = whole_set(of_set[1], first, second) if of_set else part
        found.setdefault(whole.path, whole)
    return list(found.values())


def whole_set(path: str, first: str, second: str) -> Difference:
    """The parameters of either text that the other one lacks."""
    sides = [[text_of_node(it) for it in tree_of(text).all() if it.keyword == "PARAMETER"] for text in (first, second)]
    lacking = [",".join(it for it in these if it not in others) for these, others in (sides, sides[::-1])]
    return Difference(path, lacking[0] or None, lacking[1] or None)


def rows_of_set(part: Difference, is_of_parameters: bool) -> Iterator[Row]:
    """A row for each parameter or member that differs, by its name."""
    sides = [by_name(value) for value in (part.first, part.second)]
    for key in dict.fromkeys([*sides[0], *sides[1]]):
        both = [side.get(key) for side in sides]
        name = next(node.name for node in both if node is not None)
        texts = [text_of_node(node) if node else None for node in both]
        kind = kind_of_parameters(*both) if is_of_parameters else Kind.NAMES
        yield Row(f"{part.path}/{name}", texts[0], texts[1], kind)


def by_name(written: Optional[str]) -> Dict[str, Node]:
    return {folded(node.name): node for node in nodes_in(written or "")}


def kind_of_parameters(first: Optional[Node], second: Optional[Node]) -> Kind:
    """The values of two parameters of one name count, each in its unit; one that is only on one side counts unless it
    does nothing there."""
    sides = [number_and_factor(it) for it in (first, second) if it is not None]
    if len(sides) == 1:
        return Kind.NAMES if sides[0][0] in (0, 1) else Kind.NUMBERS
    if any(factor is None for _, factor in sides):
        # The unit of one of them is stated elsewhere in its CRS.
        return Kind.NAMES if are_near(*(number for number, _ in sides)) else Kind.NUMBERS
    return Kind.NAMES if are_near(*(product(*it) for it in sides)) else Kind.NUMBERS


def number_and_factor(parameter: Node) -> Tuple[Optional[Decimal], Optional[Decimal]]:
    """A parameter's number, and the factor of its unit, if it has one."""
    number = number_of(parameter.values[1]) if len(parameter.values) > 1 else None
    units = [node for node in parameter.nodes if node.keyword.endswith("UNIT")]
    return number, number_of(units[0].values[1]) if units and len(units[0].values) > 1 else None


# Values.


def factor_of(unit: Optional[str]) -> Optional[Decimal]:
    """The factor of a unit that is written as a node."""
    nodes = nodes_in(unit or "")
    return number_of(nodes[0].values[1]) if nodes and len(nodes[0].values) > 1 else None


def number_of(written: Optional[str]) -> Optional[Decimal]:
    try:
        return None if written is None else Decimal(written)
    except InvalidOperation:
        return None


def product(number: Optional[Decimal], factor: Optional[Decimal]) -> Optional[Decimal]:
    return number if number is None or factor is None else number * factor


def are_near(first: Optional[Decimal], second: Optional[Decimal]) -> bool:
    """Whether two numbers differ in their last digits at most."""
    if first is None or second is None:
        return first is second
    one, other = float(first), float(second)
    return abs(one - other) <= max(NEAR * max(abs(one), abs(other)), NEAR_ZERO)


def folded(name: Optional[str]) -> str:
    """A name's letters and digits, without case."""
    return re.sub(r"[\W_]+", "", unicodedata.normalize("NFKC", unquoted(name or "")).casefold())


def datum_folded(name: Optional[str]) -> str:
    """A datum's name, without what tools add to it."""
    return re.sub(r"ensemble$", "", folded(re.sub(r"^D_", "", unquoted(name or ""))))


def is_placeholder(name: str) -> bool:
    return name.strip().casefold() in PLACEHOLDERS
