"""What the installed database of PROJ, a registry of CRSs, has of a CRS. It is no part of sameness.

A CRS with an identifier of its own is compared with the registry's of that identifier, another one with those that PROJ
takes for it; the library says in which parts they differ, under rules if there are any.
"""

from __future__ import annotations

import enum
from dataclasses import dataclass, field
from typing import FrozenSet, List, NamedTuple, Optional, Sequence, Tuple

from .. import Difference, Refused, Rules, canon, differences
from .._tree import Node, text_of_node, tree_of
from .judging import rules_of
from .kinds import NOTHING, Kind, folded, is_placeholder, kind_of, with_whole_sets
from .proj import Candidate, Context, context


class Verdict(enum.Enum):
    """What a comparison with the registry says, those first that are looked at first."""

    OTHER_NAME = "bears another code's name"
    NUMBERS = "numbers"
    AXES = "axes"
    DATUM = "datum"
    UNKNOWN_CODE = "code isn't in the registry"
    UNREAD = "the registry's CRS isn't read"
    FILLED_IN = "axes that the text doesn't state"
    NAMES = "names and digits"
    UNIDENTIFIED = "not identified"
    SAME = "as registered"

    @property
    def is_finding(self) -> bool:
        """Whether it is looked at first."""
        return self in FINDINGS


FINDINGS = (Verdict.OTHER_NAME, Verdict.NUMBERS, Verdict.AXES, Verdict.DATUM, Verdict.UNKNOWN_CODE)
OF_KIND = {
    Kind.NUMBERS: Verdict.NUMBERS,
    Kind.AXES: Verdict.AXES,
    Kind.DATUM: Verdict.DATUM,
    Kind.NAMES: Verdict.NAMES,
}


class Asked(NamedTuple):
    """A CRS to look for: its canonical text, name and own identifiers, and what no text of it states."""

    text: str
    name: str
    identifiers: Tuple[str, ...]
    filled: FrozenSet[Kind] = NOTHING


class Guess(NamedTuple):
    """A CRS of the registry that PROJ takes for one, with its confidence in per cent."""

    identifier: str
    confidence: int


@dataclass
class Registered:
    """What the registry has of a CRS.

    ``identifier``  the identifier of the registry's CRS with which it is compared, its ``name``, and how confident PROJ
                    is that it is this one, in per cent; 100 if the text has the identifier
    ``parts``       in which the two differ at level ``definition``, under rules if there are any; ``first`` is the
                    registry's value
    ``guesses``     all that PROJ takes for it, if the text has no identifier
    ``other``       the identifier of another code whose name it bears
    """

    verdict: Verdict
    identifier: str = ""
    name: str = ""
    confidence: int = 0
    is_own: bool = False
    parts: List[Difference] = field(default_factory=list)
    guesses: List[Guess] = field(default_factory=list)
    other: str = ""


def registered(asked: Asked, ruling: Tuple[bytes, ...] = ()) -> Registered:
    """What the registry has of a CRS, compared under the rules of files of these bytes."""
    rules = rules_of(ruling)
    with context() as proj:
        # An identifier of an authority that isn't in the registry says nothing there.
        known = proj.authorities() if asked.identifiers else []
        own = [it for it in asked.identifiers if it.partition(":")[0] in known]
        for identifier in own:
            made = proj.from_code(identifier)
            if made:
                return compared(proj, asked, rules, Candidate(identifier, 100, proj.wkt_of(made)), True)
        if own:
            return Registered(Verdict.UNKNOWN_CODE, own[0], is_own=True)
        return identified(proj, asked, rules)


def identified(proj: Context, asked: Asked, rules: Optional[Rules]) -> Registered:
    """The comparison with the candidate that differs least, of those that differ alike the first."""
    made = proj.from_definition(without_identifiers(asked.text))
    candidates = proj.candidates_of(made) if made else []
    found = [compared(proj, asked, rules, it, False) for it in candidates]
    if not found:
        return Registered(Verdict.UNIDENTIFIED)
    best = min(found, key=severity)
    best.guesses = [Guess(it.identifier, it.confidence) for it in candidates]
    return best


def without_identifiers(text: str) -> str:
    """A text without the CRS's own identifiers, because PROJ would look only for these."""
    whole = tree_of(text)
    return text_of_node(Node(whole.keyword, [it for it in whole.items if isinstance(it, str) or it.keyword != "ID"]))


def severity(found: Registered) -> Tuple[int, int]:
    order = (
        Verdict.SAME,
        Verdict.NAMES,
        Verdict.FILLED_IN,
        Verdict.AXES,
        Verdict.OTHER_NAME,
        Verdict.NUMBERS,
        Verdict.DATUM,
    )
    return order.index(found.verdict) if found.verdict in order else len(order), -found.confidence


def compared(proj: Context, asked: Asked, rules: Optional[Rules], its: Candidate, is_own: bool) -> Registered:
    """The comparison with a CRS of the registry."""
    identifier, confidence, text = its
    try:
        texts = [canon(it, "definition", rules) for it in (text, asked.text)]
        parts = with_whole_sets(differences(text, asked.text, "definition", rules), *texts)
    except Refused:
        return Registered(Verdict.UNREAD, identifier, "", confidence, is_own)
    name = tree_of(text).name
    found = Registered(verdict_of(parts, asked.filled), identifier, name, confidence, is_own, parts)
    found.other = other_of_name(proj, asked.name, identifier, name)
    if found.other:
        found.verdict = Verdict.OTHER_NAME
    return found


def verdict_of(parts: Sequence[Difference], filled: FrozenSet[Kind]) -> Verdict:
    kind = kind_of(parts, filled)
    if kind is Kind.NAMES and kind_of(parts) is Kind.AXES:
        return Verdict.FILLED_IN
    return OF_KIND[kind] if parts else Verdict.SAME


def other_of_name(proj: Context, name: str, identifier: str, registered_name: str) -> str:
    """The identifier of another CRS of the registry that has a name; nothing if this one has it, by any alias."""
    if is_placeholder(name) or folded(name) == folded(registered_name):
        return ""
    identifiers = proj.identifiers_of_name(name)
    return "" if identifier in identifiers else next(iter(identifiers), "")
