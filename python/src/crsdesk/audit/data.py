"""The report as data, for JSON: docs/audit.schema.json says its form."""

from __future__ import annotations

import dataclasses
import json
import os
from typing import Any, Dict, List, TextIO

from .. import Difference, __version__
from .kinds import rows_of
from .names import visible
from .registry import Registered
from .report import (
    Area,
    DataSet,
    Definition,
    NearMiss,
    Pair,
    Place,
    RefusedText,
    Report,
    RulesFile,
    Summary,
    Untold,
    Variant,
    cause_of,
)

FORM = "crsdesk audit 4"


def write_json(report: Report, file: TextIO) -> None:
    """Writes the report as one JSON text, in ASCII."""
    json.dump(data_of(report), file, indent=1)
    file.write("\n")


def data_of(report: Report) -> Dict[str, Any]:
    return {
        "form": FORM,
        "version": __version__,
        "paths": [name_of(path) for path in report.paths],
        "rules": [of_rules(it) for it in report.rules],
        "summary": of_summary(report.summary),
        "definitions": [of_definition(it) for it in report.definitions],
        "near_misses": [of_near_miss(it) for it in report.near_misses],
        "data_sets": [of_data_set(it) for it in report.data_sets],
        "areas": [of_area(it) for it in report.areas],
        "refused": [of_refused(it) for it in report.refused],
        "without": [of_untold(it) for it in report.without],
        "unread": [of_untold(it) for it in report.unread],
        "skipped": [of_untold(it) for it in report.skipped],
        "passed": [of_untold(it) for it in report.passed],
    }


def name_of(name: str) -> str:
    """A name; bytes in it that aren't UTF-8 are U+FFFD."""
    return os.fsencode(name).decode("utf-8", "replace") if has_odd_bytes(name) else name


def has_odd_bytes(name: str) -> bool:
    return any(0xD800 <= ord(character) <= 0xDFFF for character in name)


def of_rules(rules: RulesFile) -> Dict[str, Any]:
    """A rules file: its name and what it has; bytes in a comment that aren't UTF-8 are U+FFFD."""
    data = of_place(Place(rules.name))
    data["text"] = rules.text.decode("utf-8", "replace")
    return data


def of_place(place: Place) -> Dict[str, Any]:
    """A place: what isn't there, a layer or a line, is left out. ``file_bytes`` has a name that isn't UTF-8."""
    data: Dict[str, Any] = {"file": name_of(place.file)}
    if has_odd_bytes(place.file):
        data["file_bytes"] = os.fsencode(place.file).hex()
    if place.layer:
        data["layer"] = name_of(place.layer)
    if place.line:
        data["line"] = place.line
    if place.read_by:
        data["read_by"] = place.read_by
    if place.filled:
        data["filled"] = [it.label for it in sorted(place.filled)]
    return data


def of_summary(summary: Summary) -> Dict[str, Any]:
    data = dataclasses.asdict(summary)
    data["others"] = {name_of(suffix): count for suffix, count in summary.others.items()}
    data["refused_by_number"] = [it._asdict() for it in summary.refused_by_number]
    data["causes"] = [it._asdict() for it in summary.causes]
    return data


def of_definition(definition: Definition) -> Dict[str, Any]:
    return {
        "number": definition.number,
        "name": definition.name,
        "kind": definition.kind,
        "identifiers": definition.identifiers,
        "texts": definition.texts,
        "text": definition.text,
        "transformation": definition.transformation or None,
        "variants": [of_variant(it) for it in definition.variants],
    }


def of_variant(variant: Variant) -> Dict[str, Any]:
    return {
        "number": variant.number,
        "identifiers": list(variant.crs.identifiers),
        "text": variant.crs.full,
        "transformation": variant.crs.transformation or None,
        "parts": of_parts(variant.parts),
        "registered": of_registered(variant.registered) if variant.registered else None,
        "places": [of_place(it) for it in variant.places],
    }


def of_registered(found: Registered) -> Dict[str, Any]:
    return {
        "verdict": found.verdict.value,
        "identifier": found.identifier or None,
        "name": found.name or None,
        "confidence": found.confidence,
        "is_own": found.is_own,
        "other": found.other or None,
        "guesses": [it._asdict() for it in found.guesses],
        "parts": of_kinds(found.parts),
    }


def of_parts(parts: List[Difference]) -> List[Dict[str, Any]]:
    return [{"path": it.path, "first": it.first, "second": it.second} for it in parts]


def of_kinds(parts: List[Difference]) -> List[Dict[str, Any]]:
    """Parts with what kind of difference each is; a set of parameters gives a part for each parameter."""
    return [{**row._asdict(), "kind": row.kind.label} for row in rows_of(parts)]


def of_pair(pair: Pair) -> Dict[str, Any]:
    return {
        "first": pair.first,
        "second": pair.second,
        "identifiers": pair.identifiers,
        "kind": pair.kind.label,
        "parts": of_kinds(pair.parts),
    }


def of_near_miss(miss: NearMiss) -> Dict[str, Any]:
    return {"by": miss.by, "value": miss.value, "kind": miss.kind.label, "pairs": [of_pair(it) for it in miss.pairs]}


def of_data_set(data_set: DataSet) -> Dict[str, Any]:
    return {
        "path": name_of(data_set.path),
        "kind": None if data_set.kind is None else data_set.kind.label,
        "texts": [
            {"place": of_place(it.place), "definition": it.definition.number if it.definition else None}
            for it in data_set.rows
        ],
        "pairs": [of_pair(it) for it in data_set.pairs],
    }


def of_area(area: Area) -> Dict[str, Any]:
    return {**area.box._asdict(), "texts": area.texts, "definitions": area.definitions}


def of_refused(refused: RefusedText) -> Dict[str, Any]:
    found = refused.refusal
    return {
        "place": of_place(refused.place),
        "number": found.number,
        "name": found.name,
        "byte": found.place,
        "line": found.line,
        "column": found.column,
        "length": found.length,
        "piece": found.piece or None,
        "expected": list(found.expected),
        "meaning": found.meaning,
        "hint": found.hint or None,
        "cause": cause_of(found),
        "doubts": list(found.doubts),
    }


def of_untold(untold: Untold) -> Dict[str, Any]:
    return {"place": of_place(untold.place), "why": visible(untold.why)}
