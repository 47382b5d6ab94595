"""The report as a table, for CSV: one row per text, in the order of the files."""

from __future__ import annotations

import csv
from typing import List, TextIO

from .names import readable, visible
from .report import Report, Row

HEAD = (
    "file",
    "layer",
    "line",
    "data_set",
    "definition",
    "crs",
    "kind",
    "name",
    "refusal",
    "read_by",
    "registry",
    "rules",
)
# What a formula begins with, also in the wide forms of these characters; and the apostrophe itself.
FORMULA = tuple("=+-@\t\r\n＝＋－＠'")


def write_csv(report: Report, file: TextIO) -> None:
    """Writes a head, and one row per text. ``crs`` is the definition's number and, after a point, the CRS's in it;
    texts of one data set have its path in ``data_set``; ``rules`` are the files under which definitions are grouped."""
    table = csv.writer(file, lineterminator="\r\n")
    table.writerow(HEAD)
    paths = {it.place: data_set.path for data_set in report.data_sets for it in data_set.rows}
    rules = "; ".join(readable(it.name) for it in report.rules)
    table.writerows(map(harmless, [*cells_of(row, paths.get(row.place, "")), rules]) for row in report.rows)


def harmless(cell: str) -> str:
    """A cell that no program takes for a formula: one that begins as one has an apostrophe before it, and so has one that
    begins with an apostrophe."""
    return f"'{cell}" if cell.startswith(FORMULA) else cell


def cells_of(row: Row, data_set: str) -> List[str]:
    place = [readable(row.place.file), readable(row.place.layer), str(row.place.line or ""), readable(data_set)]
    if row.definition and row.variant:
        number, crs, found = row.definition.number, row.variant.crs, row.variant.registered
        numbers = [str(number), f"{number}.{row.variant.number}"]
        verdict = found.verdict.value if found else ""
        return [*place, *numbers, crs.kind, visible(crs.name), "", row.place.read_by, verdict]
    refusal = row.refusal
    told = f"{refusal.number} {refusal.name} at {refusal.place}" if refusal else ""
    return [*place, "", "", "", "", told, "", ""]
