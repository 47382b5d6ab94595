"""The report's summary and near misses, as lines of a terminal."""

from __future__ import annotations

import collections
import os
from typing import Iterable, Iterator, Optional, Sequence, Tuple

from .. import Difference
from .kinds import Kind, rows_of
from .names import counted, place_shown, readable, visible
from .report import Definition, NearMiss, Pair, Report, Summary, bearing, findings_of, stating, verdict_told

# How many near misses are shown, beside all that are likely mistakes; and of each how many pairs, parts, and characters of
# a value.
MOST_MISSES = 20
MOST_PAIRS = 20
MOST_PARTS = 8
MOST_CHARACTERS = 60
SOURCE = ", in the groups of their source CRSs"


def lines_of(report: Report) -> Iterator[str]:
    """The summary, and the near misses, those that are most likely mistakes first."""
    causes = "; ".join(f"{visible(it.name)}: {it.texts:,}" for it in report.summary.causes)
    for label, value in [*summary_rows(report), *([("causes", causes)] if causes else [])]:
        yield f"{label:<13}{value}"
    for data_set in [it for it in report.data_sets if it.disagrees][:MOST_MISSES]:
        yield ""
        yield f"the texts of {readable(data_set.path)} disagree"
        yield from pair_lines(report, data_set.pairs, None, [place_shown(row.place) for row in data_set.rows])
    yield from registry_lines(report)
    shown = max(MOST_MISSES, sum(it.is_likely for it in report.near_misses))
    for miss in report.near_misses[:shown]:
        yield ""
        yield from near_miss_lines(report, miss)
    if len(report.near_misses) > shown:
        yield ""
        yield f"{len(report.near_misses) - shown:,} more near misses: --html and --json have all"


def summary_rows(report: Report) -> Iterator[Tuple[str, str]]:
    """What is counted, as labels and values; the page shows them too."""
    summary = report.summary
    yield "files", f"{summary.files:,}{others_told(summary)}"
    yield "texts", f"{summary.texts:,}: {summary.accepted:,} accepted, {summary.refused:,} refused"
    if report.rules:
        yield "rules", ", ".join(readable(it.name) for it in report.rules)
    under = f", {summary.definitions:,} under the rules" if report.rules else ""
    differ = f"{summary.without_rules:,} differ in more than identifiers, usages and remarks{under}"
    yield "CRSs", f"{summary.crss:,}, of which {differ}"
    yield "repeats", f"{counted(summary.copies, 'copy', 'copies')} of a text, {counted(summary.respellings, 'other spelling')} of a CRS"
    if summary.converted:
        yield "converted", f"{counted(summary.converted, 'text')} by {summary.read_by}"
    if summary.bound:
        yield "bound", f"{counted(summary.bound, 'text')} with a transformation{SOURCE if report.takes_source else ''}"
    if summary.data_sets:
        yield "data sets", f"{summary.data_sets:,} of several texts, of which {summary.disagreeing:,} disagree"
    if summary.registry:
        yield "registry", "; ".join(
            f"{verdict}: {counted(texts, 'text')}" for verdict, texts in summary.registry.items()
        )
    yield "near misses", near_misses_told(report)
    if report.without:
        yield "without", f"{counted(len(report.without), 'place')} without a CRS: {whys_of(it.why for it in report.without)}"
    if report.unread:
        yield "unread", f"{counted(len(report.unread), 'place')} can't be read"
    for lacking, files in collections.Counter(it.why for it in report.skipped).items():
        yield "skipped", f"{lacking} isn't there: {counted(files, 'file')}"


def others_told(summary: Summary) -> str:
    if not summary.others:
        return ""
    kinds = ", ".join(
        f"{visible(suffix) or 'no suffix'} {count:,}" for suffix, count in list(summary.others.items())[:8]
    )
    more = ", .." if len(summary.others) > 8 else ""
    return f"; {sum(summary.others.values()):,} others aren't read ({kinds}{more})"


def whys_of(whys: Iterable[str]) -> str:
    return ", ".join(f"{visible(why)} {count:,}" for why, count in collections.Counter(whys).most_common())


def near_misses_told(report: Report) -> str:
    """How many there are, by the kind of what differs."""
    counts = collections.Counter(it.kind for it in report.near_misses)
    kinds = ", ".join(f"{kind.label} {counts[kind]:,}" for kind in sorted(counts))
    return f"{len(report.near_misses):,}{f' ({kinds})' if kinds else ''}"


def near_miss_lines(report: Report, miss: NearMiss) -> Iterator[str]:
    head = f"of the {miss.by} {cut(visible(miss.value))}"
    yield f"{counted(miss.crss, 'CRS', 'CRSs')} {head}: {miss.kind.label}"
    yield from pair_lines(report, miss.pairs, miss)


def pair_lines(
    report: Report, pairs: Sequence[Pair], miss: Optional[NearMiss] = None, files: Sequence[str] = ()
) -> Iterator[str]:
    """The first definition of pairs, and each other one with the parts in which it differs."""
    first = 0
    for pair in pairs[:MOST_PAIRS]:
        if pair.first != first:
            first = pair.first
            yield from definition_lines(report.definitions[first - 1], miss, pair.kind)
        yield from definition_lines(report.definitions[pair.second - 1], miss, pair.kind)
        yield from part_lines(pair.parts)
    if len(pairs) > MOST_PAIRS:
        yield f"  .. and {counted(len(pairs) - MOST_PAIRS, 'CRS', 'CRSs')} more"
    yield from (f"  {file}" for file in files)


def definition_lines(definition: Definition, miss: Optional[NearMiss], kind: Kind) -> Iterator[str]:
    """A definition, and which of its texts have the near miss's name or identifier, or axes of their own where these
    differ, where not all have."""
    yield f"  {told_of(definition)}"
    places = bearing(definition, miss) if miss else []
    if miss and places:
        yield f"    with this {miss.by} {counted(len(places), 'text')}, first {place_shown(places[0])}"
    places = stating(definition, kind) if miss else []
    if places:
        yield f"    with {kind.label} of its own {counted(len(places), 'text')}, first {place_shown(places[0])}"


def part_lines(parts: Sequence[Difference]) -> Iterator[str]:
    rows = sorted(rows_of(parts), key=lambda it: it.kind)
    for row in rows[:MOST_PARTS]:
        yield f"    {visible(str(cut_both(Difference(row.path, row.first, row.second))))}"
    if len(rows) > MOST_PARTS:
        yield f"    .. and {counted(len(rows) - MOST_PARTS, 'part')} more"


def registry_lines(report: Report) -> Iterator[str]:
    """The CRSs that differ from the registry's, what is looked at first before the others."""
    found = findings_of(report)
    for definition, variant, its in found[:MOST_MISSES]:
        yield ""
        yield f"not as {its.identifier or 'registered'}: {verdict_told(its)}"
        identifiers = "".join(f" {visible(it)}" for it in variant.crs.identifiers[:3])
        places = f"{counted(len(variant.places), 'text')}, first {place_shown(variant.places[0])}"
        yield f"  {definition.number}.{variant.number}{identifiers} {cut(visible(variant.crs.name))}: {places}"
        yield from part_lines(its.parts)
    if len(found) > MOST_MISSES:
        yield ""
        yield f"{len(found) - MOST_MISSES:,} more that aren't as registered: --html and --json have all"


def told_of(definition: Definition) -> str:
    """A definition in a line: its number, identifiers, and where it is first."""
    identifiers = "".join(f" {visible(it)}" for it in definition.identifiers[:3])
    first = definition.variants[0].places[0]
    read_by = f", read by {first.read_by}" if first.read_by else ""
    return f"{definition.number}{identifiers}: {counted(definition.texts, 'text')}, first {place_shown(first)}{read_by}"


def cut_both(part: Difference) -> Difference:
    """A part with long values cut so that it is seen where they begin to differ."""
    common = len(os.path.commonprefix([part.first or "", part.second or ""]))
    begin = max(0, common - MOST_CHARACTERS // 2)
    if max(len(part.first or ""), len(part.second or "")) <= MOST_CHARACTERS:
        return part

    def piece(value: Optional[str]) -> Optional[str]:
        return value and ("..." if begin else "") + cut(value[begin:])

    return Difference(part.path, piece(part.first), piece(part.second))


def cut(line: str) -> str:
    return line if len(line) <= MOST_CHARACTERS else line[: MOST_CHARACTERS - 3] + "..."
