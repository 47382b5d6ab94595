#!/usr/bin/env python3
"""Counts what rules make the same of the registry's CRSs, as PROJ writes them in several layouts.

    rules_figures.py [--rules FILE].. [--every N] [--keep FILE | --texts FILE]

pyproj must be there, and the library, in out/prefix or where CRSDESK_LIBRARY says. Each CRS of EPSG
and of Esri in PROJ's database, deprecated ones too, that is geodetic, geographic, projected, vertical or compound, is
written by PROJ in the layout WKT2:2019, and in others, which PROJ reads back and writes in that of 2019. Printed are, by
registry and layout: how many texts there are (of some CRSs PROJ writes none, or reads none), and how many of them are the
same as the first one, at the level definition, without rules and under the rules. Then comes what becomes one under the
rules among the texts of 2019: a line for each such set of CRSs, with the parts that differ without rules, marked

    NUMBERS    a number of an ellipsoid, a longitude, a parameter or a unit's factor differs by more than 1e-13 of it
    METHOD     the names of the methods differ
    DATUM      the names of the datums differ, by more than a trailing ' ensemble'

and a last line counts them. The rules are those of rules/producers.rules and rules/any-order.rules where none are given.
--every N takes each Nth CRS; --keep FILE keeps the texts, and --texts FILE takes them from there, without pyproj: lines of
JSON. The status is 0, or 2 with a line on standard error.
"""
from __future__ import annotations

import argparse
import json
import os
import pathlib
import re
import sys
import warnings
from collections import Counter, defaultdict
from typing import Dict, Iterator, List, NamedTuple, Optional, TextIO, Tuple

ROOT = pathlib.Path(__file__).resolve().parent.parent
os.environ.setdefault("CRSDESK_LIBRARY", str(ROOT / "out" / "prefix" / "lib" / "libcrsdesk.so"))
sys.dont_write_bytecode = True
sys.path.insert(0, str(ROOT / "python" / "src"))
import crsdesk

SHIPPED = [str(ROOT / "rules" / name) for name in ("producers.rules", "any-order.rules")]
FIRST = "WKT2_2019"
LAYOUTS = ("WKT2_2015", "WKT2_2019_SIMPLIFIED", "WKT1_GDAL", "WKT1_ESRI")
KINDS = ("GEODETIC_CRS", "PROJECTED_CRS", "VERTICAL_CRS", "COMPOUND_CRS")
# How much a number may differ: the last digits that producers write of a factor.
DIGITS = 1e-13
QUOTED = re.compile(r'"(?:[^"]|"")*"')
NUMBER = re.compile(r"[+-]?\d+(?:\.\d*)?(?:[eE][+-]?\d+)?")
# Parts whose numbers the rules take away by name: epochs and models, ensembles' accuracy and members, a base's unit.
UNCOUNTED = re.compile(r"(^|/)(dynamic/\w+|accuracy|members|anchorepoch|geoid|base/unit)$")


class Texts(NamedTuple):
    """A registry's CRS: its code, and by layout its text in the layout of 2019, or None."""

    code: str
    texts: Dict[str, Optional[str]]


def from_proj(every: int) -> Iterator[Texts]:
    """What PROJ writes, of each CRS of its database."""
    from pyproj import CRS
    from pyproj.database import get_codes
    from pyproj.enums import PJType
    from pyproj.exceptions import CRSError

    warnings.simplefilter("ignore")
    codes: List[str] = []
    for registry in ("EPSG", "ESRI"):
        found = {it for kind in KINDS for it in get_codes(registry, getattr(PJType, kind), allow_deprecated=True)}
        codes += [f"{registry}:{it}" for it in sorted(found, key=int)]
    for code in codes[::every]:
        crs = CRS(code)
        texts: Dict[str, Optional[str]] = {FIRST: crs.to_wkt(FIRST)}
        for layout in LAYOUTS:
            try:
                texts[layout] = CRS(crs.to_wkt(layout)).to_wkt(FIRST)
            except (CRSError, TypeError):
                texts[layout] = None
        yield Texts(code, texts)


def from_file(path: str, every: int) -> Iterator[Texts]:
    with open(path, encoding="utf-8") as file:
        for number, line in enumerate(file):
            if number % every == 0:
                told = json.loads(line)
                yield Texts(told["code"], told["texts"])


def keep(one: Texts, file: Optional[TextIO]) -> None:
    if file:
        file.write(json.dumps({"code": one.code, "texts": one.texts}) + "\n")


def numbers(value: Optional[str]) -> List[float]:
    """The numbers of a part's value; names may have digits, and don't count."""
    return list(map(float, NUMBER.findall(QUOTED.sub('""', value or ""))))


def is_near(first: List[float], second: List[float]) -> bool:
    if len(first) != len(second):
        return False
    return all(abs(a - b) <= DIGITS * max(abs(a), abs(b)) for a, b in zip(first, second))


def marked(parts: List[crsdesk.Difference]) -> Dict[str, List[crsdesk.Difference]]:
    """Those of two CRSs' differences that no rule may take away, by their marks. Axes are compared as sets."""
    found: Dict[str, List[crsdesk.Difference]] = defaultdict(list)
    axes: Dict[str, List[crsdesk.Difference]] = defaultdict(list)
    for part in parts:
        if UNCOUNTED.search(part.path):
            continue
        if part.path.endswith("method/name"):
            found["METHOD"].append(part)
        elif part.path.endswith("datum/name"):
            names = [re.sub(' ensemble"$', '"', it or "") for it in (part.first, part.second)]
            if names[0] != names[1]:
                found["DATUM"].append(part)
        else:
            axes[re.sub(r"axis\d/", "", part.path)].append(part)
    for some in axes.values():
        firsts = sorted(it for part in some for it in numbers(part.first))
        seconds = sorted(it for part in some for it in numbers(part.second))
        if not is_near(firsts, seconds):
            found["NUMBERS"] += some
    return found


def main(words: List[str]) -> int:
    parser = argparse.ArgumentParser(usage="rules_figures.py [--rules FILE].. [--every N] [--keep FILE | --texts FILE]")
    parser.add_argument("--rules", action="append")
    parser.add_argument("--every", type=int, default=1)
    parser.add_argument("--keep")
    parser.add_argument("--texts")
    asked = parser.parse_args(words)
    try:
        rules = crsdesk.Rules.from_file(*(asked.rules or SHIPPED))
        kept = open(asked.keep, "w", encoding="utf-8") if asked.keep else None
        source = from_file(asked.texts, asked.every) if asked.texts else from_proj(asked.every)
        count: Counter[Tuple[str, str, str]] = Counter()
        # By form under the rules, the canonical texts; by each of these the codes.
        groups: Dict[str, Dict[str, List[str]]] = defaultdict(lambda: defaultdict(list))
        for one in source:
            keep(one, kept)
            first, registry = one.texts[FIRST] or "", one.code.split(":")[0]
            try:
                plain, form = crsdesk.canon(first, "definition"), crsdesk.canon(first, "definition", rules)
            except crsdesk.Refused as refused:
                print(f"{one.code}: refused {refused.number}", file=sys.stderr)
                continue
            groups[form][plain].append(one.code)
            for layout in LAYOUTS:
                text = one.texts.get(layout)
                if layout not in one.texts:
                    continue
                count[registry, layout, "CRSs"] += 1
                try:
                    both = text and [crsdesk.canon(text, "definition"), crsdesk.canon(text, "definition", rules)]
                except crsdesk.Refused:
                    both = None
                if both:
                    count[registry, layout, "texts"] += 1
                    count[registry, layout, "without"] += both[0] == plain
                    count[registry, layout, "under"] += both[1] == form
        if kept:
            kept.close()
    except (ImportError, OSError, ValueError, KeyError) as error:
        print(f"rules_figures.py: {error}", file=sys.stderr)
        return 2
    print(f"{'registry':9}{'layout':22}{'CRSs':>7}{'texts':>7}{'same':>7}{'':8}{'under rules':>11}")
    for registry, layout in sorted({key[:2] for key in count}):
        made, texts, without, under = (count[registry, layout, it] for it in ("CRSs", "texts", "without", "under"))
        shares = [f"{it:7}{it / max(texts, 1):8.1%}" for it in (without, under)]
        print(f"{registry:9}{layout:22}{made:7}{texts:7}{shares[0]}{shares[1]}")
    marks: Counter[str] = Counter()
    for plains in groups.values():
        (head, *others) = plains.items()
        for text, codes in others:
            parts = crsdesk.differences(head[0], text, "definition")
            found = marked(parts)
            marks[" ".join(sorted(found))] += 1
            paths = ", ".join(it.path for it in parts)
            told = "".join(f"{it} " for it in sorted(found))
            print(f"one: {told}{' '.join(head[1])} | {' '.join(codes)}: {paths}")
            for it in (part for some in found.values() for part in some):
                print(f"     {it}")
    plain_count = sum(map(len, groups.values()))
    told = ", ".join(f"{marks[it]} {it}" for it in sorted(marks) if it) or "none of them marked"
    print(f"{sum(len(c) for p in groups.values() for c in p.values())} CRSs, {plain_count} without rules, ", end="")
    print(f"{len(groups)} under rules; {told}")
    return 0


if __name__ == "__main__":
    try:
        status = main(sys.argv[1:])
    except BrokenPipeError:
        os.dup2(os.open(os.devnull, os.O_WRONLY), sys.stdout.fileno())
        status = 2
    sys.exit(status)
