"""The report's data, and how it is made of what the files state. It has no part in how it is shown."""

from __future__ import annotations

import collections
import functools
import itertools
from dataclasses import dataclass, field
from typing import Dict, FrozenSet, Iterable, Iterator, List, NamedTuple, Optional, Protocol, Sequence, Set, Tuple

from .. import Difference
from .collecting import Listing, Odd
from .datasets import Belongs, belongs_to
from .judging import Box, Refusal, Spelled, Told, Two
from .kinds import NOTHING, Kind, folded, is_placeholder, kind_of
from .reading import File
from .registry import Asked, Registered, Verdict

FULL, DEFINITION = "full", "definition"
# What is wrong in a text that is refused by a number (docs/REFUSALS.md).
WRONG = {
    1: "a character out of place",
    2: "a malformed number",
    3: "a number out of bounds",
    4: "not UTF-8",
    5: "an open quote",
    6: "a comma or bracket out of place",
    7: "cut off, or a bracket is open",
    8: "nested too deep",
    11: "an unknown keyword",
    12: "a part out of place",
    13: "a part is missing",
    21: "an unknown type or direction",
    22: "a part twice",
    23: "coordinate system of another kind of CRS",
    24: "a compound CRS of other parts",
    25: "another number of axes",
    26: "order of the axes",
    27: "a unit is missing or doesn't fit",
    28: "a value out of range",
    29: "a dynamic ensemble",
}


class Place(NamedTuple):
    """Where a text is: its file, with the layer or member in it, or the line, counted from 1. ``read_by`` is the version
    of PROJ that has read the text, where it isn't read as it is; ``filled`` has the kinds of parts that a reader filled in,
    since the text doesn't state them."""

    file: str
    layer: str = ""
    line: int = 0
    read_by: str = ""
    filled: FrozenSet[Kind] = NOTHING


@dataclass
class Variant:
    """A CRS with everything, and where it is; ``number`` counts the CRSs of its definition.

    ``parts`` are the parts in which it differs from the first CRS of its definition: identifiers, usages, remarks.
    ``registered`` is what the registry has of it, if that was asked.
    """

    number: int
    crs: Spelled
    places: List[Place] = field(default_factory=list)
    parts: List[Difference] = field(default_factory=list)
    registered: Optional[Registered] = None

    @property
    def filled(self) -> FrozenSet[Kind]:
        """The kinds of parts that no text of it states."""
        return frozenset.intersection(*(it.filled for it in self.places))


@dataclass
class Definition:
    """The CRSs that are the same at level ``definition``, or under rules, largest first; ``text`` is the canonical
    text, or the form under rules. Bound CRSs of one source CRS are the same if their transformations are; if the report
    takes source CRSs, they are the same as these."""

    number: int
    text: str
    transformation: str = ""
    variants: List[Variant] = field(default_factory=list)

    @property
    def name(self) -> str:
        return self.variants[0].crs.name

    @property
    def kind(self) -> str:
        return self.variants[0].crs.kind

    @property
    def names(self) -> List[str]:
        """The names of all its CRSs, each once: there are several if rules say that names don't count."""
        return list(dict.fromkeys(variant.crs.name for variant in self.variants))

    @property
    def identifiers(self) -> List[str]:
        """The identifiers of all its CRSs, each once."""
        return list(dict.fromkeys(it for variant in self.variants for it in variant.crs.identifiers))

    @property
    def filled(self) -> FrozenSet[Kind]:
        """The kinds of parts that no text of it states."""
        return frozenset.intersection(*(variant.filled for variant in self.variants))

    @property
    def texts(self) -> int:
        """How many texts spell it."""
        return sum(len(variant.places) for variant in self.variants)


@dataclass
class Pair:
    """Two definitions, by their numbers, that differ in parts; ``identifiers`` are those that both have, ``filled``
    has the kinds of parts that on a side no text states: of a near miss any of the definition, of a data set its own.
    """

    first: int
    second: int
    identifiers: List[str]
    filled: FrozenSet[Kind]
    parts: List[Difference] = field(default_factory=list)

    @functools.cached_property
    def kind(self) -> Kind:
        """The parts' kind, once they are there."""
        return kind_of(self.parts, self.filled)


@dataclass
class NearMiss:
    """Definitions that differ, of one name or of one identifier: ``by`` says which, and ``value`` has it. Each pair is
    the definition of the most texts, and one of the others; what is to be looked at first comes first. Where no text of
    that one states its axes, those in ``of_axes`` are of the most texts of the others, and are pairs where axes differ.
    """

    by: str
    value: str
    pairs: List[Pair]
    of_axes: List[Pair] = field(default_factory=list)

    @property
    def crss(self) -> int:
        """How many definitions there are."""
        return len({number for pair in self.pairs for number in (pair.first, pair.second)})

    @functools.cached_property
    def kind(self) -> Kind:
        return min(pair.kind for pair in self.pairs)

    @property
    def is_likely(self) -> bool:
        """Whether it is likely a mistake: numbers, axes or datums differ."""
        return self.kind < Kind.SHIFT


@dataclass
class DataSet:
    """Files that belong to one data set, and the pairs of their CRSs that aren't the same at level ``definition``: each
    beside what the data set itself says, or else its first text, and texts beside that have axes of their own beside
    each other. ``path`` has no suffix."""

    path: str
    rows: List[Row]
    pairs: List[Pair] = field(default_factory=list)

    @property
    def kind(self) -> Optional[Kind]:
        """Its texts' kind, if they disagree."""
        return min((pair.kind for pair in self.pairs), default=None)

    @property
    def disagrees(self) -> bool:
        """Whether its texts disagree in more than names and digits."""
        return self.kind is not None and self.kind < Kind.NAMES


@dataclass
class Area:
    """A box that texts state as an area of use; ``definitions`` are the numbers of theirs."""

    box: Box
    texts: int
    definitions: List[int]


class RefusedText(NamedTuple):
    """A text that is refused."""

    place: Place
    refusal: Refusal


class Untold(NamedTuple):
    """A place without a CRS, one that can't be read, or one that is skipped; and why."""

    place: Place
    why: str


class RefusedNumber(NamedTuple):
    """How many texts are refused by a number."""

    number: int
    name: str
    texts: int


@dataclass
class Row:
    """A text in the order of the files: the definition's and variant's number, or the refusal."""

    place: Place
    definition: Optional[Definition] = None
    variant: Optional[Variant] = None
    refusal: Optional[Refusal] = None


class Cause(NamedTuple):
    """How many texts are refused since they are something else, such as WKT1, or by a number."""

    name: str
    texts: int


@dataclass
class Summary:
    """What is counted.

    ``files``        files that were read or tried
    ``others``       files of other suffixes, which aren't read, by suffix
    ``texts``        texts with a CRS or a refusal, so ``accepted`` and ``refused``
    ``crss``         CRSs with everything; ``definitions`` at level ``definition``, and under rules if there are any;
                     ``without_rules`` at level ``definition`` without them
    ``copies``       texts of equal bytes with one before
    ``respellings``  other texts that spell a CRS that one before spells too: ``accepted`` is ``crss``, ``copies`` and
                     ``respellings`` together
    ``alone``        CRSs that differ from another only in identifiers, usages or remarks, or in what rules take away;
                     ``alone_definitions`` theirs
    ``converted``    accepted texts that PROJ has read, and ``read_by`` its version; ``bound`` texts of bound CRSs
    ``data_sets``    data sets of several texts, and how many of them disagree in more than names and digits
    ``registry``     accepted texts by what the registry has of their CRSs, if that was asked
    """

    files: int = 0
    others: Dict[str, int] = field(default_factory=dict)
    texts: int = 0
    accepted: int = 0
    refused: int = 0
    refused_by_number: List[RefusedNumber] = field(default_factory=list)
    crss: int = 0
    definitions: int = 0
    without_rules: int = 0
    copies: int = 0
    respellings: int = 0
    alone: int = 0
    alone_definitions: int = 0
    causes: List[Cause] = field(default_factory=list)
    converted: int = 0
    bound: int = 0
    read_by: str = ""
    data_sets: int = 0
    disagreeing: int = 0
    registry: Dict[str, int] = field(default_factory=dict)


class RulesFile(NamedTuple):
    """A rules file under which CRSs are compared: the user's name for it, and its bytes."""

    name: str
    text: bytes


@dataclass
class Report:
    """All that an audit found, and the rules under which it compared, of no files where there were none; ``takes_source`` says
    whether a bound CRS is in the group of its source CRS."""

    paths: List[str]
    rules: List[RulesFile]
    summary: Summary
    definitions: List[Definition]
    near_misses: List[NearMiss]
    data_sets: List[DataSet]
    areas: List[Area]
    refused: List[RefusedText]
    without: List[Untold]
    unread: List[Untold]
    skipped: List[Untold]
    passed: List[Untold]
    rows: List[Row]
    takes_source: bool = False

    @property
    def status(self) -> int:
        """The command's status: 0, 1 if a text is refused, 2 if something can't be read."""
        return 2 if self.unread else 1 if self.refused else 0


class Asks(Protocol):
    """What the report asks of the library, in processes: each answer is in the place of what it is of."""

    def compare(self, pairs: Sequence[Two]) -> List[List[Difference]]:
        """The parts of each pair of CRSs, in their order."""

    def register(self, asked: Sequence[Asked]) -> List[Registered]:
        """What the registry has of each CRS; nothing at all if that isn't wanted."""


def report_of(
    paths: Sequence[str],
    listing: Listing,
    told: Sequence[Told],
    asks: Asks,
    rules: Sequence[RulesFile] = (),
    takes_source: bool = False,
) -> Report:
    """The report of what each of the listed files states, under the same rules."""
    summary = Summary(files=len(listing.files))
    report = Report(list(paths), list(rules), summary, [], [], [], [], [], [], [], [], [], [], takes_source)
    report.summary.others = dict(sorted(listing.others.items()))
    report.unread += odd_ones(listing.unread)
    report.passed += odd_ones(listing.passed)
    for file, its in zip(listing.files, told):
        report.without += (Untold(Place(file.path, it.layer, it.line), it.why) for it in its.without)
        report.unread += (Untold(Place(file.path, it.layer, it.line), it.why) for it in its.unread)
        report.skipped += (Untold(Place(file.path, it.layer), it.lacking) for it in its.skipped)
    report.definitions = definitions_of(rows_of(listing.files, told, report), report)
    report.near_misses = near_misses_of(report.definitions)
    report.data_sets = data_sets_of(report.rows)
    compare_all(report, asks)
    for miss in report.near_misses:
        miss.pairs += [it for it in miss.of_axes if it.kind is Kind.AXES]
        miss.pairs.sort(key=lambda it: it.kind)
    report.near_misses.sort(key=rank)
    report.data_sets.sort(key=lambda it: Kind.NAMES + 1 if it.kind is None else it.kind)
    variants = [variant for definition in report.definitions for variant in definition.variants]
    wanted = [Asked(it.crs.full, it.crs.name, it.crs.identifiers, it.filled) for it in variants]
    for variant, found in zip(variants, asks.register(wanted)):
        variant.registered = found
    report.areas = areas_of(report.definitions)
    count(report)
    return report


def odd_ones(odd: Iterable[Odd]) -> Iterator[Untold]:
    return (Untold(Place(it.path), it.why) for it in odd)


def rows_of(files: Sequence[File], told: Sequence[Told], report: Report) -> Iterator[Tuple[Row, Optional[Spelled]]]:
    """Each text in the order of the files, and the CRS that it spells. Copies and refused texts are counted."""
    seen: Set[bytes] = set()
    for file, its in zip(files, told):
        for text in its.texts:
            place = Place(file.path, text.layer, text.line, text.read_by, text.filled)
            row = Row(place, refusal=text.refusal)
            report.rows.append(row)
            if text.refusal:
                report.refused.append(RefusedText(row.place, text.refusal))
                yield row, None
                continue
            report.summary.copies += text.digest in seen
            seen.add(text.digest)
            yield row, its.spelled[text.crs]


def definitions_of(rows: Iterable[Tuple[Row, Optional[Spelled]]], report: Report) -> List[Definition]:
    """The definitions, and their variants, each in the order of how many texts spell them, and of the first of these.
    Each row gets its own."""
    found: Dict[Tuple[str, str], Definition] = {}
    variants: Dict[Tuple[str, str], Variant] = {}
    for row, crs in rows:
        if crs is None:
            continue
        way = "" if report.takes_source else crs.transformation
        row.definition = found.setdefault((crs.form, way), Definition(0, crs.form, way))
        key = crs.full, crs.transformation
        if key not in variants:
            variants[key] = Variant(0, crs)
            row.definition.variants.append(variants[key])
        row.variant = variants[key]
        row.variant.places.append(row.place)
    definitions = sorted(found.values(), key=lambda it: -it.texts)
    for number, definition in enumerate(definitions, 1):
        definition.number = number
        definition.variants.sort(key=lambda it: -len(it.places))
        for index, variant in enumerate(definition.variants, 1):
            variant.number = index
    return definitions


def near_misses_of(definitions: Sequence[Definition]) -> List[NearMiss]:
    """Definitions of one name, whose case and punctuation don't count; and definitions of one identifier, if they don't
    share a name. What tools write if they know no name is none. Two are a pair once, by the first name that both
    have."""
    by_name: Dict[str, List[Definition]] = {}
    by_identifier: Dict[str, List[Definition]] = {}
    names: Dict[str, str] = {}
    keys: Dict[int, Set[str]] = {}
    for definition in definitions:
        keys[definition.number] = set()
        for name in definition.names:
            key = folded(name) or name
            if not is_placeholder(name) and key not in keys[definition.number]:
                keys[definition.number].add(key)
                names.setdefault(key, name)
                by_name.setdefault(key, []).append(definition)
        for identifier in definition.identifiers:
            by_identifier.setdefault(identifier, []).append(definition)
    misses: List[NearMiss] = []
    paired: Set[Tuple[int, int]] = set()
    for key, (first, *others) in by_name.items():
        others = [it for it in others if (first.number, it.number) not in paired]
        paired |= {(first.number, it.number) for it in others}
        if others:
            misses.append(near_miss("name", names[key], first, others))
    for identifier, (first, *others) in by_identifier.items():
        others = [it for it in others if keys[first.number].isdisjoint(keys[it.number])]
        if others:
            misses.append(near_miss("identifier", identifier, first, others))
    return misses


def near_miss(by: str, value: str, first: Definition, others: Sequence[Definition]) -> NearMiss:
    stating = [it for it in others if Kind.AXES not in it.filled] if Kind.AXES in first.filled else []
    of_axes = [pair_of(stating[0], it) for it in stating[1:]]
    return NearMiss(by, value, [pair_of(first, it) for it in others], of_axes)


def bearing(definition: Definition, miss: NearMiss) -> List[Place]:
    """The texts of a definition to whose name or identifier a near miss is due; none if it is due to all."""

    def bears(crs: Spelled) -> bool:
        if miss.by == "identifier":
            return miss.value in crs.identifiers
        return (folded(crs.name) or crs.name) == (folded(miss.value) or miss.value)

    its = [it for it in definition.variants if bears(it.crs)]
    return [] if len(its) == len(definition.variants) else [place for it in its for place in it.places]


def stating(definition: Definition, kind: Kind) -> List[Place]:
    """The texts of a definition that state parts of a kind, which a reader filled in for the others; none if all do."""
    places = [place for variant in definition.variants for place in variant.places]
    its = [place for place in places if kind not in place.filled]
    return [] if len(its) == len(places) else its


def pair_of(first: Definition, second: Definition) -> Pair:
    return Pair(first.number, second.number, common(first, second), first.filled | second.filled)


def common(first: Definition, second: Definition) -> List[str]:
    """The identifiers that both have."""
    return [it for it in first.identifiers if it in second.identifiers]


def data_sets_of(rows: Iterable[Row]) -> List[DataSet]:
    """The data sets of several texts, and the pairs of their CRSs."""
    found: Dict[Tuple[str, str], List[Tuple[Belongs, Row]]] = {}
    for row in rows:
        belongs = belongs_to(row.place.file, row.place.layer)
        if belongs:
            found.setdefault((belongs.archive, belongs.path), []).append((belongs, row))
    sets = []
    for (archive, path), its in found.items():
        if len(its) > 1 and any(belongs.is_beside for belongs, _ in its):
            # What the data set itself says comes first.
            its.sort(key=lambda it: it[0].is_beside)
            data_set = DataSet(f"{archive} ({path})" if archive else path, [row for _, row in its])
            data_set.pairs = list(pairs_of(data_set.rows))
            sets.append(data_set)
    return sets


def pairs_of(rows: Sequence[Row]) -> Iterator[Pair]:
    """The pairs of the CRSs of a data set. What a text says of axes or of a transformation is compared with what another
    of these texts says, and with nothing that a reader filled in, or that another text leaves out."""
    found: Dict[int, Definition] = {}
    filled: Dict[int, FrozenSet[Kind]] = {}
    for row in rows:
        if row.definition:
            number = row.definition.number
            found[number] = row.definition
            filled[number] = filled.get(number, row.place.filled) & row.place.filled
    for one, other in itertools.combinations(found.values(), 2):
        first, both = next(iter(found)), filled[one.number] | filled[other.number]
        if not (one.transformation and other.transformation):
            both |= {Kind.SHIFT}
        if (one.text != other.text or Kind.SHIFT not in both) and (one.number == first or filled[first] - both):
            yield Pair(one.number, other.number, common(one, other), both)


def compare_all(report: Report, asks: Asks) -> None:
    """Finds the parts that differ: between the variants of each definition, in near misses, and in data sets."""
    pairs: List[Two] = []
    puts: List[List[List[Difference]]] = []
    places: Dict[Two, int] = {}

    def add(two: Two, put: List[Difference]) -> None:
        if two not in places:
            places[two] = len(pairs)
            pairs.append(two)
            puts.append([])
        puts[places[two]].append(put)

    for definition in report.definitions:
        first = definition.variants[0].crs
        for variant in definition.variants[1:]:
            ways = first.transformation, variant.crs.transformation
            add(Two(first.full, variant.crs.full, "full", ways), variant.parts)
    of_misses = [pair for miss in report.near_misses for pair in miss.pairs + miss.of_axes]
    for pair in of_misses + [pair for data_set in report.data_sets for pair in data_set.pairs]:
        one, other = (report.definitions[number - 1] for number in (pair.first, pair.second))
        add(Two(one.text, other.text, "definition", (one.transformation, other.transformation)), pair.parts)
    for its, found in zip(puts, asks.compare(pairs)):
        for put in its:
            put += found


def rank(miss: NearMiss) -> Tuple[Kind, bool, int, int]:
    """What is most likely a mistake comes first: by the kind of the parts that differ, then where both have an identifier,
    then where the fewest parts differ."""
    its = [pair for pair in miss.pairs if pair.kind == miss.kind]
    is_of_two = not any(pair.identifiers for pair in its)
    return miss.kind, is_of_two, min(len(pair.parts) for pair in its), miss.pairs[0].first


def findings_of(report: Report) -> List[Tuple[Definition, Variant, Registered]]:
    """The CRSs that differ from the registry's in more than names and digits, what is looked at first before the
    others."""
    found = [
        (definition, variant, variant.registered)
        for definition in report.definitions
        for variant in definition.variants
        if variant.registered and variant.registered.verdict.is_finding
    ]
    order = list(Verdict)
    return sorted(found, key=lambda it: order.index(it[2].verdict))


def verdict_told(found: Registered) -> str:
    """What a comparison with the registry says, in words."""
    if found.verdict is Verdict.OTHER_NAME:
        return f"bears the name of {found.other}"
    sure = "" if found.is_own or not found.identifier else f", PROJ's confidence {found.confidence} %"
    return f"{found.verdict.value}{sure}"


def areas_of(definitions: Sequence[Definition]) -> List[Area]:
    """The boxes, most frequent first."""
    areas: Dict[Box, Area] = {}
    for definition in definitions:
        for variant in definition.variants:
            for box in variant.crs.boxes:
                area = areas.setdefault(box, Area(box, 0, []))
                area.texts += len(variant.places)
                if definition.number not in area.definitions[-1:]:
                    area.definitions.append(definition.number)
    return sorted(areas.values(), key=lambda it: (-it.texts, it.box))


def count(report: Report) -> None:
    """Counts the rest of the summary."""
    summary = report.summary
    summary.texts = len(report.rows)
    summary.refused = len(report.refused)
    summary.accepted = summary.texts - summary.refused
    names = {it.refusal.number: it.refusal.name for it in report.refused}
    numbers = [it.refusal.number for it in report.refused]
    summary.refused_by_number = [RefusedNumber(it, names[it], numbers.count(it)) for it in sorted(names)]
    summary.definitions = len(report.definitions)
    summary.crss = sum(len(it.variants) for it in report.definitions)
    variants = [variant for definition in report.definitions for variant in definition.variants]
    ways = {(it.crs.definition, "" if report.takes_source else it.crs.transformation) for it in variants}
    summary.without_rules = len(ways)
    summary.respellings = summary.accepted - summary.crss - summary.copies
    several = [len(it.variants) for it in report.definitions if len(it.variants) > 1]
    summary.alone, summary.alone_definitions = sum(several), len(several)
    causes = collections.Counter(cause_of(it.refusal) for it in report.refused)
    summary.causes = [Cause(name, texts) for name, texts in causes.most_common()]
    read_by = [row.place.read_by for row in report.rows if row.place.read_by]
    summary.converted, summary.read_by = len(read_by), next(iter(read_by), "")
    summary.bound = sum(len(it.places) for it in variants if it.crs.transformation)
    summary.data_sets = len(report.data_sets)
    summary.disagreeing = sum(it.disagrees for it in report.data_sets)
    counts: Dict[Verdict, int] = collections.Counter()
    for variant in variants:
        if variant.registered:
            counts[variant.registered.verdict] += len(variant.places)
    summary.registry = {verdict.value: counts[verdict] for verdict in Verdict if counts[verdict]}


def cause_of(refusal: Refusal) -> str:
    """Why a text is refused, in a few words: what it is instead, a keyword that isn't read, or what is wrong in it."""
    wrong = WRONG.get(refusal.number, refusal.name)
    name = refusal.instead or refusal.form.removeprefix("a ") or refusal.keyword or wrong
    return f"{name}, damaged or not known to PROJ" if refusal.doubts else name
