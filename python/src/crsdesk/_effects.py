"""What is read must have counted: each number, name and word of a text that PROJ reads.

WKT1: PROJ writes its answer, the CRS in WKT2, once more in the form of the text. A part that is there again, in the
same node with the same value, has counted: the answer says it, once or twice. Each other part is altered by itself, and
the text is read again. If the answer stays the same, PROJ has passed the part over, and the text is refused with the
part and its place; an altered text that PROJ doesn't read is another answer. So a text that PROJ or its like wrote
needs one conversion more, one of another tool one for each part that it writes otherwise; and nothing here knows what
PROJ passes over.

- The answer is written again, not what PROJ holds: that has more than WKT2 says, such as an ``EXTENSION``.
- WKT1 is written as GDAL and as Esri write it, and either may have the part. So ``D_WGS_1984`` is as good as ``WGS_1984``.
- Numbers are alike by the 15 digits that PROJ writes, and altered both ways in the last but one: so one that PROJ replaces
  by a number near it has no effect. Words, codes and names of parameters are alike whatever their case and quotes, other
  names letter by letter.
- Parameters have no order, axes have. The name of a parameter has counted if its value has.
- A datum may have two names of one: the identifier beside it says the other.
- WKT2 has no place for identifiers of most parts and for axes of a base CRS. They aren't tried.

PROJ strings: each word but defaults is left out, and else altered. Words that say an ellipsoid may say the same one.
BOUNDCRS: the numbers that aren't in the answer are altered. PROJ has names of its own for what it takes for WGS 84.
"""

from __future__ import annotations

import re
from dataclasses import dataclass, field
from decimal import Decimal
from typing import Callable, Dict, Iterable, Iterator, List, NamedTuple, Optional, Sequence, Set, Tuple

from ._tree import Node, tree_of

# What PROJ writes of a text in WKT2; None if its reading isn't taken.
Answer = Callable[[str], Optional[str]]
DIGITS = 15
ALL_DIGITS = f".{DIGITS}g"
# PROJ rounds the angles of a string.
DIGITS_OF_WORDS = 9
# A meridian's degrees may come from grads; a scale difference of 6.7 is written as 1.0000067.
DIGITS_OF = {("PRIMEM", 1): ".14g", ("TOWGS84", 6): ".8f"}
NUMBER = re.compile(r"[-+]?(?:\d+\.?\d*|\.\d+)(?:[eE][-+]?\d+)?", re.ASCII)
TOKEN = re.compile(r'"(?:[^"]|"")*"|[\[\](),]|[^\s\[\](),"]+')
WORD = re.compile(r'[^\s"]+')
OPPOSITE = {"NORTH": "SOUTH", "SOUTH": "NORTH", "EAST": "WEST", "WEST": "EAST", "UP": "DOWN", "DOWN": "UP"}
IDENTIFIERS = ("AUTHORITY", "ID")
NAMED = ("DATUM", "VDATUM", "VERT_DATUM", "ENSEMBLE", "PROJECTION", "METHOD")
# How many parts of a text are altered.
MOST_TRIED = 100
MOST_SHOWN = 60
# No number of a CRS but 0 is nearer to it, and none is farther than its inverse.
LEAST = 1e-99
# The keys of a PROJ string that says a CRS: PROJ passes others over.
KEYS = frozenset(
    (
        "R R_A R_C R_V R_a R_g R_h R_lat_a R_lat_g M W a alpha axis azi b czech datum e ellps es f gamma geoid_crs geoidgrids "
        "guam h h_0 hyperbolic ip k k_0 lat_0 lat_1 lat_2 lat_3 lat_b lat_t lat_ts lon_0 lon_1 lon_2 lon_3 lonc m n nadgrids no_cut no_defs no_off "
        "no_rot no_uoff ns o_alpha o_lat_1 o_lat_2 o_lat_c o_lat_p o_lon_1 o_lon_2 o_lon_c o_lon_p o_proj over path pm proj q rf "
        "s shape south sweep sym theta tilt title to_meter towgs84 type units vto_meter vunits wktext x_0 y_0 zone approx algo "
        "lsat plat_0 plon_0 ph0_ nlat rlat lat_c lon_c"
    ).split()
)
# What a PROJ string may say though it is so without.
DEFAULTS = {
    "type": ("crs",),
    "no_defs": ("",),
    "wktext": ("",),
    "axis": ("enu",),
    "units": ("m",),
    "vunits": ("m",),
    "to_meter": ("1",),
    "vto_meter": ("1",),
    "pm": ("greenwich", "0"),
}
ZERO = frozenset("x_0 y_0 z_0 lat_0 lon_0 lat_1 lat_2 lat_ts lonc alpha gamma h_0".split())
ONE = frozenset(("k", "k_0"))
# Values of keys that PROJ has a list for: it reads no string with another.
NAMES = {
    "datum": ("NAD27", "WGS84"),
    "ellps": ("bessel", "intl"),
    "units": ("km", "m"),
    "vunits": ("km", "m"),
    "pm": ("paris", "lisbon"),
    "axis": ("wsu", "neu"),
    "shape": ("square", "diamond"),
    "sweep": ("x", "y"),
}
# Keys of one thing; PROJ reads one of them.
TWINS = (("k", "k_0"), ("units", "to_meter"), ("vunits", "vto_meter"))
# What says an ellipsoid; one may follow from others.
SIZES = frozenset("a b rf f e es R ellps datum".split())
NAMES_OF_SIZES = ("ellps", "datum")


class NotRead(ValueError):
    """Why PROJ's reading of a text isn't taken, in one line: in its words if it has any."""


class Leaf(NamedTuple):
    """A number, name or word as it is written, its place in the text, and keyword and name of its node."""

    written: str
    place: int
    keyword: str
    name: str = ""


@dataclass
class Part:
    """A node, where its keyword begins and where it ends."""

    keyword: str
    place: int
    end: int = 0
    leaves: List[Leaf] = field(default_factory=list)
    parts: List[Part] = field(default_factory=list)

    def all(self) -> Iterator[Part]:
        """It, and all nodes in it."""
        yield self
        for part in self.parts:
            yield from part.all()

    @property
    def key(self) -> Tuple[str, str]:
        """By what its counterpart in another text is found."""
        has_name = self.keyword == "PARAMETER" and self.leaves
        return self.keyword, said(self.leaves[0].written).upper() if has_name else ""


def check_parts(text: str, written: str, again: Iterable[str], answer: Answer) -> None:
    """NotRead if a part of a text in WKT1 has no effect. ``written`` is the answer, ``again`` the forms it is written
    in again; no more are asked for once they have all parts."""
    root, names = nodes_of(text), names_in(written)
    leaves = [it for it in unsaid(root, None) if it.keyword not in NAMED or said(it.written) not in names]
    for told in again:
        missed = set(unsaid(root, part_of(told)))
        leaves = [it for it in leaves if it in missed]
        if not leaves:
            return
    check_each(text, root, leaves, written, answer)


def check_numbers(text: str, written: str, answer: Answer) -> None:
    """NotRead if a number of a text in WKT2 has no effect, and isn't in the answer."""
    root, other = nodes_of(text), part_of(written)
    known = {said(it.written) for it in unsaid(other, None)} if other else set()
    numbers = [it for it in unsaid(root, None) if NUMBER.fullmatch(it.written) and said(it.written) not in known]
    check_each(text, root, numbers, written, answer)


def check_each(text: str, root: Part, leaves: Sequence[Leaf], written: str, answer: Answer) -> None:
    """NotRead if one of the leaves of a text has no effect."""
    if len(leaves) > MOST_TRIED:
        raise NotRead(f"PROJ would write {len(leaves):,} parts otherwise, too many to try each")

    def has_effect(text: str, leaf: Leaf) -> bool:
        before, after = text[: leaf.place], text[leaf.place + len(leaf.written) :]
        return all(answer(f"{before}{it}{after}") != written for it in others_than(leaf.written))

    for leaf in leaves:
        if not has_effect(text, leaf) and not any(
            answer(shorter) == written and has_effect(shorter, leaf) for shorter in without_identifier(text, root, leaf)
        ):
            named = f"{leaf.keyword} {leaf.name}" if leaf.name else leaf.keyword
            raise NotRead(without_effect(f"{leaf.written[:MOST_SHOWN]} in {named[:MOST_SHOWN]}", leaf.place))


def nodes_of(text: str) -> Part:
    """The nodes of a text; NotRead if it has others than nodes."""
    root = part_of(text)
    if root is None:
        raise NotRead("it has more than nodes of WKT")
    return root


def names_in(written: str) -> Set[str]:
    """The names of datums and methods in a text in WKT2; no form of WKT1 has some of them."""
    root = part_of(written)
    return {said(it.leaves[0].written) for it in root.all() if it.keyword in NAMED} if root else set()


def without_identifier(text: str, root: Part, leaf: Leaf) -> Iterator[str]:
    """A text without the identifier of the datum or method whose name a leaf is, if it has one."""
    node = next(it for it in root.all() if leaf in it.leaves)
    for it in node.parts if leaf.keyword in NAMED else ():
        if it.keyword in IDENTIFIERS:
            yield f"{text[: it.place].rstrip().rstrip(',')}{text[it.end :]}"


def without_effect(part: str, place: int) -> str:
    return f"{part} at character {place} has no effect: PROJ would pass it over"


def part_of(text: str) -> Optional[Part]:
    """A node of a text's nodes; Esri's WKT1 may have two; None if there are others than nodes."""
    waiting = [Part("", 0)]
    for token in TOKEN.finditer(text):
        found, place = token[0], token.start()
        top = waiting[-1]
        if found in "[(":
            if not top.leaves:
                return None
            keyword = top.leaves.pop()
            waiting.append(Part(keyword.written.upper(), keyword.place))
        elif found in "])":
            done = waiting.pop()
            if not waiting:
                return None
            done.end = token.end()
            waiting[-1].parts.append(done)
        elif found != "," and not is_left_out([it.keyword for it in waiting[1:]]):
            name = top.leaves[0].written if top.leaves else ""
            top.leaves += [Leaf(*it, top.keyword, name) for it in words_of(top.keyword, found, place)]
    return waiting[0] if len(waiting) == 1 and not waiting[0].leaves else None


def is_left_out(keywords: Sequence[str]) -> bool:
    """Whether WKT2 has no place for a node, by the keywords of those that it is in: for an identifier of a part, for an axis
    of a base CRS."""
    if keywords[-1:] == ["AXIS"]:
        return keywords[-3:-2] == ["PROJCS"]
    return len(keywords) > 2 and keywords[-1] in IDENTIFIERS


def words_of(keyword: str, found: str, place: int) -> Iterator[Tuple[str, int]]:
    """What a value of a node has, and where: itself, or the words of a PROJ string."""
    if keyword == "EXTENSION":
        yield from ((word[0], place + word.start()) for word in WORD.finditer(found))
    else:
        yield found, place


def unsaid(part: Part, other: Optional[Part]) -> Iterator[Leaf]:
    """The leaves of a node, and of those in it, that its counterpart in another text doesn't have."""
    first = 1 if part.keyword == "PARAMETER" else 0
    others = other.leaves if other else []
    for number, leaf in enumerate(part.leaves[first:], first):
        digits = DIGITS_OF.get((part.keyword, number), ALL_DIGITS)
        # The words of a PROJ string have no order.
        mates = others if part.keyword == "EXTENSION" else others[number : number + 1]
        if said(leaf.written, digits) not in [said(it.written, digits) for it in mates]:
            yield leaf
    counterparts: Dict[Tuple[str, str], List[Part]] = {}
    for it in other.parts if other else ():
        counterparts.setdefault(it.key, []).append(it)
    counts: Dict[Tuple[str, str], int] = {}
    for it in part.parts:
        found, number = counterparts.get(it.key), counts.get(it.key, 0)
        counts[it.key] = number + 1
        # One that is there twice has the last counterpart again.
        yield from unsaid(it, found[min(number, len(found) - 1)] if found else None)


def said(written: str, digits: str = ALL_DIGITS) -> str:
    """A value in one spelling: a number by its digits, a word in capitals, a name or code without its quotes."""
    if written.startswith('"'):
        return written[1:-1].replace('""', '"')
    key, equals, value = written.rpartition("=")
    return f"{key}{equals}{rounded(value, digits)}".upper()


def rounded(number: str, digits: str = ALL_DIGITS) -> str:
    """A number by its digits; what is none as it is."""
    return f"{float(number):{digits}}" if NUMBER.fullmatch(number) else number


def others_than(written: str, digits: int = DIGITS - 1) -> List[str]:
    """Other values: the next numbers of so many digits, the opposite direction, a name or word that is a letter longer."""
    if written.startswith('"'):
        return [f'{written[:-1]}x"']
    key, equals, value = written.rpartition("=")
    if not NUMBER.fullmatch(value):
        return [OPPOSITE.get(written.upper(), f"{written}x")]
    if not LEAST < abs(float(value)) < 1 / LEAST:
        return [f"{key}{equals}0.1"]
    number = Decimal(value)
    step = Decimal(1).scaleb(number.adjusted() - digits + 1)
    return [f"{key}{equals}{it:f}" for it in (number + step, number - step)]


# PROJ strings.


def checked_string(text: str) -> str:
    """A PROJ string that says a CRS. NotRead if it has a key that PROJ passes over: an unknown one, one again."""
    keys: Set[str] = set()
    for word in text.split():
        key = key_of(word)
        if key not in KEYS:
            raise NotRead(f"+{key} isn't known: PROJ would pass it over")
        if key in keys:
            raise NotRead(f"+{key} is there twice: PROJ would take one of them")
        keys.add(key)
    return text if "type" in keys else f"{text} +type=crs"


def key_of(word: str) -> str:
    return word.lstrip("+").partition("=")[0]


def check_words(text: str, written: str, answer: Answer) -> None:
    """NotRead if a PROJ string has a word, no default, and says the same CRS without it and with another value of it:
    PROJ passes over words that a projection doesn't have."""
    words = text.split()
    whole = without_remark(written)

    def told(words: Sequence[str]) -> Optional[Node]:
        try:
            found = answer(checked_string(" ".join(words)))
        except NotRead:
            return None
        return without_remark(found) if found else None

    def has_effect(number: int, word: str) -> bool:
        before, after = words[:number], words[number + 1 :]
        # Where another word says the same, as +lat_1 does with +lat_0, another value still makes a difference.
        others = other_words(word) if "=" in word else []
        return (
            told(before + after) != whole or all(told([*before, it, *after]) != whole for it in others) and bool(others)
        )

    of_size = [it for it in words if key_of(it) in SIZES]
    for number, found in enumerate(re.finditer(r"\S+", text)):
        word = found[0]
        if word in of_size and len(of_size) > 1:
            counts = has_own_size(word, of_size, words, whole, told)
        else:
            counts = is_default(word, words) or has_effect(number, word)
        if not counts:
            raise NotRead(without_effect(word, found.start()))


def other_words(word: str) -> List[str]:
    """A word with other values, that PROJ knows if the key has such."""
    key, _, value = word.partition("=")
    known = [f"{key}={it}" for it in NAMES.get(key_of(word), ()) if it != value]
    return known[:1] or others_than(word, DIGITS_OF_WORDS)


def has_own_size(
    word: str, of_size: List[str], words: List[str], whole: Node, told: Callable[[Sequence[str]], Optional[Node]]
) -> bool:
    """Whether one of the words that say an ellipsoid says the CRS's: only a name, or a number, by itself or with
    another of them, so that another number says another one."""
    others = [it for it in of_size if it != word]
    wanted = sizes_of(whole)

    def size_with(given: Sequence[str], instead: str) -> object:
        found = told([instead if it == word else it for it in words if it in given or it not in of_size])
        return found and sizes_of(found)

    if key_of(word) in NAMES_OF_SIZES:
        return size_with([word], word) == wanted
    pairs = [[word]] + [[word, it] for it in others]
    return any(
        size_with(it, word) == wanted
        and all(size_with(it, other) != wanted for other in others_than(word, DIGITS_OF_WORDS))
        for it in pairs
    )


def sizes_of(whole: Node) -> List[List[str]]:
    """The numbers of a CRS's ellipsoids."""
    return [it.values[1:] for it in whole.all() if it.keyword == "ELLIPSOID"]


def without_remark(written: str) -> Node:
    """A text without the remark in which PROJ keeps a string that it doesn't read in full."""
    try:
        whole = tree_of(written)
    except (IndexError, ValueError):
        raise NotRead("PROJ writes no well-formed text of it") from None
    for node in whole.all():
        node.items = [it for it in node.items if isinstance(it, str) or it.keyword != "REMARK"]
    return whole


def is_default(word: str, words: Sequence[str]) -> bool:
    """Whether a word of a PROJ string says what is so without it, and no other word says the same thing."""
    key, _, value = word.lstrip("+").partition("=")
    if any(key in twins and key_of(it) in twins and it != word for twins in TWINS for it in words):
        return False
    if value in DEFAULTS.get(key, ()):
        return True
    return key in ZERO and rounded(value).lstrip("-") == "0" or key in ONE and rounded(value) == "1"
