"""Makes texts of texts by chance, for mutate_texts.py: altered ones, and other spellings of the same CRS."""
from __future__ import annotations

import collections
import decimal
import pathlib
import random
import re
from typing import Dict, Iterator, List, Sequence, Tuple

ROOT = pathlib.Path(__file__).resolve().parent.parent
MOST_BYTES = 20_000
MOST_DEPTH = 40

TOKEN = re.compile(
    rb'(?P<item>"(?:[^"]|"")*"|[0-9+.-][0-9A-Za-z_.+-]*|[A-Za-z][0-9A-Za-z_]*)|(?P<open>[\[(])|(?P<close>[\])])'
)
BYTES = [it.encode() for it in '" "" [ ( ] ) , + - . 0 E _ # ; \\ é \u2028 \u202e \ufeff \U0001f30d'.split(" ")]
BYTES += [bytes([it]) for it in b" \t\r\n\0\x0b\x7f\x80\xbf\xc3\xff"]
BYTES += [b"\xc0\x80", b"\xe0\x80\x80", b"\xed\xa0\x80", b"\xf0\x80\x80\x80", b"\xf4\x90\x80\x80"]
# Numbers within the bounds and beyond them, no numbers, words and quoted texts.
TOKENS = b"0 -0 +1 1. .5 2 2.0 3 -1 1E0 1e40 1E41 1E-40 1E-41 10E40 0E999 0E1000 007 8.10 4326 1x 1E -- 1..2".split()
TOKENS += [
    b"9" * 38,
    b"9" * 39,
    b"1" * 18,
    b"1" * 19,
    b"1" + b"0" * 40,
    b"0" * 101,
    b"1." + b"0" * 99,
    b"1." + b"0" * 100,
]
TOKENS += (
    b'Cartesian ellipsoidal SPHERICAL vertical north EAST up down geocentricX x "" "x" "a""b" "\\n" "4326"'.split()
)
# What may be repeated; what may be in any order in any node, and in a CRS.
SETS = b"ID", b"USAGE", b"MEMBER", b"PARAMETER", b"GEOIDMODEL"
LOOSE: List[Tuple[bytes, ...]] = [*((it,) for it in SETS), (b"ANCHOR", b"ANCHOREPOCH")]
TAIL: Tuple[bytes, ...] = b"ID", b"USAGE", b"SCOPE", b"AREA", b"BBOX", b"VERTICALEXTENT", b"GEOIDMODEL", b"REMARK"


def keyword_classes() -> List[List[bytes]]:
    """The keywords of each class, by the table of docs/GRAMMAR.md."""
    page = (ROOT / "docs" / "GRAMMAR.md").read_bytes()
    rows: List[bytes] = re.findall(rb"^\| [\w ]+ \| ([A-Z]+(?:, [A-Z]+)*) \| ", page, re.MULTILINE)
    return [row.split(b", ") for row in rows]


class Item:
    """A number, a quoted text or a word, from one place of a text to another; or a node, with its arguments."""

    def __init__(self, start: int, end: int, token: bytes, is_node: bool = False) -> None:
        self.start, self.end, self.token, self.is_node = start, end, token, is_node
        self.parts: List[Item] = []

    @property
    def keyword(self) -> bytes:
        return self.token.upper() if self.is_node else b""

    def nodes(self) -> Iterator[Item]:
        if self.is_node:
            yield self
            for part in self.parts:
                yield from part.nodes()


def parsed(text: bytes) -> Item:
    """A node whose parts are the items of a text, as far as they go in a broken one."""
    root = Item(0, len(text), b"", True)
    opened = [root]
    for match in TOKEN.finditer(text):
        parts = opened[-1].parts
        if match.lastgroup == "item":
            parts.append(Item(match.start(), match.end(), match[0]))
        elif match.lastgroup == "open" and parts and not parts[-1].is_node and len(opened) < MOST_DEPTH:
            parts[-1].is_node = True
            opened.append(parts[-1])
        elif match.lastgroup == "close" and len(opened) > 1:
            opened.pop().end = match.end()
    return root


class Mutator:
    """Makes texts of others; what it makes depends on the seed and on what it is given alone."""

    def __init__(self, seed: str, texts: Sequence[bytes]) -> None:
        self.chance = random.Random(seed)
        self.texts = texts
        self.classes = keyword_classes()
        # UNIT is of one class here and of another there, so it has no synonym.
        self.synonyms = {it: names for names in self.classes for it in names if b"UNIT" not in names}
        # The nodes of the texts, by keyword.
        self.nodes: Dict[bytes, List[bytes]] = collections.defaultdict(list)
        for text in texts:
            for node in parsed(text).nodes():
                self.nodes[node.keyword].append(text[node.start : node.end])
        self.ways = [self.byte_changed, self.slice_moved, self.parts_moved, self.part_replaced]
        self.ways += [self.keyword_replaced, self.node_replaced, self.deepened]

    def altered(self, text: bytes) -> bytes:
        return self.chance.choice(self.ways)(text)[:MOST_BYTES]

    def node(self, text: bytes) -> Item:
        return self.chance.choice(list(parsed(text).nodes()))

    def part(self, text: bytes) -> Item:
        node = self.node(text)
        return self.chance.choice(node.parts or [node])

    def byte_changed(self, text: bytes) -> bytes:
        """A byte or a delimiter replaced or its bit flipped, or bytes put before it."""
        delimiters = [at for at, it in enumerate(text) if it in b'[](),"'] or [0]
        at = self.chance.choice([self.chance.randrange(len(text) + 1), self.chance.choice(delimiters)])
        flipped = bytes(it ^ 1 << self.chance.randrange(8) for it in text[at : at + 1])
        more = self.chance.choice([flipped, self.chance.choice(BYTES)])
        return text[:at] + more + text[at + self.chance.randrange(2) :]

    def slice_moved(self, text: bytes) -> bytes:
        """Some bytes dropped or doubled."""
        start = self.chance.randrange(len(text) + 1)
        end = start + self.chance.choice([1, 2, self.chance.randrange(1, 100)])
        return text[:start] + text[start:end] * self.chance.choice([0, 2]) + text[end:]

    def parts_moved(self, text: bytes) -> bytes:
        """Two arguments of a node exchanged, or one dropped or doubled."""
        node = self.node(text)
        one, other = sorted(self.chance.choices(node.parts or [node], k=2), key=lambda it: it.start)
        front, first, back = text[: one.start], text[one.start : one.end], text[one.end :]
        if one is not other:
            return front + text[other.start : other.end] + text[one.end : other.start] + first + text[other.end :]
        dropped = front + back[1:] if back.startswith(b",") else front.rstrip(b", ") + back
        return self.chance.choice([front + first + b"," + first + back, dropped])

    def part_replaced(self, text: bytes) -> bytes:
        part = self.part(text)
        return text[: part.start] + self.chance.choice(TOKENS) + text[part.end :]

    def keyword_replaced(self, text: bytes) -> bytes:
        """Another keyword of its class, or any."""
        node = self.node(text)
        own = [names for names in self.classes if node.keyword in names] or self.classes
        word = self.chance.choice(self.chance.choice(self.chance.choice([own, self.classes])))
        return text[: node.start] + word + text[node.start + len(node.token) :]

    def node_replaced(self, text: bytes) -> bytes:
        """A node of another text, mostly of the same keyword, in the place of one."""
        node = self.node(text)
        own = self.nodes.get(node.keyword, [b""])
        others = self.chance.choice([own, own, own, self.nodes[self.chance.choice(list(self.nodes))]])
        return text[: node.start] + self.chance.choice(others) + text[node.end :]

    def deepened(self, text: bytes) -> bytes:
        part, depth = self.part(text), self.chance.randrange(1, 14)
        return text[: part.start] + b"ID[" * depth + text[part.start : part.end] + b"]" * depth + text[part.end :]

    def respelled(self, text: bytes) -> bytes:
        """Another spelling of the CRS of an accepted text."""
        blanks = self.chance.choice([[b""], [b"", b" ", b"\r\n\t"]])
        (item,) = parsed(text).parts
        return self.spelled(item, b"", blanks)

    def spelled(self, item: Item, parent: bytes, blanks: List[bytes]) -> bytes:
        if not item.is_node:
            return self.leaf(item.token, parent)
        word = self.cased(self.chance.choice(self.synonyms.get(item.keyword, [item.keyword])))
        opening, closing = self.chance.choice([(b"[", b"]"), (b"(", b")")])
        tokens = [word, opening]
        for part in self.arranged(item.keyword, item.parts):
            tokens += [self.spelled(part, item.keyword, blanks), b","]
        tokens[-1] = closing
        return b"".join(self.chance.choice(blanks) + it + self.chance.choice(blanks) for it in tokens)

    def leaf(self, token: bytes, parent: bytes) -> bytes:
        if token.startswith(b'"'):
            return token
        if token[:1].isalpha():
            return self.cased(token)
        # The characters of a code count.
        return self.chance.choice([token, b'"' + token + b'"']) if parent == b"ID" else self.number(token)

    def cased(self, word: bytes) -> bytes:
        return self.chance.choice([word, word.lower(), word.upper(), word.title()])

    def number(self, token: bytes) -> bytes:
        """Another spelling of the same number."""
        sign, digits, exponent = decimal.Decimal(token.decode()).as_tuple()
        written = "".join(map(str, digits))
        mantissa = written.rstrip("0")
        if not mantissa:
            return self.chance.choice([b"0", b"-0", b"+0.0", b"00", b".0", b"0.", b"0E-999"])
        power = int(exponent) + len(written) - len(mantissa)
        plain = format(decimal.Decimal(f"{mantissa}E{power}"), "f")
        plain += self.chance.choice(["", "0"] if "." in plain else ["", ".", ".0"])
        scaled = f"{mantissa[0]}.{mantissa[1:]}E{power + len(mantissa) - 1}"
        spelling = self.chance.choice([plain, "0" + plain, scaled, f"{mantissa}e{power:+}"])
        return (b"-" if sign else self.chance.choice([b"", b"+"])) + spelling.encode()

    def arranged(self, keyword: bytes, parts: List[Item]) -> List[Item]:
        """The arguments of a node with its sets in another order and with repeats, and its axes as they may stand."""
        parts = parts[:]
        is_crs = keyword.endswith(b"CRS") and not keyword.startswith(b"BASE")
        loose = [TAIL] if is_crs else LOOSE
        axes = [part for part in parts if part.keyword == b"AXIS"]
        if all(any(it.keyword == b"ORDER" for it in axis.parts) for axis in axes):
            loose = [*loose, (b"AXIS",)]
        for names in loose:
            places = [at for at, part in enumerate(parts) if part.keyword in names]
            members = [parts[at] for at in places]
            self.chance.shuffle(members)
            for at, member in zip(places, members):
                parts[at] = member
        return [it for part in parts for it in [part] * (1 + (part.keyword in SETS and self.chance.random() < 0.1))]
