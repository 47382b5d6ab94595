"""What `explain --rules` tells of pairs of real and altered texts, under the rules that ship and under random ones: each part
that differs under the rules without a mark, and with it exactly those that differ without rules and not under them.

Which parts differ is found apart from what `explain` writes: a text is taken apart, each part is put alone into a text of its
own, and `same` of the Python package says of two such texts whether they are the same. Where the order of axes doesn't count,
they are put in order first, as docs/RULES.md says. CRSDESK_PAIRS is the number of pairs for each rules; the usual one is small.
"""
from __future__ import annotations

import os
import pathlib
import random
import re
import subprocess
from typing import Callable, Dict, Iterator, List, Literal, NamedTuple, Optional, Set, Tuple, Union

import pytest
import rows
from support import EXAMPLES, ROOT

Level = Literal["full", "definition"]
LEVELS: List[Level] = ["full", "definition"]
PAIRS = int(os.environ.get("CRSDESK_PAIRS", "40"))
SHIPPED = [["producers.rules"], ["any-order.rules"], ["producers.rules", "any-order.rules"]]
TOKEN = re.compile(r'"(?:[^"]|"")*"|[\w.+-]+|[][,]')
WORDS = "crsName baseName conversionName axisName dynamic anchor geoidModel baseUnit ensemble axisOrder".split()
NAMED = "DATUM VDATUM MEMBER ELLIPSOID PRIMEM METHOD PARAMETER GEOIDMODEL MODEL AXIS".split()
UNITS = "LENGTHUNIT ANGLEUNIT SCALEUNIT UNIT".split()
# Texts that have one part each, where the braces are.
HEIGHT = 'VERTCRS[{},VDATUM[""],CS[vertical,1],AXIS["",up],LENGTHUNIT["",1]]'
END = 'VERTCRS["",VDATUM[""],CS[vertical,1],AXIS["",up],LENGTHUNIT["",1]{}]'
FRAME = 'VERTCRS["",VDATUM[""{}],CS[vertical,1],AXIS["",up],LENGTHUNIT["",1]]'
GRID = (
    'PROJCRS["",BASEGEOGCRS["",DATUM["",ELLIPSOID["",1,0]]],CONVERSION["",METHOD[""]{}],'
    'CS[Cartesian,2],AXIS["",north],AXIS["",north],LENGTHUNIT["",1]]'
)
MERIDIAN = GRID.replace("{}", "").replace('AXIS["",north]', 'AXIS["",north{}]', 1)
GLOBE = 'GEOGCRS["",{}CS[ellipsoidal,2],AXIS["",north],AXIS["",east],ANGLEUNIT["",1]]'
MEMBERS = GLOBE.replace("{}", 'ENSEMBLE[""{},ELLIPSOID["",1,0],ENSEMBLEACCURACY[1]],')
MODEL = GLOBE.replace("{}", 'DYNAMIC[FRAMEEPOCH[1]{}],DATUM["",ELLIPSOID["",1,0]],')


class Node(NamedTuple):
    """A node of a canonical text."""

    keyword: str
    args: List[Union[str, Node]]

    def __str__(self) -> str:
        return f"{self.keyword}[{','.join(map(str, self.args))}]"

    def all(self, *keywords: str) -> List[Node]:
        return [it for it in self.args if isinstance(it, Node) and it.keyword in keywords]

    def one(self, *keywords: str) -> Optional[Node]:
        return next(iter(self.all(*keywords)), None)

    def nodes(self) -> Iterator[Node]:
        yield self
        for it in self.args:
            if isinstance(it, Node):
                yield from it.nodes()


def tree(text: str) -> Node:
    tokens = TOKEN.findall(text)

    def item(at: int) -> Tuple[Union[str, Node], int]:
        word, at = tokens[at], at + 1
        if tokens[at] != "[":
            return word, at
        args = []
        while tokens[at] != "]":
            arg, at = item(at + 1)
            args.append(arg)
        return Node(word, args), at + 1

    node = item(0)[0]
    assert isinstance(node, Node) and str(node) == text
    return node


# ---- the parts of two CRSs: the path of each, and two texts that have it alone; of a word, the words

Parts = Iterator[Tuple[str, str, str]]
Maybe = Optional[Node]


def put(text: str, *nodes: object) -> str:
    return text.replace("{}", "".join(f",{it}" for it in nodes if it is not None))


def both(a: Node, b: Node, path: str, text: str, *keywords: str) -> Parts:
    """A part of both nodes that has these arguments."""
    yield path, put(text, *a.all(*keywords)), put(text, *b.all(*keywords))


def arg(a: Node, b: Node, path: str, at: int, text: str) -> Parts:
    """An argument that each has: a text in quotes or a number."""
    yield path, text.replace("{}", str(a.args[at])), text.replace("{}", str(b.args[at]))


def number(a: Maybe, b: Maybe, path: str, at: int) -> Parts:
    first, second = (put(GRID, f'PARAMETER["",{it.args[at]}]' if it else None) for it in (a, b))
    yield path, first, second


def name(a: Node, b: Node, path: str) -> Parts:
    return arg(a, b, f"{path}name", 0, HEIGHT)


def unit(a: Maybe, b: Maybe, path: str) -> Parts:
    first, second = (put(GRID, f'PARAMETER["",1{f",{it}" if it else ""}]') for it in (a, b))
    yield f"{path}unit", first, second


def ids(a: Node, b: Node, path: str) -> Parts:
    return both(a, b, f"{path}id", END, "ID")


def dynamic(a: Node, b: Node, path: str) -> Parts:
    x, y = (it.one("DYNAMIC") or Node("", []) for it in (a, b))
    yield from number(x.one("FRAMEEPOCH"), y.one("FRAMEEPOCH"), f"{path}dynamic/epoch", 0)
    yield from both(x, y, f"{path}dynamic/model", MODEL, "MODEL")


def frame(a: Node, b: Node, path: str) -> Parts:
    x, y = (it.one("DATUM", "VDATUM", "ENSEMBLE") for it in (a, b))
    assert x and y
    at = f"{path}datum/"
    yield f"{at}kind", x.keyword, y.keyword
    yield from name(x, y, at)
    e, f = x.one("ELLIPSOID"), y.one("ELLIPSOID")
    if e and f:
        yield from name(e, f, f"{at}ellipsoid/")
        yield from number(e, f, f"{at}ellipsoid/semimajor", 1)
        yield from number(e, f, f"{at}ellipsoid/flattening", 2)
        yield from unit(e.one("LENGTHUNIT"), f.one("LENGTHUNIT"), f"{at}ellipsoid/")
        yield from ids(e, f, f"{at}ellipsoid/")
    if x.keyword == y.keyword == "ENSEMBLE":
        yield from both(x, y, f"{at}members", MEMBERS, "MEMBER")
        yield from number(x.one("ENSEMBLEACCURACY"), y.one("ENSEMBLEACCURACY"), f"{at}accuracy", 0)
    elif x.keyword == y.keyword:
        yield from both(x, y, f"{at}anchor", FRAME, "ANCHOR")
        yield from number(x.one("ANCHOREPOCH"), y.one("ANCHOREPOCH"), f"{at}anchorepoch", 0)
    yield from ids(x, y, at)


def meridian(a: Node, b: Node, path: str) -> Parts:
    x, y = a.one("PRIMEM"), b.one("PRIMEM")
    assert x and y
    at = f"{path}meridian/"
    yield from name(x, y, at)
    yield from number(x, y, f"{at}longitude", 1)
    yield from unit(x.one("ANGLEUNIT"), y.one("ANGLEUNIT"), at)
    yield from ids(x, y, at)


def system(a: Node, b: Node, path: str) -> Parts:
    x, y = a.one("CS"), b.one("CS")
    assert x and y
    at = f"{path}system/"
    yield f"{at}type", str(x.args[0]), str(y.args[0])
    yield from number(x, y, f"{at}dimension", 1)
    yield from ids(x, y, at)
    these, others = a.all("AXIS"), b.all("AXIS")
    for i in range(max(len(these), len(others))):
        step = f"{at}axis{i + 1}/"
        if i >= min(len(these), len(others)):
            yield f"{step}name", str(i < len(these)), str(i < len(others))
            continue
        p, q = these[i], others[i]
        yield from name(p, q, step)
        yield f"{step}direction", str(p.args[1]), str(q.args[1])
        yield from both(p, q, f"{step}meridian", MERIDIAN, "MERIDIAN")
        yield from unit(p.one(*UNITS), q.one(*UNITS), step)
        yield from ids(p, q, step)


def tail(a: Node, b: Node, path: str) -> Parts:
    yield from both(a, b, f"{path}usage", END, "USAGE")
    yield from ids(a, b, path)
    yield from both(a, b, f"{path}remark", END, "REMARK")


def projected(a: Node, b: Node, path: str) -> Parts:
    x, y = a.one("BASEGEOGCRS"), b.one("BASEGEOGCRS")
    c, d = a.one("CONVERSION"), b.one("CONVERSION")
    assert x and y and c and d
    yield from name(x, y, f"{path}base/")
    for part in (dynamic, frame, meridian):
        yield from part(x, y, f"{path}base/")
    yield from unit(x.one("ANGLEUNIT"), y.one("ANGLEUNIT"), f"{path}base/")
    yield from ids(x, y, f"{path}base/")
    at = f"{path}conversion/"
    yield from name(c, d, at)
    m, n = c.one("METHOD"), d.one("METHOD")
    assert m and n
    yield from name(m, n, f"{at}method/")
    yield from ids(m, n, f"{at}method/")
    yield from both(c, d, f"{at}parameters", GRID, "PARAMETER")
    yield from ids(c, d, at)


def parts(a: Node, b: Node, path: str = "") -> Parts:
    yield f"{path}kind", a.keyword, b.keyword
    kinds = {"GEODCRS" if it.keyword == "GEOGCRS" else it.keyword for it in (a, b)}
    if len(kinds) > 1:
        return
    yield from name(a, b, path)
    if a.keyword == "COMPOUNDCRS":
        yield from parts(a.args[1], b.args[1], f"{path}horizontal/")  # type: ignore[arg-type]
        yield from parts(a.args[2], b.args[2], f"{path}vertical/")  # type: ignore[arg-type]
    elif a.keyword == "PROJCRS":
        yield from projected(a, b, path)
    else:
        yield from dynamic(a, b, path)
        yield from frame(a, b, path)
        if a.keyword != "VERTCRS":
            yield from meridian(a, b, path)
    if a.keyword != "COMPOUNDCRS":
        yield from system(a, b, path)
    if a.keyword == "VERTCRS":
        yield from both(a, b, f"{path}geoid", END, "GEOIDMODEL")
    yield from tail(a, b, path)


def that_differ(a: Node, b: Node) -> Set[str]:
    from crsdesk import same

    return {path for path, x, y in parts(a, b) if x != y and ("[" not in x + y or not same(x, y))}


# ---- axes in the order of a form


def without_order(axis: Node) -> str:
    return str(Node("AXIS", [it for it in axis.args if not (isinstance(it, Node) and it.keyword == "ORDER")]))


def in_order(crs: Node, renamed: Node, form: Node) -> Node:
    """A CRS, its axes in the order of its form, which is that of their texts without ORDER when parts were renamed."""
    args, axes = list(crs.args), renamed.all("AXIS")
    sorted_axes = sorted(range(len(axes)), key=lambda i: without_order(axes[i]).encode())
    assert [without_order(axes[i]) for i in sorted_axes] == [without_order(it) for it in form.all("AXIS")]
    own = crs.all("AXIS")
    if own:
        begin = args.index(own[0])
        args[begin : begin + len(own)] = [own[i] for i in sorted_axes]
    for i, it in enumerate(args):
        if isinstance(it, Node) and it.keyword.endswith("CRS") and crs.keyword == "COMPOUNDCRS":
            args[i] = in_order(it, renamed.args[i], form.args[i])  # type: ignore[arg-type]
    return Node(crs.keyword, args)


# ---- what is told


def told(program: pathlib.Path, level: str, files: List[pathlib.Path], a: str, b: str) -> Tuple[bytes, int]:
    words = [word for it in files for word in ("--rules", str(it))]
    done = subprocess.run(
        [program, "explain", "--level", level, *words, "--", a, b], stdout=subprocess.PIPE, check=False
    )
    return done.stdout, done.returncode


def bare(path: bytes) -> str:
    return path.split(b"[")[0].decode()


def check(program: pathlib.Path, level: Level, files: List[pathlib.Path], a: str, b: str) -> int:
    """Whether what is told of two texts is right; the number of marks."""
    from crsdesk import Rules, canon

    whole = "\n".join(it.read_text(encoding="utf-8") for it in files)
    rules = Rules(whole)
    # The same rules, but that the order of axes counts.
    lines = [
        re.sub(r"\baxisOrder,|,axisOrder\b", "", it) for it in whole.split("\n") if it.strip() != "UNCOUNTED[axisOrder]"
    ]
    ordered = Rules("\n".join(lines))
    counts = not re.search(r"^UNCOUNTED.*\baxisOrder\b", whole, re.MULTILINE)
    forms, befores = [], []
    for text in (a, b):
        crs, form = tree(canon(text, level)), tree(canon(text, level, rules))
        forms.append(form)
        befores.append(crs if counts else in_order(crs, tree(canon(text, level, ordered)), form))
    after = that_differ(*forms)
    marked = that_differ(*befores) - after
    output, status = told(program, level, files, a, b)
    found: Dict[bool, Set[str]] = {True: set(), False: set()}
    for line in output.splitlines():
        if line == b"same":
            assert not after
            continue
        path = rows.TOLD.match(line)[1]  # type: ignore[index]
        mark = b"the same by the rules: "
        found[path.startswith(mark)].add(bare(path[len(mark) :] if path.startswith(mark) else path))
    assert (found[False], found[True], status) == (after, marked, int(bool(after))), (whole, level, a, b)
    turned = rows.exchanged(told(program, level, files, b, a)[0])
    assert output == turned, (whole, level, a, b)
    return len(marked)


# ---- texts and rules


def real_texts() -> List[str]:
    """The canonical texts of the examples."""
    from crsdesk import Refused, canon

    texts = [it.read_text(encoding="utf-8") for it in sorted(EXAMPLES.rglob("*.wkt"))]
    texts += (EXAMPLES / "catalogue.txt").read_text(encoding="utf-8").split("\n")
    found = set()
    for text in texts:
        try:
            found.add(canon(text))
        except Refused:
            pass
    return sorted(found)


def altered(chance: random.Random, text: str, others: List[str]) -> str:
    """A text with a few nodes altered, left out, moved or taken from others, which is accepted."""
    from crsdesk import Refused, canon

    while True:
        crs = tree(text)
        for _ in range(chance.randint(1, 4)):
            node = chance.choice(list(crs.nodes()))
            chance.choice(ALTER)(chance, node, chance.choice(others))
        try:
            return canon(str(crs))
        except Refused:
            continue


def rename(chance: random.Random, node: Node, other: str) -> None:
    if node.args and str(node.args[0]).startswith('"'):
        node.args[0] = chance.choice([f'"{chance.choice("abcn")}"', '"' + str(node.args[0])[1:-1] + ' ensemble"'])


def renumber(chance: random.Random, node: Node, other: str) -> None:
    at = [
        i
        for i, it in enumerate(node.args)
        if re.fullmatch(r"-?[\d.]+", str(it)) and node.keyword not in ("CS", "ORDER")
    ]
    if at:
        node.args[chance.choice(at)] = str(chance.randint(1, 3))


def drop(chance: random.Random, node: Node, other: str) -> None:
    if len(node.args) > 1:
        del node.args[chance.randrange(1, len(node.args))]


def take(chance: random.Random, node: Node, other: str) -> None:
    """A node of the same keyword, from another text, in place of this one, or an argument of it added."""
    same = [it for it in tree(other).nodes() if it.keyword == node.keyword]
    if same:
        source = chance.choice(same)
        node.args[:] = source.args if chance.random() < 0.5 else [*node.args, chance.choice(source.args)]


def move_axes(chance: random.Random, node: Node, other: str) -> None:
    at = [i for i, it in enumerate(node.args) if isinstance(it, Node) and it.keyword == "AXIS"]
    axes = [node.args[i] for i in at]
    for i, axis in zip(at, reversed(axes)):
        assert isinstance(axis, Node)
        node.args[i] = Node("AXIS", [it for it in axis.args if not (isinstance(it, Node) and it.keyword == "ORDER")])


def add(chance: random.Random, node: Node, other: str) -> None:
    """A part that a frame or a CRS may have, or the other kind of frame."""
    if node.keyword in ("DATUM", "VDATUM"):
        node.args.append(chance.choice([Node("ANCHOR", ['"x"']), Node("ANCHOREPOCH", ["2010"])]))
    elif node.keyword == "VERTCRS":
        node.args.append(Node("GEOIDMODEL", [chance.choice(['"a"', '"b"'])]))
    elif node.keyword in ("GEOGCRS", "BASEGEOGCRS"):
        made = Node("DYNAMIC", [Node("FRAMEEPOCH", ["2010"]), Node("MODEL", [chance.choice(['"a"', '"b"'])])])
        for i, it in enumerate(node.args):
            if isinstance(it, Node) and it.keyword == "DATUM" and it.one("ELLIPSOID"):
                members = [
                    Node("MEMBER", [chance.choice(['"a"', '"b"'])]),
                    it.one("ELLIPSOID"),
                    Node("ENSEMBLEACCURACY", ["1"]),
                ]
                if chance.random() < 0.5:
                    node.args[i] = Node("ENSEMBLE", [it.args[0], *members])  # type: ignore[list-item]
                    return
        node.args.insert(1, made)


ALTER: List[Callable[[random.Random, Node, str], None]] = [rename, renumber, drop, take, move_axes, add]


def random_rules(chance: random.Random, a: str, b: str) -> str:
    """Rules by which some names and units of two texts count as one, and some words don't count."""
    nodes = [it for text in (a, b) for it in tree(text).nodes()]
    lines: List[str] = []
    used: Set[str] = set()
    for keyword in [*NAMED, *UNITS]:
        count = 2 if keyword in UNITS else 1
        found = sorted(
            {str(Node(keyword, it.args[:count])) for it in nodes if it.keyword == keyword and "\n" not in str(it)}
            - used
        )
        chance.shuffle(found)
        if len(found) > 1 and chance.random() < 0.6:
            members = found[: chance.randint(2, 3)]
            used.update(members)
            lines.append(f"SAME[{','.join(members)}]")
    words = [it for it in WORDS if chance.random() < 0.3]
    if words:
        lines.append(f"UNCOUNTED[{','.join(words)}]")
    chance.shuffle(lines)
    return "\n".join(lines) + "\n"


def pairs(seed: int) -> Iterator[Tuple[random.Random, Level, str, str]]:
    """Pairs of texts, each with a level."""
    chance = random.Random(seed)
    texts = real_texts()
    for _ in range(PAIRS):
        first = chance.choice(texts)
        second = chance.choice([first, altered(chance, first, texts), chance.choice(texts)])
        if chance.random() < 0.5:
            first = altered(chance, first, texts)
        yield chance, chance.choice(LEVELS), first, second


@pytest.mark.parametrize("names", SHIPPED, ids="-".join)
def test_shipped_rules(names: List[str], program: pathlib.Path, library: pathlib.Path) -> None:
    files = [ROOT / "rules" / it for it in names]
    marks = sum(check(program, level, files, a, b) for _, level, a, b in pairs(len(names[0])))
    assert (marks > 0) == ("producers.rules" in names), "what differs in the order of axes alone isn't told"


def test_random_rules(program: pathlib.Path, library: pathlib.Path, tmp_path: pathlib.Path) -> None:
    file = tmp_path / "r"
    marks = 0
    for chance, level, a, b in pairs(91):
        file.write_text(random_rules(chance, a, b), encoding="utf-8")
        marks += check(program, level, [file], a, b)
    assert marks > 0
