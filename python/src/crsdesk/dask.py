"""Catalogues that are too large for one machine: groups of texts, and canonical texts, over Dask's bags and dataframes.

    >>> import dask.bag
    >>> from crsdesk.dask import groups
    >>> height = 'VERTCRS["H",VDATUM["D"],CS[vertical,1],AXIS["h",up,LENGTHUNIT["metre",1]]]'
    >>> found = groups(dask.bag.from_sequence([height, "", "EPSG:4326", height + " "])).compute(scheduler="threads")
    >>> [it.group for it in found]
    [1, None, None, 1]
    >>> found[2].refusal
    'refused 1 BadCharacter at 4'

The package has it with the extra ``crsdesk[dask]`` (docs/CLUSTER.md). What is called here is tested, not proved: that two
texts have equal canonical texts exactly if their CRSs are the same is what the library's proof says, and all that it is
built on.
"""

from __future__ import annotations

import os
from typing import Any, Dict, Iterable, List, Optional, Tuple, Union

import dask.bag
import dask.dataframe
import pandas
from dask import delayed
from dask.base import tokenize
from dask.bytes import read_bytes
from dask.delayed import Delayed
from dask.highlevelgraph import HighLevelGraph

from . import _partitions
from ._crs import Level, number_of, rules_of
from ._partitions import Half, Kept, Led, Ranks, Standing, Standings
from ._rules import Rules

__all__ = ["Standing", "canon", "groups", "lines"]

# In how many partitions keys are compared, and how many spans of partitions send them together: eight, more above this
# many partitions for each.
MEETINGS = 8
A_MEETING = 32
ANSWER = {"group": "Int64", "refusal": "object"}


def lines(
    path: Union[str, "os.PathLike[str]", List[str]], blocksize: Union[int, str] = "16 MiB", **options: Any
) -> Any:
    """A bag of the lines of files, as bytes, without their ends: what a catalogue has (docs/CATALOGUES.md). Each block
    of about ``blocksize`` bytes is a partition. Path and options are passed to ``dask.bytes.read_bytes``: a name, a
    pattern or a list, with ``s3://`` and others if their packages are there."""
    found = read_bytes(path, delimiter=b"\n", blocksize=blocksize, sample=False, **options)[1]
    # Files without a byte have no block.
    blocks = [block for blocks in found for block in blocks] or [b""]
    return dask.bag.from_delayed([delayed(lines_of)(block) for block in blocks])


def lines_of(block: bytes) -> List[bytes]:
    """The lines of a block, which ends with an end of a line, or with the file."""
    found = block.split(b"\n")
    if not found[-1]:
        del found[-1]
    if b"\r\n" in block:
        last = found.pop() if block and not block.endswith(b"\n") else None
        found = [line[:-1] if line.endswith(b"\r") else line for line in found]
        found += [] if last is None else [last]
    return found


def groups(
    texts: Any, level: Level = "full", *, npartitions: Optional[int] = None, rules: Optional[Rules] = None
) -> Any:
    """The group or the refusal of each text of a bag or of a dataframe's column, in one ``Catalogue``.

    Groups are numbered from 1 by their first texts, in the collection's order. For a bag the answer is a bag of
    ``Standing``; for a column it is a dataframe with its index, its partitions, and the columns ``group`` (``Int64``,
    with NA) and ``refusal`` (a str or None). A blank text, and NA in a column, has neither. Nothing is computed before
    the answer is asked for. ``npartitions`` is in how many partitions keys are compared; without it, as many as the
    collection has up to 8, and above 256 partitions one for each 32. With ``rules`` texts are in one group if they are
    the same under them.

    ``TypeError`` for another collection, and while it is computed for what is no text; ``ValueError`` for a level that
    isn't there.
    """
    number_of(level)
    rules_of(rules)
    is_bag = is_bag_of(texts)
    parts = texts.to_delayed()
    count = len(parts)
    meetings = npartitions or min(count, max(MEETINGS, count // A_MEETING))
    spans_wanted = min(count, max(MEETINGS, count // A_MEETING))
    bounds = [count * number // spans_wanted for number in range(spans_wanted + 1)]
    graph = Graph(tokenize([part.key for part in parts], level, is_bag, meetings, rules), parts)
    spans = list(zip(bounds, bounds[1:]))
    answers = [graph.part(key) for key in add_tasks(graph, level, is_bag, spans, meetings, rules)]
    if is_bag:
        return dask.bag.from_delayed(answers)
    return dask.dataframe.from_delayed(answers, meta=empty_like(texts), divisions=texts.divisions, verify_meta=False)


class Graph:
    """Tasks over the partitions of a collection: a key and what is computed for it, from keys."""

    def __init__(self, token: str, parts: List[Any]) -> None:
        self.token = token
        self.parts = parts
        self.tasks: Dict[str, Any] = {}
        self.whole: Any = None

    def add(self, name: str, place: Any, *task: Any) -> str:
        """A task, a function and its arguments, in which keys stand for what they compute."""
        key = f"{name}-{self.token}-{place}"
        self.tasks[key] = task
        return key

    def part(self, key: str) -> Any:
        """What a key computes, once all tasks are there."""
        name = f"groups-{self.token}"
        if self.whole is None:
            self.whole = HighLevelGraph.from_collections(name, self.tasks, dependencies=self.parts)
        return Delayed(key, self.whole, layer=name)


def add_tasks(
    graph: Graph, level: Level, is_bag: bool, spans: List[Tuple[int, int]], meetings: int, rules: Optional[Rules]
) -> List[str]:
    """The tasks by which partitions are grouped, and the keys of their answers. What goes between workers are the arrays
    of a span and a meeting; texts leave a worker where they are compared."""
    # They go to each worker once.
    under = None if rules is None else graph.add("rules", 0, Rules, *rules.texts)
    halves = [
        graph.add("own_groups", it, own_groups, part.key, level, is_bag, under) for it, part in enumerate(graph.parts)
    ]
    kept = [graph.add("kept_of", it, kept_of, half) for it, half in enumerate(halves)]
    digests = [graph.add("digests_of", it, digests_of, half) for it, half in enumerate(halves)]
    sent = [
        graph.add("sent", it, _partitions.sent, digests[begin:end], begin, meetings)
        for it, (begin, end) in enumerate(spans)
    ]
    met = []
    for it in range(meetings):
        keys = [graph.add("keys", f"{span}-{it}", item, key, it) for span, key in enumerate(sent)]
        met.append(graph.add("met", it, _partitions.met, keys))
    wanted = [graph.add("wanted", it, _partitions.wanted, key) for it, key in enumerate(met)]
    texts = []
    for span, (begin, end) in enumerate(spans):
        items = [graph.add("asked", f"{span}-{it}", item, key, span) for it, key in enumerate(wanted)]
        # Once for a partition, so that none of its texts goes to a worker but those that are compared.
        asked = graph.add("asked_of", span, list, items)
        parts = [graph.add("texts_for", it, texts_for, halves[it], it, asked) for it in range(begin, end)]
        texts.append(graph.add("joined", span, _partitions.joined, parts))
    told = []
    for it, key in enumerate(met):
        blocks = [graph.add("texts", f"{span}-{it}", item, its, it) for span, its in enumerate(texts)]
        told.append(graph.add("judged", it, _partitions.judged, key, blocks))
    led = []
    for span, (begin, end) in enumerate(spans):
        parts = [graph.add("told", f"{span}-{it}", item, key, span) for it, key in enumerate(told)]
        led.append(graph.add("led", span, _partitions.led, parts, begin, end))
    bits = [graph.add("bits_of", it, bits_of, key) for it, key in enumerate(led)]
    ranks = graph.add("ranks", 0, _partitions.ranks, bits)
    return [
        graph.add("answer", it, answer, kept[it], led[span], it - begin, ranks, is_bag)
        for span, (begin, end) in enumerate(spans)
        for it in range(begin, end)
    ]


def canon(texts: Any, level: Level = "full", rules: Optional[Rules] = None) -> Any:
    """The canonical text of each text of a bag or of a dataframe's column, or the form under rules, in a collection like
    it; None if it spells no CRS, and where it is NA. Raises as ``groups`` does."""
    number_of(level)
    rules_of(rules)
    if is_bag_of(texts):
        return texts.map_partitions(canonical_list, level, rules)
    return texts.map_partitions(canonical_column, level, rules, meta=(texts.name, "object"))


def is_bag_of(texts: Any) -> bool:
    """Whether it is a bag, or a column. TypeError for what is neither."""
    if isinstance(texts, dask.bag.Bag):
        return True
    if isinstance(texts, dask.dataframe.Series):
        return False
    advice = "; take one of its columns" if isinstance(texts, dask.dataframe.DataFrame) else ""
    raise TypeError(f"a catalogue is a bag of dask or a column of its dataframe, not {type(texts).__name__}{advice}")


def empty_like(texts: Any) -> Any:
    """The answer of no texts, with the index of a column."""
    index = texts._meta.index[:0]
    return pandas.DataFrame({name: pandas.Series([], dtype=kind, index=index) for name, kind in ANSWER.items()})


def is_missing(text: object) -> bool:
    """Whether a value of a column is None, NaN or NA."""
    return text is None or text is pandas.NA or isinstance(text, float) and text != text


def own_groups(texts: Any, level: Level, is_bag: bool, rules: Optional[Rules]) -> Half:
    """A partition by itself."""
    return _partitions.own_groups(texts, level, None if is_bag else is_missing, rules)


def kept_of(half: Half) -> Kept:
    """What is kept of a partition, once its texts are compared."""
    return half.kept


def digests_of(half: Half) -> Any:
    return half.digests


def item(parts: Any, place: int) -> Any:
    """What one of several tasks is given."""
    return parts[place]


def texts_for(half: Half, partition: int, keys: Any) -> Any:
    return _partitions.texts_for(half.texts, partition, keys)


def bits_of(led: List[Led]) -> List[Any]:
    return [it.bits for it in led]


def answer(kept: Kept, led: List[Led], place: int, ranks: Ranks, is_bag: bool) -> Any:
    """The answer of a partition, the one at a place of its span: standings, or a dataframe."""
    group = _partitions.numbers_of(led[place], ranks)[kept.local]
    if is_bag:
        return Standings(group, kept.refusals)
    refusals = [kept.refusals.get(number) for number in range(len(group))]
    columns = {
        "group": pandas.arrays.IntegerArray(group, group == 0),
        "refusal": pandas.Series(refusals, dtype="object").to_numpy(),
    }
    return pandas.DataFrame(columns, index=kept.index)


def canonical_list(texts: Iterable[Any], level: Level, rules: Optional[Rules]) -> List[Optional[str]]:
    """The canonical texts of a partition of a bag."""
    return _partitions.canonical_texts(texts, level, None, rules)


def canonical_column(texts: Any, level: Level, rules: Optional[Rules]) -> Any:
    """The canonical texts of a partition of a column."""
    found = _partitions.canonical_texts(texts, level, is_missing, rules)
    return pandas.Series(found, index=texts.index, name=texts.name, dtype="object")
