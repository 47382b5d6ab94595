"""The groups of texts that are in partitions, part by part, for engines that run the parts on many machines.

Each distinct canonical text of a partition is a *key*, whose digest of 128 bits goes to one of several *meetings*, by
the digest. A meeting finds which keys share a digest, has the canonical texts of these sent, and compares them whole:
so no answer depends on digests. The first key of a group, by partition and place, is its *leader*, and groups are
numbered by leaders: each partition says which of its keys lead, a bit a key, and the number of a leader is how many
bits are before it. What goes between machines is arrays and blocks of bytes, never lists of texts.
"""

from __future__ import annotations

import hashlib
import itertools
from typing import Any, Dict, Iterable, Iterator, List, Mapping, NamedTuple, Optional, Sequence, Tuple, Union, overload

import numpy

from ._batch import spellings
from ._crs import Level, bytes_of, canon, is_blank, number_of
from ._refused import Refused
from ._rules import Rules

# An array of numpy.
Array = Any
DIGEST_BYTES = 16
# The bits of leaders are counted in words of so many bits.
WORD = 64
# How many texts are read in one call.
BATCH = 4096
# Texts as most collections have them.
Plain = Union[str, bytes]
PLAIN = (str, bytes)
# The canonical text, no bytes where there is none, and why the text is refused, where it isn't blank.
Spelled = Tuple[bytes, Optional[str]]


class Standing(NamedTuple):
    """The place of a text.

    - ``group``: the number of its group; None if it is in none
    - ``refusal``: why it spells no CRS, such as ``refused 7 UnexpectedEnd at 11``; None if it is in a group or is blank
    """

    group: Optional[int]
    refusal: Optional[str]


class Standings(Sequence[Standing]):
    """The standings of a partition, held as an array of groups and the refusals by place."""

    def __init__(self, groups: Array, refusals: Dict[int, str]) -> None:
        self.groups = groups
        self.refusals = refusals

    def __len__(self) -> int:
        return len(self.groups)

    def __iter__(self) -> Iterator[Standing]:
        get = self.refusals.get
        return (Standing(group or None, get(place)) for place, group in enumerate(self.groups.tolist()))

    @overload
    def __getitem__(self, place: int) -> Standing:
        ...

    @overload
    def __getitem__(self, place: slice) -> List[Standing]:
        ...

    def __getitem__(self, place: Union[int, slice]) -> Union[Standing, List[Standing]]:
        if isinstance(place, slice):
            return [self[it] for it in range(*place.indices(len(self)))]
        at = range(len(self))[place]
        return Standing(int(self.groups[at]) or None, self.refusals.get(at))


class Kept(NamedTuple):
    """What is kept of a partition: the own group of each text, counted from 1, and 0 of one that is in none; the
    refusals by place; and the index of a dataframe's column."""

    local: Array
    refusals: Dict[int, str]
    index: Any


class Block(NamedTuple):
    """Texts one after the other, and where each ends."""

    bytes: Array
    ends: Array


class Half(NamedTuple):
    """A partition by itself: what is kept, and the digest and the text of each of its groups."""

    kept: Kept
    digests: Array
    texts: Block


class Keys(NamedTuple):
    """Keys: digest, partition, and group in it, counted from 0; in the order of their partitions and groups."""

    digests: Array
    partitions: Array
    groups: Array


class Met(NamedTuple):
    """Keys that met, by the spans that sent them, and the leader of each; what is shared needs its text compared."""

    sizes: List[int]
    partitions: Array
    groups: Array
    leaders: Array
    shared: Array


# A partition by itself.


def own_groups(texts: Iterable[Any], level: Level, missing: Any = None, rules: Optional[Rules] = None) -> Half:
    """The groups of a partition by itself. ``missing`` says whether a value of a column is none."""
    numbers: Dict[bytes, int] = {}
    # Repeated texts aren't read again: the collection holds them.
    known: Dict[Plain, Tuple[int, Optional[str]]] = {}
    refusals: Dict[int, str] = {}
    local: List[int] = []
    for text, answer in spelled(texts, level, missing, rules, known):
        if answer is None:
            found = known[text]
        else:
            spelling, refusal = answer
            found = numbers.setdefault(spelling, len(numbers) + 1) if spelling else 0, refusal
            if type(text) in PLAIN:
                known[text] = found
        if found[1]:
            refusals[len(local)] = found[1]
        local.append(found[0])
    kept = Kept(numpy.array(local, dtype="int64"), refusals, getattr(texts, "index", None) if missing else None)
    return Half(kept, digests_of(numbers), block_of(list(numbers)))


def spelled(
    texts: Iterable[Any], level: Level, missing: Any, rules: Optional[Rules], known: Mapping[Plain, Any]
) -> Iterator[Tuple[Any, Optional[Spelled]]]:
    """Each text and how it is spelled; None if the text is known when it is its turn."""
    number = number_of(level)
    for some in batches(texts):
        together = {} if rules is not None else spelled_together(some, known, number)
        for text in some:
            is_plain = type(text) in PLAIN
            if is_plain and text in known:
                yield text, None
            elif is_plain and rules is None:
                yield text, together[text]
            else:
                yield text, spelled_alone(text, level, missing, rules)


def canonical_texts(texts: Iterable[Any], level: Level, missing: Any, rules: Optional[Rules]) -> List[Optional[str]]:
    """The canonical text or the form of each text; None of one that spells no CRS."""
    answers = (answer for _, answer in spelled(texts, level, missing, rules, {}))
    return [answer[0].decode() if answer and answer[0] else None for answer in answers]


def batches(texts: Iterable[Any]) -> Iterator[List[Any]]:
    """The texts, so many at a time."""
    rest = iter(texts)
    while some := list(itertools.islice(rest, BATCH)):
        yield some


def spelled_together(texts: List[Any], known: Mapping[Plain, Any], level: int) -> Dict[Plain, Spelled]:
    """How texts that are str or bytes, and not known, are spelled at the level of this number."""
    fresh = list(dict.fromkeys(text for text in texts if type(text) in PLAIN and text not in known))
    found = spellings(map(bytes_of, fresh), level)
    return {
        text: (spelling, None) if isinstance(spelling, bytes) else (b"", None if is_blank(text) else spelling.summary)
        for text, spelling in zip(fresh, found)
    }


def spelled_alone(text: Any, level: Level, missing: Any, rules: Optional[Rules]) -> Spelled:
    """How any value of a column is spelled."""
    if missing and missing(text) or is_blank(text):
        return b"", None
    try:
        return canon(text, level, rules).encode(), None
    except Refused as refused:
        return b"", refused.summary


def digests_of(texts: Iterable[bytes]) -> Array:
    """The first half of the digest of each canonical text, a row of two numbers."""
    rows = b"".join([hashlib.sha256(text).digest()[:DIGEST_BYTES] for text in texts])
    return numpy.frombuffer(rows, dtype="<u8").reshape(-1, 2)


def block_of(texts: Sequence[bytes]) -> Block:
    ends = numpy.cumsum(numpy.fromiter(map(len, texts), dtype="int64", count=len(texts)))
    return Block(numpy.frombuffer(b"".join(texts), dtype="uint8"), ends)


def texts_in(block: Block) -> List[bytes]:
    whole = block.bytes.tobytes()
    ends = block.ends.tolist()
    return [whole[begin:end] for begin, end in zip([0, *ends], ends)]


# From partitions to meetings, and back.


def sent(digests: Sequence[Array], begin: int, meetings: int) -> List[Keys]:
    """The keys of neighbouring partitions, and the number of the first, for each meeting."""
    rows = numpy.concatenate([numpy.empty((0, 2), dtype="<u8"), *digests])
    sizes = [len(it) for it in digests]
    partitions = numpy.repeat(numpy.arange(begin, begin + len(sizes), dtype="int32"), sizes)
    groups = numpy.concatenate([numpy.empty(0, dtype="int64"), *map(numpy.arange, sizes)])
    return [Keys(rows[at], partitions[at], groups[at]) for at in divided(rows[:, 0] % numpy.uint64(meetings), meetings)]


def divided(places: Array, count: int) -> List[Array]:
    """For each of so many places the indices of what goes there, in order."""
    order = numpy.argsort(places, kind="stable")
    ends = numpy.searchsorted(places[order], numpy.arange(1, count))
    return numpy.split(order, ends)


def met(keys: Sequence[Keys]) -> Met:
    """Which of the keys that each span sent to one meeting leads, by digests."""
    digests = numpy.concatenate([it.digests for it in keys])
    order = numpy.lexsort((digests[:, 1], digests[:, 0]))
    ordered = digests[order]
    begins = numpy.ones(len(order), dtype=bool)
    begins[1:] = (ordered[1:] != ordered[:-1]).any(axis=1)
    classes = numpy.cumsum(begins) - 1
    leaders = numpy.empty(len(order), dtype="int64")
    # Keys with equal digests are in their own order, so the first is the leader.
    leaders[order] = order[begins][classes]
    shared = numpy.zeros(len(order), dtype=bool)
    shared[order] = (numpy.bincount(classes) > 1)[classes] if len(order) else False
    partitions = numpy.concatenate([it.partitions for it in keys])
    groups = numpy.concatenate([it.groups for it in keys])
    return Met([len(it.partitions) for it in keys], partitions, groups, leaders, shared)


def wanted(meeting: Met) -> List[Tuple[Array, Array]]:
    """For each span partition and group of each key whose text is to be compared."""
    ends = numpy.cumsum(meeting.sizes)[:-1]
    parts = zip(*(numpy.split(it, ends) for it in (meeting.partitions, meeting.groups, meeting.shared)))
    return [(partitions[shared], groups[shared]) for partitions, groups, shared in parts]


def texts_for(block: Block, partition: int, keys: Sequence[Tuple[Array, Array]]) -> List[Block]:
    """The texts of a partition that each meeting wants of its span."""
    whole, begins = memoryview(block.bytes), numpy.concatenate([[0], block.ends])
    found = []
    for partitions, groups in keys:
        its = groups[partitions == partition]
        ends = zip(begins[its].tolist(), block.ends[its].tolist())
        found.append(block_of([bytes(whole[begin:end]) for begin, end in ends]))
    return found


def joined(parts: Sequence[Sequence[Block]]) -> List[Block]:
    """The texts of neighbouring partitions that each meeting wants."""
    found = []
    for blocks in zip(*parts):
        before = numpy.cumsum([0, *(len(it.bytes) for it in blocks)])
        ends = [it.ends + begin for it, begin in zip(blocks, before)]
        found.append(Block(numpy.concatenate([it.bytes for it in blocks]), numpy.concatenate(ends)))
    return found


def judged(meeting: Met, texts: Sequence[Block]) -> List[Tuple[Array, Array, Array, Array]]:
    """For each span partition and group of its keys, and their leaders' partition and group, by whole texts."""
    leaders = meeting.leaders
    shared = numpy.flatnonzero(meeting.shared)
    by_key = dict(zip(shared.tolist(), (text for block in texts for text in texts_in(block))))
    differing = {leader for key, leader in zip(by_key, leaders[shared].tolist()) if by_key[key] != by_key[leader]}
    if differing:
        # Different texts of one digest: each text has its own leader.
        leaders = leaders.copy()
        firsts: Dict[bytes, int] = {}
        for key in by_key:
            if leaders[key] in differing:
                leaders[key] = firsts.setdefault(by_key[key], key)
    found = meeting.partitions, meeting.groups, meeting.partitions[leaders], meeting.groups[leaders]
    ends = numpy.cumsum(meeting.sizes)[:-1]
    return list(zip(*(numpy.split(it, ends) for it in found)))


class Led(NamedTuple):
    """The leaders of the groups of a partition: partition and group of each; and a bit for each that leads itself."""

    partitions: Array
    groups: Array
    bits: Array


def led(parts: Sequence[Tuple[Array, Array, Array, Array]], begin: int, end: int) -> List[Led]:
    """The leaders of the groups of neighbouring partitions, from what each meeting says of the span."""
    partitions, groups, *leaders = (numpy.concatenate(it) for it in zip(*parts))
    found = []
    for partition in range(begin, end):
        at = numpy.flatnonzero(partitions == partition)
        at = at[numpy.argsort(groups[at])]
        places = leaders[0][at], leaders[1][at]
        leads = (places[0] == partition) & (places[1] == numpy.arange(len(at)))
        found.append(Led(*places, numpy.packbits(leads, bitorder="little")))
    return found


class Ranks(NamedTuple):
    """The bits of all leaders, each partition's from a word on, and how many bits are before each word."""

    words: Array
    before: Array
    begins: Array


def ranks(spans: Sequence[Sequence[Array]]) -> Ranks:
    """The ranks of the bits of each partition, in the order of partitions."""
    parts = [numpy.pad(bits, (0, -len(bits) % (WORD // 8))) for span in spans for bits in span]
    words = numpy.concatenate([numpy.empty(0, dtype="uint8"), *parts]).view("<u8")
    counts = ones(words)
    begins = numpy.cumsum([0, *(len(part) // (WORD // 8) for part in parts)])
    return Ranks(words, numpy.cumsum(counts) - counts, begins)


def ones(words: Array) -> Array:
    """How many bits of each word are set."""
    bits = numpy.unpackbits(words.view("uint8")).reshape(-1, WORD)
    return bits.sum(axis=1, dtype="int64")


def numbers_of(own: Led, all_ranks: Ranks) -> Array:
    """The number of each group of a partition, by the partition's own numbers; 0 is no group."""
    words = all_ranks.begins[own.partitions] + own.groups // WORD
    below = (numpy.uint64(1) << (own.groups % WORD).astype("<u8")) - numpy.uint64(1)
    before = all_ranks.before[words] + ones(all_ranks.words[words] & below)
    return numpy.concatenate([numpy.zeros(1, dtype="int64"), before + 1])
