#!/usr/bin/env python3
"""Alters real texts at random, and asks the library what must hold of every text: a test by hand, with no second judge.

    mutate_texts.py [--prefix PREFIX] [--seconds N] [--jobs N] [--seed N]

PREFIX has the shared object in lib/, as tools/build.py makes it (out/prefix where none is given). Each job alters the
texts of examples/ and of tests/*.rows for N seconds (60): bytes, tokens, arguments, nodes, keywords and depth
(mutations.py). It asks about each text:

- check answers a kind, or a refusal with one of its numbers at a place within the text; canon at both levels answers
  the same; the explanation is of this number and place, with the line, and an accepted text has none;
- a canonical text is its own canonical text, and spells a CRS of the same kind that is the same as its source's; that
  at full has the source's canonical text at definition, and that at definition is its own at both levels;
- another spelling of an accepted text has the same canonical texts: white space, delimiters, case, synonyms, numbers,
  quotes of codes, order and repeats of sets, order of axes that have their ORDER.

About two texts: same is symmetric and is the equality of canonical texts, at definition where at full; differences are
none exactly then, begin with first_part, exchange their values with the texts, and at definition are in no id, usage or
remark; a refusal is that of the first text, else of the second. A catalogue has the groups that canonical texts have.

The seed is printed first; what a job makes depends on it, on the job's number and on the real texts alone. What
doesn't hold, crashes or doesn't end is printed with the seed and the texts, as Python writes bytes, and the status is
1. The last line counts.
"""
from __future__ import annotations

import argparse
import ctypes
import importlib
import multiprocessing
import os
import pathlib
import random
import re
import sys
import time
from typing import Any, Callable, Dict, List, NamedTuple, Optional, Sequence, Tuple

# The imports of the repository's own files leave nothing in it.
sys.dont_write_bytecode = True
from mutations import MOST_BYTES, Mutator

ROOT = pathlib.Path(__file__).resolve().parent.parent
LEVELS = FULL, DEFINITION = range(2)
NUMBERS = {*range(1, 9), *range(11, 14), *range(21, 30)}
PATH = re.compile(r'[a-z0-9/]+(?:\["(?:[^"]|"")*"\](?:/unit|/id)?)?')
LEFT_OUT = "id", "usage", "remark"
# The texts of a round, and how many of those that are accepted are respelled.
MADE = 16
RESPELLED = 0.25
COUNTED = "rounds", "texts", "accepted", "respelled", "pairs", "groups"
ROUNDS, TEXTS, ACCEPTED, RESPELLINGS, PAIRS, GROUPS = range(6)
# The room in which a job shows what it asks about, and the seconds that it may take beyond its time.
SHOWN = 1 << 20
SPARE = 600


class Wrong(Exception):
    """What doesn't hold."""


def hold(what: str, got: object, wanted: object) -> None:
    if got != wanted:
        raise Wrong(f"{what}: {got!r}, not {wanted!r}")


class Known(NamedTuple):
    """A text, its refusal's number and place, and its canonical texts at full and at definition."""

    text: bytes
    refusal: Optional[Tuple[int, int]]
    canons: Tuple[bytes, bytes]


class Standing(ctypes.Structure):
    """struct crsdesk_standing, with the refusal's parts."""

    _fields_ = [
        ("group", ctypes.c_size_t),
        ("place", ctypes.c_size_t),
        ("number", ctypes.c_uint32),
        ("padding", ctypes.c_uint32),
        ("code", ctypes.c_uint32),
    ]


class Asker:
    """Asks the library, by the calls of the Python package's module _library, which are those of C."""

    def __init__(self, prefix: pathlib.Path) -> None:
        os.environ["CRSDESK_LIBRARY"] = str(prefix.resolve() / "lib" / "libcrsdesk.so")
        sys.path.append(str(ROOT / "python" / "src"))
        self.calls: Any = importlib.import_module("crsdesk._library")
        self.catalogues: Any = self.calls.LOADED
        self.catalogues.crsdesk_catalogue_add.restype = Standing
        self.catalogues.crsdesk_catalogue_groups.restype = ctypes.c_size_t

    def answer(self, call: Callable[..., Any], *given: object) -> Tuple[Any, Optional[Tuple[int, int]], Optional[str]]:
        """What a call answers; else the number and place of the refusal, and of which of two texts it is."""
        try:
            return call(*given), None, None
        except self.calls.Refused as refused:
            return None, (refused.number, refused.place), refused.which

    def ask(self, text: bytes) -> Known:
        """Asks what is said of a text."""
        kind, refusal, _ = self.answer(self.calls.check, text)
        found = [self.answer(self.calls.canon_bytes, text, level) for level in LEVELS]
        hold("the refusals of canon", [it[1] for it in found], [refusal] * 2)
        told = self.calls.explained(text, *(refusal or (0, 0)))
        if refusal:
            number, place = refusal
            hold(f"that {refusal} may be", number in NUMBERS and place <= len(text), True)
            hold("the line of the explanation", told and told.line, text.count(b"\n", 0, place) + 1)
            return Known(text, refusal, (b"", b""))
        hold("the explanation", told, None)
        asked = Known(text, None, (found[FULL][0], found[DEFINITION][0]))
        self.ask_canons(asked, kind)
        return asked

    def ask_canons(self, asked: Known, kind: str) -> None:
        """Asks what is said of the canonical texts of a text of this kind."""
        full, definition = asked.canons
        for level, canon, wanted in (
            (FULL, full, full),
            (DEFINITION, full, definition),
            (FULL, definition, definition),
            (DEFINITION, definition, definition),
        ):
            hold(f"canon at level {level} of {canon!r}", self.answer(self.calls.canon_bytes, canon, level)[0], wanted)
        for level, canon in enumerate(asked.canons):
            hold(f"the kind of {canon!r}", self.calls.check(canon), kind)
            hold(f"same at level {level} as {canon!r}", self.calls.same(asked.text, canon, level), True)
            hold("first_part with the canonical text", self.calls.first_part(asked.text, canon, level), "")
            hold("differences from the canonical text", self.calls.difference_pieces(asked.text, canon, level), [])

    def ask_pair(self, first: Known, second: Known) -> None:
        """Asks what is said of two texts."""
        if first.refusal or second.refusal:
            wanted = (first.refusal, "first") if first.refusal else (second.refusal, "second")
            for call in (self.calls.same, self.calls.first_part, self.calls.difference_pieces):
                for level in LEVELS:
                    hold(
                        f"the refusal of {call.__name__}", self.answer(call, first.text, second.text, level)[1:], wanted
                    )
            return
        is_same, _ = (self.ask_level(first, second, level)[0] for level in LEVELS)
        if is_same:
            hold("the canonical texts at definition", second.canons[DEFINITION], first.canons[DEFINITION])
        ends = [path.rpartition("/")[2] for path in self.ask_level(first, second, DEFINITION)[1]]
        hold("parts that don't count at definition", [it for it in ends if it in LEFT_OUT], [])

    def ask_level(self, first: Known, second: Known, level: int) -> Tuple[bool, List[str]]:
        """Asks what is said of two accepted texts at a level; whether they are the same, and the parts that differ."""
        there, back = (first.text, second.text, level), (second.text, first.text, level)
        is_same = first.canons[level] == second.canons[level]
        hold("same in both orders", [self.calls.same(*it) for it in (there, back)], [is_same] * 2)
        parts, exchanged = (self.parts(*it) for it in (there, back))
        hold("whether nothing differs", not parts, is_same)
        hold("differences in the other order", exchanged, [(path, two, one) for path, one, two in parts])
        path = parts[0][0].partition("[")[0] if parts else ""
        hold("first_part in both orders", [self.calls.first_part(*it) for it in (there, back)], [path] * 2)
        return is_same, [it[0] for it in parts]

    def parts(self, first: bytes, second: bytes, level: int) -> List[Tuple[str, str, str]]:
        pieces = self.calls.difference_pieces(first, second, level)
        parts = list(zip(pieces[::3], pieces[1::3], pieces[2::3]))
        for path, one, other in parts:
            if not PATH.fullmatch(path) or one == other:
                raise Wrong(f"this is no part that differs: {path!r}: {one!r} | {other!r}")
        return parts

    def ask_catalogue(self, texts: Sequence[Known], level: int) -> int:
        """Asks where a catalogue places texts; the number of its groups."""
        catalogue = (ctypes.c_uint64 * 32)()
        groups: Dict[bytes, int] = {}
        self.catalogues.crsdesk_catalogue_new(catalogue, level)
        for text, refusal, canons in texts:
            group = 0 if refusal else groups.setdefault(canons[level], len(groups) + 1)
            is_blank = not text.strip(b" \t\r\n")
            wanted = (0, 0, 0, 0) if is_blank else (group, *(refusal or (0, 0)), int(refusal is not None))
            length = ctypes.c_size_t(len(text))
            got = self.catalogues.crsdesk_catalogue_add(catalogue, ctypes.c_uint64(1), text, length)
            hold(f"the standing of {text!r}", (got.group, got.number, got.place, got.code), wanted)
        hold("the groups of a catalogue", self.catalogues.crsdesk_catalogue_groups(catalogue), len(groups))
        self.catalogues.crsdesk_catalogue_free(catalogue)
        return len(groups)


class Job:
    """A process that makes texts and asks about them, and the memory in which it shows what it does."""

    def __init__(self, name: str, asker: Asker, texts: Sequence[bytes], seconds: float) -> None:
        context = multiprocessing.get_context("fork")
        self.name, self.asker, self.texts, self.seconds = name, asker, texts, seconds
        self.shown = context.Array("c", SHOWN, lock=False)
        self.counts = context.Array("Q", len(COUNTED), lock=False)
        self.process = context.Process(target=self.run)
        self.process.start()

    def run(self) -> None:
        mutator = Mutator(self.name, self.texts)
        end = time.monotonic() + self.seconds
        while time.monotonic() < end:
            try:
                self.round(mutator)
            except Exception as error:
                print(f"{type(error).__name__}: {error}", flush=True)
                sys.exit(1)

    def show(self, *texts: bytes) -> None:
        self.shown.value = repr(texts).encode()[: SHOWN - 1]

    def round(self, mutator: Mutator) -> None:
        """Alters a text again and again; asks of each by itself, with another and with all."""
        chance = mutator.chance
        texts: List[Known] = []
        made = chance.choice(mutator.texts)
        while len(texts) < MADE:
            self.show(made)
            asked = self.asker.ask(made)
            texts.append(asked)
            self.pair(asked, chance.choice(texts))
            if not asked.refusal and chance.random() < RESPELLED:
                self.respell(asked, mutator)
            self.counts[ACCEPTED] += not asked.refusal
            made = mutator.altered(chance.choice([it for it in texts if not it.refusal] or texts).text)
        self.show(*(it.text for it in texts))
        self.counts[GROUPS] += sum(self.asker.ask_catalogue(texts, level) for level in LEVELS)
        self.counts[TEXTS] += len(texts)
        self.counts[ROUNDS] += 1

    def pair(self, first: Known, second: Known) -> None:
        self.show(first.text, second.text)
        self.asker.ask_pair(first, second)
        self.counts[PAIRS] += 1

    def respell(self, asked: Known, mutator: Mutator) -> None:
        made = mutator.respelled(asked.text)
        self.show(asked.text, made)
        again = self.asker.ask(made)
        hold("the canonical texts of another spelling", again[1:], asked[1:])
        self.pair(asked, again)
        self.counts[RESPELLINGS] += 1

    def is_right(self, seconds: float) -> bool:
        """Whether it ends by itself in this time, and well; else what it asked about is printed."""
        self.process.join(seconds)
        if self.process.exitcode == 0:
            return True
        end = "doesn't end" if self.process.exitcode is None else f"ended with status {self.process.exitcode}"
        print(f"seed and job {self.name}, round {self.counts[ROUNDS]}: {end}; asked about\n{self.shown.value.decode()}")
        self.process.kill()
        return False


def real_texts() -> List[bytes]:
    """Each text of examples/, and each of the rows of tests/ that looks like one, whether it spells a CRS or not."""
    sys.path.append(str(ROOT / "tests"))
    cases = importlib.import_module("rows").all_cases()
    folder = ROOT / "examples"
    texts = [path.read_bytes() for path in (*folder.glob("*.wkt"), *(folder / "exports").iterdir())]
    texts += (folder / "catalogue.txt").read_bytes().splitlines()
    for case in cases:
        texts += [*case.words, case.input, *case.input.splitlines()]
    return sorted({text for text in texts if re.search(rb"[\[(]", text) and len(text) <= MOST_BYTES})


def main() -> int:
    parser = argparse.ArgumentParser(description=__doc__, formatter_class=argparse.RawDescriptionHelpFormatter)
    parser.add_argument("--prefix", type=pathlib.Path, default=ROOT / "out" / "prefix")
    parser.add_argument("--seconds", type=float, default=60)
    parser.add_argument("--jobs", type=int, default=1)
    parser.add_argument("--seed", type=int, default=random.SystemRandom().randrange(1 << 32))
    given = parser.parse_args()
    print(f"seed {given.seed}", flush=True)
    try:
        asker = Asker(given.prefix)
    except ImportError as error:
        parser.error(str(error))
    texts = real_texts()
    # Those that spell a CRS are altered four times as often.
    texts += [it for it in texts if not asker.answer(asker.calls.check, it)[1]] * 3
    jobs = [Job(f"{given.seed} {number}", asker, texts, given.seconds) for number in range(given.jobs)]
    end = time.monotonic() + given.seconds + SPARE
    are_right = [job.is_right(max(0, end - time.monotonic())) for job in jobs]
    sums = [sum(job.counts[at] for job in jobs) for at in range(len(COUNTED))]
    print(f"{len({*texts})} real texts; {', '.join(f'{it:,} {name}' for it, name in zip(sums, COUNTED))}")
    return 0 if all(are_right) else 1


if __name__ == "__main__":
    sys.exit(main())
