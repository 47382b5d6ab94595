"""What the library for C answers to the rows of the .rows files, and what its header promises of each call.

Each text, each buffer, each catalogue and each struct of rules is between two pages that can't be touched. A buffer has
first no room, then a byte too few, then the room that was asked for, and then more; and behind each call all that it
doesn't answer must be as before. Calls of one text, or of two, must agree with each other.
"""
from __future__ import annotations

import ctypes
import hashlib
import re
from typing import Any, Callable, Iterable, Iterator, List, Optional, Tuple

import c_library
import rows
from c_library import (
    CALLS,
    FILLER,
    KINDS,
    NO_LEVEL,
    NO_NUMBER,
    NO_ROOM,
    OK,
    REFUSED,
    SECOND_REFUSED,
    TYPES,
    UNTOLD,
    Block,
)

LEVELS = {"": 0, "full": 0, "definition": 1}
# The numbers of refusals.
NUMBERS = {*range(1, 9), *range(11, 14), *range(21, 30)}
REFUSED_RULES = re.compile(rb"crsdesk: (\w+), line (\d+): refused (\d+) at (\d+): .*\n")
UNTOLD_REFUSAL = UNTOLD, UNTOLD
# A code, an answer, and the number and the place of a refusal.
Answer = Tuple[int, bytes, Tuple[int, int]]


def words_of(case: rows.Case) -> Tuple[List[bytes], List[bytes]]:
    """The words of a case without its level and its rules files, and the names of those."""
    rest, names, words = list[bytes](), list[bytes](), iter(case.level[1])
    for word in words:
        if word == b"--rules":
            names.append(next(words, b""))
        else:
            rest.append(word)
    return rest, names


def is_asked(case: rows.Case) -> bool:
    """Whether a case asks for an answer that calls of the library give."""
    if case.error is not None and REFUSED_RULES.fullmatch(case.error):
        return all(it in case.files for it in words_of(case)[1])
    if not case.asks:
        return False
    words, names = words_of(case)
    takes_rules = words[0] in (b"canon", b"group", b"same") and b"--lines" not in words
    if names and not (takes_rules and all(it in case.files for it in names)):
        return False
    inputs = ([b"canon"], [b"digest"], [b"check"], [b"explain"], [b"group"], [b"canon", b"--lines"])
    of_two = len(words) == 3 and words[0] in (b"same", b"explain") and not {b"--json", b"--files"} & set(words)
    return words in inputs or of_two


def all_rows() -> List[rows.Case]:
    return [case for case in rows.all_cases() if is_asked(case)]


class Held:
    """A catalogue or rules in a block, until it is closed."""

    def __init__(self, asker: Asker, kind: str, *given: int) -> None:
        self.asker, self.kind = asker, kind
        self.block = Block(ctypes.sizeof(TYPES[f"crsdesk_{kind}"]), asker.begins)
        self.code = asker.call(f"{kind}_new", self.block.at, *given)

    def __enter__(self) -> Any:
        return self.block.at

    def __exit__(self, *_: object) -> None:
        self.asker.call(f"{self.kind}_free", self.block.at)


class Asker:
    """Asks the library, and holds what its header promises. Blocks begin behind a page that can't be touched, or end at
    one."""

    def __init__(self, begins: bool = False) -> None:
        self.begins, self.library = begins, c_library.load()

    def call(self, name: str, *given: Any) -> Any:
        """A call, to which each text is given by its bytes and its length."""
        words, kept = list[Any](), list[Block]()
        for it in given:
            if isinstance(it, bytes):
                kept.append(Block(len(it), self.begins, it))
                words += [kept[-1].at, len(it)]
            else:
                words.append(it)
        return getattr(self.library, f"crsdesk_{name}")(*words)

    def with_room(self, name: str, given: Tuple[Any, ...], room: int) -> Tuple[int, int, bytes, Tuple[int, int]]:
        """The code of a call that answers a text, its length, the text and a refusal, with so much room."""
        out, length, why = Block(room, self.begins), ctypes.c_size_t(UNTOLD), TYPES["crsdesk_refusal"](UNTOLD, UNTOLD)
        places = [ctypes.byref(why)] if CALLS[name][2][-1] == "refusal" else []
        code = self.call(name, *given, out.at, room, ctypes.byref(length), *places)
        told, written = (why.number, why.place), length.value if code == OK else 0
        assert out.read()[written:] == FILLER * (room - written), "the buffer behind the answer was changed"
        assert code in (OK, NO_ROOM) or length.value == UNTOLD, "the length was changed"
        assert (told != UNTOLD_REFUSAL) == (code in (REFUSED, SECOND_REFUSED)), "a refusal was told, or wasn't"
        return code, length.value, out.read()[:written], told

    def text(self, name: str, *given: Any) -> Answer:
        """What a call that answers a text says in each room. A level that isn't one is told, with nothing changed."""
        if "level" in CALLS[name][2]:
            wrong = tuple(2 if it in (0, 1) else it for it in given)
            assert self.with_room(name, wrong, 5)[0] == NO_LEVEL
        code, needed, _, why = self.with_room(name, given, 0)
        if code not in (OK, NO_ROOM):
            return code, b"", why
        assert (code == OK) == (needed == 0)
        assert not needed or self.with_room(name, given, needed - 1)[:2] == (NO_ROOM, needed)
        just = self.with_room(name, given, needed)
        assert just[:2] == (OK, needed) and self.with_room(name, given, needed + 17) == just
        return OK, just[2], why

    def pieces_with(
        self, name: str, given: Tuple[Any, ...], room: int, most: int
    ) -> Tuple[int, int, int, List[bytes], Any]:
        """The code of a call that answers pieces, how many bytes and pieces there are, those that fit, and the rest."""
        is_refusal = name == "refusal_pieces"
        length, count, told = ctypes.c_size_t(UNTOLD), ctypes.c_size_t(UNTOLD), TYPES["crsdesk_explained"]()
        told.refusal.number, told.refusal.place = UNTOLD_REFUSAL
        out, ends = Block(room, self.begins), Block(8 * most, self.begins)
        places = [out.at, room, ctypes.byref(length), ends.at, most, ctypes.byref(count)]
        code = self.call(name, *given, *places, ctypes.byref(told if is_refusal else told.refusal))
        is_answered = length.value != UNTOLD
        assert is_answered == (count.value != UNTOLD)
        assert not is_answered or (code == NO_ROOM) == (length.value > room or count.value > most)
        bytes_written = length.value if is_answered and length.value <= room else 0
        ends_written = count.value if is_answered and count.value <= most else 0
        assert out.read()[bytes_written:] == FILLER * (room - bytes_written), "the buffer was changed"
        assert ends.read()[8 * ends_written :] == FILLER * 8 * (most - ends_written), "the ends were changed"
        marks = [0, *(ctypes.c_size_t * ends_written).from_buffer_copy(ends.read()[: 8 * ends_written] or b"\0" * 8)][
            : ends_written + 1
        ]
        pieces = [out.read()[begin:end] for begin, end in zip(marks, marks[1:])]
        return code, length.value, count.value, pieces, told

    def pieces(self, name: str, *given: Any) -> Tuple[int, List[bytes], Any]:
        """What a call that answers pieces says in each room."""
        code, length, count, _, told = self.pieces_with(name, given, 0, 0)
        if length == UNTOLD or count == 0:
            return code, [], told
        for room, most in ((length - 1, count), (length, count - 1)):
            assert self.pieces_with(name, given, room, most)[1:3] == (length, count)
        code, *lengths, pieces, told = self.pieces_with(name, given, length, count)
        assert (*lengths, pieces) == self.pieces_with(name, given, length + 9, count + 3)[1:4]
        assert lengths == [length, count] and sum(map(len, pieces)) == length
        return code, pieces, told

    def name(self, number: int) -> bytes:
        code, name, _ = self.text("refusal_name", number)
        assert code == (OK if number in NUMBERS else NO_NUMBER)
        return name

    def refusal(self, why: Tuple[int, int]) -> bytes:
        return b"refused %d %s at %d" % (why[0], self.name(why[0]), why[1])

    # Of one text.

    def check(self, text: bytes) -> Tuple[int, bytes, Tuple[int, int]]:
        kind, why = ctypes.c_uint32(UNTOLD), TYPES["crsdesk_refusal"](UNTOLD, UNTOLD)
        code = self.call("check", text, ctypes.byref(kind), ctypes.byref(why))
        told = why.number, why.place
        assert (code, kind.value == UNTOLD, told == UNTOLD_REFUSAL) in ((OK, False, True), (REFUSED, True, False))
        return code, b"accepted " + KINDS[kind.value].encode() if code == OK else b"", told

    def one(self, text: bytes, level: int) -> Tuple[Answer, bytes, bytes]:
        """What canon, check and explain say of a text, which must agree; and without rules the form is what canon says."""
        found, (code, kind, why) = self.text("canon", text, level), self.check(text)
        assert (found[0], found[2]) == (code, why)
        with Held(self, "rules") as rules:
            assert self.under(rules, text, level) == found
        lines = self.text("explain", text)[1]
        told, pieces, explained = self.pieces("refusal_pieces", text)
        assert (told, (explained.refusal.number, explained.refusal.place)) == (code, why)
        if code == OK:
            assert (lines, pieces) == (b"", [])
            return found, kind, lines
        is_known = why[0] in (11, 12, 13, 21, 25)
        assert len(pieces) >= 7 and (len(pieces) > 7) == is_known == (pieces[3] != b"")
        head = b"%s, line %d, column %d\n" % (self.refusal(why), explained.line, explained.column)
        sentences = [it + b"\n" for it in pieces[4:7] if it]
        assert b"".join([head, *pieces[:2], *sentences]) == lines and lines.count(b"\n") >= 4
        return found, kind, lines

    # Of two texts.

    def two(self, first: bytes, second: bytes, level: int) -> Tuple[Answer, bytes]:
        """What first_part and differences say, with which same, the pieces and the canonical texts must agree."""
        given = first, second, level
        path, lines = self.text("first_part", *given), self.text("differences", *given)
        assert (path[0], path[2], path[1] == b"") == (lines[0], lines[2], lines[1] == b"")
        same, why = ctypes.c_uint32(UNTOLD), TYPES["crsdesk_refusal"](UNTOLD, UNTOLD)
        places = ctypes.byref(same), ctypes.byref(why)
        assert self.call("same", first, second, 2, *places) == NO_LEVEL and (same.value, why.number) == UNTOLD_REFUSAL
        code = self.call("same", *given, *places)
        assert (code, (why.number, why.place)) == (path[0], path[2])
        assert self.pieces_with("difference_pieces", (first, second, 2), 5, 2)[:2] == (NO_LEVEL, UNTOLD)
        told, pieces, explained = self.pieces("difference_pieces", *given)
        assert (told, (explained.refusal.number, explained.refusal.place)) == (code, path[2])
        canons = [self.text("canon", it, level) for it in (first, second)]
        assert code == (OK if canons[0][0] == canons[1][0] == OK else 1 + (canons[0][0] == OK))
        if code != OK:
            assert same.value == UNTOLD and path[2] == canons[code - 1][2]
            return path, lines[1]
        assert same.value == (path[1] == b"") == (canons[0] == canons[1]) == (pieces == [])
        assert not path[1] or lines[1].startswith((path[1] + b": ", path[1] + b'["'))
        shown = [it or b"none" for it in pieces]
        parts = zip(pieces[::3], shown[1::3], shown[2::3])
        whole = b"".join(
            b"%s: %s | %s%s\n" % (*it, rows.code_points(it[1].decode(), it[2].decode()).encode()) for it in parts
        )
        assert len(pieces) % 3 == 0 and (b"\\" in lines[1] or whole == lines[1])
        return path, lines[1]

    # Under rules.

    def kept(self, length: int, piece: Callable[[int], Any]) -> bytes:
        """A text put together of its pieces."""
        text = b""
        while len(text) < length:
            it = piece(len(text))
            assert it.code == OK and it.length > 0
            text += bytes(it.bytes)[: it.length]
        for at, wanted in ((length, 0), (2**64 - 1, 0), (length - 1, 1)):
            assert length == 0 or (piece(at).code, piece(at).length) == (OK, wanted)
        return text

    def under(self, rules: Any, text: bytes, level: int) -> Answer:
        """The form of a text under rules."""
        assert self.call("rules_form", rules, 2, text).code == NO_LEVEL
        told = self.call("rules_form", rules, level, text)
        why = told.refusal.number, told.refusal.place
        assert (why == (0, 0)) == (told.code == OK) and (told.length > 0) == (told.code == OK)
        form = self.kept(told.length, lambda at: self.call("rules_piece", rules, at))
        return told.code, form, UNTOLD_REFUSAL if told.code == OK else why

    def add_files(self, rules: Any, files: Iterable[bytes]) -> Tuple[int, int, int]:
        """Adds files, of which the last may be refused; where and why."""
        told = TYPES["crsdesk_rules_standing"]()
        for file in files:
            assert told.code == OK
            told = self.call("rules_add", rules, file)
            assert (told.code, (told.line, told.number, told.place) == (0, 0, 0)) in ((OK, True), (REFUSED, False))
        return told.line, told.number, told.place

    def in_groups(self, rules: Any, text: bytes, level: int) -> Answer:
        """The form of a text; it is its own, and in one group with the text, whose text it is. What is refused is in none."""
        found = self.under(rules, text, level)
        with Held(self, "catalogue", level) as catalogue:
            told = self.call("catalogue_add_under", catalogue, rules, 7, text)
            assert (told.code, told.group) == (found[0], int(found[0] == OK))
            if found[0] == OK:
                assert self.under(rules, found[1], level) == found
                again = self.call("catalogue_add_under", catalogue, rules, 8, found[1])
                assert (again.code, again.group) == (OK, 1) and self.lines(catalogue, 1) == [7, 8]
                assert self.group_text(catalogue, 1) == found[1]
            else:
                assert (told.refusal.number, told.refusal.place) == found[2]
            blank = self.call("catalogue_add_under", catalogue, rules, 9, b"\t\n")
            assert (blank.code, blank.group) == (OK, 0)
            assert self.call("catalogue_groups", catalogue) == int(found[0] == OK)
        return found

    # Catalogues.

    def lines(self, catalogue: Any, group: int) -> List[int]:
        """The numbers of a group's texts; none of a group that isn't there."""
        numbers = list[int]()
        line = self.call("catalogue_line", catalogue, group, 0)
        while line.code == OK:
            numbers.append(line.number)
            line = self.call("catalogue_line", catalogue, group, len(numbers))
        assert (line.code, line.number) == (NO_NUMBER, 0)
        return numbers

    def group_text(self, catalogue: Any, group: int) -> bytes:
        length = 0
        while (piece := self.call("catalogue_piece", catalogue, group, length)).length:
            length += piece.length
        return self.kept(length, lambda at: self.call("catalogue_piece", catalogue, group, at))

    def grouped(self, text: bytes, level: int, rules: Any) -> Iterator[bytes]:
        """What group writes: the catalogue's groups, whose texts are those of their first lines, and what was refused."""
        firsts, refused = list[bytes](), list[bytes]()
        wrong = Held(self, "catalogue", 2)
        with wrong as catalogue:
            assert wrong.code == NO_LEVEL and self.call("catalogue_groups", catalogue) == 0
        with Held(self, "catalogue", level) as catalogue:
            for number, line in enumerate(text.split(b"\n"), 1):
                words = [rules, number] if rules else [number]
                told = self.call("catalogue_add_under" if rules else "catalogue_add", catalogue, *words, line)
                why = told.refusal.number, told.refusal.place
                assert (told.code, why == (0, 0)) in ((OK, True), (REFUSED, False)) and told.group <= len(firsts) + 1
                if told.code == REFUSED:
                    assert told.group == 0
                    refused.append(b"line %d: %s\n" % (number, self.refusal(why)))
                elif told.group == len(firsts) + 1:
                    firsts.append(line)
                assert told.group or told.code == REFUSED or not line.strip()
            assert self.call("catalogue_groups", catalogue) == len(firsts)
            for group, first in enumerate(firsts, 1):
                yield b"group %d: %s\n" % (group, b" ".join(b"%d" % it for it in self.lines(catalogue, group)))
                found = self.under(rules, first, level) if rules else self.text("canon", first, level)
                assert self.group_text(catalogue, group) == found[1]
            for group in (0, len(firsts) + 1):
                assert self.lines(catalogue, group) == []
                assert self.call("catalogue_piece", catalogue, group, 0).code == NO_NUMBER
        yield from refused

    # Many texts.

    def each(
        self, texts: bytes, places: List[Tuple[int, int]], level: int, room: int, name: str = "canon_each"
    ) -> Iterator[Tuple[int, bytes, Tuple[int, int]]]:
        """What such a call says of all texts of a buffer, in as many calls as the room needs."""
        kind, done = TYPES["crsdesk_entry"], ctypes.c_size_t(UNTOLD)
        entries = (kind * len(places))(*((begin, end, *[UNTOLD] * 4) for begin, end in places))
        size, block, before = ctypes.sizeof(kind), Block(len(texts), self.begins, texts), bytes(entries)
        start, code = 0, NO_ROOM
        while code == NO_ROOM:
            at = ctypes.addressof(entries) + start * size
            for asked in (2, level):
                out = Block(room, self.begins)
                given = block.at, len(texts), at, len(places) - start, asked, out.at, room, ctypes.byref(done)
                code = self.call(name, *given)
                assert asked != 2 or (code, done.value, bytes(entries)[start * size :]) == (
                    NO_LEVEL,
                    UNTOLD,
                    before[start * size :],
                )
            assert code == (OK if done.value == len(places) - start else NO_ROOM) and (code == OK or done.value > 0)
            written = 0
            for index in range(start, start + done.value):
                it = entries[index]
                assert (it.begin, it.end) == places[index]
                yield it.code, out.read()[written : it.written_end], (it.number, it.place)
                written = it.written_end
            start += done.value
            done.value = UNTOLD
            assert (
                out.read()[written:] == FILLER * (room - written)
                and bytes(entries)[start * size :] == before[start * size :]
            )

    # Rows.

    def answer(self, case: rows.Case) -> Optional[bytes]:
        """What the command writes for a case, made of the library's answers; nothing of refused rules, which are held."""
        words, names = words_of(case)
        level = LEVELS[case.level[0]]
        with Held(self, "rules") as rules:
            told = self.add_files(rules, [case.files[it] for it in names])
            if case.error is not None:
                refused = REFUSED_RULES.fullmatch(case.error)
                assert refused and told == (int(refused[2]), int(refused[3]), int(refused[4]))
                text = case.input or words[1]
                with Held(self, "rules") as others:
                    self.add_files(others, [case.files[it] for it in names[:-1]])
                    assert self.under(rules, text, level) == self.under(others, text, level)
                return None
            if words[0] == b"group":
                return b"".join(self.grouped(case.input, level, rules if names else None))
            if len(words) == 3:
                return self.of_two(words, level, rules if names else None)
            if names:
                found = self.in_groups(rules, case.input, level)
                return (found[1] or self.refusal(found[2])) + b"\n"
        if words[1:]:
            lines = case.input.removesuffix(b"\n").split(b"\n")
            begins = [sum(map(len, lines[:index])) + index for index in range(len(lines))]
            places = [(begin, begin + len(it)) for begin, it in zip(begins, lines)]
            answers = zip(self.each(case.input, places, level, 2 * len(case.input) + 1000), lines)
            return b"".join((it[1] or (self.refusal(it[2]) if line.strip() else b"")) + b"\n" for it, line in answers)
        found, kind, explained = self.one(case.input, level)
        if words == [b"digest"]:
            found = self.text("digest", case.input, level)
            kind = found[1].hex().encode()
        good = found[1] if words == [b"canon"] else kind
        if found[0] == OK:
            return good + b"\n"
        return explained if words == [b"explain"] else self.refusal(found[2]) + b"\n"

    def of_two(self, words: List[bytes], level: int, rules: Any) -> bytes:
        texts = words[1:]
        if rules:
            forms = [self.in_groups(rules, it, level) for it in texts]
            texts = [form[1] or text for form, text in zip(forms, texts)]
        path, lines = self.two(texts[0], texts[1], level)
        if path[0] != OK:
            which, text = (b"first ", texts[0]) if path[0] == REFUSED else (b"second ", texts[1])
            told = self.refusal(path[2]) + b"\n" if words[0] == b"same" else self.text("explain", text)[1]
            return which + told
        if words[0] == b"explain":
            return lines or b"same\n"
        return b"different " + path[1] + b"\n" if path[1] else b"same\n"


def hold(case: rows.Case, asker: Asker) -> None:
    got = asker.answer(case)
    assert got is None or got == case.output, f"{case}: {got!r}"


def hold_fronts(text: bytes, asker: Asker, cuts: Iterable[int], of: int) -> None:
    """The calls of one text agree of some of its fronts."""
    for cut in cuts:
        asker.one(text[: len(text) * cut // of], 0)


def hold_together(asker: Asker, level: int, room: int) -> None:
    """All texts of rows that aren't long, at once, each also so that it overlaps others, ends behind the buffer, or ends
    before it begins: for each what canon says."""
    texts, places, whole = [it.input for it in all_rows() if len(it.input) < 20_000], list[Tuple[int, int]](), b""
    for index, text in enumerate(texts):
        begin, end = len(whole), len(whole) + len(text)
        other = [2**64 - 1 - index, end + 5, begin + index % 3 - 2, begin + index % 3 - 3][index % 4]
        places += [(begin, end), (begin + index % 3, max(other, 0))]
        whole += text
    digests = asker.each(whole, places, level, room, "digest_each")
    for found, digest, (begin, end) in zip(asker.each(whole, places, level, room), digests, places):
        code, written, why = asker.text("canon", whole[begin : max(begin, end)], level)
        assert found == (code, written, (0, 0) if code == OK else why), (begin, end)
        assert digest == (code, hashlib.sha256(written).digest() if code == OK else b"", found[2]), (begin, end)
