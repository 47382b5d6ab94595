"""Each growth of memory refused in turn to the calls of the library that answer the rows of the .rows files.

    c_growths.py HOOK            with refuse_growth.c, made to HOOK, preloaded

A call is made with ample memory, and then with its first growth refused, its second, and so on until it meets no refusal.
Each must answer what it answers with ample memory; or that memory was refused, with all that it was handed as before, and
then the same call made again must answer that. As many blocks must be in use after it as before. Each row that fails has a
line, and the last is 'N passed, M failed'.
"""
from __future__ import annotations

import ctypes
import sys
from typing import Any, Callable, Iterator, List, Tuple

import c_library
import c_rows
import rows
from c_library import CALLS, NO_MEMORY, OK, TYPES

# The longest input of a row whose growths are refused, and more growths than any has.
MOST_BYTES, MOST_GROWTHS = 3000, 10_000
Trial = Callable[["Calls"], Any]


class Counted(ctypes.Structure):
    """What the hook counts."""

    _fields_ = [(it, ctypes.c_ulong) for it in ("asked", "growths", "refused")] + [("in_use", ctypes.c_long)]


class Places(ctypes.Structure):
    """All that a call is handed to write to, under the names of the header."""

    _fields_ = [
        ("out", ctypes.c_ubyte * 8192),
        ("ends", ctypes.c_size_t * 256),
        ("entries", TYPES["crsdesk_entry"] * 3),
    ]
    _fields_ += [(it, ctypes.c_size_t) for it in ("length", "count", "done")]
    _fields_ += [(it, ctypes.c_uint32) for it in ("kind", "same")]
    _fields_ += [(it, TYPES[f"crsdesk_{it}"]) for it in ("refusal", "explained")]

    def __init__(self) -> None:
        super().__init__()
        ctypes.memset(ctypes.addressof(self), 0xA5, ctypes.sizeof(self))


FRESH = bytes(Places())


class Calls:
    """The calls of the library, in which growths are counted, and refused."""

    def __init__(self, hook: str) -> None:
        self.hook, self.library, self.wants = ctypes.PyDLL(hook), c_library.load(), 0
        self.counted = Counted.in_dll(self.hook, "counted")
        self.hook.refusing_call.restype = ctypes.c_uint64
        self.hook.refusing_call.argtypes = [ctypes.c_void_p, ctypes.c_void_p]

    def call(self, name: str, *given: Any) -> Any:
        """The code of a call, or its struct, which must be that of a call of its own."""
        answer, words = CALLS[name][0], list[int]()
        told = answer() if answer and ctypes.sizeof(answer) > 16 else None
        if told is not None:
            words.append(ctypes.addressof(told))
        for it in given:
            is_text = isinstance(it, bytes)
            words += [ctypes.cast(it, ctypes.c_void_p).value or 0, len(it)] if is_text else [it]
        function = ctypes.cast(getattr(self.library, f"crsdesk_{name}"), ctypes.c_void_p)
        found = self.hook.refusing_call(function, (ctypes.c_uint64 * 12)(*words)) & 0xFFFFFFFF
        self.wants += (told.code if told is not None else found) == NO_MEMORY
        return found if told is None else told

    def held(self, trial: Trial) -> None:
        """Makes a trial's calls with ample memory, and with each growth refused."""
        ample = None
        for nth in range(MOST_GROWTHS):
            self.counted.asked, self.counted.growths, self.counted.refused = nth, 0, 0
            found = trial(self)
            ample = found if nth == 0 else ample
            assert self.counted.in_use == 0, f"{self.counted.in_use} blocks are left, growth {nth} refused"
            assert found == ample, f"another answer, growth {nth} refused"
            if nth and not self.counted.refused:
                return
        raise AssertionError("it never stops")


def direct(name: str, *given: Any, **rooms: int) -> Trial:
    """One call, whose answers go to places; with some of the rooms instead of theirs."""

    def trial(calls: Calls) -> Tuple[int, bytes]:
        places = Places()
        names = CALLS[name][2][sum(1 + isinstance(it, bytes) for it in given) :]
        known = {"room": 8192, "most": 256, **rooms}
        words = [known[it] if it in known else ctypes.addressof(places) + getattr(Places, it).offset for it in names]
        code = calls.call(name, *given, *words)
        if code == NO_MEMORY:
            assert bytes(places) == FRESH, "a place was changed"
            code = calls.call(name, *given, *words)
        return code, bytes(places)

    return trial


def each(texts: List[bytes], level: int) -> Trial:
    """Texts at once, and the rest once more where memory was refused: what was answered stays."""

    def trial(calls: Calls) -> List[Tuple[int, int, int, bytes]]:
        found, whole = list[Tuple[int, int, int, bytes]](), b"".join(texts)
        while len(found) < len(texts):
            places, rest, start = Places(), len(texts) - len(found), len(found)
            for index in range(rest):
                places.entries[index].begin = sum(map(len, texts[: start + index]))
                places.entries[index].end = places.entries[index].begin + len(texts[start + index])
            before, written = bytes(places.entries), 0
            to = [ctypes.addressof(places) + getattr(Places, it).offset for it in ("entries", "out", "done")]
            code = calls.call("canon_each", whole, to[0], rest, level, to[1], 8192, to[2])
            assert code == (OK if places.done == rest else NO_MEMORY)
            for it in places.entries[: places.done]:
                found.append((it.code, it.number, it.place, bytes(places.out[written : it.written_end])))
                written = it.written_end
            size = ctypes.sizeof(TYPES["crsdesk_entry"]) * places.done
            assert bytes(places.entries)[size:] == before[size:] and bytes(places.out)[written:] == FRESH[written:8192]
        return found

    return trial


def fields_of(struct: Any) -> List[Any]:
    """The values of a struct, without the bytes between."""
    values = (getattr(struct, name) for name, _ in struct._fields_)
    return [fields_of(it) if isinstance(it, ctypes.Structure) else it for it in values]


def under(files: List[bytes], lines: List[bytes], level: int) -> Trial:
    """Rules, the form of each line under them, and a catalogue of all lines."""

    def again(calls: Calls, state: Callable[[], Any], name: str, *given: Any) -> Any:
        """A call that is made again where memory was refused, which must have changed nothing."""
        before, told = state(), calls.call(name, *given)
        if told.code == NO_MEMORY:
            assert state() == before, "a call without memory left something"
            told = calls.call(name, *given)
        return fields_of(told)

    def trial(calls: Calls) -> List[Any]:
        asker = c_rows.Asker()
        found = list[Any]()
        rules, catalogue = TYPES["crsdesk_rules"](), TYPES["crsdesk_catalogue"]()
        to, at = ctypes.addressof(rules), ctypes.addressof(catalogue)

        def form() -> bytes:
            piece = calls.library.crsdesk_rules_piece(to, 0)
            return bytes(piece.bytes)[: piece.length]

        def groups() -> List[Any]:
            every = range(1, calls.library.crsdesk_catalogue_groups(at) + 1)
            return [(asker.lines(at, it), asker.group_text(at, it)) for it in every]

        calls.library.crsdesk_rules_new(to)
        calls.library.crsdesk_catalogue_new(at, level)
        found += [again(calls, form, "rules_add", to, it) for it in files]
        for number, line in enumerate(lines, 1):
            if files:
                found += [again(calls, form, "rules_form", to, level, line), form()]
                found.append(again(calls, groups, "catalogue_add_under", at, to, number, line))
            else:
                found.append(again(calls, groups, "catalogue_add", at, number, line))
        found.append(groups())
        calls.call("catalogue_free", at)
        calls.call("rules_free", to)
        return found

    return trial


def trials_of(case: rows.Case) -> Iterator[Trial]:
    """The calls that answer a row."""
    words, names = c_rows.words_of(case)
    level, text = c_rows.LEVELS[case.level[0]], case.input
    if names or words[0] == b"group":
        lines = words[1:] if len(words) == 3 else text.split(b"\n")
        yield under([case.files[it] for it in names], lines, level)
    elif len(words) == 3:
        for name in ("same", "first_part", "differences", "difference_pieces"):
            yield direct(name, words[1], words[2], level)
        yield direct("difference_pieces", words[1], words[2], level, most=2)
    elif words[1:]:
        yield each(text.splitlines()[:3], level)
    elif words[0] == b"explain":
        for name in ("explain", "refusal_pieces"):
            yield direct(name, text)
            yield direct(name, text, room=3)
    else:
        yield direct("check", text)
        yield direct("canon", text, level)
        yield direct("canon", text, level, room=3)
        yield direct("digest", text, level)


def main(hook: str) -> int:
    calls, passed, failed = Calls(hook), 0, 0
    for case in c_rows.all_rows():
        if len(case.input) + sum(map(len, case.words)) + sum(map(len, case.files.values())) > MOST_BYTES:
            continue
        try:
            for trial in trials_of(case):
                calls.held(trial)
            passed += 1
        except AssertionError as error:
            print(f"{case}: {error}")
            failed += 1
    print(f"{calls.wants} calls had no memory")
    print(f"{passed} passed, {failed} failed")
    return int(failed > 0 or calls.wants < 10 * passed)


if __name__ == "__main__":
    sys.exit(main(sys.argv[1]))
