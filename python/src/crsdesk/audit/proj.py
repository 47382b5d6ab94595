"""PROJ's library, which ``_foreign`` finds, and what the audit asks it beside the reading of texts: CRSs of its
database.

Each question is asked in a context of its own, without a network, so that an answer depends only on the question.
"""

from __future__ import annotations

import contextlib
import ctypes
import functools
import importlib
from typing import Any, Dict, Iterator, List, NamedTuple, Optional, Sequence, Tuple

from .. import _foreign

CATEGORY_CRS = 3
MOST_CANDIDATES = 5
MOST_OF_NAME = 20
HANDLE, WORD, NUMBER, SIZE, STRINGS = _foreign.POINTER, _foreign.TEXT, ctypes.c_int, ctypes.c_size_t, _foreign.TEXTS
CALLS: Dict[str, Tuple[Any, List[Any]]] = {
    "proj_context_create": (HANDLE, []),
    "proj_context_destroy": (HANDLE, [HANDLE]),
    "proj_context_set_enable_network": (NUMBER, [HANDLE, NUMBER]),
    "proj_context_set_search_paths": (None, [HANDLE, NUMBER, STRINGS]),
    "proj_log_level": (NUMBER, [HANDLE, NUMBER]),
    "proj_get_authorities_from_database": (STRINGS, [HANDLE]),
    "proj_string_list_destroy": (None, [STRINGS]),
    "proj_create": (HANDLE, [HANDLE, WORD]),
    "proj_create_from_database": (HANDLE, [HANDLE, WORD, WORD, NUMBER, NUMBER, STRINGS]),
    "proj_create_from_name": (HANDLE, [HANDLE, WORD, WORD, HANDLE, SIZE, NUMBER, SIZE, STRINGS]),
    "proj_as_wkt": (WORD, [HANDLE, HANDLE, NUMBER, STRINGS]),
    "proj_is_crs": (NUMBER, [HANDLE]),
    "proj_get_id_auth_name": (WORD, [HANDLE, NUMBER]),
    "proj_get_id_code": (WORD, [HANDLE, NUMBER]),
    "proj_identify": (HANDLE, [HANDLE, HANDLE, WORD, STRINGS, HANDLE]),
    "proj_list_get_count": (NUMBER, [HANDLE]),
    "proj_list_get": (HANDLE, [HANDLE, HANDLE, NUMBER]),
    "proj_list_destroy": (None, [HANDLE]),
    "proj_int_list_destroy": (None, [HANDLE]),
    "proj_destroy": (HANDLE, [HANDLE]),
}


class Library(NamedTuple):
    """PROJ's library, and where it is to look for its data; nowhere where that is its own choice."""

    calls: Dict[str, Any]
    paths: Sequence[str]


@functools.lru_cache(maxsize=None)
def library() -> Optional[Library]:
    """The library that a package has brought; None if there is none."""
    for package in _foreign.PACKAGES:
        try:
            paths = _foreign.paths_of(importlib.import_module(package))
        except Exception:  # a package that is there and can't be used is none
            continue
        for path in _foreign.libraries(package.partition(".")[0]):
            with contextlib.suppress(OSError, AttributeError):
                return Library(calls_of(ctypes.CDLL(path)), paths)
    return None


def calls_of(found: ctypes.CDLL) -> Dict[str, Any]:
    """The calls of a library, with their types. AttributeError if one isn't there."""
    calls = {}
    for name, (answer, arguments) in CALLS.items():
        calls[name] = getattr(found, name)
        calls[name].restype, calls[name].argtypes = answer, arguments
    return calls


class Candidate(NamedTuple):
    """A CRS of the database: its identifier, PROJ's confidence that it is the one asked for in per cent, its text."""

    identifier: str
    confidence: int
    text: str


class Context:
    """A context of PROJ, to be used in a ``with``: what it makes is destroyed at its end."""

    def __init__(self, found: Library) -> None:
        self.calls = found.calls
        self.made: List[Any] = []
        self.handle = self.calls["proj_context_create"]()
        self.calls["proj_log_level"](self.handle, 0)
        self.calls["proj_context_set_enable_network"](self.handle, 0)
        if found.paths:
            self.calls["proj_context_set_search_paths"](
                self.handle, len(found.paths), _foreign.texts_of(list(found.paths))
            )

    def end(self) -> None:
        for made in self.made:
            self.calls["proj_destroy"](made)
        self.calls["proj_context_destroy"](self.handle)

    def kept(self, made: Any) -> Any:
        if made:
            self.made.append(made)
        return made

    def from_definition(self, text: str) -> Any:
        """The object that a text spells; None if there is none."""
        return self.kept(self.calls["proj_create"](self.handle, text.encode()))

    def authorities(self) -> List[str]:
        """The authorities of the database: EPSG, ESRI, IGNF and others."""
        found = self.calls["proj_get_authorities_from_database"](self.handle)
        names = list(_foreign.listed(found)) if found else []
        self.calls["proj_string_list_destroy"](found)
        return names

    def from_code(self, identifier: str) -> Any:
        """The CRS of the database that has an identifier, such as ``EPSG:4326``; None if there is none."""
        authority, _, code = identifier.partition(":")
        words = authority.encode(), code.encode()
        return self.kept(self.calls["proj_create_from_database"](self.handle, *words, CATEGORY_CRS, 0, None))

    def wkt_of(self, made: Any) -> str:
        """The text in WKT2:2019; nothing if PROJ has none."""
        words = _foreign.texts_of(["MULTILINE=NO"])
        text = self.calls["proj_as_wkt"](self.handle, made, _foreign.WKT2_2019, words)
        return str(text.decode("utf-8", "replace")) if text else ""

    def identifier_of(self, made: Any) -> str:
        authority, code = (self.calls[f"proj_get_id_{it}"](made, 0) for it in ("auth_name", "code"))
        return f"{authority.decode()}:{code.decode()}" if authority and code else ""

    def candidates_of(self, made: Any) -> List[Candidate]:
        """The CRSs of the database that PROJ takes for this one, most confident first."""
        confidences = ctypes.POINTER(ctypes.c_int)()
        found = self.calls["proj_identify"](self.handle, made, None, None, ctypes.byref(confidences))
        its = [(it, confidences[index]) for index, it in enumerate(self.listed(found, MOST_CANDIDATES))]
        if confidences:
            self.calls["proj_int_list_destroy"](confidences)
        named = [(self.identifier_of(it), confidence, self.wkt_of(it)) for it, confidence in its]
        return [Candidate(*it) for it in named if it[0]]

    def identifiers_of_name(self, name: str) -> List[str]:
        """The identifiers of the database's CRSs that have a name, or have it as an alias."""
        given = None, name.encode(), None, 0, 0, MOST_OF_NAME, None
        found = self.listed(self.calls["proj_create_from_name"](self.handle, *given), MOST_OF_NAME)
        return [self.identifier_of(it) for it in found if self.calls["proj_is_crs"](it)]

    def listed(self, found: Any, most: int) -> List[Any]:
        """The objects of a list that C made, which is destroyed."""
        if not found:
            return []
        count = min(self.calls["proj_list_get_count"](found), most)
        its = [self.kept(self.calls["proj_list_get"](self.handle, found, index)) for index in range(count)]
        self.calls["proj_list_destroy"](found)
        return its


@contextlib.contextmanager
def context() -> Iterator[Context]:
    """A new context. RuntimeError if there is no PROJ."""
    found = library()
    if found is None:
        raise RuntimeError("PROJ isn't installed")
    made = Context(found)
    try:
        yield made
    finally:
        made.end()
