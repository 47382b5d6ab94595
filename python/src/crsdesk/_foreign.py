"""Texts in other forms than WKT2, as PROJ reads them: WKT1 of GDAL and Esri, a BOUNDCRS, PROJ strings, PROJJSON, codes and
URNs. It takes a PROJ that osgeo or pyproj has brought into the process.

The reading is strict: what PROJ warns of, repairs or passes over is refused. So its library is called by itself: GDAL
writes warnings in its log, pyproj has none. Each text has a context of its own, since a context's answers depend on
what it has read before; it has no network. No warning says that all of a text has counted, so ``_effects`` checks that.
"""

from __future__ import annotations

import contextlib
import ctypes
import functools
import importlib
import json
import os
import re
from typing import (
    Any,
    Callable,
    Dict,
    Generator,
    Iterator,
    List,
    NamedTuple,
    NoReturn,
    Optional,
    Sequence,
    Tuple,
    Union,
)

from ._effects import NotRead as NotRead, check_numbers, check_parts, check_words, checked_string

# The bound of the program `crsdesk` too.
MOST_BYTES = 1_048_576
# Packages that bring PROJ, the better known first: what is asked of each for its data.
PACKAGES = ("osgeo.osr", "pyproj")
WKT1, BOUND, STRING, JSON, CODE = "WKT1", "BOUNDCRS", "a PROJ string", "PROJJSON", "a code"
HEAD = re.compile(r"([A-Za-z_]+)\s*[\[(]")
WKT1_HEADS = frozenset(("GEOGCS", "PROJCS", "GEOCCS", "VERT_CS", "VERTCS", "COMPD_CS", "LOCAL_CS", "FITTED_CS"))
BOUND_IN_COMPOUND = re.compile(
    r'COMPOUNDCRS\s*[\[(]\s*"(?:[^"]|"")*"\s*,.*\bBOUNDCRS\s*[\[(]', re.DOTALL | re.IGNORECASE
)
STRING_HEAD = re.compile(r"\+?(?:proj|init|title)=|\+[a-z]")
# A code with its authority, or several; a URN; an address of the OGC, which nothing is fetched from.
CODE_FORM = re.compile(
    r"[A-Za-z][A-Za-z0-9_]*:[A-Za-z0-9_.-]+(?:\+(?:[A-Za-z][A-Za-z0-9_]*:)?[A-Za-z0-9_.-]+)?"
    r"|urn:ogc:def:crs(?::|,crs:)[A-Za-z0-9_.:,-]+"
    r"|https?://www\.opengis\.net/def/crs/[A-Za-z0-9_.-]+/[A-Za-z0-9_.-]+/[A-Za-z0-9_.-]+",
    re.IGNORECASE,
)
QUOTED_OR_DELIMITER = re.compile(r'"[^"]*"|[\[\],]')
QUOTED = re.compile(r'"[^"]*"')
# What opens and closes, an open quote, and what is in no text outside quotes.
DELIMITER = re.compile(r'"[^"]*"|[\[\]()"]|[^\x00-\x7f]')
CLOSING = {"[": "]", "(": ")"}
VERTICAL = re.compile(r"\s*,\s*VERTCS\s*[\[(]", re.IGNORECASE)
UNITS = {"metre": 1.0, "degree": 0.0174532925199433, "unity": 1.0}
WKT2_2019, WKT1_GDAL, WKT1_ESRI = 2, 4, 5
ERRORS_ALONE = 1
STRICT = ("STRICT=YES", "UNSET_IDENTIFIERS_IF_INCOMPATIBLE_DEF=NO")
FRONT = "BOUNDCRS[SOURCECRS["


class Foreign(NamedTuple):
    """What PROJ read of a text.

    ``form``    the form of the text: ``WKT1``, ``BOUNDCRS``, ``a PROJ string``, ``PROJJSON``, ``a code``
    ``text``    the CRS in WKT2:2019; for a bound one the source CRS
    ``bound``   the transformations of what is bound: 0 for the whole or the number of a compound CRS's member, with target
                and transformation as PROJ writes them
    ``reader``  which PROJ read it, with which registry: ``PROJ 9.1.1, EPSG v10.076``
    """

    form: str
    text: str
    bound: Tuple[Tuple[int, str], ...]
    reader: str


def form_of(text: str) -> Optional[str]:
    """The form of a text that PROJ is asked for; None of any other, which nothing guesses at. A text in WKT2 that the
    library refuses is none: PROJ would repair it."""
    text = text.strip()
    match = HEAD.match(text)
    if match:
        head = match[1].upper()
        if head in WKT1_HEADS:
            return WKT1
        return BOUND if head == "BOUNDCRS" or BOUND_IN_COMPOUND.match(text) else None
    if text.startswith("{"):
        return JSON
    if STRING_HEAD.match(text):
        return STRING
    return CODE if CODE_FORM.fullmatch(text) else None


def is_foreign(text: bytes) -> bool:
    """Whether PROJ is asked for a text."""
    return form_of(text.decode("utf-8", "replace")) is not None


def read(text: Union[str, bytes]) -> Foreign:
    """What PROJ reads of a text whose form it has. ``NotRead`` where it warns or repairs, or isn't there."""
    try:
        given = (text.decode() if isinstance(text, bytes) else text).rstrip()
    except UnicodeDecodeError as error:
        raise NotRead(f"byte {error.object[error.start]:#04x} at {error.start} isn't UTF-8") from None
    text = given.lstrip()
    form = form_of(text)
    if form is None:
        raise NotRead("PROJ isn't asked for a text of this form")
    if "\0" in text or len(text) > MOST_BYTES:
        raise NotRead("a NUL byte is in it" if "\0" in text else f"it has more than {MOST_BYTES:,} characters")
    proj = loaded()
    if proj is None:
        raise NotRead("it isn't there; osgeo (GDAL's Python) and pyproj have it")
    if form in (WKT1, BOUND):
        check_delimiters(given)
    # JSON is parsed here first: how deep it may be is bounded.
    members = parsed_json(text) if form == JSON else None
    answer = functools.partial(proj.answer, form)
    with proj.reading(checked_string(text) if form == STRING else text, form) as reading:
        if form == WKT1:
            with contextlib.closing(reading.again()) as again:
                check_parts(given, reading.written, again, answer)
        elif form == BOUND:
            check_numbers(given, reading.written, answer)
        if form == JSON:
            for path in lost(members, json.loads(reading.as_json()), ""):
                raise NotRead(f"PROJ would pass {path} over, or change it")
    if form == STRING:
        check_words(given, reading.written, answer)
    plain, bound = unbound(reading.written)
    if bound:
        # PROJ names the axes of a target otherwise once it has read its own text. So one transformation has one text.
        with proj.reading(reading.written, BOUND) as other:
            bound = unbound(other.written)[1]
    return Foreign(form, plain, bound, proj.name)


def reader() -> Optional[str]:
    """Which PROJ reads texts, such as ``PROJ 9.1.1, EPSG v10.076``; None if there is none."""
    proj = loaded()
    return proj.name if proj else None


# A bound CRS: its source CRS, and the rest of it.


def unbound(written: str) -> Tuple[str, Tuple[Tuple[int, str], ...]]:
    """A text of PROJ's without its transformations, and these: the whole one's, or a compound CRS's members'."""
    if written.startswith(FRONT):
        source, rest = source_and_rest(written)
        bound: Tuple[Tuple[int, str], ...] = ((0, rest),)
        plain = source
    elif written.startswith("COMPOUNDCRS["):
        parts = arguments_of(written)
        found = {number: source_and_rest(part) for number, part in enumerate(parts) if part.startswith(FRONT)}
        plain = joined(written, [found[number][0] if number in found else part for number, part in enumerate(parts)])
        bound = tuple((number, rest) for number, (_, rest) in found.items())
    else:
        return written, ()
    if any(FRONT in QUOTED.sub('""', part) for part in (plain, *(rest for _, rest in bound))):
        raise NotRead("one BOUNDCRS is in another")
    return plain, bound


def bound_text(canonical: str, bound: Sequence[Tuple[int, str]]) -> str:
    """A canonical text with the transformations that ``unbound`` took from it: the text of a BOUNDCRS, or of a compound
    CRS with such members."""
    if not bound:
        return canonical
    whole = dict(bound)
    if 0 in whole:
        return f"{FRONT}{canonical}],{whole[0]}]"
    parts = arguments_of(canonical)
    return joined(canonical, [bound_text(part, [(0, whole[n])] if n in whole else []) for n, part in enumerate(parts)])


def source_and_rest(text: str) -> Tuple[str, str]:
    """The source CRS of a BOUNDCRS in PROJ's spelling, and what follows it."""
    source, *rest = arguments_of(text)
    return source[len("SOURCECRS[") : -1], ",".join(rest)


def arguments_of(text: str) -> List[str]:
    """The arguments of a node that is spelled with square brackets, without white space between. NotRead if the text
    isn't one node, as where PROJ writes a quote in a name as it is."""
    begin = text.index("[") + 1
    parts, depth = [], 1
    for match in QUOTED_OR_DELIMITER.finditer(text, begin):
        token = match[0]
        depth += (token == "[") - (token == "]")
        if depth == 0 or depth == 1 and token == ",":
            parts.append(text[begin : match.start()])
            begin = match.end()
            if depth == 0:
                break
    if depth or begin != len(text) or text.count('"') % 2:
        raise NotRead("PROJ writes no well-formed text of it")
    return parts


def joined(node: str, parts: List[str]) -> str:
    """A node with other arguments."""
    return f"{node[: node.index('[')]}[{','.join(parts)}]"


# What no warning says.


def check_delimiters(text: str) -> None:
    """NotRead if a text isn't one node, or Esri's two of a compound CRS, closed as they are opened: PROJ takes ``)`` for
    ``]``, and some more after the end."""
    closing: List[str] = []
    is_second = False
    for match in DELIMITER.finditer(text):
        token = match[0]
        if token in CLOSING:
            closing.append(CLOSING[token])
        elif token[0] != '"' or token == '"':
            if token not in closing[-1:]:
                raise NotRead(f"{token!r} is at character {match.start()}, where nothing closes so")
            closing.pop()
            if not closing and match.end() < len(text):
                if is_second or not VERTICAL.match(text, match.end()):
                    raise NotRead(f"more follows at character {match.end()}")
                is_second = True


def parsed_json(text: str) -> Any:
    """What JSON says. NotRead if it is none, has a name twice in one object, or is too deep."""
    try:
        return json.loads(text, object_pairs_hook=each_once)
    except (ValueError, RecursionError) as error:
        raise NotRead(f"JSON: {error}") from None


def each_once(pairs: List[Tuple[str, Any]]) -> Dict[str, Any]:
    found = dict(pairs)
    if len(found) < len(pairs):
        raise ValueError("a name is there twice in one object")
    return found


def lost(given: Any, kept: Any, path: str) -> Iterator[str]:
    """The paths of what isn't kept."""
    if isinstance(given, dict) and isinstance(kept, dict):
        for name, value in given.items():
            if name != "$schema":
                place = f"{path}/{name}" if path else name
                if name not in kept:
                    yield place
                else:
                    yield from lost(value, kept[name], place)
    elif isinstance(given, list) and isinstance(kept, list) and len(given) == len(kept):
        for number, pair in enumerate(zip(given, kept)):
            yield from lost(*pair, f"{path}/{number}")
    elif not is_same_value(given, kept):
        yield path


def is_same_value(given: Any, kept: Any) -> bool:
    if isinstance(given, (int, float)) and isinstance(kept, (int, float)):
        return isinstance(given, bool) == isinstance(kept, bool) and f"{given:.15g}" == f"{kept:.15g}"
    if isinstance(given, dict) and isinstance(kept, str) and kept in UNITS:
        return str(given.get("name")) == kept and is_same_value(given.get("conversion_factor"), UNITS[kept])
    # A code may be a number or a text.
    return bool(given == kept) or isinstance(given, (int, str)) and str(given) == str(kept)


# PROJ itself.

TEXT, POINTER = ctypes.c_char_p, ctypes.c_void_p
TEXTS = ctypes.POINTER(TEXT)
LOG = ctypes.CFUNCTYPE(None, POINTER, ctypes.c_int, TEXT)
CALLS: Dict[str, Tuple[Any, List[Any]]] = {
    "proj_context_create": (POINTER, []),
    "proj_context_destroy": (POINTER, [POINTER]),
    "proj_context_get_database_metadata": (TEXT, [POINTER, TEXT]),
    "proj_context_set_enable_network": (ctypes.c_int, [POINTER, ctypes.c_int]),
    "proj_context_set_search_paths": (None, [POINTER, ctypes.c_int, TEXTS]),
    "proj_log_func": (None, [POINTER, POINTER, LOG]),
    "proj_log_level": (ctypes.c_int, [POINTER, ctypes.c_int]),
    "proj_create": (POINTER, [POINTER, TEXT]),
    "proj_create_from_wkt": (POINTER, [POINTER, TEXT, TEXTS, ctypes.POINTER(TEXTS), ctypes.POINTER(TEXTS)]),
    "proj_is_crs": (ctypes.c_int, [POINTER]),
    "proj_as_wkt": (TEXT, [POINTER, POINTER, ctypes.c_int, TEXTS]),
    "proj_as_projjson": (TEXT, [POINTER, POINTER, TEXTS]),
    "proj_destroy": (POINTER, [POINTER]),
    "proj_string_list_destroy": (None, [TEXTS]),
}


class Info(ctypes.Structure):
    """The front of PJ_INFO."""

    _fields_ = [
        ("major", ctypes.c_int),
        ("minor", ctypes.c_int),
        ("patch", ctypes.c_int),
        ("release", TEXT),
        ("version", TEXT),
        ("search_path", TEXT),
        ("paths", POINTER),
        ("count", ctypes.c_size_t),
    ]


class Context:
    """A context of PROJ for one text, and what PROJ says in it."""

    def __init__(self, calls: Dict[str, Any], paths: Sequence[str]) -> None:
        self.calls = calls
        self.said: List[str] = []
        self.at: Any = calls["proj_context_create"]()
        # Kept while the context is there.
        self.log = LOG(lambda _, level, words: self.said.append(words.decode("utf-8", "replace")))
        calls["proj_log_func"](self.at, None, self.log)
        calls["proj_log_level"](self.at, ERRORS_ALONE)
        calls["proj_context_set_enable_network"](self.at, 0)
        if paths:
            calls["proj_context_set_search_paths"](self.at, len(paths), texts_of(paths))

    def __enter__(self) -> Context:
        return self

    def __exit__(self, *_: object) -> None:
        self.calls["proj_context_destroy"](self.at)

    def refuse(self) -> NoReturn:
        # The text around the place is in the words; the caret under it is below nothing in one line.
        words = ["PROJ: " + " ".join(it.replace("^", " ").split()) for it in dict.fromkeys(self.said)]
        raise NotRead("; ".join(words) or "PROJ doesn't read it, and says nothing")


class Proj:
    """The library of PROJ."""

    def __init__(self, library: ctypes.CDLL, paths: Sequence[str]) -> None:
        self.calls: Dict[str, Any] = {}
        for name, (result, arguments) in CALLS.items():
            call = getattr(library, name)
            call.restype, call.argtypes = result, arguments
            self.calls[name] = call
        library.proj_info.restype = Info
        info = library.proj_info()
        self.paths = paths
        with Context(self.calls, paths) as context:
            registry = self.calls["proj_context_get_database_metadata"](context.at, b"EPSG.VERSION")
        registry = f", EPSG {registry.decode()}" if registry else ""
        self.name = f"PROJ {info.major}.{info.minor}.{info.patch}{registry}"

    @contextlib.contextmanager
    def reading(self, text: str, form: str) -> Iterator[Reading]:
        """What PROJ reads of a text, in a context of its own. NotRead if PROJ says anything."""
        with Context(self.calls, self.paths) as context, self.made(context, text, form in (WKT1, BOUND)) as crs:
            if not crs:
                context.refuse()
            if not self.calls["proj_is_crs"](crs):
                raise NotRead("PROJ reads it, but as no CRS")
            yield Reading(self, context, crs, self.written(context, crs, WKT2_2019))

    def answer(self, form: str, text: str) -> Optional[str]:
        """What PROJ writes of a text; None if its reading isn't taken."""
        with contextlib.suppress(NotRead), self.reading(text, form) as found:
            return found.written
        return None

    def written(self, context: Context, crs: Any, form: int) -> str:
        """A CRS in a form of WKT; NotRead if PROJ says anything."""
        options = ["MULTILINE=NO", *["OUTPUT_AXIS=YES"][: form == WKT1_GDAL]]
        written = self.calls["proj_as_wkt"](context.at, crs, form, texts_of(options))
        if context.said or written is None:
            context.refuse()
        return str(written.decode())

    @contextlib.contextmanager
    def made(self, context: Context, text: str, is_wkt: bool) -> Iterator[Any]:
        crs = self.created(context, text, is_wkt)
        try:
            yield crs
        finally:
            self.calls["proj_destroy"](crs)

    def created(self, context: Context, text: str, is_wkt: bool) -> Any:
        """What PROJ makes of a text; warnings and errors of a grammar are among what it says."""
        if not is_wkt:
            return self.calls["proj_create"](context.at, text.encode())
        warnings, errors = TEXTS(), TEXTS()
        to_both = ctypes.byref(warnings), ctypes.byref(errors)
        crs = self.calls["proj_create_from_wkt"](context.at, text.encode(), texts_of(STRICT), *to_both)
        for given in (warnings, errors):
            if given:
                context.said += listed(given)
                self.calls["proj_string_list_destroy"](given)
        return crs


class Reading(NamedTuple):
    """A CRS that PROJ holds of a text, and what PROJ writes of it."""

    proj: Proj
    context: Context
    crs: Any
    written: str

    def as_json(self) -> str:
        """In PROJJSON."""
        found = self.proj.calls["proj_as_projjson"](self.context.at, self.crs, None)
        if found is None:
            self.context.refuse()
        return str(found.decode())

    def again(self) -> Generator[str, None, None]:
        """What is written, in WKT1 as GDAL writes it, and as Esri does; nothing for one in which PROJ can't write it."""
        with self.proj.made(self.context, self.written, True) as crs:
            for form in (WKT1_GDAL, WKT1_ESRI) if crs else ():
                self.context.said.clear()
                with contextlib.suppress(NotRead):
                    yield self.proj.written(self.context, crs, form)


def texts_of(words: Sequence[str]) -> Any:
    """A list of texts as C has it, with a null pointer at its end."""
    return (TEXT * (len(words) + 1))(*(os.fsencode(word) for word in words), None)


def listed(given: Any) -> Iterator[str]:
    number = 0
    while given[number]:
        yield given[number].decode("utf-8", "replace")
        number += 1


@functools.lru_cache(maxsize=None)
def loaded() -> Optional[Proj]:
    """PROJ as one of the packages has it; None if there is none."""
    for package in PACKAGES:
        try:
            module = importlib.import_module(package)
            paths = paths_of(module)
        except Exception:  # a package that is there and can't be used is none
            continue
        for path in libraries(package.partition(".")[0]):
            try:
                return Proj(ctypes.CDLL(path), paths)
            except (OSError, AttributeError):
                continue
    return None


def paths_of(module: Any) -> List[str]:
    """Where a package has PROJ look for its data; nothing if that is PROJ's own choice."""
    of_pyproj: Optional[Callable[[], str]] = getattr(getattr(module, "datadir", None), "get_data_dir", None)
    if of_pyproj:
        return of_pyproj().split(os.pathsep)
    return list(module.GetPROJSearchPaths() or [])


def libraries(package: str) -> List[str]:
    """The files of PROJ's library in this process, those that a package brought itself first."""
    found: Dict[str, None] = {}
    with open("/proc/self/maps", encoding="utf-8", errors="surrogateescape") as maps:
        for line in maps:
            fields = line.rstrip("\n").split(maxsplit=5)
            if len(fields) == 6 and re.match(r"libproj\b.*\.so|libproj-\w+\.so", os.path.basename(fields[5])):
                found[fields[5]] = None
    others = [name for name in ("pyproj", "osgeo", "gdal", "rasterio", "fiona", "pyogrio") if name != package]

    def rank(path: str) -> int:
        if f"/{package}" in path.lower():
            return 0
        return 2 if any(f"/{other}" in path.lower() for other in others) else 1

    return sorted(found, key=rank)
