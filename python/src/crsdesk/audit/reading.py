"""What is in a file: the texts that it states, each with its layer or line.

Nothing is written, looked up or fetched. A file is read the way that its name says (``Way``); what can't be read is
reported, and the rest goes on.
"""

from __future__ import annotations

import contextlib
import enum
import errno
import os
import re
import shutil
import sqlite3
import stat
import tempfile
import urllib.parse
import zipfile
import zlib
from typing import Any, BinaryIO, Callable, Dict, Iterable, Iterator, List, NamedTuple, Optional, Tuple, Union

from .._crs import is_blank
from .damage import OF_CRS, damage_beside, entities_in, invalid, strange_beside, unknown_in_geojson, warnings_of
from .drivers import DRIVERS, DRIVERS_OF_MEMBERS
from .offline import gdal_of, in_own_thread

# The bound of the program `crsdesk` too.
MOST_BYTES = 1_048_576
MOST_LAYERS = 10_000
# The most steps of SQLite's machine for a database, in thousands: a view can be endless.
MOST_STEPS = 20_000
# The most bytes of memory that SQLite gets; the most layers of a database, and characters of a layer's name.
MOST_MEMORY = 1 << 28
MOST_ROWS = 100_000
MOST_CHARACTERS = 1000
# The most bytes of a database with a log that is copied.
MOST_COPIED = 1 << 30
DATABASE = b"SQLite format 3\0"
# The flattening of an ellipsoid, how many characters one has that GDAL reckons, and by what part of it that is off.
FLATTENING = re.compile(rb'(ELLIPSOID\["(?:[^"]|"")*",[^,\]]+,)([0-9.]+)')
RECKONED = 15
LAST_DIGITS = 1e-13
# The flag of a zip's member that has a password.
ENCRYPTED = 1


class Way(enum.Enum):
    """How a file is read."""

    TEXT = "a text a file"
    LINES = "a text a line"
    DATABASE = "a database"
    GDAL = "by GDAL"
    ZIP = "an archive"


class File(NamedTuple):
    """A file to read, and how."""

    path: str
    way: Way


class Text(NamedTuple):
    """A text that a file states."""

    text: bytes
    layer: str = ""
    line: int = 0


class Without(NamedTuple):
    """A file, layer or line that states no CRS."""

    why: str
    layer: str = ""
    line: int = 0


class Unread(NamedTuple):
    """A file, layer or line that can't be read."""

    why: str
    layer: str = ""
    line: int = 0


class Skipped(NamedTuple):
    """A file, or a member of one, that isn't read, since something isn't installed."""

    lacking: str
    layer: str = ""


Found = Union[Text, Without, Unread, Skipped]

TEXTS = frozenset((".wkt", ".wkt2", ".prj", ".qpj"))
CATALOGUES = frozenset((".txt",))
DATABASES = frozenset((".gpkg", ".sqlite", ".sqlite3", ".db"))
ARCHIVES = frozenset((".zip",))
# A folder that is one data set.
FOLDERS = frozenset((".gdb",))
# The formats whose CRS is in the .prj beside.
BY_PRJ = frozenset((".shp", ".asc"))
XML = frozenset((".gml", ".kml"))
OPEN_OPTIONS = {".gml": ["WRITE_GFS=NO", "DOWNLOAD_SCHEMA=NO"]}


def suffix_of(path: str) -> str:
    return os.path.splitext(path)[1].lower()


def way_of(path: str, is_named: bool, by_line: bool, with_txt: bool) -> Optional[Way]:
    """How a file is read: by its suffix; None if it isn't. One of another suffix that is named itself is as .txt."""
    suffix = suffix_of(path)
    if suffix in DATABASES:
        return Way.DATABASE
    if suffix in DRIVERS:
        return Way.GDAL
    if suffix in ARCHIVES:
        return Way.ZIP
    if suffix in TEXTS:
        return Way.TEXT
    if is_named or suffix in CATALOGUES and (by_line or with_txt):
        return Way.LINES if by_line else Way.TEXT
    return None


def read(file: File) -> Iterator[Found]:
    """What a file states, and whatever goes wrong in it."""
    try:
        yield from READERS[file.way](file.path)
    except OSError as error:
        yield Unread(error.strerror or str(error))
    except MemoryError:
        yield Unread("out of memory")
    except Exception as error:  # any error that a library raises over damaged bytes
        yield Unread(f"{type(error).__name__}: {error}")


def opened(path: str) -> BinaryIO:
    """A file to read. OSError if it is none: what waits for others, such as a named pipe, isn't read."""
    descriptor = os.open(path, os.O_RDONLY | os.O_NONBLOCK | os.O_CLOEXEC)
    mode = os.fstat(descriptor).st_mode
    if stat.S_ISREG(mode):
        return os.fdopen(descriptor, "rb")
    os.close(descriptor)
    if stat.S_ISDIR(mode):
        raise IsADirectoryError(errno.EISDIR, os.strerror(errno.EISDIR))
    raise OSError(errno.EINVAL, "Not a regular file")


def text_found(text: bytes, layer: str = "", line: int = 0) -> Union[Text, Without, Unread]:
    """A text as it is found: one of only white space states nothing, and a long one isn't read."""
    if len(text) > MOST_BYTES:
        return Unread(TOO_LONG, layer, line)
    if is_blank(text):
        return Without("blank" if text else "empty", layer, line)
    return Text(text, layer, line)


TOO_LONG = f"text too long (more than {MOST_BYTES:,} bytes)"


def read_text(path: str) -> Iterator[Found]:
    with opened(path) as file:
        front = file.read(MOST_BYTES + 1)
    if front.startswith(DATABASE):
        yield from read_database(path)
    else:
        yield text_found(front)


def read_lines(path: str) -> Iterator[Found]:
    """The lines of a catalogue (docs/CATALOGUES.md); the rest of a line that is too long is passed over."""
    with opened(path) as file:
        number = 0
        while True:
            line = file.readline(MOST_BYTES + 2)
            if not line:
                return
            number += 1
            is_whole = line.endswith(b"\n")
            if is_whole:
                line = line[: -2 if line.endswith(b"\r\n") else -1]
            yield text_found(line, "", number)
            while not is_whole:
                rest = file.readline(MOST_BYTES)
                is_whole = not rest or rest.endswith(b"\n")


# A database: the layers, and the text of each one's entry.

GEOPACKAGE = ("gpkg_contents", "gpkg_spatial_ref_sys")
SPATIALITE = ("geometry_columns", "spatial_ref_sys")
# The numbers of layers that need no entry, in the form of ``decoded``.
NO_ENTRIES = ("None", "-1", "0")


def read_database(path: str) -> Iterator[Found]:
    opened(path).close()
    try:
        with unchanged(path) as address, contextlib.closing(connection_to(address)) as connection:
            tables = {name.lower() for name in column(connection, "SELECT name FROM sqlite_master")}
            kinds = [kind for kind in (GEOPACKAGE, SPATIALITE) if tables.issuperset(kind)]
            for kind in kinds:
                yield from layers_of(connection, kind)
            if not kinds:
                yield Without("a database without layers")
    except sqlite3.Error as error:
        yield Unread(f"SQLite: {error}")


@contextlib.contextmanager
def unchanged(path: str) -> Iterator[str]:
    """The address by which a database is read so that no file is made beside it. Where it has a log, and no program
    has it open, it is read from a copy: SQLite makes a file to read a log."""
    address = "file:" + urllib.parse.quote(os.fsencode(path)) + "?mode=ro"
    log = path + "-wal"
    if os.path.islink(log) or os.path.islink(path + "-shm"):
        raise sqlite3.OperationalError("its log is a link, which isn't followed")
    if not os.path.exists(log) or os.path.getsize(log) == 0:
        yield address + "&immutable=1"
    elif os.path.exists(path + "-shm"):
        yield address
    elif os.path.getsize(path) + os.path.getsize(log) > MOST_COPIED:
        raise sqlite3.OperationalError(f"more than {MOST_COPIED:,} bytes, with a log: have SQLite write that into it")
    else:
        with tempfile.TemporaryDirectory() as folder:
            copy = os.path.join(folder, "copy")
            shutil.copyfile(path, copy)
            shutil.copyfile(log, copy + "-wal")
            yield f"file:{urllib.parse.quote(copy)}?mode=ro"


def connection_to(address: str) -> sqlite3.Connection:
    """A connection on which neither a view nor a trigger does anything but be read, for a bounded time, and with
    bounded memory: what SQLite sorts or gathers isn't written to files."""
    connection = sqlite3.connect(address, uri=True, timeout=1)
    connection.text_factory = bytes
    connection.execute("PRAGMA trusted_schema = OFF")
    connection.execute("PRAGMA temp_store = MEMORY")
    connection.execute(f"PRAGMA hard_heap_limit = {MOST_MEMORY}")
    steps = iter(range(MOST_STEPS))
    connection.set_progress_handler(lambda: next(steps, None) is None, 1000)
    return connection


def column(connection: sqlite3.Connection, query: str) -> List[str]:
    """The first column of what a query answers, as text."""
    return [decoded(row[0]) for row in connection.execute(query)]


def decoded(value: Any) -> str:
    """A value of a database as text; bytes that aren't UTF-8 as Python has them in names."""
    return value.decode("utf-8", "surrogateescape") if isinstance(value, bytes) else str(value)


def layers_of(connection: sqlite3.Connection, kind: Tuple[str, str]) -> Iterator[Found]:
    """The text of each layer; in a GeoPackage, the text in WKT2 where the entry has one. Each entry's texts are fetched
    once, for all its layers, so that layers come in the order of the entries."""
    layers, entries = kind
    columns = {name.lower() for name in column(connection, f"SELECT name FROM pragma_table_info('{entries}')")}
    texts = [name for name in ("definition_12_063", "definition", "srtext", "srs_wkt") if name in columns]
    identity, name = ("srs_id", "table_name") if kind == GEOPACKAGE else ("srid", "f_table_name")
    # More than a text can have isn't fetched.
    chosen = "".join(f", substr({text}, 1, {MOST_BYTES + 1})" for text in texts)
    waiting = names_by_number(
        connection.execute(f"SELECT substr({name}, 1, {MOST_CHARACTERS}), {identity} FROM {layers}")
    )
    query = f"SELECT {identity}{chosen} FROM {entries} WHERE {identity} IN (SELECT {identity} FROM {layers})"
    for number, *values in connection.execute(query):
        found = entry_found(values)
        yield from (found._replace(layer=layer) for layer in waiting.pop(decoded(number), ()))
    for number, its in waiting.items():
        is_none = number in NO_ENTRIES
        for layer in its:
            yield Without("the layer has no CRS", layer) if is_none else Unread(
                f"there is no entry {number} for the layer", layer
            )


def names_by_number(rows: Iterable[Tuple[Any, Any]]) -> Dict[str, List[str]]:
    """The names of layers by the number of their entry."""
    names: Dict[str, List[str]] = {}
    for count, (name, number) in enumerate(rows):
        if count == MOST_ROWS:
            raise sqlite3.DataError(f"more than {MOST_ROWS:,} layers")
        names.setdefault(decoded(number), []).append(decoded(name))
    return names


def entry_found(values: List[Any]) -> Union[Text, Without, Unread]:
    """What the layers of an entry state, by the entry's texts, the best first."""
    texts = [value if isinstance(value, bytes) else str(value).encode() for value in values if value is not None]
    texts = [text for text in texts if text.strip().lower() not in (b"", b"undefined")]
    return text_found(texts[0]) if texts else Without("the layer's CRS is undefined")


# What GDAL reads.


def read_by_gdal(path: str) -> Iterator[Found]:
    os.stat(path)
    if not os.path.isdir(path):
        opened(path).close()
    yield from read_data_set(path, "", DRIVERS[suffix_of(path)])


def read_data_set(path: str, member: str, names: Tuple[str, ...]) -> Iterator[Found]:
    """The texts that GDAL writes of a data set's layers and rasters; a member of an archive is the layers' front."""
    gdal = gdal_of()
    if gdal is None:
        yield Skipped("osgeo", member)
        return
    yield from in_own_thread(lambda: list(found_by_gdal(gdal, path, member, names)))


def found_by_gdal(gdal: Any, path: str, member: str, names: Tuple[str, ...]) -> Iterator[Found]:
    drivers = [name for name in names if gdal.GetDriverByName(name) is not None]
    if not drivers:
        yield Skipped(f"GDAL's driver {names[0]}", member)
        return
    options = OPEN_OPTIONS.get(suffix_of(path), [])
    if suffix_of(path) in XML and (words := entities_in(gdal, path)):
        yield Unread(words[0], member)
        return
    try:
        with warnings_of(gdal) as words:
            data_set = gdal.OpenEx(path, gdal.OF_READONLY, allowed_drivers=drivers, open_options=options)
    except RuntimeError as error:
        yield Unread(f"GDAL: {told_by_gdal(error, path)}", member)
        return
    if data_set is None:
        yield Unread("GDAL: not read", member)
        return
    doubts = [word for word in words if OF_CRS.search(word)]
    if suffix_of(path) == ".geojson":
        doubts = unknown_in_geojson(gdal, path) or doubts
    is_geotiff = data_set.GetDriver().ShortName == "GTiff"
    for found in layers_of_data_set(gdal, data_set, path, member, doubts):
        yield with_flattening(gdal, path, found) if is_geotiff else found


def with_flattening(gdal: Any, path: str, found: Found) -> Found:
    """What a GeoTIFF states, with the flattening of its code in place of the one that GDAL reckons by the minor axis,
    and whose last digits aren't the file's. If the two differ in more than these digits, it is unchanged."""
    number = FLATTENING.search(found.text) if isinstance(found, Text) else None
    if not isinstance(found, Text) or number is None or len(number[2]) < RECKONED:
        return found
    gdal.SetThreadLocalConfigOption("GTIFF_SRS_SOURCE", "EPSG")
    try:
        other = reference_found(raster_reference(gdal.OpenEx(path, gdal.OF_RASTER)), found.layer, [])
    finally:
        gdal.SetThreadLocalConfigOption("GTIFF_SRS_SOURCE", None)
    its = FLATTENING.search(other.text) if isinstance(other, Text) else None
    if its is None or not isinstance(other, Text):
        return found
    is_near = abs(float(number[2]) - float(its[2])) <= LAST_DIGITS * float(its[2])
    return other if is_near and FLATTENING.sub(rb"\1", other.text) == FLATTENING.sub(rb"\1", found.text) else found


def told_by_gdal(error: RuntimeError, path: str) -> str:
    """GDAL's words in one line, without the file's name, which is printed before."""
    words = " ".join(str(error).split())
    for name in (f"`{path}' ", f"{path}: ", f"{path}, "):
        words = words.replace(name, "")
    return words


def layers_of_data_set(gdal: Any, data_set: Any, path: str, member: str, doubts: List[str]) -> Iterator[Found]:
    """What the layers and rasters state; nothing does where there are doubts."""

    def stated(reference_of: Callable[[], Any], label: str) -> Found:
        if strange:
            return Unread(strange[0], label)
        try:
            with warnings_of(gdal) as words:
                reference = reference_of()
            damage = damage_beside(gdal, data_set, reference)
        except RuntimeError as error:
            return Unread(f"GDAL: {told_by_gdal(error, path)}", label)
        return reference_found(reference, label, doubts + damage + words)

    strange = strange_beside(gdal, path) if suffix_of(path) in BY_PRJ else []

    is_told = False
    for index in range(min(data_set.GetLayerCount(), MOST_LAYERS)):
        layer = data_set.GetLayer(index)
        yield stated(layer.GetSpatialRef, joined(member, layer.GetName()))
        is_told = True
    rasters = data_set.GetSubDatasets()[:MOST_LAYERS]
    for name, _ in rasters:
        label = joined(member, name.rpartition(":")[2])
        yield stated(lambda name=name: raster_reference(gdal.OpenEx(name, gdal.OF_RASTER)), label)  # type: ignore[misc]
        is_told = True
    if not is_told or data_set.RasterCount and not rasters:
        yield stated(lambda: raster_reference(data_set), member)


def joined(member: str, layer: str) -> str:
    return f"{member}:{layer}" if member and layer else member or layer


def raster_reference(data_set: Any) -> Any:
    """A raster's reference, or else its control points'."""
    return data_set.GetSpatialRef() or data_set.GetGCPSpatialRef()


def reference_found(reference: Any, layer: str, doubts: List[str]) -> Found:
    """What GDAL writes of a reference, in WKT2:2019, where it has no doubts."""
    if not doubts and reference is None:
        return Without("no CRS", layer)
    try:
        text = reference.ExportToWkt(["FORMAT=WKT2_2019", "MULTILINE=NO"]) if reference else ""
        doubts = doubts or (invalid(reference) if text else [])
    except RuntimeError as error:
        doubts = [" ".join(str(error).split())]
    if doubts:
        return Unread(f"GDAL: {'; '.join(doubts)}", layer)
    # The bindings answer bytes where a text isn't UTF-8.
    return text_found(text if isinstance(text, bytes) else text.encode("utf-8", "surrogateescape"), layer)


# Archives.


def read_archive(path: str) -> Iterator[Found]:
    """The members of a zip archive: texts, and what GDAL reads in it."""
    with opened(path) as file:
        try:
            with zipfile.ZipFile(file) as archive:
                yield from members_of(archive, path)
        except (zipfile.BadZipFile, NotImplementedError) as error:
            yield Unread(f"zip: {error}")


def members_of(archive: zipfile.ZipFile, path: str) -> Iterator[Found]:
    is_told = False
    closed = [it.filename for it in archive.infolist() if it.flag_bits & ENCRYPTED]
    for entry in sorted(archive.infolist(), key=lambda it: it.filename):
        suffix = suffix_of(entry.filename)
        if entry.is_dir() or suffix not in TEXTS and suffix not in DRIVERS_OF_MEMBERS:
            continue
        is_told = True
        front = entry.filename[: -len(suffix)] + "."
        if entry.filename in closed:
            yield Unread("zip: encrypted", entry.filename)
        elif suffix in TEXTS:
            yield member_found(archive, entry)
        elif its := [it for it in closed if it.startswith(front)]:
            yield Unread(f"zip: its {os.path.basename(its[0])} is encrypted", entry.filename)
        else:
            yield from read_data_set(f"/vsizip/{path}/{entry.filename}", entry.filename, DRIVERS_OF_MEMBERS[suffix])
    if not is_told:
        yield Without("nothing in the archive is read")


def member_found(archive: zipfile.ZipFile, entry: zipfile.ZipInfo) -> Found:
    """A text in an archive. No more of it is unpacked than a text can have."""
    try:
        with archive.open(entry) as file:
            return text_found(file.read(MOST_BYTES + 1), entry.filename)
    except (zipfile.BadZipFile, NotImplementedError, RuntimeError, EOFError, zlib.error) as error:
        return Unread(f"zip: {error}", entry.filename)


READERS = {
    Way.TEXT: read_text,
    Way.LINES: read_lines,
    Way.DATABASE: read_database,
    Way.GDAL: read_by_gdal,
    Way.ZIP: read_archive,
}
