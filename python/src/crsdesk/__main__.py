"""The commands over files: ``python -m crsdesk check|canon|same|group|audit|fill``.

Answers go to standard output, refusals in full and faults to standard error. Status 0: no text is refused, and of
``same`` both spell the same CRS. 1: a text is refused, or the two CRSs differ. 2: a file can't be read, or another
fault. If nobody reads the output any more, the run ends with status 2, without a message.

With ``--lines`` a file has one text per line; one line at a time is held, and ``group`` holds each CRS's canonical
text. With ``--convert`` PROJ reads texts in other forms, and each that it read is marked. With ``--rules`` texts are
compared, and written, by their forms.
"""

from __future__ import annotations

import argparse
import os
import signal
import sys
from typing import IO, Any, BinaryIO, Callable, Dict, Iterable, Iterator, List, NamedTuple, NoReturn, Optional, Tuple

from . import Catalogue, Crs, Refused, Rules, RulesRefused, Text, __version__, canon, check, difference, differences
from ._crs import LEVELS, is_blank
from ._rules import shipped
from ._shown import named, quoted

DIFFERS = 1
FAULT = 2
MOST_JOBS = 256
LEVEL_HELP = "what counts: full, or definition, without identifiers, usages and remarks (default: full)"
FILE_HELP = "a file with a text; - is standard input"
LINES_HELP = "a file has one text per line (docs/CATALOGUES.md)"
WHOLE_HELP = "a file has one text, as without --lines"
CONVERT_HELP = "PROJ, which osgeo or pyproj has, reads WKT1, PROJ strings, PROJJSON and codes (docs/PYTHON.md)"
SOURCE_HELP = "with --convert: a bound CRS is in the group of its source CRS, listed with its transformation"
LINES_HELP_OF_AUDIT = "a .txt file has one text per line, and so has a file of another suffix that is named itself"
REGISTRY_HELP = "compares the CRSs with the registered ones of PROJ's database"
RULES_HELP = (
    "a rules file, or the name of one that is installed; of several the statements count together (docs/RULES.md)"
)


class Place(NamedTuple):
    """Where a text is: in a file, or in the line of a file that has this number."""

    name: str
    number: int = 0

    def __str__(self) -> str:
        return f"{self.name}:{self.number}" if self.number else self.name


class Run:
    """One run: what it writes, and the status that it ends with."""

    def __init__(self) -> None:
        self.status = 0

    def write(self, line: str) -> None:
        """A line on standard output, in UTF-8; bytes of a file's name that aren't UTF-8 are written as they are."""
        sys.stdout.buffer.write(line.encode("utf-8", "surrogateescape") + b"\n")

    def tell(self, line: str) -> None:
        """A line or more on standard error; where it takes none, that is a fault, and the run goes on."""
        sys.stdout.flush()
        try:
            sys.stderr.buffer.write(line.encode("utf-8", "surrogateescape") + b"\n")
            sys.stderr.flush()
        except OSError:
            give_up(sys.stderr)
            self.ends(FAULT)

    def tell_refusal(self, place: Place, refused: Refused) -> None:
        """A refusal in full."""
        self.tell(f"{named(str(place))}: {refused.told_of_file(place.number)}")
        self.ends(DIFFERS)

    def tell_fault(self, name: str, error: OSError) -> None:
        """Reports that a file can't be read."""
        self.tell(f"crsdesk: {named(name)}: {error.strerror}")
        self.ends(FAULT)

    def ends(self, status: int) -> None:
        """The status is at least this one."""
        self.status = max(self.status, status)

    def texts(self, names: List[str], by_line: bool) -> Iterator[Tuple[Place, Optional[bytes]]]:
        """Each text and where it is; None for a file that can't be read, which is reported."""
        for name in names:
            if by_line:
                yield from self.lines(name)
            else:
                yield Place(name), self.text(name)

    def text(self, name: str) -> Optional[bytes]:
        """A file's text; None if it can't be read, which is reported."""
        try:
            with opened(name) as file:
                return file.read()
        except OSError as error:
            self.tell_fault(name, error)
            return None

    def lines(self, name: str) -> Iterator[Tuple[Place, bytes]]:
        """Each line of a file, as it is read; where one can't be read, that is reported, and no more come."""
        try:
            file = opened(name)
        except OSError as error:
            self.tell_fault(name, error)
            return
        with file:
            lines = lines_of(file)
            number = 0
            while True:
                try:
                    line = next(lines, None)
                except OSError as error:
                    self.tell_fault(name, error)
                    return
                if line is None:
                    return
                number += 1
                yield Place(name, number), line


class Parser(argparse.ArgumentParser):
    """A parser whose texts are written at once: argparse loses its own without a word if that fails."""

    def _print_message(self, message: str, file: Any = None) -> None:
        if message:
            stream = file or sys.stderr
            stream.write(message)
            stream.flush()


def give_up(stream: IO[str]) -> None:
    """Has a stream that can't be written lead nowhere, so that the end of the interpreter doesn't try it again."""
    os.dup2(os.open(os.devnull, os.O_WRONLY), stream.fileno())


def open_closed_streams() -> None:
    """Has a use of a standard stream that was closed fail as one of the system's calls, and keeps its number from the
    files of the run."""
    for number, name in enumerate(("stdin", "stdout", "stderr")):
        if getattr(sys, name) is None:
            # It's opened for the other direction.
            os.dup2(os.open(os.devnull, os.O_RDONLY if number else os.O_WRONLY), number)
            os.set_inheritable(number, True)
            setattr(sys, name, open(number, "w" if number else "r", closefd=False))


def asked_text(run: Run, asked: argparse.Namespace, place: Place, text: bytes) -> Text:
    """The text that is judged: with ``--convert`` the CRS that it spells in any form, with a note if PROJ read it."""
    if not asked.convert:
        return text
    crs = Crs.from_user(text)
    if crs.read_by:
        run.tell(f"{named(str(place))}: {read_how(crs)}")
    return crs


def read_how(crs: Crs) -> str:
    """How a text was read that PROJ read."""
    return f"{'bound, ' if crs.transformation else ''}read by {crs.read_by}"


def opened(name: str) -> BinaryIO:
    """A file to read, which is closed at the end; standard input stays open."""
    return open(sys.stdin.fileno() if name == "-" else name, "rb", closefd=name != "-")


def lines_of(file: Iterable[bytes]) -> Iterator[bytes]:
    """The lines of a catalogue (docs/CATALOGUES.md): a carriage return directly before a line feed is part of its end."""
    for line in file:
        if line.endswith(b"\n"):
            line = line[: -2 if line.endswith(b"\r\n") else -1]
        yield line


def run_check(run: Run, asked: argparse.Namespace) -> None:
    for place, text in run.texts(asked.files, asked.lines):
        front = f"{named(str(place))}: " if len(asked.files) > 1 else ""
        if text is None:
            continue
        try:
            is_blank_line = asked.lines and is_blank(text)
            run.write(front + ("blank" if is_blank_line else f"accepted {checked(asked, text)}"))
        except Refused as refused:
            run.write(f"{front}{refused.summary}")
            run.tell_refusal(place, refused)


def checked(asked: argparse.Namespace, text: bytes) -> str:
    """A text's kind, and with ``--convert`` how it was read."""
    if not asked.convert:
        return check(text)
    crs = Crs.from_user(text)
    return f"{crs.kind}, {read_how(crs)}" if crs.read_by else crs.kind


def run_canon(run: Run, asked: argparse.Namespace) -> None:
    for place, text in run.texts(asked.files, asked.lines):
        spelling = ""
        try:
            if text is not None and not (asked.lines and is_blank(text)):
                spelling = canon(asked_text(run, asked, place, text), asked.level, asked.under)
        except Refused as refused:
            run.tell_refusal(place, refused)
        run.write(spelling)


def run_same(run: Run, asked: argparse.Namespace) -> None:
    names = {"first": asked.first, "second": asked.second}
    read = {which: run.text(name) for which, name in names.items()}
    texts: List[Text] = []
    for which, text in read.items():
        if text is None or read["second"] is None:
            return
        try:
            texts.append(asked_text(run, asked, Place(names[which]), text))
        except Refused as refused:
            tell_which(run, names, refused, which)
            return
    first, second = texts
    try:
        path = difference(first, second, asked.level, asked.under)
    except Refused as refused:
        tell_which(run, names, refused, refused.which or "")
        return
    if path is None:
        run.write("same")
        return
    run.ends(DIFFERS)
    if not asked.all:
        run.write(f"different {path}")
        return
    for part in differences(first, second, asked.level, asked.under):
        run.write(str(part))


def tell_which(run: Run, names: Dict[str, str], refused: Refused, which: str) -> None:
    """The refusal of one of two texts."""
    run.write(f"{which} {refused.summary}")
    run.tell_refusal(Place(names[which]), refused)


def run_group(run: Run, asked: argparse.Namespace) -> None:
    catalogue = Catalogue(asked.level)
    # What is printed after the groups. In a catalogue of one file a line is its number, and blank ones aren't printed.
    blank: List[str] = []
    refusals: List[str] = []
    is_one = asked.lines and len(asked.files) == 1
    for place, text in run.texts(asked.files, asked.lines):
        if text is None:
            continue
        try:
            spelling = "" if is_blank(text) else canon(asked_text(run, asked, place, text), asked.level, asked.under)
        except Refused as refused:
            refusals.append(f"{f'line {place.number}' if is_one else quoted(str(place))}: {refused.summary}")
            run.tell_refusal(place, refused)
            continue
        if catalogue._add_canonical(spelling, place.number if is_one else place) is None and not asked.lines:
            blank.append(f"{quoted(str(place))}: blank")
    for group in catalogue:
        run.write(f"group {group.number}: {' '.join(quoted(str(name)) for name in group.names)}")
    for line in blank + refusals:
        run.write(line)


def run_fill(run: Run, asked: argparse.Namespace) -> None:
    from . import sql

    for place, row in run.lines("-"):
        try:
            key, text = sql.columns_of(row)
        except ValueError as error:
            run.tell(f"crsdesk: row {place.number}: {error}")
            run.ends(FAULT)
            return
        try:
            found = sql.filled(key, text)
        except Refused as refused:
            name = named(key.decode("utf-8", "surrogateescape"))
            run.tell(f"{name}: {'; '.join(filter(None, [refused.summary, refused.proj]))}")
            run.ends(DIFFERS)
            continue
        if found is not None:
            sys.stdout.buffer.write(found + b"\n")


def run_audit(run: Run, asked: argparse.Namespace) -> None:
    # What only this command needs is imported where it runs.
    from .audit.command import run_audit

    run_audit(run, asked)


# The commands whose options are checked here; the audit checks its own.
OVER_FILES = (run_check, run_canon, run_same, run_group, run_fill)


def has_proj() -> bool:
    """Whether PROJ is there."""
    from ._foreign import reader

    return reader() is not None


def rules_of(names: List[str]) -> Optional[Rules]:
    """The rules of files; None where none is named."""
    return Rules.from_file(*map(shipped, names)) if names else None


def jobs(word: str) -> int:
    number = int(word)
    if not 1 <= number <= MOST_JOBS:
        raise argparse.ArgumentTypeError(f"a number from 1 to {MOST_JOBS} is wanted")
    return number


def parser() -> argparse.ArgumentParser:
    whole = Parser(
        prog="python -m crsdesk",
        description="Reads texts (WKT2) of coordinate reference systems from files: says whether two are the same CRS, "
        "writes each in one canonical spelling, groups them.",
    )
    whole.add_argument("--version", action="version", version=f"crsdesk {__version__}")
    commands = whole.add_subparsers(metavar="COMMAND", required=True)

    def command(name: str, about: str, run: Callable[[Run, argparse.Namespace], None]) -> argparse.ArgumentParser:
        made = commands.add_parser(name, help=about, description=f"{about}.")
        made.set_defaults(run=run)
        return made

    def add_files(made: argparse.ArgumentParser) -> None:
        made.add_argument("files", nargs="+", metavar="FILE", help=FILE_HELP)
        made.add_argument("--lines", action="store_true", help=LINES_HELP)
        made.add_argument("--convert", action="store_true", help=CONVERT_HELP)

    def add_rules(made: argparse.ArgumentParser) -> None:
        made.add_argument("--rules", action="append", default=[], metavar="FILE", help=RULES_HELP)

    def add_level(made: argparse.ArgumentParser) -> None:
        made.add_argument("--level", choices=list(LEVELS), default="full", help=LEVEL_HELP)
        add_rules(made)

    made = command("check", "prints what kind of CRS each text spells, or where it is refused", run_check)
    add_files(made)
    add_rules(made)

    made = command(
        "canon", "writes the canonical text of each text, and an empty line for one that has none", run_canon
    )
    add_files(made)
    add_level(made)

    made = command("same", "prints whether two files spell the same CRS, or the first part that differs", run_same)
    made.add_argument("first", metavar="FILE", help=FILE_HELP)
    made.add_argument("second", metavar="FILE", help=FILE_HELP)
    made.add_argument("--all", action="store_true", help="each part that differs, with both values")
    made.add_argument("--convert", action="store_true", help=CONVERT_HELP)
    add_level(made)

    made = command("group", "groups texts by the CRSs that they spell", run_group)
    add_files(made)
    made.add_argument("--files", action="store_true", help=WHOLE_HELP)
    add_level(made)

    made = command(
        "fill", "writes rows with texts in WKT2 for rows of keys and texts in any form (docs/SQL.md)", run_fill
    )
    made.set_defaults(convert=True, rules=[])

    made = command("audit", "reports on the CRSs of all files of folders (docs/AUDIT.md)", run_audit)
    made.add_argument("paths", nargs="+", metavar="PATH", help="a folder, with all below it, or a file")
    made.add_argument("--txt", action="store_true", help="a .txt file is a text")
    made.add_argument("--lines", action="store_true", help=LINES_HELP_OF_AUDIT)
    made.add_argument("--follow", action="store_true", help="follows links that lead out of what is named")
    made.add_argument("--convert", action="store_true", help=CONVERT_HELP)
    made.add_argument("--source-of-bound", action="store_true", help=SOURCE_HELP)
    add_rules(made)
    made.add_argument("--registry", action="store_true", help=REGISTRY_HELP)
    made.add_argument("--html", metavar="FILE", help="writes the report as a page")
    made.add_argument("--json", metavar="FILE", help="writes it as data (docs/audit.schema.json)")
    made.add_argument("--csv", metavar="FILE", help="writes one row per text")
    made.add_argument("--jobs", type=jobs, metavar="N", help="processes that read files (default: the number of cores)")
    return whole


def answered(run: Run, words: Optional[List[str]]) -> int:
    """Runs a command line and answers the status; OSError if standard output takes no more."""
    try:
        asked = parser().parse_args(words)
        if asked.run in OVER_FILES:
            if asked.convert and not has_proj():
                what = "fill" if asked.run is run_fill else "--convert"
                run.tell(
                    f"crsdesk: {what} takes PROJ, which osgeo (GDAL's Python) or pyproj has, and neither is installed"
                )
                return FAULT
            try:
                asked.under = rules_of(asked.rules)
            except (RulesRefused, OSError) as error:
                from .audit.command import rules_fault

                run.tell(f"crsdesk: {rules_fault(error)}")
                return FAULT
        asked.run(run, asked)
        sys.stdout.flush()
        return run.status
    except MemoryError:
        run.tell("crsdesk: out of memory")
        return FAULT


def main(words: Optional[List[str]] = None) -> int:
    """Runs a command line, the process's if none is given, and returns the status."""
    run = Run()
    try:
        return answered(run, words)
    except OSError as error:
        give_up(sys.stdout)
        if not isinstance(error, BrokenPipeError):
            run.tell(f"crsdesk: write failed: {error.strerror}")
        return FAULT


def command() -> NoReturn:
    """The whole process: its words, its streams and its status."""
    open_closed_streams()
    signal.signal(signal.SIGINT, signal.SIG_DFL)
    sys.exit(main())


if __name__ == "__main__":
    command()
