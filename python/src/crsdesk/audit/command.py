"""The command ``audit``: its options, its progress and its files."""

from __future__ import annotations

import argparse
import atexit
import functools
import importlib.util
import os
import signal
from typing import TYPE_CHECKING, Dict, Iterable, List, Optional, Sequence, Tuple, TypeVar, Union

from .. import Difference, Rules, RulesRefused
from .._rules import shipped
from .collecting import Listing, Workers, listing_of
from .judging import Told, Two, parts_of, told_of
from .names import place_shown, readable, visible
from .output import STANDARD, Outputs, is_special
from .proj import library
from .reading import Unread
from .registry import Asked, Registered, Verdict, registered
from .report import Report, RulesFile, report_of

if TYPE_CHECKING:
    from ..__main__ import Run

Answer = TypeVar("Answer")
FAULT = 2
NEEDED = ("jinja2", "rich")
SIGNALS = (signal.SIGINT, signal.SIGTERM, signal.SIGHUP)


class Stopped(BaseException):
    """A signal that ends the run."""

    def __init__(self, number: int) -> None:
        super().__init__(number)
        self.number = number


def run_audit(run: Run, asked: argparse.Namespace) -> None:
    """Runs the command. A signal ends the processes, and leaves no part of a report."""
    lacking = [name for name in NEEDED if importlib.util.find_spec(name) is None]
    if lacking:
        run.tell(f"crsdesk: audit needs {' and '.join(lacking)}: pip install {' '.join(lacking)} (or crsdesk[audit])")
        run.ends(FAULT)
        return
    if (asked.convert or asked.registry) and library() is None:
        option = "--convert" if asked.convert else "--registry"
        run.tell(f"crsdesk: {option} takes PROJ, which osgeo (GDAL's Python) or pyproj has, and neither is installed")
        run.ends(FAULT)
        return
    try:
        rules = rules_files_of(asked.rules)
    except (RulesRefused, OSError) as error:
        run.tell(f"crsdesk: {rules_fault(error)}")
        run.ends(FAULT)
        return
    for number in SIGNALS:
        signal.signal(number, stop)
    try:
        audit(run, asked, rules)
    except Stopped as stopped:
        for number in SIGNALS:
            signal.signal(number, signal.SIG_IGN)
        # What would be done at an end without a signal: processes leave no folder.
        atexit._run_exitfuncs()
        signal.signal(stopped.number, signal.SIG_DFL)
        os.kill(os.getpid(), stopped.number)


def stop(number: int, _: object) -> None:
    raise Stopped(number)


def rules_files_of(names: Sequence[str]) -> List[RulesFile]:
    """Rules files, read. OSError where one can't be, RulesRefused where one is refused."""
    rules = Rules.from_file(*map(shipped, names))
    return [RulesFile(name, text) for name, text in zip(names, rules.texts)]


def rules_fault(error: Union[RulesRefused, OSError]) -> str:
    """Why there are no rules, in one line: the file, the line and what is wrong there."""
    if isinstance(error, RulesRefused):
        name = readable(os.fsdecode(error.path or ""))
        return f"{name}, line {error.line}: refused {error.number} at {error.place}: {error.meaning}"
    name = f"{readable(error.filename)}: " if isinstance(error.filename, str) else ""
    return f"{name}{error.strerror}"


def audit(run: Run, asked: argparse.Namespace, rules: Sequence[RulesFile]) -> None:
    """Reads, makes the report and writes it. A file that can't be written is a fault, which is found at the start."""
    from .data import write_json
    from .html import write_html
    from .table import write_csv
    from .terminal import lines_of

    named = [(asked.html, write_html), (asked.json, write_json), (asked.csv, write_csv)]
    named = [(name, write) for name, write in named if name is not None]
    listing = listing_of(asked.paths, asked.lines, asked.txt, asked.follow)
    clash = clash_of([name for name, _ in named], [*(it.path for it in listing.files), *asked.rules])
    if clash:
        run.tell(f"crsdesk: {clash}")
        run.ends(FAULT)
        return
    writers = dict(named)
    try:
        with Outputs(list(writers)) as outputs:
            jobs = asked.jobs or len(os.sched_getaffinity(0))
            report = report_on(asked, listing, jobs, rules)
            for name, write in writers.items():
                outputs.write(name, functools.partial(write, report))
            outputs.finish()
    except BrokenPipeError:
        raise
    except OSError as error:
        name = f"{readable(error.filename)}: " if isinstance(error.filename, str) else ""
        run.tell(f"crsdesk: {name}{error.strerror}")
        run.ends(FAULT)
        return
    for line in lines_of(report) if STANDARD not in writers else ():
        run.write(line)
    for untold in report.unread:
        run.tell(f"crsdesk: {place_shown(untold.place)}: {visible(untold.why)}")
    run.ends(report.status)


def clash_of(names: Sequence[str], read: Sequence[str]) -> str:
    """What is wrong with the files to write: two are one, or one is to be read too, or lies in a folder that is one
    data set. Devices may be named twice."""
    paths: Dict[str, str] = {}
    if not names:
        return ""
    for name in names:
        path = name if name == STANDARD else os.path.realpath(name)
        if path in paths and (name == STANDARD or not is_special(name)):
            return f"{readable(name)}: two of the reports are to be written to it"
        paths[path] = name
    files = [name for name in names if name != STANDARD]
    identities = {identity: name for name in files if (identity := identity_of(name)) is not None}
    for file in read:
        path = os.path.realpath(file)
        identity = identity_of(file)
        written = paths.get(path) or (identities.get(identity) if identity else None)
        if written is not None and not is_special(written):
            return f"{readable(written)}: it is to be written, and to be read ({readable(file)})"
        for path_to, its in paths.items():
            if path_to.startswith(path + os.sep):
                return f"{readable(its)}: it is to be written into what is to be read ({readable(file)})"
    return ""


def identity_of(path: str) -> Optional[Tuple[int, int]]:
    """What a file is whatever its names are; None if there is none."""
    try:
        status = os.stat(path)
    except OSError:
        return None
    return status.st_dev, status.st_ino


class Processes:
    """What a report asks, answered by processes, under rules of these bytes."""

    def __init__(self, workers: Workers, is_registered: bool, ruling: Tuple[bytes, ...]) -> None:
        self.workers = workers
        self.is_registered = is_registered
        self.ruling = ruling

    def compare(self, pairs: Sequence[Two]) -> List[List[Difference]]:
        answers = self.workers.answers(parts_of, pairs, lost_comparison)
        return in_order(followed(answers, len(pairs), "comparing CRSs"))

    def register(self, asked: Sequence[Asked]) -> List[Registered]:
        if not self.is_registered:
            return []
        function = functools.partial(registered, ruling=self.ruling)
        answers = self.workers.answers(function, asked, lost_registered)
        return in_order(followed(answers, len(asked), "asking the registry"))


def report_on(asked: argparse.Namespace, listing: Listing, jobs: int, rules: Sequence[RulesFile]) -> Report:
    """The report on the files of a listing, which processes read."""
    ruling = tuple(it.text for it in rules)
    with Workers(jobs) as workers:
        function = functools.partial(told_of, converts=asked.convert, ruling=ruling)
        answers = workers.answers(function, listing.files, lost_file)
        told = in_order(followed(answers, len(listing.files), "reading files"))
        asks = Processes(workers, asked.registry, ruling)
        return report_of(asked.paths, listing, told, asks, rules, asked.source_of_bound)


def in_order(answers: Iterable[Tuple[int, Answer]]) -> List[Answer]:
    """Answers by the numbers of their items."""
    return [answer for _, answer in sorted(answers, key=lambda it: it[0])]


def followed(answers: Iterable[Answer], total: int, what: str) -> Iterable[Answer]:
    """The same answers. As they come a bar shows what is left, on standard error where that is a terminal."""
    from rich.console import Console
    from rich.progress import BarColumn, MofNCompleteColumn, Progress, TextColumn, TimeRemainingColumn

    console = Console(stderr=True)
    if not console.is_terminal:
        yield from answers
        return
    columns = (TextColumn("{task.description}"), BarColumn(), MofNCompleteColumn(), TimeRemainingColumn())
    with Progress(*columns, console=console, transient=True) as bar:
        yield from bar.track(answers, total=total, description=what)


def lost_file(how: str) -> Told:
    return Told(unread=[Unread(f"the process that read it ended: {how}")])


def lost_registered(how: str) -> Registered:
    return Registered(Verdict.UNREAD, name=f"the process that asked ended: {how}")


def lost_comparison(how: str) -> List[Difference]:
    return [Difference("", None, f"the process that compared ended: {how}")]
