"""The files of an archive, and the processes that read them.

Where a process ends in the middle of a file, as when a library fails on damaged bytes, that file is reported, and the
rest goes on in another process. No process outlives the run.
"""

from __future__ import annotations

import contextlib
import functools
import multiprocessing
import multiprocessing.connection
import os
import signal
import tempfile
from collections import deque
from dataclasses import dataclass, field
from typing import Any, Callable, Deque, Dict, Iterator, List, NamedTuple, Optional, Sequence, Set, Tuple, TypeVar

from .offline import leave_network
from .reading import FOLDERS, File, Way, suffix_of, way_of

Item = TypeVar("Item")
Answer = TypeVar("Answer")
# The most items that a process is handed at a time.
MOST_ITEMS = 32


# What a system reports of itself, which has no end: no link leads there, nor a folder that is named above it.
SYSTEM = ("/proc", "/sys", "/dev")
LEADS_OUT = "a link that leads out of what was named (--follow follows it)"
LISTED = "a folder that is listed already"
OF_SYSTEM = "it lies in /proc, /sys or /dev"


class Odd(NamedTuple):
    """What is met on the way and isn't gone into, and why."""

    path: str
    why: str


@dataclass
class Listing:
    """The files below the paths that are asked for, in the order of the names' bytes, whatever the order of the paths.

    ``unread``  folders that can't be listed, links that aren't followed, and data sets beside which there is one
    ``passed``  folders and links to folders that are listed already
    ``others``  how many files have a suffix that isn't read, by suffix
    """

    files: List[File] = field(default_factory=list)
    unread: List[Odd] = field(default_factory=list)
    passed: List[Odd] = field(default_factory=list)
    others: Dict[str, int] = field(default_factory=dict)


class Entry(NamedTuple):
    """A name in a folder: its path, where that leads without links, and whether it is one; ``out`` has the names of the
    folder's links that aren't followed."""

    path: str
    real: str
    is_link: bool = False
    out: Sequence[str] = ()


def listing_of(paths: Sequence[str], by_line: bool, with_txt: bool, follows: bool = False) -> Listing:
    """The files of folders and all below them, and the files that are named. A folder is gone into once, by its own name
    before any link, and a file that is named twice is read once. Links lead to what lies in what is named, or, where they
    are followed, anywhere else."""
    named = [Entry(path, os.path.realpath(path)) for path in sorted(dict.fromkeys(paths), key=os.fsencode)]
    walk = Walk([it.real for it in named], by_line, with_txt, follows)
    for entry in named:
        if os.path.isdir(entry.path) and suffix_of(entry.path.rstrip("/")) not in FOLDERS:
            walk.list_folder(entry)
        else:
            out = walk.out_of(os.path.dirname(entry.path))
            walk.add_file(entry._replace(out=out), way_of(entry.path.rstrip("/"), True, by_line, with_txt))
    while walk.links:
        walk.list_folder(walk.links.popleft())
    walk.listing.files = list(dict.fromkeys(walk.listing.files))
    return walk.listing


def upwards(path: str) -> Iterator[str]:
    """A path without links, and the folders that it lies in."""
    yield path
    while path != (path := os.path.dirname(path)):
        yield path


def is_of_system(path: str) -> bool:
    return any(it in SYSTEM for it in upwards(path))


class Walk:
    """A walk through folders. ``roots`` are the named paths without links, ``links`` those to folders outside of them,
    which are gone into once all others are listed."""

    def __init__(self, roots: Sequence[str], by_line: bool, with_txt: bool, follows: bool) -> None:
        self.roots, self.by_line, self.with_txt, self.follows = frozenset(roots), by_line, with_txt, follows
        self.listing = Listing()
        self.seen: Set[Tuple[int, int]] = set()
        self.links: Deque[Entry] = deque()

    def holds(self, path: str) -> bool:
        """Whether a path without links may be read: it lies in what is named, and only that can be the system's."""
        roots = [it for it in upwards(path) if it in self.roots]
        return any(map(is_of_system, roots)) if is_of_system(path) else self.follows or bool(roots)

    def entries_of(self, path: str, real: str) -> Tuple[List[Entry], List[str]]:
        """The names in a folder, in the order of their bytes, and the links among them that aren't followed."""
        with os.scandir(path or ".") as found:
            links = {it.name: it.is_symlink() for it in found}
        entries = []
        for name in sorted(links, key=os.fsencode):
            its = os.path.join(path, name)
            entries.append(Entry(its, os.path.realpath(its) if links[name] else os.path.join(real, name), links[name]))
        out = [os.path.basename(it.path) for it in entries if it.is_link and not self.holds(it.real)]
        return [it._replace(out=out) for it in entries], out

    @functools.lru_cache(maxsize=1)
    def out_of(self, path: str) -> List[str]:
        """The links in a folder that aren't followed; none of one that can't be listed."""
        with contextlib.suppress(OSError):
            return self.entries_of(path, "")[1]
        return []

    def list_folder(self, top: Entry) -> None:
        """Adds the files of a folder and of those below it."""
        waiting = [top]
        while waiting:
            entry = waiting.pop()
            try:
                if entry is top or self.is_folder(entry):
                    waiting += self.inside(entry)[::-1]
            except OSError as error:
                self.listing.unread.append(Odd(entry.path, error.strerror or str(error)))

    def inside(self, folder: Entry) -> List[Entry]:
        """What is in a folder; nothing of one that is listed already."""
        status = os.stat(folder.path)
        if (status.st_dev, status.st_ino) in self.seen:
            self.listing.passed.append(Odd(folder.path, LISTED))
            return []
        self.seen.add((status.st_dev, status.st_ino))
        return self.entries_of(folder.path, folder.real)[0]

    def is_folder(self, entry: Entry) -> bool:
        """Whether an entry is a folder to go into now; what isn't is added, or told. OSError of a link to itself."""
        is_set = suffix_of(entry.path) in FOLDERS
        is_folder = not is_set and os.path.isdir(entry.path)
        way = Way.GDAL if is_set else way_of(entry.path, False, self.by_line, self.with_txt)
        if not self.holds(entry.real) and (is_folder or way):
            told = self.listing.unread if entry.is_link else self.listing.passed
            told.append(Odd(entry.path, OF_SYSTEM if is_of_system(entry.real) else LEADS_OUT))
        elif not is_folder:
            self.add_file(entry, way)
        elif not entry.is_link:
            return True
        elif any(it in self.roots for it in upwards(entry.real)):
            self.listing.passed.append(Odd(entry.path, LISTED))
        else:
            self.links.append(entry)
        return False

    def add_file(self, entry: Entry, way: Optional[Way]) -> None:
        """Adds a file, but for a data set whose library would follow a link that isn't followed, beside it or in it."""
        suffix = suffix_of(entry.path)
        if way is None:
            if os.path.islink(entry.real):
                os.stat(entry.path)  # it leads only to itself
            self.listing.others[suffix] = self.listing.others.get(suffix, 0) + 1
            return
        if way is Way.GDAL:
            front = os.path.splitext(os.path.basename(entry.path.rstrip("/")))[0].casefold() + "."
            out = [name for name in entry.out if name.casefold().startswith(front)]
            for folder, _, _ in os.walk(entry.path) if suffix in FOLDERS else ():
                out += self.out_of(folder)
            if out:
                self.listing.unread.append(Odd(entry.path, f"its {out[0]} is {LEADS_OUT}"))
                return
        self.listing.files.append(File(entry.path, way))


# The processes.


def work(connection: Any, folder: str) -> None:
    """What a process does: without a network it answers each item of each batch, until there are no more. Its temporary
    files lie in a folder that is removed with the processes."""
    signal.signal(signal.SIGINT, signal.SIG_IGN)
    tempfile.tempdir = folder
    leave_network()
    try:
        while True:
            function, batch = connection.recv()
            for item in batch:
                connection.send(function(item))
    except (EOFError, BrokenPipeError, ConnectionResetError):
        return


class Worker:
    """A process, and the numbers of the items that it was handed and hasn't answered."""

    def __init__(self, context: Any, folder: str) -> None:
        self.connection, its_own = context.Pipe()
        self.process = context.Process(target=work, args=(its_own, folder), daemon=True)
        self.process.start()
        its_own.close()
        self.pending: Deque[int] = deque()

    def hand_over(self, function: Callable[..., Any], items: Sequence[Any], numbers: Sequence[int]) -> None:
        self.pending.extend(numbers)
        try:
            self.connection.send((function, [items[number] for number in numbers]))
        except (BrokenPipeError, ConnectionResetError):
            pass  # it has ended: so says the connection where its answers are waited for

    def end(self) -> str:
        """Ends the process, and answers how it ended."""
        self.connection.close()
        self.process.join(0.5)
        self.process.terminate()
        self.process.join()
        code: int = self.process.exitcode
        return f"signal {signal.Signals(-code).name}" if code < 0 else f"status {code}"


class Workers:
    """Processes that answer items, to be used in a ``with``: at its end all are gone."""

    def __init__(self, jobs: int) -> None:
        self.jobs = jobs
        # These processes hold no copies of each other's connections, so that each ends where this one does.
        self.context = multiprocessing.get_context("forkserver")
        self.context.set_forkserver_preload(["crsdesk.audit.judging"])
        self.workers: List[Worker] = []
        self.folder = tempfile.TemporaryDirectory(prefix="crsdesk-")

    def __enter__(self) -> Workers:
        return self

    def __exit__(self, *_: object) -> None:
        for worker in self.workers:
            worker.process.terminate()
        for worker in self.workers:
            worker.end()
        self.workers.clear()
        self.folder.cleanup()

    def answers(
        self, function: Callable[[Item], Answer], items: Sequence[Item], lost: Callable[[str], Answer]
    ) -> Iterator[Tuple[int, Answer]]:
        """Each item's number and what the function answers, as the answers come. Where a process ends in an item,
        ``lost`` makes its answer of how it ended."""
        waiting = deque(range(len(items)))
        while len(self.workers) < min(self.jobs, len(items)):
            self.workers.append(Worker(self.context, self.folder.name))
        for _ in range(len(items)):
            self.hand_out(function, items, waiting)
            worker = self.next_answering()
            try:
                answer: Answer = worker.connection.recv()
                number = worker.pending.popleft()
            except (EOFError, ConnectionResetError):
                number = worker.pending.popleft()
                waiting.extendleft(reversed(worker.pending))
                self.workers[self.workers.index(worker)] = Worker(self.context, self.folder.name)
                answer = lost(worker.end())
            yield number, answer

    def hand_out(self, function: Callable[[Item], Answer], items: Sequence[Item], waiting: Deque[int]) -> None:
        """Hands items to the processes that have none: the fewer are left, the fewer at a time."""
        for worker in self.workers:
            if waiting and not worker.pending:
                count = max(1, min(MOST_ITEMS, len(waiting) // (4 * self.jobs)))
                worker.hand_over(function, items, [waiting.popleft() for _ in range(count)])

    def next_answering(self) -> Worker:
        """A process whose next answer is there, or which has ended."""
        asked = {worker.connection.fileno(): worker for worker in self.workers if worker.pending}
        ready = multiprocessing.connection.wait(list(asked))
        return asked[ready[0]]
