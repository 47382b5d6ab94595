"""Files that are written whole or not at all."""

from __future__ import annotations

import contextlib
import os
import stat
import sys
import tempfile
from typing import Callable, Dict, List, TextIO

# The name of standard output.
STANDARD = "-"


class Outputs:
    """The files of a run, in a ``with``: what is written goes to files beside them, which take their names at the end,
    by ``finish``. Where that isn't reached, nothing is left, and older files of these names stay as they are.

    What is no regular file, such as a device, is written to as it is; ``-`` is standard output.
    """

    def __init__(self, names: List[str]) -> None:
        self.names = names
        self.paths: Dict[str, str] = {}
        self.temporary: Dict[str, str] = {}

    def __enter__(self) -> Outputs:
        try:
            for name in self.names:
                self.make(name)
        except BaseException:
            self.remove()
            raise
        return self

    def make(self, name: str) -> None:
        """Makes the file that is written at first. OSError with the name that was asked where there can't be one."""
        try:
            if is_special(name):
                self.paths[name] = name
                return
            path = os.path.realpath(name)
            descriptor, self.temporary[name] = tempfile.mkstemp(".tmp", ".crsdesk-", os.path.dirname(path))
            os.fchmod(descriptor, mode_of(path))
            os.close(descriptor)
            self.paths[name] = path
        except OSError as error:
            error.filename = name
            raise

    def write(self, name: str, write: Callable[[TextIO], None]) -> None:
        """Writes one of the files, in UTF-8."""
        is_standard = name == STANDARD
        path = sys.stdout.fileno() if is_standard else self.temporary.get(name, name)
        try:
            with open(path, "w", encoding="utf-8", newline="", closefd=not is_standard) as file:
                write(file)
        except OSError as error:
            error.filename = name
            raise

    def finish(self) -> None:
        """Gives the files their names."""
        for name, path in list(self.temporary.items()):
            os.replace(path, self.paths[name])
            del self.temporary[name]

    def remove(self) -> None:
        for path in self.temporary.values():
            with contextlib.suppress(OSError):
                os.unlink(path)
        self.temporary.clear()

    def __exit__(self, *_: object) -> None:
        self.remove()


def is_special(name: str) -> bool:
    """Whether a name belongs to something other than a file, such as a device; a folder is, and can't be opened."""
    if name == STANDARD:
        return True
    try:
        return not stat.S_ISREG(os.stat(name).st_mode)
    except FileNotFoundError:
        return False


def mode_of(path: str) -> int:
    """The permissions that a file has, or that a new one would have."""
    with contextlib.suppress(OSError):
        return stat.S_IMODE(os.stat(path).st_mode)
    mask = os.umask(0)
    os.umask(mask)
    return 0o666 & ~mask
