"""A root file system that has Python's own files and the commands of each system, and runs a command there with no network."""
from __future__ import annotations

import pathlib
import re
import shutil
import subprocess
import sys
import sysconfig
from typing import Iterable

import pytest
from support import run

COMMANDS = """awk basename cat chmod cmp comm cp cut date diff dirname echo env expr false find grep head id ln ls mkdir mkfifo
mktemp mv nl nproc od paste printf readlink rm rmdir sed seq sh sleep sort split stat tac tail tee test touch tr true uname uniq wc xargs
yes""".split()
# Neither the machine's packages nor what the tests don't take of Python.
WITHOUT = shutil.ignore_patterns("site-packages", "dist-packages", "test", "tests", "idlelib", "tkinter", "__pycache__")
# In namespaces of its own; the folders of devices and processes are the machine's.
ENTER = """
for it in dev proc; do mount --rbind "/$it" "$1/$it" || exit 99; done
root=$1; shift
exec chroot "$root" /bin/env -i HOME=/tmp LC_ALL=C.UTF-8 PATH=/bin "$@"
"""


def libraries_of(files: Iterable[pathlib.Path]) -> set[pathlib.Path]:
    """The shared libraries that files need."""
    done = subprocess.run(["ldd", *map(str, files)], capture_output=True, text=True, check=False)
    return {pathlib.Path(it) for it in re.findall(r"(?:=> |^\s+)(/\S+) \(0x", done.stdout, re.MULTILINE)}


class Root:
    def __init__(self, folder: pathlib.Path) -> None:
        self.folder = folder
        for name in ("bin", "dev", "proc", "tmp", "usr"):
            (folder / name).mkdir(parents=True)
        (folder / "usr/bin").symlink_to("../bin")
        python = pathlib.Path(sys.executable).resolve()
        files = [pathlib.Path(shutil.which(it) or "") for it in COMMANDS]
        for file in files:
            shutil.copy(file, folder / "bin" / file.name)
        for part in {sysconfig.get_path("stdlib"), sysconfig.get_path("platstdlib")}:
            shutil.copytree(part, self.inside(part), ignore=WITHOUT, symlinks=True)
        self.take(python)
        (folder / "bin/python3").symlink_to(python)
        extensions = pathlib.Path(sysconfig.get_path("platstdlib"), "lib-dynload").glob("*.so")
        for library in libraries_of([python, *files, *extensions]):
            self.take(library)

    def inside(self, path: object) -> pathlib.Path:
        return self.folder / str(path).lstrip("/")

    def take(self, file: pathlib.Path) -> None:
        """Copies a file to the same place."""
        self.inside(file).parent.mkdir(parents=True, exist_ok=True)
        shutil.copy(file, self.inside(file))

    def run(self, *words: object, **more: object) -> "subprocess.CompletedProcess[str]":
        front = ["unshare", "--user", "--map-root-user", "--mount", "--net", "sh", "-c", ENTER, "sh", self.folder]
        done = run([*front, *words], **more)
        if done.returncode == 99 or done.stderr.startswith("unshare: "):
            pytest.skip(f"no root can be entered here: {done.stderr.strip()}")
        return done
