#!/usr/bin/env python3
"""Chooses what ./crsdesk, ./install and the tests run.

    chosen.py program [SCRATCH]     prints where the program is
    chosen.py library [SCRATCH]     prints where the shared object is, in lib/ of a prefix
    chosen.py run [WORD..]          runs the released program from memory

That is what was proved here of the sources as they are; else what release/ has for this machine, where release/SOURCES
has the sum of the sources; else a line says that they changed since, and tools/build.py proves and builds it.

The release's archive must have the sum that release/SHA256SUMS tells: else a line says so, and nothing is run. It is
unpacked once, below out/release; where nothing can be written there, as in a clone that is read-only, below the folder
SCRATCH. Without SCRATCH an empty line is printed then, and the released program runs from memory.

The status is 0 where it is there, else 2, with a line on standard error.
"""
from __future__ import annotations

import contextlib
import hashlib
import io
import os
import pathlib
import shutil
import signal
import subprocess
import sys
import tarfile
import tempfile
from typing import Iterator, NoReturn

import build
from build import ROOT, Stop

RELEASE, UNPACKED = ROOT / "release", ROOT / "out" / "release"
SOURCES, SUMS = RELEASE / "SOURCES", RELEASE / "SHA256SUMS"
# Where each is below a prefix, and where it is once it is proved here.
PLACES = {"program": "bin/crsdesk", "library": "lib/libcrsdesk.so"}
HERE = {"program": ROOT / "crates" / "crsdesk" / "out" / "crsdesk", "library": build.PREFIX / PLACES["library"]}
ADVICE = "nothing of it was run: take release/ as it was committed, or have ./prove prove and build the sources"


class NoPlace(Stop):
    """That a released file can't be written anywhere."""


def is_proved_here(what: str) -> bool:
    if what == "program":
        return build.needed([build.PROGRAM])[-1].is_current()
    return build.is_newer(HERE[what], build.sources_of_library())


def archive() -> pathlib.Path | None:
    """The release's archive for this machine."""
    return next(iter(sorted(RELEASE.glob(f"crsdesk-*-linux-{os.uname().machine}.tar.xz"))), None)


def sum_told(file: pathlib.Path) -> str:
    """The sum that a file of the release must have."""
    lines = [it.split() for it in SUMS.read_text(encoding="utf-8").splitlines()] if SUMS.exists() else []
    told = [words[0] for words in lines if words[1:] == [str(file.relative_to(RELEASE))]]
    if len(told) != 1:
        raise Stop(f"release/SHA256SUMS has no sum of {file.name}, and {ADVICE}")
    return told[0]


def told_of_sources() -> dict[str, str]:
    """What SOURCES tells, by the first word of each line."""
    lines = SOURCES.read_text(encoding="utf-8").splitlines() if SOURCES.exists() else []
    return {line.partition(" ")[0]: line.partition(" ")[2] for line in lines}


def is_of_sources(what: str) -> bool:
    """Whether the release for this machine is of the sources as they are."""
    key = what if os.uname().machine == "x86_64" else f"{what}-{os.uname().machine}"
    return told_of_sources().get(key) == build.sums().get(key)


def is_released(what: str, file: pathlib.Path) -> bool:
    """Whether it is of the sources as they are, or what was unpacked of it is newer than all of them."""
    sources = build.needed([build.PROGRAM])[-1].sources() if what == "program" else build.sources_of_library()
    return build.is_newer(file, [*sources, str(SOURCES), str(SUMS)]) or is_of_sources(what)


def extracted(file: pathlib.Path) -> bytes:
    """What the archive has, as a tar file."""
    data = file.read_bytes()
    if hashlib.sha256(data).hexdigest() != sum_told(file):
        raise Stop(f"release/{file.name} hasn't the sum that release/SHA256SUMS tells, and {ADVICE}")
    try:
        import lzma
    except ImportError:
        if not shutil.which("xz"):
            raise Stop("release/ can't be unpacked: Python has no lzma, and there is no command xz") from None
        return subprocess.run(["xz", "-dc"], input=data, stdout=subprocess.PIPE, check=True).stdout
    return lzma.decompress(data)


def files_in(file: pathlib.Path) -> Iterator[tuple[str, int, bytes]]:
    """The files of the archive, by their paths in the prefix, with their modes; of a link what it leads to."""
    with tarfile.open(fileobj=io.BytesIO(extracted(file))) as inside:
        for member in inside:
            if data := inside.extractfile(member):
                yield member.name.partition("/")[2], member.mode, data.read()


def unpack(file: pathlib.Path, folder: pathlib.Path) -> None:
    """Makes the folder of the archive in one step, for calls that meet here."""
    folder.parent.mkdir(parents=True, exist_ok=True)
    scratch = pathlib.Path(tempfile.mkdtemp(prefix=".new-", dir=folder.parent))
    try:
        scratch.chmod(0o755)
        for name, mode, data in files_in(file):
            target = scratch / name
            target.parent.mkdir(parents=True, exist_ok=True)
            target.write_bytes(data)
            target.chmod(0o755 if mode & 0o100 else 0o644)
            # Older than all sources: each part is current once their sum was found to be its own.
            os.utime(target, (0, 0))
        scratch.rename(folder)
    except OSError:
        if not folder.exists():
            raise
    finally:
        shutil.rmtree(scratch, ignore_errors=True)


def released(what: str, scratch: pathlib.Path | None) -> pathlib.Path | None:
    """Where the release has it, where it is of the sources as they are."""
    if not (file := archive()):
        return None
    at = f"{sum_told(file)[:16]}/{PLACES[what]}"
    if not is_released(what, UNPACKED / at):
        return None
    lack = "files are lacking there: remove it"
    for place in [UNPACKED, *([scratch] if scratch else [])]:
        try:
            if not (place / at).exists():
                unpack(file, (place / at).parent.parent)
        except OSError as error:
            lack = str(error)
        if (place / at).exists():
            with contextlib.suppress(OSError):
                os.utime(place / at, (build.BEGAN, build.BEGAN))
            return place / at
    raise NoPlace(f"release/ can't be unpacked into {UNPACKED}: {lack}")


def place_of(what: str, scratch: pathlib.Path | None = None, builds: bool = True) -> pathlib.Path:
    """Where the program or the shared object is, built if need be."""
    if is_proved_here(what):
        return HERE[what]
    if found := released(what, scratch):
        return found
    if builds:
        if archive():
            build.say("the sources changed since the release was made of them; ./prove proves them")
        if what == "program":
            build.build_program()
        else:
            build.build_library()
    return HERE[what]


def show(what: str, scratch: pathlib.Path | None) -> None:
    try:
        print(place_of(what, scratch))
    except NoPlace:
        if what == "library" or scratch:
            raise
        print()


def run(words: list[str]) -> NoReturn:
    """Becomes the released program."""
    file = archive()
    if not file or not is_of_sources("program"):
        raise Stop("release/ isn't of the sources as they are")
    data = next(data for name, _, data in files_in(file) if name == PLACES["program"])
    made = os.memfd_create("crsdesk")
    with open(made, "wb", closefd=False) as memory:
        memory.write(data)
    # Python has them passed over.
    for number in (signal.SIGPIPE, signal.SIGXFSZ):
        signal.signal(number, signal.SIG_DFL)
    os.execve(made, ["crsdesk", *words], os.environ)


def main(words: list[str]) -> int:
    if words[:1] == ["run"]:
        return build.ended("program", lambda: run(words[1:]))
    if not 0 < len(words) < 3 or words[0] not in PLACES:
        sys.exit(__doc__)
    return build.ended(words[0], lambda: show(words[0], pathlib.Path(words[1]) if words[1:] else None))


if __name__ == "__main__":
    sys.exit(main(sys.argv[1:]))
