#!/usr/bin/env python3
"""Makes the release of what ./prove built, or compares that with the release.

    release.py [FOLDER]       FOLDER is release/ where none is given
    release.py --compare

FOLDER then has, and nothing else:

    crsdesk-VERSION-linux-x86_64.tar.xz     a prefix: the program, the libraries, their header, manual, completions, rules
    crsdesk-*-manylinux_*_x86_64.whl        the Python package with the library, and the program
    crsdesk_*_amd64.deb                     the program for Debian, as packaging/debian/crsdesk.install has it
    crsdesk-VERSION-linux-aarch64.tar.xz    where program and library were built for aarch64 too: a prefix for it,
    aarch64/crsdesk-*_aarch64.whl           and the Python package
    SHA256SUMS                              of these
    SOURCES                                 the sums of the sources, and what the files were made with

Equal inputs make equal bytes: names are sorted, owners are left out, and all times are that of packaging/debian/changelog.
It takes what ./install takes with setuptools and wheel.

--compare compares each program and library of the release with what was built, byte for byte, where SOURCES has the sum of
the sources as they are; libraries where the C compiler and its linker are the same. Its last line is 'N passed, M failed'.
"""
from __future__ import annotations

import argparse
import base64
import email.utils
import functools
import hashlib
import io
import lzma
import os
import pathlib
import re
import shutil
import subprocess
import sys
import tarfile
import tempfile
import time
import zipfile
from typing import Iterator

import build
import chosen
from build import ROOT, Stop

DEBIAN = ROOT / "packaging" / "debian"
# What ./install makes and the archive hasn't.
WITHOUT = ("share/doc/", "share/crsdesk/crsdesk-", "share/crsdesk/installed", "lib/crsdesk_sqlite.so")
PROGRAM, SHARED, STATIC = "bin/crsdesk", "lib/libcrsdesk.so", "lib/libcrsdesk.a"
Files = dict[str, tuple[int, bytes]]
OWN, AARCH64 = "x86_64", "aarch64"
# Where each was built; by which ends of paths it is found in the release; and what it was made of and with.
BUILT = {
    OWN: {PROGRAM: chosen.HERE["program"], **{it: build.PREFIX / it for it in (SHARED, STATIC)}},
    AARCH64: {it: build.PREFIX_OF_AARCH64 / it for it in (PROGRAM, SHARED, STATIC)},
}
ENDS = {PROGRAM: ("bin/crsdesk", "scripts/crsdesk"), SHARED: (".so", f".so.{build.INTERFACE}"), STATIC: (".a",)}
MADE_OF = {
    OWN: {PROGRAM: ["program", "kit"], **dict.fromkeys((SHARED, STATIC), ["library", "kit", "compiler"])},
    AARCH64: {
        PROGRAM: ["program-aarch64", "kit", "compiler-aarch64"],
        **dict.fromkeys((SHARED, STATIC), ["library-aarch64", "kit", "compiler-aarch64"]),
    },
}


@functools.lru_cache(maxsize=None)
def epoch() -> int:
    """When the version was made, in seconds."""
    dates = re.findall(r"^ -- .*>  (.*)$", (DEBIAN / "changelog").read_text(encoding="utf-8"), re.MULTILINE)
    return int(email.utils.parsedate_to_datetime(dates[0]).timestamp())


def glibc_of(*files: bytes) -> tuple[int, int]:
    """The version of GNU's C library that programs and libraries ask for."""
    return max(
        (int(a), int(b)) for data in files for a, b in re.findall(rb"\0GLIBC_(\d+)\.(\d+)(?:\.\d+)?(?=\0)", data)
    )


def tar(files: Files, front: str, with_folders: bool = False) -> bytes:
    """Files in a folder, packed by xz. libcrsdesk.so leads to the file with the interface's number in its name."""
    names = {str(it) for name in files for it in pathlib.PurePosixPath(name).parents} if with_folders else set()
    made = io.BytesIO()
    with tarfile.open(fileobj=made, mode="w", format=tarfile.GNU_FORMAT) as archive:
        for name in sorted({*files, *names}):
            info = tarfile.TarInfo(front if name == "." else f"{front}{name}")
            info.mtime, info.mode = epoch(), 0o755
            if name not in files:
                info.type = tarfile.DIRTYPE
                archive.addfile(info)
            elif name == SHARED:
                info.type, info.linkname = tarfile.SYMTYPE, f"libcrsdesk.so.{build.INTERFACE}"
                archive.addfile(info)
            else:
                info.mode, data = files[name]
                info.size = len(data)
                archive.addfile(info, io.BytesIO(data))
    return lzma.compress(made.getvalue(), preset=9 | lzma.PRESET_EXTREME)


def prefix_of(files: Files, machine: str) -> tuple[str, bytes]:
    """The name and the bytes of the archive for a machine."""
    name = f"crsdesk-{build.version()}-linux-{machine}"
    return f"{name}.tar.xz", tar(files, f"{name}/")


def is_built_for_aarch64(name: str) -> bool:
    """Of the sources as they are."""
    program = build.needed([build.PROGRAM])[-1]
    program.target = build.AARCH64
    sources = program.sources() if name == PROGRAM else build.sources_of_library(build.AARCH64)
    return build.is_newer(BUILT[AARCH64][name], sources)


def installed(folder: pathlib.Path) -> pathlib.Path:
    """A prefix into which ./install has put all that it has."""
    environment = {key: value for key, value in os.environ.items() if key not in ("DESTDIR", "CRSDESK_LIBRARY")}
    environment["SOURCE_DATE_EPOCH"] = str(epoch())
    words = [sys.executable, str(ROOT / "install"), str(folder)]
    if subprocess.run(words, env=environment, stdout=subprocess.DEVNULL, check=False).returncode:
        raise Stop("no release was made: ./install failed")
    return folder


def files_of(prefix: pathlib.Path) -> Files:
    """What the archive has. The program is the prover's own bytes, and not stripped."""
    found = {str(it.relative_to(prefix)): it for it in prefix.rglob("*") if it.is_file()}
    files = {
        name: (0o755 if os.access(it, os.X_OK) else 0o644, it.read_bytes())
        for name, it in found.items()
        if not name.startswith(WITHOUT)
    }
    files[PROGRAM] = 0o755, BUILT[OWN][PROGRAM].read_bytes()
    files["share/doc/crsdesk/copyright"] = 0o644, (DEBIAN / "copyright").read_bytes()
    return files


def record(name: str, data: bytes) -> str:
    digest = base64.urlsafe_b64encode(hashlib.sha256(data).digest()).decode().rstrip("=")
    return f"{name},sha256={digest},{len(data)}\n"


def wheel(base: pathlib.Path, machine: str, files: Files) -> tuple[str, bytes]:
    """The name and the bytes of a wheel as ./install makes it, with the library and the program for a machine, for each Linux
    on which both run."""
    with zipfile.ZipFile(base) as inside:
        held = {it: inside.read(it) for it in inside.namelist()}
    (front,) = {it.partition(".dist-info/")[0] for it in held if ".dist-info/" in it}
    held["crsdesk/libcrsdesk.so"] = files[SHARED][1]
    major, minor = glibc_of(files[PROGRAM][1], files[SHARED][1])
    tag = f"py3-none-manylinux_{major}_{minor}_{machine}"
    about = f"{front}.dist-info/WHEEL"
    held[about] = re.sub(rb"(?m)^Tag: .*$", f"Tag: {tag}".encode(), held[about])
    script = f"{front}.data/scripts/crsdesk"
    held[script] = files[PROGRAM][1]
    listing = f"{front}.dist-info/RECORD"
    del held[listing]
    lines = "".join(record(name, data) for name, data in sorted(held.items()))
    held[listing] = f"{lines}{listing},,\n".encode()
    made = io.BytesIO()
    with zipfile.ZipFile(made, "w", zipfile.ZIP_DEFLATED, compresslevel=9) as archive:
        for name, data in sorted(held.items()):
            info = zipfile.ZipInfo(name, time.gmtime(epoch())[:6])
            info.compress_type, info.create_system = zipfile.ZIP_DEFLATED, 3
            info.external_attr = (0o100755 if name == script else 0o100644) << 16
            archive.writestr(info, data)
    return f"{front}-{tag}.whl", made.getvalue()


def control(files: Files, version: str) -> str:
    """Debian's description of the program."""
    source, *packages = (DEBIAN / "control").read_text(encoding="utf-8").split("\n\n")
    (package,) = [it for it in packages if it.startswith("Package: crsdesk\n")]
    kept = [line for line in source.splitlines() if line.startswith(("Maintainer:", "Section:", "Priority:"))]
    head, _, description = package.strip().partition("\nDescription:")
    lines = [line for line in head.splitlines() if not line.startswith("Depends:")]
    major, minor = glibc_of(files["usr/bin/crsdesk"][1])
    size = sum(-(-len(data) // 1024) for _, data in files.values())
    more = [f"Version: {version}", f"Installed-Size: {size}", f"Depends: libc6 (>= {major}.{minor})"]
    return "\n".join([*lines, *more, *kept, f"Description:{description}\n"])


def placed(files: Files) -> Files:
    """The files of Debian's package crsdesk, by their paths in the system."""
    found: Files = {}
    for line in (DEBIAN / "crsdesk.install").read_text(encoding="utf-8").splitlines():
        path, _, folder = line.partition(" ")
        for name, (mode, data) in files.items():
            if f"usr/{name}" == path or f"usr/{name}".startswith(f"{path}/"):
                target = f"{folder}/{pathlib.PurePosixPath(name).name}" if folder else f"usr/{name}"
                found[target] = mode, data
    found["usr/share/doc/crsdesk/copyright"] = files["share/doc/crsdesk/copyright"]
    return found


def deb(files: Files) -> tuple[str, bytes]:
    """The name and the bytes of Debian's package of the program."""
    version = re.match(r"crsdesk \((\S+)\)", (DEBIAN / "changelog").read_text(encoding="utf-8"))
    if not version:
        raise Stop("packaging/debian/changelog doesn't begin with a version")
    held = placed(files)
    sums = "".join(f"{hashlib.md5(data).hexdigest()}  {name}\n" for name, (_, data) in sorted(held.items()))
    about: Files = {
        "control": (0o644, control(held, version[1]).encode()),
        "md5sums": (0o644, sums.encode()),
    }
    parts = {
        "debian-binary": b"2.0\n",
        "control.tar.xz": tar(about, "./"),
        "data.tar.xz": tar(held, "./", with_folders=True),
    }
    made = b"!<arch>\n"
    for name, data in parts.items():
        made += (
            f"{name:<16}{epoch():<12}{0:<6}{0:<6}{0o100644:<8o}{len(data):<10}`\n".encode()
            + data
            + b"\n" * (len(data) % 2)
        )
    return f"crsdesk_{version[1]}_amd64.deb", made


def first_line(*words: str) -> str:
    return build.run(*words).splitlines()[0]


def made_with() -> dict[str, str]:
    """What the files were made of and with, by the first words of the lines of SOURCES."""
    what = hashlib.sha256((build.toolchain() / "WHAT").read_bytes()).hexdigest()
    return {
        **build.sums(),
        "kit": f"{build.run('rt', 'version').strip()} {what}",
        **{
            key: ", ".join(first_line(build.tool(it, target), "--version") for it in ("cc", "ld"))
            for key, target in {"compiler": build.TARGET, "compiler-aarch64": build.AARCH64}.items()
            if shutil.which(build.tool("cc", target))
        },
    }


def make(folder: pathlib.Path) -> None:
    if not all(map(chosen.is_proved_here, chosen.PLACES)):
        raise Stop("no release was made: ./prove has to prove and build the sources as they are before")
    with tempfile.TemporaryDirectory() as name:
        prefix = installed(pathlib.Path(name) / "prefix")
        bases = list(prefix.glob("share/crsdesk/*.whl"))
        if len(bases) != 1:
            raise Stop("no release was made: ./install made no wheel")
        files = files_of(prefix)
        packages = dict([prefix_of(files, OWN), wheel(bases[0], OWN, files), deb(files)])
        is_for_aarch64 = all(map(is_built_for_aarch64, (PROGRAM, SHARED)))
        if is_for_aarch64:
            for name in (PROGRAM, STATIC, SHARED, f"{SHARED}.{build.INTERFACE}"):
                files[name] = files[name][0], (build.PREFIX_OF_AARCH64 / name).read_bytes()
            own, data = wheel(bases[0], AARCH64, files)
            packages.update([prefix_of(files, AARCH64), (f"{AARCH64}/{own}", data)])
    made = packages
    sums = "".join(f"{hashlib.sha256(data).hexdigest()}  {it}\n" for it, data in sorted(made.items()))
    made["SHA256SUMS"] = sums.encode()
    told = {key: value for key, value in made_with().items() if "aarch64" not in key or is_for_aarch64}
    made["SOURCES"] = "".join(f"{key} {value}\n" for key, value in told.items()).encode()
    for file in [it for it in folder.rglob("*") if it.is_file()]:
        file.unlink()
    for name, data in made.items():
        (folder / name).parent.mkdir(parents=True, exist_ok=True)
        (folder / name).write_bytes(data)


def in_deb(data: bytes) -> Iterator[tuple[str, bytes]]:
    """The files of a package for Debian."""
    at = len(b"!<arch>\n")
    while at < len(data):
        name, size = data[at : at + 16].decode().strip(), int(data[at + 48 : at + 58])
        part = data[at + 60 : at + 60 + size]
        at += 60 + size + size % 2
        if name == "data.tar.xz":
            with tarfile.open(fileobj=io.BytesIO(part)) as inside:
                for member in inside:
                    if file := inside.extractfile(member):
                        yield member.name, file.read()


def held_by(file: pathlib.Path) -> Iterator[tuple[str, bytes]]:
    """The files in a file of the release."""
    if hashlib.sha256(file.read_bytes()).hexdigest() != chosen.sum_told(file):
        raise Stop(f"release/{file.name} hasn't the sum that release/SHA256SUMS tells")
    if file.name.endswith(".tar.xz"):
        yield from ((name, data) for name, _, data in chosen.files_in(file))
    elif file.suffix == ".deb":
        yield from in_deb(file.read_bytes())
    else:
        with zipfile.ZipFile(file) as inside:
            yield from ((it, inside.read(it)) for it in inside.namelist())


def compare() -> tuple[int, int]:
    """How many programs and libraries of the release are what was built, and how many aren't. Each of these has a line, and so
    has what isn't compared."""
    if not chosen.archive():
        print("nothing is compared: there is no release for this machine")
        return 0, 0
    told, now, counts = chosen.told_of_sources(), made_with(), [0, 0]
    wanted: dict[tuple[str, str], bytes] = {}
    # A release that has nothing for aarch64 names no compiler for it.
    for machine in (OWN, AARCH64) if "compiler-aarch64" in told else (OWN,):
        for name, words in MADE_OF[machine].items():
            file = BUILT[machine][name]
            if other := [it for it in words if told.get(it) != now.get(it)]:
                print(f"{name} for {machine} isn't compared: release/SOURCES tells another {other[0]}")
            else:
                wanted[machine, name] = file.read_bytes() if file.exists() else b""
    found = set[tuple[str, str]]()
    for file in sorted(chosen.RELEASE.rglob("*.*")):
        machine = AARCH64 if AARCH64 in file.name else OWN
        for path, data in held_by(file):
            for key in ((machine, name) for name, ends in ENDS.items() if path.endswith(ends)):
                if key in wanted:
                    found.add(key)
                    counts[data != wanted[key]] += 1
                    if data != wanted[key]:
                        print(f"release/{file.name}: {path} isn't what was built of these sources")
    for machine, name in {*wanted} - found:
        counts[1] += 1
        print(f"release/ has no {name} for {machine}")
    return counts[0], counts[1]


def compared() -> int:
    """The status of a comparison, whose last line is the counts."""
    try:
        passed, failed = compare()
    except (Stop, OSError) as why:
        print(why)
        passed, failed = 0, 1
    print(f"{passed} passed, {failed} failed")
    return 1 if failed else 0


def main() -> int:
    parser = argparse.ArgumentParser(description=__doc__, formatter_class=argparse.RawDescriptionHelpFormatter)
    parser.add_argument("folder", nargs="?", type=pathlib.Path, default=chosen.RELEASE, metavar="FOLDER")
    parser.add_argument("--compare", action="store_true", help="compares the release with what was built")
    given = parser.parse_args()
    return compared() if given.compare else build.ended("release", lambda: make(given.folder))


if __name__ == "__main__":
    sys.exit(main())
