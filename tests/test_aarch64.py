"""The program and the library for aarch64, as tools/build.py has built them or release/ has them, under emulation."""
from __future__ import annotations

import pathlib
import re
import shutil

import build
import c_rows
import chosen
import pytest
import release
import rows
import test_rows
from support import EXAMPLES, HERE, ROOT, run, succeed

pytestmark = [pytest.mark.needs("aarch64-linux-gnu-gcc"), pytest.mark.xdist_group("aarch64")]
SYSTEM = "/usr/aarch64-linux-gnu"
FLAGS = ["-std=gnu99", "-O1", f"-I{build.FOLDER}"]


def emulator() -> str:
    found = shutil.which("qemu-aarch64-static") or shutil.which("qemu-aarch64")
    if not found:
        pytest.skip("qemu-aarch64 isn't there")
    return found


@pytest.fixture(scope="module")
def built(tmp_path_factory: pytest.TempPathFactory) -> pathlib.Path:
    """The prefix."""
    emulator()
    if all(map(release.is_built_for_aarch64, (release.PROGRAM, release.SHARED))):
        return build.PREFIX_OF_AARCH64
    archive = next(chosen.RELEASE.glob("*-linux-aarch64.tar.xz"), None)
    if not archive or not build.sums().items() <= chosen.told_of_sources().items():
        pytest.skip("nothing for aarch64 is there: tools/build.py --aarch64 builds it")
    folder = tmp_path_factory.mktemp("aarch64") / "prefix"
    chosen.unpack(archive, folder)
    return folder


@pytest.fixture
def shared(built: pathlib.Path) -> pathlib.Path:
    return built / release.SHARED


@pytest.fixture(scope="module")
def emulated(built: pathlib.Path, tmp_path_factory: pytest.TempPathFactory) -> pathlib.Path:
    """What runs the program."""
    file = tmp_path_factory.mktemp("emulated") / "crsdesk"
    file.write_text(f"#!/bin/sh\nexec {emulator()} -L {SYSTEM} '{built / release.PROGRAM}' \"$@\"\n", encoding="utf-8")
    file.chmod(0o755)
    return file


@pytest.mark.parametrize("case", rows.all_cases(), ids=str)
def test_row(case: rows.Case, emulated: pathlib.Path) -> None:
    test_rows.test_row(case, emulated)


def program(name: str, shared: pathlib.Path, folder: pathlib.Path) -> list[str]:
    """The words that run a C program over it."""
    own = folder / "libcrsdesk.so.0"
    shutil.copy(shared, own)
    succeed(["aarch64-linux-gnu-gcc", *FLAGS, f"-Wl,-rpath,{folder}", "-o", folder / name, HERE / f"c/{name}.c", own])
    return [emulator(), "-L", SYSTEM, str(folder / name)]


def test_each_call(shared: pathlib.Path, tmp_path: pathlib.Path) -> None:
    told = succeed(program("calls", shared, tmp_path))
    assert re.search(r"^\d+ passed, 0 failed\n\Z", told, re.MULTILINE), told[-1500:]


def test_texts(shared: pathlib.Path, prefix: pathlib.Path, tmp_path: pathlib.Path) -> None:
    """It answers to the texts of the rows, and of examples/, what the library of x86-64 answers."""
    texts = {text for case in c_rows.all_rows() for text in [*case.parts, *case.words, *case.files.values()]}
    texts |= {it.read_bytes() for it in EXAMPLES.rglob("*") if it.is_file()}
    rules = (ROOT / "rules/producers.rules").read_bytes()
    asked = b"".join(b"%d\n%b" % (len(text), text) for text in [rules, *sorted(texts)])
    own = tmp_path / "own"
    succeed(["cc", *FLAGS, "-o", own, HERE / "c/answers.c", prefix / "lib/libcrsdesk.a"])
    wanted = run([own], input=asked, text=False)
    done = run(program("answers", shared, tmp_path), input=asked, text=False)
    assert (wanted.returncode, done.returncode, done.stderr) == (0, 0, b"")
    assert len(texts) > 500 and done.stdout == wanted.stdout


def test_it_needs_the_c_library_alone(shared: pathlib.Path) -> None:
    told = succeed(["aarch64-linux-gnu-readelf", "-h", "-d", shared])
    assert "Machine:                           AArch64\n" in told
    assert {*re.findall(r"\(NEEDED\).*\[(.*)\]", told)} <= {"libc.so.6", "ld-linux-aarch64.so.1"}
    assert build.shown(shared, build.AARCH64) == {f"{name}@@{node}" for name, node in build.versions().items()}
