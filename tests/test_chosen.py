"""What ./crsdesk runs, and tools/chosen.py tells: what was proved here, what was released, or what is built now; in a copy of
a few crates (copies.py)."""
from __future__ import annotations

import ast
import contextlib
import os
import pathlib
import shutil
import subprocess
import sys
import tempfile
from typing import Callable, Iterator

import pytest
from copies import Copy
from support import NOBODY, ROOT, found, run

ANSWER = (3, "a text\nreleased canon -\n", "")
BUILT = "a text\ncanon -\n"
CHANGED = "crsdesk: the sources changed since the release was made of them; ./prove proves them\n"
NOTHING_RUN = "nothing of it was run: take release/ as it was committed, or have ./prove prove and build the sources\n"
# A program of the system that a copy of is released where it must run from memory: it prints its words.
ECHO = pathlib.Path(shutil.which("echo") or "/bin/echo")


def bare(copy: Copy, folder: pathlib.Path, *more: str) -> None:
    """Has the PATH lead to what ./crsdesk needs alone, and to more."""
    folder.mkdir()
    for name in ("sh", "cat", "dirname", "readlink", *more):
        (folder / name).symlink_to(shutil.which(name) or "")
    (folder / "python3").symlink_to(sys.executable)
    copy.environment["PATH"] = str(folder)


def told(copy: Copy, *words: object) -> tuple[int, str, str]:
    """What tools/chosen.py ends with, prints and says."""
    done = run([sys.executable, copy.root / "tools/chosen.py", *words], env=copy.environment)
    return done.returncode, done.stdout, done.stderr


def unpacked(copy: Copy) -> list[pathlib.Path]:
    return list((copy.root / "out/release").iterdir())


def test_the_release_of_the_sources_as_they_are_is_run_with_no_toolchain(copy: Copy, tmp_path: pathlib.Path) -> None:
    copy.release()
    bare(copy, tmp_path / "bin")
    assert copy.run("canon", "-") == ANSWER
    assert copy.run("canon", "-") == ANSWER
    assert len(unpacked(copy)) == 1


def test_the_release_is_unpacked_once(copy: Copy) -> None:
    archive = copy.release()
    copy.run()
    archive.write_bytes(b"")
    assert copy.run("canon", "-") == ANSWER and len(unpacked(copy)) == 1


def test_a_newer_release_is_run(copy: Copy) -> None:
    copy.release()
    copy.run()
    copy.release(b"#!/bin/sh\necho newer\n")
    assert copy.run() == (0, "newer\n", "")


@pytest.mark.needs("cc")
def test_what_was_proved_here_goes_before_the_release(copy: Copy) -> None:
    copy.build("program")
    copy.release()
    assert copy.run("canon", "-") == (3, BUILT, "") and not (copy.root / "out").exists()


@pytest.mark.needs("cc")
def test_changed_sources_are_told_and_built(copy: Copy) -> None:
    copy.release()
    copy.source("low").write_text("more")
    status, output, error = copy.run("canon", "-")
    assert (status, output) == (3, BUILT) and error.startswith(CHANGED)
    assert sorted(copy.asked()) == ["crsdesk", "low", "mid", "side"]
    assert copy.run("canon", "-") == (3, BUILT, "")


def test_changed_sources_and_no_toolchain(copy: Copy, tmp_path: pathlib.Path) -> None:
    copy.release()
    assert copy.run("canon", "-") == ANSWER
    copy.source("low").write_text("more")
    bare(copy, tmp_path / "bin")
    status, output, error = copy.run("canon", "-")
    assert (status, output, error[: len(CHANGED)]) == (2, "", CHANGED) and "no command rt" in error
    copy.source("low").write_text("")
    assert copy.run("canon", "-") == ANSWER


@pytest.mark.needs("cc")
def test_no_release(copy: Copy) -> None:
    status, output, error = copy.run("canon", "-")
    assert (status, output) == (3, BUILT) and error.startswith("crsdesk: proving and building the program")


@pytest.mark.needs("cc")
def test_the_release_of_another_machine(copy: Copy) -> None:
    copy.release(machine="other")
    assert copy.run("canon", "-")[:2] == (3, BUILT)


@pytest.mark.needs("cc")
def test_the_library_has_sources_of_its_own(copy: Copy) -> None:
    copy.release()
    status, place, _ = told(copy, "library")
    assert status == 0 and pathlib.Path(place.strip()).read_bytes() == b"a library"
    header = copy.root / "crates/crs_c/crsdesk.h"
    header.write_text("/* A line. */\n" + header.read_text())
    assert copy.run("canon", "-") == ANSWER
    status, place, error = told(copy, "library")
    assert (status, place.strip()) == (0, f"{copy.root}/out/prefix/lib/libcrsdesk.so") and error.startswith(CHANGED)


def cut(archive: pathlib.Path) -> None:
    archive.write_bytes(archive.read_bytes()[:-100])


def altered(archive: pathlib.Path) -> None:
    data = bytearray(archive.read_bytes())
    data[len(data) // 2] ^= 1
    archive.write_bytes(data)


def empty(archive: pathlib.Path) -> None:
    archive.write_bytes(b"")


@pytest.mark.parametrize("damage", [cut, altered, empty])
def test_a_damaged_archive(damage: Callable[[pathlib.Path], None], copy: Copy) -> None:
    archive = copy.release()
    damage(archive)
    error = f"crsdesk: release/{archive.name} hasn't the sum that release/SHA256SUMS tells, and {NOTHING_RUN}"
    assert copy.run("canon", "-") == (2, "", error)
    assert unpacked(copy) == []


@pytest.mark.parametrize("text", [None, "", "0123  another.tar.xz\n"], ids=["none", "empty", "other"])
def test_an_archive_without_its_sum(text: str | None, copy: Copy) -> None:
    archive = copy.release()
    (copy.root / "release/SHA256SUMS").unlink() if text is None else (copy.root / "release/SHA256SUMS").write_text(text)
    error = f"crsdesk: release/SHA256SUMS has no sum of {archive.name}, and {NOTHING_RUN}"
    assert copy.run("canon", "-") == (2, "", error)


@pytest.mark.parametrize("is_there", [False, True], ids=["none", "the command"])
def test_python_without_lzma(is_there: bool, copy: Copy, tmp_path: pathlib.Path) -> None:
    if is_there and not shutil.which("xz"):
        pytest.skip("xz isn't there")
    copy.release()
    bare(copy, tmp_path / "bin", *(["xz"] if is_there else []))
    (tmp_path / "lzma.py").write_text("raise ImportError\n")
    copy.environment["PYTHONPATH"] = str(tmp_path)
    error = "crsdesk: release/ can't be unpacked: Python has no lzma, and there is no command xz\n"
    assert copy.run("canon", "-") == (ANSWER if is_there else (2, "", error))


def test_where_nothing_can_be_written_the_program_runs_from_memory(copy: Copy) -> None:
    copy.release(ECHO.read_bytes())
    (copy.root / "out").write_text("")
    assert copy.run("canon", "a file") == (0, "canon a file\n", "")


def test_the_library_is_then_in_a_folder_that_is_named(copy: Copy, tmp_path: pathlib.Path) -> None:
    copy.release()
    (copy.root / "out").write_text("")
    status, place, error = told(copy, "library", tmp_path / "scratch")
    assert (status, error) == (0, "") and pathlib.Path(place.strip()).read_bytes() == b"a library"
    assert place.startswith(f"{tmp_path}/scratch/")
    status, place, error = told(copy, "library")
    assert (status, place) == (2, "") and error.startswith("crsdesk: release/ can't be unpacked into ")


@contextlib.contextmanager
def read_only(folder: pathlib.Path) -> Iterator[None]:
    """Takes the right to write to all folders below one."""
    folders = [folder, *(it for it in folder.rglob("*") if it.is_dir())]
    for it in folders:
        it.chmod(0o555)
    try:
        yield
    finally:
        for it in folders:
            it.chmod(0o755)


def test_a_clone_that_is_read_only() -> None:
    system = pathlib.Path("/usr/bin/python3")
    if NOBODY and not system.exists():
        pytest.skip("another user may not run this Python")
    with tempfile.TemporaryDirectory() as name:
        pathlib.Path(name).chmod(0o755)
        copy = Copy(pathlib.Path(name))
        copy.release(ECHO.read_bytes())
        if NOBODY:
            copy.environment["PATH"] = "/usr/bin:/bin"
        with read_only(copy.root):
            try:
                answer = copy.run("canon", "a file", cwd="/", **NOBODY)
            except PermissionError:
                pytest.skip("nothing may be run as another user")
        assert answer == (0, "canon a file\n", "")


def test_no_space(copy: Copy) -> None:
    """On a disk of a few blocks."""
    copy.release(ECHO.read_bytes())
    (copy.root / "out").mkdir()
    mount = f"mount -t tmpfs -o size=8k,mode=755 none '{copy.root}/out'"
    words = ["unshare", "--user", "--map-root-user", "--mount", "sh", "-c"]
    if not shutil.which("unshare") or run([*words, mount]).returncode:
        pytest.skip("no file system can be mounted here")
    done = run(
        [*words, f"{mount} && '{copy.root}/crsdesk' canon x; ls -A '{copy.root}/out/release'"], env=copy.environment
    )
    assert (done.returncode, done.stdout, done.stderr) == (0, "canon x\n", "")


def test_first_calls_at_once(copy: Copy) -> None:
    copy.release()
    words = [str(copy.root / "crsdesk"), "canon", "-"]
    calls = [
        subprocess.Popen(words, env=copy.environment, stdin=subprocess.DEVNULL, stdout=-1, stderr=-1, text=True)
        for _ in range(6)
    ]
    assert {(*it.communicate(timeout=60), it.returncode) for it in calls} == {("released canon -\n", "", 3)}
    assert len(unpacked(copy)) == 1


def test_signals_are_as_they_were(copy: Copy) -> None:
    """The program from memory ends where nobody reads on, as any other."""
    cat = pathlib.Path(shutil.which("yes") or "")
    if not cat.name:
        pytest.skip("yes isn't there")
    copy.release(cat.read_bytes())
    (copy.root / "out").write_text("")
    with subprocess.Popen([copy.root / "crsdesk"], env=copy.environment, stdout=subprocess.PIPE) as running:
        assert running.stdout and running.stdout.read(2) == b"y\n"
        running.stdout.close()
    assert running.returncode == -13


def test_the_first_answer_takes_less_than_a_second(copy: Copy, program: pathlib.Path) -> None:
    """Of a processor, over all sources of this repository and the program itself."""
    for part in (ROOT / "crates").glob("*/*"):
        if part.name in ("src", "specs", "proofs") or part.is_file():
            target = copy.root / part.relative_to(ROOT)
            shutil.rmtree(target, ignore_errors=True)
            target.parent.mkdir(parents=True, exist_ok=True)
            if part.is_dir():
                shutil.copytree(part, target)
            else:
                shutil.copyfile(part, target)
    shutil.copyfile(ROOT / "crates.txt", copy.root / "crates.txt")
    copy.release(found(program, "./crsdesk").read_bytes())
    before = os.times()
    done = run([copy.root / "crsdesk", "check", ROOT / "examples/wgs84.wkt"], env=copy.environment)
    after = os.times()
    assert (done.returncode, done.stdout, done.stderr) == (0, "accepted geographic\n", "")
    seconds = after.children_user + after.children_system - before.children_user - before.children_system
    assert seconds < 1


@pytest.mark.parametrize("path", ["install", "tools/build.py", "tools/chosen.py"])
def test_it_is_python_3_9(path: str) -> None:
    """And takes nothing but the standard library."""
    tree = ast.parse((ROOT / path).read_text(encoding="utf-8"), feature_version=(3, 9))
    names = {it.name for node in ast.walk(tree) if isinstance(node, ast.Import) for it in node.names}
    names |= {node.module or "" for node in ast.walk(tree) if isinstance(node, ast.ImportFrom)}
    own = {it.stem for it in (ROOT / "tools").glob("*.py")}
    standard = getattr(sys, "stdlib_module_names", names)
    assert {it.partition(".")[0] for it in names} - own - {*standard} == {"setuptools"} & names


def test_wrong_words_are_refused(copy: Copy) -> None:
    status, output, error = told(copy, "other")
    assert (status, output) == (1, "") and "chosen.py program" in error
