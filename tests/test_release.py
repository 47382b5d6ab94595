"""tools/release.py, in clones of this repository whose program and library were built: equal bytes, and what is made of
them; and release/ as it is."""
from __future__ import annotations

import hashlib
import os
import pathlib
import re
import shutil
import sys
import tarfile
import zipfile
from typing import NamedTuple

import bare_root
import build
import chosen
import pytest
from support import EXAMPLES, ROOT, outside, run, succeed

pytestmark = pytest.mark.xdist_group("release")
MOST = 4 * 1024 * 1024
RT = '#!/bin/sh\n[ "$1" = version ] && echo "{name}" || echo "{kit}/START-HERE.md"\n'
BESIDE = shutil.ignore_patterns(".git", "__pycache__", "out", "release")
NEEDS = pytest.mark.needs("cc", "ld", "strip", "python3:setuptools", "python3:wheel")


class Clone(NamedTuple):
    """A clone in which the program and the library are as if proved there, and the environment of its commands."""

    root: pathlib.Path
    environment: dict[str, str]

    def make(self, **more: str) -> dict[str, bytes]:
        """The files of the release that is made there."""
        succeed([sys.executable, self.root / "tools/release.py"], env={**self.environment, **more}, cwd="/")
        return self.files()

    def files(self) -> dict[str, bytes]:
        release = self.root / "release"
        return {str(it.relative_to(release)): it.read_bytes() for it in release.rglob("*") if it.is_file()}

    def compare(self) -> tuple[int, str]:
        done = run([sys.executable, self.root / "tools/release.py", "--compare"], env=self.environment)
        return done.returncode, done.stdout


def readme_kit() -> str:
    """The toolchain that README names."""
    found = re.search(r"rattle-kit-\S+ logic [0-9a-f]+", (ROOT / "README.md").read_text(encoding="utf-8"))
    return found[0] if found else ""


def clone(folder: pathlib.Path, program: pathlib.Path, prefix: pathlib.Path) -> Clone:
    root, kit = folder / "clone", folder / "kit"
    shutil.copytree(ROOT, root, ignore=BESIDE)
    made = root / "crates/crsdesk/out/crsdesk"
    made.parent.mkdir()
    shutil.copy(program, made)
    for part in ("include", "lib"):
        shutil.copytree(prefix / part, root / "out/prefix" / part)
    # Those of x86-64 stand in for them: nothing here runs them.
    shutil.copytree(root / "out/prefix/lib", root / "out/aarch64/lib")
    (root / "out/aarch64/bin").mkdir()
    shutil.copy(program, root / "out/aarch64/bin")
    for file in (made, *root.glob("out/*/lib/libcrsdesk.so"), root / "out/aarch64/bin/crsdesk"):
        file.touch()
    (kit / "bin").mkdir(parents=True)
    (kit / "WHAT").write_text("a kit")
    (kit / "bin/rt").write_text(RT.format(kit=kit, name=readme_kit()))
    (kit / "bin/rt").chmod(0o755)
    return Clone(root, outside(PATH=f"{kit}/bin:{os.environ['PATH']}"))


@pytest.fixture(scope="module")
def first(tmp_path_factory: pytest.TempPathFactory, program: pathlib.Path, prefix: pathlib.Path) -> Clone:
    made = clone(tmp_path_factory.mktemp("first"), program, prefix)
    made.make()
    return made


def files_of(made: Clone) -> dict[str, pathlib.Path]:
    """The files of its release for x86-64 by their kinds."""
    files = [it for it in (made.root / "release").iterdir() if "aarch64" not in it.name]
    return {it.name.rpartition(".")[2]: it for it in files}


@NEEDS
def test_files(first: Clone) -> None:
    version, files = build.version(), first.files()
    wheel = files_of(first)["whl"].name
    archives = {f"crsdesk-{version}-linux-{it}.tar.xz" for it in ("aarch64", "x86_64")}
    others = {wheel, f"aarch64/{wheel.replace('x86_64', 'aarch64')}", files_of(first)["deb"].name}
    assert {*files} == archives | others | {"SHA256SUMS", "SOURCES"}
    assert re.fullmatch(r"crsdesk-[\d.a-z]+-py3-none-manylinux_2_\d+_x86_64\.whl", wheel)
    assert sum(map(len, files.values())) < MOST
    assert succeed(["sha256sum", "-c", "SHA256SUMS"], cwd=first.root / "release").count(": OK\n") == 5


@NEEDS
def test_equal_bytes(first: Clone, tmp_path: pathlib.Path, program: pathlib.Path, prefix: pathlib.Path) -> None:
    """Once more at another place of the world, and in another clone."""
    files = first.files()
    assert first.make(TZ="Asia/Tokyo", LC_ALL="C", SOURCE_DATE_EPOCH="1") == files
    second = clone(tmp_path, program, prefix)
    umask = os.umask(0o077)
    try:
        assert second.make() == files
    finally:
        os.umask(umask)


@NEEDS
def test_no_release_is_made_of_other_sources(
    tmp_path: pathlib.Path, program: pathlib.Path, prefix: pathlib.Path
) -> None:
    made = clone(tmp_path, program, prefix)
    source = made.root / "crates/crs_text/src/lib.rt"
    source.write_text(source.read_text(encoding="utf-8") + "\n", encoding="utf-8")
    done = run([sys.executable, made.root / "tools/release.py"], env=made.environment)
    wanted = "crsdesk: no release was made: ./prove has to prove and build the sources as they are before\n"
    assert (done.returncode, done.stderr) == (2, wanted) and not (made.root / "release").exists()


@NEEDS
def test_archive(first: Clone, program: pathlib.Path, prefix: pathlib.Path) -> None:
    """A prefix, whose program and libraries are those that were built."""
    front = f"crsdesk-{build.version()}-linux-x86_64"
    with tarfile.open(files_of(first)["xz"]) as inside:
        members = inside.getmembers()
        bytes_of = {it.name: inside.extractfile(it) for it in members}
        files = {name: data.read() for name, data in bytes_of.items() if data}
    assert {(it.uid, it.gid, it.uname, it.gname) for it in members} == {(0, 0, "", "")}
    assert files[f"{front}/bin/crsdesk"] == program.read_bytes()
    for name in ("include/crsdesk.h", "lib/libcrsdesk.a", "lib/libcrsdesk.so", "lib/libcrsdesk.so.0"):
        assert files[f"{front}/{name}"] == (prefix / name).read_bytes()
    pages = {f"share/man/man3/{it.name}" for it in (ROOT / "man").glob("*.3")}
    rules = {f"share/crsdesk/rules/{it.name}" for it in (ROOT / "rules").glob("*.rules")}
    completions = {
        "share/bash-completion/completions/crsdesk",
        "share/fish/vendor_completions.d/crsdesk.fish",
        "share/zsh/site-functions/_crsdesk",
    }
    others = {"bin/crsdesk", "include/crsdesk.h", "lib/libcrsdesk.a", "lib/libcrsdesk.so", "lib/libcrsdesk.so.0"}
    others |= {"lib/pkgconfig/crsdesk.pc", "share/doc/crsdesk/copyright", "share/man/man1/crsdesk.1"}
    assert {*files} == {f"{front}/{it}" for it in {*others, *pages, *rules, *completions}}


@NEEDS
@pytest.mark.needs("python3:pip", "python3:ensurepip")
def test_wheel(first: Clone, tmp_path: pathlib.Path, program: pathlib.Path, library: pathlib.Path) -> None:
    """It brings the package, its commands and the program."""
    wheel = files_of(first)["whl"]
    with zipfile.ZipFile(wheel) as inside:
        assert inside.read("crsdesk/libcrsdesk.so") == library.read_bytes()
        assert inside.testzip() is None
    succeed([sys.executable, "-m", "venv", tmp_path / "fresh"])
    folder = tmp_path / "fresh/bin"
    succeed([folder / "python", "-m", "pip", "install", "-q", "--no-index", wheel], env=outside())
    assert (folder / "crsdesk").read_bytes() == program.read_bytes()
    for words in (["crsdesk"], ["crsdesk-py"], ["python", "-m", "crsdesk"]):
        told = succeed([folder / words[0], *words[1:], "check", EXAMPLES / "wgs84.wkt"], env=outside(), cwd="/")
        assert told == "accepted geographic\n"
    assert succeed([folder / "python", "-m", "pip", "check"], env=outside()) == "No broken requirements found.\n"


@NEEDS
@pytest.mark.needs("dpkg-deb")
def test_package_for_debian(first: Clone, tmp_path: pathlib.Path, program: pathlib.Path) -> None:
    package = files_of(first)["deb"]
    fields = succeed(["dpkg-deb", "-f", package])
    assert re.search(r"^Package: crsdesk\nArchitecture: amd64\n", fields) and "\nDepends: libc6 (>= 2." in fields
    assert f"\nVersion: {package.name.split('_')[1]}\n" in fields
    succeed(["dpkg-deb", "-x", package, tmp_path / "system"])
    assert (tmp_path / "system/usr/bin/crsdesk").read_bytes() == program.read_bytes()
    found = {str(it.relative_to(tmp_path / "system")) for it in (tmp_path / "system").rglob("*") if it.is_file()}
    names = {"bin/crsdesk", "share/doc/crsdesk/copyright", "share/man/man1/crsdesk.1"}
    names |= {f"share/crsdesk/rules/{it.name}" for it in (ROOT / "rules").glob("*.rules")}
    names |= {f"share/{it}" for it in ("bash-completion/completions/crsdesk", "zsh/vendor-completions/_crsdesk")}
    assert found == {f"usr/{it}" for it in {*names, "share/fish/vendor_completions.d/crsdesk.fish"}}
    done = run(["dpkg-deb", "--contents", package])
    assert {line.split()[1] for line in done.stdout.splitlines()} == {"root/root"} or "0/0" in done.stdout


@NEEDS
@pytest.mark.needs("dpkg")
def test_debian_installs_it(first: Clone, tmp_path: pathlib.Path) -> None:
    if os.geteuid():
        pytest.skip("dpkg asks for root")
    for part in ("info", "updates"):
        (tmp_path / "var/lib/dpkg" / part).mkdir(parents=True)
    (tmp_path / "var/lib/dpkg/status").write_text("")
    words = ["dpkg", f"--root={tmp_path}", "--force-depends", "--force-not-root", "-i", files_of(first)["deb"]]
    succeed(words)
    done = run([tmp_path / "usr/bin/crsdesk", "check", EXAMPLES / "wgs84.wkt"])
    assert done.stdout == "accepted geographic\n"


@NEEDS
def test_it_is_compared(first: Clone) -> None:
    if not shutil.which("aarch64-linux-gnu-gcc"):
        pytest.skip("aarch64-linux-gnu-gcc isn't there")
    assert first.compare() == (0, "13 passed, 0 failed\n")
    made = first.root / "out/prefix/lib/libcrsdesk.a"
    before = made.read_bytes()
    made.write_bytes(before[:-1] + b"x")
    status, text = first.compare()
    made.write_bytes(before)
    archive = files_of(first)["xz"].name
    wanted = f"release/{archive}: lib/libcrsdesk.a isn't what was built of these sources\n12 passed, 1 failed\n"
    assert (status, text) == (1, wanted)


@NEEDS
def test_another_clone_runs_it(first: Clone, tmp_path: pathlib.Path, program: pathlib.Path) -> None:
    """With no toolchain, no C compiler and no proof there: ./crsdesk and ./install."""
    root = tmp_path / "clone"
    shutil.copytree(ROOT, root, ignore=BESIDE)
    shutil.copytree(first.root / "release", root / "release")
    (tmp_path / "bin").mkdir()
    for name in ("sh", "cat", "dirname", "readlink", "env"):
        (tmp_path / "bin" / name).symlink_to(shutil.which(name) or "")
    (tmp_path / "bin/python3").symlink_to(sys.executable)
    environment = outside(PATH=str(tmp_path / "bin"))
    done = run([root / "crsdesk", "canon", EXAMPLES / "height.wkt"], env=environment, cwd="/")
    assert (done.returncode, done.stderr) == (0, "") and done.stdout.startswith('VERTCRS["H"')
    done = run([root / "install", tmp_path / "prefix"], env=environment, cwd="/")
    assert done.returncode == 0, done.stderr
    assert "skipped: lib/crsdesk_sqlite.so, since a C compiler or SQLite's header isn't there" in done.stderr
    assert (tmp_path / "prefix/bin/crsdesk").read_bytes() == program.read_bytes()
    told = run([tmp_path / "prefix/bin/crsdesk", "check", EXAMPLES / "wgs84.wkt"], env=environment).stdout
    assert told == "accepted geographic\n"


def test_the_folder_as_it_is() -> None:
    """Its files have their sums, it has at most 4 MB, and README names the toolchain that it was made with."""
    if not chosen.RELEASE.exists():
        pytest.skip("there is no release")
    files = [it for it in chosen.RELEASE.rglob("*") if it.is_file()]
    assert sum(it.stat().st_size for it in files) < MOST
    sums = {hashlib.sha256(it.read_bytes()).hexdigest(): str(it.relative_to(chosen.RELEASE)) for it in files}
    lines = [line.split("  ") for line in chosen.SUMS.read_text(encoding="utf-8").splitlines()]
    assert {sums.get(sum, sum) for sum, _ in lines} == {name for _, name in lines}
    assert {it.name for it in files} == {"SHA256SUMS", "SOURCES", *(pathlib.Path(name).name for _, name in lines)}
    assert chosen.told_of_sources()["kit"].startswith(f"{readme_kit()} ")


@NEEDS
@pytest.mark.needs("unshare", "chroot", "ldd")
def test_a_bare_root(first: Clone, tmp_path: pathlib.Path) -> None:
    """With Python alone and no network: ./crsdesk, ./install, ./test and what the wheel has."""
    root = bare_root.Root(tmp_path / "root")
    shutil.copytree(ROOT, root.folder / "clone", ignore=BESIDE)
    shutil.copytree(first.root / "release", root.folder / "clone/release")
    for _ in ("the first", "again"):
        done = root.run("sh", "-c", "cd /clone && ./crsdesk canon < examples/height.wkt")
        assert (done.returncode, done.stderr) == (0, "") and done.stdout.startswith('VERTCRS["H"'), done.stderr
    done = root.run("/clone/install", "/usr/local")
    assert done.returncode == 0 and "skipped: the wheel" in done.stderr, done.stderr
    assert root.run("/usr/local/bin/crsdesk", "check", "/clone/examples/wgs84.wkt").stdout == "accepted geographic\n"
    unzip = "python3 -m zipfile -e /clone/release/*.whl /tmp/wheel && cd /tmp/wheel && python3 -m crsdesk check"
    assert root.run("sh", "-c", f"{unzip} /clone/examples/wgs84.wkt").stdout == "accepted geographic\n"
    done = root.run("/clone/test", "tests/test_rows.py", "-k", "lines.rows")
    passed, failed = re.findall(r"^(\d+) passed, (\d+) failed$", done.stdout, re.MULTILINE)[-1]
    assert int(passed) > 5 and failed == "0", done.stdout[-3000:]
