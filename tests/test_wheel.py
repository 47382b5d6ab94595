"""The wheel and the source archive of the Python package, made by pip with no network, and the wheel in a fresh
environment, as a user has it."""
from __future__ import annotations

import os
import pathlib
import re
import sys
import tarfile
import zipfile
from typing import Set

import pytest
from documents import Command, blocks_of, commands_of, printed
from support import EXAMPLES, ROOT, outside, run, succeed

pytestmark = [
    pytest.mark.needs("python3:pip", "python3:ensurepip", "python3:setuptools", "python3:wheel"),
    pytest.mark.xdist_group("wheel"),
]
PACKAGE = ROOT / "python"
EXTRAS = {"jinja2; extra == 'audit'", "rich; extra == 'audit'", "dask[dataframe,distributed]>=2022.12; extra == 'dask'"}
SDIST = "import sys; from setuptools import build_meta; build_meta.build_sdist(sys.argv[1])"


def made_wheel(folder: pathlib.Path, source: pathlib.Path = PACKAGE) -> pathlib.Path:
    words = ["wheel", "-q", "--no-index", "--no-build-isolation", "--no-deps", "-w", folder, source]
    succeed([sys.executable, "-m", "pip", *words], cwd="/")
    (wheel,) = folder.glob("crsdesk-*.whl")
    return wheel


@pytest.fixture(scope="module")
def wheel(library: pathlib.Path, tmp_path_factory: pytest.TempPathFactory) -> pathlib.Path:
    return made_wheel(tmp_path_factory.mktemp("wheel"))


@pytest.fixture(scope="module")
def archive(tmp_path_factory: pytest.TempPathFactory) -> pathlib.Path:
    """The source archive."""
    folder = tmp_path_factory.mktemp("sdist")
    succeed([sys.executable, "-c", SDIST, folder], cwd=PACKAGE)
    return folder / next(folder.iterdir()).name


@pytest.fixture(scope="module")
def fresh(wheel: pathlib.Path, tmp_path_factory: pytest.TempPathFactory) -> pathlib.Path:
    """The Python of a fresh environment into which the wheel was installed."""
    folder = tmp_path_factory.mktemp("fresh")
    succeed([sys.executable, "-m", "venv", folder])
    python = folder / "bin" / "python"
    succeed([python, "-m", "pip", "install", "-q", "--no-index", "--disable-pip-version-check", wheel], env=outside())
    return python


def sources() -> Set[pathlib.Path]:
    return {it for it in (PACKAGE / "src" / "crsdesk").rglob("*") if it.is_file() and it.suffix != ".pyc"}


def test_files(wheel: pathlib.Path, library: pathlib.Path) -> None:
    """The wheel has the sources and the library, and nothing else."""
    wanted = {str(it.relative_to(PACKAGE / "src")): it.read_bytes() for it in sources()}
    wanted["crsdesk/libcrsdesk.so"] = library.read_bytes()
    with zipfile.ZipFile(wheel) as inside:
        assert {it: inside.read(it) for it in inside.namelist() if it.startswith("crsdesk/")} == wanted


def test_equal_bytes(wheel: pathlib.Path, archive: pathlib.Path, tmp_path: pathlib.Path) -> None:
    """A second time, and of the source archive, the same bytes are made; and nothing is left in the sources."""
    before = {*PACKAGE.rglob("*")}
    again = made_wheel(tmp_path)
    assert (again.name, again.read_bytes()) == (wheel.name, wheel.read_bytes())
    (tmp_path / "sdist").mkdir()
    succeed([sys.executable, "-c", SDIST, tmp_path / "sdist"], cwd=PACKAGE)
    assert (tmp_path / "sdist" / archive.name).read_bytes() == archive.read_bytes()
    assert {*PACKAGE.rglob("*")} == before
    (tmp_path / "from").mkdir()
    assert made_wheel(tmp_path / "from", archive).read_bytes() == wheel.read_bytes()


def test_source_archive(archive: pathlib.Path) -> None:
    with tarfile.open(archive) as inside:
        names = {it.name.partition("/")[2] for it in inside.getmembers() if it.isfile()}
    wanted = {str(it.relative_to(PACKAGE)) for it in sources()}
    assert names == wanted | {"PKG-INFO", "README.md", "pyproject.toml", "setup.cfg", "setup.py"}


def test_names(wheel: pathlib.Path) -> None:
    assert wheel.name.split("-")[2:4] == ["py3", "none"]
    with zipfile.ZipFile(wheel) as inside:
        (name,) = [it for it in inside.namelist() if it.endswith("/METADATA")]
        told = inside.read(name).decode().split("\n")
    # Earlier versions of setuptools write a bound in parentheses, or a blank before the semicolon.
    lines = (line.partition(": ")[2] for line in told if line.startswith("Requires-Dist: "))
    asked = {re.sub(r" \((.*?)\)", r"\1", line).replace(" ;", ";") for line in lines}
    assert asked == EXTRAS
    assert {"Requires-Python: >=3.9", "Description-Content-Type: text/markdown"} <= {*told}


def test_version(wheel: pathlib.Path, fresh: pathlib.Path) -> None:
    """The library's version is the wheel's."""
    told = succeed([fresh, "-c", "import crsdesk; print(crsdesk.__version__)"], env=outside(), cwd="/")
    assert told.replace("-dev", ".dev0") == wheel.name.split("-")[1] + "\n"


def test_it_depends_on_nothing(fresh: pathlib.Path) -> None:
    succeed([fresh, "-m", "pip", "check"], env=outside())


@pytest.mark.parametrize("kind", ["module", "script"])
def test_command(kind: str, fresh: pathlib.Path) -> None:
    front = [fresh, "-m", "crsdesk"] if kind == "module" else [fresh.with_name("crsdesk-py")]
    assert succeed([*front, "check", EXAMPLES / "wgs84.wkt"], env=outside()) == "accepted geographic\n"


@pytest.mark.parametrize(
    "other, parts",
    [
        (
            "/missing/libcrsdesk.so",
            ["crsdesk needs its shared object, beside it or where CRSDESK_LIBRARY says: /missing/libcrsdesk.so"],
        ),
        ("libc.so.6", ["crsdesk needs the shared object of its own version: ", "undefined symbol: crsdesk_check"]),
    ],
    ids=["missing", "other"],
)
def test_another_library(other: str, parts: "list[str]", fresh: pathlib.Path) -> None:
    done = run([fresh, "-c", "import crsdesk"], env=outside(CRSDESK_LIBRARY=other), cwd="/")
    assert done.returncode == 1 and "ImportError: " in done.stderr and all(it in done.stderr for it in parts)


COMMANDS = [
    command
    for block in blocks_of(ROOT / "docs" / "PYTHON.md")
    if block.kind == "console" and block.needs == ["python3:crsdesk"]
    for command in commands_of(block)
]


@pytest.mark.parametrize("command", COMMANDS, ids=str)
def test_document(command: Command, fresh: pathlib.Path) -> None:
    path = f"{fresh.parent}{os.pathsep}{os.environ['PATH']}"
    assert printed(command, PATH=path, PYTHONPATH="", CRSDESK_LIBRARY="") == command.wanted
