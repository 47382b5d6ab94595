"""What is set for all tests, the fixtures of what was built, and what is skipped where something isn't there."""
from __future__ import annotations

import os
import pathlib
import sys
from typing import Any

import pytest
from copies import Copy
from support import GATE, HERE, LIBRARY, PROGRAM, ROOT, found, need, succeed

# The package is that of the sources, over the library that was built, here and in what is run, whose python3 is this one.
# Python's own files leave nothing in the repository.
sys.dont_write_bytecode = True
sys.path[:0] = [str(ROOT / "python" / "src")]
os.environ |= {
    "CRSDESK_LIBRARY": str(LIBRARY),
    "PYTHONPATH": os.pathsep.join(filter(None, [str(ROOT / "python" / "src"), os.environ.get("PYTHONPATH")])),
    "PYTHONDONTWRITEBYTECODE": "1",
    "PATH": f"{pathlib.Path(sys.executable).parent}{os.pathsep}{os.environ['PATH']}",
}


@pytest.fixture(scope="session")
def program() -> pathlib.Path:
    """The program crsdesk."""
    return found(PROGRAM, "./crsdesk --version")


@pytest.fixture(scope="session")
def library() -> pathlib.Path:
    """The shared object."""
    return found(LIBRARY, "python3 tools/chosen.py library")


@pytest.fixture
def copy(tmp_path: pathlib.Path) -> Copy:
    return Copy(tmp_path)


@pytest.fixture(scope="session")
def prefix(library: pathlib.Path) -> pathlib.Path:
    """The folder of the libraries for C and their header."""
    return library.parent.parent


@pytest.fixture(scope="session")
def refusing(tmp_path_factory: pytest.TempPathFactory) -> pathlib.Path:
    """What is preloaded to refuse growths of memory."""
    need("cc")
    made = tmp_path_factory.mktemp("growths") / "refuse_growth.so"
    succeed(["cc", "-std=c99", "-shared", "-fPIC", "-O2", "-o", made, HERE / "refuse_growth.c"])
    return made


@pytest.fixture(scope="session")
def sqlite_extension(prefix: pathlib.Path) -> pathlib.Path:
    """Where the extension for SQLite is, under all warnings, if SQLite's header is there."""
    import build_sqlite

    file = build_sqlite.SOURCES / "out" / "crsdesk_sqlite.so"
    if build_sqlite.has_header():
        made = file.with_name(f"{os.getpid()}.so")
        build_sqlite.build(prefix, made, ["-Werror"])
        made.replace(file)
    return file


def pytest_configure(config: Any) -> None:
    """Processes share the tests by groups, unless they are told otherwise: so a server is started once."""
    if getattr(config.option, "dist", "no") == "load":
        config.option.dist = "loadgroup"
    # Each process is given the command line, in which this isn't said.
    if hasattr(config, "workerinput"):
        config.option.loadgroup = True


def pytest_runtest_setup(item: Any) -> None:
    for marker in item.iter_markers("needs"):
        need(*marker.args)
    if item.get_closest_marker("gate") and GATE not in os.environ:
        pytest.skip("rt ci wasn't run before: .ci/run runs ./prove and then this")


def pytest_terminal_summary(terminalreporter: Any, exitstatus: int) -> None:
    """The counts for ./test; a run that didn't come to its end has failed."""
    passed, failed, wrong = (len(terminalreporter.stats.get(it, ())) for it in ("passed", "failed", "error"))
    terminalreporter.write_line(f"{passed} passed, {failed + wrong or int(exitstatus != 0)} failed")
