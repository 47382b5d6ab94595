"""What the tests share beside their fixtures: where things are, and how a command is run."""
from __future__ import annotations

import importlib.util
import os
import pathlib
import pty
import shutil
import subprocess
import sys
from typing import Any, Dict, Iterable, Optional, Tuple

import pytest

HERE = pathlib.Path(__file__).resolve().parent
ROOT = HERE.parent
EXAMPLES = ROOT / "examples"
sys.path.insert(0, str(ROOT / "tools"))

import chosen  # noqa: E402

# As ./crsdesk takes them, but nothing is built.
PROGRAM, LIBRARY = (chosen.place_of(it, builds=False) for it in ("program", "library"))
SECONDS = 1800
# .ci/run sets this variable: what rt ci has built must be there.
GATE = "CRSDESK_GATE"
# What runs a program as another user, where that can be; else it is run as this one.
NOBODY: Dict[str, Any] = {"user": 65534, "group": 65534, "extra_groups": []} if os.geteuid() == 0 else {}
# A height, its canonical text, the same with a remark, and the same spelled otherwise.
HEIGHT = 'VERTCRS["H",VDATUM["D"],CS[vertical,1],AXIS["h",up,LENGTHUNIT["metre",1]]]'
CANONICAL_HEIGHT = 'VERTCRS["H",VDATUM["D"],CS[vertical,1],AXIS["h",up,ORDER[1],LENGTHUNIT["metre",1]]]'
NOTED = HEIGHT[:-1] + ',REMARK["r"]]'
TWIN = HEIGHT.replace("[", "(").replace("]", ")")


def run(words: Iterable[object], **more: Any) -> "subprocess.CompletedProcess[Any]":
    """Runs a command, whose output and error are kept as texts; more is what subprocess.run takes."""
    settings: Dict[str, Any] = {"stdout": subprocess.PIPE, "stderr": subprocess.PIPE, "text": True, **more}
    if "input" not in more:
        settings.setdefault("stdin", subprocess.DEVNULL)
    return subprocess.run([str(it) for it in words], timeout=SECONDS, check=False, **settings)


def succeed(words: Iterable[object], **more: Any) -> str:
    """What a command writes to output and error, which must end with status 0."""
    done = run(words, **{"stderr": subprocess.STDOUT, **more})
    assert done.returncode == 0, done.stdout[-3000:]
    return str(done.stdout)


def package(
    *words: object, cwd: Optional[pathlib.Path] = None, source: bytes = b"", **more: str
) -> Tuple[int, str, str]:
    """The status of `python3 -m crsdesk`, and what it writes to output and error; with more of an environment."""
    command = [sys.executable, "-m", "crsdesk", *words]
    done = run(command, cwd=cwd or "/", env={**os.environ, **more}, input=source, text=False)
    return done.returncode, done.stdout.decode(), done.stderr.decode()


def outside(**more: str) -> Dict[str, str]:
    """The environment without the repository's package and library, and with more."""
    own = ("CRSDESK_LIBRARY", "DESTDIR", "PYTHONPATH")
    return {**{key: value for key, value in os.environ.items() if key not in own}, **more}


def found(file: pathlib.Path, how: str) -> pathlib.Path:
    """A file that was built before; else the test fails, and says what builds it."""
    if not file.exists():
        pytest.fail(f"there is no {file.relative_to(ROOT)}: {how} builds it")
    return file


def left_by_gate(file: pathlib.Path) -> pathlib.Path:
    """A file that rt ci leaves; a test is skipped where it isn't there, and rt ci wasn't run before."""
    if not file.exists() and GATE not in os.environ:
        pytest.skip(f"there is no {file.relative_to(ROOT)}: ./prove has rt ci make it")
    return found(file, "rt ci")


def terminal() -> Tuple[int, int]:
    """Both ends of a new terminal; a test is skipped where none can be made."""
    try:
        return pty.openpty()
    except OSError as why:
        pytest.skip(f"no terminal can be made: {why}")


def need(*tools: str) -> None:
    """Skips a test where a program isn't on the PATH, or, as python3:MODULE, a module of Python isn't there."""
    for tool in tools:
        is_module, _, name = tool.rpartition(":")
        if not (importlib.util.find_spec(name) if is_module else shutil.which(name)):
            pytest.skip(f"{name} isn't there")
