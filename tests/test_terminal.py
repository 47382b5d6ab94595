"""What the program says on a terminal alone."""
from __future__ import annotations

import os
import pathlib
import subprocess
from typing import List

import pytest
from support import HEIGHT, terminal

TOLD = b"crsdesk: explain tells why a text is refused\r\n"


@pytest.mark.parametrize("words, told", [(["a", "b", "a"], TOLD), (["b"], b""), ([], TOLD), (["--json", "a"], TOLD)])
def test_check_points_to_explain(program: pathlib.Path, tmp_path: pathlib.Path, words: List[str], told: bytes) -> None:
    """Once a run, where standard error is a terminal and a text is refused."""
    (tmp_path / "a").write_text("x", encoding="utf-8")
    (tmp_path / "b").write_text(HEIGHT, encoding="utf-8")
    shown, end = terminal()
    done = subprocess.run([program, "check", *words], cwd=tmp_path, input=b"x", stdout=subprocess.PIPE, stderr=end)
    os.close(end)
    try:
        found = os.read(shown, 4096)
    except OSError:  # nothing was written, and nobody has the terminal
        found = b""
    os.close(shown)
    assert (found, done.returncode) == (told, int(bool(told)))
