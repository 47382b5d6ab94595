"""tools/checks_at_once.py counts the checks that the processors and the memory of a machine, or of a control group, hold."""
from __future__ import annotations

import os
import pathlib
import sys
from typing import Dict

import pytest
from support import ROOT

sys.path.insert(0, str(ROOT / "tools"))
import checks_at_once

# One more than the processors.
ALL = len(os.sched_getaffinity(0)) + 1
ROOMY = {"memory.max": "max", "cpu.max": "max 100000"}


@pytest.mark.parametrize(
    "files, most",
    [
        ({}, ALL),
        (ROOMY, ALL),
        ({**ROOMY, "cpu.max": "100000 100000"}, 2),
        ({"cpu/cpu.cfs_quota_us": "50000", "cpu/cpu.cfs_period_us": "100000"}, 1),
        ({"cpu/cpu.cfs_quota_us": "-1", "cpu/cpu.cfs_period_us": "100000"}, ALL),
        ({**ROOMY, "memory.max": "7999999999"}, 1),
        ({"memory/memory.limit_in_bytes": "2000000000"}, 1),
    ],
)
def test_count(files: Dict[str, str], most: int, tmp_path: pathlib.Path, monkeypatch: pytest.MonkeyPatch) -> None:
    for name, text in files.items():
        (tmp_path / name).parent.mkdir(exist_ok=True)
        (tmp_path / name).write_text(f"{text}\n", encoding="ascii")
    monkeypatch.setattr(checks_at_once, "GROUP", tmp_path)
    held = checks_at_once.free_bytes() // checks_at_once.CHECK_BYTES
    assert checks_at_once.checks_at_once() == max(min(most, held), 1)
