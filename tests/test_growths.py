"""Each growth of memory refused in turn to the program, and to calls of the crates.

It is run with refuse_growth.c preloaded: with ample memory, then with the Nth growth refused, for N = 1, 2, .. until a run
meets no refusal. A growth is a call of malloc, realloc or aligned_alloc. A row must be answered as with ample memory; or
nothing but 'crsdesk: out of memory' is written, on standard error, with status 2. test_c.py does so with calls of the
library.

growths/calls.rows has calls of the crates and growths/command_calls.rows those of commands, of which crates/crs_tests makes
one with the word `call` or `command`: growths are counted while it is made. After out of memory, in the same process, all
that the call was handed must be as before, and the same call made again must give the answer that comes with ample memory.
"""
from __future__ import annotations

import os
import pathlib
import re
import subprocess
from typing import Tuple

import pytest
import rows
from support import ROOT, left_by_gate

COUNTS = re.compile(rb"growths (\d+) refused (\d+)\n\Z")
# More growths than any row has: a program that never stops meeting refusals is wrong.
MOST = 10_000
Answer = Tuple[int, bytes, bytes]
WANT: Answer = (2, b"", b"crsdesk: out of memory\n")
# The cases: each command with an answer, a refusal, and in each form, and what none reads.
NAMES = """
    writes-the-order-of-the-axis end-after-a-name-canon rd-new-and-nap-line canon-of-lines other-keywords
    vertical-of-two-dimensions-check check-of-lines check-of-no-line group-seven-lines group-nothing
    json-groups-of-missing-names group-under-rules same-5 different-meridian-unit refused-7
    same-under-rules-on-standard-input canon-under-the-rules-of-two-files form-with-units keyword-misspelt explain-of-a-file
    explain-two-with-many-differences explain-two-with-the-second-refused explain-under-rules json-different
    json-refused-shape unknown-command version
""".split()
CASES = [case for case in rows.all_cases() if case.name in NAMES]
CALLS = [
    (kind, case)
    for kind, name in (("call", "calls.rows"), ("command", "command_calls.rows"))
    for case in rows.cases_of(rows.HERE / "growths" / name)
]


def ends_right(found: Answer, ample: Answer, is_by_line: bool) -> bool:
    """Whether a run with a growth refused ended as it must; where each line is answered by itself, after the answers of the
    first lines."""
    status, output, error = found
    if is_by_line and output.endswith(b"\n") and ample[1].startswith(output):
        output = b""
    return found == ample or (status, output, error) == WANT


def test_all_are_there() -> None:
    assert sorted(case.name for case in CASES) == sorted(NAMES)


@pytest.mark.parametrize("case", CASES, ids=str)
def test_command(case: rows.Case, program: pathlib.Path, refusing: pathlib.Path) -> None:
    ample: Answer = (0, b"", b"")
    for nth in range(MOST):
        done = rows.run(program, case, LD_PRELOAD=str(refusing), REFUSE=str(nth))
        counts = COUNTS.search(done.stderr)
        assert counts, (nth, done.returncode, done.stderr[-200:])
        answer = (done.returncode, done.stdout, done.stderr[: counts.start()])
        if nth == 0:
            ample = answer
            assert ample[:2] == (case.status, case.output) and (case.error or ample[2]) == ample[2]
        if int(counts[2]) == 0:
            assert answer == ample and int(counts[1]) > 0
        else:
            assert ends_right(answer, ample, b"--lines" in case.words), f"growth {nth} refused: {answer}"
        if nth and int(counts[2]) == 0:
            return
    raise AssertionError(f"more than {MOST} growths")


@pytest.mark.parametrize("kind, case", CALLS, ids=[str(case) for _, case in CALLS])
def test_call(kind: str, case: rows.Case, refusing: pathlib.Path) -> None:
    program = left_by_gate(ROOT / "crates" / "crs_tests" / "out" / "crs_tests")
    head, answer = b"call\nanswered\nanswer ", case.output or b""
    ample, want = head + answer, head + b"memory\nkept yes\nagain " + answer
    given, takes_memory = case.call + b"\n" + b"\0".join(case.parts), b"no-growth" not in case.flags
    for nth in range(MOST):
        more = {"LD_PRELOAD": str(refusing), "REFUSE_FROM": "call", "REFUSE": str(nth)}
        done = subprocess.run(
            [program, kind],
            input=given,
            env={**os.environ, **more},
            capture_output=True,
            timeout=rows.SECONDS,
            check=False,
        )
        counts = COUNTS.fullmatch(done.stderr)
        assert counts and done.returncode == 0, (nth, done.returncode, done.stderr[-200:])
        is_refused = int(counts[2]) > 0
        assert done.stdout == ample or is_refused and done.stdout == want, f"growth {nth} refused: {done.stdout!r}"
        assert nth or (int(counts[1]) > 0) == takes_memory
        if nth and not is_refused:
            return
    raise AssertionError(f"more than {MOST} growths")
