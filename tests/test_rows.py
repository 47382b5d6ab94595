"""The command-line cases of the .rows files of this folder; and how such files are read."""
import pathlib
from typing import List

import pytest
import rows

# Each line that makes several cases, or of several lines one.
FORMS = """let short VERTCRS["H"

# what is wrong
table word | input | output
commands canon check
status 1
case table | - | \\{short} | refused 7 UnexpectedEnd at 11

case plain
# another reason
words same \\{short} \\{}
exchanged
output first refused 7 UnexpectedEnd at 11
status 1
"""
# Lines after these, each with a part of what is told of it.
FAULTS = {
    "case row | a | b | c | d": "x.rows:15: more fields than columns",
    "frob": "x.rows:15: no such key: frob",
    "output \\{long}": "x.rows:15: b'long'",
    "case plain\n# why\nstatus 0": "x.rows:9: the name 'plain' is repeated or empty",
    "\ncase bare\nstatus 0": "x.rows:16: bare has no status or no reason",
}


@pytest.mark.parametrize("case", rows.all_cases(), ids=str)
def test_row(case: rows.Case, program: pathlib.Path) -> None:
    done = rows.run(program, case)
    assert done.returncode == case.status
    assert case.output is None or done.stdout == case.output
    told = case.error if case.error is not None or case.status == 2 else b""
    assert told is None or done.stderr == told


@pytest.mark.parametrize("path", sorted(rows.ROOT.glob("crates/crs_tests/data/*.rows")), ids=lambda it: str(it.name))
def test_calls(path: pathlib.Path) -> None:
    """crs_tests reads the same form; its rows ask calls alone."""
    assert all(case.call and not case.words for case in rows.cases_of(path))


def read(text: str, folder: pathlib.Path) -> List[rows.Case]:
    (folder / "x.rows").write_text(text, encoding="utf-8")
    return rows.cases_of(folder / "x.rows")


def test_forms(tmp_path: pathlib.Path) -> None:
    short, refused = b'VERTCRS["H"', b"refused 7 UnexpectedEnd at 11\n"
    assert [(str(it), it.words, it.input, it.output) for it in read(FORMS, tmp_path)] == [
        ("x.rows:7-table-canon", [b"canon", b"-"], short, refused),
        ("x.rows:7-table-check", [b"check", b"-"], short, refused),
        ("x.rows:9-plain", [b"same", short, b""], b"", b"first " + refused),
        ("x.rows:9-plain-exchanged", [b"same", b"", short], b"", b"second " + refused),
    ]


@pytest.mark.parametrize("lines", FAULTS)
def test_faults(lines: str, tmp_path: pathlib.Path) -> None:
    try:
        read(FORMS + lines, tmp_path)
    except ValueError as fault:
        assert FAULTS[lines] in str(fault)
    else:
        raise AssertionError("it is read")
