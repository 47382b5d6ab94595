"""`explain`, `group`, `check` and `same` with `--json`: each line is of the schema, and says what the lines without the flag say."""
from __future__ import annotations

import dataclasses
import json
import pathlib
from typing import Any, Callable, Dict, Iterable, Iterator, List

import pytest
import rows
from support import ROOT, need

MARK = "the same by the rules: "
# Objects that are not of a command's schema.
BROKEN: Dict[bytes, List[Dict[str, Any]]] = {
    b"explain": [{}, {"accepted": "local"}, {"same": False}, {"path": "id", "first": None}, {"refused": 7}],
    b"group": [{}, {"group": 1, "lines": [1]}, {"group": 1, "lines": [], "canonical": ""}, {"line": 1, "refused": 7}],
    b"check": [{}, {"accepted": "local"}, {"refused": 7}, {"file": "a"}, {"accepted": "vertical", "blank": True}],
    b"same": [{}, {"same": False}, {"same": True, "path": "id"}, {"refused": 7, "name": "a", "place": 0}],
}
# The cases that are answered in lines, but those of a whole answer on another stream.
CASES = [
    case
    for case in rows.all_cases()
    if case.words[:1] in ([b"explain"], [b"group"], [b"check"], [b"same"])
    and case.status != 2
    and case.output is not None
    if not {b"--help", b"--json"} & {*case.words}
]


def objects_of(program: pathlib.Path, case: rows.Case) -> List[Dict[str, Any]]:
    """What the command says with the flag, of which each line is an object."""
    asked = dataclasses.replace(case, words=[case.words[0], b"--json", *case.words[1:]])
    done = rows.run(program, asked)
    assert done.returncode == case.status
    return [json.loads(line) for line in done.stdout.decode().splitlines()]


def listed(names: List[str]) -> str:
    return " or ".join([", ".join(names[:-1]), names[-1]]) if len(names) > 1 else "".join(names)


def refusal(told: Dict[str, Any]) -> str:
    """The lines of a refusal."""
    which = told["text"] + " " if "text" in told else ""
    head = f"{which}refused {told['refused']} {told['name']} at {told['place']}"
    lines = [f"{head}, line {told['line']}, column {told['column']}\n", told["excerpt"]]
    if told["found"] is not None:
        node = f"in {told['node']} " if told["node"] is not None else ""
        there = f"{node}at {told['node_place']}: found {told['found']}"
        lines.append(f"{there}, expected {listed(told['expected'])}\n")
    sentences = [told["clue"], told["meaning"], told["hints"]]
    return "".join(lines) + "".join(f"{sentence}\n" for sentence in sentences if sentence is not None)


def shown(value: Any) -> str:
    """A value as a line shows it."""
    if value is None:
        return "none"
    names = {"\\": "\\\\", "\n": "\\n", "\t": "\\t", "\r": "\\r", "\0": "\\0"}
    return "".join(names.get(c) or escaped(c) for c in value)


# Ranges of what shows as a blank or as nothing, and of marks that compose.
HIDING = [("\u2000", "\u200d"), ("\u205f", "\u206f"), ("\ufe00", "\ufe0f"), ("\u0300", "\u036f")]


def escaped(c: str) -> str:
    if c < " " or c == "\x7f":
        return f"\\x{ord(c):02X}"
    steers = (
        "\x80" <= c <= "\x9f" or c in "\u061c\u200e\u200f" or "\u2028" <= c <= "\u202e" or "\u2066" <= c <= "\u2069"
    )
    hides = c in "\xa0\xad\u202f\u3000\ufeff\u3099\u309a" or any(a <= c <= b for a, b in HIDING)
    return f"\\u{ord(c):04X}" if steers or hides else c


def explained(told: Dict[str, Any]) -> str:
    """What an object of `explain` says, in lines."""
    if "accepted" in told:
        return f"accepted {told['accepted']}\n"
    if "same" in told:
        return "same\n"
    if "path" in told:
        mark = MARK if "same_by_rules" in told else ""
        first, second = told["first"], told["second"]
        points = rows.code_points(first or "", second or "")
        return f"{mark}{shown(told['path'])}: {shown(first)} | {shown(second)}{points}\n"
    return refusal(told)


def grouped(told: Dict[str, Any]) -> Iterator[str]:
    """What an object of `group` says, in a line."""
    if "file" in told:
        yield shown(told["file"]) + ":"
    if "group" in told:
        yield f"group {told['group']}:"
        if "line_names" in told:
            assert len(told["line_names"]) == len(told["lines"])
            yield from ("\t" + name_shown(name) for name in told["line_names"])
        else:
            yield from (f" {it}" for it in told.get("lines") or map(shown, told["files"]))
    else:
        if "line" in told:
            yield f"line {name_shown(told['line_name']) if 'line_name' in told else told['line']}:"
        yield " " + ("blank" if "blank" in told else summary(told))
    yield "\n"


def name_shown(name: Any) -> str:
    """A name as a line shows it; by its bytes where it is no UTF-8."""
    if isinstance(name, str):
        return shown(name)
    return "".join(shown(chr(b)) if b < 128 else f"\\x{b:02X}" for b in bytes.fromhex(name["bytes"]))


def summary(told: Dict[str, Any]) -> str:
    return f"refused {told['refused']} {told['name']} at {told['place']}"


def checked(told: Dict[str, Any]) -> str:
    """What an object of `check` says, in a line."""
    front = shown(told["file"]) + ":" if "file" in told else ""
    if "blank" in told:
        return front + "\n"
    return front + (f"accepted {told['accepted']}" if "accepted" in told else summary(told)) + "\n"


def compared(told: Dict[str, Any]) -> str:
    """What the object of `same` says, in a line."""
    if "same" in told:
        return "same\n" if told["same"] else f"different {told['path']}\n"
    return f"{told['text']} {summary(told)}\n"


SAYS: Dict[bytes, Callable[[Dict[str, Any]], Iterable[str]]] = {
    b"explain": explained,
    b"group": grouped,
    b"check": checked,
    b"same": compared,
}


@pytest.mark.parametrize("case", CASES, ids=str)
def test_says_the_same(case: rows.Case, program: pathlib.Path) -> None:
    said = "".join(piece for told in objects_of(program, case) for piece in SAYS[case.words[0]](told))
    assert said.encode() == case.output


@pytest.mark.parametrize("level", ["full", "definition"])
def test_has_canonical_texts(level: str, program: pathlib.Path) -> None:
    """The text of a group is that of each of its lines."""
    words = [b"--level", level.encode(), b"examples/catalogue.txt"]
    groups = objects_of(program, rows.Case("", "", {}, words=[b"group", *words], status=1))
    lines = rows.run(program, rows.Case("", "", {}, words=[b"canon", b"--lines", *words])).stdout.decode().splitlines()
    for told in groups:
        if "group" in told:
            assert {lines[line - 1] for line in told["lines"]} == {told["canonical"]}, told["group"]


@pytest.mark.parametrize("command", BROKEN, ids=bytes.decode)
def test_fits_the_schema(command: bytes, program: pathlib.Path) -> None:
    need("python3:jsonschema")
    import jsonschema

    schema = json.loads((ROOT / "docs" / "json" / f"{command.decode()}.schema.json").read_text(encoding="utf-8"))
    jsonschema.Draft202012Validator.check_schema(schema)
    validator = jsonschema.Draft202012Validator(schema)
    for case in CASES:
        for told in objects_of(program, case) if case.words[0] == command else []:
            errors = list(validator.iter_errors(told))
            assert not errors, (case.name, [error.message[:300] for error in errors])
    assert not any(map(validator.is_valid, BROKEN[command]))
