#!/usr/bin/env python3
"""Writes the reference of the library's calls: the manual pages man/*.3 of crates/crs_c/crsdesk.h, a page crsdesk(3) to
which the names of all calls lead. That of the Python package is written by tools/reference/write.

    make_references.py [FOLDER]

They are written below the folder, the repository where none is given. Nothing is compiled: the header is read as text.
tests/test_references.py holds what the repository has against what this writes.
"""
import pathlib
import re
import sys
from typing import Dict, Iterator, List, NamedTuple, Optional, Tuple

import build

ROOT = pathlib.Path(__file__).resolve().parent.parent
HEADER = ROOT / "crates" / "crs_c" / "crsdesk.h"


class Call(NamedTuple):
    """A call of the header: its name, its declaration in a line, and its comment."""

    name: str
    declaration: str
    comment: str


def without_marks(comment: str) -> str:
    """A comment's text, without its marks and the spaces that its lines have in front."""
    lines = comment[2:-2].split("\n")
    return "\n".join(
        [lines[0].strip(), *(line[3:] if line[:3] == "   " else line.strip() for line in lines[1:])]
    ).strip()


def parts_of(header: str) -> Iterator[Tuple[str, str]]:
    """Each comment at the outermost level, with the code up to the next one."""
    found = list(re.finditer(r"^/\*.*?\*/", header, re.S | re.M))
    for comment, after in zip(found, [*found[1:], None]):
        yield without_marks(comment[0]), header[comment.end() : after.start() if after else len(header)]


def roff(text: str) -> str:
    """A line of text for groff, with names in bold."""
    text = text.replace("\\", "\\e").replace("-", "\\-") if text.startswith("    ") else text.replace("\\", "\\e")
    text = re.sub(r"`([^`]*)`", r"\\fB\1\\fR", text)
    text = re.sub(r"\b(crsdesk_\w+|CRSDESK_\w+)\b", r"\\fB\1\\fR", text)
    return f"\\&{text}" if text[:1] in (".", "'") else text


def paragraphs(comment: str) -> Iterator[str]:
    """The lines of a page for a comment."""
    is_blank, is_code, before = True, False, ""
    for line in comment.split("\n"):
        if is_code and not line.startswith("    ") and line:
            yield ".fi\n.RE"
            is_code = False
        code = re.match(r"(CRSDESK_\w+(?:, CRSDESK_\w+)*)([:.]) ?(.*)", line)
        field = re.match(r"([a-z]+): (.*)", line) if before.endswith(".") else None
        heading = re.match(r"([A-Z][A-Z ]+[A-Z])([ :].*)", line)
        if not line:
            if not is_code:
                yield ".PP"
        elif line.startswith("    ") and is_blank and not is_code:
            yield f".RS 4\n.nf\n{roff(line.strip())}"
            is_code = True
        elif is_code:
            yield roff(line.strip())
        elif code:
            yield f".TP\n.B {code[1]}" + (f"\n{roff(code[3])}" if code[3] else "")
        elif field:
            yield f".TP\n.I {field[1]}\n{roff(field[2])}"
        elif line.startswith("- "):
            yield f".IP \\(bu 2\n{roff(line[2:])}"
        elif heading and is_blank:
            mark = ":" if heading[2].startswith(":") else ""
            yield f".B {heading[1]}{mark}\n{roff(heading[2].lstrip(': '))}"
        else:
            yield roff(line.strip())
        is_blank, before = not line, line
    if is_code:
        yield ".fi\n.RE"


def calls_of(header: str) -> Iterator[Call]:
    for comment, code in parts_of(header):
        declared = re.search(r"^(?:static inline )?[\w ]+?[ *](crsdesk_\w+)\(([^)]*)\)\s*[;{]", code, re.M)
        if declared:
            line = re.sub(r"\s+", " ", declared[0].rstrip("{; \n")).replace("static inline ", "") + ";"
            yield Call(declared[1], line, comment)


def structs_of(header: str) -> Iterator[Call]:
    for comment, code in parts_of(header):
        declared = re.search(r"^struct (\w+) \{.*?^\};", code, re.S | re.M)
        if declared:
            yield Call(f"struct {declared[1]}", declared[0], comment)


def constants_of(header: str) -> Iterator[Tuple[str, str]]:
    """Each group of constants: what it is for, and its lines."""
    for comment, code in parts_of(header):
        found = re.findall(r"^#define (CRSDESK_\w+) (\d+)[ \t]*(?:/\* (.*?) \*/)?$", code, re.M)
        if found:
            lines = [
                f'.TP\n.BR {name} " = {number}"' + (f"\n{roff(what)}" if what else "") for name, number, what in found
            ]
            yield comment, "\n".join(lines)


def wrapped(declaration: str) -> str:
    """A declaration in lines of at most 78 characters, cut after commas."""
    lines, line = [], ""
    for piece in re.split(r"(?<=,) ", declaration):
        if line and len(line) + len(piece) > 76:
            lines.append(line)
            line = "    " + piece
        else:
            line = f"{line} {piece}" if line else piece
    return "\n".join([*lines, line])


def manual_page(header: str) -> str:
    calls = list(calls_of(header))
    opening = without_marks(header[: header.index("*/") + 2])
    # The opening's own example of how to compile is in the synopsis.
    opening = re.sub(r"\n\n    #include.*?\n\n", "\n\n", opening, flags=re.S).split("\n", 2)[2].strip()
    lines = [
        '.\\" Written by tools/make_references.py from crsdesk.h.',
        f'.TH CRSDESK 3 "" "crsdesk {build.version()}" "Library calls"',
        ".nh",
        ".SH NAME",
        ", ".join(call.name for call in calls) + " \\- compare and canonicalise coordinate reference systems (WKT2)",
        ".SH SYNOPSIS",
        ".nf",
        ".B #include <crsdesk.h>",
        ".PP",
    ]
    for call in calls:
        lines += [f"\\fB{line}\\fR" for line in wrapped(call.declaration).split("\n")]
    lines += [
        ".fi",
        ".PP",
        "cc program.c $(pkg\\-config \\-\\-cflags \\-\\-libs crsdesk)",
        ".SH DESCRIPTION",
        *paragraphs(opening),
    ]
    lines.append(".SH CONSTANTS")
    for comment, table in constants_of(header):
        lines += [".PP", *paragraphs(comment), table]
    lines.append(".SH STRUCTURES")
    for struct in structs_of(header):
        code = [roff(line) if line.strip() else "" for line in struct.declaration.split("\n")]
        lines += [f".SS {struct.name}", *paragraphs(struct.comment), ".PP", ".nf", *code, ".fi"]
    lines.append(".SH CALLS")
    for call in calls:
        lines += [
            f".SS {call.name}",
            ".nf",
            *(f"\\fB{line}\\fR" for line in wrapped(call.declaration).split("\n")),
            ".fi",
            ".PP",
        ]
        lines += paragraphs(call.comment)
    lines += [
        ".SH SEE ALSO",
        ".BR crsdesk (1)",
        ".PP",
        "PREFIX/share/doc/crsdesk has the rules (docs/) and a program, examples/compare.c.",
    ]
    return "\n".join(lines) + "\n"


def pages() -> Dict[str, str]:
    """The manual pages, by their paths in the repository."""
    header = HEADER.read_text(encoding="utf-8")
    found = {"man/crsdesk.3": manual_page(header)}
    for call in calls_of(header):
        found[f"man/{call.name}.3"] = ".so man3/crsdesk.3\n"
    return found


def main(words: List[str]) -> Optional[str]:
    if len(words) > 1 or words and words[0].startswith("-"):
        return __doc__
    folder = pathlib.Path(words[0]) if words else ROOT
    for path, text in pages().items():
        (folder / path).parent.mkdir(parents=True, exist_ok=True)
        (folder / path).write_text(text, encoding="utf-8")
    return None


if __name__ == "__main__":
    sys.exit(main(sys.argv[1:]))
