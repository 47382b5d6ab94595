"""What both extensions for SQL are asked, that for SQLite and that for PostgreSQL: the rows of the .rows files beside it,
and what they promise alike. A database's own spelling of it is a Dialect."""

from __future__ import annotations

import hashlib
from typing import Callable, Iterable, Iterator, List, NamedTuple, Optional, Sequence, Tuple

import rows
from support import CANONICAL_HEIGHT, HEIGHT, NOTED

LEVELS = "there are 'full' and 'definition'"
# The limit on a text's bytes where none is set.
LIMIT = 1_048_576
# What is asked, the statement, and what it must print; an error is the line that begins with 'Error: '.
Statement = Tuple[str, str, str]


class Dialect(NamedTuple):
    """How a database spells and prints what is asked.

    ``literal``  a text, as bytes or as a text; None where the database has no such text
    ``hex``      the bytes of a text in capital digits; nothing of NULL
    ``number``   a condition, as 1 or 0; nothing of NULL
    ``zeros``    a text of so many zeros, an even number
    ``part``     the value of a key in the object at an index of a JSON array, from 0 on, as a text; nothing where there is none
    ``is_none``  whether a JSON array has no members
    ``said``     an explanation in the characters that the database has
    ``limit``    the name of the limit on a text's bytes
    ``set_limit``  the statement that sets it, and prints nothing
    """

    literal: Callable[[bytes, bool], Optional[str]]
    hex: Callable[[str], str]
    number: Callable[[str], str]
    zeros: Callable[[int], str]
    part: Callable[[str, str, int], str]
    is_none: Callable[[str], str]
    said: Callable[[bytes], bytes]
    limit: str
    set_limit: Callable[[int], str]


def of_case(case: rows.Case, is_blob: bool, dialect: Dialect) -> Iterator[Statement]:
    """The statements that ask a row, each with its answer; none of a text that the database hasn't."""
    if not case.asks:
        return
    named, words = case.level
    level = [f"'{named}'"] if named else []
    given = [dialect.literal(it, is_blob) for it in (words[1:] if len(words) == 3 else [case.input])]
    texts = [it for it in given if it is not None]
    if len(texts) < len(given):
        return
    wanted = (case.output or b"")[:-1]
    refusal = wanted.decode(errors="replace") if b"refused" in wanted else ""
    if words == [b"canon"]:
        canonical = "" if refusal else wanted.hex().upper()
        call = dialect.hex(f"crs_canon({', '.join([texts[0], *level])})")
        yield case.place, f"SELECT {call}, crs_refusal({texts[0]});", f"{canonical}|{refusal}"
        under = ", ".join([texts[0], *(level or ["'full'"]), "''"])
        yield f"{case.place} under no rules", f"SELECT {dialect.hex(f'crs_canon({under})')};", canonical
    elif words == [b"digest"]:
        under = ", ".join([texts[0], *(level or ["'full'"]), "''"])
        told = "" if refusal else wanted.decode()
        yield case.place, f"SELECT crs_digest({', '.join([texts[0], *level])}), crs_digest({under});", f"{told}|{told}"
    elif words == [b"check"]:
        kind = "" if refusal else wanted.decode().split()[1]
        yield case.place, f"SELECT crs_kind({texts[0]}), crs_refusal({texts[0]});", f"{kind}|{refusal}"
    elif words == [b"explain"] and not level:
        said = dialect.said(wanted).hex().upper()
        yield case.place, f"SELECT {dialect.hex(f'crs_explain({texts[0]})')};", said
    elif len(words) == 3 and words[0] == b"same":
        both = ", ".join([*texts, *level])
        is_same = "" if refusal else str(int(wanted == b"same"))
        path = "" if refusal else wanted.decode().split()[-1]
        call = dialect.number(f"crs_same({both})")
        yield case.place, f"SELECT {call}, crs_difference({both});", f"{is_same}|{path}"
        under = ", ".join([*texts, *(level or ["'full'"]), "''"])
        asked = f"SELECT {dialect.number(f'crs_same({under})')}, crs_difference({under});"
        yield f"{case.place} under no rules", asked, f"{is_same}|{path}"
        parts = f"crs_differences({both})"
        first = "" if path == "same" else path
        call = dialect.number(dialect.is_none(parts))
        # The name of a member may follow the path of the first part.
        begun = f"substr({dialect.part(parts, 'path', 0)}, 1, {len(first)})"
        yield case.place, f"SELECT {call}, {begun};", f"{is_same}|{first}"
        if refusal:
            which, _, rest = refusal.partition(" ")
            yield case.place, f"SELECT crs_refusal({texts[which == 'second']});", rest
    elif len(words) == 3 and words[0] == b"explain" and not refusal and are_said(words[1:], dialect):
        yield from of_parts(case, f"crs_differences({', '.join([*texts, *level])})", dialect)


def are_said(texts: List[bytes], dialect: Dialect) -> bool:
    """Whether the database has the characters of these texts, so that it can say where they differ."""
    return all(dialect.literal(it, False) is not None for it in texts)


def of_parts(case: rows.Case, parts: str, dialect: Dialect) -> Iterator[Statement]:
    """All parts in which two texts differ, each but for one whose values have escapes or separators."""
    lines = [it for it in (case.output or b"").splitlines() if it != b"same"]
    for index, line in enumerate(lines):
        told = rows.TOLD.fullmatch(line)
        if told is None or b"\\" in line or b" | " in told[2]:
            continue
        path, *values = told.group(1, 2, 3)
        hexes = ", ".join(dialect.hex(dialect.part(parts, key, index)) for key in ("first", "second"))
        wanted = [b"" if it == b"none" else it for it in values]
        asked = f"SELECT {dialect.part(parts, 'path', index)}, {hexes};"
        yield case.place, asked, "|".join([path.decode(), *(it.hex().upper() for it in wanted)])
    yield case.place, f"SELECT {dialect.part(parts, 'path', len(lines))};", ""


def all_rows(dialect: Dialect) -> Iterator[Statement]:
    for case in rows.all_cases():
        for is_blob in (False, True):
            yield from of_case(case, is_blob, dialect)


def answers_of(statements: Sequence[Statement], output: bytes) -> List[str]:
    """What was printed for each statement, and after all of them, where its number was printed after each."""
    lines, found = output.decode(errors="replace").split("\n"), []
    for index in range(len(statements)):
        end = lines.index(f"-- {index}") if f"-- {index}" in lines else len(lines)
        found.append("\n".join(lines[:end]))
        lines = lines[end + 1 :]
    return [*found, "\n".join(lines)]


def hold(statements: Iterable[Statement], answers: Iterable[str]) -> None:
    """Each statement has the answer that it must print."""
    wrong = [(it, got) for it, got in zip(statements, answers) if got != it[2]]
    told = [
        f"{place}: {statement[:100]} answered {got[:300]!r}, wanted {wanted[:300]!r}"
        for (place, statement, wanted), got in wrong
    ]
    assert not wrong, "\n".join([f"{len(wrong)} statements:", *told[:20]])


def promises(dialect: Dialect) -> Iterator[Statement]:
    """What the rows don't ask, and all extensions promise."""
    height, noted = f"'{HEIGHT}'", f"'{NOTED}'"
    for call in ("crs_canon(NULL)", "crs_kind(NULL)", "crs_refusal(NULL)", "crs_explain(NULL)", "crs_canon('x', NULL)"):
        yield "NULL gives NULL", f"SELECT {dialect.number(f'{call} IS NULL')};", "1"
    for call in ("crs_same", "crs_difference", "crs_differences"):
        for given in ("NULL, 'x'", "'x', NULL", "NULL, NULL", f"{height}, {height}, NULL"):
            yield "NULL gives NULL", f"SELECT {dialect.number(f'{call}({given}) IS NULL')};", "1"
    for call in (
        f"crs_canon({height}, 'Full')",
        f"crs_same({height}, {height}, 'Full')",
        "crs_difference('', '', 'Full')",
        "crs_differences('', '', 'Full')",
    ):
        yield "a wrong level", f"SELECT {call};", f"Error: no such level: 'Full'; {LEVELS}"
    both, by_definition = f"{height}, {noted}", f"{height}, {noted}, 'definition'"
    same, same_by_definition = dialect.number(f"crs_same({both}, 'full')"), dialect.number(f"crs_same({by_definition})")
    yield "a level", f"SELECT crs_canon({noted}, 'definition');", CANONICAL_HEIGHT
    yield "a level", f"SELECT {same_by_definition}, {same};", "1|0"
    yield "a level", f"SELECT crs_difference({both}), crs_difference({by_definition});", "remark|same"
    parts, parts_by_definition = f"crs_differences({both})", f"crs_differences({by_definition})"
    yield "a level", f"SELECT {dialect.part(parts, 'path', 0)}, {dialect.part(parts_by_definition, 'path', 0)};", "remark|"
    yield from of_values(dialect)
    yield from of_explanations(dialect)
    yield from of_rules(dialect)
    yield from of_refused_rules(dialect)
    yield from of_limits(dialect)
    nothing = dialect.literal(b"", True)
    asked = f"SELECT crs_kind(''), crs_refusal(''), crs_refusal({nothing});"
    yield "nothing", asked, "|refused 7 UnexpectedEnd at 0|refused 7 UnexpectedEnd at 0"
    text, wanted = HEIGHT.encode(), f"refused 1 BadCharacter at {len(HEIGHT)}"
    yield "a NUL byte", f"SELECT crs_refusal({dialect.literal(text + bytes(1), True)});", wanted


# Characters that separate or escape values in the library's lines or in JSON.
VALUES = ["", "none", " | ", ": ", '"" | ""', "\\", "\\\\n", "\\x41", "/", "a\nb\tc\rd\x01e\x1ff\x7fg"]
VALUES += ["\x85\u2028\u202e", "é高\U0001f600"]


def of_values(dialect: Dialect) -> Iterator[Statement]:
    """Remarks of any characters that the database has, in either text or in one alone, come out of the JSON as they are."""
    values = [it for it in VALUES if dialect.literal(it.encode(), False) is not None]
    for index, value in enumerate(values):
        other = values[index - 1]
        texts = [f'{HEIGHT[:-1]},REMARK["{it}"]]'.encode() for it in (value, other)]
        first, second = (dialect.literal(it, True) for it in texts)
        wanted = [f'"{it}"'.encode().hex().upper() for it in (value, other)]
        call = f"crs_differences({first}, {second})"
        hexes = ", ".join(dialect.hex(dialect.part(call, key, 0)) for key in ("first", "second"))
        yield "a value", f"SELECT {hexes};", "|".join(wanted)
        alone = f"crs_differences('{HEIGHT}', {second})"
        yield "a value alone", f"SELECT {dialect.part(alone, 'first', 0)}, {dialect.hex(dialect.part(alone, 'second', 0))};", f"|{wanted[1]}"


def of_explanations(dialect: Dialect) -> Iterator[Statement]:
    """Lines without a last line feed, whatever characters the text has."""
    yield "an accepted text", f"SELECT crs_explain('{HEIGHT}');", "accepted vertical"
    yield "a refused text", "SELECT substr(crs_explain('EPSG:4326'), 1, 45);", "refused 1 BadCharacter at 4, line 1, column 5"
    # A control character, a blank that isn't U+0020, ill-formed UTF-8, and characters that few encodings have.
    for shown in ("\x01", "\xa0", "\u20ac\u4e2d\U0001f600"):
        text = f'VERTCRS["{shown}"'.encode()
        for is_blob in (False, True):
            literal = dialect.literal(text, is_blob)
            if literal is not None:
                name = dialect.said((shown if shown > "\xff" else "\ufffd").encode())
                call = dialect.number(f"{dialect.hex(f'crs_explain({literal})')} LIKE '%5B22{name.hex().upper()}22%'")
                yield "characters of an excerpt", f"SELECT {call};", "1"
    asked = f"SELECT length(crs_explain({dialect.literal(b'VERTCRS[' + bytes(range(128, 256)), True)})) > 100;"
    yield "no characters", asked.replace("SELECT ", "SELECT 1 WHERE "), "1"


# Rules under which HEIGHT and OTHER are the same, and the form of both.
RULES = '# of heights\nSAME[VDATUM["D"],VDATUM["E"]]\n\nUNCOUNTED[axisName]\n'
OTHER = HEIGHT.replace('"D"', '"E"').replace('"h"', '"x"')
FORM = CANONICAL_HEIGHT.replace('"h"', '""')
# The calls that take rules, with what they are given before these.
UNDER = [f"{call}('{HEIGHT}', 'full', " for call in ("crs_canon", "crs_digest")] + [
    f"{call}('{HEIGHT}', '{OTHER}', 'full', " for call in ("crs_same", "crs_difference", "crs_differences")
]


def of_rules(dialect: Dialect) -> Iterator[Statement]:
    """Under rules forms are answered and compared."""
    yield "a form", f"SELECT crs_canon('{OTHER}', 'full', '{RULES}'), crs_canon('{FORM}', 'full', '{RULES}');", f"{FORM}|{FORM}"
    digest = hashlib.sha256(FORM.encode()).hexdigest()
    yield "a digest of a form", f"SELECT crs_digest('{OTHER}', 'full', '{RULES}');", digest
    for rules, is_same, path in ((RULES, 1, "same"), (RULES.partition("SAME")[0], 0, "datum/name")):
        for text, twin in ((HEIGHT, OTHER), (OTHER, HEIGHT)):
            given = f"'{text}', '{twin}', 'full', '{rules}'"
            parts = f"crs_differences({given})"
            call = f"{dialect.number(f'crs_same({given})')}, {dialect.number(dialect.is_none(parts))}"
            yield "under rules", f"SELECT {call}, crs_difference({given});", f"{is_same}|{is_same}|{path}"
    for is_blob in (False, True):
        texts = [dialect.literal(it.encode(), is_blob) for it in (HEIGHT, OTHER)]
        call = dialect.number(f"crs_same({', '.join(map(str, texts))}, 'full', '{RULES}')")
        yield "texts and bytes under rules", f"SELECT crs_canon({texts[1]}, 'full', '{RULES}'), {call};", f"{FORM}|1"
    for level, is_same, path in (("full", 0, "remark"), ("definition", 1, "same")):
        given = f"'{NOTED}', '{OTHER}', '{level}', '{RULES}'"
        parts = dialect.part(f"crs_differences({given})", "path", 0)
        asked = f"SELECT {dialect.number(f'crs_same({given})')}, crs_difference({given}), {parts};"
        yield "rules at a level", asked, f"{is_same}|{path}|{path if path != 'same' else ''}"
    only = f"crs_differences('{HEIGHT}', '{OTHER}', 'full', 'UNCOUNTED[axisName]')"
    asked = f"SELECT {', '.join(dialect.part(only, key, 0) for key in ('path', 'first', 'second'))}, {dialect.part(only, 'path', 1)};"
    yield "the parts of forms", asked, 'datum/name|"D"|"E"|'
    # Several rules in one statement, and rules that change from row to row.
    names = 'SAME[VDATUM["E"],VDATUM["D"]]'
    canons = [f"crs_canon('{HEIGHT}', 'full', '{it}')" for it in ("UNCOUNTED[axisName]", names, "UNCOUNTED[axisName]")]
    renamed = CANONICAL_HEIGHT.replace('"D"', '"E"')
    yield "two rules", f"SELECT {', '.join(canons)};", f"{FORM}|{renamed}|{FORM}"
    rows_of = " UNION ALL ".join(f"SELECT {n} AS n, '{it}' AS rules" for n, it in enumerate(["", names, "", RULES]))
    asked = f"SELECT crs_canon('{HEIGHT}', 'full', rules), crs_canon('{HEIGHT}', 'full', '{names}') FROM ({rows_of}) AS t ORDER BY n;"
    yield "rules of rows", asked, "\n".join(
        f"{it}|{renamed}" for it in (CANONICAL_HEIGHT, renamed, CANONICAL_HEIGHT, FORM)
    )
    for name in ("é", "高", "\U0001f600"):
        written = dialect.literal(HEIGHT.replace('"D"', f'"{name}"').encode(), False)
        alias = dialect.literal(f'SAME[VDATUM["D"],VDATUM["{name}"]]'.encode(), False)
        if written is not None and alias is not None:
            yield "characters of rules", f"SELECT crs_canon({written}, 'full', {alias});", CANONICAL_HEIGHT
    ended = dialect.literal(RULES.replace("\n", "\r\n").encode(), False)
    yield "lines that end in CRLF", f"SELECT crs_canon('{OTHER}', 'full', {ended});", FORM
    for call in UNDER:
        yield "NULL gives NULL", f"SELECT {dialect.number(f'{call}NULL) IS NULL')};", "1"
    yield "a wrong level", f"SELECT crs_canon('{HEIGHT}', 'Full', '');", f"Error: no such level: 'Full'; {LEVELS}"
    for given in ("'x', '{0}'", "'{0}', 'x'", "'x', 'x'"):
        given = f"{given.format(HEIGHT)}, 'full', '{RULES}'"
        calls = [f"{it}({given}) IS NULL" for it in ("crs_same", "crs_difference", "crs_differences")]
        yield "a refused text under rules", f"SELECT {', '.join(map(dialect.number, calls))};", "1|1|1"
    canon = dialect.number(f"crs_canon('EPSG:4326', 'full', '{RULES}') IS NULL")
    yield "a refused text under rules", f"SELECT {canon};", "1"


def of_refused_rules(dialect: Dialect) -> Iterator[Statement]:
    """For each function a refused rules file is an error with line, number and place, and the next is read."""
    for rules, wanted in (
        ('EQUAL[DATUM["a"],DATUM["b"]]', "line 1: refused 41 at 0: neither SAME, UNCOUNTED nor KIND"),
        ("# a\n\n UNCOUNTED[anchor,colour]", "line 3: refused 42 at 18: no node or word that may stand here"),
        ('SAME[DATUM["a"],VDATUM["b"]]', "line 1: refused 43 at 16: a node of another kind than the first of its set"),
        (
            'SAME[DATUM["a"],DATUM["b"]]\nSAME[DATUM["c"],TRF["b"]]',
            "line 2: refused 44 at 16: a node that stood in such a statement before",
        ),
        ('SAME[DATUM["a"]', "line 1: refused 7 at 15: UnexpectedEnd"),
    ):
        for call in UNDER:
            yield "refused rules", f"SELECT {call}'{rules}');", f"Error: rules: {wanted}"
        yield "after refused rules", f"SELECT crs_canon('{OTHER}', 'full', '{RULES}');", FORM
    padded = f"'{RULES}' || replace({dialect.zeros(LIMIT)}, '0', '#')"
    yield "long rules", f"SELECT crs_canon('{OTHER}', 'full', {padded});", too_long(LIMIT + len(RULES), LIMIT, dialect)
    padded = (
        f"'{RULES}{'#' * (len(RULES) % 2)}' || replace({dialect.zeros(LIMIT - len(RULES) - len(RULES) % 2)}, '0', '#')"
    )
    yield "long rules", f"SELECT crs_canon('{OTHER}', 'full', {padded});", FORM


def text_of(length: int, dialect: Dialect) -> str:
    """A text of so many bytes that spells a CRS, with blanks at its end."""
    blanks = length - len(HEIGHT)
    return f"'{HEIGHT}{' ' * (blanks % 2)}' || replace({dialect.zeros(blanks - blanks % 2)}, '0', ' ')"


def too_long(length: int, limit: int, dialect: Dialect) -> str:
    return f"Error: a text has {length} bytes, and {dialect.limit} is {limit}"


def of_limits(dialect: Dialect) -> Iterator[Statement]:
    """A text has as many bytes as the limit, and no more, at each place of each function."""
    most, over, height = text_of(LIMIT, dialect), text_of(LIMIT + 1, dialect), f"'{HEIGHT}'"
    is_same = dialect.number(f"crs_same({most}, {most})")
    yield "a limit", f"SELECT crs_canon({most}), crs_explain({most}), {is_same};", f"{CANONICAL_HEIGHT}|accepted vertical|1"
    for call in ("crs_canon", "crs_kind", "crs_refusal", "crs_explain"):
        yield "a limit", f"SELECT {call}({over});", too_long(LIMIT + 1, LIMIT, dialect)
    for call in ("crs_same", "crs_difference", "crs_differences"):
        for given in (f"{over}, {height}", f"{height}, {over}", f"'x', {over}"):
            yield "a limit", f"SELECT {call}({given});", too_long(LIMIT + 1, LIMIT, dialect)
        yield "a limit", f"SELECT {dialect.number(f'{call}({over}, NULL) IS NULL')};", "1"
    yield "another limit", dialect.set_limit(LIMIT + 1), ""
    yield "another limit", f"SELECT crs_kind({over});", "vertical"
    yield "a small limit", dialect.set_limit(3), ""
    for is_blob in (False, True):
        three, four = (dialect.literal(it.encode(), is_blob) for it in ("(\xe9", "\xe9\xe9"))
        yield "a small limit", f"SELECT crs_refusal({three});", "refused 6 Unexpected at 0"
        yield "a small limit", f"SELECT crs_refusal({four});", too_long(4, 3, dialect)
    yield "the usual limit", dialect.set_limit(LIMIT), ""


def of_long_texts(dialect: Dialect) -> Iterator[Statement]:
    length = 100_000_000
    yield "4 MB", f"SELECT crs_same({text_of(4_000_000, dialect)}, 'x');", too_long(4_000_000, LIMIT, dialect)
    yield "a limit for 100 MB", dialect.set_limit(2 * length), ""
    long = f"'{HEIGHT[:-1]},REMARK[\"' || {dialect.zeros(length)} || '\"]]'"
    yield "100 MB", f"SELECT crs_kind({long}), length(crs_canon({long}));", f"vertical|{len(CANONICAL_HEIGHT) + 11 + length}"
    yield "100 MB", f"SELECT crs_refusal({dialect.zeros(length)});", "refused 3 NumberRange at 0"
    yield "the usual limit", dialect.set_limit(LIMIT), ""
    many = "".join(f",USAGE[BBOX[1E40,-1E40,1E-40,{n}]]" for n in range(300))
    text = f"'{HEIGHT[:-1]}{many}]'"
    is_longer = dialect.number(f"length(crs_canon({text})) > 2 * length({text})")
    is_canonical = dialect.number(f"crs_canon(crs_canon({text})) = crs_canon({text})")
    yield "a longer canonical text", f"SELECT {is_longer};", "1"
    yield "a canonical text", f"SELECT {is_canonical};", "1"
