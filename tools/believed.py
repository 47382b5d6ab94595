#!/usr/bin/env python3
"""Finds the definitions that a reader must believe, and holds the folders that they are in against that.

    believed.py [-v]

A reader believes what stands in the crates' specs/, and needs nothing of specs/inner/. So all definitions must be in
specs/ that the claims of tools/claims.txt reach: those that the clauses of a claimed call or law cite, or of the calls
and impls of a claimed type or trait, and all that these are made of, down to the numbers, lists and the like of the
toolchain's own library; and no others. How a type's fields show what it is seen as isn't among them: a caller has the
clauses alone. Each has a sentence before it, a comment, which docs/DEFINITIONS.md repeats. And each claim must be there.

Prints the definitions and lines of each crate, with -v each definition and what cites it first, and what is wrong, which
tests/test_believed.py has as tests. Nothing is proved.
"""
import fnmatch
import pathlib
import re
import sys
from collections.abc import Iterator
from typing import NamedTuple

ROOT = pathlib.Path(__file__).resolve().parent.parent
CRATES = ROOT / "crates"
LIBRARIES = [path.parent.name for path in sorted(CRATES.glob("*/specs"))]

# A word of a definition or a clause.
WORD = re.compile(r"[^\s(){}\[\],;.λ→×:=\"|]+")
USE = re.compile(
    r"(?m)^\s*(?:unfoldable )?(?:pub )?(?:ghost )?use Rattle\.(\w+)\.specs\.([\w.]+?)(?:\.\{([^}]*)\}| as (\S+?))?;?$"
)
# A line that may begin a definition: its indent, what precedes its name, whether it is a record, its name and the rest.
HEAD = re.compile(r"^(\s*)((?:(?:abbrev|unfoldable|pub|mutual)\s+)*)(record\s+|data\s+)?([^\s:=(){}]+)(.*)$")
# What stands in a source: the end of an item, the head of an impl or a trait, a function, and a clause up to its brace.
SOURCE = re.compile(
    r"(?m)^(?P<end>\})|^(?:pub )?(?P<kind>impl|trait)\b(?P<of>[^{]*)\{"
    r"|^[ \t]*(?P<pub>pub )?(?:pub\(crate\) )?(?:unsafe )?(?:extern \"C\" )?fn (?P<fn>\w+)"
    r"|\b(?:(?:requires|ensures)\*?\s*(?:\w+\s*)?|ghost (?P<ghost>\w+)\s*[:=]\s*)(?P<brace>\{)"
)
# A claim, by its crate, "laws", "parts" or nothing, and its name; a line of tools/claims.txt.
Claim = tuple[str, str, str]
CLAIMS = re.compile(r"(?m)^(crs_\w+)(?: (\w+))?: (.*)$")
# What an impl says of a type's fields.
OF_ITS_FIELDS = ("view", "invariant", "inverse", "inverse_ok", "coded", "laws", "respects_eq")


class Name(NamedTuple):
    """A definition: its crate, its file below specs/ with dots, and its own name."""

    crate: str
    file: str
    name: str

    def __str__(self) -> str:
        return f"{self.crate}/{self.file}.{self.name}"


def imported(text: str) -> dict[str, Name]:
    """The names that a text takes from files of definitions, by one by one or by a word for the file."""
    names = {}
    for crate, file, listed, word in USE.findall(text):
        if crate in LIBRARIES and file.split(".")[0] not in ("declared", "contracts"):
            for entry in filter(None, map(str.strip, listed.split(","))):
                name, _, other = entry.partition(" as ")
                names[other or name] = Name(crate, file, name)
            for name in re.findall(rf"\b{word}\.([\w-]+)", text) if word else ():
                names.setdefault(name, Name(crate, file, name))
    return names


def cited(text: str, scope: dict[str, Name]) -> Iterator[Name]:
    """The names of a scope that occur in a text; an operator occurs where all its parts do."""
    words = set(WORD.findall(text))
    for name, meant in scope.items():
        if name in words or ("◌" in name and all(part in text for part in name.split("◌"))):
            yield meant


class Specs:
    """A file: its definitions, each with the comment before it, and which definition each name in it means."""

    def __init__(self, crate: str, file: str) -> None:
        text = (CRATES / crate / "specs" / (file.replace(".", "/") + ".antt")).read_text(encoding="utf-8")
        self.scope = imported(text)
        self.definitions: dict[str, list[str]] = {}
        self.sentences: dict[str, str] = {}
        name, indent, is_data, comment = "", 0, False, ""
        for line in text.split("\n"):
            bare = line.strip()
            if not bare or re.match(r"--|(unfoldable )?(pub )?use |infix", bare):
                comment = f"{comment} {bare[2:].strip()}".strip() if bare.startswith("--") else ""
                continue
            head = HEAD.match(line)
            if bare.endswith("mutual"):
                name = ""
            elif (
                head and (head[3] or re.match(r"(\s+\w+)*\s*:(\s|$)", head[5])) and (not name or len(head[1]) <= indent)
            ):
                name, indent, is_data = head[4], len(head[1]), head[3] == "data "
                self.definitions[name] = []
                self.sentences[name] = comment
                self.scope.setdefault(name, Name(crate, file, name))
            elif is_data:
                self.scope |= {it: Name(crate, file, name) for it in line.partition(":")[0].split()}
            if name:
                self.definitions[name].append(line)
            comment = ""


def clauses(crate: str, claimed: set[str]) -> Iterator[tuple[str, str, dict[str, Name]]]:
    """Each clause of what is claimed of a crate: where it is, its text, and the names that it may use."""
    for path in sorted((CRATES / crate / "src").rglob("*.rt")):
        text = re.sub(r"(?m)^\s*//.*$", "", path.read_text(encoding="utf-8"))
        scope = imported(text)
        owners: list[str] = []
        is_trait = is_public = False
        function = ""
        for it in SOURCE.finditer(text):
            if it["end"]:
                owners, is_trait, function = [], False, ""
            elif it["kind"]:
                plain = re.sub(r"<[^<>]*(<[^<>]*>)?[^<>]*>", "", it["of"]).split(" where ")[0]
                owners = [re.split(r"\W", word.strip())[0] for word in plain.split(" for ")]
                is_trait, function = it["kind"] == "trait" or len(owners) > 1, ""
            elif it["fn"]:
                is_public, function = bool(it["pub"]), it["fn"]
            elif it["ghost"] not in OF_ITS_FIELDS:
                is_seen = is_public or is_trait or not function
                if is_seen and any(fnmatch.filter(owners or [function], claim) for claim in claimed):
                    yield f"{path.relative_to(CRATES)} {function}", braced(text, it.start("brace")), scope


def braced(text: str, start: int) -> str:
    """The text from the brace at a place to the one that closes it."""
    depth = 0
    for at in range(start, len(text)):
        depth += {"{": 1, "}": -1}.get(text[at], 0)
        if depth == 0:
            return text[start:at]
    return text[start:]


def claims() -> list[Claim]:
    """The claims of tools/claims.txt."""
    text = (ROOT / "tools" / "claims.txt").read_text(encoding="utf-8")
    return [(crate, part, name) for crate, part, names in CLAIMS.findall(text) for name in names.split()]


class Found:
    """The claims, and the definitions that they reach, each with what cites it first."""

    def __init__(self) -> None:
        self.claims = claims()
        self.files = {}
        for path in CRATES.glob("*/specs/**/*.antt"):
            crate, _, *parts = path.relative_to(CRATES).with_suffix("").parts
            self.files[crate, ".".join(parts)] = Specs(crate, ".".join(parts))
        self.reached: dict[Name, str] = {}
        open_ = []
        for crate in LIBRARIES:
            claimed = {part for it, _, name in self.claims if it == crate for part in name.split("::")}
            for where, text, scope in clauses(crate, claimed):
                open_ += [(name, where) for name in cited(text, scope)]
        while open_:
            name, by = open_.pop()
            specs = self.files[name.crate, name.file]
            meant = specs.scope.get(name.name, name)
            if meant != name:
                open_.append((meant, by))
            elif name not in self.reached:
                self.reached[name] = by
                text = "\n".join(specs.definitions.get(name.name, []))
                open_ += [(other, str(name)) for other in cited(text, specs.scope)]

    def faults(self) -> Iterator[str]:
        """What is wrong with the definitions, and the claims that aren't there."""
        for (crate, file), specs in sorted(self.files.items()):
            for name in specs.definitions:
                by = self.reached.get(Name(crate, file, name), "")
                if bool(by) == file.startswith("inner."):
                    yield f"{crate}/{file}.{name} is in the wrong folder, and cited by {by or 'no claim'}"
                if by and not specs.sentences[name]:
                    yield f"{crate}/{file}.{name} has no sentence, and is cited by {by}"
        for crate, part, name in self.claims:
            names = re.findall(
                r"\w+", "".join(it.read_text(encoding="utf-8") for it in (CRATES / crate).glob("src/**/*.rt"))
            )
            if not fnmatch.filter(names, name.rpartition("::")[2]):
                yield f"the claim {part} {name} of {crate} isn't there"


def main() -> None:
    found = Found()
    for crate in LIBRARIES:
        names = sorted(name for name in found.reached if name.crate == crate)
        lines = sum(len(found.files[crate, it.file].definitions.get(it.name, [])) for it in names)
        print(f"{crate}: {len(names)} definitions, {lines} lines")
        for name in names if "-v" in sys.argv else ():
            print(f"{name} by {found.reached[name]}")
    print(*found.faults(), sep="\n")


if __name__ == "__main__":
    main()
