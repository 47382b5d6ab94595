"""The blocks of documents, and what they show.

In a block that begins with the line ```console, a line '$ COMMAND' is run by the shell in the repository's folder, with
the lines '> MORE' directly below it, and the lines up to the next command are what it must print on standard output. A
block that begins with the line ```console needs=TOOL[,TOOL..] is run where each TOOL is there, a program on the PATH,
as python3:MODULE a module of Python, as $NAME a variable of the environment, or a file of the repository, whose path
has a slash. TOOL=VERSION asks for a version that begins so, of a module by its __version__, of a program by what it prints
of itself: what other tools answer changes with their versions.

The blocks of a document that begin with ```pycon are one session of Python, whose answers must be those shown; needs=
is as above. A block that begins with ```rust is code that must be found, line by line, in a file of
crates/crs_surface/src/examples, which the gate proves and runs; one that begins with ```LANGUAGE of=FILE is code that
must be found so in that file of the repository. A link to a file of the repository must lead to one, and to a heading
or an anchor (<a id="NAME"></a>) of it where it names one.
"""
from __future__ import annotations

import doctest
import functools
import importlib.util
import os
import pathlib
import re
import shutil
import subprocess
from typing import Iterable, Iterator, List, NamedTuple, Optional

from support import ROOT


class Block(NamedTuple):
    """A fenced block: its document, the number of its first line inside, what its fence says, and its lines."""

    path: pathlib.Path
    start: int
    head: str
    lines: List[str]

    def __str__(self) -> str:
        return f"{self.path.name}:{self.start}"

    @property
    def kind(self) -> str:
        return self.head.split(" ")[0]

    @property
    def needs(self) -> List[str]:
        """The tools that its fence asks for."""
        return [tool for tool in self.head.partition("needs=")[2].split(",") if tool]

    @property
    def lacks(self) -> Optional[str]:
        """The first of these that isn't there."""
        return next((tool for tool in self.needs if not is_there(tool)), None)

    @property
    def text(self) -> str:
        return "\n".join(self.lines) + "\n"


class Command(NamedTuple):
    """A command of a block, its line's number, and the text that it must print."""

    block: Block
    number: int
    words: str
    wanted: str

    def __str__(self) -> str:
        return f"{self.block.path.name}:{self.number}"


def blocks_of(path: pathlib.Path) -> Iterator[Block]:
    head: Optional[str] = None
    start, lines = 0, list[str]()
    for number, line in enumerate(path.read_text(encoding="utf-8").split("\n"), 1):
        if line.startswith("```") and head is None:
            head, start, lines = line[3:], number + 1, []
        elif line.startswith("```"):
            yield Block(path, start, head or "", lines)
            head = None
        elif head is not None:
            lines.append(line)


def commands_of(block: Block) -> List[Command]:
    commands: List[Command] = []
    for number, line in enumerate(block.lines, block.start):
        if line.startswith("$ "):
            commands.append(Command(block, number, line[2:], ""))
        elif line.startswith("> ") and commands and not commands[-1].wanted:
            commands[-1] = commands[-1]._replace(words=f"{commands[-1].words}\n{line[2:]}")
        elif commands:
            commands[-1] = commands[-1]._replace(wanted=f"{commands[-1].wanted}{line}\n")
    return commands


def printed(command: Command, **environment: str) -> str:
    """What a command prints, with more of an environment."""
    words = ["sh", "-c", command.words]
    done = subprocess.run(
        words, cwd=ROOT, env={**os.environ, **environment}, stdout=subprocess.PIPE, timeout=600, check=False
    )
    return done.stdout.decode("utf-8", "replace")


def hold_session(blocks: Iterable[Block], least: int = 1, flags: int = 0) -> None:
    """The blocks are a session of Python at the root of the repository, of so many examples at least."""
    blocks, before = list(blocks), os.getcwd()
    text = "".join(f"{it.text}\n" for it in blocks)
    os.chdir(ROOT)
    try:
        test = doctest.DocTestParser().get_doctest(text, {}, blocks[0].path.name, None, 0)
        found = doctest.DocTestRunner(optionflags=doctest.ELLIPSIS | flags).run(test)
    finally:
        os.chdir(before)
    assert found.attempted >= least and found.failed == 0, found


def names_itself(program: str) -> str:
    """What a program prints of itself: projinfo has its version in the first line of its usage."""
    done = subprocess.run([program, "--version"], capture_output=True, check=False)
    if done.returncode:
        done = subprocess.run([program], capture_output=True, check=False)
    return (done.stdout + done.stderr).decode("utf-8", "replace")


@functools.lru_cache(maxsize=None)
def is_there(tool: str) -> bool:
    if tool.startswith("$"):
        return tool[1:] in os.environ
    if "/" in tool:
        return (ROOT / tool).exists()
    name, _, version = tool.rpartition(":")[2].partition("=")
    if ":" in tool:
        if not version or not importlib.util.find_spec(name):
            return importlib.util.find_spec(name) is not None
        return str(importlib.import_module(name).__version__).startswith(version)
    return shutil.which(name) is not None and version in (names_itself(name) if version else "")


def anchor_of(heading: str) -> str:
    """The name by which a heading is linked: its letters in lower case, with hyphens for spaces."""
    text = re.sub(r"`|\[([^\]]*)\]\([^)]*\)", r"\1", heading.lstrip("#").strip())
    return re.sub(r"[^\w\- ]", "", text.lower()).replace(" ", "-")


def without_blocks(path: pathlib.Path) -> str:
    return re.sub(r"^```.*?^```$", "", path.read_text(encoding="utf-8"), flags=re.S | re.M)


def links_of(path: pathlib.Path) -> List[str]:
    """The links of a document that lead into the repository."""
    links = re.findall(r"\]\(([^)\s]+)\)", re.sub(r"`[^`\n]*`", "", without_blocks(path)))
    return [link for link in links if not link.startswith(("https:", "http:", "mailto:"))]


def leads(path: pathlib.Path, link: str) -> bool:
    """Whether a document's link leads to a file, and to a heading of it where it names one."""
    name, _, anchor = link.partition("#")
    target = (path.parent / name).resolve() if name else path
    if not target.exists() or not anchor or target.suffix != ".md":
        return target.exists()
    text = without_blocks(target)
    headings = {anchor_of(line) for line in text.split("\n") if line.startswith("#")}
    return anchor in headings or f'<a id="{anchor}"></a>' in text
