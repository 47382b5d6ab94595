"""The commands, sessions, code and links that documents show (documents.py)."""
from __future__ import annotations

import html
import pathlib
import re
import sys
from typing import Tuple

import pytest
from documents import Block, Command, blocks_of, commands_of, leads, links_of, printed
from support import HERE, ROOT, succeed

EXAMPLES = ROOT / "crates" / "crs_surface" / "src" / "examples"
# tests/commands.md has commands that no page shows.
DOCUMENTS = [
    *(ROOT / it for it in ("README.md", "python/README.md", "tests/commands.md")),
    *sorted((ROOT / "docs").glob("*.md")),
]
BLOCKS = [block for path in DOCUMENTS for block in blocks_of(path)]
COMMANDS = [command for block in BLOCKS if block.kind == "console" for command in commands_of(block)]
CODE = [block for block in BLOCKS if block.kind == "rust" or " of=" in block.head]
# The documents whose sessions of Python test_python.py and test_dask.py run.
ELSEWHERE = ("PYTHON.md", "CLUSTER.md")
SESSIONS = [path for path in DOCUMENTS if path.name not in ELSEWHERE and "```pycon" in path.read_text(encoding="utf-8")]
LINKED = [*DOCUMENTS, ROOT / "CONTRIBUTING.md", ROOT / "CHANGELOG.md"]
LINKS = [(path, link) for path in LINKED for link in links_of(path)]
# Runs the session of a document, as far as what its blocks need is there.
SESSION = """
import pathlib, sys
from documents import blocks_of, hold_session
hold_session(it for it in blocks_of(pathlib.Path(sys.argv[1])) if it.kind == "pycon" and not it.lacks)
"""


# In a document's order, since commands read what others before them have written.
@pytest.mark.xdist_group("documents")
@pytest.mark.parametrize("command", COMMANDS, ids=str)
def test_command(command: Command, program: pathlib.Path, sqlite_extension: pathlib.Path) -> None:
    if command.block.lacks:
        pytest.skip(f"{command.block.lacks} isn't there")
    found = printed(command)
    assert found == command.wanted


@pytest.mark.parametrize("path", SESSIONS, ids=lambda it: str(it.name))
def test_session(path: pathlib.Path, library: pathlib.Path) -> None:
    if all(it.lacks for it in blocks_of(path) if it.kind == "pycon"):
        pytest.skip("what its blocks need isn't there")
    succeed([sys.executable, "-c", SESSION, path], cwd=HERE)


@pytest.mark.parametrize("block", CODE, ids=str)
def test_code(block: Block) -> None:
    files = [ROOT / block.head.partition(" of=")[2]] if " of=" in block.head else list(EXAMPLES.rglob("*.rt"))
    assert any(block.text in file.read_text(encoding="utf-8") for file in files)


def test_picture(program: pathlib.Path) -> None:
    """The lines of docs/explain.svg are what the command in it prints."""
    text = (ROOT / "docs" / "explain.svg").read_text(encoding="utf-8")
    (command,) = re.findall(r'class="command".*>\$ (.*)</text>', text)
    block = Block(ROOT / "docs" / "explain.svg", 1, "console", [f"$ {html.unescape(command)}"])
    lines = [html.unescape(it) for it in re.findall(r'class="out".*?>(.*)</text>', text)]
    words = html.unescape(command).replace(" crsdesk ", " ./crsdesk ")
    assert printed(Command(block, 1, words, "")).splitlines() == lines


@pytest.mark.parametrize("link", LINKS, ids=lambda it: f"{it[0].name}-{it[1]}")
def test_link(link: Tuple[pathlib.Path, str]) -> None:
    assert leads(*link)
