"""The references of the calls are written of the sources as they are: man/*.3 by tools/make_references.py, and
docs/PYTHON_REFERENCE.md by tools/reference/write. Each call of crsdesk.h is in the first; each name that the Python package
offers, and each public one of its classes, is in the second, with the first line of its docstring."""
import ast
import re
from typing import Dict, Iterator, List, Tuple, Union

import documents
import make_references
import pytest
from support import ROOT, succeed

PAGES = make_references.pages()
CALLS = sorted(set(re.findall(r"\b(crsdesk_\w+)\(", make_references.HEADER.read_text(encoding="utf-8"))))
PACKAGE = ROOT / "python" / "src" / "crsdesk"
REFERENCE = (ROOT / "docs" / "PYTHON_REFERENCE.md").read_text(encoding="utf-8")


@pytest.mark.parametrize("path", sorted({*PAGES, *(f"man/{it.name}" for it in (ROOT / "man").glob("*.3"))}))
def test_page(path: str) -> None:
    assert (ROOT / path).read_text(encoding="utf-8") == PAGES.get(path), "run tools/make_references.py"


@pytest.mark.parametrize("name", CALLS)
def test_call(name: str) -> None:
    assert f".SS {name}\n" in PAGES["man/crsdesk.3"]


def test_python_reference() -> None:
    """Another version of Sphinx or pandoc writes another form, so only these are compared."""
    for name, version in re.findall(r"(sphinx-build|pandoc) ([\d.]+\d)", REFERENCE.split("\n")[0]):
        if not documents.is_there(f"{name}={version}"):
            pytest.skip(f"{name} {version} isn't there")
    written = succeed([ROOT / "tools" / "reference" / "write"])
    assert written == REFERENCE, "run tools/reference/write > docs/PYTHON_REFERENCE.md"


def body_of(module: str) -> List[ast.stmt]:
    return ast.parse((PACKAGE / f"{module}.py").read_text(encoding="utf-8")).body


def public_of(body: List[ast.stmt]) -> Dict[str, Union[ast.ClassDef, ast.FunctionDef]]:
    return {it.name: it for it in body if isinstance(it, (ast.ClassDef, ast.FunctionDef)) and it.name[0] != "_"}


def offered(module: str) -> Iterator[Tuple[str, str]]:
    """The heading and the docstring of each name in a module's __all__, and of each public one of its classes."""
    body = body_of(module)
    nodes = public_of(body)
    for it in body:
        if isinstance(it, ast.ImportFrom) and it.level == 1 and it.module:
            there = public_of(body_of(it.module))
            nodes.update({alias.name: there[alias.name] for alias in it.names if alias.name in there})
    (names,) = [it.value for it in body if isinstance(it, ast.Assign) and ast.unparse(it.targets[0]) == "__all__"]
    for name in ast.literal_eval(names):
        yield f"### {name}", (ast.get_docstring(nodes[name]) or "") if name in nodes else ""
        members = public_of(nodes[name].body) if isinstance(nodes.get(name), ast.ClassDef) else {}
        yield from ((f"#### {name}.{it}", ast.get_docstring(node) or "") for it, node in members.items())


def words(text: str) -> str:
    return " ".join(re.findall(r"\w+", re.sub(r"docs/(\w+)\.md", r"\1 \1.md", text)))


@pytest.mark.parametrize("module", ["__init__", "dask"])
def test_names(module: str) -> None:
    page = REFERENCE.split("\n## ")[1 if module == "__init__" else 2]
    for heading, docstring in offered(module):
        assert f"\n{heading}\n" in page
        section = page.partition(f"\n{heading}\n")[2].partition("\n#")[0]
        assert words(docstring.split("\n")[0]) in words(section), heading
