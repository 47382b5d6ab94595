"""The Python of the repository: its types, its form, and the docstrings of public names."""
from __future__ import annotations

import ast
import os
import pathlib
import re
from typing import Iterator, List

import pytest
from support import ROOT, run, succeed

PACKAGE = ROOT / "python"
SOURCES = PACKAGE / "src" / "crsdesk"
WITHOUT_PYTEST = ROOT / "tests" / "without_pytest" / "pytest.py"
# Lines that a type checker accepts, and lines that it doesn't, with a part of what it says.
TYPES = {
    'crsdesk.canon("x", "full")': "",
    'crsdesk.Catalogue("definition", keep_texts=True)': "",
    "crsdesk.same(crs, crs)": "",
    'crsdesk.Catalogue().add(crsdesk.Crs.from_file("a.wkt"))': "",
    "sorted([crs])": "",
    'crsdesk.canon("x", "ful")': "expected \"Literal['full', 'definition']\"",
    'crs.same(crs, "Full")': "expected \"Literal['full', 'definition']\"",
    'crsdesk.Catalogue("ful")': "expected \"Literal['full', 'definition']\"",
    "crsdesk.check(4326)": 'incompatible type "int"',
    'crsdesk.Crs("x", rules=crsdesk.Rules("y", b"z"))': "",
    'crsdesk.canon("x", rules=crsdesk.Rules.from_file("a.rules"))': "",
    'crsdesk.same(crs, crs, rules="UNCOUNTED[anchor]")': 'incompatible type "str"',
}


def all_python() -> List[pathlib.Path]:
    """The package, and all other Python of the repository."""
    folders = [ROOT / it for it in ("examples", "tests", "tools")]
    return [SOURCES, PACKAGE / "setup.py", ROOT / "install", *(it for folder in folders for it in folder.glob("*.py"))]


@pytest.mark.needs("mypy")
@pytest.mark.parametrize("kind", ["all", "without_pytest"])
def test_types(kind: str) -> None:
    """Each Python of the repository but for without_pytest, which is another module pytest."""
    if kind == "all" and not hasattr(pytest, "__version__"):
        pytest.skip("pytest isn't there")
    files = all_python() if kind == "all" else [WITHOUT_PYTEST]
    kept = ROOT / "out" / "mypy" / kind
    words = ["mypy", "--config-file", PACKAGE / "pyproject.toml", "--scripts-are-modules", "--cache-dir", kept]
    path = os.pathsep.join(str(ROOT / it) for it in ("python/src", "tests", "tools")) if kind == "all" else ""
    succeed([*words, *files], cwd=ROOT, env={**os.environ, "MYPYPATH": path})


@pytest.mark.needs("mypy")
def test_types_of_calls(tmp_path: pathlib.Path) -> None:
    lines = ["import crsdesk", 'crs = crsdesk.Crs("x")', *TYPES]
    (tmp_path / "calls.py").write_text("".join(f"{line}\n" for line in lines), encoding="utf-8")
    words = ["mypy", "--strict", "--cache-dir", os.devnull, tmp_path / "calls.py"]
    done = run(words, cwd=tmp_path, env={**os.environ, "MYPYPATH": str(PACKAGE / "src")})
    for number, (line, wanted) in enumerate(TYPES.items(), 3):
        said = [it for it in done.stdout.splitlines() if f"calls.py:{number}: error" in it]
        assert any(wanted in it for it in said) if wanted else not said, (line, done.stdout)


def evaluated(tree: ast.AST) -> Iterator[ast.AST]:
    """The nodes of a tree without those of annotations."""
    for name, value in ast.iter_fields(tree):
        if name not in ("annotation", "returns"):
            for node in value if isinstance(value, list) else [value]:
                if isinstance(node, ast.AST):
                    yield node
                    yield from evaluated(node)


@pytest.mark.parametrize("name", sorted(it.name for it in (ROOT / "tests").glob("*.py")))
def test_names_of_pytest(name: str) -> None:
    """Tests use only what without_pytest has too."""
    its = ast.parse(WITHOUT_PYTEST.read_text(encoding="utf-8")).body
    has = {it.name for it in its if isinstance(it, (ast.FunctionDef, ast.ClassDef))}
    has |= {
        target.id for it in its if isinstance(it, ast.Assign) for target in it.targets if isinstance(target, ast.Name)
    }
    nodes = [
        it
        for it in evaluated(ast.parse((ROOT / "tests" / name).read_text(encoding="utf-8")))
        if isinstance(it, ast.Attribute)
    ]
    assert {it.attr for it in nodes if isinstance(it.value, ast.Name) and it.value.id == "pytest"} <= has


@pytest.mark.needs("black")
def test_form() -> None:
    words = ["black", "--config", PACKAGE / "pyproject.toml", "--check", "-q"]
    succeed([*words, *all_python(), WITHOUT_PYTEST])


def test_modes() -> None:
    """What begins with #! may be run, and nothing else may."""
    folders = [ROOT / it for it in (".", "examples", "packaging/debian", "python", "tests", "tools")]
    for file in (it for folder in folders for it in folder.iterdir() if it.is_file()):
        assert (file.read_bytes()[:2] == b"#!") == os.access(file, os.X_OK), file.relative_to(ROOT)


def public_names() -> Iterator[str]:
    (exported,) = re.findall(r"__all__ = (\[.*?\])", (SOURCES / "__init__.py").read_text(encoding="utf-8"), re.S)
    names = ast.literal_eval(exported)
    for file in ("_crs.py", "_difference.py", "_refused.py", "_rules.py"):
        for node in ast.parse((SOURCES / file).read_text(encoding="utf-8")).body:
            if isinstance(node, (ast.ClassDef, ast.FunctionDef)) and node.name in names:
                yield f"{file}:{node.name}"


@pytest.mark.parametrize("place", public_names())
def test_docstring(place: str) -> None:
    file, _, name = place.partition(":")
    body = ast.parse((SOURCES / file).read_text(encoding="utf-8")).body
    (node,) = [it for it in body if isinstance(it, (ast.ClassDef, ast.FunctionDef)) and it.name == name]
    assert ast.get_docstring(node)
