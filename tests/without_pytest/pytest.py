"""What the tests need of pytest, for a machine that has none: `python3 -m pytest [FILE ..] [-k PART]`.

Each file of tests is shared by as many processes as there are processors, but for those whose tests are one group, which
one process runs. Options but -k are passed over.
"""
from __future__ import annotations

import collections
import concurrent.futures
import contextlib
import importlib
import inspect
import itertools
import os
import pathlib
import reprlib
import sys
import tempfile
import traceback
import types
from typing import Any, Callable, Dict, Iterator, List, NamedTuple, NoReturn, Tuple

TESTS = pathlib.Path(__file__).resolve().parent.parent


class Skipped(Exception):
    """Why a test isn't run."""


class Mark(NamedTuple):
    name: str
    args: Tuple[Any, ...]
    kwargs: Dict[str, Any]

    def __call__(self, *args: Any, **kwargs: Any) -> Any:
        """Marks a function, or takes arguments before."""
        if not (self.args or inspect.isfunction(args[0])):
            return Mark(self.name, args, kwargs)
        args[0].pytestmark = [*getattr(args[0], "pytestmark", []), self]
        return args[0]


class Marks:
    def __getattr__(self, name: str) -> Mark:
        return Mark(name, (), {})


mark = Marks()
TempPathFactory = MonkeyPatch = Any


def fixture(function: Any = None, *, scope: str = "function", autouse: bool = False, name: str = "") -> Any:
    def made(it: Any) -> Any:
        it.as_fixture = scope, autouse, name or it.__name__
        return it

    return made(function) if function else made


def skip(reason: str = "") -> NoReturn:
    raise Skipped(reason)


def fail(reason: str = "") -> NoReturn:
    raise AssertionError(reason)


def importorskip(name: str) -> Any:
    try:
        return __import__(name)
    except ImportError:
        raise Skipped(f"{name} isn't there") from None


class Folders:
    """tmp_path_factory, and where tmp_path is."""

    def __init__(self, folder: str) -> None:
        self.folder, self.numbers = pathlib.Path(folder), itertools.count()

    def mktemp(self, name: str) -> pathlib.Path:
        made = self.folder / f"{name}{next(self.numbers)}"
        made.mkdir()
        return made


class Patch:
    """monkeypatch."""

    def __init__(self) -> None:
        self.undone = contextlib.ExitStack()

    def setattr(self, target: Any, name: str, value: Any) -> None:
        self.undone.callback(setattr, target, name, getattr(target, name))
        setattr(target, name, value)

    def chdir(self, path: Any) -> None:
        self.undone.callback(os.chdir, os.getcwd())
        os.chdir(path)


class Item(NamedTuple):
    """A test, as conftest.py sees it."""

    name: str
    function: Callable[..., Any]
    marks: List[Mark]
    values: Dict[str, Any]

    def iter_markers(self, name: str) -> Iterator[Mark]:
        return (it for it in self.marks if it.name == name)

    def get_closest_marker(self, name: str) -> Any:
        return next(self.iter_markers(name), None)


def id_of(ids: Any, number: int, value: Any) -> str:
    if callable(ids):
        return str(ids(value))
    return str(ids[number]) if ids else str(value)


def items_of(module: types.ModuleType) -> Iterator[Item]:
    own = getattr(module, "pytestmark", [])
    for name, function in list(vars(module).items()):
        if name.startswith("test") and inspect.isfunction(function) and function.__module__ == module.__name__:
            marks = [*getattr(function, "pytestmark", []), *(own if isinstance(own, list) else [own])]
            rows: List[Tuple[str, Dict[str, Any]]] = [("", {})]
            for it in (it for it in marks if it.name == "parametrize"):
                names = [part.strip() for part in it.args[0].split(",")]
                cases = []
                for number, value in enumerate(it.args[1]):
                    given = dict(zip(names, value if len(names) > 1 else [value]))
                    cases.append((f"[{id_of(it.kwargs.get('ids'), number, value)}]", given))
                rows = [(f"{text}{more}", {**values, **given}) for text, values in rows for more, given in cases]
            for text, values in rows:
                yield Item(f"{module.__name__}.py::{name}{text}", function, marks, values)


class Fixtures:
    """The fixtures of a file and of conftest.py, each made once in its scope."""

    def __init__(self, modules: List[types.ModuleType], folders: Folders) -> None:
        every = [it for module in modules for it in vars(module).values() if hasattr(it, "as_fixture")]
        self.made = {it.as_fixture[2]: it for it in every}
        self.kept: Dict[str, Any] = {"tmp_path_factory": folders}
        self.folders, self.open = folders, contextlib.ExitStack()

    def value(self, name: str, own: Dict[str, Any], ends: contextlib.ExitStack) -> Any:
        if name in own or name in self.kept:
            return own[name] if name in own else self.kept[name]
        if name == "tmp_path":
            return own.setdefault(name, self.folders.mktemp("test"))
        if name == "monkeypatch":
            patch = Patch()
            ends.enter_context(patch.undone)
            return own.setdefault(name, patch)
        function = self.made[name]
        is_kept = function.as_fixture[0] != "function"
        place, ends = (self.kept, self.open) if is_kept else (own, ends)
        made = function(*(self.value(it, own, ends) for it in inspect.signature(function).parameters))
        if inspect.isgenerator(made):
            place[name] = next(made)
            ends.callback(lambda: next(made, None))
        else:
            place[name] = made
        return place[name]

    def run(self, item: Item) -> None:
        with contextlib.ExitStack() as ends:
            own = dict(item.values)
            for it in self.made.values():
                if it.as_fixture[1]:
                    self.value(it.as_fixture[2], own, ends)
            item.function(**{it: self.value(it, own, ends) for it in inspect.signature(item.function).parameters})


def tried(conftest: Any, fixtures: Fixtures, item: Item) -> Tuple[str, str]:
    """What came of a test, and what is told of it."""
    try:
        for it in item.iter_markers("skipif"):
            if it.args[0]:
                skip(it.kwargs["reason"])
        conftest.pytest_runtest_setup(item)
        fixtures.run(item)
    except Skipped as why:
        return "skipped", str(why)
    except BaseException as error:
        return "failed", f"{item.name}\n{traceback.format_exc()[-3000:]}{values_of(error)}"
    return "passed", ""


def values_of(error: BaseException) -> str:
    """The values of the function that raised an error, each in a line, cut off."""
    *_, (frame, _) = traceback.walk_tb(error.__traceback__)
    shown = reprlib.Repr()
    shown.maxstring = shown.maxother = 1000
    return "".join(f"    {name} = {shown.repr(value)}\n" for name, value in frame.f_locals.items())


class Share(NamedTuple):
    """The tests of a file whose number, divided by so many, leaves a rest; of these, those whose name has a part."""

    name: str
    part: str
    rest: int
    divisor: int


def shares_of(name: str, part: str) -> List[Share]:
    is_group = "xdist_group(" in (TESTS / f"{name}.py").read_text(encoding="utf-8")
    divisor = 1 if is_group else os.cpu_count() or 1
    return [Share(name, part, rest, divisor) for rest in range(divisor)]


def run_share(share: Share) -> List[Tuple[str, str]]:
    sys.path.insert(0, str(TESTS))
    name = share.name
    try:
        conftest = importlib.import_module("conftest")
        module = importlib.import_module(name)
    except Skipped as why:
        return [("skipped", str(why))] if share.rest == 0 else []
    except BaseException:
        return [("failed", f"{name}\n{traceback.format_exc()[-3000:]}")]
    with tempfile.TemporaryDirectory() as folder:
        fixtures = Fixtures([conftest, module], Folders(folder))
        items = [it for it in items_of(module) if share.part in it.name][share.rest :: share.divisor]
        found = list[Tuple[str, str]]()
        with fixtures.open:
            found += [tried(conftest, fixtures, item) for item in items]
        return found


def main(words: List[str]) -> int:
    part = words[words.index("-k") + 1] if "-k" in words else ""
    files = [pathlib.Path(it).stem for it in words if it.endswith(".py")]
    names = files or sorted(it.stem for it in TESTS.glob("test_*.py"))
    # What takes longest goes first: wrong bodies, and then the groups.
    shares = [it for name in names for it in shares_of(name, part)]
    shares.sort(key=lambda it: (it.name != "test_wrong_bodies", it.divisor > 1))
    stats: Dict[str, List[str]] = collections.defaultdict(list)
    with concurrent.futures.ProcessPoolExecutor(os.cpu_count()) as pool:
        for results in pool.map(run_share, shares):
            for result, told in results:
                stats[result].append(told)
                if result == "failed":
                    print(f"FAILED {told}", flush=True)
    for why, count in collections.Counter(stats["skipped"]).items():
        print(f"SKIPPED [{count}] {why}")
    # A run of no tests has failed too.
    failed = len(stats["failed"]) or int(not stats["passed"])
    print(f"{len(stats['passed'])} passed, {failed} failed")
    return 1 if failed else 0


if __name__ == "__main__":
    # The tests import this file by its name.
    import pytest

    sys.exit(pytest.main(sys.argv[1:]))
